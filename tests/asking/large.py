"""Large meshes: how long they take to open, to find a way, and to turn, by the clock."""
import math
import os
import time

from pages import Page

SECONDS_FOR_A_WAY, TRIES = 0.2, 5


def torus_text(rows, columns, is_cut):
    """A torus of quads, or of twice as many triangles."""
    lines = ["OFF", "%d %d 0" % (rows * columns, rows * columns * (2 if is_cut else 1))]
    for i in range(rows):
        for j in range(columns):
            along, about = 2 * math.pi * i / rows, 2 * math.pi * j / columns
            out = 1 + 0.45 * math.cos(about)
            lines.append("%.6f %.6f %.6f" % (out * math.cos(along), out * math.sin(along), 0.45 * math.sin(about)))
    for i in range(rows):
        for j in range(columns):
            p, q = i * columns + j, (i + 1) % rows * columns + j
            s, r = i * columns + (j + 1) % columns, (i + 1) % rows * columns + (j + 1) % columns
            lines += ["3 %d %d %d" % (p, q, r), "3 %d %d %d" % (p, r, s)] if is_cut else ["4 %d %d %d %d" % (p, q, r, s)]
    return "\n".join(lines) + "\n"


def left_out(tests, browser):
    """A mesh without coordinates that is too large to be laid out has no picture, and is asked about by numbers all the same."""
    lines = torus_text(100, 70, False).split("\n")
    lines[2:7002] = ["0 0 0"] * 7000
    with Page(tests, browser, tests.file("flat.off", "\n".join(lines))) as page:
        said = page.text("nothing")
        tests.expect("more than 6,000 vertices, or 40,000 lines, is not laid out" in said, "it says %r" % said)
        for walk in (0, 1):
            page.type(walk, "0 3 70")
        tone, sentence = page.ask("decide")
        tests.expect(tone == "yes" and len(page.walks()[0]) == 8, "by numbers it says %r of %r" % (sentence, page.walks()))


def film_made(tests, browser):
    """A film that takes seconds to be made, since its mesh is laid out by it, is told meanwhile."""
    lines = torus_text(64, 64, False).split("\n")
    lines[2:4098] = ["0 0 0"] * 4096
    with Page(tests, browser, tests.file("flat.off", "\n".join(lines))) as page:
        for walk, text in ((0, "0 1 65"), (1, "0 64 65")):
            page.type(walk, text)
        tone, sentence = page.ask("decide")
        tests.expect(tone == "yes", "across a quad it says %r" % sentence)
        page.press("play")
        page.wait("document.getElementById('filming').textContent.startsWith('The film is made.')")
        page.wait("document.getElementById('film').contentDocument?.getElementById('end')")
        page.wait("!document.getElementById('filming').textContent")


TURN = """new Promise((done) => {
  const start = performance.now();
  let frames = 0;
  const look = (now) => {
    page.space.turn(0.02, 0);
    frames++;
    if (now - start < 3000) requestAnimationFrame(look);
    else done((1000 * frames) / (now - start));
  };
  requestAnimationFrame(look);
})"""


def opened(tests, browser):
    """1,000,000 triangles, and 4,000,000 sides."""
    for name, columns, is_cut, what in (("triangles.off", 500, True, "1,000,000 triangles"), ("sides.off", 1000, False, "4,000,000 sides")):
        path, began = tests.file(name, torus_text(1000, columns, is_cut)), time.monotonic()
        with Page(tests, browser, path) as page:
            took = time.monotonic() - began
            tests.expect("genus 1" in page.text("what"), "of %s it says %r" % (what, page.text("what")))
            far = page.value("page.mesh.first.length >> 1")
            ways = [way_took(page, far - 7 * k) for k in range(TRIES)]
            frames, painter = page.value(TURN), page.value("page.space.painter.constructor.name")
            print("tests/ask: %s: open in %.1f s, a way over half of it in %.3f s, %.1f frames a second by %s (load %.1f)"
                  % (what, took, min(ways), frames, painter, os.getloadavg()[0]))
            tests.expect(not is_cut or min(ways) <= SECONDS_FOR_A_WAY, "on %s a way took %.3f s" % (what, min(ways)))
            asked(tests, page, far, what)
            stopped(tests, page, far)
        os.remove(path)


def stopped(tests, page, far):
    """Ways that take long to be found are told, and can be stopped."""
    page.type(0, "0 1")
    page.value("document.getElementById('numbers0').value = '%s'; page.type(0), 0" % (" 0 %d" % far * 2000))
    page.wait("!document.getElementById('busy').hidden")
    tests.expect("Ways are searched" in page.text("doing"), "of ways that take long it says %r" % page.text("doing"))
    page.press("stop")
    page.rested()
    tests.expect("was stopped" in page.text("said") and page.walks()[0] == [0, 1], "behind a stop it says %r" % page.text("said"))


def long_walk(tests, browser):
    """A walk of 1,000,000 darts, row by row over the mesh, is shown and asked about."""
    mesh, darts = tests.file("triangles.off", torus_text(1000, 500, True)), 1_000_000
    walk = [k // 501 % 1000 * 500 + (k // 501 + k % 501) % 500 for k in range(darts + 1)]
    walks = tests.file("long.walks", "%s\n%d %d\n" % (" ".join(map(str, walk)), walk[0], walk[1]))
    with Page(tests, browser, mesh, walks) as page:
        tests.expect(page.text("darts0") == "1,000,000 darts", "of a walk of 1,000,000 darts it says %r" % page.text("darts0"))
        frames, began = page.value(TURN), time.monotonic()
        tone, sentence = page.ask("homology")
        print("tests/ask: a walk of 1,000,000 darts: %.1f frames a second, an answer in %.1f s (load %.1f)"
              % (frames, time.monotonic() - began, os.getloadavg()[0]))
        tests.expect(tone == "refused" and "end at different vertices" in sentence, "of a walk of 1,000,000 darts it says %r" % sentence)
    os.remove(mesh)


def asked(tests, page, far, what):
    """The mesh is too large for a certificate, and is answered of all the same."""
    page.draw(0)
    page.type(0, "%d %d %d" % (far, far + 3, far))
    page.type(1, str(far))
    tone, sentence = page.ask("decide")
    said = "of %s it answers %r, and %r" % (what, sentence, page.text("why"))
    tests.expect(tone == "yes" and "16,384 are the most" in page.text("why"), said)
    page.type(1, str(far + 1))
    tone, sentence = page.ask("decide")
    tests.expect(tone == "refused" and "start at different" in sentence, "of %s it answers %r" % (what, sentence))


def way_took(page, vertex):
    """How many seconds the search for a way from vertex 0 took."""
    page.value("page.change(() => (page.drawing.set(0, new Walk([0])), ''))")
    page.value("page.extend(%d)" % vertex)
    return page.value("page.wayTook") / 1000
