"""Faults of a mesh, shown where they are; walks drawn with the mouse and by keys alone; and how the page looks."""
import os
import runpy
import time

from pages import ROOT, Page

EXAMPLES = os.path.join(ROOT, "examples")
RED, SECONDS_TO_A_FILM, PHONE = (201, 42, 42), 60, (390, 844)
# Three triangles at one edge, and two tetrahedra apart.
BOOK = "OFF\n5 3 0\n0 0 0\n0 0 1\n1 0 0\n-1 1 0\n-1 -1 0\n3 0 1 2\n3 0 1 3\n3 0 1 4\n"
FOUR = ((0, 2, 1), (0, 1, 3), (1, 2, 3), (0, 3, 2))
APART = ("OFF\n8 8 0\n0 0 0\n1 0 0\n0 1 0\n0 0 1\n3 0 0\n4 0 0\n3 1 0\n3 0 1\n"
         + "".join("3 %d %d %d\n" % tuple(k + 4 * part for k in face) for part in (0, 1) for face in FOUR))
OPEN_APART = "OFF\n6 2 0\n0 0 0\n1 0 0\n0 1 0\n3 0 0\n4 0 0\n3 1 0\n3 0 1 2\n3 3 4 5\n"

# How red, green and blue the picture of the walks is in the middle of some vertices.
COLOUR = """new Promise((done) => setTimeout(() => {
  const [x, y] = page.picture.middle(%s), pen = page.space.canvas.getContext("2d");
  done([...pen.getImageData(Math.round(x) + %d, Math.round(y), 1, 1).data].slice(0, 3));
}, 150))"""


def is_red(page, vertices, aside=0):
    colour = page.value(COLOUR % (vertices, aside))
    return all(abs(one - two) < 40 for one, two in zip(colour, RED))


def faults(tests, browser):
    """The pinched vertex, the edge with three sides, the odd chain and vertices that are apart are marked, and said."""
    rows = ((os.path.join(EXAMPLES, "tetra-pinched.off"), "pinched at vertex 0", [0], 6, "ask-pinched"),
            (tests.file("book.off", BOOK), "0 and 1 has 3 sides", [0, 1], 0, "ask-three-sides"),
            (tests.file("open-apart.off", OPEN_APART), "the vertices 0 and 3", [3], 6, "ask-apart"))
    for mesh, said, vertices, aside, picture in rows:
        with Page(tests, browser, mesh) as page:
            tests.expect(said in page.text("what"), "of %s it says %r" % (mesh, page.text("what")))
            page.value("page.picker.lookAt(%d)" % vertices[0])
            tests.expect(is_red(page, vertices, aside), "%s: the fault at %r is not marked" % (mesh, vertices))
            tests.picture(page, picture)
    with Page(tests, browser, os.path.join(EXAMPLES, "tetra-pinched.off"), os.path.join(EXAMPLES, "cube.walks")) as page:
        tests.expect("are left out" in page.text("said") and page.walks() == [[], []], "of other walks it says %r" % page.text("said"))
    with Page(tests, browser, os.path.join(EXAMPLES, "plane6.off")) as page:
        links = page.value("page.picture.marks.chain")
        edges = [set(link[1:]) for link in links]
        tests.expect(len(links) > 1 and all(len(edge) == 2 for edge in edges), "the odd chain that is shown is %r" % links)
        tests.expect(is_red(page, links[0][1:]), "the odd chain is not marked")
        tests.picture(page, "ask-odd-chain")
    with Page(tests, browser, os.path.join(EXAMPLES, "annulus.off")) as page:
        marked = sorted(tuple(edge[:2]) for edge in page.value("page.picture.marks.edges"))
        wanted = [(0, 1), (0, 3), (1, 2), (2, 3), (4, 5), (4, 7), (5, 6), (6, 7)]
        tests.expect(marked == wanted, "the boundary that is marked is %r" % marked)


def counted(tests, browser):
    """The faces of a chain and the edges of a cocycle are shown with numbers that the judge of tests/homology accepts."""
    judged = runpy.run_path(os.path.join(ROOT, "tests", "homology"), run_name="judge")["judged"]
    path = os.path.join(EXAMPLES, "torus7.off")
    faces = [list(map(int, line.split()[1:])) for line in open(path, encoding="ascii") if line.startswith("3 ")]
    for name, head, kind in (("torus7-round", "CHAIN", "faces"), ("torus7-loop", "COCYCLE", "edges")):
        with Page(tests, browser, path, os.path.join(EXAMPLES, name + ".walks")) as page:
            walks = page.walks()
            page.ask("homology")
            shown, marked = page.value("page.answer.shown.entries"), page.value("page.picture.marks.%s" % kind)
            text = "%s %d\n%s" % (head, len(shown), "".join(" ".join(map(str, entry)) + "\n" for entry in shown))
            tests.expect(judged(faces, walks, text) == "accepted", "%s: what is shown is no certificate: %r" % (name, shown))
            named = [mark[0] if kind == "faces" else mark[:2] for mark in marked]
            tests.expect(named == [entry[0] if kind == "faces" else entry[:2] for entry in shown], "%s: marked are %r" % (name, named))
            tests.expect(page.value("page.picture.marks.numbers.length") == len(shown), "%s: not all numbers are shown" % name)
            tests.picture(page, "ask-%s" % head.lower())


def in_a_minute(tests, browser):
    """The steps of README.md, from the start of tools/ask to the end of a film that is played; no vertex of them is behind."""
    began = time.monotonic()
    with Page(tests, browser, os.path.join(EXAMPLES, "torus7.off")) as page:
        turned = page.value("[page.space.azimuth, page.space.elevation]")
        page.set(0, 4, 5)
        page.press("walk1")
        page.set(0, 1, 5)
        tests.expect(page.value("[page.space.azimuth, page.space.elevation]") == turned, "the mesh had to be turned for the steps")
        tests.expect(page.walks() == [[0, 4, 5], [0, 1, 5]], "the clicks made %r" % page.walks())
        tone, _ = page.ask("decide")
        tests.picture(page, "ask-page", scale=0.7)
        tests.expect(tone == "yes" and page.film_to_its_end("play") == "right", "the film that is played does not end well")
        tests.picture(page, "ask-film")
        took = time.monotonic() - began
        tests.expect(took < SECONDS_TO_A_FILM, "from the start to the end of a film it took %.0f s" % took)
        print("tests/ask: from the start of tools/ask to the end of a film %.1f s (load %.1f)" % (took, os.getloadavg()[0]))
        page.leave_film()
        for walk, text in ((0, "0 1 2 3"), (1, "0 3")):
            page.type(walk, text)
        tone, sentence = page.ask("decide")
        tests.expect(tone == "no" and sentence.startswith("Different"), "0 1 2 3 and 0 3 are told %r" % sentence)


def walks(tests, browser):
    """Clicks, drags, numbers, undo; and what cannot be done is said."""
    with Page(tests, browser, os.path.join(EXAMPLES, "ring.off")) as page:
        page.draw(0, 0, 5)
        tests.expect(len(page.walks()[0]) == 6, "from 0 to 5 it went %r" % page.walks()[0])
        page.set(5)
        tests.expect(page.text("said").endswith("stands at vertex 5 already."), "a second click says %r" % page.text("said"))
        page.browser.drag([page.where(5), middle(page.where(5), page.where(14)), page.where(14)])
        page.rested()
        tests.expect(page.walks()[0][-1] == 14, "the stop at 5 was dragged to 14, and the walk is %r" % page.walks()[0])
        page.press("undo")
        page.rested()
        tests.expect(page.walks()[0][-1] == 5, "a drag that is taken back leaves %r" % page.walks()[0])
        page.set(0)
        tests.expect("is closed, at vertex 0" in page.text("said"), "a click on the start says %r" % page.text("said"))
        page.press("decide")
        page.rested()
        tests.expect(page.text("said") == "The second walk has no vertex yet.", "without a second walk it says %r" % page.text("said"))
        typed(tests, page)
        asked_at_once(tests, page)
        box = page.value("(({ left, top }) => [left, top])(page.space.canvas.getBoundingClientRect())")
        page.browser.click(box[0] + 5, box[1] + 5)
        page.rested()
        tests.expect("no vertex there" in page.text("said"), "a click beside the mesh says %r" % page.text("said"))
    with Page(tests, browser, tests.file("apart.off", APART)) as page:
        page.draw(0, 0, 5)
        tests.expect("they lie in two components" in page.text("said") and page.walks()[0] == [0], "two components: %r" % page.text("said"))
        page.draw(1, 5)
        tone, sentence = page.ask("decide")
        tests.expect(tone == "refused" and "start at different vertices" in sentence, "walks in two components: %r" % sentence)


def typed(tests, page):
    """Walks by their numbers, with a gap that a way fills, and with what is no number."""
    rows = (("0 1 2", [0, 1, 2], "two darts"), ("0, 3", [0, 1, 2, 3], "a shortest way was put"), ("0 x", None, "is no number"),
            ("0 99", None, "No face names"))
    for text, wanted, said in rows:
        page.type(1, text)
        tests.expect(said in page.text("said"), "%r typed says %r" % (text, page.text("said")))
        tests.expect(wanted is None or page.walks()[1] == wanted, "%r typed is the walk %r" % (text, page.walks()[1]))


def asked_at_once(tests, page):
    """A question right behind the last number is about what was typed, and is not asked where that is no walk."""
    page.write(1, "0 6")
    tone, _ = page.ask("decide")
    tests.expect(page.walks()[1][-1] == 6 and tone == "refused", "asked at once it says %r of %r" % (page.text("sentence"), page.walks()))
    page.write(1, "0 99")
    page.press("decide")
    page.rested()
    said = page.text("said")
    tests.expect("No face names the vertex 99" in said, "asked of no walk it says %r" % said)
    tests.expect(page.value("document.getElementById('numbers1').ariaInvalid") == "true", "what is no walk is not marked")


def hidden(tests, browser):
    """A click on the number of a vertex that is behind sets nothing, and says so."""
    with Page(tests, browser, os.path.join(EXAMPLES, "torus7.off")) as page:
        behind = page.value("[...page.mesh.used].filter((vertex) => !page.picker.sees(vertex))")
        said = []
        for vertex in behind:
            box = page.value("(({ left, top }) => [left, top])(page.space.canvas.getBoundingClientRect())")
            place = page.value("[page.space.x[%d] / page.space.scale, page.space.y[%d] / page.space.scale]" % (vertex, vertex))
            page.browser.click(box[0] + place[0], box[1] + place[1])
            page.rested()
            said.append(page.text("said"))
        tests.expect("Vertex 6 is behind: turn the mesh." in said, "clicks on the vertices %r, which are behind, said %r" % (behind, said))


def coordinates(tests, browser):
    """Very large and very small coordinates put the vertices where others do, and are not squared as they are."""
    text = open(os.path.join(EXAMPLES, "exercises", "torus.off"), encoding="ascii").read().split("\n")
    seen = []
    for scale in (1, 1e-200, 1e200):
        points = [" ".join("%r" % (scale * float(word)) for word in line.split()) for line in text[2:202]]
        with Page(tests, browser, tests.file("scaled.off", "\n".join(text[:2] + points + text[202:]))) as page:
            seen.append(page.value("[...page.space.shape.points].map((x) => Math.round(1000 * x))"))
    tests.expect(seen[0] == seen[1] == seen[2] and max(seen[0]) > 900, "where the vertices stand depends on the scale")


def middle(one, two):
    return [(a + b) / 2 for a, b in zip(one, two)]


def keys(tests, browser):
    """By keys alone: two walks on the cube, a question, the film to its end, and what is said of it all."""
    with Page(tests, browser, os.path.join(EXAMPLES, "cube.off")) as page:
        focus(page, "space")
        keys_pressed(page, "Enter", "Enter", "ArrowRight", "Enter", "ArrowDown", "ArrowLeft", "Enter", "c")
        keys_pressed(page, "2", "Home", "Enter", "ArrowLeft", "Enter", "ArrowDown", "Enter", "c")
        tests.expect("is closed" in page.text("said"), "the keys say %r" % page.text("said"))
        keys_pressed(page, "End", "ArrowUp")
        tests.expect("with the neighbours" in page.text("said"), "the keys say %r" % page.text("said"))
        walks_drawn = page.walks()
        ends = {walk[place] for walk in walks_drawn for place in (0, -1)}
        are_apart = min(map(len, walks_drawn)) > 2 and walks_drawn[0] != walks_drawn[1]
        tests.expect(len(ends) == 1 and are_apart, "the keys drew %r" % walks_drawn)
        tests.picture(page, "ask-keys")
        page.browser.key("Backspace")
        page.rested()
        tests.expect(page.walks() != walks_drawn, "Backspace took nothing back")
        page.browser.key("c")
        turn = page.value("page.space.azimuth")
        page.browser.key("ArrowLeft", shift=True)
        tests.expect(page.value("page.space.azimuth") < turn, "Shift with an arrow did not turn the mesh")
        page.value("page.space.magnify(8), page.picker.lookAt(6)")
        inside = page.value("(page.space.paint(), [page.space.x[6], page.space.y[6]])")
        tests.expect(all(0 < place < 900 for place in inside), "a vertex that is looked at is at %r" % inside)
        focus(page, "space")
        page.browser.key("0")
        tests.expect(page.value("[page.space.zoom, ...page.space.aside].join()") == "1,0,0", "the key 0 does not show the whole mesh")
        focus(page, "decide")
        page.browser.key("Enter")
        page.wait("page.answer")
        tests.expect(page.text("sentence").startswith("Homotopic"), "by keys it says %r" % page.text("sentence"))
        focus(page, "play")
        page.browser.key("Enter")
        inside = "document.getElementById('film').contentDocument"
        page.wait("%s?.activeElement?.id === 'play'" % inside)
        page.browser.key("End")
        page.wait("['right', 'wrong'].includes(%s.getElementById('verdict').className)" % inside)
        tests.expect(page.value("%s.getElementById('verdict').className" % inside) == "right", "by keys the film does not end well")
        page.browser.key("Escape")
        page.wait("!document.getElementById('theatre').open")
        tests.expect(page.value("document.activeElement.id") == "play", "behind the film the keys are elsewhere")
        labelled = page.value("""[...document.querySelectorAll("button, input, canvas, iframe, a")].every((one) => one.textContent.trim() ||
          one.ariaLabel || one.title || one.labels?.length || one.ariaHidden === "true")""")
        tests.expect(labelled, "something on the page has no words for a screen reader")
        # What is to be read out when it appears stands in a part of the page that is always there.
        heard = page.value("""["answer", "busy"].every((id) =>
          document.getElementById(id).parentElement.matches("[aria-live], [role=status]"))""")
        tests.expect(heard, "an answer, or what takes long, is not read out")
        nodes = page.browser.ask("Accessibility.getFullAXTree")["nodes"]
        told = [node["description"]["value"] for node in nodes if node.get("role", {}).get("value") == "application"]
        tests.expect(len(told) == 1 and "arrow keys" in told[0], "of the mesh a screen reader says %r" % told)


def keys_pressed(page, *names):
    for name in names:
        page.browser.key(name)
        page.rested()


def focus(page, name):
    """Goes with Tab to an element."""
    for _ in range(40):
        if page.value("document.activeElement.id") == name:
            return
        page.browser.key("Tab")
    raise RuntimeError("Tab never comes to %s" % name)


# How far the picture by WebGL and that by the pen are apart, each colour of each point on the average, and how much there is to see.
APART_PAINTED = """(() => {
  GlPainter.prototype.takes = () => 0;
  page.space.canvas.width = 0;
  page.show(page.space.shape);
  const { space } = page, painted = () => {
    const pen = Object.assign(document.createElement("canvas"), { width: 120, height: 80 }).getContext("2d");
    pen.drawImage(space.still, 0, 0, 120, 80);
    return pen.getImageData(0, 0, 120, 80).data;
  };
  const name = space.painter.constructor.name;
  space.paint();
  space.painter.paint(space, false);
  const one = painted();
  space.painter.giveUp?.(space);
  Object.assign(space, { stale: true, turnedAt: -1e6 });
  space.paint();
  const two = painted(), sum = (of) => one.reduce((all, _, k) => all + of(k), 0) / one.length;
  return [name, space.painter.constructor.name, sum((k) => Math.abs(one[k] - two[k])), sum((k) => two[k])];
})()"""


def painters(tests, browser):
    """WebGL and the pen paint alike; and where WebGL is lost the pen goes on."""
    with Page(tests, browser, os.path.join(EXAMPLES, "exercises", "mug.off")) as page:
        first, second, apart, whole = page.value(APART_PAINTED)
        if first == "PenPainter":
            print("tests/ask: the painters were not compared, since the browser has no WebGL")
        tests.expect(second == "PenPainter" and whole > 20 and apart < 4, "WebGL and the pen are %.1f apart, of %.1f" % (apart, whole))


def changed(tests, browser):
    """Where the mesh file changes behind the page, nothing is answered of the new one."""
    with open(os.path.join(EXAMPLES, "cube.off"), encoding="ascii") as file:
        path = tests.file("changing.off", file.read())
    with Page(tests, browser, path) as page:
        for walk in (0, 1):
            page.draw(walk, 0, 1)
        with open(path, "a", encoding="ascii") as file:
            file.write("# another line\n")
        page.press("decide")
        page.wait("document.getElementById('said').textContent.includes('answer')")
        tests.expect("has changed since" in page.text("said"), "of a mesh that has changed it says %r" % page.text("said"))


def looks(tests, browser):
    """In the dark the ground is dark and the words light; at a phone's width nothing is wider than the window."""
    with Page(tests, browser, "--exercise", "5") as page:
        browser.ask("Emulation.setEmulatedMedia", features=[{"name": "prefers-color-scheme", "value": "dark"}])
        ground, ink = page.value("""["backgroundColor", "color"].map((name) =>
          getComputedStyle(document.body)[name].match(/[0-9]+/g).reduce((sum, part) => sum + Number(part), 0) / 3)""")
        tests.expect(ground < 60 and ink > 190, "in the dark the ground is %d and the ink %d" % (ground, ink))
        tests.picture(page, "ask-dark")
        browser.ask("Emulation.setEmulatedMedia", features=[{"name": "prefers-color-scheme", "value": "light"}])
        browser.ask("Emulation.setDeviceMetricsOverride", width=PHONE[0], height=PHONE[1], deviceScaleFactor=2, mobile=True)
        page.value("new Promise((done) => setTimeout(done, 300))")
        tests.picture(page, "ask-phone", PHONE)
        wide = page.value("document.documentElement.scrollWidth")
        tests.expect(wide <= PHONE[0], "at a phone's width the page is %d wide" % wide)
        small = page.value("[...document.querySelectorAll('button')].filter((one) => one.offsetHeight && one.offsetHeight < 30).length")
        tests.expect(small == 0, "%d buttons are too small for a finger" % small)
        browser.ask("Emulation.setDeviceMetricsOverride", width=1280, height=800, deviceScaleFactor=1, mobile=False)
