"""Starts tools/ask, and works its page with the hands of a browser."""
import json
import os
import signal
import subprocess
import sys

ROOT = os.path.dirname(os.path.dirname(os.path.dirname(os.path.realpath(__file__))))
ASK = os.path.join(ROOT, "tools", "ask")
IS_READY = "document.body.dataset.ready === 'yes' || !document.getElementById('nothing').hidden"
# Where a vertex is in the window, with the mesh turned till it is seen.
WHERE = """(() => {
  const { space, picker } = page, box = space.canvas.getBoundingClientRect();
  picker.lookAt(%d);
  space.paint();
  return [box.left + space.x[%d] / space.scale, box.top + space.y[%d] / space.scale];
})()"""


def start(*words):
    """tools/ask with some words, started in the top folder, which opens no browser; and the address that it prints, or nothing."""
    near = [os.path.relpath(word, ROOT) if word.startswith(ROOT + os.sep) else word for word in words]
    command = [sys.executable, ASK, "--no-browser", *near]
    process = subprocess.Popen(command, stdout=subprocess.PIPE, stderr=subprocess.PIPE, text=True, cwd=ROOT)
    line = process.stdout.readline().split()
    return process, line[1] if len(line) > 1 else None


class Page:
    """The page of one start of tools/ask, which is ended with it: by Ctrl-C, or, where it is to end by itself, by nothing."""

    ends_by_itself = False

    def __init__(self, tests, browser, *words):
        self.tests, self.browser = tests, browser
        self.process, self.address = start("--program", tests.program, "--to", tests.scratch.name, *words)
        if not self.address:
            raise RuntimeError("tools/ask %s: %s" % (" ".join(words), self.process.stderr.read()))
        browser.visit(self.address)
        self.wait(IS_READY)

    def __enter__(self):
        return self

    def __exit__(self, *_):
        self.browser.visit("about:blank")
        if not self.ends_by_itself:
            self.process.send_signal(signal.SIGINT)
        self.tests.expect(self.process.wait(timeout=30) == 0, "tools/ask ended with %r behind its page" % self.process.returncode)
        self.process.stdout.close()
        self.process.stderr.close()

    def value(self, script):
        return self.browser.value(script)

    def wait(self, condition):
        """Waits till a condition holds on the page."""
        self.value("new Promise((done) => { const look = () => (%s ? done() : setTimeout(look, 20)); look(); })" % condition)

    def load_anew(self):
        heard = len(self.browser.heard)
        self.browser.ask("Page.reload")
        self.browser.wait_for("Page.loadEventFired", heard)
        self.wait(IS_READY)

    def rested(self):
        """Waits till the walks are as they were asked for, and painted."""
        self.value("Promise.resolve(page.changing).then(() => new Promise((done) => setTimeout(done, 60)))")

    def text(self, name):
        return self.value("document.getElementById('%s').textContent" % name)

    def walks(self):
        return json.loads(self.value("JSON.stringify(page.drawing.walks.map((walk) => walk.vertices()))"))

    def press(self, name):
        """Clicks the middle of an element, once it is seen."""
        self.wait("document.getElementById('%s').checkVisibility()" % name)
        place = self.value("""(() => {
          const element = document.getElementById('%s');
          element.scrollIntoView({ block: "nearest" });
          const box = element.getBoundingClientRect();
          return [box.left + box.width / 2, box.top + box.height / 2];
        })()""" % name)
        self.browser.click(*place)

    def where(self, vertex):
        return self.value(WHERE % (vertex, vertex, vertex))

    def look(self, around, up):
        """Turns the mesh so that it is seen from a side, in degrees."""
        self.value("""(([azimuth, elevation]) => {
          Object.assign(page.space, { azimuth, elevation });
          page.space.change();
        })([%d, %d].map((angle) => (angle * Math.PI) / 180))""" % (around, up))

    def set(self, *vertices):
        """Clicks vertices on the mesh, one behind the other."""
        for vertex in vertices:
            self.browser.click(*self.where(vertex))
            self.rested()

    def draw(self, walk, *vertices):
        self.press("walk%d" % walk)
        self.press("clear")
        self.rested()
        self.set(*vertices)

    def write(self, walk, text):
        """Writes into the field of a walk, and stays there."""
        self.value("document.getElementById('numbers%d').value = ''" % walk)
        self.press("numbers%d" % walk)
        self.browser.write(text)

    def type(self, walk, text):
        """Writes the numbers of a walk into its field."""
        self.write(walk, text)
        self.browser.key("Enter")
        self.rested()

    def ask(self, question):
        """Presses the button of a question, and gives the sentence and how it is told."""
        self.press(question)
        self.wait("page.answer && page.answer.question === '%s' && !document.getElementById('%s').disabled" % (question, question))
        return self.value("page.answer.tone"), self.text("sentence")

    def film_to_its_end(self, button="end"):
        """Opens the film, clicks a button of it, by which it goes to its end or plays, and gives what it says at its end."""
        self.press("play")
        inside = "document.getElementById('film').contentDocument"
        self.wait("%s && %s.readyState === 'complete' && %s.getElementById('end')" % (inside, inside, inside))
        place = self.value("""(() => {
          const frame = document.getElementById("film").getBoundingClientRect(), box = %s.getElementById("%s").getBoundingClientRect();
          return [frame.left + box.left + box.width / 2, frame.top + box.top + box.height / 2];
        })()""" % (inside, button))
        self.browser.click(*place)
        self.wait("['right', 'wrong'].includes(%s.getElementById('verdict').className)" % inside)
        return self.value("%s.getElementById('verdict').className" % inside)

    def leave_film(self):
        self.press("leave")
        self.wait("!document.getElementById('theatre').open")
