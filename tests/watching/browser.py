"""A headless Chromium, told what to do through two pipes: one JSON message after another, each ended by a zero byte. Its mouse and keys are
those of a hand: the page cannot tell them apart."""
import base64
import json
import os
import select
import shutil
import subprocess
import tempfile
import time

SECONDS_TO_ANSWER = 180
KEYS = {"Tab": 9, "Enter": 13, "Escape": 27, " ": 32, "End": 35, "Home": 36, "ArrowLeft": 37, "ArrowUp": 38, "ArrowRight": 39,
        "ArrowDown": 40, "Backspace": 8}
TEXTS = {"Enter": "\r"}
NAMES = ("chromium", "chromium-browser", "google-chrome", "google-chrome-stable", "chrome")


def installed():
    """The first browser that is installed, or nothing."""
    return next(filter(None, map(shutil.which, NAMES)), None)


class Browser:
    """One page, of 1280 by 800 points."""

    def __init__(self, program):
        to_browser, self.written = os.pipe()
        self.read, from_browser = os.pipe()
        self.profile = tempfile.mkdtemp()
        words = [program, "--headless=new", "--no-sandbox", "--disable-gpu", "--window-size=1280,800", "--hide-scrollbars",
                 "--user-data-dir=" + self.profile, "--remote-debugging-pipe", "about:blank"]
        # The browser reads from descriptor 3 and writes to 4.
        shell = "exec 3<&%d 4>&%d; exec \"$@\"" % (to_browser, from_browser)
        self.process = subprocess.Popen(["sh", "-c", shell, "sh", *words], pass_fds=(to_browser, from_browser),
                                        stdin=subprocess.DEVNULL, stdout=subprocess.DEVNULL, stderr=subprocess.DEVNULL)
        os.close(to_browser)
        os.close(from_browser)
        self.last, self.rest, self.session, self.heard = 0, b"", None, []
        pages = self.ask("Target.getTargets")["targetInfos"]
        target = next(page["targetId"] for page in pages if page["type"] == "page")
        self.session = self.ask("Target.attachToTarget", targetId=target, flatten=True)["sessionId"]
        self.ask("Page.enable")
        self.show_as(1280, 800)

    def show_as(self, width, height, mobile=False):
        """Gives the page another size."""
        self.ask("Emulation.setDeviceMetricsOverride", width=width, height=height, deviceScaleFactor=1, mobile=mobile)

    def message(self, until):
        """The next message. What a page tells of itself may come again and again, so that there is an end by the clock."""
        while b"\0" not in self.rest:
            left = until - time.monotonic()
            more = os.read(self.read, 1 << 16) if left > 0 and select.select([self.read], [], [], left)[0] else b""
            if not more:
                raise RuntimeError("the browser does not answer")
            self.rest += more
        text, self.rest = self.rest.split(b"\0", 1)
        message = json.loads(text)
        if "method" in message:
            self.heard.append((message["method"], message.get("params", {})))
        return message

    def send(self, message):
        try:
            while message:
                message = message[os.write(self.written, message):]
        except BrokenPipeError:
            raise RuntimeError("the browser has ended") from None

    def ask(self, method, **parameters):
        """Sends a command and waits for its result; what else comes in between is passed over."""
        self.last += 1
        command = {"id": self.last, "method": method, "params": parameters}
        if self.session:
            command["sessionId"] = self.session
        self.send(json.dumps(command).encode() + b"\0")
        until = time.monotonic() + SECONDS_TO_ANSWER
        while True:
            answer = self.message(until)
            if answer.get("id") == self.last:
                if "error" in answer:
                    raise RuntimeError("%s: %s" % (method, answer["error"]["message"]))
                return answer["result"]

    def wait_for(self, event, since=0):
        """Waits till an event was heard, behind so many others."""
        until = time.monotonic() + SECONDS_TO_ANSWER
        while all(kind != event for kind, _ in self.heard[since:]):
            self.message(until)

    def open(self, path):
        self.visit("file://" + os.path.realpath(path))

    def visit(self, address):
        self.heard.clear()
        self.ask("Page.navigate", url=address)
        self.wait_for("Page.loadEventFired")

    def mouse(self, kind, x, y, **more):
        self.ask("Input.dispatchMouseEvent", type="mouse" + kind, x=x, y=y, **more)

    def click(self, x, y):
        self.drag([(x, y)])

    def drag(self, places):
        """Presses at the first place, goes to the others, and lets go at the last one."""
        self.mouse("Moved", *places[0])
        self.mouse("Pressed", *places[0], button="left", buttons=1, clickCount=1)
        for x, y in places[1:]:
            self.mouse("Moved", x, y, button="left", buttons=1)
        self.mouse("Released", *places[-1], button="left", buttons=0, clickCount=1)

    def key(self, name, shift=False):
        """Presses a key: one of KEYS, or a sign."""
        code, text = KEYS.get(name, ord(name[0].upper())), TEXTS.get(name, name if len(name) == 1 else "")
        for kind in ("keyDown", "keyUp"):
            words = {"text": text} if kind == "keyDown" and text else {}
            self.ask("Input.dispatchKeyEvent", type=kind, key=name, windowsVirtualKeyCode=code, modifiers=8 if shift else 0, **words)

    def write(self, text):
        self.ask("Input.insertText", text=text)

    def value(self, script):
        """The value of a script on the page, waited for where it is a promise."""
        result = self.ask("Runtime.evaluate", expression=script, awaitPromise=True, returnByValue=True)
        if "exceptionDetails" in result:
            raise RuntimeError(result["exceptionDetails"].get("exception", {}).get("description", "a script failed"))
        return result["result"].get("value")

    def picture(self, path, scale=1, size=(1280, 800)):
        clip = {"x": 0, "y": 0, "width": size[0], "height": size[1], "scale": scale}
        with open(path, "wb") as file:
            file.write(base64.b64decode(self.ask("Page.captureScreenshot", **({} if scale == 1 else {"clip": clip}))["data"]))

    def close(self):
        os.close(self.written)
        self.process.terminate()
        self.process.wait()
        os.close(self.read)
        shutil.rmtree(self.profile, ignore_errors=True)
