"""WebKit, the engine of Safari, in its small browser for GTK, driven by WebDriver with the standard
library alone. It has the calls of tools/check/browser.py that tools/check/playground_browser.py makes.

The Debian packages webkit2gtk-driver and xvfb have it."""

import base64
import glob
import http.client
import json
import os
import shutil
import socket
import subprocess
import tempfile
import time

from firefox import KEYS

SECONDS = 60
BROWSERS = "/usr/lib/*/webkit2gtk-4.*/MiniBrowser"
ELEMENT = "element-6066-11e4-a52e-4f735466cecf"  # what WebDriver calls a reference to an element
ANSWER = """const end = arguments[arguments.length - 1];
(async () => JSON.stringify(await (%s)) ?? "null")()
  .then(text => end([true, text]), fault => end([false, String(fault?.stack ?? fault)]));"""
NOTE_ERRORS = """(() => { globalThis.errorsTold = [];
  addEventListener("error", it => errorsTold.push(it.message));
  addEventListener("unhandledrejection", it => errorsTold.push(String(it.reason))); })()"""


def find():
    """The browser's program, or None where it, its driver or a screen is not there."""
    found = sorted(glob.glob(BROWSERS))
    return found[-1] if found and shutil.which("WebKitWebDriver") and shutil.which("Xvfb") else None


def free_port():
    with socket.socket() as free:
        free.bind(("127.0.0.1", 0))
        return free.getsockname()[1]


class Screen:
    """A screen of its own, that nobody sees."""

    def __init__(self):
        number, told = os.pipe()
        words = ["Xvfb", "-displayfd", str(told), "-screen", "0", "1400x1000x24", "-nolisten", "tcp"]
        self.process = subprocess.Popen(words, pass_fds=[told], stderr=subprocess.DEVNULL)
        os.close(told)
        with os.fdopen(number) as it:
            self.name = f":{it.readline().strip()}"

    def close(self):
        self.process.terminate()
        self.process.wait(SECONDS)


class Browser:
    """A browser with one page."""

    def __init__(self, width=1280, height=720):
        self.folder, self.screen, port = tempfile.TemporaryDirectory(), Screen(), free_port()
        env = {**os.environ, "DISPLAY": self.screen.name, "HOME": self.folder.name}
        if os.geteuid() == 0:
            env["WEBKIT_DISABLE_SANDBOX_THIS_IS_DANGEROUS"] = "1"
        how = {"stdout": subprocess.DEVNULL, "stderr": subprocess.DEVNULL, "env": env}
        self.process = subprocess.Popen(["WebKitWebDriver", f"--port={port}"], **how)
        self.line = http.client.HTTPConnection("127.0.0.1", port, timeout=SECONDS)
        self.wait_for_driver()
        options = {"binary": find(), "args": ["--automation"]}
        asked = {"capabilities": {"alwaysMatch": {"webkitgtk:browserOptions": options}}}
        made = self.call("POST", "/session", asked)
        self.about, self.session = made["capabilities"], f"/session/{made['sessionId']}"
        limits = {"script": 1000 * SECONDS, "pageLoad": 1000 * SECONDS}
        self.ask("timeouts", limits)
        self.ask("window/rect", {"width": width, "height": height})

    def wait_for_driver(self):
        for _ in range(SECONDS * 10):
            try:
                self.line.connect()
                return
            except OSError:
                time.sleep(.1)
        raise TimeoutError("the driver does not answer")

    def call(self, method, path, words=None):
        """What the driver answers. Raises RuntimeError where it refuses."""
        body = None if words is None else json.dumps(words)
        self.line.request(method, path, body, {"Content-Type": "application/json"})
        said = json.loads(self.line.getresponse().read())["value"]
        if isinstance(said, dict) and "error" in said:
            raise RuntimeError(f"{path}: {said['error']}: {said.get('message')}")
        return said

    def ask(self, path, words):
        return self.call("POST", f"{self.session}/{path}", words)

    def open(self, address):
        self.ask("url", {"url": address})
        self.js(NOTE_ERRORS)

    @property
    def errors(self):
        return self.js("globalThis.errorsTold ?? []")

    def js(self, text):
        """What an expression is, as JSON has it."""
        script = ANSWER % text.strip().rstrip(";")
        is_right, said = self.ask("execute/async", {"script": script, "args": []})
        if not is_right:
            raise RuntimeError(said)
        return json.loads(said)

    def click(self, element, shift=False, dx=.5, dy=.5):
        """Clicks on an element, a part of its width from the left and of its height from above."""
        x, y = self.js(f"(e => {{ const r = e.getBoundingClientRect();"
                       f" return [r.x + r.width * {dx}, r.y + r.height * {dy}]; }})({element})")
        moves = [{"type": "pointerMove", "x": round(x), "y": round(y), "duration": 0},
                 {"type": "pointerDown", "button": 0}, {"type": "pointerUp", "button": 0}]
        held = [self.held("keyDown", "Shift")] if shift else []
        self.act([{"type": "pointer", "id": "mouse", "actions": moves}, *held])
        if shift:
            self.act([self.held("keyUp", "Shift")])

    def act(self, sources):
        self.ask("actions", {"actions": sources})

    @staticmethod
    def held(kind, name):
        return {"type": "key", "id": "keys", "actions": [{"type": kind, "value": KEYS[name]}]}

    def press(self, *names):
        """Presses a key, with those before it held."""
        values = [KEYS.get(it, it) for it in names]
        acts = [{"type": "keyDown", "value": it} for it in values]
        acts += [{"type": "keyUp", "value": it} for it in reversed(values)]
        self.act([{"type": "key", "id": "keys", "actions": acts}])

    def give_file(self, selector, path):
        """Gives a field for files one of them."""
        found = self.ask("element", {"using": "css selector", "value": selector})
        self.ask(f"element/{found[ELEMENT]}/value", {"text": path})

    def screenshot(self, path):
        with open(path, "wb") as it:
            it.write(base64.b64decode(self.call("GET", f"{self.session}/screenshot")))

    def close(self):
        try:
            self.call("DELETE", self.session)
        except (OSError, RuntimeError, http.client.HTTPException):
            pass
        self.line.close()
        self.process.terminate()
        self.process.wait(SECONDS)
        self.screen.close()
        self.folder.cleanup()
