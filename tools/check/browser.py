"""A headless Chromium, driven by the DevTools protocol over a pipe with the standard library
alone."""

import base64
import json
import os
import shutil
import subprocess
import tempfile
import time

CODES = {"ArrowLeft": 37, "ArrowRight": 39, "PageUp": 33, "PageDown": 34, "Home": 36, "End": 35,
         "ArrowUp": 38, "ArrowDown": 40, "Enter": 13, "Backspace": 8, "Tab": 9}


def find():
    """The browser's program, or None. The variable CHROMIUM names another."""
    if os.environ.get("CHROMIUM"):
        return os.environ["CHROMIUM"]
    real = "/usr/lib/chromium/chromium"       # Debian's /usr/bin/chromium is a script around it
    return real if os.access(real, os.X_OK) else shutil.which("chromium")


class Browser:
    def __init__(self, width=1280, height=720, scale=1, mobile=False, dark=False):
        to_read, to_write = os.pipe()
        from_read, from_write = os.pipe()

        def at_three_and_four():
            a, b = os.dup(to_read), os.dup(from_write)
            os.dup2(a, 3)
            os.dup2(b, 4)
        self.folder = tempfile.TemporaryDirectory()
        # an event of the mouse is answered with the next picture: none waits for a screen
        words = [find(), "--headless", "--no-sandbox", "--disable-gpu", "--remote-debugging-pipe",
                 "--disable-frame-rate-limit", "--disable-gpu-vsync", "--no-first-run",
                 "--user-data-dir=" + self.folder.name, "about:blank"]
        self.process = subprocess.Popen(words, preexec_fn=at_three_and_four, close_fds=False,
                                        stdout=subprocess.DEVNULL, stderr=subprocess.DEVNULL)
        os.close(to_read)
        os.close(from_write)
        self.out, self.into, self.rest, self.count = to_write, from_read, b"", 0
        self.errors, self.requests, self.session = [], [], None
        target = self.call("Target.createTarget", url="about:blank")["targetId"]
        self.session = self.call("Target.attachToTarget", targetId=target,
                                 flatten=True)["sessionId"]
        for domain in ("Page", "Runtime", "Log", "Network", "Performance"):
            self.call(domain + ".enable")
        self.call("Emulation.setDeviceMetricsOverride", width=width, height=height,
                  deviceScaleFactor=scale, mobile=mobile)
        scheme = {"name": "prefers-color-scheme", "value": "dark" if dark else "light"}
        self.call("Emulation.setEmulatedMedia", features=[scheme])

    def call(self, method, **params):
        self.count += 1
        message = {"id": self.count, "method": method, "params": params}
        if self.session:
            message["sessionId"] = self.session
        data = json.dumps(message).encode() + b"\0"
        while data:
            data = data[os.write(self.out, data):]
        while True:
            reply = self.receive()
            if reply.get("id") == self.count:
                if "error" in reply:
                    raise RuntimeError(f"{method}: {reply['error']}")
                return reply["result"]

    def receive(self):
        while b"\0" not in self.rest:
            data = os.read(self.into, 1 << 20)
            if not data:
                raise EOFError("the browser ended")
            self.rest += data
        one, self.rest = self.rest.split(b"\0", 1)
        reply = json.loads(one)
        what, params = reply.get("method"), reply.get("params", {})
        if what == "Runtime.exceptionThrown":
            details = params["exceptionDetails"]
            self.errors.append(details.get("exception", {}).get("description") or details["text"])
        if what == "Log.entryAdded":
            self.errors.append(params["entry"]["text"])
        if what == "Network.requestWillBeSent":
            self.requests.append(params["request"]["url"][:80])
        return reply

    def open_tab(self, act=None):
        """Opens another tab, or lets `act` open one. Returns its session: `session` may be set to
        it, and back."""
        own = self.session
        known = {it["targetId"] for it in self.call("Target.getTargets")["targetInfos"]}
        self.session = own if act else None
        act() if act else self.call("Target.createTarget", url="about:blank")
        self.session = None
        infos = self.call("Target.getTargets")["targetInfos"]
        found = next(it["targetId"] for it in infos
                     if it["targetId"] not in known and it["type"] == "page")
        tab = self.call("Target.attachToTarget", targetId=found, flatten=True)["sessionId"]
        self.session = tab
        for domain in ("Page", "Runtime"):
            self.call(domain + ".enable")
        self.session = own
        return tab

    def open(self, path):
        self.call("Page.navigate", url="about:blank")
        self.call("Page.navigate", url="file://" + os.path.abspath(path))
        for _ in range(600):
            if self.js("document.readyState == 'complete' && location.protocol == 'file:'"):
                break
            time.sleep(.05)
        self.js("new Promise(f => requestAnimationFrame(() => requestAnimationFrame(f)))")

    def js(self, text):
        said = self.call("Runtime.evaluate", expression=text, returnByValue=True, awaitPromise=True)
        if "exceptionDetails" in said:
            details = said["exceptionDetails"]
            raise RuntimeError(details.get("exception", {}).get("description", details["text"]))
        return said["result"].get("value")

    def key(self, key):
        text = key if len(key) == 1 else "\r" if key == "Enter" else ""
        code = CODES.get(key, ord(key.upper()) if len(key) == 1 else 0)
        keys = dict(key=key, windowsVirtualKeyCode=code)
        self.call("Input.dispatchKeyEvent", type="keyDown", **keys,
                  **({"text": text} if text else {}))
        self.call("Input.dispatchKeyEvent", type="keyUp", **keys)

    def click(self, element, shift=False, dx=.5, dy=.5):
        """Clicks on an element, a part of its width from the left and of its height from above."""
        x, y = self.js(f"(e => {{ const r = e.getBoundingClientRect();"
                       f" return [r.x + r.width * {dx}, r.y + r.height * {dy}]; }})({element})")
        where = dict(x=x, y=y, button="left", clickCount=1, modifiers=8 if shift else 0)
        self.call("Input.dispatchMouseEvent", type="mousePressed", buttons=1, **where)
        self.call("Input.dispatchMouseEvent", type="mouseReleased", **where)

    def screenshot(self, path):
        time.sleep(.2)
        data = self.call("Page.captureScreenshot", format="png")["data"]
        with open(path, "wb") as it:
            it.write(base64.b64decode(data))

    def processor_seconds(self):
        """The processor's time that the page's process has taken."""
        found = self.call("Performance.getMetrics")["metrics"]
        return next(it["value"] for it in found if it["name"] == "ProcessTime")

    def close(self):
        try:
            self.session = None
            self.call("Browser.close")
        except (EOFError, OSError):
            pass
        self.process.wait(10)
        self.folder.cleanup()
