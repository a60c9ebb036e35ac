"""A headless Firefox, driven by WebDriver BiDi over a socket with the standard library alone. It has
the calls of tools/check/browser.py that tools/check/playground_browser.py makes."""

import base64
import json
import os
import shutil
import socket
import struct
import subprocess
import tempfile
import time

# The keys of WebDriver that are no characters.
KEYS = {"Enter": "\ue007", "Tab": "\ue004", "Escape": "\ue00c", "Backspace": "\ue003",
        "ArrowLeft": "\ue012", "ArrowUp": "\ue013", "ArrowRight": "\ue014",
        "ArrowDown": "\ue015", "Home": "\ue011", "End": "\ue010", "PageUp": "\ue00e",
        "PageDown": "\ue00f", "Shift": "\ue008", "Ctrl": "\ue009", "Alt": "\ue00a"}
KEYS.update({f"F{k}": chr(0xE030 + k) for k in range(1, 13)})
SECONDS = 60
FAILED = "exceptionDetails"


def find():
    """The browser's program, or None."""
    return shutil.which("firefox-esr") or shutil.which("firefox")


class Socket:
    """A connection that sends and receives texts, by RFC 6455."""

    def __init__(self, port, path):
        self.line = socket.create_connection(("127.0.0.1", port), timeout=SECONDS)
        self.line.sendall((f"GET {path} HTTP/1.1\r\nHost: 127.0.0.1:{port}\r\nUpgrade: websocket\r\n"
                           "Connection: Upgrade\r\nSec-WebSocket-Version: 13\r\n"
                           "Sec-WebSocket-Key: bW9zNjUgbW9zNjUgbW9zNg==\r\n\r\n").encode())
        self.rest = b""
        while b"\r\n\r\n" not in self.rest:
            self.more()
        head, self.rest = self.rest.split(b"\r\n\r\n", 1)
        assert head.split()[1] == b"101", head

    def more(self):
        data = self.line.recv(1 << 16)
        if not data:
            raise EOFError("the browser ended")
        self.rest += data

    def take(self, count):
        while len(self.rest) < count:
            self.more()
        found, self.rest = self.rest[:count], self.rest[count:]
        return found

    def send(self, text, kind=1):
        data, mask = text.encode(), os.urandom(4)
        size = len(data)
        length = (bytes([size | 128]) if size < 126 else b"\xfe" + struct.pack(">H", size)
                  if size < 1 << 16 else b"\xff" + struct.pack(">Q", size))
        key = (mask * (size // 4 + 1))[:size]
        masked = (int.from_bytes(data, "big") ^ int.from_bytes(key, "big")).to_bytes(size, "big")
        self.line.sendall(bytes([128 | kind]) + length + mask + masked)

    def receive(self):
        found = b""
        while True:
            first, size = self.take(2)
            if size > 125:
                size = int.from_bytes(self.take(2 if size == 126 else 8), "big")
            data = self.take(size)
            if first & 15 < 3:
                found += data
                if first & 128:
                    return found.decode()


class Browser:
    """A browser with one page."""

    def __init__(self, width=1280, height=720):
        self.folder, self.count, self.errors = tempfile.TemporaryDirectory(), 0, []
        with socket.socket() as free:
            free.bind(("127.0.0.1", 0))
            port = free.getsockname()[1]
        words = [find(), "--headless", "--no-remote", "--profile", self.folder.name,
                 "--remote-debugging-port", str(port), "about:blank"]
        self.process = subprocess.Popen(words, stdout=subprocess.DEVNULL, stderr=subprocess.DEVNULL,
                                        env={**os.environ, "HOME": self.folder.name})
        self.socket = self.connected(port)
        self.about = self.call("session.new", capabilities={})["capabilities"]
        self.call("session.subscribe", events=["log.entryAdded"])
        self.page = self.call("browsingContext.getTree")["contexts"][0]["context"]
        self.call("browsingContext.setViewport", context=self.page,
                  viewport={"width": width, "height": height})

    def connected(self, port):
        for _ in range(SECONDS * 10):
            try:
                return Socket(port, "/session")
            except OSError:
                time.sleep(.1)
        raise TimeoutError("the browser does not answer")

    def call(self, method, **params):
        self.count += 1
        self.socket.send(json.dumps({"id": self.count, "method": method, "params": params}))
        while True:
            said = json.loads(self.socket.receive())
            if said.get("method") == "log.entryAdded" and said["params"]["level"] == "error":
                self.errors.append(said["params"]["text"])
            if said.get("id") == self.count:
                if said["type"] == "error":
                    raise RuntimeError(f"{method}: {said['error']}: {said['message']}")
                return said["result"]

    def open(self, address):
        self.call("browsingContext.navigate", context=self.page, url=address, wait="complete")

    def js(self, text):
        """What an expression is, as JSON has it."""
        text = f"(async () => {{ const it = await ({text.strip().rstrip(';')});" \
               " return JSON.stringify(it) ?? 'null'; })()"
        said = self.call("script.evaluate", expression=text, target={"context": self.page},
                         awaitPromise=True)
        if FAILED in said:
            raise RuntimeError(said[FAILED]["text"])
        return json.loads(said["result"]["value"])

    def click(self, element, shift=False, dx=.5, dy=.5):
        """Clicks on an element, a part of its width from the left and of its height from above."""
        x, y = self.js(f"(e => {{ const r = e.getBoundingClientRect();"
                       f" return [r.x + r.width * {dx}, r.y + r.height * {dy}]; }})({element})")
        moves = [{"type": "pointerMove", "x": round(x), "y": round(y)},
                 {"type": "pointerDown", "button": 0}, {"type": "pointerUp", "button": 0}]
        self.act([{"type": "pointer", "id": "mouse", "actions": moves}], shift)

    def act(self, sources, shift=False):
        if shift:
            self.hold("keyDown", "Shift")
        self.call("input.performActions", context=self.page, actions=sources)
        if shift:
            self.hold("keyUp", "Shift")

    def hold(self, kind, name):
        self.act([{"type": "key", "id": "keys", "actions": [{"type": kind, "value": KEYS[name]}]}])

    def press(self, *names):
        """Presses a key, with those before it held."""
        values = [KEYS.get(it, it) for it in names]
        acts = [{"type": "keyDown", "value": it} for it in values]
        acts += [{"type": "keyUp", "value": it} for it in reversed(values)]
        self.act([{"type": "key", "id": "keys", "actions": acts}])

    def give_file(self, selector, path):
        """Gives a field for files one of them."""
        found = self.call("browsingContext.locateNodes", context=self.page,
                          locator={"type": "css", "value": selector})["nodes"][0]
        self.call("input.setFiles", context=self.page, element={"sharedId": found["sharedId"]},
                  files=[path])

    def screenshot(self, path):
        data = self.call("browsingContext.captureScreenshot", context=self.page)["data"]
        with open(path, "wb") as it:
            it.write(base64.b64decode(data))

    def close(self):
        try:
            self.call("browser.close")
        except (EOFError, OSError, RuntimeError):
            pass
        self.process.wait(20)
        self.folder.cleanup()
