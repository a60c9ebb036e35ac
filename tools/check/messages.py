"""A program that is spoken to by messages, as language servers and debug adapters are."""

import json
import re
import subprocess

from testing import message


class Peer:
    """The program; `want` counts what holds of its messages."""

    def __init__(self, words, want, **how):
        pipes = dict.fromkeys(("stdin", "stdout", "stderr"), subprocess.PIPE)
        self.process, self.want = subprocess.Popen(words, **pipes, **how), want

    def write(self, body):
        """Sends a message: its bytes, or what JSON makes of it."""
        if not isinstance(body, bytes):
            body = json.dumps(body, ensure_ascii=False).encode()
        self.process.stdin.write(message(body))
        self.process.stdin.flush()

    def read(self):
        """The next message, or None at the end."""
        head = b""
        while not head.endswith(b"\r\n\r\n"):
            byte = self.process.stdout.read(1)
            if not byte:
                return None
            head += byte
        found = re.fullmatch(rb"Content-Length: (\d+)\r\n\r\n", head)
        self.want(found, f"a header: {head!r}")
        return json.loads(self.process.stdout.read(int(found[1])).decode())

    def close(self, status=0):
        """Ends the input. Nothing more may come, and the program has to end with this status."""
        self.process.stdin.close()
        ended = self.process.wait(20), self.process.stdout.read(), self.process.stderr.read()
        self.want(ended == (status, b"", b""), f"an end: {ended}")
