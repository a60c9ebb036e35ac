"""A page of a run in Node, by tools/check/page_document.js, with the calls of tools/check/browser.py that
tools/check/page makes of it."""

import json
import os
import subprocess

SCRIPT = f"{os.path.dirname(os.path.realpath(__file__))}/page_document.js"


class Page:
    def __init__(self, node):
        self.node, self.process, self.errors, self.requests = node, None, [], []

    def open(self, path):
        self.close()
        self.process = subprocess.Popen([self.node, SCRIPT, os.path.abspath(path)], text=True,
                                        stdin=subprocess.PIPE, stdout=subprocess.PIPE)

    def ask(self, *words):
        self.process.stdin.write(json.dumps(words) + "\n")
        self.process.stdin.flush()
        told = json.loads(self.process.stdout.readline())
        if len(told) > 1:
            raise RuntimeError(told[1])
        return told[0]

    def js(self, text):
        return self.ask("js", text)

    def key(self, key):
        self.ask("key", key)

    def click(self, element, shift=False, dx=.5, dy=.5):
        self.ask("click", element, shift)

    def close(self):
        if self.process:
            self.process.stdin.close()
            self.process.stdout.close()
            self.process.wait()
