"""What the checks have in common: the words that one is called with, the program and its runs, and
what passed and failed."""

import argparse
import os
import pathlib
import re
import shutil
import subprocess
import sys
import tempfile

TOP = str(pathlib.Path(__file__).resolve().parents[2])
FOLDER = f"{TOP}/tools/check"
sys.path.insert(1, f"{TOP}/tools")
import folders  # noqa: E402, F401

PROGRAM = os.path.abspath(os.environ.get("MOS65_PROGRAM", f"{TOP}/crates/mos65/out/mos65"))
SLOW = os.environ.get("MOS65_SLOW") == "1"  # the program is not proved, and slow
SECONDS = 60  # in which a run of it ends
LAST = re.compile(r"^(\d+) passed, (\d+) failed\n\Z", re.M)
MOST_SHOWN = 2000  # letters of a value


def asked(doc, *places, **options):
    """The words that a check is called with. A place is a name, with `?` behind it where it may
    lack and `*` where there may be more. An option has a default, or a type, and then it may not
    lack; one whose default is False takes no value."""
    shape = argparse.RawDescriptionHelpFormatter
    parser = argparse.ArgumentParser(description=doc, formatter_class=shape)
    for place in places:
        parser.add_argument(place.rstrip("?*"), nargs=place[-1] if place[-1] in "?*" else None)
    for name, default in options.items():
        if default is False:
            parser.add_argument(f"--{name}", action="store_true")
        elif isinstance(default, type):
            parser.add_argument(f"--{name}", type=default, required=True)
        else:
            kind = str if default is None else type(default)
            parser.add_argument(f"--{name}", type=kind, default=default)
    return parser.parse_args()


# ---- files


def room():
    """A folder that is there as long as it is used."""
    return tempfile.TemporaryDirectory(prefix="mos65-check-", ignore_cleanup_errors=True)


def read(path):
    with open(path, "rb") as it:
        return it.read()


def text_of(path):
    with open(path, encoding="utf-8") as it:
        return it.read()


def write(path, data):
    with open(path, "wb") as it:
        it.write(data.encode() if isinstance(data, str) else data)


def write_all(folder, files):
    """Writes files, a name with what it has each."""
    for name, data in files.items():
        write(f"{folder}/{name}", data)


def blocks_of(page, kinds):
    """The blocks of a page that have a name, by that: those of some kinds, with `|` between
    them."""
    found = re.findall(rf"^```({kinds}) (\S+)\n(.*?)^```$", text_of(page), re.M | re.S)
    return {name: text for _, name, text in found}


def mnemonics():
    """The mnemonics of profile C in capitals, as the type of the code has them."""
    text = text_of(f"{TOP}/crates/model/src/instruction.rt")
    body = re.search(r"pub enum Mnemonic \{(.*?)\n\}", text, re.S)
    return [it.upper() for it in re.findall(r"^\s*([A-Z][a-z]{2}),", body[1], re.M)]


def compiler():
    """The C compiler, or None."""
    return next((it for it in ("cc", "gcc", "clang") if shutil.which(it)), None)


def preloaded(name, folder):
    """Makes a shared object, which a run can load before all others, of a C file beside this
    one."""
    made = f"{folder}/{name}.so"
    words = [compiler(), "-Wall", "-Wextra", "-Werror", "-O2", "-shared", "-fPIC", "-o", made]
    subprocess.run([*words, f"{FOLDER}/{name}.c"], check=True)
    return made


# ---- runs


def run(words, given=b"", **how):
    """Runs the program, with all that it writes."""
    words = words.split() if isinstance(words, str) else words
    how = {"capture_output": True, "timeout": SECONDS, **how}
    return subprocess.run([PROGRAM, *words], input=given, **how)


def message(body):
    """A message as the language server and the debug adapter take it."""
    return b"Content-Length: %d\r\n\r\n%b" % (len(body), body)


def shown(value):
    """A value as it is written in Python, with what is past some lines of it left out."""
    text = value if isinstance(value, str) else repr(value)
    rest = len(text) - MOST_SHOWN
    return text if rest <= 0 else f"{text[:MOST_SHOWN]} .. ({rest} more)"


class Tally:
    """How many things passed and failed, and how many were left out. Each failure is told at
    once."""

    def __init__(self):
        self.passed = self.failed = self.left_out = 0

    def add(self, passed, failed):
        self.passed, self.failed = self.passed + passed, self.failed + failed

    def note(self, is_right, what, seen=None):
        """Counts a thing, and returns whether it is right."""
        self.add(bool(is_right), not is_right)
        if not is_right:
            print(f"FAILED: {what}" + ("" if seen is None else f": {shown(seen)}"), flush=True)
        return bool(is_right)

    def compare(self, what, seen, wanted):
        if seen != wanted:
            what = f"{what}\n  wanted {shown(repr(wanted))}\n  seen   {shown(repr(seen))}"
        return self.note(seen == wanted, what)

    def leave_out(self, what, why=""):
        """Says what is not tried here."""
        self.left_out += 1
        print(f"left out: {what}" + (f", since {why}" if why else ""), flush=True)

    def is_built(self, *programs):
        """Whether programs are built; counts one that is not."""
        lacking = [it for it in programs or [PROGRAM] if not os.access(it, os.X_OK)]
        if lacking:
            self.note(False, f"not built: {' '.join(lacking)}")
        return not lacking

    def take(self, what, ran):
        """Adds what another check has said, whose last line is 'N passed, M failed'."""
        left_out = re.findall(r"(?m)^left out: (.*)", ran.stdout)
        for line in left_out:
            self.leave_out(line)
        last = LAST.search(ran.stdout)
        passed, failed = map(int, last.groups()) if last else (0, 0)
        self.add(passed, failed)
        if failed:
            print(ran.stdout, end="", flush=True)
        is_empty = not (passed or failed or left_out)
        if not last or is_empty or (ran.returncode == 0) != (failed == 0):
            said = f"{ran.stdout}{ran.stderr}"
            self.note(False, f"{what} ended with status {ran.returncode}", said)

    def end(self):
        """Says how many things passed and failed. Returns the exit status."""
        print(f"{self.passed} passed, {self.failed} failed")
        return 1 if self.failed or not (self.passed or self.left_out) else 0
