"""Where tools/install and tools/library put files: below a prefix, and below DESTDIR as packagers
set it."""

import os
import shutil
import sys

HOME_PREFIX = "~/.local"


class Usage(Exception):
    """Words that are none of the tool's."""


def prefix_in(words):
    """The prefix that `--prefix DIR` or `--prefix=DIR` names, as a whole path, or None where words
    do not begin with that."""
    if not words or not words[0].startswith("--prefix"):
        return None
    if words[0] == "--prefix" and len(words) == 2:
        return os.path.abspath(words[1])
    name, sign, folder = words[0].partition("=")
    if name != "--prefix" or not sign or not folder or len(words) > 1:
        raise Usage
    return os.path.abspath(folder)


def folder_in(words, default):
    """The folder that a single word names, as a whole path; the default where there is none."""
    if len(words) > 1 or words and words[0].startswith("-"):
        raise Usage
    return os.path.abspath(words[0] if words else os.path.expanduser(default))


def staged(path):
    """Where the file of a path is written: below DESTDIR where that is set."""
    above = os.environ.get("DESTDIR", "")
    return f"{os.path.abspath(above)}{path}" if above else path


def is_staged():
    return bool(os.environ.get("DESTDIR"))


def put(text, path, mode):
    """Writes a file as a whole, so that a running program which has the old one goes on."""
    file = staged(path)
    os.makedirs(os.path.dirname(file), exist_ok=True)
    with open(f"{file}.part", "wb") as it:
        it.write(text)
    os.chmod(f"{file}.part", mode)
    os.replace(f"{file}.part", file)
    print(f"mos65: installed {file}")


def copy(source, path, mode):
    with open(source, "rb") as it:
        put(it.read(), path, mode)


def comes_first(program):
    """Whether the program's name alone runs it."""
    return shutil.which(os.path.basename(program)) == program


def complain(error):
    """Says what the system refused. Returns the status."""
    print(f"mos65: {error.filename}: {error.strerror}", file=sys.stderr)
    return 4
