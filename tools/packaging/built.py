"""What a release is made of, as `rt` builds it: the proved program with its object, and the archive
of the library for C. `rt ci` keeps the program, and neither of the other two: `rt` makes them
again, over the crates that `rt ci` built."""

import os
import subprocess
import sys
import tempfile

from linking import ARCHIVE, OBJECT, PROGRAM, TOP, is_linked_from_object, kit_folder
from proving import sources

EXPORTS = f"{TOP}/crates/mos65_c"


def is_new(file):
    """Whether a file is there, and no source is newer."""
    try:
        built = os.stat(file).st_mtime
        return all(os.stat(it).st_mtime <= built for it in [f"{TOP}/crates.txt", *sources(TOP)])
    except OSError:
        return False


def lacking():
    """What is not built from the sources as they are, in words."""
    parts = {"proved program": PROGRAM, "object of the program": OBJECT, "archive for C": ARCHIVE}
    return [it for it, file in parts.items() if not is_new(file)]


def take_crates(folder):
    """Has `rt` take the crates below one as they stand, if one run of `rt ci` built them all. It
    leaves them without the stamp by which rt knows them again, since other crates need not fit to
    them; all of one run fit to each other."""
    sys.path.insert(0, f"{kit_folder()}/bin")
    import rtlib

    below = rtlib.Crate(folder, TOP, {}).below()
    stamp_of = lambda it: f"{it.folder}/out/rlib/stamp"
    left = [it for it in below if not os.path.exists(stamp_of(it))]
    if all(os.path.isdir(it.rlib) if it in left else it.is_built() for it in below):
        for it in left:
            with open(stamp_of(it), "w", encoding="utf-8") as file:
                file.write(it.stamp())


def make_archive():
    """Builds the archive of the library for C. Returns whether it is built."""
    take_crates(EXPORTS)
    return subprocess.run(["rt", "lib"], cwd=EXPORTS).returncode == 0


def make_program():
    """Builds the program anew, with its object. Returns whether it is built."""
    folder = f"{TOP}/crates/mos65"
    take_crates(folder)
    words = ["rt", "run", "--", "debug", "/dev/null"]
    return subprocess.run(words, cwd=folder, stdin=subprocess.DEVNULL).returncode == 0


def has_program():
    """Whether the program is there with the object that it was linked from."""
    with tempfile.TemporaryDirectory() as room:
        return is_new(PROGRAM) and is_new(OBJECT) and is_linked_from_object(room)


def make():
    """Builds what is lacking. Returns whether all is there."""
    if not has_program() and not make_program():
        return False
    return (is_new(ARCHIVE) or make_archive()) and not lacking()
