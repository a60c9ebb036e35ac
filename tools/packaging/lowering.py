"""The playground's module with 32-bit addresses, which each browser takes, made from the one that was
linked, whose addresses have 64 bits: by wasm-opt of Binaryen, the Debian package binaryen.

Each address is cut to its low 32 bits where it is used. The page's heap hands out none above 2 GiB
(playground/heap.js), so nothing is cut off. Parameters of the exports keep their 64 bits."""

import os
import shutil
import subprocess
import tempfile

from proving import Failure, read

PROGRAM = "wasm-opt"
WORDS = "--all-features", "--memory64-lowering"


def maker():
    """What makes the module here: the version of wasm-opt and its options. None where it lacks."""
    if not shutil.which(PROGRAM):
        return None
    said = subprocess.check_output([PROGRAM, "--version"], text=True)
    return " ".join([*said.split(), *WORDS])


def lowered(module):
    """The module with 32-bit addresses."""
    if not shutil.which(PROGRAM):
        raise Failure(f"{PROGRAM} is not there, which the Debian package binaryen has")
    with tempfile.TemporaryDirectory(prefix="lowering-") as room:
        given, made = (os.path.join(room, it) for it in ("given.wasm", "made.wasm"))
        with open(given, "wb") as it:
            it.write(module)
        subprocess.run([PROGRAM, *WORDS, given, "-o", made], check=True)
        return read(made)
