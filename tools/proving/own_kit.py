"""A kit made of links to the kit that is installed, which builds an unproved program sooner.

`rt` calls what stands beside it, so a copy of it calls tools/proving/first-clang for clang, and
tools/proving/first-linker for the linker. The check that `rt try` has beside its work gives only a
hint, and is left out. The installed kit is not changed."""

import os
import shutil

from proving import TOP

COPIED = "rt", "rtlib.py"
NEEDED = "bin/rt", "bin/rtlib.py", "bin/rattle", "toolchain/bin/clang", "toolchain/bin/ld.lld"
STAND_INS = {"clang": "first-clang", "ld.lld": "first-linker"}
# The allocator of the kit's programs then asks for large pages.
SETTINGS = {"MIMALLOC_ALLOW_LARGE_OS_PAGES": "1"}


def link_all(source, to, but=()):
    os.makedirs(to)
    for name in os.listdir(source):
        if name not in but:
            os.symlink(f"{source}/{name}", f"{to}/{name}")


def installed():
    """The folder of the installed kit."""
    return os.path.dirname(os.path.dirname(os.path.realpath(shutil.which("rt") or "/")))


def linker():
    """The linker of the installed kit."""
    return f"{installed()}/toolchain/bin/ld.lld"


def is_known():
    """Whether the installed kit has the form that this needs."""
    return all(os.path.isfile(f"{installed()}/{it}") for it in NEEDED)


def make(to):
    """Makes it in a new folder. Returns its rt."""
    kit = installed()
    link_all(kit, to, ("bin", "toolchain"))
    link_all(f"{kit}/bin", f"{to}/bin", (*COPIED, "rattle"))
    for name in COPIED:
        shutil.copy(f"{kit}/bin/{name}", f"{to}/bin")
    os.symlink(shutil.which("true"), f"{to}/bin/rattle")
    link_all(f"{kit}/toolchain", f"{to}/toolchain", ("bin", "kit"))
    link_all(f"{kit}/toolchain/bin", f"{to}/toolchain/bin", STAND_INS)
    for name, file in STAND_INS.items():
        shutil.copy(f"{TOP}/tools/proving/{file}", f"{to}/toolchain/bin/{name}")
    os.symlink(f"{kit}/toolchain/bin", f"{to}/toolchain/kit")
    return f"{to}/bin/rt"
