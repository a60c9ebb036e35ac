"""Links what was proved: the program as a static one, and the library for C.

The kit's two archives have what proved code calls of C: the heap, the words of a process, errno.
The program that `rt` builds is linked with them and the C library as a shared object; the static
one is linked from the same object, with them and the C library's archive."""

import functools
import os
import shlex
import shutil
import subprocess

TOP = os.path.dirname(os.path.dirname(os.path.dirname(os.path.realpath(__file__))))
PROGRAM = f"{TOP}/crates/mos65/out/mos65"
OBJECT = f"{PROGRAM}.o"
ARCHIVE = f"{TOP}/crates/mos65_c/out/libmos65_c.a"
SONAME = "libmos65.so.0"
STATIC = ["-static-pie", "-s", "-Wl,--gc-sections,-z,relro,-z,now"]
# What the constant of a proved program has in brackets, and what a release has in its place.
UNNAMED = b"(not a release build)"
# What pkg-config reads: where the folders of the library are, and what is linked besides it.
PC = """prefix={prefix}
libdir={libdir}
includedir=${{prefix}}/include
Name: mos65
Description: An NMOS 6502 with a history of its whole states
Version: {version}
Cflags: -I${{includedir}}
Libs: -L${{libdir}}{path} -lmos65
"""
MOVED = {"prefix": "${pcfiledir}/../..", "libdir": "${prefix}/lib"}


def version():
    """What the file VERSION has."""
    with open(f"{TOP}/VERSION", encoding="ascii") as it:
        return it.read().strip()


def run(*words, **how):
    subprocess.run(words, check=True, **how)


def compiler():
    return shlex.split(os.environ.get("CC", "cc"))


@functools.cache
def kit_folder():
    """The folder of the kit, which `rt doc` names first."""
    return os.path.dirname(subprocess.check_output(["rt", "doc"], text=True).split()[0])


def kit_archives():
    """The kit's archives: the heap's three functions, and the others."""
    return [f"{kit_folder()}/c/{it}" for it in ("liblibc_c.a", "libos_c.a")]


def is_linked_from_object(room):
    """Whether the proved program is what the kit links from its object: the same bytes."""
    heap, others = kit_archives()
    kit, again = kit_folder(), f"{room}/again"
    words = ["--target", "x86_64-unknown-linux-gnu", "--toolchain", f"{kit}/toolchain"]
    words += ["-o", again, OBJECT, others, heap]
    run(f"{kit}/bin/rattle-link", *words, capture_output=True)
    with open(again, "rb") as one, open(PROGRAM, "rb") as other:
        return one.read() == other.read()


def name_commit(commit, room):
    """Copies the object with a commit named in it, and nothing else changed. Returns the copy."""
    with open(OBJECT, "rb") as it:
        text = it.read()
    named = b"(commit %s)" % commit[:12].encode()
    if text.count(UNNAMED) != 1 or len(named) != len(UNNAMED):
        raise ValueError(f"{OBJECT} has the place for a commit {text.count(UNNAMED)} times")
    with open(f"{room}/mos65.o", "wb") as it:
        it.write(text.replace(UNNAMED, named))
    return f"{room}/mos65.o"


def link_static(room):
    """Links the static program from an object and the kit's archives, which stand in a folder."""
    words = [*compiler(), *STATIC, "-o", "mos65", "mos65.o", "libos_c.a", "liblibc_c.a"]
    run(*words, cwd=room)
    return words


def static_program(commit, room):
    """Builds the static program in a folder. Returns the words that link it there."""
    name_commit(commit, room)
    for it in kit_archives():
        shutil.copy(it, room)
    return link_static(room)


def library(room):
    """Builds the archive and the shared object of the library in a folder."""
    parts = f"{room}/parts"
    os.mkdir(parts)
    for archive in (ARCHIVE, kit_archives()[0]):
        run("ar", "x", archive, cwd=parts)
    members = sorted(os.listdir(parts))
    run("ar", "rcsD", f"{room}/libmos65.a", *members, cwd=parts)
    run(*compiler(), "-shared", "-o", f"{room}/{SONAME}", *members, f"-Wl,-soname,{SONAME}",
        f"-Wl,--version-script={TOP}/library/mos65.map", cwd=parts)


def pc_text(path="", **places):
    """The file mos65.pc, which names folders by its own place where no others are given."""
    return PC.format(version=version(), path=path, **{**MOVED, **places}).encode()
