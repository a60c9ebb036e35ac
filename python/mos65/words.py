"""The words of the program that a machine asks for what it does not read itself: `asm` for names
and lines, `check` for faults and warnings, `convert` for images, `dis` for names of other
assemblers."""

from __future__ import annotations

import os
import re
import shutil
import subprocess
import tempfile
from typing import Dict, List, Optional, Sequence, Set, Tuple, Union

from .faults import AssemblyFault, EngineDied, Fault, ImageFault, MapFault, SessionFault, TapeFault
from .values import Source, texts_of

_IMAGE = re.compile(r"mos65: (?:.+: )?IMAGE line (\d+) column (\d+) (\w+) (\d+)(.*)")
# What a source is called that has no file's name.
UNNAMED = "source"
# The first line of what is told of a fault in it.
_FAULT = re.compile(r"(?m)^source:(\d+):\d+: (\w+) (\d+): ")


# The programs that have said who they are, and in how many seconds one has to.
_known: Set[str] = set()
SECONDS = 60.0


def find_program(program: Union[str, "os.PathLike[str]", None]) -> str:
    """The program to run: the one that is given, that of MOS65_PROGRAM, or `mos65` on the PATH.

    Raises EngineDied, NoProgram, where there is none, or it does not say that it is mos65.
    """
    given = None if program is None else os.fsdecode(program)
    found = given or os.environ.get("MOS65_PROGRAM") or shutil.which("mos65")
    if not found:
        raise EngineDied("NoProgram", text="mos65 is not on the PATH")
    # It is started in other folders too.
    found = os.path.abspath(found) if os.sep in found else found
    if found not in _known:
        _ask_name(found)
        _known.add(found)
    return found


def _ask_name(program: str) -> None:
    """Raises EngineDied where a program does not say that it is mos65."""
    try:
        told = _run(program, "--version", seconds=SECONDS)[1]
    except subprocess.TimeoutExpired:
        text = f"{program} does not answer --version in {SECONDS} seconds"
        raise EngineDied("NoProgram", text=text) from None
    if not told.startswith("mos65"):
        first = told.partition("\n")[0]
        text = f"{program} is not mos65: its answer to --version is {first!r:.60}"
        raise EngineDied("NoProgram", text=text)


def refusal(text: str, status: int) -> Fault:
    """The fault that the program's last line on its error stream tells."""
    line = text.strip().split("\n")[-1]
    if found := re.fullmatch(r"mos65: SOURCE line (\d+) (\w+) (\d+)", line):
        return AssemblyFault(found[2], int(found[3]), line=int(found[1]))
    if found := re.fullmatch(r"mos65: (?:.+: )?TAPE byte (\d+) (\w+) (\d+)(?:: .*)?", line):
        return TapeFault(found[2], int(found[3]), offset=int(found[1]))
    if found := re.fullmatch(r"mos65: (?:.+: )?(?:TAPE|IMAGE) (\w+) (\d+)(?: at .*)?", line):
        return SessionFault(found[1], int(found[2]))
    if found := re.fullmatch(r"mos65: (?:.+: )?MAP (\w+) (\d+)", line):
        return MapFault(found[1], int(found[2]))
    if found := _IMAGE.fullmatch(line):
        place = {"line": int(found[1]), "column": int(found[2])}
        return ImageFault(found[3], int(found[4]), text=found[5].lstrip(": "), **place)
    if found := re.fullmatch(r"mos65: .+:(\d+): (\w+) (\d+)", line):
        return AssemblyFault(found[2], int(found[3]), line=int(found[1]))
    return EngineDied("EngineDied", text=f"status {status}: {line}")


def _run(
    *words: str, folder: Optional[str] = None, seconds: Optional[float] = None
) -> Tuple[int, str, str]:
    """The status, the output and the error stream of the program."""
    how = {"stdin": subprocess.DEVNULL, "capture_output": True, "cwd": folder, "timeout": seconds}
    try:
        ran = subprocess.run(words, **how)
    except OSError as error:
        raise EngineDied("NoProgram", text=f"{words[0]}: {error.strerror}") from None
    return ran.returncode, *(it.decode("utf-8", "replace") for it in (ran.stdout, ran.stderr))


def _numbers(path: str) -> Dict[str, int]:
    """The names of a file that `asm --symbols` wrote, with their numbers."""
    found: Dict[str, int] = {}
    with open(path, encoding="ascii") as it:
        for row in it:
            name, number = row.split(" = ")
            found[name] = int(number[1:], 16) if number[0] == "$" else int(number)
    return found


def _first_fault(told: str) -> Optional[AssemblyFault]:
    """The fault for which a source is refused, among all its faults as `asm` tells them: the first
    one of its layout, or, if that has none, of its values."""
    rows = [(int(it[3]) >= 20, int(it[1]), it) for it in _FAULT.finditer(told)]
    if not rows:
        return None
    _, line, row = min(rows, key=lambda it: it[:2])
    return AssemblyFault(row[2], int(row[3]), line=line)


def source_of(program: str, folder: str, options: Sequence[str]) -> Source:
    """The names and the lines of the file `source` in a folder, whose tape is written beside it."""
    words = "asm source tape --utf8 --symbols names --map places".split()
    status, _, errors = _run(program, *words, *options, folder=folder)
    if status:
        raise _first_fault(errors) or refusal(errors, status)
    found = Source(_numbers(os.path.join(folder, "names")))
    with open(os.path.join(folder, "places"), encoding="ascii") as it:
        for row in it:
            address, _, line = row.split("\t")
            found.lines.setdefault(int(address, 16), int(line))
    with open(os.path.join(folder, UNNAMED), "rb") as it:
        found.texts = texts_of(it.read())
    return found


def checked(program: str, name: str, text: bytes, options: Sequence[str]) -> str:
    """What `check` prints of a source: all its faults, or its warnings. The file of that name is
    read where it still has this text."""
    if os.path.isfile(name):
        with open(name, "rb") as it:
            if it.read() == text:
                return _run(program, "check", *options, "--", name)[1]
    with tempfile.TemporaryDirectory() as folder:
        with open(os.path.join(folder, UNNAMED), "wb") as it:
            it.write(text)
        return _run(program, "check", *options, UNNAMED, folder=folder)[1]


def converted(program: str, image: bytes, form: str) -> bytes:
    """The tape of an image in another form. Raises ImageFault for what is in it."""
    with tempfile.TemporaryDirectory() as folder:
        with open(os.path.join(folder, "image"), "wb") as it:
            it.write(image)
        words = ["convert", "image", "tape", "--from", form, "--to", "tape"]
        status, _, errors = _run(program, *words, folder=folder)
        if status == 1:
            fault = refusal(errors, status)
            is_told = isinstance(fault, ImageFault)
            raise fault if is_told else ImageFault("Image", text=errors.strip())
        if status:
            raise refusal(errors, status)
        with open(os.path.join(folder, "tape"), "rb") as it:
            return it.read()


def names_of(program: str, path: str) -> Tuple[Dict[str, int], int]:
    """The names of a file in a form that `--symbols` reads, and how many are left out.

    A source, as what `asm --symbols` writes is one too, tells its names by `asm`. For others `dis`
    writes them as lines of a source, one name for each address.
    """
    with tempfile.TemporaryDirectory() as folder:
        byte, source, tape, names = (os.path.join(folder, it) for it in ("b", "s", "t", "n"))
        path, asm = os.path.abspath(path), ["--symbols", names, "--port", "none"]
        if _run(program, "asm", path, tape, *asm)[0] == 0:
            return _numbers(names), 0
        with open(byte, "wb") as it:
            it.write(b"\xea")
        words: List[str] = ["dis", byte, "--bin", "0200", "--source", "--symbols", path]
        status, text, errors = _run(program, *words)
        if status:
            raise refusal(errors, status)
        with open(source, "w", encoding="ascii") as it:
            it.write(text)
        status, _, told = _run(program, "asm", source, tape, *asm)
        if status:
            raise refusal(told, status)
        left = re.search(r"names left out: (\d+)", errors)
        return _numbers(names), int(left[1]) if left else 0
