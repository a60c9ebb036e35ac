"""A machine through a pipe to the program `mos65 debug`: command lines go in, replies come out."""

from __future__ import annotations

import os
import re
import select
import subprocess
import tempfile
import time
from dataclasses import replace
from typing import List, Optional, Sequence, Set, Tuple

from .accesses import Access, access_here, run_to_access
from .faults import Closed, EngineDied, EventFault, Fault, Refused, SessionFault, Timeout
from .values import Registers, RunEnd, Why
from .words import refusal

_REGISTERS = re.compile(r"A=(..) X=(..) Y=(..) S=(..) P=(..) PC=(....) CYC=(\d+)")
_END = re.compile(
    r"DID (\d+) (?:(LIMIT)|(BREAK|WATCH) (....)|FAULT (..) AT (....)|(CONSOLE|CYCLES) FULL)"
)
_EVENTS = {"Undocumented", "CyclesFull", "ConsoleFull", "InputFull", "PastEnd", "BadLength"}
_RETURN = 0xFFFF
# The largest number that `run` and `back` take.
_MOST = 1_000_000
# The most breakpoints.
_TABLE = 256
# The commands that are no events, and those that leave the registers as they are.
_LOOKING = ("regs", "break", "unbreak", "watch", "unwatch", "out", "dis", "mem")
_KEEPING = (*_LOOKING, "patch", "in ", "irq", "nmi")
# So many lines go out at once: their replies fit in a pipe.
_BATCH = 400


class Pipe:
    """The program, with one request at a time.

    A reply that takes longer than `timeout` seconds ends it.
    """

    def __init__(self, program: str, words: Sequence[str], timeout: float) -> None:
        self._timeout, self._pending = timeout, b""
        self._breaks: Set[int] = set()
        # The registers, where nothing has changed them since they were told.
        self._known: Optional[Registers] = None
        # How many events the last call made and the registers before it, if no event came after.
        self._last: Optional[Tuple[int, Registers]] = None
        self._errors = tempfile.TemporaryFile()
        self._engine: Optional[subprocess.Popen[bytes]] = subprocess.Popen(
            [program, "debug", *words],
            stdin=subprocess.PIPE,
            stdout=subprocess.PIPE,
            stderr=self._errors,
            bufsize=0,
        )
        try:
            # The engine reads nothing before its image stands: this tells a refusal now.
            self._ask("breaks")
        except BaseException:
            self.close()
            raise

    def close(self) -> None:
        """Ends the program."""
        engine, self._engine = self._engine, None
        if engine is None:
            return
        for it in (engine.stdin, engine.stdout):
            try:
                it.close()
            except OSError:
                pass
        try:
            engine.wait(timeout=2)
        except subprocess.TimeoutExpired:
            engine.kill()
            engine.wait()
        self._errors.close()

    # ---- lines

    def _died(self) -> Fault:
        status = self._engine.wait()
        self._errors.seek(0)
        return refusal(self._errors.read().decode("ascii", "replace"), status)

    def _line(self, deadline: float) -> str:
        out = self._engine.stdout
        while b"\n" not in self._pending:
            left = deadline - time.monotonic()
            if left <= 0 or not select.select([out], [], [], left)[0]:
                self._engine.kill()
                self._engine.wait()
                raise Timeout("Timeout", text=f"no reply in {self._timeout} seconds")
            some = os.read(out.fileno(), 65536)
            if not some:
                raise self._died()
            self._pending += some
        line, _, self._pending = self._pending.partition(b"\n")
        return line.decode("ascii")

    def _needs_engine(self) -> None:
        if self._engine is None:
            raise Closed("Closed", 1)

    def _send(self, lines: Sequence[str]) -> float:
        self._needs_engine()
        text = memoryview("".join(f"{it}\n" for it in lines).encode("ascii"))
        try:
            while text:
                text = text[os.write(self._engine.stdin.fileno(), text) :]
        except OSError:
            raise self._died() from None
        return time.monotonic() + self._timeout

    def _ask_all(self, lines: Sequence[str], is_judged: bool = True) -> List[str]:
        """Sends lines with one reply line each, and returns the replies.

        The first refusal is raised once all have come.
        """
        if any(not it.startswith(_KEEPING) for it in lines):
            self._known = None
        if any(not it.startswith(_LOOKING) for it in lines):
            self._last = None
        replies: List[str] = []
        for at in range(0, len(lines), _BATCH):
            some = lines[at : at + _BATCH]
            deadline = self._send(some)
            replies += [self._line(deadline) for _ in some]
        if is_judged:
            for line, reply in zip(lines, replies):
                self._judge(line, reply)
        return replies

    def _ask(self, line: str) -> str:
        return self._ask_all([line])[0]

    @staticmethod
    def _judge(line: str, reply: str) -> None:
        """Raises the fault that a reply tells."""
        if reply.startswith("? "):
            raise Refused("BadCommand", text=line)
        if found := re.fullmatch(r"! FAULT (..) AT (....)", reply):
            raise EventFault("Undocumented", 2, text=f"${found[1]} at ${found[2]}")
        if found := re.fullmatch(r"! HISTORY (\d+)", reply):
            raise SessionFault("NoHistory", 1, text=f"{found[1]} events are held")
        if found := re.fullmatch(r"! (CONSOLE|CYCLES) FULL", reply):
            number = 3 if found[1] == "CONSOLE" else 1
            raise EventFault(found[1].capitalize() + "Full", number)
        if found := re.fullmatch(r"! (\w+) (\d+)", reply):
            is_event = found[1] in _EVENTS or line.startswith("patch")
            raise (EventFault if is_event else SessionFault)(found[1], int(found[2]), text=line)

    # ---- what a machine does

    @staticmethod
    def _registers(reply: str) -> Registers:
        found = _REGISTERS.fullmatch(reply)
        if not found:
            raise EngineDied("EngineDied", text=reply)
        return Registers(*(int(it, 16) for it in found.groups()[:6]), int(found[7]))

    @staticmethod
    def _end(reply: str) -> RunEnd:
        found = _END.fullmatch(reply)
        if not found:
            raise EngineDied("EngineDied", text=reply)
        steps = int(found[1])
        if found[2]:
            return RunEnd(steps, Why.LIMIT)
        if found[3]:
            return RunEnd(steps, Why[found[3]], int(found[4], 16))
        if found[5]:
            opcode, address = int(found[5], 16), int(found[6], 16)
            return RunEnd(steps, Why.REFUSED, address, opcode, "Undocumented")
        return RunEnd(steps, Why.REFUSED, fault=found[7].capitalize() + "Full")

    def step(self) -> None:
        self._ask("step")

    def reset(self) -> None:
        self._ask("reset")

    def irq(self, level: bool) -> None:
        self._ask(f"irq {int(level)}")

    def nmi(self) -> None:
        self._ask("nmi")

    @staticmethod
    def _setting(register: str, value: int) -> str:
        digits = 4 if register == "PC" else 2
        return f"set {register} {value:0{digits}X}"

    def set(self, register: str, value: int) -> None:
        self._ask(self._setting(register, value))

    def send(self, data: bytes) -> None:
        for byte in data:
            self._ask(f"in {byte:02X}")

    def write(self, address: int, data: bytes) -> None:
        parts = [(address + at, data[at : at + 3]) for at in range(0, len(data), 3)]
        self._ask_all([f"patch {at:04X} " + some.hex(" ").upper() for at, some in parts])

    def read(self, address: int, count: int) -> bytes:
        if count == 0:
            self._needs_engine()
            return b""
        deadline = self._send([f"mem {address:04X} {address + count - 1:04X}"])
        found = b""
        while len(found) < count:
            found += bytes.fromhex(self._line(deadline)[6:])
        return found

    def registers(self) -> Registers:
        if self._known is None or self._engine is None:
            self._known = self._registers(self._ask("regs"))
        return self._known

    def output(self) -> bytes:
        reply = self._ask("out")
        count, found = int(reply.partition(" ")[2]), b""
        deadline = time.monotonic() + self._timeout
        while len(found) < count:
            found += bytes.fromhex(self._line(deadline))
        return found

    def run(self, limit: int) -> RunEnd:
        if limit == 0:
            self._needs_engine()
            return RunEnd(0, Why.LIMIT)
        steps = 0
        while limit > _MOST:
            end = self._end(self._ask(f"run {_MOST}"))
            steps += end.steps
            if end.why is not Why.LIMIT:
                return replace(end, steps=steps)
            limit -= _MOST
        end = self._end(self._ask(f"run {limit}"))
        return replace(end, steps=steps + end.steps)

    def run_to(self, address: int, limit: int) -> RunEnd:
        self._has_room(address)
        return self._stopping(address, [], limit)[0]

    def call(
        self, address: int, limit: int, a: Optional[int], x: Optional[int], y: Optional[int]
    ) -> Tuple[Optional[RunEnd], int, int, Registers]:
        self._has_room(_RETURN)
        before = self.registers()
        given = (("A", a), ("X", x), ("Y", y))
        ready = [self._setting(name, value) for name, value in given if value is not None]
        ready += [
            f"patch {0x100 + before.s:04X} FF",
            f"patch {0x100 + (before.s - 1) % 256:04X} FE",
            self._setting("S", (before.s - 2) % 256),
            self._setting("PC", address),
        ]
        end, after = self._stopping(_RETURN, ready, limit)
        self._last = (len(ready) + end.steps, before)
        is_back = end.why is Why.BREAK and end.address == _RETURN
        return None if is_back else end, end.steps, after.cycles - before.cycles, after

    def _has_room(self, address: int) -> None:
        """Raises TableFull where no breakpoint can be set at an address, and changes nothing."""
        if address not in self._breaks and len(self._breaks) == _TABLE:
            raise SessionFault("TableFull", 2)

    def _stopping(self, address: int, ready: List[str], limit: int) -> Tuple[RunEnd, Registers]:
        """A run that also stops at an address, and the registers after it.

        A breakpoint that was set there before stays.
        """
        is_set = address in self._breaks
        first = ready if is_set else [f"break {address:04X}", *ready]
        last = ["regs"] if is_set else [f"unbreak {address:04X}", "regs"]
        if 0 < limit <= _MOST:
            replies = self._ask_all([*first, f"run {limit}", *last])
            end, self._known = self._end(replies[len(first)]), self._registers(replies[-1])
            return end, self._known
        self._ask_all(first)
        end = self.run(limit)
        return end, self._registers(self._ask_all(last)[-1])

    def back(self, count: int) -> None:
        if count == 0:
            # The program takes no 0: nothing is gone back over.
            self._needs_engine()
            return
        last = self._last
        self._ask(f"back {min(count, _MOST)}")
        if last and last[0] == count:
            self._known = last[1]

    def access(self) -> Access:
        return access_here(self)

    def run_to_access(self, marks: bytes, limit: int) -> RunEnd:
        return run_to_access(self, marks, limit)

    def held(self) -> int:
        # More than can be held: the refusal tells how many are.
        (reply,) = self._ask_all([f"back {_MOST}"], is_judged=False)
        return int(reply.split()[2])

    def set_break(self, address: int) -> None:
        self._ask(f"break {address:04X}")
        self._breaks.add(address)

    def clear_break(self, address: int) -> None:
        self._ask(f"unbreak {address:04X}")
        self._breaks.discard(address)

    def set_watch(self, address: int) -> None:
        self._ask(f"watch {address:04X}")

    def clear_watch(self, address: int) -> None:
        self._ask(f"unwatch {address:04X}")

    def disassemble(self, address: int) -> Tuple[str, int]:
        row = self._ask(f"dis {address:04X} 1")
        return row[16:], len(row[6:14].split())
