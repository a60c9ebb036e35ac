"""The calls of functions of C that a run made, and where their parameters and locals were: by the
run itself, from its first state on, and not by the code of the functions.

cc65 gives an `auto` an offset from what the software stack pointer `sp` is once the function has
pushed its last parameter, as its first instruction does: `jsr pusha`, `pushax`, `pusheax`, or
`enter` for `...`."""

import collections
import re

PUSHED = {"pusha": 1, "pushax": 2, "pusheax": 4, "enter": 1}
JSR, RTS = 0x20, 0x60
ROW = re.compile(r" *\d+  ([0-9A-F]{4})  ((?:[0-9A-F]{2} )+) .*A=.. X=.. Y=.. S=(..) \S{8}(.*)")
STORE = re.compile(r"([0-9A-F]{4})=([0-9A-F]{2})")
Function = collections.namedtuple("Function", "name start size locals")
# A call that has not returned: where it was made, S and `sp` at the function's first byte, and what
# the function calls first to push its last parameter, if it does.
Call = collections.namedtuple("Call", "function caller s sp pushes")


def labels_in(text):
    """The addresses of a file of labels that ld65 wrote."""
    return {name: int(address, 16) for address, name in re.findall(r"(?m)^al (\w+) \.(\S+)$", text)}


def functions_in(records):
    """The functions of C of a debug file, by their first bytes, with the names and the offsets of
    their parameters and locals."""
    of_symbol = {it["sym"]: it["name"] for it in records["csym"].values()
                 if it["sc"] in ("ext", "static") and "sym" in it}
    found = {}
    for id, scope in records["scope"].items():
        symbol = scope.get("sym")
        if symbol in of_symbol and "val" in records["sym"][int(symbol)]:
            start = int(records["sym"][int(symbol)]["val"], 16)
            locals = {it["name"]: int(it.get("offs", "0")) for it in records["csym"].values()
                      if it["sc"] == "auto" and int(it["scope"]) == id}
            found[start] = Function(of_symbol[symbol], start, int(scope["size"]), locals)
    return found


def calls_of(rows, functions, labels):
    """For each state before a row of `trace --stores`: PC, what `sp` is, and the calls of functions
    of C that have not returned, the first first; or None where PC is not in the function of the
    last of them, or at the end of one with `...`, which has taken off what Y said."""
    names = {address: name for name, address in labels.items() if name in PUSHED}
    memory, calls, s, before = {}, [], 0xFD, None
    pointer = labels["sp"]
    for row in rows:
        found = ROW.match(row)
        pc, code = int(found[1], 16), bytes.fromhex(found[2])
        while calls and s >= calls[-1].s + 2:
            calls.pop()
        sp = memory.get(pointer, 0) | memory.get(pointer + 1, 0) << 8
        if before and before[1][0] == JSR and pc in functions:
            first = names.get(code[1] | code[2] << 8) if code[0] == JSR else None
            calls.append(Call(functions[pc], before[0], s, sp, first))
        is_known = calls and is_in(calls[-1], pc, code)
        yield pc, sp, list(calls) if is_known else None
        memory.update((int(at, 16), int(byte, 16)) for at, byte in STORE.findall(found[4]))
        s, before = int(found[3], 16), (pc, code)


def is_in(call, pc, code):
    start, size = call.function.start, call.function.size
    return start <= pc < start + size and not (call.pushes == "enter" and code[0] == RTS)


def frames_of(pc, sp, calls):
    """The calls, the last first, each with where it stands, and what `sp` is there: all but the last
    stand where they called the next."""
    places = [(pc, sp), *((it.caller, it.sp) for it in reversed(calls))]
    return [(call, *place) for call, place in zip(reversed(calls), places)]


def locals_of(call, sp):
    """Where the parameters and locals of a call are: those that are there yet."""
    base = call.sp - PUSHED.get(call.pushes, 0)
    found = {name: base + offset for name, offset in call.function.locals.items()}
    return {name: address for name, address in found.items() if address >= sp}
