"""What viewer/run.js makes of the data of runs, compared with what they say to a second decoder,
that of page_format.py: whole, in pieces, cut off and added again, with events by hand as calls. And
where the viewer's moves and its search lead, without a document."""

import base64
import json
import os
import random
import shutil
import subprocess

import page_format
import page_moves
from page_moves import JSR, is_by_hand, is_entry, near
from testing import FOLDER

STORE, REGISTERS = 65536, "AXYSP"
RANDOM_RUNS, MOST_CUTS, TRIPS = 6, 4, 200
FLAGS = {name: bit for bit, name in enumerate("CZIDBxVN") if name in "CZIDVN"}
SIGNS = {"=": lambda a, b: a == b, "!=": lambda a, b: a != b, "<>": lambda a, b: a != b,
         "<": lambda a, b: a < b, ">": lambda a, b: a > b, "<=": lambda a, b: a <= b,
         ">=": lambda a, b: a >= b}


def whole_run(data):
    """The view at the start, all changes, and where each record begins and the last ends."""
    reader = page_format.Reader(data)
    view, changes, ends = page_format.View(reader), [], [reader.at]
    while reader.at < len(data):
        changes.append(reader.change())
        ends.append(reader.at)
    return view, changes, ends


class Held:
    """What a run of some changes has to hold, built up a state at a time."""

    def __init__(self, view, changes):
        self.told = {name: [] for name in (*REGISTERS, "PC", "C", "first", "lines", "op", "took",
                                           "head", "where", "xor", "step", "stores", "entries")}
        self.told.update(visits={}, uses={}, cyclesAt={}, usesOf=[0] * 256)
        self.told["out"], self.told["given"] = list(view.out), list(view.given)
        self.told["takenAt"] = [-1] * view.taken
        self.told["outAt"], self.told["givenAt"] = [-1] * len(view.out), [-1] * len(view.given)
        for step, change in enumerate(changes):
            self.add_state(view)
            self.add_step(view, step, change)
            view.forth(change)
        self.add_state(view)
        self.told["memory"] = view.memory.hex()
        self.told["n"], self.told["m"] = len(changes), len(self.told["where"])
        self.add_calls(changes)
        for change in reversed(changes):
            view.back(change)

    def add_state(self, view):
        for name, value in zip(REGISTERS, view.regs):
            self.told[name].append(value)
        self.told["PC"].append(view.pc)
        self.told["C"].append(view.cycles)
        self.told["first"].append(len(self.told["where"]))
        self.told["lines"].append(view.control << 2 | view.irq << 3 | view.nmi << 4)

    def add_step(self, view, step, change):
        told, pc, by_hand = self.told, view.pc, is_by_hand(change)
        told["op"].append(view.memory[pc])
        told["took"].append(change["cycles"])
        is_plain = not by_hand and not is_entry(change)
        turned = change["irq"] + 2 * change["nmi"]
        told["head"].append(len(change["reads"]) << 4 | len(change["stores"]) << 6
                            | (0 if is_plain else 8) | (4 | turned if by_hand else 0))
        if is_plain:
            told["visits"].setdefault(str(pc), []).append(step)
            told["cyclesAt"][str(pc)] = told["cyclesAt"].get(str(pc), 0) + change["cycles"]
            told["usesOf"][pc >> 8] += 1
        elif is_entry(change):
            told["entries"].append(step)
        for address in change["reads"]:
            self.add_access(step, address, 0, False)
        for address, xor in change["stores"]:
            self.add_access(step, address, xor, True)
        told["takenAt"] += [step] * change["takes"]
        if change["out"] is not None:
            told["out"].append(change["out"])
            told["outAt"].append(step)
        told["given"] += change["given"]
        told["givenAt"] += [step] * len(change["given"])

    def add_access(self, step, address, xor, is_store):
        told = self.told
        told["uses"].setdefault(str(address + STORE * is_store), []).append(len(told["where"]))
        told["usesOf"][address >> 8] += 1
        for name, value in zip(("where", "xor", "step", "stores"), (address, xor, step, is_store)):
            told[name].append(value)

    def add_calls(self, changes):
        """A call begins with a JSR or an interrupt, and ends where S is above what it left of it.
        The outermost is the whole run."""
        told, stack = self.told, self.told["S"]
        calls = [[0, -1, 0, max(stack), told["PC"][0], False, -1]]
        for step, change in enumerate(changes):
            is_jump = told["op"][step] == JSR and not told["head"][step] & 8
            if not is_jump and not is_entry(change):
                continue
            start, s = step + 1, stack[step + 1]
            end = next((k for k in range(start + 1, len(stack)) if stack[k] > s), -1)
            calls.append([start, end, None, s, told["PC"][start], is_entry(change), None])
        inner = [self.innermost(calls, k, k + 1) for k in range(len(stack))]
        for call in calls[1:]:
            up = self.innermost(calls, call[0], call[0])
            call[2], call[6] = up[2] + 1, up[0]
        told["calls"], told["depth"] = calls, max(call[2] for call in calls)
        told["within"] = [call[0] for call in inner]

    @staticmethod
    def innermost(calls, state, limit):
        """The last call that began before a limit and has not ended at a state."""
        return next(it for it in reversed(calls) if it[0] < limit and not 0 <= it[1] <= state)


def event_of(view, change):
    """A change by hand as an argument of appendEvent."""
    def registers():
        named = dict(zip("axysp", view.regs))
        return dict(named, pc=view.pc, cycles=view.cycles)
    before = registers()
    stores = [[at, view.memory[at], view.memory[at] ^ xor] for at, xor in change["stores"]]
    view.forth(change)
    return {"before": before, "after": registers(), "stores": stores,
            "given": list(change["given"]), "irq": change["irq"], "nmi": change["nmi"],
            "isReset": change["entry"]}


def by_calls(view, changes, ends):
    """Moves that add each event by hand as a call, and all other records one by one."""
    moves = []
    for step, change in enumerate(changes):
        if is_by_hand(change):
            moves.append(["event", event_of(view, change)])
        else:
            moves.append(["append", ends[step], ends[step + 1]])
            view.forth(change)
    for change in reversed(changes):
        view.back(change)
    return moves


def in_pieces(rng, ends):
    """Moves that add records in pieces, and cut some off again. Beside them how many stay."""
    moves, at, last = [], 0, len(ends) - 1
    for _ in range(MOST_CUTS):
        to = rng.randint(at, last)
        moves.append(["append", ends[at], ends[to]])
        at = rng.randint(0, to) if rng.random() < .7 else to
        moves.append(["truncate", at])
    if rng.random() < .7:
        moves.append(["append", ends[at], ends[last]])
        at = last
    return moves, at


def random_data(rng):
    """The data of a run of no machine: any changes at all, which pages can hold."""
    memory = bytes(rng.choice((0, JSR, rng.randrange(256))) for _ in range(65536))
    data = page_format.begin(memory, rng.randbytes(5), rng.randrange(65536),
                             rng.randrange(10 ** 12), taken=1, out=b"ab", given=b"cde")
    for _ in range(rng.randrange(400)):
        store = lambda: (rng.choice((rng.randrange(65536), 0x1FF)), rng.randrange(256))
        data += page_format.record({
            "cycles": rng.choice((0, 2, 3, 7)), "pc": rng.choice((0, 1, rng.randrange(65536))),
            "regs": [rng.choice((0, rng.randrange(256))) for _ in range(5)],
            "reads": [rng.randrange(65536) for _ in range(rng.randrange(4))],
            "stores": [store() for _ in range(rng.randrange(4))],
            "out": rng.choice((None, None, rng.randrange(256))),
            "given": rng.randbytes(rng.choice((0, 0, 1, 5))), "takes": rng.random() < .1,
            "irq": rng.random() < .1, "nmi": rng.random() < .1, "entry": rng.random() < .1})
    return data


class Trips:
    """Random moves from random steps of a run, each with where it has to lead."""

    def __init__(self, data, rng):
        self.rng = rng
        view, self.changes, _ = whole_run(data)
        self.told = Held(view, self.changes).told
        self.run = page_moves.Run(view, self.changes, b"")
        stores = (store for change in self.changes for store in change["stores"])
        self.bytes = self.bytes_of(view, {at for at, _ in stores})
        self.uses = {}
        for place, moments in self.told["uses"].items():
            self.uses[int(place)] = [self.told["step"][i] + 1 for i in moments]

    def bytes_of(self, view, addresses):
        """What stands at some addresses in each state."""
        found = {at: [view.memory[at]] for at in addresses}
        for change in self.changes:
            view.forth(change)
            for at in addresses:
                found[at].append(view.memory[at])
        for change in reversed(self.changes):
            view.back(change)
        return found

    def set_before(self, at, has_changed):
        """The state after the last change before the one just done."""
        step = at - 1 - (at > 0 and has_changed(at - 1))
        while step >= 0 and not has_changed(step):
            step -= 1
        return max(step + 1, 0)

    def found(self, values, at, holds, by):
        """The nearest state at which a condition begins to hold."""
        begins = [k for k in range(len(values))
                  if holds(values[k]) and (k == 0 or not holds(values[k - 1]))]
        return near(begins, at, by > 0)

    def a_condition(self, at, by):
        rng, (sign, test) = self.rng, self.rng.choice(list(SIGNS.items()))
        columns = {name: self.told[name] for name in (*REGISTERS, "PC")}
        columns["cycles"] = self.told["C"]
        for flag, bit in FLAGS.items():
            columns[flag] = [p >> bit & 1 for p in self.told["P"]]
        columns.update({f"${at:04X}": values for at, values in self.bytes.items()})
        name = rng.choice(list(columns))
        wanted = rng.choice(columns[name])
        shown = rng.choice((str(wanted), f"${wanted:X}", f" ${wanted:02x} "))
        text = rng.choice((name, name.lower())) + rng.choice(("", " ")) + sign + shown
        end = self.found(columns[name], at, lambda value: test(value, wanted), by)
        return ["find", text, by], end

    def one(self):
        """A state, and from there a move with where it leads."""
        rng, run = self.rng, self.run
        at, by = rng.randrange(run.last + 1), rng.choice((-1, 1))
        register, bit = rng.randrange(5), rng.choice(list(FLAGS.values()))
        address = rng.choice(run.pcs)
        place = rng.choice(list(self.uses)) if self.uses else 0
        used = self.uses.get(place, [])
        def has_changed(mask, register):
            return lambda step: self.changes[step]["regs"][register] & mask != 0
        trips = [
            (["over"], run.over(at)), (["backOver"], run.back_over(at)),
            (["set", REGISTERS[register]], self.set_before(at, has_changed(255, register))),
            (["set", "P", 1 << bit], self.set_before(at, has_changed(1 << bit, 4))),
            (["visit", address, by], run.visit(address, at, by > 0)),
            (["use", place % STORE, place >= STORE, by], near(used, at, by > 0)),
            (["out", by], near([k + 1 for k in self.told["outAt"]], at, by > 0)),
            (["entry", by], near(run.entries, at, by > 0)),
            self.a_condition(at, by), self.a_condition(at, by),
        ]
        words, end = rng.choice(trips)
        return [at, *words], end


def questions(name, data, rng):
    """What is asked of a run: a title, the moves, and what has to be held after them."""
    view, changes, ends = whole_run(data)
    is_of_a_machine = not name.startswith("random")
    yield f"{name} whole", None, Held(view, changes).told
    for number in range(3):
        moves, count = in_pieces(rng, ends)
        yield f"{name} in pieces {number}", moves, Held(view, changes[:count]).told
    if is_of_a_machine and any(map(is_by_hand, changes)):
        yield f"{name} by calls", by_calls(view, changes, ends), Held(view, changes).told


def journeys(name, data, rng):
    """The moves of a run of a machine, and where they lead."""
    trips = Trips(data, rng)
    made = [trips.one() for _ in range(TRIPS)]
    return {"trips": [words for words, _ in made]}, {"ends": [end for _, end in made]}


def names_asked():
    """Addresses near names, and how the viewer names each: as an address, and as a place of the
    program. `arg` and `far` are definitions, the others labels."""
    shown = {0x10: ("count", "$0010"), 0x1F: ("count+15", "$001F"), 0x20: ("", "$0020"),
             0x103: ("arg", "$0103"), 0x104: ("", "$0104"), 0x1F4: ("", "$01F4"),
             0x200: ("main", "main"), 0x23F: ("main+63", "main+63"), 0x240: ("", "$0240"),
             0x33F: ("far+63", "$033F"), 0x340: ("", "$0340"), 0x400: ("sub", "sub")}
    names = {"count": 0x10, "arg": 0x103, "far": 0x300, "main": 0x200, "sub": 0x400}
    labels = [(it, names[it]) for it in ("main", "sub")]
    asked = {"names": list(names.items()), "labels": labels, "places": list(shown)}
    return asked, {"names": [list(it) for it in shown.values()]}


def look(compare, runs, seed):
    """Compares runs, each a name and its data, and some random ones. False where there is no
    Node.js."""
    node = os.environ.get("NODE") or shutil.which("node")
    if not node:
        return False
    rng = random.Random(f"columns {seed}")
    runs = [*runs, *((f"random {k}", random_data(rng)) for k in range(RANDOM_RUNS))]
    def question(data, more):
        return {"data": base64.b64encode(data).decode(), "loaded": [], **more}
    asked = [(title, question(data, {"moves": moves}), wanted)
             for name, data in runs for title, moves, wanted in questions(name, data, rng)]
    for name, data in runs[:-RANDOM_RUNS]:
        trips, wanted = journeys(name, data, rng)
        asked.append((f"{name} moves", question(data, trips), wanted))
    places, wanted = names_asked()
    asked.append(("names", question(runs[0][1], places), wanted))
    lines = "".join(json.dumps(it) + "\n" for _, it, _ in asked)
    ran = subprocess.run([node, f"{FOLDER}/page_columns.js"], input=lines, capture_output=True,
                         text=True, timeout=600)
    answers = ran.stdout.splitlines()
    compare("answers of run.js", [len(answers), ran.stderr[:300]], [len(asked), ""])
    for (title, question, wanted), line in zip(asked, answers):
        told = json.loads(line)
        for trip, is_so, end in zip(question.get("trips", []), told.get("ends", []),
                                    wanted.get("ends", [])):
            compare(f"{title}: {trip}", is_so, end)
        for part in sorted(wanted.keys() | told.keys()):
            compare(f"{title}: {part}", told.get(part), wanted.get(part))
    return True
