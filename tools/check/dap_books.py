"""Random requests of tools/check/dap: good ones, and ones with members that lack, are of another
type, or name what there is not. A book is kept of what the adapter has told, by its messages alone:
threads, frames, references, numbers of breakpoints, and what it says that it can do. Each message
has to agree with the book. After each request `threads` is asked, so that each event belongs to
one request."""

import base64
import json
import os
import random

import dap_sessions
import page_runs
from testing import TOP, read, write

MOVES = ("next", "stepIn", "stepOut", "stepBack", "continue", "reverseContinue", "goto", "restart")
# What is served only where the adapter has said so, and what has no answer here at all.
CAPABLE = {
    "completions": "supportsCompletionsRequest", "dataBreakpointInfo": "supportsDataBreakpoints",
    "setDataBreakpoints": "supportsDataBreakpoints", "disassemble": "supportsDisassembleRequest",
    "exceptionInfo": "supportsExceptionInfoRequest", "gotoTargets": "supportsGotoTargetsRequest",
    "goto": "supportsGotoTargetsRequest", "setInstructionBreakpoints": "supportsInstructionBreakpoints",
    "readMemory": "supportsReadMemoryRequest", "restart": "supportsRestartRequest",
    "setVariable": "supportsSetVariable", "stepBack": "supportsStepBack",
    "reverseContinue": "supportsStepBack", "writeMemory": "supportsWriteMemoryRequest",
    "setExpression": "supportsSetExpression", "restartFrame": "supportsRestartFrame",
    "stepInTargets": "supportsStepInTargetsRequest", "cancel": "supportsCancelRequest",
    "setFunctionBreakpoints": "supportsFunctionBreakpoints", "modules": "supportsModulesRequest",
    "loadedSources": "supportsLoadedSourcesRequest", "attach": "none",
    "terminateThreads": "supportsTerminateThreadsRequest", "locations": "none", "é": "none",
    "breakpointLocations": "supportsBreakpointLocationsRequest",
}
WRONG = (None, True, -1, 0, 3, 10 ** 18, 1.5, "", "x", "é😀", "0x", "0x10000", [], {}, [3], {"a": 1})
LINES = ("step", "back", "go 30", "regs", "mem $0200", "help", "break PC", "watch $10", "put $20 1",
         "set A 7", "", "  ", "nonsense", "A", "$10", "é", "x" * 300, "step\nregs", "where", "reload",
         "save f", "irq on", "nmi", "reset", "redo", "display $10", "history 4", "list", "type \"a\"")
CONDITIONS = (None, "A=0", "X>3 and C=1", "Q==", "", "A=0 nonsense")


class Book:
    """What the adapter has told in one session, and the requests that are made of it."""

    def __init__(self, adapter, want, where, path, dice):
        self.adapter, self.want, self.where, self.path, self.dice = adapter, want, where, path, dice
        self.count = read(path).count(b"\n") + 1
        self.threads, self.frames, self.references, self.targets = {1}, set(), {}, []
        self.numbers, self.placed, self.data = set(), {}, []
        self.is_over, self.log = False, []

    def begin(self, launch):
        """The beginning of a session, by a client that can one thing or another."""
        dice = self.dice
        self.first = dice.randrange(2)
        self.invalidates = dice.random() < 0.5
        self.can = self.ask("initialize", adapterID="mos65", linesStartAt1=bool(self.first),
                            columnsStartAt1=bool(self.first),
                            supportsInvalidatedEvent=self.invalidates)[1]
        self.ask("launch", program=self.path, history=300, steps=dice.choice((20, 300)),
                 stopOnEntry=dice.random() < 0.7, **launch)
        self.ask("configurationDone")

    def ask(self, command, **arguments):
        """Makes a request and the `threads` behind it. Whether it was served, and what it has."""
        self.log.append((command, arguments))
        self.adapter.events.clear()
        body = self.adapter.ask(command, good=None, **arguments)
        is_good = self.adapter.was_good
        before = [it["event"] for it in self.adapter.events]
        if not self.is_over and command not in ("initialize", "disconnect"):
            told = self.adapter.ask("threads", good=None)
            if self.adapter.was_good:
                self.threads = {it["id"] for it in told["threads"]}
        self.saw(command, arguments, is_good, before)
        return is_good, body

    def right(self, holds, what):
        """Counts what has to hold; if it does not, the last requests are told."""
        last = "" if holds else json.dumps(self.log[-6:], ensure_ascii=False)
        self.want(holds, f"{self.where}: {what}; last requests {last[:900]}")

    def saw(self, command, arguments, is_good, before):
        """The events of a request, and what is not known any more after it."""
        events, names = self.adapter.events, [it["event"] for it in self.adapter.events]
        self.right("stopped" not in before, f"a stop before the answer to {command}: {before}")
        self.right(names.count("stopped") <= 1, f"events of {command}: {names}")
        starts = command == "launch" and is_good
        self.right(names.count("initialized") == starts, f"events of {command}: {names}")
        can_move = command in (*MOVES, "configurationDone", "evaluate")
        self.right(is_good and can_move or "stopped" not in names, f"events of {command}: {names}")
        if is_good and command in (*MOVES, "configurationDone"):
            self.right("stopped" in names or "terminated" in names, f"no stop after {command}")
        self.right(self.invalidates or "invalidated" not in names,
                   f"a client cannot take {names} of {command}")
        for it in events:
            if it["event"] == "stopped":
                self.saw_stop(it["body"])
        if "terminated" in names:
            self.right(not self.is_over, "a second end")
            self.is_over = command != "launch"
        if is_good and (can_move or names):
            self.frames, self.references = set(), {}

    def saw_stop(self, body):
        ids = body["hitBreakpointIds"]
        placed = {it for list_ in self.placed.values() for it in list_}
        self.right(len(set(ids)) == len(ids) and set(ids) <= placed, f"{body}, and there are {placed}")
        self.right(body["threadId"] in self.threads, f"{body}, and threads {self.threads}")

    # Requests -----------------------------------------------------------------------------------

    def spoiled(self, arguments):
        """Arguments of which one may lack, or be of another type, or name what there is not."""
        if self.dice.random() > 0.15 or not arguments:
            return arguments, False
        name, made = self.dice.choice(sorted(arguments)), dict(arguments)
        if self.dice.random() < 0.3:
            del made[name]
        else:
            made[name] = self.dice.choice(WRONG)
        return made, True

    def make(self):
        """A random request."""
        kinds = [self.move] * 6 + [self.stack] * 3 + [self.scopes] * 2 + [self.variables] * 3 + [
            self.set_variable, self.set_expression, self.evaluate, self.evaluate,
            self.breakpoints, self.breakpoints, self.locations,
            self.instructions, self.functions, self.watch, self.goto, self.memory, self.written, self.rows,
            self.completed, self.unserved, self.small]
        self.dice.choice(kinds)()

    def sent(self, command, **arguments):
        """Makes a request that may be spoiled. What it has if it is served as it was meant."""
        made, is_spoiled = self.spoiled(arguments)
        is_good, body = self.ask(command, **made)
        able = CAPABLE.get(command)
        if able and not self.can.get(able):
            self.right(not is_good, f"{command} is served without {able}")
        return (is_good, is_spoiled, body, made)

    def move(self):
        command = self.dice.choice(MOVES[:6])
        more = {"granularity": self.dice.choice(("statement", "line", "instruction"))}
        more = more if self.dice.random() < 0.4 else {}
        is_good, is_spoiled, body, made = self.sent(command, threadId=1, **more)
        self.right(is_good or is_spoiled, f"{command} is refused: {body}")
        is_known = made.get("threadId") == 1
        self.right(is_known or not is_good, f"{command} of {made} is served")

    def stack(self):
        first = self.dice.choice((0, 0, 1, 5))
        is_good, is_spoiled, body, _ = self.sent(
            "stackTrace", threadId=1, startFrame=first, levels=self.dice.choice((0, 1, 20)))
        if not is_good:
            self.right(is_spoiled, f"no stack: {body}")
            return
        frames = body["stackFrames"]
        ids = [it["id"] for it in frames]
        self.right(len(set(ids)) == len(ids) <= body["totalFrames"], f"frames {frames}")
        for it in frames:
            low = self.first if "source" in it else 0
            self.right(low <= it["line"] < self.count + self.first and it["column"] >= 0, f"{it}")
        self.frames |= set(ids)

    def scopes(self):
        known = sorted(self.frames)
        id_ = self.dice.choice(known) if known else 1
        is_good, is_spoiled, body, made = self.sent("scopes", frameId=id_)
        self.right(is_good or is_spoiled or not known, f"no scopes of {made}: {body}")
        if is_good:
            numbers = [it["variablesReference"] for it in body["scopes"]]
            self.right(len(set(numbers)) == len(numbers) and all(0 < it < 2 ** 31 for it in numbers),
                       f"scopes {body}")
            self.references.update({it: None for it in numbers})

    def variables(self):
        known = sorted(self.references)
        number = self.dice.choice(known) if known else self.dice.choice((1, 5))
        page = {"start": 2, "count": 3} if self.dice.random() < 0.6 else {}
        is_good, is_spoiled, body, made = self.sent("variables", variablesReference=number, **page)
        self.right(is_good or is_spoiled or not known, f"no variables of {made}: {body}")
        if not is_good:
            return
        rows = body["variables"]
        self.right(len({it["name"] for it in rows}) == len(rows), f"names twice in {rows}")
        if not is_spoiled and "count" in page:
            self.right(len(rows) <= 3, f"more than three rows: {rows}")
        self.references[number] = rows if not page and not is_spoiled else None
        for it in self.dice.sample(rows, min(2, len(rows))):
            if "evaluateName" in it:
                told = self.ask("evaluate", expression=it["evaluateName"], context="watch")
                self.right(told[0] and told[1]["result"] == it["value"], f"{it} is {told}")

    def set_variable(self):
        known = [(number, it) for number, rows in sorted(self.references.items())
                 for it in rows or []]
        if not known:
            self.variables()
            return
        number, row = self.dice.choice(known)
        value = self.dice.choice(("1", "0", "$12", "blue", "", "-1", "256", "65536", "1 2",
                                  row["value"], "$42" + row["value"][3:]))
        is_good, is_spoiled, body, made = self.sent("setVariable", variablesReference=number,
                                                    name=row["name"], value=value)
        if is_good and not is_spoiled:
            rows = self.ask("variables", variablesReference=number)[1]["variables"]
            shown = [it["value"] for it in rows if it["name"] == row["name"]]
            self.right(shown == [body["value"]], f"{row['name']} is set to {body}, and is {shown}")

    def set_expression(self):
        names = [it["evaluateName"] for rows in self.references.values() for it in rows or []
                 if "evaluateName" in it]
        name = self.dice.choice([*names, "A", "$0080", "x y", "", "cycles"])
        value = self.dice.choice(("1", "0", "$12", "blue", "", "-1", "256", "65536", "1 2"))
        is_good, is_spoiled, body, made = self.sent("setExpression", expression=name, value=value)
        if is_good and not is_spoiled:
            told = self.ask("evaluate", expression=name, context="watch")
            self.right(told[0] and told[1]["result"] == body["value"],
                       f"{name} is set to {body}, and is {told}")

    def evaluate(self):
        context = self.dice.choice(("repl", "repl", "watch", "hover", "clipboard", "variables"))
        text = self.dice.choice(LINES)
        arguments = {"expression": text, "context": context}
        if self.frames and self.dice.random() < 0.3:
            arguments["frameId"] = self.dice.choice(sorted(self.frames))
        is_good, _, body, _ = self.sent("evaluate", **arguments)
        if is_good and "memoryReference" in body:
            told = self.ask("readMemory", memoryReference=body["memoryReference"], count=1)
            self.right(told[0], f"{body} names no memory: {told}")

    def tests(self):
        made = {}
        if self.dice.random() < 0.4:
            made["condition"] = self.dice.choice(CONDITIONS)
        if self.dice.random() < 0.2:
            made["hitCondition"] = self.dice.choice(("1", "2", "0", "x", ">2", ""))
        return {name: it for name, it in made.items() if it is not None}

    def logs(self):
        texts = ("here", "{A} {nowhere} {PC", "", "}{}{$0200}", "é{é}", 3)
        return {"logMessage": self.dice.choice(texts)} if self.dice.random() < 0.3 else {}

    def took(self, kind, asked, is_good, is_spoiled, body):
        """The numbers of a list of breakpoints that was set."""
        if not is_good:
            self.right(is_spoiled, f"no breakpoints: {body}")
            return
        told = body["breakpoints"]
        ids = [it["id"] for it in told if "id" in it]
        self.right(is_spoiled or len(told) == len(asked), f"{len(asked)} asked, told {told}")
        self.right(len(set(ids)) == len(ids) and not set(ids) & self.numbers, f"numbers {ids}")
        for it in told:
            self.right(it["verified"] or it.get("message"), f"no reason: {it}")
            self.right("line" not in it or "source" not in it or it["line"] >= self.first, f"{it}")
        self.numbers |= set(ids)
        self.placed[kind] = set(ids)

    def breakpoints(self):
        asked = [{"line": self.dice.randrange(-1, self.count + 4), **self.tests(), **self.logs()}
                 for _ in range(self.dice.randrange(4))]
        if asked and self.dice.random() < 0.1:
            asked[0] = self.dice.choice(WRONG)
        path = self.path if self.dice.random() < 0.9 else "/none"
        is_good, is_spoiled, body, made = self.sent(
            "setBreakpoints", source={"path": path}, breakpoints=asked)
        self.took(made.get("source") == {"path": self.path}, asked, is_good, is_spoiled, body)

    def locations(self):
        first = self.dice.randrange(-1, self.count + 4)
        more = {"endLine": first + self.dice.randrange(-2, 9)} if self.dice.random() < 0.6 else {}
        is_good, is_spoiled, body, _ = self.sent("breakpointLocations", source={"path": self.path},
                                                 line=first, **more)
        if is_good and not is_spoiled:
            told = [it["line"] for it in body["breakpoints"]]
            self.right(told == sorted(set(told)) and all(
                max(first, self.first) <= it <= more.get("endLine", first) for it in told),
                f"places from {first} to {more}: {told}")

    def instructions(self):
        asked = [{"instructionReference": self.dice.choice(("0x0200", "0x0205", "0x8000", "0xFFFF",
                                                            "none", "0x10000", "0x02")),
                  "offset": self.dice.choice((0, 0, 1, -1, 10 ** 9)), **self.tests()}
                 for _ in range(self.dice.randrange(3))]
        is_good, is_spoiled, body, _ = self.sent("setInstructionBreakpoints", breakpoints=asked)
        self.took("instructions", asked, is_good, is_spoiled, body)

    def functions(self):
        asked = [{"name": self.dice.choice(("start", "main", "loop", "done", "$0205", "nowhere", "A",
                                            "start+1", "", "é")), **self.tests()}
                 for _ in range(self.dice.randrange(3))]
        is_good, is_spoiled, body, _ = self.sent("setFunctionBreakpoints", breakpoints=asked)
        self.took("functions", asked, is_good, is_spoiled, body)

    def watch(self):
        name = self.dice.choice(("$10", "A", "none", "$F000", "PC", "C", "$0200", "0x0010"))
        more = ({}, {"variablesReference": 5}, {"bytes": self.dice.choice((0, 1, 3, 70000))},
                {"asAddress": True, "bytes": 2})
        is_good, _, body, _ = self.sent("dataBreakpointInfo", name=name, **self.dice.choice(more))
        ways = []
        if is_good and body["dataId"] is not None:
            ways = body.get("accessTypes", ["write"])
            self.data.append(body["dataId"])
        asked = [{"dataId": self.dice.choice([*self.data, "none"]), "accessType":
                  self.dice.choice([*ways, "write"])} for _ in range(self.dice.randrange(3))]
        is_good, is_spoiled, body, _ = self.sent("setDataBreakpoints", breakpoints=asked)
        self.took("data", asked, is_good, is_spoiled, body)

    def goto(self):
        line = self.dice.randrange(self.first, self.count + 3)
        is_good, _, body, _ = self.sent("gotoTargets", source={"path": self.path}, line=line)
        targets = body["targets"] if is_good else []
        ids = [it["id"] for it in targets]
        self.right(len(set(ids)) == len(ids), f"targets {targets}")
        id_ = self.dice.choice([*ids, 99999])
        if self.dice.random() < 0.5:
            is_good, is_spoiled, body, _ = self.sent("goto", threadId=1, targetId=id_)
            self.right(is_good == (id_ in ids) or is_spoiled, f"goto {id_} of {targets}: {body}")

    def memory(self):
        first, offset = self.dice.choice((0, 0x200, 0xFFFE, 0xFFFF)), self.dice.choice((0, 0, 1, -1))
        count = self.dice.choice((0, 1, 4, 300))
        is_good, is_spoiled, body, _ = self.sent("readMemory", memoryReference=f"0x{first:04X}",
                                                 offset=offset, count=count)
        if is_good and not is_spoiled:
            there = len(base64.b64decode(body.get("data", ""), validate=True))
            told = int(body["address"], 0)
            self.right(told == first + offset, f"memory of {first} {offset}: {body}")
            self.right(there + body.get("unreadableBytes", 0) == count, f"{count}: {body}")

    def written(self):
        data = bytes(self.dice.randrange(256) for _ in range(self.dice.randrange(5)))
        first = self.dice.choice((0x20, 0x300, 0xF000, 0xFFFE))
        partial = self.dice.choice(({}, {"allowPartial": True}, {"allowPartial": False}))
        is_good, is_spoiled, body, made = self.sent(
            "writeMemory", memoryReference=f"0x{first:04X}",
            data=base64.b64encode(data).decode(), **partial)
        if is_good and not is_spoiled:
            wrote = body.get("bytesWritten", len(data))
            self.right(wrote == len(data) or made.get("allowPartial"), f"{made}: {body}")
            told = self.ask("readMemory", memoryReference=f"0x{first:04X}", count=wrote)[1]
            self.right(base64.b64decode(told.get("data", "")) == data[:wrote], f"{made}: {told}")

    def rows(self):
        first, count = self.dice.choice((0, 0x200, 0xFFFE)), self.dice.choice((0, 1, 5, 40))
        arguments = {"memoryReference": f"0x{first:04X}", "instructionCount": count,
                     "instructionOffset": self.dice.choice((0, -3, 4, -100))}
        if self.dice.random() < 0.2:
            arguments["offset"] = self.dice.choice((1, -1))
        is_good, is_spoiled, body, _ = self.sent("disassemble", **arguments)
        if is_good and not is_spoiled:
            told = body["instructions"]
            places = [int(it["address"], 0) for it in told]
            self.right(len(told) == count and places == sorted(set(places)), f"{arguments}: {told}")

    def completed(self):
        text = self.dice.choice(("", "st", "break ", "put lo", "é ", "x y z", "mem"))
        column = self.dice.randrange(len(text) + 2) + self.first
        is_good, _, body, made = self.sent("completions", text=text, column=column)
        for it in body["targets"] if is_good else []:
            start, length = it.get("start", 0), it.get("length", 0)
            is_within = 0 <= start and start + length <= len(made.get("text") or "") + 1
            self.right(it["label"] and is_within, f"{made}: {it}")

    def unserved(self):
        served = [it for it, able in CAPABLE.items() if not self.can.get(able)]
        command = self.dice.choice(served)
        is_good, body = self.ask(command, **self.dice.choice(({}, {"threadId": 1}, {"frameId": 1})))
        self.right(not is_good, f"{command} is served: {body}")

    def small(self):
        command = self.dice.choice(("setExceptionBreakpoints", "exceptionInfo", "pause", "cancel", "restart",
                                    "configurationDone", "initialize", "launch"))
        arguments = {"setExceptionBreakpoints": {"filters": []}, "exceptionInfo": {"threadId": 1},
                     "pause": {"threadId": 1}, "launch": {"program": self.path}}.get(command, {})
        is_good, is_spoiled, body, _ = self.sent(command, **arguments)
        if command in ("initialize", "launch"):
            self.right(not is_good, f"{command} a second time: {body}")
        if command in ("setExceptionBreakpoints", "cancel", "restart"):
            self.right(is_good or is_spoiled, f"{command}: {body}")


def sessions(adapter_of, want, folder, count, seed=0):
    """Random sessions over the programs, one after another, of 200 requests and of `count` in all or
    a few more. How many were made."""
    asked, index = 0, 0
    while asked < count:
        row = dap_sessions.PROGRAMS[index % len(dap_sessions.PROGRAMS)]
        dice = random.Random(f"{seed} {index} {row[0]}")
        path, symbols = dap_sessions.file_of(row[0], folder)
        adapter = adapter_of()
        book = Book(adapter, want, f"{row[0]}, session {index}", path, dice)
        more = {"symbols": symbols} if symbols else {}
        book.begin({**row[2], **more})
        while adapter.sent < 200 and not book.is_over:
            book.make()
        book.ask("disconnect")
        adapter.close()
        asked, index = asked + adapter.sent, index + 1
    return asked
