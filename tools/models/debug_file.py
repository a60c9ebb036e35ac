"""What a debug file of ld65, a listing of 64tass or a report of ACME says, read once more: by what
these tools write, and by cc65's own reader (`src/dbginfo` of cc65), not by the definitions of this
repository. Which of several lines is shown for an address is said in docs/DEFINITIONS.md, and so is
how steps by lines go.

A line of a debug file is a word, a tab, and fields NAME=VALUE with commas between them. Records of a
word have numbers of their own, `id`, and name each other by these, in any order. A `span` is bytes of
a `seg`, which says where it runs. A `line` has a file, a number, its spans, a type (none: assembler,
1: C, 2: a line of a macro or a loop, 3: the text of a macro's parameter) and in `count` how deep it
stands.

A row of a listing has columns with tabs between them: LINE or LINE:FILE; `.` or, of data, `>`, and
the address where its bytes are loaded; the address where they run, if it is another one; the bytes. A
row of data goes on in rows without a number, or in one that stands for so many equal ones. `:FILE`
and the file's name stand where a file begins.

A row of a report has a line's number, the address where its first byte is loaded, up to eight bytes,
and `...` if there are more. The first line behind a file's head may have bytes of a line that is not
shown, and behind the sign FF another file may be read whose head is not shown."""

import collections
import re

from reference import table

FIELD = re.compile(r'(\w+)=("[^"]*"|[^,"]*)(?:,|$)')
TYPED = re.compile(r"[A-Za-z0-9_@.:]{1,63}")
C, ASSEMBLER, MACRO, PARAMETER = 1, 0, 2, 3
# Bytes from `start` on, before `end`, which a line of a file made, and whether they are said to be
# data.
Row = collections.namedtuple("Row", "start end file line kind depth is_data has_code",
                             defaults=[True])


def number(text):
    return int(text, 16) if text.startswith("0x") else int(text)


def counted(count, thing):
    return f"{count} {thing}{'' if count == 1 else 's'}"


class Lines:
    """The rows of a program, and the names of the files that they are of."""

    def __init__(self, rows, files):
        self.rows, self.files = rows, files

    def file_name(self, id):
        return self.files[id]

    def at(self, address):
        """All rows that have an address."""
        return [it for it in self.rows if it.start <= address < it.end]

    def shown(self, address):
        """The row that is shown for an address, or None: of C, else of the assembler, else of a
        macro; of these the narrowest, of equal ones the deepest, and then the first."""
        order = {C: 0, ASSEMBLER: 1, MACRO: 2}
        return min(self.at(address), default=None,
                   key=lambda it: (order[it.kind], it.end - it.start, -it.depth))

    def begun(self, address):
        """Whether a row begins at an address."""
        return any(it.start == address and it.end > address for it in self.rows)

    def starts(self):
        """The addresses at which rows begin."""
        return sorted({it.start for it in self.rows if it.start < it.end})

    def site(self, address):
        """`FILE:LINE` of the row that is shown where a row begins, or None."""
        row = self.shown(address) if self.begun(address) else None
        return row and f"{self.file_name(row.file)}:{row.line}"

    def addresses(self, file, line):
        """Where the rows of a line begin, or of the next line of its file that has bytes: no row that
        is among the bytes of one that begins before it."""
        rows = [it for it in self.rows if self.file_name(it.file) == file and it.line >= line
                and it.start < it.end]
        lowest = min((it.line for it in rows), default=None)
        own = [it for it in rows if it.line == lowest]
        return sorted({it.start for it in own
                       if not any(of.start < it.start and it.end <= of.end for of in own)})

    def begins(self, address):
        """Whether a line begins at an address."""
        row = self.shown(address) if self.begun(address) else None
        return bool(row) and row.start == address

    def line_count(self):
        return len(self.rows)

    def written_name(self, id):
        """The name of a file as it was written, which may have `\\` for `/`."""
        return self.files[id]

    def file_size(self, id):
        """How many bytes a file had, if that is told."""
        return None

    def is_twice(self, id):
        """Whether a file may be one of two."""
        return False

    def segments(self):
        """The rows of the segments that have bytes, and of addresses without a line that is shown."""
        return []

    def told(self, size_now):
        """The rows of `info`. `size_now` gives how many bytes the file of a name has, or None."""
        rows = [f"debug   {self.TOOL}, {counted(self.line_count(), 'line')}"]
        for id, name in sorted(self.files.items()):
            then, now = self.file_size(id), size_now(name)
            found = "not found" if now is None else "found" + (
                " with another size" if then not in (None, now) else "")
            size = "" if then is None else "  " + counted(then, "byte")
            rows.append(f"file    {self.written_name(id)}{size}, {found}"
                        + "; two files have this name, no line of them is shown" * self.is_twice(id))
        return rows + self.segments()


class DebugFile(Lines):
    """The records of a debug file, by word and number."""

    TOOL = "ld65"

    def __init__(self, text):
        self.records = collections.defaultdict(dict)
        for line in text.splitlines():
            word, _, rest = line.partition("\t")
            fields = {name: value.strip('"') for name, value in FIELD.findall(rest)}
            if "id" in fields:
                self.records[word][int(fields["id"])] = fields
        files = {id: it["name"].replace("\\", "/") for id, it in self.records["file"].items()}
        super().__init__([row for row in self.all_rows() if self.is_clear(row)], files)

    def all_rows(self):
        """A row for each span of each line, in the order of the file."""
        for line in self.records["line"].values():
            kind = int(line.get("type", "0"))
            for id in filter(None, line.get("span", "").split("+")):
                span = self.records["span"][int(id)]
                segment = self.records["seg"][int(span["seg"])]
                start = number(segment["start"]) + int(span["start"])
                has_code = self.has_code(segment)
                if kind != PARAMETER:
                    yield Row(start, start + int(span["size"]), int(line["file"]),
                              int(line["line"]), kind, int(line.get("count", "0")),
                              "type" in span or not has_code, has_code)

    def has_code(self, segment):
        return segment.get("type") == "ro" or "oname" in segment

    def segments_at(self, row):
        """How many segments have an address of a row; of a row of code, how many with code."""
        ranges = [(number(it["start"]), number(it["size"])) for it in self.records["seg"].values()
                  if self.has_code(it) or not row.has_code]
        return sum(size > 0 and row.start < start + size and start < row.end
                   for start, size in ranges)

    def is_clear(self, row):
        """Whether it is known whose bytes a row has: not where a file is the main one of two
        modules, nor where two segments run, but for those without code over code."""
        mains = [int(it["file"]) for it in self.records["mod"].values()]
        return mains.count(row.file) < 2 and self.segments_at(row) < 2

    def line_count(self):
        return len(self.records["line"])

    def written_name(self, id):
        return self.records["file"][id]["name"]

    def file_size(self, id):
        return number(self.records["file"][id]["size"])

    def is_twice(self, id):
        return [int(it["file"]) for it in self.records["mod"].values()].count(id) > 1

    def hidden(self):
        """The ranges of the addresses that lines have, and of which none is shown."""
        had, shown = (set().union(*(range(it.start, min(it.end, 65536)) for it in rows))
                      for rows in (self.all_rows(), self.rows))
        missing = had - shown
        starts = sorted(it for it in missing if it - 1 not in missing)
        return list(zip(starts, sorted(it for it in missing if it + 1 not in missing)))

    def segments(self):
        held = [(it["name"], number(it["start"]), number(it["start"]) + number(it["size"]) - 1,
                 f"  {it['oname']}+{int(it['ooffs']):04X}" if "oname" in it else "")
                for _, it in sorted(self.records["seg"].items()) if number(it["size"])]
        rows = [f"segment {name}  {first:04X}-{last:04X}{place}" for name, first, last, place in held]
        for first, last in self.hidden():
            names = "".join(f" {it[0]}" for it in held if it[1] <= last and first <= it[2])
            rows.append(f"hidden  {first:04X}-{last:04X}  no line is shown; segments{names}")
        return rows

    def names(self):
        """The names that its symbols give addresses, in the order of their numbers. One that was
        given for another address is given with this one behind it."""
        found = {}
        for _, it in sorted(self.records["sym"].items()):
            value = number(it["val"]) if "val" in it else None
            if value is not None and value < 65536 and TYPED.fullmatch(it["name"]):
                other = found.get(it["name"], value) != value
                found.setdefault(it["name"] + (f":{value:04X}" if other else ""), value)
        return found


HEAD = re.compile(r":(\d+)\t;\*+  [A-Z][a-z ]+: (.*)")
REPEATED = re.compile(r"\t;\t\t?\.\.\.repeated \d+ times? \((\d+) bytes?\)")
LISTED = r"(\d*)(?::(\d+))?\t([.>])([0-9a-f]+)\t{}((?:[0-9a-f]{{2}} ?)+)(?:\t|$)"


class Listing(Lines):
    """A listing of 64tass with numbers of lines. It has a column of addresses where bytes run only
    if some run elsewhere."""

    TOOL = "64tass"

    def __init__(self, text):
        rows, files, file = [], {}, None
        shape = re.compile(LISTED.format("([0-9a-f]*)\t" if "\t;PC\t" in text else "()"))
        for line in text.splitlines():
            head, listed, repeated = (it.match(line) for it in (HEAD, shape, REPEATED))
            if head:
                file = int(head[1])
                files[file] = head[2].replace("\\", "/")
            if repeated:
                rows[-1] = rows[-1]._replace(end=rows[-1].end + int(repeated[1]))
            if listed:
                file = int(listed[2] or file)
                start, count = int(listed[5] or listed[4], 16), len(listed[6].split())
                if listed[1]:
                    rows.append(Row(start, start + count, file, int(listed[1]), ASSEMBLER, 0,
                                    listed[3] == ">"))
                else:
                    rows[-1] = rows[-1]._replace(end=start + count)
        super().__init__(rows, files)


REPORTED = re.compile(r" *(\d+)  (?:([0-9a-f]{4}) ([0-9a-f]+)(\.\.\.)?)?")
SOURCE = "; ******** Source: "
LENGTHS = {it.opcode: it.length for it in table.ROWS_N}


class Report(Lines):
    """A report of ACME. Bytes of a line are taken to stand one behind another if the next ones stand
    right behind them, or if they are one instruction; otherwise the first alone."""

    TOOL = "ACME"

    def __init__(self, text):
        rows, names, file, is_late, is_open = [], [], None, False, False
        for line in text.split("\n"):
            row = REPORTED.match(line)
            if line.startswith(SOURCE):
                is_late, name = bool(names), line[len(SOURCE):].replace("\\", "/")
                names += [name] * (name not in names)
                file = names.index(name)
            elif row:
                file = None if "\xFF" in line else file
                if row[2] and is_open and rows[-1].end != int(row[2], 16):
                    rows[-1] = rows[-1]._replace(end=rows[-1].start + 1)
                if row[2]:
                    start, shown = int(row[2], 16), bytes.fromhex(row[3])
                    end = start + len(shown) + bool(row[4])
                    is_taken = file is not None and not is_late
                    is_open = is_taken and len(shown) != LENGTHS.get(shown[0])
                    rows += [Row(start, end, file, int(row[1]), ASSEMBLER, 0, False)] * is_taken
                is_late = False
        if is_open:
            rows[-1] = rows[-1]._replace(end=rows[-1].start + 1)
        super().__init__(rows, dict(enumerate(names)))


def lines_in(text):
    forms = ("version", DebugFile), ("\n" + SOURCE, Report), ("", Listing)
    return next(form for front, form in forms if text.startswith(front))(text)


# A state of a run: what comes next, and the stack pointer.
State = collections.namedtuple("State", "pc s opcode")
JSR, RTS, RTI, BRK = 0x20, 0x60, 0x40, 0x00


def line_forwards(info, states, at):
    """The first later state of a run at which another line begins, within no call of that run; or
    the last state."""
    here, call = info.site(states[at].pc), None
    for n in range(at + 1, len(states)):
        before, now = states[n - 1], states[n]
        if call is None and before.opcode in (JSR, BRK):
            call = before.s
        if call is not None and now.s >= call:
            call = None
        if call is None and info.begins(now.pc) and info.site(now.pc) != here:
            return n
    return len(states) - 1


def line_back(info, states, at):
    """The last earlier state at which a line begins, within no call that has returned since; or the
    first state."""
    highest = -1
    for n in range(at - 1, -1, -1):
        if states[n].opcode in (RTS, RTI):
            highest = max(highest, states[n + 1].s)
        if info.begins(states[n].pc) and highest <= states[n].s:
            return n
    return 0
