"""Tokens, expressions, lines and sources: the assembler and its listing."""

from collections import ChainMap, namedtuple

import table

# The kinds of source faults ---------------------------------------------------

KINDS = {1: "TooLarge", 2: "LineTooLong", 3: "NotAscii", 4: "Syntax",
         5: "ReservedName", 6: "DuplicateName", 7: "UnknownHere",
         8: "NoSuchForm", 9: "TooManyNames", 10: "OriginRange",
         11: "ExprRange", 12: "DivideByZero", 13: "NotOneLine",
         20: "UndefinedName", 21: "ByteRange", 22: "WordRange",
         23: "BranchRange", 24: "PastEnd", 25: "Overlap", 26: "PortAddress",
         27: "ExprRange", 28: "DivideByZero", 99: "OutOfMemory"}

SOURCE_MOST = 1048576
LINE_MOST = 255
NAMES_MOST = 8192
WORD_MOST = 31
NESTING_MOST = 8


class AsmFault(Exception):
    def __init__(self, line, kind):
        Exception.__init__(self, line, kind)
        self.line, self.kind = line, kind

    def text(self):
        return "line %d %s %d" % (self.line, KINDS[self.kind], self.kind)


class Kind(Exception):
    """A fault of one line; the line's number is added by the caller."""

    def __init__(self, kind):
        Exception.__init__(self, kind)
        self.kind = kind


class Syntax(Exception):
    """The bytes are no list of tokens, or the tokens are no line."""


# Tokens ---------------------------------------------------------------------

Token = namedtuple("Token", "kind start text")   # Word Directive Number Char Str Symbol

LETTERS = frozenset(b"ABCDEFGHIJKLMNOPQRSTUVWXYZabcdefghijklmnopqrstuvwxyz")
DIGITS = frozenset(b"0123456789")
WORD_BYTES = LETTERS | DIGITS | frozenset(b"_")
HEX_DIGITS = frozenset(b"0123456789ABCDEFabcdef")
BINARY_DIGITS = frozenset(b"01")
BLANKS = frozenset(b" \t")
SYMBOLS = frozenset(b":*=,#!()[]<>+-/&|^")
PRINTABLE = frozenset(range(0x20, 0x7F))


def legal(byte):
    """May the byte stand in a line at all?"""
    return byte in PRINTABLE or byte == 9


def tokens(line):
    """The tokens of a line, in order; a comment has none."""
    if not all(legal(b) for b in line):
        raise Syntax
    found = []
    at, end = 0, len(line)

    def run(start, alphabet):
        stop = start
        while stop < end and line[stop] in alphabet:
            stop += 1
        return stop

    def number(start, alphabet):
        stop = run(start, alphabet)
        if stop == start or (stop < end and line[stop] in WORD_BYTES):
            raise Syntax
        return stop

    while at < end:
        byte = line[at]
        if byte in BLANKS:
            at += 1
            continue
        if byte == ord(";"):
            break
        if byte in LETTERS:
            kind, stop = "Word", run(at, WORD_BYTES)
            if stop - at > WORD_MOST:
                raise Syntax
        elif byte == ord("."):
            kind, stop = "Directive", run(at + 1, LETTERS)
            if stop == at + 1:
                raise Syntax
        elif byte in DIGITS:
            kind, stop = "Number", number(at, DIGITS)
        elif byte == ord("$"):
            kind, stop = "Number", number(at + 1, HEX_DIGITS)
        elif byte == ord("%"):
            kind, stop = "Number", number(at + 1, BINARY_DIGITS)
        elif byte == ord("'"):
            kind, stop = "Char", at + 3
            if stop > end or line[at + 1] not in PRINTABLE or line[at + 2] != byte:
                raise Syntax
        elif byte == ord('"'):
            kind, stop = "Str", line.find(b'"', at + 1) + 1
            if stop < at + 3 or not all(b in PRINTABLE for b in line[at:stop]):
                raise Syntax
        elif byte in SYMBOLS:
            kind, stop = "Symbol", at + 1
        else:
            raise Syntax
        found.append(Token(kind, at, line[at:stop]))
        at = stop
    return found


# Expressions ----------------------------------------------------------------
# Trees: ("lit", n), ("name", bytes), ("here",), ("neg", e),
#        ("op", sign, left, right), ("<", e), (">", e)

class Reader:
    """A place in a list of tokens; names met are noted down."""

    def __init__(self, found):
        self.found, self.at, self.names = found, 0, []

    def symbol(self, ahead=0):
        """The symbol that stands `ahead` tokens further, or None."""
        k = self.at + ahead
        if k < len(self.found) and self.found[k].kind == "Symbol":
            return self.found[k].text
        return None

    def accept(self, text):
        if self.symbol() == text:
            self.at += 1
            return True
        return False

    def expect(self, text):
        if not self.accept(text):
            raise Syntax

    def kind(self):
        return self.found[self.at].kind if self.at < len(self.found) else None

    def take(self, kind):
        if self.kind() != kind:
            raise Syntax
        self.at += 1
        return self.found[self.at - 1].text

    def name(self):
        word = self.take("Word")
        self.names.append(word)
        return word

    def finished(self):
        return self.at == len(self.found)


def parse_expr(reader):
    for prefix in (b"<", b">"):
        if reader.accept(prefix):
            return (prefix.decode(), parse_sum(reader, 0))
    return parse_sum(reader, 0)


def parse_sum(reader, depth):
    left = parse_unary(reader, depth)
    while reader.symbol() in (b"+", b"-", b"*", b"/", b"&", b"|", b"^"):
        sign = reader.take("Symbol").decode()
        left = ("op", sign, left, parse_unary(reader, depth))
    return left


def parse_unary(reader, depth):
    if reader.accept(b"-"):
        return ("neg", parse_primary(reader, depth))
    return parse_primary(reader, depth)


def parse_primary(reader, depth):
    kind = reader.kind()
    if kind == "Number":
        return ("lit", number_value(reader.take(kind)))
    if kind == "Char":
        return ("lit", reader.take(kind)[1])
    if kind == "Word":
        return ("name", reader.name())
    if reader.accept(b"*"):
        return ("here",)
    if reader.accept(b"["):
        if depth == NESTING_MOST:
            raise Syntax
        inner = parse_sum(reader, depth + 1)
        reader.expect(b"]")
        return inner
    raise Syntax


def number_value(text):
    if text[:1] == b"$":
        return int(text[1:], 16)
    if text[:1] == b"%":
        return int(text[1:], 2)
    return int(text)


def names_in(tree):
    if tree[0] == "name":
        return [tree[1]]
    if tree[0] == "op":
        return names_in(tree[2]) + names_in(tree[3])
    if tree[0] in ("neg", "<", ">"):
        return names_in(tree[1])
    return []


# The faults of an expression: "UnknownName", "Range", "DivideByZero".

class ExprFault(Exception):
    pass


def evaluate(tree, names, here):
    """The number of an expression; an unknown name comes before all else."""
    if any(name not in names for name in names_in(tree)):
        raise ExprFault("UnknownName")
    return _value(tree, names, here)


def _in_range(number):
    if not -2 ** 31 <= number <= 2 ** 31 - 1:
        raise ExprFault("Range")
    return number


def _value(tree, names, here):
    kind = tree[0]
    if kind == "lit":
        return _in_range(tree[1])
    if kind == "name":
        return names[tree[1]]
    if kind == "here":
        return here
    if kind == "neg":
        return _in_range(-_value(tree[1], names, here))
    if kind == "<":
        return _value(tree[1], names, here) % 256
    if kind == ">":
        return _value(tree[1], names, here) // 256 % 256
    _, sign, left, right = tree
    a = _value(left, names, here)
    b = _value(right, names, here)
    if sign == "+":
        return _in_range(a + b)
    if sign == "-":
        return _in_range(a - b)
    if sign == "*":
        return _in_range(a * b)
    if sign == "/":
        if b == 0:
            raise ExprFault("DivideByZero")
        quotient = abs(a) // abs(b)                      # cuts toward zero
        return _in_range(quotient if (a < 0) == (b < 0) else -quotient)
    if not (0 <= a <= 65535 and 0 <= b <= 65535):
        raise ExprFault("Range")
    return {"&": a & b, "|": a | b, "^": a ^ b}[sign]


# Lines ----------------------------------------------------------------------

# label, definition: bytes or None.  operation: None or one of
#   ("mnemonic", name, shape, force, tree)   shape: None A # e e,X e,Y (e) (e,X) (e),Y
#   ("origin", tree)  ("bytes", [("expr", tree) | ("str", bytes)])
#   ("words", [tree]) ("dwords", [tree]) ("reserve", tree) ("end",)
# A definition's tree stands in `operation` as ("define", tree).
Line = namedtuple("Line", "label definition operation names")


def parse_line(profile, line):
    """A line, with every word taken as a name where a name may stand."""
    reader = Reader(tokens(line))
    label = definition = operation = None
    if reader.kind() == "Word" and reader.symbol(1) == b"=":
        definition = reader.name()
        reader.expect(b"=")
        operation = ("define", parse_expr(reader))
    else:
        if reader.kind() == "Word" and reader.symbol(1) == b":":
            label = reader.name()
            reader.expect(b":")
        if not reader.finished():
            operation = parse_operation(profile, reader)
    if not reader.finished():
        raise Syntax
    return Line(label, definition, operation, tuple(reader.names))


def parse_operation(profile, reader):
    if reader.kind() == "Word":
        mnemonic = table.mnemonic_of(profile, reader.take("Word"))
        if mnemonic is None:
            raise Syntax
        return ("mnemonic", mnemonic) + parse_operand(reader)
    if reader.accept(b"*"):
        reader.expect(b"=")
        return ("origin", parse_expr(reader))
    directive = reader.take("Directive").upper()
    if directive == b".BYTE":
        return ("bytes", parse_list(reader, parse_item))
    if directive == b".WORD":
        return ("words", parse_list(reader, parse_expr))
    if directive == b".DBYTE":
        return ("dwords", parse_list(reader, parse_expr))
    if directive == b".RES":
        return ("reserve", parse_expr(reader))
    if directive == b".END":
        return ("end",)
    raise Syntax


def parse_list(reader, parse):
    items = [parse(reader)]
    while reader.accept(b","):
        items.append(parse(reader))
    return items


def parse_item(reader):
    if reader.kind() == "Str":
        return ("str", reader.take("Str")[1:-1])
    return ("expr", parse_expr(reader))


def index_word(reader):
    """The X or Y after a comma."""
    word = reader.take("Word").upper()
    if word not in (b"X", b"Y"):
        raise Syntax
    return word.decode()


def parse_operand(reader):
    """(shape, force, tree)"""
    if reader.finished():
        return (None, False, None)
    rest = reader.found[reader.at:]
    if len(rest) == 1 and rest[0].kind == "Word" and rest[0].text in (b"A", b"a"):
        reader.at += 1
        return ("A", False, None)
    if reader.accept(b"#"):
        return ("#", False, parse_expr(reader))
    if reader.accept(b"("):
        tree = parse_expr(reader)
        if reader.accept(b","):
            if index_word(reader) != "X":
                raise Syntax
            reader.expect(b")")
            return ("(e,X)", False, tree)
        reader.expect(b")")
        if reader.accept(b","):
            if index_word(reader) != "Y":
                raise Syntax
            return ("(e),Y", False, tree)
        return ("(e)", False, tree)
    force = reader.accept(b"!")
    tree = parse_expr(reader)
    shape = "e"
    if reader.accept(b","):
        shape = "e," + index_word(reader)
    return (shape, force, tree)


def reserved(profile, word):
    return (word.upper() in (b"A", b"X", b"Y")
            or table.mnemonic_of(profile, word) is not None)


# Forms and sizes ----------------------------------------------------------------

PAIRS = {"e": ("Zp", "Abs"), "e,X": ("ZpX", "AbsX"), "e,Y": ("ZpY", "AbsY")}
SINGLE = {None: ("Imp",), "A": ("Acc",), "#": ("Imm",), "(e,X)": ("IndX",),
          "(e),Y": ("IndY",), "(e)": ("Ind", "IndZ")}


def forms(profile, mnemonic, shape, force):
    """The rows that the operand may take: none, one, or (zero page, absolute)."""
    def rows(modes):
        found = [table.encode(profile, mnemonic, mode) for mode in modes]
        return [row for row in found if row is not None]
    if shape in SINGLE:
        return rows(SINGLE[shape])
    if force:
        return rows(PAIRS[shape][1:])
    if shape == "e" and rows(("Rel",)):
        return rows(("Rel",))
    return rows(PAIRS[shape])


# Layout of one line: what the lines before it and its own label fix ----------

# row: the table row of a mnemonic; next: the next line's address.
Layout = namedtuple("Layout", "line address row size next value")

EXPR_LAYOUT = {"UnknownName": 7, "Range": 11, "DivideByZero": 12}
EXPR_VALUE = {"UnknownName": 20, "Range": 27, "DivideByZero": 28}


def placing(tree, names, address):
    """The value of an expression that places, sizes or defines."""
    try:
        return evaluate(tree, names, address)
    except ExprFault as fault:
        raise Kind(EXPR_LAYOUT[fault.args[0]])


def read_text(profile, text):
    """Kinds 2 to 5 of one line's text, in their order."""
    if len(text) > LINE_MOST:
        raise Kind(2)
    if not all(legal(b) for b in text):
        raise Kind(3)
    try:
        line = parse_line(profile, text)
    except Syntax:
        raise Kind(4)
    if any(reserved(profile, word) for word in line.names):
        raise Kind(5)
    return line


def lay_out(profile, line, address, names):
    """Kinds 6 to 12, lowest first.  `names` are those of the lines before."""
    defined = line.label if line.label is not None else line.definition
    if defined is not None and defined in names:
        raise Kind(6)
    known = names
    if line.label is not None:
        known = ChainMap({line.label: address}, names)
    operation = line.operation
    what = operation[0] if operation else None

    if what in ("define", "origin", "reserve"):
        if any(name not in known for name in names_in(operation[1])):
            raise Kind(7)
    rows = None
    if what == "mnemonic":
        rows = forms(profile, operation[1], operation[2], operation[3])
        if not rows:
            raise Kind(8)
    if defined is not None and len(names) >= NAMES_MOST:
        raise Kind(9)

    row, size, value, after = None, 0, None, None
    if what == "mnemonic":
        tree = operation[4]
        row = rows[-1]
        if len(rows) == 2 and all(name in known for name in names_in(tree)):
            sized = placing(tree, known, address)         # the operand sizes
            row = rows[0] if 0 <= sized <= 255 else rows[1]
        size = row.length
    elif what == "bytes":
        size = sum(len(item[1]) if item[0] == "str" else 1
                   for item in operation[1])
    elif what in ("words", "dwords"):
        size = 2 * len(operation[1])
    elif what == "reserve":
        size = placing(operation[1], known, address)
        if size < 0 or address + size > 65536:
            raise Kind(10)
    elif what == "origin":
        after = placing(operation[1], known, address)
        if not 0 <= after <= 65535:
            raise Kind(10)
    elif what == "define":
        value = placing(operation[1], known, address)
    if after is None:
        after = address + size
    return Layout(line, address, row, size, after, value)


# Bytes of one line: value kinds, lowest first --------------------------------

def line_bytes(layout, names):
    """(bytes or None, set of value kinds of the line's expressions)."""
    kinds = set()
    data = []

    def number(tree, low, high, kind):
        """The value in low..high; 0 where it is not, and the kind is noted."""
        try:
            value = evaluate(tree, names, layout.address)
        except ExprFault as fault:
            kinds.add(EXPR_VALUE[fault.args[0]])
            return 0
        if not low <= value <= high:
            kinds.add(kind)
            return 0
        return value

    operation = layout.line.operation
    what = operation[0] if operation else None
    if what == "bytes":
        for item in operation[1]:
            if item[0] == "str":
                data.extend(item[1])
            else:
                data.append(number(item[1], -128, 255, 21) % 256)
    elif what in ("words", "dwords"):
        for tree in operation[1]:
            value = number(tree, -32768, 65535, 22) % 65536
            pair = [value & 0xFF, value >> 8]
            data.extend(pair if what == "words" else reversed(pair))
    elif what == "mnemonic":
        row, tree = layout.row, operation[4]
        data.append(row.opcode)
        if row.mode == "Imm":
            data.append(number(tree, -128, 255, 21) % 256)
        elif row.mode in ("Zp", "ZpX", "ZpY", "IndX", "IndY", "IndZ"):
            data.append(number(tree, 0, 255, 21))
        elif row.mode in ("Abs", "AbsX", "AbsY", "Ind"):
            value = number(tree, 0, 65535, 22)
            data.extend([value & 0xFF, value >> 8])
        elif row.mode == "Rel":
            before = len(kinds)
            target = number(tree, 0, 65535, 22)
            distance = 0
            if len(kinds) == before:
                distance = (target - (layout.address + 2)) % 65536
                if distance >= 32768:
                    distance -= 65536
                if not -128 <= distance <= 127:
                    kinds.add(23)
            data.append(distance % 256)
    return bytes(data), kinds


# Whole sources -----------------------------------------------------------------

def split_lines(source):
    """The lines without their ends."""
    parts = source.split(b"\n")
    last = parts.pop()
    lines = [part[:-1] if part.endswith(b"\r") else part for part in parts]
    if last:
        lines.append(last)           # no LF: a CR here ends nothing
    return lines


class Assembly:
    def __init__(self, spec, layouts, texts, names, data, image):
        self.spec, self.layouts, self.texts = spec, layouts, texts
        self.names, self.data, self.image = names, data, image

    def listing(self):
        """Each line with its address and bytes, and then the names with their numbers."""
        rows = []
        for layout, text, data in zip(self.layouts, self.texts, self.data):
            address = ("----" if layout.address == 65536
                       else "%04X" % layout.address).encode()
            first = hex_bytes(data[:3]).ljust(8).encode()
            rows.append(address + b"  " + first + b"  " + text + b"\n")
            for k in range(3, len(data), 3):
                rows.append(b"%04X  %s\n" % (layout.address + k,
                                             hex_bytes(data[k:k + 3]).encode()))
        if self.names:
            rows.append(b"\n")
            for name, value in self.names.items():
                shown = "$%04X" % value if 0 <= value <= 65535 else "%d" % value
                rows.append(name + b" = " + shown.encode() + b"\n")
        return b"".join(rows)


def hex_bytes(data):
    return " ".join("%02X" % byte for byte in data)


def assemble(source, spec):
    """The Assembly of a source. AsmFault has the first fault: of the layout, then of values."""
    if len(source) > SOURCE_MOST:
        raise AsmFault(0, 1)
    profile = spec.profile

    layouts, texts, names, address = [], [], {}, 0
    for number, text in enumerate(split_lines(source), 1):
        try:
            line = read_text(profile, text)
            layout = lay_out(profile, line, address, names)
        except Kind as fault:
            raise AsmFault(number, fault.kind)
        layouts.append(layout)
        texts.append(text)
        if line.label is not None:
            names[line.label] = address
        if line.definition is not None:
            names[line.definition] = layout.value
        address = layout.next
        if line.operation == ("end",):
            break

    all_data, image = [], {}
    for number, layout in enumerate(layouts, 1):
        data, kinds = line_bytes(layout, names)
        where = range(layout.address, layout.address + len(data))
        if data and where[-1] > 65535:
            kinds.add(24)
        if any(address in image for address in where):
            kinds.add(25)
        if any(spec.is_port(address) for address in where):
            kinds.add(26)
        if kinds:
            raise AsmFault(number, min(kinds))
        image.update(zip(where, data))
        all_data.append(data)
    return Assembly(spec, layouts, texts, names, all_data, image)


def assemble_line(profile, address, text):
    """The 1 to 3 bytes that one line denotes; AsmFault has line 1."""
    try:
        line = read_text(profile, text)
        layout = lay_out(profile, line, address, {})
        what = line.operation[0] if line.operation else None
        if (line.label is not None or layout.size > 3
                or what not in ("mnemonic", "bytes", "words", "dwords")):
            raise Kind(13)
        data, kinds = line_bytes(layout, {})
        if address + len(data) > 65536:
            kinds.add(24)
        if kinds:
            raise Kind(min(kinds))
        return data
    except Kind as fault:
        raise AsmFault(1, fault.kind)
