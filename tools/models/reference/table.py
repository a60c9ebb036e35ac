"""The opcode table: the 151 rows of the NMOS 6502, and the 19 that profile C adds.

Sources: the MCS6500 manuals; for profile C the data sheets of the 65C02.
"""

from collections import namedtuple

Row = namedtuple("Row", "opcode mnemonic mode length cycles penalty")

N, C = "N", "C"                                    # the two profiles

# What reads its operand and stores nothing there, and how many bytes are pushed.
READS = {"LDA", "LDX", "LDY", "AND", "ORA", "EOR", "ADC", "SBC", "CMP", "CPX", "CPY", "BIT"}
PUSHES = {"PHA": 1, "PHP": 1, "PHX": 1, "PHY": 1, "JSR": 2, "BRK": 3}

LENGTHS = {"Imp": 1, "Acc": 1,
           "Imm": 2, "Zp": 2, "ZpX": 2, "ZpY": 2, "IndX": 2, "IndY": 2,
           "Rel": 2, "IndZ": 2,
           "Abs": 3, "AbsX": 3, "AbsY": 3, "Ind": 3}

# Two grids: a header of "mode cycles", a + for one more across a page; then one mnemonic a line.
GRID_1 = """
     | Imm 2 | Zp 3 | ZpX 4 | Abs 4 | AbsX 4+ | AbsY 4+ | IndX 6 | IndY 5+
ORA  | 09 | 05 | 15 | 0D | 1D | 19 | 01 | 11
AND  | 29 | 25 | 35 | 2D | 3D | 39 | 21 | 31
EOR  | 49 | 45 | 55 | 4D | 5D | 59 | 41 | 51
ADC  | 69 | 65 | 75 | 6D | 7D | 79 | 61 | 71
LDA  | A9 | A5 | B5 | AD | BD | B9 | A1 | B1
CMP  | C9 | C5 | D5 | CD | DD | D9 | C1 | D1
SBC  | E9 | E5 | F5 | ED | FD | F9 | E1 | F1
"""

GRID_2 = """
     | Acc 2 | Zp 5 | ZpX 6 | Abs 6 | AbsX 7
ASL  | 0A | 06 | 16 | 0E | 1E
ROL  | 2A | 26 | 36 | 2E | 3E
LSR  | 4A | 46 | 56 | 4E | 5E
ROR  | 6A | 66 | 76 | 6E | 7E
DEC  |    | C6 | D6 | CE | DE
INC  |    | E6 | F6 | EE | FE
"""

# The rest, as "mnemonic: opcode mode cycles, ..":
LIST = """
STA: 85 Zp 3, 95 ZpX 4, 8D Abs 4, 9D AbsX 5, 99 AbsY 5, 81 IndX 6, 91 IndY 6
LDX: A2 Imm 2, A6 Zp 3, B6 ZpY 4, AE Abs 4, BE AbsY 4+
LDY: A0 Imm 2, A4 Zp 3, B4 ZpX 4, AC Abs 4, BC AbsX 4+
STX: 86 Zp 3, 96 ZpY 4, 8E Abs 4
STY: 84 Zp 3, 94 ZpX 4, 8C Abs 4
CPX: E0 Imm 2, E4 Zp 3, EC Abs 4
CPY: C0 Imm 2, C4 Zp 3, CC Abs 4
BIT: 24 Zp 3, 2C Abs 4
JMP: 4C Abs 3, 6C Ind 5
JSR: 20 Abs 6
RTS: 60 Imp 6
RTI: 40 Imp 6
BRK: 00 Imp 7
PHP: 08 Imp 3
PHA: 48 Imp 3
PLP: 28 Imp 4
PLA: 68 Imp 4
"""

IMPLIED_2 = """CLC 18, SEC 38, CLI 58, SEI 78, CLV B8, CLD D8, SED F8, TXA 8A,
TYA 98, TXS 9A, TAY A8, TAX AA, TSX BA, DEY 88, DEX CA, INY C8, INX E8, NOP EA"""

BRANCHES = """BPL 10, BMI 30, BVC 50, BVS 70, BCC 90, BCS B0, BNE D0, BEQ F0"""

# What profile C adds. BRA takes 2 cycles, and those of a branch that is taken.
LIST_C = """
BRA: 80 Rel 2
STZ: 64 Zp 3, 74 ZpX 4, 9C Abs 4, 9E AbsX 5
PHX: DA Imp 3
PHY: 5A Imp 3
PLX: FA Imp 4
PLY: 7A Imp 4
INC: 1A Acc 2
DEC: 3A Acc 2
ORA: 12 IndZ 5
AND: 32 IndZ 5
EOR: 52 IndZ 5
ADC: 72 IndZ 5
STA: 92 IndZ 5
LDA: B2 IndZ 5
CMP: D2 IndZ 5
SBC: F2 IndZ 5
"""


def _row(opcode, mnemonic, mode, cycles):
    return Row(int(opcode, 16), mnemonic, mode, LENGTHS[mode],
               int(cycles.rstrip("+")), cycles.endswith("+"))


def _grid(text):
    lines = [line.split("|") for line in text.strip("\n").splitlines()]
    heads = [cell.split() for cell in lines[0][1:]]
    for cells in lines[1:]:
        for (mode, cycles), opcode in zip(heads, cells[1:]):
            if opcode.strip():
                yield _row(opcode.strip(), cells[0].strip(), mode, cycles)


def _list(text):
    for line in text.strip().splitlines():
        mnemonic, entries = line.split(":")
        for entry in entries.split(","):
            opcode, mode, cycles = entry.split()
            yield _row(opcode, mnemonic, mode, cycles)


def _flat(text, mode):
    for entry in text.replace("\n", " ").split(","):
        mnemonic, opcode = entry.split()
        yield _row(opcode, mnemonic, mode, "2")


ROWS_N = tuple(list(_grid(GRID_1)) + list(_grid(GRID_2)) + list(_list(LIST))
               + list(_flat(IMPLIED_2, "Imp")) + list(_flat(BRANCHES, "Rel")))
ROWS_C = ROWS_N + tuple(_list(LIST_C))
ROWS = {N: ROWS_N, C: ROWS_C}

# By opcode, by (mnemonic, mode), and the set of mnemonics.
BY_OPCODE = {}
BY_FORM = {}
MNEMONICS = {}
for _p in (N, C):
    _by = [None] * 256
    for _r in ROWS[_p]:
        assert _by[_r.opcode] is None, "an opcode stands twice"
        _by[_r.opcode] = _r
    BY_OPCODE[_p] = tuple(_by)
    BY_FORM[_p] = {(_r.mnemonic, _r.mode): _r for _r in ROWS[_p]}
    assert len(BY_FORM[_p]) == len(ROWS[_p]), "a form stands twice"
    MNEMONICS[_p] = frozenset(_r.mnemonic for _r in ROWS[_p])

assert len(ROWS_N) == 151 and len(ROWS_C) == 170
assert len(MNEMONICS[N]) == 56 and len(MNEMONICS[C]) == 62


def decode(profile, opcode):
    """The row of an opcode, or None."""
    return BY_OPCODE[profile][opcode]


def encode(profile, mnemonic, mode):
    """The row of a mnemonic and mode, or None."""
    return BY_FORM[profile].get((mnemonic, mode))


def mnemonic_of(profile, word):
    """The mnemonic that the bytes spell in any letter case, or None."""
    name = word.decode("latin-1").upper() if all(b < 128 for b in word) else ""
    return name if name in MNEMONICS[profile] else None
