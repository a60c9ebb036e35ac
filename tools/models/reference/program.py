"""The program's words `asm`, `dis` and `debug`: options, files, exit statuses and fault lines."""

import errno
import os
import unicodedata

import asm
import disasm
import engine
import machine
import session as sessions
import table
import tape

DONE, REFUSED, WORDS, MEMORY, INOUT = 0, 1, 2, 3, 4

HEX_DIGITS = frozenset("0123456789ABCDEFabcdef")
DIGITS = frozenset("0123456789")

# Of each subcommand: its positional words, its options with a value, its flags.
SHAPES = {
    "asm": (["SOURCE", "TAPE"], ["--listing", "--port", "--profile"], []),
    "dis": (["TAPE", "LO", "HI"], ["--profile"], []),
    "debug": (["FILE"], ["--history", "--port", "--rom", "--profile"], ["--tape"]),
}

USAGE = """usage: mos65 asm SOURCE TAPE [--listing FILE] [--port HHHH] [--profile N|C]
       mos65 dis TAPE LO HI [--profile N|C]
       mos65 debug FILE [--tape] [--history N] [--port HHHH] [--rom LO-HI] [--profile N|C]
"""


class End(Exception):
    """The program ends with a status and a fault line, behind which more may stand."""

    def __init__(self, status, line, more=()):
        Exception.__init__(self, status, line)
        self.status, self.line, self.more = status, line, more


class Help(Exception):
    pass


class ClapFault(Exception):
    """A fault whose text the command line parser `clap` writes, which is not repeated here."""


def parse_words(words):
    """(word, positional words, options) as `clap` sees them."""
    if not words:
        raise ClapFault("no subcommand")
    if words[0] in ("--help", "-h", "help"):
        raise Help
    if words[0] not in SHAPES:
        raise ClapFault("unknown subcommand")
    names, valued, flags = SHAPES[words[0]]
    positional, options, rest, only = [], {}, list(words[1:]), False
    while rest:
        word = rest.pop(0)
        if only or not word.startswith("-") or word == "-":
            positional.append(word)
            continue
        if word == "--":
            only = True
            continue
        if word in ("--help", "-h"):
            raise Help
        name, equals, value = word.partition("=")
        if name in options:
            raise ClapFault("option given twice")
        if name in flags and not equals:
            options[name] = True
        elif name in valued:
            if not equals:
                if not rest or (rest[0].startswith("-") and rest[0] != "-"):
                    raise ClapFault("option without its value")
                value = rest.pop(0)
            options[name] = value
        else:
            raise ClapFault("unknown option")
    if len(positional) != len(names):
        raise ClapFault("wrong number of words")
    return words[0], positional, options


# Values that the program itself reads ---------------------------------------

def bad_words():
    return End(WORDS, "WORDS")


def hex4(word):
    if len(word) != 4 or not all(ch in HEX_DIGITS for ch in word):
        raise bad_words()
    return int(word, 16)


def profile_of(options):
    profile = options.get("--profile", table.N)
    if profile not in (table.N, table.C):
        raise bad_words()
    return profile


def history_of(options):
    word = options.get("--history", "1024")
    if not 1 <= len(word) <= 5 or not all(ch in DIGITS for ch in word):
        raise bad_words()
    if int(word) > 65536:
        raise bad_words()
    return int(word)


def rom_of(options):
    word = options.get("--rom")
    if word is None:
        return None
    low, dash, high = word.partition("-")
    if not dash:
        raise bad_words()
    return hex4(low), hex4(high)


def port_of(options):
    word = options.get("--port", "F000")
    return None if word == "none" else hex4(word)


def map_of(options):
    port = port_of(options)
    rom, profile = rom_of(options), profile_of(options)
    return lambda: checked_map(port, rom, profile)


def checked_map(port, rom, profile):
    try:
        return machine.MapSpec(port, rom, profile)
    except machine.BadMap:
        raise End(WORDS, "MAP BadMap 1")


# Files ----------------------------------------------------------------------

class Disk:
    """The files of the system; another object may stand in its place."""

    @staticmethod
    def read(name):
        with open(name, "rb") as file:
            return file.read()

    @staticmethod
    def write(name, content):
        with open(name, "wb") as file:
            file.write(content)

    @staticmethod
    def is_one(first, second):
        """Whether two names are one file, or would be."""
        if os.path.isfile(first) and os.path.isfile(second):
            return os.path.samefile(first, second)
        return os.path.realpath(first) == os.path.realpath(second)

    @staticmethod
    def is_there(name):
        return os.path.isfile(name)


def read_file(files, name):
    try:
        return files.read(name)
    except OSError:
        raise End(INOUT, "READ")


REASONS = {
    errno.EISDIR: "is a folder", errno.ENOENT: "no such folder", errno.ENOTDIR: "no such folder",
    errno.ENOSPC: "no room", errno.EFBIG: "no room", errno.EDQUOT: "no room",
    errno.EACCES: "permission denied", errno.EPERM: "permission denied",
    errno.EROFS: "permission denied",
}


def unwritten(name, reason):
    """A file of `asm` is not written: which, and why, where that is known."""
    shown = "".join("?" if unicodedata.category(it) == "Cc" else it for it in name)
    return End(INOUT, "WRITE", [("%s: WRITE %s" % (shown, reason)).rstrip()])


def write_file(files, name, content):
    try:
        files.write(name, content)
    except OSError as error:
        raise unwritten(name, REASONS.get(error.errno, ""))


def check_files(files, names, source):
    """No file to write is the source or another one; a source that looks like a tape replaces none."""
    for at, name in enumerate(names):
        if any(files.is_one(name, other) for other in names[:at]):
            raise unwritten(name, "same file as another")
    there = [it for it in names[1:] if files.is_there(it)]
    if there and tape.looks_like_tape(source):
        raise unwritten(there[0], "the source looks like a tape")


def read_source(content, spec):
    try:
        return asm.assemble(content, spec)
    except asm.AsmFault as fault:
        raise End(REFUSED, "SOURCE " + fault.text())


def read_image(content):
    try:
        return tape.read_tape(content)
    except tape.TapeFault as fault:
        raise End(REFUSED, "TAPE " + fault.text())


# Subcommands ----------------------------------------------------------------

def do_asm(positional, options, files, stdin, put):
    make_map = map_of(options)
    names = positional + [options[o] for o in ("--listing",) if o in options]
    if len(set(names)) < len(names):
        raise bad_words()  # no output over the source or over the other output
    spec = make_map()
    source = read_file(files, positional[0])
    assembly = read_source(source, spec)
    tape_text = tape.write_tape(assembly.image)
    listing = assembly.listing()
    check_files(files, names, source)
    write_file(files, positional[1], tape_text)
    if "--listing" in options:
        write_file(files, options["--listing"], listing)


def do_dis(positional, options, files, stdin, put):
    low, high = hex4(positional[1]), hex4(positional[2])
    profile = profile_of(options)
    if low > high:
        raise bad_words()
    image = read_image(read_file(files, positional[0]))
    for row in disasm.rows(profile, lambda a: image.get(a, 0), low, last=high):
        put(row.encode("ascii") + b"\n")


def do_debug(positional, options, files, stdin, put):
    history = history_of(options)
    make_map = map_of(options)
    spec = make_map()
    content = read_file(files, positional[0])
    if "--tape" in options:
        image = read_image(content)
    else:
        made = read_source(content, spec).image
        image = tape.read_tape(tape.write_tape(made))
        assert image == made
    try:
        session = sessions.Session(spec, image, history)
    except sessions.SessionFault as fault:
        raise End(REFUSED, "TAPE %s %d" % (sessions.SESSION_FAULTS[fault.number],
                                           fault.number))
    try:
        for reply in engine.replies(session, stdin):
            put(reply)
    except OSError:
        raise End(INOUT, "READ")


SUBCOMMANDS = {"asm": do_asm, "dis": do_dis, "debug": do_debug}


def program(words, stdin, stdout, stderr, files=Disk):
    """The status.  stdin, stdout and stderr are binary files."""
    def put(data):
        try:
            stdout.write(data)
            stdout.flush()
        except OSError:
            raise End(INOUT, "WRITE")
    try:
        try:
            name, positional, options = parse_words(words)
        except Help:
            put(USAGE.encode())
            return DONE
        SUBCOMMANDS[name](positional, options, files, stdin, put)
        return DONE
    except ClapFault as fault:
        stderr.write(("error: %s\n" % fault.args[0]).encode())
        return WORDS
    except End as end:
        for line in (end.line, *end.more):
            stderr.write(("mos65: %s\n" % line).encode())
        return end.status
