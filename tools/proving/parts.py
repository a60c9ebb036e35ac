"""The parts of the program mos65, each of which serves some of its commands.

A part has whole files of crates/mos65/src, and a `main` that hands all words to the module which
serves them. The table tools/proving/commands.txt says which files these are, and which crates they
import from."""

from proving import TOP, read, read_crates

TABLE = f"{TOP}/tools/proving/commands.txt"
SOURCE = f"{TOP}/crates/mos65/src"
HELP = "help"  # serves words that are no command too
PROMISED = "asm", "dis", "debug"
ASKS = ["-h"], ["--help"]
MAIN = """#![tactic(auto)]

{modules}
use crate::process::serve_process;
use std::process::ExitCode;

fn main(rt: HostRuntime) -> ExitCode {{
    serve_process(&rt, |words, unread| {serving}::serve(&rt, words, unread))
}}
"""


class Part:
    """A row of the table: the commands, the modules, of which the first serves them, and the
    crates."""

    def __init__(self, row):
        self.commands, self.modules, self.uses = (it.split() for it in row.split(":"))
        self.name = self.commands[-1]
        self.row = f"mos65: {' '.join(self.uses)}"

    def files(self):
        """Its source files by name."""
        modules = "".join(f"mod {it};\n" for it in sorted(self.modules))
        main = MAIN.format(modules=modules, serving=self.modules[0])
        own = {f"{it}.rt": read(f"{SOURCE}/{it}.rt").decode() for it in self.modules}
        return {"main.rt": main, **own}

    def below(self):
        """The crates that it stands on, each after those below it."""
        crates = read_crates()
        own = [crates[it] for it in self.uses if it in crates]
        return [*dict.fromkeys(it for use in own for it in [*use.below, use])]


def parts():
    """The parts by their names: a part's name is the last of its commands."""
    rows = (row.strip() for row in read(TABLE).decode().splitlines())
    made = [Part(row) for row in rows if row and not row.startswith("#")]
    return {it.name: it for it in made}


def part_for(words):
    """The part that serves these words."""
    command, *rest = words or [HELP]
    made = parts()
    if command in PROMISED and rest in ASKS:
        return made[HELP]
    return next((it for it in made.values() if command in it.commands), made[HELP])
