"""The playground's page: one HTML file of what stands in playground/ and viewer/, the examples, and
the engine's module in base64; and what is noted beside it.

The module is there twice: as it was linked, with 64-bit addresses, in playground/mos65_c.wasm, and in
the page with 32-bit addresses, which each browser takes (lowering.py)."""

import base64
import hashlib
import os
import re
import subprocess
from typing import NamedTuple

import lowering
import page_model
import proving
from host_workspace import EXPORTS, PARTS
from proving import TOP, files_of, read

FOLDER = f"{TOP}/playground"
PAGE, SUMS = f"{FOLDER}/mos65.html", f"{FOLDER}/mos65.sums"
LINKED = f"{FOLDER}/{EXPORTS}.wasm"
# What mos65.sums calls the module in the page.
LOWERED = f"{EXPORTS}.32.wasm"
STYLES = "viewer/page.css", "playground/page.css"
# The viewer's scripts go before those of playground/, and the page's own is the last.
LAST = "playground/page.js"
EXAMPLES = "playground/examples", "examples"
MOST = 3_000_000
# A module begins with these letters in base64.
MODULE = re.compile(r'<script type="text/plain" id="\w+">(AGFzbQ[^<]*)</script>')
# What the module is made by, besides the crates.
MAKERS = "tools/proving/host_heap.py", "tools/proving/host_workspace.py", "tools/proving/host_proving.py"
# So many crates are named where they have changed.
MOST_NAMED = 6
# The rows of mos65.sums that are no sums, in their order there.
WORDS = "crates", "commit", "kit", "maker"


class Made(NamedTuple):
    """What a page is made of besides the files: the module as it was linked and with 32-bit
    addresses, the commit whose crates it is of, the commit of the page, the kit that linked it, and
    what lowered it."""

    linked: bytes
    lowered: bytes
    crates: str
    commit: str
    kit: str
    maker: str


def text_of(path):
    return read(f"{TOP}/{path}").decode()


def escaped(text):
    return page_model.escaped(text.encode()).decode()


def scripts():
    """The page's scripts in their order."""
    own = [f"playground/{it}" for it in sorted(os.listdir(FOLDER)) if it.endswith(".js")]
    pieces = [f"viewer/{it}" for it in page_model.viewer().PIECES]
    return [*pieces, *(it for it in own if it != LAST), LAST]


def examples():
    """A row `@ NAME TITLE` for each row of playground/examples.txt, and the source behind it."""
    found = []
    for row in text_of("playground/examples.txt").splitlines():
        name = row.split()[0]
        folder = next(it for it in EXAMPLES if os.path.isfile(f"{TOP}/{it}/{name}"))
        found.append(f"@ {row}\n{text_of(f'{folder}/{name}')}")
    return "".join(found)


def template():
    """The page of a run, with its marks left in it."""
    viewer = page_model.viewer()
    cuts = viewer.template()
    return cuts[0] + "".join(f"/*{part}*/{cut}" for part, cut in zip(viewer.PARTS, cuts[1:]))


def page(made):
    """The page's bytes."""
    about = (f"version {text_of('VERSION').strip()}\ncommit {made.commit}\n"
             f"crates {made.crates}\nmodule {sum_of(made.linked)}\n"
             f"lowered {sum_of(made.lowered)}\n")
    parts = {
        "/*CSS*/": "".join(map(text_of, STYLES)),
        "<!--PANELS-->": text_of("viewer/panels.html"),
        "/*MODULE*/": base64.b64encode(made.lowered).decode(),
        "/*EXAMPLES*/": escaped(examples()),
        "/*TEMPLATE*/": escaped(template()),
        "/*OPS*/": page_model.opcodes("N"),
        "/*ABOUT*/": escaped(about),
        "/*JS*/": "".join(map(text_of, scripts())),
    }
    marks = re.compile("|".join(map(re.escape, parts)))
    text = marks.sub(lambda found: parts[found[0]], text_of("playground/page.html")).encode()
    if len(text) > MOST:
        raise proving.Failure(f"the page has {len(text):,} bytes, at most {MOST:,} are wanted")
    return text


def module_of(made):
    """The module in a page."""
    return base64.b64decode(MODULE.search(made.decode())[1])


def sum_of(data):
    return hashlib.sha256(data).hexdigest()


def crate_sum(crate):
    """The sum of a crate's row and of what is proved of it."""
    found = hashlib.sha256(crate.row.encode())
    for file in (it for part in PARTS for it in files_of(f"{crate.folder}/{part}")):
        found.update(repr((os.path.relpath(file, crate.folder), read(file))).encode())
    return found.hexdigest()


def source_sums():
    """The sums of what the module is made from, besides the kit, by name: each crate, and each
    script that makes it."""
    top = proving.read_crates()[EXPORTS]
    found = {f"crates/{it.name}": crate_sum(it) for it in [*top.below, top]}
    return {**found, **{path: sum_of(read(f"{TOP}/{path}")) for path in MAKERS}}


def changed():
    """What has changed since the module was made, by name: crates, and scripts that make it. One that
    is there no longer, or that is new, is among them."""
    there, now = sums_in(noted()), source_sums()
    return sorted(it for it in {*there, *now} if there.get(it) != now.get(it))


def has_new_module():
    """Whether the module of the page that is there is of the crates as they are."""
    return not changed()


def age():
    """A line that says how old the module is, or an empty text where it is of the crates as they
    are."""
    names = [it.removeprefix("crates/") for it in changed()]
    if not names:
        return ""
    commit, rest = noted()["crates"], len(names) - MOST_NAMED
    words = ["git", "-C", TOP, "log", "-1", "--format= of %cs", commit]
    date = subprocess.run(words, capture_output=True, text=True).stdout.rstrip()
    listed = ", ".join(names[:MOST_NAMED]) + (f" and {rest} more" if rest > 0 else "")
    return (f"the playground's module is of commit {commit}{date}; since then changed:"
            f" {len(names)} of its {len(source_sums())} crates and scripts ({listed})."
            " tools/playground makes it again")


def faults():
    """What is wrong with the page that is there, or with what is noted beside it, in words."""
    made, has, made_of = read(PAGE), noted(), made_of_page()
    rows = {
        "mos65.sums has the sum of another page": has["mos65.html"] == sum_of(made),
        f"mos65.sums has the sum of another {EXPORTS}.wasm":
            has[f"{EXPORTS}.wasm"] == sum_of(made_of.linked),
        "mos65.sums has the sum of another module in the page":
            has[LOWERED] == sum_of(made_of.lowered),
        "the page is of other files than these, which tools/playground --page mends":
            made == page(made_of),
    }
    if lowering.maker() == made_of.maker:
        rows[f"the module in the page is not what wasm-opt makes of {EXPORTS}.wasm"] = (
            lowering.lowered(made_of.linked) == made_of.lowered)
    return [row for row, is_right in rows.items() if not is_right]


def made_of_page():
    """What the page that is there is made of."""
    has = noted()
    return Made(read(LINKED), module_of(read(PAGE)), *(has[it] for it in WORDS))


def sums(text, made, sources):
    """What stands beside a page: the sums of both modules, of the page and of what the module is made
    from, and the words of `Made`."""
    rows = {"mos65.html": sum_of(text), f"{EXPORTS}.wasm": sum_of(made.linked),
            LOWERED: sum_of(made.lowered), **sources}
    words = "".join(f"{it} {getattr(made, it)}\n" for it in WORDS)
    return "".join(f"{sum}  {name}\n" for name, sum in rows.items()) + words


def noted():
    """What mos65.sums has, by name."""
    found = {}
    for row in text_of("playground/mos65.sums").splitlines():
        first, rest = row.split(maxsplit=1)
        found.update({first: rest} if first in WORDS else {rest: first})
    return found


def sums_in(noted):
    """The sums of what the module is made from, as `source_sums` has them."""
    return {name: it for name, it in noted.items() if "/" in name}
