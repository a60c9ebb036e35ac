"""The crate host_heap: the kit's standard heap, whose two functions are imports of a WebAssembly
module in place of those of the C library.

It is made of the kit's own sources and proofs when a workspace is made: names are changed, `grow`
and `shrink` are left to the bodies that the trait gives them, and the block of the two functions is
marked as an import. The contracts of both stay word for word those that are trusted for `malloc`
and `free`. Nothing of the kit stands in the repository."""

import os
import re

from proving import Failure, files_of, read

NAME = "host_heap"
ROW = f"{NAME}: core libc"
# The module's name for what the page gives it.
IMPORT = "heap"
# Types whose allocator may be left out, with this one in the place of the standard one.
ALIASES = """pub type Vec<T, A = Global> = std::vec::Vec<T, A>;

pub type Box<T, A = Global> = std::boxed::Box<T, A>;

"""
# What belongs to `grow` and `shrink` alone.
LEFT_OUT = "GlobalAllocator/grow/", "GlobalAllocator/shrink/", "Resizes.antt"
PATHS = {
    "Rattle.std_heap.": "Rattle.host_heap.",
    "Rattle.libc.specs.contracts.heap.": "Rattle.host_heap.specs.contracts.heap.",
    "Rattle.libc.proofs.heap.": "Rattle.host_heap.proofs.heap.",
    "code.calls-libc::heap::": "code.calls-host_heap::heap::",
}


def changed(text, *pairs):
    """A text with its parts changed, each of which it has to have."""
    for old, new in pairs:
        if old not in text:
            raise Failure(f"not built: the kit's heap has another form, without {old!r}")
        text = text.replace(old, new)
    return text


def before(text, part):
    return text[: changed(text, (part, part)).index(part)]


def handle(text):
    """The allocator: a handle of no size, whose calls lead to the imports."""
    text = before(text, "    unsafe fn grow<T>(").rstrip() + "\n}\n"
    return changed(
        text,
        ("libc::heap::", "crate::heap::"),
        ("use core::mem::{align_of, size_of};\n", ""),
        ("mod cmp;\npub mod impls;\n", "mod cmp;\npub mod heap;\n"),
        ("// A handle to `malloc`", f"{ALIASES}// A handle to `malloc`"),
    )


def imports(text):
    """The two functions, with the contracts of the C library's."""
    resizes = before(text, "    // Frees what either answered")
    text = before(text, "    // Tries to make the block at p") + text[len(resizes):]
    return changed(
        re.sub(r"^//[^\n]*\n", "", text, flags=re.M),
        ("{chunk, got, Resize, Passes, filled, regot}", "{chunk, got}"),
        ('unsafe extern "C" {', f'#[link(wasm_import_module = "{IMPORT}")]\nunsafe extern "C" {{'),
        ("crate::types::Tried", "libc::types::Tried"),
    )


def proof(text):
    for old, new in PATHS.items():
        text = text.replace(old, new)
    rows = text.replace("pub mod Resizes\n", "").split("\n")
    return "\n".join(row for row in rows if "heap.rattle_realloc" not in row)


def files(kit):
    """The crate's files: texts by their paths below its folder."""
    heap = f"{kit}/rattle/std_heap"
    of_kit = lambda path: read(f"{kit}/rattle/{path}").decode()
    found = {
        "src/lib.rt": handle(of_kit("std_heap/src/lib.rt")),
        "src/cmp.rt": of_kit("std_heap/src/cmp.rt"),
        "src/heap.rt": imports(of_kit("libc/src/heap.rt")),
        # Functions that are no Rattle code are allowed only to a crate with this folder. There is
        # no C.
        "c/none": "",
    }
    for file in files_of(f"{heap}/proofs"):
        path = os.path.relpath(file, f"{heap}/proofs")
        if not path.startswith(LEFT_OUT):
            found[f"proofs/{path}"] = proof(read(file).decode())
    return found
