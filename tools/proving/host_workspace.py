"""A workspace whose crates take their memory from host_heap in place of the standard heap.

The crates below the library for C are copied there, with some 130 lines of their sources changed.
Their definitions and proofs stay as they are, but for some paths of modules. The library itself is
built as a WebAssembly module. The workspace stands outside the repository, in which `rt` takes no
such crate."""

import os
import re
import shutil

import host_heap
import proving
from proving import Failure, files_of, read

EXPORTS = "mos65_c"
HEAP = "std_heap"
PARTS = "src", "specs", "proofs"
# Where the standard heap is named in a source, and what stands there then: containers of the kit
# whose allocator is left out name it.
HASHER = "BuildHasherDefault<FoldHasher>"
HASHERS = "use std::hash::{BuildHasherDefault, FoldHasher};\n"
OF_GLOBAL = {
    r"use std::alloc::\{AllocError, Global\};": "use std::alloc::AllocError;",
    r"^use std::alloc::Global;\n": "",
    r"HeapCircularBuffer<(\w+)>": r"HeapCircularBuffer<\1, Global>",
    r"(IndexMap<Vec<u8>, i32|IndexSet<u16)>": rf"\1, {HASHER}, Global>",
}
ALIASED = "Vec", "Box"
PATHS = {
    "Rattle.std.specs.declared.alloc.Global.": "Rattle.host_heap.specs.declared.Global.",
    "Rattle.std.specs.contracts.impls.GlobalAllocator.":
        "Rattle.host_heap.specs.contracts.GlobalAllocator.",
    "Rattle.std_heap.": "Rattle.host_heap.",
}


def source(file, text):
    """A file of src/ over host_heap."""
    code = re.sub(r"//[^\n]*", "", text)
    names = {it for it in ALIASED if re.search(rf"\b{it}<", code)}
    for old, new in OF_GLOBAL.items():
        text, count = re.subn(old, new, text, flags=re.M)
        names |= {"Global"} if count else set()
    if re.search(r"^use std::alloc::[^;]*\bGlobal\b", text, flags=re.M):
        raise Failure(f"not built: {file} imports Global in a way that is not known here")
    if HASHER in text:
        text = re.sub(r"^(use std::(?!alloc))", rf"{HASHERS}\1", text, count=1, flags=re.M)
    return with_import(text, sorted(names)) if names else text


def with_import(text, names):
    """A source that imports these names of host_heap, before its other imports or first item."""
    listed = names[0] if len(names) == 1 else "{" + ", ".join(names) + "}"
    line = f"use {host_heap.NAME}::{listed};\n"
    first = re.search(r"^(pub )?use ", text, flags=re.M)
    if not first:
        first = re.search(r"^(?!//!|#!\[|ghost use|\s*$)", text, flags=re.M)
        line += "\n"
    return text[: first.start()] + line + text[first.start():]


def proof(_, text):
    for old, new in PATHS.items():
        text = text.replace(old, new)
    return text


def files_over_heap(crate):
    """The files of a crate by their paths below its folder, and whether any had to be changed."""
    found, is_changed = {}, False
    for part in PARTS:
        change = source if part == "src" else proof
        for file in files_of(f"{crate.folder}/{part}"):
            was = read(file).decode()
            text = change(file, was)
            found[os.path.relpath(file, crate.folder)] = text
            is_changed |= text != was
    return found, is_changed


def row_over_heap(crate, is_changed):
    """The crate's row of crates.txt."""
    head, _, uses = crate.row.partition(":")
    uses = [it for it in re.split(r"[\s,]+", uses) if it and it != HEAP]
    if is_changed:
        uses.insert(0, host_heap.NAME)
    return f"{head.replace('staticlib', 'wasm64').strip()}: {' '.join(uses)}"


def files(kit):
    """All files of the workspace by their paths, and the names of the crates that stay as they
    are."""
    top = proving.read_crates()[EXPORTS]
    rows, same = [host_heap.ROW], []
    found = {f"crates/{host_heap.NAME}/{path}": text for path, text in host_heap.files(kit).items()}
    for crate in [*top.below, top]:
        own, is_changed = files_over_heap(crate)
        found.update((f"crates/{crate.name}/{path}", text) for path, text in own.items())
        rows.append(row_over_heap(crate, is_changed))
        if not is_changed and all(it.name in same for it in crate.below):
            same.append(crate.name)
    found["crates.txt"] = "".join(f"{row}\n" for row in rows)
    return found, same


def lay(workspace, found):
    """Writes what has changed, and removes what is no longer there but for out/."""
    for file in [*files_of(f"{workspace}/crates")]:
        path = os.path.relpath(file, workspace)
        if path not in found and path.split("/")[2] != "out":
            os.remove(file)
    for path, text in found.items():
        file = f"{workspace}/{path}"
        if not os.path.isfile(file) or read(file).decode() != text:
            proving.write(file, text)
    for name in os.listdir(f"{workspace}/crates"):
        if f"crates/{name}/src/lib.rt" not in found:
            shutil.rmtree(f"{workspace}/crates/{name}")
