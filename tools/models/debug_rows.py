"""What a page says of a debug file of ld65: a second writer beside `page_writer`, over the second reader
of debug files, from the words of crates/page_writer/specs/Files.antt alone."""

from debug_file import DebugFile

LENGTHS = {**dict.fromkeys("ab", 1), **dict.fromkeys("jklm", 3)}


def is_code(row, image, ops):
    """Whether bytes are an instruction: as many as it has, and not said to be data. `ops` is the fact
    of the opcodes. Where the program has no byte any instruction may come to stand."""
    size = row.end - row.start
    if row.start not in image:
        return not row.is_data and size <= 3
    mode = ops[image[row.start] * 4 + 3]
    return not row.is_data and mode != "." and size == LENGTHS.get(mode, 2)


def facts_of(text, files, image, ops):
    """The facts of a debug file, and the texts of its sources. `files` has what the sources hold by
    their names."""
    info = DebugFile(text)
    records = [it for _, it in sorted(info.records["file"].items())]
    texts = [files.get(it["name"], b"") for it in records]
    texts = [text if len(text) == int(it["size"]) else b"" for text, it in zip(texts, records)]
    facts = [f"file {len(text.splitlines())} {it['name']}" for text, it in zip(texts, records)]
    for address in info.starts():
        own = min((row for row in info.at(address) if row.start == address),
                  key=lambda row: (row.end - row.start, -row.depth))
        shown = info.shown(address)
        word = "line" if shown.start == address else "part"
        end = "" if is_code(own, image, ops) else " data"
        facts.append(f"{word} {shown.line} {address:04X} {own.end - own.start} {shown.file}{end}")
    lines = [line + b"\n" for text in texts for line in text.splitlines()]
    return "".join(f"{fact}\n" for fact in facts).encode(), b"".join(lines)
