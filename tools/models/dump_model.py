"""What `info` and `cmp` say of the lines between a chip and its reader, from the rules alone. An
image is a dictionary here: its bytes by their addresses.

    python3 tools/models/dump_model.py info FILE HHHH
    python3 tools/models/dump_model.py cmp FILE OTHER HHHH

The files have raw bytes from the address HHHH on. The first prints the rows `same` and `line` of
`info`, the second what `cmp` writes behind the rows of its addresses."""

import itertools
import sys

FEWEST = 256  # bytes of an image that is judged, and of a region that is told
DATA, ADDRESS = range(8), range(16)


def counted(number, one, more):
    return f"{number} {one if number == 1 else more}"


# ---- lines


def at(number, line, value):
    """A number with a line at a value."""
    return number | 1 << line if value else number & ~(1 << line)


def exchanged(number, p, q):
    """A number with two lines exchanged."""
    a, b = number >> p & 1, number >> q & 1
    return at(at(number, p, b), q, a)


def is_read(dump, good, address_of=lambda it: it, byte_of=lambda it: it):
    """Whether a dump has at each address what a good image has where the address leads, as it is
    read."""
    def read(address):
        byte = good.get(address_of(address))
        return None if byte is None else byte_of(byte)

    return all(dump.get(it) == read(it) for it in itertools.chain(dump, good, range(65536)))


# ---- one image


def regions(image):
    """The longest ranges of equal bytes, with their byte."""
    found = []
    for address in sorted(image):
        if found and found[-1][1] + 1 == address and found[-1][2] == image[address]:
            found[-1][1] = address
        else:
            found.append([address, address, image[address]])
    return [it for it in found if it[1] - it[0] + 1 >= FEWEST]


def is_judged(image):
    """Whether lines are told of an image: there are enough bytes, and not all the same."""
    return len(image) >= FEWEST and len(set(image.values())) > 1


def line_rows(image):
    if not is_judged(image):
        return
    for line in DATA:
        bits = {value >> line & 1 for value in image.values()}
        if len(bits) == 1:
            yield f"line    D{line} is {bits.pop()} in every byte"
    for line in ADDRESS:
        if all(image.get(it ^ 1 << line) == image[it] for it in image):
            block = counted(1 << line, "byte", "bytes")
            yield f"line    A{line} makes no difference: each block of {block} stands twice"


def info_rows(image):
    same = [f"same    {first:04X}-{last:04X}  {last - first + 1} bytes ${value:02X}"
            for first, last, value in regions(image)]
    return same + list(line_rows(image))


# ---- two images


def count_row(one, other, names):
    """How many bytes differ where both images have one, and what is common to those that differ in
    one bit."""
    both = [(one[it], other[it]) for it in sorted(one) if it in other and one[it] != other[it]]
    flips = [((a ^ b).bit_length() - 1, a > b) for a, b in both if bin(a ^ b).count("1") == 1]
    if not both:
        return []
    row = counted(len(both), "byte differs", "bytes differ")
    if flips:
        row += f", {len(flips)} in one bit"
    if len({line for line, _ in flips}) == 1:
        row += f": D{flips[0][0]}"
        if len(set(flips)) == 1:
            was = int(flips[0][1])
            row += f" is {was} in {names[0]} and {1 - was} in {names[1]}"
    return [row]


def stuck(dump, good):
    """The lines that explain a dump if they always have one value."""
    for line, value in itertools.product(DATA, (0, 1)):
        if is_read(dump, good, byte_of=lambda it: at(it, line, value)):
            yield f"D{line} at {value}"
    for line, value in itertools.product(ADDRESS, (0, 1)):
        if is_read(dump, good, lambda it: at(it, line, value)):
            yield f"A{line} at {value}"


def pairs(lines):
    return [(p, q) for q in lines for p in range(q)]


def other_faults(one, other):
    """The faults that explain either image by the other."""
    for p, q in pairs(DATA):
        if is_read(one, other, byte_of=lambda it: exchanged(it, p, q)):
            yield f"D{p} and D{q} exchanged"
    if is_read(one, other, byte_of=lambda it: it ^ 255):
        yield "each bit inverted"
    for p, q in pairs(ADDRESS):
        if is_read(one, other, lambda it: exchanged(it, p, q)):
            yield f"A{p} and A{q} exchanged"


def cmp_rows(one, other, names):
    if one == other:
        return []
    rows = count_row(one, other, names)
    if is_judged(one) and is_judged(other):
        first, second = names
        rows += [f"{first} is {second} with {it}" for it in stuck(one, other)]
        rows += [f"{first} is {second} with {it}" for it in other_faults(one, other)]
        rows += [f"{second} is {first} with {it}" for it in stuck(other, one)]
    return rows


def read(name, first):
    with open(name, "rb") as it:
        return {first + place: byte for place, byte in enumerate(it.read())}


def main(word, *files):
    names, first = files[:-1], int(files[-1], 16)
    images = [read(name, first) for name in names]
    rows = info_rows(*images) if word == "info" else cmp_rows(*images, names)
    print("\n".join(rows))


if __name__ == "__main__":
    main(*sys.argv[1:])
