"""Paper tapes: the writer and the reader. An image is a dict from address to byte.

Source: the KIM-1 manual for the form of the records."""

FAULTS = {1: "NoRecord", 2: "BadHex", 3: "BadChecksum", 4: "PastEnd",
          5: "Truncated", 6: "BadCount", 7: "JunkAfterEnd", 8: "JunkBetween",
          9: "OutOfMemory", 10: "TooLong"}

SKIPPED = frozenset(b"\x00\x0D\x0A\x13")
HEX_DIGITS = frozenset(b"0123456789ABCDEFabcdef")
PIECE_MOST = 24


class TapeFault(Exception):
    def __init__(self, offset, number):
        Exception.__init__(self, offset, number)
        self.offset, self.number = offset, number

    def text(self):
        return "byte %d %s %d" % (self.offset, FAULTS[self.number], self.number)


# The writer -------------------------------------------------------------------

def runs(image):
    """Maximal runs of contiguous bytes, rising: (address, bytes)."""
    found = []
    for address in sorted(image):
        if found and found[-1][0] + len(found[-1][1]) == address:
            found[-1][1].append(image[address])
        else:
            found.append((address, bytearray([image[address]])))
    return found


def record(length, address, data):
    """One record's text: the sum is over length, address and data bytes."""
    body = bytes([length, address >> 8, address & 0xFF]) + bytes(data)
    return ";%s%04X\r\n" % (body.hex().upper(), sum(body) % 65536)


def write_tape(image):
    records = []
    for first, data in runs(image):
        for k in range(0, len(data), PIECE_MOST):
            piece = data[k:k + PIECE_MOST]
            records.append(record(len(piece), first + k, piece))
    records.append(record(0, len(records), b""))      # count at the address's place
    return "".join(records).encode()


# The reader -------------------------------------------------------------------

def looks_like_tape(text):
    """Whether the first line with a `;` begins a tape there: up to its end, records may follow."""
    start = text.find(b";")
    if start < 0:
        return False
    ends = text.find(b"\r", start), text.find(b"\n", start)
    end = min((at for at in ends if at >= 0), default=len(text))
    try:
        read_tape(text[:end] + b";")
    except TapeFault as fault:
        return fault.number == 5 and fault.offset == end + 1
    return False


def read_tape(text):
    """The image of a text, or TapeFault: the first fault from left to right."""
    image, count, at, ended = {}, 0, 0, False
    while True:
        while at < len(text) and text[at] in SKIPPED:
            at += 1
        if at == len(text):
            if ended:
                return image
            raise TapeFault(at, 5 if count else 1)
        if ended:
            raise TapeFault(at, 7)
        if text[at] != ord(";"):
            raise TapeFault(at, 8)
        begin = at
        length = hex_field(text, begin + 1, 1)[0]
        body = hex_field(text, begin + 1, 1 + 2 + length + 2)
        at = begin + 1 + 2 * len(body)
        address = body[1] << 8 | body[2]
        if sum(body[:-2]) % 65536 != body[-2] << 8 | body[-1]:
            raise TapeFault(begin, 3)
        if length == 0:
            if address != count:
                raise TapeFault(begin, 6)
            ended = True
            continue
        if address + length > 65536:
            raise TapeFault(begin, 4)
        for k, byte in enumerate(body[3:-2]):
            image[address + k] = byte
        count += 1


def hex_field(text, start, pairs):
    """That many hex pairs from start, or the first fault among their digits."""
    for at in range(start, start + 2 * pairs):
        if at >= len(text):
            raise TapeFault(len(text), 5)
        if text[at] not in HEX_DIGITS:
            raise TapeFault(at, 2)
    return bytes.fromhex(text[start:start + 2 * pairs].decode("ascii"))
