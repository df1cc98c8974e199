#!/usr/bin/env python3
"""Patch files, good and bad, with their answers, worked out with no code of this repository.

    make.py             writes crates/test_files/stdin, the list of files, and crates/test_files/stdout, a line 'number place ops' for each
    make.py --check     says which of them is not what is made here, and writes nothing

The reader below is written from the paper's sections 'Patch file' and 'Numbers given back', what 02 changes in them, and the readings of their open
points.

A file of the list is four lengths of two bytes, low byte first, start, back, more and tail; then start bytes and tail
bytes. It stands for the start bytes, then more bytes, each the same as the one back bytes before it, then the tail bytes.
"""
import pathlib
import random
import sys
from struct import pack, unpack_from

HERE = pathlib.Path(__file__).resolve().parent
sys.path.insert(0, str(HERE.parent.parent / "tools"))
import command  # noqa: E402

# ---- the reader

LONGEST, MOST_OPS, MOST_MARKS, MOST_LANES = 65536, 4096, 256, 1024

COMMENT, SETS, FUNCTION, MOVE, OFFSET, DEVICE, FFI = 0, (1, 256), 2, 11, 16, (38, 39), 277
KNOWN = [*range(40), *range(256, 278)]
LEFT_OUT = [*range(268, 275)]
EMPTY = [*range(2, 9), 12, 13, 14, 257, 258, 275, 276]
COUNTED = [kind for kind in KNOWN if kind not in [COMMENT, *SETS, MOVE, OFFSET, *DEVICE, FFI, *LEFT_OUT, *EMPTY]]


def fits(kind, size):
    """Whether a payload of this many bytes is one of the kind's."""
    if kind == COMMENT:
        return size <= 255
    if kind in SETS:
        return size % 8 == 0
    if kind in COUNTED:
        return size == 4
    return size == {MOVE: 8, OFFSET: 12, 38: 2, 39: 2, FFI: 2}.get(kind, 0)


def fault(data, at):
    """The number of the first rule that the record at a place breaks, or 0."""
    left = len(data) - at
    if left < 4:
        return 1
    length, = unpack_from("<I", data, at)
    if length < 2:
        return 2
    if length > left - 4:
        return 1
    kind, = unpack_from("<H", data, at + 4)
    if kind not in KNOWN:
        return 3
    if kind in LEFT_OUT:
        return 4
    if not fits(kind, length - 2):
        return 2
    lanes = 0
    if kind in SETS:
        lanes = (length - 2) // 8
    if kind in COUNTED:
        lanes, = unpack_from("<I", data, at + 6)
    if kind == OFFSET:
        lanes, = unpack_from("<I", data, at + 14)
    if lanes > MOST_LANES:
        return 5
    if kind in DEVICE:
        mode, = unpack_from("<H", data, at + 6)
        if mode > 3:
            return 6
        if mode == 2:
            return 4
    # 02, ask 9: 0 is square_root, 1 is add
    if kind == FFI and unpack_from("<H", data, at + 6)[0] > 1:
        return 6
    return 0


def read(data):
    """The number, the place and the ops that were read."""
    if len(data) > LONGEST:
        return 9, 0, 0
    at = ops = marks = 0
    while at < len(data):
        number = fault(data, at)
        if number == 0:
            marks += unpack_from("<H", data, at + 4)[0] == FUNCTION
            if ops == MOST_OPS:
                number = 7
            elif marks > MOST_MARKS:
                number = 8
        if number != 0:
            return number, at, ops
        ops += 1
        at += 4 + unpack_from("<I", data, at)[0]
    return 0, ops, ops


# ---- the files

def record(kind, payload=b""):
    return pack("<IH", 2 + len(payload), kind) + payload


def usual(kind):
    """A payload that the kind may have."""
    if kind == COMMENT:
        return b"so"
    if kind in SETS:
        return pack("<q", -3)
    if kind in COUNTED:
        return pack("<I", 5)
    return {MOVE: pack("<q", -1), OFFSET: pack("<qI", 7, 2), 38: pack("<H", 1), 39: pack("<H", 0), FFI: pack("<H", 1)}.get(kind, b"")


FREE, MARK = record(258), record(FUNCTION)
PAPER = bytes.fromhex("0A00000001000100000000000000" "040000002700" "0000")
# A payload of each sort, so that a cut or a changed byte meets each test.
EACH = b"".join(record(kind, usual(kind)) for kind in (0, 1, 2, 9, 11, 16, 38, 268 - 1, 256, 8))


class Files:
    def __init__(self):
        self.entries, self.answers = [], []

    def add(self, start, back=0, more=0, tail=b""):
        data = bytearray(start)
        for _ in range(more):
            data.append(data[-back])
        data += tail
        self.entries.append(pack("<HHHH", len(start), back, more, len(tail)) + start + tail)
        self.answers.append("%d %d %d" % read(bytes(data)))

    def repeat(self, before, unit, times, tail=b""):
        """A file of one record many times over, between others."""
        self.add(before + unit, len(unit), len(unit) * (times - 1), tail)


def kinds(files):
    """Each kind by itself, with its payload, with a byte less and with one more; then kinds that are none."""
    for kind in KNOWN:
        payload = usual(kind)
        files.add(record(kind, payload))
        files.add(record(kind, payload + b"\0"))
        files.add(record(kind, payload[:-1] if payload else b"\0\0\0\0"))
    for kind in (40, 41, 255, 278, 279, 512, 0x2700, 0x7FFF, 0xFFFF):
        files.add(record(kind))


def damage(files):
    """Good files cut at every byte, and with each byte changed in turn."""
    for good in (PAPER, EACH):
        for end in range(len(good) + 1):
            files.add(good[:end])
    for good, flips in ((PAPER, (0x01, 0xFF)), (EACH, (0x01, 0x80))):
        for place in range(len(good)):
            for flip in flips:
                files.add(good[:place] + bytes([good[place] ^ flip]) + good[place + 1:])


def limits(files):
    """The last that is accepted of each limit, and one over it."""
    text = record(0, b"x" * 255)
    for size in (24, 25, 26):
        files.repeat(b"", text, 251, record(0, b"y" * (size - 6)))
    for times in (4095, 4096, 4097):
        files.repeat(b"", FREE, times)
    for times in (255, 256, 257):
        files.repeat(b"", MARK, times)
    for kind in COUNTED:
        for lanes in (1024, 1025):
            files.add(FREE + record(kind, pack("<I", lanes)))
    for lanes in (0, 1024, 1025, 65536, 0x80000000, 0xFFFFFFFF):
        files.add(record(10, pack("<I", lanes)))
        files.add(record(OFFSET, pack("<qI", -1, lanes)))
    for kind in SETS:
        files.add(record(kind))
        for size in (8184, 8191, 8192, 8193, 8199, 8200, 8201, 8208):
            files.add(FREE + pack("<IHB", 2 + size, kind, 9), 1, size - 1)
    for size in (0, 1, 254, 255, 256, 257, 8200):
        files.add(FREE + pack("<IHB", 2 + size, 0, 9)[:6 + size], 1, max(size - 1, 0))
    for kind in DEVICE:
        for mode in (0, 1, 2, 3, 4, 5, 256, 258, 512, 0xFFFE, 0xFFFF):
            files.add(FREE + record(kind, pack("<H", mode)))


def order(files):
    """Files that break two rules at once."""
    for length in (0, 1, 2, 3, 4, 0x7FFFFFFF, 0x80000000, 0xFFFFFFFC, 0xFFFFFFFD, 0xFFFFFFFE, 0xFFFFFFFF):
        for kind in (1, 40, 268, 277):
            files.add(FREE + pack("<IH", length, kind))
        files.add(pack("<I", length))
        files.add(pack("<I", length)[:3])
    for kind in [*LEFT_OUT, FFI]:
        files.add(record(kind, b"\0\0\0\0\0"))
        files.add(pack("<IH", 5, kind) + b"\0\0")
    for kind in (40, 278):
        files.add(record(kind, b"\0\0\0\0\0"))
        files.add(pack("<IH", 9, kind))
    for kind in DEVICE:
        for payload in (b"", b"\2", b"\2\0\0", b"\4\0\0\0"):
            files.add(record(kind, payload))
    files.add(record(10, pack("<I", 1025) + b"\0"))
    files.add(record(OFFSET, pack("<IQ", 1025, 0)))
    files.add(record(10, pack("<I", 1025)) + record(40))
    files.add(record(40) + record(10, pack("<I", 1025)))
    # A file too long, whose records are bad too.
    files.add(b"\0", 1, 65535)
    files.add(b"\0", 1, 65535, b"\0")
    files.add(b"\xFF", 1, 65535, b"\xFF")
    files.repeat(b"", MARK, 10922, b"\0\0\0\0\0")
    # One op too many that has a fault of its own, and one that is a mark too many.
    for last in (FREE[:5], b"\0\0", pack("<IH", 0, 1), record(40), record(268), record(1, b"\0"),
                 record(9, pack("<I", 1025)), record(38, pack("<H", 4)), record(39, pack("<H", 2)), FREE, MARK):
        files.repeat(b"", FREE, 4096, last)
        files.repeat(b"", MARK, 256, last)
    files.repeat(MARK * 256, FREE, 3839, MARK)
    files.repeat(MARK * 256, FREE, 3840, MARK)
    files.repeat(MARK * 255, FREE, 3840, MARK)
    files.repeat(MARK * 255, FREE, 3840, MARK + MARK)


def bindings(files):
    """FFI Call (02, ask 9): payloads of every length, numbers that there are and are not, and each fault beside others."""
    for size in range(13):
        files.add(FREE + record(FFI, (b"\1\0" * 7)[:size]) + FREE)
    for number in (0, 1, 2, 3, 4, 5, 255, 256, 257, 258, 259, 512, 0x7FFF, 0x8000, 0x8001, 0xFFFE, 0xFFFF):
        files.add(record(FFI, pack("<H", number)))
        files.add(FREE + record(FFI, pack("<H", number)) + record(40))
    good = MARK + record(FFI, pack("<H", 0)) + record(FFI, pack("<H", 1)) + FREE
    for end in range(len(good)):
        files.add(good[:end])
    for place in range(len(good)):
        for flip in (0x01, 0x02, 0x80):
            files.add(good[:place] + bytes([good[place] ^ flip]) + good[place + 1:])
    # a wrong length before a wrong number, both before one op too many
    for payload in (b"", b"\2", b"\2\0\0", b"\4\0\0\0", b"\2\0", b"\1\0", b"\0\0\0\0"):
        files.repeat(b"", FREE, 4096, record(FFI, payload))
        files.repeat(b"", FREE, 4095, record(FFI, payload))
        files.repeat(b"", MARK, 256, record(FFI, payload))
        files.add(record(FFI, payload) + record(39, pack("<H", 2)))
        files.add(record(39, pack("<H", 4)) + record(FFI, payload))
    files.repeat(b"", record(FFI, pack("<H", 1)), 4096)
    files.repeat(b"", record(FFI, pack("<H", 1)), 4097)


def strewn(files):
    """Random good files, and each again with one byte changed; then some with calls among their ops."""
    dice = random.Random(1)
    good_kinds = [kind for kind in KNOWN if kind not in LEFT_OUT and kind != FFI]
    for _ in range(100):
        good = b"".join(record(kind, usual(kind)) for kind in dice.choices(good_kinds, k=dice.randrange(1, 6)))
        files.add(good)
        place = dice.randrange(len(good))
        files.add(good[:place] + bytes([dice.randrange(256)]) + good[place + 1:])
    for _ in range(30):
        ops = [record(kind, usual(kind)) for kind in dice.choices(good_kinds, k=dice.randrange(1, 4))] + [record(FFI, pack("<H", dice.randrange(2)))]
        dice.shuffle(ops)
        good = b"".join(ops)
        files.add(good)
        place = dice.randrange(len(good))
        files.add(good[:place] + bytes([dice.randrange(256)]) + good[place + 1:])


def main(args):
    if args not in ([], ["--check"]):
        sys.exit(__doc__)
    assert len(KNOWN) == 62
    files = Files()
    files.add(b"")
    files.add(PAPER)
    for group in (kinds, damage, limits, order, bindings, strewn):
        group(files)
    numbers = [int(answer.split()[0]) for answer in files.answers]
    words = "%d files; " % len(numbers) + ", ".join("%d: %d" % (n, numbers.count(n)) for n in sorted(set(numbers)))
    return command.keep(HERE, {"stdin": b"".join(files.entries), "stdout": ("\n".join(files.answers) + "\n").encode()}, args, words)


if __name__ == "__main__":
    command.run(main)
