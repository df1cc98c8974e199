"""The benchmark's patches: (name, patch file, inputs, room for outputs), by the writers of compare/. One whose name ends so is run by mark."""
import os
import random
import struct
import sys

sys.path.insert(0, os.path.join(os.path.dirname(os.path.abspath(__file__)), "..", "compare"))
from generate import ADDS, ROOT, from_the_last, in_order, op
from model01 import (ADD, ADDF, ALLOC, AND, ARSH, BAND, BNOT, BOR, BXOR, CALL, COMMENT, DEC, DEREF, DIV, DIVF, ELSE, END, FREE, FUNCTION, GET, GEZ,
                     GEZF, IF, INC, INDEX, INFINITY, LOAD, LRSH, LSH, MOVE, MUL, MULF, NAND, NEG, NEGF, NOT, OFFSET, OR, PEEK, POKE, PUT, REFER, REM, REMF,
                     RETURN, SET, SETF, STORE, SUB, SUBF, SWAP, TOFLOAT, TOINT, WHERE, WHILE)

NAN = 0x7FF8000000000000
CELLS = 8192


def bits(x):
    return struct.unpack("<Q", struct.pack("<d", x))[0]


def loop(times, body):
    """The body so many times; the count stands in the cell under the pointer, where the body must leave it."""
    return [op(SET, times), op(STORE, 1), op(WHILE)] + body + [op(LOAD, 1), op(DEC, 1), op(STORE, 1), op(END)]


def shown(at, n):
    """n cells from the pointer + `at` on, put."""
    out = [op(MOVE, at)]
    for _ in range(n):
        out += [op(LOAD, 1), op(PUT, 0), op(MOVE, 1)]
    return out


def tight():
    return [op(SET, 300_000), op(WHILE), op(DEC, 1), op(END), op(PUT, 0)]


def brackets():
    """Three loops in each other, with Ifs that are taken and Ifs that are not, eight deep."""
    deep = [op(IF)] * 8 + [op(SET, 1)] + [op(ELSE), op(SET, 2), op(END)] * 8
    inner = [op(SET, 1)] + deep + [op(SET, 0)] + deep + [op(SET, 1), op(IF), op(SET, 0)] + deep + [op(END)]
    body = [op(MOVE, 1)] + loop(8, [op(MOVE, 1)] + loop(8, inner) + [op(MOVE, -1)]) + [op(MOVE, -1)]
    return loop(80, body) + [op(LOAD, 1), op(PUT, 0)]


def routines(n, calling):
    """n functions that count up; those from `calling` on call one of the first ones too."""
    out = []
    for k in range(n):
        body = [op(MOVE, 1), op(LOAD, 1), op(INC, 1), op(STORE, 1), op(MOVE, -1)]
        if k >= calling:
            body += [op(SET, k - calling), op(CALL)]
        out += [op(FUNCTION)] + body + [op(RETURN), op(END)]
    return out


def called(*ks):
    """A call of each."""
    return [o for k in ks for o in (op(SET, k), op(CALL))]


def calls():
    """Sixteen functions; the last ones call the first ones."""
    return routines(16, 8) + loop(8_000, called(0, 15, 3, 9, 12)) + shown(1, 1)


def nest(n):
    """n Ifs, one in the other: each is tested once and entered, and each End is passed once. The outermost stays open: 2,048 fill a file."""
    return [op(SET, 1)] + [op(IF)] * n + [op(END)] * (n - 1)


def moves():
    """Moves, loads and stores of one lane and of four."""
    body = [op(MOVE, 1), op(LOAD, 1), op(MOVE, 7), op(STORE, 1), op(MOVE, -4), op(LOAD, 4), op(MOVE, 20), op(STORE, 4), op(WHERE),
            op(MOVE, -20), op(STORE, 1), op(MOVE, -4)]
    return loop(25_000, body) + shown(1, 8)


def derefs():
    """Chains of eight: cell 16 + i holds 16 + (i + 3) % 8."""
    out = [op(MOVE, 16), op(SET, *[16 + (i + 3) % 8 for i in range(8)]), op(STORE, 8), op(MOVE, -16)]
    body = [op(MOVE, 16)] + [op(DEREF)] * 8 + [op(LOAD, 1)] + [op(REFER)] * 8 + [op(MOVE, -16)]
    return out + loop(16_000, body) + shown(16, 2)


def allocs():
    """A tape that is given its first block, then one cell at a time, with the length asked for in between."""
    return [op(SET, 0), op(ALLOC)] + loop(20_000, [op(SET, 1), op(ALLOC), op(SET, 0), op(ALLOC)]) + [op(SET, 0), op(ALLOC), op(PUT, 0)]


def integers(n, seed=1):
    r = random.Random(seed)
    return [r.choice([r.getrandbits(64), r.getrandbits(20), (1 << 64) - 1 - r.getrandbits(30)]) for _ in range(n)]


def divisors(n, seed=2):
    r = random.Random(seed)
    return [r.choice([0, 3, 7, 1 << 40, (1 << 64) - 5, r.getrandbits(16)]) for _ in range(n)]


def floats(n, seed, nans):
    """Of every four lanes one is a NaN, at random, where NaNs are asked for."""
    r = random.Random(seed)
    return [NAN if nans and r.random() < 0.25 else bits(r.uniform(-1000, 1000)) for _ in range(n)]


def spread(kind, values, at):
    """Values to the cells from `at` on; the pointer is at 0 before and after."""
    return [op(MOVE, at), op(kind, *values), op(STORE, len(values)), op(MOVE, -at)]


def lanes(times, n, first, second, ops, kind):
    """A body of lane ops over n lanes at cell 8 and n cells beside them, each run of three ops from the loaded lanes on."""
    work = []
    for i in range(0, len(ops), 3):
        work += [op(MOVE, -n), op(LOAD, n), op(MOVE, n)] + [op(o, n) for o in ops[i:i + 3]]
    body = [op(MOVE, 8 + n)] + work + [op(MOVE, n), op(STORE, n), op(MOVE, -(8 + 2 * n))]
    out = spread(kind, first, 8) + spread(kind, second, 8 + n)
    return out + loop(times, body) + shown(8 + 2 * n, min(n, 4))


INTS = [ADD, SUB, MUL, DIV, BXOR, NEG, REM, BAND, INC, LSH, BOR, DEC, LRSH, NAND, BNOT, ARSH, INDEX, GEZ, AND, NOT, OR]
FLOATS = [ADDF, MULF, SUBF, DIVF, NEGF, ADDF, REMF, MULF, GEZF, TOINT, TOFLOAT, MULF]


def times(n, ops):
    """As many turns as take some milliseconds."""
    return max(4, 60_000 // (len(ops) * (8 + n)))


def int_lanes(n, ops=INTS):
    return lanes(times(n, ops) * 4, n, integers(n), divisors(n), ops, SET)


def float_lanes(n, nans, ops=FLOATS):
    return lanes(times(n, ops) * 2, n, floats(n, 3, nans), floats(n, 4, nans), ops, SETF)


def swaps(n):
    return lanes(times(n, [SWAP]), n, integers(n), divisors(n), [SWAP] * 3, SET)


def chars():
    return loop(20_000, [op(SET, 65), op(PUT, 0), op(SET, 10), op(PUT, 0)])


def ints():
    return loop(6_000, [op(PUT, 1), op(SET, -1234567890123), op(PUT, 1), op(SET, 7), op(PUT, 1)])


def straight():
    """4,000 ops with no bracket, in a loop of 60 turns."""
    line = [op(INC, 1), op(STORE, 1), op(MOVE, 3), op(LOAD, 1), op(ADD, 1), op(MOVE, -3), op(OFFSET, 5, 1), op(BXOR, 1)]
    return [op(MOVE, 1)] + [op(LOAD, 1), op(MOVE, -1)] + loop(60, [op(MOVE, 1)] + line * 500 + [op(MOVE, -1)]) + shown(1, 4)


def level(blocks=2_000):
    """As a rack runs it, block by block: eight samples come in, their mean square is taken and held against a threshold; the block passes
    as it is, 0, or its pitch moves by a number from the table of shifts."""
    block = []
    for i in range(8):
        block += [op(GET, 0), op(STORE, 1), op(MOVE, 1)]
    block += [op(MOVE, -8), op(LOAD, 8), op(TOFLOAT, 8), op(STORE, 8), op(MULF, 8), op(STORE, 8)]
    block += [op(LOAD, 1)]
    for i in range(7):
        block += [op(MOVE, 1), op(ADDF, 1)]
    # the count, the threshold, and the scale stand in cells 16, 17 and 18 of the tape; the block in cells 8 to 15
    block += [op(MOVE, 1), op(DIVF, 1), op(MOVE, 4), op(STORE, 1), op(MOVE, -3), op(SUBF, 1), op(GEZF, 1)]
    block += [op(IF), op(MOVE, 3), op(LOAD, 1), op(MOVE, -2), op(DIVF, 1), op(TOINT, 1), op(MOVE, 3), op(STORE, 1), op(SET, 0), op(CALL),
              op(MOVE, -4), op(ELSE), op(SET, 0), op(PUT, 0), op(END)]
    # function 0: puts the shift of a level, at most 12, from the cell under the pointer
    fun = [op(FUNCTION), op(LOAD, 1), op(MOVE, 1), op(SET, 12), op(STORE, 1), op(MOVE, -1), op(LOAD, 1), op(MOVE, 1), op(SUB, 1), op(GEZ, 1),
           op(IF), op(SET, 12), op(PUT, 1), op(ELSE), op(MOVE, -1), op(LOAD, 1), op(PUT, 1), op(MOVE, 1), op(END), op(MOVE, -1), op(RETURN), op(END)]
    start = [op(MOVE, 16), op(SETF, bits(8.0), bits(900.0), bits(300.0)), op(STORE, 3), op(MOVE, -16)]
    out = fun + start + loop(blocks, [op(MOVE, 8)] + block + [op(MOVE, -17)])
    r = random.Random(5)
    return out, [r.randrange(-90, 90) & ((1 << 64) - 1) for _ in range(8 * blocks)]


def runs():
    """The rows of the table."""
    yield "tight loop", tight(), [], 1
    yield "nested brackets", brackets(), [], 1
    yield "calls and returns", calls(), [], 1
    yield "one thousand brackets, each tested once", nest(1024), [], 0
    yield "two thousand brackets, each tested once", nest(2048), [], 0
    yield "moves, loads, stores", moves(), [], 8
    yield "256 routines, in order", in_order(256), [], 0
    yield "256 routines, last first", from_the_last(256), [], 0
    yield "deref chains", derefs(), [], 2
    yield "allocations", allocs(), [], 1
    for n in (1, 8, 64, 1024):
        yield "integer lanes, %d" % n, int_lanes(n), [], 4
    for n in (1, 8, 64, 1024):
        yield "float lanes, %d" % n, float_lanes(n, False), [], 4
    for n in (1, 8, 64, 1024):
        yield "float lanes, NaNs, %d" % n, float_lanes(n, True), [], 4
    yield "char output", chars(), [], 40_000
    yield "int output", ints(), [], 200_000
    yield "straight line, 4,000 ops", straight(), [], 4
    patch, inputs = level()
    yield "level of a block", patch, inputs, 8_000


TWINS = "tight loop", "nested brackets", "calls and returns", "moves, loads, stores", "integer lanes, 1", "char output", "level of a block"


COMMENTED = ", commented"


def twins():
    """Some of them, each beside the same patch with a comment before each op."""
    for name, ops, inputs, room in runs():
        if name in TWINS:
            yield name, ops, inputs, room
            yield name + COMMENTED, [o for each in ops for o in (op(COMMENT, b"pitch up"), each)], inputs, room


BY_MARK = ", by mark"


def below():
    """Sixteen routines after the patch's own ops: the five that it calls are entered by these calls, from the first on, and the others never."""
    return loop(8_000, called(0, 1, 2, 3, 4)) + shown(1, 1) + [op(RETURN)] + routines(16, 16)


def modes():
    """Patches that call routines, each in both call modes; their calls mean the same in both."""
    for name, ops in ("calls and returns", calls()), ("routines below", below()):
        yield name, ops, [], 1
        yield name + BY_MARK, ops, [], 1


VALUES, TURNS = 64, 200
WITHOUT = ", without"


def piped(least, most, takes, call):
    """Values go through the channel: of each of 64 it and those after it, so many as are taken, are sent, and what comes back is stored, 200 times over."""
    r = random.Random(6)
    values = [r.randrange(least, most) for _ in range(VALUES + takes - 1)]
    each = [op(LOAD, 1), op(POKE), op(MOVE, 1)] * takes + [call, op(PEEK), op(MOVE, VALUES), op(STORE, 1), op(MOVE, 1 - takes - VALUES)]
    return spread(SET, values, 8) + loop(TURNS, [op(MOVE, 8)] + each * VALUES + [op(MOVE, -8 - VALUES)])


def through():
    """Calls through the channel (02, ask 9), each beside the same patch with another op in their place. There is no input and no output."""
    normal, subnormal = (1 << 52, INFINITY), (1, 1 << 52)
    yield "roots", piped(*normal, 1, ROOT), [], 0
    yield "roots of subnormals", piped(*subnormal, 1, ROOT), [], 0
    yield "roots" + WITHOUT, piped(*normal, 1, op(FREE)), [], 0
    yield "sums", piped(*normal, 2, ADDS), [], 0
    yield "sums" + WITHOUT, piped(*normal, 2, op(PEEK)), [], 0


# a call of each row, the row that has none, and the op that stands there in its place
MADE = {"roots": ("root", "roots" + WITHOUT, "Free"), "roots of subnormals": ("root of a subnormal", "roots" + WITHOUT, "Free"),
        "sums": ("sum", "sums" + WITHOUT, "Peek")}


NAMES = {ADD: "add", SUB: "sub", MUL: "mul", DIV: "div", REM: "rem", NAND: "nand", BAND: "bit and", BOR: "bit or", BXOR: "xor", BNOT: "bit not",
         LSH: "lsh", LRSH: "lrsh", ARSH: "arsh", AND: "and", OR: "or", NOT: "not", NEG: "neg", INC: "inc", DEC: "dec", GEZ: "gez", INDEX: "index"}
FLOAT_NAMES = {ADDF: "float add", SUBF: "float sub", MULF: "float mul", DIVF: "float div", REMF: "float rem", NEGF: "float neg",
               GEZF: "float gez", TOINT: "to int", TOFLOAT: "to float"}


def each_op(n):
    """One row for each lane op, over n lanes."""
    for kind, name in NAMES.items():
        yield "%s, %d" % (name, n), int_lanes(n, [kind] * 12), [], 4
    for kind, name in FLOAT_NAMES.items():
        yield "%s, %d" % (name, n), float_lanes(n, False, [kind] * 12), [], 4
    for kind, name in FLOAT_NAMES.items():
        yield "%s, NaNs, %d" % (name, n), float_lanes(n, True, [kind] * 12), [], 4
    yield "swap, %d" % n, swaps(n), [], 4


def mixed(n):
    """A file of n ops with functions, brackets, moves and lanes, for reading, checking, joining and flattening."""
    r = random.Random(n)
    out = []
    while len(out) < n - 40:
        if len(out) % 64 == 0 and len(out) // 64 < 60:
            out += [op(FUNCTION), op(SET, 1), op(WHILE), op(LOAD, 4), op(ADD, 4), op(END), op(RETURN), op(END)]
        out.append(r.choice([op(MOVE, 1), op(MOVE, -1), op(SET, 5), op(LOAD, 4), op(STORE, 4), op(ADD, 4), op(MULF, 4), op(OFFSET, 2, 1)]))
        if r.random() < 0.05:
            out += [op(SET, 1), op(IF), op(SET, 2), op(ELSE), op(END)]
        out += [op(LOAD, 8)]
    return out + [op(INC, 1)] * (n - len(out))


def elses(n):
    """Elses and an End: the join that takes back the most."""
    return [op(ELSE)] * (n - 1) + [op(END)]


def write(cases, out):
    for name, ops, inputs, room in cases:
        mode = name.endswith(BY_MARK)
        patch = b"".join(ops)
        text = name.encode()
        out.write(struct.pack("<I", len(text)) + text + struct.pack("<I", len(patch)) + patch)
        out.write(struct.pack("<4I", CELLS, room, mode, len(inputs)) + struct.pack("<%dQ" % len(inputs), *inputs))
