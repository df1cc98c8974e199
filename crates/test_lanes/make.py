#!/usr/bin/env python3
"""Vectors for the lane ops, worked out with no code of this repository.

    make.py             writes crates/test_lanes/src/vectors.rt, the patterns that the program tries, and crates/test_lanes/stdout, what it
                        must print
    make.py --check     says which of them is not what is made here, and writes nothing

Integers are Python's own, which are exact. A float result is worked out twice, by exact fractions rounded here
and by the machine's IEEE 754 arithmetic, and the two must agree. The rules are those of the paper's section 'A step'.
"""
import math
import pathlib
import struct
import sys
from fractions import Fraction

HERE = pathlib.Path(__file__).resolve().parent
sys.path.insert(0, str(HERE.parent.parent / "tools"))
import command  # noqa: E402

TWO64 = 1 << 64
SIGN = 1 << 63
INFINITY = 0x7FF << 52
NAN = 0x7FF8000000000000

INTS = [
    (0, "0"),
    (1, "1"),
    (2, "2"),
    (7, "7"),
    (TWO64 - 1, "-1"),
    (TWO64 - 2, "-2"),
    (TWO64 - 7, "-7"),
    (63, "63"),
    (64, "64"),
    (0x123456789ABCDEF0, "digits of every kind"),
    (0xFEDCBA9876543211, "the same, negative"),
    (0x00000000FFFFFFFF, "a low half full"),
    (SIGN - 1, "the largest"),
    (SIGN, "the least"),
]

FLOATS = [
    (0x0000000000000000, "0"),
    (0x8000000000000000, "-0"),
    (0x3FE0000000000000, "0.5"),
    (0x3FF0000000000000, "1"),
    (0xBFF0000000000000, "-1"),
    (0x3FF0000000000001, "the next after 1"),
    (0x4008000000000000, "3"),
    (0xC004000000000000, "-2.5"),
    (0x3FB999999999999A, "0.1"),
    (0x4340000000000000, "2^53"),
    (0xC340000000000001, "-(2^53 + 2)"),
    (0x0000000000000001, "the least subnormal"),
    (0x8000000000000003, "-3 of it"),
    (0x000FFFFFFFFFFFFF, "the largest subnormal"),
    (0x0010000000000000, "the least normal"),
    (0x1E68000000000000, "1.5 * 2^-537"),
    (0x7C90000000000000, "2^970, half a step of the largest"),
    (0x7FEFFFFFFFFFFFFF, "the largest"),
    (0xFFEFFFFFFFFFFFFF, "-the largest"),
    (0x7FF0000000000000, "infinity"),
    (0xFFF0000000000000, "-infinity"),
    (0x7FF8000000000000, "the stored NaN"),
    (0xFFF8000000000123, "a negative quiet NaN with a payload"),
    (0x7FF0000000000001, "a signalling NaN"),
]

# Patterns for the ops that work a lane alone, beside those above.
LONE_INTS = [
    (9007199254740993, "2^53 + 1, a tie"),
    (9007199254740995, "2^53 + 3, a tie"),
    (TWO64 - 9007199254740993, "-(2^53 + 1), a tie"),
    ((1 << 54) + 1, "2^54 + 1, below a tie"),
    ((1 << 54) + 3, "2^54 + 3, above a tie"),
    (SIGN - 512, "2^63 - 512, a tie upward"),
    (SIGN - 513, "2^63 - 513, below it"),
    (SIGN + 1, "the least + 1"),
    (TWO64 - (1 << 32), "-2^32"),
]

LONE_FLOATS = [
    (0x3FEFFFFFFFFFFFFF, "the last before 1"),
    (0xBFEFFFFFFFFFFFFF, "-the last before 1"),
    (0x3FF8000000000000, "1.5"),
    (0xBFF8000000000000, "-1.5"),
    (0x43DFFFFFFFFFFFFF, "2^63 - 1024"),
    (0x43E0000000000000, "2^63"),
    (0x43E0000000000001, "2^63 + 2048"),
    (0xC3DFFFFFFFFFFFFF, "-(2^63 - 1024)"),
    (0xC3E0000000000000, "-2^63"),
    (0xC3E0000000000001, "-(2^63 + 2048)"),
    (0x41DFFFFFFFE00000, "2^31 - 0.5"),
    (0x432FFFFFFFFFFFFF, "2^52 - 0.5"),
    (0xFFF0000000000001, "a negative signalling NaN"),
    (0x7FFFFFFFFFFFFFFF, "the last NaN"),
]


# ---- integers

def signed(a):
    return a - TWO64 if a >= SIGN else a


def wrap(n):
    return n % TWO64


def quotient(a, b):
    q = abs(a) // abs(b)
    return q if (a < 0) == (b < 0) else -q


def int_div(a, b):
    return a if b == 0 else wrap(quotient(signed(a), signed(b)))


def int_rem(a, b):
    if b == 0:
        return a
    x, y = signed(a), signed(b)
    return wrap(x - y * quotient(x, y))


# ---- floats: None is a NaN, an infinity is Python's own, any other value is a sign and a fraction

def nan_bits(a):
    return a & (SIGN - 1) > INFINITY


def exact(a):
    """The sign and the magnitude of a pattern that is neither infinite nor a NaN."""
    exponent, digits = a >> 52 & 0x7FF, a & (1 << 52) - 1
    if exponent == 0:
        return a >> 63, Fraction(digits) / 2 ** 1074
    return a >> 63, Fraction(digits + (1 << 52)) * Fraction(2) ** (exponent - 1075)


def infinite(a):
    return a & (SIGN - 1) == INFINITY


def rounded(negative, x):
    """The pattern of the nearest float to a magnitude, at a tie the even one."""
    sign = SIGN if negative else 0
    if x == 0:
        return sign
    step = -1074
    while x / Fraction(2) ** step >= 1 << 53:
        step += 1
    whole = x / Fraction(2) ** step
    n = whole.numerator // whole.denominator
    rest = whole - n
    if rest > Fraction(1, 2) or rest == Fraction(1, 2) and n % 2 == 1:
        n += 1
    if n == 1 << 53:
        n, step = 1 << 52, step + 1
    if step > 971:
        return sign | INFINITY
    return sign | (n if n < 1 << 52 else (step + 1075 << 52) + n - (1 << 52))


def value(negative, x):
    return -x if negative else x


def exact_add(a, b):
    if nan_bits(a) or nan_bits(b):
        return NAN
    if infinite(a):
        return NAN if infinite(b) and a != b else a
    if infinite(b):
        return b
    total = value(*exact(a)) + value(*exact(b))
    if total == 0:
        return SIGN if a == b == SIGN else 0
    return rounded(total < 0, abs(total))


def exact_sub(a, b):
    return NAN if nan_bits(b) else exact_add(a, b ^ SIGN)


def exact_mul(a, b):
    if nan_bits(a) or nan_bits(b):
        return NAN
    sign = (a ^ b) & SIGN
    if infinite(a) or infinite(b):
        return NAN if 0 in (a & (SIGN - 1), b & (SIGN - 1)) else sign | INFINITY
    return rounded(sign, exact(a)[1] * exact(b)[1])


def exact_div(a, b):
    if nan_bits(a) or nan_bits(b):
        return NAN
    sign = (a ^ b) & SIGN
    zero = b & (SIGN - 1) == 0
    if infinite(a):
        return NAN if infinite(b) else sign | INFINITY
    if infinite(b):
        return sign
    if zero:
        return NAN if a & (SIGN - 1) == 0 else sign | INFINITY
    return rounded(sign, exact(a)[1] / exact(b)[1])


def exact_rem(a, b):
    if nan_bits(a) or nan_bits(b) or infinite(a) or b & (SIGN - 1) == 0:
        return NAN
    if infinite(b):
        return a
    sign, x = exact(a)
    y = exact(b)[1]
    left = x - y * (x // y)
    got = rounded(sign, left)
    assert exact(got)[1] == left, "a remainder is a float exactly"
    return got


def exact_to_int(a):
    if nan_bits(a):
        return 0
    negative = a >= SIGN
    if infinite(a):
        return SIGN if negative else SIGN - 1
    whole = value(negative, exact(a)[1].__floor__())
    return wrap(min(max(whole, -SIGN), SIGN - 1))


def exact_to_float(a):
    n = signed(a)
    return rounded(n < 0, Fraction(abs(n)))


def exact_gez(a):
    if nan_bits(a):
        return 0
    return int(a < SIGN or a == SIGN)


# ---- the same by the machine's floats

def load(a):
    return struct.unpack("<d", struct.pack("<Q", a))[0]


def store(x):
    return NAN if x != x else struct.unpack("<Q", struct.pack("<d", x))[0]


def hard_div(x, y):
    if y == 0:
        if x == 0 or x != x or y != y:
            return math.nan
        return math.copysign(math.inf, x) * math.copysign(1, y)
    return x / y


def hard_rem(x, y):
    if x != x or y != y or math.isinf(x) or y == 0:
        return math.nan
    return math.fmod(x, y)


def hard_to_int(a):
    x = load(a)
    if x != x:
        return 0
    if x >= 2.0 ** 63:
        return SIGN - 1
    if x < -2.0 ** 63:
        return SIGN
    return wrap(int(x))


def both(exactly, hardly):
    def op(*lanes):
        got = exactly(*lanes)
        assert got == hardly(*lanes), (exactly.__name__, [hex(a) for a in lanes], hex(got), hex(hardly(*lanes)))
        return got
    return op


def on_floats(f):
    return lambda *lanes: store(f(*[load(a) for a in lanes]))


# ---- the ops, by kind: what each gives of a lane and the cell beside it, or of a lane alone

NAMES = {
    15: "index", 16: "offset", 17: "bitwise nand", 18: "bitwise and", 19: "bitwise or", 20: "bitwise xor", 21: "bitwise not",
    22: "left shift", 23: "logical right shift", 24: "arithmetic right shift", 25: "and", 26: "or", 27: "not",
    28: "add", 29: "sub", 30: "mul", 31: "div", 32: "rem", 33: "neg", 34: "inc", 35: "dec", 37: "gez",
    259: "to int", 260: "to float", 261: "float add", 262: "float sub", 263: "float mul", 264: "float div",
    265: "float rem", 266: "float neg", 267: "float gez",
}

INT_CELLS = {
    15: lambda a, b: wrap(signed(a) + signed(b)),
    16: lambda a, b: wrap(signed(a) + signed(b)),
    17: lambda a, b: wrap(~(a & b)),
    18: lambda a, b: a & b,
    19: lambda a, b: a | b,
    20: lambda a, b: a ^ b,
    22: lambda a, b: wrap(a << b % 64),
    23: lambda a, b: a >> b % 64,
    24: lambda a, b: wrap(signed(a) >> b % 64),
    25: lambda a, b: int(a != 0 and b != 0),
    26: lambda a, b: int(a != 0 or b != 0),
    28: lambda a, b: wrap(signed(a) + signed(b)),
    29: lambda a, b: wrap(signed(a) - signed(b)),
    30: lambda a, b: wrap(signed(a) * signed(b)),
    31: int_div,
    32: int_rem,
}

FLOAT_CELLS = {
    261: both(exact_add, on_floats(lambda x, y: x + y)),
    262: both(exact_sub, on_floats(lambda x, y: x - y)),
    263: both(exact_mul, on_floats(lambda x, y: x * y)),
    264: both(exact_div, on_floats(hard_div)),
    265: both(exact_rem, on_floats(hard_rem)),
}

INT_LANES = {
    21: lambda a: wrap(~a),
    27: lambda a: int(a == 0),
    33: lambda a: wrap(-signed(a)),
    34: lambda a: wrap(signed(a) + 1),
    35: lambda a: wrap(signed(a) - 1),
    37: lambda a: int(signed(a) >= 0),
    260: both(exact_to_float, lambda a: store(float(signed(a)))),
}

FLOAT_LANES = {
    259: both(exact_to_int, hard_to_int),
    266: lambda a: a ^ SIGN,
    267: both(exact_gez, lambda a: int(load(a) >= 0)),
}


def table(name, comment, rows):
    lines = ["", "// " + comment, "pub const %s: [u64; %d] = [" % (name, len(rows))]
    lines += ["    0x%016X, // %s" % row for row in rows]
    return lines + ["];"]


def kinds(name, comment, ops):
    lines = ["", "// " + comment, "pub const %s: [u64; %d] = [" % (name, len(ops))]
    lines += ["    %d, // %s" % (kind, NAMES[kind]) for kind in sorted(ops)]
    return lines + ["];"]


def lines(ops, lanes, cells):
    """A line for each op and lane: the kind, the lane, and the result by each cell."""
    for kind, op in sorted(ops.items()):
        for a, _ in lanes:
            yield "%d %016x:" % (kind, a) + "".join(" %016x" % op(a, *b) for b in cells)


def main(args):
    if args not in ([], ["--check"]):
        sys.exit(__doc__)
    source = ["// The kinds of the lane ops, and the patterns that they are tried on. Written by crates/test_lanes/make.py."]
    source += kinds("INT_CELLS", "The integer ops of a lane and the cell beside it.", INT_CELLS)
    source += kinds("FLOAT_CELLS", "The float ops of a lane and the cell beside it.", FLOAT_CELLS)
    source += kinds("INT_LANES", "The ops of an integer lane alone.", INT_LANES)
    source += kinds("FLOAT_LANES", "The ops of a float lane alone.", FLOAT_LANES)
    source += table("INTS", "Lanes and cells of INT_CELLS.", INTS)
    source += table("FLOATS", "Lanes and cells of FLOAT_CELLS.", FLOATS)
    source += table("LONE_INTS", "Lanes of INT_LANES, beside INTS.", LONE_INTS)
    source += table("LONE_FLOATS", "Lanes of FLOAT_LANES, beside FLOATS.", LONE_FLOATS)
    output = []
    for ops, lanes in ((INT_CELLS, INTS), (FLOAT_CELLS, FLOATS)):
        output += lines(ops, lanes, [(b,) for b, _ in lanes])
    for ops, lanes in ((INT_LANES, INTS), (INT_LANES, LONE_INTS), (FLOAT_LANES, FLOATS), (FLOAT_LANES, LONE_FLOATS)):
        output += lines(ops, lanes, [()])
    made = {name: ("\n".join(text) + "\n").encode() for name, text in (("src/vectors.rt", source), ("stdout", output))}
    words = "%d lines, %d results" % (len(output), sum(line.split(":")[1].count(" ") for line in output))
    return command.keep(HERE, made, args, words)


if __name__ == "__main__":
    command.run(main)
