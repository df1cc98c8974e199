#!/usr/bin/env python3
"""A small assembler: writes patches/NAME.patch from each patches/NAME.txt.

A line of the text is one op, as document 01 names it, with its lane count, values or mode; 'call' alone is the core op, and with the
number of a binding FFI Call; '//' starts a Comment op, '#' a remark to the reader; 'bytes' is followed by bytes in hex, as they stand, for
what is no op.

    make.py             writes the files
    make.py -           writes the patch of a text on standard input to standard output
    make.py --check     says which are not what their text gives, and writes nothing
"""
import pathlib
import struct
import sys

HERE = pathlib.Path(__file__).resolve().parent
sys.path.insert(0, str(HERE.parent / "tools"))
import command  # noqa: E402

# In the order of document 000's CoreOp, from kind 0, and of its StandardOp, from kind 256. What follows the name: no word, a
# lane count, values (i64 or f64), an i64, an i64 and a lane count, a mode, or the number of a binding.
CORE = """// set:ints fun call ret while if else end store:n load:n move:int where deref ref index:n offset:int,n bitwise-nand:n
    bitwise-and:n bitwise-or:n bitwise-xor:n bitwise-not:n lsh:n lrsh:n arsh:n and:n or:n not:n add:n sub:n mul:n div:n rem:n
    neg:n inc:n dec:n swap:n gez:n get:mode put:mode""".split()
STANDARD = """set-f:floats alloc free to-int:n to-float:n add-f:n sub-f:n mul-f:n div-f:n rem-f:n neg-f:n gez-f:n sin:n cos:n
    tan:n asin:n acos:n atan:n pow:n peek poke call:binding""".split()
# two ops are called 'call': that of StandardOp stands under 'call n'
KINDS = {}
for first, names in ((0, CORE), (256, STANDARD)):
    for kind, name in enumerate(names, first):
        name, _, form = name.partition(":")
        KINDS[name + " n" if name in KINDS else name] = kind, form
MODES = {"char": 0, "int": 1, "float": 2, "other": 3}


def payload(form, words):
    """The bytes after the kind."""
    if form == "n":
        return struct.pack("<I", int(words))
    if form == "int":
        return struct.pack("<q", int(words))
    if form == "int,n":
        offset, n = words.split(",")
        return struct.pack("<qI", int(offset), int(n))
    if form == "mode":
        return struct.pack("<H", MODES[words])
    if form == "binding":
        return struct.pack("<H", int(words))
    if form in ("ints", "floats"):
        if not (words.startswith("[") and words.endswith("]")):
            raise ValueError("values stand in brackets")
        values = [v for v in words[1:-1].split(",") if v.strip()]
        if form == "ints":
            return struct.pack("<%dq" % len(values), *map(int, values))
        return struct.pack("<%dd" % len(values), *map(float, values))
    if words:
        raise ValueError("nothing follows this op's name")
    return b""


def kind_of(text):
    """The kind of an op, and the form of what follows its name."""
    name, _, words = text.partition(" ")
    return KINDS["call n" if name == "call" and words.strip() else name]


def assemble_op(text):
    """The record of one op."""
    if text.startswith("//"):
        return record(0, text[2:].strip().encode())
    name, _, words = text.partition(" ")
    if name == "bytes":
        return bytes.fromhex(words)
    kind, form = kind_of(text)
    return record(kind, payload(form, words.strip()))


def record(kind, data):
    return struct.pack("<IH", len(data) + 2, kind) + data


def assemble(text):
    """The patch file of a text with one op a line."""
    out = b""
    for number, line in enumerate(text.splitlines(), 1):
        line = line.strip() if line.strip().startswith("//") else line.partition("#")[0].strip()
        if line:
            try:
                out += assemble_op(line)
            except (KeyError, ValueError, struct.error) as fault:
                raise SystemExit("line %d: %s: %s" % (number, line, fault))
    return out


def main(args):
    if args not in ([], ["-"], ["--check"]):
        sys.exit(__doc__)
    if args == ["-"]:
        sys.stdout.buffer.write(assemble(sys.stdin.read()))
        return 0
    made = {text.with_suffix(".patch").name: assemble(text.read_text()) for text in sorted(HERE.glob("*.txt"))}
    return command.keep(HERE, made, args, "%d patches" % len(made))


if __name__ == "__main__":
    command.run(main)
