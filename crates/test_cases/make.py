#!/usr/bin/env python3
"""Makes what the gate runs of document 01's cases, from crates/test_cases/cases.txt.

    make.py             writes crates/test_cases/stdin and crates/test_cases/stdout
    make.py --check     says which of them is not what the text gives, and writes nothing

A case of the text: its name on a line of its own, then lines 'do:' (join or flatten, where it is no run; counts, where it is one and its step
total and counts are told too), 'ops:' (separated by ';', as patches/make.py takes them), 'input:', 'cells:', 'room:', 'register:', 'budget:',
'mode:' (the call mode) and 'counts:' (how many are lent; if nothing is said, as many as there are ops) where they are not the usual ones, and
'gives:', the answer, written by hand from documents 01 and 02. An empty line ends a case; '#' starts a remark. Ops in braces in an answer stand for
their bytes in hex.
"""
import pathlib
import re
import struct
import sys

HERE = pathlib.Path(__file__).resolve().parent
ROOT = HERE.parent.parent
sys.path[:0] = [str(ROOT / "tools"), str(ROOT / "patches")]
import command  # noqa: E402
from make import assemble_op  # noqa: E402

SORTS = {"run": 0, "join": 1, "flatten": 2, "counts": 3}
USUAL = {"do": "run", "ops": "", "input": "", "cells": "4096", "room": "64", "register": "1024", "budget": "100000", "mode": "0", "counts": "",
         "gives": ""}


def records(text):
    return [assemble_op(op.strip()) for op in text.split(";") if op.strip()]


def patch(text):
    return b"".join(records(text))


def read(text):
    """The cases: name, and what its lines say."""
    for block in re.split(r"\n\s*\n", text):
        lines = [line.strip() for line in block.splitlines() if line.strip() and not line.startswith("#")]
        if lines:
            said = dict(USUAL)
            for line in lines[1:]:
                key, _, words = line.partition(":")
                if key not in USUAL:
                    raise SystemExit("%s: no such line: %s" % (lines[0], line))
                said[key] = words.strip()
            yield lines[0], said


def frame(name, said):
    """What the program reads of a case."""
    file = patch(said["ops"])
    values = [int(v) % 2**64 for v in said["input"].split()]
    sizes = [int(said[key]) for key in ("cells", "room", "register")]
    counts = int(said["counts"] or len(records(said["ops"])))
    head = struct.pack("<BB5HIH", SORTS[said["do"]] + 16 * int(said["mode"]), len(name), len(file), len(values), *sizes, int(said["budget"]), counts)
    return head + name.encode() + file + struct.pack("<%dQ" % len(values), *values)


def line(name, said):
    """What it must print."""
    gives = re.sub(r"\{(.*?)\}", lambda ops: patch(ops[1]).hex(), said["gives"])
    return "%s: %s\n" % (name, gives)


def main(args):
    if args not in ([], ["--check"]):
        sys.exit(__doc__)
    cases = list(read((HERE / "cases.txt").read_text()))
    made = {"stdin": b"".join(frame(*case) for case in cases), "stdout": "".join(line(*case) for case in cases).encode()}
    return command.keep(HERE, made, args, "%d cases" % len(cases))


if __name__ == "__main__":
    command.run(main)
