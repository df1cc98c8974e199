#!/usr/bin/env python3
"""Makes what the gate runs: the patch of document 01's case 9, and its answer, which was written by hand.

    make.py             writes crates/runner/stdin and crates/runner/stdout
    make.py --check     says which of them is not what patches/ gives, and writes nothing
"""
import pathlib
import sys

HERE = pathlib.Path(__file__).resolve().parent
ROOT = HERE.parent.parent
sys.path.insert(0, str(ROOT / "tools"))
import command  # noqa: E402


def main(args):
    if args not in ([], ["--check"]):
        sys.exit(__doc__)
    case9 = ROOT / "patches" / "case9"
    made = {"stdin": case9.with_suffix(".patch").read_bytes(), "stdout": case9.with_suffix(".expected").read_bytes()}
    return command.keep(HERE, made, args, "case 9")


if __name__ == "__main__":
    command.run(main)
