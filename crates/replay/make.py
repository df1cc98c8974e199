#!/usr/bin/env python3
"""Makes what the gate replays: both stored lists, one after the other, and the answer where every case of them agrees.

    make.py             writes crates/replay/stdin and crates/replay/stdout
    make.py --check     says which of them is not what lists/ gives, and writes nothing
"""
import pathlib
import sys

HERE = pathlib.Path(__file__).resolve().parent
ROOT = HERE.parent.parent
sys.path[:0] = [str(ROOT / "tools"), str(ROOT / "compare")]
import command  # noqa: E402
import lists  # noqa: E402


def main(args):
    if args not in ([], ["--check"]):
        sys.exit(__doc__)
    cases = b"".join((ROOT / "lists" / name).read_bytes() for name in ("replay.list", "shapes.list"))
    count = sum(1 for _ in lists.split(cases))
    return command.keep(HERE, {"stdin": cases, "stdout": b"cases %d\nagree %d\n" % (count, count)}, args, "%d cases" % count)


if __name__ == "__main__":
    command.run(main)
