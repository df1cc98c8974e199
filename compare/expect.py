#!/usr/bin/env python3
"""Asks the judge about a list, and counts: where the Rust agrees, and each difference of docs/DIFFERENCES.md by its name.

    expect.py LIST       prints the counts and the first disagreements; exit status 1 if there is one
    expect.py smallest   the smallest inputs (generate.py smallest): each row must be met as the document says

A case is settled where the Rust agrees to the last step, or where it agrees up to a refusal and does there what the document says.
What is not settled is a disagreement: a wrong reading, or a difference that is still to be listed. A run by mark to whose end the Rust
was brought by taking its table away is settled, but is not counted among those where it agrees.
"""
import atexit
import os
import shutil
import subprocess
import sys
import tempfile

HERE = os.path.dirname(os.path.abspath(__file__))
sys.path.insert(0, os.path.join(HERE, "..", "tools"))
import command
import generate
import lists
from model01 import AND, CALL, DEREF, DIV, FFI, GET, OR, PEEK, REM

AGREE = "agree with the Rust to the end"
PORT = "answers of the port alone (file, 37, 40, check)"
ROOM = "beyond the judge's room"
NAMED = "lanes that the Rust's panic names (21, 22)"
UNNAMED = "lanes of the port alone (21, 22, 23)"
AIDED = "agree by mark, with the Rust's table taken away"
# how a run by mark was put to the Rust, in the judge's numbers
AS_IT_IS, TAKEN = 1, 2
BY_MARK = {AS_IT_IS: "by mark, the Rust as it is", TAKEN: "by mark, the Rust's table taken away at a Call"}
BY_TOTAL = "ended by the step total, the Rust not at its end"
OUTSIDE = {"agree": AGREE, "port": PORT, "utf8": "comment bytes", "dirty": "lent cells not zero", "big": ROOM}
AT_THE_OP = {
    (20, "hang"): "endless search", (21, "panic"): "missing lane", (22, "panic"): "cell beyond the length", (23, "went"): "lent tape",
    (24, "err"): "both refuse", (25, "went"): "pointer limit", (26, "panic"): "negative cell", (27, "err"): "both refuse",
    (28, "went"): "negative call", (29, "err"): "both refuse", (30, "panic"): "Alloc's room", (33, "err"): "both refuse",
    (34, "went"): "channel limit", (35, "err"): "both refuse", (36, "went"): "output room",
}


def name(sort, number, verdict, kind):
    """The difference's name, or what else the verdict says; None for a disagreement."""
    if verdict in OUTSIDE:
        return OUTSIDE[verdict]
    if sort == lists.FLATTEN:
        return "stray End" if (number, verdict) == (10, "panic") else None
    if number == 21 and verdict == "went" and kind in (DIV, REM):
        return "divisor before lane"
    if number == 21 and verdict == "err" and kind in (GET, PEEK):
        return "device before lane"
    if number == 22 and verdict == "went" and kind in (AND, OR):
        return "cell skipped"
    if number == 32 and verdict in ("went", "err", "panic") and kind in (CALL, DEREF):
        # a step further the Rust may find a function that is not there, or a negative cell
        return "stack limit"
    if number == 33 and kind == FFI:
        return "too few values" if verdict == "panic" else None
    return AT_THE_OP.get((number, verdict))


def build():
    """The judge's path. It is built in COMPARE_OUT, or in a folder that is there until the command ends."""
    out = os.environ.get("COMPARE_OUT")
    if not out:
        out = tempfile.mkdtemp()
        atexit.register(shutil.rmtree, out, ignore_errors=True)
    made = subprocess.run([os.path.join(HERE, "build")], stdout=subprocess.PIPE, text=True, env=dict(os.environ, COMPARE_OUT=out))
    if made.returncode:
        sys.exit(made.returncode)
    return made.stdout.strip()


def judged(judge, data, *flags, timeout=None):
    """The judge's verdict on each case: sort, number, verdict, kind, NaNs, whether the Rust's panic names the lane, its steps over comments, how a run
    by mark was put to it, and whether the step total ended the run."""
    told = subprocess.run([judge, *flags], input=data, stdout=subprocess.PIPE, check=True, timeout=timeout).stdout.decode()
    for line in told.splitlines():
        sort, number, verdict, kind, nans, named, *beside = line.split()
        yield int(sort), int(number), verdict, None if kind == "-" else int(kind), int(nans), named == "1", *map(int, beside)


def tally(judge, cases):
    """Of cases as bytes: counts by name, and the disagreements as (place in the list, verdict)."""
    counts, wrong = {}, []
    told = list(judged(judge, b"".join(cases)))
    if len(told) != len(cases):
        sys.exit("expect.py: %d verdicts for %d cases" % (len(told), len(cases)))
    for i, (sort, number, verdict, kind, nans, named, comments, by_mark, by_total) in enumerate(told):
        found = name(sort, number, verdict, kind)
        if found == AGREE and by_mark == TAKEN:
            found = AIDED
        if found is None:
            wrong.append((i, verdict))
        else:
            counts[found] = counts.get(found, 0) + 1
        for times, beside in ((nans, "NaN bits"), (comments, "comment as a step"), (by_mark, BY_MARK.get(by_mark)), (by_total, BY_TOTAL)):
            if times:
                counts[beside] = counts.get(beside, 0) + 1
        if number in (21, 22, 23):
            lane = NAMED if named else UNNAMED
            counts[lane] = counts.get(lane, 0) + 1
    return counts, wrong


def told(counts, wrong):
    for key in sorted(counts, key=lambda k: -counts[k]):
        print("%9d  %s" % (counts[key], key))
    print("%9d  DISAGREE" % wrong)


def smallest(judge):
    """The rows of docs/DIFFERENCES.md, tried; a hang is tried as it is, with a second's time."""
    rows = list(generate.smallest())
    data = [lists.write(c) for c in generate.answered(c for _, _, c in rows)]
    bad = 0
    for (row, wanted, c), case in zip(rows, data):
        sort, number, verdict, kind = next(judged(judge, case))[:4]
        met = verdict == wanted and (name(sort, number, verdict, kind) == row or verdict in ("agree", "big", "port"))
        if verdict == "hang":
            try:
                list(judged(judge, case, "--raw", timeout=1))
                met = False
            except subprocess.TimeoutExpired:
                pass
        print("%-22s %-5s %s: %s" % (row, verdict, "as listed" if met else "NOT AS LISTED (%s)" % wanted, lists.patch_words(c.patch)))
        bad += not met
    for row, c in generate.rusts_own():
        verdict = next(judged(judge, lists.write(c), "--raw"))[2]
        print("%-22s the Rust's answer %s: %s" % (row, "as listed" if verdict == "agree" else "NOT AS LISTED", lists.patch_words(c.patch)))
        bad += verdict != "agree"
    return bad


def main(args):
    if len(args) != 1:
        sys.exit(__doc__)
    judge = build()
    if args[0] == "smallest":
        sys.exit(1 if smallest(judge) else 0)
    with open(args[0], "rb") as f:
        cases = list(lists.split(f.read()))
    counts, wrong = tally(judge, cases)
    told(counts, len(wrong))
    for i, verdict in wrong[:5]:
        print("case %d, the judge says %s: %s" % (i, verdict, lists.show(next(lists.read(cases[i])))))
    sys.exit(1 if wrong else 0)


if __name__ == "__main__":
    command.run(main)
