#!/usr/bin/env python3
"""Fills the answers into docs/GUIDE.md: the examples stand there, and what they give is worked out by compare/model01.py; and into README.md
what its commands print.

    guide.py             writes the answers
    guide.py --check     says which lines of the two are not what the model gives, and writes nothing
    guide.py --list      writes all examples with their expected answers to standard output, as a list of cases (docs/REPLAY.md)

An example is one of these.
- A row of a table whose last two columns are 'Example' and 'Gives'. Example: the ops in a code span, with ';' between them, as
  patches/make.py takes them; before it 'join' or 'flatten' where it is no run; after it words with a value in a code span: input, cells,
  outputs, budget, mode (the call mode), counts (those lent, one for each op if they are not named), position, length and total (of a run from a
  state), room and bodies (of a join or a flattening). 'N * ' before an op or a value repeats it.
- A block 'patch' with one op a line, and after it a block 'trace', which has a line for each step, with what its first line names.
- In a block 'console' each './feltcairn run', of a file of patches/ or of ops after "printf '%s\\n'": what it prints. Other commands stay as they are.
Gives: what to show, each a word and its values; the words are written by hand, the values here. A refusal is always shown.
A table whose first column is 'Kind' or 'No.' has the example of that kind or number: each kind and each number must have one.
"""
import difflib
import pathlib
import re
import shlex
import struct
import sys

ROOT = pathlib.Path(__file__).resolve().parent.parent
sys.path[:0] = [str(ROOT / "tools"), str(ROOT / "compare"), str(ROOT / "patches")]
import command  # noqa: E402
import lists  # noqa: E402
import model01  # noqa: E402
from make import KINDS, assemble_op, kind_of  # noqa: E402

GUIDE = ROOT / "docs" / "GUIDE.md"
README = ROOT / "README.md"
SHOWN = 8
BUSIEST = 10
NUMBERS = set(range(1, 14)) | set(range(20, 38)) - {31} | {40, 50}
# as ./feltcairn run runs a patch
USUAL = {"input": "", "cells": "4096", "outputs": "4096", "budget": "100000"}


# ---- an example

def repeated(text, separator):
    """The parts of a text, those after 'N * ' so many times."""
    for part in text.split(separator):
        count, star, rest = part.strip().rpartition(" * ")
        if star and count.isdigit():
            yield from [rest] * int(count)
        elif part.strip():
            yield part.strip()


def ops_of(text):
    """The ops of a code span, each as patches/make.py takes it."""
    ops = []
    for op in re.split(r";\s*(?![^\[]*\])", text):
        count, star, rest = op.partition(" * ")
        times, op = (int(count), rest) if star and count.strip().isdigit() else (1, op)
        values = re.fullmatch(r"(.*)\[(.*)\]", op)
        if values:
            op = "%s[%s]" % (values[1], ", ".join(repeated(values[2], ",")))
        ops += [op.strip()] * times
    return ops


def assembled(ops):
    return b"".join(assemble_op(op) for op in ops)


class Example:
    def __init__(self, ops, verb="run", patch=None, **said):
        self.verb, self.ops, self.said = verb, ops, said
        self.patch = assembled(ops) if patch is None else patch

    def number(self, word):
        return int(self.said.get(word, USUAL.get(word, "0")))

    def counts(self):
        """The counts that are lent: those said, or zeros, one for each op."""
        if "counts" in self.said:
            return [int(v) for v in self.said["counts"].split()]
        return [0] * len(model01.read_patch(self.patch)[2] or [])

    def case(self, budget=None):
        """The case of the list, with the model's answer."""
        if self.verb == "join" or self.verb == "flatten":
            c = lists.Case(lists.JOIN if self.verb == "join" else lists.FLATTEN, self.patch)
            marks = sum(op == "fun" for op in self.ops)
            c.room, c.fill, c.bodies = int(self.said.get("room", len(self.patch))), 0xA5, int(self.said.get("bodies", marks))
        else:
            c = lists.Case(lists.RUN if {"position", "length", "total"} & set(self.said) else lists.FRESH, self.patch)
            c.budget = self.number("budget") if budget is None else budget
            c.mode = self.number("mode")
            c.inputs = [int(v) % 2**64 for v in self.said.get("input", "").split()]
            c.tape, c.outputs = [0] * self.number("cells"), [0] * self.number("outputs")
            c.register, c.table, c.channel, c.counts = [0] * 1024, [0] * 256, [0] * 256, self.counts()
            if c.sort == lists.RUN:
                c.machine = lists.Machine(self.number("mode"))
                c.machine.position, c.machine.counted, c.machine.total = self.number("position"), self.number("length"), self.number("total")
        c.answer = model01.answer(c)
        return c

    def checking(self):
        c = lists.Case(lists.CHECK, self.patch)
        c.answer = model01.answer(c)
        return c


# ---- what is shown of an answer

def shortened(values):
    if len(values) > SHOWN:
        return "%s .. (%d)" % (" ".join(values[:2]), len(values))
    return " ".join(values) or "none"


def signed(values):
    return [str(lists.signed(v)) for v in values]


def floats(values):
    return [repr(struct.unpack("<d", struct.pack("<Q", v))[0]) for v in values]


def cells(tape):
    """The cells up to the last that is not zero."""
    while tape and tape[-1] == 0:
        tape = tape[:-1]
    return tape


def busy(counts):
    """Place and count of the ten busiest: the higher count first, the lower place on ties, zeros left out."""
    worked = sorted((-count, place) for place, count in enumerate(counts) if count)
    return ["%d %d" % (place, -less) for less, place in worked[:BUSIEST]]


def op_list(patch):
    """The ops of a good patch, as an example writes them."""
    out, at = [], 0
    while at < len(patch):
        length, kind = struct.unpack_from("<IH", patch, at)
        out.append(lists.op_words(kind, patch[at + 6:at + 4 + length]))
        at += 4 + length
    return "`%s`" % "; ".join(out) if out else "nothing"


SHOW = {
    "steps": lambda c, a: str(a.steps),
    "next": lambda c, a: str(a.machine.position),
    "halted": lambda c, a: "yes" if a.machine.halted else "no",
    "lanes": lambda c, a: str(a.machine.lanes),
    "lane": lambda c, a: signed(a.register[:1])[0],
    "register": lambda c, a: shortened(signed(a.register[:a.machine.lanes])),
    "floats": lambda c, a: shortened(floats(a.register[:a.machine.lanes])),
    "bits": lambda c, a: shortened(["%016X" % v for v in a.register[:a.machine.lanes]]),
    "missing": lambda c, a: "lane %d" % a.lane,
    "pointer": lambda c, a: str(a.machine.pointer),
    "length": lambda c, a: str(a.machine.counted),
    "tape": lambda c, a: shortened(signed(cells(a.tape))),
    "table": lambda c, a: shortened(signed(a.table[:a.machine.functions])),
    "calls": lambda c, a: shortened(signed(a.machine.calls)),
    "refs": lambda c, a: shortened(signed(a.machine.refs)),
    "channel": lambda c, a: shortened(signed(a.channel[(a.machine.first + i) % 256] for i in range(a.machine.waiting))),
    "waiting": lambda c, a: shortened(floats(a.channel[(a.machine.first + i) % 256] for i in range(a.machine.waiting))),
    "left": lambda c, a: shortened(signed(c.inputs[a.machine.taken:])),
    "out": lambda c, a: shortened(signed(a.outputs[:a.machine.written])),
    "counts": lambda c, a: shortened([str(count) for count in a.counts]),
    "total": lambda c, a: str(a.machine.total),
    "busy": lambda c, a: " ".join(busy(a.counts)) or "none",
    "joined": lambda c, a: op_list(a.written),
    "flat": lambda c, a: op_list(a.written),
    "bodies": lambda c, a: ", ".join("number %d: op %d, %d ops" % body for body in a.bodies) or "none",
}


def shown(example, words):
    """What an example gives, word by word; its refusals first."""
    c = example.case()
    a = c.answer
    out = []
    if example.verb == "run":
        check = example.checking().answer
        if 1 <= check.number <= 9:
            return ["load %d at byte %d" % (check.number, check.place)]
        if check.number or "check" in words:
            out.append("check %d at %d" % (check.number, check.place))
        if a.number or "run" in words:
            out.append("run %d at %d" % (a.number, a.place))
    elif a.number or example.verb in words:
        out.append("%s %d at %d" % (example.verb, a.number, a.place))
    for word in words:
        if word not in ("load", "check", "run", "join", "flatten"):
            out.append("%s %s" % (word, SHOW[word](c, a)))
    return out


def traced(example, words):
    """A line a step: the op, and what is then seen."""
    steps = example.case().answer.steps
    rows = [["step", "op"] + words]
    for n in range(steps + 1):
        c = example.case(n)
        before = example.case(n - 1).answer.machine.position if n else None
        op = "%d: %s" % (before, example.ops[before]) if n else "fresh"
        rows.append([str(n), op] + [SHOW[word](c, c.answer) for word in words])
    last = example.case().answer
    if last.number:
        rows.append(["", "%d: %s" % (last.place, example.ops[last.place]), "refused with %d" % last.number])
    widths = [max(len(row[i]) for row in rows if i < len(row)) for i in range(len(rows[0]))]
    return ["  ".join(cell.ljust(width) for cell, width in zip(row, widths)).rstrip() for row in rows]


# ---- what a command prints

RUN = re.compile(r"(?:printf '%s\\n' (.*) \| python3 patches/make\.py - \| )?\./feltcairn run (--by-mark )?(-|patches/\S+\.patch)")


def printed(command):
    """The lines of a './feltcairn run'; None of another command."""
    found = RUN.fullmatch(command)
    if not found or bool(found[1]) != (found[3] == "-"):
        return None
    patch = assembled(shlex.split(found[1])) if found[1] else (ROOT / found[3]).read_bytes()
    example = Example([], patch=patch, mode="1" if found[2] else "0")
    check, a = example.checking().answer, example.case().answer
    if 1 <= check.number <= 9:
        return ["load %d %d" % (check.number, check.place)]
    out = ["out"] + signed(a.outputs[:a.machine.written])
    return ["check %d %d" % (check.number, check.place), "run %d %d %d" % (a.number, a.steps, a.place), " ".join(out), " ".join(["busy"] + busy(a.counts))]


def answered(body):
    """A block of commands, with what each prints below it."""
    out, told = [], None
    for line in body:
        if line.startswith("$ "):
            told = printed(line[2:])
            out += [line] + (told or [])
        elif told is None:
            out.append(line)
    return out


# ---- the guide

def words_in(cell):
    """What a cell shows: the first word of each part."""
    return [part.split()[0] for part in re.sub("`[^`]*`", "", cell).split(";") if part.split()]


def row_example(cell):
    """The example of a table's cell."""
    found = re.fullmatch(r"(join |flatten )?`([^`]*)`((?:, \w+ `[^`]*`)*)", cell)
    if not found:
        raise SystemExit("no example: %s" % cell)
    said = dict(re.findall(r", (\w+) `([^`]*)`", found[3]))
    return Example(ops_of(found[2]), (found[1] or "run").strip(), **said)


def kinds_in(example):
    return {kind_of(op)[0] for op in example.ops if op.split()[0] in KINDS}


def about(head, row, example):
    """The kind or the number that a row is about, if its example has it."""
    if head == "Kind" and int(row[0]) in kinds_in(example):
        return "kind", int(row[0])
    if head == "No." and re.search(r"\b%s at\b" % row[0], row[-1]):
        return "number", int(row[0])
    return None


def missing(found):
    """The kinds and numbers that no example is about."""
    all_there_are = {("kind", k) for k, _ in KINDS.values()} | {("number", n) for n in NUMBERS}
    return ["no example of %s %d" % lack for lack in sorted(all_there_are - found)]


def filled(text):
    """A document with its answers; its examples, and of each whether it is traced; and what the guide would lack."""
    out, examples, lines, i = [], [], text.split("\n"), 0
    head, patch, found = None, None, set()
    while i < len(lines):
        line = lines[i]
        fence = re.match(r"```(\w+)(.*)", line)
        if fence:
            end = lines.index("```", i + 1)
            body = lines[i + 1:end]
            if fence[1] == "patch":
                patch = Example(body)
            elif fence[1] == "trace":
                body = traced(patch, fence[2].split())
                examples.append((patch, True))
            elif fence[1] == "console":
                body = answered(body)
            out += [line] + body + ["```"]
            i = end + 1
            continue
        if line.startswith("|"):
            row = [cell.strip() for cell in line.strip("|").split("|")]
            if row[-2:] == ["Example", "Gives"]:
                head = row[0]
            elif head and not set(line) <= set("|-: "):
                example = row_example(row[-2])
                examples.append((example, False))
                row[-1] = "; ".join(shown(example, words_in(row[-1])))
                line = "| " + " | ".join(row) + " |"
                found.add(about(head, row, example))
        else:
            head = None
        out.append(line)
        i += 1
    return "\n".join(out), examples, missing(found - {None})


def cases(examples):
    """Every example as cases of a list: the run, each step of a trace, and the check."""
    for example, steps in examples:
        yield example.case()
        if example.verb == "run":
            yield example.checking()
        for n in range(example.case().answer.steps if steps else 0):
            yield example.case(n)


def stale(document, text, made):
    """Whether a document is not what the model gives; says which lines are not."""
    name = command.from_root(document)
    for line in difflib.unified_diff(text.split("\n"), made.split("\n"), name, "what the model gives", n=0, lineterm=""):
        print(line)
    return text != made


def main(args):
    if args not in ([], ["--check"], ["--list"]):
        sys.exit(__doc__)
    texts = {document: document.read_text() for document in (GUIDE, README)}
    made = {document: filled(text) for document, text in texts.items()}
    _, examples, lacks = made[GUIDE]
    for lack in lacks:
        print("docs/GUIDE.md: " + lack, file=sys.stderr)
    if args == ["--list"]:
        sys.stdout.buffer.write(b"".join(lists.write(c) for c in cases(examples)))
        return 0
    if args == ["--check"]:
        bad = [stale(document, text, made[document][0]) for document, text in texts.items()]
        return 1 if any(bad) or lacks else 0
    for document, text in texts.items():
        if made[document][0] != text:
            document.write_text(made[document][0])
    print("%d examples" % len(examples))
    return 0


if __name__ == "__main__":
    command.run(main)
