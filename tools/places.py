#!/usr/bin/env python3
"""Counts the places of docs/DESIGN-PASS.md in the code and the proofs, of the work tree or of a commit.

usage: tools/places.py [--list] [COMMIT]

One line for each thing that is counted: the point, what it is, and how many; with --list each place below it.
"""
import os
import re
import subprocess
import sys

ROOT = os.path.join(os.path.dirname(os.path.abspath(__file__)), "..")


def files(commit):
    """Name and text of each .rt file of src/ and each Answers.antt."""
    pattern = re.compile(r"crates/\w+/(src/.*\.rt|proofs/.*Answers\.antt)$")
    if commit:
        names = subprocess.run(["git", "ls-tree", "-r", "--name-only", commit, "crates"], cwd=ROOT, stdout=subprocess.PIPE, text=True, check=True).stdout.split("\n")
        return [(n, subprocess.run(["git", "show", "%s:%s" % (commit, n)], cwd=ROOT, stdout=subprocess.PIPE, text=True, check=True).stdout)
                for n in names if pattern.match(n)]
    names = subprocess.run(["git", "ls-files", "--cached", "--others", "--exclude-standard", "crates"], cwd=ROOT, stdout=subprocess.PIPE, text=True, check=True).stdout.split("\n")
    return [(n, open(os.path.join(ROOT, n)).read()) for n in sorted(set(names)) if pattern.match(n) and os.path.exists(os.path.join(ROOT, n))]


def functions(text):
    """Line, head, clauses and body of each function."""
    for m in re.finditer(r"^( *)(pub(?:\(\w+\))? )?(?:extern \"C\" )?fn (\w+)", text, re.M):
        head = text[m.start():]
        end = re.search(r"^%s\}$" % m.group(1), head, re.M)
        if not end:
            continue
        whole = head[:end.end()]
        body = re.search(r"^%s\{$" % m.group(1), whole, re.M)
        if body:
            top, inner = whole[:body.start()], whole[body.end():-len(end.group())]
        else:
            top, _, inner = whole.partition("{\n")
        yield text.count("\n", 0, m.start()) + 1, m.group(3), top, inner


def parameters(top):
    start = top.index("(")
    depth, names, word = 0, 0, ""
    for c in top[start:]:
        if c in "([<":
            depth += 1
        elif c in ")]>":
            depth -= 1
            if depth == 0:
                break
        elif c == "," and depth == 1:
            names += bool(word.strip())
            word = ""
            continue
        word += c if depth >= 1 and c != "(" else ""
    return names + bool(word.strip())


def shape(inner):
    """A body with names, numbers and space folded."""
    text = re.sub(r"//.*", "", inner)
    keep = {"if", "else", "while", "for", "in", "loop", "match", "return", "let", "mut", "as", "true", "false"}
    text = re.sub(r"[A-Za-z_][\w]*(::\w+)*", lambda m: m.group() if m.group() in keep else "w", text)
    text = re.sub(r"\b[0-9][0-9A-Fa-fx_.]*\b", "#", text)
    return re.sub(r"\s+", "", text)


def main():
    words = sys.argv[1:]
    listed = "--list" in words
    words = [w for w in words if w != "--list"]
    every = files(words[0] if words else None)
    code = [(n, t) for n, t in every if n.endswith(".rt")]
    found = []

    def lines(point, what, pattern, among=code):
        where = [(n, i + 1, line.strip()) for n, t in among for i, line in enumerate(t.split("\n")) if re.search(pattern, line)]
        found.append((point, what, where))

    lines(1, "enums of the code's own", r"^\s*(pub(\(crate\))? )?enum ")
    lines(1, "constants that number kinds, modes, answers or refusals", r"^\s*(pub )?const (?!ROOM)[A-Z_]+: (u8|u32) = (0|[1-9][0-9]?|0x[0-9a-f]{1,2});")
    lines(1, "sentinels for no place", r"const (NOWHERE|BEYOND)\b")
    flags, casts, wide, twins = [], [], [], {}
    for n, t in code:
        for line, name, top, inner in functions(t):
            if re.search(r"result ≤ 1\)? *(\}|$)", top) or re.search(r"^\s*(let|if)?.*\{ 1 \} else \{ 0 \}", inner):
                flags.append((n, line, name))
            if re.fullmatch(r"\s*\w+ as \w+\s*", inner):
                casts.append((n, line, name))
            if parameters(top) >= 7:
                wide.append((n, line, "%s, %d" % (name, parameters(top))))
            s = shape(inner)
            if len(s) > 12:
                twins.setdefault(s, []).append((n, line, name))
    found.append((1, "functions that answer 0 or 1", flags))
    found.append((2, "functions whose bodies have one shape", [p for s in twins.values() if len(s) > 1 for p in s]))
    lines(3, "loops by while or loop", r"^\s*(let .*= )?('\w+: )?(while |loop \{)")
    lines(3, "loops by for", r"^\s*('\w+: )?for .* in ")
    found.append((4, "functions that only cast", casts))
    lines(4, "lines that print by hand", r"io::(write_all|print_decimal|print_hex)\(")
    found.append((5, "functions of seven parameters or more", wide))
    lines(5, "clauses on the length of an array", r"length \w+\.(old|now|new) ≡ (most_ops|most_marks|most_bodies|limit\.depth|depth|[0-9]+)\b")
    lines(6, "elements read or 0 by hand", r"\.len\(\) <= (at|k|i) \{")
    lines(7, "calls and functions that choose an op by a number", r"\b(cell_row|lane_row)\(k\)|fn (cell|alone|zip_\w+|map_\w+)\(k: u8")
    lines(8, "answers that only say search rules", r"= search rules$", [(n, t) for n, t in every if n.endswith(".antt")])
    for point, what, where in found:
        print("%d  %-60s %4d" % (point, what, len(where)))
        if listed:
            for n, line, text in where:
                print("       %s:%d: %s" % (n, line, text))


if __name__ == "__main__":
    main()
