#!/usr/bin/env python3
"""Draws the crates in README.md from crates.txt: their groups, and of each crate what it stands on.

    crates.py             writes the picture between the two marks of README.md
    crates.py --check     says whether the picture that stands there is another one, and writes nothing
    crates.py --show      writes the picture to standard output

The marks are the lines '<!-- crates: made by docs/crates.py -->' and '<!-- end of crates -->'. A comment in crates.txt whose first
word ends in a colon, as '# files: records, ..', is the heading of the crates below it, by that word. An arrow that follows from others is not
drawn: where a stands on b and b on c, a's line does not name c.
"""
import pathlib
import re
import sys

ROOT = pathlib.Path(__file__).resolve().parent.parent
sys.path.insert(0, str(ROOT / "tools"))
import command  # noqa: E402

README = ROOT / "README.md"
FIRST, LAST = "<!-- crates: made by docs/crates.py -->", "<!-- end of crates -->"


def read(text):
    """The groups, each a heading and its crates, and what each crate is said to stand on. Before the colon words may follow the name, as 'staticlib'."""
    groups, on = [("", [])], {}
    for line in text.splitlines():
        heading = re.match(r"# *(\w+):", line)
        name, colon, names = line.partition("#")[0].partition(":")
        if heading:
            groups.append((heading[1], []))
        elif colon:
            crate = name.split()[0]
            groups[-1][1].append(crate)
            on[crate] = names.split()
    return [group for group in groups if group[1]], on


def below(on, name, seen):
    """All that a crate stands on, straight or by others."""
    for other in on.get(name, []):
        if other not in seen:
            seen.add(other)
            below(on, other, seen)
    return seen


def arrows(on, name):
    """What a crate stands on, without what another of these stands on."""
    return [other for other in on[name] if not any(other in below(on, third, set()) for third in on[name] if third != other)]


def picture(text):
    groups, on = read(text)
    width = max(map(len, on))
    lines = []
    for heading, names in groups:
        lines += ([""] if lines else []) + ([heading] if heading else [])
        for name in names:
            line = "%s → %s" % (name.ljust(width), ", ".join(arrows(on, name)))
            lines.append(("    " if heading else "") + (line if on[name] else name))
    kit = sorted({other for names in on.values() for other in names} - set(on))
    said = "Each crate → the crates that it stands on; what follows from another arrow is left out."
    if kit:
        said += " The toolchain's own: %s." % ", ".join("`%s`" % name for name in kit)
    return "\n".join([said, "", "```text", *lines, "```"])


def main(args):
    if args not in ([], ["--check"], ["--show"]):
        sys.exit(__doc__)
    drawn = picture((ROOT / "crates.txt").read_text())
    if args == ["--show"]:
        print(drawn)
        return 0
    text = README.read_text()
    parts = re.fullmatch("(.*^%s\n)(.*)(^%s$.*)" % (re.escape(FIRST), re.escape(LAST)), text, re.M | re.S)
    if not parts or text.count(FIRST) != 1 or text.count(LAST) != 1:
        sys.exit("README.md must have the lines '%s' and '%s', each once and in this order: the picture stands between them" % (FIRST, LAST))
    made = "%s\n%s\n\n%s" % (parts[1], drawn, parts[3])
    return command.keep(ROOT, {"README.md": made.encode()}, args, "%d crates" % len(read((ROOT / "crates.txt").read_text())[1]))


if __name__ == "__main__":
    command.run(main)
