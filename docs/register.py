#!/usr/bin/env python3
"""Writes docs/REGISTER.md from the sources: each function that a library exports, and the definitions that its contract cites.

    register.py             writes docs/REGISTER.md
    register.py --check     says whether what stands there is something else, and writes nothing

A crate has its section in the order of crates.txt; a program has none. Of each function marked `pub`, and of each function of a trait marked so,
it gives
- its path, module::name, Type::name or Trait::name, with the word 'own' where its module is private, so that its own crate alone can call it;
- the first sentence of the comment right above it;
- whether it asks something of its caller, a `requires`;
- the names in its `ensures` that its file imports by 'ghost use Rattle.NAME..', each with the file that defines it, or for a library of the
  toolchain with that library's name; the words of std, which every clause is made of, are left out. Of a trait's function they are those that
  its crate's implementations put for the ghost items that the clause names.
"""
import pathlib
import re
import sys

ROOT = pathlib.Path(__file__).resolve().parent.parent
sys.path.insert(0, str(ROOT / "tools"))
import command  # noqa: E402
import crates  # noqa: E402

HEAD = """# The register of functions

Made by docs/register.py from the sources: every function that a library marks `pub`, and those of its traits. *Asks* is said of one with a `requires`, which is proved at each call; *own* of one that only its own crate can call. The definitions are those that its `ensures` cites; paths start at the crate's folder. *In itself*: the `ensures` says it without one; *none*: there is no `ensures`. What the calls for outside promise, in words, is in docs/PROMISES.md.
"""


def modules(crate):
    """The source files of a library in the order of lib.rt, each with whether other crates see it."""
    lib = ROOT / "crates" / crate / "src" / "lib.rt"
    yield lib, True
    for pub, name in re.findall(r"^(pub )?mod (\w+);", lib.read_text(), re.M):
        yield lib.with_name(name + ".rt"), bool(pub)


def imports(crate, text):
    """The names that a file may cite, each with the file of its definition; and the names that stand for a whole file."""
    names, files = {}, {}
    for owner, path, listed, short in re.findall(r"^ghost use Rattle\.(\w+)\.([\w.]+?)(?:\.\{([^}]*)\}| as (\w+));", text, re.M):
        if owner == "std" or ".declared." in path:
            continue  # a struct of the code is no definition
        file = ("" if owner == crate else "crates/%s/" % owner) + path.replace(".", "/") + ".antt"
        file = file if (ROOT / "crates" / owner).is_dir() else "`%s`" % owner
        names.update({name.strip(): file for name in listed.split(",") if name.strip()})
        files.update({short: file} if short else {})
    return names, files


def block(text, at):
    """The end of the braces that begin at a place."""
    depth = 0
    for i in range(at, len(text)):
        depth += (text[i] == "{") - (text[i] == "}")
        if depth == 0:
            return i + 1
    raise SystemExit("a brace is not closed")


def contract(text, at):
    """What stands between a function's name and its body, or of a trait's its end: its parameters, whether it asks something, and its `ensures`."""
    start, asks, ensures = at, False, ""
    while True:
        found = re.compile(r"(?:(requires|ensures)\*?(?: \w+)? )?\{|;$", re.M).search(text, at)
        if at == start:
            parameters = re.findall(r"(\w+):(?!:)", text[start:found.start()])
        if not found[1]:
            return parameters, asks, ensures
        at = block(text, found.end() - 1)
        asks = asks or found[1] == "requires"
        ensures += text[found.end():at] if found[1] == "ensures" else ""


def said(text, at):
    """The first sentence of the comment that ends on the line before a place; attributes may stand between."""
    lines = text[:at].split("\n")[:-1]
    while lines and lines[-1].strip().startswith("#["):
        lines.pop()
    words = []
    while lines and lines[-1].strip().startswith("//"):
        words.insert(0, lines.pop().strip()[2:].strip())
    # the comment on the first line is the file's
    return re.split(r"(?<=[.])\s", " ".join(words))[0].replace("|", "\\|") if lines else ""


def cited(crate, text, parameters, ensures):
    """The definitions that an `ensures` cites, by file, in the order of the imports. A parameter may hide an import."""
    if not ensures:
        return "none"
    names, files = imports(crate, text)
    words = [word for word in re.split(r"[\s(){}]+", ensures) if word not in parameters]
    for word in list(words):
        short, dot, name = word.partition(".")
        if short in files and dot:
            names[name] = files[short]
            words.append(name)
    by = {}
    for name, file in names.items():
        if name in words:
            by.setdefault(file, []).append("`%s`" % name)
    return ", ".join("%s (%s)" % (", ".join(found), file) for file, found in by.items()) or "in itself"


def implemented(crate, trait, ensures):
    """The definitions that the implementations of a trait put for the ghost items that an `ensures` names."""
    found = []
    for source, _ in modules(crate):
        text = source.read_text()
        for head in re.finditer(r"^impl(?:<[^>]*>)? %s(?:<.*>)? for [^{]*" % trait, text, re.M):
            ghosts = re.findall(r"^ *ghost (\w+) = \{(.*)\};", text[head.end():block(text, head.end())], re.M)
            found.append(cited(crate, text, [], "".join(clause for name, clause in ghosts if name in re.split(r"\W+", ensures))))
    return ", ".join(found)


def functions(crate):
    for source, seen in modules(crate):
        text = source.read_text()
        types = [(found.start(), found[2], found[1]) for found in re.finditer(r"^(impl(?:<[^>]*>)?|pub trait) (\w+)", text, re.M)]
        for found in re.finditer(r"^( *)(pub )?(?:extern \"C\" )?fn (\w+)", text, re.M):
            _, owner, kind = [each for each in types if each[0] < found.start()][-1] if found[1] else (0, source.stem, "")
            if not found[2] and kind != "pub trait":
                continue
            parameters, asks, ensures = contract(text, found.end())
            notes = ", ".join(["own"] * (not seen) + ["asks"] * asks)
            definitions = implemented(crate, owner, ensures) if kind == "pub trait" else cited(crate, text, parameters, ensures)
            yield "| " + " | ".join(("`%s::%s`" % (owner, found[3]), said(text, found.start()), notes, definitions)) + " |"


def page():
    """The page, and how many functions it has."""
    parts, count = [HEAD], 0
    for heading, names in crates.read((ROOT / "crates.txt").read_text())[0]:
        for crate in names:
            if (ROOT / "crates" / crate / "src" / "lib.rt").is_file():
                rows = list(functions(crate))
                count += len(rows)
                table = ["| Function | What it does | | Definitions |", "|---|---|---|---|"] + rows if rows else ["No code."]
                parts.append("## `%s` (%s)\n\n%s\n" % (crate, heading, "\n".join(table)))
    return "\n".join(parts), count


def main(args):
    if args not in ([], ["--check"]):
        sys.exit(__doc__)
    text, count = page()
    return command.keep(ROOT, {"docs/REGISTER.md": text.encode()}, args, "%d functions" % count)


if __name__ == "__main__":
    command.run(main)
