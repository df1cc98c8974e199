#!/usr/bin/env python3
"""Lists of cases (docs/REPLAY.md): writes them, reads them, and shows a case in words.

    lists.py show FILE [CASE ..]     the cases in words, all of them or those with these numbers (from 0)
    lists.py count FILE              how many cases of each sort and expected number
"""
import os
import struct
import sys

sys.path.insert(0, os.path.join(os.path.dirname(os.path.abspath(__file__)), "..", "tools"))
import command

RUN, FRESH, JOIN, FLATTEN, CHECK, STEP = range(6)
SORTS = ["run", "fresh run", "join", "flatten", "check", "step"]
# those that run a patch, and of them those that are handed a state
RUNS, FROM_STATE = (RUN, FRESH, STEP), (RUN, STEP)
NUMBERS = ["position", "pointer", "counted", "halted", "lanes", "functions", "first", "waiting", "taken", "written"]
SLICES = ["tape", "register", "table", "channel", "outputs", "counts"]
NAMES = {
    0: "//", 1: "set", 2: "fun", 3: "call", 4: "ret", 5: "while", 6: "if", 7: "else", 8: "end", 9: "store", 10: "load",
    11: "move", 12: "where", 13: "deref", 14: "ref", 15: "index", 16: "offset", 17: "bitwise-nand", 18: "bitwise-and",
    19: "bitwise-or", 20: "bitwise-xor", 21: "bitwise-not", 22: "lsh", 23: "lrsh", 24: "arsh", 25: "and", 26: "or", 27: "not",
    28: "add", 29: "sub", 30: "mul", 31: "div", 32: "rem", 33: "neg", 34: "inc", 35: "dec", 36: "swap", 37: "gez", 38: "get",
    39: "put", 256: "set-f", 257: "alloc", 258: "free", 259: "to-int", 260: "to-float", 261: "add-f", 262: "sub-f",
    263: "mul-f", 264: "div-f", 265: "rem-f", 266: "neg-f", 267: "gez-f", 268: "sin", 269: "cos", 270: "tan", 271: "asin",
    272: "acos", 273: "atan", 274: "pow", 275: "peek", 276: "poke", 277: "call",
}


class Machine:
    """The machine's numbers, its two stacks, its call mode and its step total. Without more it is the fresh one of that mode."""

    __slots__ = NUMBERS + ["calls", "refs", "mode", "total"]

    def __init__(self, mode=0):
        for name in NUMBERS:
            setattr(self, name, 0)
        self.lanes = 1024
        self.calls = []
        self.refs = []
        self.mode = mode
        self.total = 0

    def copy(self):
        m = Machine(self.mode)
        m.total = self.total
        for name in NUMBERS:
            setattr(m, name, getattr(self, name))
        m.calls = self.calls[:]
        m.refs = self.refs[:]
        return m


class Case:
    """A case of a list; which of these it has goes by its sort."""

    __slots__ = ["sort", "patch", "budget", "mode", "inputs", "machine", "room", "fill", "bodies", "answer", "style"] + SLICES

    def __init__(self, sort, patch):
        self.sort = sort
        self.patch = patch
        # of a fresh run; a state has its own
        self.mode = 0
        self.machine = None
        self.answer = None
        self.style = ""


class Answer:
    """number and place; steps, lane, machine and slices of a run; bytes of a join or flattening; bodies of a flattening."""

    __slots__ = ["number", "place", "steps", "lane", "machine", "written", "bodies"] + SLICES

    def __init__(self, number, place):
        self.number = number
        self.place = place
        self.lane = 0


u32 = struct.Struct("<I").pack
entry = struct.Struct("<IQ").pack


def sparse(values):
    found = [entry(i, v) for i, v in enumerate(values) if v]
    return u32(len(found)) + b"".join(found)


def write_machine(m):
    numbers = struct.pack("<13IQ", *[int(getattr(m, name)) for name in NUMBERS], len(m.calls), len(m.refs), m.mode, m.total)
    stacks = m.calls[:256] + m.refs[:256]
    return numbers + struct.pack("<%dI" % len(stacks), *stacks)


def write(case):
    """The bytes of a case with its expected answer."""
    a = case.answer
    out = [bytes([case.sort]), u32(len(case.patch)), case.patch]
    if case.sort in RUNS:
        out += [u32(case.budget), u32(len(case.inputs)), struct.pack("<%dQ" % len(case.inputs), *case.inputs)]
        for name in SLICES:
            values = getattr(case, name)
            out += [u32(len(values)), sparse(values)]
        out.append(write_machine(case.machine) if case.sort in FROM_STATE else u32(case.mode))
        out += [struct.pack("<4I", a.number, a.steps, a.place, a.lane), write_machine(a.machine)]
        out += [sparse(getattr(a, name)) for name in SLICES]
    elif case.sort in (JOIN, FLATTEN):
        out += [u32(case.room), bytes([case.fill])]
        if case.sort == FLATTEN:
            out.append(u32(case.bodies))
        out += [struct.pack("<3I", a.number, a.place, len(a.written)), a.written]
        if case.sort == FLATTEN:
            out.append(u32(len(a.bodies)))
            out += [struct.pack("<3I", *body) for body in a.bodies]
    else:
        out.append(struct.pack("<2I", a.number, a.place))
    body = b"".join(out)
    return u32(len(body)) + body


class Reader:
    def __init__(self, data, at=0):
        self.data = data
        self.at = at

    def u32(self):
        self.at += 4
        return struct.unpack_from("<I", self.data, self.at - 4)[0]

    def numbers(self, form, n):
        got = struct.unpack_from("<%d%s" % (n, form), self.data, self.at)
        self.at += struct.calcsize("<%d%s" % (n, form))
        return list(got)

    def counted(self):
        n = self.u32()
        self.at += n
        return self.data[self.at - n:self.at]

    def sparse(self, n):
        values = [0] * n
        for _ in range(self.u32()):
            i, v = struct.unpack_from("<IQ", self.data, self.at)
            self.at += 12
            values[i] = v
        return values

    def machine(self):
        got = self.numbers("I", 13)
        m = Machine(got[12])
        m.total = self.numbers("Q", 1)[0]
        for name, v in zip(NUMBERS, got):
            setattr(m, name, v)
        m.calls = self.numbers("I", min(got[10], 256)) + [0] * max(0, got[10] - 256)
        m.refs = self.numbers("I", min(got[11], 256)) + [0] * max(0, got[11] - 256)
        return m


def read(data):
    """The cases of a list, one after the other."""
    r = Reader(data)
    while r.at < len(data):
        end = r.u32() + r.at
        sort = data[r.at]
        r.at += 1
        c = Case(sort, r.counted())
        if sort in RUNS:
            c.budget = r.u32()
            c.inputs = r.numbers("Q", r.u32())
            for name in SLICES:
                setattr(c, name, r.sparse(r.u32()))
            if sort in FROM_STATE:
                c.machine = r.machine()
            else:
                c.mode = r.u32()
            number, steps, place, lane = r.numbers("I", 4)
            a = Answer(number, place)
            a.steps = steps
            a.lane = lane
            a.machine = r.machine()
            for name in SLICES:
                setattr(a, name, r.sparse(len(getattr(c, name))))
        elif sort in (JOIN, FLATTEN):
            c.room = r.u32()
            c.fill = data[r.at]
            r.at += 1
            if sort == FLATTEN:
                c.bodies = r.u32()
            number, place = r.numbers("I", 2)
            a = Answer(number, place)
            a.written = r.counted()
            if sort == FLATTEN:
                a.bodies = [tuple(r.numbers("I", 3)) for _ in range(r.u32())]
        else:
            a = Answer(*r.numbers("I", 2))
        c.answer = a
        if r.at != end:
            raise ValueError("a case of sort %d has %d bytes too many" % (sort, end - r.at))
        yield c


def split(data):
    """The cases of a list as bytes."""
    at = 0
    while at < len(data):
        end = at + 4 + struct.unpack_from("<I", data, at)[0]
        yield data[at:end]
        at = end


def record(kind, payload=b""):
    return struct.pack("<IH", len(payload) + 2, kind) + payload


def signed(v):
    return v - (1 << 64) if v >> 63 else v


def op_words(kind, p):
    """One op in words; what is no op is given as its bytes."""
    name = NAMES.get(kind, "kind %d" % kind)
    if kind == 0:
        return "// " + p.decode("utf-8", "backslashreplace")
    if kind in (1, 256) and len(p) % 8 == 0:
        values = struct.unpack("<%dq" % (len(p) // 8), p) if kind == 1 else struct.unpack("<%dd" % (len(p) // 8), p)
        return "%s [%s]" % (name, ", ".join(str(v) for v in values))
    if kind == 11 and len(p) == 8:
        return "move %d" % struct.unpack("<q", p)
    if kind == 16 and len(p) == 12:
        return "offset %d, %d" % struct.unpack("<qI", p)
    if kind in (38, 39) and len(p) == 2:
        mode = struct.unpack("<H", p)[0]
        return name + " " + (["char", "int", "float", "other"][mode] if mode < 4 else "mode %d" % mode)
    if kind == 277 and len(p) == 2:
        return "%s %d" % (name, struct.unpack("<H", p)[0])
    if kind in NAMES and kind != 277 and len(p) == 4:
        return "%s %d" % (name, struct.unpack("<I", p)[0])
    return name + (" <%s>" % p.hex() if p else "")


def patch_words(patch):
    out, at = [], 0
    while at < len(patch):
        if at + 6 > len(patch):
            out.append("<%s>" % patch[at:].hex())
            break
        length, kind = struct.unpack_from("<IH", patch, at)
        if length < 2 or at + 4 + length > len(patch):
            out.append("<length %d, %s>" % (length, patch[at + 4:][:16].hex()))
            break
        out.append(op_words(kind, patch[at + 6:at + 4 + length]))
        at += 4 + length
    if len(out) > 40:
        out[20:-20] = [".. %d more .." % (len(out) - 40)]
    return ", ".join(out)


def slice_words(said, name):
    """A slice of a case or of an answer. A count has no sign."""
    values, shown = getattr(said, name), int if name == "counts" else signed
    return "%s %d long {%s}" % (name, len(values), ", ".join("%d: %d" % (i, shown(v)) for i, v in enumerate(values) if v))


def machine_words(m):
    return ", ".join("%s %d" % (n, getattr(m, n)) for n in NUMBERS) + ", calls %s, refs %s, mode %d, total %d" % (m.calls, m.refs, m.mode, m.total)


def show(c):
    a = c.answer
    out = [SORTS[c.sort], "  patch: %s" % patch_words(c.patch)]
    if c.sort in RUNS:
        mode = ", mode %d" % c.mode if c.sort == FRESH else ""
        out.append("  budget %d%s, inputs %s" % (c.budget, mode, [signed(v) for v in c.inputs]))
        out += ["  " + slice_words(c, name) for name in SLICES]
        if c.sort in FROM_STATE:
            out.append("  from: " + machine_words(c.machine))
        if a:
            out.append("  expected: number %d, %d steps, place %d, lane %d" % (a.number, a.steps, a.place, a.lane))
            out.append("    " + machine_words(a.machine))
            out += ["    " + slice_words(a, name) for name in SLICES]
    elif c.sort in (JOIN, FLATTEN):
        out.append("  room %d bytes, each first %d" % (c.room, c.fill) + (", %d bodies" % c.bodies if c.sort == FLATTEN else ""))
        if a:
            out.append("  expected: number %d, place %d, %d bytes: %s" % (a.number, a.place, len(a.written), patch_words(a.written)))
            if c.sort == FLATTEN:
                out.append("    bodies (number, first op, ops): %s" % a.bodies)
    elif a:
        out.append("  expected: number %d, place %d" % (a.number, a.place))
    return "\n".join(out)


def main(args):
    if len(args) < 2 or args[0] not in ("show", "count"):
        sys.exit(__doc__)
    with open(args[1], "rb") as f:
        cases = read(f.read())
    if args[0] == "count":
        counts = {}
        for c in cases:
            key = (c.sort, c.answer.number)
            counts[key] = counts.get(key, 0) + 1
        for sort, number in sorted(counts):
            print("%-9s %2d: %d" % (SORTS[sort], number, counts[sort, number]))
        print("cases: %d" % sum(counts.values()))
    else:
        wanted = {int(x) for x in args[2:]}
        for i, c in enumerate(cases):
            if not wanted or i in wanted:
                print("case %d: %s" % (i, show(c)))


if __name__ == "__main__":
    command.run(main)
