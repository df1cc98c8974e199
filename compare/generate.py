#!/usr/bin/env python3
"""Makes cases and writes them as a list (docs/REPLAY.md) with the answers that model01.py expects.

    generate.py exhaustive             every patch of up to 3 ops of a small alphabet: run, checked, joined and flattened
    generate.py random SEED COUNT      random cases of every style; the same seed gives the same cases
    generate.py boundary               cases around every limit
    generate.py smallest               the smallest input of each row of docs/DIFFERENCES.md, in its order
"""
import copy
import itertools
import os
import random
import struct
import sys

sys.path.insert(0, os.path.join(os.path.dirname(os.path.abspath(__file__)), "..", "tools"))
import command
import model01
from lists import CHECK, FLATTEN, FRESH, JOIN, RUN, RUNS, SLICES, STEP, Answer, Case, Machine, record, write, write_machine
from model01 import (ALLOC, AND, BY_MARK, BY_TABLE, CALL, CELL_OPS, COMMENT, COUNTED, DEREF, ELSE, END, FFI, FREE, FUNCTION, GET, GEZ, IF,
                     INFINITY, LANE_OPS, LEAST, LOAD, MOST, MOVE, NAN, OFFSET, PEEK, POKE, PUT, REFER, RETURN, SET, SETF, SQUARE_ROOT, STORE, SUM,
                     WHERE, WHILE, WORD)

sys.setrecursionlimit(20000)
EMPTY = [FUNCTION, CALL, RETURN, WHILE, IF, ELSE, END, WHERE, DEREF, REFER, ALLOC, FREE, PEEK, POKE]
PLAIN = [WHERE, DEREF, REFER, ALLOC, FREE, PEEK, POKE]
# those that 01 carries; FFI Call came with 02, ask 9, and has cases of its own
KINDS = sorted(set(range(40)) | set(range(256, 268)) | {275, 276})
CARRIED = KINDS + [FFI]
UNBRACKETED = [k for k in KINDS if k not in (FUNCTION, WHILE, IF, ELSE, END, CALL, RETURN)]
FLOAT_KINDS = list(range(259, 268))
INTEGERS = [0, 0, 0, 1, 1, 1, 2, 3, 4, 5, 7, 10, 63, 64, 65, 255, 256, 1000, 99_999, 100_000, 1 << 31, 1 << 32, (1 << 32) - 1,
            (1 << 53) + 1, (1 << 62) + 3, (1 << 63) - 1, 1 << 63, (1 << 63) + 1, WORD, WORD, WORD - 1, WORD - 6, 999_999_999,
            1_000_000_000, 1_000_000_001]
FLOATS = [0x0000000000000000, 0x8000000000000000, 0x3FF0000000000000, 0xBFF0000000000000, 0x3FF8000000000000, 0x4004000000000000,
          0xC014000000000000, 0x7FF0000000000000, 0xFFF0000000000000, 0x7FF8000000000000, 0xFFF8000000000000, 0x7FF0000000000001,
          0xFFF4000000000123, 0x0000000000000001, 0x800FFFFFFFFFFFFF, 0x0010000000000000, 0x7FEFFFFFFFFFFFFF, 0xFFEFFFFFFFFFFFFF,
          0x43E0000000000000, 0xC3E0000000000000, 0xC3E0000000000001, 0x43DFFFFFFFFFFFFF, 0x4340000000000001, 0x3FB999999999999A,
          0x3FD5555555555555, 0x4008000000000000]
TAPES = [0, 1, 2, 4, 8, 16, 32, 32, 64, 64, 64, 200]


def op(kind, *held):
    """A record from what an op holds: values of a Set, a count, a Move's way, an Offset's two, a mode, a binding, a comment's bytes."""
    if kind in (SET, SETF):
        return record(kind, struct.pack("<%dQ" % len(held), *[v & WORD for v in held]))
    if kind == MOVE:
        return record(kind, struct.pack("<q", held[0]))
    if kind == OFFSET:
        return record(kind, struct.pack("<QI", held[0] & WORD, held[1]))
    if kind in (GET, PUT, FFI):
        return record(kind, struct.pack("<H", held[0]))
    if kind == COMMENT:
        return record(kind, held[0] if held else b"")
    if kind in COUNTED:
        return record(kind, struct.pack("<I", held[0]))
    return record(kind)


def patch(*ops):
    return b"".join(ops)


def no_steps(data):
    """A count of 0 for each op (02, ask 11); of a file that is refused, which has no ops, three."""
    number, n, _ = model01.read_patch(data)
    return [0] * (3 if number else n)


def sized(sort, data, tape=0, inputs=(), room=4, budget=100):
    """A run with lent slices of the least lengths, all zeros."""
    c = Case(sort, data)
    c.budget = budget
    c.inputs = [v & WORD for v in inputs]
    c.tape = [0] * tape
    c.register = [0] * 1024
    c.table = [0] * 256
    c.channel = [0] * 256
    c.outputs = [0] * room
    c.counts = no_steps(data)
    return c


def fresh(data, mode=BY_TABLE, **sizes):
    c = sized(FRESH, data, **sizes)
    c.mode = mode
    return c


def state(data, m=None, **sizes):
    c = sized(RUN, data, **sizes)
    c.machine = m or Machine()
    return c


def stepped(c):
    """The same state, handed to the public step."""
    c.sort, c.budget, c.style = STEP, 1, c.style and "step"
    return c


def in_mode(c, mode=BY_MARK):
    """The same run or step in this call mode (02, ask 4)."""
    c = copy.copy(c)
    if c.sort == FRESH:
        c.mode = mode
    else:
        c.machine = c.machine.copy()
        c.machine.mode = mode
    return c


def both(c):
    """The case, and its twin by mark."""
    yield c
    yield in_mode(c)


def counted(c, counts, total=None):
    """The same run or step with these counts, and a state with the total that they add up to, or with this one (02, ask 11)."""
    c = copy.copy(c)
    c.counts = list(counts)
    if c.sort != FRESH:
        c.machine = c.machine.copy()
        c.machine.total = sum(counts) if total is None else total
    return c


def styled(style, cases):
    for c in cases:
        c.style = style
        yield c


def joining(data, room=None, fill=0xA5):
    c = Case(JOIN, data)
    c.room = len(data) if room is None else room
    c.fill = fill
    return c


def flattening(data, room=None, bodies=None, fill=0x5A):
    c = Case(FLATTEN, data)
    c.room = len(data) if room is None else room
    c.bodies = marks(data) if bodies is None else bodies
    c.fill = fill
    return c


def mark_places(data):
    number, _, ops = model01.read_patch(data)
    return [] if number else [i for i, o in enumerate(ops) if o.kind == FUNCTION]


def marks(data):
    return len(mark_places(data))


def entered(c, table):
    """The case with these marks in its table, and something after them."""
    c = copy.copy(c)
    c.machine = c.machine.copy()
    c.machine.functions = len(table)
    c.table = table + [9, 8] + c.table[len(table) + 2:]
    return c


def checking(data):
    return Case(CHECK, data)


# ---- every short patch

ALPHABET = [
    op(SET), op(SET, 0), op(SET, 1), op(SET, -1), op(SET, 2, 3), op(FUNCTION), op(CALL), op(RETURN), op(WHILE), op(IF), op(ELSE),
    op(END), op(STORE, 1), op(LOAD, 1), op(LOAD, 0), op(MOVE, 1), op(MOVE, -1), op(WHERE), op(DEREF), op(REFER), op(OFFSET, 5, 1),
    op(model01.ADD, 1), op(model01.DIV, 2), op(AND, 1), op(model01.SWAP, 1), op(model01.DEC, 1), op(GEZ, 1), op(GET, 0), op(GET, 1),
    op(PUT, 0), op(PUT, 1), op(ALLOC), op(PEEK), op(POKE), op(COMMENT, b"a"), op(SETF, 0x3FF8000000000000),
]
EVERY = ALPHABET + [op(FFI, SQUARE_ROOT), op(FFI, SUM)]


def exhaustive():
    for n in range(4):
        for ops in itertools.product(EVERY, repeat=n):
            data = b"".join(ops)
            yield fresh(data, tape=3, inputs=(32, 305, 65), room=3, budget=20)
            yield checking(data)
            yield joining(data)
            yield flattening(data)


# ---- random patches

class Maker:
    def __init__(self, seed):
        self.r = random.Random(seed)
        # of the patch in work: functions to call, pointers saved and values sent by the ops so far
        self.functions = self.saved = self.sent = 0

    def value(self, floats=False):
        r = self.r
        pick = r.random()
        if floats and pick < 0.8:
            return r.choice(FLOATS)
        if pick < 0.5:
            return r.randrange(6)
        if pick < 0.9:
            return r.choice(INTEGERS)
        if pick < 0.93:
            return r.choice(FLOATS)
        return r.getrandbits(64)

    def count(self, known=None):
        r = self.r
        if known is not None:
            return r.randint(0, min(known, 4)) if r.random() < 0.97 else known
        pick = r.random()
        if pick < 0.9:
            return r.choice([0, 1, 1, 1, 2, 2, 3])
        return r.choice([4, 5, 8, 16, 17]) if pick < 0.99 else r.choice([100, 1023, 1024])

    def comment(self):
        r = self.r
        if r.random() < 0.97:
            return "".join(r.choice(["a", "b", " ", "é", "ß", "→"]) for _ in range(r.choice([0, 1, 2, 5]))).encode()
        return bytes(r.randrange(256) for _ in range(r.choice([1, 2, 5, 255])))

    def make(self, kind, known=None, floats=False):
        """An op of this kind. What would most often be refused, as a Refer with nothing saved, is most often another op."""
        r = self.r
        if r.random() < 0.93:
            if kind == DEREF:
                self.saved += 1
                return op(SET, r.randrange(6)) + op(STORE, 1) + op(DEREF)
            if kind == REFER and not self.saved:
                kind = WHERE
            elif kind == PEEK and not self.sent:
                kind = POKE
            elif kind == CALL and self.functions:
                return op(SET, r.randrange(self.functions)) + op(CALL)
            elif kind == CALL:
                kind = FREE
            elif kind == ALLOC:
                return op(SET, r.choice([0, 1, 2, 30_000])) + op(ALLOC)
        self.saved += (kind == DEREF) - (kind == REFER)
        self.sent += (kind == POKE) - (kind == PEEK)
        if kind in (SET, SETF):
            n = r.choice([0, 1, 1, 1, 1, 2, 2, 3, 4]) if r.random() < 0.99 else r.choice([16, 64])
            return op(kind, *[self.value(floats or kind == SETF) for _ in range(n)])
        if kind == MOVE:
            if r.random() < 0.95:
                return op(kind, r.choice([0, 1, 1, 1, 2, 3, -1, -1, -2, -3]))
            return op(kind, r.choice([5, 100, 4096, 99_999, 100_000, -(1 << 63), (1 << 63) - 1, 1_000_000_000, 999_999_999, -5]))
        if kind == OFFSET:
            return op(kind, self.value(), self.count(known))
        if kind in (GET, PUT):
            return op(kind, r.choice([0, 0, 1, 1, 3]))
        if kind == COMMENT:
            return op(kind, self.comment())
        if kind in COUNTED:
            return op(kind, self.count(None if kind == LOAD else known))
        return op(kind)

    def soup(self, n, floats=False):
        """Any ops in any order."""
        r = self.r
        pool = FLOAT_KINDS if floats else KINDS
        known = 1024
        out = []
        for _ in range(n):
            kind = r.choice(pool if r.random() < 0.7 else KINDS)
            one = self.make(kind, known if r.random() < 0.95 else None, floats)
            if kind in (SET, SETF, LOAD):
                known = model01.read_patch(one)[2][-1].n
            out.append(one)
        return out

    def steady(self, known, floats=False):
        """One op that is no bracket, within the known lanes; the lanes known after it."""
        r = self.r
        pick = r.random()
        if pick < 0.25:
            n = r.choice([1, 1, 2, 3])
            return op(SETF if floats else SET, *[self.value(floats) for _ in range(n)]), n
        if pick < 0.4:
            n = r.choice([1, 1, 2, 3])
            return op(LOAD, n), n
        if pick < 0.5:
            return op(STORE, min(known, r.choice([1, 1, 2, 3]))), known
        if pick < 0.6:
            return self.make(MOVE), known
        if pick < 0.75:
            kind = r.choice(FLOAT_KINDS if floats else sorted(CELL_OPS))
            return self.make(kind, known), known
        if pick < 0.85:
            return self.make(r.choice(sorted(LANE_OPS)), known), known
        if pick < 0.92 and known:
            return self.make(r.choice([GET, PUT, PUT])), known
        kind = r.choice(PLAIN + [COMMENT])
        one = self.make(kind)
        return one, min(known, 1) if kind in (DEREF, ALLOC) else known

    def block(self, n, known, checked, floats, nest=0):
        """A well-bracketed block of about n ops; checked keeps within the known lanes."""
        r = self.r
        out = []
        while n > 0:
            n -= 1
            pick = r.random()
            if pick < 0.25 and nest < 4 and n > 1 and known:
                kind = r.choice([IF, IF, WHILE, FUNCTION])
                inner = r.randint(0, n)
                n -= inner
                out.append(op(kind))
                if kind == IF and r.random() < 0.6:
                    a, _ = self.block(inner // 2, 1, checked, floats, nest + 1)
                    b, _ = self.block(inner - inner // 2, 1, checked, floats, nest + 1)
                    out += a + [op(ELSE)] + b
                else:
                    a, _ = self.block(inner, 1, checked, floats, nest + 1)
                    if kind == WHILE and r.random() < 0.5:
                        a += [op(SET, 0)] if r.random() < 0.5 else [op(model01.DEC, 1)]
                    if kind == FUNCTION and r.random() < 0.7:
                        a += [op(RETURN)]
                    out += a
                # the End needs a lane, and so may what stands before an Else
                if checked:
                    out.append(op(SET, r.choice([0, 0, 1])) if r.random() < 0.3 else op(LOAD, 1))
                out.append(op(END))
                known = 1
            elif pick < 0.33 and known:
                out.append(self.make(CALL))
                known = 1 if known else 0
            elif pick < 0.35 and known and not checked:
                out.append(op(RETURN))
                known = 1
            elif checked:
                one, known = self.steady(known, floats)
                out.append(one)
            else:
                kind = r.choice(FLOAT_KINDS if floats and r.random() < 0.6 else UNBRACKETED)
                one = self.make(kind, known if r.random() < 0.97 else None, floats)
                if kind in (SET, SETF, LOAD):
                    known = model01.read_patch(one)[2][-1].n
                out.append(one)
        return out, known

    def ops(self, floats=False):
        """The ops of a patch of some style, and the style."""
        r = self.r
        n = r.choice([1, 2, 3, 5, 8, 12, 20, 30, 40])
        pick = r.random()
        self.saved = self.sent = 0
        # so that cells can be reached
        head = r.choice([[], [op(LOAD, r.choice([0, 1, 2]))], [op(ALLOC)], [op(LOAD, 8), op(SET, 5, 7, 1, 0)], [op(LOAD, 8)],
                         [op(LOAD, 3), op(SET, *[self.value(floats) for _ in range(3)]), op(STORE, 3)], [op(LOAD, 8), op(MOVE, 4)]])
        self.functions = r.choice([0, 0, 1, 2, 3])
        tail = []
        checked = pick >= 0.65
        for _ in range(self.functions):
            body, _ = self.block(r.randint(0, 5), 1, checked, floats, 3)
            tail += [op(FUNCTION)] + body + ([op(LOAD, 1)] if checked else []) + ([op(RETURN)] if r.random() < 0.8 else []) + [op(END)]
        if r.random() < 0.5:
            head, tail = tail + head, []
        elif r.random() < 0.7:
            tail = ([op(LOAD, 1)] if checked else []) + [op(RETURN)] + tail
        if pick < 0.3:
            return self.split(head + self.soup(n, floats) + tail), "soup"
        return self.split(head + self.block(n, 1024, checked, floats)[0] + tail), "checked" if checked else "bracketed"

    @staticmethod
    def split(ops):
        """One op an element."""
        return [o.record for o in model01.read_patch(b"".join(ops))[2]]

    def inputs(self):
        r = self.r
        return [r.choice([32, 9, 10, 11, 12, 13, 48, 49, 50, 53, 57, 57, 58, 47, 65, 45, 43, 288, 305, WORD, 1 << 63, r.getrandbits(64)])
                for _ in range(r.choice([0, 0, 1, 3, 6, 10, 25]))]

    def sizes(self):
        r = self.r
        return dict(tape=r.choice(TAPES) if r.random() < 0.98 else r.choice([4095, 4096]), inputs=self.inputs(),
                    room=r.choice([0, 1, 2, 4, 8, 40, 40]), budget=r.choice([0, 1, 3, 20, 100, 100, 100, 300, 300]))

    def dirt(self, values, chance=0.3):
        """Something in a lent slice that a fresh run or the counts leave out."""
        r = self.r
        if values and r.random() < chance:
            for _ in range(r.choice([1, 2, 3])):
                values[r.randrange(len(values))] = self.value()

    def fresh(self, floats=False):
        ops, style = self.ops(floats)
        c = fresh(b"".join(ops), **self.sizes())
        c.style = style + (" floats" if floats else "")
        for values in (c.tape, c.register, c.channel, c.outputs):
            self.dirt(values)
        return c

    def mid(self, floats=False):
        """A run from a well-formed state."""
        r = self.r
        ops, _ = self.ops(floats)
        c = state(b"".join(ops), **self.sizes())
        c.style = "mid-state"
        m = c.machine
        m.position = r.randint(0, len(ops)) if r.random() < 0.5 else 0
        m.halted = int(r.random() < 0.02)
        # how far its cells hold something; no run leaves a length under 30,000 but 0
        reach = r.choice([0, 1, len(c.tape), len(c.tape), 29_999, 30_000, 100_000, 100_000, 100_000, 100_000, 130_000])
        m.counted = max(reach, 30_000) if reach else 0
        m.pointer = r.choice([0, 0, 0, 1, 2, 5, 5, 5, len(c.tape) // 2, max(0, len(c.tape) - 1), len(c.tape), 99_999])
        reach = min(reach, len(c.tape))
        for i in range(min(reach, 24)):
            if r.random() < 0.7:
                c.tape[i] = self.value(floats) if r.random() < 0.6 else r.randrange(12)
        m.lanes = r.choice([0, 1, 2, 3, 4, 4, 8, 8, 1023, 1024])
        for i in range(min(m.lanes + 2, 12)):
            c.register[i] = self.value(floats)
        places = [i for i, o in enumerate(ops) if o == op(FUNCTION)]
        table = sorted(r.sample(places, r.randint(0, len(places))))
        c.table[:len(table)] = table
        m.functions = len(table)
        if r.random() < 0.2:
            c.table[r.randrange(len(table), 256)] = r.randrange(4096)
        if ops:
            m.calls = [r.randrange(len(ops)) for _ in range(r.choice([0, 0, 1, 2, 3]))]
        m.refs = [r.choice([0, 0, 1, 2, 3, 5, len(c.tape)]) for _ in range(r.choice([0, 0, 1, 2, 3]))]
        m.first = r.choice([0, 0, 1, 200, 254, 255])
        m.waiting = r.choice([0, 0, 1, 2, 3])
        for k in range(m.waiting):
            c.channel[(m.first + k) % 256] = self.value()
        self.dirt(c.channel, 0.2)
        m.taken = r.randint(0, len(c.inputs))
        m.written = r.randint(0, min(3, len(c.outputs)))
        for i in range(m.written):
            c.outputs[i] = r.randrange(128)
        self.dirt(c.outputs, 0.2)
        if r.random() < 0.02 and reach < len(c.tape):
            c.tape[r.randrange(reach, len(c.tape))] = 1 + r.randrange(5)
            m.counted, c.style = 0, "lent cells not zero"
        return c

    def channelled(self):
        """A patch that sends values, calls on them and takes them back, among other ops, in a loop or a function at times."""
        r = self.r
        out, sent = [op(LOAD, 8)] * (r.random() < 0.7), 0
        self.functions = self.saved = self.sent = 0
        for _ in range(r.choice([1, 2, 4, 8, 12, 20])):
            pick = r.random()
            if pick < 0.3:
                number = r.randrange(2)
                if sent <= number and r.random() < 0.8:
                    out += [op(SETF, self.value(True)), op(POKE)] * (1 + number - sent)
                    sent = 1 + number
                out.append(op(FFI, number))
                sent = max(0, sent - number)
            elif pick < 0.5:
                out += [op(SETF, self.value(True)), op(POKE)]
                sent += 1
            elif pick < 0.6:
                out.append(op(POKE))
                sent += 1
            elif pick < 0.75 and (sent or r.random() < 0.1):
                out += [op(PEEK)] + [op(PUT, 0)] * (r.random() < 0.6)
                sent -= sent > 0
            else:
                out.append(self.steady(1, True)[0] if r.random() < 0.8 else self.make(r.choice(UNBRACKETED), 1024, True))
        pick = r.random()
        if pick < 0.15:
            out = [op(SET, r.randrange(4)), op(STORE, 1), op(WHILE)] + out + [op(LOAD, 1), op(model01.DEC, 1), op(STORE, 1), op(END)]
        elif pick < 0.3:
            out = [op(SET, 0), op(CALL)] * r.randint(1, 2) + [op(RETURN), op(FUNCTION)] + out + [op(RETURN), op(END)]
        elif pick < 0.4:
            out = [op(SET, r.randrange(2)), op(IF)] + out + [op(ELSE), op(FFI, r.randrange(2)), op(END)]
        return b"".join(out)

    def with_calls(self, data):
        """The patch with a few calls among its ops."""
        ops = self.split([data])
        for _ in range(self.r.randint(1, 4)):
            ops.insert(self.r.randint(0, len(ops)), op(FFI, self.r.randrange(2)))
        return b"".join(ops)

    def in_a_ring(self, data):
        """A run of the patch from a state with floats waiting in its channel."""
        r = self.r
        c = state(data, **self.sizes())
        m = c.machine
        m.position = r.choice([0, 0, r.randint(0, op_count(data))])
        m.counted = r.choice([0, 30_000, 100_000])
        m.lanes = r.choice([0, 1, 1, 4, 1024])
        for i in range(4):
            c.register[i] = self.value(True)
        m.first = r.choice([0, 1, 100, 200, 253, 254, 255])
        m.waiting = r.choice([0, 1, 1, 2, 2, 3, 3, 5, 9, 254, 255, 256])
        for k in range(m.waiting):
            if k < 6 or k > m.waiting - 4:
                c.channel[(m.first + k) % 256] = self.value(True) if r.random() < 0.8 else r.getrandbits(63)
        self.dirt(c.channel, 0.5)
        c.channel += [self.value()] * r.choice([0, 0, 0, 1])
        return c

    def routine(self, nest=0):
        """A function that puts a number; others may stand in it, and it may call one."""
        r = self.r
        out = [op(FUNCTION)]
        self.functions += 1
        while nest < 3 and r.random() < 0.35:
            out.append(self.routine(nest + 1))
        out += [op(SET, self.functions), op(PUT, r.choice([0, 1]))]
        if r.random() < 0.2:
            out.append(self.numbered_call())
        return patch(*out, *[op(RETURN)] * (r.random() < 0.9), op(END))

    def numbered_call(self):
        return op(SET, self.r.randrange(max(3, self.functions) + (self.r.random() < 0.1))) + op(CALL)

    def routines(self):
        """Calls in any order of functions side by side and in each other, from fresh, from any table, or by a step."""
        r = self.r
        self.functions = 0
        before, after = ([self.routine() for _ in range(n)] for n in r.choice([(0, 1), (0, 2), (0, 4), (1, 1), (1, 3), (3, 1)]))
        data = patch(*before, *[self.numbered_call() for _ in range(r.randint(1, 6))], op(RETURN), *after)
        sizes = dict(room=12, budget=r.choice([20, 60, 60]))
        if r.random() < 0.5:
            return fresh(data, **sizes)
        places = mark_places(data)
        c = entered(state(data, **sizes), sorted(r.sample(places, r.randint(0, len(places)))))
        if r.random() < 0.3:
            c.machine.position = r.choice([i for i, o in enumerate(model01.read_patch(data)[2]) if o.kind == CALL])
            c.register[0] = r.randrange(len(places) + 1)
            return stepped(c)
        return c

    def edge(self):
        """A state at a limit, or one away from it."""
        r = self.r
        c = self.mid()
        c.style = "boundary"
        m = c.machine
        ops = model01.read_patch(c.patch)[2]
        more = []
        for _ in range(r.choice([1, 1, 2])):
            pick = r.randrange(8)
            if pick == 0 and ops:
                m.calls = [r.randrange(len(ops)) for _ in range(r.choice([254, 255, 256]))]
                more += [op(SET, 0), op(CALL)]
            elif pick == 1:
                m.refs = [r.choice([0, 1]) for _ in range(r.choice([254, 255, 256]))]
                more += [op(DEREF)]
            elif pick == 2:
                m.waiting = r.choice([254, 255, 256])
                for k in range(m.waiting):
                    c.channel[(m.first + k) % 256] = k % 7
                more += [op(r.choice([POKE, POKE, PEEK]))]
            elif pick == 3:
                m.pointer = 1_000_000_000 - r.randrange(3)
                more += [op(MOVE, r.choice([0, 1, 2, 3, -1]))]
            elif pick == 4:
                m.counted = 2_000_000_000 - r.randrange(4)
                more += [op(SET, r.randrange(5)), op(ALLOC)]
            elif pick == 5:
                c.outputs = c.outputs[:m.written + r.randrange(4)]
                more += [op(SET, r.choice([5, 10, WORD, 1 << 63])), op(PUT, r.choice([0, 1, 1, 3]))]
            elif pick == 6:
                m.pointer = max(0, len(c.tape) - r.randrange(3))
                more += [self.make(r.choice([LOAD, STORE, DEREF] + sorted(CELL_OPS)))]
            else:
                m.lanes = r.choice([0, 1, 2])
                more += [self.make(r.choice(KINDS))]
        if r.random() < 0.6:
            # the ops in question come first, where they are sure to be run, and every place moves on with them
            k = len(more)
            c.patch = b"".join(more) + c.patch
            m.calls = [p + k for p in m.calls]
            c.table[:m.functions] = [t + k for t in c.table[:m.functions]]
            m.position = 0
        return c

    def no_state(self):
        """A state with one thing wrong."""
        r = self.r
        c = self.mid()
        c.style = "no state"
        m = c.machine
        ops = len(model01.read_patch(c.patch)[2])
        pick = r.randrange(18)
        if pick == 0:
            m.position = ops + 1 + r.randrange(3)
        elif pick == 1:
            m.pointer = 1_000_000_001
        elif pick == 2:
            m.counted = 2_000_000_001
        elif pick == 3:
            m.lanes = 1025
            c.register += [0, 0]
        elif pick == 4:
            m.functions = 257
            c.table += [0]
        elif pick == 5:
            m.calls = [0] * 257
        elif pick == 6:
            m.refs = [0] * 257
        elif pick == 7:
            m.waiting = 257
        elif pick == 8:
            m.first = 256 + r.randrange(2)
            c.channel += [0, 0]
        elif pick == 9:
            m.calls = m.calls + [ops + r.randrange(2)]
        elif pick == 10:
            m.refs = m.refs + [1_000_000_001]
        elif pick == 11:
            m.taken = len(c.inputs) + 1
        elif pick == 12:
            m.written = len(c.outputs) + 1
        elif pick == 13:
            c.register.pop()
        elif pick == 14:
            c.table.pop()
        elif pick == 15:
            c.channel.pop()
        elif pick == 16:
            c.table[m.functions] = ops + r.randrange(3)
            m.functions += 1
        else:
            c.table[m.functions] = c.table[m.functions - 1] if m.functions else 0
            m.functions += 1
        return c

    def short_room(self):
        """A fresh run in lent room that is too short, or just long enough."""
        r = self.r
        c = self.fresh()
        c.style = "lent room"
        name = r.choice(["register", "table", "channel"])
        values = getattr(c, name)
        setattr(c, name, values[:-1] if r.random() < 0.7 else values + [3])
        return c

    def shape(self):
        """Ops that join with their neighbours, and brackets for flattening."""
        r = self.r
        pool = [op(MOVE, r.choice([1, -1, 3])), op(MOVE, -3), op(MOVE, 1), op(MOVE, 0), op(MOVE, -(1 << 63)), op(SET, 1), op(SET, WORD),
                op(SET, 5, 6), op(SET), op(DEREF), op(REFER), op(ELSE), op(END), op(OFFSET, 4, 1), op(OFFSET, -4, 2), op(STORE, 1),
                op(LOAD, 1), op(STORE, 2), op(LOAD, 2), op(LOAD, 0), op(STORE, 0), op(GEZ, 1), op(GEZ, 2), op(model01.GEZF, 1),
                op(SETF, 0x3FF8000000000000), op(COMMENT, b"a"), op(IF), op(WHILE), op(FUNCTION), op(PUT, 0), op(PEEK)]
        return b"".join(r.choice(pool) for _ in range(r.choice([1, 2, 3, 4, 6, 10, 20, 60])))

    def nested(self):
        """Brackets nested in any way, closed or not, with few stray Ends."""
        r = self.r
        out, depth = [], 0
        for _ in range(r.choice([1, 2, 4, 6, 10, 16, 40])):
            pick = r.random()
            if pick < 0.3:
                out.append(op(FUNCTION))
                depth += 1
            elif pick < 0.4:
                out.append(op(r.choice([IF, WHILE])))
                depth += 1
            elif pick < 0.75 and (depth or r.random() < 0.03):
                out.append(op(END))
                depth = max(0, depth - 1)
            else:
                out.append(r.choice([op(COMMENT, self.comment()), op(RETURN), op(ELSE), op(SET, 1), op(FREE)]))
        return b"".join(out)

    def room(self, data):
        r = self.r
        return len(data) + r.choice([0, 0, 0, 0, 1, 7]) if r.random() < 0.93 else max(0, len(data) - r.choice([1, 2, 10]))

    def bad(self):
        """A patch file with something changed, for any of the calls."""
        r = self.r
        data = bytearray(b"".join(self.ops()[0]))
        for _ in range(r.choice([1, 1, 2])):
            pick = r.random()
            if pick < 0.5 and data:
                data[r.randrange(len(data))] = r.choice([0, 1, 2, 3, 4, 5, 255, r.randrange(256)])
            elif pick < 0.7:
                del data[r.randint(0, len(data)):]
            elif pick < 0.8:
                data += record(r.choice([40, 255, 268, 270, 274, 277, 278, 65535]), bytes(r.choice([0, 4])))
            elif pick < 0.9:
                data += record(r.choice([GET, PUT]), struct.pack("<H", r.choice([2, 4, 5, 258])))
            else:
                data += record(r.choice([STORE, LOAD, GEZ]), struct.pack("<I", r.choice([1025, 1024, 1 << 31, WORD & 0xFFFFFFFF])))
        return self.call(bytes(data))

    def call(self, data):
        r = self.r
        sort = r.choice([FRESH, FRESH, JOIN, FLATTEN, CHECK, CHECK])
        if sort == FRESH:
            return fresh(data, **self.sizes())
        if sort == JOIN:
            return joining(data, self.room(data), r.randrange(256))
        if sort == FLATTEN:
            return flattening(data, self.room(data), marks(data) + r.choice([0, 0, 1]), r.randrange(256))
        return checking(data)

    def case(self):
        r = self.r
        pick = r.random()
        if pick < 0.40:
            return self.fresh(r.random() < 0.25)
        if pick < 0.65:
            return self.mid(r.random() < 0.25)
        if pick < 0.76:
            return self.edge()
        if pick < 0.86:
            data = self.shape()
            return joining(data, self.room(data), r.randrange(256))
        if pick < 0.94:
            data = self.nested()
            return flattening(data, self.room(data), max(0, marks(data) + r.choice([0, 0, 0, 1, 3, -1])), r.randrange(256))
        if pick < 0.96:
            return self.bad()
        if pick < 0.975:
            return self.no_state()
        if pick < 0.98:
            return self.short_room()
        data = b"".join(self.ops()[0]) if r.random() < 0.5 else self.nested()
        return checking(data)


def drawn_counts(c):
    """Counts for a random case, drawn from the rest of it: for a state such as a run may have left, so that it stays a state, and for a fresh run
    any, since it writes its own."""
    r = random.Random(c.patch + (write_machine(c.machine) if c.machine else b""))
    _, _, ops = model01.read_patch(c.patch)
    many = r.choice([0, 1, 5, 5, 100])
    counts = [r.randint(0, many) if r.random() < 0.6 else 0 for _ in no_steps(c.patch)]
    if counts and many and r.random() < 0.2:
        counts[r.randrange(len(counts))] = r.choice([255, 65_535, (1 << 31) - 1, (1 << 32) - 1, 1 << 40, MOST // 2])
    if c.sort == FRESH or ops is None:
        return counts
    return [0 if o.kind == COMMENT else count for o, count in zip(ops, counts)]


def near_the_most(c, r):
    """A random state whose step total leaves few steps, or none; its style says so."""
    counts, open_to = c.counts[:], [i for i, o in enumerate(model01.read_patch(c.patch)[2]) if o.kind != COMMENT]
    if not open_to:
        return c
    counts[r.choice(open_to)] += MOST - sum(counts) - r.choice([0, 0, 0, 1, 1, 2, 3, 5, 8, 20])
    c = counted(c, counts)
    if r.random() < 0.2:
        stepped(c)
    c.style = "near the most"
    return c


def miscounted(c, r):
    """A random run or step with one thing wrong in its counts; a fresh run may have all but too few or too many."""
    counts, total = c.counts[:], c.machine.total if c.machine else 0
    ops = model01.read_patch(c.patch)[2]
    pick = r.randrange(8)
    if pick == 0 and counts:
        counts.pop(r.randrange(len(counts)))
    elif pick == 1:
        counts.insert(r.randint(0, len(counts)), r.choice([0, 0, 1]))
    elif pick == 2 or not counts:
        total += 1
    elif pick == 3:
        counts[r.randrange(len(counts))] += 1
    elif pick == 4:
        counts[r.randrange(len(counts))] += 1 << r.randrange(64)
    elif pick == 5:
        counts[r.randrange(len(counts))] ^= 1 << r.randrange(54)
        total = sum(counts)
        at = [i for i, o in enumerate(ops) if o.kind == COMMENT] or [r.randrange(len(counts))]
        counts[r.choice(at)] += 1
        total += r.choice([0, 1])
    elif pick == 6:
        i = r.randrange(len(counts))
        total += MOST + r.choice([0, 1, 2]) - counts[i]
        counts[i] = total - sum(counts) + counts[i]
    else:
        # a sum that is right but for a multiple of 2^64
        i, more = r.randrange(len(counts)), r.randrange(1, 1 << 64)
        j = r.randrange(len(counts))
        counts[i] = (counts[i] + more) & WORD
        counts[j] = (counts[j] - more) & WORD
    c = counted(c, [n & WORD for n in counts], total & WORD)
    c.style = "miscounted"
    return c


def randoms(seed, count):
    """Random cases; and for each eight of them one more, or its twins, with calls through the channel."""
    yield from with_counts(seed, count)
    yield from piped(seed, count // 8)


def with_counts(seed, count):
    """Random cases with counts; and beside them some whose step total leaves few steps, and some whose counts are no state's."""
    r = random.Random("counts %d" % seed)
    for i, c in enumerate(uncounted(seed, count)):
        if c.sort in RUNS:
            c = counted(c, drawn_counts(c))
        yield c
        is_patch = c.sort in RUNS and model01.read_patch(c.patch)[0] == 0
        if is_patch and c.sort == RUN and i % 8 == 3:
            yield near_the_most(c, r)
        if is_patch and i % 16 == 5:
            yield miscounted(c, r)


def uncounted(seed, count):
    """Random cases, of which the counts have still to be drawn."""
    maker, caller = Maker(seed), Maker("calls %d" % seed)
    for i in range(count):
        c = maker.case()
        yield c
        # some of the states also for a step, and some with a length that no run leaves
        if c.sort == RUN and i % 8 == 0:
            yield stepped(copy.copy(c))
        if c.sort == RUN and i % 32 < 2:
            short = copy.copy(c)
            short.machine, short.style = c.machine.copy(), "short tape"
            short.machine.counted = 1 + 7919 * i % 29_999
            yield short if i % 2 else stepped(short)
        # some runs and steps by mark too, some with a table that holds every mark in both modes, and few in a mode that there is not
        if c.sort in RUNS:
            ways = [c, stepped(copy.copy(c))] if c.sort == RUN else [c]
            if i % 4 == 1:
                yield from styled("by mark", map(in_mode, ways))
            if i % 8 == 3 and c.style in ("mid-state", "boundary") and marks(c.patch):
                yield from styled("every mark", both(entered(ways[i // 8 % 2], mark_places(c.patch))))
            if i % 32 == 2:
                yield from styled("no mode", (in_mode(ways[i // 256 % len(ways)], UNKNOWN[i // 32 % len(UNKNOWN)]),))
        # many calls, in both modes
        if i % 16 == 5:
            yield from styled("routines", both(caller.routines()))
        # and some runs with comments
        if i % 8 == 4 and c.style not in ("", "no state"):
            yield with_comments(c, random.Random(i))


# ---- around every limit

def boundary():
    """Cases at each limit and one past it, from fresh or from a state."""
    nop = op(FREE)
    # 1 to 9
    for cut in range(1, 14):
        yield checking(op(SET, 1)[:cut])
    for length in (0, 1, 2, 3, 9, 11, 0xFFFFFFFF, 0x7FFFFFFF):
        yield checking(struct.pack("<I", length) + op(SET, 1)[4:])
        yield fresh(op(FREE) + struct.pack("<I", length) + op(SET, 1)[4:])
    for kind in (40, 255, 256, 268, 274, 277, 278, 65535):
        for payload in (b"", bytes(4)):
            yield checking(nop + record(kind, payload))
            yield joining(nop + record(kind, payload))
    for n in (1023, 1024, 1025, 1 << 31, (1 << 32) - 1):
        for kind in (STORE, LOAD, GEZ):
            yield fresh(op(kind, n), tape=2000)
        yield fresh(op(OFFSET, 7, n))
    for n in (1023, 1024, 1025):
        yield fresh(record(SET, bytes(8 * n)), tape=4)
        yield fresh(record(SETF, bytes(8 * n) + b"\1"), tape=4)
    for n in (254, 255, 256):
        yield fresh(op(COMMENT, b"c" * n))
    for kind in (GET, PUT):
        for mode in (0, 1, 2, 3, 4, 258):
            yield fresh(op(kind, mode), inputs=(50,))
            yield fresh(record(kind, struct.pack("<H", mode) + b"\0"))
    for n in (4095, 4096, 4097):
        yield fresh(nop * n, budget=3)
        yield checking(nop * n)
        yield joining(nop * n)
    yield fresh(nop * 4096, budget=5000)
    yield checking(nop * 4096 + b"\1")
    for n in (255, 256, 257):
        yield checking(op(FUNCTION) * n)
        yield flattening(op(FUNCTION) * n)
        yield fresh((op(FUNCTION) + op(END)) * n, budget=1000)
        yield flattening(nop + (op(FUNCTION) + op(END)) * n)
    yield flattening(op(FUNCTION) * 256 + nop * 3841)
    wide = op(SET, *[3] * 1000)
    for n in (65535, 65536, 65537):
        rest = n - 8 * len(wide) - 6
        body = b""
        while rest > 100:
            body += op(COMMENT, b"x" * 94)
            rest -= 100
        yield checking(wide * 8 + body + op(COMMENT, b"y" * rest))
    yield fresh(bytes(65537))
    yield flattening(bytes(65537), bodies=0)
    # 20 to 36, in a run
    for opener in (FUNCTION, ELSE, WHILE, IF):
        for tail in ([], [END], [ELSE], [IF, END], [ELSE, END], [WHILE, END, END], [FUNCTION, ELSE, END]):
            for lane in (0, 1):
                yield fresh(op(SET, lane) + op(opener) + b"".join(op(k) for k in tail))
                yield fresh(op(END) + op(opener) + op(SET, lane) + b"".join(op(k) for k in tail) + op(PUT, 1))
    for kind in KINDS:
        if kind in COUNTED or kind == OFFSET:
            held = (9,) if kind == OFFSET else ()
            for lanes, n in ((0, 0), (0, 1), (1, 1), (1, 2), (2, 2), (3, 2)):
                for counted, tape, pointer in ((0, 4, 0), (30_000, 4, 0), (30_000, 2, 0), (30_000, 1, 0), (30_000, 4, 29_998), (30_000, 4, 29_999)):
                    c = state(op(kind, *held, n), tape=tape)
                    c.machine.lanes, c.machine.counted, c.machine.pointer = lanes, counted, pointer
                    c.register[:3] = [6, WORD - 8, 5]
                    c.tape[:min(2, counted, tape)] = [3, WORD - 1][:min(2, counted, tape)]
                    yield c
        elif kind in EMPTY or kind in (GET, PUT):
            for mode in (0, 1, 3) if kind in (GET, PUT) else ((),):
                for lanes in (0, 1):
                    for inputs in ((), (288, 57, 49), (50,)):
                        c = state(op(kind, *([mode] if mode != () else [])) + op(END), tape=2, inputs=inputs, room=1)
                        c.machine.lanes = lanes
                        c.register[:2] = [0, 3]
                        yield c
    for at in (0, 1, 999_999_999, 1_000_000_000):
        for way in (0, 1, -1, 1_000_000_000, 1_000_000_001, (1 << 63) - 1, -(1 << 63), -999_999_999):
            c = state(op(MOVE, way) + op(WHERE))
            c.machine.pointer = at
            yield c
    for cell in (0, 1, 999_999_999, 1_000_000_000, 1_000_000_001, WORD, 1 << 63, (1 << 63) - 1):
        for counted in (0, 30_000, 100_000):
            c = state(op(DEREF) + op(REFER) + op(REFER), tape=1)
            c.machine.counted = counted
            c.tape[0] = cell if counted else 0
            yield c
    for counted in (0, 30_000, 30_001, 1_999_970_000, 1_999_999_999, 2_000_000_000):
        for more in (0, 1, 2, 29_999, 30_000, 30_001, 1_999_970_000, 1_999_970_001, 2_000_000_000, WORD, 1 << 63, (1 << 63) - 1):
            c = state(op(SET, more) + op(ALLOC) + op(ALLOC))
            c.machine.counted = counted
            yield c
    for pointer, n in ((0, 0), (0, 1), (99_999, 0), (99_999, 1), (100_000, 0), (99_998, 1), (199_999, 1), (250_000, 0), (3, 1), (4, 1)):
        for kind in (LOAD, STORE):
            for counted in (0, 30_000, 30_001, 100_000):
                c = state(op(kind, n), tape=4)
                c.machine.pointer, c.machine.counted = pointer, counted
                yield c
    for k in (0, 1, 2, 3, WORD, 1 << 63, (1 << 63) - 1):
        for table in ([], [4], [1], [1, 4]):
            for full in (0, 255, 256):
                # fun at 1 and 4, after a call at 0
                c = state(op(CALL) + op(FUNCTION) + op(FREE) + op(END) + op(FUNCTION) + op(RETURN) + op(END))
                m = c.machine
                c.register[0] = k
                c.table[:len(table)] = table
                m.functions = len(table)
                m.calls = [6] * full
                yield c
    yield fresh(op(SET, 0) + op(CALL) + op(FUNCTION) + op(CALL) + op(END), budget=1000)
    yield fresh(op(SET, 1) + op(WHILE) + op(POKE) + op(END), budget=1000)
    yield fresh(op(SET, 0) + op(STORE, 1) + op(SET, 1) + op(WHILE) + op(DEREF) + op(END), tape=1, budget=1000)
    yield fresh(op(SET, 7) + op(WHILE) + op(PUT, 0) + op(END), room=9, budget=1000)
    for room in range(6):
        for value in (5, 10, WORD, 1 << 63):
            for mode in (0, 1, 3):
                yield fresh(op(SET, value) + op(PUT, mode) + op(PUT, mode), room=room)
    for first in (0, 1, 254, 255):
        for waiting in (0, 1, 2, 255, 256):
            c = state(op(POKE) + op(PEEK) + op(PEEK) + op(POKE) + op(POKE))
            m = c.machine
            m.first, m.waiting = first, waiting
            c.channel = [7 + k for k in range(256)]
            c.register[0] = 99
            yield c
    # budgets
    for budget in (0, 1, 2, 3, 4, 5, 6):
        yield fresh(op(SET, 2) + op(WHILE) + op(model01.DEC, 1) + op(END), budget=budget)
        yield fresh(op(RETURN) + op(FREE), budget=budget)
        yield fresh(b"", budget=budget, tape=3)
        yield fresh(op(FREE) + op(model01.ADD, 1), budget=budget)
    # 40, and 10 before it
    for data in (op(MOVE, 3) + op(SET, 1) + op(MOVE, -3), op(FUNCTION) + op(END) + op(FUNCTION) + op(END), op(END), op(FREE)):
        for room in (0, len(data) - 1, len(data), len(data) + 3):
            yield joining(data, room)
            for bodies in (0, 1, 2, 3):
                yield flattening(data, room, bodies)
    for text in ([END], [ELSE], [IF, ELSE, END, ELSE], [IF, IF, END], [FUNCTION, WHILE, END], [WHILE, END, END]):
        yield checking(b"".join(op(k) for k in text))
    for kind in KINDS:
        for lanes in (0, 1, 2):
            held = {OFFSET: (1, 2), GET: (0,), PUT: (0,), MOVE: (1,), SET: (1,), SETF: (1,), COMMENT: (b"",)}.get(kind, (2,))
            yield checking(op(LOAD, lanes) + op(kind, *held) + op(END) + op(LOAD, lanes) + op(kind, *held))
            yield checking(op(IF) + op(LOAD, lanes) + op(kind, *held) + op(LOAD, lanes) + op(STORE, 2) + op(END))


    yield from telling()
    yield from openings()
    yield from lengths()


# ---- routines opened in an order

def in_order(n):
    """n routines, opened from the first to the last."""
    return [op(FUNCTION), op(END)] * n


def from_the_last(n):
    """n routines, a power of two, opened from the last to the first: a loop of two turns, of which the first opens the later half. The turn stands in
    the cell after the pointer, 0 before and after."""
    if n == 1:
        return in_order(1)
    half = from_the_last(n // 2)
    return ([op(MOVE, 1), op(SET, 1), op(WHILE), op(LOAD, 1), op(IF)] + half + [op(ELSE)] + half
            + [op(END), op(LOAD, 1), op(model01.NOT, 1), op(STORE, 1), op(END), op(MOVE, -1)])


def openings():
    """Routines opened in order, from the last to the first, and by calls; then marks entered in a table that is full or lacks one entry."""
    for n in (2, 16, 256):
        yield fresh(patch(*in_order(n)), budget=1000)
        yield fresh(patch(*from_the_last(n)), tape=16, budget=10_000)
        # a call finds a mark by counting as long as the table has no entry of that number
        for order in (range(n), range(n - 1, n // 2 - 1, -1)):
            calls = [op(SET, k) + op(CALL) for k in order]
            yield fresh(patch(*calls, op(RETURN), (op(FUNCTION) + op(RETURN) + op(END)) * n), budget=2000)
    for lacking in (0, 1, 127, 254, 255, None):
        for at in (0, 128, 255) if lacking is None else (lacking,):
            c = state(patch(*in_order(256), op(SET, 255), op(CALL)), budget=4)
            m = c.machine
            places = [2 * k for k in range(256) if k != lacking]
            # the entry after the last is lent too, and keeps its value
            c.table = places + [7] * (257 - len(places))
            m.functions, m.position = len(places), 2 * at
            yield c


def filled(c, counted=30_000):
    """The case with something in every slice, but for the cells beyond the length; a state gets this length."""
    if c.sort != FRESH:
        m = c.machine
        m.counted, m.lanes, m.waiting, m.written = counted, 3, 2, 1
    cells = min(counted, len(c.tape))
    c.tape[:cells] = [2 + i for i in range(cells)]
    c.register[:5] = [1, 2, 3, 4, 5]
    c.table[:3] = [9, 8, 7]
    c.channel[:4] = [11, 12, 13, 14]
    c.outputs[:4] = [21, 22, 23, 24]
    _, _, ops = model01.read_patch(c.patch)
    c.counts = [31 + i if c.sort == FRESH or ops is None or ops[i].kind != COMMENT else 0 for i in range(len(c.counts))]
    if c.sort != FRESH:
        c.machine.total = sum(c.counts)
    return c


def lengths():
    """States of every length around the first allocation, handed to a run and to a step: 1 to 29,999 is 37 (02, ask 12), and then nothing that is
    lent has changed. Every slice holds something, but for the cells beyond the length."""
    patches = [b"", op(FREE), op(ALLOC), op(SET, 5) + op(ALLOC) + op(ALLOC), op(LOAD, 1), op(STORE, 2), op(model01.ADD, 1), op(DEREF),
               op(FUNCTION) + op(END) + op(PEEK)]
    for counted in (0, 1, 2, 14, 29_998, 29_999, 30_000, 30_001):
        for data in patches:
            for call in (lambda c: c, stepped):
                yield call(filled(state(data, tape=16, inputs=(49,)), counted))
        # the file is read first, and a machine at its end has the test too
        for data, numbers in ((op(FREE)[:5], {}), (op(FREE), dict(halted=1)), (op(FREE), dict(position=1)), (op(FREE), dict(pointer=1_000_000_001))):
            for call in (lambda c: c, stepped):
                c = at_limit(data, counted=counted, **numbers)
                yield call(c)
    # the end of a length that the lent tape reaches beyond
    for pointer in (29_998, 29_999, 30_000):
        for kind in (LOAD, STORE, model01.ADD, model01.SWAP):
            for n in (0, 1, 2):
                for counted in (0, 30_000, 30_001):
                    c = state(op(kind, n), tape=30_002)
                    c.machine.pointer, c.machine.counted = pointer, counted
                    c.register[:2] = [6, 7]
                    c.tape[29_998:counted] = [3, 4, 5][:max(0, counted - 29_998)]
                    yield c


def telling():
    """Where a wrong reading would show: brackets that are left, spaces of input, lanes at the ends of their range."""
    put = op(PUT, 1)
    for lane in (0, 1, 2):
        yield fresh(op(SET, lane) + op(WHILE) + put + op(ELSE) + put + op(END) + put, budget=40, room=40)
        yield fresh(op(SET, lane) + op(WHILE) + op(IF) + put + op(ELSE) + put + op(END) + op(model01.DEC, 1) + op(END) + put, budget=40)
        yield fresh(op(SET, lane) + op(IF) + op(WHILE) + op(ELSE) + op(END) + put + op(ELSE) + op(SET, 7) + put + op(END) + put, budget=40)
        yield fresh(op(SET, lane) + op(FUNCTION) + put + op(END) + op(CALL) + put, budget=40)
        yield fresh(op(SET, 0) + op(CALL) + op(SET, lane) + op(PUT, 0) + op(FUNCTION) + op(SET, lane) + op(END) + put, budget=20, room=20)
        yield fresh(op(SET, lane) + op(WHILE) + op(model01.DEC, 1) + put + op(END) + op(END) + put, budget=40)
        yield fresh(op(ELSE) + op(IF) + op(END) + op(SET, lane) + op(END) + put)
    for space in (9, 10, 11, 12, 13, 14, 31, 32, 33, 133, 160, 267, 288, 43, 45):
        yield fresh(op(GET, 1) + op(GET, 1) + op(PUT, 1), inputs=(space, 49, 48), room=2)
        yield fresh(op(GET, 1) + op(GET, 1), inputs=(49, space, 50, 51))
    for n in (256, 300):
        for call in (checking, joining, flattening, fresh):
            yield call(op(FREE) + op(COMMENT, b"c" * n))
    # the check: a bracket, a call and a return leave one lane known, also where there were more
    for lanes in (0, 1, 3):
        for kind in (FUNCTION, CALL, RETURN, WHILE, IF, ELSE, END):
            around = op(IF) * (2 if kind == END else 1) + op(LOAD, lanes) + op(kind)
            yield checking(around + op(STORE, 1) + op(END) * (2 if kind in (FUNCTION, WHILE, IF) else 1))
            yield checking(around + op(model01.ADD, 2) + op(END))
    yield fresh(op(GET, 1), inputs=[57] * 25)
    yield fresh(op(GET, 1) + op(GET, 1) + op(GET, 0), inputs=(47, 58))
    integers = [0, 1, 7, -7, 2, -2, 63, 64, 1 << 63, WORD, (1 << 63) - 1, 0x123456789ABCDEF]
    floats = [FLOATS[i] for i in (0, 1, 3, 5, 7, 8, 11, 13, 16, 18, 20, 24)]
    for kind in sorted(CELL_OPS | LANE_OPS):
        values = floats if kind >= 259 and kind != model01.TOFLOAT else integers
        values = [v & WORD for v in values]
        for turn in range(0, 12, 2):
            c = state(op(kind, *((-9,) if kind == OFFSET else ()), 12), tape=14)
            c.register[:12] = values
            if kind in CELL_OPS:
                c.tape[1:13] = values[turn:] + values[:turn]
            elif turn:
                c.register[:12] = [(v + turn) & WORD for v in values]
            c.machine.pointer, c.machine.lanes, c.machine.counted = 1, 12, 30_000
            yield c


def partners():
    """Where a bracket's partner is soon mistaken: brackets that are not closed, Elses and Ends in no bracket, Ifs in each other and one after the
    other."""
    for text in ([IF, IF, ELSE], [IF, WHILE, ELSE], [IF, FUNCTION, ELSE], [IF, IF, END, ELSE], [IF, IF, ELSE, END], [IF, END, IF, ELSE, END],
                 [IF, IF, ELSE, END, END], [IF, IF, ELSE, END, ELSE, END], [IF, ELSE, ELSE, END], [IF, WHILE, ELSE, END, END], [WHILE, IF, ELSE, END],
                 [ELSE, ELSE, END], [ELSE, IF, ELSE, END, END], [ELSE, END, ELSE, END], [IF, END, ELSE, END], [WHILE, END, END, ELSE],
                 [END, ELSE, WHILE, END, END], [WHILE, WHILE, END, ELSE, END]):
        for lane in (0, 1):
            yield fresh(op(SET, lane) + b"".join(op(k) + op(FREE) for k in text), budget=30)


# ---- which lane was missing

def laned(data, tape=16, lane=6, cell=0, **numbers):
    """A state with these numbers, else with every lane and 30,000 cells; what is in lane 0, and in the cell at the pointer."""
    c = state(data, tape=tape)
    c.machine.counted = 30_000
    for name, v in numbers.items():
        setattr(c.machine, name, v)
    c.register[:3] = [lane, WORD - 8, 5]
    if cell:
        c.tape[c.machine.pointer] = cell
    return c


# each refusal at an op but 21, 22 and 23: the op, and what is said of a state with 7 lanes and its pointer at 3
REFUSED = [(op(IF), dict(lane=0)), (op(FUNCTION), {}), (op(MOVE, -4), {}), (op(MOVE, 1_000_000_000), {}), (op(DEREF), dict(cell=1_000_000_001)),
           (op(DEREF), dict(cell=WORD)), (op(REFER), {}), (op(CALL), dict(lane=WORD)), (op(CALL), {}), (op(ALLOC), dict(lane=WORD)),
           (op(DEREF), dict(refs=[0] * 256)), (op(PEEK), {}), (op(POKE), dict(waiting=256)), (op(GET, 0), {}), (op(PUT, 0), dict(written=4))]


def missing():
    """Refusals 21, 22 and 23 with the first lane that could not be had, and answers that carry lane 0 where a wrong one would show (02, ask 3)."""
    add, swap = model01.ADD, model01.SWAP
    # of 400 lanes the first, the second or the last is the first that is missing; the second by a step
    for lane, call in ((0, lambda c: c), (1, stepped), (399, lambda c: c)):
        for kind in (add, model01.MULF, swap, STORE, model01.INC, OFFSET):
            yield call(laned(op(kind, *((9,) if kind == OFFSET else ()), 400), lanes=lane, tape=500))
        for kind in (add, model01.SUBF, swap):
            yield call(laned(op(kind, 400), tape=30_500, pointer=30_000 - lane))
        for kind in (add, model01.DIVF, swap, LOAD, STORE):
            yield call(laned(op(kind, 400), tape=500, pointer=500 - lane))
    # lengths and lent tapes of every order, the pointer before, at and beyond their ends; of n = 0 nothing is missing
    for counted, tape, pointer, n in ((30_000, 30_020, 29_990, 20), (30_000, 30_000, 29_990, 20), (30_000, 29_995, 29_990, 20),
                                      (30_000, 29_000, 29_990, 20), (30_000, 30_020, 30_003, 1), (30_000, 8, 1_000_000_000, 2), (0, 30, 0, 3),
                                      (0, 30, 7, 1), (30_000, 8, 5, 4), (30_000, 8, 11, 1), (30_000, 0, 0, 1), (100_000, 30_000, 30_001, 2),
                                      (30_000, 30_020, 28_977, 1024), (30_000, 8, 7, 0), (0, 8, 9, 0)):
        yield laned(op(add, n), counted=counted, tape=tape, pointer=pointer)
    # a register that is too short comes first, whatever cells are missing too; one lane that is there is enough for one
    for lanes, counted, pointer, n in ((2, 30_000, 29_999, 5), (2, 0, 0, 5), (7, 30_000, 13, 8), (1023, 30_000, 0, 1024), (0, 0, 4, 1),
                                       (1, 30_000, 0, 1)):
        yield laned(op(model01.SUB, n), lanes=lanes, counted=counted, pointer=pointer)
    # an And that looks at the cell, and one that the lane decides; a Div beside a cell that is zero
    for kind, pointer in ((AND, 29_998), (AND, 29_996), (model01.OR, 29_997), (model01.DIV, 29_998)):
        yield laned(op(kind, 5), tape=30_000, pointer=pointer)
    c = laned(op(model01.DIV, 6), lanes=2)
    c.tape[:5] = [3, 4, 0, 0, 2]
    yield c
    # Load and Store count to the lent tape, also where the length has still to grow; Deref has no lane but the first
    for kind, counted, pointer in ((LOAD, 0, 3), (STORE, 0, 3), (LOAD, 30_000, 1_000_000), (STORE, 30_000, 29_999)):
        yield laned(op(kind, 20), counted=counted, pointer=pointer)
    for counted, pointer, call in ((30_000, 16, lambda c: c), (30_000, 20_000, lambda c: c), (30_000, 17, stepped), (0, 17, stepped)):
        yield call(laned(op(DEREF), counted=counted, pointer=pointer))
    # one lane is needed, and there is none
    for kind, *held in ((CALL,), (WHILE,), (IF,), (END,), (WHERE,), (ALLOC,), (POKE,), (PEEK,), (GET, 1), (PUT, 1)):
        yield fresh(op(LOAD, 0) + op(kind, *held) + op(END), inputs=(49,))
    # after steps that stand
    loop = op(WHILE) + op(STORE, 2) + op(MOVE, 1) + op(END)
    for data, tape in ((op(SET, 1, 2, 3) + op(STORE, 3) + op(MOVE, 2) + op(add, 5), 8), (op(LOAD, 399) + op(model01.NEG, 400), 500),
                       (op(LOAD, 8) + op(MOVE, 99_998) + op(add, 3), 8), (op(ALLOC) + op(MOVE, 29_998) + op(SET, 1, 2, 3) + op(swap, 3), 30_010),
                       (op(LOAD, 8) + op(MOVE, 6) + op(SETF, *FLOATS[2:5]) + op(model01.ADDF, 3), 8), (op(SET, 1, 1) + loop, 5)):
        yield fresh(data, tape=tape)
    # lane 0: the budget is spent before an op that would be refused, a step was made, the run is over
    for lanes, pointer in ((399, 0), (1024, 29_601), (1024, 9)):
        c = laned(op(FREE) + op(add, 400), lanes=lanes, pointer=pointer)
        for budget in (1, 2):
            c = copy.copy(c)
            c.budget = budget
            yield c
        yield stepped(copy.copy(c))
    for numbers in (dict(position=1), dict(halted=1)):
        for call in (lambda c: c, stepped):
            yield call(laned(op(add, 400), lanes=7, pointer=9, **numbers))
    # lane 0: refused for another reason
    for data, said in (*REFUSED, (op(FREE), dict(position=2)), (op(FREE)[:5], {})):
        yield laned(data, lanes=7, pointer=3, **said)


# ---- comments, which are passed and not counted (02, ask 8)

NOTE = op(COMMENT, b"a")
# brackets, calls and returns, and what is refused or goes on
AROUND = [op(FUNCTION), op(CALL), op(RETURN), op(WHILE), op(IF), op(ELSE), op(END), op(SET, 1), op(model01.ADD, 1)]


def op_count(data):
    return model01.read_patch(data)[1]


def annotated(c, before):
    """The case with so many comments before each op, and after the last. Places go with their ops; the position stands at the comments."""
    ops = Maker.split([c.patch])
    on = list(itertools.accumulate(before))
    c = copy.copy(c)
    c.patch = b"".join(b"".join(op(COMMENT, b"ab"[:k]) for k in range(n)) + one for n, one in zip(before, ops + [b""]))
    if c.sort != FRESH:
        m = c.machine = c.machine.copy()
        m.position += on[m.position] - before[m.position]
        m.calls = [p + on[p] for p in m.calls]
        c.table = [p + on[p] for p in c.table[:m.functions]] + c.table[m.functions:]
    c.counts = [k for n, count in zip(before, c.counts) for k in [0] * n + [count]] + [0] * before[-1]
    return c


def with_comments(c, r):
    """A random case, annotated at random: a run from a state may stand at a comment or past some, and may be a step; most budgets are small."""
    chance = r.choice([0.2, 0.5, 1.0])
    before = [r.randint(1, 3) if r.random() < chance else 0 for _ in range(op_count(c.patch) + 1)]
    past = 0 if c.sort == FRESH else r.randint(0, before[c.machine.position])
    c = annotated(c, before)
    if r.random() < 0.7:
        c.budget = r.choice([0, 1, 2, 3, 5, 8])
    if c.sort == RUN:
        c.machine.position += past
        if r.random() < 0.2:
            stepped(c)
    if r.random() < 0.3:
        c = in_mode(c)
    c.style = "annotated"
    return c


def short_comments():
    """Every patch of up to 3 ops with a comment, and of 4 with two, from fresh with budgets 0 to 3."""
    for n in range(1, 5):
        for ops in itertools.product([NOTE] + AROUND, repeat=n):
            if ops.count(NOTE) > (n == 4):
                for budget in range(4):
                    yield fresh(b"".join(ops), budget=budget)


def budgets(c, *some):
    """The case with each of these budgets; then by a step, if it is handed a state."""
    for budget in some:
        c = copy.copy(c)
        c.budget = budget
        yield c
    if c.sort == RUN:
        yield stepped(copy.copy(c))


def comments():
    """Comments alone, around jumps, before refusals and where the budget is spent; and where none is passed."""
    free = op(FREE)
    for n in range(6):
        yield from budgets(fresh(NOTE * n), 0, 1, 2)
    # a state that stands at a comment; a halted one stays there
    for halted in (0, 1):
        for data in (NOTE, NOTE * 3, NOTE * 2 + free, NOTE + free + NOTE * 2):
            for position in range(op_count(data) + 1):
                yield from budgets(at_limit(data, position=position, halted=halted), 0, 1)
    # around one op; after a Return that halts none is passed
    for one in (free, op(RETURN), op(SET, 7), op(END)):
        for before, after in ((0, 2), (1, 0), (3, 1)):
            for call in (fresh, at_limit):
                yield from budgets(call(NOTE * before + one + NOTE * after), 0, 1, 2)
    # before an op that is refused, at the start and after a step that stands
    lacking = [(op(model01.ADD, 9), {}), (op(model01.ADD, 2), dict(pointer=29_999)), (op(LOAD, 2), dict(pointer=15)), (op(WHILE), dict(lanes=0)),
               (op(CALL), dict(lane=0, calls=[0] * 256))]
    for one, said in lacking + REFUSED:
        said = dict(dict(lanes=7, pointer=3), **said)
        yield from budgets(annotated(laned(one, **said), [2, 1]), 0, 1)
        yield from budgets(annotated(laned(free + one, **said), [0, 2, 0]), 1, 2)
    # before and after each jump, taken and not, and at the places that it goes to
    put, less = op(PUT, 1), op(model01.DEC, 1)
    routine = op(FUNCTION) + put + op(RETURN) + op(END)
    jumps = [laned(data, lane=lane) for lane in (0, 1) for data in (
        op(IF) + put + op(END) + put, op(IF) + put + op(ELSE) + less + op(END) + put, op(WHILE) + less + op(END) + put,
        op(WHILE) + op(ELSE) + put + op(END) + put, op(FUNCTION) + op(END) + put + op(CALL), routine + op(CALL) + put)]
    for c in (*jumps, fresh(op(SET, 1) + op(CALL) + op(SET, 0) + op(CALL) + op(RETURN) + routine * 2)):
        n = op_count(c.patch) + 1
        yield from budgets(annotated(c, [1 + k % 2 for k in range(n)]), *range(n))
    # after a saved place: a call's, a comment's, the last op's
    for calls in ([1], [2], [3], [4], [5], [5, 1]):
        yield from budgets(at_limit(op(RETURN) + free + NOTE * 2 + free + NOTE, calls=calls), 0, 1, 2, 3)
    # 37 and a file's refusal change nothing, the position included
    for position in (0, 1):
        for numbers in (dict(counted=1), dict(pointer=1_000_000_001), dict(calls=[3]), dict(first=256), dict(taken=1), dict(written=5)):
            yield from budgets(at_limit(NOTE * 2 + free, **dict(numbers, position=position)), 0, 5)
        yield from budgets(at_limit(NOTE * 2 + free[:5], position=position), 0, 5)
        c = at_limit(NOTE * 2 + free, position=position)
        c.register = c.register[1:]
        yield from budgets(c, 0)
    yield from budgets(at_limit(NOTE * 2, position=3), 0)
    c = fresh(NOTE * 2)
    c.table = c.table[1:]
    yield c
    # as many as a patch holds, the longest, and one that is no text
    for data in (NOTE * 4096, NOTE * 4095 + free, op(COMMENT, b"c" * 255) * 2 + free, op(COMMENT, b"\xff") + free):
        yield fresh(data, budget=0)


# ---- calls by mark (02, ask 4)

# modes that there are not: one past the last, and what a mode of fewer bits or with a sign would take for one that there is
UNKNOWN = [2, (1 << 32) - 1, 3, 256, 257, 1 << 16, 1 << 31, (1 << 31) + 1]


def routine(n, *more):
    """A function that puts n, and returns."""
    return patch(op(FUNCTION), op(SET, n), op(PUT, 0), *more, op(RETURN), op(END))


CASE9 = patch(op(SET, 1), op(CALL), op(SET, 0), op(CALL), op(RETURN), routine(65), routine(66))


def around_marks():
    """Patches of three marks after a Call and a Return: side by side, one in the other, three deep, in brackets, and none of them closed."""
    own = op(SET, 1) + op(PUT, 0) + op(RETURN)
    for data in (routine(1) + routine(2) + routine(3), op(FUNCTION) + routine(2) + own + op(END) + routine(3),
                 op(FUNCTION) * 3 + own + op(END) * 3, op(IF) + routine(1) + op(ELSE) + routine(2) + op(END) + op(WHILE) + routine(3) + op(END),
                 (op(FUNCTION) + own) * 2 + op(FUNCTION)):
        yield op(CALL) + op(RETURN) + data


def sublists(places):
    """Every table that these places can make."""
    return [list(some) for n in range(len(places) + 1) for some in itertools.combinations(places, n)]


def resumed(c, steps):
    """The rest of a fresh run, from the state that so many steps leave."""
    first = copy.copy(c)
    first.budget = steps
    a = model01.answer(first)
    c = copy.copy(c)
    c.sort, c.machine, c.budget = RUN, a.machine, c.budget - a.steps
    for name in SLICES:
        setattr(c, name, getattr(a, name))
    return c


def short_calls():
    """Every patch of up to 5 ops with a Call and a mark, from each table and with lane 0 from 0 to 2, in both modes."""
    for n in range(2, 6):
        for ops in itertools.product([op(FUNCTION), op(CALL), op(RETURN), op(END)], repeat=n):
            if op(FUNCTION) in ops and op(CALL) in ops:
                for table, k in itertools.product(sublists([i for i, one in enumerate(ops) if one == op(FUNCTION)]), range(3)):
                    c = entered(state(patch(*ops), budget=12), table)
                    c.register[0] = k
                    yield from both(c)


def calls():
    """Calls in both modes, from every table of a few marks and in the order of the refusals; runs by mark taken up again; and modes that there are
    not, with something in every slice."""
    # k up to the number of marks, from tables by which the modes part or do not; every other one by a step
    for which, data in enumerate(around_marks()):
        places = mark_places(data)
        for table in sublists(places) if which < 2 else ([], places[1:2], places[::2], places):
            for k in range(4):
                c = entered(state(data, budget=12), table)
                c.register[0] = k
                yield from both(stepped(c) if (k + len(table)) % 2 else c)
    # 21, 28, 32, 29
    data = next(around_marks())
    for lanes, k, depth in ((0, -1, 256), (1, -1, 256), (1, 3, 256), (1, 2, 256), (1, (1 << 63) - 1, 256), (1, 3, 255), (1, 2, 255), (0, 0, 0),
                            (1, -1, 0), (1, 1 << 63, 0), (1, (1 << 63) - 1, 0), (1, 1 << 32, 0), (1, 256, 0)):
        c = entered(state(data, budget=1), mark_places(data)[1:2])
        c.register[0] = k & WORD
        c.machine.lanes, c.machine.calls = lanes, [1] * depth
        if depth == 0:
            yield c
        for call in (lambda c: c, stepped):
            yield call(in_mode(c))
    # there is no mark; the table has half of them; it is full or lacks one
    yield from both(fresh(op(CALL)))
    every = [2 * k for k in range(16)]
    tables = [(16, every[1::2], k) for k in (0, 1, 6, 7, 14, 15)] + [(16, every[:k] + every[k + 1:], k) for k in (0, 7, 15)] + [(16, every, 7)]
    tables += [(256, [2 * k for k in range(256) if k != lacking], lacking % 256) for lacking in (0, 255, 256)] + [(256, [], 255), (256, [], 256)]
    for n, table, k in tables:
        c = entered(state(patch(*in_order(n), op(SET, k), op(CALL)), budget=3), table)
        c.machine.position = 2 * n
        yield from both(c) if n == 16 else [in_mode(c)]
    # before any mark has run
    for order in ([0, 1], [1, 0], range(16), range(15, -1, -1), [5, 3, 3, 11, 0, 5, 15, 14], range(255, -1, -1)):
        numbers = [op(SET, k) + op(CALL) for k in order]
        data = patch(*numbers, op(RETURN), (op(FUNCTION) + op(RETURN) + op(END)) * (max(order) + 1))
        yield from both(fresh(data, budget=1000)) if len(numbers) < 256 else [fresh(data, BY_MARK, budget=1000)]
    # taken up again after each step: case 9, and a loop of calls to the last mark, the one before it, which stands in the first, and the first
    again = op(LOAD, 1)
    loop = patch(op(SET, 2), op(WHILE), op(STORE, 1), op(CALL), op(model01.DEC, 1), op(END), op(CALL), op(RETURN), op(FUNCTION), routine(2, again),
                 op(SET, 1), op(PUT, 0), again, op(RETURN), op(END), routine(3, again))
    for data, steps in ((CASE9, 11), (loop, 25)):
        for k in range(steps + 1):
            c = resumed(fresh(data, BY_MARK, tape=2), k)
            yield c
            if k % 3 == 1:
                yield stepped(in_mode(c))
                yield in_mode(c, BY_TABLE)
    # 37 changes nothing, and comes after the file's numbers; a fresh run that is refused answers the mode that it was handed
    free = op(FREE)
    for mode in (BY_TABLE, BY_MARK, *UNKNOWN):
        for data in (free, op(CALL) + op(FUNCTION) + op(END)):
            yield in_mode(filled(fresh(data, tape=3)), mode)
            for call in (lambda c: c, stepped):
                yield call(in_mode(filled(state(data, tape=3)), mode))
    for mode in (BY_MARK, *UNKNOWN[:2]):
        for data in (b"", NOTE + free, op(RETURN), free[:5], op(IF)):
            for budget in (0, 1):
                yield in_mode(filled(fresh(data, tape=3, budget=budget)), mode)
                yield in_mode(filled(state(data, tape=3, budget=budget)), mode)
        for numbers in (dict(halted=1), dict(position=1), dict(counted=1), dict(pointer=1_000_000_001)):
            for call in (lambda c: c, stepped):
                yield call(at_limit(free, mode=mode, **numbers))
        for name in ("register", "table", "channel"):
            c = in_mode(filled(fresh(free, tape=3)), mode)
            setattr(c, name, getattr(c, name)[:-1])
            yield c


# ---- the counts and the step total (02, ask 11)

def three_ways(data, **sizes):
    """A run, a step and a fresh run with something in every slice, the counts too."""
    yield filled(state(data, tape=3, **sizes))
    yield stepped(filled(state(data, tape=3, **sizes)))
    yield filled(fresh(data, tape=3, **sizes))


def not_one_each():
    """Counts that are too few, too many or none, in runs, steps and fresh runs, also where they add up; then nothing that is lent has changed."""
    free = op(FREE)
    for data in (b"", free, NOTE, NOTE + free, op(SET, 5) + op(STORE, 2) + op(POKE) + op(PUT, 0)):
        for c in three_ways(data):
            for counts in (c.counts[:-1], c.counts[1:], [], c.counts + [0], [0] + c.counts, c.counts + [1], c.counts + [0] * 2):
                if len(counts) != len(c.counts):
                    yield counted(c, counts)
                    if c.sort != FRESH:
                        yield counted(c, counts, c.machine.total)
    # no count at all of no step at all
    for call in (state, fresh):
        for data in (free, op(RETURN), NOTE, op(SET, 1) + op(IF)):
            yield counted(call(data, budget=0), [])
            yield counted(call(data), [])
            yield counted(call(data), no_steps(data) + [0])
    # as many as a patch holds, one less and more; by a fresh run, which looks at no more than their number
    long = free * 4095 + NOTE
    for call, some in ((state, (4095, 4096, 4098)), (fresh, (4096, 4097))):
        for n in some:
            yield counted(call(long, budget=2), [3] + [0] * (n - 2) + [7 if call == fresh else 0])
    # the file's number comes first; a machine at its end has the test too, and so has one in another mode
    for data in (free[:5], free + record(40), op(COMMENT, b"c" * 256)):
        for c in three_ways(data):
            yield counted(c, [])
            yield counted(c, [5])
    for numbers in (dict(halted=1), dict(position=1), dict(mode=BY_MARK), dict(mode=2), dict(calls=[1]), dict(counted=1)):
        for counts in ([], [0, 0]):
            yield from budgets(counted(at_limit(free, **numbers), counts), 0)
    for mode in (BY_MARK, 2):
        yield in_mode(counted(filled(fresh(free, tape=3)), []), mode)


def not_added_up():
    """Counts whose sum is another than the total, or the total only modulo a power of two; a comment with a count; and a total over 2^53."""
    free = op(FREE)
    patches = {1: free, 2: free + op(PUT, 0), 3: op(SET, 0) + op(IF) + op(END), 4: op(FUNCTION) + op(END) + op(SET, 0) + op(CALL)}
    for n, data in patches.items():
        for counts in ([0] * n, list(range(1, n + 1)), [5] + [0] * (n - 1), [0] * (n - 1) + [5]):
            for off in (0, 1, -1):
                total = sum(counts) + off
                if total >= 0:
                    c = counted(filled(state(data, tape=3)), counts, total)
                    yield c if (n + off) % 2 else stepped(c)
    half = 1 << 63
    wrong = [([WORD], 0), ([WORD], WORD), ([half], half), ([1 << 32], 0), ([0], 1 << 32), ([(1 << 32) + 5], 5), ([5], (1 << 32) + 5),
             ([WORD], MOST), ([WORD, 1], 0), ([WORD, 2], 1), ([1, WORD], 0), ([half, half], 0), ([half + 3, half + 4], 7), ([WORD - 5, 13], 7),
             ([MOST, WORD - MOST + 8], 7), ([WORD, WORD], WORD - 1), ([WORD, WORD, 3], 1), ([half, half - 1, 6], 5), ([1 << 62] * 4, 0),
             ([(1 << 62) + 1] * 4, 4), ([WORD] * 4, WORD - 3), ([WORD, 0, 0, 1], 0), ([1 << 31, 1 << 31, 7, 0], 7), ([65_536, 0, 0, 2], 2),
             ([256, 3], 3), ([MOST, MOST], 0), ([MOST, MOST], MOST), ([MOST], 0), ([0], MOST), ([MOST, 1], MOST), ([MOST - 1, 2], MOST),
             ([MOST // 2 + 1, MOST // 2], MOST), ([MOST - 1], MOST), ([MOST, 0], MOST - 1)]
    # over 2^53, also where they add up
    over = [MOST + 1, MOST + 2, 2 * MOST, half - 1, half, WORD]
    wrong += [([n], n) for n in over] + [([n - 1, 1], n) for n in over] + [([MOST, 0], n) for n in over] + [([MOST, 1, 1, 0], MOST + 2)]
    for i, (counts, total) in enumerate(wrong):
        c = counted(filled(state(patches[len(counts)], tape=3)), counts, total)
        yield c
        if i % 3 == 0:
            yield stepped(copy.copy(c))
    # many that are large: 2^64 in all, and 2^64 and the total
    for counts, total in (([1 << 60] * 16, 0), ([(1 << 60) + 1] * 16, 16), ([1 << 52] * 4096, 0), ([1 << 49] * 17, MOST + (1 << 49)),
                          ([WORD] * 256, 0)):
        yield counted(state(free * len(counts), budget=3), counts, total)
    # a comment's is not zero, whether the total has it or not
    for data, at in ((NOTE, 0), (NOTE + free, 0), (free + NOTE, 1), (free + NOTE * 2 + free, 1), (free + NOTE * 2 + free, 2)):
        n = op_count(data)
        for rest in (0, 4):
            for count in (1, 2, WORD, WORD - 3):
                counts = [rest if o.kind != COMMENT else 0 for o in model01.read_patch(data)[2]]
                total = sum(counts)
                counts[at] = count
                for said in (total, (total + count) & WORD):
                    c = counted(filled(state(data, tape=3)), counts, said)
                    yield c if count % 2 or said == total else stepped(c)
        yield counted(fresh(data, budget=n), [9] * n)
    # a machine at its end, halted or at a comment has the test too
    for numbers in (dict(halted=1), dict(position=2), dict(position=4), dict(position=4, halted=1)):
        for counts, total in (([5, 0, 0, 6], 11), ([5, 0, 0, 6], 10), ([5, 0, 0, 6], 12), ([5, 0, 1, 6], 12), ([5, 0, 1, 6], 11),
                              ([MOST, 0, 0, 1], MOST + 1), ([MOST, 0, 0, 1], MOST), ([WORD, 0, 0, 1], 0)):
            yield from budgets(counted(at_limit(free + NOTE * 2 + free, **numbers), counts, total), 0)


def at_the_most():
    """Totals of 2^53, where a run makes no step, and of a little less, where it makes those that are left, whatever its budget."""
    free, put = op(FREE), op(PUT, 1)
    loop = op(WHILE) + op(model01.NOT, 1) + op(model01.NOT, 1) + op(END)
    patches = [b"", free, free * 3, NOTE, NOTE + free, free + NOTE, NOTE * 2 + free + NOTE * 2, free + NOTE * 2 + free, loop, op(RETURN),
               NOTE + op(RETURN) + NOTE, op(SET, 0) + op(CALL) + op(FUNCTION) + op(RETURN) + op(END), op(MOVE, -1), free + op(MOVE, -1),
               op(MOVE, 1) + NOTE + op(MOVE, -2) + free]
    for data in patches:
        places = [i for i, o in enumerate(model01.read_patch(data)[2]) if o.kind != COMMENT]
        if not places:
            yield from budgets(filled(state(data, tape=3)), 0, 1)
            continue
        for left in (0, 1, 2, 3):
            # all of it in the first op; or most in the last, and 7 in each of the others
            others = len(places) - 1
            for parts in ([MOST - left], [7] * others + [MOST - left - 7 * others])[:1 + (others > 0)]:
                counts = [0] * op_count(data)
                for i, count in zip(places, parts):
                    counts[i] = count
                yield from budgets(counted(laned(data, lane=1), counts), *((0, 1, 2, 5) if left < 2 else (left - 1, left, 5)))
    # at the end, halted, at a comment and past one
    data = NOTE + free + NOTE * 2 + put + NOTE
    for halted in (0, 1):
        for position in range(op_count(data) + 1):
            for left in (0, 1):
                c = counted(laned(data, position=position, halted=halted), [0, MOST - left - 4, 0, 0, 4, 0])
                yield from budgets(c, 0, 3)
    # an op that would be refused: 50 comes first
    for one, said in REFUSED:
        said = dict(dict(lanes=7, pointer=3), **said)
        for left in (0, 1):
            yield from budgets(annotated(counted(laned(one, **said), [MOST - left]), [1, 0]), 1)
    # what is left, taken to 32 bits or fewer, would be another number; and the greatest budget
    for left in (1 << 32, (1 << 32) + 1, (1 << 32) - 1, 1 << 33, 1 << 31, 1 << 16, (1 << 52) + 2):
        for budget in (1, 4):
            c = counted(laned(free * 6, lane=1), [1, 0, 0, 0, 0, MOST - left - 1])
            c.budget = budget
            yield c
    for left in (0, 1, 4, 1 << 32):
        c = counted(laned(free * 6, lane=1), [1, 0, 0, 0, 0, MOST - left - 1])
        c.budget = (1 << 32) - 1
        yield c
        yield in_mode(c)


def raised():
    """Which count is raised: that of the op that was run, at a jump too and in a run that is taken up again, by one; none of an op that is refused."""
    free, put, less = op(FREE), op(PUT, 1), op(model01.DEC, 1)
    jumps = [laned(data, lane=lane) for lane in (0, 1) for data in (
        op(IF) + put + op(END) + put, op(IF) + put + op(ELSE) + less + op(END) + put, op(WHILE) + less + op(END) + put,
        op(WHILE) + op(ELSE) + put + op(END) + put, op(FUNCTION) + op(END) + put + op(CALL), routine(1) + op(CALL) + put,
        op(ELSE) + put + op(END) + put, op(CALL) + op(RETURN) + routine(1) + routine(2))]
    for i, c in enumerate(jumps):
        n = op_count(c.patch)
        for mode in (BY_TABLE, BY_MARK) if op(CALL) in Maker.split([c.patch]) else (i % 2,):
            yield from budgets(in_mode(counted(c, range(1, n + 1)), mode), 1, 2, 3, 9)
        with_notes = annotated(counted(c, range(1, n + 1)), [1 + k % 2 for k in range(n + 1)])
        yield from budgets(in_mode(with_notes, i % 2), 1, 2, 9)
    # each kind once
    for kind in KINDS:
        held = {OFFSET: (1, 2), GET: (1,), PUT: (1,), MOVE: (1,), SET: (1,), SETF: (1,), COMMENT: (b"",)}.get(kind, (2,))
        data = op(kind, *held) + free + op(END)
        yield from budgets(counted(laned(data, lane=0, cell=1, refs=[2], waiting=1), [0 if kind == COMMENT else 2, 3, 4]), 1)
        if kind in COUNTED:
            yield counted(laned(op(kind, 0) + free, lane=0), [2, 3])
    # after a saved place, and halted where there is none; the comments around stay at 0
    data = op(RETURN) + free + NOTE * 2 + free + NOTE
    for calls in ([], [0], [1], [2], [4], [5], [5, 1]):
        yield from budgets(counted(at_limit(data, calls=calls), [5, 0, 0, 0, 6, 0]), 0, 1, 2, 3)
    for before, after in ((0, 0), (2, 1)):
        data = NOTE * before + op(RETURN) + NOTE * after
        yield from budgets(fresh(data), 0, 1, 2)
        yield from budgets(counted(at_limit(data), [0] * before + [8] + [0] * after), 1)
    # counts that are large already
    for count in (255, 256, 65_535, (1 << 31) - 1, (1 << 32) - 1, 1 << 32, (1 << 52) - 1, MOST - 1):
        yield from budgets(counted(laned(op(WHILE) + op(END), lane=1), [0, count]), 1)
        yield from budgets(counted(laned(op(WHILE) + op(END), lane=1), [count, 0]), 4)
    # refused: at once, after steps, in a loop and after comments
    for one, said in REFUSED:
        said = dict(dict(lanes=7, pointer=3), **said)
        yield from budgets(counted(laned(one, **said), [4]), 2)
        yield counted(laned(free + one, **said), [0, 4])
        yield annotated(counted(laned(free + one, **said), [3, 4]), [1, 2, 1])
    for kind, n in ((LOAD, 20), (STORE, 20), (model01.ADD, 20), (model01.INC, 9)):
        yield from budgets(counted(laned(free + op(kind, n), lanes=8 if kind != STORE else 1024), [0, 4]), 5)
    yield fresh(op(SET, 1) + op(WHILE) + op(MOVE, 3) + op(LOAD, 1) + op(model01.NOT, 1) + op(END), tape=10, budget=50)
    # zeros are written by a fresh run, also where its first step is refused or it makes none, and by no run that is refused before
    for data in (free, NOTE + free + NOTE, op(MOVE, -1), op(RETURN), CASE9):
        for budget in (0, 1, 20):
            for mode in (BY_TABLE, BY_MARK, 2):
                yield in_mode(filled(fresh(data, tape=3, budget=budget)), mode)
    for data in (NOTE + free, free[:5]):
        for name in ("register", "table", "channel"):
            c = filled(fresh(data, tape=3))
            setattr(c, name, getattr(c, name)[:-1])
            yield c
            c = filled(state(data, tape=3))
            setattr(c, name, getattr(c, name)[:-1])
            yield from budgets(c, 3)
    for numbers in (dict(counted=1), dict(pointer=1_000_000_001), dict(calls=[3]), dict(taken=1), dict(written=5), dict(mode=2)):
        yield from budgets(counted(at_limit(NOTE + free, **numbers), [0, 4]), 3)
    # taken up again after each step, in both modes, by a run and by a step
    again = op(LOAD, 1)
    turns = patch(NOTE, op(SET, 3), op(WHILE), NOTE, op(STORE, 1), put, op(IF), op(SET, 1), op(CALL), op(ELSE), NOTE, op(END), again, less,
                  op(END), NOTE, op(RETURN), routine(1, again), routine(2, again), NOTE)
    for data, steps in ((CASE9, 11), (turns, 44)):
        for k in range(steps + 1):
            for mode in (BY_TABLE, BY_MARK):
                if data == CASE9 or k % 2 == mode:
                    c = resumed(fresh(data, mode, tape=2, room=12), k)
                    yield c
                    yield stepped(copy.copy(c))


def tallies():
    """The counts of the ops and the step total."""
    yield from not_one_each()
    yield from not_added_up()
    yield from at_the_most()
    yield from raised()


# ---- calls through the channel (02, ask 9)

def halfway(q, odd):
    """The floats from 1 to 2, or if odd from 2 to 4, beside the square of a middle between floats: that of q and q + 1, whole numbers of 53 digits."""
    below = (q * q + q) >> 52 + odd
    return [(1023 + odd << 52) + m - (1 << 52) for m in (below, below + 1) if 1 << 52 <= m < 1 << 53]


# zeros; squares and their neighbours; what is no square; the largest; infinities; what is negative
RADICANDS = [0, LEAST, 0x3FF0000000000000, 0x4010000000000000, 0x4022000000000000, 0x3FD0000000000000, 0x4330000000000000, 0x4008000000000000,
             0x3FEFFFFFFFFFFFFF, 0x3FF0000000000001, 0x400FFFFFFFFFFFFF, 0x4010000000000001, 0x4021FFFFFFFFFFFF, 0x4022000000000001,
             0x4000000000000000, 0x3FE0000000000000, 0x3FB999999999999A, 0x3FD5555555555555, 0x432FFFFFFFFFFFFF, 0x7FE0000000000000,
             0x7FEFFFFFFFFFFFFF, 0x7FDFFFFFFFFFFFFF, INFINITY, INFINITY + LEAST, 0xBFF0000000000000, 0xC010000000000000, LEAST + 1,
             0x800FFFFFFFFFFFFF, 0x8010000000000000, 0xFFEFFFFFFFFFFFFF]
# the subnormals' ends and between; the least that are none
SMALL = [1, 2, 3, 4, 5, 9, 0x1234, 1 << 26, (1 << 26) + 1, 1 << 51, (1 << 51) + 1, (1 << 52) - 1, 1 << 52, (1 << 52) + 1, (1 << 53) - 1, 1 << 53]
NANS = [NAN, NAN + LEAST, INFINITY + 1, INFINITY + LEAST + 1, 0x7FF4000000000123, 0xFFF8000000000001, LEAST - 1, WORD]
HARD = [v for q in ((1 << 52) + 1, (1 << 53) - 2, 0x16A09E667F3BCC, 0x16A09E667F3BCD, 0x1921FB54442D18, 0x15555555555555, 0x1FFFFFF0000001)
        for odd in (0, 1) for v in halfway(q, odd)]
# sums: exact, rounded to even both ways, a zero's sign, past the largest, NaNs, subnormals
ADDENDS = [(0x3FF8000000000000, 0x4002000000000000), (0x3FF0000000000000, 0x3CA0000000000000), (0x3FF0000000000001, 0x3CA0000000000000),
           (0x3FF0000000000000, 0x3CA0000000000001), (0x3FB999999999999A, 0x3FC999999999999A), (LEAST, LEAST), (LEAST, 0), (0, 0),
           (0x3FF0000000000000, 0xBFF0000000000000), (0x7FEFFFFFFFFFFFFF, 0x7FEFFFFFFFFFFFFF), (0xFFEFFFFFFFFFFFFF, 0xFFEFFFFFFFFFFFFF),
           (0x7FEFFFFFFFFFFFFF, 0x7C90000000000000), (0x7FEFFFFFFFFFFFFF, 0x7C8FFFFFFFFFFFFF), (INFINITY, INFINITY + LEAST),
           (INFINITY + LEAST, INFINITY), (INFINITY, INFINITY), (INFINITY + LEAST, 0xBFF0000000000000), (INFINITY, 0xFFEFFFFFFFFFFFFF), (1, 1), (1, LEAST + 1),
           (0x0010000000000000, 0x8000000000000001), (0x000FFFFFFFFFFFFF, 1), (NAN, 0x3FF0000000000000), (0x3FF0000000000000, NAN + LEAST),
           (0x7FF4000000000123, 0xFFF8000000000001), (0xFFF8000000000001, 0x7FF4000000000123), (WORD, INFINITY), (0x4340000000000000, 0x3FF0000000000000)]
ROOT, ADDS = op(FFI, SQUARE_ROOT), op(FFI, SUM)
SQUARE, OTHER, THIRD = 0x4019000000000000, 0x4002000000000000, 0x4028800000000000


def ringed(data, values, first=0, more=0, **numbers):
    """A state with these values waiting in the channel from its place `first` on. The places beside them hold something too, and so do those, if there
    are more than a channel has."""
    c = state(data, tape=2, room=8)
    c.machine.first, c.machine.waiting = first, len(values)
    for name, v in numbers.items():
        setattr(c.machine, name, v)
    for at in (first - 1, first - 2, first + len(values), first + len(values) + 1):
        c.channel[at % 256] = 0x4059000000000000 + at % 256
    for k, v in enumerate(values):
        c.channel[(first + k) % 256] = v
    c.channel += [0x4069000000000000] * more
    c.register[:2] = [9, 8]
    return c


def waiting(n):
    """So many values: 6.25, 2.25 and 12.25, and the last three of many are other squares; between them zeros."""
    last = [0x4090000000000000, 0x40A2000000000000, 0x40B0000000000000]
    values = [SQUARE, OTHER, THIRD][:n] + [0] * (n - 3)
    return values[:-3] + last if n > 8 else values


def in_rings():
    """Both calls on rings of every length that matters, from places where they wrap and do not; then what the channel gives in which order."""
    for call in (ROOT, ADDS):
        for n in (0, 1, 2, 3, 4, 254, 255, 256):
            for i, first in enumerate((0, 1, 100, 253, 254, 255)):
                c = ringed(call, waiting(n), first, more=2 * (i % 3 == 2))
                yield stepped(c) if (n + i) % 2 else c
        for n in (1, 2, 3, 255, 256):
            for first in (0, 254):
                yield ringed(call + (op(PEEK) + op(PUT, 0)) * 3, waiting(n), first)
                yield ringed(call + op(POKE) * 2, waiting(n), first)
                yield ringed(op(PEEK) + call + op(POKE) + op(POKE) + op(PEEK), waiting(n), first)
    # as often as values wait, and once more: round the ring, and down to the last sum
    for n, first in ((1, 0), (2, 255), (5, 253), (9, 0)):
        yield ringed(ROOT * (n + 1), waiting(n), first)
        yield ringed(ADDS * (n + 1), waiting(n), first)
    for first in (0, 128, 255):
        yield ringed(ADDS * 256, waiting(256), first)
        yield ringed(ROOT * 2 + ADDS * 3 + op(POKE) * 3, waiting(256), first)


def worked_values():
    """Values where a rule of the root or of the sum shows: each by itself, all of them one after the other, and from the input."""
    values = RADICANDS + SMALL + NANS + HARD
    for i, v in enumerate(values):
        c = ringed(ROOT, [v, OTHER], 250 + i % 6)
        yield stepped(c) if i % 2 else c
    for i, (a, b) in enumerate(ADDENDS):
        for k, pair in enumerate({(a, b): 0, (b, a): 0}):
            c = ringed(ADDS, [*pair, THIRD], 250 + i % 6)
            yield stepped(c) if (i + k) % 2 else c
    yield ringed(ROOT * len(values), values, 200, position=0)
    each = patch(op(SET, 1), op(WHILE), op(GET, 0), op(POKE), ROOT, op(PEEK), op(PUT, 0), op(SET, 1), op(END))
    yield fresh(each, inputs=values, room=len(values), budget=2000)
    flat = [v for pair in ADDENDS for v in pair]
    each = patch(op(SET, 1), op(WHILE), op(GET, 0), op(POKE), op(GET, 0), op(POKE), ADDS, op(PEEK), op(PUT, 0), op(SET, 1), op(END))
    yield fresh(each, inputs=flat, room=len(ADDENDS), budget=2000)
    # a root of a root, and of a sum of squares
    yield fresh(op(SETF, 0x40B0000000000000) + op(POKE) + ROOT * 4 + op(PEEK) + op(PUT, 0))
    square = op(STORE, 1) + op(model01.MULF, 1) + op(POKE)
    yield fresh(op(SETF, 0x4008000000000000) + square + op(SETF, 0x4010000000000000) + square + ADDS + ROOT + op(PEEK) + op(PUT, 0), tape=1)


def too_few():
    """33: none waits, or one for two. Nothing is taken, also where the ring's places hold something; comments are passed, and the lane is 0."""
    for call, n in ((ROOT, 0), (ADDS, 0), (ADDS, 1)):
        for first in (0, 7, 255):
            for lanes in (0, 7):
                yield from budgets(ringed(call, waiting(n), first, lanes=lanes), 1)
        yield from budgets(ringed(op(FREE) + call, waiting(n), 254), 0, 1, 2)
        yield from budgets(annotated(ringed(op(FREE) + call, waiting(n), 254), [1, 2, 1]), 1, 2)
        yield from both(counted(ringed(op(FREE) + call, waiting(n)), [3, 4]))
        yield ringed(op(FREE) + call + op(PEEK), waiting(n), 3, position=1)
        yield ringed(op(PEEK) + call, waiting(n + 1), 255)
        yield ringed(op(SET, 1) + op(WHILE) + call + op(END), waiting(n), 9)
    yield from budgets(fresh(ROOT), 0, 1)
    yield from budgets(fresh(op(POKE) + ADDS), 1, 2)
    yield fresh(op(POKE) + ADDS + op(PEEK))
    yield fresh(op(POKE) + ROOT + ROOT + ADDS)
    yield fresh(op(POKE) * 2 + ADDS + ADDS)
    for call in (ROOT, ADDS):
        yield fresh(op(POKE) + op(PEEK) + call)
        yield fresh(op(LOAD, 0) + call)


def without_lanes():
    """A call needs no lane and leaves the register as it is."""
    for call in (ROOT, ADDS):
        for lanes in (0, 1, 3, 1024):
            for one in (lambda c: c, stepped):
                yield one(ringed(call, waiting(3), 255, lanes=lanes))
        for n in (0, 1, 3):
            yield fresh(op(SETF, SQUARE) + op(POKE) * 2 + op(SETF, *[OTHER] * n) + call + op(PUT, 0) + op(PEEK))
            yield fresh(op(POKE) * 2 + op(LOAD, n) + call + op(POKE), tape=3)


def bound_files():
    """Files: payloads of every length up to 4, bindings that there are and are not, and what is tested before and after."""
    free = op(FREE)
    for call in (checking, fresh, joining, flattening):
        for n in range(6):
            yield call(free + record(FFI, bytes(n)) + free)
        for number in (0, 1, 2, 3, 4, 255, 256, 257, 258, 512, 32768, 65535):
            yield call(free + op(FFI, number))
    for payload in (b"\0", b"\1", b"\2", b"\2\0\0", b"\0\0\0\0", b"\1\0\0\0", b"\4\0\0\0", b"\2\0\0\0\0\0\0\0"):
        yield checking(record(FFI, payload))
        yield stepped(state(record(FFI, payload)))
    for cut in range(1, 8):
        yield checking(ADDS[:cut])
    for length in (0, 1, 2, 3, 5, 6, 0x7FFFFFFF, 0xFFFFFFFF):
        yield checking(struct.pack("<I", length) + op(FFI, 2)[4:])
        yield fresh(struct.pack("<I", length) + ADDS[4:])
    # an op too many, the fault of its own first; the most that there can be
    for number in (1, 2):
        yield checking(free * 4096 + op(FFI, number))
    yield checking(ROOT * 4096)
    yield checking(ROOT * 4096 + record(FFI))
    for mode in (2, 4):
        yield checking(op(FFI, mode) + op(PUT, mode))
        yield checking(op(PUT, mode) + op(FFI, mode))
    # the file's number comes before 37
    c = ringed(op(FFI, 2), waiting(2))
    c.machine.waiting = 257
    yield c
    for call in (ROOT, ADDS):
        for numbers in (dict(waiting=257), dict(first=256), dict(lanes=1025), dict(mode=2), dict(counted=1)):
            yield from budgets(ringed(call, waiting(2), **numbers), 1)
        c = ringed(call, waiting(2), 255)
        c.channel = c.channel[:255] + [1]
        c.machine.first = 254
        yield c
        c = copy.copy(c)
        c.channel = c.channel[:-1]
        yield c


def known_lanes():
    """The check: a call needs no lane, and what is known of the register stays known."""
    add = model01.ADD
    for call in (ROOT, ADDS):
        for n in (0, 1, 3):
            yield checking(op(LOAD, n) + call)
            yield checking(op(LOAD, n) + call + op(add, 2))
            yield checking(op(LOAD, n) + call + op(PUT, 0))
            yield checking(op(SETF, *[0] * n) + call + op(STORE, 3) + call)
            yield checking(op(IF) + op(LOAD, n) + call + op(add, 1) + op(END))
            yield checking(op(LOAD, 3) + op(IF) + call + op(add, n) + op(END))
        yield checking(call + op(STORE, 1024))
        yield checking(call)
        yield checking(op(IF) + call + op(ELSE) + call + op(END) + call)
        yield checking(call + op(END))
        yield checking(op(WHILE) + call)
        yield checking(op(FUNCTION) + op(LOAD, 0) + call + op(LOAD, 1) + op(RETURN) + op(END))


def apart():
    """Joining: a call joins with nothing, and what stands on its two sides does not meet. Flattening: it goes with its body."""
    for call in (ROOT, ADDS):
        for left, right in (((MOVE, 1), (MOVE, -1)), ((MOVE, 3), (SET, 1)), ((SET, 1), (SET, 2)), ((DEREF,), (REFER,)), ((ELSE,), (END,)),
                            ((MOVE, 2), (REFER,)), ((STORE, 1), (LOAD, 1)), ((SET, 5), (GEZ, 1)), ((MOVE, 1), (OFFSET, 3, 1)), ((POKE,), (PEEK,))):
            a, b = op(*left), op(*right)
            yield joining(a + call + b)
            yield joining(a + b + call + a + b)
        yield joining(call + call)
        yield joining(call + op(MOVE, 0) + call)
        yield joining(call, room=7)
        yield joining(ROOT + call + ADDS, room=30)
        yield flattening(call)
        yield flattening(call, room=7)
        yield flattening(call + (op(FUNCTION) + op(END)) * 2)
        yield flattening(call + op(FUNCTION) + call + op(END) + call)
        yield flattening(op(FUNCTION) + call + op(FUNCTION) + ADDS + op(END) + ROOT + op(END) + op(FUNCTION) + op(END))
        yield flattening(call + op(FUNCTION) + op(IF) + call + op(END) + op(END) + op(WHILE) + call + op(END))
        yield flattening(op(FUNCTION) + call + op(END) + op(FUNCTION) + op(END) + call + op(END))


def called_by_routines():
    """Calls in functions and loops, in both call modes; taken up again after each step, with counts and a total."""
    root = patch(op(FUNCTION), op(POKE), ROOT, op(PEEK), op(PUT, 0), op(RETURN), op(END))
    total = patch(op(FUNCTION), ADDS, op(PEEK), op(PUT, 0), op(RETURN), op(END))
    main = patch(op(SETF, SQUARE), op(POKE), op(SETF, OTHER), op(POKE), op(SET, 1), op(CALL), op(SET, 0), op(CALL), op(RETURN))
    for data in (main + root + total, main + total + root, root + main + total):
        yield from both(fresh(data, budget=60))
    # three roots of one value, one of the other: the first is behind the second while the loop goes round
    loop = patch(op(SETF, 0x40B0000000000000), op(POKE), op(SETF, SQUARE), op(POKE), op(SET, 2), op(WHILE), op(STORE, 1), ROOT, NOTE, op(PEEK), op(POKE),
                 op(LOAD, 1), op(model01.DEC, 1), op(END), ADDS, op(PEEK), op(PUT, 0))
    for k in range(24):
        c = resumed(fresh(loop, k % 2, tape=2), k)
        yield c
        if k % 2:
            yield stepped(copy.copy(c))
    for call, n in ((ROOT, 2), (ADDS, 3)):
        for count in (0, 5, (1 << 32) - 1, 1 << 32):
            yield from budgets(counted(ringed(call + call, waiting(n)), [count, 7]), 1, 2, 3)
        for left in (0, 1, 2):
            yield from budgets(counted(ringed(call + call, waiting(n), 255), [7, MOST - 7 - left]), 1, 2)
        for budget in range(4):
            yield from budgets(annotated(ringed(call + call, waiting(n), 255), [1, 2, 1]), budget)
        for numbers in (dict(halted=1), dict(position=1)):
            yield from budgets(ringed(call, waiting(n), 255, **numbers), 1)


def through():
    """Calls through the channel."""
    yield from in_rings()
    yield from worked_values()
    yield from too_few()
    yield from without_lanes()
    yield from bound_files()
    yield from known_lanes()
    yield from apart()
    yield from called_by_routines()


def short_channels():
    """Every patch of up to 5 ops of the channel, from rings of up to 3 values that wrap and do not, and from a full one."""
    for n in range(1, 6):
        for ops in itertools.product([op(POKE), op(PEEK), ROOT, ADDS], repeat=n):
            if ROOT in ops or ADDS in ops:
                for values, first in ((0, 255), (1, 0), (2, 255), (3, 254), (256, 3)):
                    yield ringed(patch(*ops), waiting(values), first, lanes=1)


def piped(seed, count):
    """Random patches that send, call and take back, with counts: from fresh, from a ring or by a step, some in both modes or annotated; some are
    checked; and others with calls among their ops are joined and flattened."""
    maker = Maker("channel %d" % seed)
    r = maker.r
    for _ in range(count):
        pick = r.random()
        if pick < 0.06:
            yield checking(maker.channelled())
            continue
        if pick < 0.12:
            data = maker.with_calls(maker.shape())
            yield joining(data, maker.room(data), r.randrange(256))
            continue
        if pick < 0.18:
            data = maker.with_calls(maker.nested())
            yield flattening(data, maker.room(data), marks(data) + r.choice([0, 0, 1]), r.randrange(256))
            continue
        data = maker.channelled()
        c = maker.in_a_ring(data) if pick < 0.6 else fresh(data, **maker.sizes())
        if r.random() < 0.2:
            c = with_comments(c, r)
        elif c.sort == RUN and r.random() < 0.3:
            stepped(c)
        c = counted(c, drawn_counts(c))
        yield from styled("channel", both(c) if r.random() < 0.2 else [c])


# ---- 01's own cases

def paper():
    """The cases of 'Proved by one table', in its order; after case 9 the same by mark, which 02 adds."""
    least = 1 << 63
    for kind in (model01.DIV, model01.REM):
        for a, b in ((least, WORD), (-7, 2)):
            yield fresh(op(SET, b) + op(STORE, 1) + op(SET, a) + op(kind, 1), tape=1)
    yield fresh(op(SET, -1) + op(STORE, 1) + op(SET, 1) + op(model01.LSH, 1), tape=1)
    yield fresh(op(ALLOC))
    yield fresh(op(LOAD, 1) + op(ALLOC), tape=1)
    yield fresh(op(model01.ADD, 1), tape=1)
    for call in (fresh, checking):
        yield call(op(LOAD, 0) + op(IF))
        yield call(op(END))
    yield fresh(op(GET, 1), inputs=(32, 305, 65))
    yield from both(fresh(CASE9, tape=4096, room=4096, budget=100_000))
    yield checking(CASE9)
    yield joining(op(MOVE, 3) + op(SET, 1) + op(MOVE, -3))
    yield joining(op(DEREF) + op(MOVE, 5) + op(REFER))
    yield flattening(op(COMMENT, b" a") + op(FUNCTION) + op(END) + op(FUNCTION) + op(END))
    yield fresh(op(SET, 9007199254740993) + op(model01.TOFLOAT, 1))


# ---- the rows of docs/DIFFERENCES.md

def at_limit(data, **numbers):
    c = state(data, tape=1)
    for name, v in numbers.items():
        setattr(c.machine, name, v)
    return c


def smallest():
    """(row's name, what the Rust must do there, the case), in the order of docs/DIFFERENCES.md."""
    yield "endless search", "hang", fresh(op(SET, 0) + op(WHILE))
    yield "endless search", "hang", fresh(op(FUNCTION))
    yield "endless search", "hang", fresh(op(ELSE))
    yield "endless search", "hang", fresh(op(IF))
    yield "missing lane", "panic", fresh(op(LOAD, 0) + op(IF))
    yield "cell beyond the length", "panic", fresh(op(model01.ADD, 1), tape=1)
    yield "lent tape", "went", fresh(op(LOAD, 1))
    yield "pointer limit", "went", fresh(op(MOVE, 1_000_000_001))
    yield "pointer limit", "went", fresh(op(SET, 1_000_000_001) + op(STORE, 1) + op(DEREF), tape=1)
    yield "negative cell", "panic", fresh(op(SET, -1) + op(STORE, 1) + op(DEREF), tape=1)
    yield "Alloc's room", "panic", fresh(op(SET, -1) + op(ALLOC))
    yield "Alloc's room", "big", fresh(op(SET, 1_999_970_001) + op(ALLOC))
    yield "stack limit", "went", at_limit(op(SET, 0) + op(CALL) + op(FUNCTION) + op(END), calls=[0] * 256)
    yield "stack limit", "went", at_limit(op(DEREF), refs=[0] * 256)
    yield "channel limit", "went", at_limit(op(POKE), waiting=256)
    yield "output room", "went", fresh(op(PUT, 0), room=0)
    yield "short tape", "port", at_limit(op(ALLOC), counted=1)
    yield "short tape", "port", stepped(at_limit(op(LOAD, 1), counted=29_999))
    yield "stray End", "panic", flattening(op(END))
    yield "too few values", "panic", fresh(op(FFI, SQUARE_ROOT))
    yield "too few values", "panic", fresh(op(POKE) + op(FFI, SUM))
    yield "both refuse", "err", fresh(op(MOVE, -1))
    yield "both refuse", "err", fresh(op(REFER))
    yield "both refuse", "err", fresh(op(CALL))
    yield "both refuse", "err", fresh(op(PEEK))
    yield "both refuse", "err", fresh(op(GET, 0))
    yield "negative call", "went", fresh(op(SET, -1) + op(CALL) + op(FUNCTION) + op(END))
    yield "cell skipped", "went", fresh(op(AND, 1), tape=1)
    yield "cell skipped", "went", fresh(op(SET, 1) + op(model01.OR, 1), tape=1)
    yield "divisor before lane", "went", fresh(op(LOAD, 1) + op(model01.DIV, 2), tape=2)
    yield "divisor before lane", "went", fresh(op(LOAD, 1) + op(model01.REM, 2), tape=2)
    yield "device before lane", "err", fresh(op(LOAD, 0) + op(GET, 0))
    yield "device before lane", "err", fresh(op(LOAD, 0) + op(PEEK))
    yield "NaN bits", "agree", fresh(op(LOAD, 1) + op(SETF, 0) + op(model01.DIVF, 1), tape=1)
    yield "NaN bits", "agree", fresh(op(SETF, 0xBFF0000000000000) + op(POKE) + op(FFI, SQUARE_ROOT) + op(PEEK))
    c = state(op(LOAD, 1), tape=1)
    c.tape[0] = 1
    yield "lent cells not zero", "dirty", c
    yield "comment bytes", "utf8", fresh(op(COMMENT, b"\xff"))
    yield "comment as a step", "agree", fresh(NOTE, budget=0)


def rusts_own():
    """(row's name, a case with the answer that docs/DIFFERENCES.md says the Rust gives, where that is not ours)."""
    def said(c, steps, number, register, **numbers):
        c.budget = steps
        c.answer = Answer(number, 0)
        c.answer.steps = steps
        for name in SLICES:
            setattr(c.answer, name, getattr(c, name)[:])
        m = c.answer.machine = Machine()
        for name, v in numbers.items():
            setattr(m, name, v)
        c.answer.place = m.position
        c.answer.register[:len(register)] = [v & WORD for v in register]
        # each of these goes straight on
        c.answer.counts[:steps], m.total = [1] * steps, steps
        return c

    jump = said(fresh(op(SET, -1) + op(CALL) + op(FUNCTION) + op(END)), 2, 50, [-1], position=1, lanes=1, functions=1, calls=[1])
    yield "negative call", jump
    yield "cell skipped", said(fresh(op(AND, 1), tape=2), 1, 0, [0], position=1)
    yield "cell skipped", said(fresh(op(SET, 1) + op(model01.OR, 1), tape=2), 2, 0, [1], position=2, lanes=1)
    for kind in (model01.DIV, model01.REM):
        passed = said(fresh(op(LOAD, 1) + op(kind, 2), tape=2), 2, 0, [0], position=2, lanes=1, counted=100_000)
        yield "divisor before lane", passed
    yield "short tape", said(at_limit(op(ALLOC), counted=1), 1, 0, [30_000], position=1, counted=30_001)
    yield "short tape", said(at_limit(op(ALLOC), counted=29_999), 1, 0, [59_998], position=1, counted=59_999)
    yield "short tape", said(at_limit(op(LOAD, 1), counted=29_999), 1, 0, [0], position=1, lanes=1, counted=29_999)
    yield "lent tape", said(fresh(op(LOAD, 1)), 1, 0, [0], position=1, lanes=1, counted=100_000)
    yield "comment as a step", said(fresh(NOTE), 0, 50, [])
    yield "comment as a step", said(fresh(NOTE), 1, 0, [], position=1)


def limits():
    """All the cases but the exhaustive and the random ones."""
    return itertools.chain(paper(), boundary(), partners(), missing(), comments(), short_comments(), calls(), short_calls(), tallies(), through(),
                           short_channels())


def answered(cases):
    for c in cases:
        c.answer = model01.answer(c)
        yield c


def main(args):
    if args[:1] == ["exhaustive"]:
        cases = exhaustive()
    elif args[:1] == ["boundary"]:
        cases = limits()
    elif args[:1] == ["smallest"]:
        cases = (c for _, _, c in smallest())
    elif args[:1] == ["random"] and len(args) == 3:
        cases = randoms(int(args[1]), int(args[2]))
    else:
        sys.exit(__doc__)
    out = sys.stdout.buffer
    for c in answered(cases):
        out.write(write(c))


if __name__ == "__main__":
    command.run(main)
