"""The machine, the check, joining and flattening as document 01, what 02 has corrected in it, and the readings tell them: the second judge.

It is written to be read beside 01, one rule after the other, and answers every number of 01's table. It shares no code with the Rust
or with our machine, but it was written with the Rust's text known, and the readings had been tried on the Rust: that the two agree is no
sign that 01 can be read in one way only. `answer(case)` gives the expected answer of a case of lists.py.
"""
import math
import struct

from lists import CHECK, FLATTEN, FRESH, JOIN, RUNS, SLICES, STEP, Answer, Machine

# "Limits, each the last accepted"
FILE, OPS, MARKS, LANES, DEPTH = 65536, 4096, 256, 1024, 256
FARTHEST, LONGEST = 1_000_000_000, 2_000_000_000
BLOCK = 100_000
# 02, ask 12: what a tape grows by from nothing, so that none has 1 to 29,999 cells
FIRST = 30_000
# 02, ask 4: the call modes, the Rust's table and by mark
BY_TABLE, BY_MARK = range(2)
# 02, ask 11: "over 2 to the power 53" no step total goes
MOST = 1 << 53
WORD = (1 << 64) - 1
LEAST = 1 << 63
NAN = 0x7FF8000000000000
INFINITY = 0x7FF0000000000000
# 02, ask 9: "0 for square_root, 1 for add", and how many values each takes
SQUARE_ROOT, SUM = range(2)
TAKES = {SQUARE_ROOT: 1, SUM: 2}

# the kinds, in the order of the two enums
(COMMENT, SET, FUNCTION, CALL, RETURN, WHILE, IF, ELSE, END, STORE, LOAD, MOVE, WHERE, DEREF, REFER, INDEX, OFFSET, NAND, BAND, BOR,
 BXOR, BNOT, LSH, LRSH, ARSH, AND, OR, NOT, ADD, SUB, MUL, DIV, REM, NEG, INC, DEC, SWAP, GEZ, GET, PUT) = range(40)
(SETF, ALLOC, FREE, TOINT, TOFLOAT, ADDF, SUBF, MULF, DIVF, REMF, NEGF, GEZF, SIN, COS, TAN, ASIN, ACOS, ATAN, POW, PEEK, POKE,
 FFI) = range(256, 278)

LEFT_OUT = {SIN, COS, TAN, ASIN, ACOS, ATAN, POW}
OPENS = (FUNCTION, WHILE, IF)
CELL_OPS = {INDEX, NAND, BAND, BOR, BXOR, LSH, LRSH, ARSH, AND, OR, ADD, SUB, MUL, DIV, REM, SWAP, ADDF, SUBF, MULF, DIVF, REMF}
LANE_OPS = {OFFSET, BNOT, NOT, NEG, INC, DEC, GEZ, TOINT, TOFLOAT, NEGF, GEZF}
ONE_LANE = {FUNCTION, CALL, RETURN, WHILE, IF, ELSE, END, WHERE, GET, PUT, PEEK, POKE, ALLOC}
NO_LANE_WHEN_RUN = {FUNCTION, RETURN, ELSE}
COUNTED = (CELL_OPS | LANE_OPS | {STORE, LOAD}) - {OFFSET}


# ---- the patch file

class Op:
    __slots__ = ["kind", "n", "values", "value", "record"]


def read_patch(data):
    """0, the op count and the ops; or number, place and nothing."""
    if len(data) > FILE:
        return 9, 0, None
    ops, marks, at = [], 0, 0
    while at < len(data):
        if len(data) - at < 4:
            return 1, at, None
        length = struct.unpack_from("<I", data, at)[0]
        if length < 2:
            return 2, at, None
        if length > len(data) - at - 4:
            return 1, at, None
        kind = struct.unpack_from("<H", data, at + 4)[0]
        p = data[at + 6:at + 4 + length]
        op = Op()
        op.kind, op.n, op.values, op.value, op.record = kind, 0, None, 0, data[at:at + 4 + length]
        if not (kind < 40 or 256 <= kind < 278):
            return 3, at, None
        if kind in LEFT_OUT:
            return 4, at, None
        if kind in COUNTED:
            if len(p) != 4:
                return 2, at, None
            op.n = struct.unpack("<I", p)[0]
        elif kind in (SET, SETF):
            if len(p) % 8:
                return 2, at, None
            op.n = len(p) // 8
        elif kind == OFFSET:
            if len(p) != 12:
                return 2, at, None
            op.value, op.n = struct.unpack("<QI", p)
        elif kind == MOVE:
            if len(p) != 8:
                return 2, at, None
            op.value = struct.unpack("<q", p)[0]
        elif kind in (GET, PUT, FFI):
            if len(p) != 2:
                return 2, at, None
            op.value = struct.unpack("<H", p)[0]
        elif kind == COMMENT:
            if len(p) > 255:
                return 2, at, None
        elif p:
            return 2, at, None
        if op.n > LANES:
            return 5, at, None
        if kind in (SET, SETF):
            op.values = struct.unpack("<%dQ" % op.n, p)
        if kind in (GET, PUT):
            if op.value > 3:
                return 6, at, None
            if op.value == 2:
                return 4, at, None
        # 02, ask 9: "6 for another binding number"
        if kind == FFI and op.value not in TAKES:
            return 6, at, None
        if len(ops) == OPS:
            return 7, at, None
        if kind == FUNCTION:
            if marks == MARKS:
                return 8, at, None
            marks += 1
        ops.append(op)
        at += 4 + length
    return 0, len(ops), ops


# ---- lanes

def signed(a):
    return a - (1 << 64) if a & LEAST else a


def as_float(a):
    return struct.unpack("<d", struct.pack("<Q", a))[0]


def stored(x):
    """A result of + - * / %: the fixed bits for a NaN."""
    return NAN if x != x else struct.unpack("<Q", struct.pack("<d", x))[0]


def quotient(a, b):
    """Truncated; divisor 0 leaves the lane."""
    a, b = signed(a), signed(b)
    if b == 0:
        return a & WORD
    q = abs(a) // abs(b)
    return (q if (a < 0) == (b < 0) else -q) & WORD


def remainder(a, b):
    a, b = signed(a), signed(b)
    if b == 0:
        return a & WORD
    r = abs(a) % abs(b)
    return (-r if a < 0 else r) & WORD


def divide(x, y):
    if y != 0:
        return x / y
    if x == 0 or x != x or y != y:
        return math.nan
    return math.copysign(math.inf, x) * math.copysign(1.0, y)


def float_rem(x, y):
    if x != x or y != y or math.isinf(x) or y == 0:
        return math.nan
    return math.fmod(x, y)


def truncated(a):
    x = as_float(a)
    if x != x:
        return 0
    if x >= 2.0 ** 63:
        return LEAST - 1
    if x < -2.0 ** 63:
        return LEAST
    return int(x) & WORD


def units(a):
    """A positive finite float as a whole number, of which 2^1074 make 1."""
    places = a >> 52
    return a if places == 0 else ((1 << 52) + a % (1 << 52)) << places - 1


def root(a):
    """02, ask 9: of a positive finite value "the nearest float, ties to even, defined by comparing squares as whole numbers"."""
    # "either zero gives itself"
    if a % LEAST == 0:
        return a
    # "a negative or NaN gives 01's NaN", minus infinity too; "infinity itself"
    if a > INFINITY:
        return NAN
    if a == INFINITY:
        return INFINITY
    # of the root as a whole number of the same units this is the square
    square = units(a) << 1074
    # the greatest float that is not above the root, and the next one: patterns side by side
    whole = math.isqrt(square)
    places = whole.bit_length() - 53
    low = (places << 52) + (whole >> places)
    # the root against the middle of the two: by the squares of their doubles
    middle = (units(low) + units(low + 1)) ** 2
    if 4 * square == middle:
        return low + low % 2
    return low + (4 * square > middle)


BINDINGS = {SQUARE_ROOT: root, SUM: lambda a, b: stored(as_float(a) + as_float(b))}


CELL_RULES = {
    INDEX: lambda a, b: (a + b) & WORD,
    NAND: lambda a, b: ~(a & b) & WORD,
    BAND: lambda a, b: a & b,
    BOR: lambda a, b: a | b,
    BXOR: lambda a, b: a ^ b,
    LSH: lambda a, b: a << (b % 64) & WORD,
    LRSH: lambda a, b: a >> (b % 64),
    ARSH: lambda a, b: signed(a) >> (b % 64) & WORD,
    AND: lambda a, b: int(a != 0 and b != 0),
    OR: lambda a, b: int(a != 0 or b != 0),
    ADD: lambda a, b: (a + b) & WORD,
    SUB: lambda a, b: (a - b) & WORD,
    MUL: lambda a, b: a * b & WORD,
    DIV: quotient,
    REM: remainder,
    ADDF: lambda a, b: stored(as_float(a) + as_float(b)),
    SUBF: lambda a, b: stored(as_float(a) - as_float(b)),
    MULF: lambda a, b: stored(as_float(a) * as_float(b)),
    DIVF: lambda a, b: stored(divide(as_float(a), as_float(b))),
    REMF: lambda a, b: stored(float_rem(as_float(a), as_float(b))),
}

LANE_RULES = {
    BNOT: lambda a: ~a & WORD,
    NOT: lambda a: int(a == 0),
    NEG: lambda a: -a & WORD,
    INC: lambda a: (a + 1) & WORD,
    DEC: lambda a: (a - 1) & WORD,
    GEZ: lambda a: int(not a & LEAST),
    TOINT: truncated,
    TOFLOAT: lambda a: struct.unpack("<Q", struct.pack("<d", float(signed(a))))[0],
    NEGF: lambda a: a ^ LEAST,
    GEZF: lambda a: int(as_float(a) >= 0.0),
}


# ---- searches for a partner

def to_end(ops, i, at_else=False):
    """The place of the End of the bracket that the op at i is in or opens, or of its Else at depth 1; None if there is none."""
    depth = 1
    for j in range(i + 1, len(ops)):
        kind = ops[j].kind
        if kind in OPENS:
            depth += 1
        elif kind == END:
            depth -= 1
            if depth == 0:
                return j
        elif kind == ELSE and at_else and depth == 1:
            return j
    return None


def partner_of_end(ops, i):
    depth = 1
    for j in range(i - 1, -1, -1):
        kind = ops[j].kind
        if kind == END:
            depth += 1
        elif kind in OPENS:
            depth -= 1
            if depth == 0:
                return j
    return None


# ---- a step

def add_up(ops, c, m):
    """02, ask 11: "37 when the counts are not one per op, a comment's is not zero, they do not add up to the state's step total, or it is over 2 to
    the power 53". A fresh run writes its own counts, so of these only their number matters."""
    if len(c.counts) != len(ops):
        return False
    if c.sort == FRESH:
        return True
    if any(count for op, count in zip(ops, c.counts) if op.kind == COMMENT):
        return False
    return sum(c.counts) == m.total <= MOST


def is_state(ops, c, m):
    """37's test: a well-formed state in lent room that is long enough."""
    if len(c.register) < LANES or len(c.table) < MARKS or len(c.channel) < DEPTH:
        return False
    # 02, ask 4: "37 also for an unknown mode"
    if m.mode not in (BY_TABLE, BY_MARK):
        return False
    if not add_up(ops, c, m):
        return False
    if m.pointer > FARTHEST or m.counted > LONGEST or m.lanes > LANES or m.functions > MARKS:
        return False
    if 0 < m.counted < FIRST:
        return False
    if len(m.calls) > DEPTH or len(m.refs) > DEPTH or m.waiting > DEPTH or m.first >= DEPTH:
        return False
    if m.position > len(ops) or m.taken > len(c.inputs) or m.written > len(c.outputs):
        return False
    if any(p >= len(ops) for p in m.calls) or any(p > FARTHEST for p in m.refs):
        return False
    table = c.table[:m.functions]
    if any(a >= b for a, b in zip(table, table[1:])):
        return False
    return all(t < len(ops) and ops[t].kind == FUNCTION for t in table)


def routine(ops, m, table, k):
    """The mark that a Call with k goes to, or None. 02, ask 4: by mark "k always means the k-th Function mark in the patch, whatever has run"."""
    if m.mode == BY_TABLE and m.functions > k:
        return table[k]
    marks = [i for i, op in enumerate(ops) if op.kind == FUNCTION]
    return marks[k] if k < len(marks) else None


def enter(m, table, place):
    """Enters a Function's place in the table: sorted, once."""
    count = m.functions
    if place in table[:count]:
        return
    table[:count + 1] = sorted(table[:count] + [place])
    m.functions = count + 1


def grow(m, n):
    reach = m.pointer + n
    if reach >= m.counted:
        m.counted += BLOCK * ((reach - m.counted) // BLOCK + 1)


def step(ops, inputs, m, s):
    """One step on the machine m and the slices s: 0 if it went on, else the refusal's number with nothing changed."""
    at = m.position
    op = ops[at]
    kind, n = op.kind, op.n
    reg = s.register
    if kind in CELL_OPS:
        if m.lanes < n:
            return 21
        if n:
            p = m.pointer
            if p + n > m.counted:
                return 22
            if p + n > len(s.tape):
                return 23
            if kind == SWAP:
                reg[:n], s.tape[p:p + n] = s.tape[p:p + n], reg[:n]
            else:
                rule = CELL_RULES[kind]
                for i in range(n):
                    reg[i] = rule(reg[i], s.tape[p + i])
    elif kind in LANE_OPS:
        if m.lanes < n:
            return 21
        if kind == OFFSET:
            for i in range(n):
                reg[i] = (reg[i] + op.value) & WORD
        else:
            rule = LANE_RULES[kind]
            for i in range(n):
                reg[i] = rule(reg[i])
    elif kind in ONE_LANE and kind not in NO_LANE_WHEN_RUN and m.lanes < 1:
        return 21
    elif kind in (SET, SETF):
        reg[:n] = op.values
        m.lanes = n
    elif kind == FUNCTION:
        end = to_end(ops, at)
        if end is None:
            return 20
        enter(m, s.table, at)
        m.position = end
    elif kind == CALL:
        k = signed(reg[0])
        if k < 0:
            return 28
        if len(m.calls) == DEPTH:
            return 32
        mark = routine(ops, m, s.table, k)
        if mark is None:
            return 29
        enter(m, s.table, mark)
        m.calls.append(at)
        m.position = mark
    elif kind == RETURN:
        if m.calls:
            m.position = m.calls.pop()
        else:
            m.halted = 1
    elif kind == IF or kind == WHILE:
        if reg[0] == 0:
            end = to_end(ops, at, kind == IF)
            if end is None:
                return 20
            m.position = end
    elif kind == ELSE:
        end = to_end(ops, at)
        if end is None:
            return 20
        m.position = end
    elif kind == END:
        if reg[0] != 0:
            partner = partner_of_end(ops, at)
            if partner is not None and ops[partner].kind == WHILE:
                m.position = partner
    elif kind == LOAD or kind == STORE:
        if kind == STORE and m.lanes < n:
            return 21
        p = m.pointer
        if n and p + n > len(s.tape):
            return 23
        grow(m, n)
        if kind == LOAD:
            reg[:n] = s.tape[p:p + n]
            m.lanes = n
        else:
            s.tape[p:p + n] = reg[:n]
    elif kind == DEREF:
        if len(m.refs) == DEPTH:
            return 32
        if m.pointer >= len(s.tape):
            return 23
        value = signed(s.tape[m.pointer])
        if value < 0:
            return 26
        if value > FARTHEST:
            return 25
        grow(m, 0)
        m.refs.append(m.pointer)
        m.pointer = value
    elif kind == REFER:
        if not m.refs:
            return 27
        m.pointer = m.refs.pop()
    elif kind == MOVE:
        to = m.pointer + op.value
        if to < 0:
            return 24
        if to > FARTHEST:
            return 25
        m.pointer = to
    elif kind == WHERE:
        reg[0] = m.pointer
    elif kind == ALLOC:
        length = FIRST if m.counted == 0 else m.counted
        more = signed(reg[0])
        if more < 0 or length + more > LONGEST:
            return 30
        reg[0] = length - 1
        m.counted = length + more
    elif kind == GET:
        if op.value == 0:
            if m.taken == len(inputs):
                return 35
            reg[0] = inputs[m.taken]
            m.taken += 1
        elif op.value == 1:
            while m.taken < len(inputs) and inputs[m.taken] % 256 in (32, 9, 10, 12, 13):
                m.taken += 1
            value = 0
            while m.taken < len(inputs) and 48 <= inputs[m.taken] % 256 <= 57:
                value = (value * 10 + inputs[m.taken] % 256 - 48) & WORD
                m.taken += 1
            reg[0] = value
        else:
            reg[0] = 0
    elif kind == PUT:
        put = []
        if op.value == 0:
            put = [reg[0]]
        elif op.value == 1:
            put = [ord(ch) for ch in str(signed(reg[0]))]
        if m.written + len(put) > len(s.outputs):
            return 36
        s.outputs[m.written:m.written + len(put)] = put
        m.written += len(put)
    elif kind == PEEK:
        if m.waiting == 0:
            return 33
        reg[0] = s.channel[m.first]
        m.first = (m.first + 1) % DEPTH
        m.waiting -= 1
    elif kind == POKE:
        if m.waiting == DEPTH:
            return 34
        s.channel[(m.first + m.waiting) % DEPTH] = reg[0]
        m.waiting += 1
    elif kind == FFI:
        # 02, ask 9: "33 when too few values wait, with none taken"
        takes = TAKES[op.value]
        if m.waiting < takes:
            return 33
        # "takes its values from the front of the channel and puts its result at the back"
        taken = [s.channel[(m.first + i) % DEPTH] for i in range(takes)]
        m.first = (m.first + takes) % DEPTH
        m.waiting -= takes
        s.channel[(m.first + m.waiting) % DEPTH] = BINDINGS[op.value](*taken)
        m.waiting += 1
    m.position += 1
    return 0


def missing_lane(number, m, s):
    """02, ask 3: "the first lane that could not be had", of a step's number and the state that it leaves, which a refusal has not changed."""
    # "for 21 the register's length"
    if number == 21:
        return m.lanes
    # "for 22 and 23 the number of cells from the pointer to the end of the counted length or of the lent tape, 0 if none"
    if number == 22:
        return max(0, m.counted - m.pointer)
    if number == 23:
        return max(0, len(s.tape) - m.pointer)
    # "All other answers carry lane 0."
    return 0


def pass_comments(ops, m):
    """02, ask 8: "a comment is passed without being counted, also when the budget is spent"; "Once passed it stays passed"."""
    while not m.halted and m.position < len(ops) and ops[m.position].kind == COMMENT:
        m.position += 1


def run(c):
    """A run from a state, a step, which is a run of one step, or the fresh run."""
    a = Answer(0, 0)
    a.steps = 0
    for name in SLICES:
        setattr(a, name, getattr(c, name)[:])
    # "chosen when a run starts and kept in the state"
    m = a.machine = Machine(c.mode) if c.sort == FRESH else c.machine.copy()
    a.number, a.place, ops = read_patch(c.patch)
    if a.number:
        return a
    if not is_state(ops, c, m):
        a.number, a.place = 37, 0
        return a
    if c.sort == FRESH:
        a.tape[:] = [0] * len(a.tape)
        a.register[:LANES] = [0] * LANES
        # "a lent count for each op, starting at zero"
        a.counts[:] = [0] * len(a.counts)
    while True:
        pass_comments(ops, m)
        a.place = m.position
        if m.halted or m.position == len(ops):
            return a
        if a.steps == c.budget:
            # a step that was made is 0
            a.number = 0 if c.sort == STEP else 50
            return a
        # "a total equal to that ends a run with 50, in the budget's place"
        if m.total == MOST:
            a.number = 50
            return a
        a.number = step(ops, c.inputs, m, a)
        a.lane = missing_lane(a.number, m, a)
        if a.number:
            return a
        a.steps += 1
        # "raised with that op's execution"
        a.counts[a.place] += 1
        m.total += 1


# ---- the check

def check(patch):
    number, place, ops = read_patch(patch)
    if number:
        return Answer(number, place)
    known, open_at = LANES, []
    for i, op in enumerate(ops):
        kind = op.kind
        if kind == END and not open_at:
            return Answer(10, i)
        if kind == ELSE and not open_at:
            return Answer(11, i)
        need = 1 if kind in ONE_LANE else op.n if kind in CELL_OPS or kind in LANE_OPS or kind == STORE else 0
        if need > known:
            return Answer(12, i)
        if kind in OPENS:
            open_at.append(i)
        elif kind == END:
            open_at.pop()
        if kind in (SET, SETF, LOAD):
            known = op.n
        elif kind in (FUNCTION, CALL, RETURN, WHILE, IF, ELSE, END):
            known = 1
    if open_at:
        return Answer(13, open_at[0])
    return Answer(0, len(ops))


# ---- joining

def push(done, op):
    """`StandardProgram::op`; an op is (kind, what it holds)."""
    kind, held = op
    last, was = done[-1] if done else (None, None)
    if last == MOVE and kind == MOVE:
        done.pop()
        total = (was + held) & WORD
        if total:
            done.append((MOVE, signed(total)))
    elif last == SET and kind == SET:
        done.pop()
        push(done, op)
    elif last == DEREF and kind == REFER:
        done.pop()
    elif (last, kind) in ((ELSE, END), (MOVE, REFER)):
        done.pop()
        push(done, op)
    elif last == MOVE and kind in (SET, OFFSET):
        done.pop()
        push(done, op)
        push(done, (MOVE, was))
    elif last in (STORE, LOAD) and kind in (STORE, LOAD) and was == held:
        pass
    elif last == SET and kind == GEZ and held == 1 and len(was) == 1:
        done.pop()
        push(done, (SET, (int(not was[0] & LEAST),)))
    else:
        done.append(op)


def record(op):
    kind, held = op
    if kind == SET:
        payload = struct.pack("<%dQ" % len(held), *held)
    elif kind == MOVE:
        payload = struct.pack("<q", held)
    elif kind == OFFSET:
        payload = struct.pack("<QI", *held)
    elif kind in (STORE, LOAD, GEZ):
        payload = struct.pack("<I", held)
    else:
        return held
    return struct.pack("<IH", len(payload) + 2, kind) + payload


def join(c):
    a = Answer(0, 0)
    a.written = b""
    a.number, a.place, ops = read_patch(c.patch)
    if a.number:
        return a
    if c.room < len(c.patch):
        a.number, a.place = 40, 0
        return a
    done = []
    for op in ops:
        held = op.record
        if op.kind == SET:
            held = op.values
        elif op.kind == MOVE:
            held = op.value
        elif op.kind == OFFSET:
            held = (op.value, op.n)
        elif op.kind in (STORE, LOAD, GEZ):
            held = op.n
        if op.kind < 40:
            push(done, (op.kind, held))
        else:
            done.append((op.kind, held))
    a.place = len(done)
    a.written = b"".join(record(op) for op in done)
    return a


# ---- flattening

def flatten(c):
    a = Answer(0, 0)
    a.written, a.bodies = b"", []
    a.number, a.place, ops = read_patch(c.patch)
    if a.number:
        return a
    main, bodies = [], []
    # the body that is being filled and its number, with the If and While that are open in it
    inside, number, depth, outer = main, -1, 0, []
    taken = set()
    for i, op in enumerate(ops):
        kind = op.kind
        if kind == FUNCTION:
            outer.append((inside, number, depth))
            number, depth = number + 1, 0
            if number in taken:
                number = len(bodies) + (1 if main else 0)
            taken.add(number)
            inside = []
            bodies.append((number, inside))
        elif kind in (IF, WHILE):
            depth += 1
        elif kind == END:
            if depth == 0:
                if not outer:
                    a.number, a.place = 10, i
                    return a
                inside.append(op.record)
                inside, number, depth = outer.pop()
                continue
            depth -= 1
        inside.append(op.record)
    if c.room < len(c.patch) or c.bodies < len(bodies):
        a.number, a.place = 40, 0
        return a
    first = 0
    for number, body in bodies:
        a.bodies.append((number, first, len(body)))
        first += len(body)
    a.written = b"".join(r for _, body in bodies for r in body) + b"".join(main)
    a.place = len(ops)
    return a


def answer(c):
    if c.sort in RUNS:
        return run(c)
    return {JOIN: join, FLATTEN: flatten, CHECK: lambda c: check(c.patch)}[c.sort](c)
