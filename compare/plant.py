#!/usr/bin/env python3
"""Plants wrong readings in the model, one at a time, and counts how many cases of the stored lists find each.

    plant.py        exit status 1 if one is found by no case
"""
import os
import sys
import types

HERE = os.path.dirname(os.path.abspath(__file__))
sys.path.insert(0, os.path.join(HERE, "..", "tools"))
import command
import lists

LANE = "        a.lane = missing_lane(a.number, m, a)\n"
PASS = "        pass_comments(ops, m)\n"
ENTRY = "    if m.mode == BY_TABLE and m.functions > k:\n"
MARKS = "    marks = [i for i, op in enumerate(ops) if op.kind == FUNCTION]\n"
MARK = "    return marks[k] if k < len(marks) else None\n"
ENTER = "        enter(m, s.table, mark)\n"
NO_STATE = "        a.number, a.place = 37, 0\n"
BAD_FILE = "    if a.number:\n        return a\n    if not is_state"
ONE_EACH = "    if len(c.counts) != len(ops):\n        return False\n"
IS_FRESH = "    if c.sort == FRESH:\n        return True\n"
RESTS = "    if any(count for op, count in zip(ops, c.counts) if op.kind == COMMENT):\n        return False\n"
SUM = "    return sum(c.counts) == m.total <= MOST\n"
ZEROS = "        a.counts[:] = [0] * len(a.counts)\n"
OVER = "        if m.halted or m.position == len(ops):\n            return a\n"
MOST = "        if m.total == MOST:\n            a.number = 50\n            return a\n"
STOP = "        if a.number:\n            return a\n        a.steps += 1\n"
RAISE = "        a.counts[a.place] += 1\n"
TOTAL = "        m.total += 1\n"
BOUND = "        if kind == FFI and op.value not in TAKES:\n            return 6, at, None\n"
OF_TWO = "        elif kind in (GET, PUT, FFI):\n            if len(p) != 2:\n                return 2, at, None\n"
TOO_FEW = "        if m.waiting < takes:\n            return 33\n"
TAKEN = "        taken = [s.channel[(m.first + i) % DEPTH] for i in range(takes)]\n"
GONE = "        m.first = (m.first + takes) % DEPTH\n        m.waiting -= takes\n"
BACK = "        s.channel[(m.first + m.waiting) % DEPTH] = BINDINGS[op.value](*taken)\n        m.waiting += 1\n"
ZERO = "    if a % LEAST == 0:\n        return a\n"
NO_ROOT = "    if a > INFINITY:\n        return NAN\n"
ENDLESS = "    if a == INFINITY:\n        return INFINITY\n"
SQUARE = "    square = units(a) << 1074\n"
NEAREST = "    return low + (4 * square > middle)\n"
SUM_RULE = "stored(as_float(a) + as_float(b))}\n"
KNOWN = "        if kind in (SET, SETF, LOAD):\n            known = op.n\n"
NEED = "        need = 1 if kind in ONE_LANE else"
# what is wrong, the line of model01.py that says it right, and the wrong one
READINGS = [
    ("End goes back to test the While again", "                m.position = partner\n", "                m.position = partner - 1\n"),
    ("an End of a function returns", "        if reg[0] != 0:\n            partner = partner_of_end(ops, at)\n",
     "        partner = partner_of_end(ops, at)\n        if partner is not None and ops[partner].kind == FUNCTION and m.calls:\n"
     "            m.position = m.calls.pop()\n        elif reg[0] != 0:\n"),
    ("Else in a While loops", "    elif kind == ELSE:\n        end = to_end(ops, at)\n",
     "    elif kind == ELSE:\n        end = to_end(ops, at)\n        back = partner_of_end(ops, at)\n"
     "        if back is not None and ops[back].kind == WHILE and end is not None:\n            end = back\n"),
    ("an If takes an Else at any depth", "at_else and depth == 1", "at_else"),
    ("a call takes the k-th mark, not the table's entry", ENTRY, "    if False:\n"),
    ("the table is not sorted", "sorted(table[:count] + [place])", "table[:count] + [place]"),
    ("a place is entered twice", "    if place in table[:count]:\n        return\n", ""),
    ("a place is entered one too low", "    table[:count + 1] = sorted(table[:count] + [place])\n",
     "    low = max(0, sum(q < place for q in table[:count]) - 1)\n    table[:count + 1] = table[:low] + [place] + table[low:count]\n"),
    ("Function enters nothing", "        enter(m, s.table, at)\n        m.position = end\n", "        m.position = end\n"),
    ("Return halts in place", "            m.halted = 1\n", "            m.halted = 1\n            m.position -= 1\n"),
    ("the tape grows by > and not by >=", "    if reach >= m.counted:\n", "    if reach > m.counted:\n"),
    ("a growth is one block", "BLOCK * ((reach - m.counted) // BLOCK + 1)", "BLOCK"),
    ("Alloc answers the length", "        reg[0] = length - 1\n", "        reg[0] = length\n"),
    ("Alloc always grows by 30,000", "length = FIRST if m.counted == 0 else m.counted\n", "length = FIRST + m.counted\n"),
    ("Alloc grows a length of exactly 30,000", "length = FIRST if m.counted == 0 else m.counted\n",
     "length = FIRST + m.counted if m.counted <= FIRST else m.counted\n"),
    ("a length of 1 to 29,999 is taken", "    if 0 < m.counted < FIRST:\n        return False\n", ""),
    ("a length of 29,999 is taken", "    if 0 < m.counted < FIRST:\n", "    if 0 < m.counted < FIRST - 1:\n"),
    ("a length of 1 is taken", "    if 0 < m.counted < FIRST:\n", "    if 1 < m.counted < FIRST:\n"),
    ("a length of 30,000 is no state", "    if 0 < m.counted < FIRST:\n", "    if 0 < m.counted <= FIRST:\n"),
    ("a length of 0 is no state", "    if 0 < m.counted < FIRST:\n", "    if m.counted < FIRST and c.sort != FRESH:\n"),
    ("a short tape is seen before the file", BAD_FILE,
     "    if a.number:\n        if 0 < m.counted < FIRST:\n            a.number, a.place = 37, 0\n        return a\n    if not is_state"),
    ("a step that was made says 50", "a.number = 0 if c.sort == STEP else 50", "a.number = 50"),
    ("gez-f is a test of the sign bit", "int(as_float(a) >= 0.0)", "int(not a & LEAST)"),
    ("neg-f is a subtraction from 0", "NEGF: lambda a: a ^ LEAST", "NEGF: lambda a: stored(0.0 - as_float(a))"),
    ("VT is a space", "(32, 9, 10, 12, 13)", "(32, 9, 10, 11, 12, 13)"),
    ("int input looks at whole values", "48 <= inputs[m.taken] % 256 <= 57", "48 <= inputs[m.taken] <= 57"),
    ("a shift by 64 or more gives 0", "LSH: lambda a, b: a << (b % 64) & WORD", "LSH: lambda a, b: a << b & WORD if b < 64 else 0"),
    ("division rounds down", "    return (q if (a < 0) == (b < 0) else -q) & WORD\n", "    return a // b & WORD\n"),
    ("a remainder has the divisor's sign", "    return (-r if a < 0 else r) & WORD\n", "    return a % b & WORD\n"),
    ("to-int wraps", "    if x >= 2.0 ** 63:\n        return LEAST - 1\n", "    if x >= 2.0 ** 63:\n        return LEAST\n"),
    ("a refused op is counted", "        if a.number:\n            return a\n        a.steps += 1\n",
     "        a.steps += 1\n        if a.number:\n            return a\n"),
    ("the budget is tested before the end", "        if m.halted or m.position == len(ops):\n            return a\n        if a.steps == c.budget:\n",
     "        if a.steps != c.budget and (m.halted or m.position == len(ops)):\n            return a\n        if a.steps == c.budget:\n"),
    ("23 before 22", "            if p + n > m.counted:\n                return 22\n            if p + n > len(s.tape):\n                return 23\n",
     "            if p + n > len(s.tape):\n                return 23\n            if p + n > m.counted:\n                return 22\n"),
    ("32 before 28", "        if k < 0:\n            return 28\n        if len(m.calls) == DEPTH:\n            return 32\n",
     "        if len(m.calls) == DEPTH:\n            return 32\n        if k < 0:\n            return 28\n"),
    ("26 before 23", "        if m.pointer >= len(s.tape):\n            return 23\n        value = signed(s.tape[m.pointer])\n",
     "        value = signed(s.tape[m.pointer]) if m.pointer < len(s.tape) else 0\n"),
    ("the channel is not a ring", "        m.first = (m.first + 1) % DEPTH\n",
     "        s.channel[:DEPTH] = s.channel[1:DEPTH] + [0]\n"),
    ("a fresh run leaves the tape as it is", "        a.tape[:] = [0] * len(a.tape)\n", ""),
    ("a comment over 255 bytes is 5", "            if len(p) > 255:\n                return 2, at, None\n",
     "            if len(p) > 255:\n                return 5, at, None\n"),
    ("4 by kind after the payload's length", "        if kind in LEFT_OUT:\n            return 4, at, None\n",
     "        if kind in LEFT_OUT:\n            return (4 if len(p) == 4 else 2), at, None\n"),
    ("an Else closes nothing and needs no bracket", "        if kind == ELSE and not open_at:\n            return Answer(11, i)\n", ""),
    ("lanes are kept across a bracket", "            known = 1\n", "            known = known\n"),
    ("13 names the latest bracket", "Answer(13, open_at[0])", "Answer(13, open_at[-1])"),
    ("a sum of moves does not wrap", "        total = (was + held) & WORD\n        if total:\n            done.append((MOVE, signed(total)))\n",
     "        total = was + held\n        if total:\n            done.append((MOVE, max(-LEAST, min(LEAST - 1, total))))\n"),
    ("a Move of 0 vanishes", "        done.append(op)\n", "        if op != (MOVE, 0):\n            done.append(op)\n"),
    ("a Set swapped with a Move is not joined again", "    elif last == MOVE and kind in (SET, OFFSET):\n        done.pop()\n        push(done, op)\n",
     "    elif last == MOVE and kind in (SET, OFFSET):\n        done.pop()\n        done.append(op)\n"),
    ("Else before End joins once", "    elif (last, kind) in ((ELSE, END), (MOVE, REFER)):\n        done.pop()\n        push(done, op)\n",
     "    elif (last, kind) in ((ELSE, END), (MOVE, REFER)):\n        done.pop()\n        done.append(op)\n"),
    ("main counts though it has no op", "len(bodies) + (1 if main else 0)", "len(bodies) + 1"),
    ("main never counts", "len(bodies) + (1 if main else 0)", "len(bodies)"),
    ("40 before 10", "    main, bodies = [], []\n",
     "    main, bodies = [], []\n    if c.room < len(c.patch):\n        a.number, a.place = 40, 0\n        return a\n"),
    ("40 goes by the result's length", "    if c.room < len(c.patch):\n        a.number, a.place = 40, 0\n        return a\n    done = []\n",
     "    done = []\n"),
    ("22 counts to the end of the lent tape", "max(0, m.counted - m.pointer)", "max(0, len(s.tape) - m.pointer)"),
    ("22 counts to the lesser of length and tape", "max(0, m.counted - m.pointer)", "max(0, min(m.counted, len(s.tape)) - m.pointer)"),
    ("22 beyond the length gives the way back to it", "max(0, m.counted - m.pointer)", "abs(m.counted - m.pointer)"),
    ("23 beyond the tape gives the way back to it", "max(0, len(s.tape) - m.pointer)", "abs(len(s.tape) - m.pointer)"),
    ("23 gives the tape's length", "max(0, len(s.tape) - m.pointer)", "len(s.tape)"),
    ("23 counts to the end of the counted length", "max(0, len(s.tape) - m.pointer)", "max(0, m.counted - m.pointer)"),
    ("23 of a Deref gives a lane", LANE, LANE + "        if a.number == 23 and ops[m.position].kind == DEREF:\n            a.lane = 1\n"),
    ("21 gives what the op needs", LANE, LANE + "        if a.number == 21:\n            a.lane = ops[m.position].n or 1\n"),
    ("the missing lanes are counted", LANE, LANE + "        if a.number in (21, 22, 23):\n            a.lane = (ops[m.position].n or 1) - a.lane\n"),
    ("a refused step carries lane 0", LANE, "        a.lane = missing_lane(a.number, m, a) if c.sort != STEP else 0\n"),
    ("a refusal that is not of lanes carries the register's length", LANE,
     LANE + "        if a.number > 23 or a.number == 20:\n            a.lane = m.lanes\n"),
    ("50 carries the register's length", "            a.number = 0 if c.sort == STEP else 50\n",
     "            a.number = 0 if c.sort == STEP else 50\n            a.lane = m.lanes if a.number else 0\n"),
    ("a step that was made carries the register's length", "            a.number = 0 if c.sort == STEP else 50\n",
     "            a.number = 0 if c.sort == STEP else 50\n            a.lane = 0 if a.number else m.lanes\n"),
    ("a run that is over carries the register's length", "        if m.halted or m.position == len(ops):\n            return a\n",
     "        if m.halted or m.position == len(ops):\n            a.lane = m.lanes\n            return a\n"),
    ("37 carries the register's length", NO_STATE, "        a.number, a.place, a.lane = 37, 0, m.lanes\n"),
]
# of comments (02, ask 8)
OF_COMMENTS = [
    ("a comment is a step", PASS, ""),
    ("a comment that a jump goes to is a step", PASS, "        if a.steps == 0 or m.position == a.place + 1:\n    " + PASS),
    ("a comment at the start is a step", PASS, "        if a.steps:\n    " + PASS),
    ("of several comments the first alone is passed", "    while not m.halted", "    if not m.halted"),
    ("no comment is passed where the budget is spent", PASS, "        if a.steps != c.budget:\n    " + PASS),
    ("a step leaves the comments after it", PASS, "        if c.sort != STEP or a.steps == 0:\n    " + PASS),
    ("an answer's place is that of the comments", PASS + "        a.place = m.position\n", "        a.place = m.position\n" + PASS),
    ("a refused step goes back before the comments", LANE,
     LANE + "        while a.number and m.position and ops[m.position - 1].kind == COMMENT:\n            m.position -= 1\n"),
    ("a halted machine passes comments", "while not m.halted and ", "while "),
    ("37 passes comments", NO_STATE, NO_STATE + PASS),
]


def by_mark(wrong, right):
    """What a step does by mark, and what it does in the Rust's mode."""
    return "        if m.mode == BY_MARK:\n            %s\n        else:\n    %s" % (wrong, right)


def counted(marks):
    """These marks are the ones that are counted by mark."""
    return MARKS + "    if m.mode == BY_MARK:\n        marks = %s\n" % marks


def taken_as(what, when, mode, kept="was"):
    """The reading that takes a mode as another one; if nothing is said of it, the answer has the one that it was."""
    return (what, "        return run(c)\n", "        import copy\n        d = copy.copy(c)\n        was = c.mode if c.sort == FRESH else c.machine.mode\n"
            "        if %s:\n            d.mode, d.machine = %s, c.machine and c.machine.copy()\n            if d.machine:\n"
            "                d.machine.mode = d.mode\n        a = run(d)\n        a.machine.mode = %s\n        return a\n" % (when, mode, kept))


NESTED = "any(j < i < (to_end(ops, j) or len(ops)) for j in marks)"
# of the call mode (02, ask 4)
OF_MODES = [
    ("by mark takes the k-th entered", ENTRY, "    if m.functions > k:\n"),
    ("by mark takes the k-th that is not entered", MARKS, counted("[i for i in marks if i not in table[:m.functions]]")),
    ("by mark takes only what is entered", MARKS, counted("[i if i in table[:m.functions] else None for i in marks]")),
    ("by mark counts nested marks last", MARKS, counted("sorted(marks, key=lambda i: (%s, i))" % NESTED)),
    ("by mark counts no nested marks", MARKS, counted("[i for i in marks if not %s]" % NESTED)),
    ("by mark counts a mark after those in it", MARKS, counted("sorted(marks, key=lambda i: to_end(ops, i) or len(ops))")),
    ("by mark counts no mark that is never closed", MARKS, counted("[i for i in marks if to_end(ops, i) is not None]")),
    ("by mark counts no mark in an If or While", MARKS,
     counted("[i for i in marks if not any(j < i < (to_end(ops, j) or 0) for j, op in enumerate(ops) if op.kind in (IF, WHILE))]")),
    ("by mark counts from 1", MARKS, counted("[None] + marks")),
    ("by mark counts from the last", MARKS, counted("marks[::-1]")),
    ("by mark counts from the Call on", MARKS, counted("[i for i in marks if i > m.position]")),
    ("by mark leaves out the last mark", MARKS, counted("marks[:-1]")),
    ("by mark 29 goes by the table's entries", MARK, "    return marks[k] if k < min(len(marks), m.functions if m.mode == BY_MARK else MARKS) else None\n"),
    ("by mark 29 stands for the last mark", MARK, "    return marks[k] if k < len(marks) else marks[-1] if m.mode == BY_MARK and marks else None\n"),
    ("by mark looks at 32 bits of k", MARKS, counted("marks") + "        k %= 1 << 32\n"),
    ("by mark looks at 8 bits of k", MARKS, counted("marks") + "        k %= 256\n"),
    ("by mark a negative k is 29", "            return 28\n", "            return 29 if m.mode == BY_MARK else 28\n"),
    ("by mark 32 before 28", "        if k < 0:\n            return 28\n",
     "        if m.mode == BY_MARK and len(m.calls) == DEPTH:\n            return 32\n        if k < 0:\n            return 28\n"),
    ("by mark 29 before 32", "        if len(m.calls) == DEPTH:\n",
     "        if len(m.calls) == DEPTH and (m.mode == BY_TABLE or routine(ops, m, s.table, k) is not None):\n"),
    ("by mark 28 before 21", "    elif kind in ONE_LANE and kind not in NO_LANE_WHEN_RUN and m.lanes < 1:\n        return 21\n",
     "    elif kind in ONE_LANE and kind not in NO_LANE_WHEN_RUN and m.lanes < 1:\n"
     "        return 28 if m.mode == BY_MARK and kind == CALL and signed(reg[0]) < 0 else 21\n"),
    ("by mark needs no lane", "kind not in NO_LANE_WHEN_RUN and m.lanes < 1",
     "kind not in NO_LANE_WHEN_RUN and m.lanes < (kind != CALL or m.mode == BY_TABLE)"),
    ("by mark enters nothing", ENTER, by_mark("pass", ENTER)),
    ("by mark enters nothing where the table has more than k", ENTER, "        if m.mode == BY_TABLE or m.functions <= k:\n    " + ENTER),
    ("by mark enters after the last entry", ENTER,
     by_mark("if mark not in s.table[:m.functions]:\n                s.table[m.functions] = mark\n                m.functions += 1", ENTER)),
    ("by mark enters as entry k", ENTER, by_mark("s.table[k], m.functions = mark, max(m.functions, k + 1)", ENTER)),
    ("by mark enters once more what is there", ENTER,
     by_mark("s.table[:m.functions + 1] = sorted(s.table[:m.functions] + [mark])\n            m.functions += 1", ENTER)),
    ("by mark enters every mark up to the k-th", ENTER, by_mark("[enter(m, s.table, i) for i in range(mark + 1) if ops[i].kind == FUNCTION]", ENTER)),
    ("by mark a 29 leaves the place saved", "            return 29\n", "            m.calls += [at] * (m.mode == BY_MARK)\n            return 29\n"),
    ("by mark a Function that is run enters nothing", "        enter(m, s.table, at)\n", by_mark("pass", "        enter(m, s.table, at)\n")),
    ("by mark goes to the mark", "        m.position = mark\n", "        m.position = mark - (m.mode == BY_MARK)\n"),
    ("by mark saves no place", "        m.calls.append(at)\n", by_mark("pass", "        m.calls.append(at)\n")),
    ("a Call by mark leaves the Rust's mode", ENTER, ENTER + "        m.mode = BY_TABLE\n"),
    ("a Return leaves the Rust's mode", "            m.position = m.calls.pop()\n", "            m.position = m.calls.pop()\n            m.mode = BY_TABLE\n"),
    ("a halt leaves the Rust's mode", "            m.halted = 1\n", "            m.halted = 1\n            m.mode = BY_TABLE\n"),
    taken_as("a run taken up again forgets the mode", "c.sort not in (FRESH, STEP) and was == BY_MARK", "BY_TABLE", "a.machine.mode"),
    taken_as("a run taken up again calls by the table", "c.sort not in (FRESH, STEP) and was == BY_MARK", "BY_TABLE"),
    taken_as("a step forgets the mode", "c.sort == STEP and was == BY_MARK", "BY_TABLE", "a.machine.mode"),
    taken_as("a step calls by the table", "c.sort == STEP and was == BY_MARK", "BY_TABLE"),
    taken_as("a fresh run calls by the table", "c.sort == FRESH and was == BY_MARK", "BY_TABLE"),
    taken_as("a fresh run by mark leaves the Rust's mode", "False", "was", "BY_TABLE if c.sort == FRESH and was == BY_MARK else was"),
    taken_as("every run is by mark", "was == BY_TABLE", "BY_MARK"),
    taken_as("mode 2 is by mark", "was == 2", "BY_MARK"),
    taken_as("mode 2 is the Rust's", "was == 2", "BY_TABLE"),
    taken_as("mode 2^32 - 1 is by mark", "was == (1 << 32) - 1", "BY_MARK"),
    taken_as("every other mode is by mark", "was > BY_MARK", "BY_MARK"),
    taken_as("every other mode is the Rust's", "was > BY_MARK", "BY_TABLE"),
    taken_as("a mode has 8 bits", "was >= 256", "was % 256"),
    taken_as("a mode has 16 bits", "was >= 1 << 16", "was % (1 << 16)"),
    taken_as("a mode has 31 bits", "was >= 1 << 31", "was % (1 << 31)"),
    taken_as("a run from a state has no test of the mode", "c.sort not in (FRESH, STEP) and was > BY_MARK", "BY_TABLE"),
    taken_as("a step has no test of the mode", "c.sort == STEP and was > BY_MARK", "BY_TABLE"),
    taken_as("a fresh run has no test of the mode", "c.sort == FRESH and was > BY_MARK", "BY_TABLE"),
    taken_as("an unknown mode is answered as the Rust's", "False", "was", "was if was <= BY_MARK else BY_TABLE"),
    ("a mode is seen before the file", BAD_FILE,
     "    if a.number:\n        if m.mode > BY_MARK:\n            a.number, a.place = 37, 0\n        return a\n    if not is_state"),
    ("a fresh run with a bad file answers the Rust's mode", BAD_FILE,
     "    if a.number:\n        if c.sort == FRESH:\n            m.mode = BY_TABLE\n        return a\n    if not is_state"),
    ("a fresh run with 37 answers the Rust's mode", NO_STATE, NO_STATE + "        if c.sort == FRESH:\n            m.mode = BY_TABLE\n"),
    ("an unknown mode is refused after the zeros are written to the tape", NO_STATE,
     NO_STATE + "        if c.sort == FRESH and m.mode > BY_MARK:\n            a.tape[:] = [0] * len(a.tape)\n"),
    ("an unknown mode is refused after the zeros are written to the register", NO_STATE,
     NO_STATE + "        if c.sort == FRESH and m.mode > BY_MARK:\n            a.register[:LANES] = [0] * LANES\n"),
    ("an unknown mode is refused after the comments are passed", NO_STATE, NO_STATE + "        if m.mode > BY_MARK:\n    " + PASS),
    ("an unknown mode of a machine at its end is no refusal", "    if m.mode not in (BY_TABLE, BY_MARK):\n",
     "    if m.mode not in (BY_TABLE, BY_MARK) and not m.halted and m.position < len(ops):\n"),
]


def unless(when, line):
    """The line, but not then."""
    return "        if not (%s):\n    %s" % (when, line)


def start(line):
    """A line before the first step."""
    return "    while True:\n" + PASS, line + "    while True:\n" + PASS


HALTS = "m.halted"
FROM = "c.sort not in (FRESH, STEP)"
WHICH = {"run": FROM, "step": "c.sort == STEP", "fresh run": "c.sort == FRESH"}
# of the counts and the step total (02, ask 11)
OF_COUNTS = [
    ("a refused op raises its count", STOP, STOP.replace("            return a\n", "            a.counts[a.place] += 1\n            return a\n")),
    ("a refused op raises the total", STOP, STOP.replace("            return a\n", "            m.total += 1\n            return a\n")),
    ("a refused op raises its count and the total", STOP,
     STOP.replace("            return a\n", "            a.counts[a.place] += 1\n            m.total += 1\n            return a\n")),
    ("a refused op takes its count back to 0", STOP, STOP.replace("            return a\n", "            a.counts[a.place] = 0\n            return a\n")),
    ("the op that comes next is counted", RAISE, "        a.counts[min(m.position, len(ops) - 1)] += 1\n"),
    ("the op before the next one is counted", RAISE, "        a.counts[m.position - 1] += 1\n"),
    ("a bracket's jump counts the op that it goes to", RAISE,
     "        a.counts[a.place if ops[a.place].kind in (CALL, RETURN) else m.position - 1] += 1\n"),
    ("a Call counts its mark", RAISE, "        a.counts[m.position - 1 if ops[a.place].kind == CALL else a.place] += 1\n"),
    ("a Call by mark counts its mark", RAISE, "        a.counts[m.position - 1 if ops[a.place].kind == CALL and m.mode == BY_MARK else a.place] += 1\n"),
    ("a Call counts its mark too", RAISE, RAISE + "        if ops[a.place].kind == CALL:\n            a.counts[m.position - 1] += 1\n"),
    ("a Return counts its Call", RAISE, "        a.counts[m.position - 1 if ops[a.place].kind == RETURN else a.place] += 1\n"),
    ("an End that goes back counts its While", RAISE,
     "        a.counts[m.position - 1 if ops[a.place].kind == END and m.position <= a.place else a.place] += 1\n"),
    ("an End that goes back counts its While too", RAISE,
     RAISE + "        if ops[a.place].kind == END and m.position <= a.place:\n            a.counts[m.position - 1] += 1\n"),
    ("an If or While that jumps is not counted", RAISE, unless("ops[a.place].kind in (IF, WHILE) and m.position != a.place + 1", RAISE)),
    ("an End is not counted", RAISE, unless("ops[a.place].kind == END", RAISE)),
    ("an Else is not counted", RAISE, unless("ops[a.place].kind == ELSE", RAISE)),
    ("a Function that is passed is not counted", RAISE, unless("ops[a.place].kind == FUNCTION", RAISE)),
    ("an op that does nothing is not counted", RAISE, unless("ops[a.place].kind == 258", RAISE)),
    ("an op of no lanes is not counted", RAISE, unless("ops[a.place].kind in CELL_OPS | LANE_OPS and ops[a.place].n == 0", RAISE)),
    ("a Return that halts is not counted", RAISE, unless(HALTS, RAISE)),
    ("a Return that halts does not raise the total", TOTAL, unless(HALTS, TOTAL)),
    ("a Return that halts raises neither", RAISE + TOTAL, unless(HALTS, RAISE) + unless(HALTS, TOTAL)),
    ("a Return to a saved place is not counted", RAISE, unless("ops[a.place].kind == RETURN and not m.halted", RAISE)),
    ("the last op is not counted", RAISE, unless("m.position == len(ops)", RAISE)),
    ("the last step of the budget is not counted", RAISE, unless("a.steps == c.budget", RAISE)),
    ("a comment is counted", PASS, "        was = m.position\n" + PASS + "        for i in range(was, m.position):\n            a.counts[i] += 1\n"),
    ("a comment raises the total", PASS, "        was = m.position\n" + PASS + "        m.total += m.position - was\n"),
    ("a comment raises both", PASS,
     "        was = m.position\n" + PASS + "        for i in range(was, m.position):\n            a.counts[i] += 1\n            m.total += 1\n"),
    ("an op is counted at the comment before it", RAISE, "        a.counts[a.place - (a.place > 0 and ops[a.place - 1].kind == COMMENT)] += 1\n"),
    ("an op is counted at its place among the ops that are no comments", RAISE,
     "        a.counts[sum(op.kind != COMMENT for op in ops[:a.place])] += 1\n"),
    ("a count is raised by the comments too", RAISE, "        a.counts[a.place] += 1 + (a.place > 0 and ops[a.place - 1].kind == COMMENT)\n"),
    ("the total is not raised", TOTAL, ""),
    ("the counts are not raised", RAISE, ""),
    ("a step does not raise the total", TOTAL, unless("c.sort == STEP", TOTAL)),
    ("a step does not raise the count", RAISE, unless("c.sort == STEP", RAISE)),
    ("a run from a state does not raise the total", TOTAL, unless(FROM, TOTAL)),
    ("a run from a state starts its total at 0", *start("    if c.sort != FRESH:\n        m.total = 0\n")),
    ("a run from a state starts its counts at 0", *start("    if c.sort != FRESH:\n        a.counts[:] = [0] * len(ops)\n")),
    ("a run from a state starts both at 0", *start("    if c.sort != FRESH:\n        m.total = 0\n        a.counts[:] = [0] * len(ops)\n")),
    ("a count has 8 bits", RAISE, RAISE + "        a.counts[a.place] %= 256\n"),
    ("a count has 16 bits", RAISE, RAISE + "        a.counts[a.place] %= 1 << 16\n"),
    ("a count has 31 bits", RAISE, RAISE + "        a.counts[a.place] %= 1 << 31\n"),
    ("a count has 32 bits", RAISE, RAISE + "        a.counts[a.place] %= 1 << 32\n"),
    ("a count stays at 2^32 - 1", RAISE, RAISE + "        a.counts[a.place] = min(a.counts[a.place], (1 << 32) - 1)\n"),
    ("a count of 0 stays at 0", RAISE, unless("a.counts[a.place] == 0", RAISE)),
    ("a count is 1 at most", RAISE, "        a.counts[a.place] = 1\n"),
    ("a total has 32 bits", TOTAL, TOTAL + "        m.total %= 1 << 32\n"),
    ("a total has 53 bits", TOTAL, TOTAL + "        m.total %= 1 << 53\n"),
    ("the counts' number is not tested", ONE_EACH, ""),
    ("too many counts are taken", ONE_EACH, ONE_EACH.replace("!=", "<")),
    ("too few counts are taken", ONE_EACH, ONE_EACH.replace("!=", ">")),
    *[("too many counts are taken by a " + which, ONE_EACH, "    if len(c.counts) != len(ops) and not (%s and len(c.counts) > len(ops)):\n"
       "        return False\n" % when) for which, when in WHICH.items()],
    *[("too few counts are taken by a " + which, ONE_EACH, "    if len(c.counts) != len(ops) and not (%s and len(c.counts) < len(ops)):\n"
       "        return False\n" % when) for which, when in WHICH.items()],
    ("no counts stand for zeros", ONE_EACH, "    if len(c.counts) not in (0, len(ops)):\n        return False\n"),
    ("a count for each op that is no comment", ONE_EACH, "    if len(c.counts) != sum(op.kind != COMMENT for op in ops):\n        return False\n"),
    ("a comment's count is not tested", RESTS, ""),
    ("a comment's count is not tested and not added", RESTS + SUM,
     "    return sum(count for op, count in zip(ops, c.counts) if op.kind != COMMENT) == m.total <= MOST\n"),
    ("the first comment's count alone is tested", RESTS, RESTS.replace("if any(count for op, count in zip(ops, c.counts) if op.kind == COMMENT)",
                                                                     "if ([n for op, n in zip(ops, c.counts) if op.kind == COMMENT] + [0])[0]")),
    ("a comment's count may be 1", RESTS, RESTS.replace("any(count for", "any(count > 1 for")),
    ("a fresh run tests its counts", IS_FRESH, ""),
    ("a fresh run tests the counts of its comments", IS_FRESH + RESTS, RESTS + IS_FRESH),
    ("the sum is not tested", SUM, "    return m.total <= MOST\n"),
    ("the sum may be less", SUM, "    return sum(c.counts) <= m.total <= MOST\n"),
    ("the sum may be more", SUM, "    return sum(c.counts) >= m.total <= MOST\n"),
    ("the sum is one less", SUM, "    return sum(c.counts) in (m.total, m.total - 1) and m.total <= MOST\n"),
    ("the sum leaves out the last op", SUM, "    return sum(c.counts[:-1]) == m.total <= MOST\n"),
    ("the sum leaves out the first op", SUM, "    return sum(c.counts[1:]) == m.total <= MOST\n"),
    ("the sum is modulo 2^64", SUM, "    return sum(c.counts) & WORD == m.total <= MOST\n"),
    ("the sum is modulo 2^63", SUM, "    return sum(c.counts) % LEAST == m.total <= MOST\n"),
    ("the sum is modulo 2^53", SUM, "    return (sum(c.counts) - m.total) % MOST == 0 and m.total <= MOST\n"),
    ("the sum is modulo 2^32", SUM, "    return (sum(c.counts) - m.total) % (1 << 32) == 0 and m.total <= MOST\n"),
    ("the sum has signs", SUM, "    return sum(map(signed, c.counts)) == m.total <= MOST\n"),
    ("the sum stays at 2^53", SUM, "    return min(sum(c.counts), MOST) == m.total\n"),
    ("the sum is a float's", SUM, "    return sum(map(float, c.counts)) == float(m.total) and m.total <= MOST\n"),
    ("the sum of a step is not tested", SUM, "    return (c.sort == STEP or sum(c.counts) == m.total) and m.total <= MOST\n"),
    ("the sum of a run is not tested", SUM, "    return (%s or sum(c.counts) == m.total) and m.total <= MOST\n" % FROM),
    ("the sum of a machine at its end is not tested", SUM,
     "    return (m.halted or m.position == len(ops) or sum(c.counts) == m.total) and m.total <= MOST\n"),
    ("a total of 2^53 + 1 is taken", SUM, "    return sum(c.counts) == m.total <= MOST + 1\n"),
    ("any total is taken", SUM, "    return sum(c.counts) == m.total\n"),
    ("a total of 2^53 is no state", SUM, "    return sum(c.counts) == m.total < MOST\n"),
    ("a total of 2^53 is no state but at the end", SUM, "    return sum(c.counts) == m.total < MOST + (m.halted or m.position == len(ops))\n"),
    ("a total over 2^53 is taken as 2^53", SUM, "    return min(sum(c.counts), MOST) == min(m.total, MOST)\n"),
    ("2^53 ends no run", MOST, ""),
    ("2^53 ends no step", MOST, MOST.replace("m.total == MOST", "m.total == MOST and c.sort != STEP")),
    ("2^53 ends a run only where it starts", MOST, MOST.replace("m.total == MOST", "m.total == MOST and a.steps == 0")),
    ("2^53 ends a run only where its steps lead to it", MOST, MOST.replace("m.total == MOST", "m.total == MOST and a.steps")),
    ("2^53 - 1 ends a run", MOST, MOST.replace("m.total == MOST", "m.total >= MOST - 1")),
    ("2^53 + 1 ends a run", MOST, MOST.replace("m.total == MOST", "m.total == MOST + 1")),
    ("2^53 is tested before the end", OVER, MOST + OVER),
    ("2^53 is tested before the end, but not of a halted machine", OVER, MOST.replace("m.total == MOST", "m.total == MOST and not m.halted") + OVER),
    ("2^53 of a halted machine is 50", OVER, MOST.replace("m.total == MOST", "m.total == MOST and m.halted") + OVER),
    ("2^53 is tested before comments are passed", PASS,
     MOST.replace("m.total == MOST:", "m.total == MOST and not m.halted and m.position < len(ops):\n            a.place = m.position") + PASS),
    ("2^53 passes no comments", PASS, "        if m.total != MOST:\n    " + PASS),
    ("2^53 gives 37", MOST, MOST.replace("a.number = 50", "a.number, a.place = 37, 0")),
    ("2^53 gives 0", MOST, MOST.replace("            a.number = 50\n", "")),
    ("2^53 gives 0 to a step", MOST, MOST.replace("a.number = 50", "a.number = 0 if c.sort == STEP else 50")),
    ("2^53 gives place 0", MOST, MOST.replace("a.number = 50", "a.number, a.place = 50, 0")),
    ("2^53 says that the budget's steps were made", MOST, MOST.replace("a.number = 50", "a.number, a.steps = 50, c.budget")),
    ("2^53 says that no steps were made", MOST, MOST.replace("a.number = 50", "a.number, a.steps = 50, 0")),
    ("2^53 halts", MOST, MOST.replace("a.number = 50", "a.number, m.halted = 50, 1")),
    ("2^53 counts one more", MOST, MOST.replace("a.number = 50", "a.number = 50\n            a.counts[a.place] += 1")),
    ("a step that makes it 2^53 says 50", "            a.number = 0 if c.sort == STEP else 50\n",
     "            a.number = 0 if c.sort == STEP and not (m.total == MOST and a.steps) else 50\n"),
    ("what is left of the total has 32 bits", MOST, MOST.replace("m.total == MOST", "m.total == MOST or a.steps == (MOST - c.machine.total) % (1 << 32)")
     .replace("c.machine.total", "(c.machine.total if c.machine else 0)")),
    ("the budget takes no account of the steps before", "        if a.steps == c.budget:\n", "        if a.steps == c.budget or m.total == c.budget:\n"),
    ("a fresh run leaves the counts as they are", ZEROS, ""),
    ("a fresh run with no budget leaves the counts", ZEROS, "        if c.budget:\n    " + ZEROS),
    ("a fresh run zeroes the first count alone", ZEROS, "        a.counts[:1] = [0][:len(a.counts)]\n"),
    ("a fresh run zeroes no count of a comment", ZEROS, "        a.counts[:] = [n if op.kind == COMMENT else 0 for op, n in zip(ops, a.counts)]\n"),
    ("a fresh run takes its total from the counts", ZEROS, "        m.total = sum(a.counts)\n" + ZEROS),
    ("a fresh run with a bad file zeroes the counts", BAD_FILE,
     "    if a.number:\n        if c.sort == FRESH:\n            a.counts[:] = [0] * len(a.counts)\n        return a\n    if not is_state"),
    ("a fresh run with 37 zeroes the counts", NO_STATE, NO_STATE + "        if c.sort == FRESH:\n            a.counts[:] = [0] * len(a.counts)\n"),
    ("a fresh run with 37 zeroes counts that are one an op", NO_STATE,
     NO_STATE + "        if c.sort == FRESH and len(a.counts) == len(ops):\n            a.counts[:] = [0] * len(a.counts)\n"),
    ("a fresh run zeroes the tape before it looks at the counts", NO_STATE,
     NO_STATE + "        if c.sort == FRESH and len(a.counts) != len(ops):\n            a.tape[:] = [0] * len(a.tape)\n"),
    ("a fresh run zeroes the register before it looks at the counts", NO_STATE,
     NO_STATE + "        if c.sort == FRESH and len(a.counts) != len(ops):\n            a.register[:LANES] = [0] * LANES\n"),
    ("37 zeroes the counts of a state", NO_STATE, NO_STATE + "        if c.sort != FRESH:\n            a.counts[:] = [0] * len(a.counts)\n"),
    ("37 takes the total from the counts", NO_STATE, NO_STATE + "        if c.sort != FRESH:\n            m.total = sum(a.counts) & WORD\n"),
    ("37 of the counts passes comments", NO_STATE, NO_STATE + "        if not add_up(ops, c, m):\n    " + PASS),
    ("the counts are seen before the file", BAD_FILE,
     "    if a.number:\n        if c.counts[:1] == [5]:\n            a.number, a.place = 37, 0\n        return a\n    if not is_state"),
    ("no counts are seen before the file", BAD_FILE,
     "    if a.number:\n        if not c.counts:\n            a.number, a.place = 37, 0\n        return a\n    if not is_state"),
]


def of_root(wrong):
    """The root, but of some patterns this."""
    return ZERO, wrong + ZERO


def as_binding(number, more=""):
    """A line that takes a call's number as this one."""
    return "        op.value = %s if kind == FFI else op.value\n" % number + more


def of_length(when):
    """A call's payload is of its length then too, with zeros after it where it is short."""
    return OF_TWO, OF_TWO.replace("len(p) != 2", "len(p) != 2 and not (kind == FFI and %s)" % when) + "            p = (p + bytes(2))[:2]\n"


def at_33(line):
    """33 with this done before."""
    return TOO_FEW, TOO_FEW.replace("            return 33", "            %s\n            return 33" % line)


def of_one(value):
    """A sum with one value waiting sends this."""
    return TOO_FEW, ("        if m.waiting == 0:\n            return 33\n        if m.waiting < takes:\n            one = as_float(s.channel[m.first])\n"
                     "            m.first = (m.first + 1) %% DEPTH\n            s.channel[m.first] = stored(%s)\n            m.position += 1\n"
                     "            return 0\n" % value)


# of calls through the channel (02, ask 9)
OF_CALLS = [
    # the file
    ("277 is still 4", BOUND, BOUND.replace(" and op.value not in TAKES", "").replace("6", "4")),
    ("binding 2 is taken as the sum", BOUND, BOUND.replace("not in TAKES", "> 2") + as_binding("min(op.value, 1)")),
    ("every other binding is the sum", BOUND, as_binding("min(op.value, 1)")),
    ("every other binding is the root", BOUND, as_binding("int(op.value == 1)")),
    ("binding 2 is 4, as mode 2 is", BOUND, BOUND.replace("return 6", "return (4 if op.value == 2 else 6)")),
    ("another binding is 4", BOUND, BOUND.replace("return 6", "return 4")),
    ("another binding is 2", BOUND, BOUND.replace("return 6", "return 2")),
    ("another binding is 3", BOUND, BOUND.replace("return 6", "return 3")),
    ("a binding over 3 alone is 6", BOUND, BOUND.replace("not in TAKES", "> 3") + as_binding("min(op.value, 1)")),
    ("a binding is one byte", BOUND, as_binding("op.value % 256", BOUND)),
    ("a binding has its high byte first", BOUND, as_binding("op.value % 256 * 256 + op.value // 256", BOUND)),
    ("a binding has 4 bytes", OF_TWO, OF_TWO.replace("len(p) != 2", "len(p) != (4 if kind == FFI else 2)") + "            p = p[:2]\n"),
    ("a binding may have 4 bytes", *of_length("len(p) == 4")),
    ("a binding may have more bytes", *of_length("len(p) > 2")),
    ("a binding may have one byte", *of_length("len(p) == 1")),
    ("no binding is the root", *of_length("not p")),
    ("6 before the payload's length", OF_TWO, "        elif kind == FFI and len(p) >= 2 and (p[0] > 1 or p[1]):\n            return 6, at, None\n" + OF_TWO),
    ("7 before 6", BOUND, "        if len(ops) == OPS:\n            return 7, at, None\n" + BOUND),
    # what is taken, and where the result goes
    ("the root is binding 1, the sum 0", "SQUARE_ROOT, SUM = range(2)\n", "SUM, SQUARE_ROOT = range(2)\n"),
    ("the result goes to the front", BACK,
     "        m.first = (m.first - 1) % DEPTH\n        s.channel[m.first] = BINDINGS[op.value](*taken)\n        m.waiting += 1\n"),
    ("the newest values are taken", TAKEN + GONE,
     "        taken = [s.channel[(m.first + m.waiting - 1 - i) % DEPTH] for i in range(takes)]\n        m.waiting -= takes\n"),
    ("the newest value is taken, and the place of the oldest goes", TAKEN, TAKEN.replace("m.first + i", "m.first + m.waiting - 1 - i")),
    ("the sum takes one", GONE, GONE.replace("takes", "1")),
    ("the sum is of the first value twice", TAKEN, TAKEN.replace("m.first + i", "m.first")),
    ("the sum is of the first and the third", TAKEN, TAKEN.replace("m.first + i", "m.first + 2 * i")),
    ("the sum is of the first and the newest", TAKEN, TAKEN.replace("m.first + i", "m.first + (m.waiting - 1 if i else 0)")),
    ("the root takes two", "TAKES = {SQUARE_ROOT: 1, SUM: 2}\n", "TAKES = {SQUARE_ROOT: 2, SUM: 2}\n"),
    ("the root is of the second", TAKEN, TAKEN.replace("m.first + i", "m.first + i + (op.value == SQUARE_ROOT)")),
    ("what is taken stays", GONE, ""),
    ("what is taken is zeroed", GONE, "        for i in range(takes):\n            s.channel[(m.first + i) % DEPTH] = 0\n" + GONE),
    ("a call empties the channel", GONE, GONE + "        m.first, m.waiting = (m.first + m.waiting) % DEPTH, 0\n"),
    ("a call lays the ring from place 0 on", BACK, BACK + "        ring = [s.channel[(m.first + i) % DEPTH] for i in range(m.waiting)]\n"
     "        s.channel[:m.waiting], m.first = ring, 0\n"),
    ("no result is sent", BACK, ""),
    ("the result is sent twice", BACK, BACK + "        if m.waiting < DEPTH:\n" + "".join("    " + line for line in BACK.splitlines(True))),
    ("the result is stored where the ring ended before", BACK, BACK.replace("m.first + m.waiting", "m.first + m.waiting - takes")),
    ("the result is stored one place on", BACK, BACK.replace("m.first + m.waiting", "m.first + m.waiting + 1")),
    ("the result is stored over the newest", BACK, BACK.replace("m.first + m.waiting", "m.first + m.waiting - 1")),
    ("the result's place stops at the last", BACK, BACK.replace("(m.first + m.waiting) % DEPTH", "min(m.first + m.waiting, DEPTH - 1)")),
    ("the result's place starts at 0 past the last", BACK,
     BACK.replace("(m.first + m.waiting) % DEPTH", "(m.first + m.waiting if m.first + m.waiting < DEPTH else 0)")),
    ("the second value is not sought at place 0", TAKEN, TAKEN.replace("(m.first + i) % DEPTH", "min(m.first + i, DEPTH - 1)")),
    ("the first place goes to 0 past the last", GONE, GONE.replace("(m.first + takes) % DEPTH", "(m.first + takes if m.first + takes < DEPTH else 0)")),
    ("a ring has one place more", GONE, GONE.replace("% DEPTH", "% len(s.channel)")),
    ("the result is in lane 0 too", BACK, BACK + "        reg[0] = BINDINGS[op.value](*taken)\n"),
    ("the result is in lane 0 alone", BACK, "        reg[0] = BINDINGS[op.value](*taken)\n"),
    ("the first value is lane 0", TAKEN, TAKEN + "        taken[0] = reg[0]\n"),
    ("a full ring is 34", TOO_FEW, "        if m.waiting == DEPTH:\n            return 34\n" + TOO_FEW),
    ("a full ring is 34 for the root", TOO_FEW, "        if m.waiting == DEPTH and takes == 1:\n            return 34\n" + TOO_FEW),
    ("33 takes one", *at_33("m.first, m.waiting = (m.first + m.waiting) % DEPTH, 0")),
    ("33 takes one and leaves its place first", *at_33("m.waiting = 0")),
    ("33 lays an empty ring from place 0 on", *at_33("m.first = m.first if m.waiting else 0")),
    ("33 zeroes what waits", *at_33("s.channel[m.first] = 0")),
    ("one for two is added to 0", *of_one("one + 0.0")),
    ("one for two is added to itself", *of_one("one + one")),
    ("too few is 34", TOO_FEW, TOO_FEW.replace("33", "34")),
    ("one for two is 34", TOO_FEW, TOO_FEW.replace("33", "(34 if m.waiting else 33)")),
    ("too few is passed over", TOO_FEW, TOO_FEW.replace("            return 33", "            m.position += 1\n            return 0")),
    ("a call needs a lane", TOO_FEW, "        if m.lanes < 1:\n            return 21\n" + TOO_FEW),
    ("a call needs a lane for each value", TOO_FEW, "        if m.lanes < takes:\n            return 21\n" + TOO_FEW),
    ("a call leaves one lane", BACK, BACK + "        m.lanes = min(m.lanes, 1)\n"),
    ("a call is not counted", RAISE, "        if ops[a.place].kind != FFI:\n    " + RAISE),
    ("a call is a step for each value", RAISE, RAISE + "        a.steps += ops[a.place].kind == FFI and ops[a.place].value\n"),
    # the sum
    ("a sum's NaN keeps its bits", SUM_RULE, "struct.unpack('<Q', struct.pack('<d', as_float(a) + as_float(b)))[0]}\n"),
    ("a sum with a NaN gives that NaN", SUM_RULE, "next((v for v in (a, b) if v % LEAST > INFINITY), " + SUM_RULE.replace("}", ")}")),
    ("infinity and minus infinity are 0", SUM_RULE, "0 if {a, b} == {INFINITY, INFINITY + LEAST} else " + SUM_RULE),
    ("a sum of -0 and -0 is 0", SUM_RULE, "stored(as_float(a) + as_float(b) + 0.0)}\n"),
    ("a sum past the largest is the largest", SUM_RULE,
     "INFINITY - 1 if max(a, b) < INFINITY == stored(as_float(a) + as_float(b)) else " + SUM_RULE),
    ("whole numbers are added", SUM_RULE, "(a + b) & WORD}\n"),
    ("the second is taken from the first", SUM_RULE, "stored(as_float(a) - as_float(b))}\n"),
    # the root
    ("the root of a whole number", *of_root("    if 1:\n        return math.isqrt(a)\n")),
    ("-0 gives 0", *of_root("    if a == LEAST:\n        return 0\n")),
    ("-0 gives the NaN", *of_root("    if a == LEAST:\n        return NAN\n")),
    ("0 gives the NaN", *of_root("    if a == 0:\n        return NAN\n")),
    ("a negative value gives the signed NaN", *of_root("    if LEAST < a <= INFINITY + LEAST:\n        return NAN + LEAST\n")),
    ("a negative value gives itself", *of_root("    if LEAST < a <= INFINITY + LEAST:\n        return a\n")),
    ("a negative value gives 0", *of_root("    if LEAST < a <= INFINITY + LEAST:\n        return 0\n")),
    ("a negative value's sign is passed over", *of_root("    if LEAST < a:\n        return root(a - LEAST)\n")),
    ("minus infinity gives itself", *of_root("    if a == INFINITY + LEAST:\n        return a\n")),
    ("minus infinity gives infinity", *of_root("    if a == INFINITY + LEAST:\n        return INFINITY\n")),
    ("a negative subnormal gives -0", *of_root("    if LEAST < a < LEAST + (1 << 52):\n        return LEAST\n")),
    ("a NaN gives itself", *of_root("    if a % LEAST > INFINITY:\n        return a\n")),
    ("a NaN keeps its bits but for the first", *of_root("    if a % LEAST > INFINITY:\n        return a | 1 << 51\n")),
    ("a NaN keeps its sign", *of_root("    if a % LEAST > INFINITY:\n        return NAN + (a & LEAST)\n")),
    ("a NaN with a sign gives itself", *of_root("    if a > INFINITY + LEAST:\n        return a\n")),
    ("infinity gives the NaN", ENDLESS, "    if a == INFINITY:\n        return NAN\n"),
    ("infinity gives the largest", ENDLESS, "    if a == INFINITY:\n        return INFINITY - 1\n"),
    ("infinity is a number", ENDLESS, ""),
    ("a subnormal gives 0", *of_root("    if a < 1 << 52:\n        return 0\n")),
    ("a subnormal gives itself", *of_root("    if a < 1 << 52:\n        return a\n")),
    ("a subnormal has the digit that the others have", SQUARE, "    square = ((1 << 52) + a if a < 1 << 52 else units(a)) << 1074\n"),
    ("a subnormal's place is one lower", SQUARE, "    square = units(a) << 1074\n    if a < 1 << 52:\n        square >>= 1\n"),
    ("the least subnormal gives 0", *of_root("    if a == 1:\n        return 0\n")),
    ("the root is rounded down", NEAREST, "    return low\n"),
    ("the root is rounded up", NEAREST, "    return low + (units(low) ** 2 != square)\n"),
    ("the root is rounded up where the rest is the root", NEAREST, "    return low + (square >= units(low) * units(low + 1))\n"),
    ("the root is rounded by its last digit", NEAREST, "    return low + (low % 2 and 4 * square > middle)\n"),
    ("the root has one digit less", NEAREST, "    return (low + (4 * square > middle)) // 2 * 2\n"),
    ("the root has 24 digits", NEAREST, "    return (low + (1 << 28)) >> 29 << 29\n"),
    ("an odd place is taken as the even one below", SQUARE, "    square = units(a - (1 << 52) if a >= 1 << 52 and (a >> 52) % 2 == 0 else a) << 1074\n"),
    ("the root's place is rounded up", NEAREST, "    return low + (4 * square > middle) + (((a >> 52) % 2 == 0) << 52)\n"),
    # the check, joining and flattening
    ("the check asks for a lane", NEED, "        need = 1 if kind in ONE_LANE or kind == FFI else"),
    ("the check asks for a lane for each value", NEED, "        need = op.value + 1 if kind == FFI else 1 if kind in ONE_LANE else"),
    ("after a call one lane is known", KNOWN, "        if kind == FFI:\n            known = 1\n" + KNOWN),
    ("after a call at most one lane is known", KNOWN, "        if kind == FFI:\n            known = min(known, 1)\n" + KNOWN),
    ("after a call no lane is known", KNOWN, "        if kind == FFI:\n            known = 0\n" + KNOWN),
    ("after a call every lane is known", KNOWN, "        if kind == FFI:\n            known = LANES\n" + KNOWN),
    ("joining leaves calls out", "        if op.kind < 40:\n", "        if op.kind == FFI:\n            continue\n        if op.kind < 40:\n"),
    ("joining makes one of two like calls", "        if op.kind < 40:\n",
     "        if op.kind == FFI and done[-1:] == [(FFI, held)]:\n            continue\n        if op.kind < 40:\n"),
    ("joining goes past a call", "            push(done, (op.kind, held))\n",
     "            late = []\n            while done and done[-1][0] == FFI:\n                late.append(done.pop())\n"
     "            push(done, (op.kind, held))\n            done += late[::-1]\n"),
    ("a call goes to main", "        inside.append(op.record)\n    if c.room", "        (main if kind == FFI else inside).append(op.record)\n    if c.room"),
    ("a call does not count main as begun", "len(bodies) + (1 if main else 0)", "len(bodies) + (1 if any(r[4:6] != b'\\x15\\x01' for r in main) else 0)"),
]


def planted(readings):
    """Each of these wrong readings with the model that has it."""
    with open(os.path.join(HERE, "model01.py")) as f:
        source = f.read()
    for what, old, new in readings:
        if source.count(old) != 1:
            sys.exit("plant.py: the line for '%s' stands %d times in model01.py" % (what, source.count(old)))
        module = types.ModuleType("planted")
        exec(compile(source.replace(old, new), "planted", "exec"), module.__dict__)
        yield what, module


def finds(wrong, c, data):
    """Whether the case c, which is stored as data, finds the wrong reading."""
    try:
        c.answer = wrong.answer(c)
        return lists.write(c) != data
    except Exception:
        return True


def main(args):
    if args:
        sys.exit(__doc__)
    sys.setrecursionlimit(20000)
    cases = []
    for name in ("replay", "shapes"):
        with open(os.path.join(HERE, "..", "lists", name + ".list"), "rb") as f:
            cases += [(c, data) for data in lists.split(f.read()) for c in lists.read(data)]
    missed = 0
    for what, wrong in planted(READINGS + OF_COMMENTS + OF_MODES + OF_COUNTS + OF_CALLS):
        found = sum(finds(wrong, c, data) for c, data in cases)
        print("%5d  %s" % (found, what), flush=True)
        missed += not found
    sys.exit(1 if missed else 0)


if __name__ == "__main__":
    command.run(main)
