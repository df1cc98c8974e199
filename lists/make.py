#!/usr/bin/env python3
"""Makes lists/replay.list and lists/shapes.list. Each case is put to the Rust first, and none is stored that is not settled.

    make.py             writes the lists, the same at each run
    make.py --check     says which of them is not what is made here, and writes nothing

RUST_SRC is the folder that holds the Rust's src/ (compare/README.md).
"""
import itertools
import pathlib
import sys

HERE = pathlib.Path(__file__).resolve().parent
sys.path[:0] = [str(HERE.parent / "tools"), str(HERE.parent / "compare")]
import command  # noqa: E402
import expect  # noqa: E402
import generate  # noqa: E402
import lists  # noqa: E402
import model01  # noqa: E402
import plant  # noqa: E402

# of every style of random case so many, none of more bytes than this; full stacks are longer
STYLES = {"soup": 130, "bracketed": 150, "checked": 170, "soup floats": 60, "bracketed floats": 60, "checked floats": 80, "mid-state": 260, "step": 60,
          "boundary": 80, "no state": 50, "short tape": 20, "lent room": 10, "lent cells not zero": 6, "file": 60, "check": 60}
LONG = 812
FULL = 2612
# every number of the paper's table, each at least so often
NUMBERS = [0, *range(1, 14), *range(20, 31), *range(32, 38), 40, 50]
OFTEN = 3
# cases for each wrong reading
TELLING = 6
# random runs with comments; and of the call mode, where the first two styles are pairs of one run in both modes
ANNOTATED = {"annotated": 100}
MODES = {"routines": 70, "every mark": 24, "by mark": 50, "no mode": 10}
# of the counts
COUNTS = {"near the most": 60, "miscounted": 60}
# of calls through the channel, and joinings and flattenings of random patches with them
CHANNEL = {"channel": 150}
CALLED = 20
# joinings and flattenings that are written
SHAPES = 330
WIDE = 900


def settled(judge, cases):
    """The cases, without a copy of any, that the Rust has no objection to, with what it says."""
    cases = list(cases)
    data = [lists.write(c) for c in generate.answered(cases)]
    seen = set()
    for c, bytes_, told in zip(cases, data, expect.judged(judge, b"".join(data))):
        if expect.name(*told[:4]) is None:
            sys.exit("lists/make.py: the judge says %s: %s" % (told[2], lists.show(c)))
        if bytes_ not in seen:
            seen.add(bytes_)
            yield c, bytes_, told[2]


def size(c, data):
    """The bytes of a case beside its counts and totals, which do not decide whether it is short."""
    if c.sort not in lists.RUNS:
        return len(data)
    held = sum(map(bool, c.counts)) + sum(map(bool, c.answer.counts))
    return len(data) - 12 - 12 * held - 8 * (2 if c.sort in lists.FROM_STATE else 1)


def style(c):
    if c.sort in (lists.JOIN, lists.FLATTEN):
        return "shape"
    if c.sort == lists.CHECK:
        return "check"
    return "file" if 1 <= c.answer.number <= 9 and not c.style else c.style


def replay_list(judge):
    kept, numbers, kinds, styles = {}, {}, {}, {}

    def keep(c, data):
        if data in kept:
            return
        kept[data] = True
        numbers[c.answer.number] = numbers.get(c.answer.number, 0) + 1
        number, _, ops = model01.read_patch(c.patch)
        for kind in {o.kind for o in ops or []}:
            kinds[kind] = kinds.get(kind, 0) + 1

    for c, data, _ in settled(judge, itertools.chain(generate.paper(), (c for _, _, c in generate.smallest()))):
        keep(c, data)
    # of the limits: every third of the short cases, some with full stacks, and what the rarer numbers need
    edges = [(c, data) for c, data, _ in settled(judge, generate.boundary())]
    for i, (c, data) in enumerate(edges):
        if i % 3 == 0 and size(c, data) < LONG or i % 9 == 0 and size(c, data) < FULL:
            keep(c, data)
    # the longest files that are accepted
    for c, data in edges:
        if c.sort == lists.CHECK and c.answer.number == 0 and (len(c.patch) == 65536 or c.answer.place == 4096):
            keep(c, data)
    # routines opened in both orders, and the table that is full
    for c, data, _ in settled(judge, generate.openings()):
        keep(c, data)
    # lengths around the first allocation, by a run and by a step
    for c, data, _ in settled(judge, generate.lengths()):
        keep(c, data)
    for c, data, _ in settled(judge, generate.randoms(2026, 16_000)):
        s = style(c)
        if size(c, data) < (FULL if s == "boundary" else LONG) and styles.get(s, 0) < STYLES.get(s, 0):
            styles[s] = styles.get(s, 0) + 1
            keep(c, data)
    randoms = [(c, data) for c, data, _ in settled(judge, generate.randoms(2028, 3000)) if size(c, data) < FULL]

    def tell(readings, pool):
        """Each wrong reading of plant.py is found by some cases, if need be of these."""
        for _, wrong in plant.planted(readings):
            found = sum(plant.finds(wrong, next(lists.read(data)), data) for data in kept)
            for c, data in pool:
                if found >= TELLING:
                    break
                if size(c, data) < FULL and data not in kept and plant.finds(wrong, next(lists.read(data)), data):
                    keep(c, data)
                    found += 1

    def sample(seed, count, wanted):
        """Of random cases so many of these styles."""
        left = dict(wanted)
        for c, data, _ in settled(judge, (c for c in generate.randoms(seed, count) if c.style in wanted)):
            if size(c, data) < LONG and left[c.style]:
                left[c.style] -= 1
                keep(c, data)
        if any(left.values()):
            sys.exit("lists/make.py: too few of a style: %s" % left)

    first = [(c, data) for c, data in randoms if c.style not in CHANNEL]
    before = edges + [(c, data) for c, data in first if c.style not in COUNTS]
    tell(plant.READINGS, before)
    for number in NUMBERS:
        for c, data in edges:
            if c.answer.number == number and numbers.get(number, 0) < OFTEN:
                keep(c, data)
    # which lane was missing
    for c, data, _ in settled(judge, generate.missing()):
        keep(c, data)
    # comments, and random runs with them
    for c, data, _ in settled(judge, generate.comments()):
        keep(c, data)
    sample(2029, 3000, ANNOTATED)
    tell(plant.OF_COMMENTS, before)
    # calls by mark, and random runs in both modes and in modes that there are not
    for c, data, _ in settled(judge, generate.calls()):
        keep(c, data)
    sample(2030, 3000, MODES)
    tell(plant.OF_MODES, before)
    # the counts and the step total, and random runs near the greatest total or with counts that are no state's
    for c, data, _ in settled(judge, generate.tallies()):
        keep(c, data)
    sample(2031, 4500, COUNTS)
    tell(plant.OF_COUNTS, first)
    # calls through the channel, and random runs with them
    for c, data, _ in settled(judge, generate.through()):
        keep(c, data)
    sample(2032, 2400, CHANNEL)
    tell(plant.OF_CALLS, randoms)
    for number in NUMBERS:
        if numbers.get(number, 0) < OFTEN:
            sys.exit("lists/make.py: number %d is met %d times" % (number, numbers.get(number, 0)))
    for s, wanted in STYLES.items():
        if styles.get(s, 0) < wanted:
            sys.exit("lists/make.py: only %d of style %s" % (styles.get(s, 0), s))
    for kind in generate.CARRIED:
        if kinds.get(kind, 0) < 10:
            sys.exit("lists/make.py: kind %d is met %d times" % (kind, kinds.get(kind, 0)))
    return list(kept)


def shapes_list(judge):
    """Joinings and flattenings: the paper's, short ones, and random ones."""
    kept, written = [], {lists.JOIN: 0, lists.FLATTEN: 0}
    maker = generate.Maker(2027)

    def randoms():
        for _ in range(3000):
            for data in (maker.shape(), maker.nested(), b"".join(maker.ops()[0])):
                if data:
                    yield generate.joining(data, maker.room(data), maker.r.randrange(256))
                    bodies = generate.marks(data) + maker.r.choice([0, 0, 0, 1, 4])
                    yield generate.flattening(data, maker.room(data), bodies, maker.r.randrange(256))

    pairs = (b"".join(p) for p in itertools.product(generate.ALPHABET, repeat=2))
    short = itertools.islice((call(p) for p in pairs for call in (generate.joining, generate.flattening)), 0, None, 37)
    changed = {lists.JOIN: 0, lists.FLATTEN: 0}
    refused = 0
    for c, data, _ in settled(judge, itertools.chain(generate.paper(), short, randoms())):
        if c.sort not in written or len(data) > WIDE:
            continue
        if c.answer.number:
            refused += 1
            if refused <= 60:
                kept.append(data)
            continue
        # three of four show something: a result that is not the file itself
        moved = c.answer.written != c.patch
        if written[c.sort] < SHAPES and (moved or written[c.sort] - changed[c.sort] < SHAPES // 4):
            written[c.sort] += 1
            changed[c.sort] += moved
            kept.append(data)
    if min(written.values()) < SHAPES:
        sys.exit("lists/make.py: too few shapes")
    # with calls through the channel
    kept += [data for _, data, _ in settled(judge, generate.apart())]
    left = {lists.JOIN: CALLED, lists.FLATTEN: CALLED}
    for c, data, _ in settled(judge, (c for c in generate.piped(2033, 3000) if c.sort in left)):
        if left[c.sort] and len(data) < WIDE and c.answer.number == 0 and c.answer.written != c.patch:
            left[c.sort] -= 1
            kept.append(data)
    if any(left.values()):
        sys.exit("lists/make.py: too few shapes with calls: %s" % left)
    return kept


def main(args):
    if args not in ([], ["--check"]):
        sys.exit(__doc__)
    judge = expect.build()
    kept = {"replay.list": replay_list(judge), "shapes.list": shapes_list(judge)}
    words = "\n".join("lists/%s: %d cases, %d bytes" % (name, len(cases), sum(map(len, cases))) for name, cases in kept.items())
    return command.keep(HERE, {name: b"".join(cases) for name, cases in kept.items()}, args, words)


if __name__ == "__main__":
    command.run(main)
