#!/usr/bin/env python3
"""Two sheets and the length of a lent one, and what comes of joining them by document 02, joining two stations' sheets.
sheet_vectors.py writes them to files; run alone, this file only makes and checks them, and prints how many there are.

The two sheets are read by sheet_model.py, and the joint one is put together line by line. That model has to read it as
both matrices on one diagonal with +0 beside them, and to write it of these. Joinings of three sheets have to give the
same bytes whichever two are joined first.
"""
import argparse
import collections
import itertools
import random
import sys

sys.dont_write_bytecode = True  # the imports below leave no file
import plain_vectors as plain
import sheet_model as sheets
from plain_vectors import ONE, SIGN, ZERO
from sheet_model import EXAMPLE, LONG, MOST_BYTES, SHORT, Outcome, length

MOST_LINES = 32
FORMS = list(itertools.product((SHORT, LONG), repeat=2))  # of the first and of the second
SMALL = [(2, 2), (2, 3), (3, 2), (3, 3)]  # orders

# Two sheets, and the length of the lent one.
Joining = collections.namedtuple("Joining", "first second sheet_size")


# The model.


def read(sheet):
    """What a sheet holds, or what it is refused by."""
    return sheets.read(sheets.whole_reading(sheet))


def join(case):
    first, second = read(case.first), read(case.second)
    for outcome in (first, second):
        if outcome.number:
            return outcome
    if set(first.codes) & set(second.codes):
        return Outcome(number=10)
    n, codes = first.n + second.n, first.codes + second.codes
    if n > MOST_LINES:
        return Outcome(number=1)
    width = sheets.width_for(codes)
    if case.sheet_size < length(n, width):
        return Outcome(number=7)
    sweeps, entries = max(first.sweeps, second.sweeps), joint_entries(case.first, case.second)
    return Outcome(sheet=sheets.put_together(width, sweeps, codes, entries))


def joint_entries(first, second):
    """The lines of the first, and then those of the second, each after a zero for every line of the first."""
    above, below = sheets.entries_of(first), sheets.entries_of(second)
    _, n, _ = sheets.head_of(first)
    _, m, _ = sheets.head_of(second)
    entries = list(above.values())
    for i in range(1, m + 1):
        entries += [ZERO] * n + [below[i, j] for j in range(1, i + 1)]
    return entries


def room(first, second):
    """The length of the joint sheet, by the first bytes."""
    (width, n, _), (other, m, _) = sheets.head_of(first), sheets.head_of(second)
    return length(n + m, max(width, other))


def whole_joining(first, second):
    """A joining that is lent as many bytes as the joint sheet has."""
    return Joining(first, second, room(first, second))


def joined(first, second):
    """The outcome where enough bytes are lent."""
    return join(Joining(first, second, MOST_BYTES))


def check_examples():
    """Document 01's example with a sheet of the long form and of odd order, by hand, and each with itself."""
    first, second = EXAMPLE, sheets.put_together(2, 3, [300, 8, 5], [ONE + k for k in range(6)])
    one, gap = "3FF0000000000000", "0000000000000000"
    a, b, c, d, e, f = ("%016X" % (ONE + k) for k in range(6))
    lines = [one, one + one, gap + gap + a, gap + gap + b + c, gap + gap + d + e + f]
    expected = bytes.fromhex("85 03 0007 0009 012C 0008 0005" + "".join(lines))
    assert joined(first, second) == Outcome(sheet=expected)
    lines = [a, b + c, d + e + f, 3 * gap + one, 3 * gap + one + one]
    expected = bytes.fromhex("85 03 012C 0008 0005 0007 0009" + "".join(lines))
    assert joined(second, first) == Outcome(sheet=expected)
    assert room(first, second) == len(expected) == 132
    other = sheets.with_codes(EXAMPLE, [8, 255])
    assert joined(first, other).sheet[:6] == bytes.fromhex("04 01 07 09 08 FF")
    assert joined(first, first).number == joined(second, second).number == 10


# Two sheets, each in its form and of its order.


def apart(rng, forms, orders):
    """Codes for two sheets, none of which is in both."""
    while True:
        codes, others = (form.codes(rng, n) for form, n in zip(forms, orders))
        if not set(codes) & set(others):
            return codes, others


def sheets_with(rng, forms, both_codes, kind):
    """Two sheets with these codes."""
    made = []
    for form, codes in zip(forms, both_codes):
        assert form.width == sheets.width_for(codes)
        entries = [kind(rng) for _ in sheets.stored_places(len(codes))]
        made.append(sheets.put_together(form.width, rng.randint(0, 16), codes, entries))
    return made


def some_sheets(rng, forms, orders, kind=sheets.mixed):
    """Two sheets that can be joined, but for their orders."""
    return sheets_with(rng, forms, apart(rng, forms, orders), kind)


def sharing_sheets(rng, forms, orders, k, other):
    """Two sheets of which the first's code at k is the second's at the other place. No other code is in both."""
    while True:
        codes, others = apart(rng, forms, orders)
        others[other] = codes[k]
        widths = sheets.width_for(codes), sheets.width_for(others)
        if widths == tuple(form.width for form in forms):
            return sheets_with(rng, forms, (codes, others), sheets.mixed)


def damaged(rng, sheet):
    """A sheet in every way that is refused, with the numbers. The last is refused at a place."""
    width, n, sweeps = sheets.head_of(sheet)
    codes = sheets.codes_of(sheet)
    yield 3, b""
    yield 3, sheet[:1]
    yield 1, bytes([128 * (width - 1) + rng.choice((0, 1, 33, 34, 127))]) + sheet[1:]
    yield 2, sheet[:1] + bytes([rng.choice((17, 128, 255))]) + sheet[2:]
    yield 3, sheet[:2]
    yield 3, sheet[:-1]
    yield 3, sheet + b"\0"
    yield 4, sheets.with_codes(sheet, sheets.zero_at(codes, rng.randrange(n)))
    yield 4, sheets.with_codes(sheet, sheets.repeated(codes, *rng.sample(range(n), 2)))
    yield 4, sheets.put_together(2, sweeps, SHORT.codes(rng, n), sheets.entries_of(sheet).values())
    yield 5, sheets.with_entries(sheet, {rng.choice(sheets.stored_places(n)): rng.choice(sheets.NOT_FINITE)})


# The joinings. Most come with the number of their refusal, or with None.


def good_joinings(rng):
    """Even and odd orders in all forms, with as many bytes as are asked for and with more."""
    kinds, more = itertools.cycle(sheets.KINDS), itertools.cycle((0, 1, 0, 7, 8, 100))
    small = [(forms, orders) for forms in FORMS for orders in itertools.product((2, 3, 4, 5), repeat=2)]
    large = [(rng.choice(FORMS), (n - m, m)) for n in range(9, MOST_LINES) for m in [rng.randint(2, n - 2)]]
    for forms, orders in small + large:
        case = whole_joining(*some_sheets(rng, forms, orders, next(kinds)))
        yield None, case._replace(sheet_size=case.sheet_size + next(more))


def kept_patterns(rng):
    """Both zeros, subnormal and large entries, one pattern to each sheet."""
    patterns = [sign + pattern for pattern in sheets.EDGES for sign in (ZERO, SIGN)]
    for k, pattern in enumerate(patterns):
        forms, orders, other = FORMS[k % 4], SMALL[k // 4 % 4], patterns[k - 5]
        first, second = some_sheets(rng, forms, orders)
        first = sheets.with_entries(first, dict.fromkeys(sheets.stored_places(orders[0]), pattern))
        second = sheets.with_entries(second, dict.fromkeys(sheets.stored_places(orders[1]), other))
        yield None, whole_joining(first, second)


def numbers_of_sweeps(rng):
    """The larger number in the first sheet, in the second and in both."""
    for k, (one, other) in enumerate(itertools.product((0, 1, 7, 15, 16), repeat=2)):
        first, second = some_sheets(rng, FORMS[k % 4], SMALL[k // 4 % 4])
        first, second = first[:1] + bytes([one]) + first[2:], second[:1] + bytes([other]) + second[2:]
        yield None, whole_joining(first, second)


# Codes that are not the same, but have the same bytes.
ALIKE = [
    ([1, 2], [256, 512]),
    ([7, 9], [0x0701, 0x0907]),
    ([0x0102, 5], [0x0201, 0x0205]),
    ([255, 254], [0xFFFF, 0xFFFE]),
    ([0x2C, 1], [0x012C, 0x2C01]),
    ([0x0100, 1], [0x0101, 0x0110]),
    ([255, 256], [257, 0xFF00]),
]


def codes_alike(rng):
    for codes, others in ALIKE + [(others, codes) for codes, others in ALIKE]:
        forms = [LONG if max(chosen) > 255 else SHORT for chosen in (codes, others)]
        yield None, whole_joining(*sheets_with(rng, forms, (codes, others), sheets.mixed))


def shared_codes(rng):
    """One code in both, in all places, and all of them: the same code in both forms too."""
    for forms in FORMS:
        for orders in [*SMALL, (4, 5)]:
            for k, other in itertools.product(*map(range, orders)):
                yield 10, whole_joining(*sharing_sheets(rng, forms, orders, k, other))
        yield 10, whole_joining(*sharing_sheets(rng, forms, (16, 16), 15, 15))
    for form in (SHORT, LONG):
        for n in (2, 5):
            sheet = sheets.some_sheet(rng, form, n, 1, sheets.mixed)
            yield 10, whole_joining(sheet, sheet)
            yield 10, whole_joining(sheet, sheets.with_codes(sheet, sheets.codes_of(sheet)[::-1]))


def orders_at_the_limit(rng):
    """Joint orders at the limit in all forms, and above it."""
    for forms, orders in itertools.product(FORMS, [(2, 30), (3, 29), (16, 16), (17, 15), (30, 2)]):
        yield None, whole_joining(*some_sheets(rng, forms, orders))
    above = [(2, 31), (31, 2), (16, 17), (17, 16), (3, 30), (32, 2), (2, 32), (32, 32)]
    for forms, orders in zip(itertools.cycle(FORMS), above):
        first, second = some_sheets(rng, forms, orders)
        for size in (0, length(2, 1)):
            yield 1, Joining(first, second, size)
    for size in (length(32, 2) - 1, length(32, 2), length(33, 2), MOST_BYTES):
        yield 1, Joining(*some_sheets(rng, (SHORT, LONG), (2, 31)), size)
    for forms, size in zip(FORMS, (0, 1, 40, 90)):
        yield 10, Joining(*sharing_sheets(rng, forms, (31, 2), rng.randrange(31), 1), size)
        yield 10, Joining(*sharing_sheets(rng, forms, (2, 31), 0, rng.randrange(31)), size)


def lent_lengths(rng):
    """Every length near that of the smallest, and some near those of others, with the lengths of both forms and of one line
    less; and too few bytes besides a code in both."""
    for forms in ((SHORT, SHORT), (LONG, SHORT)):
        first, second = some_sheets(rng, forms, (2, 2))
        whole = room(first, second)
        for size in range(whole + 10):
            yield 7 if size < whole else None, Joining(first, second, size)
    for forms, (n, m) in itertools.product(FORMS, [(2, 3), (5, 4)]):
        first, second = some_sheets(rng, forms, (n, m))
        whole, either = room(first, second), [length(n + m, width) for width in (1, 2)]
        for size in [0, 1, 2, length(n + m - 1, 2), whole - 8, whole - 1, whole + 1, whole + 300, *either]:
            yield 7 if size < whole else None, Joining(first, second, size)
        yield 10, Joining(*sharing_sheets(rng, forms, (n, m), 0, 1), whole - 1)
    for forms in FORMS:
        case = whole_joining(*some_sheets(rng, forms, (15, 17)))
        yield 7, case._replace(sheet_size=case.sheet_size - 1)
        yield None, case._replace(sheet_size=MOST_BYTES)


def one_damaged(rng):
    """Each damage of either sheet beside a whole one: with enough bytes, with too few, and with a code in both."""
    for forms, orders in zip(FORMS, SMALL):
        whole, sharing = some_sheets(rng, forms, orders), sharing_sheets(rng, forms, orders, 1, 0)
        for (first, second), size in [(whole, room(*whole)), (whole, 0), (sharing, 20)]:
            for number, sheet in damaged(rng, first):
                yield number, Joining(sheet, second, size)
            for number, sheet in damaged(rng, second):
                yield number, Joining(first, sheet, size)


def one_damaged_above_the_limit(rng):
    for forms in FORMS:
        first, second = some_sheets(rng, forms, (31, 2))
        for number, sheet in damaged(rng, second):
            yield number, Joining(first, sheet, 8)


def both_damaged(rng):
    """Each damage of the first with each of the second: the first's number counts."""
    for forms, orders in zip(FORMS, SMALL):
        first, second = some_sheets(rng, forms, orders)
        for number, one in damaged(rng, first):
            for _, other in damaged(rng, second):
                yield number, Joining(one, other, 24)


def refused_at(case, place):
    assert join(case) == Outcome(number=5, place=place), case
    return 5, case


def places_of_entries(rng):
    """Each place of either sheet, and two in both: the place is that in the sheet which is refused."""
    patterns = itertools.cycle(sheets.NOT_FINITE)
    for k, orders in enumerate([(2, 3), (3, 2), (4, 5), (5, 3)]):
        first, second = some_sheets(rng, FORMS[k], orders)
        spoiled_first, spoiled_second = (
            {place: sheets.with_entries(sheet, {place: next(patterns)}) for place in sheets.stored_places(n)}
            for sheet, n in zip((first, second), orders)
        )
        for place, sheet in spoiled_first.items():
            yield refused_at(Joining(sheet, second, 16), place)
        for place, sheet in spoiled_second.items():
            yield refused_at(Joining(first, sheet, 16), place)
        for place, other in zip(spoiled_first, reversed(spoiled_second)):
            yield refused_at(Joining(spoiled_first[place], spoiled_second[other], 16), place)


def flipped(rng):
    """Two sheets of order 2 with each of their bits changed."""
    first, second = sheets_with(rng, (SHORT, LONG), ([7, 9], [300, 8]), sheets.mixed)
    for whole, other in [(first, second), (second, first)]:
        for bit in range(8 * len(whole)):
            changed = (int.from_bytes(whole, "big") ^ 1 << bit).to_bytes(len(whole), "big")
            pair = (changed, other) if whole is first else (other, changed)
            yield Joining(*pair, length(4, 2))


def random_joinings(rng):
    """Any orders and forms; some with a code in both, with a damage of either sheet or of both, or with another length."""
    for _ in range(400):
        forms, orders = rng.choice(FORMS), (rng.randint(2, 7), rng.randint(2, 7))
        places = [rng.randrange(n) for n in orders]
        pair = sharing_sheets(rng, forms, orders, *places) if rng.random() < 0.1 else some_sheets(rng, forms, orders)
        size = room(*pair) + rng.choice((0, 0, 0, 1, 30, -1, rng.randint(-room(*pair), 50)))
        for side in (0, 1):
            if rng.random() < 0.15:
                pair[side] = rng.choice([sheet for _, sheet in damaged(rng, pair[side])])
        yield Joining(*pair, size)
    for _ in range(30):
        yield Joining(rng.randbytes(rng.randint(0, 60)), rng.randbytes(rng.randint(0, 60)), rng.randint(0, 90))


def joinings(rng):
    """All of them: those with the numbers of their refusals, and then those with none given."""
    groups = [
        good_joinings,
        kept_patterns,
        numbers_of_sweeps,
        codes_alike,
        shared_codes,
        orders_at_the_limit,
        lent_lengths,
        one_damaged,
        one_damaged_above_the_limit,
        both_damaged,
        places_of_entries,
    ]
    return sheets.held(join, groups, rng) + [*flipped(rng), *random_joinings(rng)]


# What is checked before anything is written.


def check_joining(case, outcome):
    """A joint sheet is read as both matrices and all codes in place, +0 elsewhere, and is written again of this."""
    assert max(len(case.first), len(case.second), case.sheet_size) <= MOST_BYTES
    if outcome.number is None:
        first, second, both = read(case.first), read(case.second), read(outcome.sheet)
        n, m = first.n, second.n
        rows = [first.matrix[n * i : n * i + n] + [ZERO] * m for i in range(n)]
        rows += [[ZERO] * n + second.matrix[m * i : m * i + m] for i in range(m)]
        sweeps, codes, matrix = max(first.sweeps, second.sweeps), first.codes + second.codes, sum(rows, [])
        assert both == Outcome(n=n + m, sweeps=sweeps, codes=codes, matrix=matrix), case
        assert sheets.write(sheets.whole_writing(n + m, sweeps, codes, matrix)) == outcome, case


def check_variety(made):
    """Every refusal is there, every joint order, odd or even with either, and every form with every form."""
    assert {outcome.number for _, outcome in made} == {None, 1, 2, 3, 4, 5, 7, 10}
    heads = [map(sheets.head_of, case[:2]) for case, outcome in made if outcome.number is None]
    found = [(width, n, other, m) for (width, n, _), (other, m, _) in heads]
    assert {n + m for _, n, _, m in found} == set(range(4, MOST_LINES + 1))
    assert len({(width, n % 2, other, m % 2) for width, n, other, m in found}) == 16


def check_triples(rng):
    """Three sheets give the same bytes or the same refusal, whichever two are joined first, where these two are joined."""
    numbers = []
    for _ in range(1000):
        first, second, third = (
            sheets.some_sheet(rng, rng.choice((SHORT, LONG)), rng.randint(2, 14), rng.randint(0, 16), sheets.mixed)
            for _ in range(3)
        )
        early, late = joined(first, second), joined(second, third)
        if early.number is None and late.number is None:
            outcome = joined(early.sheet, third)
            assert outcome == joined(first, late.sheet)
            numbers.append(outcome.number)
    assert set(numbers) == {None, 1, 10}
    print(f"{len(numbers)} joinings of three by the number of the refusal: {sheets.told(numbers)}")


# The files.


def joining_lines(case, outcome, byte):
    """The lines of a joining and of its answer, for a lent sheet that is filled so."""
    head = [sheets.JOIN, len(case.first), len(case.second), case.sheet_size, byte]
    words = head + sheets.packed(case.first) + sheets.packed(case.second)
    return plain.lines_of(words), sheets.written_lines(outcome, case.sheet_size, byte)


def all_lines():
    """The lines of each case and of its answer."""
    check_examples()
    check_triples(random.Random(11))
    made = [(case, join(case)) for case in joinings(random.Random(10))]
    for case, outcome in made:
        check_joining(case, outcome)
    check_variety(made)
    print(f"{len(made)} joinings by the number of the refusal: {sheets.told([outcome.number for _, outcome in made])}")
    return [joining_lines(*one, k % 256) for k, one in enumerate(made)]


def main():
    argparse.ArgumentParser(description=__doc__.split("\n\n")[0], epilog="It takes no arguments.").parse_args()
    all_lines()


if __name__ == "__main__":
    main()
