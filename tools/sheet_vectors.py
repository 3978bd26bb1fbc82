#!/usr/bin/env python3
"""Writes crates/test_sheets/stdin and crates/test_sheets/stdout: sheets to be read, matrices to be written as sheets, and
sheets to be joined, and what comes of them by document 01, "A sheet" and "Refused, by place", and document 02,
line codes above 255, odd orders and joining two stations' sheets.

All input, and all output but refusals, is words of 16 hexadecimal digits in capital letters, one to a line.
Values are their patterns, one to a word, and codes are one to a word, in its lowest 16 bits. The bytes of a
sheet are packed eight to a word, the first in the highest byte, and the last word is filled up with zero
bytes; where there are no bytes there is no word. A case begins with a word for its kind.

0, a reading: the lengths of the sheet, of the lent codes and of the lent matrix, the code that the codes are
   filled with before the call, the pattern that the matrix is filled with, and the bytes of the sheet. The
   answer is n and the sweeps, or the refusal, and in both cases the codes and the values of the matrix after
   the call.
1, a writing: n, the sweeps, the lengths of the codes, of the matrix and of the lent sheet, the byte that the
   sheet is filled with before the call, the codes and the values of the matrix. The answer is the number of
   bytes that were written, or the refusal, and in both cases the bytes of the lent sheet after the call.
2, a joining: the lengths of the first sheet, of the second and of the lent one, the byte that this is filled with
   before the call, the bytes of the first and the bytes of the second, each from a new word on. The answer is that of a
   writing.

Lengths count codes, values of a matrix, and bytes of a sheet. None is above 40 for codes, 1,156 for a matrix
and 4,900 for a sheet. A byte to fill with is the lowest of its word, a code the lowest 16 bits. No matrix is
filled with another NaN than 7FF8000000000000. A refusal is a line "refused" with its number and, where it has
a place, a line "row" and a line "column", each with a space and the figure in decimal.

The model is that of sheet_model.py. The cases of sheets with codes of one byte come first, then the same groups with
codes of two bytes, then what only two forms bring about, all of even orders, and then odd orders in both forms. The
joinings, of join_vectors.py, come last.
"""
import argparse
import itertools
import pathlib
import random
import sys

sys.dont_write_bytecode = True  # the imports below leave no file
import join_vectors as joinings
import plain_vectors as plain
from plain_vectors import INFINITY, LAST, NAN, ONE, SIGN, ZERO
from sheet_model import EXAMPLE, KINDS, LONG, LONG_EXAMPLE, MOST_BYTES, MOST_CODES, MOST_VALUES, NOT_FINITE, READ, SHORT, WRITE
from sheet_model import Outcome, Reading, Writing, any_finite, codes_of, faulty_codes, held, length, long_codes, mixed, ordinary
from sheet_model import packed, put_together, read, refusal_lines, repeated, short_codes, some_matrix, some_sheet, stored_places
from sheet_model import told, whole_reading, whole_writing, width_for, with_codes, with_entries, write, written_lines, zero_at


# What the model is held to.


def check_examples():
    """What document 01 says of its example, of lengths, and in "Entries to try" of sheets."""
    assert EXAMPLE == bytes.fromhex("02 01 07 09" + 3 * "3FF0000000000000")
    accepted = Outcome(n=2, sweeps=1, codes=[7, 9], matrix=[ONE] * 4)
    assert read(whole_reading(EXAMPLE)) == accepted
    assert write(Writing(2, 1, [7, 9], [ONE] * 4, 28)).sheet == EXAMPLE
    assert len(EXAMPLE) == length(2, 1) == 28 and length(32, 1) == 4258
    for n, number in [(0, 1), (1, 1), (3, 3), (33, 1), (34, 1)]:
        assert read(whole_reading(bytes([n]) + EXAMPLE[1:])).number == number
    for sweeps, number in [(16, None), (17, 2)]:
        assert read(whole_reading(bytes([2, sweeps]) + EXAMPLE[2:])).number == number
    for sheet in (EXAMPLE[:27], EXAMPLE + b"\0"):
        assert read(whole_reading(sheet)).number == 3


def check_long_examples():
    """What document 02 says of the long form."""
    assert LONG_EXAMPLE == bytes.fromhex("82 01 012C 0007" + 3 * "3FF0000000000000")
    accepted = Outcome(n=2, sweeps=1, codes=[300, 7], matrix=[ONE] * 4)
    assert read(whole_reading(LONG_EXAMPLE)) == accepted
    assert write(Writing(2, 1, [300, 7], [ONE] * 4, 30)).sheet == LONG_EXAMPLE
    assert all(length(n, 2) == length(n, 1) + n for n in range(128))
    small = bytes([0x82, 1, 0, 9, 0, 7]) + LONG_EXAMPLE[6:]
    assert read(whole_reading(small)).number == 4
    for first, number in [(128, 1), (129, 1), (131, 3), (161, 1), (255, 1)]:
        assert read(whole_reading(bytes([first]) + LONG_EXAMPLE[1:])).number == number
    for sheet in (LONG_EXAMPLE[:29], LONG_EXAMPLE + b"\0", b"\2" + LONG_EXAMPLE[1:], b"\x82" + EXAMPLE[1:]):
        assert read(whole_reading(sheet)).number == 3


def check_odd_examples():
    """What document 02 says of odd orders: lengths keep their formulas."""
    entries = [ONE + k for k in range(6)]
    a, b, c, d, e, f = entries
    matrix = [a, b, d, b, c, e, d, e, f]
    for width, codes, head in [(1, [7, 8, 9], "03 01 07 08 09"), (2, [300, 8, 9], "83 01 012C 0008 0009")]:
        sheet = put_together(width, 1, codes, entries)
        assert sheet == bytes.fromhex(head) + b"".join(pattern.to_bytes(8, "big") for pattern in entries)
        assert len(sheet) == length(3, width) == 50 + 3 * width
        assert read(whole_reading(sheet)) == Outcome(n=3, sweeps=1, codes=codes, matrix=matrix)
        assert write(whole_writing(3, 1, codes, matrix)).sheet == sheet


# What readings and writings share.


def sizes():
    """Orders, sweeps and kinds of entries: in small orders all numbers of sweeps."""
    k = 0
    for n in range(2, 33, 2):
        for _ in range(17 if n <= 8 else 3 if n <= 16 else 1):
            yield n, k % 17, KINDS[k % len(KINDS)]
            k += 1
    yield 32, 16, any_finite


def bad_codes(rng, form):
    """Codes with a zero and codes with two alike: in small orders in all places, in others in some; and some
    with more than one fault."""
    for n in (2, 4, 6):
        for k in range(n):
            yield zero_at(form.codes(rng, n), k)
        for k, other in itertools.combinations(range(n), 2):
            yield repeated(form.codes(rng, n), k, other)
    for k in (0, 8, 15):
        yield zero_at(form.codes(rng, 16), k)
    for k, other in [(0, 1), (0, 15), (7, 9), (14, 15)]:
        yield repeated(form.codes(rng, 16), k, other)
    yield repeated(form.codes(rng, 32), 0, 31)
    above = form.above
    yield [0] * 2
    yield [0] * 8
    yield [256**form.width - 1] * 8
    yield [above + 1, 0, above + 2, 0]
    yield [above + 5, above + 6, above + 6, above + 5]
    yield [above + 9, above + 9, 0, above + 1]


# The readings. Most come with the number of their refusal, or with None.


def good_readings(rng, form):
    for n, sweeps, kind in sizes():
        yield None, whole_reading(some_sheet(rng, form, n, sweeps, kind))


def changed_heads(rng, form):
    """Sheets of order 2 with every first byte, and with every second byte."""
    for byte in range(256):
        sheet = some_sheet(rng, form, 2, rng.randint(0, 16), mixed)
        number = 1 if byte % 128 not in range(2, 33) else 3 if byte != form.mark + 2 else None
        yield number, Reading(bytes([byte]) + sheet[1:], 2, 4)
    for byte in range(256):
        sheet = some_sheet(rng, form, 2, 0, mixed)
        yield 2 if byte > 16 else None, Reading(bytes([form.mark + 2, byte]) + sheet[2:], 2, 4)


def cut_and_lengthened(rng, form):
    """A sheet of order 2 in every length near its own, and others in some."""
    sheet = some_sheet(rng, form, 2, 16, any_finite) + rng.randbytes(20)
    for size in range(len(sheet) + 1):
        yield None if size == length(2, form.width) else 3, Reading(sheet[:size], 2, 4)
    for n in (4, 8):
        whole = length(n, form.width)
        for size in (0, 1, 2, 2 + form.width * n, whole - 8 * n, whole - 8, whole - 1, whole + 1, whole + 8):
            sheet = some_sheet(rng, form, n, rng.randint(0, 16), mixed) + bytes(8)
            yield 3, Reading(sheet[:size], n, n * n)
    for sheet in (some_sheet(rng, form, 32, 16, mixed)[:-1], some_sheet(rng, form, 32, 0, mixed) + b"\n"):
        yield 3, Reading(sheet, 32, 1024)
    for n, other in [(2, 4), (4, 2), (16, 32), (32, 30)]:
        sheet = some_sheet(rng, form, n, 1, ordinary)
        yield 3, Reading(bytes([form.mark + other]) + sheet[1:], other, other * other)


def wrong_lent(rng, form):
    """Lent codes and matrices too short, too long and empty, one or both."""
    for n in (2, 4, 8):
        right = n, n * n
        wrong_codes = [(size, n * n) for size in (n - 1, n + 1, 0)]
        wrong_matrix = [(n, size) for size in (n * n - 1, n * n + 1, 0, n * (n + 1) // 2)]
        both = [(0, 0), (n + 1, n * n - 1), (n - 1, n * n + 1), (n + 2, (n + 2) ** 2)]
        for lent in [right, *wrong_codes, *wrong_matrix, *both]:
            sheet = some_sheet(rng, form, n, rng.randint(0, 16), mixed)
            yield None if lent == right else 3, Reading(sheet, *lent)
    yield 3, Reading(some_sheet(rng, form, 32, 16, any_finite), 32, 1025)


def readings_of_bad_codes(rng, form):
    for codes in bad_codes(rng, form):
        n = len(codes)
        sheet = some_sheet(rng, form, n, rng.randint(0, 16), mixed)
        yield 4, whole_reading(with_codes(sheet, codes))


def refused_at(rng, form, n, changes):
    """A reading of a sheet with patterns that are not finite at some places. It is refused for the first of
    these, and places compare in row order."""
    case = whole_reading(with_entries(some_sheet(rng, form, n, rng.randint(0, 16), mixed), changes))
    assert read(case) == Outcome(number=5, place=min(changes))
    return 5, case


def bad_entries(rng, form):
    """Each pattern in each place of order 2, one in each place of other orders, and several at once."""
    for pattern in NOT_FINITE:
        for place in stored_places(2):
            yield refused_at(rng, form, 2, {place: pattern})
    patterns = itertools.cycle(NOT_FINITE)
    for n in (4, 6):
        for place in stored_places(n):
            yield refused_at(rng, form, n, {place: next(patterns)})
    for n, place in [(16, (1, 1)), (16, (9, 5)), (16, (16, 1)), (16, (16, 15)), (32, (32, 32))]:
        yield refused_at(rng, form, n, {place: next(patterns)})
    for two in itertools.combinations(stored_places(4), 2):
        yield refused_at(rng, form, 4, {place: next(patterns) for place in two})
    for n in (2, 6):
        yield refused_at(rng, form, n, {place: next(patterns) for place in stored_places(n)})


def faulty_reading(rng, form, n, numbers):
    """A reading of order n with each of these reasons to be refused, at random places."""
    sheet = some_sheet(rng, form, n, rng.randint(0, 16), mixed)
    if 5 in numbers:
        sheet = with_entries(sheet, {rng.choice(stored_places(n)): rng.choice(NOT_FINITE)})
    if 4 in numbers:
        sheet = with_codes(sheet, faulty_codes(rng, codes_of(sheet)))
    if 2 in numbers:
        sheet = sheet[:1] + bytes([rng.randint(17, 255)]) + sheet[2:]
    if 1 in numbers:
        sheet = bytes([rng.choice(form.first_bytes)]) + sheet[1:]
    case = Reading(sheet, n, n * n)
    if 3 in numbers:
        cut, longer = sheet[: rng.randint(2, len(sheet) - 1)], sheet + rng.randbytes(rng.randint(1, 9))
        wrong = [{"sheet": cut}, {"sheet": longer}]
        wrong += [{"codes_size": size} for size in (0, n - 1, n + 1)]
        wrong += [{"matrix_size": size} for size in (0, n * n - 1, n * n + 1)]
        case = case._replace(**rng.choice(wrong))
    return case


def sets_of(numbers):
    """All sets of these numbers but the empty one."""
    counts = range(1, len(numbers) + 1)
    return [chosen for count in counts for chosen in itertools.combinations(numbers, count)]


def least_reason(numbers, case):
    """The number that a reading with these reasons is refused by. 132 is order 4, in the long form: not a
    wrong order, but one whose sheets have another length."""
    if case.sheet[0] == 132 and 1 in numbers:
        return min({3, *numbers} - {1})
    return min(numbers)


def readings_with_several(rng, form):
    """Every set of reasons, four times, of which the least number counts; and heads that are too short to
    show an order."""
    for numbers in sets_of(range(1, 6)) * 4:
        case = faulty_reading(rng, form, 4, numbers)
        yield least_reason(numbers, case), case
    for sheet in (b"", bytes([0]), bytes([2]), bytes([3]), bytes([255])):
        for lent in [(0, 0), (2, 4), (3, 5)]:
            yield 3, Reading(sheet, *lent)


def flipped(example):
    """An example with each of its bits changed."""
    for bit in range(8 * len(example)):
        number = int.from_bytes(example, "big") ^ 1 << bit
        yield Reading(number.to_bytes(len(example), "big"), 2, 4)


def random_bytes(rng, form):
    """Bytes of any kind in many lengths, some of them with a head and the length for it, and some of these
    with codes and with bytes that are often those of an infinity or a NaN."""
    for _ in range(60):
        yield Reading(rng.randbytes(rng.randint(0, 70)), rng.randint(0, 3), rng.randint(3, 5))
    longest = length(32, form.width)
    for size in (100, 500, 1000, longest - 1, longest, longest + 1, form.most):
        yield Reading(rng.randbytes(size), 2, 4)
    for k in range(30):
        n = 2 + 2 * (k % 5)
        head = bytes([form.mark + n, rng.randint(0, 16)])
        yield whole_reading(head + rng.randbytes(length(n, form.width) - 2))
    for k in range(60):
        n = 2 + 2 * (k % 3)
        head = put_together(form.width, rng.randint(0, 16), form.codes(rng, n), [])
        rest = rng.choices((0x00, 0x7F, 0x80, 0xEF, 0xF0, 0xF8, 0xFF), k=length(n, form.width) - len(head))
        yield whole_reading(head + bytes(rest))


def readings(rng, form, example):
    """The readings of a form with the numbers of their refusals, and then those with none given."""
    groups = [
        good_readings,
        changed_heads,
        cut_and_lengthened,
        wrong_lent,
        readings_of_bad_codes,
        bad_entries,
        readings_with_several,
    ]
    cases = [whole_reading(example), *held(read, groups, rng, form)]
    return cases + [*flipped(example), *random_bytes(rng, form)]


# The writings. All come with the number of their refusal, or with None.


def good_writings(rng, form):
    """Lent sheets of the exact length and longer ones."""
    for k, (n, sweeps, kind) in enumerate(sizes()):
        longer = (0, 1, 0, 7, 8, 100)[k % 6]
        case = whole_writing(n, sweeps, form.codes(rng, n), some_matrix(rng, n, kind))
        yield None, case._replace(sheet_size=length(n, form.width) + longer)


def refused_orders(rng, form):
    """Some with all lengths for their order or for another, and some with those for 2, 4 and 0. For some the lowest
    byte is an order that would be accepted, and for some the length of a sheet is small as a word."""
    for n, m in [(0, 0), (1, 1), (33, 3), (35, 5), (33, 33), (34, 34)]:
        codes, matrix = form.codes(rng, m), some_matrix(rng, m, mixed)
        yield 1, whole_writing(m, 1, codes, matrix)._replace(n=n)
    others = [63, 36, 255, 256, 258, 260, 1 << 16, 1 << 32, (1 << 32) + 2, 1 << 62, 1 << 63, (1 << 63) + 2]
    for n in others + [LAST - 3, LAST - 1, LAST]:
        for m in (2, 4):
            codes, matrix = form.codes(rng, m), some_matrix(rng, m, mixed)
            yield 1, Writing(n, rng.randint(0, 16), codes, matrix, length(m, form.width))
        yield 1, Writing(n, 1, [], [], min(length(n, form.width) % (LAST + 1), 40))


def refused_numbers_of_sweeps(rng, form):
    for sweeps in [17, 18, 32, 255, 256, 257, 272, 1 << 32, (1 << 32) + 1, 1 << 63, LAST - 15, LAST]:
        for n in (2, 4):
            yield 2, whole_writing(n, sweeps, form.codes(rng, n), some_matrix(rng, n, mixed))


def refused_lengths(rng, form):
    """Codes and matrices too short, too long and empty, one or both."""
    for n in (2, 4, 8):
        wrong_codes = [(size, n * n) for size in (n - 1, n + 1, 0)]
        wrong_matrix = [(n, size) for size in (n * n - 1, n * n + 1, 0, n * (n + 1) // 2)]
        both = [(0, 0), (n + 1, n * n - 1), (n - 1, n * n + 1), (n + 2, (n + 2) ** 2), (n - 1, (n - 1) ** 2)]
        for codes_size, matrix_size in wrong_codes + wrong_matrix + both:
            codes, matrix = form.codes(rng, n + 2), some_matrix(rng, n + 2, mixed)
            yield 3, Writing(n, 1, codes[:codes_size], matrix[:matrix_size], length(n, form.width))
    yield 3, Writing(32, 16, form.codes(rng, 33), some_matrix(rng, 32, mixed), length(32, form.width))


def writings_of_bad_codes(rng, form):
    for codes in bad_codes(rng, form):
        n = len(codes)
        yield 4, whole_writing(n, rng.randint(0, 16), codes, some_matrix(rng, n, mixed))


def refused_matrices(rng, form):
    """Those of plain_vectors.py with entries that are not finite, and with entries that are not mirrored."""
    for number, group in [(5, plain.refused_values), (6, plain.refused_mirrors)]:
        for run in group(rng):
            yield number, whole_writing(run.n, run.sweeps, form.codes(rng, run.n), run.matrix)


def refused_sheets(rng, form):
    """Every length near that for order 2, and some for other orders."""
    for size in range(45):
        case = whole_writing(2, rng.randint(0, 16), form.codes(rng, 2), some_matrix(rng, 2, mixed))
        yield 7 if size < length(2, form.width) else None, case._replace(sheet_size=size)
    for n in (4, 8):
        whole = length(n, form.width)
        for size in (0, 1, 2, 2 + form.width * n, whole - 8 * n, whole - 8, whole - 1):
            case = whole_writing(n, rng.randint(0, 16), form.codes(rng, n), some_matrix(rng, n, mixed))
            yield 7, case._replace(sheet_size=size)
    case = whole_writing(32, 16, form.codes(rng, 32), some_matrix(rng, 32, mixed))
    for size in (length(32, form.width) - 1, form.most):
        yield 7 if size < length(32, form.width) else None, case._replace(sheet_size=size)


def faulty_writing(rng, form, n, numbers):
    """A writing of order n with each of these reasons to be refused, at random places."""
    sweeps, codes, matrix = rng.randint(0, 16), form.codes(rng, n), some_matrix(rng, n, mixed)
    whole = length(n, form.width)
    sheet_size = whole + rng.choice((0, 0, 3))
    i, j = rng.sample(range(n), 2)
    if 6 in numbers:
        matrix[n * i + j] = matrix[n * j + i] ^ 1 << rng.choice((0, 31, 51, 63))
    if 5 in numbers:
        matrix[n * rng.randrange(n) + rng.choice((i, j))] = rng.choice(NOT_FINITE)
    if 4 in numbers:
        codes = faulty_codes(rng, codes)
    if 3 in numbers:
        values = n * n
        lengths = [(n, values - 1), (n, values + 1), (n - 1, values), (n + 1, values), (n, 0), (0, values)]
        codes_size, matrix_size = rng.choice(lengths)
        codes, matrix = (codes + [*rng.randbytes(1)])[:codes_size], (matrix + [ONE])[:matrix_size]
    if 2 in numbers:
        sweeps = rng.choice((17, 256, LAST, rng.randint(18, LAST)))
    if 1 in numbers:
        n = rng.choice((0, 1, 33, 34, 260, LAST, LAST - 1, rng.randint(33, LAST)))
    if 7 in numbers:
        sheet_size = rng.choice((0, 1, 2, whole - 1, rng.randrange(whole)))
    return Writing(n, sweeps, codes, matrix, sheet_size)


def writings_with_several(rng, form):
    """Every set of reasons, of which the least number counts."""
    for numbers in sets_of(range(1, 8)) * 2:
        yield min(numbers), faulty_writing(rng, form, 4, numbers)


def writings(rng, form, codes):
    """The writings of a form, and first that of the example with these codes."""
    groups = [
        good_writings,
        refused_orders,
        refused_numbers_of_sweeps,
        refused_lengths,
        writings_of_bad_codes,
        refused_matrices,
        refused_sheets,
        writings_with_several,
    ]
    return [whole_writing(2, 1, codes, [ONE] * 4), *held(write, groups, rng, form)]


# What only two forms bring about. All come with the number of their refusal, or with None.

CODE_EDGES = [1, 254, 255, 256, 257, 511, 512, 0x7FFF, 0x8000, 0xFEFF, 0xFF00, 0xFFFE, 0xFFFF]


def beside(rng, n, k, code):
    """Small codes, none of them 255, with this one at k."""
    codes = rng.sample(range(1, 255), n)
    return codes[:k] + [code] + codes[k + 1 :]


def edge_codes(rng):
    """Two codes from both sides of each edge, and one code at the edge beside small ones."""
    yield from map(list, itertools.permutations(CODE_EDGES, 2))
    for n in (2, 4, 8):
        for k in range(n):
            for code in (255, 256, 65535):
                yield beside(rng, n, k, code)
    yield beside(rng, 32, 0, 256)
    yield beside(rng, 32, 31, 256)
    yield beside(rng, 32, 31, 255)


def edge_readings(rng):
    """Each of them in the long form, and in the short one where they fit."""
    for codes in edge_codes(rng):
        entries = [mixed(rng) for _ in stored_places(len(codes))]
        sheet = put_together(2, rng.randint(0, 16), codes, entries)
        yield 4 if width_for(codes) == 1 else None, whole_reading(sheet)
        if width_for(codes) == 1:
            yield None, whole_reading(put_together(1, sheet[1], codes, entries))


def long_without_need(rng):
    """All codes small in the long form: alone, with a zero, with a repeat, with an entry that is not finite;
    and with what is tested before the codes."""
    for n in (2, 4, 6, 8, 16, 32):
        codes = short_codes(rng, n)
        sheet = put_together(2, rng.randint(0, 16), codes, [mixed(rng) for _ in stored_places(n)])
        spoiled = with_entries(sheet, {rng.choice(stored_places(n)): rng.choice(NOT_FINITE)})
        yield 4, whole_reading(sheet)
        yield 4, whole_reading(with_codes(sheet, zero_at(codes, rng.randrange(n))))
        yield 4, whole_reading(with_codes(sheet, repeated(codes, 0, n - 1)))
        yield 4, whole_reading(with_codes(sheet, [255] * n))
        yield 4, whole_reading(spoiled)
        yield 3, whole_reading(spoiled[:-1])
        yield 3, whole_reading(spoiled)._replace(codes_size=n + 1)
        yield 3, whole_reading(spoiled)._replace(matrix_size=n * n - 1)
        yield 2, whole_reading(spoiled[:1] + bytes([17]) + spoiled[2:])
        yield 1, Reading(bytes([128 + 33]) + spoiled[1:], n, n * n)


def other_forms(rng):
    """The first byte of the other form, with the length that it had and with the one that it should have; and
    codes cut in the middle."""
    for n in (2, 4, 8, 16, 32):
        short, long = (some_sheet(rng, form, n, 1, mixed) for form in (SHORT, LONG))
        yield 3, whole_reading(bytes([128 + n]) + short[1:])
        yield 3, whole_reading(bytes([n]) + long[1:])
        yield 3, whole_reading(long[: length(n, 1)])
        yield 3, whole_reading(short + bytes(n))
        yield 3, whole_reading(long[: 2 + 2 * n] + long[2 + 3 * n :])
        yield 3, whole_reading(long)._replace(codes_size=min(2 * n, MOST_CODES))
    long = some_sheet(rng, LONG, 4, 1, mixed)
    for size in range(2, 11):
        yield 3, whole_reading(long[:size])


def wrong_long_orders(rng):
    """Orders that are refused, with all lengths for them or for others, or with some."""
    for n, m in [(0, 0), (1, 1), (35, 3), (37, 5), (63, 31), (33, 33), (34, 34)]:
        yield 1, Reading(bytes([128 + n, 1]) + rng.randbytes(length(m, 2) - 2), m, m * m)
    for n in (0, 33, 36, 64, 126, 127):
        for size in (2, 30, 90):
            yield 1, Reading(bytes([128 + n, 17]) + rng.randbytes(size - 2), 2, 4)


def edge_writings(rng):
    """Codes at the edges, with the exact length and a longer one."""
    for k, codes in enumerate(edge_codes(rng)):
        n = len(codes)
        case = whole_writing(n, rng.randint(0, 16), codes, some_matrix(rng, n, mixed))
        yield None, case._replace(sheet_size=case.sheet_size + (0, 0, 1, n)[k % 4])


def rooms_for_either(rng):
    """Lent sheets that are long enough for one form, for both or for none."""
    case = whole_writing(32, 16, long_codes(rng, 32), some_matrix(rng, 32, mixed))
    for size in (length(32, 1), length(32, 2)):
        yield 7 if size < length(32, 2) else None, case._replace(sheet_size=size)
    for n in (2, 4, 8):
        short, long = length(n, 1), length(n, 2)
        edges = beside(rng, n, n - 1, 256), beside(rng, n, 0, 255)
        for codes in (short_codes(rng, n), long_codes(rng, n), *edges):
            case = whole_writing(n, rng.randint(0, 16), codes, some_matrix(rng, n, mixed))
            for size in (short - 1, short, short + 1, long - 1, long, long + 1, long + 9):
                number = 7 if size < length(n, width_for(codes)) else None
                yield number, case._replace(sheet_size=size)


def marked_orders(rng):
    """Writings whose order is the first byte of a long sheet."""
    for n in (0, 2, 4, 16, 32, 127):
        m = min(n, 32)
        for codes in (short_codes(rng, m), long_codes(rng, m)):
            yield 1, Writing(128 + n, 1, codes, some_matrix(rng, m, mixed), length(m, 2))


# Odd orders, in either form. All come with the number of their refusal, or with None.


def odd_sizes():
    """Orders, sweeps and kinds of entries: of order 3 all numbers of sweeps."""
    k = 0
    for n in plain.ODD_ORDERS:
        for _ in range(17 if n == 3 else 3 if n <= 8 else 1):
            yield n, k % 17, KINDS[k % len(KINDS)]
            k += 1
    yield 31, 16, any_finite


def good_odd_readings(rng, form):
    for n, sweeps, kind in odd_sizes():
        yield None, whole_reading(some_sheet(rng, form, n, sweeps, kind))


def odd_readings_of_other_lengths(rng, form):
    """Sheets cut and lengthened, with the order beside their own, and with other codes and matrices lent."""
    for n in (3, 5):
        whole = length(n, form.width)
        for size in (0, 1, 2, 2 + form.width * n, whole - 8 * n, whole - 8, whole - 1, whole, whole + 1, whole + 8):
            sheet = some_sheet(rng, form, n, rng.randint(0, 16), mixed) + bytes(8)
            yield None if size == whole else 3, Reading(sheet[:size], n, n * n)
        wrong_matrix = [(n, size) for size in (n * n - 1, n * n + 1, (n - 1) ** 2)]
        for lent in [(n - 1, n * n), (n + 1, n * n), *wrong_matrix, (n + 1, (n + 1) ** 2), (0, 0)]:
            yield 3, Reading(some_sheet(rng, form, n, rng.randint(0, 16), mixed), *lent)
    for n, other in [(2, 3), (3, 2), (3, 4), (4, 3), (4, 5), (31, 32), (32, 31)]:
        sheet = some_sheet(rng, form, n, 1, ordinary)
        yield 3, Reading(bytes([form.mark + other]) + sheet[1:], other, other * other)


def bad_odd_codes(rng, form):
    """A zero and two alike in all places of orders 3 and 5, and in the last of order 31."""
    for n in (3, 5):
        for k in range(n):
            yield zero_at(form.codes(rng, n), k)
        for k, other in itertools.combinations(range(n), 2):
            yield repeated(form.codes(rng, n), k, other)
    yield zero_at(form.codes(rng, 31), 30)
    yield repeated(form.codes(rng, 31), 0, 30)


def odd_readings_of_bad_codes(rng, form):
    for codes in bad_odd_codes(rng, form):
        sheet = some_sheet(rng, form, len(codes), rng.randint(0, 16), mixed)
        yield 4, whole_reading(with_codes(sheet, codes))


def bad_odd_entries(rng, form):
    """Each pattern on the diagonal of order 3, one in each place, and several at once."""
    patterns = itertools.cycle(NOT_FINITE)
    for k, pattern in enumerate(NOT_FINITE):
        yield refused_at(rng, form, 3, {(1 + k % 3, 1 + k % 3): pattern})
    for n in (3, 5):
        for place in stored_places(n):
            yield refused_at(rng, form, n, {place: next(patterns)})
    for place in [(16, 16), (31, 31)]:
        yield refused_at(rng, form, 31, {place: next(patterns)})
    yield refused_at(rng, form, 3, {(i, i): next(patterns) for i in (1, 2, 3)})
    yield refused_at(rng, form, 5, {place: next(patterns) for place in stored_places(5)})


def odd_readings_with_several(rng, form):
    for numbers in sets_of(range(1, 6)):
        case = faulty_reading(rng, form, 3, numbers)
        yield least_reason(numbers, case), case


def odd_readings(rng, form):
    groups = [
        good_odd_readings,
        odd_readings_of_other_lengths,
        odd_readings_of_bad_codes,
        bad_odd_entries,
        odd_readings_with_several,
    ]
    return held(read, groups, rng, form)


def odd_long_without_need(rng):
    """All codes small in the long form: alone, with a zero, and with an entry that is not finite."""
    for n in (3, 5, 15):
        codes = short_codes(rng, n)
        sheet = put_together(2, rng.randint(0, 16), codes, [mixed(rng) for _ in stored_places(n)])
        yield 4, whole_reading(sheet)
        yield 4, whole_reading(with_codes(sheet, zero_at(codes, n - 1)))
        yield 4, whole_reading(with_entries(sheet, {(n, n): rng.choice(NOT_FINITE)}))
        yield 3, whole_reading(sheet[:-1])
        yield 3, whole_reading(bytes([n]) + sheet[1:])
        yield 2, whole_reading(sheet[:1] + bytes([17]) + sheet[2:])


def good_odd_writings(rng, form):
    """Lent sheets of the exact length and longer ones."""
    for k, (n, sweeps, kind) in enumerate(odd_sizes()):
        case = whole_writing(n, sweeps, form.codes(rng, n), some_matrix(rng, n, kind))
        yield None, case._replace(sheet_size=case.sheet_size + (0, 1, 0, 7, 8, 100)[k % 6])


def odd_writings_of_other_lengths(rng, form):
    """Codes, matrices and lent sheets of other lengths, those of the orders beside among them."""
    for n in (3, 5):
        wrong_codes = [(size, n * n) for size in (n - 1, n + 1, 0)]
        wrong_matrix = [(n, size) for size in (n * n - 1, n * n + 1, (n + 1) ** 2, (n - 1) ** 2)]
        for codes_size, matrix_size in [*wrong_codes, *wrong_matrix, (n + 1, (n + 1) ** 2)]:
            codes, matrix = form.codes(rng, n + 1), some_matrix(rng, n + 1, mixed)
            yield 3, Writing(n, 1, codes[:codes_size], matrix[:matrix_size], length(n, form.width))
    for n in (3, 5, 31):
        whole = length(n, form.width)
        near = [whole - 1, length(n + 1, form.width)]
        for size in near if n == 31 else [0, 2, length(n - 1, form.width), whole - 8, whole, *near]:
            case = whole_writing(n, rng.randint(0, 16), form.codes(rng, n), some_matrix(rng, n, mixed))
            yield 7 if size < whole else None, case._replace(sheet_size=size)


def odd_writings_of_bad_codes(rng, form):
    for codes in bad_odd_codes(rng, form):
        n = len(codes)
        yield 4, whole_writing(n, rng.randint(0, 16), codes, some_matrix(rng, n, mixed))


def refused_odd_matrices(rng, form):
    """Those of plain_vectors.py whose entries are not finite or not mirrored."""
    for number, run in plain.odd_refusals(rng):
        if number in (5, 6):
            yield number, whole_writing(run.n, run.sweeps, form.codes(rng, run.n), run.matrix)


def odd_writings_with_several(rng, form):
    for numbers in sets_of(range(1, 8)):
        yield min(numbers), faulty_writing(rng, form, 3, numbers)


def odd_writings(rng, form):
    groups = [
        good_odd_writings,
        odd_writings_of_other_lengths,
        odd_writings_of_bad_codes,
        refused_odd_matrices,
        odd_writings_with_several,
    ]
    return held(write, groups, rng, form)


# What is checked before anything is written.


def check_reading(case, outcome):
    """A sheet that is accepted is written again as the same bytes."""
    assert len(case.sheet) <= MOST_BYTES
    assert case.codes_size <= MOST_CODES and case.matrix_size <= MOST_VALUES
    if outcome.number is None:
        again = write(whole_writing(outcome.n, outcome.sweeps, outcome.codes, outcome.matrix))
        assert again == Outcome(sheet=case.sheet), case


def check_writing(case, outcome):
    """A sheet that is written is as long as it should be and is read as the same sizes, codes and entries."""
    assert case.sheet_size <= MOST_BYTES
    assert len(case.codes) <= MOST_CODES and len(case.matrix) <= MOST_VALUES
    if outcome.number is None:
        assert len(outcome.sheet) == length(case.n, width_for(case.codes))
        again = read(whole_reading(outcome.sheet))
        assert again == Outcome(n=case.n, sweeps=case.sweeps, codes=case.codes, matrix=case.matrix), case


def check_variety(accepted, numbers, orders, last):
    """Every one of these orders is accepted, small ones with all numbers of sweeps, and every refusal is there."""
    assert {n for n, _ in accepted} == set(orders)
    small = [n for n in orders if n <= 8 and n % 2 == 0 or n == 3]
    assert set(accepted) >= {(n, sweeps) for n in small for sweeps in range(17)}
    assert set(numbers) == {None, *range(1, last + 1)}


def checked_readings(made, orders):
    """Checks readings of a form, and tells of them."""
    for case, outcome in made:
        check_reading(case, outcome)
    numbers = [outcome.number for _, outcome in made]
    accepted = [(outcome.n, outcome.sweeps) for _, outcome in made if outcome.number is None]
    check_variety(accepted, numbers, orders, 5)
    print(f"{len(made)} readings by the number of the refusal: {told(numbers)}")
    return made


def checked_writings(made, orders):
    """Checks writings of a form, and tells of them."""
    for case, outcome in made:
        check_writing(case, outcome)
    numbers = [outcome.number for _, outcome in made]
    accepted = [(case.n, case.sweeps) for case, outcome in made if outcome.number is None]
    check_variety(accepted, numbers, orders, 7)
    print(f"{len(made)} writings by the number of the refusal: {told(numbers)}")
    return made


# The files.


def reading_lines(case, outcome, code, pattern):
    """The lines of a reading and of its answer, for codes and a matrix that are filled so."""
    words = [READ, len(case.sheet), case.codes_size, case.matrix_size, code, pattern, *packed(case.sheet)]
    answer = refusal_lines(outcome)
    codes, matrix = [code] * case.codes_size, [pattern] * case.matrix_size
    if outcome.number is None:
        answer = plain.lines_of([outcome.n, outcome.sweeps])
        codes, matrix = outcome.codes, outcome.matrix
    return plain.lines_of(words), answer + plain.lines_of(codes + matrix)


def writing_lines(case, outcome, byte):
    """The lines of a writing and of its answer, for a sheet that is filled so."""
    sizes = [len(case.codes), len(case.matrix), case.sheet_size]
    words = [WRITE, case.n, case.sweeps, *sizes, byte, *case.codes, *case.matrix]
    return plain.lines_of(words), written_lines(outcome, case.sheet_size, byte)


def fills(rng):
    """What lent buffers are filled with: a number and a pattern, now and then a zero or not finite."""
    others = itertools.cycle([INFINITY, NAN, SIGN + INFINITY, ZERO, SIGN])
    for k, pattern in enumerate(plain.finite_patterns(rng)):
        yield k, next(others) if k % 5 == 0 else pattern


def lines_of_readings(cases, form, orders, fill):
    """The lines of each reading and of its answer. The codes that are lent are filled with what fits the form."""
    lines = []
    for case, outcome in checked_readings([(case, read(case)) for case in cases], orders):
        k, pattern = next(fill)
        lines.append(reading_lines(case, outcome, 257 * k % 256**form.width, pattern))
    return lines


def lines_of_writings(cases, orders, fill):
    """The lines of each writing and of its answer."""
    made = checked_writings([(case, write(case)) for case in cases], orders)
    return [writing_lines(*one, next(fill)[0] % 256) for one in made]


def short_lines(rng):
    """The lines of all cases of the short form and even orders."""
    fill = fills(rng)
    lines = lines_of_readings(readings(rng, SHORT, EXAMPLE), SHORT, plain.EVEN_ORDERS, fill)
    return lines + lines_of_writings(writings(rng, SHORT, [7, 9]), plain.EVEN_ORDERS, fill)


def long_lines(rng):
    """The lines of all cases of the long form and of both, of even orders."""
    fill = fills(rng)
    groups = [edge_readings, long_without_need, other_forms, wrong_long_orders]
    cases = readings(rng, LONG, LONG_EXAMPLE) + held(read, groups, rng)
    lines = lines_of_readings(cases, LONG, plain.EVEN_ORDERS, fill)
    groups = [edge_writings, rooms_for_either, marked_orders]
    cases = writings(rng, LONG, [300, 7]) + held(write, groups, rng)
    return lines + lines_of_writings(cases, plain.EVEN_ORDERS, fill)


def odd_lines(rng):
    """The lines of all cases of odd orders, in both forms."""
    fill, lines = fills(rng), []
    for form, others in [(SHORT, []), (LONG, [odd_long_without_need])]:
        cases = odd_readings(rng, form) + held(read, others, rng)
        lines += lines_of_readings(cases, form, plain.ODD_ORDERS, fill)
        lines += lines_of_writings(odd_writings(rng, form), plain.ODD_ORDERS, fill)
    return lines


def main():
    argparse.ArgumentParser(description=__doc__.split("\n\n")[0], epilog="It takes no arguments.").parse_args()
    check_examples()
    check_long_examples()
    check_odd_examples()
    made = short_lines(random.Random(1981)) + long_lines(random.Random(65535)) + odd_lines(random.Random(176))
    made += joinings.all_lines()
    crate = pathlib.Path(__file__).resolve().parent.parent / "crates" / "test_sheets"
    crate.mkdir(exist_ok=True)
    for name, side in [("stdin", 0), ("stdout", 1)]:
        text = "".join(line for lines in made for line in lines[side])
        (crate / name).write_text(text, encoding="ascii")


if __name__ == "__main__":
    main()
