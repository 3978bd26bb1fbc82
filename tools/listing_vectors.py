#!/usr/bin/env python3
"""The listing program of document 01, "The printed sheet", with the line codes, the odd orders and the quiet sweeps of
document 02, and samples of what it prints. Run it as

    python3 tools/listing_vectors.py < SHEET
    python3 tools/listing_vectors.py --samples FOLDER [--seed NUMBER]

The first prints the sheet on standard input. The second writes sample sheets into the folder, as NAME.sheet,
and what is printed of each beside it, as NAME.print. Names begin with a number, in whose order the samples
are made. Those in samples/ have the seed that is taken where none is given.

The sheet is all of standard input. It is read by sheet_model.py, and the run is the plain run of
plain_vectors.py, which the array's run agrees with in every bit. The ticks are 3 K + N for the sweeps made, beside the
sheet's own number of sweeps. Before samples are written, those of small orders are held against the array of
array_vectors.py.
"""
import argparse
import pathlib
import random
import sys

sys.dont_write_bytecode = True  # the imports below leave no file
import array_vectors as array
import plain_vectors as plain
import sheet_model as sheets

# As document 01 prints its example.
EXAMPLE_PRINT = """\
2 1 4
7 0000000000000000 3FE6A09E667F3BCC BFE6A09E667F3BCC
9 4000000000000000 3FE6A09E667F3BCC 3FE6A09E667F3BCC
"""

# The same with the codes 300 and 7.
LONG_EXAMPLE_PRINT = EXAMPLE_PRINT.replace("\n7 ", "\n300 ").replace("\n9 ", "\n7 ")

# A sheet of three lines: all entries of lines 2 and 3 are 1, and line 1 has 3 on the diagonal and zeros beside it.
ODD_EXAMPLE = sheets.put_together(
    1, 1, [4, 7, 9], [plain.THREE, plain.ZERO, plain.ONE, plain.ZERO, plain.ONE, plain.ONE]
)
ODD_EXAMPLE_PRINT = """\
3 1 11
4 4008000000000000 3FF0000000000000 0000000000000000 0000000000000000
7 0000000000000000 0000000000000000 3FE6A09E667F3BCC BFE6A09E667F3BCC
9 4000000000000000 0000000000000000 3FE6A09E667F3BCC 3FE6A09E667F3BCC
"""


# The listing.


def run_of(sheet):
    """The run that a sheet asks for, or the number of its refusal."""
    reading = sheets.read(sheets.whole_reading(sheet))
    if reading.number is not None:
        return None, reading.number
    return plain.case_of(reading.n, reading.sweeps, reading.matrix), None


def fields(*words):
    return " ".join(map(str, words)) + "\n"


def bits(pattern):
    return f"{pattern:016X}"


def line_of(n, code, k, outcome):
    """What is printed of the line k, from 0."""
    column = outcome.vectors[k :: n]
    return fields(code, bits(outcome.result[k * n + k]), *map(bits, column))


def listing(sheet):
    """What is printed of a sheet."""
    run, number = run_of(sheet)
    if number is not None:
        return fields("refused", number)
    outcome = plain.outcome_of(run)
    if outcome.number is not None:
        return fields("refused", outcome.number)
    n, sweeps = run.n, run.sweeps
    ticks = array.ticks_of(n, outcome.sweeps)
    lines = [line_of(n, code, k, outcome) for k, code in enumerate(sheets.codes_of(sheet))]
    return fields(n, sweeps, ticks) + "".join(lines)


# The samples, each with the number of its refusal, or None, and a word for its kind.


def sheet_of(rng, n, sweeps, kind, form=sheets.SHORT):
    """The sheet of a matrix of plain_vectors.py."""
    matrix = kind(rng, n, sweeps)
    return sheets.write(sheets.whole_writing(n, sweeps, form.codes(rng, n), matrix)).sheet


def amount(n):
    """How many sheets an order gets."""
    return 6 if n <= 8 else 3 if n <= 16 else 2


def whole_sheets(rng):
    """Sheets of every order and number of sweeps whose runs stay finite."""
    kinds = [kind for kind in dict.fromkeys(plain.KINDS) if kind not in plain.MAY_SPOIL]
    k = 0
    for n in range(2, 33, 2):
        for _ in range(amount(n)):
            kind, sweeps = kinds[k % len(kinds)], k * 3 % 17
            yield None, kind.__name__, sheet_of(rng, n, sweeps, kind)
            k += 1


def spoiled_sheets(rng):
    """Sheets whose runs are spoiled, in the first step or later."""
    kinds = [plain.spoiled_by_sum, plain.spoiled_by_spread, plain.spoiled_by_turn, plain.spoiled_late]
    sizes = [(2, 1, 2), (4, 1, 4), (6, 3, 4), (16, 2, 4), (32, 1, 4)]  # n, sweeps, how many of the kinds
    for n, sweeps, count in sizes:
        for kind in kinds[:count]:
            yield 8, kind.__name__, sheet_of(rng, n, sweeps, kind)
    largest = [plain.LARGEST] * 3
    yield 8, "largest", sheets.put_together(1, 1, [1, 2], largest)


def wrong_lengths(rng):
    """Sheets cut and lengthened, also beyond the length of any sheet."""
    small, large = sheet_of(rng, 2, 1, plain.ordinary), sheet_of(rng, 32, 1, plain.ordinary)
    yield 3, "empty", b""
    yield 3, "one_byte", small[:1]
    yield 3, "head_only", small[:2]
    yield 3, "cut", small[:-1]
    yield 3, "newline_added", small + b"\n"
    yield 3, "twice", small + small
    yield 3, "cut", large[:-1]
    yield 3, "half", large[: len(large) // 2]
    yield 3, "byte_added", large + b"\0"
    yield 3, "many_added", large + rng.randbytes(20000)
    yield 3, "many_added", small + rng.randbytes(20000)


def wrong_sizes(rng):
    """Sheets with another first or second byte."""
    sheet = sheet_of(rng, 4, 1, plain.ordinary)
    for n in (0, 1, 35, 37, 63, 33, 34, 255):
        yield 1, "order", bytes([n]) + sheet[1:]
    for n in (2, 6, 32):
        yield 3, "other_order", bytes([n]) + sheet[1:]
    for sweeps in (17, 18, 255):
        yield 2, "sweeps", bytes([4, sweeps]) + sheet[2:]
    yield 1, "order_and_sweeps", bytes([33, 17])
    yield 2, "sweeps_and_length", bytes([2, 17])
    yield 1, "text", listing(sheets.EXAMPLE).encode("ascii")


def wrong_codes(rng):
    for codes in [[0, 1], [1, 0], [255, 255], [3, 1, 2, 3]]:
        sheet = sheet_of(rng, len(codes), 1, plain.ordinary)
        yield 4, "codes", sheets.with_codes(sheet, codes)


def wrong_entries(rng):
    """Sheets with entries that are not finite, one of them with a repeated code too."""
    sheet = sheet_of(rng, 4, 1, plain.ordinary)
    places = sheets.stored_places(4)
    for place, pattern in zip(places, sheets.NOT_FINITE):
        yield 5, "entry", sheets.with_entries(sheet, {place: pattern})
    both = sheets.with_entries(sheet, {(4, 4): plain.NAN})
    yield 4, "code_and_entry", both[:2] + bytes([5, 5]) + both[4:]


# The samples of the long form.


def whole_long_sheets(rng):
    """Sheets whose runs stay finite, with the largest codes, codes around 255 and any codes."""
    yield None, "long_example", sheets.LONG_EXAMPLE
    edges = [[255, 256], [65535, 1], [1, 65535], [65280, 255], [256, 512, 768, 3], [7, 263, 519, 65287]]
    for codes in edges:
        matrix = plain.ordinary(rng, len(codes), 1)
        yield None, "long_edges", sheets.write(sheets.whole_writing(len(codes), 1, codes, matrix)).sheet
    for n, sweeps in [(2, 16), (4, 3), (6, 0), (8, 5), (8, 8), (14, 2), (16, 4), (24, 1), (32, 0), (32, 2)]:
        yield None, "long", sheet_of(rng, n, sweeps, plain.covariances, sheets.LONG)
    for n in (2, 8, 32):
        codes, matrix = list(range(65535, 65535 - n, -1)), plain.ordinary(rng, n, 1)
        yield None, "long_largest", sheets.write(sheets.whole_writing(n, 1, codes, matrix)).sheet
    yield 8, "long_spoiled", sheet_of(rng, 4, 1, plain.spoiled_by_sum, sheets.LONG)
    yield 8, "long_spoiled", sheet_of(rng, 32, 1, plain.spoiled_late, sheets.LONG)


def wrong_long_lengths(rng):
    """Sheets cut, also in the middle of a code, lengthened, and of the other form's length."""
    small, large = (sheet_of(rng, n, 1, plain.ordinary, sheets.LONG) for n in (2, 32))
    short, shorts = (sheet_of(rng, n, 1, plain.ordinary) for n in (2, 32))
    yield 3, "long_one_byte", small[:1]
    yield 3, "long_head_only", small[:2]
    yield 3, "long_cut_in_a_code", small[:3]
    yield 3, "long_cut_in_a_code", small[:5]
    yield 3, "long_cut_after_the_codes", small[:6]
    yield 3, "long_cut", small[:-1]
    yield 3, "long_byte_added", small + b"\0"
    yield 3, "long_cut", large[:-1]
    yield 3, "long_byte_added", large + b"\0"
    yield 3, "long_many_added", large + rng.randbytes(20000)
    yield 3, "long_many_added", small + rng.randbytes(20000)
    yield 3, "long_as_short", bytes([2]) + small[1:]
    yield 3, "long_as_short", bytes([32]) + large[1:]
    yield 3, "short_as_long", bytes([130]) + short[1:]
    yield 3, "short_as_long", bytes([160]) + shorts[1:]
    yield 3, "long_of_the_short_length", small[: len(short)]
    yield 3, "long_of_the_short_length", large[: len(shorts)]


def wrong_long_sizes(rng):
    """Sheets with another order or other sweeps, the 128 being on."""
    sheet = sheet_of(rng, 4, 1, plain.ordinary, sheets.LONG)
    for n in (0, 1, 35, 37, 63, 33, 34, 64, 127):
        yield 1, "long_order", bytes([128 + n]) + sheet[1:]
    for n in (2, 6, 32):
        yield 3, "long_other_order", bytes([128 + n]) + sheet[1:]
    for sweeps in (17, 255):
        yield 2, "long_sweeps", bytes([132, sweeps]) + sheet[2:]
    yield 1, "long_order_and_sweeps", bytes([161, 17])
    yield 2, "long_sweeps_and_length", bytes([130, 17])


def wrong_long_codes(rng):
    """Codes zero, repeated, or all small in the long form; and entries that are not finite."""
    bad = [[0, 300], [300, 0], [300, 300], [65535, 65535], [300, 1, 2, 300], [7, 263, 7, 519]]
    small = [[1, 2], [255, 254], [255, 255], [4, 3, 2, 1], list(range(224, 256))]
    for word, group in [("long_codes", bad), ("long_without_need", small)]:
        for codes in group:
            sheet = sheet_of(rng, len(codes), 1, plain.ordinary, sheets.LONG)
            yield 4, word, sheets.with_codes(sheet, codes)
    sheet = sheet_of(rng, 4, 1, plain.ordinary, sheets.LONG)
    for place, pattern in [((1, 1), plain.NAN), ((3, 2), plain.INFINITY), ((4, 4), plain.SIGN + plain.INFINITY)]:
        yield 5, "long_entry", sheets.with_entries(sheet, {place: pattern})
    both = sheets.with_entries(sheet, {(4, 4): plain.NAN})
    yield 4, "long_without_need_and_entry", sheets.with_codes(both, [9, 8, 7, 6])


# The samples of odd orders, in both forms.


def whole_odd_sheets(rng):
    """Sheets of every odd order whose runs stay finite, of order 3 with several numbers of sweeps."""
    yield None, "odd_example", ODD_EXAMPLE
    kinds = [kind for kind in dict.fromkeys(plain.KINDS) if kind not in plain.MAY_SPOIL]
    sizes = [(3, 0), (3, 1), (3, 7), (3, 16), (5, 0), (5, 8), (7, 16)]
    sizes += [(n, n % 7) for n in plain.ODD_ORDERS if n > 7]
    for k, (n, sweeps) in enumerate(sizes):
        kind = kinds[k % len(kinds)]
        yield None, f"odd_{kind.__name__}", sheet_of(rng, n, sweeps, kind)
    for n, sweeps in [(3, 1), (3, 16), (15, 4), (31, 0), (31, 2)]:
        yield None, "odd_long", sheet_of(rng, n, sweeps, plain.covariances, sheets.LONG)


def spoiled_odd_sheets(rng):
    kinds = [plain.spoiled_by_sum, plain.spoiled_by_spread, plain.spoiled_by_turn, plain.spoiled_late]
    for n, sweeps in [(3, 1), (5, 3), (31, 1)]:
        for kind in kinds:
            yield 8, f"odd_{kind.__name__}", sheet_of(rng, n, sweeps, kind)
    yield 8, "odd_largest", sheets.put_together(1, 1, [1, 2, 3], [plain.LARGEST] * 6)
    yield 8, "odd_long_spoiled", sheet_of(rng, 3, 1, plain.spoiled_by_sum, sheets.LONG)


def wrong_odd_sheets(rng):
    """Each refusal of a sheet."""
    for form in (sheets.SHORT, sheets.LONG):
        three, four, large = (sheet_of(rng, n, 1, plain.ordinary, form) for n in (3, 4, 31))
        mark, word = form.mark, "odd_long" if form.mark else "odd"
        yield 3, f"{word}_cut", three[:-1]
        yield 3, f"{word}_byte_added", three + b"\0"
        yield 3, f"{word}_cut", large[:-1]
        yield 3, f"{word}_other_order", bytes([mark + 3]) + four[1:]
        yield 3, f"{word}_other_order", bytes([mark + 4]) + three[1:]
        yield 3, f"{word}_other_order", bytes([mark + 32]) + large[1:]
        yield 1, f"{word}_order", bytes([mark + 1]) + three[1:]
        yield 1, f"{word}_order", bytes([mark + 33]) + large[1:]
        yield 2, f"{word}_sweeps", bytes([mark + 3, 17]) + three[2:]
        yield 4, f"{word}_codes", sheets.with_codes(three, sheets.repeated(sheets.codes_of(three), 0, 2))
        yield 4, f"{word}_codes", sheets.with_codes(large, sheets.zero_at(sheets.codes_of(large), 30))
        for place in [(1, 1), (3, 2), (3, 3)]:
            yield 5, f"{word}_entry", sheets.with_entries(three, {place: rng.choice(sheets.NOT_FINITE)})
    yield 4, "odd_long_without_need", sheets.with_codes(three, [1, 2, 3])


# The samples at the ends of the range.


def end_sheets(rng):
    """Document 02 (v)'s check sheet, a = 0, d = 2^1022 and b = 2^1023, and runs that stay finite."""
    entries = {(1, 1): plain.ZERO, (2, 1): plain.TOP * plain.HIDDEN, (2, 2): (plain.TOP - 1) * plain.HIDDEN}
    yield None, "check_at_top", sheets.put_together(1, 1, [7, 9], [entries[place] for place in sheets.stored_places(2)])
    for n, kind in [(4, plain.pairs_at_top), (5, plain.pairs_at_top), (4, plain.at_bottom), (5, plain.at_bottom)]:
        yield None, kind.__name__, sheet_of(rng, n, 3, kind)


# The samples with quiet sweeps.


def quiet_sheets(rng):
    """Sheets whose runs end early, of both forms, with one sweep less and with just as many; and spoiled ones."""
    yield None, "quiet_example", bytes([2, 16]) + sheets.EXAMPLE[2:]
    yield None, "quiet_odd_example", bytes([3, 16]) + ODD_EXAMPLE[2:]
    for n, sweeps, kind in [(2, 2, plain.zero), (3, 16, plain.zero), (8, 16, plain.zeros_beside), (9, 2, plain.diagonal)]:
        yield None, f"quiet_{kind.__name__}", sheet_of(rng, n, sweeps, kind)
    for n, form in [(4, sheets.SHORT), (7, sheets.LONG), (31, sheets.SHORT), (32, sheets.LONG)]:
        yield None, "quiet_far_lines", sheet_of(rng, n, plain.MOST_SWEEPS, plain.far_lines, form)
    for n, kind in [(4, plain.ordinary), (5, plain.two_groups), (8, plain.covariances)]:
        matrix, codes = kind(rng, n, 0), sheets.SHORT.codes(rng, n)
        quiet = plain.first_quiet(n, matrix)
        for word, sweeps in [("before_quiet", quiet - 1), ("at_quiet", quiet), ("after_quiet", quiet + 1)]:
            yield None, word, sheets.write(sheets.whole_writing(n, sweeps, codes, matrix)).sheet
    for n, kind in [(2, plain.spoiled_by_sum), (3, plain.spoiled_by_sum), (4, plain.spoiled_by_spread)]:
        yield 8, "quiet_when_spoiled", sheet_of(rng, n, plain.MOST_SWEEPS, kind)


def samples(rng):
    """The samples: a name, the sheet, and what is printed of it."""
    made = [(None, "example", sheets.EXAMPLE)]
    for group in (whole_sheets, spoiled_sheets, wrong_lengths, wrong_sizes, wrong_codes, wrong_entries):
        made += group(rng)
    for group in (whole_long_sheets, wrong_long_lengths, wrong_long_sizes, wrong_long_codes):
        made += group(rng)
    for group in (whole_odd_sheets, spoiled_odd_sheets, wrong_odd_sheets, end_sheets, quiet_sheets):
        made += group(rng)
    found = []
    for k, (number, word, sheet) in enumerate(made):
        printed = listing(sheet)
        assert number_in(printed) == number, word
        found.append((f"{k:03d}_{word}", sheet, printed))
    return found


def number_in(printed):
    """The number of the refusal in a print."""
    return int(printed.split()[1]) if printed.startswith("refused") else None


# What is checked before anything is written.


def check_example():
    assert listing(sheets.EXAMPLE) == EXAMPLE_PRINT
    assert listing(sheets.LONG_EXAMPLE) == LONG_EXAMPLE_PRINT
    assert listing(ODD_EXAMPLE) == ODD_EXAMPLE_PRINT


def check_by_array(sheet, printed):
    """Holds a sample against the array's run: its ticks and its answer."""
    run, number = run_of(sheet)
    if number is not None or run.n > 8:
        return
    outcome, ticks = array.agreed(run)
    told = str(ticks) if outcome.number is None else str(outcome.number)
    assert printed.split("\n")[0].split(" ")[-1] == told


def check_form(sheet, printed):
    """The lines and fields of a print, each parted by one space and each line ended by a newline."""
    if number_in(printed) is not None:
        assert printed == f"refused {number_in(printed)}\n"
        return
    *lines, rest = printed.split("\n")
    assert rest == "" and all(len(line.split(" ")) == len(line.split()) for line in lines)
    n = sheet[0] % 128
    assert len(lines) == 1 + n and all(len(line.split(" ")) == 2 + n for line in lines[1:])
    assert [int(line.split(" ")[0]) for line in lines[1:]] == sheets.codes_of(sheet)
    assert len(printed) <= 15 + n * (23 + 17 * n)


def check_variety(made):
    """Enough sheets, of every order and number of sweeps, and every refusal that a listing can print, in both
    forms."""
    accepted = [sheet[:2] for _, sheet, printed in made if number_in(printed) is None]
    assert {n for n, _ in accepted if n < 128} == set(range(2, 33))
    assert {n - 128 for n, _ in accepted if n >= 128} >= {2, 3, 8, 31, 32}
    assert {sweeps for _, sweeps in accepted} == set(range(17))
    numbers = [number_in(printed) for _, _, printed in made]
    long_numbers = {number_in(printed) for _, sheet, printed in made if sheet[:1] >= b"\x80"}
    assert set(numbers) == long_numbers == {None, 1, 2, 3, 4, 5, 8}
    assert len(made) >= 60
    print(f"{len(made)} sheets by the number of the refusal: {sheets.told(numbers)}")


def write_samples(folder, seed):
    made = samples(random.Random(seed))
    for _, sheet, printed in made:
        check_form(sheet, printed)
        check_by_array(sheet, printed)
    check_variety(made)
    folder.mkdir(parents=True, exist_ok=True)
    for name, sheet, printed in made:
        (folder / f"{name}.sheet").write_bytes(sheet)
        (folder / f"{name}.print").write_text(printed, encoding="ascii")


def main():
    told = "Prints the sheet on standard input as document 01's listing program does, by the plain run in Python."
    options = argparse.ArgumentParser(description=told)
    options.add_argument("--samples", metavar="FOLDER", type=pathlib.Path, help="write samples instead")
    options.add_argument("--seed", metavar="NUMBER", type=int, default=1979, help="the seed of the samples")
    given = options.parse_args()
    check_example()
    if given.samples:
        write_samples(given.samples, given.seed)
    else:
        sys.stdout.write(listing(sys.stdin.buffer.read()))


if __name__ == "__main__":
    main()
