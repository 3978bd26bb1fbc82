#!/usr/bin/env python3
"""Writes crates/test_entries/stdout: what the calls of document 01, "Entries to try", answer and leave, by the models of
the other files here. What document 01 itself says of an entry is asserted, of the orders 3 and 5 what the report's rule
gives, and which of the roots are exact.
"""
import argparse
import pathlib
import sys

sys.dont_write_bytecode = True  # the imports below leave no file
import array_vectors as array
import ordering_vectors as ordering
import plain_vectors as plain
import root_vectors as root
import sheet_model as sheet

PROCESSORS = 16
NINE = 0x4022 << 48  # what results are lent with

# The patterns of a value and of its root, and whether it is exact.
ROOTS = [
    (0x4010 << 48, 0x4000 << 48, True),
    (plain.SIGN, plain.SIGN, True),
    (0x4000 << 48, 0x3FF6A09E667F3BCD, False),
    (1, (1023 - 537) << 52, True),
    (plain.ONE - 1, plain.ONE - 1, False),
    (plain.ONE + 1, plain.ONE, False),
]

LISTS = [
    (4, 0, [(1, 2), (3, 4)]),
    (4, 1, [(1, 4), (2, 3)]),
    (4, 2, [(1, 3), (4, 2)]),
    (8, 1, [(1, 4), (2, 6), (3, 8), (5, 7)]),
    (3, 0, [(0, 1), (2, 3)]),
    (3, 1, [(0, 3), (1, 2)]),
    (3, 2, [(0, 2), (3, 1)]),
    (5, 0, [(0, 1), (2, 3), (4, 5)]),
    (5, 1, [(0, 3), (1, 5), (2, 4)]),
]
NO_ORDERS = [0, 1, 33, 34]

# An order, sweeps and a matrix, with the refusal's number or the ticks that the documents name. With 16 sweeps order 2
# turns in the first and is quiet in the second.
RUNS = [
    (2, 1, [plain.ONE, plain.ZERO, plain.ZERO, plain.THREE], None, 4),
    (2, 1, [plain.LARGEST] * 4, 8, None),
    (2, 0, [plain.ONE] * 4, None, 1),
    (8, 1, [plain.ONE] * 64, None, 25),
    (3, 1, [plain.ONE] * 9, None, 11),
]
RUNS_BY_SIZE = [
    *((n, 1, [plain.ONE] * 4, 1, None) for n in NO_ORDERS),
    (2, 16, [plain.ONE] * 4, None, 7),
    (2, 17, [plain.ONE] * 4, 2, None),
]

SHEET = bytes([2, 1, 7, 9]) + (plain.ONE.to_bytes(8, "big")) * 3


def words(patterns):
    return [f"{pattern:016X}" for pattern in patterns]


def refused(number, place=None):
    return [f"refused {number}", *(f"{name} {value}" for name, value in zip(("row", "column"), place or ()))]


def root_lines():
    for pattern, expected, is_exact in ROOTS:
        found = root.square_root(pattern)
        assert (found, root.is_exact(pattern)) == (expected, is_exact)
        yield from [*words([found]), "exact" if is_exact else "rounded"]


def list_lines(n, step, expected):
    listed = ordering.pairs(n, step)
    assert listed == expected
    if listed is None:
        yield from refused(1)
    for left, right in (listed or []) + [(0, 0)] * (PROCESSORS - len(listed or [])):
        yield from (f"left {left}", f"right {right}")


def result_lines(outcome, length):
    for patterns in (outcome.result, outcome.vectors):
        yield from words([NINE] * length if patterns is None else patterns)


def run_lines(n, sweeps, matrix, number, ticks):
    case = plain.Case(n, sweeps, matrix, len(matrix), len(matrix))
    outcome = plain.outcome_of(case)
    assert outcome.number == number
    rounded = f"rounded {outcome.rounded}"
    yield from [f"sweeps {outcome.sweeps}", rounded] if number is None else refused(number)
    yield from result_lines(outcome, len(matrix))
    outcome, made = array.run(case)
    assert outcome.number == number and ticks in (None, made)
    rounded = f"rounded {outcome.rounded}"
    yield from [f"sweeps {outcome.sweeps}", f"ticks {made}", rounded] if number is None else refused(number)
    yield from result_lines(outcome, len(matrix))


def sheet_lines(data, number):
    outcome = sheet.read(sheet.Reading(data, 2, 4))
    assert outcome.number == number
    if number is None:
        yield from (f"order {outcome.n}", f"sweeps {outcome.sweeps}")
        yield from (f"code {code}" for code in outcome.codes)
        yield from words(outcome.matrix)
    else:
        yield from refused(number)
        yield from ["code 9"] * 2 + words([NINE] * 4)


def all_lines():
    yield from root_lines()
    for n, step, expected in LISTS:
        yield from list_lines(n, step, expected)
    for run in RUNS:
        yield from run_lines(*run)
    for n in NO_ORDERS:
        yield from list_lines(n, 0, None)
    for run in RUNS_BY_SIZE:
        yield from run_lines(*run)
    for data, number in [(SHEET[:27], 3), (SHEET, None), (SHEET + b"\0", 3)]:
        yield from sheet_lines(data, number)


def main():
    argparse.ArgumentParser(description=__doc__.split("\n\n")[0], epilog="It takes no arguments.").parse_args()
    unchanged = plain.outcome_of(plain.case_of(*RUNS[0][:3]))
    assert unchanged.result == RUNS[0][2] and unchanged.vectors == [plain.ONE, plain.ZERO, plain.ZERO, plain.ONE]
    folder = pathlib.Path(__file__).resolve().parent.parent / "crates" / "test_entries"
    (folder / "stdout").write_text("".join(f"{line}\n" for line in all_lines()))


if __name__ == "__main__":
    main()
