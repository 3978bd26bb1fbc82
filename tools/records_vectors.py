#!/usr/bin/env python3
"""Orders, matrices and steps, and the records of the step by document 01, "One rotation", last paragraph, and "Refused,
by place", and document 02, odd orders and rounded roots. call_vectors.py writes them to files; run alone, this file only
makes them, and prints how many there are.

Matrices of all kinds and the parameters of a pair come from plain_vectors.py. The pair of a processor is found
here by its own rule: the lines stand on a ring of registers, beside line 1, or line 0 of an odd order, and move by
one place a step.
"""
import argparse
import math
import random
import sys

sys.dont_write_bytecode = True  # the import below leaves no file
import plain_vectors as plain

ROW = 16  # records that the program lends
FILL = 0x4022 << 48
STEPS = [0, 1, 2, 3, 5, 1 << 20, (1 << 63) + 11, (1 << 64) - 1]


def pairs_at(n, step):
    """The left and the right line of each processor. After left 1 the ring goes along the left registers and
    back along the right ones, which ends beside left 1."""
    half, less = (n + 1) // 2, n % 2
    ring = [2 * k - 1 - less for k in range(2, half + 1)] + [2 * k - less for k in range(half, 0, -1)]
    shift = step % len(ring)
    turned = ring[-shift:] + ring[:-shift] if shift else ring
    left = [1 - less, *turned[: half - 1]]
    right = turned[half - 1 :][::-1]
    return list(zip(left, right))


def pattern_of(value):
    return plain.NAN if math.isnan(value) else plain.pattern_of(value)


def record_of(found, exact):
    """The words of a record, and whether its roots were exact."""
    return [pattern_of(value) for value in ((0.0, 1.0, 0.0) if found is plain.STILL else found)], exact


def refusal_of(n, matrix, room):
    """The number, and the place if there is one."""
    found = plain.outcome_of(plain.Case(n, 0, matrix, n * n, n * n))
    if found.number:
        return found.number, found.place
    if room < (n + 1) // 2:
        return 7, None
    return None, None


def records_of(n, matrix, step):
    a = plain.rows_of(n, matrix)
    for p, q in pairs_at(n, step):
        found = plain.STILL, True
        if p > 0:
            found = plain.parameters(a[p - 1][p - 1], a[q - 1][q - 1], a[p - 1][q - 1])
        yield record_of(*found)


def row_after(n, matrix, step, filled):
    """The row after a call, all records of which were filled."""
    written = [] if refusal_of(n, matrix, ROW)[0] else list(records_of(n, matrix, step))
    return written + [filled] * (ROW - len(written))


def lines_of_row(row):
    """The lines of each record: its words, and whether its roots were exact."""
    return [line for words, exact in row for line in [*plain.lines_of(words), "exact\n" if exact else "rounded\n"]]


def told(number, place):
    if number is None:
        return []
    names = zip(("row", "column"), place or ())
    return [f"refused {number}\n", *(f"{name} {value}\n" for name, value in names)]


def cases(rng):
    """An order, a matrix, a step and the length of a row: every kind of matrix, every order with every step of a
    sweep or some of them, and each refusal, alone and before another."""
    k = 0
    for n in range(2, 33, 2):
        steps = range(n - 1) if n <= 8 else rng.sample(range(n - 1), 5)
        for step in [*steps, *(rng.sample(STEPS, 3))]:
            kind = plain.kind_for(n, k)
            yield n, kind(rng, n, 1), step, rng.choice((n // 2, n // 2, n // 2 - 1, ROW, 0, 1 << 63))
            k += 1
    for number, case in plain.refusals(rng):
        if case.sweeps <= 16 and case.n < 1 << 32:
            yield case.n, case.matrix, rng.randrange(40), rng.choice((0, 1, ROW))
    good = plain.ordinary(rng, 4, 0)
    for room in (0, 1, 2, 3):
        yield 4, good, 1, room
        yield 4, [plain.NAN, *good[1:]], 1, room
        yield 4, [good[0], good[1] ^ 1, *good[2:]], 1, room
        yield 4, good[:15], 1, room
        yield 6, good, 1, room
        yield 33, good, 1, room


def odd_cases(rng):
    """The same of odd orders: every kind of matrix, every order with steps of more than a sweep, and each refusal."""
    k = 0
    for n in range(3, 32, 2):
        steps = range(n + 2) if n <= 7 else rng.sample(range(n), 2)
        for step in [*steps, rng.choice(STEPS)]:
            kind, half = plain.kind_for(n, k), (n + 1) // 2
            yield n, kind(rng, n, 1), step, rng.choice((half, half, half - 1, ROW, 0, 1 << 63))
            k += 1
    for number, case in plain.odd_refusals(rng):
        if case.sweeps <= 16:
            yield case.n, case.matrix, rng.randrange(40), rng.choice((0, 1, ROW))
    good = plain.ordinary(rng, 5, 0)
    for room in (0, 1, 2, 3, 4):
        yield 5, good, 1, room
        yield 5, [plain.NAN, *good[1:]], 1, room
        yield 5, [good[0], good[1] ^ 1, *good[2:]], 1, room
        yield 5, good[:24], 1, room
        yield 7, good, 1, room


def exact_cases(rng):
    """Pairs that turn and are exact, beside rounded ones."""
    for n in (2, 3, 4, 5, 8, 9, 16, 31, 32):
        for kind in (plain.exact_turns, plain.partly_exact):
            yield n, kind(rng, n, 0), rng.randrange(40), (n + 1) // 2


def all_lines():
    """The lines of each case and of its answer. The rows are lent with exact records and with rounded ones by turns."""
    found = [*cases(random.Random(8)), *odd_cases(random.Random(7)), *exact_cases(random.Random(9))]
    print(f"{len(found)} calls for the records of a step")
    for k, (n, matrix, step, room) in enumerate(found):
        flag = k % 2
        refused = told(*refusal_of(n, matrix, room)) + told(*refusal_of(n, matrix, ROW))
        lines = plain.lines_of([n, len(matrix), step, room, FILL, flag, *matrix])
        yield lines, refused + lines_of_row(row_after(n, matrix, step, ([FILL] * 3, flag == 1)))


def main():
    argparse.ArgumentParser(description=__doc__.split("\n\n")[0], epilog="It takes no arguments.").parse_args()
    list(all_lines())


if __name__ == "__main__":
    main()
