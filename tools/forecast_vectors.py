#!/usr/bin/env python3
"""Orders and numbers of sweeps, and what a run of the array takes by document 02, (iii): its ticks, the values of the
matrix and of the vectors that are set on wires, and the parameters that tiles off the diagonal receive. call_vectors.py
writes them to files; run alone, this file only makes and checks them, and prints how many there are.

No formula is used: the figures are counted, tick by tick and tile by tile, until every tile has stopped. When a tile
rotates and stops is document 01's, "The array", and which wires it sets in which phase is document 003's, Program 3.
The array of array_vectors.py counts what it does in its ticks, and the figures are held to runs of it by hand, of every
order, whole and spoiled. They are the most that a run can need: one that ends early needs those of the sweeps it makes.
"""
import argparse
import collections
import functools
import random
import sys

sys.dont_write_bytecode = True  # the imports below leave no file
import array_vectors as array
import plain_vectors as plain

ORDERS = range(2, 33)
LARGEST = (1 << 64) - 1  # of a usize

# Numbers beyond every limit, as orders and as sweeps. Some would pass if their upper bits were lost, and a product of
# some with 3, 8 or 31 would wrap around to a small number.
FAR = [
    255,
    256,
    256 + 4,
    (1 << 16) + 4,
    (1 << 32) - 1,
    1 << 32,
    (1 << 32) + 4,
    1 << 60,
    1 << 61,
    1 << 62,
    (1 << 63) - 1,
    1 << 63,
    (1 << 63) + 4,
    LARGEST // 3,
    pow(3, -1, 1 << 64),
    pow(31, -1, 1 << 64),
    LARGEST - 31,
    LARGEST - 1,
    LARGEST,
]

Figures = collections.namedtuple("Figures", "ticks values parameters")


# The model.


@functools.cache
def walked(n, sweeps):
    """The figures of a run that is not refused. A wire that is set takes a value of the matrix and one of the vectors,
    and a tile off the diagonal receives a parameter along its row and one along its column."""
    N, last = plain.processors(n), 3 * plain.steps_of(n, sweeps)
    tick = values = parameters = 0
    is_running = True
    while is_running:
        is_running = False
        for i, j in array.places(N):
            since = tick - abs(i - j)
            if 0 <= since < last:
                values += 2 * len(array.lines_set(N, i, j, since % 3))
                parameters += 2 if since % 3 == 0 and i != j else 0
            is_running = is_running or since < last
        tick += 1
    return Figures(tick, values, parameters)


def counted(n, sweeps, matrix):
    """The figures of a run of the array, as it counts them itself, and whether it is spoiled."""
    run, ticks = array.start(n, sweeps, matrix), 0
    while array.tick(run)[0] == array.MADE:
        ticks += 1
    return Figures(ticks, run.values_set, run.received), any(tile.mark for tile in run.tiles.values())


# What is checked before anything is written.


def runs():
    """An order, sweeps and a kind of matrix: every order with few sweeps, whole and spoiled, and with more of them."""
    for n in ORDERS:
        for sweeps in range(4):
            yield n, sweeps, plain.ordinary
            yield n, sweeps, plain.spoiled_by_sum
        yield n, 4 + n % 13, plain.spoiled_by_spread
        if 3 <= n <= 12:
            yield n, 3, plain.spoiled_late


def check_run(rng, n, sweeps, kind):
    """Holds a run against the walk, and gives whether it is spoiled."""
    figures, is_spoiled = counted(n, sweeps, kind(rng, n, sweeps))
    assert figures == walked(n, sweeps), (n, sweeps, kind)
    assert is_spoiled == (sweeps > 0 and kind is not plain.ordinary)
    return is_spoiled


def check_runs(rng):
    spoiled = [check_run(rng, *run) for run in runs()]
    print(f"{len(spoiled)} runs of the array counted, {sum(spoiled)} of them spoiled")


# Orders, sweeps and ticks, as 3 S n and the processors.
BOOKED = {(3, 16, 146), (31, 16, 1504)}


def check_ticks():
    for n, sweeps, ticks in array.TICKS | array.ODD_TICKS | BOOKED:
        assert walked(n, sweeps).ticks == ticks


def check_early_ends(rng):
    """Holds whole runs with quiet sweeps against the walk of the sweeps made, and that against the walk of all."""
    cases = [case for case in plain.quiet_runs(rng) if case.n <= 9]
    for case in cases:
        run = array.start(case.n, case.sweeps, case.matrix)
        while array.advance(run) == array.MADE:
            pass
        figures = Figures(run.tick, run.values_set, run.received)
        assert figures == walked(case.n, run.sweeps)
        assert all(least <= most for least, most in zip(figures, walked(case.n, case.sweeps)))
    print(f"{len(cases)} whole runs with quiet sweeps counted")


# The cases.


def cases():
    """All orders to beyond twice the largest with all sweeps to beyond the most, and far numbers."""
    found = [(n, sweeps) for n in range(71) for sweeps in range(21)]
    found += [(n, sweeps) for n in (0, 1, 2, 3, 31, 32, 33) for sweeps in FAR]
    found += [(n, sweeps) for n in FAR for sweeps in (0, 1, 16, 17, *FAR)]
    return found


def answer_of(n, sweeps):
    """The lines of an answer: the refusal, or the figures."""
    number = array.refused_by(n, sweeps)
    return [f"refused {number}\n"] if number else plain.lines_of(walked(n, sweeps))


def all_lines():
    """The lines of each case and of its answer."""
    check_ticks()
    check_runs(random.Random(83))
    check_early_ends(random.Random(84))
    found = cases()
    accepted = sum(array.refused_by(*case) is None for case in found)
    print(f"{len(found)} forecasts, {accepted} of them accepted")
    for case in found:
        yield plain.lines_of(case), answer_of(*case)


def main():
    argparse.ArgumentParser(description=__doc__.split("\n\n")[0], epilog="It takes no arguments.").parse_args()
    list(all_lines())


if __name__ == "__main__":
    main()
