#!/usr/bin/env python3
"""Writes crates/test_runs/stdin and crates/test_runs/stdout: whole runs of the array, runs by hand, single
ticks of wild records and runs by plain sweeps, and what comes of them by document 01, "The array", and document
02, odd orders, quiet sweeps and rounded roots.

The tiles, the wires and the ticks follow the documents: document 01, "The array"; document 000, the
connections and Algorithm Interchange; document 003, Program 3. Tiles, rows and columns are counted from 1
as there. The parameters of a pair, the turn of two values and the matrices are those of plain_vectors.py.
Before anything is written, runs of the array are held against the plain run of that file: results, sweeps made, ticks,
and the sum of what the tiles on the diagonal count against the pairs with a rounded root. Of each kind of cases the even
orders come first, then the odd ones, and last those for ends of the range, for quiet sweeps and for exact turns.

A case begins with a word for its kind.

0, a whole run: the words of a plain run. The answer is the plain run's, with the number of ticks after that of the
   sweeps made, unless it is refused.
1, a run by hand: n, the sweeps, the length of the matrix, the matrix and a number of ticks. The answer is
   the refusal of the start, if it is refused, then what the last tick answered (0 made, 1 stopped,
   2 refused, 3 there was none), and of the last record n, the sweeps, the tick and the N by N tiles, row by
   row.
2, a tick of a wild record: n, the sweeps, the tick, the word that every cell and wire of all tiles holds, and the
   turns and the rounded pairs that each tile has counted, up to 65,535. The answer is that of the tick, followed by its
   number if it is refused, and of the record given back n, the sweeps, the tick and the tiles P_11, P_12, P_21 and
   P_16,16.
3, a run by plain sweeps: n, the sweeps, the lengths of the matrix and of both results, the word that these are
   filled with, and the matrix. The answer is the refusal, or the number of the sweeps made and that of the pairs with a
   rounded root, and both results.

Of a tile these are printed: the cells α β γ δ of the matrix and of the vectors, the wires that leave by
α β γ δ with values of the matrix and of the vectors, the parameter wires along the row and along the
column, the mark, the count of turns in the current sweep, and that of rounded pairs.
"""
import argparse
import functools
import itertools
import math
import pathlib
import random
import sys

sys.dont_write_bytecode = True  # the import below leaves no file
import plain_vectors as plain
from plain_vectors import INFINITY, LARGEST, LAST, NAN, ONE, SIGN, STILL

MOST = 16  # tiles in a row of the record
MOST_COUNTED = 65535
CORNERS = "αβγδ"
OFFSETS = {"α": (0, 0), "β": (0, 1), "γ": (1, 0), "δ": (1, 1)}  # row and column in a 2 by 2 part
MADE, STOPPED, REFUSED, NONE = range(4)
WHOLE, BY_HAND, WILD, PLAIN = range(4)


# The record. The cells of a tile and its outgoing lines are two parts, of the matrix and of the vectors,
# each with a value for each corner.


class Tile:
    def __init__(self, value, turns, rounded):
        self.cells = [dict.fromkeys(CORNERS, value) for _ in range(2)]
        self.lines = [dict.fromkeys(CORNERS, value) for _ in range(2)]
        self.row = self.column = value
        self.mark = False
        self.turns, self.rounded = turns, rounded


class Array:
    """A record with one value in every cell and line, one count of turns and one of rounded pairs in every tile. Tiles
    beyond row and column N are not in use. Beside the record it counts what its ticks do: the values set on matrix and
    vector lines, and the parameters received off the diagonal."""

    def __init__(self, n, sweeps, tick, value, turns=0, rounded=0):
        self.n, self.sweeps, self.tick = n, sweeps, tick
        self.tiles = {(i, j): Tile(value, turns, rounded) for i in range(1, MOST + 1) for j in range(1, MOST + 1)}
        self.values_set = self.received = 0

    @property
    def N(self):
        return plain.processors(self.n)

    @property
    def K(self):
        return plain.steps_of(self.n, self.sweeps)

    def places(self):
        return places(self.N)


@functools.cache
def places(N):
    return [(i, j) for i in range(1, N + 1) for j in range(1, N + 1)]


def start(n, sweeps, matrix):
    """The record of a start that is not refused."""
    array = Array(n, sweeps, 0, 0.0)
    wholes = plain.first_rows(n, matrix)
    for i, j in array.places():
        for part, rows in zip(array.tiles[i, j].cells, wholes):
            for corner, (r, c) in OFFSETS.items():
                part[corner] = rows[2 * i - 2 + r][2 * j - 2 + c]
    return array


def zeros():
    """The record of a refused start."""
    return Array(0, 0, 0, 0.0)


# The wires.

# Where an output leads: the rows and the columns onward, and the input. It is the first of the four whose
# tile there is. Those of β are printed in document 000, and the others are its mirrors.
LEADS = {
    "α": [(-1, -1, "δ"), (0, -1, "β"), (-1, 0, "γ"), (0, 0, "α")],
    "β": [(-1, 1, "γ"), (0, 1, "α"), (-1, 0, "δ"), (0, 0, "β")],
    "γ": [(1, -1, "β"), (0, -1, "δ"), (1, 0, "α"), (0, 0, "γ")],
    "δ": [(1, 1, "α"), (0, 1, "γ"), (1, 0, "β"), (0, 0, "δ")],
}


def end_of(N, i, j, corner):
    """The place and the input that an output of P_ij leads to."""
    for rows, columns, end in LEADS[corner]:
        if 1 <= i + rows <= N and 1 <= j + columns <= N:
            return (i + rows, j + columns), end


@functools.cache
def wires(N):
    """For each place and input the place and the output that lead there."""
    sources = {place: {} for place in places(N)}
    for i, j in places(N):
        for corner in CORNERS:
            place, end = end_of(N, i, j, corner)
            assert end not in sources[place]
            sources[place][end] = (i, j), corner
    return sources


def cells_brought(array, i, j):
    """What the matrix lines and the vector lines bring to P_ij."""
    brought = [{}, {}]
    for end, (place, corner) in wires(array.N)[i, j].items():
        for part, lines in zip(brought, array.tiles[place].lines):
            part[end] = lines[corner]
    return brought


def tangents_brought(array, i, j):
    """What the parameter lines along its row and along its column bring to P_ij, which come from the side
    of the diagonal."""
    inward = -1 if i < j else 1
    return array.tiles[i, j + inward].row, array.tiles[i - inward, j].column


def leaving(i, j):
    """Algorithm Interchange: the cells that leave P_ij by α, β, γ and δ."""
    if i == 1 and j == 1:
        return "αβγδ"
    if i == 1:
        return "βαδγ"
    if j == 1:
        return "γδαβ"
    return "δγβα"


@functools.cache
def lines_set(N, i, j, phase):
    """Program 3: the lines that P_ij sets where T - Δ is the phase (mod 3)."""
    tests = [
        {"β": i > j, "γ": i < j},
        {"α": i == 1 or j == 1, "δ": i == N or j == N},
        {"α": i > 1 and j > 1, "β": i <= j, "γ": i >= j, "δ": i < N and j < N},
    ]
    return [corner for corner, is_set in tests[phase].items() if is_set]


# The rotations.


def angle_of(t):
    """STILL, or the cosine and the sine, from a tangent."""
    if t == 0:
        return STILL
    c = 1 / math.sqrt(1 + t * t)
    return c, t * c


def row_turn(angle, x):
    if angle is STILL:
        return x
    alpha, gamma = plain.turn(*angle, x["α"], x["γ"])
    beta, delta = plain.turn(*angle, x["β"], x["δ"])
    return {"α": alpha, "β": beta, "γ": gamma, "δ": delta}


def column_turn(angle, x):
    if angle is STILL:
        return x
    alpha, beta = plain.turn(*angle, x["α"], x["β"])
    gamma, delta = plain.turn(*angle, x["γ"], x["δ"])
    return {"α": alpha, "β": beta, "γ": gamma, "δ": delta}


def raised(count):
    return min(count + 1, MOST_COUNTED)


def rotate_diagonal(tile, is_still, is_first):
    """Document 02 (vi): the first rotation of a sweep begins the count of turns anew. No sweep begins that of rounded
    pairs anew, document 02 (vii)."""
    matrix, vectors = tile.cells
    a, b, d = matrix["α"], matrix["β"], matrix["δ"]
    found, exact = (STILL, True) if is_still else plain.parameters(a, d, b)
    t = 0.0
    if is_first:
        tile.turns = 0
    if found is not STILL:
        t = found[0]
        a, d = a - t * b, d + t * b
        tile.turns = raised(tile.turns)
    if not exact:
        tile.rounded = raised(tile.rounded)
    tile.cells = [{"α": a, "β": 0.0, "γ": 0.0, "δ": d}, column_turn(angle_of(t), vectors)]
    tile.row = tile.column = t


def rotate_off_diagonal(tile, is_above, row, column):
    """Turns by the tangents that the parameter lines bring, and passes them on."""
    rows, columns = angle_of(row), angle_of(column)
    matrix, vectors = tile.cells
    if is_above:
        matrix = column_turn(columns, row_turn(rows, matrix))
    else:
        matrix = row_turn(rows, column_turn(columns, matrix))
    tile.cells = [matrix, column_turn(columns, vectors)]
    tile.row, tile.column = row, column


# A tick.


def refused_by(n, sweeps):
    """The number of a tick's refusal."""
    if n < 2 or n > 2 * MOST:
        return 1
    return 2 if sweeps > 16 else None


def since_delta(array, i, j):
    """T - Δ of P_ij."""
    return array.tick - abs(i - j)


def is_due(array, i, j):
    """Whether P_ij rotates or stops in this tick."""
    since = since_delta(array, i, j)
    return since % 3 == 0 and 0 <= since <= 3 * array.K


def work(array, i, j, brought):
    """The work of P_ij in a tick. What its lines bring is None unless it rotates or stops."""
    tile, since, last = array.tiles[i, j], since_delta(array, i, j), 3 * array.K
    if since < 0 or since > last:
        return
    if brought and since > 0:
        tile.cells = brought[0]
    if since == last:
        return
    if brought and i == j:
        rotate_diagonal(tile, plain.always_still(array.n, i), since // 3 % plain.steps_of(array.n, 1) == 0)
    elif brought:
        rotate_off_diagonal(tile, i < j, *brought[1])
        array.received += len(brought[1])
    for corner in lines_set(array.N, i, j, since % 3):
        cell = leaving(i, j)[CORNERS.index(corner)]
        for cells, lines in zip(tile.cells, tile.lines):
            lines[corner] = cells[cell]
            array.values_set += 1


def is_finite(tile):
    return all(math.isfinite(value) for part in tile.cells for value in part.values())


def tick(array):
    """Makes a tick, all reads before all writes. Gives the answer, and the number where it is refused."""
    number = refused_by(array.n, array.sweeps)
    if number:
        return REFUSED, number
    if array.tick > 3 * array.K + array.N - 1:
        return STOPPED, None
    brought = {}
    for i, j in array.places():
        if is_due(array, i, j):
            tangents = tangents_brought(array, i, j) if i != j else None
            brought[i, j] = cells_brought(array, i, j), tangents
    for i, j in array.places():
        tile = array.tiles[i, j]
        work(array, i, j, brought.get((i, j)))
        tile.mark = tile.mark or not is_finite(tile)
    array.tick += 1
    return MADE, None


# Whole runs.


def advance(array):
    """Document 02 (vi): makes a tick, and lowers the sweeps if the tick had the last rotations on the diagonal in a quiet
    sweep."""
    step, phase = divmod(array.tick, 3)
    told, _ = tick(array)
    sweep, rest = divmod(step + 1, plain.steps_of(array.n, 1))
    is_last = phase == 0 and rest == 0 and sweep <= array.sweeps
    if told == MADE and is_last and all(array.tiles[i, i].turns == 0 for i in range(1, array.N + 1)):
        array.sweeps = sweep
    return told


def refusal_of(case):
    """The outcome of a case that is refused before a run."""
    unswept = case if case.sweeps > 16 else case._replace(sweeps=0)
    outcome = plain.outcome_of(unswept)
    return None if outcome.number is None else outcome


def whole(array, part):
    """The patterns of the matrix or of the vectors in the cells of real lines."""
    lines = range(2 * array.N)
    rows = [[None] * len(lines) for _ in lines]
    for i, j in array.places():
        for corner, (r, c) in OFFSETS.items():
            rows[2 * i - 2 + r][2 * j - 2 + c] = array.tiles[i, j].cells[part][corner]
    return plain.patterns_of(plain.real_lines(array.n, rows))


def rounded_in(array):
    """What the tiles on the diagonal have counted. The others count nothing."""
    counts = {place: tile.rounded for place, tile in array.tiles.items() if tile.rounded}
    assert all(i == j <= array.N for i, j in counts)
    return sum(counts.values())


def ran(case):
    """The outcome of a run that is not refused before it, and the ticks made."""
    array, ticks = start(case.n, case.sweeps, case.matrix), 0
    while advance(array) == MADE:
        ticks += 1
    told = plain.Outcome(sweeps=array.sweeps, rounded=rounded_in(array))
    if any(tile.mark for tile in array.tiles.values()):
        nothing = [plain.ZERO] * case.n**2
        return told._replace(number=8, result=nothing, vectors=nothing), ticks
    return told._replace(result=whole(array, 0), vectors=whole(array, 1)), ticks


def run(case):
    refusal = refusal_of(case)
    return (refusal, 0) if refusal else ran(case)


# What is checked before anything is written.


def check_wires():
    """Every input has a line, every line is set in one of the phases, and the connections of β are those
    that are printed."""
    for N in range(1, MOST + 1):
        for i, j in places(N):
            assert sorted(wires(N)[i, j]) == sorted(CORNERS)
            assert sorted(sum((lines_set(N, i, j, phase) for phase in range(3)), [])) == sorted(CORNERS)
            if i > 1 and j < N:
                printed = (i - 1, j + 1), "γ"
            elif i == 1 and j < N:
                printed = (i, j + 1), "α"
            elif i > 1 and j == N:
                printed = (i - 1, j), "δ"
            else:
                printed = (i, j), "β"
            assert end_of(N, i, j, "β") == printed


def agreed(case):
    """Holds a run of the array against the plain run, and gives the outcome of both."""
    expected = plain.outcome_of(case)
    outcome, ticks = run(case)
    assert outcome == expected._replace(spoiled=None), case
    is_run = outcome.number in (None, 8)
    assert ticks == (ticks_of(case.n, outcome.sweeps) if is_run else 0)
    return outcome, ticks


def ticks_of(n, sweeps):
    """3 K + N."""
    return 3 * plain.steps_of(n, sweeps) + plain.processors(n)


def check_runs(rng, orders, rounds):
    """Runs of these orders and all numbers of sweeps."""
    cases = [drawn for _ in range(rounds) for drawn in plain.runs(rng, orders)]
    assert {case.n for _, case in cases} == set(orders)
    assert {case.sweeps for _, case in cases} == set(range(17))
    spoiled = sum(agreed(case)[0].number == 8 for _, case in cases)
    finite = len(cases) - spoiled
    print(f"{len(cases)} runs as the plain run: {finite} stay finite, {spoiled} are spoiled and marked")
    print("runs: " + plain.summary(kind.__name__ for kind, _ in cases))


def plain_steps(case):
    """The matrix and the vectors after each step of the plain run, and the lines in the registers."""
    n = case.n
    a, vectors = plain.first_rows(n, case.matrix)
    left, right = plain.first_registers(n)
    for _ in plain.make_steps(n, case.sweeps, a, vectors):
        yield [[row[:] for row in rows] for rows in (a, vectors)], list(zip(left, right))
        left, right = plain.moved(left, right)


def part_at(a, first, rows, columns):
    """The patterns of a matrix that begins with this line at two of its rows and two of its columns."""
    return {corner: bits(a[rows[r] - first][columns[c] - first]) for corner, (r, c) in OFFSETS.items()}


def check_rotations(case):
    """Holds the cells of each tile, those of line 0 too, right after each of its rotations, against the plain run
    after that step, and at the end what the tiles count against the plain run's count, all sweeps being made. Gives the
    number of the rotations."""
    steps, array, count = list(plain_steps(case)), start(case.n, case.sweeps, case.matrix), 0
    first = plain.first_line(case.n)
    while tick(array)[0] == MADE:
        for i, j in array.places():
            k, phase = divmod(since_delta(array, i, j) - 1, 3)
            if phase == 0 and 0 <= k < array.K:
                matrices, pairs = steps[k]
                for cells, rows in zip(array.tiles[i, j].cells, matrices):
                    found = {corner: bits(value) for corner, value in cells.items()}
                    assert found == part_at(rows, first, pairs[i - 1], pairs[j - 1]), (case, i, j, k)
                count += 1
    assert rounded_in(array) == plain.outcome_of(case).rounded
    return count


def check_all_rotations(rng, orders):
    cases = [case for _, case in plain.runs(rng, orders) if case.n <= 14]
    count = sum(check_rotations(case) for case in cases)
    print(f"{count} rotations of tiles in {len(cases)} runs as the plain run's steps, NaNs as one value")


# The cases of whole runs.


def amount(n):
    """How many cases an order gets."""
    if n % 2 == 1:
        return 17 if n == 3 else 6 if n <= 8 else 2 if n <= 16 else 1
    return 12 if n <= 8 else 5 if n <= 16 else 2


def some_runs(rng, orders):
    k = 0
    for n in orders:
        for _ in range(amount(n)):
            kind, sweeps = plain.kind_for(n, k), k % 17
            if kind is plain.spoiled_late:
                sweeps = max(sweeps, 1)
            yield plain.case_of(n, sweeps, kind(rng, n, sweeps))
            k += 1


def whole_runs(rng):
    """Document 01's examples, runs of all sizes, and some of the refusals before a run."""
    for case, outcome in plain.EXAMPLES:
        assert ran(case)[0] == outcome._replace(spoiled=None)
        yield case
    for n, sweeps in [(2, 0), (8, 1), (32, 16)]:
        yield plain.case_of(n, sweeps, plain.ordinary(rng, n, sweeps))
    yield from some_runs(rng, plain.EVEN_ORDERS)
    yield from [case for _, case in plain.refusals(rng)][3::6]


def odd_whole_runs(rng):
    """The same of odd orders."""
    for case, outcome in plain.ODD_EXAMPLES:
        assert ran(case)[0] == outcome._replace(spoiled=None)
        yield case
    for n, sweeps in [(3, 0), (3, 1), (3, 16), (7, 1), (31, 16)]:
        yield plain.case_of(n, sweeps, plain.ordinary(rng, n, sweeps))
    yield from some_runs(rng, plain.ODD_ORDERS)
    yield from [case for _, case in plain.odd_refusals(rng)][::4]


# Orders, sweeps made and ticks by document 01, "The printed sheet" and "Entries to try", and of orders 3 and 7 as 3 S n
# and the processors.
TICKS = {(2, 1, 4), (2, 0, 1), (8, 1, 25)}
ODD_TICKS = {(3, 0, 2), (3, 1, 11), (7, 1, 25)}


def check_variety(made, orders, known_ticks, known_numbers):
    """Whole runs of every order and number of sweeps, known ticks, spoiled runs, every refusal, and runs that end early."""
    sizes = {(case.n, outcome.sweeps, ticks) for case, outcome, ticks in made if ticks > 0}
    assert {n for n, _, _ in sizes} == set(orders)
    assert {case.sweeps for case, _, ticks in made if ticks > 0} == set(range(17))
    assert sizes >= known_ticks
    print(f"{sum(ticks > 0 and outcome.sweeps < case.sweeps for case, outcome, ticks in made)} whole runs end early")
    numbers = [outcome.number or "none" for _, outcome, _ in made]
    assert set(numbers) == {"none", *known_numbers}
    print("whole runs by the number of the refusal: " + plain.summary(numbers))


# The cases of runs by hand: an order, sweeps, a kind of matrix, and numbers of ticks, a case for each.

HAND_RUNS = [
    (2, 0, plain.ordinary, [0, 1, 2]),
    (2, 1, plain.ordinary, [0, 1, 2, 3, 4, 5]),
    (2, 16, plain.signed_zeros, [48, 60]),
    (2, 1, plain.spoiled_by_spread, [1, 2, 4]),
    (4, 0, plain.sparse, [1, 2, 3]),
    (4, 1, plain.ordinary, [1, 2, 3, 4, 5, 10, 11, 12]),
    (4, 2, plain.spoiled_by_turn, [3, 7, 20]),
    (4, 16, plain.whole_numbers, [146, 500]),
    (4, 1, plain.far_diagonals, [1, 2]),
    (6, 1, plain.like_sizes, [2, 3, 5]),
    (6, 1, plain.signed_zeros, [1, 2, 3, 8]),
    (6, 2, plain.sparse, [20, 33, 34]),
    (6, 3, plain.spoiled_late, [30, 48]),
    (8, 1, plain.ordinary, [4, 5, 6, 24, 25, 26]),
    (8, 2, plain.spoiled_by_sum, [1, 3]),
    (10, 2, plain.subnormal, [8, 31]),
    (12, 1, plain.huge, [7, 39]),
    (16, 1, plain.covariances, [8, 30]),
    (20, 1, plain.spoiled_late, [50]),
    (32, 1, plain.ordinary, [46]),
    (32, 2, plain.unlike_sizes, [210]),
]


ODD_HAND_RUNS = [
    (3, 0, plain.ordinary, [0, 1, 2, 3]),
    (3, 1, plain.ordinary, [0, 1, 2, 3, 4, 5, 9, 10, 11, 12]),
    (3, 1, plain.signed_zeros, [1, 2, 3, 8]),
    (3, 2, plain.spoiled_by_turn, [1, 3, 7, 20]),
    (3, 2, plain.spoiled_by_spread, [1, 2, 20]),
    (3, 16, plain.whole_numbers, [146, 500]),
    (5, 0, plain.sparse, [1, 3, 4]),
    (5, 1, plain.ordinary, [1, 2, 3, 4, 17, 18, 19]),
    (5, 2, plain.signed_zeros, [8, 33]),
    (5, 3, plain.spoiled_late, [30, 48]),
    (7, 1, plain.like_sizes, [4, 5, 24, 25, 26]),
    (9, 2, plain.subnormal, [8, 59]),
    (11, 1, plain.huge, [7, 39]),
    (15, 1, plain.covariances, [8, 30]),
    (19, 1, plain.spoiled_late, [50]),
    (31, 1, plain.ordinary, [46]),
    (31, 2, plain.unlike_sizes, [202]),
]


# With counts of turns, and quiet sweeps, after which the ticks go on.
QUIET_HAND_RUNS = [
    (2, 3, plain.diagonal, [1, 4, 10, 11]),
    (2, 3, plain.ordinary, [1, 3, 4, 10]),
    (4, 2, plain.far_lines, [1, 7, 8, 9, 20, 21]),
    (4, 3, plain.whole_numbers, [1, 4, 7, 10, 13, 29]),
    (6, 2, plain.two_groups, [13, 16, 28, 33]),
    (8, 3, plain.zeros_beside, [19, 22, 67, 68]),
    (8, 2, plain.ordinary, [1, 4, 19, 22, 43, 46]),
    (8, 16, plain.covariances, [340, 341]),
    (3, 2, plain.far_lines, [1, 7, 8, 20, 21]),
    (3, 3, plain.spoiled_by_sum, [1, 4, 10, 29]),
    (5, 2, plain.ordinary, [1, 4, 13, 16, 33]),
    (5, 16, plain.spoiled_late, [50, 243]),
    (9, 1, plain.ordinary, [25, 32]),
    (31, 1, plain.ordinary, [91]),
    (32, 1, plain.ordinary, [91]),
]


# With counts of rounded pairs beside those of turns: turns that are exact, and sweeps after which the first goes on and
# the second begins anew.
ROUNDED_HAND_RUNS = [
    (2, 2, plain.exact_turns, [1, 4, 7]),
    (4, 3, plain.exact_turns, [1, 7, 10, 13, 29]),
    (4, 2, plain.larger_steps, [1, 4, 7, 10, 20]),
    (6, 2, plain.partly_exact, [1, 13, 16, 33]),
    (3, 3, plain.exact_turns, [1, 7, 10, 29]),
    (3, 2, plain.larger_steps, [1, 4, 10, 20]),
    (5, 2, plain.partly_exact, [1, 13, 16, 33]),
    (7, 2, plain.larger_steps, [19, 46]),
    (5, 2, plain.spoiled_by_sum, [1, 4, 16, 33]),
]


def given_hand_runs(rng, given):
    """The cases of the starts and the numbers of ticks that are given."""
    for n, sweeps, kind, numbers in given:
        for ticks in numbers:
            yield plain.case_of(n, sweeps, kind(rng, n, sweeps)), ticks


def hand_runs(rng):
    """Runs by hand, and starts that are refused."""
    yield from given_hand_runs(rng, HAND_RUNS)
    yield plain.case_of(0, 1, []), 1
    yield plain.Case(33, 17, plain.ordinary(rng, 3, 0), 9, 9), 2
    yield plain.Case(LAST, 1, plain.ordinary(rng, 2, 0), 4, 4), 0
    yield plain.case_of(4, 17, plain.ordinary(rng, 4, 0)), 3
    yield plain.Case(4, 1, plain.ordinary(rng, 4, 0)[:15], 16, 16), 12
    yield plain.Case(6, 1, plain.ordinary(rng, 6, 0) + [ONE], 36, 36), 1
    yield plain.changed(rng, 4, {(2, 3): INFINITY, (4, 1): NAN}), 0
    yield plain.unequal(rng, 4, [(4, 3, 0), (4, 2, 63)]), 5


def odd_hand_runs(rng):
    """The same of odd orders."""
    yield from given_hand_runs(rng, ODD_HAND_RUNS)
    yield plain.case_of(3, 17, plain.ordinary(rng, 3, 0)), 2
    yield plain.Case(3, 1, plain.ordinary(rng, 4, 0), 9, 9), 1
    yield plain.Case(5, 1, plain.ordinary(rng, 5, 0)[:24], 25, 25), 12
    yield plain.changed(rng, 5, {(5, 5): INFINITY, (3, 3): NAN}), 0
    yield plain.unequal(rng, 3, [(3, 2, 0)]), 5


# The wild records: an order, sweeps and a tick, each with a word from WILD_WORDS and a count. Those of odd orders that
# come last have every word. In those of COUNTING_SIZES a tile rotates, on the diagonal or beside it, at a sweep's first
# step or at another, or none does.

WILD_SIZES = [
    (0, 0, 0),
    (1, 1, 0),
    (3, 1, 4),
    (31, 17, LAST),
    (33, 0, 0),
    (34, 16, 3),
    ((1 << 32) + 2, 1, 0),
    (1 << 63, 0, 1),
    (LAST, LAST, LAST),
    (2, 17, 0),
    (32, 17, 1504),
    (8, 1 << 63, 0),
    (32, LAST, LAST),
    (2, 0, 1),
    (2, 1, 4),
    (8, 1, 25),
    (32, 0, 16),
    (32, 16, 1504),
    (4, 1, 1 << 63),
    (32, 16, LAST),
    (2, 0, 0),
    (2, 1, 0),
    (2, 1, 1),
    (2, 1, 2),
    (2, 1, 3),
    (4, 1, 0),
    (4, 1, 1),
    (4, 1, 9),
    (8, 1, 22),
    (8, 1, 24),
    (32, 0, 15),
    (32, 1, 0),
    (32, 1, 1),
    (32, 16, 700),
    (32, 16, 701),
    (32, 16, 702),
    (32, 16, 703),
    (32, 16, 704),
    (32, 16, 705),
    (32, 16, 706),
    (32, 16, 1488),
    (32, 16, 1489),
    (32, 16, 1503),
]
ODD_WILD_SIZES = [
    (3, 1, 0),
    (3, 1, 3),
    (5, 2, 1),
    (7, 1, 22),
    (31, 1, 0),
    (31, 16, 702),
]
ODD_WILD_ENDS = [
    (3, 0, 1),
    (3, 0, 2),
    (3, 1, 9),
    (3, 1, 10),
    (3, 1, 11),
    (3, 17, 0),
    (5, LAST, 0),
    (7, 1, 24),
    (7, 1, 25),
    (31, 0, 15),
    (31, 0, 16),
    (31, 16, 701),
    (31, 16, 703),
    (31, 16, 1488),
    (31, 16, 1503),
    (31, 16, 1504),
    (31, 16, LAST),
]
COUNTING_SIZES = [
    (2, 2, 0),
    (2, 2, 3),
    (3, 2, 0),
    (3, 2, 3),
    (3, 2, 9),
    (3, 2, 10),
    (4, 2, 0),
    (4, 2, 1),
    (4, 2, 3),
    (4, 2, 4),
    (4, 2, 5),
    (4, 2, 6),
    (4, 2, 9),
    (4, 2, 10),
    (4, 2, 18),
    (8, 1, 18),
    (31, 2, 0),
    (31, 2, 90),
    (31, 2, 93),
    (32, 16, 0),
    (32, 16, 90),
    (32, 16, 93),
    (32, 16, 96),
    (32, 16, 1485),
]
# The pair of P_11 turns with the first word and is still with the second, and again.
COUNTING_WORDS = [ONE, plain.ZERO, NAN, SIGN]
COUNTS = [0, 1, MOST_COUNTED - 1, MOST_COUNTED]
WILD_WORDS = [
    ONE,
    NAN,
    0x3FD3 << 48,
    SIGN,
    LARGEST,
    SIGN + (0x4025 << 48),
    LAST,  # a NaN
    1,
    SIGN + INFINITY,
    0x5FF << 52,  # the square of this is infinite
    INFINITY,
]


# The files.


def bits(value):
    return NAN if math.isnan(value) else plain.pattern_of(value)


def words_of(tile):
    parts = [bits(part[corner]) for part in tile.cells + tile.lines for corner in CORNERS]
    return [*parts, bits(tile.row), bits(tile.column), int(tile.mark), tile.turns, tile.rounded]


def record_of(array, shown):
    tiles = [words_of(array.tiles[place]) for place in shown]
    return [array.n, array.sweeps, array.tick, *sum(tiles, [])]


def whole_run_lines(case, outcome, ticks, fill):
    """The lines of a whole run and of its answer."""
    return plain.lines_of([WHOLE, *plain.head(case, fill), *case.matrix]), plain.answer_of(case, fill, outcome, ticks)


def hand_run_lines(case, ticks):
    """The lines of a run by hand and of its answer. Every tick after a refused start is refused by 1."""
    agreed(case)
    refusal = refusal_of(case)
    array = zeros() if refusal else start(case.n, case.sweeps, case.matrix)
    told = NONE
    for _ in range(ticks):
        told, number = tick(array)
        assert number == (1 if refusal else None)
    answer = plain.answer_of(case._replace(result_size=0, vectors_size=0), 0, refusal) if refusal else []
    words = [BY_HAND, case.n, case.sweeps, len(case.matrix), *case.matrix, ticks]
    return plain.lines_of(words), answer + plain.lines_of([told, *record_of(array, array.places())])


def wild_lines(n, sweeps, now, word, turns, rounded):
    array = Array(n, sweeps, now, plain.value_of(word), turns, rounded)
    told, refusal = tick(array)
    answer = [told] if refusal is None else [told, refusal]
    record = record_of(array, [(1, 1), (1, 2), (2, 1), (MOST, MOST)])
    return plain.lines_of([WILD, n, sweeps, now, word, turns, rounded]), plain.lines_of(answer + record)


def lines_of_wholes(cases, rng, *known):
    """The lines of whole runs and of their answers."""
    made = [(case, *agreed(case)) for case in cases]
    check_variety(made, *known)
    return [whole_run_lines(*drawn, fill) for drawn, fill in zip(made, plain.finite_patterns(rng))]


def some_counts(rng):
    """Those of COUNTS by turns, and random ones."""
    while True:
        yield from [*COUNTS, rng.randint(0, MOST_COUNTED)]


def wilds(rng, rounded):
    """A size, a tick, a word and two counts of each wild record."""
    words, counts = itertools.cycle(WILD_WORDS), some_counts(rng)
    for sizes in WILD_SIZES + ODD_WILD_ENDS:
        yield *sizes, next(words), next(counts), next(rounded)
    for sizes in ODD_WILD_SIZES:
        for word in WILD_WORDS:
            yield *sizes, word, next(counts), next(rounded)
    for sizes in COUNTING_SIZES:
        for word in COUNTING_WORDS[:2]:
            for turns in COUNTS[2:]:
                yield *sizes, word, turns, next(rounded)
        for word in COUNTING_WORDS[2:]:
            yield *sizes, word, next(counts), next(rounded)


def check_counts(drawn):
    """Each count is at its end or one below it, with the other so too, where the pair of P_11 turns and is rounded: in a
    sweep's first step and in another."""
    for is_first in (True, False):
        found = set()
        for n, sweeps, now, word, turns, rounded in drawn:
            if n in plain.EVEN_ORDERS and sweeps <= 16 and now % 3 == 0 and now < 3 * plain.steps_of(n, sweeps):
                if word == ONE and (now // 3 % plain.steps_of(n, 1) == 0) == is_first:
                    found.add((turns, rounded))
        assert found >= set(itertools.product(COUNTS[2:], repeat=2))


def lines_of_wilds(rng, rounded_rng):
    """The lines of wild records and of their answers."""
    drawn = list(wilds(rng, some_counts(rounded_rng)))
    check_counts(drawn)
    return [wild_lines(*record) for record in drawn]


def all_lines(rng, odd_rng):
    """The lines of each case and of its answer."""
    wholes = lines_of_wholes(whole_runs(rng), rng, plain.EVEN_ORDERS, TICKS, {1, 2, 3, 5, 6, 8})
    wholes += lines_of_wholes(odd_whole_runs(odd_rng), odd_rng, plain.ODD_ORDERS, ODD_TICKS, {2, 3, 5, 6, 8})
    end_rng = random.Random(1074)
    ends = [(case, *agreed(case)) for case in plain.ends_of_range(end_rng)]
    wholes += [whole_run_lines(*drawn, fill) for drawn, fill in zip(ends, plain.finite_patterns(end_rng))]
    quiet_rng = random.Random(9)
    quiet = [(case, *agreed(case)) for case in plain.quiet_runs(quiet_rng)]
    wholes += [whole_run_lines(*drawn, fill) for drawn, fill in zip(quiet, plain.finite_patterns(quiet_rng))]
    rounded_rng = random.Random(2019)
    rounded = [(case, *agreed(case)) for case in plain.rounded_runs(rounded_rng)]
    wholes += [whole_run_lines(*drawn, fill) for drawn, fill in zip(rounded, plain.finite_patterns(rounded_rng))]
    hands = [hand_run_lines(*drawn) for drawn in [*hand_runs(rng), *odd_hand_runs(odd_rng)]]
    hands += [hand_run_lines(*drawn) for drawn in given_hand_runs(quiet_rng, QUIET_HAND_RUNS)]
    hands += [hand_run_lines(*drawn) for drawn in given_hand_runs(rounded_rng, ROUNDED_HAND_RUNS)]
    ticks = lines_of_wilds(random.Random(MOST_COUNTED), random.Random(754))
    print(f"{len(wholes)} whole runs, {len(hands)} runs by hand, {len(ticks)} wild records")
    plains = [(plain.lines_of([PLAIN]) + lines, answer) for lines, answer in plain.all_lines()]
    return wholes + hands + ticks + plains


def main():
    argparse.ArgumentParser(description=__doc__.split("\n\n")[0], epilog="It takes no arguments.").parse_args()
    rng, odd_rng = random.Random(1985), random.Random(2003)
    check_wires()
    check_runs(rng, plain.EVEN_ORDERS, 3)
    check_all_rotations(rng, plain.EVEN_ORDERS)
    check_runs(odd_rng, plain.ODD_ORDERS, 2)
    check_all_rotations(odd_rng, plain.ODD_ORDERS)
    made = all_lines(rng, odd_rng)
    crate = pathlib.Path(__file__).resolve().parent.parent / "crates" / "test_runs"
    for name, side in [("stdin", 0), ("stdout", 1)]:
        text = "".join(line for lines in made for line in lines[side])
        (crate / name).write_text(text, encoding="ascii")


if __name__ == "__main__":
    main()
