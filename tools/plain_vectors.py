"""Orders, sweeps and matrices, and what the plain run makes of them by document 01, "One rotation",
"Pairs and their movement" and "Refused, by place", and document 02, odd orders, quiet sweeps and rounded roots.
array_vectors.py writes them to files; run alone, this file only makes and checks them, and prints how many there are.

The model makes all the sweeps that are asked for, whatever they do. A sweep is quiet if every pair in it was still, and
what it leaves, and how many pairs had a rounded root up to its end, is held to what the last sweep leaves.

The arithmetic is that of Python's float, which is binary64 rounded to nearest. No operation here is
fused with another, and none divides by zero. Whether a root is exact is told by its square as a fraction.
"""
import argparse
import collections
import math
import random
import struct

HIDDEN = 1 << 52  # the leading digit of a normal value, which its pattern leaves out
SIGN = 1 << 63
INFINITY = 0x7FF << 52
NAN = 0x7FF8 << 48
ZERO = 0
ONE = 0x3FF << 52
TWO = 0x4000 << 48
THREE = 0x4008 << 48
HALF_ROOT = 0x3FE6A09E667F3BCC  # as document 01 prints it
LARGEST = INFINITY - 1
TOP = 2046  # the exponent field of the largest values
MOST_SWEEPS = 16
LAST = (1 << 64) - 1  # of a usize
STILL = None

# An order, sweeps, the patterns of a matrix, and the lengths of the two results.
Case = collections.namedtuple("Case", "n sweeps matrix result_size vectors_size")

# What a run answers: the number of its refusal, and its row and column, if it has them; the patterns of
# the two results, or None where they keep what they hold; the step that spoils it, from 0; the sweeps made, up to
# the first quiet one, and the number of the pairs with a rounded root in them, also of a spoiled run, whose answer does
# not tell them.
Outcome = collections.namedtuple("Outcome", "number place result vectors spoiled sweeps rounded", defaults=[None] * 7)


def value_of(pattern):
    return struct.unpack(">d", pattern.to_bytes(8, "big"))[0]


def pattern_of(value):
    return int.from_bytes(struct.pack(">d", value), "big")


def case_of(n, sweeps, matrix):
    return Case(n, sweeps, matrix, n * n, n * n)


# From document 01, "The printed sheet" and "Entries to try", with the outcome of each. The third is the
# second with -0.
EXAMPLES = [
    (
        case_of(2, 1, [ONE, ONE, ONE, ONE]),
        Outcome(
            result=[ZERO, ZERO, ZERO, TWO],
            vectors=[HALF_ROOT, HALF_ROOT, SIGN + HALF_ROOT, HALF_ROOT],
            sweeps=1,
            rounded=1,
        ),
    ),
    (
        case_of(2, 1, [ONE, ZERO, ZERO, THREE]),
        Outcome(result=[ONE, ZERO, ZERO, THREE], vectors=[ONE, ZERO, ZERO, ONE], sweeps=1, rounded=0),
    ),
    (
        case_of(2, 1, [ONE, SIGN, SIGN, THREE]),
        Outcome(result=[ONE, ZERO, ZERO, THREE], vectors=[ONE, ZERO, ZERO, ONE], sweeps=1, rounded=0),
    ),
    (
        case_of(2, 1, [LARGEST] * 4),
        Outcome(number=8, result=[ZERO] * 4, vectors=[ZERO] * 4, spoiled=0, sweeps=1, rounded=1),
    ),
]

# The same of order 3, by hand: two lines that are alike beside a third. Lines 2 and 3 meet in the first step, 1 and 2
# in the second, and in the last line 3 is the left one and line 1 the right. The pair of two lines that are alike has the
# roots of 1 and of 2. In the last example the first pair makes entries of line 3 infinite, and the last has no tangent.
ODD_EXAMPLES = [
    (
        case_of(3, 1, [THREE, ZERO, ZERO, ZERO, ONE, ONE, ZERO, ONE, ONE]),
        Outcome(
            result=[THREE, ZERO, ZERO, ZERO, ZERO, ZERO, ZERO, ZERO, TWO],
            vectors=[ONE, ZERO, ZERO, ZERO, HALF_ROOT, HALF_ROOT, ZERO, SIGN + HALF_ROOT, HALF_ROOT],
            sweeps=1,
            rounded=1,
        ),
    ),
    (
        case_of(3, 1, [ONE, ONE, ZERO, ONE, ONE, ZERO, ZERO, ZERO, THREE]),
        Outcome(
            result=[ZERO, ZERO, ZERO, ZERO, TWO, ZERO, ZERO, ZERO, THREE],
            vectors=[HALF_ROOT, HALF_ROOT, ZERO, SIGN + HALF_ROOT, HALF_ROOT, ZERO, ZERO, ZERO, ONE],
            sweeps=1,
            rounded=1,
        ),
    ),
    (
        case_of(3, 1, [ONE, ZERO, ONE, ZERO, THREE, ZERO, ONE, ZERO, ONE]),
        Outcome(
            result=[TWO, ZERO, ZERO, ZERO, THREE, ZERO, ZERO, ZERO, ZERO],
            vectors=[HALF_ROOT, ZERO, SIGN + HALF_ROOT, ZERO, ONE, ZERO, HALF_ROOT, ZERO, HALF_ROOT],
            sweeps=1,
            rounded=1,
        ),
    ),
    (
        case_of(3, 1, [ONE, SIGN, ZERO, SIGN, THREE, SIGN, ZERO, SIGN, TWO]),
        Outcome(
            result=[ONE, ZERO, ZERO, ZERO, THREE, ZERO, ZERO, ZERO, TWO],
            vectors=[ONE, ZERO, ZERO, ZERO, ONE, ZERO, ZERO, ZERO, ONE],
            sweeps=1,
            rounded=0,
        ),
    ),
    (
        case_of(3, 1, [LARGEST] * 9),
        Outcome(number=8, result=[ZERO] * 9, vectors=[ZERO] * 9, spoiled=0, sweeps=1, rounded=2),
    ),
]


# The model. A matrix is a list of rows. In a run its lines are those in the registers, counted from 0: of an odd order
# line 0 and the real ones, of an even order the real ones from line 1 on.


def first_line(n):
    return 1 - n % 2


def processors(n):
    return (n + 1) // 2


def steps_of(n, sweeps):
    return sweeps * (n if n % 2 == 1 else n - 1)


def always_still(n, k):
    """Whether processor k is still whatever its cells hold."""
    return n % 2 == 1 and k == 1


def is_kept(a, d, b):
    """Whether document 02 (v) has it that xi keeps the bits that it had by document 01."""
    halved = all(x == 0 or abs(x) >= 2.0**-1021 for x in (a, d))
    return halved and math.isfinite(d - a) and math.isfinite(2 * b)


def first_quotient(a, d, b):
    """xi as document 01 had it."""
    return (d - a) / (2 * b)


def quotient(a, d, b):
    """xi by document 02 (v), whose theorem is held to every pair."""
    xi = (d / 2 - a / 2) / b
    assert not is_kept(a, d, b) or pattern_of(xi) == pattern_of(first_quotient(a, d, b))
    return xi


def is_exact(x, root):
    """Whether the root of a value above zero, or of +infinity, is exact. Python's fractions are in lowest terms."""
    if math.isinf(x):
        return True
    (numerator, denominator), (above, below) = x.as_integer_ratio(), root.as_integer_ratio()
    return above * above == numerator and below * below == denominator


def parameters(a, d, b, xi_of=quotient):
    """STILL, or the tangent, the cosine and the sine; and whether both roots were exact."""
    if b == 0:
        return STILL, True
    xi = xi_of(a, d, b)
    sign = -1.0 if xi < 0 else 1.0
    first = math.sqrt(1 + xi * xi)
    t = sign / (abs(xi) + first)
    second = math.sqrt(1 + t * t)
    exact = not math.isnan(t) and is_exact(1 + xi * xi, first) and is_exact(1 + t * t, second)
    if t == 0:
        assert exact
        return STILL, exact
    c = 1 / second
    return (t, c, t * c), exact


def turn(c, s, x, y):
    return c * x - s * y, s * x + c * y


def turn_pair(a, vectors, p, q, is_still, xi_of=quotient):
    """Gives the pair of the lines p and q its parameters, its row turn and its column turn, and tells whether it turned
    and whether its roots were exact."""
    pp, qq, pq = a[p][p], a[q][q], a[p][q]
    found, exact = (STILL, True) if is_still else parameters(pp, qq, pq, xi_of)
    if found is not STILL:
        t, c, s = found
        others = [r for r in range(len(a)) if r not in (p, q)]
        for r in others:
            a[p][r], a[q][r] = turn(c, s, a[p][r], a[q][r])
        for r in others:
            a[r][p], a[r][q] = turn(c, s, a[r][p], a[r][q])
        a[p][p], a[q][q] = pp - t * pq, qq + t * pq
        for row in vectors:
            row[p], row[q] = turn(c, s, row[p], row[q])
    a[p][q] = a[q][p] = 0.0
    return found is not STILL, exact


def moved(left, right):
    """What the registers hold after a step."""
    if len(left) == 1:
        return left, right
    return [left[0], right[0], *left[1:-1]], [*right[1:], left[-1]]


def first_registers(n):
    first = first_line(n)
    return list(range(first, n, 2)), list(range(first + 1, n + 1, 2))


def make_steps(n, sweeps, a, vectors, xi_of=quotient):
    """Makes the steps of a run, and stops after each with the number of the pairs that turned in it and that of the pairs
    with a rounded root."""
    first, (left, right) = first_line(n), first_registers(n)
    for _ in range(steps_of(n, sweeps)):
        turns = rounded = 0
        for k, (p, q) in enumerate(zip(left, right), 1):
            turned, exact = turn_pair(a, vectors, p - first, q - first, always_still(n, k), xi_of)
            turns += turned
            rounded += not exact
        yield turns, rounded
        left, right = moved(left, right)


def rows_of(n, matrix):
    values = [value_of(pattern) for pattern in matrix]
    return [values[i * n : i * n + n] for i in range(n)]


def identity(n):
    return [[float(i == j) for j in range(n)] for i in range(n)]


def with_line_0(n, rows):
    """The rows of a run from those of the real lines: of an odd order line 0 is +0 throughout."""
    if n % 2 == 0:
        return rows
    return [[0.0] * (n + 1), *([0.0, *row] for row in rows)]


def real_lines(n, rows):
    """The rows of the real lines."""
    return [row[n % 2 :] for row in rows[n % 2 :]]


def first_rows(n, matrix):
    """The matrix and the eigenvectors before a run."""
    return with_line_0(n, rows_of(n, matrix)), with_line_0(n, identity(n))


def patterns_of(a):
    return [pattern_of(value) for row in a for value in row]


def all_finite(a):
    return all(math.isfinite(value) for row in a for value in row)


def ran(n, sweeps, matrix, xi_of=quotient):
    """The outcome of a run that is not refused before it. A real line is not finite wherever line 0 is not."""
    a, vectors = first_rows(n, matrix)
    spoiled, turns, rounded, quiet = None, 0, 0, None
    for step, (turned, with_rounded) in enumerate(make_steps(n, sweeps, a, vectors, xi_of)):
        is_finite = all_finite(a) and all_finite(vectors)
        assert is_finite == (all_finite(real_lines(n, a)) and all_finite(real_lines(n, vectors)))
        assert spoiled is None or not is_finite
        if not is_finite and spoiled is None:
            spoiled = step
        turns += turned
        rounded += with_rounded
        sweep, rest = divmod(step + 1, steps_of(n, 1))
        if rest == 0:
            if turns == 0 and quiet is None:
                quiet = sweep, (rounded, patterns_of(a + vectors))
            turns = 0
    made = sweeps
    if quiet:
        made, left = quiet
        assert (rounded, patterns_of(a + vectors)) == left
    told = Outcome(spoiled=spoiled, sweeps=made, rounded=rounded)
    if spoiled is not None:
        return told._replace(number=8, result=[ZERO] * n * n, vectors=[ZERO] * n * n)
    return told._replace(result=patterns_of(real_lines(n, a)), vectors=patterns_of(real_lines(n, vectors)))


def first_place(n, is_bad):
    """The row and the column, from 1, of the first entry in row order that is bad."""
    for i in range(n):
        for j in range(n):
            if is_bad(i, j):
                return i + 1, j + 1
    return None


def outcome_of(case):
    """The refusals in the order of document 01's table, and then the run."""
    n, sweeps, matrix = case.n, case.sweeps, case.matrix
    if n < 2 or n > 32:
        return Outcome(number=1)
    if sweeps > MOST_SWEEPS:
        return Outcome(number=2)
    if any(size != n * n for size in (len(matrix), case.result_size, case.vectors_size)):
        return Outcome(number=3)
    place = first_place(n, lambda i, j: matrix[i * n + j] % SIGN >= INFINITY)
    if place:
        return Outcome(number=5, place=place)
    place = first_place(n, lambda i, j: i < j and matrix[i * n + j] != matrix[j * n + i])
    if place:
        return Outcome(number=6, place=place)
    return ran(n, sweeps, matrix)


# The matrices of runs, by kind. Each is made for an order and a number of sweeps.


def within(rng, low, high):
    """A random value of either sign, its exponent field from low to high."""
    size = rng.randint(low, high) * HIDDEN + rng.getrandbits(52)
    return value_of(rng.getrandbits(1) * SIGN + size)


def mirrored(n, entry):
    """The patterns of the matrix with these values in its upper triangle."""
    upper = {(i, j): pattern_of(entry(i, j)) for i in range(n) for j in range(i, n)}
    return [upper[min(i, j), max(i, j)] for i in range(n) for j in range(n)]


def ordinary(rng, n, _):
    return mirrored(n, lambda i, j: rng.uniform(-1, 1))


def like_sizes(rng, n, _):
    return mirrored(n, lambda i, j: within(rng, 1013, 1033))


def unlike_sizes(rng, n, _):
    return mirrored(n, lambda i, j: within(rng, 963, 1083))


def covariances(rng, n, _):
    samples = [[rng.uniform(-1, 1) for _ in range(n)] for _ in range(n + 2)]
    return mirrored(n, lambda i, j: math.fsum(row[i] * row[j] for row in samples) / (n + 1))


def whole_numbers(rng, n, _):
    return mirrored(n, lambda i, j: float(rng.randint(-9, 9)))


def diagonal(rng, n, _):
    return mirrored(n, lambda i, j: within(rng, 0, TOP) if i == j else 0.0)


def zero(_, n, __):
    return mirrored(n, lambda i, j: 0.0)


def all_equal(rng, n, _):
    value = within(rng, 900, 1100)
    return mirrored(n, lambda i, j: value)


def nearly_diagonal(rng, n, _):
    """Eigenvalues close to 1 or 2."""
    return mirrored(n, lambda i, j: (i == j) * rng.randint(1, 2) + within(rng, 973, 993))


def reflected(rng, n, _):
    """Eigenvalues close to 1 or 5, in directions that are no axes."""
    v = [rng.uniform(-1, 1) for _ in range(n)]
    size = math.fsum(x * x for x in v)
    values = [rng.choice((1, 5)) + rng.uniform(0, 1e-9) for _ in range(n)]
    axes = [[(i == k) - 2 * v[i] * v[k] / size for k in range(n)] for i in range(n)]
    return mirrored(n, lambda i, j: math.fsum(map(math.prod, zip(axes[i], axes[j], values))))


def huge(rng, n, _):
    """Values near the top of the range, and still none that can leave it."""
    field = TOP - 1 - n.bit_length()
    return mirrored(n, lambda i, j: within(rng, field - 3, field))


def far_diagonals(rng, n, _):
    """Differences of the diagonal that overflow or nearly do, so that pairs are still and cleared."""
    return mirrored(n, lambda i, j: within(rng, TOP, TOP) if i == j else within(rng, 1000, 1040))


def first_pairs(rng, n, _):
    """Only the first pairs' entries, so large that twice of each overflows."""
    less = n % 2
    return mirrored(n, lambda i, j: within(rng, TOP, TOP) if (i + less) // 2 == (j + less) // 2 and i < j else 0.0)


def tiny(rng, n, _):
    return mirrored(n, lambda i, j: within(rng, 1, 60))


def subnormal(rng, n, _):
    return mirrored(n, lambda i, j: within(rng, 0, 0))


def least(rng, n, _):
    """A few of the least units, and zeros of either sign."""
    return mirrored(n, lambda i, j: value_of(rng.getrandbits(1) * SIGN + rng.randint(0, 3)))


def signed_zeros(rng, n, _):
    return mirrored(n, lambda i, j: rng.choice((0.0, -0.0)))


def sparse(rng, n, _):
    """Zeros of either sign, and an ordinary value here and there."""
    choices = (0.0, -0.0, -0.0)
    return mirrored(n, lambda i, j: rng.uniform(-1, 1) if rng.random() < 0.15 else rng.choice(choices))


def any_size(rng, n, _):
    return mirrored(n, lambda i, j: within(rng, 0, TOP))


def top(rng, n, _):
    return mirrored(n, lambda i, j: within(rng, TOP - 2, TOP))


def put(n, matrix, i, j, pattern):
    matrix[i * n + j] = matrix[j * n + i] = pattern


def spoiled_by_sum(rng, n, sweeps):
    """A pair of the first step whose new a_qq overflows."""
    matrix = ordinary(rng, n, sweeps)
    p = n % 2 + 2 * rng.randrange(n // 2)
    for i, j in [(p, p), (p + 1, p + 1), (p, p + 1)]:
        put(n, matrix, i, j, LARGEST - rng.getrandbits(50))
    return matrix


def spoiled_by_spread(rng, n, sweeps):
    """A pair of the first step whose diagonal entries lie farther apart than any finite value is large: its turn
    takes them beyond the range."""
    matrix = ordinary(rng, n, sweeps)
    p = n % 2 + 2 * rng.randrange(n // 2)
    sign = rng.getrandbits(1)
    put(n, matrix, p, p, sign * SIGN + LARGEST - rng.getrandbits(50))
    put(n, matrix, p + 1, p + 1, (1 - sign) * SIGN + LARGEST - rng.getrandbits(50))
    put(n, matrix, p, p + 1, rng.getrandbits(1) * SIGN + LARGEST - rng.getrandbits(50))
    return matrix


def spoiled_by_turn(rng, n, sweeps):
    """A pair of the first step that turns by 45 degrees, and beside it two large values that no pair
    before it turns (order 3 on). Line 1 of an odd order is in no pair that turns."""
    matrix = ordinary(rng, n, sweeps)
    p = n % 2 + 2 * rng.randrange((n - 1) // 2)
    r = rng.randrange(p + 2, n + n % 2) % n
    put(n, matrix, p, p, ZERO)
    put(n, matrix, p + 1, p + 1, ZERO)
    put(n, matrix, p, p + 1, ONE)
    for line in (p, p + 1):
        put(n, matrix, line, r, LARGEST - rng.getrandbits(50))
    return matrix


def heights(n, sweeps, matrix):
    """The largest size of an entry up to each step, at first and then after each."""
    a, vectors = first_rows(n, matrix)
    size = max(abs(value) for row in a for value in row)
    found = [size]
    for _ in make_steps(n, sweeps, a, vectors):
        size = max(size, *(abs(value) for row in a for value in row))
        found.append(size)
    return found


def spoiled_late(rng, n, sweeps):
    """A matrix scaled so that a step after the first spoils it, and none before, often a step after the
    first sweep (order 3 and a sweep on). It is chosen by document 01's xi, as it was before document 02 (v)."""
    while True:
        v = [rng.uniform(1, 2) for _ in range(n)]
        matrix = mirrored(n, lambda i, j: v[i] * v[j] + rng.uniform(-0.5, 0.5))
        sizes = heights(n, sweeps, matrix)
        grown = [step for step in range(1, len(sizes) - 1) if sizes[step + 1] > sizes[step]]
        later = [step for step in grown if step >= steps_of(n, 1)]
        if later and rng.randrange(3) > 0:
            grown = later
        if not grown:
            continue
        step = rng.choice(grown)
        scale = value_of(LARGEST) / math.sqrt(sizes[step] * sizes[step + 1])
        scaled = [pattern_of(value_of(pattern) * scale) for pattern in matrix]
        if (ran(n, sweeps, scaled, first_quotient).spoiled or 0) > 0:
            return scaled


KINDS = [
    ordinary,
    spoiled_late,
    whole_numbers,
    signed_zeros,
    like_sizes,
    nearly_diagonal,
    spoiled_late,
    huge,
    spoiled_by_sum,
    sparse,
    subnormal,
    covariances,
    spoiled_late,
    far_diagonals,
    unlike_sizes,
    spoiled_by_turn,
    all_equal,
    tiny,
    reflected,
    top,
    diagonal,
    spoiled_by_spread,
    least,
    any_size,
    first_pairs,
    zero,
]
FIRST_STEP = {spoiled_by_sum, spoiled_by_spread, spoiled_by_turn}
MAY_SPOIL = FIRST_STEP | {spoiled_late, top, any_size, far_diagonals}
# Kinds whose results are for the most part plain, left out where a matrix is large.
PLAIN = FIRST_STEP | {zero, diagonal, signed_zeros, first_pairs, far_diagonals, top}
LARGE_KINDS = [kind for kind in dict.fromkeys(KINDS) if kind not in PLAIN]


EVEN_ORDERS = range(2, 33, 2)
ODD_ORDERS = range(3, 32, 2)


def amount(n):
    """How many cases an order gets."""
    if n % 2 == 1:
        return 34 if n == 3 else 17 if n <= 8 else 5 if n <= 16 else 2
    return 36 if n <= 8 else 15 if n <= 16 else 5


def kind_for(n, k):
    """The kind of the case k of all. Order 2 has one pair, which no value stands beside and which is
    still after its first turn."""
    kinds = KINDS if n <= 16 else LARGE_KINDS
    kind = kinds[k % len(kinds)]
    return spoiled_by_sum if n == 2 and kind in (spoiled_late, spoiled_by_turn) else kind


def runs(rng, orders):
    """The kind and the case of each run, over these orders and all numbers of sweeps."""
    k = 0
    for n in orders:
        for _ in range(amount(n)):
            kind = kind_for(n, k)
            sweeps = k % 17
            if kind is spoiled_late:
                sweeps = max(sweeps, 1)
            yield kind, case_of(n, sweeps, kind(rng, n, sweeps))
            k += 1


# The refusals before a run.


def refused_orders(rng):
    """Some with lengths of n * n, also as a product that wraps around would have it."""
    small = [(0, 0), (1, 1), (33, 9), (35, 25), (63, 4), (33, 4), (34, 1156), (36, 4), (258, 4)]
    large = [(1 << 32, 0), ((1 << 32) + 2, 4), (1 << 63, 0), (LAST - 1, 4), (LAST, 1)]
    for n, size in small + large:
        yield Case(n, 1, [pattern_of(rng.uniform(-1, 1)) for _ in range(size)], size, size)


def refused_sweeps(rng):
    for sweeps in [17, 18, 255, 256, 1 << 32, 1 << 63, LAST]:
        yield case_of(4, sweeps, ordinary(rng, 4, 0))


def refused_lengths(rng):
    """Each slice in turn too short, too long and empty, then several at once."""
    for n in (2, 4, 8):
        for place in range(3):
            for size in (n * n - 1, n * n + 1, 0):
                sizes = [n * n] * 3
                sizes[place] = size
                yield sized(rng, n, sizes)
    for sizes in [(0, 0, 0), (4, 4, 4), (36, 36, 36), (15, 17, 16), (17, 15, 16), (16, 15, 17)]:
        yield sized(rng, 4, sizes)
    yield sized(rng, 32, (1024, 1024, 1025))


def sized(rng, n, sizes):
    matrix_size, result_size, vectors_size = sizes
    words = ordinary(rng, n, 0) + ordinary(rng, 6, 0)
    return Case(n, 1, words[:matrix_size], result_size, vectors_size)


def changed(rng, n, changes):
    """An ordinary matrix with the patterns at some rows and columns changed, these counted from 1."""
    matrix = ordinary(rng, n, 0)
    for (i, j), pattern in changes.items():
        matrix[(i - 1) * n + (j - 1)] = pattern
    return case_of(n, rng.randint(0, 16), matrix)


def refused_values(rng):
    """NaNs and infinities in each part of a matrix: alone, with the mirror entry, and with others."""
    values = [NAN, SIGN + NAN, INFINITY + 1, SIGN - 1, LAST, INFINITY, SIGN + INFINITY]
    k = 0
    for n in (2, 4, 6):
        m = n // 2
        places = [(1, 1), (1, n), (m, m), (m, m + 1), (m + 1, m), (n, 1), (n, n - 1), (n, n)]
        for place in places:
            yield changed(rng, n, {place: values[k % len(values)]})
            k += 1
    for value in values:
        yield changed(rng, 4, {(2, 3): value, (3, 2): value})
    yield changed(rng, 4, {(1, 4): NAN, (2, 1): INFINITY})
    yield changed(rng, 4, {(3, 2): INFINITY, (2, 4): NAN})
    yield changed(rng, 4, {(4, 1): SIGN + INFINITY, (3, 4): NAN, (4, 4): NAN})
    yield changed(rng, 4, {(i, j): NAN for i in range(1, 5) for j in range(1, 5)})
    yield changed(rng, 32, {(32, 32): INFINITY})


def unequal(rng, n, places):
    """An ordinary matrix with a bit changed at some places, each a row, a column and the bit."""
    matrix = ordinary(rng, n, 0)
    for i, j, bit in places:
        matrix[(i - 1) * n + (j - 1)] ^= 1 << bit
    return case_of(n, rng.randint(0, 16), matrix)


def refused_mirrors(rng):
    """Pairs that differ in a bit, or in the sign of zero, above and below the diagonal."""
    for bit in (0, 1, 31, 51, 52, 63):
        yield unequal(rng, 2, [(1, 2, bit)])
        yield unequal(rng, 4, [(3, 2, bit)])
    for n in (4, 6, 8):
        for i, j in [(1, 2), (1, n), (2, 3), (n - 1, n)]:
            yield unequal(rng, n, [(i, j, 0)])
            yield unequal(rng, n, [(j, i, 0)])
    yield unequal(rng, 4, [(1, 4, 0), (2, 3, 0)])
    yield unequal(rng, 4, [(4, 2, 0), (4, 3, 0), (4, 1, 0)])
    yield unequal(rng, 6, [(6, 5, 0), (4, 3, 0), (5, 2, 0)])
    yield unequal(rng, 16, [(16, 15, 0)])
    for n, i, j in [(2, 1, 2), (4, 2, 4), (6, 1, 6)]:
        yield changed(rng, n, {(i, j): ZERO, (j, i): SIGN})
        yield changed(rng, n, {(i, j): SIGN, (j, i): ZERO})


def several_reasons(rng):
    """Cases with more than one reason, which show the order of the tests, and the number of each."""
    good = ordinary(rng, 4, 0)
    bad = [NAN, *good[1:]]
    unlike = [good[0], good[1] ^ 1, *good[2:]]
    both = [*unlike[:14], INFINITY, unlike[15]]
    large = [LARGEST] * 16
    yield 1, Case(33, 17, good[:9], 9, 9)
    yield 1, Case(1, 17, good[:8], 7, 6)
    yield 1, Case(33, 1, bad, 16, 16)
    yield 1, Case(34, 1, good, 16, 16)
    yield 1, Case(0, LAST, [], 4, 0)
    yield 2, Case(4, 17, good[:15], 16, 16)
    yield 2, Case(4, 17, good, 15, 16)
    yield 2, Case(4, 17, good, 16, 0)
    yield 2, Case(4, 17, bad, 16, 16)
    yield 2, Case(4, 17, unlike, 16, 16)
    yield 2, Case(4, 17, large, 16, 16)
    yield 3, Case(4, 1, bad, 15, 16)
    yield 3, Case(4, 1, bad, 16, 17)
    yield 3, Case(4, 1, bad[:15], 16, 16)
    yield 3, Case(4, 1, unlike, 16, 15)
    yield 3, Case(4, 1, unlike, 0, 16)
    yield 3, Case(4, 1, [*unlike, ONE], 16, 16)
    yield 3, Case(4, 1, large, 16, 15)
    yield 5, case_of(4, 1, both)
    yield 5, case_of(4, 0, both)
    yield 5, case_of(4, 16, [NAN, *unlike[1:]])
    yield 5, case_of(4, 1, [*large[:15], INFINITY])
    yield 6, case_of(4, 1, [LARGEST, LARGEST - 1, *large[2:]])


def refusals(rng):
    """The cases that are refused before a run, and the number of each."""
    groups = [
        (1, refused_orders),
        (2, refused_sweeps),
        (3, refused_lengths),
        (5, refused_values),
        (6, refused_mirrors),
    ]
    for number, group in groups:
        for case in group(rng):
            yield number, case
    yield from several_reasons(rng)


def odd_refusals(rng):
    """The same of odd orders, on the diagonal and off it."""
    yield 2, case_of(3, 17, ordinary(rng, 3, 0))
    yield 2, case_of(31, LAST, ordinary(rng, 31, 0))
    for n in (3, 5):
        whole, less, more = n * n, (n - 1) ** 2, (n + 1) ** 2
        for place, size in [(0, whole - 1), (0, more), (1, whole + 1), (1, 0), (2, less), (2, whole - 1)]:
            sizes = [whole] * 3
            sizes[place] = size
            yield 3, sized(rng, n, sizes)
    yield 3, sized(rng, 31, (961, 961, 1024))
    for n in (3, 5):
        for place in [(1, 1), (1, 2), (2, 1), (2, 2), (n, n - 1), (n, n), (1, n)]:
            yield 5, changed(rng, n, {place: rng.choice((NAN, INFINITY, SIGN + INFINITY))})
    yield 5, changed(rng, 3, {(i, i): NAN for i in (1, 2, 3)})
    yield 5, changed(rng, 31, {(31, 31): INFINITY})
    for n in (3, 5):
        for i, j in [(1, 2), (1, n), (n, 1), (n - 1, n), (n, n - 1)]:
            yield 6, unequal(rng, n, [(i, j, rng.choice((0, 52, 63)))])
    yield 6, changed(rng, 3, {(1, 3): ZERO, (3, 1): SIGN})
    yield 6, unequal(rng, 31, [(31, 30, 0)])
    good = ordinary(rng, 3, 0)
    yield 2, Case(3, 17, [NAN, *good[1:]], 8, 9)
    yield 3, Case(3, 1, [NAN, *good[1:]], 9, 10)
    yield 5, case_of(3, 1, [good[0], good[1] ^ 1, *good[2:8], INFINITY])


# The files.


def product(x, y):
    return [[sum(a * b for a, b in zip(row, column)) for column in zip(*y)] for row in x]


def check(kind, case, outcome):
    """What has to hold of a run: the step that spoils it by its kind, results that are finite and
    mirrored, and for ordinary values that the vectors turn the matrix into the result."""
    n = case.n
    if outcome.number == 8:
        assert kind in MAY_SPOIL
        assert kind is not spoiled_late or outcome.spoiled > 0
        assert kind not in FIRST_STEP or outcome.spoiled == 0
        return
    assert outcome.number is None
    assert kind is not spoiled_late and (kind not in FIRST_STEP or case.sweeps == 0)
    result, vectors = outcome.result, outcome.vectors
    assert all(pattern % SIGN < INFINITY for pattern in result + vectors)
    assert all(result[i * n + j] == result[j * n + i] for i in range(n) for j in range(i))
    if kind in (ordinary, whole_numbers, covariances, reflected, sparse):
        v = rows_of(n, vectors)
        turned = product(product([list(column) for column in zip(*v)], rows_of(n, case.matrix)), v)
        pairs = zip(sum(turned, []), sum(rows_of(n, result), []))
        assert all(abs(x - y) < 1e-11 for x, y in pairs)


def head(case, fill):
    return [case.n, case.sweeps, len(case.matrix), case.result_size, case.vectors_size, fill]


def lines_of(words):
    return [f"{word:016X}\n" for word in words]


def answer_of(case, fill, outcome, *ticks):
    """The lines of an answer: the refusal, or the sweeps made, the ticks if there are any, and the number of pairs with a
    rounded root, and what both results hold."""
    if outcome.number is None:
        lines = lines_of([outcome.sweeps, *ticks, outcome.rounded])
    else:
        lines = [f"refused {outcome.number}\n"]
    if outcome.place is not None:
        lines += ["row %d\n" % outcome.place[0], "column %d\n" % outcome.place[1]]
    result, vectors = outcome.result, outcome.vectors
    if result is None:
        result, vectors = [fill] * case.result_size, [fill] * case.vectors_size
    return lines + lines_of(result) + lines_of(vectors)


def finite_patterns(rng):
    """Random patterns of finite values that are no zeros, each once."""
    seen = {ZERO}
    while True:
        pattern = rng.getrandbits(64)
        if pattern % SIGN < INFINITY and pattern % SIGN not in seen:
            seen.add(pattern % SIGN)
            yield pattern


def check_variety(kinds, cases, outcomes, orders):
    """Every order and number of sweeps is there, in small orders every two of them; and enough runs are
    spoiled, in the first step, after it, and after the first sweep."""
    sizes = {(case.n, case.sweeps) for case in cases}
    assert sizes >= {(n, sweeps) for n in orders if n <= 8 for sweeps in range(17)}
    assert {n for n, _ in sizes} == set(orders)
    assert set(kinds) == set(KINDS)
    spoiled = [(case.n, made.spoiled) for case, made in zip(cases, outcomes) if made.number == 8]
    first = sum(step == 0 for _, step in spoiled)
    later = sum(0 < step < steps_of(n, 1) for n, step in spoiled)
    last = sum(step >= steps_of(n, 1) for n, step in spoiled)
    assert first >= 10 and later >= 8 and last >= 5
    print(f"{len(cases)} runs, {len(cases) - len(spoiled)} of them accepted")
    print(f"spoiled in the first step {first}, later in the first sweep {later}, after it {last}")


def summary(names):
    return ", ".join(f"{name} {count}" for name, count in collections.Counter(names).items())


def pairs_at_top(rng, n, _):
    """Only the first pairs' entries, from 2^1022 to 2^1023, so that most runs stay finite."""
    less = n % 2
    return mirrored(n, lambda i, j: within(rng, TOP - 1, TOP - 1) if (i + less) // 2 == (j + less) // 2 else 0.0)


def at_top(rng, n, _):
    """From 2^1022 to the largest finite value."""
    return mirrored(n, lambda i, j: within(rng, TOP - 1, TOP))


def at_bottom(rng, n, _):
    """Subnormal values, and others on both sides of 2^-1021."""
    return mirrored(n, lambda i, j: within(rng, 0, 3))


def ends_of_range(rng):
    """Runs with entries at one end of the range, for document 02 (v)."""
    for kind in (pairs_at_top, at_top, at_bottom):
        for n in (2, 2, 3, 4, 5, 6, 9):
            sweeps = rng.randint(1, 3)
            yield case_of(n, sweeps, kind(rng, n, sweeps))


def checked_ends(rng):
    """The runs at the ends of the range with their outcomes."""
    made = [(case, outcome_of(case)) for case in ends_of_range(rng)]
    spoiled = sum(outcome.number == 8 for _, outcome in made)
    print(f"{len(made)} runs at the ends of the range, {spoiled} of them spoiled")
    assert 0 < spoiled < len(made)
    return made


# The runs with quiet sweeps, for document 02 (vi).


def zeros_beside(rng, n, _):
    """A diagonal, and zeros of either sign beside it."""
    return mirrored(n, lambda i, j: within(rng, 1013, 1033) if i == j else rng.choice((0.0, -0.0)))


def far_lines(rng, n, _):
    """No entry is zero, and lines are so far apart in size that every tangent is."""
    return mirrored(n, lambda i, j: within(rng, 1623 + 5 * i, 1623 + 5 * i) if i == j else within(rng, 1003, 1043))


def two_groups(rng, n, _):
    """Every other line is like far_lines, so that only the rest turn among themselves."""
    far = far_lines(rng, n, 0)
    near = ordinary(rng, n, 0)
    return [far[k] if k % (n + 1) == 0 and k % n % 2 == 0 else near[k] for k in range(n * n)]


def first_quiet(n, matrix):
    """The first quiet sweep of a run, which comes before the last that there may be."""
    made = ran(n, MOST_SWEEPS, matrix).sweeps
    assert made < MOST_SWEEPS
    return made


def quiet_at_once(rng):
    """Runs whose first sweep is quiet."""
    for n in (2, 3, 4, 5, 8, 9, 16, 31, 32):
        for k, kind in enumerate((diagonal, zero, zeros_beside, far_lines) if n <= 16 else (zeros_beside, far_lines)):
            sweeps = (MOST_SWEEPS, 1, 2, 7)[(n + k) % 4]
            yield case_of(n, sweeps, kind(rng, n, sweeps))


def near_quiet(rng):
    """Runs of one sweep less than the first quiet one, of just as many, and of more."""
    kinds = [ordinary, covariances, whole_numbers, sparse, two_groups, least, nearly_diagonal]
    for k, n in enumerate((2, 3, 4, 4, 5, 6, 7, 8, 9, 13, 16, 24)):
        matrix = kinds[k % len(kinds)](rng, n, 0)
        quiet = first_quiet(n, matrix)
        for sweeps in (quiet - 1, quiet, quiet + 1, MOST_SWEEPS) if n < 16 else (quiet - 1, MOST_SWEEPS):
            yield case_of(n, sweeps, matrix)


def quiet_when_spoiled(rng):
    """Runs that are spoiled in a sweep and quiet in a later one. An infinite entry on the diagonal leaves pairs still."""
    for n in (2, 3, 4, 5, 6, 8, 9):
        for kind in (spoiled_by_sum, spoiled_by_spread, spoiled_late) if n > 2 else (spoiled_by_sum, spoiled_by_spread):
            outcome = None
            while outcome is None or outcome.sweeps == MOST_SWEEPS:
                matrix = kind(rng, n, MOST_SWEEPS)
                outcome = ran(n, MOST_SWEEPS, matrix)
            assert outcome.number == 8
            yield case_of(n, rng.choice((outcome.sweeps, MOST_SWEEPS)), matrix)


def quiet_runs(rng):
    """Runs of all these, and of no sweeps."""
    yield from quiet_at_once(rng)
    yield from near_quiet(rng)
    yield from quiet_when_spoiled(rng)
    for n, kind in [(2, ordinary), (3, diagonal), (4, zero), (5, ordinary), (8, far_lines)]:
        yield case_of(n, 0, kind(rng, n, 0))


def checked_quiet(rng):
    """The runs with quiet sweeps with their outcomes."""
    made = [(case, outcome_of(case)) for case in quiet_runs(rng)]
    early = [(case, outcome) for case, outcome in made if outcome.sweeps < case.sweeps]
    spoiled = sum(outcome.number == 8 for _, outcome in early)
    print(f"{len(made)} runs with quiet sweeps, {len(early)} of them end early, {spoiled} of these spoiled")
    assert len({outcome.sweeps for _, outcome in early}) >= 6
    assert spoiled >= 5
    return made


# The runs with exact and rounded roots, for document 02 (vii).


def exact_turns(rng, n, _):
    """A diagonal of whole numbers, and powers of two beside it that are so small that a turn is by next to nothing: in a
    first sweep every pair turns and is exact, and the entries that it leaves make most later pairs rounded."""
    return mirrored(n, lambda i, j: (i + 1) * 2.0**60 if i == j else rng.choice((-1, 1)) * 2.0 ** rng.randint(0, 3))


def larger_steps(rng, n, _):
    """The same, but with turns that are not next to nothing, so that some pairs of the first sweep are rounded."""
    return mirrored(n, lambda i, j: (i + 1) * 2.0**33 if i == j else rng.choice((-1, 1)) * 2.0 ** rng.randint(0, 3))


def partly_exact(rng, n, _):
    """Every other line is like those of exact_turns, the others are ordinary."""
    exact, near = exact_turns(rng, n, 0), ordinary(rng, n, 0)
    return [exact[k] if k % n % 2 == 0 and k // n % 2 == 0 else near[k] for k in range(n * n)]


def rounded_runs(rng):
    """Runs with pairs that turn and are exact beside rounded ones, even and odd, whole, spoiled and ending early."""
    for n in (2, 3, 4, 5, 6, 7, 8, 11):
        for kind in (exact_turns, larger_steps, partly_exact):
            for sweeps in (1, MOST_SWEEPS) if n < 8 else (2,):
                yield case_of(n, sweeps, kind(rng, n, sweeps))
    for n in (3, 4, 5):
        matrix = exact_turns(rng, n, 0)
        put(n, matrix, n - 2, n - 1, LARGEST)
        put(n, matrix, n - 2, n - 2, LARGEST)
        yield case_of(n, 2, matrix)


def checked_rounded(rng):
    """The runs with exact and rounded roots with their outcomes."""
    made = [(case, outcome_of(case)) for case in rounded_runs(rng)]
    none = sum(outcome.rounded == 0 for _, outcome in made)
    early = sum(outcome.sweeps < case.sweeps for case, outcome in made)
    spoiled = sum(outcome.number == 8 for _, outcome in made)
    print(f"{len(made)} runs with exact turns: no root rounded in {none}, {early} end early, {spoiled} spoiled")
    assert none >= 5 and early >= 5 and spoiled >= 1
    return made


def checked_runs(rng, orders):
    """The runs of these orders with their outcomes."""
    made = list(runs(rng, orders))
    kinds, cases = [kind for kind, _ in made], [case for _, case in made]
    outcomes = [outcome_of(case) for case in cases]
    for kind, case, outcome in zip(kinds, cases, outcomes):
        check(kind, case, outcome)
    check_variety(kinds, cases, outcomes, orders)
    print("runs: " + summary(kind.__name__ for kind in kinds))
    return list(zip(cases, outcomes))


def checked_refusals(drawn):
    """The refusals before a run with their outcomes."""
    made = [(number, case, outcome_of(case)) for number, case in drawn]
    assert all(number == outcome.number for number, _, outcome in made)
    print("refusals by number: " + summary(number for number, _, _ in made))
    return [(case, outcome) for _, case, outcome in made]


def all_lines():
    """The lines of each case and of its answer."""
    for case, outcome in EXAMPLES + ODD_EXAMPLES:
        assert outcome_of(case) == outcome, case
    rng = random.Random(1983)
    cases = [*EXAMPLES, *checked_runs(rng, EVEN_ORDERS), *checked_refusals(refusals(rng))]
    filled = list(zip(cases, finite_patterns(rng)))
    rng = random.Random(562)
    odd_cases = [*ODD_EXAMPLES, *checked_runs(rng, ODD_ORDERS), *checked_refusals(odd_refusals(rng))]
    filled += zip(odd_cases, finite_patterns(rng))
    rng = random.Random(1022)
    filled += zip(checked_ends(rng), finite_patterns(rng))
    rng = random.Random(7)
    filled += zip(checked_quiet(rng), finite_patterns(rng))
    rng = random.Random(754)
    filled += zip(checked_rounded(rng), finite_patterns(rng))
    print(f"{len(filled)} plain runs, {len(odd_cases)} of them drawn for odd orders")
    for (case, outcome), fill in filled:
        yield lines_of(head(case, fill) + case.matrix), answer_of(case, fill, outcome)


def main():
    argparse.ArgumentParser(description=__doc__.split("\n\n")[0], epilog="It takes no arguments.").parse_args()
    list(all_lines())


if __name__ == "__main__":
    main()
