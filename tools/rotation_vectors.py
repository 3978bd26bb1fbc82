#!/usr/bin/env python3
"""Bit patterns of f64 values a = a_pp, d = a_qq and b = a_pq of pairs, what the parameters of each pair are by document
01, "One rotation", and document 02 (v), and whether both roots were exact by document 02 (vii). call_vectors.py writes
them to files; run alone, this file only makes and checks them, and prints how many there are.

The operations are worked out here with whole numbers alone. Python's own are only held against
them.
"""
import argparse
import itertools
import math
import random
import struct

HIDDEN = 1 << 52  # the leading digit of a normal value, which its pattern leaves out
SIGN = 1 << 63
ZERO = 0
ONE = 0x3FF << 52
TWO = 0x400 << 52
HALF = 0x3FE << 52
LARGEST = (0x7FF << 52) - 1
INFINITY = 0x7FF << 52
NAN = 0x7FF8 << 48
STILL = None

LEAST_HALVED = 2 * HIDDEN  # 2^-1021: from there on halving is exact
TOP_PAIR = (ZERO, 2045 * HIDDEN, 2046 * HIDDEN)  # document 02 (v): 0, 2^1022 and 2^1023
QUARTER = 0x3FD << 52

# Patterns of a, d and b, the parameters by document 01, and whether both roots were exact: from its printed sheet, and
# from its entries to try, a pair that stays still and the pair of the largest values. The root of 1 is exact and that of
# 2 is not.
EXAMPLES = [
    ((ONE, ONE, ONE), (ONE, 0x3FE6A09E667F3BCC, 0x3FE6A09E667F3BCC), False),
    ((ONE, 0x4008000000000000, ZERO), STILL, True),
    ((LARGEST, LARGEST, LARGEST), (ONE, 0x3FE6A09E667F3BCC, 0x3FE6A09E667F3BCC), False),
]

# Quotients of which both roots are exact and neither 1 nor a square is lost in a sum, found by a search.
BOTH_EXACT = [
    0x40A6A09E595F6198,
    0x408FFFFF6FFFFF80,
    0x40875E9681752194,
    0x407FFFFDBFFFF800,
    0x406FFFF6FFFF8000,
    0x4044E592CCA7A8C8,
]


# The model. A value is its pattern, and the only pattern of a NaN is NAN. The size of a finite
# value, without its sign, is a whole number of units of 2^-1074.


def read(pattern):
    """The pattern as a value: every NaN's is NAN."""
    return NAN if pattern % SIGN > INFINITY else pattern


def sign_of(value):
    return value // SIGN


def size_of(value):
    """The pattern of the value without its sign."""
    return value % SIGN


def negated(value):
    return NAN if value == NAN else value ^ SIGN


def is_finite(value):
    return size_of(value) < INFINITY


def units_of(value):
    """The units of a finite value, without its sign."""
    field, mantissa = divmod(size_of(value), HIDDEN)
    return mantissa if field == 0 else (HIDDEN + mantissa) << (field - 1)


def step_at(units):
    """The units from one f64 to the next, at that many units and above."""
    return 1 << max(units.bit_length() - 53, 0)


def size_with(units):
    """The pattern of the f64 of that many units, or of infinity from the next above LARGEST on."""
    step = step_at(units)
    assert units % step == 0
    return min((step.bit_length() - 1) * HIDDEN + units // step, INFINITY)


def rounded(sign, numerator, denominator):
    """The f64 nearest to numerator / denominator units, of two as near the even one."""
    whole = numerator // denominator
    step = step_at(whole)
    low = whole - whole % step
    high = low + step
    twice, middle = 2 * numerator, (low + high) * denominator
    up = twice > middle or (twice == middle and low // step % 2 == 1)
    return sign * SIGN + size_with(high if up else low)


def add(x, y):
    if NAN in (x, y):
        return NAN
    if not is_finite(x) or not is_finite(y):
        if is_finite(x):
            return y
        return x if is_finite(y) or x == y else NAN
    total = (-1) ** sign_of(x) * units_of(x) + (-1) ** sign_of(y) * units_of(y)
    if total == 0:
        return x if x == y else ZERO  # the sum of two of -0 is -0
    return rounded(int(total < 0), abs(total), 1)


def sub(x, y):
    return add(x, negated(y))


def mul(x, y):
    if NAN in (x, y):
        return NAN
    sign = sign_of(x) ^ sign_of(y)
    if not is_finite(x) or not is_finite(y):
        return NAN if ZERO in (size_of(x), size_of(y)) else sign * SIGN + INFINITY
    return rounded(sign, units_of(x) * units_of(y), 1 << 1074)


def div(x, y):
    if NAN in (x, y):
        return NAN
    sign = sign_of(x) ^ sign_of(y)
    if not is_finite(x):
        return sign * SIGN + INFINITY if is_finite(y) else NAN
    if not is_finite(y):
        return sign * SIGN
    if size_of(y) == ZERO:
        return NAN if size_of(x) == ZERO else sign * SIGN + INFINITY
    return rounded(sign, units_of(x) << 1074, units_of(y))


def sqrt(x):
    """The root of a value from 1 on, or of the NaN."""
    if x in (NAN, INFINITY):
        return x
    assert ONE <= x < INFINITY
    square = units_of(x) << 1074  # of the root's units
    whole = math.isqrt(square)
    step = step_at(whole)
    low = whole - whole % step
    middle = 2 * low + step  # twice the units, and never the root itself
    assert middle * middle != 4 * square
    return size_with(low + step if middle * middle < 4 * square else low)


def has_exact_root(x):
    """Whether the root of a value from 1 on is exact: whether its units, as sqrt has them, are a whole square."""
    if x == INFINITY:
        return True
    assert ONE <= x < INFINITY
    square = units_of(x) << 1074
    whole = math.isqrt(square)
    exact = whole * whole == square
    assert not exact or size_with(whole) == sqrt(x)
    return exact


def quotient(a, d, b):
    """xi by document 02 (v), for a b that is not zero."""
    return div(sub(div(d, TWO), div(a, TWO)), b)


def first_quotient(a, d, b):
    """xi as document 01 had it."""
    return div(sub(d, a), mul(TWO, b))


def is_kept(a, d, b):
    """Whether document 02 (v) has it that xi keeps its bits."""
    halved = all(size_of(x) == ZERO or size_of(x) >= LEAST_HALVED for x in (a, d))
    return halved and is_finite(sub(d, a)) and is_finite(mul(TWO, b))


def tangent(a, d, b):
    """The tangent, and the value of which a root was taken, if one was."""
    if size_of(b) == ZERO:
        return ZERO, None
    xi = quotient(a, d, b)
    if xi == NAN:
        return NAN, NAN
    sign = SIGN + ONE if sign_of(xi) and size_of(xi) != ZERO else ONE
    square = add(ONE, mul(xi, xi))
    return div(sign, add(size_of(xi), sqrt(square))), square


def are_exact(pair):
    """Whether both roots of a pair were exact: without any where b is zero, and not where t is no number."""
    t, square = tangent(*map(read, pair))
    if square is None:
        return True
    if t == NAN:
        return False
    return has_exact_root(square) and has_exact_root(add(ONE, mul(t, t)))


def parameters(pair):
    """STILL, or the tangent, the cosine and the sine."""
    t, _ = tangent(*map(read, pair))
    if size_of(t) == ZERO:
        assert are_exact(pair)
        return STILL
    c = div(ONE, sqrt(add(ONE, mul(t, t))))
    return t, c, mul(t, c)


# The pairs. With a = 0, d = xi and b = 1/2 the quotient is xi.


def signed(rng, size):
    return rng.getrandbits(1) * SIGN + size


def within(rng, low, high):
    """A random value of either sign, its exponent field from low to high."""
    return signed(rng, rng.randint(low, high) * HIDDEN + rng.getrandbits(52))


def special_places():
    """Zeros, infinities, the NaN and values of the extreme sizes in each place."""
    values = [ZERO, SIGN, ONE, SIGN + LARGEST, 1, INFINITY, SIGN + INFINITY, NAN]
    yield from itertools.product(values, repeat=3)


def nan_places(rng):
    """Other patterns of NaNs in each place, and b zero beside them."""
    for nan in [SIGN + NAN, INFINITY + 1, SIGN + INFINITY + 1, 2 * SIGN - 1, SIGN - 1]:
        for place in range(3):
            pair = [within(rng, 1000, 1040) for _ in range(3)]
            pair[place] = nan
            yield tuple(pair)
        yield nan, within(rng, 1000, 1040), ZERO
        yield within(rng, 1000, 1040), nan, SIGN


def small_numbers():
    """The whole numbers from -2 to 2."""
    values = [SIGN + TWO, SIGN + ONE, ZERO, ONE, TWO]
    yield from itertools.product(values, repeat=3)


def equal_diagonals(rng):
    """a = d, so that the quotient is +0 where b is positive and -0 where it is negative."""
    for low, high in [(0, 0), (1, 1), (900, 1100), (2046, 2046), (0, 2046)]:
        for _ in range(8):
            a = within(rng, low, high)
            yield a, a, within(rng, low, high)
    for a, d in [(ZERO, SIGN), (SIGN, ZERO), (ZERO, ZERO), (SIGN, SIGN)]:
        for b in [1, SIGN + 1, LARGEST, SIGN + LARGEST, within(rng, 900, 1100)]:
            yield a, d, b


def zero_entries(rng):
    """b zero of either sign."""
    for _ in range(20):
        yield within(rng, 0, 2046), within(rng, 0, 2046), ZERO
        yield within(rng, 0, 2046), within(rng, 0, 2046), SIGN


def of_like_size(rng):
    """Random values of like size: ordinary ones, the largest, the subnormal, the least, and any."""
    for count, low, high in [(500, 1013, 1033), (160, 2042, 2046), (100, 0, 0), (100, 0, 60)]:
        for _ in range(count):
            yield tuple(within(rng, low, high) for _ in range(3))
    for _ in range(200):
        field = rng.randint(0, 2040)
        yield tuple(within(rng, field, field + 6) for _ in range(3))


def huge(rng):
    """d - a infinite and b finite, d - a finite and 2 * b infinite, and both infinite."""
    for _ in range(15):
        a, b = SIGN + LARGEST - rng.getrandbits(50), LARGEST - rng.getrandbits(50)
        d = LARGEST - rng.getrandbits(50)
        x = within(rng, 1000, 1040)
        yield from [(a, d, x), (d, a, x), (x, d, b), (a, x, SIGN + b), (a, d, b), (d, a, b)]


def near(size):
    """A size with its neighbours, of either sign."""
    for neighbour in range(size - 2, size + 3):
        yield neighbour
        yield SIGN + neighbour


def boundary_quotients():
    """1, the quotients beside which a term is first lost or a square first leaves its range, and the
    extremes."""
    small = [-26, -27, -53, -54, -511, -512, -537, -538]
    large = [26, 27, 52, 53, 54, 511, 512, 513, 1023]
    for exponent in [0, *small, *large]:
        yield from near(ONE + exponent * HIDDEN)
    for size in [1, 2, 3, HIDDEN - 1, HIDDEN, HIDDEN + 1, LARGEST - 1, LARGEST, INFINITY]:
        yield from (size, SIGN + size)


def quotients(rng):
    """Pairs by their quotient, of every size."""
    for xi in boundary_quotients():
        yield ZERO, xi, HALF
    for field in range(0, 2047, 13):
        yield ZERO, within(rng, field, field), HALF
    for _ in range(150):
        yield ZERO, within(rng, 990, 1056), HALF


def random_patterns(rng):
    for _ in range(150):
        yield tuple(rng.getrandbits(64) for _ in range(3))


def at_the_ends(rng):
    """Document 02 (v)'s pair; entries from 2^1022 to the largest finite value, subnormal ones and those on both sides of
    2^-1021, with a zero or an ordinary value in places."""
    yield TOP_PAIR
    for low, high in [(2045, 2046), (0, 0), (1, 2), (0, 3)]:
        for _ in range(60):
            pair = [within(rng, low, high) for _ in range(3)]
            if rng.getrandbits(1):
                pair[rng.randrange(2)] = rng.choice((ZERO, SIGN, within(rng, 1013, 1033)))
            yield tuple(pair)
    for a in near(LEAST_HALVED):
        yield a, ZERO, HIDDEN
        yield SIGN, a, SIGN + HIDDEN


def exact_roots(rng):
    """Quotients with an exact root, the first, the second or both: those that a search found and their neighbours; 3/4
    and others of Pythagoras; of few digits, and so large that 1 is lost, around where the second root becomes exact;
    and powers of two of either sign, up to where the square is infinite and the tangent zero."""
    for xi in BOTH_EXACT:
        yield from ((ZERO, xi, HALF), (SIGN + xi, ZERO, SIGN + HALF))
        yield from ((ZERO, xi - 1, HALF), (ZERO, xi + 1, HALF))
    for leg, other in [(3, 4), (4, 3), (5, 12), (12, 5), (7, 24), (24, 7), (15, 8), (8, 15)]:
        yield ZERO, rounded(0, leg << 1074, 1), rounded(0, other << 1073, 1)
    for exponent in [*range(20, 32), 52, 53, 300, 510, 511, 512, 1000]:
        for number in [1, 3, 5, rng.getrandbits(20) | 1, rng.getrandbits(26) | 1]:
            xi = rounded(rng.getrandbits(1), number << 1074 + exponent - number.bit_length() + 1, 1)
            yield ZERO, xi, HALF
    for exponent in [-1, -2, -26, -27, -28, -52, -53, -54, -55, -600, -1074]:
        yield ZERO, rounded(rng.getrandbits(1), 1 << 1074 + exponent, 1), HALF


def no_numbers(rng):
    """Quotients and tangents that are no numbers."""
    for x in (NAN, INFINITY, SIGN + INFINITY):
        yield from ((x, ONE, ONE), (ONE, x, ONE), (ONE, ONE, x), (x, x, ONE), (x, ONE, x), (x, x, x))
        yield from ((x, ONE, ZERO), (ONE, x, SIGN), (x, x, within(rng, 1000, 1040)))


def pairs():
    """All pairs, in order and each once."""
    rng = random.Random(1985)
    found = [pair for pair, _, _ in EXAMPLES]
    found += special_places()
    found += nan_places(rng)
    found += small_numbers()
    found += equal_diagonals(rng)
    found += zero_entries(rng)
    found += of_like_size(rng)
    found += huge(rng)
    found += quotients(rng)
    found += random_patterns(rng)
    found += at_the_ends(rng)
    rng = random.Random(754)
    found += exact_roots(rng)
    found += no_numbers(rng)
    return list(dict.fromkeys(found))


# The lines.


def float_of(pattern):
    return struct.unpack(">d", pattern.to_bytes(8, "big"))[0]


def pattern_of(number):
    return NAN if number != number else int.from_bytes(struct.pack(">d", number), "big")


def check(pair, answer):
    """Holds the parameters of a pair against Python's f64 operations."""
    a, d, b = map(float_of, pair)
    t = 0.0
    if b != 0:
        xi = (d / 2 - a / 2) / b
        t = (-1.0 if xi < 0 else 1.0) / (abs(xi) + math.sqrt(1 + xi * xi))
    c = 1 / math.sqrt(1 + t * t)
    found = STILL if t == 0 else tuple(map(pattern_of, (t, c, t * c)))
    assert found == answer, pair


def check_quotient(pair):
    """Holds document 02 (v)'s theorem to a pair, and gives whether xi differs from document 01's."""
    a, d, b = map(read, pair)
    if size_of(b) == ZERO:
        return False
    differs = quotient(a, d, b) != first_quotient(a, d, b)
    assert not (differs and is_kept(a, d, b)), pair
    return differs


def check_examples():
    assert quotient(*TOP_PAIR) == QUARTER and first_quotient(*TOP_PAIR) == ZERO
    for pair, answer, exact in EXAMPLES:
        assert (parameters(pair), are_exact(pair)) == (answer, exact), pair
    for xi in BOTH_EXACT:
        t, square = tangent(ZERO, xi, HALF)
        assert are_exact((ZERO, xi, HALF)) and square != mul(xi, xi) and add(ONE, mul(t, t)) != ONE, xi


def lines_of(patterns):
    return [f"{pattern:016X}\n" for pattern in patterns]


def all_lines():
    """The lines of each case and of its answer."""
    check_examples()
    made = [(pair, parameters(pair), are_exact(pair)) for pair in pairs()]
    still = sum(answer == STILL for _, answer, _ in made)
    turned = sum(answer != STILL and exact for _, answer, exact in made)
    other = sum(check_quotient(pair) for pair, _, _ in made)
    print(f"{len(made)} pairs, {still} of them still, {turned} others exact; xi is not document 01's in {other}")
    for pair, answer, exact in made:
        check(pair, answer)
        lines = ["still\n"] if answer == STILL else lines_of(answer)
        yield lines_of(pair), [*lines, "exact\n" if exact else "rounded\n"]


def main():
    argparse.ArgumentParser(description=__doc__.split("\n\n")[0], epilog="It takes no arguments.").parse_args()
    list(all_lines())


if __name__ == "__main__":
    main()
