#!/usr/bin/env python3
"""Bit patterns of f64 values, what the square root of each is by document 01, "Square root", and whether it is exact by
document 02 (vii). call_vectors.py writes them to files; run alone, this file only makes and checks them, and prints how
many there are.

The roots are worked out here with whole numbers alone. math.sqrt is only held against them.
"""
import argparse
import math
import random
import struct

HIDDEN = 1 << 52  # the leading digit of a normal value, which its pattern leaves out
SIGN = 1 << 63
PLUS_ZERO = 0
MINUS_ZERO = SIGN
PLUS_INFINITY = 0x7FF << 52
MINUS_INFINITY = SIGN + PLUS_INFINITY
ONE = 0x3FF << 52

# The roots of document 01, "Entries to try", and whether each is exact.
EXAMPLES = [
    (0x4010000000000000, 0x4000000000000000, True),  # 4: 2
    (0x8000000000000000, 0x8000000000000000, True),  # -0: -0
    (0x4000000000000000, 0x3FF6A09E667F3BCD, False),  # 2
    (0x0000000000000001, 0x1E60000000000000, True),  # 2^-1074: 2^-537
    (0x3FEFFFFFFFFFFFFF, 0x3FEFFFFFFFFFFFFF, False),  # 1 - 2^-53: itself
    (0x3FF0000000000001, 0x3FF0000000000000, False),  # 1 + 2^-52: 1
]


# The model. A positive finite value is a whole number of units of 2^-1074.


def units_of(pattern):
    """The units of the positive finite value with the pattern."""
    field, mantissa = divmod(pattern, HIDDEN)
    if field == 0:
        return mantissa
    return (HIDDEN + mantissa) << (field - 1)


def pattern_of(units):
    """The pattern of the value of that many units, which is an f64."""
    shift = max(units.bit_length() - 53, 0)
    assert units % (1 << shift) == 0
    return (shift << 52) + (units >> shift)


def nearest_root(units):
    """The units of the f64 nearest to the exact root of a value, judged by squares of whole numbers."""
    n = units << 1074  # the exact root is the root of n, in units
    whole = math.isqrt(n)
    step = 1 << (whole.bit_length() - 53)  # from one f64 of this size to the next
    low = whole - whole % step
    high = low + step
    assert low * low <= n < high * high
    # The middle of the two is (low + high) / 2. No value has it as its root.
    assert (low + high) ** 2 != 4 * n
    return high if (low + high) ** 2 < 4 * n else low


def square_root(pattern):
    """The pattern of the root, or None where it is refused by 9. No pattern is a NaN's."""
    if pattern in (PLUS_ZERO, MINUS_ZERO, PLUS_INFINITY):
        return pattern
    if pattern > SIGN:
        return None
    return pattern_of(nearest_root(units_of(pattern)))


def is_exact(pattern):
    """Whether the root of a pattern that is not refused is exact: zeros and +infinity, and a value that is the square of
    its nearest root. It is so just where the root of its units, as nearest_root has them, is a whole number."""
    if pattern in (PLUS_ZERO, MINUS_ZERO, PLUS_INFINITY):
        return True
    units = units_of(pattern)
    n = units << 1074
    exact = nearest_root(units) ** 2 == n
    assert exact == (math.isqrt(n) ** 2 == n)
    return exact


# The patterns.


def every_exponent():
    """The least and the largest value of each exponent field, the subnormal one first."""
    for field in range(2047):
        yield field * HIDDEN
        yield field * HIDDEN + HIDDEN - 1


def subnormals(rng):
    """Single digits and their neighbours, runs of ones from either end, and random ones."""
    for k in range(52):
        yield from (1 << k, (1 << k) + 1, (1 << k) - 1, HIDDEN - (1 << k))
    for digits in range(2, 53):
        yield (1 << (digits - 1)) + rng.getrandbits(digits - 1)


def powers_of_two():
    """Powers of two with their neighbours on both sides."""
    for field in [1, 2, 3, *range(8, 2040, 8), 1021, 1022, 1023, 1025, 2044, 2045, 2046]:
        yield from (field * HIDDEN - 1, field * HIDDEN, field * HIDDEN + 1)


def squares(rng):
    """Squares of numbers of 26 and 27 digits, of which each is an f64, and their neighbours."""
    largest = math.isqrt((1 << 53) - 1)
    numbers = [1 << 25, (1 << 25) + 1, (1 << 26) - 1, 1 << 26, (1 << 26) + 1, largest - 1, largest]
    numbers += [(1 << 25) + rng.getrandbits(25) for _ in range(12)]
    numbers += [(1 << 26) + rng.getrandbits(24) for _ in range(8)]
    for number in numbers:
        for half in [0, 100, 511, 537, 900, 1022]:
            exact = pattern_of((number * number) << (2 * half))
            assert square_root(exact) == pattern_of(number << (537 + half))
            yield from (exact - 1, exact, exact + 1)


def odd_roots(a, n):
    """The y below 2^n with y^2 = a modulo 2^n, for an a that is 1 modulo 8."""
    y = 1
    for k in range(3, n):
        if (y * y - a) % (1 << (k + 1)):
            y += 1 << (k - 1)
    roots = {(s * y + h) % (1 << n) for s in (1, -1) for h in (0, 1 << (n - 1))}
    assert all((y * y - a) % (1 << n) == 0 for y in roots)
    return sorted(roots)


def near_middles():
    """Values with a root beside the middle of two f64.

    The middle of q and q + 1 has the square q * q + q + 1/4. Of each number w = q * q + q + gap that
    is m * 2^t, with 53 digits in q and in m, the root is that near to it. Then y = 2 * q + 1 is a
    root of 1 - 4 * gap modulo 2^(t + 2).
    """
    for gap in range(-32, 33, 2):
        for t, fields in [(52, (1, 517, 1023, 2045)), (53, (2, 516, 1024, 2046))]:
            for y in odd_roots(1 - 4 * gap, t + 2):
                q = y // 2
                m = (q * q + q + gap) >> t
                if HIDDEN <= q < 2 * HIDDEN and HIDDEN <= m < 2 * HIDDEN:
                    assert m << t == q * q + q + gap
                    nearest = q + 1 if gap > 0 else q
                    for field in fields:
                        pattern = field * HIDDEN + m - HIDDEN
                        assert square_root(pattern) % HIDDEN == nearest % HIDDEN
                        yield pattern


def normals(rng):
    """Random positive normal values."""
    for _ in range(500):
        yield HIDDEN + rng.getrandbits(64) % (PLUS_INFINITY - HIDDEN)


def negatives(rng):
    """Values below zero of every size."""
    for size in [1, 2, HIDDEN - 1, HIDDEN, HIDDEN + 1, ONE - 1, ONE, ONE + 1, 2 * ONE, PLUS_INFINITY - 1]:
        yield SIGN + size
    for pattern, _, _ in EXAMPLES:
        yield SIGN | pattern
    for field in range(0, 2047, 31):
        yield SIGN + field * HIDDEN + 1
    for _ in range(60):
        yield SIGN + 1 + rng.getrandbits(64) % (PLUS_INFINITY - 1)


def short_roots(rng):
    """Squares of numbers of few digits, subnormal ones and those of every size, and twice of each, which is no square."""
    for digits in [1, 2, 3, 5, 8, 13, 20, 24, 25, 26]:
        number = (1 << (digits - 1)) + rng.getrandbits(digits - 1) | 1
        room = (53 - (number * number).bit_length()) // 2
        for half in (0, room // 2, room, 300, 537, 800, 997 - digits):
            exact = pattern_of((number * number) << (2 * half))
            yield from (exact, exact + 1, exact - 1, pattern_of((2 * number * number) << (2 * half)))


def rounded_squares(rng):
    """Values that are the square of a number of more digits than any exact root has, rounded, so that their root is that
    number and is not exact."""
    for digits in (27, 28, 29, 40, 53):
        for _ in range(12):
            number = (1 << (digits - 1)) + rng.getrandbits(digits - 1) | 1
            square = number * number
            if square.bit_length() <= 53:
                continue
            step = 1 << (square.bit_length() - 53)
            near = (square + step // 2) // step * step
            pattern = pattern_of(near << 2 * rng.randint(0, 900))
            assert not is_exact(pattern)
            yield pattern


def patterns():
    """All patterns, in order and each once."""
    rng = random.Random(1983)
    found = [pattern for pattern, _, _ in EXAMPLES]
    found += [PLUS_ZERO, MINUS_ZERO, PLUS_INFINITY, MINUS_INFINITY]
    found += every_exponent()
    found += subnormals(rng)
    found += powers_of_two()
    found += squares(rng)
    found += near_middles()
    found += normals(rng)
    found += negatives(rng)
    rng = random.Random(754)
    found += short_roots(rng)
    found += rounded_squares(rng)
    return list(dict.fromkeys(found))


# The lines.


def value_of(pattern):
    return struct.unpack(">d", pattern.to_bytes(8, "big"))[0]


def check(pattern, root):
    """Holds a root against math.sqrt."""
    value = value_of(pattern)
    assert value == value, f"{pattern:016X} is a NaN's"
    if root is None:
        assert value < 0
    else:
        assert struct.pack(">d", math.sqrt(value)) == root.to_bytes(8, "big"), f"{pattern:016X}"


def check_examples():
    for pattern, root, exact in EXAMPLES:
        assert (square_root(pattern), is_exact(pattern)) == (root, exact), f"{pattern:016X}"


def answer_of(pattern):
    """The lines of an answer: the root and whether it is exact, or the refusal alone."""
    root = square_root(pattern)
    check(pattern, root)
    if root is None:
        return ["refused 9\n"]
    return [f"{root:016X}\n", "exact\n" if is_exact(pattern) else "rounded\n"]


def all_lines():
    """The lines of each case and of its answer."""
    check_examples()
    made = [(pattern, answer_of(pattern)) for pattern in patterns()]
    exact = sum(answer[-1] == "exact\n" for _, answer in made)
    refused = sum(len(answer) == 1 for _, answer in made)
    print(f"{len(made)} square roots, {exact} of them exact and {refused} refused")
    for pattern, answer in made:
        yield [f"{pattern:016X}\n"], answer


def main():
    argparse.ArgumentParser(description=__doc__.split("\n\n")[0], epilog="It takes no arguments.").parse_args()
    list(all_lines())


if __name__ == "__main__":
    main()
