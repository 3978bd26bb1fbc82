#!/usr/bin/env python3
"""Orders and steps, and what the list of pairs is by document 01, "Pairs and their movement", and document 02, odd
orders. call_vectors.py writes them to files; run alone, this file only makes and checks them, and prints how many there
are.

The registers are moved one by one, until they stand as at first. The lists of later steps repeat
those.
"""
import argparse
import itertools

PROCESSORS = 16
LARGEST = (1 << 64) - 1  # of a usize

# The lists of document 01, "Entries to try", and those of order 3, moved by hand.
EXAMPLES = [
    (4, 0, [(1, 2), (3, 4)]),
    (4, 1, [(1, 4), (2, 3)]),
    (4, 2, [(1, 3), (4, 2)]),
    (8, 1, [(1, 4), (2, 6), (3, 8), (5, 7)]),
    (3, 0, [(0, 1), (2, 3)]),
    (3, 1, [(0, 3), (1, 2)]),
    (3, 2, [(0, 2), (3, 1)]),
    (3, 3, [(0, 1), (2, 3)]),
]


# The model. The registers of the processors 1 to N are kept by processor and side.


def processors(n):
    return (n + 1) // 2


def sweep_steps(n):
    return n if n % 2 == 1 else n - 1


def first_registers(n):
    """What the registers hold at first. Those of an odd order begin with line 0."""
    less = n % 2
    registers = {}
    for k in range(1, processors(n) + 1):
        registers[k, "left"] = 2 * k - 1 - less
        registers[k, "right"] = 2 * k - less
    return registers


def goes_to(count, k, side):
    """The register that the line in a register of processor k goes to after a step."""
    if count == 1 or (k, side) == (1, "left"):
        return k, side
    if (k, side) == (1, "right"):
        return 2, "left"
    if (k, side) == (count, "left"):
        return count, "right"
    return (k + 1, "left") if side == "left" else (k - 1, "right")


def moved(count, registers):
    after = {}
    for (k, side), line in registers.items():
        place = goes_to(count, k, side)
        assert place not in after
        after[place] = line
    assert after.keys() == registers.keys()
    return after


def round_trip(n):
    """The registers in each step, until they stand as at first."""
    registers = first_registers(n)
    found = [registers]
    while True:
        registers = moved(processors(n), registers)
        if registers == found[0]:
            return found
        found.append(registers)


ROUND_TRIPS = {n: round_trip(n) for n in range(2, 2 * PROCESSORS + 1)}


def pairs(n, step):
    """The left and the right register of each processor, or None where the order is refused by 1."""
    if n not in ROUND_TRIPS:
        return None
    steps = ROUND_TRIPS[n]
    registers = steps[step % len(steps)]
    return [(registers[k, "left"], registers[k, "right"]) for k in range(1, processors(n) + 1)]


def check(n):
    """In the steps of a sweep every two lines meet once, line 0 of an odd order always in processor 1 and
    on its left. After a sweep the pairs repeat."""
    lists = [pairs(n, step) for step in range(sweep_steps(n))]
    meetings = [frozenset(pair) for listed in lists for pair in listed]
    every_two = {frozenset(two) for two in itertools.combinations(range(1 - n % 2, n + 1), 2)}
    assert len(meetings) == len(every_two) and set(meetings) == every_two, n
    assert n % 2 == 0 or all(listed[0][0] == 0 for listed in lists)
    assert len(ROUND_TRIPS[n]) == sweep_steps(n)


# The cases.


def cases():
    """All orders and steps, each once: even orders, those that are refused or odd, and odd orders."""
    found = []
    for n in range(2, 33, 2):
        found += [(n, step) for step in steps_of(n)]
    others = [0, *range(1, 36, 2), 34, 36, 64, 256, 258, (1 << 32) + 4, 1 << 63, LARGEST - 1, LARGEST]
    for n in others:
        found += [(n, step) for step in (0, 1, LARGEST)]
    for n in range(3, 32, 2):
        found += [(n, step) for step in steps_of(n)]
    return list(dict.fromkeys(found))


def steps_of(n):
    """The steps of a sweep, the first and the last of the next, and some late ones."""
    sweep = sweep_steps(n)
    return [*range(sweep), sweep, 2 * sweep - 1, 1000003, LARGEST]


# The lines.


def words(registers):
    """The registers of all processors as lines, eight to a word, the first in the highest byte."""
    padded = registers + [0] * (PROCESSORS - len(registers))
    for first in range(0, PROCESSORS, 8):
        yield bytes(padded[first : first + 8]).hex().upper() + "\n"


def answer_of(n, step):
    """The lines of a list: a refusal, if it is refused, and the left and the right registers."""
    listed = pairs(n, step)
    if listed is None:
        return ["refused 1\n", *words([]), *words([])]
    return [*words([left for left, _ in listed]), *words([right for _, right in listed])]


def check_examples():
    for n, step, listed in EXAMPLES:
        assert pairs(n, step) == listed, (n, step)


def check_sweeps():
    for n in ROUND_TRIPS:
        check(n)


def all_lines():
    """The lines of each case and of its answer."""
    check_examples()
    check_sweeps()
    found = cases()
    print(f"{len(found)} lists of pairs")
    for n, step in found:
        yield [f"{n:016X}\n", f"{step:016X}\n"], answer_of(n, step)


def main():
    argparse.ArgumentParser(description=__doc__.split("\n\n")[0], epilog="It takes no arguments.").parse_args()
    list(all_lines())


if __name__ == "__main__":
    main()
