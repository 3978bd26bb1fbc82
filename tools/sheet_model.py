"""A model of the reader and the writer of sheets by document 01, "A sheet" and "Refused, by place", and document 02, line
codes above 255 and odd orders; and what sheet_vectors.py, join_vectors.py and listing_vectors.py share: sheets and
matrices of every kind, and the lines of files. Patterns are judged as whole numbers, and nothing is worked out with values.
"""
import collections

import plain_vectors as plain
from plain_vectors import HIDDEN, INFINITY, LARGEST, NAN, ONE, SIGN, ZERO

READ, WRITE, JOIN = range(3)  # the words for the kinds of cases
MOST_CODES, MOST_VALUES, MOST_BYTES = 40, 34 * 34, 4900  # of lent buffers

# A sheet, and the lengths of the codes and of the matrix that are lent.
Reading = collections.namedtuple("Reading", "sheet codes_size matrix_size")

# What is to be written, the codes as numbers and the matrix as patterns, and the length of the lent sheet.
Writing = collections.namedtuple("Writing", "n sweeps codes matrix sheet_size")

# What a call answers: the number of its refusal, and its row and column, if it has them; what a reading
# gives; and the bytes that a writing gives, without the tail that it leaves alone.
Outcome = collections.namedtuple(
    "Outcome", "number place n sweeps codes matrix sheet", defaults=[None] * 7
)


# The model. Rows and columns are counted from 1.


def length(n, width):
    """The length of a sheet whose codes have so many bytes each."""
    return 2 + width * n + 4 * n * (n + 1)


def width_for(codes):
    """The bytes of a code in the sheet that is written of these codes."""
    return 2 if any(code > 255 for code in codes) else 1


def head_of(sheet):
    """The width of the codes, the order and the sweeps by the first two bytes."""
    return 1 + sheet[0] // 128, sheet[0] % 128, sheet[1]


def refused_sizes(n, sweeps):
    """The number of the refusal of an order and sweeps."""
    if n < 2 or n > 32:
        return 1
    return 2 if sweeps > 16 else None


def has_bad_code(codes):
    return any(code == 0 or code in codes[:k] for k, code in enumerate(codes))


def is_finite(pattern):
    return pattern % SIGN < INFINITY


def stored_places(n):
    """The rows and columns of the entries in a sheet, in their order."""
    return [(i, j) for i in range(1, n + 1) for j in range(1, i + 1)]


def codes_of(sheet):
    """The codes in a sheet."""
    width, n, _ = head_of(sheet)
    starts = range(2, 2 + width * n, width)
    return [int.from_bytes(sheet[k : k + width], "big") for k in starts]


def entries_of(sheet):
    """The patterns of the entries in a sheet by their places."""
    width, n, _ = head_of(sheet)
    starts = range(2 + width * n, len(sheet), 8)
    patterns = [int.from_bytes(sheet[k : k + 8], "big") for k in starts]
    return dict(zip(stored_places(n), patterns))


def read(case):
    sheet = case.sheet
    if len(sheet) < 2:
        return Outcome(number=3)
    width, n, sweeps = head_of(sheet)
    number = refused_sizes(n, sweeps)
    if number:
        return Outcome(number=number)
    if len(sheet) != length(n, width) or case.codes_size != n or case.matrix_size != n * n:
        return Outcome(number=3)
    codes, entries = codes_of(sheet), entries_of(sheet)
    if has_bad_code(codes) or width > width_for(codes):
        return Outcome(number=4)
    for place, pattern in entries.items():
        if not is_finite(pattern):
            return Outcome(number=5, place=place)
    lines = range(1, n + 1)
    matrix = [entries[max(i, j), min(i, j)] for i in lines for j in lines]
    return Outcome(n=n, sweeps=sweeps, codes=codes, matrix=matrix)


def put_together(width, sweeps, codes, entries):
    """The sheet with these entries, in the order of their places, and with codes of so many bytes."""
    head = bytes([len(codes) + 128 * (width - 1), sweeps])
    stored_codes = b"".join(code.to_bytes(width, "big") for code in codes)
    return head + stored_codes + b"".join(pattern.to_bytes(8, "big") for pattern in entries)


def write(case):
    n, codes, matrix = case.n, case.codes, case.matrix
    number = refused_sizes(n, case.sweeps)
    if number:
        return Outcome(number=number)
    if len(codes) != n or len(matrix) != n * n:
        return Outcome(number=3)
    if has_bad_code(codes):
        return Outcome(number=4)
    place = plain.first_place(n, lambda i, j: not is_finite(matrix[i * n + j]))
    if place:
        return Outcome(number=5, place=place)
    place = plain.first_place(n, lambda i, j: i < j and matrix[i * n + j] != matrix[j * n + i])
    if place:
        return Outcome(number=6, place=place)
    width = width_for(codes)
    if case.sheet_size < length(n, width):
        return Outcome(number=7)
    entries = [matrix[(i - 1) * n + (j - 1)] for i, j in stored_places(n)]
    return Outcome(sheet=put_together(width, case.sweeps, codes, entries))


def whole_reading(sheet):
    """A reading of a sheet that is lent what its first byte asks for."""
    n = sheet[0] % 128 if sheet else 0
    return Reading(sheet, n, n * n)


def whole_writing(n, sweeps, codes, matrix):
    """A writing that is lent as many bytes as the sheet has."""
    return Writing(n, sweeps, codes, matrix, length(n, width_for(codes)))


# From document 01, "The printed sheet", and the same with a code above 255.
EXAMPLE = put_together(1, 1, [7, 9], [ONE, ONE, ONE])
LONG_EXAMPLE = put_together(2, 1, [300, 7], [ONE, ONE, ONE])

# The kinds of entries, as patterns.

EDGES = [ZERO, 1, HIDDEN - 1, HIDDEN, HIDDEN + 1, ONE - 1, ONE, LARGEST - 1, LARGEST]
BEYOND = [INFINITY, NAN, INFINITY + 1, NAN - 1, SIGN - 1, NAN + 1, INFINITY + (1 << 32)]
NOT_FINITE = [sign + pattern for pattern in BEYOND for sign in (ZERO, SIGN)]


def any_finite(rng):
    return next(plain.finite_patterns(rng))


def zero(rng):
    return rng.choice((ZERO, SIGN))


def subnormal(rng):
    return rng.getrandbits(1) * SIGN + rng.getrandbits(52)


def edge(rng):
    return rng.getrandbits(1) * SIGN + rng.choice(EDGES)


def largest(rng):
    return rng.getrandbits(1) * SIGN + LARGEST


def ordinary(rng):
    return plain.pattern_of(rng.uniform(-1, 1))


def mixed(rng):
    return rng.choice((any_finite, zero, subnormal, edge, ordinary))(rng)


KINDS = [ordinary, zero, subnormal, edge, mixed, any_finite, largest]


def short_codes(rng, n):
    """The first codes, the last ones backwards, or random ones."""
    kinds = range(1, n + 1), range(255, 255 - n, -1), rng.sample(range(1, 256), n)
    return list(rng.choice(kinds))


def long_codes(rng, n):
    """Codes of which some are above 255: the first above it, the last ones backwards, those on both sides of
    it, some that end in a zero byte, some that end in the same byte, random ones, and small ones but for
    half of them or for one."""
    small, large = rng.sample(range(1, 256), n), rng.sample(range(256, 65536), n)
    half = rng.sample(small[: n // 2] + large[n // 2 :], n)
    alone = rng.randrange(n) if n else 0
    kinds = [
        range(256, 256 + n),
        range(65535, 65535 - n, -1),
        range(256 - n // 2, 256 - n // 2 + n),
        range(256, 256 * (n + 1), 256),
        range(7, 256 * n, 256),
        large,
        half,
        small[:alone] + large[alone : alone + 1] + small[alone + 1 :],
    ]
    return list(rng.choice(kinds))


# A form of sheets: the bytes of a code; what the first byte is above the order; how codes are drawn; what is
# added to the small codes of a few cases; first bytes with a wrong order; and the most bytes that are lent.
Form = collections.namedtuple("Form", "width mark codes above first_bytes most")
SHORT = Form(1, 0, short_codes, 0, (0, 1, 33, 35, 34, 36, 132, 255), 4800)
LONG = Form(2, 128, long_codes, 255, (128, 129, 161, 163, 162, 164, 36, 255), MOST_BYTES)


def some_sheet(rng, form, n, sweeps, kind):
    entries = [kind(rng) for _ in stored_places(n)]
    return put_together(form.width, sweeps, form.codes(rng, n), entries)


def some_matrix(rng, n, kind):
    """The patterns of a mirrored matrix."""
    upper = {(i, j): kind(rng) for i in range(n) for j in range(i, n)}
    return [upper[min(i, j), max(i, j)] for i in range(n) for j in range(n)]


# Sheets and codes that are changed.


def with_codes(sheet, codes):
    """A sheet with other codes, in its own form."""
    width, n, sweeps = head_of(sheet)
    assert len(codes) == n
    return put_together(width, sweeps, codes, entries_of(sheet).values())


def with_entries(sheet, changes):
    """A sheet with the patterns at some places changed."""
    width, _, sweeps = head_of(sheet)
    entries = entries_of(sheet)
    assert entries.keys() >= changes.keys()
    return put_together(width, sweeps, codes_of(sheet), (entries | changes).values())


def zero_at(codes, k):
    return codes[:k] + [0] + codes[k + 1 :]


def repeated(codes, k, other):
    """The codes with the one at k at the other place too."""
    return codes[:other] + codes[k : k + 1] + codes[other + 1 :]


def faulty_codes(rng, codes):
    k, other = rng.sample(range(len(codes)), 2)
    return rng.choice((zero_at(codes, k), repeated(codes, k, other)))


# What is done with cases.


def held(call, groups, *drawn):
    """The cases of some groups, each held to the number that it comes with."""
    cases = []
    for group in groups:
        for number, case in group(*drawn):
            assert call(case).number == number, case
            cases.append(case)
    return cases


def told(numbers):
    """How often each number is there."""
    return plain.summary(number or "none" for number in sorted(numbers, key=lambda number: number or 0))


def packed(data):
    """Bytes as words, eight to a word, the first in the highest byte."""
    eights = [data[k : k + 8] for k in range(0, len(data), 8)]
    return [int.from_bytes(eight.ljust(8, b"\0"), "big") for eight in eights]


def refusal_lines(outcome):
    """The lines of a refusal, and none where there is none."""
    lines = []
    if outcome.number is not None:
        lines.append(f"refused {outcome.number}\n")
    if outcome.place is not None:
        lines += ["row %d\n" % outcome.place[0], "column %d\n" % outcome.place[1]]
    return lines


def written_lines(outcome, size, byte):
    """The lines of an answer that writes a sheet, where so many bytes are lent that are filled so."""
    written = outcome.sheet or b""
    answer = refusal_lines(outcome) or plain.lines_of([len(written)])
    return answer + plain.lines_of(packed(written + bytes([byte] * (size - len(written)))))
