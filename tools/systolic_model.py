#!/usr/bin/env python3
"""Writes crates/test_systolic/proofs/Computed.antt: whole states of the array, the registers and the plain run under the rules of
specs/Toy.antt, worked out here and computed there by the definitions of the crate systolic.

The model follows the documents and not those definitions: document 01, "Pairs and their movement", "Plain run" and "The array"; document
000, the connections and Algorithm Interchange; document 003, Program 3. Processors, rows and columns are counted from 1 as there.
"""
import argparse
import pathlib

ALPHA, BETA, GAMMA, DELTA = "αβγδ"
CORNERS = (ALPHA, BETA, GAMMA, DELTA)


# The rules of Toy.antt. A step is counted from 0 and a processor from 1; Toy.antt counts it from 0.

PRIME = 997
WIRE_START, ROW_START, COLUMN_START, KEPT_START = 901, 902, 903, 904


def mixed(step, processor, b):
    k, i, (x, y, z, w) = step, processor - 1, [b[corner] for corner in CORNERS]
    return {
        ALPHA: (2 * x + 3 * y + 5 * z + 7 * w + 11 * k + 13 * i + 1) % PRIME,
        BETA: (7 * x + 2 * y + 3 * z + 4 * w + 17 * k + 19 * i + 2) % PRIME,
        GAMMA: (3 * x + 5 * y + 8 * z + 2 * w + 23 * k + 29 * i + 3) % PRIME,
        DELTA: (5 * x + 9 * y + 2 * z + 3 * w + 31 * k + 37 * i + 4) % PRIME,
    }


def along_row(step, processor, b):
    return (2 * b[ALPHA] + 3 * b[GAMMA] + 5 * step + 7 * (processor - 1) + 1) % PRIME


def along_column(step, processor, b):
    return (4 * b[BETA] + 7 * b[DELTA] + 13 * step + 17 * (processor - 1) + 9) % PRIME


def keeping(step, processor, b, old):
    x, y, z, w = [b[corner] for corner in CORNERS]
    return (3 * x + 8 * y + 2 * z + 6 * w + 5 * old + 41 * step + 43 * (processor - 1) + 5) % PRIME


def row_turned(h, x, y):
    """The new values at the left and the right line from the old ones."""
    return (h + x) * (y + 3) % PRIME, (h + 2 * y) * (x + 5) % PRIME


def column_turned(v, x, y):
    return (v + 3 * x) * (y + 7) % PRIME, (v + y) * (5 * x + 11) % PRIME


def stamp(step, row, column, h, v, b):
    k, i, j = step, row - 1, column - 1
    return {
        ALPHA: (h + 2 * b[DELTA] + 100 * k + 3 * i + 7 * j) % PRIME,
        BETA: (v + 3 * b[ALPHA] + 200 * k + 5 * i + 2 * j) % PRIME,
        GAMMA: (2 * h + b[BETA] + 300 * k + 11 * i + 4 * j) % PRIME,
        DELTA: (3 * v + b[GAMMA] + 400 * k + 13 * i + 6 * j) % PRIME,
    }


def failing(x):
    return x % 19 == 18


def entry(r, c):
    return (100 + 37 * r + 101 * c + 17 * r * c + 5 * r * r) % PRIME


# Document 01, "Pairs and their movement".


class Registers:
    """left[k] and right[k] of the processors k = 1 to N; place 0 is not used."""

    def __init__(self, N, first=1):
        self.N = N
        self.left = [None] + [first + 2 * k - 2 for k in range(1, N + 1)]
        self.right = [None] + [first + 2 * k - 1 for k in range(1, N + 1)]

    def move(self):
        if self.N == 1:
            return
        left, right = [None] * (self.N + 1), [None] * (self.N + 1)
        left[1] = self.left[1]
        left[2] = self.right[1]
        for k in range(2, self.N):
            left[k + 1] = self.left[k]
        right[self.N] = self.left[self.N]
        for k in range(2, self.N + 1):
            right[k - 1] = self.right[k]
        self.left, self.right = left, right

    def after(self, steps):
        for _ in range(steps):
            self.move()
        return self

    def pairs(self):
        return list(zip(self.left[1:], self.right[1:]))


def meeting_step(N, first, p, q):
    """The number, from 1, of the step of the first sweep in which two different lines meet."""
    found = []
    for step in range(2 * N - 1):
        for pair in Registers(N, first).after(step).pairs():
            if pair in ((p, q), (q, p)):
                found.append(step + 1)
    assert len(found) == 1
    return found[0]


# Document 01, "Plain run".


def plain_run(N, first, steps):
    """The matrix after the steps, as a dictionary on pairs of lines."""
    return plain_states(N, first, steps)[0]


def plain_kept(N, first, steps):
    """What each processor keeps after the steps."""
    return plain_states(N, first, steps)[1]


def plain_states(N, first, steps):
    """Both. What a processor keeps comes from the four entries of its pair at its turn."""
    numbers = range(first, first + 2 * N)
    a = {(r, c): entry(r, c) for r in numbers for c in numbers}
    kept = [KEPT_START] * N
    registers = Registers(N, first)
    for step in range(steps):
        for k, (p, q) in enumerate(registers.pairs(), 1):
            b = {ALPHA: a[p, p], BETA: a[p, q], GAMMA: a[q, p], DELTA: a[q, q]}
            h, v = along_row(step, k, b), along_column(step, k, b)
            kept[k - 1] = keeping(step, k, b, kept[k - 1])
            others = [r for r in numbers if r not in (p, q)]
            for r in others:
                a[p, r], a[q, r] = row_turned(h, a[p, r], a[q, r])
            for r in others:
                a[r, p], a[r, q] = column_turned(v, a[r, p], a[r, q])
            b = mixed(step, k, b)
            a[p, p], a[p, q], a[q, p], a[q, q] = (b[corner] for corner in CORNERS)
        registers.move()
    return a, kept


def part(a, registers, i, j):
    """The 2 by 2 part of a matrix at the row registers of i and the column registers of j."""
    (p, q), (r, s) = registers.pairs()[i - 1], registers.pairs()[j - 1]
    return {ALPHA: a[p, r], BETA: a[p, s], GAMMA: a[q, r], DELTA: a[q, s]}


# Document 000: which input an output is connected to, given as the input's corner, row and column.

UPSIDE_DOWN = {ALPHA: GAMMA, BETA: DELTA, GAMMA: ALPHA, DELTA: BETA}
SIDEWAYS = {ALPHA: BETA, BETA: ALPHA, GAMMA: DELTA, DELTA: GAMMA}


def out_beta(N, i, j):
    """As printed."""
    if i > 1 and j < N:
        return GAMMA, i - 1, j + 1
    if i == 1 and j < N:
        return ALPHA, i, j + 1
    if i > 1 and j == N:
        return DELTA, i - 1, j
    return BETA, i, j


def out_delta(N, i, j):
    """The mirror of out β with the rows upside down."""
    wire, row, column = out_beta(N, N + 1 - i, j)
    return UPSIDE_DOWN[wire], N + 1 - row, column


def out_alpha(N, i, j):
    """The mirror of out β with the columns from right to left."""
    wire, row, column = out_beta(N, i, N + 1 - j)
    return SIDEWAYS[wire], row, N + 1 - column


def out_gamma(N, i, j):
    """The mirror of out α with the rows upside down."""
    wire, row, column = out_alpha(N, N + 1 - i, j)
    return UPSIDE_DOWN[wire], N + 1 - row, column


CONNECTED_TO = {ALPHA: out_alpha, BETA: out_beta, GAMMA: out_gamma, DELTA: out_delta}


def interchange(i, j, x):
    """Algorithm Interchange: the four outputs from the four cells."""
    if i == 1 and j == 1:
        return {ALPHA: x[ALPHA], BETA: x[BETA], GAMMA: x[GAMMA], DELTA: x[DELTA]}
    if i == 1:
        return {ALPHA: x[BETA], BETA: x[ALPHA], GAMMA: x[DELTA], DELTA: x[GAMMA]}
    if j == 1:
        return {ALPHA: x[GAMMA], BETA: x[DELTA], GAMMA: x[ALPHA], DELTA: x[BETA]}
    return {ALPHA: x[DELTA], BETA: x[GAMMA], GAMMA: x[BETA], DELTA: x[ALPHA]}


def wires_of_phase(N, i, j, phase):
    """Program 3: the wires that P_ij sets where T - Δ is the phase modulo 3."""
    wires = set()
    if phase == 0:
        if i > j:
            wires.add(BETA)
        if i < j:
            wires.add(GAMMA)
    elif phase == 1:
        if i == 1 or j == 1:
            wires.add(ALPHA)
        if i == N or j == N:
            wires.add(DELTA)
    else:
        if i > 1 and j > 1:
            wires.add(ALPHA)
        if i <= j:
            wires.add(BETA)
        if i >= j:
            wires.add(GAMMA)
        if i < N and j < N:
            wires.add(DELTA)
    return wires


# Document 01, "The array".


def row_turn(h, x):
    (a, c), (b, d) = row_turned(h, x[ALPHA], x[GAMMA]), row_turned(h, x[BETA], x[DELTA])
    return {ALPHA: a, BETA: b, GAMMA: c, DELTA: d}


def column_turn(v, x):
    (a, b), (c, d) = column_turned(v, x[ALPHA], x[BETA]), column_turned(v, x[GAMMA], x[DELTA])
    return {ALPHA: a, BETA: b, GAMMA: c, DELTA: d}


def turned(_, i, j, h, v, x):
    """The turns of an off-diagonal tile: with i < j the row turn first, with i > j the column turn."""
    return column_turn(v, row_turn(h, x)) if i < j else row_turn(h, column_turn(v, x))


class Tile:
    def __init__(self, cells):
        self.cells = cells
        self.wires = {wire: WIRE_START for wire in CORNERS}
        self.row_wire = ROW_START
        self.column_wire = COLUMN_START
        self.mark = False
        self.kept = KEPT_START


class Array:
    def __init__(self, N, K, turn=turned):
        self.N, self.K, self.T = N, K, 0
        self.turn = turn
        self.places = [(i, j) for i in range(1, N + 1) for j in range(1, N + 1)]
        a = plain_run(N, 1, 0)
        self.tiles = {(i, j): Tile(part(a, Registers(N), i, j)) for i, j in self.places}
        self.wires_set = {}  # in the last tick, by tile
        self.received = {}

    def inputs(self):
        """What the wires and the parameter wires bring to each tile."""
        cells = {place: {} for place in self.places}
        for (i, j), tile in self.tiles.items():
            for wire in CORNERS:
                end, row, column = CONNECTED_TO[wire](self.N, i, j)
                assert end not in cells[row, column]
                cells[row, column][end] = tile.wires[wire]
        parameters = {}
        for i, j in self.places:
            if i != j:
                inward = 1 if i > j else -1
                parameters[i, j] = self.tiles[i, j + inward].row_wire, self.tiles[i - inward, j].column_wire
        return cells, parameters

    def tick(self):
        self.wires_set = {place: set() for place in self.places}
        self.received = {place: 0 for place in self.places}
        if self.T > 3 * self.K + self.N - 1:
            return
        cells, parameters = self.inputs()
        for i, j in self.places:
            self.work(i, j, cells[i, j], parameters.get((i, j)))
            if any(failing(x) for x in self.tiles[i, j].cells.values()):
                self.tiles[i, j].mark = True
        self.T += 1

    def work(self, i, j, cells, parameters):
        tile, since = self.tiles[i, j], self.T - abs(i - j)
        if since < 0 or since > 3 * self.K:
            return
        if since == 3 * self.K:
            if self.K > 0:
                tile.cells = cells
            return
        if since % 3 == 0:
            if since > 0:
                tile.cells = cells
            self.rotate(i, j, since // 3, tile, parameters)
        out = interchange(i, j, tile.cells)
        for wire in wires_of_phase(self.N, i, j, since % 3):
            tile.wires[wire] = out[wire]
            self.wires_set[i, j].add(wire)

    def rotate(self, i, j, step, tile, parameters):
        if i == j:
            tile.row_wire = along_row(step, i, tile.cells)
            tile.column_wire = along_column(step, i, tile.cells)
            tile.kept = keeping(step, i, tile.cells, tile.kept)
            tile.cells = mixed(step, i, tile.cells)
            return
        h, v = parameters
        self.received[i, j] = 2
        tile.cells = self.turn(step, i, j, h, v, tile.cells)
        tile.row_wire, tile.column_wire = h, v


# Document 003, section 6 with Program 2: the idealized array, where all blocks rotate at once and then move along the wires.


def rotated(step, blocks):
    after = {}
    for i, j in blocks:
        h, v = along_row(step, i, blocks[i, i]), along_column(step, j, blocks[j, j])
        after[i, j] = mixed(step, i, blocks[i, j]) if i == j else turned(step, i, j, h, v, blocks[i, j])
    return after


def interchanged(N, blocks):
    after = {place: {} for place in blocks}
    for i, j in blocks:
        out = interchange(i, j, blocks[i, j])
        for wire in CORNERS:
            end, row, column = CONNECTED_TO[wire](N, i, j)
            after[row, column][end] = out[wire]
    return after


def idealized(N, steps):
    """The blocks before each step and after its rotations."""
    places = [(i, j) for i in range(1, N + 1) for j in range(1, N + 1)]
    blocks = {(i, j): part(plain_run(N, 1, 0), Registers(N), i, j) for i, j in places}
    states = []
    for step in range(steps):
        states.append((blocks, rotated(step, blocks)))
        blocks = interchanged(N, states[-1][1])
    return states


def kept_over(N, steps):
    """What each processor keeps before each step."""
    kept, states = [KEPT_START] * N, []
    for step, (blocks, _) in enumerate(idealized(N, steps)):
        states.append(kept)
        kept = [keeping(step, i, blocks[i, i], kept[i - 1]) for i in range(1, N + 1)]
    return states


def run_traffic(N, K):
    """How many wires are set and how many parameters received in a run."""
    array, wires_set, received = Array(N, K), 0, 0
    for _ in range(3 * K + N):
        array.tick()
        wires_set += sum(len(wires) for wires in array.wires_set.values())
        received += sum(array.received.values())
    return wires_set, received


# What holds of the model itself.


def check_model():
    for N in [1, 2, 3, 4, 5, 6, 7, 8, 16]:
        sweep = 2 * N - 1
        start = Registers(N)
        assert start.pairs() == Registers(N).after(sweep).pairs()
        for K in [0, 1, 2, sweep, 2 * sweep]:
            assert run_traffic(N, K) == (4 * N * N * K, 2 * N * (N - 1) * K)
            array = Array(N, K)
            for _ in range(3 * K + N):
                array.tick()
            plain, registers = plain_run(N, 1, K), Registers(N).after(K)
            kept = plain_kept(N, 1, K)
            for i, j in array.places:
                assert array.tiles[i, j].kept == (kept[i - 1] if i == j else KEPT_START)
                assert array.tiles[i, j].cells == part(plain, registers, i, j)
                if K % sweep == 0:
                    assert array.tiles[i, j].cells == part(plain, start, i, j)
        assert kept_over(N, 2 * sweep) == [plain_kept(N, 1, step) for step in range(2 * sweep)]
        for step, (blocks, _) in enumerate(idealized(N, 2 * sweep)):
            plain, registers = plain_run(N, 1, step), Registers(N).after(step)
            for i, j in blocks:
                assert blocks[i, j] == part(plain, registers, i, j)


# The theorems. A list is a Python list, a numeral a string of its digits.

WIDTH = 140


def numeral(text):
    return str(text).lstrip("0") or "0"


def digits(values, width=3):
    """Values beside each other."""
    return numeral("".join(f"{value:0{width}}" for value in values))


def block_digits(block):
    return digits(block[corner] for corner in CORNERS)


def flag(condition):
    return "1" if condition else "0"


def laid_out(value, indent):
    """The lines of a list in antt."""
    pad = " " * indent
    if all(isinstance(item, str) for item in value):
        lines, line = [], pad
        for item in [*(item + " ∷" for item in value[:-1]), value[-1] + " ∷ []"]:
            if line != pad and len(line) + 1 + len(item) > WIDTH - 3:
                lines.append(line)
                line = pad
            line += item if line == pad else " " + item
        return [*lines, line]
    lines = []
    for item in value:
        inner = laid_out(item, indent)
        inner[0] = pad + "(" + inner[0].lstrip()
        inner[-1] += ") ∷"
        lines += inner
    return [*lines, pad + "[]"]


class Theorems:
    def __init__(self):
        self.readings, self.text = [], []

    def note(self, text):
        self.text += ["", "-- " + text]

    def add(self, name, reading, arguments, value):
        if reading not in self.readings:
            self.readings.append(reading)
        call = " ".join([reading, *map(str, arguments)])
        if not self.text[-1].startswith("--"):
            self.text.append("")
        lines = laid_out(value, 4)
        whole = f"{name} : {call} ≡ {lines[0].strip()}"
        self.text += [whole] if len(lines) == 1 and len(whole) <= WIDTH else [f"{name} : {call} ≡", *lines]
        self.text += [f"unfolding {reading}", f"{name} = refl"]


def registers_theorems(theorems):
    theorems.note("the left and the right register of each processor, a digit each, before steps 0 to 2 N")
    for N, first in FROM:
        states = [[digits(pair, 1) for pair in Registers(N, first).after(s).pairs()] for s in range(2 * N + 1)]
        theorems.add(f"registers_{N}_{first}", "registers_over", (first, N - 1), states)
    theorems.note("after 0 to 2 N steps, where the line that began in each register stands, a digit each: left k as 2 (k - 1), right k as 2 k - 1")
    for N in range(1, 5):
        states = []
        for step in range(2 * N + 1):
            standing = [line for pair in Registers(N, 0).after(step).pairs() for line in pair]
            states.append(digits([standing.index(line) for line in range(2 * N)], 1))
        theorems.add(f"moves_{N}", "moves_over", (N - 1,), states)
    theorems.note("the step of a sweep, from 1, in which two lines meet: a row for each line and in it a digit for each line, 0 for itself")
    for N, first in FROM:
        numbers = range(first, first + 2 * N)
        table = [digits([0 if p == q else meeting_step(N, first, p, q) for q in numbers], 1) for p in numbers]
        theorems.add(f"meetings_{N}_{first}", "meeting_steps", (first, N - 1), table)


def wiring_theorems(theorems):
    theorems.note("where α β γ δ of each tile lead: row and column of a tile, from 0, and its input as 0 to 3 for α β γ δ")
    for N in range(1, 5):
        table = []
        for i, j in Array(N, 0).places:
            ends = [CONNECTED_TO[wire](N, i, j) for wire in CORNERS]
            table.append([digits([row - 1, column - 1, CORNERS.index(end)], 1) for end, row, column in ends])
        theorems.add(f"connections_{N}", "connections", (N - 1,), table)
    theorems.note("of each tile Algorithm Interchange on the cells 1 2 / 3 4, and its wires, at 5 6 / 7 8, after each of the three phases")
    new, old = dict(zip(CORNERS, (1, 2, 3, 4))), dict(zip(CORNERS, (5, 6, 7, 8)))
    for N in range(1, 5):
        table = []
        for i, j in Array(N, 0).places:
            out = interchange(i, j, new)
            blocks = [out]
            for phase in range(3):
                chosen = wires_of_phase(N, i, j, phase)
                blocks.append({wire: out[wire] if wire in chosen else old[wire] for wire in CORNERS})
            table.append([digits([block[corner] for corner in CORNERS], 1) for block in blocks])
        theorems.add(f"outputs_{N}", "outputs", (N - 1,), table)


def cells(array):
    return [block_digits(array.tiles[place].cells) for place in array.places]


def wires(array):
    return [block_digits(array.tiles[place].wires) for place in array.places]


def parameters(array):
    return [digits([array.tiles[place].row_wire, array.tiles[place].column_wire]) for place in array.places]


def marks(array):
    return numeral("".join(flag(array.tiles[place].mark) for place in array.places))


def kept(array):
    return [numeral(array.tiles[place].kept) for place in array.places]


def whole_tiles(array):
    tiles = [array.tiles[place] for place in array.places]
    values = [[*tile.cells.values(), *tile.wires.values(), tile.row_wire, tile.column_wire] for tile in tiles]
    return [digits(value) + flag(tile.mark) + digits([tile.kept]) for value, tile in zip(values, tiles)]


def over_ticks(array, ticks, read):
    """The readings after each of these numbers of ticks."""
    states = []
    for t in range(ticks[-1] + 1):
        if t in ticks:
            states.append(read(array))
        array.tick()
    return states


def array_theorems(theorems):
    subjects = [
        (cells, "the array of N by N tiles that runs K steps, named by N and K: the cells of every tile after some ticks"),
        (wires, "its outgoing wires"),
        (parameters, "its parameter wires, along the row and along the column"),
        (marks, "its marks, a digit for each tile"),
        (kept, "what its tiles keep"),
    ]
    for read, note in subjects:
        name = read.__name__
        theorems.note(note)
        for N, K in ARRAYS:
            some = SOME_TICKS.get((name, N, K))
            ticks = some or range(3 * K + N + 2)
            argument = "(" + " ∷ ".join([*map(str, some), "[]"]) + ")" if some else f"(up_to {ticks[-1]})"
            theorems.add(f"{name}_{N}_{K}", name + "_after", (N - 1, K, argument), over_ticks(Array(N, K), ticks, read))
    theorems.note("an array that runs no step: of every tile the cells, the wires, the parameter wires, the mark and what is kept, beside each other")
    for N in range(1, 5):
        states = over_ticks(Array(N, 0), range(N + 2), whole_tiles)
        theorems.add(f"tiles_{N}_0", "tiles_after", (N - 1, 0, f"(up_to {N + 1})"), states)
    theorems.note("the cells where an off-diagonal processor stamps them with its step, row and column")
    for N, K in [(2, 2), (4, 1)]:
        states = over_ticks(Array(N, K, stamp), range(3 * K + N + 2), cells)
        theorems.add(f"stamped_{N}_{K}", "stamped_after", (N - 1, K, f"(up_to {3 * K + N + 1})"), states)


def traffic_theorems(theorems):
    theorems.note("in each tick of a run of 2 steps and one beyond, of every tile: whether it sets α β γ δ, and whether it receives parameters")
    for N in range(1, 5):
        array, states = Array(N, 2), []
        for _ in range(3 * 2 + N + 1):
            array.tick()
            state = []
            for place in array.places:
                tests = [wire in array.wires_set[place] for wire in CORNERS] + [array.received[place]]
                state.append(numeral("".join(map(flag, tests))))
            states.append(state)
        theorems.add(f"traffic_{N}", "traffic_in", (N - 1, 2, 3 * 2 + N + 1), states)
    theorems.note("how many wires are set and how many parameters received in runs of 0 to 3 steps, for N = 1 to 4")
    totals = [[run_traffic(N, K) for K in range(4)] for N in range(1, 5)]
    theorems.add("wires_set_lem", "wires_set_over", (4,), [[str(wires_set) for wires_set, _ in row] for row in totals])
    theorems.add("received", "received_over", (4,), [[str(received) for _, received in row] for row in totals])


def run_theorems(theorems):
    theorems.note("the plain run, named by N and the first line: the rows of the matrix after 0, 1, .. steps")
    for N, first in FROM:
        numbers = range(first, first + 2 * N)
        states = []
        for step in range(PLAIN_STEPS[N]):
            a = plain_run(N, first, step)
            states.append([digits(a[r, c] for c in numbers) for r in numbers])
        theorems.add(f"plain_{N}_{first}", "plain_over", (first, N - 1, PLAIN_STEPS[N]), states)
    theorems.note("what each processor keeps before the steps of the plain run")
    for N, first in FROM:
        states = [digits(plain_kept(N, first, step)) for step in range(KEPT_STEPS[N])]
        theorems.add(f"plain_kept_{N}_{first}", "plain_kept_over", (first, N - 1, KEPT_STEPS[N]), states)
    theorems.note("whether an entry fails after 0 to 3 steps, a digit each, for N = 1 to 4")
    states = [numeral("".join(flag(any(map(failing, plain_run(N, 1, step).values()))) for step in range(4))) for N in range(1, 5)]
    theorems.add("fails", "fails_over", (4,), states)
    theorems.note("the idealized array: the blocks before each step, and after its rotations")
    for N in range(1, 5):
        states = []
        for before, after in idealized(N, BLOCK_STEPS[N]):
            states += [[block_digits(b) for b in before.values()], [block_digits(b) for b in after.values()]]
        theorems.add(f"blocks_{N}", "blocks_over", (N - 1, BLOCK_STEPS[N]), states)
    theorems.note("the parameters that its processors send in each step, along the row and along the column")
    for N in range(2, 4):
        states = []
        for step, (blocks, _) in enumerate(idealized(N, 3)):
            sent = [(along_row(step, i, blocks[i, i]), along_column(step, i, blocks[i, i])) for i in range(1, N + 1)]
            states.append([digits(pair) for pair in sent])
        theorems.add(f"sent_{N}", "sent_over", (N - 1, 3), states)
    theorems.note("and what they keep before each step")
    for N in range(1, 4):
        theorems.add(f"ideal_kept_{N}", "kept_over", (N - 1, 4), [digits(state) for state in kept_over(N, 4)])


# What is computed: N and the first wire; N and K; where not every tick of a run and one beyond are read, those that are; steps by N.
# N = 5 is the least at which a tile that read its parameters straight from the diagonal would get a later step's.
FROM = [(1, 1), (2, 0), (2, 1), (3, 1), (4, 0), (4, 1)]
ARRAYS = [(1, 1), (1, 2), (2, 1), (2, 2), (2, 3), (3, 1), (3, 2), (4, 1), (4, 2), (5, 2)]
SOME_TICKS = {
    ("cells", 2, 3): [11],
    ("wires", 2, 3): [9],
    ("parameters", 2, 3): [8],
    ("marks", 2, 3): [8],
    ("marks", 3, 2): [3, 5, 7, 10],
    ("cells", 4, 2): [4, 7, 10],
    ("wires", 4, 2): [2, 4, 6, 8, 10],
    ("marks", 4, 2): [5, 8, 11],
    ("cells", 5, 2): [5],
    ("wires", 5, 2): [5],
    ("parameters", 5, 2): [5, 6],
    ("marks", 5, 2): [5],
    ("kept", 2, 3): [8],
    ("kept", 3, 2): [3, 4, 11],
    ("kept", 4, 2): [1, 4, 11],
    ("kept", 5, 2): [5],
}
PLAIN_STEPS = {1: 5, 2: 5, 3: 4, 4: 4}
KEPT_STEPS = {1: 5, 2: 4, 3: 4, 4: 3}
BLOCK_STEPS = {1: 3, 2: 3, 3: 2, 4: 2}


def imports(names):
    """Lines of six names each."""
    groups = [names[k : k + 6] for k in range(0, len(names), 6)]
    return ["use Rattle.test_systolic.specs.Readings.{" + ", ".join(group) + "}" for group in groups]


def main():
    argparse.ArgumentParser(description=__doc__.split("\n\n")[0], epilog="It takes no arguments.").parse_args()
    check_model()
    theorems = Theorems()
    registers_theorems(theorems)
    wiring_theorems(theorems)
    array_theorems(theorems)
    traffic_theorems(theorems)
    run_theorems(theorems)
    head = [
        "-- Written by tools/systolic_model.py, which works the values out from the documents. Each is computed here by the definitions.",
        "-- Assumes nothing.",
        "use mathlib.Core.Path.{◌≡◌, refl}",
        "use mathlib.Core.List.{[], ◌∷◌}",
        *imports(["up_to", *theorems.readings]),
    ]
    root = pathlib.Path(__file__).resolve().parent.parent
    path = root / "crates" / "test_systolic" / "proofs" / "Computed.antt"
    path.write_text("\n".join([*head, *theorems.text]) + "\n", encoding="utf-8")


if __name__ == "__main__":
    main()
