//! One tile: its rotation, its wires, its mark, its counts (document 01, "The array"; document 02, odd orders, quiet
//! sweeps and rounded roots). Rows and columns of tiles are counted from 0.
use crate::rotation::{of_tangent, parameters, Turn, STILL};

/// An entry of the matrix and the like entry of the eigenvectors, which move together.
#[derive(Clone, Copy, Default)]
pub struct Cell {
    pub entry: f64,
    pub vector: f64,
}

/// A value for each corner α β / γ δ, by its row and its column.
pub type Corners = [[Cell; 2]; 2];

/// Beside its cells a tile holds its outgoing wires: one by each corner, and those that pass a tangent along its row
/// and its column. On the diagonal it counts its turns in the current sweep, and in all sweeps its pairs with a rounded
/// root.
#[derive(Clone, Copy, Default)]
pub struct Tile {
    pub cells: Corners,
    pub wires: Corners,
    pub row: f64,
    pub column: f64,
    pub marked: bool,
    pub turns: u16,
    pub rounded: u16,
}

/// Which wires of a tile are set in a phase, by row and column of their corners (document 003, Program 3).
pub fn wires_set(phase: usize, i: usize, j: usize, last: usize) -> [[bool; 2]; 2] {
    match phase {
        0 => [[false, i > j], [i < j, false]],
        1 => [[i == 0 || j == 0, false], [false, i == last || j == last]],
        _ => [[i > 0 && j > 0, i <= j], [i >= j, i < last && j < last]],
    }
}

impl Tile {
    /// Off the diagonal the tile turns by the tangents that its parameter wires hold. On it the tile may be always
    /// still, whatever its cells hold.
    pub fn rotate(&mut self, i: usize, j: usize, always_still: bool) {
        if i == j {
            self.rotate_on_diagonal(always_still);
        } else {
            self.rotate_off_diagonal(i < j);
        }
    }

    fn rotate_on_diagonal(&mut self, always_still: bool) {
        let [[a, b], [_, d]] = self.cells.map(|row| row.map(|cell| cell.entry));
        let found = if always_still {
            STILL
        } else {
            parameters(a, d, b)
        };
        let (t, a, d) = match found.turn {
            Some(Turn { t, .. }) => (t, a - t * b, d + t * b),
            None => (0.0, a, d),
        };
        self.turns = self.turns.saturating_add(found.turn.is_some() as u16);
        self.rounded = self.rounded.saturating_add(!found.exact as u16);
        self.turn_columns(found.turn);
        let [[alpha, beta], [gamma, delta]] = &mut self.cells;
        (alpha.entry, beta.entry) = (a, 0.0);
        (gamma.entry, delta.entry) = (0.0, d);
        (self.row, self.column) = (t, t);
    }

    /// Above the diagonal the rows are turned first, below it the columns.
    fn rotate_off_diagonal(&mut self, above: bool) {
        let rows = of_tangent(self.row);
        let columns = of_tangent(self.column);
        if above {
            self.turn_rows(rows);
            self.turn_columns(columns);
        } else {
            self.turn_columns(columns);
            self.turn_rows(rows);
        }
    }

    /// The row turn, which the eigenvectors do not get.
    fn turn_rows(&mut self, turn: Option<Turn>) {
        if let Some(turn) = turn {
            let [upper, lower] = &mut self.cells;
            for (x, y) in upper.iter_mut().zip(lower) {
                (x.entry, y.entry) = turn.of(x.entry, y.entry);
            }
        }
    }

    fn turn_columns(&mut self, turn: Option<Turn>) {
        if let Some(turn) = turn {
            for [x, y] in &mut self.cells {
                (x.entry, y.entry) = turn.of(x.entry, y.entry);
                (x.vector, y.vector) = turn.of(x.vector, y.vector);
            }
        }
    }

    /// Marks the tile if a cell is not finite.
    pub fn mark(&mut self) {
        let [[a, b], [c, d]] = self.cells;
        let finite = |cell: Cell| cell.entry.is_finite() & cell.vector.is_finite();
        self.marked |= !(finite(a) & finite(b) & finite(c) & finite(d));
    }

    pub fn set_wires(&mut self, phase: usize, i: usize, j: usize, last: usize) {
        let set = wires_set(phase, i, j, last);
        for (row, column) in [(0, 0), (0, 1), (1, 0), (1, 1)] {
            if set[row][column] {
                self.wires[row][column] = self.leaving(i, j, row, column);
            }
        }
    }

    /// The cell that leaves by a corner: it crosses to the other row, except in the first row of tiles, and to the
    /// other column, except in the first column (document 000, Algorithm Interchange).
    fn leaving(&self, i: usize, j: usize, row: usize, column: usize) -> Cell {
        self.cells[row ^ (i > 0) as usize][column ^ (j > 0) as usize]
    }
}
