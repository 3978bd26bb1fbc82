//! The array and its whole run (document 01, "The array"; document 02, odd orders, quiet sweeps and rounded roots), with
//! the processor's square root.
use crate::checks;
use crate::sizes::{self, is_odd, MOST_TILES};
use crate::tile::{wires_set, Cell, Tile};
use crate::{Refusal, Way};

/// The tiles in use, row by row, as many rows as columns; whether the order is odd, so that the first row and column of
/// cells are line 0's; the steps of a sweep, the number of all steps, and that of the next tick.
pub struct Array {
    pub side: usize,
    pub odd: bool,
    pub sweep: usize,
    pub steps: usize,
    pub tick: usize,
    pub tiles: Vec<Tile>,
}

/// What a tile does in a tick. The first rotation reads no cells, and stopping is reading without rotating.
#[derive(Clone, Copy)]
enum Action {
    Nothing,
    First,
    Rotate,
    Phase1,
    Phase2,
    Stop,
}

/// What the tiles at each distance from the diagonal do.
type Actions = [Action; MOST_TILES];

/// The sweeps and the ticks of a run up to its first quiet sweep, or of all its sweeps, and its pairs with a rounded root,
/// as the tiles counted them.
#[derive(Clone, Copy, Debug, PartialEq, Eq)]
pub struct Made {
    pub sweeps: usize,
    pub ticks: usize,
    pub rounded: usize,
}

/// Runs the sweeps, leaves the last matrix and the eigenvectors in the two results, and answers what was made.
pub fn run(
    n: usize,
    sweeps: usize,
    matrix: &[f64],
    result: &mut [f64],
    vectors: &mut [f64],
    way: Way,
) -> Result<Made, Refusal> {
    checks::run(n, sweeps, matrix, result.len(), vectors.len())?;
    let mut array = Array::of_matrix(n, sweeps, matrix);
    let mut quiet = None;
    while !array.has_stopped() {
        array.make_tick();
        if let Some(sweep) = array.quiet_sweep() {
            quiet.get_or_insert(sweep);
            if way == Way::Short {
                array.steps = sweep * array.sweep;
            }
        }
    }
    let sweeps = quiet.unwrap_or(sweeps);
    let ticks = match way {
        Way::Whole => sizes::ticks(n, sweeps),
        Way::Short => array.tick,
    };
    if array.is_spoiled() {
        result.fill(0.0);
        vectors.fill(0.0);
        return Err(Refusal::of(8));
    }
    array.write_cells(n, result, vectors);
    let rounded = array.rounded();
    Ok(Made {
        sweeps,
        ticks,
        rounded,
    })
}

impl Array {
    pub fn of_matrix(n: usize, sweeps: usize, matrix: &[f64]) -> Array {
        let side = sizes::processors(n);
        let mut array = Array {
            side,
            odd: is_odd(n),
            sweep: sizes::sweep_steps(n),
            steps: sweeps * sizes::sweep_steps(n),
            tick: 0,
            tiles: vec![Tile::default(); side * side],
        };
        for (k, &entry) in matrix.iter().enumerate() {
            let (i, j) = (k / n, k % n);
            let vector = if i == j { 1.0 } else { 0.0 };
            *array.cell(i, j) = Cell { entry, vector };
        }
        array
    }

    /// The cell of two real lines, from 0, where they stand at first and at the end.
    fn cell(&mut self, i: usize, j: usize) -> &mut Cell {
        let (i, j) = (i + self.odd as usize, j + self.odd as usize);
        &mut self.tiles[i / 2 * self.side + j / 2].cells[i % 2][j % 2]
    }

    fn write_cells(&mut self, n: usize, result: &mut [f64], vectors: &mut [f64]) {
        for k in 0..n * n {
            let cell = *self.cell(k / n, k % n);
            (result[k], vectors[k]) = (cell.entry, cell.vector);
        }
    }

    pub fn is_spoiled(&self) -> bool {
        self.tiles.iter().any(|tile| tile.marked)
    }

    /// What the tiles on the diagonal counted.
    fn rounded(&self) -> usize {
        (0..self.side)
            .map(|i| self.tile(i, i).rounded as usize)
            .sum()
    }

    /// Whether every tile has stopped. A tile begins in the tick of its distance from the diagonal, and stops 3 ticks a
    /// step later.
    pub fn has_stopped(&self) -> bool {
        (0..self.side).all(|away| self.tick > away + 3 * self.steps)
    }

    /// The sweep whose last rotations on the diagonal the last tick made, if no tile there counted a turn in it.
    fn quiet_sweep(&self) -> Option<usize> {
        let last = self.tick - 1;
        let steps = last / 3 + 1;
        let is_end = (last % 3, steps % self.sweep) == (0, 0) && steps <= self.steps;
        let is_quiet = || (0..self.side).all(|i| self.tile(i, i).turns == 0);
        (is_end && is_quiet()).then_some(steps / self.sweep)
    }

    /// Makes a tick. Tiles are marked where their cells may have changed.
    pub fn make_tick(&mut self) {
        let actions = self.actions();
        self.read_wires(actions);
        self.work(actions);
        self.tick += 1;
    }

    fn actions(&self) -> Actions {
        let last = 3 * self.steps;
        std::array::from_fn(|away| match self.tick.checked_sub(away) {
            Some(since) if since < last => match since % 3 {
                0 if since == 0 => Action::First,
                0 => Action::Rotate,
                1 => Action::Phase1,
                _ => Action::Phase2,
            },
            Some(since) if since == last && last > 0 => Action::Stop,
            _ => Action::Nothing,
        })
    }

    /// How many wires of corners the next tick sets, and how many tiles read their parameter wires in it.
    pub fn traffic(&self) -> (usize, usize) {
        let (actions, last) = (self.actions(), self.side - 1);
        let (mut wires, mut readings) = (0, 0);
        for i in 0..self.side {
            for j in 0..self.side {
                let phase = match actions[i.abs_diff(j)] {
                    Action::First | Action::Rotate => 0,
                    Action::Phase1 => 1,
                    Action::Phase2 => 2,
                    Action::Nothing | Action::Stop => continue,
                };
                let set = wires_set(phase, i, j, last);
                wires += set.as_flattened().iter().filter(|&&is_set| is_set).count();
                readings += (phase == 0 && i != j) as usize;
            }
        }
        (wires, readings)
    }

    /// All tiles read before any tile sets the wires of its corners.
    fn read_wires(&mut self, actions: Actions) {
        for i in 0..self.side {
            for j in 0..self.side {
                match actions[i.abs_diff(j)] {
                    Action::First => self.read_tangents(i, j),
                    Action::Rotate => {
                        self.read_tangents(i, j);
                        self.read_cells(i, j);
                    }
                    Action::Stop => self.read_cells(i, j),
                    Action::Nothing | Action::Phase1 | Action::Phase2 => {}
                }
            }
        }
    }

    fn work(&mut self, actions: Actions) {
        let (last, odd) = (self.side - 1, self.odd);
        let (tick, sweep) = (self.tick, self.sweep);
        for (i, row) in self.tiles.chunks_exact_mut(self.side).enumerate() {
            for (j, tile) in row.iter_mut().enumerate() {
                match actions[i.abs_diff(j)] {
                    Action::First | Action::Rotate => {
                        if i == j && tick / 3 % sweep == 0 {
                            tile.turns = 0;
                        }
                        tile.rotate(i, j, odd && i == 0);
                        tile.mark();
                        tile.set_wires(0, i, j, last);
                    }
                    Action::Phase1 => tile.set_wires(1, i, j, last),
                    Action::Phase2 => tile.set_wires(2, i, j, last),
                    Action::Stop => tile.mark(),
                    Action::Nothing => {}
                }
            }
        }
    }

    /// Off the diagonal a tile passes on what it reads. Those that read it in turn are a tick behind.
    fn read_tangents(&mut self, i: usize, j: usize) {
        if i != j {
            let nearer = |i: usize, j: usize| if i < j { j - 1 } else { j + 1 };
            let row = self.tile(i, nearer(i, j)).row;
            let column = self.tile(nearer(j, i), j).column;
            let tile = &mut self.tiles[i * self.side + j];
            (tile.row, tile.column) = (row, column);
        }
    }

    /// The wires come from the neighbours' facing corners. At an edge a row or column is its own neighbour.
    fn read_cells(&mut self, i: usize, j: usize) {
        let last = self.side - 1;
        let (above, lower) = if i == 0 { (0, 0) } else { (i - 1, 1) };
        let (below, upper) = if i == last { (i, 1) } else { (i + 1, 0) };
        let (before, right) = if j == 0 { (0, 0) } else { (j - 1, 1) };
        let (after, left) = if j == last { (j, 1) } else { (j + 1, 0) };
        self.tiles[i * self.side + j].cells = [
            [
                self.tile(above, before).wires[lower][right],
                self.tile(above, after).wires[lower][left],
            ],
            [
                self.tile(below, before).wires[upper][right],
                self.tile(below, after).wires[upper][left],
            ],
        ];
    }

    fn tile(&self, i: usize, j: usize) -> &Tile {
        &self.tiles[i * self.side + j]
    }
}
