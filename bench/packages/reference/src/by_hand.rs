//! The array by hand, from and to words as the header lays them out.
use crate::array::Array;
use crate::checks;
use crate::numbers::bits;
use crate::sizes::{self, ARRAY_WORDS, HEAD_WORDS, TILE_WORDS};
use crate::tile::{Cell, Corners, Tile};
use crate::Refusal;

// Where the parts of a tile begin in its words.
const CELLS: usize = 0;
const WIRES: usize = 8;
const ROW: usize = 16;
const COLUMN: usize = 17;
const MARK: usize = 18;
const TURNS: usize = 19;
const ROUNDED: usize = 20;
/// How far the eigenvectors' corners are from those of the matrix.
const VECTORS: usize = 4;

/// The array before its first tick. A refused start leaves zeros where the words are a record.
pub fn start(n: usize, sweeps: usize, matrix: &[f64], words: &mut [u64]) -> Result<(), Refusal> {
    let tested = test_start(n, sweeps, matrix, words.len());
    if words.len() == ARRAY_WORDS {
        words.fill(0);
    }
    tested?;
    (words[0], words[1]) = (n as u64, sweeps as u64);
    store(&Array::of_matrix(n, sweeps, matrix), words);
    Ok(())
}

fn test_start(n: usize, sweeps: usize, matrix: &[f64], words: usize) -> Result<(), Refusal> {
    checks::order(n)?;
    checks::sweeps(sweeps)?;
    checks::lengths(&[(matrix.len(), n * n), (words, ARRAY_WORDS)])?;
    checks::entries(n, matrix)
}

/// Whether a tick was made; otherwise the array has stopped and keeps its words.
pub fn tick(words: &mut [u64]) -> Result<bool, Refusal> {
    checks::lengths(&[(words.len(), ARRAY_WORDS)])?;
    let [n, sweeps, tick] = [words[0], words[1], words[2]].map(|word| word as usize);
    checks::order(n)?;
    checks::sweeps(sweeps)?;
    if tick >= sizes::ticks(n, sweeps) {
        return Ok(false);
    }
    for tile in words[HEAD_WORDS..].chunks_exact_mut(TILE_WORDS) {
        put_tile(&tile_of(tile), tile);
    }
    let mut array = load(n, sweeps, words);
    array.make_tick();
    // A tile that a caller wrote may hold a cell that is not finite before it rotates.
    array.tiles.iter_mut().for_each(Tile::mark);
    store(&array, words);
    Ok(true)
}

fn load(n: usize, sweeps: usize, words: &[u64]) -> Array {
    let side = sizes::processors(n);
    let tile = |k: usize| tile_of(&words[sizes::tile(k / side, k % side)..]);
    Array {
        side,
        odd: sizes::is_odd(n),
        sweep: sizes::sweep_steps(n),
        steps: sweeps * sizes::sweep_steps(n),
        tick: words[2] as usize,
        tiles: (0..side * side).map(tile).collect(),
    }
}

/// Puts the next tick and the tiles in use into the words.
fn store(array: &Array, words: &mut [u64]) {
    words[2] = array.tick as u64;
    for (k, tile) in array.tiles.iter().enumerate() {
        let at = sizes::tile(k / array.side, k % array.side);
        put_tile(tile, &mut words[at..]);
    }
}

fn tile_of(words: &[u64]) -> Tile {
    let value = |k: usize| f64::from_bits(words[k]);
    let cell = |k: usize| Cell {
        entry: value(k),
        vector: value(k + VECTORS),
    };
    let corners = |k: usize| [[cell(k), cell(k + 1)], [cell(k + 2), cell(k + 3)]];
    let count = |k: usize| u16::try_from(words[k]).unwrap_or(u16::MAX);
    Tile {
        cells: corners(CELLS),
        wires: corners(WIRES),
        row: value(ROW),
        column: value(COLUMN),
        marked: words[MARK] != 0,
        turns: count(TURNS),
        rounded: count(ROUNDED),
    }
}

fn put_tile(tile: &Tile, words: &mut [u64]) {
    put_corners(&tile.cells, &mut words[CELLS..]);
    put_corners(&tile.wires, &mut words[WIRES..]);
    words[ROW] = bits(tile.row);
    words[COLUMN] = bits(tile.column);
    words[MARK] = tile.marked as u64;
    words[TURNS] = tile.turns.into();
    words[ROUNDED] = tile.rounded.into();
}

fn put_corners(corners: &Corners, words: &mut [u64]) {
    for (k, cell) in corners.iter().flatten().enumerate() {
        words[k] = bits(cell.entry);
        words[k + VECTORS] = bits(cell.vector);
    }
}
