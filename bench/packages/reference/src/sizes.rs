//! The sizes that the header and document 01 fix.

/// The largest order.
pub const MOST_LINES: usize = 32;
pub const MOST_SWEEPS: usize = 16;

/// Tiles in a row and in a column of an array's record.
pub const MOST_TILES: usize = processors(MOST_LINES);
/// Words before the first tile: the order, the sweeps and the number of the next tick.
pub const HEAD_WORDS: usize = 3;
pub const TILE_WORDS: usize = 21;
pub const ARRAY_WORDS: usize = HEAD_WORDS + MOST_TILES * MOST_TILES * TILE_WORDS;

/// The length of a sheet of order n whose codes have one byte each.
pub const fn sheet_length(n: usize) -> usize {
    2 + n + 4 * n * (n + 1)
}

/// The length of a sheet of order n whose codes have two bytes each.
pub const fn long_sheet_length(n: usize) -> usize {
    2 + 2 * n + 4 * n * (n + 1)
}

/// Bytes that are enough for the listing of a sheet of order n.
pub const fn text_length(n: usize) -> usize {
    15 + n * (23 + 17 * n)
}

/// Where the tile in row i and column j, both from 0, begins in the words of an array.
pub const fn tile(i: usize, j: usize) -> usize {
    HEAD_WORDS + (MOST_TILES * i + j) * TILE_WORDS
}

/// The number of processors, and of tiles in use in a row of the array.
pub const fn processors(n: usize) -> usize {
    n.div_ceil(2)
}

/// The steps of a sweep.
pub const fn sweep_steps(n: usize) -> usize {
    if is_odd(n) {
        n
    } else {
        n - 1
    }
}

/// Whether the registers hold a line 0 too, in the left one of processor 1, which then is always still.
pub const fn is_odd(n: usize) -> bool {
    n % 2 == 1
}

/// The number of ticks of a run.
pub const fn ticks(n: usize, sweeps: usize) -> usize {
    3 * sweeps * sweep_steps(n) + processors(n)
}
