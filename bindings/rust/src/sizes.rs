//! The sizes of the header.

/// The largest order.
pub const MOST_LINES: usize = 32;
pub const MOST_SWEEPS: usize = 16;
/// Tiles in a row and in a column of an array's record.
pub const MOST_PROCESSORS: usize = MOST_LINES.div_ceil(2);

/// Words before the first tile: the order, the sweeps and the number of the next tick.
const HEAD_WORDS: usize = 3;
pub const TILE_WORDS: usize = 21;
pub const ARRAY_WORDS: usize = HEAD_WORDS + MOST_PROCESSORS * MOST_PROCESSORS * TILE_WORDS;

/// The length of a sheet of order n whose codes are all below 256, and so have one byte each.
pub const fn sheet_length(n: usize) -> usize {
    2 + n + 4 * n * (n + 1)
}

/// The length of a sheet of order n of which a code is above 255, and so each has two bytes.
pub const fn long_sheet_length(n: usize) -> usize {
    2 + 2 * n + 4 * n * (n + 1)
}

/// Bytes that are enough for the listing of a sheet of order n.
pub const fn text_length(n: usize) -> usize {
    15 + n * (23 + 17 * n)
}

/// Where the tile in row i and column j, both from 0, begins in the words of an array.
pub const fn tile(i: usize, j: usize) -> usize {
    HEAD_WORDS + (MOST_PROCESSORS * i + j) * TILE_WORDS
}
