//! The sizes that the wrapper gives.
use crate::tally::Tally;
use draw::Random;
use reference::sizes;

pub fn compare(_: &mut Random) -> bool {
    let mut tally = Tally::new("sizes", &["alone", "of an order", "of a tile"]);
    let alone = [
        (weimrukas::MOST_LINES, sizes::MOST_LINES),
        (weimrukas::MOST_SWEEPS, sizes::MOST_SWEEPS),
        (weimrukas::MOST_PROCESSORS, sizes::MOST_TILES),
        (weimrukas::TILE_WORDS, sizes::TILE_WORDS),
        (weimrukas::ARRAY_WORDS, sizes::ARRAY_WORDS),
    ];
    for (one, other) in alone {
        tally.count("alone", one == other);
    }
    for n in 2..=sizes::MOST_LINES {
        let same_sheet = weimrukas::sheet_length(n) == sizes::sheet_length(n)
            && weimrukas::long_sheet_length(n) == sizes::long_sheet_length(n);
        let same_text = weimrukas::text_length(n) == sizes::text_length(n);
        tally.count("of an order", same_sheet && same_text);
    }
    for k in 0..sizes::MOST_TILES * sizes::MOST_TILES {
        let (i, j) = (k / sizes::MOST_TILES, k % sizes::MOST_TILES);
        tally.count("of a tile", weimrukas::tile(i, j) == sizes::tile(i, j));
    }
    tally.report()
}
