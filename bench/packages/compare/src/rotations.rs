//! The parameters of a pair.
use crate::expected::{same_bits, FILLED_BITS, FILLED_BYTE};
use crate::tally::Tally;
use draw::Random;
use reference::rotation::{parameters, recorded, Found};
use weimrukas::calls;

const PAIRS: usize = 200_000;

pub fn compare(random: &mut Random) -> bool {
    let answers = ["still", "exact turn", "rounded turn", "turn of no numbers"];
    let mut tally = Tally::new("parameters", &answers);
    for _ in 0..PAIRS {
        let pair @ [a, d, b] = random.pair();
        let expected = parameters(a, d, b);
        let answer = match expected.turn {
            None => "still",
            Some(turn) if turn.t.is_nan() => "turn of no numbers",
            Some(_) if expected.exact => "exact turn",
            Some(_) => "rounded turn",
        };
        tally.count(answer, are_parameters(pair, expected));
    }
    tally.report()
}

fn are_parameters([a, d, b]: [f64; 3], expected: Found) -> bool {
    let [mut turn, mut exact] = [FILLED_BYTE; 2];
    let [mut t, mut c, mut s] = [f64::from_bits(FILLED_BITS); 3];
    calls::parameters(a, d, b, &mut turn, &mut t, &mut c, &mut s, &mut exact);
    [turn, exact] == [expected.turn.is_some() as u8, expected.exact as u8]
        && same_bits(&[t, c, s], &recorded(expected.turn))
}
