//! The plain run and the array's whole run, by order, odd orders beside even ones, by sweeps, and with quiet sweeps.
use crate::orders::{self, Call};
use draw::{Lent, Random};
use measure::matrices::{drawn, settling, sweeps_made, SWEEPS};
use measure::rounds::{fastest, round, shown};

use reference::sizes::{MOST_LINES, MOST_SWEEPS};
use reference::{array, plain, Way};

pub fn measure_orders(random: &mut Random) {
    let names = ["plain", "array"].map(|run| format!("{run} run, {SWEEPS} sweeps"));
    let calls: [Call<Lent>; 4] = [
        library_plain,
        reference_plain,
        library_array,
        reference_array,
    ];
    let names = names.each_ref().map(String::as_str);
    orders::measure(names, calls, |n| drawn(n, SWEEPS, random));
}

/// The library's times of odd orders, each beside the even order above it, which has as many processors and as many
/// steps.
pub fn measure_odd(random: &mut Random) {
    println!("| call | odd n | library | even n | library | odd / even |");
    println!("|---|---|---|---|---|---|");
    for n in [3, 15, MOST_LINES - 1] {
        let (odd, even) = (drawn(n, SWEEPS, random), drawn(n + 1, SWEEPS, random));
        let [odd_plain, even_plain, odd_array, even_array] = fastest([
            round(&odd, library_plain),
            round(&even, library_plain),
            round(&odd, library_array),
            round(&even, library_array),
        ]);
        for (name, odd, even) in [
            ("plain", odd_plain, even_plain),
            ("array", odd_array, even_array),
        ] {
            println!(
                "| {name} run, {SWEEPS} sweeps | {n} | {} | {} | {} | {:.2} |",
                shown(odd),
                n + 1,
                shown(even),
                odd / even
            );
        }
    }
}

/// The library's times where more sweeps are booked than it takes to settle, beside just as many.
pub fn measure_quiet(random: &mut Random) {
    const QUIET: usize = 7;
    println!(
        "| call | n | {QUIET} sweeps | {MOST_SWEEPS} sweeps, of which {QUIET} are made | ratio |"
    );
    println!("|---|---|---|---|---|");
    for n in [8, 16, MOST_LINES] {
        let all = settling(n, QUIET, random);
        let mut booked = all.clone();
        booked.iter_mut().for_each(|lent| lent.sweeps = MOST_SWEEPS);
        let times = fastest([
            round(&all, library_plain),
            round(&booked, library_plain),
            round(&all, library_array),
            round(&booked, library_array),
        ]);
        for (name, [few, many]) in [
            ("plain", [times[0], times[1]]),
            ("array", [times[2], times[3]]),
        ] {
            println!(
                "| {name} run | {n} | {} | {} | {:.2} |",
                shown(few),
                shown(many),
                many / few
            );
        }
    }
}

/// How the library's time grows with the sweeps at the largest order.
pub fn measure_sweeps(random: &mut Random) {
    let n = MOST_LINES;
    println!(
        "| n | sweeps | made | plain run | times 1 sweep | array run | times 1 sweep | array / plain |"
    );
    println!("|---|---|---|---|---|---|---|---|");
    let mut first = None;
    for sweeps in [1, 2, 4, 8, 16] {
        let all = drawn(n, sweeps, random);
        let made = all.iter().map(|lent| sweeps_made(lent).min(sweeps));
        let made = made.sum::<usize>() as f64 / all.len() as f64;
        let times = fastest([round(&all, library_plain), round(&all, library_array)]);
        let [one_plain, one_array] = *first.get_or_insert(times);
        let [plain, array] = times;
        println!(
            "| {n} | {sweeps} | {made} | {} | {:.2} | {} | {:.2} | {:.2} |",
            shown(plain),
            plain / one_plain,
            shown(array),
            array / one_array,
            array / plain
        );
    }
}

fn library_plain(lent: &mut Lent) -> bool {
    let (result, vectors) = (&mut lent.result, &mut lent.vectors);
    weimrukas::plain_run(lent.n, lent.sweeps, &lent.matrix, result, vectors).is_ok()
}

/// It ends after the first quiet sweep and tests for refusal 8 at the end only, as the library does.
fn reference_plain(lent: &mut Lent) -> bool {
    let (result, vectors) = (&mut lent.result, &mut lent.vectors);
    plain::run(
        lent.n,
        lent.sweeps,
        &lent.matrix,
        result,
        vectors,
        Way::Short,
    )
    .is_ok()
}

fn library_array(lent: &mut Lent) -> bool {
    let (result, vectors) = (&mut lent.result, &mut lent.vectors);
    weimrukas::array_run(lent.n, lent.sweeps, &lent.matrix, result, vectors).is_ok()
}

fn reference_array(lent: &mut Lent) -> bool {
    let (result, vectors) = (&mut lent.result, &mut lent.vectors);
    array::run(
        lent.n,
        lent.sweeps,
        &lent.matrix,
        result,
        vectors,
        Way::Short,
    )
    .is_ok()
}
