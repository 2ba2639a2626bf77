//! The cost of a step for books of more and more entries and journeys of more and more days, each ending with its book.

use reference::book::LIMIT;
use reference::extras::Extras;
use reference::rule::{Setting, State, EARTH};

use crate::books::made;
use crate::clock::Rounds;
use crate::flight::{timed, Flight, DAY, H};

/// Document 003's Earth, Moon and Sun.
const SETTING: Setting = Setting {
    coefficients: [398603.20, 4900.7589, 132715440000.0, 0.0, 0.0, 0.0],
    dut: 35_000,
    extras: Extras::NONE,
    rule: 0,
};
const COVER_DAYS: u32 = 400;
/// Journeys by days, each with a divisor of the number of rounds.
const JOURNEYS: [(u32, u32); 3] = [(1, 1), (30, 1), (365, 5)];
/// Books by entries and coefficients: with 850 entries there is only room for two coefficients.
const BOOKS: [(usize, usize); 5] = [(12, 2), (160, 2), (850, 2), (12, 13), (160, 13)];

fn milliseconds(days: u32) -> u64 {
    u64::from(days) * u64::from(DAY) * u64::from(H)
}

/// An orbit about the Earth at 42,164 km for a number of days, up to a minute before the end of the cover.
fn journey(book: &[u8], days: u32) -> Flight<'_> {
    let r = 42_164.0;
    let moment = milliseconds(COVER_DAYS) - milliseconds(days) - u64::from(H);
    let state = State::bare(moment, EARTH, [r, 0.0, 0.0], [0.0, f64::sqrt(SETTING.coefficients[0] / r), 0.0]);
    Flight::by_run(book, SETTING, &state, days * DAY)
}

/// Nanoseconds per step of the proved walk, document 01's in Rust and the fastest Rust form.
fn a_step(book: &[u8], (days, part): (u32, u32), times: u32) -> Result<[f64; 3], String> {
    let times = (times / part).max(3);
    let figures = timed(&[&journey(book, days)], Rounds::new(times, 8))?;
    let [proved, plain, _, best] = figures[0];
    Ok([proved, plain, best].map(|t| t / f64::from(days * DAY)))
}

/// The figures as cells, those of one walk next to each other.
fn cells(walks: &[[f64; 3]]) -> String {
    let all = (0..3).flat_map(|walk| walks.iter().map(move |figures| figures[walk]));
    all.map(|figure| format!(" {figure:.0} |")).collect()
}

pub fn table(times: u32) -> Result<(), String> {
    let days = JOURNEYS.map(|(days, _)| days.to_string()).join(", ");
    println!("| Nanoseconds a step, journeys of {days} days | Proved | | | Rust, document 01's walk | | | Rust, best shape | | |");
    println!("|---|---|---|---|---|---|---|---|---|---|");
    for (entries, n) in BOOKS {
        let book = made(entries, n, 0, milliseconds(COVER_DAYS));
        assert!(book.len() <= LIMIT);
        let walks = JOURNEYS.iter().map(|&journey| a_step(&book, journey, times)).collect::<Result<Vec<_>, _>>()?;
        println!("| {entries} entries of {n} coefficients, {} bytes |{}", book.len(), cells(&walks));
    }
    Ok(())
}
