//! The questions under a book and under a fuller one: lines, journeys and orders.

use super::centres::used_centre;
use super::chance::Chance;
use super::cover::{crossing, edge, middle_gap};
use super::extras::flown;
use super::fuller::{pairs, Pair};
use super::lines::{is_run, most_steps, start_of, with_guesses};
use super::plan::made;
use super::runs::{long, plain};
use super::strips::MOST;
use super::travel::{journey, Journey};
use super::trip::{guesses, noted, trip, trip_at, MakeRuns, Trip, NOMINAL};
use crate::book::Entry;
use crate::extras::Extras;
use crate::rule::{EARTH, SUN};

/// How many lines of each kind there are for a pair, how many runs leave the first book's cover, and how many journeys and orders.
pub const LINES: [(&str, usize); 8] =
    [("body", 10), ("accel", 3), ("pull", 6), ("inject", 6), ("move", 8), ("fly", 12), ("run", 10), ("terms", 8)];
pub const OUTWARD: usize = 10;
pub const JOURNEYS: usize = 4;
pub const ORDERS: usize = 4;

/// The most steps of a line. One that is refused under the first book may go on to its target under the second.
const STEPS: u64 = 2000;

/// A pair of books with the questions under both. Each line is there twice, because the guesses under the second may differ.
#[derive(Clone, Debug)]
pub struct Night {
    pub pair: Pair,
    pub lines: Vec<(String, String)>,
    pub journeys: Vec<(Journey, [u64; 5])>,
    pub orders: Vec<Vec<u8>>,
}

/// Whether two entries are of one body at the same time.
fn alike(a: &Entry, b: &Entry) -> bool {
    (a.body, a.start, a.span) == (b.body, b.start, b.span)
}

/// Steps out of an entry of the first book into an added one that touches it, if there is one, or over the end of an entry. Other
/// bodies are mostly left out: they may have no cover there.
fn outward(c: &mut Chance, p: &Pair) -> Trip {
    let old = |e: &Entry| p.first.entries.iter().any(|a| alike(a, e));
    let next = |a: &Entry, b: &Entry| a.body == b.body && a.start + a.span == b.start && old(a) && !old(b);
    let places: Vec<(Entry, Entry)> = p.second.entries.windows(2).map(|e| (e[0], e[1])).filter(|(a, b)| next(a, b)).collect();
    if places.is_empty() {
        return crossing(c, &p.first).remove(0).1;
    }
    let (a, b) = c.pick(&places);
    let h = (a.span.min(b.span) / c.between(1, 8) / 2 * 2).clamp(2, 86_400_000);
    let t = b.start.saturating_sub(h * c.between(1, 6) + c.below(2)).max(a.start);
    let mut t = trip_at(c, &p.first, t);
    if !c.one_in(3) {
        t.setting.coefficients[1..].fill(0.0);
    }
    t.setting.coefficients[usize::from(a.body) - 1] = NOMINAL[usize::from(a.body) - 1];
    t.state.centre = used_centre(c, &t.setting);
    if c.one_in(2) {
        t.setting.extras = flown(c);
        t.setting.extras.k = if u64::from(a.body) == SUN { t.setting.extras.k } else { 0.0 };
    }
    t.h = h as u32;
    t.aim(c.between(2, 12));
    t.budget = c.pick(&[3, 1000, 1000]);
    t
}

/// Lines of every kind, three of four made for the first book, the others for the second.
fn lines(c: &mut Chance, p: &Pair) -> Vec<(String, String)> {
    let mut list = Vec::new();
    for (kind, n) in LINES {
        let mut own = Vec::new();
        while own.len() < n {
            let w = if c.one_in(4) { &p.second } else { &p.first };
            let any = c.below(1000) as usize;
            let lines = made(c, w, kind, any).into_iter().map(|call| String::from_utf8_lossy(&call.line).into_owned());
            own.extend(lines.filter(|line| !is_run(line) || most_steps(line).is_some_and(|steps| steps <= STEPS)));
        }
        own.truncate(n);
        list.extend(own);
    }
    for _ in 0..OUTWARD {
        let t = outward(c, p);
        list.push(if c.one_in(4) { t.run_line() } else { t.kept(p.first.bytes()).fly_line() });
    }
    list.into_iter().map(|line| (line.clone(), guessed(c, p, line))).collect()
}

/// The line for the second book: every other run has other guesses.
fn guessed(c: &mut Chance, p: &Pair, line: String) -> String {
    match start_of(&line) {
        Some(moment) if is_run(&line) && c.one_in(2) => {
            let style = c.below(9);
            with_guesses(&line, guesses(c, &p.second, moment, style))
        }
        _ => line,
    }
}

/// An order of at most that many steps under either book, every other one with J, A and K.
fn order(c: &mut Chance, p: &Pair) -> Vec<u8> {
    let make = c.pick(&[plain as MakeRuns, crossing, edge, middle_gap, long]);
    let w = if c.one_in(6) { &p.second } else { &p.first };
    let (_, mut t) = if c.one_in(2) { noted("", outward(c, p)) } else { make(c, w) }.remove(0);
    let with_extras = c.one_in(2);
    t.state.centre = EARTH;
    t.setting.extras = if with_extras { flown(c) } else { Extras::NONE };
    let t = t.shortened(p.first.bytes(), MOST).shortened(p.second.bytes(), MOST);
    if with_extras { t.order144() } else { t.order() }
}

fn night(c: &mut Chance, pair: Pair) -> Night {
    let travel = |c: &mut Chance| {
        let w = if c.one_in(4) { &pair.second } else { &pair.first };
        let t = match c.below(3) {
            0 => trip(c, w),
            1 => crossing(c, w).remove(0).1,
            _ => outward(c, &pair),
        };
        (journey(c, t.clone()), t.guesses)
    };
    let journeys = (0..JOURNEYS).map(|_| travel(c)).collect();
    let lines = lines(c, &pair);
    let orders = (0..ORDERS).map(|_| order(c, &pair)).collect();
    Night { pair, lines, journeys, orders }
}

/// The pairs of the real books, also with this order, and a number of random pairs.
pub fn nights(c: &mut Chance, n: usize, real: &[(String, Vec<u8>)], own: &[u8]) -> Vec<Night> {
    let mut list: Vec<Night> = pairs(c, n, real).into_iter().map(|pair| night(c, pair)).collect();
    for night in &mut list {
        if !own.is_empty() && real.iter().any(|(name, _)| night.pair.name.starts_with(name)) {
            night.orders.push(own.to_vec());
        }
    }
    list
}
