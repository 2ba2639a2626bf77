//! States that are offered to a pane, and the lines that offer them.

use super::chance::Chance;
use super::floats::{anything, flight, hexes, largest, one_not_finite, signed_zeros, wild};
use super::trip::bad_centre;
use crate::hour::END;
use crate::pane::Pane;
use crate::rule::State;

/// Finite positions, and one velocity or all that are not finite.
pub fn infinite_velocities(c: &mut Chance) -> [f64; 6] {
    let mut s = flight(c);
    let (whole, one) = (c.one_in(2), c.between(3, 5) as usize);
    for (i, value) in s.iter_mut().enumerate().skip(3) {
        if whole || i == one {
            *value = c.pick(&[f64::INFINITY, f64::NEG_INFINITY, c.clone().not_finite()]);
        }
    }
    s
}

pub fn six(c: &mut Chance) -> [f64; 6] {
    match c.below(12) {
        0 => wild(c),
        1 => one_not_finite(c),
        2 => signed_zeros(c),
        3 => largest(c),
        4 => infinite_velocities(c),
        5 => [0.0; 6].map(|_| c.any_bits()),
        _ => flight(c),
    }
}

pub fn state(moment: u64, centre: u64, s: [f64; 6], acceleration: [f64; 3]) -> State {
    State { moment, centre, position: [s[0], s[1], s[2]], velocity: [s[3], s[4], s[5]], acceleration }
}

/// A state unrelated to the last one.
pub fn fresh(c: &mut Chance) -> State {
    let moment = match c.below(8) {
        0 => 0,
        1 => c.any_length(64),
        2 => u64::MAX - c.any_length(20),
        3 => END - c.between(1, 100_000),
        _ => c.below(END),
    };
    let centre = if c.one_in(6) { bad_centre(c) } else { c.between(1, 6) };
    state(moment, centre, six(c), anything(c))
}

/// Milliseconds from one state to the next.
pub fn gap(c: &mut Chance) -> u64 {
    match c.below(6) {
        0 => c.between(1, 4),
        1 => c.any_length(20).max(1),
        2 => c.any_length(64).max(1),
        _ => c.pick(&[1000, 60_000, 120_000, 3_600_000, 86_400_000]),
    }
}

/// A state that mostly follows the last one kept. Otherwise it has the same moment, an earlier one, or another centre.
pub fn next(c: &mut Chance, pane: &Pane) -> State {
    let Some(last) = pane.newer() else { return fresh(c) };
    let mut s = state(last.moment.saturating_add(gap(c)), last.centre, six(c), anything(c));
    match c.below(14) {
        0 => s.moment = last.moment,
        1 => s.moment = last.moment.saturating_sub(gap(c)),
        2 => s.centre = c.between(1, 6),
        3 => s.centre = last.centre.wrapping_add(c.pick(&[256, 65_536, 1 << 32, 1 << 63])),
        4 => (s.moment, s.centre) = (last.moment.saturating_sub(c.below(2)), c.between(0, 7)),
        _ => {}
    }
    s
}

pub fn state_fields(s: &State) -> String {
    format!("{} {} {} {} {}", s.moment, s.centre, hexes(&s.position), hexes(&s.velocity), hexes(&s.acceleration))
}

/// Mostly a line that takes it; else a run's answer with it, with steps and guesses of every size.
pub fn offered(c: &mut Chance, s: &State) -> String {
    let fields = state_fields(s);
    let mut number = || if c.one_in(3) { c.any_length(64) } else { c.below(30) };
    let (steps, guesses) = (number(), [0; 5].map(|_| number().to_string()).join(" "));
    match c.below(8) {
        0 | 1 => format!("feed ARRIVED {steps} {fields} {guesses}"),
        2 => format!("feed GOING {steps} {fields} {guesses}"),
        3 => format!("feed REFUSED {} {steps} {fields} {guesses}", c.pick(&[0, 6, 6, 6, 7, 18, 99, u64::MAX])),
        _ => format!("take {fields}"),
    }
}
