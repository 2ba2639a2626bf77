//! The step and the run.

use crate::book;
use crate::hour::END;
use crate::rule::{centre_allowed, inject, looked_up, ruled, setting_allowed, slope, Setting, State};
use crate::vector::{along, Vector};

#[derive(Clone, Copy, Debug, PartialEq, Eq)]
pub enum Outcome {
    Arrived,
    Going,
    Refused(u64),
}

/// The answer of a run.
#[derive(Clone, Copy, Debug)]
pub struct Ran {
    pub outcome: Outcome,
    pub steps: u64,
    pub state: State,
    pub guesses: [u64; 5],
}

/// base + (H/6)·(((k1 + 2·k2) + 2·k3) + k4)
pub fn blend(base: Vector, sixth: f64, k: [Vector; 4]) -> Vector {
    let mut new = base;
    for c in 0..3 {
        new[c] = base[c] + sixth * (((k[0][c] + 2.0 * k[1][c]) + 2.0 * k[2][c]) + k[3][c]);
    }
    new
}

/// One step of h milliseconds, by a rule for the acceleration at a moment and a position. The first slope is the stored
/// acceleration. The new state has its own, or the step is refused.
pub fn step_by(mut rule: impl FnMut(u64, Vector) -> Result<Vector, u64>, s: &State, h: u32) -> Result<State, u64> {
    let whole = f64::from(h) / 1000.0;
    let half = whole * 0.5;
    let (t, p, v, a1) = (s.moment, s.position, s.velocity, s.acceleration);
    let middle = t.saturating_add(u64::from(h) / 2);
    let last = t.saturating_add(u64::from(h));
    let (p2, v2) = (along(p, half, v), along(v, half, a1));
    let a2 = rule(middle, p2)?;
    let (p3, v3) = (along(p, half, v2), along(v, half, a2));
    let a3 = rule(middle, p3)?;
    let (p4, v4) = (along(p, whole, v3), along(v, whole, a3));
    let a4 = rule(last, p4)?;
    let position = blend(p, whole / 6.0, [v, v2, v3, v4]);
    let velocity = blend(v, whole / 6.0, [a1, a2, a3, a4]);
    let next = State { moment: last, position, velocity, ..*s };
    next.finite()?;
    Ok(State { acceleration: rule(last, position)?, ..next })
}

/// The same by the rule of the acceleration itself.
pub fn step(book: &[u8], setting: &Setting, s: &State, h: u32) -> Result<State, u64> {
    step_by(|t, p| slope(book, setting, t, s.centre, p), s, h)
}

/// Checks that the stored acceleration is the rule's, bit by bit: the rule's own 6 or 7, then 15.
pub fn kept(book: &[u8], setting: &Setting, s: &State) -> Result<(), u64> {
    let bits = |s: &State| s.acceleration.map(f64::to_bits);
    if bits(&ruled(book, setting, s)?) == bits(s) {
        Ok(())
    } else {
        Err(15)
    }
}

/// The state of an old order: with the acceleration that the rule gives. If it gives none, the run's checks refuse the state for
/// any stored value.
pub fn of_an_order(book: &[u8], setting: &Setting, s: &State) -> State {
    inject(book, setting, s).unwrap_or(*s)
}

/// The refusals before any step: 1, 4, 14, 3 (state, then target), 7, the rule's own 6 or 7, 15, 2, 5.
pub fn start_checks(book: &[u8], setting: &Setting, s: &State, h: u32, target: u64) -> Result<(), u64> {
    book::check(book)?;
    setting_allowed(setting)?;
    centre_allowed(setting, s.centre)?;
    if s.moment >= END || target >= END {
        return Err(3);
    }
    s.finite()?;
    kept(book, setting, s)?;
    if !(2..=86_400_000).contains(&h) || h % 2 != 0 {
        return Err(2);
    }
    if target < s.moment || (target - s.moment) % u64::from(h) != 0 {
        return Err(5);
    }
    Ok(())
}

/// Steps until the target, the end of the budget or a refusal.
pub fn walk_by(
    mut step: impl FnMut(&State) -> Result<State, u64>, from: &State, target: u64, budget: u32,
) -> (Outcome, u64, State) {
    let (mut state, mut steps) = (*from, 0u64);
    loop {
        if state.moment == target {
            return (Outcome::Arrived, steps, state);
        }
        if steps == u64::from(budget) {
            return (Outcome::Going, steps, state);
        }
        match step(&state) {
            Ok(next) => state = next,
            Err(number) => return (Outcome::Refused(number), steps, state),
        }
        steps += 1;
    }
}

/// The same, of h milliseconds each.
pub fn walk(
    book: &[u8], setting: &Setting, from: &State, h: u32, target: u64, budget: u32,
) -> (Outcome, u64, State) {
    walk_by(|s| step(book, setting, s, h), from, target, budget)
}

/// The run call. The guesses are not used for lookups, only returned.
pub fn run(
    book: &[u8], setting: &Setting, state: &State, h: u32, target: u64, budget: u32,
    guesses: [u64; 5],
) -> Ran {
    if let Err(number) = start_checks(book, setting, state, h, target) {
        return Ran { outcome: Outcome::Refused(number), steps: 0, state: *state, guesses };
    }
    let (outcome, steps, state) = walk(book, setting, state, h, target, budget);
    let mut guesses = guesses;
    if steps > 0 {
        for body in looked_up(setting) {
            if let Some(i) = book::find(book, body as u64, state.moment) {
                guesses[body - 2] = i as u64;
            }
        }
    }
    Ran { outcome, steps, state, guesses }
}

/// A single step: a run with budget 1 and the target one step on.
pub fn single(book: &[u8], setting: &Setting, state: &State, h: u32, guesses: [u64; 5]) -> Ran {
    // At or past the end of time the target is refused with 3, whether it wraps or not.
    let target = state.moment.saturating_add(u64::from(h));
    run(book, setting, state, h, target, 1, guesses)
}
