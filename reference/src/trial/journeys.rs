//! Journeys: legs about one centre and another, with moves at the moments between them, each leg cut into portions.

use super::centres::{other_centre, used_centre};
use super::chance::Chance;
use super::cover::crossing;
use super::extras::some_extras;
use super::trip::{guesses, trip, Trip};
use super::world::{Case, World};
use crate::motion::Outcome;
use crate::rule::EARTH;
use crate::moves::moved;

/// The most portions of one leg.
const PORTIONS: usize = 5;

/// Flies one leg to the target of the trip in portions of any budget, each from the last answer, with the returned guesses or wrong
/// ones. The last portion has enough budget. Returns whether the leg arrived.
fn leg(c: &mut Chance, w: &World, t: &mut Trip, lines: &mut Vec<String>) -> bool {
    for i in 1..=PORTIONS {
        t.budget = if i == PORTIONS { 1000 } else { c.below(5) as u32 };
        if c.one_in(3) {
            let style = c.below(9);
            t.guesses = guesses(c, w, t.state.moment, style);
        }
        lines.push(t.fly_line());
        let ran = t.fly(w.bytes());
        (t.state, t.guesses) = (ran.state, ran.guesses);
        if ran.outcome != Outcome::Going {
            return ran.outcome == Outcome::Arrived;
        }
    }
    false
}

/// The legs of a trip, with a move after each that arrives.
fn legs(c: &mut Chance, w: &World, mut t: Trip) -> Vec<String> {
    let mut lines = Vec::new();
    t.state.centre = used_centre(c, &t.setting);
    t.setting.extras = some_extras(c);
    t = t.kept(w.bytes());
    for _ in 0..c.between(2, 4) {
        t.aim(c.between(0, 8));
        if !leg(c, w, &mut t, &mut lines) {
            break;
        }
        let new = if t.state.centre == EARTH { other_centre(c, &t.setting) } else { used_centre(c, &t.setting) };
        lines.push(t.move_line(new));
        match moved(w.bytes(), &t.setting, &t.state, new) {
            Ok(state) => t.state = state,
            Err(_) => break,
        }
    }
    lines
}

fn within(c: &mut Chance, w: &World) -> Vec<String> {
    let mut t = trip(c, w);
    t.h = (t.h / 8 / 2 * 2).max(2);
    legs(c, w, t)
}

/// Over the end of an entry.
fn over(c: &mut Chance, w: &World) -> Vec<String> {
    let t = crossing(c, w).remove(0).1;
    legs(c, w, t)
}

pub const JOURNEY: &[Case] = &[("within cover", within), ("within cover", within), ("over an entry's end", over)];
