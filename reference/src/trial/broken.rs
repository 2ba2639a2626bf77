//! Run calls that are refused or done before the first step.

use super::chance::Chance;
use super::trip::{bad_h, break_at, noted, trip, trip_at, Trip, BREAKS, NOMINAL, OF_AN_ORDER};
use super::world::World;
use crate::hour::END;

/// One, two or more of the refusals before the first step.
pub fn broken(c: &mut Chance, w: &World, which: &[usize]) -> Vec<(String, Trip)> {
    let mut t = trip(c, w);
    for &i in which.iter().rev() {
        break_at(c, &mut t, i);
    }
    let names: Vec<_> = which.iter().map(|&i| BREAKS[i]).collect();
    noted(&names.join(" and "), t)
}

pub fn one_broken(c: &mut Chance, w: &World) -> Vec<(String, Trip)> {
    let i = c.pick(&OF_AN_ORDER);
    broken(c, w, &[i])
}

pub fn two_broken(c: &mut Chance, w: &World) -> Vec<(String, Trip)> {
    let i = c.below(5) as usize;
    let j = c.between(i as u64 + 1, 5) as usize;
    broken(c, w, &[OF_AN_ORDER[i], OF_AN_ORDER[j]])
}

pub fn many_broken(c: &mut Chance, w: &World) -> Vec<(String, Trip)> {
    let mask = c.below(64);
    let which: Vec<usize> = (0..6).filter(|i| mask & (1 << i) != 0).map(|i| OF_AN_ORDER[i]).collect();
    noted("", broken(c, w, &which).remove(0).1)
}

/// At both ends of time.
pub fn ends(c: &mut Chance, w: &World) -> Vec<(String, Trip)> {
    let mut t = trip(c, w);
    let h = u64::from(t.h);
    let steps = c.below(4);
    t.state.moment = c.pick(&[0, 1, END - 1, END, END - 1 - h * steps, END - h, END - h * (steps + 1)]);
    t.target = t.state.moment + h * steps;
    if c.one_in(2) {
        t.setting.coefficients[1..].fill(0.0);
    }
    noted("", t)
}

/// A single step: budget 1 and the target one step on, also at or past the end of time.
pub fn single(c: &mut Chance, w: &World) -> Vec<(String, Trip)> {
    let mut t = trip(c, w);
    if c.one_in(3) {
        t.state.moment = END - 1 - c.below(u64::from(t.h) + 2).min(END - 1);
    }
    if c.one_in(6) {
        t.h = bad_h(c);
    }
    t.target = t.state.moment + u64::from(t.h);
    t.budget = 1;
    noted("", t)
}

/// Already at the target, mostly without cover, with any budget.
pub fn at_target(c: &mut Chance, w: &World) -> Vec<(String, Trip)> {
    let t = c.below(END);
    let mut trip = trip_at(c, w, t);
    trip.setting.coefficients = NOMINAL;
    trip.target = t;
    if c.one_in(4) {
        trip.h = bad_h(c);
    }
    noted("", trip)
}
