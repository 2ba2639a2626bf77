//! Trips whose stored acceleration is the rule's or not, states without an acceleration, and steps that lead to one.

use super::about::place;
use super::broken::at_target;
use super::centres::used_centre;
use super::chance::Chance;
use super::cover;
use super::extras::some_extras;
use super::floats::anything;
use super::runs::plain;
use super::sizes::on_body;
use super::trip::{break_at, noted, trip, MakeRuns, RunCase, Trip};
use super::world::World;
use crate::extras::Extras;
use crate::rule::{used, State, SUN};
use crate::vector::{sub, Vector};

/// About a used centre, with the rule's acceleration stored.
fn right(c: &mut Chance, w: &World) -> Trip {
    let mut t = trip(c, w);
    t.state.centre = used_centre(c, &t.setting);
    t.setting.extras = some_extras(c);
    t.kept(w.bytes())
}

fn as_it_is(c: &mut Chance, w: &World) -> Vec<(String, Trip)> {
    noted("", right(c, w))
}

/// One bit of one component is changed: the last, the sign, or any.
fn one_bit(c: &mut Chance, w: &World) -> Vec<(String, Trip)> {
    let mut t = right(c, w);
    let bit = c.pick(&[0, 0, 63, c.clone().below(64)]);
    let x = &mut t.state.acceleration[c.below(3) as usize];
    *x = f64::from_bits(x.to_bits() ^ 1 << bit);
    noted("", t)
}

/// On an axis, with only the Earth, two components are zeros: with the right sign, or one with the wrong sign.
fn zeros(c: &mut Chance, w: &World) -> Vec<(String, Trip)> {
    let mut t = right(c, w);
    t.setting.coefficients[1..].fill(0.0);
    t.setting.extras = c.pick(&[Extras::NONE, Extras::NOMINAL]);
    t.state = State::bare(t.state.moment, 1, [c.pick(&[0.0, -0.0]); 3], t.state.velocity);
    t.state.position[c.below(3) as usize] = c.pick(&[7e3, -4e4]);
    t = t.kept(w.bytes());
    let a = &mut t.state.acceleration;
    let i = c.below(3) as usize;
    let note = if a[i] == 0.0 { "sign of a zero" } else { "" };
    if a[i] == 0.0 {
        a[i] = -a[i];
    }
    noted(note, t)
}

/// Random values in one component or in all, also not finite.
fn any(c: &mut Chance, w: &World) -> Vec<(String, Trip)> {
    let mut t = right(c, w);
    if c.one_in(2) {
        t.state.acceleration = anything(c);
    } else {
        t.state.acceleration[c.below(3) as usize] = c.not_finite();
    }
    noted("", t)
}

/// The rule's value for another place, moment, centre or setting.
fn of_another(c: &mut Chance, w: &World) -> Vec<(String, Trip)> {
    let t = right(c, w);
    let mut other = t.clone();
    let note = match c.below(4) {
        0 => { other.state.position[c.below(3) as usize] *= 1.0 + f64::EPSILON; "place" }
        1 => { other.state.moment += c.between(1, 2); "moment" }
        2 => { other.state.centre = used_centre(c, &t.setting); "centre" }
        _ => { other.setting.extras = Extras::NONE; "terms" }
    };
    let acceleration = other.kept(w.bytes()).state.acceleration;
    noted(note, Trip { state: State { acceleration, ..t.state }, ..t })
}

/// A wrong value, or a state without acceleration, together with other refusals: 14, 3 and 7 come first, 2 and 5 after.
fn beside(c: &mut Chance, w: &World) -> Vec<(String, Trip)> {
    let (note, mut t) = c.pick(&[one_bit as MakeRuns, any, without, zeros])(c, w).remove(0);
    for _ in 0..c.between(1, 2) {
        let which = c.pick(&[2, 3, 4, 5, 6, 6, 6, 7, 7, 7]);
        break_at(c, &mut t, which);
    }
    noted(&note, t)
}

/// No cover, or at the centre of a body; at the target, with no budget or with some; any stored value.
fn without(c: &mut Chance, w: &World) -> Vec<(String, Trip)> {
    let make = c.pick(&[cover::no_cover as MakeRuns, at_target, on_body]);
    let mut t = make(c, w).remove(0).1;
    if c.one_in(3) {
        t.state.acceleration = anything(c);
    }
    let (note, target, budget) = c.pick(&[("target", t.state.moment, 9), ("budget 0", t.target, 0), ("", t.target, t.budget)]);
    noted(note, Trip { target, budget, ..t })
}

/// At the target or with no budget, with a right value or a wrong one.
fn no_steps(c: &mut Chance, w: &World) -> Vec<(String, Trip)> {
    let (_, mut t) = c.pick(&[as_it_is as MakeRuns, one_bit, any])(c, w).remove(0);
    if c.one_in(2) {
        t.target = t.state.moment;
    }
    t.budget = 0;
    noted("", t)
}

/// By how much a step without acceleration changes a component.
fn gain(v: f64, whole: f64) -> f64 {
    (whole / 6.0) * (((v + 2.0 * v) + 2.0 * v) + v)
}

/// A velocity and a place that many steps before an end, so that a step lands exactly on it and its fourth stage does not.
fn before(c: &mut Chance, end: f64, whole: f64, steps: f64) -> (f64, f64) {
    let mut found = (end, 0.0);
    for _ in 0..40 {
        let v = c.within(8.0);
        let from = end - steps * gain(v, whole);
        let last = if steps > 1.0 { from + gain(v, whole) } else { from };
        found = (from, v);
        if last + gain(v, whole) == end && last + whole * v != end {
            break;
        }
    }
    found
}

/// Bodies that hardly pull, and a step that ends exactly on one of them, or on the Sun that hardly shines.
fn onto(c: &mut Chance, w: &World) -> Vec<(String, Trip)> {
    const LEAST: f64 = f64::from_bits(1);
    let mut t = right(c, w);
    t.setting.coefficients = t.setting.coefficients.map(|m| if m > 0.0 { LEAST } else { m });
    t.setting.extras = Extras::NONE;
    t.h = (t.h / 4 / 2 * 2).max(2);
    let bodies: Vec<u64> = used(&t.setting).map(|(body, _)| body as u64).collect();
    let mut body = if c.one_in(2) { t.state.centre } else { c.pick(&bodies) };
    if c.one_in(4) {
        body = SUN;
        t.setting.extras.k = LEAST;
    }
    let steps = if body == t.state.centre { c.between(1, 2) } else { 1 };
    let mut then = t.clone();
    then.state.moment += steps * u64::from(t.h);
    let end: Vector = sub(place(w, &then, body), place(w, &then, t.state.centre));
    for i in 0..3 {
        (t.state.position[i], t.state.velocity[i]) = before(c, end[i], f64::from(t.h) / 1000.0, steps as f64);
    }
    t.aim(c.between(1, 3));
    t.budget = c.pick(&[0, 1, 2, 1000]);
    noted(&format!("after {steps}"), t.kept(w.bytes()))
}

/// A plain trip, and a second one from its answer with the stored value spoiled.
fn spoiled(c: &mut Chance, w: &World) -> Vec<(String, Trip)> {
    let t = plain(c, w).remove(0).1.kept(w.bytes());
    let ran = t.fly(w.bytes());
    let mut next = Trip { state: ran.state, guesses: ran.guesses, ..t.clone() };
    let mut list = vec![("first".to_string(), t), ("next".to_string(), next.clone())];
    next.state.acceleration[c.below(3) as usize] *= -1.0;
    list.push(("spoiled".to_string(), next));
    list
}

pub const STORED: &[RunCase] = &[
    ("as it is", as_it_is),
    ("one bit", one_bit),
    ("one bit", one_bit),
    ("zeros", zeros),
    ("zeros", zeros),
    ("anything", any),
    ("of another", of_another),
    ("beside other refusals", beside),
    ("beside other refusals", beside),
    ("without", without),
    ("without", without),
    ("no steps", no_steps),
    ("onto a body", onto),
    ("onto a body", onto),
    ("onto a body", onto),
    ("spoiled", spoiled),
];
