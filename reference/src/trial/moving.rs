//! Lines for move.

use super::about::place;
use super::centres::{other_centre, some_centre, used_centre};
use super::chance::Chance;
use super::cover;
use super::extras::{bad_extras, some_extras};
use super::floats::{anything, largest, one_not_finite, signed_zeros, wild};
use super::times::{bad_moment, some_rule};
use super::trip::{bad_centre, break_setting, trip, trip_at, Trip, NOMINAL};
use super::world::{Case, World};
use crate::book::motion;
use crate::hour::END;
use crate::rule::EARTH;
use crate::moves::moved;

/// A trip about a used centre, and another used one to move to. If a body is at zero, the craft is too.
fn pair(c: &mut Chance, w: &World) -> (Trip, u64) {
    let mut t = trip(c, w);
    t.state.centre = used_centre(c, &t.setting);
    t.setting.rule = c.below(2);
    t.setting.extras = some_extras(c);
    let new = if t.state.centre == EARTH { other_centre(c, &t.setting) } else { used_centre(c, &t.setting) };
    let at_zero = |body| body != EARTH && place(w, &t, body).contains(&0.0);
    if [t.state.centre, new].into_iter().any(at_zero) {
        t.set_state(signed_zeros(c));
    }
    (t, new)
}

/// The line of a move, half of them with a random stored acceleration.
fn line(c: &mut Chance, t: &Trip, new: u64) -> String {
    let mut t = t.clone();
    if c.one_in(2) {
        t.state.acceleration = anything(c);
    }
    t.move_line(new)
}

fn plain(c: &mut Chance, w: &World) -> Vec<String> {
    let (t, new) = pair(c, w);
    vec![line(c, &t, new)]
}

/// There, on to a third centre, and back, each from the last answer.
fn there_and_back(c: &mut Chance, w: &World) -> Vec<String> {
    let (mut t, new) = pair(c, w);
    let mut lines = Vec::new();
    for new in [new, used_centre(c, &t.setting), t.state.centre] {
        lines.push(line(c, &t, new));
        match moved(w.bytes(), &t.setting, &t.state, new) {
            Ok(state) => t.state = state,
            Err(_) => break,
        }
    }
    lines
}

/// To the same centre, at any moment: nothing is looked up, and every bit stays. Only 3 and 7 (state) come first.
fn same(c: &mut Chance, w: &World) -> Vec<String> {
    let at = c.below(END);
    let mut t = trip_at(c, w, at);
    t.setting.coefficients = NOMINAL;
    t.state.centre = c.between(1, 6);
    let floats = c.pick(&[wild as fn(&mut Chance) -> [f64; 6], largest, signed_zeros, one_not_finite]);
    t.set_state(floats(c));
    if c.one_in(6) {
        t.state.moment = bad_moment(c);
    }
    vec![line(c, &t, t.state.centre)]
}

/// Every body used, at any moment or at an edge of cover.
fn no_cover(c: &mut Chance, w: &World) -> Vec<String> {
    let mut t = cover::no_cover(c, w).remove(0).1;
    if c.one_in(2) {
        t = cover::edge(c, w).remove(0).1;
        t.setting.coefficients = NOMINAL;
    }
    if c.one_in(3) {
        t.set_state(largest(c));
    }
    t.state.centre = c.between(1, 6);
    let new = c.between(1, 6);
    vec![line(c, &t, new)]
}

/// Both centres have cover and every body is used: the result first, then the rule's own lookups of the others.
fn others(c: &mut Chance, w: &World) -> Vec<String> {
    let (mut t, new) = pair(c, w);
    t.setting.coefficients = NOMINAL;
    if c.one_in(2) {
        t.set_state(largest(c));
    }
    vec![line(c, &t, new)]
}

/// From or to a body within a millisecond of the start, the middle or the end of an entry.
fn edge(c: &mut Chance, w: &World) -> Vec<String> {
    let mut t = cover::edge(c, w).remove(0).1;
    let (one, other) = (other_centre(c, &t.setting), used_centre(c, &t.setting));
    let (from, to) = c.pick(&[(one, other), (other, one)]);
    t.state.centre = from;
    vec![line(c, &t, to)]
}

/// Floats so large that the result overflows, of every size, or zeros.
fn floats(c: &mut Chance, w: &World) -> Vec<String> {
    let (mut t, new) = pair(c, w);
    let floats = c.pick(&[wild as fn(&mut Chance) -> [f64; 6], largest, largest, signed_zeros]);
    t.set_state(floats(c));
    vec![line(c, &t, new)]
}

/// A body at a moment at which its position or velocity is not finite, if one is found.
fn found_not_finite(c: &mut Chance, w: &World) -> Option<(u64, u64)> {
    (0..20).filter(|_| !w.entries.is_empty()).find_map(|_| {
        let i = c.below(w.entries.len() as u64) as usize;
        let e = w.entries[i];
        let now = c.pick(&[e.start, e.start + e.span / 2, e.start + e.span - 1]);
        motion(w.bytes(), i, now).is_err().then_some((u64::from(e.body), now))
    })
}

/// From or to a body that is not finite; the other end has cover or none.
fn not_finite(c: &mut Chance, w: &World) -> Vec<String> {
    let Some((body, now)) = found_not_finite(c, w) else { return no_cover(c, w) };
    let mut t = trip_at(c, w, now);
    t.setting.coefficients = NOMINAL;
    let (from, to) = c.pick(&[(body, c.clone().between(1, 6)), (c.clone().between(1, 6), body)]);
    t.state.centre = from;
    vec![line(c, &t, to)]
}

/// Onto the new centre, where the result is zero, or twice as far, where it may overflow.
fn onto(c: &mut Chance, w: &World) -> Vec<String> {
    let (mut t, new) = pair(c, w);
    t.set_state([0.0; 6]);
    let Ok(there) = moved(w.bytes(), &t.setting, &t.state, new) else { return vec![line(c, &t, new)] };
    let sign = c.pick(&[1.0, -1.0]);
    t.state.position = there.position.map(|x| sign * x);
    t.state.velocity = there.velocity.map(|x| sign * x);
    if c.one_in(2) {
        t.state.position = there.position.map(|x| -x);
    }
    vec![line(c, &t, new)]
}

/// Some of 4, 14, 14, 3 and 7, or all; the bodies have cover or none.
fn broken(c: &mut Chance, w: &World) -> Vec<String> {
    let (mut t, mut new) = pair(c, w);
    if c.one_in(2) {
        t.setting.coefficients = NOMINAL;
        t.state.moment = c.below(END);
    }
    if c.one_in(4) {
        new = t.state.centre;
    }
    let which = c.between(1, 31);
    if which & 4 != 0 {
        new = no_centre(c, &mut t);
    }
    if which & 2 != 0 {
        t.state.centre = no_centre(c, &mut t);
    }
    if which & 16 != 0 {
        t.set_state(one_not_finite(c));
    }
    if which & 8 != 0 {
        t.state.moment = bad_moment(c);
    }
    if which & 1 != 0 && c.one_in(2) {
        t.setting.extras = bad_extras(c);
    } else if which & 1 != 0 {
        break_setting(c, &mut t);
    }
    vec![line(c, &t, new)]
}

/// A number without a body, or a body that is then not used.
fn no_centre(c: &mut Chance, t: &mut Trip) -> u64 {
    if c.one_in(2) {
        return bad_centre(c);
    }
    let body = c.between(2, 6);
    t.setting.coefficients[body as usize - 1] = c.pick(&[0.0, -0.0]);
    body
}

/// Centres and rules of every sort.
fn any(c: &mut Chance, w: &World) -> Vec<String> {
    let mut t = trip(c, w);
    t.setting.rule = some_rule(c);
    t.state.centre = some_centre(c, &t.setting);
    let new = some_centre(c, &t.setting);
    vec![line(c, &t, new)]
}

pub const MOVE: &[Case] = &[
    ("plain", plain),
    ("plain", plain),
    ("there and back", there_and_back),
    ("there and back", there_and_back),
    ("same centre", same),
    ("no cover", no_cover),
    ("no cover", no_cover),
    ("others used", others),
    ("others used", others),
    ("edge", edge),
    ("edge", edge),
    ("not finite", not_finite),
    ("not finite", not_finite),
    ("floats", floats),
    ("onto the centre", onto),
    ("onto the centre", onto),
    ("broken", broken),
    ("broken", broken),
    ("any", any),
];
