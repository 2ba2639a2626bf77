//! Trips with the two last terms: J, A and K of every size, the Sun for its light only, and places where a term vanishes.

use super::about::place;
use super::centres::{some_centre, used_centre};
use super::chance::Chance;
use super::cover;
use super::extras::{bad_extras, flown, some_extras, value};
use super::floats::wild;
use super::runs;
use super::times::some_rule;
use super::trip::{break_at, noted, trip, trip_at, MakeRuns, RunCase, Trip};
use super::world::World;
use crate::book::Entry;
use crate::extras::Extras;
use crate::hour::END;
use crate::rule::{EARTH, SUN};
use crate::vector::{add, sub};

/// About a used centre, with both terms as a flight has them.
fn about(c: &mut Chance, w: &World) -> Trip {
    let mut t = trip(c, w);
    t.state.centre = used_centre(c, &t.setting);
    t.setting.extras = flown(c);
    t
}

fn plain(c: &mut Chance, w: &World) -> Vec<(String, Trip)> {
    noted("", about(c, w))
}

/// Each of the three of any allowed size, near the Earth or anywhere.
fn values(c: &mut Chance, w: &World) -> Vec<(String, Trip)> {
    let mut t = about(c, w);
    t.setting.extras = Extras { j: value(c), a: value(c), k: value(c) };
    if c.one_in(4) {
        t.set_state(wild(c));
    }
    noted("", t)
}

/// One or more of the three refused, whether its term is left out or not, with other refusals after it.
fn refused(c: &mut Chance, w: &World) -> Vec<(String, Trip)> {
    let mut t = about(c, w);
    t.setting.extras = bad_extras(c);
    if c.one_in(2) {
        let which = c.between(2, 7) as usize;
        break_at(c, &mut t, which);
    }
    noted("", t)
}

/// The Sun does not pull, and shines.
fn light_alone(c: &mut Chance, t: &mut Trip) {
    t.setting.coefficients[SUN as usize - 1] = c.pick(&[0.0, -0.0]);
    t.setting.extras = Extras { k: c.pick(&[f64::from_bits(1), 1e-3, 4e7, 1e12]), ..some_extras(c) };
}

/// Light only, with cover or without it, about a used centre or about the Sun, which is not one.
fn light(c: &mut Chance, w: &World) -> Vec<(String, Trip)> {
    let mut t = if c.one_in(3) { let at = c.below(END); trip_at(c, w, at) } else { trip(c, w) };
    light_alone(c, &mut t);
    t.state.centre = match c.below(6) {
        0 => SUN,
        _ => used_centre(c, &t.setting),
    };
    noted(if t.state.centre == SUN { "about the Sun" } else { "" }, t)
}

/// Light only, at the edges of the Sun's cover.
fn light_edge(c: &mut Chance, w: &World) -> Vec<(String, Trip)> {
    let suns: Vec<Entry> = w.entries.iter().copied().filter(|e| u64::from(e.body) == SUN).collect();
    if suns.is_empty() {
        return light(c, w);
    }
    let only = World { entries: vec![c.pick(&suns)], ..w.clone() };
    let make = c.pick(&[cover::edge as MakeRuns, cover::crossing, cover::far_off]);
    let (note, mut t) = make(c, &only).remove(0);
    light_alone(c, &mut t);
    noted(&note, t)
}

/// On the Sun or close to it, or on the Earth or close to it, about any centre.
fn on_a_body(c: &mut Chance, w: &World) -> Vec<(String, Trip)> {
    let mut t = about(c, w);
    if c.one_in(2) {
        light_alone(c, &mut t);
        t.state.centre = used_centre(c, &t.setting);
    }
    let (body, note) = c.pick(&[(SUN, "Sun"), (SUN, "Sun"), (EARTH, "Earth")]);
    t.state.position = sub(place(w, &t, body), place(w, &t, t.state.centre));
    if c.one_in(3) {
        t.state.position[c.below(3) as usize] += c.sized(-40, 14);
    }
    noted(note, t)
}

/// Seen from the Earth: in the plane of the equator, over a pole, where 5u is 1 or 3, or with a zero of either sign. Sometimes with
/// only the Earth, so that A zero shows in the sign of a zero.
fn marked(c: &mut Chance, w: &World) -> Vec<(String, Trip)> {
    let mut t = about(c, w);
    if c.one_in(3) {
        t.setting.coefficients[1..].fill(0.0);
        t.setting.extras = Extras { j: 1e-3, a: c.pick(&[0.0, -0.0, 1e-170, 6378.165]), k: 0.0 };
        t.state.centre = EARTH;
    }
    let r = c.pick(&[1.0, 6378.165, 7e3, 4e4, 4e5]);
    let zero = c.pick(&[0.0, -0.0]);
    let (note, from_earth) = c.pick(&[
        ("equator", [r, r / 2.0, zero]),
        ("axis", [zero, -r, -zero]),
        ("pole", [zero, zero, r]),
        ("pole", [-zero, zero, -r]),
        ("u a fifth", [2.0 * r, 0.0, r]),
        ("u three fifths", [r, r, 3f64.sqrt() * r]),
    ]);
    let earth = sub([0.0; 3], place(w, &t, t.state.centre));
    t.state.position = if t.state.centre == EARTH { from_earth } else { add(from_earth, earth) };
    noted(note, t)
}

/// A·A, (A·A)/n, a product with it or the sum overflows, or J·g vanishes, while the pulls are finite.
fn sizes(c: &mut Chance, w: &World) -> Vec<(String, Trip)> {
    let mut t = about(c, w);
    let (note, j, a, k, r) = c.pick(&[
        ("A·A", 1e-3, 1e155, 0.0, 7e3),
        ("A·A, J·g zero", f64::from_bits(1), 1e155, 0.0, 1e9),
        ("A·A over n", 1e-3, 1e153, 0.0, 1e-3),
        ("A·A zero", 1e300, 1e-170, 0.0, 7e3),
        ("A zero, J·g", 1e308, 0.0, 0.0, 1e-2),
        ("J·g", 1e308, 1e-100, 0.0, 1.0),
        ("oblate term", 1e200, 1e60, 0.0, 7e3),
        ("almost", 1e200, 1e53, 0.0, 7e3),
        ("light", 0.0, 0.0, 1e308, 1e-5),
        ("light", 0.0, 6378.0, 1e308, 7e3),
    ]);
    t.setting.extras = Extras { j, a, k };
    t.state.centre = EARTH;
    let side = c.within(1.0);
    t.state.position = [r, r * side, r * c.pick(&[0.0, 0.3, -1.0])];
    noted(note, t)
}

/// Steps near the Earth with both terms.
fn long(c: &mut Chance, w: &World) -> Vec<(String, Trip)> {
    let mut t = runs::long(c, w).remove(0).1;
    t.setting.extras = flown(c);
    t.aim(c.between(10, 60));
    noted("", t)
}

/// Centres of every sort, and the three of every sort.
fn any(c: &mut Chance, w: &World) -> Vec<(String, Trip)> {
    let mut t = trip(c, w);
    t.setting.extras = if c.one_in(6) { bad_extras(c) } else { some_extras(c) };
    t.setting.rule = some_rule(c);
    t.state.centre = some_centre(c, &t.setting);
    noted("", t)
}

pub const TERMS: &[RunCase] = &[
    ("plain", plain),
    ("plain", plain),
    ("values", values),
    ("values", values),
    ("refused", refused),
    ("light alone", light),
    ("light alone", light),
    ("light alone, edge", light_edge),
    ("light alone, edge", light_edge),
    ("on a body", on_a_body),
    ("on a body", on_a_body),
    ("marked", marked),
    ("marked", marked),
    ("sizes", sizes),
    ("long", long),
    ("any", any),
];

/// A line of the trip: mostly fly, with the rule's acceleration; else pull, an injection or a move.
pub fn line(c: &mut Chance, w: &World, t: &Trip) -> String {
    match c.below(8) {
        0..=3 => t.kept(w.bytes()).fly_line(),
        4..=5 => t.pull_line(),
        6 => t.inject_line(),
        _ => {
            let new = some_centre(c, &t.setting);
            t.move_line(new)
        }
    }
}
