//! Centres for a trip: used ones, unused ones, and numbers without a body.

use super::chance::Chance;
use super::extras::some_extras;
use super::times::some_rule;
use super::trip::{bad_centre, Trip};
use crate::rule::{used, Setting, EARTH};

/// The Earth or another used body.
pub fn used_centre(c: &mut Chance, setting: &Setting) -> u64 {
    let list: Vec<u64> = used(setting).map(|(body, _)| body as u64).collect();
    if list.is_empty() { EARTH } else { c.pick(&list) }
}

/// A used body other than the Earth, if there is one.
pub fn other_centre(c: &mut Chance, setting: &Setting) -> u64 {
    let list: Vec<u64> = used(setting).map(|(body, _)| body as u64).filter(|&body| body != EARTH).collect();
    if list.is_empty() { EARTH } else { c.pick(&list) }
}

/// Mostly a used body other than the Earth; sometimes the Earth, an unused body, or a number without a body.
pub fn some_centre(c: &mut Chance, setting: &Setting) -> u64 {
    match c.below(12) {
        0 | 1 => EARTH,
        2 => c.between(1, 6),
        3 => bad_centre(c),
        _ => other_centre(c, setting),
    }
}

/// The trip about some centre, by one of the rules, half of the trips with the last terms.
pub fn centred(c: &mut Chance, mut t: Trip) -> Trip {
    t.state.centre = some_centre(c, &t.setting);
    if c.one_in(2) {
        t.setting.extras = some_extras(c);
    }
    t.setting.rule = match c.below(3) {
        0 => some_rule(c),
        _ => c.below(2),
    };
    t
}
