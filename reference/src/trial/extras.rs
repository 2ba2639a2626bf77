//! J, A and K: as a flight has them, of every size, and refused.

use super::chance::Chance;
use crate::extras::Extras;

/// Document 003's J and A or none, and sunlight of any strength or none.
pub fn flown(c: &mut Chance) -> Extras {
    let k = c.pick(&[0.0, -0.0, 1e3, 4e7, 4e7, 1e12]);
    let Extras { j, a, .. } = c.pick(&[Extras::NOMINAL, Extras::NOMINAL, Extras::NOMINAL, Extras::NONE]);
    Extras { j: if c.one_in(4) { j * 1.5 } else { j }, a, k }
}

/// An allowed float: a zero, the least, tiny, as in a flight, huge, the greatest.
pub fn value(c: &mut Chance) -> f64 {
    let any = c.finite().abs();
    let list = [0.0, -0.0, f64::from_bits(1), f64::MIN_POSITIVE, 1e-150, 1e-3, 1.0, 6378.165, 1e8, 1e150, 1.4e154, 1e300, f64::MAX];
    if c.one_in(5) { any } else { c.pick(&list) }
}

/// None, those of a flight, or any that are allowed.
pub fn some_extras(c: &mut Chance) -> Extras {
    match c.below(6) {
        0 => Extras::NONE,
        1 => Extras { j: value(c), a: value(c), k: value(c) },
        _ => flown(c),
    }
}

/// A float that is refused.
pub fn bad_value(c: &mut Chance) -> f64 {
    match c.below(4) {
        0 => f64::from_bits(1 << 63 | 1),
        1 => -c.sized(-1022, 1023).abs(),
        _ => c.not_finite(),
    }
}

/// One of the three refused, sometimes more, the others often zero.
pub fn bad_extras(c: &mut Chance) -> Extras {
    let mut list = if c.one_in(2) { [c.pick(&[0.0, -0.0]); 3] } else { [value(c), value(c), value(c)] };
    list[c.below(3) as usize] = bad_value(c);
    if c.one_in(6) {
        list[c.below(3) as usize] = bad_value(c);
    }
    Extras { j: list[0], a: list[1], k: list[2] }
}
