//! Floats as a line takes them, and the six of a state.

use super::chance::Chance;

/// A float as the question line takes it.
pub fn hex(x: f64) -> String {
    format!("{:016x}", x.to_bits())
}

pub fn hexes(floats: &[f64]) -> String {
    floats.iter().map(|&x| hex(x)).collect::<Vec<_>>().join(" ")
}

/// Position in km and velocity in km/s as a flight has them.
pub fn flight(c: &mut Chance) -> [f64; 6] {
    let reach = c.pick(&[7e3, 4e4, 4e5, 2e6]);
    let speed = c.pick(&[1.0, 8.0, 11.0]);
    let mut s = [0.0; 6];
    for (i, value) in s.iter_mut().enumerate() {
        *value = c.within(if i < 3 { reach } else { speed });
    }
    s
}

/// Six floats of one sort, with a few zeros and edges among them.
pub fn wild(c: &mut Chance) -> [f64; 6] {
    let middle = c.between(0, 2040) as i64 - 1020;
    let mut s = [0.0; 6];
    for value in &mut s {
        *value = match c.below(6) {
            0 => c.edge(),
            1 => c.pick(&[0.0, -0.0, 1.0, -2.0]),
            2 => c.finite(),
            _ => c.sized((middle - 6).max(-1022), (middle + 6).min(1023)),
        };
    }
    s
}

/// One of six floats that is not finite.
pub fn one_not_finite(c: &mut Chance) -> [f64; 6] {
    let mut s = flight(c);
    s[c.below(6) as usize] = c.not_finite();
    s
}

/// Zeros of either sign: the products with the zeros of the table depend on it.
pub fn signed_zeros(c: &mut Chance) -> [f64; 6] {
    let mut s = flight(c);
    for value in &mut s {
        if !c.one_in(3) {
            *value = c.pick(&[0.0, -0.0]);
        }
    }
    s
}

/// So large that a turned component may overflow.
pub fn largest(c: &mut Chance) -> [f64; 6] {
    let mut s = flight(c);
    let reach = c.between(0, 2) as usize;
    for (i, value) in s.iter_mut().enumerate() {
        if reach == 2 || i / 3 == reach {
            *value = c.sized(1022, 1024);
        }
    }
    s
}

/// Three floats of any sort, sometimes one that is not finite: for stored values that are not read.
pub fn anything(c: &mut Chance) -> [f64; 3] {
    let [x, y, z, ..] = wild(c);
    if c.one_in(4) { [x, c.not_finite(), z] } else { [x, y, z] }
}
