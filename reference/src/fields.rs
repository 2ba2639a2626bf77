//! The fields of a question line and of its answer.

use crate::extras::Extras;
use crate::rule::{Setting, State};
use crate::vector::Vector;

/// One to twenty digits, no sign, and the number fits a u64.
pub fn decimal(field: &[u8]) -> Option<u64> {
    if field.is_empty() || field.len() > 20 {
        return None;
    }
    let mut value = 0u64;
    for &digit in field {
        if !digit.is_ascii_digit() {
            return None;
        }
        value = value.checked_mul(10)?.checked_add(u64::from(digit - b'0'))?;
    }
    Some(value)
}

pub fn small(field: &[u8]) -> Option<u32> {
    decimal(field)?.try_into().ok()
}

/// Exactly sixteen hexadecimal digits.
pub fn float(field: &[u8]) -> Option<f64> {
    if field.len() != 16 {
        return None;
    }
    let mut bits = 0u64;
    for &digit in field {
        bits = bits << 4 | u64::from((digit as char).to_digit(16)?);
    }
    Some(f64::from_bits(bits))
}

/// Sixteen hexadecimal digits, or nan.
pub fn shown(x: f64) -> String {
    if x.is_nan() {
        "nan".to_string()
    } else {
        format!("{:016x}", x.to_bits())
    }
}

pub fn all_shown(floats: &[f64]) -> String {
    floats.iter().map(|&x| shown(x)).collect::<Vec<_>>().join(" ")
}

/// N floats, one a field.
pub fn floats<const N: usize>(fields: &[&[u8]]) -> Option<[f64; N]> {
    if fields.len() != N {
        return None;
    }
    let mut values = [0.0; N];
    for (value, field) in values.iter_mut().zip(fields) {
        *value = float(field)?;
    }
    Some(values)
}

/// N decimals, one a field.
pub fn decimals<const N: usize>(fields: &[&[u8]]) -> Option<[u64; N]> {
    if fields.len() != N {
        return None;
    }
    let mut values = [0; N];
    for (value, field) in values.iter_mut().zip(fields) {
        *value = decimal(field)?;
    }
    Some(values)
}

/// The answer, or REFUSED and the number.
pub fn told(answer: Result<String, u64>) -> String {
    answer.unwrap_or_else(|number| format!("REFUSED {number}"))
}

pub fn two(a: Vector, b: Vector) -> [f64; 6] {
    [a[0], a[1], a[2], b[0], b[1], b[2]]
}

/// The first three of six floats, and the last three.
pub fn halves(v: [f64; 6]) -> (Vector, Vector) {
    ([v[0], v[1], v[2]], [v[3], v[4], v[5]])
}

/// A decimal that may have a minus sign.
pub fn signed(field: &[u8]) -> Option<i128> {
    match field.strip_prefix(b"-") {
        Some(rest) => Some(-i128::from(decimal(rest)?)),
        None => Some(i128::from(decimal(field)?)),
    }
}

/// How many fields a setting has, and a state.
pub const SETTING: usize = 11;
pub const STATE: usize = 11;

/// The fields of a setting: six coefficients, DUT, J, A and K, and the rule.
pub fn setting(f: &[&[u8]]) -> Option<Setting> {
    let [_, _, _, _, _, _, dut, terms @ .., rule] = f else { return None };
    let [j, a, k] = floats(terms)?;
    Some(Setting { coefficients: floats(&f[..6])?, dut: small(dut)?, extras: Extras { j, a, k }, rule: decimal(rule)? })
}

/// Eight fields of a state without its acceleration: moment, centre, position and velocity.
pub fn bare_state(f: &[&[u8]]) -> Option<State> {
    let [moment, centre, six @ ..] = f else { return None };
    let (position, velocity) = halves(floats(six)?);
    Some(State::bare(decimal(moment)?, decimal(centre)?, position, velocity))
}

/// The fields of a state: those, and the stored acceleration.
pub fn state(f: &[&[u8]]) -> Option<State> {
    let (bare, kept) = (f.get(..STATE - 3)?, f.get(STATE - 3..)?);
    Some(State { acceleration: floats(kept)?, ..bare_state(bare)? })
}

/// A state as it is printed.
pub fn state_shown(s: &State) -> String {
    let (six, kept) = (all_shown(&two(s.position, s.velocity)), all_shown(&s.acceleration));
    format!("{} {} {six} {kept}", s.moment, s.centre)
}

/// The fields of an old line with others inserted, each at its place in the new line; None if the line is too short.
pub fn put_in<'a>(f: &[&'a [u8]], others: &[(usize, &'a [u8])]) -> Option<Vec<&'a [u8]>> {
    let mut list = f.to_vec();
    for &(at, field) in others {
        if at > list.len() {
            return None;
        }
        list.insert(at, field);
    }
    Some(list)
}
