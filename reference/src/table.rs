//! Request R-13 of document 02: tables for the graphics house. Written from the request and the readings in docs/DECISIONS.md.

use crate::calendar::date_of;
use crate::hour::DAY;
use crate::listing::{lines, Form, Kind};

pub const HEADING: &[u8] = b"time,x,y,z,vx,vy,vz\r\n";

/// "A magnitude of 10^12 or more", of a finite float.
pub fn is_large(bits: u64) -> bool {
    f64::from_bits(bits).abs() >= 1e12
}

/// How many units of 10^-places a magnitude below 10^12 has: the exact float rounded to nearest, a tie to even. The float is the
/// fraction significand / 2^k with k above 0. Times 10^6 its numerator has at most 73 bits, so from k = 75 on it is below one half.
fn units(bits: u64, places: u32) -> u128 {
    let (field, fraction) = (bits >> 52 & 0x7ff, bits & ((1 << 52) - 1));
    let (significand, field) = if field == 0 { (fraction, 1) } else { (fraction | 1 << 52, field) };
    let k = 1075 - field;
    if k >= 75 {
        return 0;
    }
    let (numerator, denominator) = (u128::from(significand) * 10u128.pow(places), 1u128 << k);
    let (whole, rest) = (numerator / denominator, numerator % denominator);
    let up = 2 * rest > denominator || (2 * rest == denominator && whole % 2 == 1);
    whole + u128::from(up)
}

/// The last `count` decimal digits.
fn digits(n: u64, count: u32, out: &mut Vec<u8>) {
    for place in (0..count).rev() {
        out.push(b'0' + (n / 10u64.pow(place) % 10) as u8);
    }
}

/// The numeral of a float below 10^12; "zero after rounding has no sign".
pub fn numeral(bits: u64, places: u32, out: &mut Vec<u8>) {
    let units = units(bits, places) as u64;
    if bits >> 63 == 1 && units > 0 {
        out.push(b'-');
    }
    let whole = units / 10u64.pow(places);
    digits(whole, whole.checked_ilog10().unwrap_or(0) + 1, out);
    out.push(b'.');
    digits(units, places, out);
}

/// A day and its date: consecutive states are often of the same day.
type Today = (u64, [u64; 3]);

/// "Moment as 1950-01-01T00:00:00.000".
fn stamp(moment: u64, today: &mut Today, out: &mut Vec<u8>) {
    let (day, time) = (moment / DAY, moment % DAY);
    if today.0 != day {
        *today = (day, date_of(day).map_or([0; 3], |(y, m, d)| [y, m, d]));
    }
    let [year, month, date] = today.1;
    let parts = [
        (year, 4, b'-'), (month, 2, b'-'), (date, 2, b'T'), (time / 3_600_000, 2, b':'), (time / 60_000 % 60, 2, b':'),
        (time / 1000 % 60, 2, b'.'),
    ];
    for (n, count, behind) in parts {
        digits(n, count, out);
        out.push(behind);
    }
    digits(time % 1000, 3, out);
}

fn row(moment: u64, bits: &[u64; 6], today: &mut Today, out: &mut Vec<u8>) {
    stamp(moment, today, out);
    for (i, &bits) in bits.iter().enumerate() {
        out.push(b',');
        numeral(bits, if i < 3 { 3 } else { 6 }, out);
    }
    out.extend(b"\r\n");
}

/// The rows of a listing; if it is refused, also the number and the line.
fn rows(text: &[u8], out: &mut Vec<u8>) -> Result<(), (u64, usize)> {
    let mut form = Form::default();
    let mut today = (u64::MAX, [0; 3]);
    for (i, line) in lines(text).into_iter().enumerate() {
        if let Kind::State(moment, bits) = form.line(line).map_err(|line| (13, line))? {
            if bits.iter().any(|&bits| is_large(bits)) {
                return Err((17, i + 1));
            }
            row(moment, &bits, &mut today, out);
        }
    }
    form.end().map_err(|line| (13, line))
}

/// What table writes for a text: to standard output, and to standard error.
pub fn table(text: &[u8]) -> (Vec<u8>, Vec<u8>) {
    let mut out = HEADING.to_vec();
    let refused = match rows(text, &mut out) {
        Ok(()) => String::new(),
        Err((number, line)) => format!("REFUSED {number} {line}\n"),
    };
    (out, refused.into_bytes())
}
