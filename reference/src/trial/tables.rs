//! Listings for table: numbers at the edges of rounding and of the limit, long ones, changed and damaged ones, and every odd one.

use super::chance::{Chance, EDGES};
use super::listings::{any, change, damage, listing, odd_listings, state_line, text, Component, Lines, ZEROS};
use crate::calendar::{day_of, month_days, FIRST_YEAR, LAST_YEAR};
use crate::hour::DAY;

#[derive(Clone, Debug)]
pub struct Made {
    pub case: String,
    pub text: Vec<u8>,
}

fn made_of(case: &str, text: Vec<u8>) -> Made {
    Made { case: case.to_string(), text }
}

fn limit() -> u64 {
    1e12f64.to_bits()
}

/// A tie: an odd number of sixteenths at three places, of 128ths at six.
fn tie(c: &mut Chance) -> f64 {
    let odd = (c.any_length(36) | 1) as f64;
    odd / c.pick(&[16.0, 128.0])
}

/// The float nearest to a decimal that lies half way: a tie, or nearly one.
fn half_way(c: &mut Chance) -> f64 {
    let odd = (c.any_length(40) | 1) as f64;
    odd / c.pick(&[2e3, 2e6])
}

/// So small that the numeral is 0 or the smallest, and zero itself.
fn small(c: &mut Chance) -> f64 {
    match c.below(3) {
        0 => c.pick(&[0.0, 0.0005, 0.0000005, 0.001, 0.000001]),
        1 => f64::from_bits(c.pick(&EDGES) % (1 << 52)),
        _ => f64::from_bits(c.between(960, 1015) << 52 | c.next() >> 12),
    }
}

/// A magnitude below 10^12, of either sign, at an edge of rounding or next to one.
pub fn decimal(c: &mut Chance) -> u64 {
    let bits = match c.below(7) {
        0 => tie(c).to_bits(),
        1 => half_way(c).to_bits(),
        2 => small(c).to_bits(),
        3 => 10f64.powi(c.below(13) as i32).to_bits(),
        4 => c.below(limit()),
        5 => limit() - c.between(1, 3),
        _ => c.between(995, 1062) << 52 | c.next() >> 12,
    };
    let near = if c.one_in(2) { bits } else { bits.saturating_add(c.below(5)).saturating_sub(2) };
    near.min(limit() - 1) | c.below(2) << 63
}

/// The longest rows.
fn longest(c: &mut Chance) -> u64 {
    (limit() - c.between(1, 9)) | 1 << 63
}

/// A magnitude of 10^12 or more.
fn large(c: &mut Chance) -> u64 {
    let bits = match c.below(4) {
        0 => limit(),
        1 => limit() + 1,
        2 => f64::MAX.to_bits(),
        _ => c.between(limit(), f64::MAX.to_bits()),
    };
    bits | c.below(2) << 63
}

/// One component of one state made large.
fn enlarge(c: &mut Chance, lines: &mut Lines) {
    let i = c.between(1, lines.len() as u64 - 2) as usize;
    let mut words: Vec<String> = String::from_utf8_lossy(&lines[i]).split(' ').map(str::to_string).collect();
    words[c.between(1, 6) as usize] = format!("{:016x}", large(c));
    lines[i] = words.join(" ").into_bytes();
}

/// The limit and its neighbours in each component, before a state that passes and before one that does not. Also with the same line
/// not of the form, and at the end of the text.
fn at_the_limit() -> Vec<Made> {
    let mut list = Vec::new();
    for k in 0..6 {
        for bits in [limit() - 1, limit(), limit() + 1].into_iter().flat_map(|bits| [bits, bits | 1 << 63]) {
            let mut row = [0; 6];
            row[k] = bits;
            let line = |t: u64| String::from_utf8_lossy(&state_line(t, row)).into_owned();
            let head = format!("STRIP 1\n4 {ZEROS}\n");
            for (case, text) in [
                ("limit", format!("{head}{}\n6 {ZEROS}\nARRIVED 2\n", line(5))),
                ("limit and worse", format!("{head}{}\n6 {ZEROS} \n", line(5))),
                ("worse and limit", format!("{head}5 {ZEROS} \n{}\nARRIVED 2\n", line(6))),
                ("limit at a moment that falls", format!("{head}{}\nARRIVED 2\n", line(4))),
                ("limit, no line feed", format!("{head}{}", line(5))),
                ("limit, first state", format!("STRIP 1\n{}\nARRIVED 0", line(0))),
            ] {
                list.push(made_of(&format!("{case}, component {k}, {bits:016x}"), text.into_bytes()));
            }
        }
    }
    list
}

/// The first and the last moment of every month.
fn months(c: &mut Chance) -> Made {
    let mut lines = vec![b"STRIP 1".to_vec()];
    for year in FIRST_YEAR..=LAST_YEAR {
        for month in 1..=12 {
            let first = day_of(year, month, 1).unwrap_or(0);
            for t in [first * DAY, (first + month_days(year, month)) * DAY - 1] {
                lines.push(state_line(t, [0; 6].map(|_| decimal(c))));
            }
        }
    }
    lines.push(b"ARRIVED 2399".to_vec());
    made_of("months", text(&lines))
}

pub fn edges(c: &mut Chance) -> Vec<Made> {
    let mut list: Vec<Made> = odd_listings(c).into_iter().map(|(case, text)| Made { case, text }).collect();
    list.extend(at_the_limit());
    list.push(months(c));
    list
}

/// Listings of many blocks.
pub fn long(c: &mut Chance) -> Vec<Made> {
    let mut list = Vec::new();
    for make in [decimal as Component, longest] {
        for states in [420, 568, 569, 570, 3000] {
            let mut lines = listing(c, states, make);
            list.push(made_of("long", text(&lines)));
            enlarge(c, &mut lines);
            list.push(made_of("long, one large", text(&lines)));
            let mut cut = text(&lines);
            damage(c, &mut cut);
            list.push(made_of("long, damaged", cut));
        }
    }
    list
}

fn one(c: &mut Chance, i: usize) -> Made {
    let states = c.pick(&[1, 2, 3, 5, 12, 40]);
    let case = ["rows", "rows", "rows", "one large", "changed", "damaged", "changed and damaged", "any floats"][i % 8];
    let mut lines = listing(c, states, if i % 8 == 7 { any } else { decimal });
    if i % 8 == 3 {
        enlarge(c, &mut lines);
    }
    if i % 8 == 4 || i % 8 == 6 {
        change(c, &mut lines, decimal);
    }
    let mut text = text(&lines);
    if i % 8 == 5 || i % 8 == 6 {
        damage(c, &mut text);
    }
    if c.one_in(6) && text.last() == Some(&b'\n') {
        text.pop();
    }
    made_of(case, text)
}

pub fn made(c: &mut Chance, n: usize) -> Vec<Made> {
    (0..n).map(|i| one(c, i)).collect()
}
