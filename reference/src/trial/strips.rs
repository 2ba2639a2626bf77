//! Inputs for strip and for strip144.

use super::chance::Chance;
use super::extras::{bad_extras, some_extras};
use super::runs::{self, RUN};
use super::terms::TERMS;
use super::trip::{break_at, trip, Trip, OF_AN_ORDER};
use super::world::World;
use crate::rule::EARTH;

/// The most steps of a strip made here.
pub const MOST: u64 = 150;

/// An input, and whether it is for strip144.
#[derive(Clone, Debug)]
pub struct Strip {
    pub case: String,
    pub input: Vec<u8>,
    pub extras: bool,
}

fn named(case: &str, input: Vec<u8>, extras: bool) -> Strip {
    Strip { case: case.trim_end().to_string(), input, extras }
}

pub fn input(w: &World, t: Trip) -> Vec<u8> {
    let mut bytes = t.shortened(w.bytes(), MOST).order();
    bytes.extend(w.bytes());
    bytes
}

/// An input cut short: below an order, within the book, or without a book.
pub fn cut(c: &mut Chance, w: &World) -> Strip {
    let mut bytes = input(w, trip(c, w));
    let any = c.below(bytes.len() as u64);
    let length = c.pick(&[0, 1, 8, 48, 119, 119, 120, 121, 127, 128, any]);
    bytes.truncate(length as usize);
    named("cut", bytes, false)
}

/// Bytes after the book, up to far above the limit.
pub fn longer(c: &mut Chance, w: &World) -> Strip {
    let mut t = trip(c, w);
    if c.one_in(2) {
        let which = c.pick(&OF_AN_ORDER);
        break_at(c, &mut t, which);
    }
    let mut bytes = input(w, t);
    let length = c.pick(&[bytes.len() + 1, 61_560, 61_561, 70_000, 200_000]).max(bytes.len());
    bytes.resize(length, 0);
    named("longer", bytes, false)
}

/// The same sorts as run calls have, and inputs cut or longer.
pub fn strip(c: &mut Chance, w: &World, i: usize) -> Strip {
    match c.below(24) {
        0 => return cut(c, w),
        1 => return longer(c, w),
        _ => {}
    }
    let (name, make) = RUN[i % RUN.len()];
    let made = make(c, w);
    let (note, t) = c.pick(&made);
    named(&format!("{name} {note}"), input(w, t), false)
}

/// The journey of a book itself, of many steps.
pub fn journey(c: &mut Chance, w: &World) -> Strip {
    let (_, mut t) = runs::long(c, w).remove(0);
    t.h = 60_000;
    t.aim(1500);
    let mut input = t.order();
    input.extend(w.bytes());
    named("journey", input, false)
}

/// An order with J, A and K about the Earth, and the book after it.
pub fn input144(w: &World, mut t: Trip) -> Vec<u8> {
    t.state.centre = EARTH;
    [&t.shortened(w.bytes(), MOST).order144()[..], w.bytes()].concat()
}

/// Such an input cut short: below an old order, below its own, within the book or without one; or longer than any.
fn cut144(c: &mut Chance, w: &World) -> Strip {
    let mut t = trip(c, w);
    t.setting.extras = if c.one_in(4) { bad_extras(c) } else { some_extras(c) };
    let mut bytes = input144(w, t);
    let any = c.below(bytes.len() as u64) as usize;
    let length = c.pick(&[0, 8, 119, 120, 121, 128, 136, 143, 143, 144, 145, 151, 152, any, bytes.len() + 1, 61_584, 61_585, 70_000]);
    bytes.resize(length, 0);
    named("cut or longer", bytes, true)
}

/// A whole input of strip, which strip144 reads differently: its book begins in the place of J, A and K.
fn old(c: &mut Chance, w: &World) -> Strip {
    named("an old input", input(w, trip(c, w)), true)
}

/// One bit of the order is changed: of a coefficient, of position or velocity, or of J, A and K.
fn damaged144(c: &mut Chance, w: &World) -> Strip {
    let mut t = trip(c, w);
    t.setting.extras = some_extras(c);
    let mut bytes = input144(w, t);
    let at = c.pick(&[c.clone().below(48), 56 + c.clone().below(48), 120 + c.clone().below(24), 120 + c.clone().below(24)]);
    bytes[at as usize] ^= 1 << c.below(8);
    named("order damaged", bytes, true)
}

/// The sorts that run calls have, with J, A and K of every sort or zero, and those of the last terms.
pub fn strip144(c: &mut Chance, w: &World, i: usize) -> Strip {
    match c.below(24) {
        0 | 1 => return cut144(c, w),
        2 => return old(c, w),
        3 | 4 => return damaged144(c, w),
        _ => {}
    }
    if i % 2 == 0 {
        let (name, make) = TERMS[i / 2 % TERMS.len()];
        let (note, t) = make(c, w).remove(0);
        return named(&format!("{name} {note}"), input144(w, t), true);
    }
    let (name, make) = RUN[i / 2 % RUN.len()];
    let made = make(c, w);
    let (note, mut t) = c.pick(&made);
    if !c.one_in(3) {
        t.setting.extras = some_extras(c);
    }
    named(&format!("{name} {note}"), input144(w, t), true)
}
