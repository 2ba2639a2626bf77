//! The programs strip and strip144, as functions from their input to their output.

use std::io::{self, Write};

use crate::book::{bytes_at, float_at, LIMIT};
use crate::extras::Extras;
use crate::motion;
use crate::rule::{Setting, State, EARTH};

/// Bytes of an order, and of one with J, A and K after it.
pub const ORDER: usize = 120;
pub const ORDER_144: usize = 144;

#[derive(Clone, Copy, Debug)]
pub struct Order {
    pub setting: Setting,
    pub state: State,
    pub h: u32,
    pub target: u64,
}

/// The order at the front of the input, if it is long enough. It has no centre, so the Earth, and no last terms.
pub fn read_order(input: &[u8]) -> Option<Order> {
    let mut f = [0.0; 6];
    for (i, value) in f.iter_mut().enumerate() {
        *value = float_at(input, 8 * i)?;
    }
    let three = |at| Some([float_at(input, at)?, float_at(input, at + 8)?, float_at(input, at + 16)?]);
    let moment = bytes_at(input, 48).map(u64::from_le_bytes)?;
    let state = State::bare(moment, EARTH, three(56)?, three(80)?);
    let h = bytes_at(input, 104).map(u32::from_le_bytes)?;
    let dut = bytes_at(input, 108).map(u32::from_le_bytes)?;
    let target = bytes_at(input, 112).map(u64::from_le_bytes)?;
    let setting = Setting { coefficients: f, dut, extras: Extras::NONE, rule: 0 };
    Some(Order { setting, state, h, target })
}

/// The same with J, A and K after it.
pub fn read_order144(input: &[u8]) -> Option<Order> {
    let order = read_order(input)?;
    let at = |i: usize| float_at(input, ORDER + 8 * i);
    let extras = Extras { j: at(0)?, a: at(1)?, k: at(2)? };
    Some(Order { setting: Setting { extras, ..order.setting }, ..order })
}

/// An order without a book, of either length.
pub fn read_either(order: &[u8]) -> Option<Order> {
    match order.len() {
        ORDER => read_order(order),
        ORDER_144 => read_order144(order),
        _ => None,
    }
}

/// One line for a state.
pub fn state_line(s: &State) -> String {
    let mut line = s.moment.to_string();
    for c in s.position.iter().chain(&s.velocity) {
        line.push_str(&format!(" {:016x}", c.to_bits()));
    }
    line.push('\n');
    line
}

/// Header, states and outcome of an order under a book, written as they come. None is an order for which the input was too short.
/// The injection is made from the order, and then refused as a run refuses it.
pub fn listing_into(order: Option<Order>, book: &[u8], out: &mut impl Write) -> io::Result<()> {
    let Some(Order { setting, mut state, h, target }) = order else {
        return out.write_all(b"REFUSED 1\n");
    };
    if book.len() > LIMIT {
        return out.write_all(b"REFUSED 1\n");
    }
    state = motion::of_an_order(book, &setting, &state);
    if let Err(number) = motion::start_checks(book, &setting, &state, h, target) {
        return writeln!(out, "REFUSED {number}");
    }
    writeln!(out, "STRIP {h}")?;
    out.write_all(state_line(&state).as_bytes())?;
    let mut steps = 0u64;
    while state.moment != target {
        match motion::step(book, &setting, &state, h) {
            Ok(next) => state = next,
            Err(number) => return writeln!(out, "REFUSED {number} {steps}"),
        }
        steps += 1;
        out.write_all(state_line(&state).as_bytes())?;
    }
    writeln!(out, "ARRIVED {steps}")
}

/// What strip prints.
pub fn strip_into(input: &[u8], out: &mut impl Write) -> io::Result<()> {
    listing_into(read_order(input), input.get(ORDER..).unwrap_or(&[]), out)
}

/// What strip144 prints.
pub fn strip144_into(input: &[u8], out: &mut impl Write) -> io::Result<()> {
    listing_into(read_order144(input), input.get(ORDER_144..).unwrap_or(&[]), out)
}

pub fn strip(input: &[u8]) -> Vec<u8> {
    let mut out = Vec::new();
    // Writing into memory does not fail.
    let _ = strip_into(input, &mut out);
    out
}

pub fn strip144(input: &[u8]) -> Vec<u8> {
    let mut out = Vec::new();
    let _ = strip144_into(input, &mut out);
    out
}
