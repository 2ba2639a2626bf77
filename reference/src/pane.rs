//! Request R-14, the live pane: it keeps the last two states reached and answers each frame with current, late or empty.

use std::io::{self, BufRead, Write};

use crate::ask::UNREADABLE;
use crate::fields::{all_shown, decimal, decimals, state, STATE};
use crate::motion::Outcome;
use crate::rule::State;
use crate::vector::{finite, Vector};

/// None, one or two states, the older one first.
#[derive(Clone, Copy, Debug)]
pub enum Pane {
    Clear,
    One(State),
    Two(State, State),
}

/// The answer to a frame that is not refused: a position in km, or position and velocity; how many milliseconds it is late; or
/// nothing.
#[derive(Clone, Copy, Debug, PartialEq)]
pub enum Frame<T = Vector> {
    Current(T),
    Late(u64),
    Empty,
}

impl Pane {
    /// The state that came last.
    pub fn newer(&self) -> Option<State> {
        match *self {
            Pane::Clear => None,
            Pane::One(s) | Pane::Two(_, s) => Some(s),
        }
    }

    /// With one more state; 18 if its centre is not that of the last one or its moment is not later. Nothing else is checked.
    pub fn take(&self, s: &State) -> Result<Pane, u64> {
        match self.newer() {
            None => Ok(Pane::One(*s)),
            Some(last) if s.centre == last.centre && s.moment > last.moment => Ok(Pane::Two(last, *s)),
            Some(_) => Err(18),
        }
    }

    /// With the answer of a run: its state, or unchanged after a refused run.
    pub fn feed(&self, outcome: Outcome, s: &State) -> Result<Pane, u64> {
        match outcome {
            Outcome::Arrived | Outcome::Going => self.take(s),
            Outcome::Refused(_) => Ok(*self),
        }
    }

    /// What is on air at a moment; 7 if the figure is not finite.
    pub fn frame(&self, t: u64) -> Result<Frame, u64> {
        let Pane::Two(older, newer) = self else { return Ok(Frame::Empty) };
        if t < older.moment {
            return Ok(Frame::Empty);
        }
        if t > newer.moment {
            return Ok(Frame::Late(t - newer.moment));
        }
        let figure = figure(older, newer, t);
        if finite(figure) {
            Ok(Frame::Current(figure))
        } else {
            Err(7)
        }
    }

    /// The same with the velocity, in km/s, after the position; 7 if one of the six is not finite.
    pub fn frame_motion(&self, t: u64) -> Result<Frame<[Vector; 2]>, u64> {
        match (self.frame(t)?, self) {
            (Frame::Current(position), Pane::Two(older, newer)) => {
                let velocity = speed(older, newer, t);
                if finite(velocity) {
                    Ok(Frame::Current([position, velocity]))
                } else {
                    Err(7)
                }
            }
            (Frame::Late(by), _) => Ok(Frame::Late(by)),
            _ => Ok(Frame::Empty),
        }
    }
}

/// The velocity at a moment between the two states: at either end that of the state.
pub fn speed(older: &State, newer: &State, t: u64) -> Vector {
    if t == older.moment {
        return older.velocity;
    }
    if t == newer.moment {
        return newer.velocity;
    }
    let (whole, part) = ((newer.moment - older.moment) as f64, (t - older.moment) as f64);
    let (p0, v0, p1, v1) = (older.position, older.velocity, newer.position, newer.velocity);
    [0, 1, 2].map(|i| slope(whole / 1000.0, part / whole, [p0[i], v0[i]], [p1[i], v1[i]]))
}

/// One component of the time derivative of the cubic: (m0 + s·(2·c2 + s·(3·c3)))/D, with m0, c2 and c3 of the cubic.
pub fn slope(d: f64, s: f64, [p0, v0]: [f64; 2], [p1, v1]: [f64; 2]) -> f64 {
    let (m0, m1) = (d * v0, d * v1);
    let e = p1 - p0;
    let c2 = (3.0 * e - 2.0 * m0) - m1;
    let c3 = (m0 + m1) - 2.0 * e;
    (m0 + s * (2.0 * c2 + s * (3.0 * c3))) / d
}

/// The position at a moment between the two states: at either end that of the state.
pub fn figure(older: &State, newer: &State, t: u64) -> Vector {
    if t == older.moment {
        older.position
    } else if t == newer.moment {
        newer.position
    } else {
        between(older, newer, t)
    }
}

/// The cubic through both positions and velocities, component by component. Both differences of moments are exact whole numbers
/// before they become floats.
pub fn between(older: &State, newer: &State, t: u64) -> Vector {
    let (whole, part) = ((newer.moment - older.moment) as f64, (t - older.moment) as f64);
    let (d, s) = (whole / 1000.0, part / whole);
    let (p0, v0, p1, v1) = (older.position, older.velocity, newer.position, newer.velocity);
    [0, 1, 2].map(|i| cubic(d, s, [p0[i], v0[i]], [p1[i], v1[i]]))
}

/// One component, from position and velocity at both ends, D seconds apart:
/// p0 + s·(m0 + s·(c2 + s·c3)) with c2 = (3·e - 2·m0) - m1 and c3 = (m0 + m1) - 2·e.
pub fn cubic(d: f64, s: f64, [p0, v0]: [f64; 2], [p1, v1]: [f64; 2]) -> f64 {
    let (m0, m1) = (d * v0, d * v1);
    let e = p1 - p0;
    let c2 = (3.0 * e - 2.0 * m0) - m1;
    let c3 = (m0 + m1) - 2.0 * e;
    p0 + s * (m0 + s * (c2 + s * c3))
}

/// A line of the program.
#[derive(Clone, Copy, Debug)]
pub enum Line {
    Clear,
    Take(State),
    Feed(Outcome, State),
    Frame(u64),
}

/// The state of a refused run may have a NaN, which ask prints as `nan`. Any readable state is allowed, because it is not kept.
fn with_nans<'a>(fields: &[&'a [u8]]) -> Vec<&'a [u8]> {
    let readable = |(i, &field): (usize, &&'a [u8])| if i >= 2 && field == b"nan" { &b"7ff8000000000000"[..] } else { field };
    fields.iter().enumerate().map(readable).collect()
}

/// Outcome, steps, state and guesses, as in the answer of a run.
fn read_feed(f: &[&[u8]]) -> Option<Line> {
    let (outcome, rest) = match f {
        [b"ARRIVED", rest @ ..] => (Outcome::Arrived, rest),
        [b"GOING", rest @ ..] => (Outcome::Going, rest),
        [b"REFUSED", number, rest @ ..] => (Outcome::Refused(decimal(number)?), rest),
        _ => return None,
    };
    let (steps, rest) = rest.split_first()?;
    let (fields, guesses) = (rest.get(..STATE)?, rest.get(STATE..)?);
    decimal(steps)?;
    decimals::<5>(guesses)?;
    let state = match outcome {
        Outcome::Refused(_) => state(&with_nans(fields))?,
        Outcome::Arrived | Outcome::Going => state(fields)?,
    };
    Some(Line::Feed(outcome, state))
}

/// A line without its line feed; None if it is unreadable.
pub fn read(line: &[u8]) -> Option<Line> {
    let fields: Vec<&[u8]> = line.split(|&b| b == b' ').collect();
    match &fields[..] {
        [b"clear"] => Some(Line::Clear),
        [b"take", rest @ ..] => Some(Line::Take(state(rest)?)),
        [b"feed", rest @ ..] => read_feed(rest),
        [b"frame", moment] => Some(Line::Frame(decimal(moment)?)),
        _ => None,
    }
}

/// The answer to a frame as it is printed.
pub fn frame_shown(frame: Result<Frame, u64>) -> String {
    match frame {
        Ok(Frame::Current(position)) => format!("CURRENT {}", all_shown(&position)),
        Ok(Frame::Late(by)) => format!("LATE {by}"),
        Ok(Frame::Empty) => "EMPTY".to_string(),
        Err(number) => format!("REFUSED {number}"),
    }
}

impl Pane {
    /// The pane with one more state, or unchanged if that is refused; and what is printed.
    fn kept(&mut self, new: Result<Pane, u64>, done: &str) -> String {
        match new {
            Ok(pane) => {
                *self = pane;
                done.to_string()
            }
            Err(number) => format!("REFUSED {number}"),
        }
    }

    /// The answer to one line, without line feeds.
    pub fn answer(&mut self, line: &[u8]) -> String {
        match read(line) {
            Some(Line::Clear) => self.kept(Ok(Pane::Clear), "EMPTY"),
            Some(Line::Take(s)) => self.kept(self.take(&s), "OK"),
            Some(Line::Feed(outcome, s)) => {
                let done = if matches!(outcome, Outcome::Refused(_)) { "UNCHANGED" } else { "OK" };
                self.kept(self.feed(outcome, &s), done)
            }
            Some(Line::Frame(t)) => frame_shown(self.frame(t)),
            None => UNREADABLE.to_string(),
        }
    }
}

/// The program: answers each line as it comes. An empty last piece is not a line.
pub fn live(mut input: impl BufRead, out: &mut impl Write) -> io::Result<()> {
    let (mut pane, mut piece) = (Pane::Clear, Vec::new());
    while input.read_until(b'\n', &mut piece)? > 0 {
        let line = piece.strip_suffix(b"\n").unwrap_or(&piece);
        writeln!(out, "{}", pane.answer(line))?;
        out.flush()?;
        piece.clear();
    }
    Ok(())
}
