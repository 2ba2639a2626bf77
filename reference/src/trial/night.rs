//! A night on which the Moon's record ends at 02:10 and none follows: a journey flown minute by minute with question lines, each
//! made from the answer before it. Also the lines for the pane with the expected answers.

use std::f64::consts::PI;

use super::books::{build, Piece};
use super::floats::hexes;
use super::fuller::taken_apart;
use super::moon::{Place, Said};
use crate::extras::Extras;
use crate::fields::STATE;
use crate::hour::DAY;
use crate::pane::{figure, frame_shown, Frame};
use crate::rule::State;
use crate::strip::Order;
use crate::vector::finite;

pub const MINUTE: u64 = 60_000;
/// 1963 January 14 at 02:00, when the pane gets its first state; the end of the record; the last minute flown.
pub const FIRST: u64 = 4761 * DAY + 120 * MINUTE;
pub const ENDS: u64 = FIRST + 10 * MINUTE;
pub const LAST: u64 = FIRST + 41 * MINUTE;
/// The last minute that is reached: the record covers no moment from its end on.
pub const GOOD: u64 = ENDS - MINUTE;

const MOON: u16 = 2;
const BUDGET: u32 = 1000;

/// A Chebyshev series at w.
fn value(series: &[f64], w: f64) -> f64 {
    series.iter().enumerate().map(|(k, c)| c * (k as f64 * w.acos()).cos()).sum()
}

/// The same path over the front of its span: a polynomial of the same degree, fitted at as many points as it has coefficients.
fn front(p: &Piece, span: u64) -> Piece {
    let n = usize::from(p.n());
    let angle = |j: usize| PI * (j as f64 + 0.5) / n as f64;
    let part = span as f64 / p.span as f64;
    let mut coefficients = Vec::new();
    for own in p.coefficients.chunks(n) {
        let values: Vec<f64> = (0..n).map(|j| value(own, (angle(j).cos() + 1.0) * part - 1.0)).collect();
        for k in 0..n {
            let sum: f64 = (0..n).map(|j| values[j] * (k as f64 * angle(j)).cos()).sum();
            coefficients.push(sum * if k == 0 { 1.0 } else { 2.0 } / n as f64);
        }
    }
    Piece { span, coefficients, ..p.clone() }
}

/// A book whose record of the Moon ends at a moment, with none after it; other bodies keep theirs.
pub fn cut(book: &[u8], end: u64) -> Vec<u8> {
    let mut list = taken_apart(book);
    list.retain(|p| p.body != MOON || p.start < end);
    for p in list.iter_mut().filter(|p| p.body == MOON && p.start + p.span > end) {
        *p = front(p, end - p.start);
    }
    build(&list)
}

/// The calls for one minute: from the last state reached, and from that of 02:00.
#[derive(Clone, Debug)]
pub struct Minute {
    pub moment: u64,
    pub step: Said,
    pub whole: Said,
}

/// The injection and the way to 02:00, then minute by minute.
#[derive(Clone, Debug)]
pub struct Night {
    pub before: Vec<Said>,
    pub minutes: Vec<Minute>,
}

impl Night {
    pub fn said(&self) -> Vec<&Said> {
        self.before.iter().chain(self.minutes.iter().flat_map(|m| [&m.step, &m.whole])).collect()
    }
}

fn setting_fields(order: &Order) -> String {
    let Extras { j, a, k } = order.setting.extras;
    format!("{} {} {} {}", hexes(&order.setting.coefficients), order.setting.dut, hexes(&[j, a, k]), order.setting.rule)
}

fn fly_line(setting: &str, place: &Place, target: u64) -> String {
    format!("fly {setting} {} {MINUTE} {target} {BUDGET} {}", place.state.join(" "), place.guesses.join(" "))
}

/// The journey of an order, injected on the whole minute before its own moment, with any function that answers a line. After a
/// refused call the next one starts from the same state.
pub fn fly(order: &Order, mut say: impl FnMut(&str) -> Result<String, String>) -> Result<Night, String> {
    let mut asked = |line: String| say(&line).map(|answer| Said { line, answer });
    let (setting, s) = (setting_fields(order), &order.state);
    let start = s.moment / MINUTE * MINUTE;
    let injection = format!("inject {setting} {start} {} {} {}", s.centre, hexes(&s.position), hexes(&s.velocity));
    let mut place = Place { state: Vec::new(), guesses: vec!["0".to_string(); 5] };
    let mut before = vec![asked(injection)?];
    place.take(&before[0].answer)?;
    let way = asked(fly_line(&setting, &place, FIRST))?;
    place.take(&way.answer)?;
    before.push(way);
    let (at_first, mut minutes) = (place.clone(), Vec::new());
    for moment in (FIRST + MINUTE..=LAST).step_by(MINUTE as usize) {
        let (step, whole) = (asked(fly_line(&setting, &place, moment))?, asked(fly_line(&setting, &at_first, moment))?);
        if step.answer.starts_with("ARRIVED") {
            place.take(&step.answer)?;
        }
        minutes.push(Minute { moment, step, whole });
    }
    Ok(Night { before, minutes })
}

/// How both answers of a minute begin, if this is the state of 02:09.
fn begin(m: &Minute, good: &str) -> [String; 2] {
    let (steps, most) = ((m.moment - FIRST) / MINUTE, (GOOD - FIRST) / MINUTE);
    if m.moment < ENDS {
        [format!("ARRIVED 1 {} ", m.moment), format!("ARRIVED {steps} {} ", m.moment)]
    } else {
        [format!("REFUSED 6 0 {good} "), format!("REFUSED 6 {most} {good} ")]
    }
}

/// The first wrong answer of a night. Up to 02:09 each call arrives. From 02:10 on each is refused with 6, with the state of 02:09
/// and the steps to it.
pub fn wrong(night: &Night) -> Option<String> {
    let last = night.minutes.iter().find(|m| m.moment == GOOD)?;
    let good = last.step.answer.split(' ').skip(2).take(STATE).collect::<Vec<_>>().join(" ");
    let both = |m: &Minute| [&m.step, &m.whole].map(|said| said.answer.clone()).into_iter().zip(begin(m, &good));
    night.minutes.iter().flat_map(both).find(|(answer, begins)| !answer.starts_with(begins)).map(|(answer, _)| answer)
}

/// A line for the pane, and its expected answer.
pub type Told = (String, String);

/// Every second of a minute, its start included, and a millisecond after it and before its end.
fn moments(end: u64) -> Vec<u64> {
    let start = end - MINUTE;
    let mut list: Vec<u64> = (start..=end).step_by(1000).chain([start + 1, end - 1]).collect();
    list.sort_unstable();
    list
}

/// A frame of a minute, from the states at its ends. Without a state at its end it is late by the time since the last.
fn frame(older: &State, newer: Option<&State>, t: u64) -> String {
    frame_shown(match newer {
        Some(newer) => Some(figure(older, newer, t)).filter(|&p| finite(p)).map(Frame::Current).ok_or(7),
        None => Ok(Frame::Late(t - older.moment)),
    })
}

/// The night on the pane: feeds each answer unchanged, and asks frames through every minute.
pub fn watched(night: &Night) -> Result<Vec<Told>, String> {
    let line = |line: String, answer: &str| (line, answer.to_string());
    let way = night.before.last().ok_or("no way to the night")?;
    let mut last = way.state().ok_or(format!("{}: no state", way.answer))?;
    let mut list = vec![line("clear".to_string(), "EMPTY"), line(format!("feed {}", way.answer), "OK")];
    list.extend([FIRST - 1, FIRST, FIRST + 1].map(|t| line(format!("frame {t}"), "EMPTY")));
    for m in &night.minutes {
        let reached = (m.moment < ENDS).then(|| m.step.state().ok_or(format!("{}: no state", m.step.answer))).transpose()?;
        list.push(line(format!("feed {}", m.step.answer), if reached.is_some() { "OK" } else { "UNCHANGED" }));
        list.push(line(format!("feed {}", m.whole.answer), if reached.is_some() { "REFUSED 18" } else { "UNCHANGED" }));
        // The frame at the last good moment is not past it, and current.
        let past = moments(m.moment).into_iter().filter(|t| reached.is_some() || *t > last.moment);
        list.extend(past.map(|t| (format!("frame {t}"), frame(&last, reached.as_ref(), t))));
        if reached.is_none() {
            list.push((format!("frame {GOOD}"), frame(&last, Some(&last), GOOD)));
        }
        last = reached.unwrap_or(last);
    }
    Ok(list)
}
