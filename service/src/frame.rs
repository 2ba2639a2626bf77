//! One frame for the web: JSON whose numbers are the shortest that read back to the same float.

use belfrywool::{Order, State};
use serde::Serialize;

use crate::books::Named;
use crate::figures::{Figures, Texts};
use crate::show::{OnAir, Shown, Word};
use crate::times::text;

#[derive(Serialize)]
struct Clock {
    moment: u64,
    et: String,
    ut: Option<String>,
}

#[derive(Serialize)]
struct Refusal<'a> {
    number: u64,
    meaning: &'a str,
}

#[derive(Serialize)]
struct Bits {
    centre: u64,
    bits: Vec<String>,
}

#[derive(Serialize)]
struct Newer {
    moment: u64,
    centre: u64,
    bits: Vec<String>,
}

#[derive(Serialize)]
struct Book<'a> {
    name: &'a str,
    sha256: &'a str,
    until: u64,
}

#[derive(Serialize)]
struct Frame<'a> {
    flight: &'a str,
    title: &'a str,
    clock: Option<Clock>,
    word: &'a str,
    reason: &'a str,
    late_ms: Option<u64>,
    refusal: Option<Refusal<'a>>,
    figures: Option<&'a Figures>,
    text: Option<&'a Texts>,
    state: Option<Bits>,
    newer: Option<Newer>,
    book: Option<Book<'a>>,
    notices: &'a [String],
}

/// The content of a frame.
pub struct Told<'a> {
    pub flight: &'a str,
    pub title: &'a str,
    /// The moment, if there is an order.
    pub at: Option<(u64, &'a Order)>,
    pub shown: &'a Shown,
    pub book: Option<(&'a Named, u64)>,
    pub notices: &'a [String],
}

fn hex<const N: usize>(bits: [u64; N]) -> Vec<String> {
    bits.iter().map(|b| format!("{b:016x}")).collect()
}

fn newer(state: &State) -> Newer {
    Newer { moment: state.moment.0, centre: state.centre.0, bits: hex(state.bits()) }
}

/// The frame in one line.
pub fn json(told: &Told) -> String {
    let on_air: Option<&OnAir> = if let Word::Current(on_air) = &told.shown.word { Some(on_air) } else { None };
    let clock = told.at.map(|(moment, order)| Clock {
        moment,
        et: text(moment),
        ut: moment.checked_sub(u64::from(order.setting.dut.0)).map(text),
    });
    let frame = Frame {
        flight: told.flight,
        title: told.title,
        clock,
        word: told.shown.word.text(),
        reason: &told.shown.reason,
        late_ms: if let Word::Late(ms) = told.shown.word { Some(ms) } else { None },
        refusal: told.shown.refusal.as_ref().map(|(refusal, meaning)| Refusal { number: refusal.number(), meaning }),
        figures: on_air.map(|on_air| &on_air.figures),
        text: on_air.map(|on_air| &on_air.texts),
        state: on_air.map(|on_air| Bits { centre: on_air.centre.0, bits: hex(on_air.motion.bits()) }),
        newer: told.shown.newer.as_ref().map(newer),
        book: told.book.map(|(book, until)| Book { name: &book.name, sha256: &book.hash, until }),
        notices: told.notices,
    };
    serde_json::to_string(&frame).unwrap_or_else(|_| "null".to_string())
}
