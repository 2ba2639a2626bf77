//! What is on air at a moment, from order, book and walk only. The service shows it, and `--check` computes it again.

use belfrywool::{Body, Frame, Motion, Order, Refusal, State};

use crate::books::{uncovered, Named};
use crate::figures::{Figures, Texts};
use crate::lines::Entry;
use crate::say;
use crate::walk::{Stuck, Walk};

/// A current frame.
#[derive(Clone, Debug)]
pub struct OnAir {
    pub centre: Body,
    pub motion: Motion,
    pub figures: Figures,
    pub texts: Texts,
}

#[derive(Clone, Debug)]
pub enum Word {
    Current(Box<OnAir>),
    Late(u64),
    Empty,
    Refused,
}

impl Word {
    pub fn text(&self) -> &'static str {
        match self {
            Word::Current(_) => "CURRENT",
            Word::Late(_) => "LATE",
            Word::Empty => "EMPTY",
            Word::Refused => "REFUSED",
        }
    }
}

#[derive(Clone, Debug)]
pub struct Shown {
    pub word: Word,
    pub reason: String,
    /// The refusal with what it is about.
    pub refusal: Option<(Refusal, String)>,
    pub newer: Option<State>,
}

impl Shown {
    pub fn empty(reason: &str) -> Shown {
        Shown { word: Word::Empty, reason: reason.to_string(), refusal: None, newer: None }
    }

    fn number(&self) -> u64 {
        self.refusal.as_ref().map_or(0, |(refusal, _)| refusal.number())
    }

    /// The line of the log.
    pub fn entry(&self, book: Option<&Named>) -> Entry {
        let (number, book) = (self.number(), book.map_or("-".to_string(), |book| book.hash.clone()));
        match &self.word {
            Word::Current(on_air) => Entry::Current { bits: on_air.motion.bits(), texts: on_air.texts.logged(), book },
            Word::Late(ms) => Entry::Late { ms: *ms, number, book },
            Word::Empty => Entry::Empty { number, book },
            Word::Refused => Entry::Refused { number, book },
        }
    }

    /// What causes a new line before the second is over: word, refusal and book.
    pub fn kind(&self, book: Option<&Named>) -> (&'static str, u64, Option<String>) {
        (self.word.text(), self.number(), book.map(|book| book.hash.clone()))
    }
}

fn about(order: &Order, book: &Named, stuck: Stuck) -> String {
    match (stuck.refusal, stuck.at) {
        (Refusal::Cover, at) => match uncovered(&book.bytes, order, at) {
            Some((body, moment)) => say::uncovered(body, moment),
            None => stuck.refusal.meaning().to_string(),
        },
        (Refusal::NotFinite, Some(at)) => say::about_step(at, stuck.refusal),
        _ => say::about_order(stuck.refusal),
    }
}

/// What is on air at a moment that the walk has been brought to.
pub fn show(order: &Order, book: Option<&Named>, walk: Option<&Walk>, moment: u64) -> Shown {
    let (Some(book), Some(walk)) = (book, walk) else {
        return Shown::empty(say::NO_BOOK);
    };
    let newer = walk.newer();
    if moment < order.injection.moment.0 {
        return Shown { newer, ..Shown::empty(say::BEFORE) };
    }
    let stuck = walk.stuck().map(|stuck| (stuck.refusal, about(order, book, stuck)));
    let why = |else_: &str| stuck.as_ref().map_or(else_.to_string(), |(refusal, meaning)| say::refused(*refusal, meaning));
    let frame = walk.desk().map_or(Frame::Empty, |desk| desk.frame(moment));
    let (word, reason, refusal) = match frame {
        Frame::Current(motion) => {
            let centre = walk.desk().map_or(Body::EARTH, |desk| desk.centre());
            let figures = Figures::of(&book.bytes, &order.setting, moment, centre, &motion);
            let on_air = OnAir { centre, motion, texts: figures.texts(), figures };
            let reason = if stuck.is_some() { say::CURRENT_SO_FAR } else { say::CURRENT };
            (Word::Current(Box::new(on_air)), reason.to_string(), stuck)
        }
        Frame::Late(ms) => (Word::Late(ms), why(say::NO_FURTHER), stuck),
        Frame::Empty => (Word::Empty, why(say::NO_FURTHER), stuck),
        Frame::Refused(refusal) => {
            let meaning = say::about_frame(moment, refusal);
            (Word::Refused, say::refused(refusal, &meaning), Some((refusal, meaning)))
        }
    };
    Shown { word, reason, refusal, newer }
}
