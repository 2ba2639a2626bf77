//! Sessions of the pane: the lines of one start of the program, made from a seed.

use super::chance::Chance;
use super::floats::{anything, flight};
use super::offers::{fresh, gap, infinite_velocities, next, offered, six, state, state_fields};
use super::plan::{made, worlds};
use super::travel::{journey, Traveller};
use super::trip::trip;
use super::unreadable::GARBLES;
use super::world::World;
use crate::ask;
use crate::hour::END;
use crate::pane::{live, Pane};
use crate::rule::State;

#[derive(Clone, Debug)]
pub struct Session {
    pub case: &'static str,
    pub lines: Vec<Vec<u8>>,
    /// Whether the last line has its line feed.
    pub last_feed: bool,
}

impl Session {
    pub fn input(&self) -> Vec<u8> {
        let mut input = self.lines.join(&b'\n');
        if self.last_feed {
            input.push(b'\n');
        }
        input
    }

    /// The reference's answers, with their line feeds.
    pub fn answers(&self) -> Vec<Vec<u8>> {
        let mut out = Vec::new();
        // Writing into memory does not fail.
        let _ = live(&self.input()[..], &mut out);
        out.split_inclusive(|&b| b == b'\n').map(<[u8]>::to_vec).collect()
    }
}

/// A session in progress: its lines, and the pane after them.
struct Making<'a> {
    c: &'a mut Chance,
    pane: Pane,
    lines: Vec<Vec<u8>>,
}

impl Making<'_> {
    fn say(&mut self, line: impl Into<Vec<u8>>) {
        let line = line.into();
        self.pane.answer(&line);
        self.lines.push(line);
    }

    /// Some frames, mostly at moments that matter for the states kept.
    fn frames(&mut self, most: u64) {
        for _ in 0..self.c.between(1, most) {
            let t = moment(self.c, &self.pane);
            self.say(format!("frame {t}"));
        }
    }

    /// Frames around both ends, in the middle, and at the smallest and the greatest number.
    fn tour(&mut self) {
        let (a, b) = ends(&self.pane);
        let around = |t: u64| [t.saturating_sub(1), t, t.saturating_add(1)];
        let list = [&around(a)[..], &around(b), &[a + (b - a) / 2, 0, END, u64::MAX]].concat();
        list.iter().for_each(|t| self.say(format!("frame {t}")));
    }

    /// A state given by a line that takes it, or by a run's answer.
    fn offer(&mut self, s: &State) {
        let line = offered(self.c, s);
        self.say(line);
    }
}

/// The moments of the older state and the newer one; of a single state twice.
fn ends(pane: &Pane) -> (u64, u64) {
    match pane {
        Pane::Clear => (END / 2, END / 2),
        Pane::One(s) => (s.moment, s.moment),
        Pane::Two(older, newer) => (older.moment, newer.moment),
    }
}

/// A moment for a frame: at an end of the two kept or next to it, between them, after them, before them or anywhere.
fn moment(c: &mut Chance, pane: &Pane) -> u64 {
    let (a, b) = ends(pane);
    match c.below(14) {
        0 => a,
        1 => b,
        2 => a.saturating_sub(1),
        3 => b.saturating_add(1),
        4 => a.saturating_add(1),
        5 => b.saturating_sub(1),
        6 => a + (b - a) / 2,
        7 => c.pick(&[0, END - 1, END, u64::MAX - 1, u64::MAX]),
        8 => b.saturating_add(c.any_length(40)),
        9 => c.any_length(64),
        _ => c.between(a, b),
    }
}

/// Takes and runs' answers in turn, with a clearing now and then.
fn takes(m: &mut Making, _: &World) {
    for _ in 0..16 {
        if m.c.one_in(9) {
            m.say("clear");
        }
        let s = next(m.c, &m.pane);
        m.offer(&s);
        m.frames(3);
    }
}

/// Two states, and every moment at an edge.
fn tours(m: &mut Making, _: &World) {
    for _ in 0..3 {
        m.say("clear");
        let (first, apart) = (fresh(m.c), gap(m.c));
        m.say(format!("take {}", state_fields(&first)));
        m.tour();
        let second = State { centre: first.centre, ..state(first.moment.saturating_add(apart), 0, six(m.c), anything(m.c)) };
        m.say(format!("take {}", state_fields(&second)));
        m.tour();
    }
}

/// From the first number to the last, and close to both.
fn all_time(m: &mut Making, _: &World) {
    for (a, b) in [(0, u64::MAX), (1, u64::MAX - 1), (0, 1), (u64::MAX - 1, u64::MAX), (0, 1 << 53), (1, (1 << 53) + 2), (END - 1, END)] {
        m.say("clear");
        for t in [a, b] {
            let s = state(t, 1, flight(m.c), [0.0; 3]);
            m.say(format!("take {}", state_fields(&s)));
        }
        m.tour();
        m.frames(6);
    }
}

/// Finite positions with velocities that are not finite between them, on one side or on both; and the reverse.
fn no_figure(m: &mut Making, _: &World) {
    for i in 0..4 {
        m.say("clear");
        let (t, apart, whole) = (m.c.below(END), gap(m.c), flight(m.c));
        let mut pair = [whole; 2];
        match i {
            0 | 1 => pair[i] = infinite_velocities(m.c),
            2 => pair = [0; 2].map(|_| infinite_velocities(m.c)),
            _ => pair[m.c.below(2) as usize][m.c.clone().below(3) as usize] = m.c.not_finite(),
        }
        for (t, s) in [t, t.saturating_add(apart)].iter().zip(pair) {
            let s = state(*t, 3, s, [0.0; 3]);
            m.say(format!("take {}", state_fields(&s)));
        }
        m.tour();
    }
}

/// Lines that are not calls, followed by frames: the pane is unchanged.
fn garbled(m: &mut Making, _: &World) {
    for _ in 0..14 {
        let s = next(m.c, &m.pane);
        let t = moment(m.c, &m.pane);
        let good = match m.c.below(6) {
            0 => "clear".to_string(),
            1 => format!("frame {t}"),
            _ => offered(m.c, &s),
        };
        let (_, garble) = m.c.pick(GARBLES);
        let line = garble(m.c, good.into_bytes());
        m.say(line);
        if m.c.one_in(2) {
            m.offer(&s);
        }
        m.frames(2);
    }
}

/// A journey flown from its own answers: answers of runs are fed, states of injections and moves are taken, and the pane is cleared
/// after some moves.
fn journeys(m: &mut Making, w: &World) {
    let t = trip(m.c, w);
    let guesses = t.guesses;
    let way = journey(m.c, t);
    let mut traveller = Traveller::new(&way, guesses);
    while let Some(line) = traveller.line() {
        let answer = ask::answer(w.bytes(), line.as_bytes());
        match line.starts_with("fly ") {
            true => m.say(format!("feed {answer}")),
            false => m.say(format!("take {answer}")),
        }
        if line.starts_with("move ") && m.c.one_in(2) {
            m.say("clear");
            m.say(format!("take {answer}"));
        }
        m.frames(4);
        traveller.take(&answer);
    }
    m.tour();
}

/// Runs of every sort, most of them refused somewhere, fed to a pane that follows one of them.
fn runs(m: &mut Making, w: &World) {
    let first = m.c.below(1000) as usize;
    for i in 0..8 {
        let kind = m.c.pick(&["fly", "fly", "stored"]);
        for call in made(m.c, w, kind, first + i) {
            let answer = ask::answer(w.bytes(), &call.line);
            if m.c.one_in(3) {
                m.say("clear");
            }
            m.say(format!("feed {answer}"));
            m.frames(2);
        }
    }
}

/// A run's answer with a NaN, as after a refusal at its start; also in answers that never have one.
fn nans(m: &mut Making, w: &World) {
    takes(m, w);
    for _ in 0..12 {
        let s = next(m.c, &m.pane);
        let mut fields: Vec<String> = state_fields(&s).split(' ').map(str::to_string).collect();
        let at = m.c.below(fields.len() as u64) as usize;
        fields[at] = m.c.pick(&["nan", "nan", "nan", "nan", "NaN", "-nan", "inf"]).to_string();
        let word = m.c.pick(&["feed REFUSED 7 0", "feed REFUSED 15 0", "feed REFUSED 7 0", "feed ARRIVED 0", "feed GOING 0", "take"]);
        let guesses = if word == "take" { "" } else { " 0 1 2 3 4" };
        m.say(format!("{word} {}{guesses}", fields.join(" ")));
        m.frames(1);
    }
}

type Sort = (&'static str, fn(&mut Making, &World));

const SORTS: [Sort; 10] = [
    ("takes", takes), ("journey", journeys), ("runs", runs), ("tours", tours), ("garbled", garbled), ("journey", journeys),
    ("no figure", no_figure), ("nans", nans), ("all time", all_time), ("takes", takes),
];

/// That many sessions, under real books and made ones; the last line of each is a frame.
pub fn sessions(c: &mut Chance, n: usize, real: &[(String, Vec<u8>)]) -> Vec<Session> {
    let worlds = worlds(c, real);
    let named = |w: &&World| real.iter().any(|(name, _)| *name == w.name);
    let (known, whole): (Vec<_>, Vec<_>) = (worlds.iter().filter(named).collect(), worlds.iter().filter(|w| w.weight > 1).collect());
    let mut one = |i: usize| {
        let world = if known.is_empty() || c.one_in(3) { c.pick(&whole) } else { c.pick(&known) };
        let (case, make) = SORTS[i % SORTS.len()];
        let mut m = Making { c: &mut *c, pane: Pane::Clear, lines: Vec::new() };
        m.frames(2);
        make(&mut m, world);
        m.frames(1);
        let lines = m.lines;
        Session { case, lines, last_feed: c.one_in(2) }
    };
    (0..n).map(&mut one).collect()
}
