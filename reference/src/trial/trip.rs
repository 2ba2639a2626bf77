//! One run call with all its inputs.

use super::chance::Chance;
use super::floats::flight;
use super::times::{bad_dut, bad_moment};
use super::world::World;
use crate::book::covers;
use crate::extras::Extras;
use crate::hour::{DUT_MOST, END};
use crate::motion::{of_an_order, run, start_checks, Ran};
use crate::rule::{Setting, State, EARTH};

/// Document 003's coefficients.
pub const NOMINAL: [f64; 6] = [398603.20, 4900.7589, 132715440000.0, 324769.50, 42977.799, 126710600.0];
/// The names of a run's refusals before any step, in their order.
pub const BREAKS: [&str; 8] = ["1", "4", "14", "3 state", "3 target", "7", "2", "5"];
/// Those that an order or an old line can have: its book is the world's, and it has no centre.
pub const OF_AN_ORDER: [usize; 6] = [1, 3, 4, 5, 6, 7];

#[derive(Clone, Debug)]
pub struct Trip {
    pub setting: Setting,
    pub state: State,
    pub h: u32,
    pub target: u64,
    pub budget: u32,
    pub guesses: [u64; 5],
}

impl Trip {
    /// The state as it is given, with the rule's acceleration or not.
    pub fn fly(&self, book: &[u8]) -> Ran {
        run(book, &self.setting, &self.state, self.h, self.target, self.budget, self.guesses)
    }

    /// The same with the acceleration that the rule gives, as an old order has it; the stored value if the rule gives none.
    pub fn kept(&self, book: &[u8]) -> Trip {
        Trip { state: of_an_order(book, &self.setting, &self.state), ..self.clone() }
    }

    pub fn run(&self, book: &[u8]) -> Ran {
        self.kept(book).fly(book)
    }

    /// At most that many steps: the target is moved nearer if needed.
    pub fn shortened(mut self, book: &[u8], most: u64) -> Trip {
        let state = of_an_order(book, &self.setting, &self.state);
        if start_checks(book, &self.setting, &state, self.h, self.target).is_ok() {
            let h = u64::from(self.h);
            let steps = (self.target - self.state.moment) / h;
            self.target = self.state.moment + h * steps.min(most);
        }
        self
    }

    pub fn set_state(&mut self, s: [f64; 6]) {
        self.state.position = [s[0], s[1], s[2]];
        self.state.velocity = [s[3], s[4], s[5]];
    }

    pub fn aim(&mut self, steps: u64) {
        let h = u64::from(self.h).max(1);
        let most = (END - 1).saturating_sub(self.state.moment) / h;
        self.target = self.state.moment.saturating_add(h * steps.min(most));
    }
}

/// Run calls for a world; a note says more about each.
pub type MakeRuns = fn(&mut Chance, &World) -> Vec<(String, Trip)>;
pub type RunCase = (&'static str, MakeRuns);

pub fn noted(note: &str, t: Trip) -> Vec<(String, Trip)> {
    vec![(note.to_string(), t)]
}

/// A moment that some entry covers, or any if there is none.
pub fn covered_moment(c: &mut Chance, w: &World) -> u64 {
    if w.entries.is_empty() {
        return c.below(END);
    }
    let e = c.pick(&w.entries);
    (e.start + c.below(e.span.min(END))).min(END - 1)
}

/// Coefficients for the bodies that cover t, each left out sometimes.
pub fn setting_at(c: &mut Chance, w: &World, t: u64) -> Setting {
    let mut coefficients = NOMINAL;
    for body in 2..=6u16 {
        let covered = w.entries.iter().any(|e| e.body == body && covers(*e, t));
        if !covered || c.one_in(5) {
            coefficients[usize::from(body) - 1] = c.pick(&[0.0, 0.0, -0.0]);
        }
    }
    let dut = c.pick(&[0, 35_000, DUT_MOST, c.clone().below(100_001) as u32]);
    Setting { coefficients, dut, extras: Extras::NONE, rule: 0 }
}

/// An allowed h: of any size, or one that fits the rest of the cover.
pub fn pick_h(c: &mut Chance, w: &World, t: u64) -> u32 {
    let left = w.entries.iter().filter(|e| covers(**e, t)).map(|e| e.start + e.span - t).min();
    let h = match c.below(6) {
        0 => c.pick(&[2, 4, 1000, 60_000, 3_600_000, 86_400_000]),
        1 => c.any_length(27),
        2 => 60_000,
        _ => left.unwrap_or(60_000) / c.between(1, 24),
    };
    (h / 2 * 2).clamp(2, 86_400_000) as u32
}

/// One guess at the entry of a body, wrong in a given style.
pub fn guess(c: &mut Chance, w: &World, body: u16, t: u64, style: u64) -> u64 {
    let right = w.entries.iter().position(|e| e.body == body && covers(*e, t));
    let right = right.map_or(c.below(6), |i| i as u64);
    let count = w.entries.len() as u64;
    match style {
        0 => right,
        1 => right.wrapping_sub(1),
        2 => right + 1,
        3 => c.below(count.max(1)),
        4 => count + c.below(3),
        5 => c.pick(&[u64::MAX, u64::MAX - 1, 1 << 63, 1 << 32, 768_614_336_404_564_651]),
        6 => right + (1 << 32),
        7 => 0,
        _ => c.any_length(64),
    }
}

pub fn guesses(c: &mut Chance, w: &World, t: u64, style: u64) -> [u64; 5] {
    [2, 3, 4, 5, 6].map(|body| guess(c, w, body, t, style))
}

pub fn pick_budget(c: &mut Chance, steps: u64) -> u32 {
    match c.below(7) {
        0 => steps as u32,
        1 => steps.saturating_sub(1) as u32,
        2 => u32::MAX,
        3 => c.below(steps + 2) as u32,
        4 => 0,
        _ => 1000,
    }
}

/// A trip that nothing before the first step refuses.
pub fn trip_at(c: &mut Chance, w: &World, t: u64) -> Trip {
    let h = pick_h(c, w, t);
    let steps = c.pick(&[0, 1, 1, 2, 3, 5, 8, 13, 24]);
    let style = c.below(9);
    let state = State::bare(t, EARTH, [0.0; 3], [0.0; 3]);
    let setting = setting_at(c, w, t);
    let guesses = guesses(c, w, t, style);
    let mut trip = Trip { setting, state, h, target: t, budget: 0, guesses };
    trip.set_state(flight(c));
    trip.aim(steps);
    trip.budget = pick_budget(c, steps);
    trip
}

pub fn trip(c: &mut Chance, w: &World) -> Trip {
    let t = covered_moment(c, w);
    trip_at(c, w, t)
}

pub fn break_setting(c: &mut Chance, t: &mut Trip) {
    let m = &mut t.setting.coefficients;
    match c.below(5) {
        0 => m[0] = c.pick(&[0.0, -0.0, -1.0]),
        1 => m[c.below(6) as usize] = c.not_finite(),
        2 => m[c.below(6) as usize] = -c.sized(-1022, 1023).abs(),
        3 => m[c.below(6) as usize] = f64::from_bits(1 << 63 | 1),
        _ => t.setting.dut = bad_dut(c),
    }
}

pub fn break_state(c: &mut Chance, t: &mut Trip) {
    let i = c.below(3) as usize;
    let x = c.not_finite();
    if c.one_in(2) {
        t.state.position[i] = x;
    } else {
        t.state.velocity[i] = x;
    }
}

pub fn bad_h(c: &mut Chance) -> u32 {
    let odd = c.below(43_200_000) as u32 * 2 + 1;
    let large = c.between(86_400_001, u64::from(u32::MAX)) as u32;
    c.pick(&[0, 1, 3, odd, 86_399_999, 86_400_001, 86_400_002, large, u32::MAX, 1 << 31])
}

/// Before the state, or between two steps.
pub fn break_target(c: &mut Chance, t: &mut Trip) {
    let before = t.state.moment.saturating_sub(u64::from(t.h) * c.between(1, 3));
    let between = t.target.saturating_add(c.between(1, u64::from(t.h).max(2) - 1));
    let off = t.target.saturating_sub(1);
    t.target = if t.state.moment > 0 && c.one_in(2) { before } else { c.pick(&[between, off]) };
    if t.target >= END {
        t.target = t.state.moment.saturating_sub(1);
    }
}

/// A number without a body, or one that wraps to a body's.
pub fn bad_centre(c: &mut Chance) -> u64 {
    let near = c.between(1, 6);
    c.pick(&[0, 7, 8, 255, near + 256, near + 65_536, near + (1 << 32), near + (1 << 63), 1 << 63, u64::MAX])
}

/// Breaks what the names of BREAKS say, 4 to 5; 1 is about the book and is not touched.
pub fn break_at(c: &mut Chance, t: &mut Trip, which: usize) {
    match which {
        1 => break_setting(c, t),
        2 => t.state.centre = bad_centre(c),
        3 => t.state.moment = bad_moment(c),
        4 => t.target = bad_moment(c),
        5 => break_state(c, t),
        6 => t.h = bad_h(c),
        7 => break_target(c, t),
        _ => {}
    }
}
