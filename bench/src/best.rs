//! The fastest form of the walk in Rust that we found. It reads the book once, and looks for an entry first where the last one was.
//! It keeps the bodies looked up for a moment with their pulls on the centre. Same checks, same bits and same guesses as
//! `reference::motion::run`.

use reference::extras::with_both;
use reference::motion::{start_checks, step_by, walk_by, Outcome, Ran};
use reference::pull::pull;
use reference::rule::{looked_up, used, Setting, State, EARTH, SUN};
use reference::vector::{add, finite, sub, Vector};

use crate::decoded::Decoded;

/// The bodies at one moment, seen from the centre, and the pull of each on it.
struct Sky {
    moment: u64,
    seen: [Vector; 7],
    pulls: [Vector; 7],
}

pub struct Best<'a> {
    book: Decoded,
    setting: &'a Setting,
    centre: usize,
    bodies: Vec<usize>,
    others: Vec<(usize, f64)>,
    guesses: [usize; 7],
    sky: Sky,
}

impl<'a> Best<'a> {
    /// Requires a book that passes, an allowed setting and a used centre. None if the book is not calm.
    pub fn new(book: &[u8], setting: &'a Setting, centre: u64) -> Option<Best<'a>> {
        let centre = centre as usize;
        Some(Best {
            book: Decoded::new(book)?,
            setting,
            centre,
            bodies: looked_up(setting).collect(),
            others: used(setting).filter(|&(body, _)| body != centre).collect(),
            guesses: [0; 7],
            sky: Sky { moment: u64::MAX, seen: [[0.0; 3]; 7], pulls: [[0.0; 3]; 7] },
        })
    }

    /// Looks up what a new moment needs. After a refusal nothing is kept.
    fn look(&mut self, t: u64) -> Result<(), u64> {
        let mut places = [[0.0; 3]; 7];
        self.sky.moment = u64::MAX;
        for &body in &self.bodies {
            places[body] = self.book.find(body, t, &mut self.guesses[body]).ok_or(6u64)?.place(t);
        }
        self.sky.seen = places.map(|place| sub(place, places[self.centre]));
        for &(body, m) in &self.others {
            self.sky.pulls[body] = pull(self.sky.seen[body], m)?;
        }
        self.sky.moment = t;
        Ok(())
    }

    fn slope(&mut self, t: u64, p: Vector) -> Result<Vector, u64> {
        if self.sky.moment != t {
            self.look(t)?;
        }
        let Sky { seen, pulls, .. } = &self.sky;
        let coefficients = &self.setting.coefficients;
        let mut a = pull(p, coefficients[self.centre - 1])?.map(|g| -g);
        for &(body, m) in &self.others {
            a = sub(a, add(pull(sub(p, seen[body]), m)?, pulls[body]));
        }
        let from = |body: u64| sub(p, seen[body as usize]);
        a = with_both(a, &self.setting.extras, from(EARTH), coefficients[0], from(SUN))?;
        finite(a).then_some(a).ok_or(7)
    }

    pub fn step(&mut self, s: &State, h: u32) -> Result<State, u64> {
        step_by(|t, p| self.slope(t, p), s, h)
    }

    /// The guesses with the entry of each body at a moment.
    fn told(&mut self, t: u64, given: [u64; 5]) -> [u64; 5] {
        let mut guesses = given;
        for &body in &self.bodies {
            let guess = &mut self.guesses[body];
            if self.book.find(body, t, guess).is_some() {
                guesses[body - 2] = self.book.number(body, *guess);
            }
        }
        guesses
    }
}

/// The run call in this form, for a calm book.
pub fn run(
    book: &[u8], setting: &Setting, state: &State, h: u32, target: u64, budget: u32, guesses: [u64; 5],
) -> Option<Ran> {
    if let Err(number) = start_checks(book, setting, state, h, target) {
        return Some(Ran { outcome: Outcome::Refused(number), steps: 0, state: *state, guesses });
    }
    let mut best = Best::new(book, setting, state.centre)?;
    let (outcome, steps, state) = walk_by(|s| best.step(s, h), state, target, budget);
    let guesses = if steps > 0 { best.told(state.moment, guesses) } else { guesses };
    Some(Ran { outcome, steps, state, guesses })
}
