//! A flight that is walked four times: by the proved call, by document 01's walk in Rust, by the reference and by the fastest Rust
//! form.

use std::hint::black_box;

use belfrywool as proved;
use reference::extras::Extras;
use reference::motion::{of_an_order, run, Outcome, Ran};
use reference::rule::{Setting, State};

use crate::clock::{least, took, Rounds, Turn};
use crate::{best, plain};

pub const H: u32 = 60_000;
pub const DAY: u32 = 24 * 60;
pub const THIRTY_DAYS: u32 = 30 * DAY;

/// A proved call that walks to a target: `belfrywool::run`, about the Earth, or `belfrywool::fly`.
type Walk = fn(&[u8], &Setting, &State, u64) -> Reached;

/// A number of steps of a minute from a state, on a book, and the proved call that is measured.
pub struct Flight<'a> {
    pub book: &'a [u8],
    setting: Setting,
    start: State,
    steps: u32,
    walk: Walk,
}

/// How a run ended: steps, moment, centre, the bits of position and velocity, guesses. None if it did not arrive.
pub type Reached = Option<(u64, u64, u64, Vec<u64>, [u64; 5])>;

fn by_rust(ran: Ran) -> Reached {
    let Ran { outcome, steps, state: s, guesses } = ran;
    let bits = s.position.iter().chain(&s.velocity).map(|x| x.to_bits()).collect();
    (outcome == Outcome::Arrived).then_some((steps, s.moment, s.centre, bits, guesses))
}

fn all_of_it(target: u64) -> proved::Run {
    proved::Run { h: H, target: proved::Moment(target), budget: u32::MAX, guesses: proved::Guesses::default() }
}

fn reached<S>(ran: proved::RunAnswer<S>, coordinates: impl Fn(&S) -> proved::Coordinates) -> Reached {
    let proved::Coordinates { moment, centre, position, velocity } = coordinates(&ran.state);
    let bits = position.iter().chain(&velocity).map(|x| x.to_bits()).collect();
    (ran.outcome == proved::Outcome::Arrived).then_some((u64::from(ran.steps), moment.0, centre.0, bits, ran.guesses.0))
}

/// With coefficients and DUT only, from a state about the Earth.
fn by_run(book: &[u8], setting: &Setting, start: &State, target: u64) -> Reached {
    let setting = proved::EarthSetting { coefficients: setting.coefficients, dut: proved::Dut(setting.dut) };
    let State { moment, position, velocity, .. } = *start;
    let from = proved::EarthCoordinates { moment: proved::Moment(moment), position, velocity };
    reached(proved::run(proved::Book::unchecked(book), &setting, &from, &all_of_it(target)), |s| (*s).into())
}

fn by_fly(book: &[u8], setting: &Setting, start: &State, target: u64) -> Reached {
    let Setting { coefficients, dut, extras: Extras { j, a, k }, rule } = *setting;
    let setting = proved::Setting { coefficients, j, a, k, dut: proved::Dut(dut), rule: proved::Rule(rule) };
    let State { moment, centre, position, velocity, acceleration } = *start;
    let (moment, centre) = (proved::Moment(moment), proved::Body(centre));
    let state = proved::State { moment, centre, position, velocity, acceleration };
    reached(proved::fly(proved::Book::unchecked(book), &setting, &state, &all_of_it(target)), proved::State::coordinates)
}

impl<'a> Flight<'a> {
    /// About the Earth by `run`, from a state that gets its acceleration first.
    pub fn by_run(book: &'a [u8], setting: Setting, start: &State, steps: u32) -> Flight<'a> {
        Flight { book, setting, start: of_an_order(book, &setting, start), steps, walk: by_run }
    }

    /// About any centre and with J, A and K, by `fly`.
    pub fn by_fly(book: &'a [u8], setting: Setting, start: &State, steps: u32) -> Flight<'a> {
        Flight { walk: by_fly, ..Flight::by_run(book, setting, start, steps) }
    }

    pub fn target(&self) -> u64 {
        self.start.moment + u64::from(H) * u64::from(self.steps)
    }

    pub fn plain(&self) -> Ran {
        plain::run(black_box(self.book), &self.setting, &self.start, H, self.target(), u32::MAX)
    }

    pub fn reference(&self) -> Ran {
        run(black_box(self.book), &self.setting, &self.start, H, self.target(), u32::MAX, [0; 5])
    }

    pub fn best(&self) -> Option<Ran> {
        best::run(black_box(self.book), &self.setting, &self.start, H, self.target(), u32::MAX, [0; 5])
    }

    pub fn proved(&self) -> Reached {
        (self.walk)(black_box(self.book), &self.setting, &self.start, self.target())
    }

    /// This flight ends with the same bits on another book, whose entries have other numbers.
    pub fn ends_as(&self, other: &Flight) -> bool {
        let ends = |flight: &Flight| flight.proved().map(|(steps, moment, centre, bits, _)| (steps, moment, centre, bits));
        ends(self).is_some() && ends(self) == ends(other)
    }

    /// All four reach the same bits; the plain walk has no guesses.
    fn same(&self) -> bool {
        let reached = self.proved();
        let guesses = self.reference().guesses;
        let plain = by_rust(Ran { guesses, ..self.plain() });
        let others = [plain, by_rust(self.reference()), self.best().and_then(by_rust)];
        reached.is_some() && others.iter().all(|other| *other == reached)
    }

    fn turns(&self) -> [Turn<'_>; 4] {
        [
            Box::new(|| took(self.proved())),
            Box::new(|| took(self.plain())),
            Box::new(|| took(self.reference())),
            Box::new(|| took(self.best())),
        ]
    }
}

/// Nanoseconds of the four walks of each flight, after they are compared.
pub fn timed(flights: &[&Flight], rounds: Rounds) -> Result<Vec<[f64; 4]>, String> {
    if let Some(wrong) = flights.iter().position(|flight| !flight.same()) {
        return Err(format!("flight {}: the walks differ, or do not arrive", wrong + 1));
    }
    let mut rows: Vec<[Turn<'_>; 4]> = flights.iter().map(|flight| flight.turns()).collect();
    Ok(least(rounds, &mut rows))
}
