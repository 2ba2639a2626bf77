//! A journey flown with lines made from the answers: an injection, and legs in portions with a move after each.

use super::centres::{other_centre, used_centre};
use super::chance::Chance;
use super::extras::some_extras;
use super::moon::Place;
use super::trip::Trip;
use crate::fields::SETTING;

/// That many steps of h milliseconds in portions of these budgets, then a move.
#[derive(Clone, Debug)]
pub struct Leg {
    pub h: u32,
    pub steps: u64,
    pub budgets: Vec<u32>,
    pub new: u64,
}

#[derive(Clone, Debug)]
pub struct Journey {
    pub injection: String,
    pub legs: Vec<Leg>,
}

/// A journey that starts as a trip does, about a used centre and with the last terms.
pub fn journey(c: &mut Chance, mut t: Trip) -> Journey {
    t.state.centre = used_centre(c, &t.setting);
    t.setting.extras = some_extras(c);
    let mut leg = |_| {
        let mut budgets: Vec<u32> = (0..c.below(4)).map(|_| c.below(5) as u32).collect();
        budgets.push(1000);
        let new = if c.one_in(2) { other_centre(c, &t.setting) } else { used_centre(c, &t.setting) };
        let h = (t.h / c.pick(&[1, 2, 8]) / 2 * 2).max(2);
        Leg { h, steps: c.between(0, 8), budgets, new }
    };
    let legs = (0..4).map(&mut leg).collect();
    Journey { injection: t.inject_line(), legs }
}

/// The call that comes next.
#[derive(Clone, Copy, Debug)]
enum Next {
    Inject,
    Fly { leg: usize, portion: usize, target: u64 },
    Move(usize),
    Nothing,
}

/// A journey in progress, each line made from the answer before it.
#[derive(Clone, Debug)]
pub struct Traveller<'a> {
    journey: &'a Journey,
    place: Place,
    next: Next,
}

impl Traveller<'_> {
    pub fn new(journey: &Journey, guesses: [u64; 5]) -> Traveller<'_> {
        let place = Place { state: Vec::new(), guesses: guesses.map(|g| g.to_string()).to_vec() };
        Traveller { journey, place, next: Next::Inject }
    }

    /// The next line, if there is one.
    pub fn line(&self) -> Option<String> {
        let setting = self.journey.injection.split(' ').skip(1).take(SETTING).collect::<Vec<_>>().join(" ");
        let state = self.place.state.join(" ");
        match self.next {
            Next::Inject => Some(self.journey.injection.clone()),
            Next::Fly { leg, portion, target } => {
                let Leg { h, budgets, .. } = &self.journey.legs[leg];
                Some(format!("fly {setting} {state} {h} {target} {} {}", budgets[portion], self.place.guesses.join(" ")))
            }
            Next::Move(leg) => Some(format!("move {setting} {state} {}", self.journey.legs[leg].new)),
            Next::Nothing => None,
        }
    }

    /// The next leg; nothing after the last one.
    fn depart(&self, leg: usize) -> Next {
        let target = |l: &Leg| Some(self.place.moment().ok()? + u64::from(l.h) * l.steps);
        let target = self.journey.legs.get(leg).and_then(target);
        target.map_or(Next::Nothing, |target| Next::Fly { leg, portion: 0, target })
    }

    /// Takes an answer and goes on; a refusal ends the journey.
    pub fn take(&mut self, answer: &str) {
        self.next = match (self.place.take(answer), self.next) {
            (Ok(_), Next::Inject) => self.depart(0),
            (Ok(false), Next::Fly { leg, .. }) => Next::Move(leg),
            (Ok(true), Next::Fly { leg, portion, target }) if portion + 1 < self.journey.legs[leg].budgets.len() => {
                Next::Fly { leg, portion: portion + 1, target }
            }
            (Ok(_), Next::Move(leg)) => self.depart(leg + 1),
            _ => Next::Nothing,
        };
    }
}
