//! JPL's check case 1 as question lines: about the Earth to the moment at which JPL's program changes its centre, a move to the
//! Moon, and on about it. Each line is made from the answer before it.

use super::floats::hexes;
use crate::extras::Extras;
use crate::fields;
use crate::rule::State;
use crate::strip::Order;

/// A part of the flight: the injection, steps of h milliseconds, or a move to a centre.
#[derive(Clone, Copy, Debug)]
pub enum Part {
    Inject,
    Fly { h: u32, steps: u64 },
    Move(u64),
}

/// JPL changes the centre 58 h 46 min 13.046 s after the injection, and prints the flight 4 h after that and at 65 h 56 min 20.068 s.
pub const PARTS: [Part; 7] = [
    Part::Inject,
    Part::Fly { h: 60_000, steps: 58 * 60 + 46 },
    Part::Fly { h: 13_046, steps: 1 },
    Part::Move(2),
    Part::Fly { h: 60_000, steps: 4 * 60 },
    Part::Fly { h: 60_000, steps: 3 * 60 + 10 },
    Part::Fly { h: 7_022, steps: 1 },
];

/// The most steps of one call.
pub const BUDGET: u32 = 1000;

/// One call and its answer.
#[derive(Clone, Debug)]
pub struct Said {
    pub line: String,
    pub answer: String,
}

impl Said {
    /// The state in the answer, if it is not refused.
    pub fn state(&self) -> Option<State> {
        let list: Vec<&[u8]> = self.answer.split(' ').map(str::as_bytes).collect();
        let from = state_from(&self.answer)?;
        fields::state(list.get(from..from + fields::STATE)?)
    }
}

/// Where the state of an answer begins: after outcome and steps for `fly`, at the front for an injection or a move.
fn state_from(answer: &str) -> Option<usize> {
    match answer.split(' ').next() {
        Some("ARRIVED" | "GOING") => Some(2),
        Some("REFUSED") => None,
        _ => Some(0),
    }
}

/// The current state of a flight, as fields of a line.
#[derive(Clone, Debug)]
pub struct Place {
    pub state: Vec<String>,
    pub guesses: Vec<String>,
}

impl Place {
    /// Takes an answer; returns whether the call is still going. A refusal is an error.
    pub fn take(&mut self, answer: &str) -> Result<bool, String> {
        let list: Vec<String> = answer.split(' ').map(str::to_string).collect();
        let from = state_from(answer).ok_or_else(|| answer.to_string())?;
        self.state = list.get(from..from + fields::STATE).ok_or_else(|| answer.to_string())?.to_vec();
        if from > 0 {
            self.guesses = list[from + fields::STATE..].to_vec();
        }
        Ok(list[0] == "GOING")
    }

    pub fn moment(&self) -> Result<u64, String> {
        self.state[0].parse().map_err(|_| format!("{}: no moment", self.state[0]))
    }
}

/// The flight of an order, with any function that answers a line: every call with its answer. A refusal ends it.
pub fn flight(order: &Order, mut say: impl FnMut(&str) -> Result<String, String>) -> Result<Vec<Said>, String> {
    let (setting, s) = (&order.setting, &order.state);
    let Extras { j, a, k } = setting.extras;
    let setting = format!("{} {} {} {}", hexes(&setting.coefficients), setting.dut, hexes(&[j, a, k]), setting.rule);
    let state = format!("{} {} {} {}", s.moment, s.centre, hexes(&s.position), hexes(&s.velocity));
    let mut place = Place { state: state.split(' ').map(str::to_string).collect(), guesses: vec!["0".to_string(); 5] };
    let mut list = Vec::new();
    for part in PARTS {
        let target = match part {
            Part::Fly { h, steps } => place.moment()? + u64::from(h) * steps,
            Part::Inject | Part::Move(_) => 0,
        };
        loop {
            let (state, guesses) = (place.state.join(" "), place.guesses.join(" "));
            let line = match part {
                Part::Inject => format!("inject {setting} {state}"),
                Part::Fly { h, .. } => format!("fly {setting} {state} {h} {target} {BUDGET} {guesses}"),
                Part::Move(new) => format!("move {setting} {state} {new}"),
            };
            let answer = say(&line)?;
            list.push(Said { line, answer: answer.clone() });
            if !place.take(&answer)? {
                break;
            }
        }
    }
    Ok(list)
}
