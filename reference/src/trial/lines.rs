//! A trip as a question line or as an order.

use super::floats::hexes;
use super::trip::Trip;
use crate::extras::Extras;

impl Trip {
    /// Coefficients and DUT.
    fn old_setting(&self) -> String {
        format!("{} {}", hexes(&self.setting.coefficients), self.setting.dut)
    }

    fn setting_fields(&self) -> String {
        let Extras { j, a, k } = self.setting.extras;
        format!("{} {} {}", self.old_setting(), hexes(&[j, a, k]), self.setting.rule)
    }

    fn six(&self) -> String {
        format!("{} {}", hexes(&self.state.position), hexes(&self.state.velocity))
    }

    /// A state without its acceleration.
    fn bare_fields(&self) -> String {
        format!("{} {} {}", self.state.moment, self.state.centre, self.six())
    }

    fn state_fields(&self) -> String {
        format!("{} {}", self.bare_fields(), hexes(&self.state.acceleration))
    }

    /// h, target, budget and guesses.
    fn way(&self) -> String {
        let guesses = self.guesses.map(|g| g.to_string()).join(" ");
        format!("{} {} {} {guesses}", self.h, self.target, self.budget)
    }

    pub fn run_line(&self) -> String {
        format!("run {} {} {} {}", self.old_setting(), self.state.moment, self.six(), self.way())
    }

    pub fn fly_line(&self) -> String {
        format!("fly {} {} {}", self.setting_fields(), self.state_fields(), self.way())
    }

    pub fn accel_line(&self) -> String {
        format!("accel {} {} {}", self.old_setting(), self.state.moment, hexes(&self.state.position))
    }

    pub fn pull_line(&self) -> String {
        let (moment, centre) = (self.state.moment, self.state.centre);
        format!("pull {} {moment} {centre} {}", self.setting_fields(), hexes(&self.state.position))
    }

    pub fn inject_line(&self) -> String {
        format!("inject {} {}", self.setting_fields(), self.bare_fields())
    }

    pub fn move_line(&self, new: u64) -> String {
        format!("move {} {} {new}", self.setting_fields(), self.state_fields())
    }

    /// The 120 bytes of an order.
    pub fn order(&self) -> Vec<u8> {
        let mut bytes = Vec::new();
        let floats = |list: &[f64]| list.iter().flat_map(|x| x.to_le_bytes()).collect::<Vec<_>>();
        bytes.extend(floats(&self.setting.coefficients));
        bytes.extend(self.state.moment.to_le_bytes());
        bytes.extend(floats(&self.state.position));
        bytes.extend(floats(&self.state.velocity));
        bytes.extend(self.h.to_le_bytes());
        bytes.extend(self.setting.dut.to_le_bytes());
        bytes.extend(self.target.to_le_bytes());
        bytes
    }

    /// The 144 bytes of an order with J, A and K.
    pub fn order144(&self) -> Vec<u8> {
        let Extras { j, a, k } = self.setting.extras;
        let mut bytes = self.order();
        bytes.extend([j, a, k].iter().flat_map(|x| x.to_le_bytes()));
        bytes
    }
}

/// Whether a line asks for a run.
pub fn is_run(line: &str) -> bool {
    line.starts_with("fly ") || line.starts_with("run ")
}

/// A run's line with some fields replaced, from a place counted from the end.
fn replaced(line: &str, from_end: usize, new: &[String]) -> String {
    let mut list: Vec<&str> = line.split(' ').collect();
    let at = list.len() - from_end;
    for (i, field) in new.iter().enumerate() {
        list[at + i] = field;
    }
    list.join(" ")
}

/// The same run with another budget.
pub fn with_budget(line: &str, budget: u64) -> String {
    replaced(line, 6, &[budget.to_string()])
}

/// The same run with other guesses.
pub fn with_guesses(line: &str, guesses: [u64; 5]) -> String {
    replaced(line, 5, &guesses.map(|g| g.to_string()))
}

/// The moment that a run's line starts from, if it can be read.
pub fn start_of(line: &str) -> Option<u64> {
    let at = if line.starts_with("fly ") { 12 } else { 8 };
    line.split(' ').nth(at)?.parse().ok()
}

/// The greatest number of steps of a run's line; none if it cannot be read.
pub fn most_steps(line: &str) -> Option<u64> {
    let last: Vec<u64> = line.rsplit(' ').skip(5).take(3).map_while(|field| field.parse().ok()).collect();
    let [budget, target, h] = last[..] else { return None };
    Some((target.saturating_sub(start_of(line)?) / h.max(1)).min(budget))
}
