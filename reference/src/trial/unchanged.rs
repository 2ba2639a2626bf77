//! Checks that a fuller book changes no figure: the same questions under a book and under a fuller one. If the first does not
//! refuse with 6, the second gives the same answer, except for guesses. A run that the first refuses with 6 goes at least as far
//! under the second, through the same states.

use super::compare::short;
use super::lines::{is_run, with_budget};
use super::fuller_nights::Night;
use super::travel::Traveller;
use crate::fields::STATE;

/// The programs: the answers to lines under a book, and the listing of an order, of 120 bytes or of 144.
pub trait Program {
    fn ask(&self, book: &[u8], lines: &[String]) -> Result<Vec<String>, String>;
    fn strip(&self, book: &[u8], order: &[u8]) -> Result<String, String>;
}

/// The answer of a run without its guesses.
#[derive(Clone, Debug, PartialEq, Eq)]
struct Ran {
    /// ARRIVED, GOING or REFUSED N.
    outcome: String,
    steps: u64,
    state: String,
}

/// How many fields the state of an old line has, and how many guesses there are.
const OLD_STATE: usize = 7;
const GUESSES: usize = 5;

impl Ran {
    fn read(line: &str, answer: &str) -> Option<Ran> {
        let list: Vec<&str> = answer.split(' ').collect();
        let outcome = match list[0] {
            "ARRIVED" | "GOING" => 1,
            "REFUSED" => 2,
            _ => return None,
        };
        let state = if line.starts_with("fly ") { STATE } else { OLD_STATE };
        if list.len() != outcome + 1 + state + GUESSES {
            return None;
        }
        let steps = list[outcome].parse().ok()?;
        Some(Ran { outcome: list[..outcome].join(" "), steps, state: list[outcome + 1..list.len() - GUESSES].join(" ") })
    }
}

/// Whether an answer that is not a run's has the form for its line.
fn has_form(line: &str, answer: &str) -> bool {
    let list: Vec<&str> = answer.split(' ').collect();
    let fields = match line.split(' ').next() {
        Some("body") => 6,
        Some("accel" | "pull") => 3,
        _ => STATE,
    };
    list.len() == fields || (list.len() == 2 && list[0] == "REFUSED" && list[1].parse::<u64>().is_ok())
}

/// The result of a comparison: nothing is promised, it is right (with its sort), or what is wrong.
#[derive(Clone, Debug, PartialEq, Eq)]
pub enum Verdict {
    Free,
    Good(&'static str),
    Wrong(&'static str),
}

use Verdict::{Free, Good, Wrong};

impl Verdict {
    pub fn sort(&self) -> &'static str {
        match self {
            Free => "of which nothing is promised",
            Good(sort) | Wrong(sort) => sort,
        }
    }

    pub fn wrong(&self) -> Option<&'static str> {
        match self {
            Wrong(what) => Some(what),
            _ => None,
        }
    }
}

fn good(good: bool, sort: &'static str, otherwise: &'static str) -> Verdict {
    if good {
        Good(sort)
    } else {
        Wrong(otherwise)
    }
}

/// One line or one order, and its answers under the two books. `cut` is the second's answer to a run with the first's steps as its
/// budget, if the first refused it with 6. For an order the line is empty.
#[derive(Clone, Debug)]
pub struct Check {
    pub name: String,
    pub line: String,
    pub first: String,
    pub second: String,
    pub cut: Option<String>,
}

const GAP: &str = "REFUSED 6";

/// The lines of a listing, each with its line feed.
fn lines(listing: &str) -> Vec<&str> {
    listing.split_inclusive('\n').collect()
}

/// The outcome line of a listing that has one, and the lines before it.
fn ended<'a>(listing: &'a [&'a str]) -> Option<(&'a str, &'a [&'a str])> {
    let (outcome, states) = listing.split_last()?;
    let ends = outcome.ends_with('\n') && (outcome.starts_with("ARRIVED ") || outcome.starts_with("REFUSED "));
    ends.then_some((*outcome, states))
}

impl Check {
    pub fn verdict(&self) -> Verdict {
        if self.line.is_empty() {
            self.listing()
        } else if is_run(&self.line) {
            self.run().unwrap_or(Wrong("a run's answer cannot be read"))
        } else {
            self.call()
        }
    }

    fn call(&self) -> Verdict {
        if !has_form(&self.line, &self.first) || !has_form(&self.line, &self.second) {
            return Wrong("an answer cannot be read");
        }
        if self.first == GAP {
            return Free;
        }
        let sort = if self.first.starts_with("REFUSED") { "calls refused otherwise" } else { "calls answered" };
        good(self.first == self.second, sort, "the answer is another")
    }

    fn run(&self) -> Option<Verdict> {
        let (first, second) = (Ran::read(&self.line, &self.first)?, Ran::read(&self.line, &self.second)?);
        if first.outcome != GAP {
            let sort = match first.outcome.as_str() {
                "ARRIVED" => "runs arrived",
                "GOING" => "runs going",
                _ => "runs refused otherwise",
            };
            return Some(good(first == second, sort, "the run is another"));
        }
        let cut = Ran::read(&self.line, self.cut.as_ref()?)?;
        let same = cut.steps == first.steps && cut.state == first.state && (cut.outcome == "GOING" || first.steps == 0);
        let sort = match (first.steps, second.steps > first.steps) {
            (0, false) => "runs refused by 6 at once, under both or refused otherwise",
            (0, true) => "runs refused by 6 at once and gone on",
            (_, false) => "runs refused by 6 on the way, no further under the second",
            (_, true) => "runs refused by 6 on the way and gone further",
        };
        Some(good(second.steps >= first.steps && same, sort, "the run does not go as far, or by other states"))
    }

    /// The first's listing is the beginning of the second's, line by line, up to its outcome; all of it if the outcome is not a 6.
    fn listing(&self) -> Verdict {
        let (first, second) = (lines(&self.first), lines(&self.second));
        let (Some((outcome, states)), Some(_)) = (ended(&first), ended(&second)) else {
            return Wrong("a listing has no end");
        };
        if self.first.trim_end() == GAP {
            return Free;
        }
        if !outcome.starts_with(&format!("{GAP} ")) {
            let sort = if outcome.starts_with("ARRIVED") { "listings arrived" } else { "listings refused otherwise" };
            return good(first == second, sort, "the listing is another");
        }
        let further = second.len() > first.len();
        let sort = if further { "listings refused by 6 and gone further" } else { "listings refused by 6, no further" };
        good(second.len() >= first.len() && second.starts_with(states), sort, "the listing begins otherwise")
    }

    /// The same with one digit of the answer under the second book changed: in the last float of a state, if there is one.
    pub fn spoiled(&self) -> Check {
        let mut spoiled = self.clone();
        let answer = spoiled.cut.as_mut().unwrap_or(&mut spoiled.second);
        let last = if self.line.is_empty() { answer.find('\n').unwrap_or(1) - 1 } else { self.last_digit(answer) };
        let digit = if answer[last..].starts_with('0') { "1" } else { "0" };
        answer.replace_range(last..last + 1, digit);
        spoiled
    }

    /// The place of the last digit that does not belong to a guess.
    fn last_digit(&self, answer: &str) -> usize {
        let behind: usize = if is_run(&self.line) { answer.rsplit(' ').take(GUESSES).map(|g| g.len() + 1).sum() } else { 0 };
        answer.len() - behind - 1
    }

    /// For showing.
    pub fn told(&self, what: &str) -> String {
        let cut = self.cut.as_ref().map_or(String::new(), |cut| format!("\n  cut    {}", short(cut.as_bytes())));
        let [line, first, second] = [&self.line, &self.first, &self.second].map(|text| short(text.as_bytes()));
        format!("{}: {what}\n  input  {line}\n  first  {first}\n  second {second}{cut}", self.name)
    }
}

/// The steps of a run that the first book refuses with 6.
fn refused_at(line: &str, answer: &str) -> Option<u64> {
    let ran = Ran::read(line, answer).filter(|ran| is_run(line) && ran.outcome == GAP)?;
    Some(ran.steps)
}

/// All questions of a night under both books. It works in rounds, each a start of the program under either book: all lines and the
/// next call of every journey. After a run refused with 6 the same run follows, cut to its steps, and cut to half of them under
/// both.
pub fn asked(program: &impl Program, night: &Night) -> Result<Vec<Check>, String> {
    let (first, second) = (night.pair.first.bytes(), night.pair.second.bytes());
    let name = &night.pair.name;
    let mut travellers: Vec<_> = night.journeys.iter().map(|(j, g)| (Traveller::new(j, [0; 5]), Traveller::new(j, *g))).collect();
    let mut lines = night.lines.clone();
    let mut uncut: Vec<Check> = Vec::new();
    let mut list = Vec::new();
    loop {
        travellers.retain(|(a, b)| a.line().is_some() && b.line().is_some());
        let calls = travellers.iter().map(|(a, b)| (a.line().unwrap_or_default(), b.line().unwrap_or_default()));
        let pairs: Vec<(String, String)> = lines.drain(..).chain(calls).collect();
        if pairs.is_empty() && uncut.is_empty() {
            break;
        }
        let (under_first, mut under_second): (Vec<String>, Vec<String>) = pairs.into_iter().unzip();
        under_second.extend(uncut.iter().map(|check| with_budget(&check.line, refused_at(&check.line, &check.first).unwrap_or(0))));
        let (a, mut b) = (program.ask(first, &under_first)?, program.ask(second, &under_second)?);
        let cuts = b.split_off(under_first.len());
        list.extend(uncut.drain(..).zip(cuts).map(|(check, cut)| Check { cut: Some(cut), ..check }));
        let from = under_first.len() - travellers.len();
        for (i, (one, other)) in travellers.iter_mut().enumerate() {
            one.take(&a[from + i]);
            other.take(&b[from + i]);
        }
        for (i, ((line, first), second)) in under_second.into_iter().zip(a).zip(b).enumerate() {
            let steps = refused_at(&line, &first);
            let check = Check { name: if i < from { name.clone() } else { format!("{name}, journey") }, line, first, second, cut: None };
            if let Some(half) = steps.map(|steps| steps / 2).filter(|&half| half > 0) {
                let cut = with_budget(&check.line, half);
                lines.push((cut.clone(), cut));
            }
            if steps.is_some() { uncut.push(check) } else { list.push(check) }
        }
    }
    for order in &night.orders {
        let (first, second) = (program.strip(first, order)?, program.strip(second, order)?);
        list.push(Check { name: format!("{name}, strip"), line: String::new(), first, second, cut: None });
    }
    Ok(list)
}
