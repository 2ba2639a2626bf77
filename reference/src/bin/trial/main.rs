//! Compares the proved programs with the reference: `trial NAME --option value..`, where NAME is the test of that name in tests/.
//! The last line is 'N compared, M differ'. The exit status is 0 if none differ, 1 if one does, and 2 if the comparison could not
//! be made.

use std::env::Args;
use std::iter::Skip;
use std::process::ExitCode;

use reference::trial::drive::end;

mod compare;
mod differ;
mod fuller;
mod fuzz;
mod moon;
mod night;
mod pane;
mod repair;
mod table;

type Compare = fn(Skip<Args>) -> Result<bool, String>;

const TRIALS: [(&str, Compare); 9] = [
    ("differ", differ::compare),
    ("moon", moon::compare),
    ("fuller", fuller::compare),
    ("pane", pane::compare),
    ("night", night::compare),
    ("repair", repair::compare),
    ("compare", compare::compare),
    ("table", table::compare),
    ("fuzz", fuzz::compare),
];

fn main() -> ExitCode {
    let name = std::env::args().nth(1).unwrap_or_default();
    match TRIALS.iter().find(|(known, _)| *known == name) {
        Some((_, compare)) => end(&name, compare(std::env::args().skip(2))),
        None => {
            let names: Vec<&str> = TRIALS.iter().map(|(known, _)| *known).collect();
            eprintln!("trial: '{name}' is none of {}", names.join(", "));
            ExitCode::from(2)
        }
    }
}
