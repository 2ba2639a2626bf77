//! Inputs for each program that reads bytes, from a seed: those of its own test, and the same with bytes changed. The reference
//! gives the expected output.

use super::changed::{bounded, bytes_changed, line_changed};
use super::chance::Chance;
use super::compare::group_input;
use super::listing_pairs;
use super::mends;
use super::panes::sessions;
use super::plan::{groups, names, strips, strips144};
use super::tables;
use crate::strip::{read_order, strip, strip144};
use crate::{ask, pane, parting, repair, table};

/// The programs that are fuzzed.
pub const PROGRAMS: [&str; 7] = ["ask", "strip", "strip144", "repair", "compare", "table", "pane"];

/// The most steps of an order that was changed at random.
const STEPS: u64 = 400;

/// The input of a program: files that it gets by name, a word, and its standard input.
#[derive(Clone, Debug, Default, PartialEq)]
pub struct Input {
    pub files: Vec<Vec<u8>>,
    pub word: Option<String>,
    pub stdin: Vec<u8>,
}

fn on_stdin(stdin: Vec<u8>) -> Input {
    Input { stdin, ..Input::default() }
}

/// Inputs of a program, a batch at a time.
pub fn batch(c: &mut Chance, program: &str) -> Vec<Input> {
    match program {
        "strip" => strips(c, 60, &[]).into_iter().map(|s| on_stdin(s.input)).collect(),
        "strip144" => strips144(c, 60, &[]).into_iter().map(|s| on_stdin(s.input)).collect(),
        "ask" => {
            let list = groups(c, 600, &names(), &[]).into_iter();
            list.map(|g| Input { files: g.world.book.clone().into_iter().collect(), word: None, stdin: group_input(&g) }).collect()
        }
        "repair" => mends::made(c, 40).into_iter().map(|d| Input { word: d.room.map(|n| n.to_string()), ..on_stdin(d.input) }).collect(),
        "compare" => listing_pairs::made(c, 40).into_iter().map(|p| Input { files: vec![p.first, p.second], ..Input::default() }).collect(),
        "table" => tables::made(c, 40).into_iter().map(|m| on_stdin(m.text)).collect(),
        _ => sessions(c, 20, &[]).into_iter().map(|s| on_stdin(s.input())).collect(),
    }
}

/// The same with something changed.
pub fn other(c: &mut Chance, program: &str, input: &Input) -> Input {
    let mut input = input.clone();
    if let Some(file) = (!input.files.is_empty() && c.one_in(2)).then(|| c.below(input.files.len() as u64) as usize) {
        bytes_changed(c, &mut input.files[file]);
    } else if program == "ask" || program == "pane" {
        let lines = input.stdin.split(|&b| b == b'\n');
        let some = lines.map(|line| if c.one_in(8) { line_changed(c, line) } else { bounded(line) }).collect::<Vec<_>>();
        input.stdin = some.join(&b'\n');
    } else {
        bytes_changed(c, &mut input.stdin);
    }
    input
}

/// Whether the reference can answer in time: an order of millions of steps is left out.
pub fn ends_soon(program: &str, input: &Input) -> bool {
    let Some(order) = read_order(&input.stdin).filter(|_| program.starts_with("strip")) else { return true };
    order.target.saturating_sub(order.state.moment) / u64::from(order.h).max(1) <= STEPS
}

/// Standard output and standard error of the reference.
pub fn expected(program: &str, input: &Input) -> (Vec<u8>, Vec<u8>) {
    let nothing = Vec::new();
    let file = |i: usize| input.files.get(i).unwrap_or(&nothing);
    match program {
        "strip" => (strip(&input.stdin), Vec::new()),
        "strip144" => (strip144(&input.stdin), Vec::new()),
        "ask" => (ask::answers(file(0), &input.stdin), Vec::new()),
        "repair" => {
            let room = input.word.as_ref().and_then(|word| word.parse().ok()).unwrap_or(61_440);
            let answer = repair::repair(&input.stdin, room);
            let report = repair::report(&answer).into_bytes();
            (answer.map_or(Vec::new(), |a| a.book), report)
        }
        "compare" => (parting::report(file(0), file(1)), Vec::new()),
        "table" => table::table(&input.stdin),
        _ => {
            let mut out = Vec::new();
            // Writing into memory does not fail.
            let _ = pane::live(&input.stdin[..], &mut out);
            (out, Vec::new())
        }
    }
}
