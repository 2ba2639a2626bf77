//! Compares a program's answers with the reference's.

use std::path::PathBuf;
use std::time::Duration;

use super::child::{talk, Said};
use super::plan::Group;
use super::report::Counts;
use super::strips::Strip;
use crate::{ask, strip};

/// How many differences are shown.
pub const SHOWN: usize = 10;

#[derive(Clone, Debug, Default)]
pub struct Tally {
    pub compared: usize,
    pub differ: usize,
    /// The expected answer to spoil, counted from 1; 0 for none.
    pub spoil: usize,
    pub counts: Counts,
}

/// At most the first 600 bytes, readable.
pub fn short(bytes: &[u8]) -> String {
    let text = bytes[..bytes.len().min(600)].escape_ascii().to_string();
    match bytes.len() {
        0..=600 => text,
        n => format!("{text}.. ({n} bytes)"),
    }
}

impl Tally {
    /// Compares one answer of each; the input is made only for showing.
    pub fn one(&mut self, what: &str, mut expected: Vec<u8>, got: Option<&[u8]>, input: &dyn Fn() -> String) {
        self.compared += 1;
        if self.compared == self.spoil {
            let place = expected.len().saturating_sub(2);
            if let Some(byte) = expected.get_mut(place) {
                *byte ^= 1;
            }
        }
        if got == Some(&expected[..]) {
            return;
        }
        self.differ += 1;
        if self.differ <= SHOWN {
            println!("{what}");
            println!("  input    {}", input());
            println!("  expected {}", short(&expected));
            println!("  got      {}", got.map_or("nothing".to_string(), short));
        }
    }

    /// Compares the program's whole output for a group, line by line.
    pub fn group(&mut self, group: &Group, said: &Said) {
        let mut got: Vec<&[u8]> = said.output.split_inclusive(|&b| b == b'\n').collect();
        // The rest after the last answer belongs to it.
        let last = group.calls.len() - 1;
        let joined = got.get(last..).unwrap_or(&[]).concat();
        if got.len() > last {
            got.truncate(last);
            got.push(&joined);
        }
        for (i, call) in group.calls.iter().enumerate() {
            let answer = ask::answer(group.world.bytes(), &call.line);
            self.counts.add(call.kind, &call.case, &answer);
            let what = format!("{}, {} ({})", call.kind, call.case, group.world.name);
            let expected = [answer.as_bytes(), b"\n"].concat();
            self.one(&what, expected, got.get(i).copied(), &|| short(&call.line));
        }
        self.counts.end("ask", &said.ended);
    }

    pub fn strip(&mut self, s: &Strip, expected: Vec<u8>, said: &Said, kept: &dyn Fn() -> String) {
        let name = if s.extras { "strip144" } else { "strip" };
        self.counts.add(name, &s.case, &String::from_utf8_lossy(&expected));
        self.one(&format!("{name}, {}", s.case), expected, Some(&said.output), kept);
        self.counts.end(name, &said.ended);
    }
}

/// The input of a group.
pub fn group_input(group: &Group) -> Vec<u8> {
    let mut input = Vec::new();
    for call in &group.calls {
        input.extend(&call.line);
        input.push(b'\n');
    }
    if !group.last_feed {
        input.pop();
    }
    input
}

/// The folder for books and inputs that a program is given by name.
#[derive(Clone, Debug)]
pub struct Programs {
    pub ask: Vec<String>,
    pub strip: Vec<String>,
    pub strip144: Vec<String>,
    pub folder: PathBuf,
    pub limit: Duration,
}

impl Programs {
    /// Keeps the book of a group with differences in the folder.
    pub fn ask_group(&self, tally: &mut Tally, group: &Group) -> Result<(), String> {
        let before = tally.differ;
        let file = self.folder.join(format!("book-{}", tally.compared + 1));
        let book = match &group.world.book {
            Some(bytes) => {
                std::fs::write(&file, bytes).map_err(|e| format!("{}: {e}", file.display()))?;
                Some(file.as_path())
            }
            None => None,
        };
        let most = 1000 * group.calls.len() as u64 + 1_000_000;
        let said = talk(&self.ask, book, &group_input(group), most, self.limit)?;
        tally.group(group, &said);
        match book {
            Some(file) if tally.differ == before => drop(std::fs::remove_file(file)),
            Some(file) if before < SHOWN => println!("  book     kept in {}", file.display()),
            _ => {}
        }
        Ok(())
    }

    /// Keeps the input of a strip that differs in the folder.
    pub fn print_strip(&self, tally: &mut Tally, s: &Strip) -> Result<(), String> {
        let (print, program) =
            if s.extras { (strip::strip144 as fn(&[u8]) -> Vec<u8>, &self.strip144) } else { (strip::strip as _, &self.strip) };
        let expected = print(&s.input);
        let most = 2 * expected.len() as u64 + 100_000;
        let said = talk(program, None, &s.input, most, self.limit)?;
        let file = self.folder.join(format!("strip-{}.input", tally.compared + 1));
        let kept = || match std::fs::write(&file, &s.input) {
            Ok(()) => format!("{} bytes, kept in {}", s.input.len(), file.display()),
            Err(error) => format!("{} bytes, not kept: {error}", s.input.len()),
        };
        tally.strip(s, expected, &said, &kept);
        Ok(())
    }
}
