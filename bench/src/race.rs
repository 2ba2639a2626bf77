//! Programs timed against each other on one input.

use std::io;
use std::path::{Path, PathBuf};
use std::process::{Command, Stdio};

use reference::strip::{read_order, ORDER};

use crate::clock::{children, Rounds};
use crate::flight::{H, THIRTY_DAYS};

/// The order with only the Moon and the Sun, thirty days and one minute, and the book after it.
pub fn thirty_days(order: &[u8], book: &[u8]) -> Option<Vec<u8>> {
    let moment = read_order(order)?.state.moment;
    let mut input = order.get(..ORDER)?.to_vec();
    input[24..48].fill(0);
    input[104..108].copy_from_slice(&H.to_le_bytes());
    input[112..120].copy_from_slice(&(moment + u64::from(H) * u64::from(THIRTY_DAYS)).to_le_bytes());
    input.extend(book);
    Some(input)
}

fn started(words: &[String], input: &Path, out: Stdio) -> io::Result<Command> {
    let mut command = Command::new(&words[0]);
    command.args(&words[1..]).stdin(std::fs::File::open(input)?).stdout(out);
    Ok(command)
}

/// Milliseconds of processor time of one start; its output is discarded.
fn once(words: &[String], input: &Path) -> io::Result<f64> {
    let before = children();
    started(words, input, Stdio::null())?.status()?;
    Ok(children() - before)
}

/// Programs on the same input. Their outputs are compared and returned. Then they are started in turn: the least milliseconds of each.
pub fn race(racers: &[Vec<String>], input: &Path, mut rounds: Rounds) -> io::Result<(Vec<u8>, Vec<f64>)> {
    let printed = |words: &Vec<String>| Ok(started(words, input, Stdio::piped())?.output()?.stdout);
    let texts = racers.iter().map(printed).collect::<io::Result<Vec<Vec<u8>>>>()?;
    assert!(texts.iter().all(|text| *text == texts[0]), "they print different texts");
    let mut best = vec![f64::INFINITY; racers.len()];
    loop {
        for (best, racer) in best.iter_mut().zip(racers) {
            rounds.take(best, once(racer, input)?);
        }
        if !rounds.go_on() {
            return Ok((texts[0].clone(), best));
        }
    }
}

/// The command of a program, and of this one with each of the words, all with the same last words.
pub fn racers(program: &[String], own_words: &[&str], last: &[String]) -> io::Result<Vec<Vec<String>>> {
    let own = std::env::current_exe()?.to_string_lossy().into_owned();
    let own_ones = own_words.iter().map(|word| vec![own.clone(), word.to_string()]);
    let all = std::iter::once(program.to_vec()).chain(own_ones);
    Ok(all.map(|words| [&words[..], last].concat()).collect())
}

/// A file for a race, removed at its end.
pub struct Laid(PathBuf);

impl Laid {
    pub fn new(name: &str, text: &[u8]) -> io::Result<Laid> {
        let path = std::env::temp_dir().join(format!("race-{}-{name}", std::process::id()));
        std::fs::write(&path, text)?;
        Ok(Laid(path))
    }

    pub fn path(&self) -> &Path {
        &self.0
    }

    pub fn word(&self) -> String {
        self.0.to_string_lossy().into_owned()
    }
}

impl Drop for Laid {
    fn drop(&mut self) {
        let _ = std::fs::remove_file(&self.0);
    }
}
