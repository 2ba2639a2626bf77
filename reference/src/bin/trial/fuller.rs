//! Asks a program the same under a book and under a fuller one, and compares: request R-12, a fuller book never changes a figure.
//! With --spoil N the Nth answer under the fuller book is spoiled, and no later one is compared.
//!
//! trial fuller --seed N --count N --real BOOK --order ORDER --ask "WORDS" --strip "WORDS" --strip144 "WORDS" [--spoil N]

use std::collections::BTreeSet;
use std::path::PathBuf;
use std::sync::atomic::{AtomicUsize, Ordering};
use std::time::Duration;

use reference::strip::ORDER_144;
use reference::trial::chance::Chance;
use reference::trial::child::talk;
use reference::trial::drive::{on_threads, sorts, told, Options};
use reference::trial::fuller::{Added, Pair};
use reference::trial::fuller_nights::nights;
use reference::trial::unchanged::{asked, Check, Program, Verdict};

/// The greatest length of a listing, and the seconds for one start.
const MOST: u64 = 10_000_000;
const LIMIT: Duration = Duration::from_secs(300);

/// How the programs are started, and the place of the book.
struct Programs {
    ask: Vec<String>,
    strip: Vec<String>,
    strip144: Vec<String>,
    folder: PathBuf,
    starts: AtomicUsize,
}

impl Programs {
    /// Both books of the pair of that number.
    fn keep(&self, number: usize, pair: &Pair) -> Result<(), String> {
        let kept = |which: &str, book: &[u8]| std::fs::write(self.folder.join(format!("{number}-{which}.bin")), book);
        kept("first", pair.first.bytes()).and_then(|()| kept("second", pair.second.bytes())).map_err(|error| error.to_string())
    }
}

fn text(bytes: Vec<u8>) -> Result<String, String> {
    String::from_utf8(bytes).map_err(|error| error.to_string())
}

impl Program for Programs {
    fn ask(&self, book: &[u8], lines: &[String]) -> Result<Vec<String>, String> {
        if lines.is_empty() {
            return Ok(Vec::new());
        }
        let file = self.folder.join(format!("book-{}", self.starts.fetch_add(1, Ordering::Relaxed)));
        std::fs::write(&file, book).map_err(|error| format!("{}: {error}", file.display()))?;
        let input: String = lines.iter().flat_map(|line| [line, "\n"]).collect();
        let said = text(talk(&self.ask, Some(&file), input.as_bytes(), MOST, LIMIT)?.output)?;
        let _ = std::fs::remove_file(file);
        let answers: Vec<String> = said.lines().map(str::to_string).collect();
        if answers.len() != lines.len() || !said.ends_with('\n') {
            return Err(format!("{} lines, {} answers", lines.len(), answers.len()));
        }
        Ok(answers)
    }

    fn strip(&self, book: &[u8], order: &[u8]) -> Result<String, String> {
        self.starts.fetch_add(1, Ordering::Relaxed);
        let program = if order.len() == ORDER_144 { &self.strip144 } else { &self.strip };
        text(talk(program, None, &[order, book].concat(), MOST, LIMIT)?.output)
    }
}

fn read(file: &str) -> Result<Vec<u8>, String> {
    std::fs::read(file).map_err(|error| format!("{file}: {error}"))
}

fn under_both(options: &Options, programs: &Programs) -> Result<bool, String> {
    let (real, order) = (options.text("real"), options.text("order"));
    let real = if real.is_empty() { Vec::new() } else { vec![("the real book".to_string(), read(real)?)] };
    let order = if order.is_empty() { Vec::new() } else { read(order)? };
    let mut c = Chance::new(options.number("seed", 1)?);
    let mut list = nights(&mut c, options.number("count", 26)? as usize, &real, &order);
    let spoil = options.number("spoil", 0)? as usize;
    if spoil > 0 {
        // A pair has more than this many comparisons.
        list.truncate(1 + spoil / 20);
    }
    let added: Vec<Added> = list.iter().flat_map(|night| night.pair.added.clone()).collect();
    println!("{} pairs of books; records added: {}", list.len(), sorts(&added, |a| format!("{a:?}")));
    let checks = on_threads(&list, |_, _, night| asked(programs, night))?;
    let mut judged: Vec<(usize, Check, Verdict)> = Vec::new();
    for (i, check) in checks.into_iter().enumerate().flat_map(|(i, part)| part.into_iter().map(move |check| (i, check))) {
        let verdict = check.verdict();
        judged.push((i, check, verdict));
    }
    let all = judged.len();
    judged.retain(|(_, _, verdict)| *verdict != Verdict::Free);
    let starts = programs.starts.load(Ordering::Relaxed);
    println!("{starts} starts; {} refused by 6 outside a run, of which nothing is promised", all - judged.len());
    if spoil > 0 {
        judged.truncate(spoil);
        if let Some((_, check, verdict)) = judged.get_mut(spoil - 1) {
            *check = check.spoiled();
            *verdict = check.verdict();
        }
    }
    println!("{}", sorts(&judged, |(_, _, verdict)| verdict.sort().to_string()));
    let wrong: BTreeSet<usize> = judged.iter().filter(|(_, _, v)| matches!(v, Verdict::Wrong(_))).map(|(i, _, _)| *i).collect();
    if !wrong.is_empty() && spoil == 0 {
        wrong.iter().try_for_each(|&i| programs.keep(i, &list[i].pair))?;
        println!("the books of what differs are kept in {}", programs.folder.display());
    }
    let said: Vec<_> = judged.iter().map(|(i, check, verdict)| verdict.wrong().map(|what| format!("{i}, {}", check.told(what)))).collect();
    Ok(told(&said))
}

pub fn compare(words: impl Iterator<Item = String>) -> Result<bool, String> {
    let options = Options::read(&["seed", "count", "real", "order", "ask", "strip", "strip144", "spoil"], words)?;
    let folder = std::env::temp_dir().join(format!("fuller-{}", std::process::id()));
    std::fs::create_dir_all(&folder).map_err(|error| format!("{}: {error}", folder.display()))?;
    let [ask, strip, strip144] = ["ask", "strip", "strip144"].map(|name| options.words(name));
    let programs = Programs { ask, strip, strip144, folder, starts: AtomicUsize::new(0) };
    let alike = under_both(&options, &programs);
    // The folder stays if books are kept.
    let _ = std::fs::remove_dir(&programs.folder);
    alike
}
