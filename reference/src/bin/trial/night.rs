//! Flies a night on which the Moon's record ends at 02:10, minute by minute from 02:00 to 02:41, by the program ask under a book
//! that ends there. The program pane gets each answer and frames through every minute. Every answer of ask is compared with the
//! reference's, and every answer of the pane. Before 02:10 the pane must be current with the reference's figure. From then on each
//! run is refused with 6 and leaves the pane unchanged. Each frame must then be late by the time that has passed, without a
//! position. With --spoil N the Nth expected answer is spoiled.
//!
//! trial night --order ORDER --book BOOK --ask "WORDS" --pane "WORDS" [--spoil N]

use std::path::Path;
use std::time::Duration;

use reference::ask;
use reference::strip::{read_either, Order};
use reference::trial::child::{by_line, talk};
use reference::trial::compare::short;
use reference::trial::drive::{sorts, told, Options};
use reference::trial::night::{cut, fly, watched, wrong, Told, ENDS};

const LIMIT: Duration = Duration::from_secs(300);

/// A line, the expected answer and the actual one.
struct Check {
    line: String,
    expected: String,
    got: String,
}

impl Check {
    fn differs(&self) -> Option<String> {
        let Check { line, expected, got } = self;
        let show = |text: &str| short(text.as_bytes());
        (got != expected).then(|| format!("{}\n  expected {}\n  got      {}", show(line), show(expected), show(got)))
    }
}

fn read(file: &str) -> Result<Vec<u8>, String> {
    std::fs::read(file).map_err(|error| format!("{file}: {error}"))
}

/// Sends one line to the program.
fn asked(command: &[String], book: &Path, line: &str) -> Result<String, String> {
    let said = talk(command, Some(book), line.as_bytes(), 10_000, LIMIT)?;
    let answer = String::from_utf8_lossy(&said.output).into_owned();
    answer.strip_suffix('\n').map(str::to_string).ok_or(format!("{answer}: no whole line"))
}

/// All lines given to one start of the pane.
fn shown(command: &[String], list: &[Told]) -> Result<Vec<String>, String> {
    let input: String = list.iter().flat_map(|(line, _)| [line, "\n"]).collect();
    let said = talk(command, None, input.as_bytes(), 10_000_000, LIMIT)?;
    let answers = by_line(&said.output, list.len());
    Ok(answers.iter().map(|answer| String::from_utf8_lossy(answer.strip_suffix(b"\n").unwrap_or(answer)).into_owned()).collect())
}

/// Flies the journey through ask, then feeds ask's answers to the pane.
fn checks(order: &Order, book: &[u8], file: &Path, options: &Options) -> Result<Vec<Check>, String> {
    let own = fly(order, |line| Ok(ask::answer(book, line.as_bytes())))?;
    if let Some(answer) = wrong(&own) {
        return Err(format!("the reference's own night: {answer}"));
    }
    let command = options.words("ask");
    let night = fly(order, |line| asked(&command, file, line))?;
    let pairs = own.said().into_iter().zip(night.said());
    let mut list: Vec<Check> = pairs.map(|(e, g)| Check { line: g.line.clone(), expected: e.answer.clone(), got: g.answer.clone() }).collect();
    // The pane gets ask's actual answers. If an answer has no state, it differs.
    let Ok(fed) = watched(&night) else { return Ok(list) };
    let mut got = shown(&options.words("pane"), &fed)?.into_iter();
    for ((line, _), (_, expected)) in fed.into_iter().zip(watched(&own)?) {
        list.push(Check { line, expected, got: got.next().unwrap_or("nothing".to_string()) });
    }
    Ok(list)
}

/// The first word of an answer; `injected` for an injection.
fn sort(check: &Check) -> String {
    let word = check.got.split(' ').next().unwrap_or("");
    if check.line.starts_with("inject ") { "injected".to_string() } else { word.to_string() }
}

fn flown(options: &Options, folder: &Path) -> Result<bool, String> {
    let order = read_either(&read(options.text("order"))?).ok_or("the order is neither of 120 bytes nor of 144")?;
    let (book, file) = (cut(&read(options.text("book"))?, ENDS), folder.join("cut.bin"));
    std::fs::write(&file, &book).map_err(|error| format!("{}: {error}", file.display()))?;
    let mut list = checks(&order, &book, &file, options)?;
    let spoil = options.number("spoil", 0)? as usize;
    if let Some(check) = list.get_mut(spoil.wrapping_sub(1)) {
        check.expected.push('x');
    }
    println!("{}", sorts(&list, sort));
    Ok(told(&list.iter().map(Check::differs).collect::<Vec<_>>()))
}

pub fn compare(words: impl Iterator<Item = String>) -> Result<bool, String> {
    let options = Options::read(&["order", "book", "ask", "pane", "spoil"], words)?;
    let folder = std::env::temp_dir().join(format!("night-{}", std::process::id()));
    std::fs::create_dir_all(&folder).map_err(|error| format!("{}: {error}", folder.display()))?;
    let alike = flown(&options, &folder);
    let _ = std::fs::remove_dir_all(&folder);
    alike
}
