//! `rows BOOK ORDER TIMES TABLE COMPARE [WORDS]`: compares the programs `table` and `compare`, each started by WORDS and its path,
//! with the Rust versions (this program as `rows table` and `rows compare FIRST SECOND`). The listings are those of the order's
//! flight: thirty days at one-minute steps, and a year with the same components repeated under rising moments. The outputs are
//! compared first. Then the programs are started in turn, until no least time has fallen by 1 % in TIMES rounds (three for a year). The
//! least time of each is printed, with the greatest allowed ratio.

use std::io::{self, Read, Write};
use std::process::ExitCode;

use bench::asked::Asked;
use bench::clock::Rounds;
use bench::race::{race, racers, thirty_days, Laid};
use reference::{parting::report, strip::strip, table};

/// The rows of a listing on standard input.
fn rows() -> io::Result<()> {
    let mut text = Vec::new();
    io::stdin().lock().read_to_end(&mut text)?;
    let (rows, refused) = table::table(&text);
    io::stdout().lock().write_all(&rows)?;
    io::stderr().write_all(&refused)
}

/// The report on two listings.
fn reported(first: &str, second: &str) -> io::Result<()> {
    io::stdout().lock().write_all(&report(&std::fs::read(first)?, &std::fs::read(second)?))
}

const YEAR: usize = 365 * 24 * 60;
const MINUTE: u64 = 60_000;

/// A listing of a year: the components of a listing's states, repeated.
fn year(listing: &[u8]) -> Vec<u8> {
    let lines: Vec<&[u8]> = listing.split(|&b| b == b'\n').collect();
    let states: Vec<&[u8]> = lines[1..].iter().copied().filter(|line| line.first().is_some_and(u8::is_ascii_digit)).collect();
    let components = |line: &&'_ [u8]| line.iter().position(|&b| b == b' ').unwrap_or(0);
    let mut text = [lines[0], b"\n"].concat();
    for (i, state) in states.iter().cycle().take(YEAR).enumerate() {
        text.extend(format!("{}", i as u64 * MINUTE).bytes());
        text.extend(&state[components(state)..]);
        text.push(b'\n');
    }
    text.extend(format!("ARRIVED {}\n", YEAR - 1).bytes());
    text
}

/// One race as a row: milliseconds, the ratio and the greatest allowed one, and megabytes per second.
fn row(name: &str, bytes: usize, least: &[f64], most: Option<f64>, asked: &mut Asked) {
    let (proved, rust) = (least[0], least[1]);
    println!("| {name} | {proved:.1} | {rust:.1} |{} {:.0} |", asked.cells(proved / rust, most), bytes as f64 / proved / 1e3);
}

const MOST: f64 = 0.35;

fn bench(words: &[String]) -> io::Result<Option<ExitCode>> {
    let [book, order, times, table, compare, before @ ..] = words else { return Ok(None) };
    let (Some(input), Ok(times)) = (thirty_days(&std::fs::read(order)?, &std::fs::read(book)?), times.parse::<u32>()) else {
        return Ok(None);
    };
    let program = |path: &String| [before, std::slice::from_ref(path)].concat();
    let month = strip(&input);
    let year = year(&month);
    let mut other = year.clone();
    let place = other.len() - 40;
    other[place] = if other[place] == b'0' { b'1' } else { b'0' };
    let [month, first, same, second] = [("month", &month), ("first", &year), ("same", &year), ("second", &other)].map(|(name, text)| Laid::new(name, text));
    let (month, first, same, second) = (month?, first?, same?, second?);
    let none = Laid::new("none", b"")?;
    let mut asked = Asked::default();
    let size = |laid: &Laid| std::fs::metadata(laid.path()).map(|told| told.len() as usize);
    println!("| Listings read back, ms | Proved | Rust | Ratio | Asked | MB/s |\n|---|---|---|---|---|---|");
    for (name, laid, times) in [("`table`, thirty days", &month, times), ("`table`, a year", &first, 3)] {
        let (_, least) = race(&racers(&program(table), &["table"], &[])?, laid.path(), Rounds::new(times, 30))?;
        row(&format!("{name}, {} bytes", size(laid)?), size(laid)?, &least, Some(MOST), &mut asked);
    }
    let pairs = [
        ("`compare`, two equal listings of a year", &same, Some(MOST)),
        ("`compare`, one digit near the end other", &second, Some(MOST)),
        ("a year judged alone (`compare` with an empty text)", &none, None),
    ];
    for (name, with, most) in pairs {
        let (_, least) = race(&racers(&program(compare), &["compare"], &[first.word(), with.word()])?, none.path(), Rounds::new(3, 30))?;
        row(&format!("{name}, {} bytes each", size(&first)?), size(&first)?, &least, most, &mut asked);
    }
    Ok(Some(asked.code()))
}

fn main() -> ExitCode {
    let words: Vec<String> = std::env::args().skip(1).collect();
    let done = match &words[..] {
        [word] if word == "table" => rows().map(|()| Some(ExitCode::SUCCESS)),
        [word, first, second] if word == "compare" => reported(first, second).map(|()| Some(ExitCode::SUCCESS)),
        _ => bench(&words),
    };
    match done {
        Ok(Some(code)) => code,
        Ok(None) => {
            eprintln!("rows BOOK ORDER TIMES TABLE COMPARE [WORDS] | rows table | rows compare FIRST SECOND");
            ExitCode::from(2)
        }
        Err(error) => {
            eprintln!("rows: {error}");
            ExitCode::from(2)
        }
    }
}
