//! Flies JPL's check case 1 to the Moon by the lines `inject`, `fly` and `move`, and shows it from the Moon at the moments that JPL
//! prints. With --ask each line goes to the given program. Lines are made from its own answers, and every answer is compared with
//! the reference's. With --spoil N the Nth expected answer is spoiled.
//!
//! trial moon --order "FILE.." --book FILE [--ask "WORDS"] [--spoil N]
//!
//! An order is one of 120 bytes or one of 144, with J, A and K.

use std::path::Path;
use std::time::Duration;

use reference::ask;
use reference::fixed::{precession, turned};
use reference::rule::State;
use reference::strip::{read_either, Order};
use reference::trial::child::talk;
use reference::trial::compare::short;
use reference::trial::drive::Options;
use reference::trial::moon::{flight, Said};
use reference::vector::n;

fn read(file: &str) -> Result<Vec<u8>, String> {
    std::fs::read(file).map_err(|error| format!("{file}: {error}"))
}

/// A state about the Moon: range and speed, and position and velocity in axes of the mean equator of date.
fn show(order: &Order, s: &State) {
    let since = s.moment - order.state.moment;
    let (hours, minutes) = (since / 3_600_000, since / 60_000 % 60);
    let table = precession(s.moment);
    let ([x, y, z], [vx, vy, vz]) = (turned(table, s.position), turned(table, s.velocity));
    println!("{hours} h {minutes} min {:.3} s:", (since % 60_000) as f64 / 1000.0);
    println!("  R {:.3} V {:.7}", n(s.position).sqrt(), n(s.velocity).sqrt());
    println!("  X {x:.3} Y {y:.3} Z {z:.3} DX {vx:.7} DY {vy:.7} DZ {vz:.7}");
}

/// Compares answer by answer; whether there are as many and all are the same.
fn alike(expected: &[Said], got: &[Said], spoil: usize) -> bool {
    let mut differ = expected.len().abs_diff(got.len());
    for (i, (e, g)) in expected.iter().zip(got).enumerate() {
        let wanted = if i + 1 == spoil { format!("{}x", e.answer) } else { e.answer.clone() };
        if wanted != g.answer {
            differ += 1;
            println!("{}\n  expected {}\n  got      {}", short(g.line.as_bytes()), wanted, short(g.answer.as_bytes()));
        }
    }
    println!("{} compared, {differ} differ", expected.len());
    differ == 0
}

/// The reference's own flight of an order, shown from the Moon.
fn own_flight(order: &Order, book: &[u8]) -> Result<Vec<Said>, String> {
    let own = flight(order, |line| Ok(ask::answer(book, line.as_bytes())))?;
    let seen = own.iter().filter(|said| !said.answer.starts_with("GOING"));
    seen.filter_map(Said::state).filter(|s| s.centre == 2).for_each(|s| show(order, &s));
    Ok(own)
}

/// Sends one line to the program.
fn asked(options: &Options, line: &str) -> Result<String, String> {
    let book = Path::new(options.text("book"));
    let said = talk(&options.words("ask"), Some(book), line.as_bytes(), 10_000, Duration::from_secs(300))?;
    let answer = String::from_utf8_lossy(&said.output).into_owned();
    answer.strip_suffix('\n').map(str::to_string).ok_or(format!("{answer}: no whole line"))
}

pub fn compare(words: impl Iterator<Item = String>) -> Result<bool, String> {
    let options = Options::read(&["order", "book", "ask", "spoil"], words)?;
    let book = read(options.text("book"))?;
    let (mut own, mut got) = (Vec::new(), Vec::new());
    for file in &options.words("order") {
        println!("{file}:");
        let order = read_either(&read(file)?).ok_or("the order is neither of 120 bytes nor of 144")?;
        own.extend(own_flight(&order, &book)?);
        if !options.words("ask").is_empty() {
            got.extend(flight(&order, |line| asked(&options, line))?);
        }
    }
    Ok(options.words("ask").is_empty() || alike(&own, &got, options.number("spoil", 0)? as usize))
}
