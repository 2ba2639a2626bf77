//! `listing BOOK ORDER TIMES PROGRAM [WORDS]`: compares the program `strip`, started by PROGRAM and WORDS, with Rust walks that
//! print the same listing. These are document 01's, the reference's and the fastest form (this program with `plain`, `walk` or
//! `best`). The flight is the order's state with the Earth, the Moon and the Sun for thirty days at one-minute steps. The outputs
//! are compared first. Then the programs are started in turn, until no least time has fallen by 1 % in four times TIMES rounds. The
//! least time of each is printed as a row of `bench/table`.

use std::io::{self, Read, Write};
use std::process::ExitCode;

use bench::asked::Asked;
use bench::best::Best;
use bench::clock::Rounds;
use bench::flights::row;
use bench::plain;
use bench::race::{race, racers, thirty_days, Laid};
use reference::motion::{of_an_order, start_checks, step};
use reference::rule::State;
use reference::strip::{read_order, Order, ORDER};

/// Lines of a listing, collected in a buffer as large as a pipe.
struct Lines {
    out: io::StdoutLock<'static>,
    text: Vec<u8>,
}

impl Lines {
    fn state(&mut self, s: &State) -> io::Result<()> {
        const DIGITS: &[u8; 16] = b"0123456789abcdef";
        if self.text.len() > 65_536 - 128 {
            self.flush()?;
        }
        write!(self.text, "{}", s.moment)?;
        for c in s.position.iter().chain(&s.velocity) {
            let bits = c.to_bits();
            let mut word = [b' '; 17];
            for (i, digit) in word[1..].iter_mut().enumerate() {
                *digit = DIGITS[(bits >> (60 - 4 * i)) as usize & 15];
            }
            self.text.extend_from_slice(&word);
        }
        self.text.push(b'\n');
        Ok(())
    }

    fn flush(&mut self) -> io::Result<()> {
        self.out.write_all(&self.text)?;
        self.text.clear();
        self.out.flush()
    }
}

/// The listing of a walk by a step function, from a state that passed the checks.
fn walked(
    lines: &mut Lines, order: &Order, from: State, mut step: impl FnMut(&State) -> Result<State, u64>,
) -> io::Result<()> {
    let (mut state, mut steps) = (from, 0u64);
    writeln!(lines.text, "STRIP {}", order.h)?;
    lines.state(&state)?;
    while state.moment != order.target {
        match step(&state) {
            Ok(next) => state = next,
            Err(number) => return writeln!(lines.text, "REFUSED {number} {steps}"),
        }
        steps += 1;
        lines.state(&state)?;
    }
    writeln!(lines.text, "ARRIVED {steps}")
}

/// The walk of an order and a book from standard input, with its listing, in the form that a word names.
fn walk(shape: &str) -> io::Result<()> {
    let mut input = Vec::new();
    io::stdin().lock().read_to_end(&mut input)?;
    let Some(order) = read_order(&input) else { return Ok(()) };
    let (book, setting, h) = (&input[ORDER..], &order.setting, order.h);
    let state = of_an_order(book, setting, &order.state);
    let mut lines = Lines { out: io::stdout().lock(), text: Vec::with_capacity(65_536) };
    if let Err(number) = start_checks(book, setting, &state, h, order.target) {
        writeln!(lines.text, "REFUSED {number}")?;
    } else if shape == "plain" {
        walked(&mut lines, &order, state, |s| plain::step(book, setting, s, h))?;
    } else if shape == "walk" {
        walked(&mut lines, &order, state, |s| step(book, setting, s, h))?;
    } else if let Some(mut best) = Best::new(book, setting, state.centre) {
        walked(&mut lines, &order, state, |s| best.step(s, h))?;
    }
    lines.flush()
}

fn bench(words: &[String]) -> io::Result<Option<ExitCode>> {
    let [book, order, times, program @ ..] = words else { return Ok(None) };
    let (Some(input), Ok(times), false) =
        (thirty_days(&std::fs::read(order)?, &std::fs::read(book)?), times.parse::<u32>(), program.is_empty())
    else {
        return Ok(None);
    };
    let input = Laid::new("order", &input)?;
    let (listing, least) = race(&racers(program, &["plain", "walk", "best"], &[])?, input.path(), Rounds::new(4 * times, 150))?;
    let name = format!("`strip` with its listing ({} bytes), the whole program", listing.len());
    let mut asked = Asked::default();
    println!("{}", row(&name, [least[0], least[1], least[2], least[3]], Some(1.03), &mut asked));
    Ok(Some(asked.code()))
}

fn main() -> ExitCode {
    let words: Vec<String> = std::env::args().skip(1).collect();
    let done = match words.first().map(String::as_str) {
        Some(shape @ ("plain" | "walk" | "best")) => walk(shape).map(|()| Some(ExitCode::SUCCESS)),
        _ => bench(&words),
    };
    match done {
        Ok(Some(code)) => code,
        Ok(None) => {
            eprintln!("listing BOOK ORDER TIMES PROGRAM [WORDS] | listing plain | listing walk | listing best");
            ExitCode::from(2)
        }
        Err(error) => {
            eprintln!("listing: {error}");
            ExitCode::from(2)
        }
    }
}
