//! The reference as a program: `reference ask [BOOK]`, `reference strip`, `reference strip144`, `reference repair`, `reference
//! compare FIRST SECOND`, `reference table`, `reference pane` and `reference precession`. `precession` prints a line for each year
//! from 1950 on: its day and the nine elements.

use std::io::{self, BufWriter, Read, Write};
use std::process::ExitCode;

use reference::{ask, book, calendar, fixed, hour, pane, parting, repair, strip, table};

fn standard_input() -> io::Result<Vec<u8>> {
    let mut input = Vec::new();
    io::stdin().lock().read_to_end(&mut input)?;
    Ok(input)
}

fn answer(words: &[String]) -> io::Result<bool> {
    let mut out = BufWriter::new(io::stdout().lock());
    match words.iter().map(String::as_str).collect::<Vec<_>>()[..] {
        ["ask"] => out.write_all(&ask::answers(&[], &standard_input()?))?,
        ["ask", file] => {
            let book = std::fs::read(file)?;
            out.write_all(&ask::answers(&book, &standard_input()?))?;
        }
        ["strip"] => strip::strip_into(&standard_input()?, &mut out)?,
        ["strip144"] => strip::strip144_into(&standard_input()?, &mut out)?,
        ["repair"] => {
            let answer = repair::repair(&standard_input()?, book::LIMIT);
            eprint!("{}", repair::report(&answer));
            out.write_all(&answer.map_or(Vec::new(), |a| a.book))?;
        }
        ["precession"] => {
            for year in 1950..2050 {
                let day = calendar::day_of(year, 1, 1).unwrap_or(0);
                write!(out, "{day}")?;
                for x in fixed::precession(day * hour::DAY).iter().flatten() {
                    write!(out, " {x:e}")?;
                }
                writeln!(out)?;
            }
        }
        ["compare", first, second] => out.write_all(&parting::report(&std::fs::read(first)?, &std::fs::read(second)?))?,
        ["pane"] => pane::live(io::stdin().lock(), &mut out)?,
        ["table"] => {
            let (rows, refused) = table::table(&standard_input()?);
            out.write_all(&rows)?;
            io::stderr().write_all(&refused)?;
        }
        _ => return Ok(false),
    }
    out.flush()?;
    Ok(true)
}

fn main() -> ExitCode {
    let words: Vec<String> = std::env::args().skip(1).collect();
    match answer(&words) {
        Ok(true) => ExitCode::SUCCESS,
        Ok(false) => {
            eprintln!("reference ask [BOOK] | reference strip | reference strip144 | reference repair | reference compare FIRST SECOND | reference table | reference pane | reference precession");
            ExitCode::from(2)
        }
        Err(error) => {
            eprintln!("reference: {error}");
            ExitCode::from(2)
        }
    }
}
