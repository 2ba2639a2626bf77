//! `bench WORD DATA [TIMES]`: compares the proved calls with the Rust version of document 01, in one process. DATA is the folder
//! `data`. WORD is `flights` (thirty days, five ways), `growth` (the cost of a step over books and journeys) or `parts` (single
//! calls). `proved`, `plain`, `rust` and `best` run the evening run by one walk, for a profiler. Answers are compared bit by bit
//! first. Then each is timed in turn, until no least time has fallen by 1 % in TIMES rounds. The least processor time of each is
//! printed, with its ratio and the greatest allowed one. The exit status is 1 if a ratio is too great. `bench/table` prints everything.

use std::process::ExitCode;

use bench::asked::Asked;
use bench::clock::took;
use bench::flights::Given;
use bench::{flights, growth, parts};

fn alone(times: u32, walk: impl Fn()) {
    (0..times).for_each(|_| walk());
}

fn bench(words: &[String]) -> Result<Asked, String> {
    let (word, folder, times) = match words {
        [word, folder] => (word, folder, 25),
        [word, folder, times] => (word, folder, times.parse().map_err(|_| "TIMES: not a number")?),
        _ => return Err("WORD DATA [TIMES]".to_string()),
    };
    let given = Given::read(folder)?;
    let evening = given.evening();
    match word.as_str() {
        "flights" => return flights::table(&given, times),
        "growth" => growth::table(times)?,
        "parts" => return Ok(parts::table(&given, times)),
        "proved" => alone(times, || took(evening.proved())),
        "plain" => alone(times, || took(evening.plain())),
        "rust" => alone(times, || took(evening.reference())),
        "best" => alone(times, || took(evening.best())),
        _ => return Err(format!("{word}: not one of flights, growth, parts, proved, plain, rust, best")),
    }
    Ok(Asked::default())
}

fn main() -> ExitCode {
    let words: Vec<String> = std::env::args().skip(1).collect();
    match bench(&words) {
        Ok(asked) => asked.code(),
        Err(error) => {
            eprintln!("bench: {error}");
            ExitCode::from(2)
        }
    }
}
