//! Measures the reference's walk: `pace INPUT [TIMES]`, where INPUT is a file as strip reads it. One run call walks the journey,
//! TIMES times. Nothing is printed during the walk.

use std::hint::black_box;
use std::process::ExitCode;
use std::time::Instant;

use reference::motion::{of_an_order, run};
use reference::strip::{read_order, ORDER};

fn pace(words: &[String]) -> Result<String, String> {
    let (file, times) = match words {
        [file] => (file, 1),
        [file, times] => (file, times.parse().map_err(|_| "TIMES: not a number")?),
        _ => return Err("INPUT [TIMES]".to_string()),
    };
    let input = std::fs::read(file).map_err(|error| format!("{file}: {error}"))?;
    let o = read_order(&input).ok_or("the input is shorter than an order")?;
    let book = &input[ORDER..];
    let injection = of_an_order(book, &o.setting, &o.state);
    let (mut steps, mut outcome) = (0, None);
    let start = Instant::now();
    for _ in 0..times {
        let ran = run(black_box(book), &o.setting, &injection, o.h, o.target, u32::MAX, [0; 5]);
        steps += ran.steps;
        outcome = Some(ran.outcome);
    }
    let seconds = start.elapsed().as_secs_f64();
    let each = seconds * 1e9 / steps.max(1) as f64;
    Ok(format!("{outcome:?}, {steps} steps in {seconds:.6} s, {each:.0} ns a step"))
}

fn main() -> ExitCode {
    let words: Vec<String> = std::env::args().skip(1).collect();
    match pace(&words) {
        Ok(line) => {
            println!("{line}");
            ExitCode::SUCCESS
        }
        Err(error) => {
            eprintln!("pace: {error}");
            ExitCode::from(2)
        }
    }
}
