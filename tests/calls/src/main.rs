//! calls fuzz "NAME.." --seed N --seconds N --least N --found FOLDER [--spoil N]: structured random input; 'N compared, M differ' comes last.
//! calls replay FILE..: cases that were kept. calls corpus FOLDER: inputs for the coverage-guided fuzzer. calls names: the exported calls.

use std::process::ExitCode;

use calls::case::Case;
use calls::fuzz::{fuzz, CALLS};
use calls::guided::corpus;
use reference::trial::drive::Options;

fn kinds(names: &str) -> Result<Vec<&'static str>, String> {
    let mut list = Vec::new();
    for name in names.split_whitespace() {
        let (_, kinds) = CALLS.iter().find(|(known, _)| *known == name).ok_or(format!("{name}: no such call"))?;
        list.extend(kinds.iter().filter(|kind| !list.contains(*kind)).copied().collect::<Vec<_>>());
    }
    Ok(list)
}

fn done(mut words: impl Iterator<Item = String>) -> Result<bool, String> {
    let (compared, differ) = match words.next().as_deref() {
        Some("names") => {
            CALLS.iter().for_each(|(name, _)| println!("{name}"));
            return Ok(true);
        }
        Some("corpus") => return corpus(&words.next().ok_or("corpus: no folder")?).map(|()| true).map_err(|error| error.to_string()),
        Some("fuzz") => {
            let kinds = kinds(&words.next().ok_or("fuzz: no names")?)?;
            let options = Options::read(&["seed", "seconds", "least", "found", "spoil"], words)?;
            let (seconds, found) = (options.number("seconds", 1)? as f64, options.text("found"));
            let tally = fuzz(&kinds, options.number("seed", 1)?, seconds, options.number("least", 0)?, found, options.number("spoil", 0)?);
            (tally.compared, tally.differ)
        }
        Some("replay") => {
            let mut counts = (0, 0);
            for file in words {
                let case = Case::read(&std::fs::read(&file).map_err(|error| format!("{file}: {error}"))?).ok_or(format!("{file}: no case"))?;
                counts.0 += 1;
                if let Some(what) = case.differs() {
                    counts.1 += 1;
                    println!("{file}: {what}");
                }
            }
            counts
        }
        _ => return Err("one of fuzz, replay, corpus, names is needed".to_string()),
    };
    println!("{compared} compared, {differ} differ");
    Ok(differ == 0)
}

fn main() -> ExitCode {
    reference::trial::drive::end("calls", done(std::env::args().skip(1)))
}
