//! Compares a program with the reference over inputs from a seed.
//!
//! trial differ --seed N --calls N --strips N --ask "WORDS" --strip "WORDS" --strip144 "WORDS" --books FOLDER
//!        [--kinds root,sincos,..] [--spoil N] [--limit SECONDS] [--cases yes]

use std::path::Path;
use std::time::Duration;

use reference::trial::chance::Chance;
use reference::trial::compare::{Programs, Tally};
use reference::trial::drive::Options;
use reference::trial::plan::{groups, names, strips, strips144};

/// The kinds asked for; all of them without a word.
fn kinds(word: &str) -> Result<Vec<&'static str>, String> {
    let known = |name: &str| names().into_iter().find(|known| *known == name).ok_or(format!("{name}: no such kind"));
    if word.is_empty() { Ok(names()) } else { word.split(',').map(known).collect() }
}

/// The books of a folder, by name.
fn real_books(folder: &Path) -> Result<Vec<(String, Vec<u8>)>, String> {
    if folder.as_os_str().is_empty() {
        return Ok(Vec::new());
    }
    let told = |error| format!("{}: {error}", folder.display());
    let mut books = Vec::new();
    for file in std::fs::read_dir(folder).map_err(told)? {
        let path = file.map_err(told)?.path();
        if path.extension().is_some_and(|end| end == "bin") {
            let name = path.file_name().unwrap_or_default().to_string_lossy().into_owned();
            books.push((name, std::fs::read(&path).map_err(told)?));
        }
    }
    if books.is_empty() {
        return Err(format!("{}: no books", folder.display()));
    }
    books.sort();
    Ok(books)
}

fn all(options: &Options, programs: &Programs) -> Result<Tally, String> {
    let real = real_books(Path::new(options.text("books")))?;
    let mut chance = Chance::new(options.number("seed", 1)?);
    let mut tally = Tally { spoil: options.number("spoil", 0)? as usize, ..Tally::default() };
    let many = options.number("strips", 1000)? as usize;
    if !programs.ask.is_empty() {
        for group in groups(&mut chance, options.number("calls", 40_000)? as usize, &kinds(options.text("kinds"))?, &real) {
            programs.ask_group(&mut tally, &group)?;
        }
    }
    if !programs.strip.is_empty() {
        for strip in strips(&mut chance, many, &real) {
            programs.print_strip(&mut tally, &strip)?;
        }
    }
    if !programs.strip144.is_empty() {
        for strip in strips144(&mut chance, many, &real) {
            programs.print_strip(&mut tally, &strip)?;
        }
    }
    Ok(tally)
}

pub fn compare(words: impl Iterator<Item = String>) -> Result<bool, String> {
    let names = ["seed", "calls", "strips", "ask", "strip", "strip144", "books", "kinds", "spoil", "limit", "cases"];
    let options = Options::read(&names, words)?;
    let folder = std::env::temp_dir().join(format!("differ-{}", std::process::id()));
    std::fs::create_dir_all(&folder).map_err(|e| format!("{}: {e}", folder.display()))?;
    let [ask, strip, strip144] = ["ask", "strip", "strip144"].map(|name| options.words(name));
    let programs = Programs { ask, strip, strip144, folder, limit: Duration::from_secs(options.number("limit", 300)?) };
    let tally = all(&options, &programs);
    // Inputs that differ stay in the folder.
    if tally.as_ref().is_ok_and(|t| t.differ == 0) {
        let _ = std::fs::remove_dir_all(&programs.folder);
    }
    let tally = tally?;
    let counts = &tally.counts;
    counts.kind_lines().iter().for_each(|line| println!("{line}"));
    if options.text("cases") == "yes" {
        counts.case_lines().iter().for_each(|line| println!("{line}"));
    }
    counts.end_lines().iter().for_each(|line| println!("{line}"));
    println!("{} compared, {} differ", tally.compared, tally.differ);
    Ok(tally.differ == 0 && tally.compared > 0)
}
