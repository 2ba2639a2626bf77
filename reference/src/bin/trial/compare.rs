//! Compares the program compare with the reference: what it prints for two listings, byte by byte, with nothing on standard error.
//!
//! trial compare --seed N --count N --folder FOLDER --compare "WORDS" [--spoil N]

use std::path::Path;
use std::process::{Command, Stdio};

use reference::parting::report;
use reference::trial::chance::Chance;
use reference::trial::drive::{count, sorts, Options};
use reference::trial::listing_pairs::{edges, long, made, Pair};

/// What differs, in words.
fn differs(command: &[String], folder: &Path, p: &Pair, spoiled: bool) -> Result<Option<&'static str>, String> {
    let (program, words) = command.split_first().ok_or("no program given")?;
    std::fs::create_dir_all(folder).map_err(|error| format!("{}: {error}", folder.display()))?;
    let names = ["first", "second"].map(|name| folder.join(name));
    for (name, text) in names.iter().zip([&p.first, &p.second]) {
        std::fs::write(name, text).map_err(|error| format!("{}: {error}", name.display()))?;
    }
    let mut expected = report(&p.first, &p.second);
    if spoiled {
        expected[0] ^= 1;
    }
    let said = Command::new(program).args(words).args(names).stdin(Stdio::null()).output();
    let said = said.map_err(|error| format!("{program}: {error}"))?;
    if !said.stderr.is_empty() {
        return Ok(Some("something on standard error"));
    }
    Ok((said.stdout != expected).then_some("the report differs"))
}

/// The first word of a report, with the listing of a refusal.
fn sort(p: &Pair) -> String {
    let text = report(&p.first, &p.second);
    let words = String::from_utf8_lossy(&text[..text.len().min(30)]).into_owned();
    let words: Vec<&str> = words.split_whitespace().collect();
    words[..if words[0] == "REFUSED" { 3 } else { 1 }].join(" ")
}

pub fn compare(words: impl Iterator<Item = String>) -> Result<bool, String> {
    let options = Options::read(&["seed", "count", "folder", "compare", "spoil"], words)?;
    let (folder, command, spoil) = (Path::new(options.text("folder")), options.words("compare"), options.number("spoil", 0)?);
    let mut c = Chance::new(options.number("seed", 1)?);
    let mut list = edges(&mut c);
    list.extend(long(&mut c));
    list.extend(made(&mut c, options.number("count", 2000)? as usize));
    println!("{}", sorts(&list, sort));
    count(list, spoil, |thread, p, spoiled| {
        let what = differs(&command, &folder.join(thread.to_string()), p, spoiled)?;
        Ok(what.map(|what| format!("{}: {what}", p.case)))
    })
}
