//! Compares the program table with the reference: the rows on standard output and the refusal on standard error, byte by byte. With
//! --spoil N the Nth answer is spoiled, and no later one is compared. An odd N spoils the rows, an even N the refusal.
//!
//! trial table --seed N --count N --table "WORDS" [--spoil N]


use reference::table::table;
use reference::trial::chance::Chance;
use reference::trial::child::talk_both;
use reference::trial::drive::{count, sorts, Options};
use reference::trial::tables::{edges, long, made, Made};

/// What differs, in words.
fn differs(command: &[String], m: &Made, spoil: Option<u64>) -> Result<Option<&'static str>, String> {
    let (mut rows, mut refused) = table(&m.text);
    match spoil {
        Some(n) if n % 2 == 0 => refused.push(b' '),
        Some(_) => rows[3] ^= 1,
        None => {}
    }
    let (output, errors) = talk_both(command, None, &m.text)?;
    if output != rows {
        return Ok(Some("the rows differ"));
    }
    Ok((errors != refused).then_some("the refusal differs"))
}

/// The refusal by its number.
fn sort(m: &Made) -> String {
    let (_, refused) = table(&m.text);
    match refused.get(..10) {
        Some(words) => String::from_utf8_lossy(words).into_owned(),
        None => "accepted".to_string(),
    }
}

pub fn compare(words: impl Iterator<Item = String>) -> Result<bool, String> {
    let options = Options::read(&["seed", "count", "table", "spoil"], words)?;
    let (command, spoil) = (options.words("table"), options.number("spoil", 0)?);
    let mut c = Chance::new(options.number("seed", 1)?);
    let mut list = edges(&mut c);
    list.extend(long(&mut c));
    list.extend(made(&mut c, options.number("count", 2000)? as usize));
    println!("{}", sorts(&list, sort));
    count(list, spoil, |_, m, spoiled| {
        let what = differs(&command, m, spoiled.then_some(spoil))?;
        Ok(what.map(|what| format!("{}: {what}", m.case)))
    })
}
