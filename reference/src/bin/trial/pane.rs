//! Compares the program pane with the reference: every line of sessions made from a seed, byte by byte. With --spoil N the Nth
//! expected answer is spoiled, and no later session is compared.
//!
//! trial pane --seed N --count N --real BOOK --pane "WORDS" [--spoil N]

use std::time::Duration;

use reference::trial::chance::Chance;
use reference::trial::child::{by_line, talk};
use reference::trial::compare::short;
use reference::trial::drive::{on_threads, sorts, told, Options};
use reference::trial::panes::{sessions, Session};

const LIMIT: Duration = Duration::from_secs(300);

/// A session with the expected answers.
type Asked = (Session, Vec<Vec<u8>>);

/// The answers of the program that differ, in words; and how it ended.
fn differing(command: &[String], (session, expected): &Asked) -> Result<(Vec<Option<String>>, String), String> {
    let most = 1000 * expected.len() as u64 + 100_000;
    let said = talk(command, None, &session.input(), most, LIMIT)?;
    let got = by_line(&said.output, expected.len());
    let one = |(i, wanted): (usize, &Vec<u8>)| {
        let got = got.get(i).map_or(&b"nothing"[..], |answer| answer);
        let what = || format!("{}, line {}: {}", session.case, i + 1, short(&session.lines[i]));
        (got != wanted).then(|| format!("{}\n  expected {}\n  got      {}", what(), short(wanted), short(got)))
    };
    Ok((expected.iter().enumerate().map(one).collect(), said.ended))
}

/// Spoils the Nth answer, and leaves out the sessions after it.
fn spoil(list: &mut Vec<Asked>, mut n: usize) {
    for i in 0..list.len() {
        let answers = &mut list[i].1;
        if let Some(answer) = answers.get_mut(n.wrapping_sub(1)) {
            answer.insert(0, b'x');
            list.truncate(i + 1);
            return;
        }
        n = n.saturating_sub(answers.len());
    }
}

/// The first word, with the number of a refusal.
fn sort(answer: &Vec<u8>) -> String {
    let text = String::from_utf8_lossy(answer);
    let words: Vec<&str> = text.split_whitespace().collect();
    words[..if words[0] == "REFUSED" { 2 } else { 1 }].join(" ")
}

pub fn compare(words: impl Iterator<Item = String>) -> Result<bool, String> {
    let options = Options::read(&["seed", "count", "real", "pane", "spoil"], words)?;
    let (file, command) = (options.text("real"), options.words("pane"));
    let book = if file.is_empty() { Vec::new() } else { std::fs::read(file).map_err(|error| format!("{file}: {error}"))? };
    let real = if file.is_empty() { Vec::new() } else { vec![("the real book".to_string(), book)] };
    let mut c = Chance::new(options.number("seed", 1)?);
    let made = sessions(&mut c, options.number("count", 400)? as usize, &real);
    let mut list: Vec<Asked> = made.into_iter().map(|s| (s.clone(), s.answers())).collect();
    println!("{}", sorts(&list.iter().flat_map(|(_, answers)| answers.clone()).collect::<Vec<_>>(), sort));
    match options.number("spoil", 0)? as usize {
        0 => {}
        n => spoil(&mut list, n),
    }
    let said = on_threads(&list, |_, _, asked| differing(&command, asked))?;
    println!("{} sessions: {}", said.len(), sorts(&said, |(_, ended)| ended.clone()));
    Ok(told(&said.into_iter().flat_map(|(lines, _)| lines).collect::<Vec<_>>()))
}
