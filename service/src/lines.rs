//! The lines of the as-run log: WALL MOMENT, what happened, CHAIN.

use sha2::{Digest, Sha256};

use crate::names::{is_book, is_hash, is_hex};
use crate::times::text;

/// The chain before the first line.
pub const FIRST: &str = "0000000000000000";

/// What happened.
#[derive(Clone, Debug, PartialEq, Eq)]
pub enum Entry {
    Start(String),
    Order { hash: String, rule: u64 },
    Book { hash: String, name: String },
    NotTaken { number: u64, hash: String, name: String },
    Current { bits: [u64; 6], texts: [String; 4], book: String },
    Late { ms: u64, number: u64, book: String },
    Empty { number: u64, book: String },
    Refused { number: u64, book: String },
    ClockBack(u64),
    ClockJump(u64),
    Gap(u64),
    Stop,
}

impl Entry {
    /// The words between MOMENT and CHAIN.
    pub fn words(&self) -> String {
        match self {
            Entry::Start(version) => format!("START {version}"),
            Entry::Order { hash, rule } => format!("ORDER {hash} {rule}"),
            Entry::Book { hash, name } => format!("BOOK {hash} {name}"),
            Entry::NotTaken { number, hash, name } => format!("NOT-TAKEN {number} {hash} {name}"),
            Entry::Current { bits, texts, book } => {
                let bits: Vec<String> = bits.iter().map(|b| format!("{b:016x}")).collect();
                format!("CURRENT {} {} {book}", bits.join(" "), texts.join(" "))
            }
            Entry::Late { ms, number, book } => format!("LATE {ms} {number} {book}"),
            Entry::Empty { number, book } => format!("EMPTY {number} {book}"),
            Entry::Refused { number, book } => format!("REFUSED {number} {book}"),
            Entry::ClockBack(ms) => format!("CLOCK-BACK {ms}"),
            Entry::ClockJump(ms) => format!("CLOCK-JUMP {ms}"),
            Entry::Gap(lines) => format!("GAP {lines}"),
            Entry::Stop => "STOP".to_string(),
        }
    }

    fn of(words: &[&str]) -> Option<Entry> {
        let book = |text: &str| (text == "-" || is_hash(text)).then(|| text.to_string());
        let hash = |text: &str| is_hash(text).then(|| text.to_string());
        let name = |text: &str| is_book(text).then(|| text.to_string());
        Some(match words {
            ["START", version] => Entry::Start(version.to_string()),
            ["ORDER", h, rule] => Entry::Order { hash: hash(h)?, rule: number(rule)? },
            ["BOOK", h, n] => Entry::Book { hash: hash(h)?, name: name(n)? },
            ["NOT-TAKEN", k, h, n] => Entry::NotTaken { number: number(k)?, hash: hash(h)?, name: name(n)? },
            ["CURRENT", rest @ ..] if rest.len() == 11 => {
                let mut bits = [0; 6];
                for (bits, text) in bits.iter_mut().zip(rest) {
                    *bits = u64::from_str_radix(Some(text).filter(|t| t.len() == 16 && is_hex(t))?, 16).ok()?;
                }
                let texts = std::array::from_fn(|i| rest[6 + i].to_string());
                Entry::Current { bits, texts, book: book(rest[10])? }
            }
            ["LATE", ms, k, b] => Entry::Late { ms: number(ms)?, number: number(k)?, book: book(b)? },
            ["EMPTY", k, b] => Entry::Empty { number: number(k)?, book: book(b)? },
            ["REFUSED", k, b] => Entry::Refused { number: number(k)?, book: book(b)? },
            ["CLOCK-BACK", ms] => Entry::ClockBack(number(ms)?),
            ["CLOCK-JUMP", ms] => Entry::ClockJump(number(ms)?),
            ["GAP", lines] => Entry::Gap(number(lines)?),
            ["STOP"] => Entry::Stop,
            _ => return None,
        })
    }
}

/// A whole number as the log writes it: digits, without leading zeros.
fn number(text: &str) -> Option<u64> {
    text.parse().ok().filter(|n: &u64| n.to_string() == text)
}

/// A line that was read.
#[derive(Clone, Debug, PartialEq, Eq)]
pub struct Line {
    pub moment: u64,
    pub entry: Entry,
    pub chain: String,
}

/// The chain of a line: the hash of the chain before it, a space, and the line without its own chain.
pub fn chain(before: &str, body: &str) -> String {
    let sum = Sha256::digest(format!("{before} {body}").as_bytes());
    sum[..8].iter().map(|b| format!("{b:02x}")).collect()
}

/// A line before its chain.
pub fn body(wall: u64, moment: u64, entry: &Entry) -> String {
    format!("{}Z {moment} {}", text(wall), entry.words())
}

/// Reads a line, and checks that it follows from the chain before it.
pub fn read(text: &str, before: &str) -> Result<Line, &'static str> {
    let line = form(text).ok_or("not a line of the log")?;
    let body = &text[..text.len() - line.chain.len() - 1];
    if chain(before, body) != line.chain {
        return Err("its chain does not follow from the lines before it");
    }
    Ok(line)
}

/// Reads a line by its form only.
pub fn form(text: &str) -> Option<Line> {
    let words: Vec<&str> = text.split(' ').collect();
    let [wall, moment, middle @ .., chain] = words.as_slice() else {
        return None;
    };
    let wall = wall.strip_suffix('Z')?;
    crate::times::moment(wall).filter(|_| wall.len() == 23)?;
    if chain.len() != 16 || !is_hex(chain) {
        return None;
    }
    Some(Line { moment: number(moment)?, entry: Entry::of(middle)?, chain: chain.to_string() })
}

#[cfg(test)]
mod tests {
    use super::*;

    const H: &str = "e3b0c44298fc1c149afbf4c8996fb92427ae41e4649b934ca495991b7852b855";

    fn all() -> Vec<Entry> {
        let (h, texts) = (H.to_string(), ["1.000", "2.000000", "-3.0000", "4.0000"].map(str::to_string));
        vec![
            Entry::Start("0.2.0".into()),
            Entry::Order { hash: h.clone(), rule: 1 },
            Entry::Book { hash: h.clone(), name: "001.book".into() },
            Entry::NotTaken { number: 0, hash: h.clone(), name: "2.book".into() },
            Entry::Current { bits: [0, 1, 2, 3, 4, u64::MAX], texts, book: h.clone() },
            Entry::Late { ms: 703, number: 6, book: h.clone() },
            Entry::Empty { number: 0, book: "-".into() },
            Entry::Refused { number: 7, book: h },
            Entry::ClockBack(60_000),
            Entry::ClockJump(2_000),
            Entry::Gap(17),
            Entry::Stop,
        ]
    }

    #[test]
    fn every_line_reads_back() {
        let (mut before, wall) = (FIRST.to_string(), 2_426_000_000_123);
        for (i, entry) in all().into_iter().enumerate() {
            let body = body(wall, i as u64, &entry);
            let sum = chain(&before, &body);
            let line = format!("{body} {sum}");
            assert_eq!(read(&line, &before), Ok(Line { moment: i as u64, entry, chain: sum.clone() }), "{line}");
            assert!(read(&line, "1111111111111111").is_err());
            before = sum;
        }
    }

    #[test]
    fn the_chain_is_the_documents() {
        // printf '0000000000000000 a b' | sha256sum | cut -c 1-16
        assert_eq!(chain(FIRST, "a b"), "409a2d00ca0f0d80");
    }

    #[test]
    fn every_edit_is_seen() {
        let body = body(2_426_000_000_123, 5, &all()[4]);
        let line = format!("{body} {}", chain(FIRST, &body));
        for i in 0..line.len() {
            let mut edited = line.clone().into_bytes();
            edited[i] ^= 1;
            assert!(String::from_utf8(edited).map_or(true, |text| read(&text, FIRST).is_err()), "{i}");
        }
    }

    #[test]
    fn other_lines_are_none() {
        for text in ["", "a", "2026-11-16T02:09:30.000Z 05 STOP 0000000000000000", "2026-11-16T02:09:30Z 5 STOP 0000000000000000"] {
            assert_eq!(form(text), None, "{text}");
        }
    }
}
