//! Compares the program repair with the reference: the book on standard output and the report on standard error, byte by byte.
//! Every book that was written goes to strip, which must accept it; the same book goes there once. With --spoil N the Nth answer is
//! spoiled, and no later one is compared.
//!
//! trial repair --seed N --count N --real FILE --repair "WORDS" --strip "WORDS" [--spoil N]

use std::collections::BTreeSet;
use std::sync::Mutex;

use reference::repair;
use reference::trial::chance::Chance;
use reference::trial::child::talk_both;
use reference::trial::drive::{count, Options};
use reference::trial::mends::{made, real, Damaged};

/// An order that takes no step: strip prints its header if the book passes, else `REFUSED 1`.
fn order() -> Vec<u8> {
    let mut order = 8f64.to_le_bytes().to_vec();
    order.extend([0; 48]);
    for x in [2f64, 0.0, 0.0, 0.0, 4.0, 0.0] {
        order.extend(x.to_le_bytes());
    }
    order.extend(1000u32.to_le_bytes());
    order.extend([0; 12]);
    order
}

/// How both programs are started, and the books that strip has accepted.
struct Programs {
    repair: Vec<String>,
    strip: Vec<String>,
    taken: Mutex<BTreeSet<Vec<u8>>>,
}

impl Programs {
    /// Whether strip accepts a book.
    fn takes(&self, book: Vec<u8>) -> Result<bool, String> {
        let taken = || self.taken.lock().map_err(|error| error.to_string());
        if self.strip.is_empty() || taken()?.contains(&book) {
            return Ok(true);
        }
        let (listing, _) = talk_both(&self.strip, None, &[&order(), &book[..]].concat())?;
        let takes = listing.starts_with(b"STRIP 1000\n");
        if takes {
            taken()?.insert(book);
        }
        Ok(takes)
    }
}

/// What differs, in words.
fn differs(programs: &Programs, d: &Damaged, spoiled: bool) -> Result<Option<&'static str>, String> {
    let answer = repair::repair(&d.input, d.room.unwrap_or(61_440) as usize);
    let mut book = answer.as_ref().map_or(Vec::new(), |a| a.book.clone());
    if spoiled {
        book.push(0);
    }
    let word = d.room.map(|room| room.to_string());
    let (output, report) = talk_both(&programs.repair, word.as_deref(), &d.input)?;
    if output != book {
        return Ok(Some("the book differs"));
    }
    if report != repair::report(&answer).into_bytes() {
        return Ok(Some("the report differs"));
    }
    Ok((answer.is_ok() && !programs.takes(output)?).then_some("strip does not take the book"))
}

pub fn compare(words: impl Iterator<Item = String>) -> Result<bool, String> {
    let options = Options::read(&["seed", "count", "real", "repair", "strip", "spoil"], words)?;
    let real_book = options.text("real");
    let programs = Programs { repair: options.words("repair"), strip: options.words("strip"), taken: Mutex::default() };
    let mut list = if real_book.is_empty() {
        Vec::new()
    } else {
        real(&std::fs::read(real_book).map_err(|error| format!("{real_book}: {error}"))?)
    };
    list.extend(made(&mut Chance::new(options.number("seed", 1)?), options.number("count", 2000)? as usize));
    count(list, options.number("spoil", 0)?, |_, d, spoiled| {
        let what = differs(&programs, d, spoiled)?;
        Ok(what.map(|what| format!("{}, room {:?}: {what}", d.case, d.room)))
    })
}
