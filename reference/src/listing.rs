//! Request R-1 of document 02: the form of a listing, line by line. Written from the request, document 01's form of a listing and
//! the readings in docs/DECISIONS.md.

use crate::hour::END;

/// The kind of a single line.
#[derive(Clone, Copy, Debug)]
pub enum Kind {
    Header,
    /// A moment and the bits of its six components.
    State(u64, [u64; 6]),
    Outcome,
    Lone,
    Other,
}

/// The lines of a text; the last may lack its line feed.
pub fn lines(text: &[u8]) -> Vec<&[u8]> {
    let mut all: Vec<&[u8]> = text.split(|&b| b == b'\n').collect();
    if all.last().is_some_and(|line| line.is_empty()) {
        all.pop();
    }
    all
}

/// A decimal of any length without a leading zero.
fn is_number(word: &[u8]) -> bool {
    !word.is_empty() && word.iter().all(u8::is_ascii_digit) && (word == b"0" || word[0] != b'0')
}

fn moment(word: &[u8]) -> Option<u64> {
    let text = std::str::from_utf8(word).ok().filter(|_| is_number(word))?;
    text.parse().ok().filter(|&t| t < END)
}

fn component(word: &[u8]) -> Option<u64> {
    let lower = |b: &u8| b.is_ascii_digit() || (b'a'..=b'f').contains(b);
    let text = std::str::from_utf8(word).ok().filter(|_| word.len() == 16 && word.iter().all(lower))?;
    let bits = u64::from_str_radix(text, 16).ok()?;
    f64::from_bits(bits).is_finite().then_some(bits)
}

fn state(words: &[&[u8]]) -> Option<Kind> {
    let (first, rest) = words.split_first().filter(|_| words.len() == 7)?;
    let mut bits = [0; 6];
    for (place, word) in bits.iter_mut().zip(rest) {
        *place = component(word)?;
    }
    Some(Kind::State(moment(first)?, bits))
}

fn kind(line: &[u8]) -> Kind {
    let words: Vec<&[u8]> = line.split(|&b| b == b' ').collect();
    match words[..] {
        [b"STRIP", n] if is_number(n) => Kind::Header,
        [b"ARRIVED", n] if is_number(n) => Kind::Outcome,
        [b"REFUSED", n] if is_number(n) => Kind::Lone,
        [b"REFUSED", k, n] if is_number(k) && is_number(n) => Kind::Outcome,
        _ => state(&words).unwrap_or(Kind::Other),
    }
}

/// What may be the next line.
#[derive(Clone, Copy, Debug, Default)]
enum Next {
    #[default]
    Top,
    FirstState,
    After(u64),
    Nothing,
}

/// A listing read line by line from its first.
#[derive(Debug, Default)]
pub struct Form {
    next: Next,
    lines: usize,
}

impl Form {
    /// The next line, if it is of the form in its place; else its number.
    pub fn line(&mut self, line: &[u8]) -> Result<Kind, usize> {
        self.lines += 1;
        let kind = kind(line);
        self.next = match (self.next, kind) {
            (Next::Top, Kind::Header) => Next::FirstState,
            (Next::Top, Kind::Lone) | (Next::After(_), Kind::Outcome) => Next::Nothing,
            (Next::FirstState, Kind::State(t, _)) => Next::After(t),
            (Next::After(last), Kind::State(t, _)) if last < t => Next::After(t),
            _ => return Err(self.lines),
        };
        Ok(kind)
    }

    /// The end of the text: the number of the line that is missing, if one is.
    pub fn end(&self) -> Result<(), usize> {
        match self.next {
            Next::Nothing => Ok(()),
            _ => Err(self.lines + 1),
        }
    }
}
