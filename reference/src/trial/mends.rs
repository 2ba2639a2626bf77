//! Damaged books for repair.

use super::books::{build, entries, pieces, special, sturdy, Piece};
use super::chance::Chance;
use super::damage;
use crate::book::{ENTRY, HEAD, LIMIT};

/// An input for repair; `room` is the optional argument.
#[derive(Clone, Debug)]
pub struct Damaged {
    pub case: String,
    pub input: Vec<u8>,
    pub room: Option<u64>,
}

fn damaged(case: &str, input: Vec<u8>, room: Option<u64>) -> Damaged {
    Damaged { case: case.to_string(), input, room }
}

/// A real book cut at every byte of its head and contents and of the last float of each block, and at every eleventh byte between.
/// Also with rooms up to its length.
pub fn real(book: &[u8]) -> Vec<Damaged> {
    let cut = |n: usize| damaged(&format!("real, cut at {n}"), book[..n].to_vec(), None);
    let roomy = |n: usize| damaged("real", book.to_vec(), Some(n as u64));
    let list = entries(book);
    let ends: Vec<usize> = list.iter().map(|e| e.offset as usize + 24 * e.n as usize).collect();
    let edge = |n: &usize| {
        *n <= HEAD + ENTRY * list.len() || n % 11 == 0 || ends.iter().any(|end| (end - 9..=end + 1).contains(n))
    };
    let step = |n: &usize| n % 24 == 8 || n % 24 == 7 || *n < 16;
    (0..=book.len()).filter(edge).map(cut).chain((0..=book.len() + 8).filter(step).map(roomy)).collect()
}

fn put(book: &mut [u8], at: usize, bytes: &[u8]) {
    if let Some(place) = book.get_mut(at..at + bytes.len()) {
        place.copy_from_slice(bytes);
    }
}

/// Pieces shuffled, doubled, and moved in time so that some overlap.
fn stirred(c: &mut Chance) -> Vec<Piece> {
    let mut list = pieces(c);
    for _ in 0..c.below(4) {
        let mut again = c.pick(&list);
        match c.below(4) {
            0 => {}
            1 => again.start += again.span / 2,
            2 => again.start = again.start.saturating_sub(again.span / 2),
            _ => again.coefficients.truncate(6),
        }
        list.push(again);
    }
    if c.one_in(3) {
        let i = c.below(list.len() as u64) as usize;
        let k = c.below(list[i].coefficients.len() as u64) as usize;
        list[i].coefficients[k] = if c.one_in(2) { c.not_finite() } else { -0.0 };
    }
    c.shuffle(&mut list);
    list
}

/// One field of one entry of the contents overwritten.
fn field(c: &mut Chance, book: &mut [u8]) {
    let count = entries(book).len() as u64;
    let at = HEAD + ENTRY * c.below(count) as usize;
    let length = book.len() as u64;
    match c.below(5) {
        0 => put(book, at, &(c.below(9) as u16).to_le_bytes()),
        1 => put(book, at + 2, &(c.below(19) as u16).to_le_bytes()),
        2 => {
            let any = c.next();
            let offset = c.pick(&[0, 4, 8, 9, length, length - 47, length - 48, length - 49, c.clone().below(length), any]);
            put(book, at + 4, &(offset as u32).to_le_bytes());
        }
        3 => put(book, at + 8, &c.any_length(64).to_le_bytes()),
        _ => put(book, at + 16, &c.any_length(64).to_le_bytes()),
    }
}

/// Total or count overwritten.
fn header(c: &mut Chance, book: &mut [u8]) {
    let count = entries(book).len() as u64;
    let any = c.next();
    let number = c.pick(&[0, 1, count - 1, count + 1, book.len() as u64 + 24, 0xffff_ffff, any]);
    put(book, if c.one_in(2) { 0 } else { 4 }, &(number as u32).to_le_bytes());
}

/// As many entries as its length has room for, each with its block somewhere in the contents. Some are as long as the input can be.
fn crowded(c: &mut Chance) -> Vec<u8> {
    let length = if c.one_in(10) { LIMIT } else { c.between(400, 4_000) as usize };
    let count = (length - HEAD) / ENTRY;
    let mut book = vec![0; length];
    put(&mut book, 0, &(length as u32).to_le_bytes());
    put(&mut book, 4, &(count as u32).to_le_bytes());
    let apart = c.pick(&[1, 3, 7]);
    for i in 0..count {
        let at = HEAD + ENTRY * i;
        let start = match apart {
            1 => c.below(count as u64 * 6 / 5),
            3 => 10 * (count - i) as u64,
            _ => 10 * i as u64,
        };
        put(&mut book, at, &(c.between(2, 6) as u16).to_le_bytes());
        put(&mut book, at + 2, &2u16.to_le_bytes());
        put(&mut book, at + 4, &(8 * c.below(length as u64 / 9) as u32).to_le_bytes());
        put(&mut book, at + 8, &start.to_le_bytes());
        put(&mut book, at + 16, &c.between(1, 12).to_le_bytes());
    }
    book
}

fn room(c: &mut Chance, length: usize) -> Option<u64> {
    match c.below(5) {
        0 => None,
        1 => Some(c.below(17)),
        2 => Some(LIMIT as u64),
        _ => Some(c.below(length as u64 + 30).min(LIMIT as u64)),
    }
}

/// One damaged book, of the sort that its number gives.
fn one(c: &mut Chance, i: usize) -> Damaged {
    let list = stirred(c);
    let mut book = build(&list);
    match i % 8 {
        0 => {}
        1 => field(c, &mut book),
        2 => {
            field(c, &mut book);
            field(c, &mut book);
        }
        3 => header(c, &mut book),
        4 => book.truncate(c.below(book.len() as u64 + 1) as usize),
        5 => book = crowded(c),
        6 => {
            let all: Vec<_> = damage::all().collect();
            let (_, make) = all[i / 8 % all.len()];
            let whole = sturdy(c);
            book = make(c, whole);
        }
        _ => {
            book = build(&pieces(c));
            if c.one_in(4) {
                book = c.clone().pick(&special(c)).1;
            }
        }
    }
    let space = room(c, book.len());
    damaged(["stirred", "field", "fields", "header", "cut", "crowded", "damage", "passing"][i % 8], book, space)
}

pub fn made(c: &mut Chance, n: usize) -> Vec<Damaged> {
    let mut list: Vec<Damaged> = (0..n).map(|i| one(c, i)).collect();
    for length in [0, 1, 7, 8, 9, LIMIT - 1, LIMIT, LIMIT + 1] {
        for space in [None, Some(0), Some(7), Some(8), Some(LIMIT as u64)] {
            list.push(damaged("length", vec![0; length], space));
        }
    }
    list
}
