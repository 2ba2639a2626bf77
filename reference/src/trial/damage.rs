//! Books with one condition of the check broken.

use super::books::{build, long, Piece};
use super::chance::Chance;
use crate::book::{ENTRY, HEAD};
use crate::hour::END;

/// From the pieces of a sturdy book to the bytes of a damaged one.
pub type Damage = (&'static str, fn(&mut Chance, Vec<Piece>) -> Vec<u8>);

pub fn put(book: &mut [u8], at: usize, bytes: &[u8]) {
    if let Some(place) = book.get_mut(at..at + bytes.len()) {
        place.copy_from_slice(bytes);
    }
}

/// The bytes with a u32 put at a place.
pub fn with_u32(p: &[Piece], at: usize, value: u32) -> Vec<u8> {
    let mut book = build(p);
    put(&mut book, at, &value.to_le_bytes());
    book
}

/// One piece of the six, changed.
pub fn changed(c: &mut Chance, mut p: Vec<Piece>, change: fn(&mut Piece)) -> Vec<u8> {
    let i = c.below(p.len() as u64) as usize;
    change(&mut p[i]);
    build(&p)
}

/// Cut to a length; the stated total stays or is made to fit.
pub fn cut(p: &[Piece], length: usize, fit: bool) -> Vec<u8> {
    let mut book = build(p);
    book.truncate(length);
    if fit {
        put(&mut book, 0, &(length as u32).to_le_bytes());
    }
    book
}

/// Bytes after the last block; the stated total stays or is made to fit.
pub fn extra(p: &[Piece], more: usize, fit: bool) -> Vec<u8> {
    let mut book = build(p);
    book.resize(book.len() + more, 0);
    if fit {
        let total = book.len() as u32;
        put(&mut book, 0, &total.to_le_bytes());
    }
    book
}

/// The offset of one entry moved.
pub fn offset_moved(c: &mut Chance, p: &[Piece]) -> Vec<u8> {
    let i = c.below(p.len() as u64) as usize;
    let book = build(p);
    let offset = crate::book::entry(&book, i).map_or(0, |e| e.offset);
    let by = c.pick(&[1, 4, 8, 24, 1 << 8, 1 << 16, 1 << 31, u32::MAX, u32::MAX - 7, offset.wrapping_neg()]);
    with_u32(p, HEAD + ENTRY * i + 4, offset.wrapping_add(by))
}

/// Two blocks of the same size exchanged.
pub fn offsets_swapped(p: &[Piece]) -> Vec<u8> {
    let mut p = p.to_vec();
    p[1].coefficients = p[0].coefficients.clone();
    let book = build(&p);
    let places = [0, 1].map(|i| crate::book::entry(&book, i).map_or(0, |e| e.offset));
    let mut book = with_u32(&p, HEAD + 4, places[1]);
    put(&mut book, HEAD + ENTRY + 4, &places[0].to_le_bytes());
    book
}

/// Eight bytes between the contents and the blocks, or between two blocks.
pub fn gap(c: &mut Chance, p: &[Piece]) -> Vec<u8> {
    let first = c.below(p.len() as u64) as usize;
    let mut book = build(p);
    let list = super::books::entries(&book);
    let at = list[first].offset as usize;
    for (i, e) in list.iter().enumerate().skip(first) {
        put(&mut book, HEAD + ENTRY * i + 4, &(e.offset + 8).to_le_bytes());
    }
    let tail = book.split_off(at);
    book.extend([0; 8]);
    book.extend(tail);
    let total = book.len() as u32;
    put(&mut book, 0, &total.to_le_bytes());
    book
}

/// A coefficient put at the first (0), the last (1) or another place of the book.
pub fn coefficient(c: &mut Chance, p: &[Piece], place: u64, x: f64) -> Vec<u8> {
    let mut book = build(p);
    let from = HEAD + ENTRY * p.len();
    let count = (book.len() - from) / 8;
    let k = match place {
        0 => 0,
        1 => count - 1,
        _ => 1 + c.below(count as u64 - 2) as usize,
    };
    put(&mut book, from + 8 * k, &x.to_le_bytes());
    book
}

pub fn flipped(c: &mut Chance, p: &[Piece], before: usize) -> Vec<u8> {
    let mut book = build(p);
    let at = c.below(before.min(book.len()) as u64) as usize;
    book[at] ^= 1 << c.below(8);
    book
}

pub const CUTS: &[Damage] = &[
    ("no bytes", |_, _| Vec::new()),
    ("4 bytes", |_, p| cut(&p, 4, false)),
    ("7 bytes", |_, p| cut(&p, 7, true)),
    ("head alone", |_, p| cut(&p, 8, false)),
    ("head alone, total fit", |_, p| cut(&p, 8, true)),
    ("last byte cut", |_, p| { let l = build(&p).len(); cut(&p, l - 1, false) }),
    ("last byte cut, total fit", |_, p| { let l = build(&p).len(); cut(&p, l - 1, true) }),
    ("last float cut, total fit", |_, p| { let l = build(&p).len(); cut(&p, l - 8, true) }),
    ("cut in the contents", |_, p| cut(&p, 50, true)),
    ("cut anywhere", |c, p| { let l = c.below(build(&p).len() as u64); cut(&p, l as usize, false) }),
    ("cut anywhere, total fit", |c, p| { let l = c.below(build(&p).len() as u64); cut(&p, l as usize, true) }),
    ("a byte more", |_, p| extra(&p, 1, false)),
    ("a byte more, total fit", |_, p| extra(&p, 1, true)),
    ("24 bytes more, total fit", |_, p| extra(&p, 24, true)),
    ("above the limit", |c, _| build(&long(c, 2560))),
    ("above the limit, a byte more", |c, _| extra(&long(c, 2559), 17, false)),
    ("far above the limit", |c, _| build(&long(c, 8000))),
];

pub const COUNTS: &[Damage] = &[
    ("total 0", |_, p| with_u32(&p, 0, 0)),
    ("total greatest", |_, p| with_u32(&p, 0, u32::MAX)),
    ("total one less", |_, p| { let l = build(&p).len() as u32; with_u32(&p, 0, l - 1) }),
    ("total one more", |_, p| { let l = build(&p).len() as u32; with_u32(&p, 0, l + 1) }),
    ("count 0", |_, p| with_u32(&p, 4, 0)),
    ("count one less", |_, p| with_u32(&p, 4, p.len() as u32 - 1)),
    ("count one more", |_, p| with_u32(&p, 4, p.len() as u32 + 1)),
    ("count greatest", |_, p| with_u32(&p, 4, u32::MAX)),
    ("count whose contents wrap", |_, p| with_u32(&p, 4, 0x0aaa_aaab)),
    ("count whose contents wrap to the same", |_, p| with_u32(&p, 4, p.len() as u32 + 0x2000_0000)),
    ("offset moved", |c, p| offset_moved(c, &p)),
    ("offset moved", |c, p| offset_moved(c, &p)),
    ("offset moved", |c, p| offset_moved(c, &p)),
    ("offset 0", |_, p| with_u32(&p, HEAD + 4, 0)),
    ("offset greatest", |_, p| with_u32(&p, HEAD + 4, u32::MAX)),
    ("offsets swapped", |_, p| offsets_swapped(&p)),
    ("gap of eight bytes", |c, p| gap(c, &p)),
];

pub const ENTRIES: &[Damage] = &[
    ("body 0", |_, mut p| { p[0].body = 0; build(&p) }),
    ("body 1", |_, mut p| { p[0].body = 1; build(&p) }),
    ("body 7", |_, mut p| { p[5].body = 7; build(&p) }),
    ("body 256 more", |_, mut p| { p[5].body += 256; build(&p) }),
    ("body greatest", |_, mut p| { p[5].body = u16::MAX; build(&p) }),
    ("n 0", |c, p| changed(c, p, |e| e.coefficients.clear())),
    ("n 1", |c, p| changed(c, p, |e| e.coefficients.truncate(3))),
    ("n 17", |c, p| changed(c, p, |e| e.coefficients.resize(51, 1.0))),
    ("n 258", |c, p| changed(c, p, |e| e.coefficients.resize(774, 1.0))),
    ("n one more", |_, p| { let n = p[5].n() + 1; let mut b = build(&p); put(&mut b, HEAD + 5 * ENTRY + 2, &n.to_le_bytes()); b }),
    ("n greatest", |_, p| { let mut b = build(&p); put(&mut b, HEAD + 5 * ENTRY + 2, &[255, 255]); b }),
    ("span 0", |c, p| changed(c, p, |e| e.span = 0)),
    ("span greatest", |_, mut p| { p[5].span = u64::MAX; build(&p) }),
    ("start greatest, sum wraps", |_, mut p| { p[5].start = u64::MAX; p[5].span = 2; build(&p) }),
    ("span wraps to an early end", |_, mut p| { p[5].span = 5u64.wrapping_sub(p[5].start); build(&p) }),
    ("end one past the last", |_, mut p| { p[5].span = END - p[5].start + 1; build(&p) }),
    ("start at the end of time", |_, mut p| { p[5].start = END; p[5].span = 1; build(&p) }),
    ("overlap by one", |_, mut p| { p[0].span += 1; build(&p) }),
    ("overlap over all", |_, mut p| { p[0].span = 1_000_000; build(&p) }),
    ("same start", |_, mut p| { p[1].start = p[0].start; build(&p) }),
    ("starts descend", |_, mut p| { p.swap(0, 1); build(&p) }),
    ("bodies descend", |_, mut p| { p.swap(2, 3); build(&p) }),
    ("a body comes again", |_, mut p| { p[5].body = 2; build(&p) }),
    ("an entry twice", |_, mut p| { let e = p[3].clone(); p.insert(3, e); build(&p) }),
    ("first coefficient NaN", |c, p| coefficient(c, &p, 0, f64::NAN)),
    ("first coefficient infinite", |c, p| coefficient(c, &p, 0, f64::INFINITY)),
    ("first coefficient -infinite", |c, p| coefficient(c, &p, 0, f64::NEG_INFINITY)),
    ("last coefficient NaN", |c, p| coefficient(c, &p, 1, -f64::NAN)),
    ("last coefficient infinite", |c, p| coefficient(c, &p, 1, f64::INFINITY)),
    ("last coefficient -infinite", |c, p| coefficient(c, &p, 1, f64::NEG_INFINITY)),
    ("middle coefficient NaN", |c, p| coefficient(c, &p, 2, f64::NAN)),
    ("middle coefficient infinite", |c, p| coefficient(c, &p, 2, f64::INFINITY)),
    ("middle coefficient -infinite", |c, p| coefficient(c, &p, 2, f64::NEG_INFINITY)),
    ("middle coefficient not finite", |c, p| { let x = c.not_finite(); coefficient(c, &p, 2, x) }),
    ("bit flipped in the head", |c, p| flipped(c, &p, 8)),
    ("bit flipped in the contents", |c, p| flipped(c, &p, 152)),
    ("bit flipped in the contents", |c, p| flipped(c, &p, 152)),
    ("bit flipped anywhere", |c, p| flipped(c, &p, usize::MAX)),
    ("bit flipped anywhere", |c, p| flipped(c, &p, usize::MAX)),
    // These pass: the check must not be too strict.
    ("as it was", |_, p| build(&p)),
    ("end at the last", |_, mut p| { p[5].span = END - p[5].start; build(&p) }),
    ("one body left", |_, mut p| { p.truncate(3); build(&p) }),
];

pub fn all() -> impl Iterator<Item = &'static Damage> {
    CUTS.iter().chain(COUNTS).chain(ENTRIES)
}
