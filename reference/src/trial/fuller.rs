//! Pairs of books that pass. The second holds every entry of the first. Records are added before, after and between the entries of
//! a body, and for a body that has none.

use super::books::{build, coefficients, entries, pieces, special, window, Piece};
use super::chance::Chance;
use super::world::World;
use crate::book::{float_at, ENTRY, LIMIT};
use crate::hour::END;

/// The place of an added record relative to the entries of the first book.
#[derive(Clone, Copy, Debug, PartialEq, Eq, PartialOrd, Ord)]
pub enum Added {
    Before,
    Behind,
    Between,
    OtherBody,
}

pub const ADDED: [Added; 4] = [Added::Before, Added::Behind, Added::Between, Added::OtherBody];

/// Two books, and what the second has in addition.
#[derive(Clone, Debug)]
pub struct Pair {
    pub name: String,
    pub first: World,
    pub second: World,
    pub added: Vec<Added>,
}

/// The pieces of a book that passes.
pub fn taken_apart(book: &[u8]) -> Vec<Piece> {
    let floats = |at: usize, n: u16| (0..3 * usize::from(n)).map_while(|k| float_at(book, at + 8 * k)).collect();
    let piece = |e: &crate::book::Entry| Piece { body: e.body, start: e.start, span: e.span, coefficients: floats(e.offset as usize, e.n) };
    entries(book).iter().map(piece).collect()
}

/// Same body, start, span, count and bits of the coefficients.
pub fn same(a: &Piece, b: &Piece) -> bool {
    let bits = |p: &Piece| p.coefficients.iter().map(|x| x.to_bits()).collect::<Vec<_>>();
    (a.body, a.start, a.span) == (b.body, b.start, b.span) && bits(a) == bits(b)
}

pub fn holds_all(second: &[Piece], first: &[Piece]) -> bool {
    first.iter().all(|a| second.iter().any(|b| same(a, b)))
}

fn end(p: &Piece) -> u64 {
    p.start + p.span
}

/// The place of a span of a body relative to the entries of the first book; it overlaps none of them.
fn sort(first: &[Piece], body: u16, start: u64) -> Added {
    let own = || first.iter().filter(|p| p.body == body);
    match (own().any(|p| p.start < start), own().any(|p| p.start > start)) {
        (false, false) => Added::OtherBody,
        (false, true) => Added::Before,
        (true, false) => Added::Behind,
        (true, true) => Added::Between,
    }
}

/// What the second has in addition, sort by sort.
pub fn added(first: &[Piece], second: &[Piece]) -> Vec<Added> {
    let more = second.iter().filter(|b| !first.iter().any(|a| same(a, b)));
    more.map(|b| sort(first, b.body, b.start)).collect()
}

/// The times of a body without an entry, each with its end.
fn rooms(list: &[Piece], body: u16) -> Vec<(u64, u64)> {
    let mut from = 0;
    let mut rooms = Vec::new();
    for p in list.iter().filter(|p| p.body == body) {
        rooms.push((from, p.start));
        from = end(p);
    }
    rooms.push((from, END));
    rooms.retain(|(from, to)| from < to);
    rooms
}

/// The time of a book: from the start of its first entry to the end of its last.
fn about(c: &mut Chance, list: &[Piece]) -> (u64, u64) {
    match (list.iter().map(|p| p.start).min(), list.iter().map(end).max()) {
        (Some(first), Some(last)) => (first, last),
        _ => {
            let (first, width) = window(c);
            (first, first + width)
        }
    }
}

/// A span in a free interval: all of it, at its front, at its end, or anywhere within.
fn span(c: &mut Chance, (from, to): (u64, u64)) -> (u64, u64) {
    let room = to - from;
    let length = match c.below(4) {
        0 => room,
        1 => c.between(1, room.min(40)),
        _ => c.between(1, room),
    };
    let start = match c.below(5) {
        0 | 1 => from,
        2 | 3 => to - length,
        _ => from + c.below(room - length + 1),
    };
    (start, length)
}

/// Adds one record of one sort, if there is room in time and in the book; mostly near the time of the book. Returns whether there
/// was room.
fn add(c: &mut Chance, first: &[Piece], list: &mut Vec<Piece>, sort_of: Added) -> bool {
    let (from, to) = about(c, list);
    let reach = if c.one_in(8) { END } else { ((to - from) / c.pick(&[1, 2, 8])).max(12) };
    let near = |(a, b): (u64, u64)| (a.max(from.saturating_sub(reach)), b.min(to.saturating_add(reach)));
    let of = |body| rooms(list, body).into_iter().map(near).filter(|(a, b)| a < b).map(move |room| (body, room));
    let rooms: Vec<(u16, (u64, u64))> = (2..=6).flat_map(of).filter(|&(body, room)| sort(first, body, room.0) == sort_of).collect();
    let n = c.between(2, 16) as u16;
    if rooms.is_empty() || build(list).len() + ENTRY * (usize::from(n) + 1) > LIMIT {
        return false;
    }
    let (body, room) = c.pick(&rooms);
    let (start, span) = span(c, room);
    let coefficients = coefficients(c, n, 20);
    let at = list.partition_point(|p| (p.body, p.start) < (body, start));
    list.insert(at, Piece { body, start, span, coefficients });
    true
}

/// A book with some more records, sometimes many, of these sorts if there is room for them.
pub fn fuller(c: &mut Chance, first: &[Piece], sorts: &[Added]) -> Vec<Piece> {
    let mut list = first.to_vec();
    let wish = if c.one_in(4) { c.between(10, 60) } else { c.between(1, 9) };
    for _ in 0..wish {
        let sort = c.pick(sorts);
        add(c, first, &mut list, sort);
    }
    for &sort in sorts {
        if list.len() == first.len() {
            add(c, first, &mut list, sort);
        }
    }
    list
}

/// A book with fewer records: some missing, all of a body, or all but one.
pub fn thinner(c: &mut Chance, whole: &[Piece]) -> Vec<Piece> {
    let mut list = whole.to_vec();
    let gone = c.between(2, 6) as u16;
    match c.below(3) {
        0 => list.retain(|p| p.body != gone),
        1 => list.retain(|_| !c.one_in(3)),
        _ => {}
    }
    while list.len() == whole.len() || (list.len() > 1 && c.one_in(2)) {
        list.remove(c.below(list.len() as u64) as usize);
    }
    list
}

fn pair(name: &str, first: &[Piece], second: &[Piece]) -> Pair {
    let world = |which: &str, list: &[Piece]| World::new(&format!("{name}, {which}"), build(list), 1);
    Pair { name: name.to_string(), first: world("first", first), second: world("second", second), added: added(first, second) }
}

/// Real books with more records and with fewer, special ones with more records if they have room, and a number of random ones.
/// Every sixth random one has fewer records, and every fourth of the others has more records of one sort.
pub fn pairs(c: &mut Chance, n: usize, real: &[(String, Vec<u8>)]) -> Vec<Pair> {
    let mut list = Vec::new();
    for (name, book) in real {
        let whole = taken_apart(book);
        for _ in 0..2 {
            list.push(pair(&format!("{name}, more"), &whole, &fuller(c, &whole, &ADDED)));
            list.push(pair(&format!("{name}, less"), &thinner(c, &whole), &whole));
        }
    }
    for (name, book) in special(c) {
        let first = taken_apart(&book);
        list.push(pair(name, &first, &fuller(c, &first, &ADDED)));
    }
    for i in 0..n {
        let book = pieces(c);
        let one = [ADDED[i / 4 % 4]];
        list.push(match i % 6 {
            0 if !book.is_empty() => pair(&format!("random {i}, less"), &thinner(c, &book), &book),
            _ if i % 4 == 1 => pair(&format!("random {i}, {:?}", one[0]), &book, &fuller(c, &book, &one)),
            _ => pair(&format!("random {i}"), &book, &fuller(c, &book, &ADDED)),
        });
    }
    list.retain(|p| !p.added.is_empty());
    list
}
