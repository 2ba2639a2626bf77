//! Whether a second book holds every entry of a first one: the exported call compared with the reference, on pairs of books from a
//! seed. In each case the number returned and the caller's memory, which is written only with 104.

use belfrywool::{book_holds, calls, Book, Holds, Refusal};
use reference::holds;
use reference::trial::books::{build, long, pieces, sturdy, zeros, Piece};
use reference::trial::chance::Chance;
use reference::trial::damage;
use reference::trial::fuller::{fuller, thinner, ADDED};

/// A value that no call writes.
const UNTOUCHED: u64 = 0x5a5a_5a5a_5a5a_5a5a;

/// How often each answer came: held, missing, refused.
type Tally = [u32; 3];

/// The call on two books, which must give the reference's answer. Returns that answer.
fn compared(first: &[u8], second: &[u8], what: &str, tally: &mut Tally) -> Result<Option<usize>, u64> {
    let expected = holds::missing(first, second);
    let mut written = UNTOUCHED;
    let returned =
        unsafe { calls::belfry_book_holds(first.as_ptr(), first.len(), second.as_ptr(), second.len(), &mut written) };
    let (told, left, own, sort) = match expected {
        Ok(None) => (0, UNTOUCHED, Ok(Holds::Every), 0),
        Ok(Some(i)) => (calls::NOT_HELD, i as u64, Ok(Holds::Missing(i as u64)), 1),
        Err(number) => (number, UNTOUCHED, Err(Refusal::of_number(number).expect("a refusal")), 2),
    };
    assert_eq!((returned, written), (told, left), "{what}");
    assert_eq!(book_holds(Book::unchecked(first), Book::unchecked(second)), own, "{what}");
    tally[sort] += 1;
    expected
}

/// A change of one entry after which it is another one, though the book passes.
type Change = (&'static str, fn(&mut Chance, &mut Piece) -> bool);

const CHANGES: &[Change] = &[
    ("one coefficient bit", |c, p| {
        let k = c.below(p.coefficients.len() as u64) as usize;
        let x = f64::from_bits(p.coefficients[k].to_bits() ^ (1 << c.below(64)));
        p.coefficients[k] = x;
        x.is_finite()
    }),
    ("the first coefficient's last bit", |_, p| { p.coefficients[0] = f64::from_bits(p.coefficients[0].to_bits() ^ 1); true }),
    ("the last coefficient's sign", |_, p| { let x = p.coefficients.last_mut().expect("six at least"); *x = -*x; true }),
    ("a shorter span", |_, p| { p.span -= 1; p.span > 0 }),
    ("a later start", |_, p| { p.start += 1; p.span -= 1; p.span > 0 }),
    ("one coefficient an axis more", |_, p| { let n = p.coefficients.len() + 3; p.coefficients.resize(n, 0.0); n <= 48 }),
    ("one coefficient an axis less", |_, p| { let n = p.coefficients.len() - 3; p.coefficients.truncate(n); n >= 6 }),
];

fn some_book(c: &mut Chance) -> Vec<Piece> {
    match c.below(4) {
        0 => sturdy(c),
        1 => zeros(c),
        _ => loop {
            let list = pieces(c);
            if !list.is_empty() {
                break list;
            }
        },
    }
}

/// A book, the same with more entries, and the same with one entry changed or missing: each in both orders.
#[test]
fn books_with_more_less_and_others() {
    let (mut c, mut tally, mut changes) = (Chance::new(34), [0; 3], 0);
    for round in 0..2500 {
        let first = some_book(&mut c);
        let more = fuller(&mut c, &first, &ADDED);
        let (a, b) = (build(&first), build(&more));
        assert_eq!(compared(&a, &b, &format!("{round}, more"), &mut tally), Ok(None));
        assert_eq!(compared(&a, &a, &format!("{round}, itself"), &mut tally), Ok(None));
        let back = compared(&b, &a, &format!("{round}, less"), &mut tally);
        assert_eq!(matches!(back, Ok(Some(_))), more.len() > first.len(), "{round}");
        compared(&a, &build(&thinner(&mut c, &more)), &format!("{round}, others gone"), &mut tally).ok();

        let gone = c.below(first.len() as u64) as usize;
        let at = more.iter().position(|p| (p.body, p.start) == (first[gone].body, first[gone].start)).expect("it is held");
        let mut without = more.clone();
        without.remove(at);
        assert_eq!(compared(&a, &build(&without), &format!("{round}, one gone"), &mut tally), Ok(Some(gone)));
        let (name, change) = c.pick(CHANGES);
        let mut other = more.clone();
        if change(&mut c, &mut other[at]) {
            changes += 1;
            assert_eq!(compared(&a, &build(&other), &format!("{round}, {name}"), &mut tally), Ok(Some(gone)));
        }
        compared(&a, &build(&some_book(&mut c)), &format!("{round}, another book"), &mut tally).ok();
    }
    assert!(tally[0] > 5000 && tally[1] > 5000 && changes > 1500, "{tally:?}, changes {changes}");
}

/// 0.0 and -0.0 are not the same bits.
#[test]
fn signs_of_zero() {
    let mut tally = [0; 3];
    let of = |x: f64| build(&[Piece { body: 2, start: 0, span: 1000, coefficients: vec![1.0, 2.0, x, 4.0, 5.0, 6.0] }]);
    for (first, second, expected) in [(0.0, 0.0, None), (-0.0, -0.0, None), (0.0, -0.0, Some(0)), (-0.0, 0.0, Some(0))] {
        assert_eq!(compared(&of(first), &of(second), "zeros", &mut tally), Ok(expected));
    }
}

/// Books that do not pass, as the first, as the second and as both; and the longest book.
#[test]
fn damaged_books() {
    let (mut c, mut tally) = (Chance::new(35), [0; 3]);
    for round in 0..60 {
        let whole = sturdy(&mut c);
        let book = build(&whole);
        for (name, change) in damage::all() {
            let damaged = change(&mut c, whole.clone());
            for (first, second) in [(&book, &damaged), (&damaged, &book), (&damaged, &damaged)] {
                compared(first, second, &format!("{round}, {name}"), &mut tally).ok();
            }
        }
    }
    let longest = build(&long(&mut c, 2559));
    assert_eq!(compared(&longest, &longest, "the longest", &mut tally), Ok(None));
    assert_eq!(compared(&longest, &build(&[]), "the longest, none", &mut tally), Ok(Some(0)));
    assert!(tally[2] > 10_000 && tally[0] > 100 && tally[1] > 100, "{tally:?}");
}

/// Only the total is wrong: one more byte at the end, and no byte at all.
#[test]
fn wrong_totals() {
    let (mut c, mut tally) = (Chance::new(36), [0; 3]);
    for round in 0..500 {
        let book = build(&some_book(&mut c));
        let mut other = book.clone();
        let (length, any) = (book.len() as u32, c.next() as u32);
        let total = c.pick(&[0, 8, length - 1, length + 1, any]);
        other[..4].copy_from_slice(&total.to_le_bytes());
        let passes = total as usize == book.len();
        let expected = if passes { Ok(None) } else { Err(1) };
        assert_eq!(compared(&book, &other, &format!("{round}, second"), &mut tally), expected);
        assert_eq!(compared(&other, &book, &format!("{round}, first"), &mut tally), expected);
        assert_eq!(compared(&book, &[], &format!("{round}, none"), &mut tally), Err(1));
    }
}
