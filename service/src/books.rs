//! Books that arrive: each is checked once, by the proved calls.

use std::sync::Arc;

use belfrywool::{book_holds, book_passes, position, repair, Body, Book, Entry, Fate, Holds, Moment, Order, Refusal, MOST_BYTES};

use crate::names::hash;
use crate::say::{self, Saved};
use crate::times::END;

/// A book with its file's name and its hash.
#[derive(Clone, Debug)]
pub struct Named {
    pub name: String,
    pub hash: String,
    pub bytes: Arc<[u8]>,
}

impl Named {
    pub fn new(name: &str, bytes: Vec<u8>) -> Named {
        Named { name: name.to_string(), hash: hash(&bytes), bytes: bytes.into() }
    }
}

/// The verdict on a book.
#[derive(Clone, Debug, PartialEq, Eq)]
pub enum Judgement {
    Taken,
    /// The number for the log, and the notice.
    NotTaken(u64, String),
}

/// Compares a book with the one in use, if there is one.
pub fn judge(book: &Named, used: Option<&Named>) -> Judgement {
    let new = Book::unchecked(&book.bytes);
    if book_passes(new).is_err() {
        return Judgement::NotTaken(1, say::book_refused(&book.name, &saved(&book.bytes)));
    }
    let Some(used) = used else {
        return Judgement::Taken;
    };
    let old = Book::unchecked(&used.bytes);
    match book_holds(old, new) {
        Ok(Holds::Every) => Judgement::Taken,
        Ok(Holds::Missing(number)) => {
            let entry = usize::try_from(number).ok().and_then(|n| old.entries().nth(n));
            let (body, start, end) = entry.map_or((Body(0), 0, 0), |e| (e.body, e.start.0, e.end().0));
            Judgement::NotTaken(0, say::book_lacks(&book.name, body, start, end))
        }
        Err(refusal) => Judgement::NotTaken(refusal.number(), say::book_refused(&book.name, &Err(refusal))),
    }
}

/// What a repair could save of a book that does not pass.
fn saved(bytes: &[u8]) -> Result<Saved, Refusal> {
    let mut output = vec![0; MOST_BYTES];
    let report = repair(bytes, &mut output)?;
    let mut dropped: Vec<(usize, &'static str)> = Vec::new();
    for fate in report.fates.iter().filter(|fate| !matches!(fate, Fate::Kept(_))) {
        match dropped.iter_mut().find(|(_, why)| *why == fate.meaning()) {
            Some((count, _)) => *count += 1,
            None => dropped.push((1, fate.meaning())),
        }
    }
    Ok(Saved { kept: report.kept, dropped })
}

/// The bodies other than the Earth that an order looks up.
pub fn used(order: &Order) -> Vec<Body> {
    let coefficients = &order.setting.coefficients;
    let is_used = |number: u64| coefficients[number as usize - 1] > 0.0 || (number == Body::SUN.0 && order.setting.k > 0.0);
    (2..=6).filter(|number| is_used(*number)).map(Body).collect()
}

/// The first moment from the injection on at which some used body has no record.
pub fn until(book: &[u8], order: &Order) -> u64 {
    let entries: Vec<Entry> = Book::unchecked(book).entries().collect();
    let end_of = |body: Body| {
        let mut at = order.injection.moment.0;
        while let Some(entry) = entries.iter().find(|e| e.body == body && e.start.0 <= at && at < e.end().0) {
            at = entry.end().0;
        }
        at
    };
    used(order).into_iter().map(end_of).min().unwrap_or(END).min(END)
}

/// The first body without a record at the moments that a step looks up, in its order; or at the injection.
pub fn uncovered(book: &[u8], order: &Order, at: Option<u64>) -> Option<(Body, u64)> {
    let h = u64::from(order.h);
    let moments = match at {
        None => vec![order.injection.moment.0],
        Some(t) => vec![t, t.saturating_add(h / 2), t.saturating_add(h)],
    };
    let lacks = |body: Body, moment: u64| position(Book::unchecked(book), body, Moment(moment)) == Err(Refusal::Cover);
    moments.into_iter().find_map(|moment| used(order).into_iter().find(|body| lacks(*body, moment)).map(|body| (body, moment)))
}

#[cfg(test)]
mod tests {
    use super::*;
    use crate::rehearsal::{FIRST, FULLER};
    use crate::times::moment;

    const WHOLE: &[u8] = include_bytes!("../../data/books/book31all.bin");

    fn order() -> Order {
        Order::of_bytes(include_bytes!("../../data/orders/check-case-1.order144")).unwrap()
    }

    #[test]
    fn the_night_of_two_ten() {
        let ends = moment("1963-01-14T02:10:00").unwrap();
        let [first, fuller] = [FIRST, FULLER].map(|bytes| Named::new("x.book", bytes.to_vec()));
        assert_eq!(judge(&first, None), Judgement::Taken);
        assert_eq!(judge(&fuller, Some(&first)), Judgement::Taken);
        assert_eq!(judge(&first, Some(&first)), Judgement::Taken);
        let Judgement::NotTaken(0, notice) = judge(&first, Some(&fuller)) else { panic!() };
        assert_eq!(notice, "x.book was not taken: it does not hold the entry for Moon from 1963-01-14T02:10:00.000 to 1963-01-17T00:00:00.000 of the book in use.");
        assert_eq!(until(&first.bytes, &order()), ends);
        assert!(until(&fuller.bytes, &order()) > order().target.0);
        assert_eq!(uncovered(&first.bytes, &order(), Some(ends - 59_999)), Some((Body::MOON, ends + 1)));
    }

    #[test]
    fn a_cut_book_is_refused_and_told() {
        let cut = Named::new("cut.book", WHOLE[..WHOLE.len() - 1].to_vec());
        let Judgement::NotTaken(1, notice) = judge(&cut, None) else { panic!() };
        assert!(notice.starts_with("cut.book was not taken: refused by 1, the book does not pass. A repair could keep "), "{notice}");
        assert!(notice.contains("1 because its block lies outside the input"), "{notice}");
        let short = Named::new("short.book", vec![1]);
        let Judgement::NotTaken(1, notice) = judge(&short, None) else { panic!() };
        assert!(notice.ends_with("A repair saves nothing: the input or the output has fewer than 8 bytes."), "{notice}");
    }
}
