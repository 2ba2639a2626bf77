//! What arrives in a flight's folder: flight.txt, its order, and books.

use super::{Flight, Ordered, NOTICES};
use crate::books::{judge, until, Judgement, Named};
use crate::clock::Reading;
use crate::keep::{keep, Kind};
use crate::lines::Entry;
use crate::orders::About;
use crate::say;
use crate::walk::Walk;

impl Flight {
    pub fn is_ordered(&self) -> bool {
        self.ordered.is_some()
    }

    /// Whether the flight takes books: it has its order, and flight.txt allows it.
    pub fn is_ready(&self) -> bool {
        self.is_ordered() && self.about.is_some()
    }

    /// What flight.txt says. The rule is fixed with the order, and the clock's offset at the start.
    pub fn tell_about(&mut self, about: Result<About, String>) {
        let mut notices = Vec::new();
        match about {
            Ok(about) => {
                let fixed = self.ordered.as_ref().map(|o| o.order.setting.rule.0);
                if fixed.is_some_and(|rule| rule != about.rule) {
                    notices.push(say::RULE_CHANGED.to_string());
                }
                let offset = self.about.as_ref().filter(|_| self.begun).map(|old| old.et_minus_utc_ms);
                if offset.is_some_and(|offset| offset != about.et_minus_utc_ms) {
                    notices.push(say::OFFSET_CHANGED.to_string());
                }
                let offset = offset.unwrap_or(about.et_minus_utc_ms);
                self.about = Some(About { et_minus_utc_ms: offset, ..about });
            }
            Err(notice) => {
                notices.push(notice);
                // A flight that has its order continues; a new one waits for a readable flight.txt.
                if self.is_ordered() && self.about.is_none() {
                    self.about = Some(About::default());
                }
            }
        }
        self.about_notices = notices;
    }

    /// The order in the folder, or why it cannot be read; None if there is no file. The first one is fixed.
    pub fn tell_order(&mut self, order: Option<Result<Vec<u8>, String>>) {
        self.order_notice = None;
        let Some(order) = order else {
            self.order_notice = (!self.is_ordered()).then(|| say::ORDER_MISSING.to_string());
            return;
        };
        let rule = self.about.as_ref().map_or(0, |about| about.rule);
        let made = order.and_then(|bytes| Ordered::new(bytes, rule));
        match (&self.ordered, made) {
            (Some(fixed), made) => {
                let same = made.is_ok_and(|made| made.hash == fixed.hash);
                self.order_notice = (!same).then(|| say::ORDER_CHANGED.to_string());
            }
            (None, Err(notice)) => self.order_notice = Some(say::order_wrong(&notice)),
            (None, Ok(ordered)) if self.past_order.as_ref().is_some_and(|past| *past != ordered.hash) => {
                self.order_notice = Some(say::ORDER_CHANGED.to_string());
            }
            // A flight.txt that cannot be read might name another rule.
            (None, Ok(_)) if self.about.is_none() => {}
            (None, Ok(ordered)) => {
                self.keep(Kind::Order, ordered.bytes.clone());
                self.ordered = Some(ordered);
                if self.log.is_none() {
                    self.open_log();
                }
            }
        }
    }

    pub fn tell_folder(&mut self, notices: Vec<String>) {
        self.folder_notices = notices;
    }

    /// A book that has arrived. Each is checked once.
    pub fn tell_book(&mut self, book: Named, reading: &Reading, utc: bool) {
        let wall = reading.wall;
        self.settle(reading, utc);
        if let Some(before) = self.judged.get(&book.hash) {
            if let Some(number) = before {
                self.note_book(&book.name, say::book_as_logged(&book.name, *number));
            }
            return;
        }
        match judge(&book, self.book.as_ref().map(|(used, _)| used)) {
            Judgement::Taken => {
                self.judged.insert(book.hash.clone(), None);
                self.keep(Kind::Book, book.bytes.to_vec());
                self.write(wall, Entry::Book { hash: book.hash.clone(), name: book.name.clone() });
                self.use_book(book);
            }
            Judgement::NotTaken(number, notice) => {
                self.judged.insert(book.hash.clone(), Some(number));
                self.write(wall, Entry::NotTaken { number, hash: book.hash.clone(), name: book.name.clone() });
                self.note_book(&book.name, notice);
            }
        }
    }

    fn note_book(&mut self, name: &str, notice: String) {
        self.book_notices.retain(|(other, _)| other != name);
        self.book_notices.push_back((name.to_string(), notice));
        if self.book_notices.len() > NOTICES {
            self.book_notices.pop_front();
        }
    }

    pub(super) fn use_book(&mut self, book: Named) {
        self.book_notices.retain(|(other, _)| *other != book.name);
        let Some(ordered) = &self.ordered else {
            return;
        };
        let end = until(&book.bytes, &ordered.order);
        match &mut self.walk {
            Some(walk) => walk.renew(&book.bytes),
            None => self.walk = Some(Walk::new(&ordered.order, &book.bytes)),
        }
        self.book = Some((book, end));
    }

    pub(super) fn keep(&mut self, kind: Kind, bytes: Vec<u8>) {
        self.unkept.push((kind, bytes));
        self.keep_again();
    }

    /// Writes the copies that could not be written yet.
    pub fn keep_again(&mut self) {
        self.unkept_fault = None;
        let (folder, mut fault) = (self.log_folder.clone(), None);
        self.unkept.retain(|(kind, bytes)| match keep(&folder, *kind, bytes) {
            Ok(()) => false,
            Err(e) => {
                fault = Some(say::not_kept(kind.word(), &e.to_string()));
                true
            }
        });
        self.unkept_fault = fault;
    }
}
