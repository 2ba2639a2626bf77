//! A book with its entries, for which calls are made.

use super::books::entries;
use super::chance::Chance;
use crate::book::Entry;

/// A book, and the entries it has or had before it was damaged.
#[derive(Clone, Debug)]
pub struct World {
    pub name: String,
    pub book: Option<Vec<u8>>,
    pub entries: Vec<Entry>,
    pub weight: usize,
}

impl World {
    pub fn none() -> World {
        World { name: "no book".to_string(), book: None, entries: Vec::new(), weight: 2 }
    }

    pub fn new(name: &str, book: Vec<u8>, weight: usize) -> World {
        let entries = entries(&book);
        World { name: name.to_string(), book: Some(book), entries, weight }
    }

    pub fn bytes(&self) -> &[u8] {
        self.book.as_deref().unwrap_or(&[])
    }
}

/// A sort of call: lines for a world.
pub type Case = (&'static str, fn(&mut Chance, &World) -> Vec<String>);
