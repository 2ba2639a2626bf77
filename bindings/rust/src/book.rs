//! Ephemeris books: borrowed bytes, their check, and the position of a body.

use crate::calls;
use crate::refusal::{answer, refused};
use crate::{Body, Moment, Motion, Refusal};

/// The bytes of an ephemeris book. Every call that takes a book checks it again; one that does not pass is refusal 1. `checked` only
/// reports it earlier.
#[derive(Clone, Copy, Debug, PartialEq, Eq)]
pub struct Book<'a> {
    bytes: &'a [u8],
}

/// An entry of the contents of a book, as it is written there.
#[derive(Clone, Copy, Debug, PartialEq, Eq)]
pub struct Entry {
    pub body: Body,
    /// How many coefficients an axis has.
    pub count: u16,
    /// The offset of its block from the first byte of the book.
    pub offset: u32,
    pub start: Moment,
    /// Milliseconds.
    pub span: u64,
}

impl Entry {
    /// The first moment that it does not cover.
    ///
    /// ```
    /// use belfrywool::{Body, Entry, Moment};
    ///
    /// let entry = Entry { body: Body::MOON, count: 3, offset: 32, start: Moment(1000), span: 2000 };
    /// assert_eq!(entry.end(), Moment(3000));
    /// ```
    pub fn end(&self) -> Moment {
        self.start.plus(self.span)
    }
}

const HEAD: usize = 8;
const ENTRY: usize = 24;

impl<'a> Book<'a> {
    /// The book without entries. It passes.
    pub const EMPTY: Book<'static> = Book { bytes: &[8, 0, 0, 0, 0, 0, 0, 0] };

    /// A book that passes. Refusals: 1.
    ///
    /// ```
    /// use belfrywool::{Book, Refusal};
    ///
    /// assert!(Book::checked(&[8, 0, 0, 0, 0, 0, 0, 0]).is_ok());
    /// assert_eq!(Book::checked(&[9, 0, 0, 0, 0, 0, 0, 0]), Err(Refusal::Book));
    /// ```
    pub fn checked(bytes: &'a [u8]) -> Result<Book<'a>, Refusal> {
        let book = Book { bytes };
        book_passes(book).map(|()| book)
    }

    /// Any bytes. Calls refuse them with 1 if they do not pass.
    ///
    /// ```
    /// use belfrywool::{position, Body, Book, Moment, Refusal};
    ///
    /// assert_eq!(position(Book::unchecked(&[]), Body::MOON, Moment(0)), Err(Refusal::Book));
    /// ```
    pub fn unchecked(bytes: &'a [u8]) -> Book<'a> {
        Book { bytes }
    }

    /// Its bytes.
    ///
    /// ```
    /// assert_eq!(belfrywool::Book::EMPTY.bytes(), [8, 0, 0, 0, 0, 0, 0, 0]);
    /// ```
    pub fn bytes(&self) -> &'a [u8] {
        self.bytes
    }

    fn at<const N: usize>(&self, place: usize) -> Option<[u8; N]> {
        self.bytes.get(place..)?.first_chunk().copied()
    }

    /// The entries of the contents, as many as the book states and has room for. They are not checked: `book_passes` does that.
    ///
    /// ```
    /// assert_eq!(belfrywool::Book::EMPTY.entries().count(), 0);
    /// ```
    pub fn entries(&self) -> impl Iterator<Item = Entry> + 'a {
        let book = *self;
        let count = book.at(4).map_or(0, u32::from_le_bytes);
        (0..count as usize).map_while(move |i| book.entry(i))
    }

    fn entry(&self, i: usize) -> Option<Entry> {
        let place = HEAD + ENTRY * i;
        Some(Entry {
            span: u64::from_le_bytes(self.at(place + 16)?),
            start: Moment(u64::from_le_bytes(self.at(place + 8)?)),
            offset: u32::from_le_bytes(self.at(place + 4)?),
            count: u16::from_le_bytes(self.at(place + 2)?),
            body: Body(u16::from_le_bytes(self.at(place)?).into()),
        })
    }
}

/// Whether a book passes. Refusals: 1.
///
/// ```
/// use belfrywool::{book_passes, Book};
///
/// assert_eq!(book_passes(Book::EMPTY), Ok(()));
/// ```
pub fn book_passes(book: Book) -> Result<(), Refusal> {
    answer(unsafe { calls::belfry_book_passes(book.bytes.as_ptr(), book.bytes.len()) }, ())
}

/// The position of a body, seen from the Earth, and its velocity. Refusals: 1, 3, 6, 7.
///
/// ```
/// use belfrywool::{position, Body, Book, Moment, Refusal};
///
/// assert_eq!(position(Book::EMPTY, Body::MOON, Moment(0)), Err(Refusal::Cover));
/// ```
pub fn position(book: Book, body: Body, moment: Moment) -> Result<Motion, Refusal> {
    let mut motion = [0.0; 6];
    let number =
        unsafe { calls::belfry_position(book.bytes.as_ptr(), book.bytes.len(), body.0, moment.0, &mut motion) };
    answer(number, Motion::of_six(motion))
}

/// Whether a second book holds every entry of a first one.
#[derive(Clone, Copy, Debug, PartialEq, Eq)]
pub enum Holds {
    Every,
    /// The first entry of the first book that the second does not hold, counted from 0.
    Missing(u64),
}

/// Whether the second book holds every entry of the first with the same coefficients. Then every run that arrives with the first
/// arrives with the second, with the same bits. Refusals: 1, if one of the books does not pass.
///
/// ```
/// use belfrywool::{book_holds, Book, Holds, Refusal};
///
/// assert_eq!(book_holds(Book::EMPTY, Book::EMPTY), Ok(Holds::Every));
/// assert_eq!(book_holds(Book::EMPTY, Book::unchecked(&[])), Err(Refusal::Book));
/// ```
pub fn book_holds(first: Book, second: Book) -> Result<Holds, Refusal> {
    let ([first, second], mut missing) = ([first.bytes, second.bytes], 0);
    let number = unsafe {
        calls::belfry_book_holds(first.as_ptr(), first.len(), second.as_ptr(), second.len(), &mut missing)
    };
    match number {
        0 => Ok(Holds::Every),
        calls::NOT_HELD => Ok(Holds::Missing(missing)),
        number => Err(refused(number)),
    }
}
