//! The folders of `--demo` and `--night`, made anew: JPL's check case 1, and the same on a night when the Moon's record ends at 02:10 and a
//! fuller book arrives at 02:41.

use std::fs;
use std::io;
use std::path::{Path, PathBuf};

use crate::keep::write;
use crate::times::moment;

const TEXT: &[u8] = include_bytes!("../../tools/order/moonshot.txt");
const ORDER: &[u8; 144] = include_bytes!("../../data/orders/check-case-1.order144");
const BOOK: &[u8] = include_bytes!("../../data/books/book31all.bin");
/// The Moon's record ends at 02:10, with none behind it; and the fuller book. examples/night/make writes both.
pub const FIRST: &[u8] = include_bytes!("../../examples/night/first.book");
pub const FULLER: &[u8] = include_bytes!("../../examples/night/fuller.book");

pub const INJECTION: &str = "1963-01-13T18:42:36.297";
pub const EVENING: &str = "1963-01-14T02:09:00";
const ARRIVES: &str = "1963-01-14T02:41:00";

/// A book that is renamed into a flight's folder when the clock reaches a moment.
pub struct Coming {
    at: u64,
    from: PathBuf,
    to: PathBuf,
    done: bool,
}

impl Coming {
    pub fn arrive(&mut self, moment: u64) {
        if !self.done && moment >= self.at {
            self.done = true;
            if let Err(fault) = fs::rename(&self.from, &self.to) {
                eprintln!("onair: {} cannot be renamed into the folder: {fault}", self.from.display());
            }
        }
    }
}

/// Makes the folder of the demonstration.
pub fn demo(night: &Path) -> io::Result<()> {
    write(&night.join("check-case-1/order.txt"), TEXT)?;
    write(&night.join("check-case-1/flight.txt"), b"title JPL check case 1\n")?;
    write(&night.join("check-case-1/books/001.book"), BOOK)
}

/// Makes the folder of the night, and what arrives later.
pub fn night(night: &Path, aside: &Path) -> io::Result<Coming> {
    let at = moment(ARRIVES).expect("a time");
    let mut order = *ORDER;
    order[104..108].copy_from_slice(&1000u32.to_le_bytes());
    let flight = night.join("night-of-0210");
    write(&flight.join("order.bin"), &order)?;
    write(&flight.join("flight.txt"), b"title The night of 02:10\n")?;
    write(&flight.join("books/001.book"), FIRST)?;
    let from = aside.join("002.book");
    write(&from, FULLER)?;
    Ok(Coming { at, from, to: flight.join("books/002.book"), done: false })
}

#[cfg(test)]
mod tests {
    use super::*;
    use belfrywool::{book_passes, position, Body, Book, Moment, Refusal};

    #[test]
    fn the_moon_ends_in_the_first_and_goes_on_in_the_second() {
        let end = moment("1963-01-14T02:10:00").unwrap();
        let at = |book: &[u8], moment: u64| position(Book::unchecked(book), Body::MOON, Moment(moment));
        assert_eq!([FIRST, FULLER].map(|b| book_passes(Book::unchecked(b))), [Ok(()), Ok(())]);
        assert!(at(FIRST, end - 1).is_ok());
        assert_eq!(at(FIRST, end), Err(Refusal::Cover));
        for moment in [end - 1, end, end + 3_600_000, end + 10 * 86_400_000] {
            let (parted, whole) = (at(FULLER, moment).unwrap().position, at(BOOK, moment).unwrap().position);
            let apart = parted.iter().zip(whole).map(|(a, b)| (a - b).abs()).fold(0.0, f64::max);
            assert!(apart < 1e-6, "{apart} km at {moment}");
        }
    }
}
