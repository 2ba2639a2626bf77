//! Moving a state to another centre.

use crate::book::{self, Motion};
use crate::hour::END;
use crate::rule::{centre_allowed, ruled, setting_allowed, Setting, State, EARTH};
use crate::vector::sub;

/// The entry that covers a centre; none for the Earth, which needs no cover; else 6.
pub fn cover(book: &[u8], centre: u64, t: u64) -> Result<Option<usize>, u64> {
    if centre == EARTH {
        return Ok(None);
    }
    book::find(book, centre, t).map(Some).ok_or(6)
}

/// Position and velocity of a covered centre; 7 if they are not finite, because the result is not either.
pub fn stands(book: &[u8], entry: Option<usize>, t: u64) -> Result<Motion, u64> {
    match entry {
        Some(i) => book::motion(book, i, t),
        None => Ok(Motion { place: [0.0; 3], speed: [0.0; 3] }),
    }
}

/// The move call: 1, 4, 14 (the state's centre), 14 (the new one), 3, 7 (state), 6 (either centre), 7 (result), then the rule's own
/// 6 or 7 at the new state. The stored acceleration is not read: it is returned, or computed anew.
pub fn moved(book: &[u8], setting: &Setting, s: &State, new: u64) -> Result<State, u64> {
    book::check(book)?;
    setting_allowed(setting)?;
    centre_allowed(setting, s.centre)?;
    centre_allowed(setting, new)?;
    if s.moment >= END {
        return Err(3);
    }
    s.finite()?;
    if new == s.centre {
        return Ok(*s);
    }
    let entries = (cover(book, new, s.moment)?, cover(book, s.centre, s.moment)?);
    let there = stands(book, entries.0, s.moment)?;
    let here = stands(book, entries.1, s.moment)?;
    let position = sub(s.position, sub(there.place, here.place));
    let velocity = sub(s.velocity, sub(there.speed, here.speed));
    let moved = State::bare(s.moment, new, position, velocity);
    moved.finite()?;
    ruled(book, setting, &moved)
}
