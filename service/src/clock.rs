//! The desk's clock. It never goes back. By UTC it follows the machine's clock, and stands still while that one is set back.
//! Otherwise it follows the machine's monotonic clock, or is set by hand.

use std::sync::{Mutex, PoisonError};
use std::time::{Duration, Instant};

use crate::times::{utc, SECOND};

/// The kind of clock.
#[derive(Clone, Copy, Debug, PartialEq, Eq)]
pub enum Pace {
    Utc,
    From { moment: u64, speed: u64 },
    Hand { moment: u64 },
}

/// An event of the machine's clock for the log, in milliseconds.
#[derive(Clone, Copy, Debug, PartialEq, Eq)]
pub enum Fault {
    Back(u64),
    Jump(u64),
}

/// A reading of the clock.
#[derive(Clone, Copy, Debug, PartialEq, Eq)]
pub struct Reading {
    /// The machine's UTC itself.
    pub wall: u64,
    /// By UTC: the greatest UTC seen. Otherwise the moment.
    pub desk: u64,
    /// By UTC: how far the machine's clock is behind the greatest seen.
    pub behind: u64,
    /// How many times it has been set by hand.
    pub sets: u64,
}

struct Seen {
    wall: u64,
    at: Duration,
    greatest: u64,
    hand: u64,
    sets: u64,
    faults: Vec<Fault>,
}

pub struct Clock {
    pace: Pace,
    start: Instant,
    seen: Mutex<Seen>,
}

/// The most faults that are kept until they are logged.
const MOST: usize = 100;
/// Both clocks are read within this time.
const SAME: Duration = Duration::from_millis(20);

impl Clock {
    pub fn new(pace: Pace) -> Clock {
        Clock::at(pace, utc())
    }

    fn at(pace: Pace, wall: u64) -> Clock {
        let hand = if let Pace::Hand { moment } = pace { moment } else { 0 };
        let seen = Seen { wall, at: Duration::ZERO, greatest: wall, hand, sets: 0, faults: Vec::new() };
        Clock { pace, start: Instant::now(), seen: Mutex::new(seen) }
    }

    pub fn is_utc(&self) -> bool {
        self.pace == Pace::Utc
    }

    pub fn is_hand(&self) -> bool {
        matches!(self.pace, Pace::Hand { .. })
    }

    pub fn read(&self) -> Reading {
        let mut seen = self.seen();
        // A thread that is delayed between two lines here must not look like a clock that was set.
        loop {
            let (before, wall, after) = (self.start.elapsed(), utc(), self.start.elapsed());
            if after - before < SAME {
                return self.look(&mut seen, wall, after);
            }
        }
    }

    /// What the machine's clock did since the last call.
    pub fn faults(&self) -> Vec<Fault> {
        std::mem::take(&mut self.seen().faults)
    }

    /// Sets a clock that is set by hand; returns whether this is not backwards.
    pub fn set(&self, moment: u64) -> bool {
        let mut seen = self.seen();
        let forward = moment >= seen.hand;
        if forward {
            (seen.hand, seen.sets) = (moment, seen.sets + 1);
        }
        forward
    }

    fn seen(&self) -> std::sync::MutexGuard<'_, Seen> {
        // Each reading sets all parts at once.
        self.seen.lock().unwrap_or_else(PoisonError::into_inner)
    }

    fn look(&self, seen: &mut Seen, wall: u64, at: Duration) -> Reading {
        if at >= seen.at {
            let gone = (at - seen.at).as_millis() as u64;
            let expected = seen.wall + gone;
            let fault = if wall < seen.wall || wall + SECOND < expected {
                Some(Fault::Back(expected.saturating_sub(wall)))
            } else if wall > expected + SECOND {
                Some(Fault::Jump(wall - expected))
            } else {
                None
            };
            if seen.faults.len() < MOST {
                seen.faults.extend(fault);
            }
            (seen.wall, seen.at) = (wall, at);
            seen.greatest = seen.greatest.max(wall);
        }
        let desk = match self.pace {
            Pace::Utc => seen.greatest,
            Pace::From { moment, speed } => moment + (seen.at.as_micros() as u64 * speed) / 1000,
            Pace::Hand { .. } => seen.hand,
        };
        let behind = if self.is_utc() { seen.greatest - seen.wall } else { 0 };
        Reading { wall: seen.wall, desk, behind, sets: seen.sets }
    }
}

#[cfg(test)]
mod tests {
    use super::*;

    const T: u64 = 2_400_000_000_000;

    fn looked(clock: &Clock, wall: u64, at: Duration) -> Reading {
        clock.look(&mut clock.seen(), wall, at)
    }

    fn ms(n: u64) -> Duration {
        Duration::from_millis(n)
    }

    #[test]
    fn by_utc_it_stands_while_the_machine_is_behind() {
        let clock = Clock::at(Pace::Utc, T);
        assert_eq!(looked(&clock, T + 1000, ms(1000)), Reading { wall: T + 1000, desk: T + 1000, behind: 0, sets: 0 });
        assert_eq!(looked(&clock, T - 58_900, ms(1100)), Reading { wall: T - 58_900, desk: T + 1000, behind: 59_900, sets: 0 });
        assert_eq!(clock.faults(), [Fault::Back(60_000)]);
        assert_eq!(looked(&clock, T, ms(60_000)).desk, T + 1000);
        assert_eq!(looked(&clock, T + 1001, ms(61_001)), Reading { wall: T + 1001, desk: T + 1001, behind: 0, sets: 0 });
        assert_eq!(clock.faults(), []);
    }

    #[test]
    fn a_jump_is_more_than_a_second() {
        let clock = Clock::at(Pace::Utc, T);
        looked(&clock, T + 1100, ms(100));
        assert_eq!(clock.faults(), []);
        looked(&clock, T + 3201, ms(200));
        assert_eq!(clock.faults(), [Fault::Jump(2001)]);
    }

    #[test]
    fn at_a_speed_it_does_not_follow_the_machine() {
        let clock = Clock::at(Pace::From { moment: 5_000, speed: 60 }, T);
        assert_eq!(looked(&clock, T - 99_000, ms(1000)), Reading { wall: T - 99_000, desk: 65_000, behind: 0, sets: 0 });
        assert_eq!(clock.faults(), [Fault::Back(100_000)]);
    }

    #[test]
    fn by_hand_it_stands_and_never_goes_back() {
        let clock = Clock::at(Pace::Hand { moment: 5_000 }, T);
        assert_eq!(looked(&clock, T + 9000, ms(9000)).desk, 5_000);
        assert!(clock.set(6_000) && clock.set(6_000) && !clock.set(5_999));
        assert_eq!(looked(&clock, T + 9000, ms(9001)), Reading { wall: T + 9000, desk: 6_000, behind: 0, sets: 2 });
    }
}
