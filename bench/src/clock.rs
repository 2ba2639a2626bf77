//! Processor time. On a machine that does other work it is steadier than time by the clock.

use std::hint::black_box;
use std::time::{Duration, Instant};

#[repr(C)]
struct Time {
    seconds: i64,
    parts: i64,
}

/// The result of getrusage on 64-bit Linux: user time, system time, and fourteen numbers that are not used here.
#[repr(C)]
struct Used {
    user: Time,
    system: Time,
    rest: [i64; 14],
}

const THREAD: i32 = 3;
const CHILDREN: i32 = -1;

extern "C" {
    fn clock_gettime(clock: i32, time: &mut Time) -> i32;
    fn getrusage(who: i32, used: &mut Used) -> i32;
}

/// Processor time of this thread so far, in nanoseconds.
fn thread() -> f64 {
    let mut time = Time { seconds: 0, parts: 0 };
    assert_eq!(unsafe { clock_gettime(THREAD, &mut time) }, 0);
    time.seconds as f64 * 1e9 + time.parts as f64
}

/// Processor time of all ended programs that this one started, in milliseconds.
pub fn children() -> f64 {
    let none = || Time { seconds: 0, parts: 0 };
    let mut used = Used { user: none(), system: none(), rest: [0; 14] };
    assert_eq!(unsafe { getrusage(CHILDREN, &mut used) }, 0);
    [used.user, used.system].iter().map(|time| time.seconds as f64 * 1e3 + time.parts as f64 / 1e3).sum()
}

/// A least time that falls by less than this part has not changed.
const SAME: f64 = 0.01;
/// For this long, too, no least time has changed at the end.
const CALM: Duration = Duration::from_secs(3);

/// Rounds until the least times no longer change: a number of them in a row, or until the seconds are over. Other users of a processor
/// can slow it down for a while.
pub struct Rounds {
    times: u32,
    longest: Duration,
    start: Instant,
    changed: Instant,
    calm: u32,
}

impl Rounds {
    pub fn new(times: u32, seconds: u64) -> Rounds {
        let now = Instant::now();
        Rounds { times, longest: Duration::from_secs(seconds), start: now, changed: now, calm: 0 }
    }

    /// Takes a new time into a least one.
    pub fn take(&mut self, least: &mut f64, new: f64) {
        if new < *least * (1.0 - SAME) {
            (self.changed, self.calm) = (Instant::now(), 0);
        }
        *least = least.min(new);
    }

    /// At the end of a round: whether there is another one.
    pub fn go_on(&mut self) -> bool {
        self.calm += 1;
        (self.calm <= self.times || self.changed.elapsed() < CALM) && self.start.elapsed() < self.longest
    }
}

/// What is timed.
pub type Turn<'a> = Box<dyn FnMut() + 'a>;

/// The least nanoseconds of each. All rows run in every round, each of them in turn: if the machine is slow for a while, that is a part
/// of every row's rounds and not all rounds of one row.
pub fn least<const N: usize>(mut rounds: Rounds, rows: &mut [[Turn<'_>; N]]) -> Vec<[f64; N]> {
    let mut best = vec![[f64::INFINITY; N]; rows.len()];
    loop {
        for (best, row) in best.iter_mut().zip(rows.iter_mut()) {
            for (best, turn) in best.iter_mut().zip(row) {
                let start = thread();
                turn();
                rounds.take(best, thread() - start);
            }
        }
        if !rounds.go_on() {
            return best;
        }
    }
}

/// Uses a value, so that the compiler keeps its computation.
pub fn took<T>(value: T) {
    let _ = black_box(value);
}
