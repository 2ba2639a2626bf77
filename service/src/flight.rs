//! One flight: its order and book in use, its walk, its log, and what is published about it. `arrivals` handles what comes from its
//! folder.

mod arrivals;

use std::collections::{HashMap, VecDeque};
use std::path::{Path, PathBuf};
use std::sync::Arc;
use std::time::{Duration, Instant};

use belfrywool::{Dut, Order, Rule};

use crate::books::Named;
use crate::clock::{Fault, Reading};
use crate::frame::{json, Told};
use crate::keep::{kept, Kind};
use crate::lines::Entry;
use crate::log::{Flush, Log, Past};
use crate::names::hash;
use crate::orders::About;
use crate::path::Point;
use crate::say;
use crate::show::{show, Shown, Word};
use crate::times::{MINUTE, SECOND};
use crate::walk::Walk;

/// An order that is fixed, with its rule.
struct Ordered {
    order: Order,
    bytes: Vec<u8>,
    hash: String,
}

impl Ordered {
    fn new(bytes: Vec<u8>, rule: u64) -> Result<Ordered, String> {
        let mut order = Order::of_bytes(&bytes).ok_or_else(|| say::order_length(bytes.len() as u64))?;
        order.setting.rule = Rule(rule);
        Ok(Ordered { order, hash: hash(&bytes), bytes })
    }
}

/// The frame for everyone who asks at that time.
pub struct Published {
    pub json: Arc<str>,
    pub word: &'static str,
    pub late_ms: u64,
    /// Whether `/health` reports no problem with it.
    pub healthy: bool,
    pub made: Instant,
}

/// A notice about a book appears this long before the book's end.
const AHEAD: u64 = 30 * MINUTE;
/// The most notices about books that are kept.
const NOTICES: usize = 20;
/// A notice about a jump of the machine's clock is shown this long.
const JUMP: Duration = Duration::from_secs(60);

pub struct Flight {
    name: String,
    log_folder: PathBuf,
    about: Option<About>,
    ordered: Option<Ordered>,
    book: Option<(Named, u64)>,
    walk: Option<Walk>,
    log: Option<Log>,
    log_fault: Option<String>,
    /// Lines while there was no log at all.
    unlogged: u64,
    begun: bool,
    /// The order that the log names.
    past_order: Option<String>,
    moment: u64,
    /// How far the moment is ahead of the clock, because the log has a later one.
    ahead: u64,
    judged: HashMap<String, Option<u64>>,
    unkept: Vec<(Kind, Vec<u8>)>,
    unkept_fault: Option<String>,
    /// What the last logged frame was: its second, how many times the clock had been set by hand, and its kind.
    logged: Option<(u64, u64, (&'static str, u64, Option<String>))>,
    jump: Option<(Instant, u64)>,
    /// Notices about the order, the folder, the log's past, and books.
    about_notices: Vec<String>,
    order_notice: Option<String>,
    folder_notices: Vec<String>,
    past_notices: Vec<String>,
    book_notices: VecDeque<(String, String)>,
}

impl Flight {
    /// A flight of that name, continued from its log.
    pub fn new(name: &str, log_folder: &Path) -> Flight {
        let mut flight = Flight {
            name: name.to_string(),
            log_folder: log_folder.to_path_buf(),
            about: None,
            ordered: None,
            book: None,
            walk: None,
            log: None,
            log_fault: None,
            unlogged: 0,
            begun: false,
            past_order: None,
            moment: 0,
            ahead: 0,
            judged: HashMap::new(),
            unkept: Vec::new(),
            unkept_fault: None,
            logged: None,
            jump: None,
            about_notices: Vec::new(),
            order_notice: None,
            folder_notices: Vec::new(),
            past_notices: Vec::new(),
            book_notices: VecDeque::new(),
        };
        if flight.log_path().exists() {
            flight.open_log();
        }
        flight
    }

    fn log_path(&self) -> PathBuf {
        self.log_folder.join(format!("{}.log", self.name))
    }

    /// Opens the log, and continues from what it says. If it cannot be opened, the next look tries again.
    pub fn open_log(&mut self) {
        match Log::open(&self.log_path()) {
            Ok((log, past)) => {
                (self.log, self.log_fault) = (Some(log), None);
                self.restore(past);
            }
            Err(fault) => self.log_fault = Some(fault.to_string()),
        }
    }

    fn restore(&mut self, past: Past) {
        self.moment = self.moment.max(past.moment);
        if past.torn > 0 {
            self.past_notices.push(say::log_torn(past.torn));
        }
        self.past_notices.extend(past.broken.map(say::log_broken));
        // A log that was opened late: the flight keeps what it has by now.
        if self.ordered.is_some() {
            return;
        }
        self.judged = past.judged;
        if let Some((order, rule)) = past.order {
            let bytes = kept(&self.log_folder, Kind::Order, &order);
            match bytes.and_then(|bytes| Ordered::new(bytes, rule).ok()) {
                Some(ordered) => self.ordered = Some(ordered),
                None => self.past_notices.push(say::order_lost(&order)),
            }
            self.past_order = Some(order);
        }
        if let Some((book, name)) = past.book {
            match kept(&self.log_folder, Kind::Book, &book) {
                Some(bytes) => self.use_book(Named::new(&name, bytes)),
                None => {
                    self.past_notices.push(say::book_lost(&book));
                    self.judged.remove(&book);
                }
            }
        }
    }

    // ---- the log

    fn write(&mut self, wall: u64, entry: Entry) {
        match &mut self.log {
            Some(log) => log.write(wall, self.moment, entry),
            None => self.unlogged += 1,
        }
    }

    pub fn flusher(&self) -> Option<Arc<Flush>> {
        self.log.as_ref().map(Log::flusher)
    }

    /// Handles a log that could not be opened, or that was removed.
    pub fn mend_log(&mut self, wall: u64) {
        if self.is_ordered() && self.log.is_none() {
            self.open_log();
            self.begun = self.log.is_none();
        }
        if self.log.as_ref().is_some_and(Log::is_gone) && self.log.as_mut().is_some_and(|log| log.again().is_ok()) {
            self.past_notices = vec![say::LOG_GONE.to_string()];
            let kept: Vec<(Kind, Vec<u8>)> = self.ordered.iter().map(|o| (Kind::Order, o.bytes.clone())).collect();
            self.unkept.extend(kept);
            self.unkept.extend(self.book.iter().map(|(book, _)| (Kind::Book, book.bytes.to_vec())).collect::<Vec<_>>());
            self.keep_again();
            self.begin(wall, true);
        }
    }

    /// The first lines of this start; with order and book if the log does not have them.
    fn begin(&mut self, wall: u64, anew: bool) {
        (self.begun, self.logged) = (true, None);
        let missing = std::mem::take(&mut self.unlogged);
        self.write(wall, Entry::Start(env!("CARGO_PKG_VERSION").to_string()));
        if missing > 0 {
            self.write(wall, Entry::Gap(missing));
        }
        if anew || missing > 0 || self.past_order.is_none() {
            let order = self.ordered.as_ref().map(|o| Entry::Order { hash: o.hash.clone(), rule: o.order.setting.rule.0 });
            self.past_order = self.ordered.as_ref().map(|o| o.hash.clone());
            let book = self.book.as_ref().map(|(book, _)| Entry::Book { hash: book.hash.clone(), name: book.name.clone() });
            [order, book].into_iter().flatten().for_each(|entry| self.write(wall, entry));
        }
    }

    /// Sets the flight to the clock's moment, and begins its log.
    fn settle(&mut self, reading: &Reading, utc: bool) {
        let clock = self.clock_at(reading, utc);
        self.ahead = self.moment.saturating_sub(clock);
        self.moment = self.moment.max(clock);
        if !self.begun {
            self.begin(reading.wall, false);
        }
    }

    pub fn tell_clock(&mut self, fault: Fault, wall: u64) {
        if let Fault::Jump(ms) = fault {
            self.jump = Some((Instant::now(), ms));
        }
        if self.begun {
            let entry = match fault {
                Fault::Back(ms) => Entry::ClockBack(ms),
                Fault::Jump(ms) => Entry::ClockJump(ms),
            };
            self.write(wall, entry);
        }
    }

    pub fn stop(&mut self, wall: u64) {
        if self.begun {
            self.write(wall, Entry::Stop);
        }
    }

    // ---- frames

    /// The clock's moment for this flight, before the log is considered.
    fn clock_at(&self, reading: &Reading, utc: bool) -> u64 {
        let Dut(dut) = self.ordered.as_ref().map_or(Dut(0), |o| o.order.setting.dut);
        let offset = self.about.as_ref().and_then(|about| about.et_minus_utc_ms).unwrap_or(u64::from(dut));
        if utc {
            reading.desk + offset
        } else {
            reading.desk
        }
    }

    /// Brings the flight to the clock's moment if time allows, logs what is due, and publishes the frame. Returns whether the
    /// flight is at that moment.
    pub fn tick(&mut self, reading: &Reading, utc: bool, until: Instant) -> (Published, bool) {
        if !self.is_ready() {
            return (self.publish(&Shown::empty(say::NO_ORDER), reading), true);
        }
        self.settle(reading, utc);
        let there = self.walk.as_mut().map_or(true, |walk| walk.advance(self.moment, until));
        let Some(Ordered { order, .. }) = &self.ordered else { unreachable!("it was there") };
        let book = self.book.as_ref().map(|(book, _)| book);
        let mut shown = show(order, book, self.walk.as_ref(), self.moment);
        if !there {
            shown.reason = self.walk.as_ref().map_or(String::new(), |walk| say::waits(walk.at()));
            return (self.publish(&shown, reading), false);
        }
        // A clock set by hand gets one line each time it is set, whoever ticks first.
        let (second, kind) = (self.moment / SECOND, shown.kind(book));
        let is_old = |(last, sets, old): &(u64, u64, _)| second <= *last && reading.sets == *sets && kind == *old;
        if !self.logged.as_ref().is_some_and(is_old) {
            let entry = shown.entry(book);
            self.write(reading.wall, entry);
            self.logged = Some((second, reading.sets, kind));
        }
        (self.publish(&shown, reading), true)
    }

    fn publish(&self, shown: &Shown, reading: &Reading) -> Published {
        let notices = self.notices(reading);
        let order = self.ordered.as_ref().filter(|_| self.about.is_some()).map(|o| &o.order);
        let told = Told {
            flight: &self.name,
            title: self.about.as_ref().and_then(|about| about.title.as_deref()).unwrap_or(&self.name),
            at: order.map(|order| (self.moment, order)),
            shown,
            book: self.book.as_ref().map(|(book, until)| (book, *until)),
            notices: &notices,
        };
        let current = matches!(shown.word, Word::Current(_));
        let due = order.is_some_and(|o| (o.injection.moment.0..=o.target.0).contains(&self.moment));
        Published {
            json: json(&told).into(),
            word: shown.word.text(),
            late_ms: if let Word::Late(ms) = shown.word { ms } else { 0 },
            healthy: order.is_some() && self.book.is_some() && (current || !due),
            made: Instant::now(),
        }
    }

    fn notices(&self, reading: &Reading) -> Vec<String> {
        let mut all = Vec::new();
        if reading.behind > 0 {
            all.push(say::clock_back(reading.behind));
        } else if self.ahead > SECOND {
            all.push(say::clock_before_log(self.ahead));
        }
        all.extend(self.jump.filter(|(at, _)| at.elapsed() < JUMP).map(|(_, ms)| say::clock_jump(ms)));
        all.extend(self.log_fault.as_ref().map(|fault| say::log_fault(fault, 0)));
        all.extend(self.log.as_ref().and_then(Log::fault).map(|(fault, lost)| say::log_fault(fault, lost)));
        all.extend(self.unkept_fault.clone());
        all.extend(self.about_notices.iter().cloned());
        all.extend(self.order_notice.clone());
        all.extend(self.folder_notices.iter().cloned());
        if let (Some((_, end)), Some(ordered)) = (&self.book, &self.ordered) {
            if ordered.order.target.0 >= *end && self.moment + AHEAD >= *end {
                all.push(say::book_ends(*end));
            }
        }
        all.extend(self.book_notices.iter().map(|(_, notice)| notice.clone()));
        all.extend(self.past_notices.iter().cloned());
        all
    }

    // ---- what the web asks for besides frames

    pub fn points(&self, from: usize) -> &[Point] {
        self.walk.as_ref().map_or(&[], |walk| walk.path.points(from, self.moment))
    }

    pub fn book(&self) -> Option<Arc<[u8]>> {
        self.book.as_ref().map(|(book, _)| Arc::clone(&book.bytes))
    }
}
