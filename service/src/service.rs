//! The service: its flights, and the threads that look at the folder, tick the flights and flush the logs.

use std::collections::BTreeMap;
use std::panic::{catch_unwind, AssertUnwindSafe};
use std::path::PathBuf;
use std::sync::atomic::{AtomicBool, AtomicU64, AtomicUsize, Ordering};
use std::sync::{Arc, Mutex, MutexGuard, PoisonError, RwLock};
use std::thread;
use std::time::{Duration, Instant};

use crate::books::Named;
use crate::clock::Clock;
use crate::flight::{Flight, Published};
use crate::folder::{flights, Content, Looker, News, OrderFile};
use crate::log::Flush;
use crate::orders::{about, Maker};
use crate::rehearsal::Coming;
use crate::times::utc;

/// The least time between two looks at a file.
const APART: Duration = Duration::from_millis(200);
/// At the start the folder is read before the address is printed, unless that takes longer than this.
const FIRST: Duration = Duration::from_secs(4);
/// The times between ticks, looks and flushes.
const TICK: Duration = Duration::from_millis(50);
const LOOK: Duration = Duration::from_millis(250);
const FLUSH: Duration = Duration::from_millis(400);
/// A frame serves everyone who asks within this time.
const SHARED: Duration = Duration::from_millis(10);
/// The part of a tick that one flight may use to catch up, and that all of them may use together.
const SLICE: Duration = Duration::from_millis(10);
const SLICES: Duration = Duration::from_millis(40);
/// An older frame is not given as an answer.
const STALE: Duration = Duration::from_secs(1);

pub struct Handle {
    pub name: String,
    flight: Mutex<Flight>,
    published: Mutex<Arc<Published>>,
    flush: Mutex<Option<Arc<Flush>>>,
    pub sent: AtomicU64,
    pub requests: AtomicU64,
}

pub struct Service {
    pub clock: Clock,
    pub night: PathBuf,
    pub log_folder: PathBuf,
    pub start: Instant,
    pub requests: AtomicU64,
    maker: Maker,
    /// Ticks so far.
    turn: AtomicUsize,
    /// Orders that are being made.
    making: AtomicUsize,
    /// Held while the clock is being set by hand.
    setting: Mutex<()>,
    flights: RwLock<BTreeMap<String, Arc<Handle>>>,
    stopping: AtomicBool,
}

/// A thread that panicked while it held a lock left whole values behind; the others continue.
fn held<T>(mutex: &Mutex<T>) -> MutexGuard<'_, T> {
    mutex.lock().unwrap_or_else(PoisonError::into_inner)
}

impl Handle {
    pub fn flight(&self) -> MutexGuard<'_, Flight> {
        held(&self.flight)
    }

    fn tick(&self, flight: &mut Flight, service: &Service, until: Instant) -> bool {
        let (published, there) = flight.tick(&service.clock.read(), service.clock.is_utc(), until);
        *held(&self.published) = Arc::new(published);
        *held(&self.flush) = flight.flusher();
        there
    }

    /// The current frame; None if there has been no new one for a while.
    pub fn now(&self, service: &Service) -> Option<Arc<Published>> {
        let last = Arc::clone(&held(&self.published));
        if last.made.elapsed() < SHARED {
            return Some(last);
        }
        // The thread that holds the flight makes a frame.
        if let Ok(mut flight) = self.flight.try_lock() {
            self.tick(&mut flight, service, Instant::now() + SHARED);
        }
        let last = Arc::clone(&held(&self.published));
        (last.made.elapsed() < STALE).then_some(last)
    }
}

impl Service {
    pub fn new(clock: Clock, night: PathBuf, log_folder: PathBuf, maker: Maker) -> Service {
        Service {
            clock,
            night,
            log_folder,
            start: Instant::now(),
            requests: AtomicU64::new(0),
            maker,
            turn: AtomicUsize::new(0),
            making: AtomicUsize::new(0),
            setting: Mutex::new(()),
            flights: RwLock::new(BTreeMap::new()),
            stopping: AtomicBool::new(false),
        }
    }

    pub fn is_stopping(&self) -> bool {
        self.stopping.load(Ordering::Acquire)
    }

    pub fn flight(&self, name: &str) -> Option<Arc<Handle>> {
        self.flights.read().unwrap_or_else(PoisonError::into_inner).get(name).cloned()
    }

    pub fn all(&self) -> Vec<Arc<Handle>> {
        self.flights.read().unwrap_or_else(PoisonError::into_inner).values().cloned().collect()
    }

    // ---- the folder

    /// Adds flights that are new in the folder.
    fn meet(&self, told: &mut Vec<String>) {
        let Ok((names, bad)) = flights(&self.night) else {
            return;
        };
        for name in bad.into_iter().filter(|name| !told.contains(name)).collect::<Vec<_>>() {
            eprintln!("onair: the folder {name:?} is not a flight's: a name has 1 to 32 of a-z 0-9 -, and is none of log, health, metrics, clock, now");
            told.push(name);
        }
        for name in names.into_iter().filter(|name| self.flight(name).is_none()).collect::<Vec<_>>() {
            let mut flight = Flight::new(&name, &self.log_folder);
            let (published, _) = flight.tick(&self.clock.read(), self.clock.is_utc(), Instant::now());
            let handle = Handle {
                name: name.clone(),
                flight: Mutex::new(flight),
                published: Mutex::new(Arc::new(published)),
                flush: Mutex::new(None),
                sent: AtomicU64::new(0),
                requests: AtomicU64::new(0),
            };
            self.flights.write().unwrap_or_else(PoisonError::into_inner).insert(name, Arc::new(handle));
        }
    }

    /// Gives a flight what is new in its folder.
    fn tell(self: &Arc<Self>, handle: &Arc<Handle>, news: News, looker: &mut Looker) {
        let folder = self.night.join(&handle.name);
        if let Some(content) = news.about {
            let read = match content {
                Content::Missing => about(b""),
                Content::Bytes(bytes) => about(&bytes),
                Content::Not(why) => Err(why),
            };
            handle.flight().tell_about(read);
            // The order may have waited for this.
            if news.order.is_none() {
                looker.again(&folder);
            }
        }
        match news.order {
            None => {}
            Some(OrderFile::Missing) => handle.flight().tell_order(None),
            Some(OrderFile::Not(why)) => handle.flight().tell_order(Some(Err(why))),
            Some(OrderFile::Made(bytes)) => handle.flight().tell_order(Some(Ok(bytes))),
            Some(OrderFile::Text(text)) => {
                let (handle, service) = (Arc::clone(handle), Arc::clone(self));
                self.making.fetch_add(1, Ordering::AcqRel);
                // Making an order takes a while, and the other flights need not wait.
                thread::spawn(move || {
                    let made = service.maker.make(&text);
                    handle.flight().tell_order(Some(made));
                    service.making.fetch_sub(1, Ordering::AcqRel);
                });
            }
        }
        for (name, bytes) in news.books {
            let book = Named::new(&name, bytes);
            handle.flight().tell_book(book, &self.clock.read(), self.clock.is_utc());
        }
        let mut flight = handle.flight();
        flight.tell_folder(news.notices);
        flight.keep_again();
        flight.mend_log(utc());
    }

    /// Looks at every flight's folder.
    pub fn look(self: &Arc<Self>, looker: &mut Looker, told: &mut Vec<String>) {
        self.meet(told);
        for handle in self.all() {
            let ready = handle.flight().is_ready();
            let news = looker.look(&self.night.join(&handle.name), ready);
            self.tell(&handle, news, looker);
        }
    }

    // ---- threads

    /// Ticks every flight; whether all are at the clock's moment.
    pub fn tick(&self) -> bool {
        let (reading, faults) = (self.clock.read(), self.clock.faults());
        let (end, mut there) = (Instant::now() + SLICES, true);
        // Another flight is first each time: one that cannot catch up must not use up the time of the others.
        let mut all = self.all();
        let turn = self.turn.fetch_add(1, Ordering::Relaxed);
        if !all.is_empty() {
            let first = turn % all.len();
            all.rotate_left(first);
        }
        for handle in all {
            let mut flight = handle.flight();
            faults.iter().for_each(|fault| flight.tell_clock(*fault, reading.wall));
            there &= handle.tick(&mut flight, self, end.min(Instant::now() + SLICE));
        }
        there
    }

    /// Sets a clock that is set by hand, and brings every flight to it, one such call at a time. Returns whether this is not
    /// backwards.
    pub fn set_clock(&self, moment: u64) -> bool {
        let _alone = held(&self.setting);
        if !self.clock.set(moment) {
            return false;
        }
        for handle in self.all() {
            while !handle.tick(&mut handle.flight(), self, Instant::now() + SLICE) && !self.is_stopping() {
                thread::yield_now();
            }
        }
        true
    }

    /// What arrives at a moment: not while the clock is being set, so that each flight has its line for that first.
    fn arrive(&self, coming: &mut Coming) {
        let _alone = held(&self.setting);
        coming.arrive(self.clock.read().desk);
    }

    fn flush(&self) {
        for handle in self.all() {
            let flush = held(&handle.flush).clone();
            if let Some(Err(fault)) = flush.map(|flush| flush.flush()) {
                eprintln!("onair: the log of {} cannot be flushed to disk: {fault}", handle.name);
            }
        }
    }

    fn every(self: &Arc<Self>, name: &str, distance: Duration, mut what: impl FnMut(&Arc<Service>) + Send + 'static) {
        let service = Arc::clone(self);
        let work = move || {
            let mut next = Instant::now();
            while !service.is_stopping() {
                // A thread that panicked has printed it on standard error; the others continue.
                let _ = catch_unwind(AssertUnwindSafe(|| what(&service)));
                next = (next + distance).max(Instant::now());
                thread::sleep(next.saturating_duration_since(Instant::now()));
            }
        };
        thread::Builder::new().name(name.to_string()).spawn(work).expect("a thread can be started");
    }

    /// Reads the folder, and starts the threads.
    pub fn go(self: &Arc<Self>, mut coming: Option<Coming>) {
        let (mut looker, mut told) = (Looker::new(APART), Vec::new());
        let patience = Instant::now() + FIRST;
        self.look(&mut looker, &mut told);
        thread::sleep(LOOK);
        self.look(&mut looker, &mut told);
        while self.making.load(Ordering::Acquire) > 0 && Instant::now() < patience {
            thread::sleep(Duration::from_millis(5));
        }
        self.look(&mut looker, &mut told);
        while !self.tick() && Instant::now() < patience {}
        self.every("look", LOOK, move |service| service.look(&mut looker, &mut told));
        self.every("tick", TICK, move |service| {
            coming.iter_mut().for_each(|coming| service.arrive(coming));
            service.tick();
        });
        self.every("flush", FLUSH, |service| service.flush());
    }

    /// The last lines of the logs.
    pub fn stop(&self) {
        self.stopping.store(true, Ordering::Release);
        let wall = utc();
        for handle in self.all() {
            let mut flight = handle.flight();
            flight.stop(wall);
            *held(&handle.flush) = flight.flusher();
        }
        self.flush();
    }
}
