//! Which calls are made, and with which books.

use super::about::ABOUT;
use super::books::{build, entries, pieces, special, sturdy};
use super::centres::centred;
use super::chance::Chance;
use super::stored::STORED;
use super::strips::{journey, strip, strip144, Strip};
use super::terms::TERMS;
use super::trip::{RunCase, Trip};
use super::world::{Case, World};
use super::{almanac, damage, earth, journeys, lookups, moving, runs, spheres, states, terms, unreadable};

use self::Source::{Centred, Garbled, Lines, Orbits, Trips};

/// The source of the lines of a kind.
pub enum Source {
    /// Lines, case by case.
    Lines(&'static [Case]),
    /// Lines of a conic with a centre inserted.
    Orbits(&'static [Case]),
    /// Trips, case by case.
    Trips(&'static [RunCase], TripLine),
    /// Trips with a centre added, followed by cases about a centre.
    Centred(&'static [RunCase], TripLine),
    /// Lines of the other kinds made unreadable.
    Garbled,
}

/// How a trip becomes a line.
pub type TripLine = fn(&mut Chance, &World, &Trip) -> String;

/// A kind of call: its share of 200, whether it needs a book, and its cases.
pub struct Kind {
    pub name: &'static str,
    pub share: usize,
    pub book: bool,
    pub source: Source,
}

const fn kind(name: &'static str, share: usize, book: bool, source: Source) -> Kind {
    Kind { name, share, book, source }
}

/// The cases of `differ`. A journey is lines of fly and move, and `earth` is old lines with their new ones. `terms` is lines of
/// fly, pull, inject and move with J, A and K. `stored` is lines of fly whose acceleration is the rule's or not.
pub const KINDS: [Kind; 23] = [
    kind("root", 9, false, Lines(almanac::ROOT)),
    kind("sincos", 6, false, Lines(almanac::SINCOS)),
    kind("hour", 6, false, Lines(almanac::HOUR)),
    kind("sidereal", 7, false, Lines(almanac::SIDEREAL)),
    kind("date", 4, false, Lines(almanac::DATE)),
    kind("day", 5, false, Lines(almanac::DAY_OF)),
    kind("fixed", 5, false, Lines(states::FIXED)),
    kind("turn", 5, false, Lines(states::TURN)),
    kind("sphere", 6, false, Lines(spheres::SPHERE)),
    kind("conic", 7, false, Lines(states::CONIC)),
    kind("unreadable", 5, false, Garbled),
    kind("body", 8, true, Lines(lookups::BODY)),
    kind("accel", 9, true, Trips(lookups::ACCEL, |_, _, t| t.accel_line())),
    kind("run", 18, true, Trips(runs::RUN, |_, _, t| t.run_line())),
    kind("pull", 8, true, Centred(lookups::ACCEL, |_, _, t| t.pull_line())),
    kind("move", 10, true, Lines(moving::MOVE)),
    kind("fly", 9, true, Centred(runs::RUN, |_, w, t| t.kept(w.bytes()).fly_line())),
    kind("journey", 7, true, Lines(journeys::JOURNEY)),
    kind("orbit", 2, false, Orbits(states::CONIC)),
    kind("earth", 4, true, Lines(earth::EARTH)),
    kind("terms", 30, true, Trips(TERMS, terms::line)),
    kind("inject", 10, true, Centred(runs::RUN, |_, _, t| t.inject_line())),
    kind("stored", 20, true, Trips(STORED, |_, _, t| t.fly_line())),
];

/// The kind of that name; the names are those of the table.
fn named(name: &str) -> &'static Kind {
    static TABLE: [Kind; 23] = KINDS;
    TABLE.iter().find(|kind| kind.name == name).unwrap_or(&TABLE[0])
}

/// The names of all kinds.
pub fn names() -> Vec<&'static str> {
    KINDS.iter().map(|kind| kind.name).collect()
}

#[derive(Clone, Debug)]
pub struct Call {
    pub kind: &'static str,
    pub case: String,
    pub line: Vec<u8>,
}

/// The calls of one start of the program.
#[derive(Clone, Debug)]
pub struct Group {
    pub world: World,
    pub calls: Vec<Call>,
    /// Whether the last line has its line feed.
    pub last_feed: bool,
}

/// The i-th case of a list.
fn pick<T: Copy>(list: &[T], i: usize) -> T {
    list[i % list.len()]
}

/// Calls of one kind by its i-th case; at least one.
pub fn made(c: &mut Chance, w: &World, name: &'static str, i: usize) -> Vec<Call> {
    let (case, lines) = match &named(name).source {
        Lines(list) => {
            let (case, make) = pick(list, i);
            (case, make(c, w))
        }
        Orbits(list) => {
            let (case, make) = pick(list, i);
            let lines = make(c, w);
            (case, lines.iter().map(|line| states::orbit_of(c, line)).collect())
        }
        Trips(list, line) => {
            let (case, make) = pick(list, i);
            let trips = make(c, w);
            return told(c, w, name, case, trips, *line);
        }
        Centred(list, line) => {
            let i = i % (list.len() + ABOUT.len());
            let (case, make) = if i < list.len() { list[i] } else { ABOUT[i - list.len()] };
            let mut trips = make(c, w);
            if i < list.len() {
                trips = trips.into_iter().map(|(note, t)| (note, centred(c, t))).collect();
            }
            return told(c, w, name, case, trips, *line);
        }
        Garbled => return vec![garbled(c, &["root"], i)],
    };
    lines.into_iter().map(|line| call(name, case, line)).collect()
}

/// The lines of trips.
fn told(c: &mut Chance, w: &World, name: &'static str, case: &str, trips: Vec<(String, Trip)>, line: TripLine) -> Vec<Call> {
    trips.iter().map(|(note, t)| call(name, &format!("{case} {note}"), line(c, w, t))).collect()
}

pub fn call(kind: &'static str, case: &str, line: String) -> Call {
    Call { kind, case: case.trim_end().to_string(), line: line.into_bytes() }
}

/// A line that is not a call, made from a call of one of the chosen kinds.
pub fn garbled(c: &mut Chance, kinds: &[&'static str], i: usize) -> Call {
    let kind = c.pick(kinds);
    let any = c.below(1000) as usize;
    let good = made(c, &World::none(), kind, any).remove(0);
    let (name, garble) = unreadable::GARBLES[i % unreadable::GARBLES.len()];
    Call { kind: "unreadable", case: name.to_string(), line: garble(c, good.line) }
}

/// How many calls each kind gets: shares of the whole, the rest to the first.
pub fn counts(calls: usize, kinds: &[&'static str]) -> Vec<(&'static str, usize)> {
    let asked: Vec<_> = KINDS.iter().filter(|kind| kinds.contains(&kind.name)).collect();
    let whole: usize = asked.iter().map(|kind| kind.share).sum();
    let mut list: Vec<_> = asked.iter().map(|kind| (kind.name, calls * kind.share / whole.max(1))).collect();
    let given: usize = list.iter().map(|(_, n)| n).sum();
    if let Some(first) = list.first_mut() {
        first.1 += calls - given;
    }
    list
}

/// Books: none, the real ones, special ones, random ones and damaged ones.
pub fn worlds(c: &mut Chance, real: &[(String, Vec<u8>)]) -> Vec<World> {
    let mut list = vec![World::none()];
    list.extend(real.iter().map(|(name, book)| World::new(name, book.clone(), 60)));
    list.extend(special(c).into_iter().map(|(name, book)| World::new(name, book, 10)));
    for i in 0..20 {
        let book = build(&pieces(c));
        list.push(World::new(&format!("random {i}"), book, 12));
    }
    for (name, damage) in damage::all() {
        let whole = sturdy(c);
        let entries = entries(&build(&whole));
        let book = Some(damage(c, whole));
        list.push(World { name: format!("damaged: {name}"), book, entries, weight: 1 });
    }
    list
}

/// The share of the j-th world in a number, by weight; the shares add up to it.
pub fn part(n: usize, worlds: &[World], j: usize) -> usize {
    let before: usize = worlds[..j].iter().map(|w| w.weight).sum();
    let whole: usize = worlds.iter().map(|w| w.weight).sum();
    n * (before + worlds[j].weight) / whole - n * before / whole
}

pub fn group(c: &mut Chance, world: World, mut calls: Vec<Call>) -> Group {
    c.shuffle(&mut calls);
    let last_feed = c.one_in(2) || calls.last().is_some_and(|l| l.line.is_empty());
    Group { world, calls, last_feed }
}

/// Groups of calls that need no book, at most 4,000 lines each.
pub fn plain_groups(c: &mut Chance, counts: &[(&'static str, usize)]) -> Vec<Group> {
    let kinds: Vec<_> = counts.iter().map(|(k, _)| *k).filter(|k| *k != "unreadable").collect();
    let mut calls = Vec::new();
    for &(kind, n) in counts.iter().filter(|(k, _)| !named(k).book) {
        for i in 0..n {
            if kind == "unreadable" {
                let from = if kinds.is_empty() { &["root"][..] } else { &kinds };
                calls.push(garbled(c, from, i));
            } else {
                calls.extend(made(c, &World::none(), kind, i));
            }
        }
    }
    c.shuffle(&mut calls);
    calls.chunks(4000).map(|part| group(c, World::none(), part.to_vec())).collect()
}

/// One group for each book that gets calls.
pub fn book_groups(c: &mut Chance, counts: &[(&'static str, usize)], worlds: &[World]) -> Vec<Group> {
    let mut groups = Vec::new();
    for (j, world) in worlds.iter().enumerate() {
        let mut calls = Vec::new();
        for &(kind, n) in counts.iter().filter(|(k, _)| named(k).book) {
            let (wish, mut own) = (part(n, worlds, j), Vec::new());
            let mut i = c.below(100) as usize;
            while own.len() < wish {
                own.extend(made(c, world, kind, i));
                i += 1;
            }
            own.truncate(wish);
            calls.extend(own);
        }
        if !calls.is_empty() {
            groups.push(group(c, world.clone(), calls));
        }
    }
    groups
}

/// All groups for that many calls of these kinds.
pub fn groups(
    c: &mut Chance, calls: usize, kinds: &[&'static str], real: &[(String, Vec<u8>)],
) -> Vec<Group> {
    let counts = counts(calls, kinds);
    let mut list = plain_groups(c, &counts);
    let worlds = worlds(c, real);
    list.extend(book_groups(c, &counts, &worlds));
    list
}

/// So many inputs of one sort, over all sorts of books.
fn inputs(c: &mut Chance, n: usize, worlds: &[World], make: fn(&mut Chance, &World, usize) -> Strip) -> Vec<Strip> {
    let mut list = Vec::new();
    for (j, world) in worlds.iter().enumerate() {
        let first = c.below(100) as usize;
        for i in 0..part(n, worlds, j) {
            list.push(make(c, world, first + i));
        }
    }
    list
}

/// So many inputs for strip.
pub fn strips(c: &mut Chance, n: usize, real: &[(String, Vec<u8>)]) -> Vec<Strip> {
    let worlds = worlds(c, real);
    let mut list = inputs(c, n, &worlds, strip);
    // A few long journeys through the real books.
    for (i, (name, book)) in real.iter().enumerate() {
        if n >= 100 && i < list.len() {
            list[i] = journey(c, &World::new(name, book.clone(), 1));
        }
    }
    c.shuffle(&mut list);
    list
}

/// So many inputs for strip144.
pub fn strips144(c: &mut Chance, n: usize, real: &[(String, Vec<u8>)]) -> Vec<Strip> {
    let worlds = worlds(c, real);
    let mut list = inputs(c, n, &worlds, strip144);
    c.shuffle(&mut list);
    list
}
