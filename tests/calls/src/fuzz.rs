//! Structured random input for each exported call: the cases of `differ` by kind, sessions of the pane and damaged books, unchanged
//! and with bytes of a line or of the book changed.

use std::time::{Duration, Instant};

use reference::trial::chance::Chance;
use reference::trial::changed::{bounded, bytes_changed, line_changed};
use reference::trial::fuller::pairs;
use reference::trial::mends;
use reference::trial::panes::sessions;
use reference::trial::plan::{made, worlds};
use reference::trial::world::World;

use crate::case::Case;

/// Each exported call with the kinds of line that reach it.
pub const CALLS: &[(&str, &[&str])] = &[
    ("root", &["root"]), ("sine_cosine", &["sincos"]), ("hour_angle", &["hour"]), ("sidereal", &["sidereal"]), ("date", &["date"]),
    ("day", &["day"]), ("twice_julian_date", &["julian"]), ("earth_fixed", &["fixed"]), ("turn", &["turn", "earth"]), ("from_sphere", &["sphere"]),
    ("conic", &["conic"]), ("orbit", &["orbit"]), ("book_passes", &["passes"]), ("position", &["body"]), ("acceleration", &["accel"]),
    ("pull", &["pull", "terms"]), ("inject", &["inject", "terms"]), ("move", &["move", "journey", "terms"]), ("run", &["run"]),
    ("single_step", &["step"]), ("fly", &["fly", "stored", "journey", "terms"]), ("repair", &["repair"]),
    ("clear", &["pane"]), ("take", &["pane"]), ("feed", &["pane"]), ("frame", &["pane"]), ("frame_motion", &["motion"]),
    ("book_holds", &["holds"]),
];

/// Lines of a kind for a world.
pub fn lines(c: &mut Chance, w: &World, kind: &'static str) -> Vec<Vec<u8>> {
    let i = c.below(10_000) as usize;
    match kind {
        "julian" => vec![format!("julian {}", if c.one_in(9) { c.next() } else { c.below(37_000) }).into_bytes()],
        "passes" => vec![b"passes".to_vec()],
        "step" => made(c, w, "run", i).into_iter().map(|call| [b"step", &call.line[3..]].concat()).collect(),
        kind => made(c, w, kind, i).into_iter().map(|call| bounded(&call.line)).collect(),
    }
}

/// Cases of one kind for a list of worlds.
fn cases(c: &mut Chance, worlds: &[World], kind: &'static str) -> Vec<Case> {
    match kind {
        "pane" => {
            let list = sessions(c, 20, &[]);
            list.into_iter().map(|s| Case { book: Vec::new(), lines: s.lines }).collect()
        }
        "motion" => {
            let with = |line: Vec<u8>| match line.strip_prefix(b"frame ") {
                Some(t) => vec![[b"motion ", t].concat(), line],
                None => vec![line],
            };
            let list = sessions(c, 20, &[]);
            list.into_iter().map(|s| Case { book: Vec::new(), lines: s.lines.into_iter().flat_map(with).collect() }).collect()
        }
        "holds" => {
            let list = pairs(c, 12, &[]).into_iter();
            let both = |first: &[u8], second: &[u8]| Case { book: [first, second].concat(), lines: vec![format!("holds {}", first.len()).into_bytes()] };
            list.flat_map(|p| [both(p.first.bytes(), p.second.bytes()), both(p.second.bytes(), p.first.bytes())]).collect()
        }
        "repair" => {
            let all = mends::made(c, 40).into_iter();
            all.map(|d| Case { book: d.input, lines: vec![format!("repair {}", d.room.unwrap_or(61_441)).into_bytes()] }).collect()
        }
        kind => {
            let w = c.pick(worlds);
            vec![Case { book: w.bytes().to_vec(), lines: lines(c, &w, kind) }]
        }
    }
}

/// A case with something changed.
fn other(c: &mut Chance, case: &Case) -> Case {
    let mut case = case.clone();
    if !case.book.is_empty() && c.one_in(3) {
        bytes_changed(c, &mut case.book);
    }
    for line in &mut case.lines {
        if c.one_in(2) {
            *line = line_changed(c, line);
        }
    }
    case
}

pub struct Tally {
    pub compared: u64,
    pub differ: u64,
}

/// Compares for that many seconds, and at least `least` answers of each kind. Inputs that differ are kept in a folder.
pub fn fuzz(kinds: &[&'static str], seed: u64, seconds: f64, least: u64, found: &str, spoil: u64) -> Tally {
    let (mut c, begun) = (Chance::new(seed), Instant::now());
    let mut tally = Tally { compared: 0, differ: 0 };
    let (mut list, mut age) = (worlds(&mut c, &[]), 0);
    while begun.elapsed() < Duration::from_secs_f64(seconds) || tally.compared < least * kinds.len() as u64 {
        for &kind in kinds {
            for case in cases(&mut c, &list, kind) {
                let case = if c.one_in(2) { other(&mut c, &case) } else { case };
                for (i, (expected, got)) in case.answers().into_iter().enumerate() {
                    tally.compared += 1;
                    if expected != got || tally.compared == spoil {
                        tally.differ += 1;
                        let file = if tally.compared == spoil { "spoiled".to_string() } else { case.keep(found, kind) };
                        println!("{kind}, answer {}: {file}", i + 1);
                    }
                }
                if spoil > 0 && tally.compared >= spoil {
                    return tally;
                }
            }
        }
        age += 1;
        if age % 2000 == 0 {
            list = worlds(&mut c, &[]);
        }
    }
    tally
}
