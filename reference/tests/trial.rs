//! The generators reach what they are made for, and the comparison can fail.

use std::collections::BTreeSet;

use reference::ask;
use reference::book;
use reference::motion::Outcome;
use reference::rule::inject;
use reference::trial::books::{build, pieces, special, sturdy};
use reference::trial::chance::Chance;
use reference::trial::child::Said;
use reference::trial::compare::{group_input, Tally};
use reference::trial::plan::{groups, names, strips, strips144};
use reference::trial::trip::{break_at, trip, BREAKS};
use reference::trial::world::World;
use reference::trial::{damage, sizes};

fn kinds() -> Vec<&'static str> {
    names()
}

#[test]
fn made_books_pass() {
    let mut c = Chance::new(7);
    for _ in 0..300 {
        assert_eq!(book::check(&build(&pieces(&mut c))), Ok(()));
        assert_eq!(book::check(&build(&sturdy(&mut c))), Ok(()));
    }
    for (name, bytes) in special(&mut c) {
        assert_eq!(book::check(&bytes), Ok(()), "{name}");
    }
    assert!(special(&mut c).iter().any(|(_, bytes)| bytes.len() == 61_424));
}

#[test]
fn damaged_books_do_not() {
    let mut c = Chance::new(8);
    let passing = ["as it was", "end at the last", "one body left"];
    for (name, damage) in damage::all() {
        for _ in 0..20 {
            let base = sturdy(&mut c);
            let found = book::check(&damage(&mut c, base));
            if !name.starts_with("bit flipped") {
                assert_eq!(found.is_ok(), passing.contains(name), "{name}");
            }
        }
    }
}

#[test]
fn the_first_of_two_refusals_is_met() {
    let mut c = Chance::new(9);
    let numbers = [1, 4, 14, 3, 3, 7, 2, 5];
    for round in 0..300 {
        let base = build(&pieces(&mut c));
        for first in 0..BREAKS.len() {
            for second in first + 1..BREAKS.len() {
                let mut w = World::new("", base.clone(), 1);
                let mut t = trip(&mut c, &w);
                for i in [second, first] {
                    break_at(&mut c, &mut t, i);
                }
                if first == 0 {
                    w.book = Some(base[..base.len() - 1].to_vec());
                }
                let outcome = t.run(w.bytes()).outcome;
                let names = (BREAKS[first], BREAKS[second]);
                // Before 2 and 5 a state without an acceleration is refused.
                let own = inject(w.bytes(), &t.setting, &t.state).err();
                let number = own.filter(|_| first > 5).unwrap_or(numbers[first]);
                assert_eq!(outcome, Outcome::Refused(number), "{names:?} {round}");
            }
        }
    }
}

#[test]
fn only_the_new_component_overflows() {
    let mut c = Chance::new(10);
    let w = World::new("", build(&[]), 1);
    let mut seen = BTreeSet::new();
    for i in 0..60 {
        let make = if i % 2 == 0 { sizes::new_component } else { sizes::new_position };
        let (note, t) = make(&mut c, &w).remove(0);
        let arrives = note == "velocity finite" || note == "position finite";
        let expected = if arrives { Outcome::Arrived } else { Outcome::Refused(7) };
        assert_eq!(t.run(w.bytes()).outcome, expected);
        seen.insert(note);
    }
    assert_eq!(seen.len(), 5);
}

/// The reference's own answers compared with themselves, one spoiled or none.
fn tally(spoil: usize) -> Tally {
    let mut c = Chance::new(11);
    let mut tally = Tally { spoil, ..Tally::default() };
    for group in groups(&mut c, 5000, &kinds(), &[]) {
        let output = ask::answers(group.world.bytes(), &group_input(&group));
        tally.group(&group, &Said { output, ended: String::new() });
    }
    tally
}

#[test]
fn every_refusal_is_reached() {
    let tally = tally(0);
    assert_eq!((tally.compared, tally.differ), (5000, 0));
    let sorts: BTreeSet<&str> = tally.counts.answers.keys().map(|(_, sort)| sort.as_str()).collect();
    for number in [1, 3, 4, 6, 7, 8, 9, 10, 11, 12, 14] {
        assert!(sorts.contains(format!("refused {number}").as_str()), "{number}");
    }
    for number in [1, 2, 3, 4, 5, 6, 7, 14, 15] {
        assert!(sorts.contains(format!("refused {number} at 0 steps").as_str()), "{number} in a run");
    }
    for sort in ["refused 6 on the way", "refused 7 on the way", "arrived", "going", "arrived at 0 steps",
        "going at 0 steps", "ellipses", "hyperbolas", "unreadable", "values"] {
        assert!(sorts.contains(sort), "{sort}");
    }
}

#[test]
fn a_spoiled_answer_is_found() {
    for spoil in [1, 17, 2500, 5000] {
        assert_eq!(tally(spoil).differ, 1);
    }
    assert_eq!(tally(5001).differ, 0);
}

#[test]
fn short_and_long_outputs_are_found() {
    let mut c = Chance::new(12);
    let group = groups(&mut c, 100, &["root"], &[]).remove(0);
    let whole = ask::answers(group.world.bytes(), &group_input(&group));
    let said = |output: &[u8]| Said { output: output.to_vec(), ended: String::new() };
    let differ = |output: &[u8]| {
        let mut tally = Tally::default();
        tally.group(&group, &said(output));
        tally.differ
    };
    assert_eq!(differ(&whole), 0);
    assert_eq!(differ(&whole[..whole.len() - 1]), 1);
    assert_eq!(differ(&[&whole[..], b"\n"].concat()), 1);
    assert_eq!(differ(b""), 100);
}

#[test]
fn numbers_of_calls_and_strips_are_as_asked() {
    for calls in [1, 10, 999, 3001] {
        let mut c = Chance::new(13);
        let made = groups(&mut c, calls, &kinds(), &[]);
        assert_eq!(made.iter().map(|g| g.calls.len()).sum::<usize>(), calls);
        assert_eq!(strips(&mut c, calls, &[]).len(), calls);
        assert_eq!(strips144(&mut c, calls, &[]).len(), calls);
    }
}

/// Each file of the driver with its stage and the files that it uses.
fn imports() -> Vec<(String, usize, Vec<String>)> {
    let folder = format!("{}/src/trial", env!("CARGO_MANIFEST_DIR"));
    let read = |name: &str| std::fs::read_to_string(format!("{folder}/{name}.rs")).expect(name);
    let mut files = Vec::new();
    for (stage, part) in read("mod").split("\n\n").enumerate() {
        for line in part.lines() {
            if let Some(name) = line.strip_prefix("pub mod ") {
                files.push((name.trim_end_matches(';').to_string(), stage));
            }
        }
    }
    let named = |file: &str| {
        let text = read(file);
        let uses = text.lines().filter(|line| line.contains("super::"));
        let words: Vec<&str> = uses.flat_map(|line| line.split(|c: char| !c.is_alphanumeric() && c != '_')).collect();
        files.iter().map(|(name, _)| name.clone()).filter(|name| words.contains(&name.as_str())).collect()
    };
    files.iter().map(|(file, stage)| (file.clone(), *stage, named(file))).collect()
}

#[test]
fn the_drivers_files_run_one_way() {
    let mut left = imports();
    let stage: std::collections::BTreeMap<_, _> = left.iter().map(|(f, s, _)| (f.clone(), *s)).collect();
    assert!(stage.len() > 15);
    for (file, own, uses) in &left {
        for used in uses {
            assert!(stage[used] <= *own, "{file} uses {used}, which is of a later stage");
        }
    }
    while !left.is_empty() {
        let names: Vec<String> = left.iter().map(|(f, _, _)| f.clone()).collect();
        left.retain(|(_, _, uses)| uses.iter().any(|u| names.contains(u)));
        assert!(left.len() < names.len(), "these use one another: {names:?}");
    }
}
