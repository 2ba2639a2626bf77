//! Pairs of books, of which the second is fuller, and the comparison of the answers under both.

use std::collections::BTreeSet;

use reference::trial::books::{build, pieces};
use reference::trial::chance::Chance;
use reference::trial::fuller::{added, fuller, holds_all, pairs, taken_apart, thinner, Added, Pair, ADDED};
use reference::trial::lines::{most_steps, start_of, with_budget, with_guesses};
use reference::trial::fuller_nights::{nights, Night};
use reference::trial::unchanged::{asked, Check, Program, Verdict};
use reference::{ask, book, strip};

/// The reference itself, under a book that a function may change.
struct Own(fn(&[u8]) -> Vec<u8>);

impl Program for Own {
    fn ask(&self, book: &[u8], lines: &[String]) -> Result<Vec<String>, String> {
        let book = (self.0)(book);
        Ok(lines.iter().map(|line| ask::answer(&book, line.as_bytes())).collect())
    }

    fn strip(&self, book: &[u8], order: &[u8]) -> Result<String, String> {
        let listing = if order.len() == strip::ORDER_144 { strip::strip144 } else { strip::strip };
        String::from_utf8(listing(&[order, &(self.0)(book)].concat())).map_err(|error| error.to_string())
    }
}

fn made(seed: u64) -> Vec<Night> {
    nights(&mut Chance::new(seed), 12, &[], &[])
}

fn checks(program: &Own, list: &[Night]) -> Vec<Check> {
    list.iter().flat_map(|night| asked(program, night).unwrap()).collect()
}

fn wrong(list: &[Check]) -> usize {
    list.iter().filter(|check| check.verdict().wrong().is_some()).count()
}

fn passes(p: &Pair) {
    let (first, second) = (p.first.bytes(), p.second.bytes());
    assert_eq!((book::check(first), book::check(second)), (Ok(()), Ok(())), "{}", p.name);
    assert!(holds_all(&taken_apart(second), &taken_apart(first)), "{}", p.name);
    assert!(p.second.entries.len() == p.first.entries.len() + p.added.len() && !p.added.is_empty(), "{}", p.name);
}

#[test]
fn both_books_pass_and_the_second_holds_every_entry_of_the_first() {
    let real = std::fs::read(concat!(env!("CARGO_MANIFEST_DIR"), "/../data/books/book31all.bin")).unwrap();
    let mut c = Chance::new(1);
    let list = pairs(&mut c, 400, &[("real".to_string(), real)]);
    list.iter().for_each(passes);
    let several = list.iter().filter(|p| p.added.iter().collect::<BTreeSet<_>>().len() > 1).count();
    assert!(list.len() > 400 && several > 100, "{} pairs, {several} with more than one sort", list.len());
    for sort in ADDED {
        assert!(list.iter().filter(|p| p.added.contains(&sort)).count() > 50, "{sort:?}");
    }
}

#[test]
fn records_of_one_sort_are_of_that_sort() {
    let mut c = Chance::new(2);
    for sort in ADDED {
        let mut some = 0;
        for _ in 0..200 {
            let first = pieces(&mut c);
            let second = fuller(&mut c, &first, &[sort]);
            assert!(added(&first, &second).iter().all(|&a| a == sort));
            some += second.len() - first.len();
        }
        assert!(some > 100, "{sort:?}: {some}");
    }
}

#[test]
fn what_an_added_record_is_beside_the_others() {
    let mut c = Chance::new(3);
    let mut second = pieces(&mut c);
    while second.iter().filter(|p| p.body == second[0].body).count() < 3 {
        second = pieces(&mut c);
    }
    let without = |gone: usize| {
        let mut first = second.clone();
        first.remove(gone);
        added(&first, &second)
    };
    let last = second.iter().filter(|p| p.body == second[0].body).count() - 1;
    assert_eq!((without(0), without(1), without(last)), (vec![Added::Before], vec![Added::Between], vec![Added::Behind]));
    let others: Vec<_> = second.iter().filter(|p| p.body != second[0].body).cloned().collect();
    assert_eq!(added(&others, &second), vec![Added::OtherBody; last + 1]);
    assert!(!holds_all(&others, &second) && holds_all(&second, &others));
    assert!(thinner(&mut c, &second).len() < second.len());
}

#[test]
fn a_book_taken_apart_is_built_again() {
    let mut c = Chance::new(4);
    for _ in 0..100 {
        let book = build(&pieces(&mut c));
        assert_eq!(build(&taken_apart(&book)), book);
    }
}

#[test]
fn the_reference_changes_no_figure_and_every_sort_is_met() {
    let list = checks(&Own(<[u8]>::to_vec), &made(5));
    assert_eq!(wrong(&list), 0);
    let sorts: BTreeSet<&str> = list.iter().map(|check| check.verdict().sort()).collect();
    assert_eq!(sorts.len(), 14, "{sorts:?}");
}

#[test]
fn every_spoiled_answer_is_seen() {
    let list = checks(&Own(<[u8]>::to_vec), &made(6)[..6]);
    let compared: Vec<&Check> = list.iter().filter(|check| check.verdict() != Verdict::Free).collect();
    assert!(compared.len() > 300);
    assert!(compared.iter().all(|check| check.spoiled().verdict().wrong().is_some()));
}

/// Wrong programs, given by the book that they use: if the given book has more than a few entries, they use another.
#[test]
fn a_figure_that_changes_is_seen() {
    let spoiled: fn(&[u8]) -> Vec<u8> = |book| {
        let mut list = taken_apart(book);
        let last = list.len() as f64;
        list.iter_mut().for_each(|p| p.coefficients[0] += last);
        build(&list)
    };
    let short: fn(&[u8]) -> Vec<u8> = |book| build(&taken_apart(book).into_iter().take(4).collect::<Vec<_>>());
    let none: fn(&[u8]) -> Vec<u8> = |book| if book::count(book) > 6 { Vec::new() } else { book.to_vec() };
    for program in [spoiled, short, none] {
        assert!(wrong(&checks(&Own(program), &made(7))) > 20);
    }
}

#[test]
fn a_runs_line_with_another_budget_or_other_guesses() {
    let line = format!("run {}5 1000 {}10 1100 7 1 2 3 4 5", "0 ".repeat(6), "0 ".repeat(6));
    assert_eq!((start_of(&line), most_steps(&line)), (Some(1000), Some(7)));
    assert_eq!(most_steps(&with_budget(&line, 99)), Some(10));
    assert!(with_budget(&line, 99).ends_with(" 10 1100 99 1 2 3 4 5"));
    assert!(with_guesses(&line, [9, 8, 7, 6, 5]).ends_with(" 10 1100 7 9 8 7 6 5"));
}
