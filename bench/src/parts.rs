//! Single calls compared with those of the Rust version: a root, hour angles, the check of a book, a position, frames of the pane.

use std::hint::black_box;
use std::rc::Rc;

use belfrywool::{calls, Body, Book, Moment, State};

use crate::asked::Asked;
use crate::clock::{least, took, Rounds, Turn};
use crate::flights::Given;

/// A call, how many times it is made in a turn, and the greatest allowed ratio.
struct Call {
    name: String,
    turns: usize,
    most: Option<f64>,
}

/// Rows of the table: each call, and it beside that of the Rust version.
#[derive(Default)]
struct Rows<'a> {
    calls: Vec<Call>,
    turns: Vec<[Turn<'a>; 2]>,
}

impl<'a> Rows<'a> {
    fn add(&mut self, call: Call, proved: impl FnMut() + 'a, rust: impl FnMut() + 'a) {
        self.calls.push(call);
        self.turns.push([Box::new(proved), Box::new(rust)]);
    }

    /// A round takes milliseconds, so there are many.
    fn tell(&mut self, times: u32) -> Asked {
        let mut asked = Asked::default();
        for (call, figures) in self.calls.iter().zip(least(Rounds::new(8 * times, 90), &mut self.turns)) {
            let [a, b] = figures.map(|t| t / call.turns as f64);
            println!("| {} | {a:.1} | {b:.1} |{}", call.name, asked.cells(a / b, call.most));
        }
        asked
    }
}

/// The exported calls themselves.
fn root(x: f64) -> Result<f64, u64> {
    let mut value = 0.0;
    match unsafe { calls::belfry_root(x, &mut value) } {
        0 => Ok(value),
        number => Err(number),
    }
}

fn sidereal(rule: u64, moment: u64, dut: u32) -> Result<u64, u64> {
    let mut parts = 0;
    match unsafe { calls::belfry_sidereal(rule, moment, dut, &mut parts) } {
        0 => Ok(parts),
        number => Err(number),
    }
}

/// Roots of numbers as in a flight, each after the one before it.
fn roots(rows: &mut Rows) {
    let numbers: Rc<[f64]> = (1..20_000).map(|i| f64::from(i) * 12_345.678).collect();
    assert!(numbers.iter().all(|&x| root(x) == Ok(x.sqrt())));
    let call = Call { name: "a root (Rust: the machine's instruction)".to_string(), turns: numbers.len(), most: None };
    let all = |root: fn(f64) -> Result<f64, u64>| {
        let numbers = Rc::clone(&numbers);
        move || numbers.iter().for_each(|&x| took(root(black_box(x))))
    };
    rows.add(call, all(root), all(reference::root::root));
}

/// The hour angle by both rules, over times of every other day.
fn angles(rows: &mut Rows) {
    let moments: Rc<[u64]> = (0..200_000).map(|i| i * 15_778_777).collect();
    for (rule, name) in [(0, "an hour angle, document 01's rule"), (1, "an hour angle, the 1982 rule")] {
        let all = |angle: fn(u64, u64, u32) -> Result<u64, u64>| {
            let moments = Rc::clone(&moments);
            move || moments.iter().for_each(|&moment| took(angle(black_box(rule), black_box(moment), 35_000)))
        };
        let call = Call { name: name.to_string(), turns: moments.len(), most: Some(1.0) };
        rows.add(call, all(sidereal), all(reference::hour::sidereal));
    }
}

fn often(turn: impl Fn()) {
    (0..1000).for_each(|_| turn());
}

/// The check of a book, and then the position of the Moon: an exported position checks its book.
fn books<'a>(rows: &mut Rows<'a>, book: &'a [u8], moment: u64) {
    let given = move || black_box(book);
    let call = |name| Call { name, turns: 1000, most: Some(0.8) };
    let proved = move || took(belfrywool::book_passes(Book::unchecked(given())));
    let rust = move || took(reference::book::check(given()));
    rows.add(call(format!("a book's check, {} bytes", book.len())), move || often(proved), move || often(rust));
    let proved = move || belfrywool::position(Book::unchecked(given()), Body::MOON, Moment(moment));
    let rust = move || reference::book::body(given(), Body::MOON.0, moment).map(|m| m.six());
    assert_eq!(proved().map(|m| m.six()).map_err(|r| r.number()), rust());
    let name = format!("a position at the book's end, with the check, {} bytes", book.len());
    rows.add(call(name), move || often(|| took(proved())), move || often(|| took(rust())));
}

/// Two states a minute apart, and a frame for each millisecond of a minute: between them, or after the newer one.
fn frames(rows: &mut Rows) {
    const MINUTE: u64 = 60_000;
    let six = [6570.0, 10.0, -700.0, 1.5, 7.8, -0.2];
    let at = |moment| reference::rule::State { moment, centre: 1, position: [six[0], six[1], six[2]], velocity: [six[3], six[4], six[5]], acceleration: [0.0; 3] };
    let (mut pane, mut other) = (belfrywool::Pane::default(), reference::pane::Pane::Clear);
    for moment in [0, MINUTE] {
        let [x, y, z, vx, vy, vz] = six;
        assert_eq!(pane.take(&State::of_nine(Moment(moment), Body::EARTH, [x, y, z, vx, vy, vz, 0.0, 0.0, 0.0])), Ok(()));
        other = other.take(&at(moment)).expect("the next state");
    }
    let (pane, other) = (Rc::new(pane), Rc::new(other));
    for (first, name, most) in [(0, "a frame of the pane, current", 1.1), (MINUTE + 1, "a frame of the pane, late", 2.0)] {
        let (pane, other) = (Rc::clone(&pane), Rc::clone(&other));
        let proved = move || (first..first + MINUTE).for_each(|t| took(black_box(&*pane).frame(Moment(black_box(t)))));
        let rust = move || (first..first + MINUTE).for_each(|t| took(black_box(&*other).frame(black_box(t))));
        rows.add(Call { name: name.to_string(), turns: MINUTE as usize, most: Some(most) }, proved, rust);
    }
}

pub fn table(given: &Given, times: u32) -> Asked {
    println!("| Nanoseconds a call | Proved | Rust | Ratio | Asked |\n|---|---|---|---|---|");
    let flights = [given.evening(), given.at_the_back()];
    let mut rows = Rows::default();
    for flight in &flights {
        books(&mut rows, flight.book, flight.target());
    }
    roots(&mut rows);
    angles(&mut rows);
    frames(&mut rows);
    rows.tell(times)
}
