//! The flight to the Moon as docs/FLIGHT.md describes it.

use reference::ask::answer;
use reference::motion::run;
use reference::rule::State;
use reference::moves::moved;
use reference::strip::{read_order, Order};
use reference::trial::moon::{flight, Said};
use reference::vector::n;

fn files() -> (Order, Vec<u8>) {
    let order = std::fs::read("../data/orders/check-case-1.order").unwrap();
    (read_order(&order).unwrap(), std::fs::read("../data/books/book31all.bin").unwrap())
}

/// Range and speed from the Moon at the change of centre, four hours after it, and at the end.
#[test]
fn figures_from_the_moon() {
    let (order, book) = files();
    let said = flight(&order, |line| Ok(answer(&book, line.as_bytes()))).unwrap();
    let states: Vec<State> = said.iter().filter(|s| !s.answer.starts_with("GOING")).filter_map(Said::state).collect();
    let since = states.iter().map(|s| (s.centre, s.moment - order.state.moment));
    let expected = [(1, 0), (1, 211_560_000), (1, 211_573_046), (2, 211_573_046), (2, 225_973_046), (2, 237_373_046), (2, 237_380_068)];
    assert!(since.eq(expected));
    for (i, range, speed) in [(3, 37_361.3, 1.36286), (4, 17_327.0, 1.46858), (6, 2_494.7, 2.34966)] {
        let (r, v) = (n(states[i].position).sqrt(), n(states[i].velocity).sqrt());
        assert!((r - range).abs() < 0.06 && (v - speed).abs() < 0.000006, "{r} {v}");
    }
    // Flown about the Earth all the way it reaches the same place, within 15 cm.
    let (here, there) = (states[2], states[4]);
    let ran = run(&book, &order.setting, &here, 60_000, there.moment, u32::MAX, [0; 5]);
    let other = moved(&book, &order.setting, &ran.state, 2).unwrap();
    assert!((0..3).all(|i| (other.position[i] - there.position[i]).abs() < 0.00015));
}

/// An answer with one bit of a field changed.
fn changed(answer: &str, field: usize, bit: u32) -> String {
    let mut fields: Vec<String> = answer.split(' ').map(str::to_string).collect();
    fields[field] = format!("{:016x}", u64::from_str_radix(&fields[field], 16).unwrap() ^ 1 << bit);
    fields.join(" ")
}

/// The flight with one bit of one answer changed: in the float at a place after the moment.
fn astray(order: &Order, book: &[u8], wrong: usize, place: usize, bit: u32) -> Result<Vec<Said>, String> {
    let mut asked = 0;
    flight(order, |line| {
        asked += 1;
        let told = answer(book, line.as_bytes());
        let field = place + if line.starts_with("fly") { 2 } else { 0 };
        Ok(if asked == wrong + 1 { changed(&told, field, bit) } else { told })
    })
}

/// A bit of the velocity in any answer shows at the end. A bit of the acceleration is refused at the next line, except for a move.
/// A refusal ends the flight.
#[test]
fn a_wrong_answer_is_seen() {
    let (order, book) = files();
    let whole = flight(&order, |line| Ok(answer(&book, line.as_bytes()))).unwrap();
    for wrong in 0..whole.len() {
        let last = astray(&order, &book, wrong, 5, 12).unwrap().last().unwrap().answer.clone();
        assert_ne!(last, whole.last().unwrap().answer, "{wrong}");
    }
    for wrong in 0..whole.len() - 1 {
        let said = astray(&order, &book, wrong, 10, 0);
        let moved = whole[wrong + 1].line.starts_with("move");
        assert_eq!(said.is_err_and(|answer| answer.starts_with("REFUSED 15 0 ")), !moved, "{wrong}");
    }
    assert!(flight(&order, |_| Ok("REFUSED 6 0 0 1".to_string())).is_err());
}
