//! The night on which the Moon's record ends at 02:10.

use reference::motion::run;
use reference::pane::{figure, Pane};
use reference::strip::{read_either, Order};
use reference::trial::books::entries;
use reference::trial::night::{cut, fly, watched, wrong, Night, ENDS, FIRST, GOOD, LAST, MINUTE};
use reference::{ask, book};

fn files() -> (Order, Vec<u8>) {
    let order = std::fs::read("../data/orders/check-case-1.order144").unwrap();
    (read_either(&order).unwrap(), std::fs::read("../data/books/book31all.bin").unwrap())
}

fn night(order: &Order, book: &[u8]) -> Night {
    fly(order, |line| Ok(ask::answer(book, line.as_bytes()))).unwrap()
}

#[test]
fn the_cut_book_passes_and_keeps_every_path() {
    let (_, whole) = files();
    let short = cut(&whole, ENDS);
    assert_eq!(book::check(&short), Ok(()));
    let moon: Vec<_> = entries(&short).into_iter().filter(|e| e.body == 2).collect();
    assert!(moon.len() == 1 && moon[0].start + moon[0].span == ENDS);
    assert_eq!(book::body(&short, 2, ENDS), Err(6));
    for t in (moon[0].start..ENDS).step_by(1_234_567).chain([ENDS - 1]) {
        let (a, b) = (book::body(&whole, 2, t).unwrap().six(), book::body(&short, 2, t).unwrap().six());
        assert!(a.iter().zip(b).all(|(a, b)| (a - b).abs() < 1e-7), "{t}: {a:?} {b:?}");
        assert!((3..=6).all(|body| book::body(&whole, body, t) == book::body(&short, body, t)));
    }
}

#[test]
fn refused_by_6_with_the_last_good_state_for_thirty_one_minutes() {
    let (order, whole) = files();
    let own = night(&order, &cut(&whole, ENDS));
    assert_eq!(wrong(&own), None);
    assert_eq!(own.minutes.iter().filter(|m| m.step.answer.starts_with("REFUSED 6 0 ")).count() as u64, (LAST - ENDS) / MINUTE + 1);
    assert!(own.minutes.iter().filter(|m| m.moment >= ENDS).all(|m| m.whole.answer.starts_with("REFUSED 6 9 ")));
    // With the whole record, each call arrives.
    assert!(wrong(&night(&order, &whole)).unwrap().starts_with("ARRIVED 1 "));
}

#[test]
fn on_the_pane_every_frame_is_late_by_the_time_gone() {
    let (order, whole) = files();
    let list = watched(&night(&order, &cut(&whole, ENDS))).unwrap();
    let mut pane = Pane::Clear;
    list.iter().for_each(|(line, answer)| assert_eq!(&pane.answer(line.as_bytes()), answer, "{line}"));
    for (line, answer) in list.iter().filter(|(line, _)| line.starts_with("frame ")) {
        let t: u64 = line[6..].parse().unwrap();
        let right = if t > GOOD { *answer == format!("LATE {}", t - GOOD) } else { answer.starts_with("CURRENT ") || *answer == "EMPTY" };
        assert!(right, "{line}: {answer}");
    }
    assert!(list.contains(&(format!("frame {LAST}"), "LATE 1920000".to_string())));
    assert!(list.iter().filter(|(_, answer)| answer.starts_with("CURRENT")).count() > 9 * 60);
}

/// Between two minutes the figure is the result of half a step, within a millimetre.
#[test]
fn the_figure_is_the_flight() {
    let (order, whole) = files();
    let short = cut(&whole, ENDS);
    let own = night(&order, &short);
    let (older, newer) = (own.before[1].state().unwrap(), own.minutes[0].step.state().unwrap());
    let ran = run(&short, &order.setting, &older, 30_000, FIRST + 30_000, 1, [0; 5]);
    let shown = figure(&older, &newer, FIRST + 30_000);
    assert!((0..3).all(|i| (shown[i] - ran.state.position[i]).abs() < 1e-6), "{shown:?} {:?}", ran.state.position);
}
