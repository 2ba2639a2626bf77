//! The live pane: all its rules, its lines, and wrong panes that must be detected.

use reference::fields::state_shown;
use reference::motion::Outcome;
use reference::pane::{between, frame_shown, read, Frame, Line, Pane};
use reference::rule::State;
use reference::trial::chance::Chance;
use reference::trial::panes::{sessions, Session};
use reference::vector::finite;

fn at(moment: u64, centre: u64, position: [f64; 3], velocity: [f64; 3]) -> State {
    State { moment, centre, position, velocity, acceleration: [0.0; 3] }
}

/// The third power of the seconds gone, from 0 to 2 s.
fn two() -> Pane {
    let (first, last) = (at(5000, 1, [0.0; 3], [0.0; 3]), at(7000, 1, [8.0; 3], [12.0; 3]));
    Pane::Clear.take(&first).and_then(|pane| pane.take(&last)).unwrap()
}

#[test]
fn a_state_is_taken_by_its_centre_and_moment_alone() {
    let wild = |moment, centre| State { acceleration: [f64::NAN; 3], ..at(moment, centre, [f64::INFINITY; 3], [f64::NAN; 3]) };
    for pane in [Pane::One(wild(7, 9)), Pane::Two(wild(3, 9), wild(7, 9))] {
        for (moment, centre) in [(7, 9), (6, 9), (0, 9), (8, 1), (8, 9 + (1 << 32)), (7, 1)] {
            assert_eq!(pane.take(&wild(moment, centre)).err(), Some(18), "{moment} {centre}");
        }
        assert!([8, u64::MAX].iter().all(|&moment| pane.take(&wild(moment, 9)).is_ok()));
        assert!(matches!(pane.take(&wild(8, 9)), Ok(Pane::Two(a, b)) if (a.moment, b.moment) == (7, 8)));
    }
    assert!(matches!(Pane::Clear.take(&wild(u64::MAX, 0)), Ok(Pane::One(_))));
}

#[test]
fn a_refused_run_changes_nothing_and_another_is_taken() {
    let new = at(9000, 1, [1.0; 3], [0.0; 3]);
    let kept = |outcome| two().feed(outcome, &new).unwrap().newer().unwrap().moment;
    assert_eq!([Outcome::Refused(6), Outcome::Refused(7), Outcome::Arrived, Outcome::Going].map(kept), [7000, 7000, 9000, 9000]);
    assert!(matches!(two().feed(Outcome::Going, &at(7000, 1, [0.0; 3], [0.0; 3])), Err(18)));
}

#[test]
fn empty_current_and_late() {
    let one = Pane::One(at(5000, 1, [1.0; 3], [0.0; 3]));
    for t in [0, 4999, 5000, 5001, u64::MAX] {
        assert_eq!((Pane::Clear.frame(t), one.frame(t)), (Ok(Frame::Empty), Ok(Frame::Empty)));
    }
    let current = |x: f64| Ok(Frame::Current([x; 3]));
    let frames = [(0, Ok(Frame::Empty)), (4999, Ok(Frame::Empty)), (5000, current(0.0)), (6000, current(1.0)), (7000, current(8.0)),
        (7001, Ok(Frame::Late(1))), (u64::MAX, Ok(Frame::Late(u64::MAX - 7000)))];
    frames.iter().for_each(|(t, expected)| assert_eq!(two().frame(*t), *expected, "{t}"));
}

/// Figures by another program in this order. Another order in c2 or in c3 and the Hermite form give other bits in the first three;
/// floats made from the moments themselves do in the last.
#[test]
fn the_order_of_operations() {
    for (t0, t1, t, [p0, v0, p1, v1], figure) in [
        (411357600000, 411357660000, 411357617001,
            [0x40e57ec399b19840, 0x3fa03aa70b3e0c00, 0x40e5816939fbf510, 0x3f98ad030724ddac], 0x40e57f4e2d835664),
        (411357600001, 411357661235, 411357641000,
            [0x40709686103a9c00, 0xc01b272a496478fa, 0xc0610d4394c1f190, 0xc01b37d05dc373af], 0xc0038dfe1e451300),
        (3, 10, 8, [0x406fd8067d94d800, 0x4015058fbbe08802, 0x406e6b48272c2e19, 0x4014ffb1119869da], 0x406eb37d5f6bda2f),
        ((1 << 63) + 1, (1 << 63) + 3001, (1 << 63) + 1001, [1.0f64, 2.0, 8.0, 3.0].map(f64::to_bits), 0x40084bda12f684bdu64),
    ] {
        let state = |t, p, v| at(t, 1, [f64::from_bits(p); 3], [f64::from_bits(v); 3]);
        assert_eq!(between(&state(t0, p0, v0), &state(t1, p1, v1), t).map(f64::to_bits), [figure; 3]);
    }
}

#[test]
fn a_figure_that_is_not_finite() {
    let pair = |a: [f64; 2], b: [f64; 2]| Pane::Two(at(10, 1, [0.0, a[0], -0.0], [0.0, a[1], 0.0]), at(20, 1, [0.0, b[0], -0.0], [0.0, b[1], 0.0]));
    let refused = |pane: Pane| [10, 11, 19, 20].map(|t| pane.frame(t) == Err(7));
    assert_eq!(refused(pair([1.0, 0.0], [2.0, 0.0])), [false; 4]);
    for x in [f64::INFINITY, f64::NEG_INFINITY, f64::NAN] {
        assert_eq!(refused(pair([1.0, x], [2.0, 0.0])), [false, true, true, false]);
        assert_eq!(refused(pair([1.0, x], [2.0, x])), [false, true, true, false]);
        assert_eq!(refused(pair([x, 0.0], [2.0, 0.0])), [true, true, true, false]);
        assert_eq!(refused(pair([1.0, 0.0], [x, 0.0])), [false, true, true, true]);
    }
    // The ends keep the sign of a zero.
    assert_eq!(frame_shown(pair([1.0, 0.0], [2.0, 0.0]).frame(20)), "CURRENT 0000000000000000 4000000000000000 8000000000000000");
}

#[test]
fn lines() {
    let s = |t| state_shown(&at(t, 2, [1.0; 3], [0.0; 3]));
    let nan = s(90).replace("3ff0000000000000", "nan");
    let mut pane = Pane::Clear;
    for (line, answer) in [
        ("frame 10".to_string(), "EMPTY"), (format!("take {}", s(10)), "OK"), ("frame 10".to_string(), "EMPTY"),
        (format!("feed GOING 3 {} 0 1 2 3 4", s(30)), "OK"), ("frame 31".to_string(), "LATE 1"),
        (format!("feed ARRIVED 0 {} 0 1 2 3 4", s(30)), "REFUSED 18"), (format!("feed REFUSED 6 2 {} 0 1 2 3 4", s(50)), "UNCHANGED"),
        (format!("feed REFUSED 7 0 {nan} 0 1 2 3 4"), "UNCHANGED"), (format!("feed ARRIVED 0 {nan} 0 1 2 3 4"), "UNREADABLE"),
        (format!("take {nan}"), "UNREADABLE"), (format!("feed REFUSED 6 {} 0 1 2 3 4", s(50)), "UNREADABLE"),
        (format!("feed ARRIVED 1 {} 0 1 2 3", s(50)), "UNREADABLE"), (format!("take {} 0", s(50)), "UNREADABLE"),
        (format!("feed UNCHANGED 1 {} 0 1 2 3 4", s(50)), "UNREADABLE"), (format!("feed {}", s(50)), "UNREADABLE"),
        ("clear ".to_string(), "UNREADABLE"), ("Clear".to_string(), "UNREADABLE"), (String::new(), "UNREADABLE"), ("frame".to_string(), "UNREADABLE"),
        ("frame 18446744073709551616".to_string(), "UNREADABLE"), ("frame -1".to_string(), "UNREADABLE"), ("frame 31".to_string(), "LATE 1"),
        ("frame 20".to_string(), "CURRENT 3ff0000000000000 3ff0000000000000 3ff0000000000000"), ("clear".to_string(), "EMPTY"),
        ("frame 20".to_string(), "EMPTY"), (format!("take {}", s(10).replace("10 2", "10 5")), "OK"),
    ] {
        assert_eq!(pane.answer(line.as_bytes()), answer, "{line}");
    }
}

/// The answer of a wrong pane to a line, if it differs from the right one.
type Fault = fn(&mut Pane, Line) -> Option<String>;

/// Takes the next state for any centre or moment.
fn forced(pane: &mut Pane, s: State, when: impl Fn(&State) -> bool) -> Option<String> {
    let last = pane.newer().filter(when)?;
    *pane = Pane::Two(last, s);
    Some("OK".to_string())
}

fn offered(line: Line) -> Option<State> {
    match line {
        Line::Take(s) | Line::Feed(Outcome::Arrived | Outcome::Going, s) => Some(s),
        _ => None,
    }
}

/// The answer of a wrong pane to a frame, by the states that it keeps.
fn framed(line: Line, say: impl Fn(u64) -> Option<String>) -> Option<String> {
    if let Line::Frame(t) = line { say(t) } else { None }
}

fn late(pane: &Pane, t: u64) -> Option<(u64, State)> {
    match pane.frame(t) {
        Ok(Frame::Late(by)) => Some((by, pane.newer()?)),
        _ => None,
    }
}

fn end_by_formula(pane: &Pane, t: u64, newer: bool) -> Option<String> {
    let Pane::Two(a, b) = pane else { return None };
    if t != if newer { b.moment } else { a.moment } {
        return None;
    }
    let position = between(a, b, t);
    Some(frame_shown(if finite(position) { Ok(Frame::Current(position)) } else { Err(7) }))
}

const FAULTS: [(&str, Fault); 12] = [
    ("late with the last position", |p, l| framed(l, |t| late(p, t).map(|(by, s)| format!("LATE {by} {:?}", s.position)))),
    ("late called current with the last position", |p, l| framed(l, |t| late(p, t).map(|(_, s)| frame_shown(Ok(Frame::Current(s.position)))))),
    ("the newer end by the formula", |p, l| framed(l, |t| end_by_formula(p, t, true))),
    ("the older end by the formula", |p, l| framed(l, |t| end_by_formula(p, t, false))),
    ("a state of another centre taken", |p, l| offered(l).and_then(|s| forced(p, s, |last| s.moment > last.moment))),
    ("moments equal accepted", |p, l| offered(l).and_then(|s| forced(p, s, |last| s.moment == last.moment && s.centre == last.centre))),
    ("an earlier moment accepted", |p, l| offered(l).and_then(|s| forced(p, s, |last| s.centre == last.centre))),
    ("a refused run's state taken", |p, l| {
        if let Line::Feed(Outcome::Refused(_), s) = l {
            *p = p.take(&s).unwrap_or(*p);
        }
        None
    }),
    ("a refused run clears", |p, l| {
        if let Line::Feed(Outcome::Refused(_), _) = l {
            *p = Pane::Clear;
        }
        None
    }),
    ("one state called current", |p, l| framed(l, |t| match *p {
        Pane::One(s) if s.moment == t => Some(frame_shown(Ok(Frame::Current(s.position)))),
        _ => None,
    })),
    ("one state called late", |p, l| framed(l, |t| match *p {
        Pane::One(s) if s.moment < t => Some(frame_shown(Ok(Frame::Late(t - s.moment)))),
        _ => None,
    })),
    ("the newer end called late", |p, l| framed(l, |t| match *p {
        Pane::Two(_, s) if s.moment == t => Some("LATE 0".to_string()),
        _ => None,
    })),
];

/// How many answers of a wrong pane differ from the right one's in a session.
fn differing(fault: Fault, session: &Session) -> usize {
    let mut pane = Pane::Clear;
    let wrong = session.lines.iter().map(|line| read(line).and_then(|l| fault(&mut pane, l)).unwrap_or_else(|| pane.answer(line)) + "\n");
    wrong.zip(session.answers()).filter(|(got, expected)| got.as_bytes() != expected).count()
}

#[test]
fn wrong_panes_are_told_apart() {
    let list = sessions(&mut Chance::new(1), 60, &[]);
    assert_eq!(list.iter().map(|s| differing(|_, _| None, s)).sum::<usize>(), 0);
    for (name, fault) in FAULTS {
        let seen = list.iter().filter(|s| differing(fault, s) > 0).count();
        assert!(seen >= 5, "{name}: seen in {seen} sessions of {}", list.len());
    }
}
