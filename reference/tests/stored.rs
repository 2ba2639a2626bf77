//! Request R-8: the acceleration stored with the state.

use reference::ask::answer;
use reference::extras::Extras;
use reference::hour::END;
use reference::motion::{of_an_order, run, step, Outcome, Ran};
use reference::moves::moved;
use reference::rule::{acceleration, inject, ruled, Setting, State};
use reference::strip::strip;
use reference::trial::books::{build, pieces, Piece};
use reference::trial::chance::{Chance, NOT_FINITE};
use reference::trial::runs::RUN;
use reference::trial::stored::STORED;
use reference::trial::trip::{trip, Trip};
use reference::trial::world::World;

/// The Moon at (4, 0, 0) and the Sun at (0, 8, 0) for 100 ms, the Moon 100 ms more.
fn book() -> Vec<u8> {
    let piece = |body, span, coefficients: [f64; 6]| Piece { body, start: 0, span, coefficients: coefficients.to_vec() };
    build(&[piece(2, 200, [4.0, 0.0, 0.0, 0.0, 0.0, 0.0]), piece(3, 100, [0.0, 0.0, 8.0, 0.0, 0.0, 0.0])])
}

fn setting(m: [f64; 3]) -> Setting {
    Setting { coefficients: [m[0], m[1], m[2], 0.0, 0.0, 0.0], dut: 0, extras: Extras::NONE, rule: 0 }
}

const EARTH: [f64; 3] = [8.0, 0.0, 0.0];

fn start() -> State {
    State::bare(50, 1, [2.0, 0.0, 0.0], [0.0, 4.0, 0.0])
}

fn bits(s: &State) -> (u64, u64, [[u64; 3]; 3]) {
    (s.moment, s.centre, [s.position, s.velocity, s.acceleration].map(|v| v.map(f64::to_bits)))
}

/// Refused at the start with this number: state, steps and guesses as given.
fn refused(ran: &Ran, number: u64, given: &State) {
    assert_eq!((ran.outcome, ran.steps, ran.guesses), (Outcome::Refused(number), 0, [9; 5]));
    assert_eq!(bits(&ran.state), bits(given));
}

/// By hand: the pull of 8 at 2 is 2, and the zeros have their sign. The value stored before is not read.
#[test]
fn an_injection() {
    for stored in [[0.0; 3], [f64::NAN; 3]] {
        let s = inject(&book(), &setting(EARTH), &State { acceleration: stored, ..start() }).unwrap();
        assert_eq!(bits(&s), bits(&State { acceleration: [-2.0, -0.0, -0.0], ..start() }));
    }
    let number = |m, s: State| inject(&book(), &setting(m), &s).err();
    let nowhere = State { velocity: [f64::INFINITY; 3], ..start() };
    assert_eq!(inject(&book()[1..], &setting([0.0; 3]), &nowhere).err(), Some(1));
    assert_eq!(number([0.0; 3], State { centre: 9, ..nowhere }), Some(4));
    assert_eq!(number(EARTH, State { centre: 2, moment: END, ..nowhere }), Some(14));
    assert_eq!(number(EARTH, State { moment: END, ..nowhere }), Some(3));
    assert_eq!(number([8.0, 0.0, 1.0], State { moment: 150, ..nowhere }), Some(7));
    assert_eq!(number([8.0, 0.0, 1.0], State { moment: 150, ..start() }), Some(6));
    assert_eq!(number(EARTH, State { position: [0.0; 3], ..start() }), Some(7));
}

/// Any changed bit is another value, also the sign of a zero, at any budget and at the target; and so is a value that is not
/// finite.
#[test]
fn another_bit_is_15() {
    let right = inject(&book(), &setting(EARTH), &start()).unwrap();
    let fly = |s: &State, target, budget| run(&book(), &setting(EARTH), s, 2, target, budget, [9; 5]);
    assert_eq!(fly(&right, 50, 0).outcome, Outcome::Arrived);
    assert_eq!(fly(&right, 52, 0).outcome, Outcome::Going);
    let mut wrong = Vec::new();
    for axis in 0..3 {
        let changed = (0..64).map(|bit| f64::from_bits(right.acceleration[axis].to_bits() ^ 1 << bit));
        for x in changed.chain(NOT_FINITE.map(f64::from_bits)) {
            let mut s = right;
            s.acceleration[axis] = x;
            wrong.push(s);
        }
    }
    for s in wrong {
        for (target, budget) in [(50, 0), (50, 9), (52, 0), (52, 1), (49, 1), (51, 1)] {
            refused(&fly(&s, target, budget), 15, &s);
        }
        refused(&run(&book(), &setting(EARTH), &s, 3, 49, 1, [9; 5]), 15, &s);
        refused(&fly(&s, END, 9), 3, &s);
    }
}

/// The rule's own 6 or 7 comes before 15, and all of them before 2 and 5.
#[test]
fn none_is_refused_at_once() {
    let uncovered = State { moment: 150, ..start() };
    let centre = State { position: [0.0; 3], ..start() };
    let lit = Setting { extras: Extras { k: 1.0, ..Extras::NONE }, ..setting(EARTH) };
    for (setting, s, number) in [(setting([8.0, 1.0, 1.0]), uncovered, 6), (lit, uncovered, 6), (setting(EARTH), centre, 7)] {
        for acceleration in [[0.0; 3], [f64::NAN; 3]] {
            let s = State { acceleration, ..s };
            for (h, target, budget) in [(2, s.moment, 0), (2, s.moment, 9), (2, s.moment + 2, 0), (2, s.moment + 2, 1), (3, 0, 1)] {
                refused(&run(&book(), &setting, &s, h, target, budget, [9; 5]), number, &s);
            }
        }
    }
    // An old order too: the lone line, at the target and before 2.
    let order = |h: u32, target: u64| {
        let t = Trip { setting: setting([8.0, 0.0, 1.0]), state: uncovered, h, target, budget: 0, guesses: [0; 5] };
        String::from_utf8(strip(&[&t.order()[..], &book()].concat())).unwrap()
    };
    for (h, target, told) in [(2, 150, "REFUSED 6\n"), (3, 0, "REFUSED 6\n"), (3, END, "REFUSED 3\n")] {
        assert_eq!(order(h, target), told);
    }
}

/// A step uses the stored value as its first slope, and its new state has the rule's.
#[test]
fn a_step_keeps_it() {
    let mut c = Chance::new(41);
    let mut steps = 0;
    for _ in 0..60 {
        let w = World::new("", build(&pieces(&mut c)), 1);
        for (_, make) in RUN {
            for (_, t) in make(&mut c, &w) {
                let t = t.kept(w.bytes());
                let ran = t.fly(w.bytes());
                if ran.steps > 0 {
                    let own = ruled(w.bytes(), &t.setting, &ran.state).unwrap();
                    assert_eq!(bits(&own), bits(&ran.state));
                    steps += ran.steps;
                }
            }
        }
    }
    assert!(steps > 1000, "{steps}");
    // Another first slope gives another step.
    let right = of_an_order(&book(), &setting(EARTH), &start());
    let wrong = State { acceleration: [-2.5, 0.0, 0.0], ..right };
    let stepped = |s: &State| step(&book(), &setting(EARTH), s, 2).unwrap();
    assert_ne!(bits(&stepped(&right)), bits(&stepped(&wrong)));
}

/// Steps that end exactly on a body that hardly pulls. Mostly all four stages pass, and the new state has no acceleration. The
/// state before it is returned with the guesses that cover its moment. The next call is refused again.
#[test]
fn a_new_state_without() {
    let mut c = Chance::new(42);
    let (_, make) = STORED.iter().find(|(name, _)| *name == "onto a body").unwrap();
    let w = World::new("", std::fs::read("../data/books/book31all.bin").unwrap(), 1);
    let mut seen = [0; 2];
    for _ in 0..400 {
        let (_, mut t) = make(&mut c, &w).remove(0);
        t.budget = 1000;
        let ran = t.fly(w.bytes());
        let Outcome::Refused(number) = ran.outcome else { continue };
        assert_eq!(number, 7);
        let fourth = State { moment: ran.state.moment + u64::from(t.h), ..ran.state };
        let whole = f64::from(t.h) / 1000.0;
        let p4 = [0, 1, 2].map(|i| fourth.position[i] + whole * fourth.velocity[i]);
        if acceleration(w.bytes(), &t.setting, fourth.moment, fourth.centre, p4).is_ok() {
            seen[usize::from(ran.steps > 0)] += 1;
        }
        t.state = ran.state;
        t.guesses = ran.guesses;
        assert_eq!(bits(&t.fly(w.bytes()).state), bits(&ran.state));
        assert_eq!(t.fly(w.bytes()).guesses, ran.guesses);
    }
    assert!(seen[0] > 20 && seen[1] > 20, "{seen:?}");
}

/// A move computes it anew; a move to the same centre returns the stored value. A new state that has none is refused after 7
/// (result).
#[test]
fn moves() {
    let all = setting([8.0, 16.0, 1.0]);
    let odd = State { acceleration: [f64::NAN, -0.0, 1e300], ..start() };
    assert_eq!(moved(&book(), &all, &odd, 1).map(|s| bits(&s)), Ok(bits(&odd)));
    let moon = moved(&book(), &all, &odd, 2).unwrap();
    assert_eq!(bits(&moon), bits(&inject(&book(), &all, &moon).unwrap()));
    assert_eq!(moon.position, [-2.0, 0.0, 0.0]);
    // Both centres have cover and the Sun has none.
    let late = State { moment: 150, ..odd };
    assert_eq!(moved(&book(), &all, &late, 2).err(), Some(6));
    assert_eq!(moved(&book(), &all, &late, 1).map(|s| bits(&s)), Ok(bits(&late)));
    assert!(moved(&book(), &setting([8.0, 16.0, 0.0]), &late, 2).is_ok());
    // Onto the new centre; and so far out that the result is finite and has no acceleration.
    assert_eq!(moved(&book(), &all, &State { position: [4.0, 0.0, 0.0], ..odd }, 2).err(), Some(7));
    assert_eq!(moved(&book(), &all, &State { position: [1e200; 3], ..odd }, 2).err(), Some(7));
    assert_eq!(moved(&book(), &all, &State { position: [1e200; 3], ..late }, 2).err(), Some(6));
}

/// Earth-fixed and conic take the whole state and do not read what is stored.
#[test]
fn not_read() {
    let mut c = Chance::new(43);
    let w = World::none();
    for _ in 0..500 {
        let t = trip(&mut c, &w);
        let Trip { state: State { moment, position, velocity, .. }, .. } = t;
        let hex = |x: &f64| format!("{:016x}", x.to_bits());
        let six = position.iter().chain(&velocity).map(hex).collect::<Vec<_>>().join(" ");
        let stored = [c.any_bits(), c.not_finite(), c.edge()].iter().map(hex).collect::<Vec<_>>().join(" ");
        let say = |line: String| answer(&[], line.as_bytes());
        assert_eq!(say(format!("turn 0 0 {moment} 1 {six} {stored}")), say(format!("fixed 0 {moment} {six}")));
        assert_eq!(say(format!("turn 0 0 {moment} 1 {six}")), "UNREADABLE");
        let m = hex(&398603.2);
        assert_eq!(say(format!("orbit {m} {moment} 1 {six} {stored}")), say(format!("conic {m} {six}")));
    }
}
