//! Request R-6: states about another centre, and the moves between them.

use reference::ask::answer;
use reference::conic::conic;
use reference::extras::Extras;
use reference::fixed::earth_fixed;
use reference::hour::END;
use reference::motion::{of_an_order, run, Outcome};
use reference::rule::{acceleration, Setting, State};
use reference::moves::moved;
use reference::trial::books::{build, pieces, Piece};
use reference::trial::centres::used_centre;
use reference::trial::chance::Chance;
use reference::trial::earth::{flights, orbits, pulls, turns, with};
use reference::trial::trip::{trip, NOMINAL};
use reference::trial::world::World;

/// The Moon at (4, 0, 0) and the Sun at (0, 8, 0) for 100 ms, the Moon moving by (2, 0, 0) km/s, the Sun by (0, 0, -4).
fn book() -> Vec<u8> {
    let piece = |body, coefficients: [f64; 6]| Piece { body, start: 0, span: 100, coefficients: coefficients.to_vec() };
    build(&[piece(2, [4.0, 0.1, 0.0, 0.0, 0.0, 0.0]), piece(3, [0.0, 0.0, 8.0, 0.0, 0.0, -0.2])])
}

/// At this moment of the book w is 0.
const MIDDLE: u64 = 50;

fn setting(m: [f64; 3]) -> Setting {
    Setting { coefficients: [m[0], m[1], m[2], 0.0, 0.0, 0.0], dut: 0, extras: Extras::NONE, rule: 0 }
}

fn state(centre: u64, position: [f64; 3], velocity: [f64; 3]) -> State {
    State::bare(MIDDLE, centre, position, velocity)
}

/// Bits of moment, centre and coordinates, and of the stored acceleration.
fn bits(s: &State) -> (u64, u64, [[u64; 3]; 3]) {
    (s.moment, s.centre, [s.position, s.velocity, s.acceleration].map(|v| v.map(f64::to_bits)))
}

/// By hand: the Moon is at (4, 0, 0), and the craft at (2, 0, 0) from it. The Moon of 16 pulls by -16/4. The Earth of 8 is at (-4,
/// 0, 0), and the craft is 6 from it: -(8/36 - 8/16).
#[test]
fn an_acceleration_about_the_moon() {
    let at = |setting: &Setting, centre| acceleration(&book(), setting, MIDDLE, centre, [2.0, 0.0, 0.0]);
    let a = at(&setting([8.0, 16.0, 0.0]), 2).unwrap();
    let earth = (8.0 * 6.0) / 216.0 + (8.0 * -4.0) / 64.0;
    assert_eq!(a, [-4.0 - earth, 0.0, 0.0]);
    // The Sun of 64 is at (-4, 8, 0) from the Moon, and the craft (6, -8, 0) from it: a distance of 10.
    let sun = |m: f64| [(m * 6.0) / 1000.0, (m * -8.0) / 1000.0];
    let r3 = 80.0 * 80f64.sqrt();
    let fall = [(64.0 * -4.0) / r3, (64.0 * 8.0) / r3];
    let a = at(&setting([8.0, 16.0, 64.0]), 2).unwrap();
    assert_eq!(a, [(-4.0 - earth) - (sun(64.0)[0] + fall[0]), 0.0 - (sun(64.0)[1] + fall[1]), 0.0]);
}

/// By hand: a craft at (2, 0, 0) from the Earth, at (0, 4, 0) km/s.
#[test]
fn a_move_by_hand() {
    let all = setting([8.0, 16.0, 64.0]);
    let earth = of_an_order(&book(), &all, &state(1, [2.0, 0.0, 0.0], [0.0, 4.0, 0.0]));
    let moon = moved(&book(), &all, &earth, 2).unwrap();
    assert_eq!((moon.centre, moon.position, moon.velocity), (2, [-2.0, 0.0, 0.0], [-2.0, 4.0, 0.0]));
    let sun = moved(&book(), &all, &moon, 3).unwrap();
    assert_eq!((sun.centre, sun.position, sun.velocity), (3, [2.0, -8.0, 0.0], [0.0, 4.0, 4.0]));
    let back = moved(&book(), &all, &sun, 1).unwrap();
    assert_eq!(bits(&back), bits(&earth));
}

#[test]
fn refusals_of_a_move() {
    let all = setting([8.0, 16.0, 64.0]);
    let fine = state(1, [2.0, 0.0, 0.0], [0.0, 4.0, 0.0]);
    let number = |setting: &Setting, s: State, new| moved(&book(), setting, &s, new).err();
    let late = State { moment: 100, ..fine };
    let nowhere = State { position: [f64::NAN; 3], ..fine };
    assert_eq!(moved(&book()[1..], &setting([0.0; 3]), &late, 9).err(), Some(1));
    assert_eq!(number(&setting([0.0; 3]), State { centre: 7, ..nowhere }, 0), Some(4));
    assert_eq!(number(&all, State { centre: 4, moment: END, ..nowhere }, 2), Some(14));
    assert_eq!(number(&all, State { moment: END, ..nowhere }, u64::MAX), Some(14));
    assert_eq!(number(&all, State { moment: END, ..nowhere }, 2), Some(3));
    assert_eq!(number(&all, State { moment: 100, ..nowhere }, 2), Some(7));
    assert_eq!(number(&all, late, 2), Some(6));
    assert_eq!(number(&all, State { centre: 3, ..late }, 1), Some(6));
    assert_eq!(number(&all, State { velocity: [f64::MAX; 3], ..fine }, 2), None);
    // For the same centre nothing is looked up.
    let held = State { centre: 3, position: [-0.0, f64::MAX, 5e-324], acceleration: [f64::NAN, -0.0, f64::INFINITY], ..late };
    assert_eq!(moved(&book(), &all, &held, 3).map(|s| bits(&s)), Ok(bits(&held)));
}

/// Both lookups come before a result that is not finite, and that before the rule's own lookups.
#[test]
fn cover_before_overflow() {
    let piece = |body, start, x: f64| Piece { body, start, span: 10, coefficients: vec![x, 0.0, 0.0, 0.0, 0.0, 0.0] };
    let book = build(&[piece(2, 0, 1.7e308), piece(3, 0, -1.7e308), piece(4, 10, 1.0)]);
    let setting = Setting { coefficients: [1.0, 1.0, 1.0, 1.0, 0.0, 0.0], dut: 0, extras: Extras::NONE, rule: 0 };
    let number = |centre, new| {
        let s = State::bare(0, centre, [0.0; 3], [0.0; 3]);
        moved(&book, &setting, &s, new).err()
    };
    assert_eq!((number(2, 3), number(3, 2)), (Some(7), Some(7)));
    assert_eq!((number(2, 4), number(4, 3)), (Some(6), Some(6)));
    // The result is finite, and the rule finds no cover for Venus there.
    assert_eq!((number(1, 2), number(3, 1)), (Some(6), Some(6)));
}

#[test]
fn centres_of_the_other_calls() {
    let earth = state(1, [2.0, 0.0, 0.0], [0.0, 2.0, 0.0]);
    let about = |centre| State { centre, ..earth };
    for centre in 1..=6 {
        assert_eq!(conic(8.0, &about(centre)).map(|c| c.centre), Ok(centre));
    }
    for centre in [0, 7, u64::MAX] {
        assert_eq!(conic(8.0, &State { position: [f64::NAN; 3], ..about(centre) }), Err(14));
        assert_eq!(conic(0.0, &about(centre)), Err(4));
    }
    for centre in [0, 2, 6, 7] {
        assert_eq!(earth_fixed(0, 0, &State { moment: END, ..about(centre) }), Err(14));
        assert_eq!(earth_fixed(2, 0, &about(centre)), Err(4));
    }
    assert_eq!(earth_fixed(0, 51, &earth), Err(3));
    // The rule's own lookups: the centre in its turn, at the target too.
    let all = setting([8.0, 16.0, 64.0]);
    let late = State { moment: 100, ..about(2) };
    assert_eq!(acceleration(&book(), &all, 100, 2, [1.0; 3]), Err(6));
    let outcome = |s: &State, target| run(&book(), &all, s, 2, target, 9, [0; 5]).outcome;
    assert_eq!(outcome(&late, 100), Outcome::Refused(6));
    assert_eq!(outcome(&late, 102), Outcome::Refused(6));
    assert_eq!(outcome(&State { centre: 5, ..late }, END), Outcome::Refused(14));
}

/// About the Earth and by the old rule every new line gives the answer of the old one.
#[test]
fn about_the_earth_as_before() {
    let mut c = Chance::new(21);
    let mut arrived = 0;
    for _ in 0..60 {
        let w = World::new("", build(&pieces(&mut c)), 1);
        let say = |line: &str| answer(w.bytes(), line.as_bytes());
        for _ in 0..40 {
            for make in [turns, orbits, pulls] {
                for [old, new] in make(&mut c, &w) {
                    assert_eq!(say(&new), say(&old));
                }
            }
            for [old, new] in flights(&mut c, &w) {
                let told = say(&old);
                let at = if told.starts_with("REFUSED") { 4 } else { 3 };
                let new = say(&new);
                let mut fields: Vec<&str> = new.split(' ').collect();
                fields.drain(at + 7..at + 10);
                assert_eq!(fields.join(" "), with(&told, &[(at, "1")]));
                arrived += usize::from(told.starts_with("ARRIVED"));
            }
        }
    }
    assert!(arrived > 100, "{arrived}");
}

/// There and back on the real book: within a float step or two of the greater number.
#[test]
fn there_and_back() {
    let bytes = std::fs::read("../data/books/book31all.bin").unwrap();
    let w = World::new("", bytes, 1);
    let mut c = Chance::new(22);
    for _ in 0..2000 {
        let mut t = trip(&mut c, &w);
        t.setting.coefficients = NOMINAL;
        t.state.centre = c.between(1, 6);
        let there = moved(w.bytes(), &t.setting, &t.state, used_centre(&mut c, &t.setting)).unwrap();
        let back = moved(w.bytes(), &t.setting, &there, t.state.centre).unwrap();
        let far = |a: [f64; 3], b: [f64; 3], size: f64| (0..3).all(|i| (a[i] - b[i]).abs() <= size);
        assert_eq!((back.moment, back.centre), (t.state.moment, t.state.centre));
        assert!(far(back.position, t.state.position, 1e9 * f64::EPSILON));
        assert!(far(back.velocity, t.state.velocity, 100.0 * f64::EPSILON));
    }
}

/// A leg about one centre and a leg about the next, whole and cut into portions with wrong guesses: the same bits.
#[test]
fn portions_of_a_journey() {
    let bytes = std::fs::read("../data/books/book31all.bin").unwrap();
    let w = World::new("", bytes, 1);
    let mut c = Chance::new(23);
    for _ in 0..40 {
        let mut t = trip(&mut c, &w);
        t.h = 60_000;
        t.budget = u32::MAX;
        t = t.kept(w.bytes());
        let (mut whole, mut cut) = (t.state, t.state);
        for _ in 0..3 {
            let target = whole.moment + 60_000 * c.between(0, 30);
            let ran = run(w.bytes(), &t.setting, &whole, t.h, target, u32::MAX, [0; 5]);
            let mut outcome = Outcome::Going;
            while outcome == Outcome::Going {
                let guesses = [c.below(90); 5];
                let part = run(w.bytes(), &t.setting, &cut, t.h, target, 1 + c.below(9) as u32, guesses);
                (cut, outcome) = (part.state, part.outcome);
            }
            assert_eq!((outcome, bits(&cut)), (ran.outcome, bits(&ran.state)));
            let new = used_centre(&mut c, &t.setting);
            match (moved(w.bytes(), &t.setting, &ran.state, new), moved(w.bytes(), &t.setting, &cut, new)) {
                (Ok(a), Ok(b)) => (whole, cut) = (a, b),
                (a, b) => assert_eq!(a.err(), b.err()),
            }
        }
    }
}
