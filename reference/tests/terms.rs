//! Request R-7: the oblate Earth and sunlight.

use reference::ask::answer;
use reference::extras::Extras;
use reference::motion::{of_an_order, run, Outcome};
use reference::rule::{acceleration, Setting, State};
use reference::moves::moved;
use reference::strip::{strip, strip144};
use reference::trial::books::{build, pieces, sun_at_home, Piece};
use reference::trial::centres::centred;
use reference::trial::chance::{Chance, NOT_FINITE};
use reference::trial::extras::value;
use reference::trial::lookups::ACCEL;
use reference::trial::runs::RUN;
use reference::trial::strips::input;
use reference::trial::terms::TERMS;
use reference::trial::trip::Trip;
use reference::trial::world::World;

/// The Moon at (4, 0, 0) and the Sun at (0, 8, 0) for 100 ms. Then the Sun for 100 ms more, on the centre of the Earth.
fn book() -> Vec<u8> {
    let piece = |body, start, coefficients: [f64; 6]| Piece { body, start, span: 100, coefficients: coefficients.to_vec() };
    let moon = piece(2, 0, [4.0, 0.0, 0.0, 0.0, 0.0, 0.0]);
    build(&[moon, piece(3, 0, [0.0, 0.0, 8.0, 0.0, 0.0, 0.0]), piece(3, 100, [0.0; 6])])
}

fn setting(m: [f64; 3], [j, a, k]: [f64; 3]) -> Setting {
    Setting { coefficients: [m[0], m[1], m[2], 0.0, 0.0, 0.0], dut: 0, extras: Extras { j, a, k }, rule: 0 }
}

/// At moment 50 of the book, about a centre.
fn at(m: [f64; 3], extras: [f64; 3], centre: u64, p: [f64; 3]) -> Result<[f64; 3], u64> {
    acceleration(&book(), &setting(m, extras), 50, centre, p)
}

const EARTH: [f64; 3] = [8.0, 0.0, 0.0];

/// By hand: g of 8 at 2 is 2, and ((1/2·2)·(16/4)) is 4; in the plane of the equator it is taken once, over the pole -2 times.
#[test]
fn oblate_by_hand() {
    assert_eq!(at(EARTH, [0.5, 4.0, 0.0], 1, [2.0, 0.0, 0.0]), Ok([-6.0, 0.0, 0.0]));
    assert_eq!(at(EARTH, [0.5, 4.0, 0.0], 1, [0.0, -2.0, 0.0]), Ok([0.0, 6.0, 0.0]));
    assert_eq!(at(EARTH, [0.5, 4.0, 0.0], 1, [0.0, 0.0, 2.0]), Ok([0.0, 0.0, 6.0]));
    // At (3, 0, 4): n is 25, r3 125, u 16/25.
    let (g, part, u) = ([(8.0 * 3.0) / 125.0, (8.0 * 4.0) / 125.0], (7.0 * 7.0) / 25.0, 16.0 / 25.0);
    let lost = [((0.3 * g[0]) * part) * (1.0 - 5.0 * u), ((0.3 * g[1]) * part) * (3.0 - 5.0 * u)];
    let a = at(EARTH, [0.3, 7.0, 0.0], 1, [3.0, 0.0, 4.0]);
    assert_eq!(a, Ok([-g[0] - lost[0], 0.0, -g[1] - lost[1]]));
}

/// By hand: the craft at (6, 0, 0) is (6, -8, 0) from the Sun, a distance of 10, and is pushed away from it.
#[test]
fn sunlight_by_hand() {
    let pushed = [(64.0 * 6.0) / 1000.0, (64.0 * -8.0) / 1000.0];
    let own = -((8.0 * 6.0) / 216.0);
    assert_eq!(at(EARTH, [0.0, 0.0, 64.0], 1, [6.0, 0.0, 0.0]), Ok([own + pushed[0], pushed[1], 0.0]));
    // Oblateness first: ((-g - lost) + light), each rounded.
    let g = (8.0 * 6.0) / 216.0;
    let lost = ((0.3 * g) * ((7.0 * 7.0) / 36.0)) * (1.0 - 5.0 * 0.0);
    assert_eq!(at(EARTH, [0.3, 7.0, 64.0], 1, [6.0, 0.0, 0.0]), Ok([(-g - lost) + pushed[0], pushed[1], 0.0]));
}

/// About the Moon at (4, 0, 0), a craft at (2, 0, 0) from it: 6 from the Earth, and (6, -8, 0) from the Sun.
#[test]
fn both_about_the_moon() {
    let m = [8.0, 16.0, 0.0];
    let [x, y, _] = at(m, [0.0; 3], 2, [2.0, 0.0, 0.0]).unwrap();
    let g = (8.0 * 6.0) / 216.0;
    let lost = (0.3 * g) * ((7.0 * 7.0) / 36.0);
    let pushed = [(64.0 * 6.0) / 1000.0, (64.0 * -8.0) / 1000.0];
    assert_eq!(at(m, [0.3, 7.0, 64.0], 2, [2.0, 0.0, 0.0]), Ok([(x - lost) + pushed[0], y + pushed[1], 0.0]));
}

/// Negative or not finite is 4, for each of the three, whether its term is left out or not; a zero of either sign passes.
#[test]
fn refused_by_4() {
    let mut bad: Vec<f64> = NOT_FINITE.iter().map(|&bits| f64::from_bits(bits)).collect();
    bad.extend([-1.0, -f64::MIN_POSITIVE, -f64::from_bits(1), -f64::MAX]);
    let fine = State::bare(50, 1, [2.0, 0.0, 0.0], [0.0; 3]);
    for x in bad {
        for extras in [[x, 0.0, 0.0], [0.0, x, 0.0], [0.0, 0.0, x], [1.0, x, 1.0]] {
            assert_eq!(at(EARTH, extras, 9, [f64::NAN; 3]), Err(4));
            let setting = setting(EARTH, extras);
            assert_eq!(moved(&book(), &setting, &fine, 1).err(), Some(4));
            assert_eq!(run(&book(), &setting, &fine, 3, 0, 0, [0; 5]).outcome, Outcome::Refused(4));
            assert_eq!(acceleration(&[], &setting, 50, 1, [1.0; 3]), Err(1));
        }
    }
    assert!(at(EARTH, [-0.0; 3], 1, [2.0, 0.0, 0.0]).is_ok());
}

/// The Sun is looked up for its light, does not pull, and is not a centre; its guess comes back as that of a used body.
#[test]
fn light_alone() {
    let lit = setting(EARTH, [0.0, 0.0, 1.0]);
    let number = |setting: &Setting, t, centre| acceleration(&book(), setting, t, centre, [2.0, 0.0, 0.0]).err();
    assert_eq!((number(&lit, 50, 1), number(&lit, 200, 1), number(&lit, 200, 3)), (None, Some(6), Some(14)));
    assert_eq!(number(&setting(EARTH, [1.0, 1.0, 0.0]), 200, 1), None);
    // On the centre of the Earth: the Sun has no pull there that could be refused, and gives light.
    assert_eq!(acceleration(&book(), &lit, 150, 1, [2.0, 0.0, 0.0]), Ok([-2.0 + 0.25, 0.0, 0.0]));
    assert_eq!(number(&setting([8.0, 0.0, 1.0], [0.0, 0.0, 1.0]), 150, 1), Some(7));
    // On the Sun.
    assert_eq!(at(EARTH, [0.0, 0.0, 1.0], 1, [0.0, 8.0, 0.0]), Err(7));
    let start = State::bare(50, 1, [2.0, 0.0, 0.0], [0.0; 3]);
    let ran = |setting: &Setting, target| run(&book(), setting, &of_an_order(&book(), setting, &start), 50, target, 9, [7; 5]);
    assert_eq!(ran(&lit, 100).guesses, [7, 2, 7, 7, 7]);
    assert_eq!(ran(&setting(EARTH, [1.0, 1.0, 0.0]), 100).guesses, [7; 5]);
    assert_eq!((ran(&lit, 250).outcome, ran(&lit, 250).steps), (Outcome::Refused(6), 2));
    assert_eq!(moved(&book(), &lit, &start, 3).err(), Some(14));
}

/// Terms left out and terms computed, by the sign of a zero over the pole, where 1 - 5u is negative; J above 0 with A zero is
/// computed.
#[test]
fn a_zero_is_left_out() {
    let x = |extras| at(EARTH, extras, 1, [0.0, 0.0, 2.0]).map(|a| a[0].to_bits());
    assert_eq!(x([0.0; 3]), Ok((-0.0f64).to_bits()));
    assert_eq!(x([-0.0, 7.0, -0.0]), Ok((-0.0f64).to_bits()));
    assert_eq!((x([1.0, 0.0, 0.0]), x([1.0, 1.0, 0.0])), (Ok(0), Ok(0)));
    assert_eq!(at(EARTH, [0.0, 1e200, 0.0], 1, [2.0, 0.0, 0.0]), Ok([-2.0, 0.0, 0.0]));
}

/// A part that is not finite is 7.
#[test]
fn refused_by_7() {
    for (extras, p) in [
        ([1.0, 1e155, 0.0], [2.0, 0.0, 0.0]),
        ([1.0, 1e153, 0.0], [1e-2, 0.0, 0.0]),
        ([f64::from_bits(1), 1e155, 0.0], [1e9, 0.0, 0.0]),
        ([1e308, 1.0, 0.0], [0.1, 0.0, 0.0]),
        ([0.0, 0.0, 1e308], [0.0, 8.0 + 1e-3, 0.0]),
    ] {
        assert!(at(EARTH, [0.0; 3], 1, p).is_ok());
        assert_eq!(at(EARTH, extras, 1, p), Err(7), "{extras:?}");
    }
    // The Sun so far off that its n is not finite, or its r3.
    for far in [1e155, 1e110] {
        let sun = Piece { body: 3, start: 0, span: 100, coefficients: vec![far, 0.0, 0.0, 0.0, 0.0, 0.0] };
        let number = |extras| acceleration(&build(&[sun.clone()]), &setting(EARTH, extras), 50, 1, [2.0, 0.0, 0.0]).err();
        assert_eq!((number([0.0, 0.0, 1.0]), number([1.0, 1.0, 0.0])), (Some(7), None));
    }
}

/// With J and K zero, of either sign and for every A, every answer is what it was.
#[test]
fn switched_off() {
    let mut c = Chance::new(31);
    for _ in 0..40 {
        let w = World::new("", build(&pieces(&mut c)), 1);
        for (_, make) in RUN.iter().chain(ACCEL) {
            for (_, t) in make(&mut c, &w) {
                let mut t = centred(&mut c, t);
                t.setting.extras = Extras::NONE;
                let t = t.kept(w.bytes());
                let mut other = t.clone();
                other.setting.extras = Extras { j: c.pick(&[0.0, -0.0]), a: value(&mut c), k: c.pick(&[0.0, -0.0]) };
                let lines = |t: &Trip| [t.fly_line(), t.pull_line(), t.move_line(2)];
                let said = |t: &Trip| lines(t).map(|line| answer(w.bytes(), line.as_bytes()));
                assert_eq!(said(&t), said(&other));
            }
        }
    }
}

/// strip144 with J, A and K zero prints what strip does, and its order needs all its bytes.
#[test]
fn both_orders() {
    let mut c = Chance::new(32);
    for i in 0..400 {
        let w = World::new("", build(&pieces(&mut c)), 1);
        let (_, t) = RUN[i % RUN.len()].1(&mut c, &w).remove(0);
        let old = input(&w, t);
        let new = [&old[..120], &[0; 24], &old[120..]].concat();
        assert_eq!(strip144(&new), strip(&old));
        assert_eq!(strip144(&new[..143]), b"REFUSED 1\n");
    }
    let w = World::new("", build(&sun_at_home()), 1);
    let mut seen = [false; 2];
    for (_, make) in TERMS.iter().cycle().take(200) {
        let (_, t) = make(&mut c, &w).remove(0);
        let mut t = t.shortened(w.bytes(), 20);
        t.state.centre = 1;
        let new = strip144(&[&t.order144()[..], w.bytes()].concat());
        seen[usize::from(new == strip(&[&t.order()[..], w.bytes()].concat()))] = true;
        if t.setting.extras.allowed().is_err() {
            assert_eq!(new, b"REFUSED 4\n");
        }
    }
    assert_eq!(seen, [true; 2]);
}

/// The lines with J, A and K and the stored acceleration: the longest has 561 bytes.
#[test]
fn lines() {
    let say = |line: &str| answer(&book(), line.as_bytes());
    let floats = |list: &[f64]| list.iter().map(|x| format!("{:016x}", x.to_bits())).collect::<Vec<_>>().join(" ");
    let (m, terms) = (floats(&[8.0, 0.0, 0.0, 0.0, 0.0, 0.0]), floats(&[0.5, 4.0, 0.0]));
    let (p, v) = (floats(&[2.0, 0.0, 0.0]), floats(&[0.0; 3]));
    assert_eq!(say(&format!("pull {m} 0 {terms} 0 50 1 {p}")), floats(&[-6.0, -0.0, -0.0]));
    assert_eq!(say(&format!("accel {m} 0 50 {p}")), floats(&[-2.0, -0.0, -0.0]));
    assert_eq!(say(&format!("pull {m} 0 0 50 1 {p}")), "UNREADABLE");
    assert_eq!(say(&format!("pull {m} 0 {terms} 0 0 50 1 {p}")), "UNREADABLE");
    let kept = floats(&[-6.0, -0.0, -0.0]);
    assert_eq!(say(&format!("inject {m} 0 {terms} 0 50 1 {p} {v}")), format!("50 1 {p} {v} {kept}"));
    assert_eq!(say(&format!("move {m} 0 {terms} 0 50 1 {p} {v} {p} 1")), format!("50 1 {p} {v} {p}"));
    let long = |x: u64| format!("{x:020}");
    let (dut, moment, end) = (long(0), format!("{} {}", long(50), long(1)), [2, 50, 0, 0, 0, 0, 0, 0].map(long).join(" "));
    let longest = format!("fly {m} {dut} {terms} {dut} {moment} {p} {v} {kept} {end}");
    assert_eq!((longest.len(), say(&longest)), (561, format!("ARRIVED 0 50 1 {p} {v} {kept} 0 0 0 0 0")));
}
