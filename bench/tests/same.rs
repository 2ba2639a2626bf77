//! Every exported call compared with the reference, on inputs from a seed: answers, refusals, and the state of a run, bit by bit.

use belfrywool as proved;
use belfrywool::{Body, Book, Coordinates, Date, Day, Dut, EarthCoordinates, EarthSetting, Guesses, Moment, Motion, Parts, Refusal, Rule, Run, SignedParts};
use bench::{best, plain};
use reference::extras::Extras;
use reference::hour::CIRCLE;
use reference::sphere::QUARTER;
use reference::trial::centres::{centred, some_centre};
use reference::trial::chance::Chance;
use reference::trial::floats::{anything, flight, one_not_finite, wild};
use reference::trial::mends::made;
use reference::trial::plan::worlds;
use reference::trial::runs::RUN;
use reference::trial::stored::STORED;
use reference::trial::terms::TERMS;
use reference::trial::times::{bad_dut, bad_moment, hard_ut, moment_dut, some_rule};
use reference::trial::trip::{bad_centre, Trip};
use reference::trial::world::World;
use reference::{book, calendar, conic, fixed, hour, motion, moves, repair, root, rule, sine, sphere};

const TIMES: usize = 20_000;

/// Bits, with all NaNs equal.
fn bits<const N: usize>(x: [f64; N]) -> [u64; N] {
    x.map(|x| if x.is_nan() { u64::MAX } else { x.to_bits() })
}

fn joined(p: [f64; 3], v: [f64; 3]) -> [f64; 6] {
    [p[0], p[1], p[2], v[0], v[1], v[2]]
}

fn halves(s: [f64; 6]) -> ([f64; 3], [f64; 3]) {
    ([s[0], s[1], s[2]], [s[3], s[4], s[5]])
}

/// A refusal as the reference gives it.
fn told<T, U>(answer: Result<T, Refusal>, value: impl Fn(T) -> U) -> Result<U, u64> {
    answer.map(value).map_err(Refusal::number)
}

fn six(motion: Motion) -> [u64; 6] {
    bits(motion.six())
}

#[test]
fn calendar_and_angles() {
    let mut c = Chance::new(1);
    for _ in 0..TIMES {
        let day = c.below(40_000);
        assert_eq!(told(proved::date(Day(day)), |d| (d.year, d.month, d.day)), calendar::date_of(day));
        assert_eq!(told(proved::twice_julian_date(Day(day)), |twice| twice), calendar::twice_julian(day));
        let (y, m, d) = (c.between(1949, 2050), c.below(14), c.below(33));
        assert_eq!(told(proved::day(Date { year: y, month: m, day: d }), |day| day.0), calendar::day_of(y, m, d));
        let (mut moment, mut dut) = moment_dut(&mut c);
        if c.one_in(8) {
            moment = bad_moment(&mut c);
        }
        if c.one_in(8) {
            dut = bad_dut(&mut c);
        }
        assert_eq!(told(proved::hour_angle(Moment(moment), Dut(dut)), |p| p.0), hour::hour_angle(moment, dut));
        let rule = some_rule(&mut c);
        let angle = |rule, moment, dut| told(proved::sidereal(Rule(rule), Moment(moment), Dut(dut)), |p| p.0);
        assert_eq!(angle(rule, moment, dut), hour::sidereal(rule, moment, dut));
        let hard = hard_ut(&mut c);
        assert_eq!(angle(1, hard, 0), hour::sidereal(1, hard, 0));
        let parts = c.below(3_700_000_000_000);
        let both = sine::sine_cosine(parts).map(|(s, c)| bits([s, c]));
        assert_eq!(told(proved::sine_cosine(Parts(parts)), |b| bits([b.sine, b.cosine])), both);
        let x = if c.one_in(4) { c.edge() } else { c.any_bits() };
        assert_eq!(told(proved::root(x), f64::to_bits), root::root(x).map(f64::to_bits));
    }
}

/// Every day at both its ends, by both rules.
#[test]
fn every_day() {
    for day in 0..36_525 {
        for ut in [day * hour::DAY, day * hour::DAY + hour::DAY - 1] {
            for rule in [0, 1] {
                assert_eq!(told(proved::sidereal(Rule(rule), Moment(ut), Dut(0)), |p| p.0), hour::sidereal(rule, ut, 0));
            }
        }
    }
}

fn some_state(c: &mut Chance) -> [f64; 6] {
    let make = c.pick(&[flight as fn(&mut Chance) -> [f64; 6], wild, one_not_finite]);
    make(c)
}

/// A conic as both versions give it: the centre, the kind and the figures.
type Figured = Result<(u64, u64, [u64; 5]), u64>;

fn figured(x: Result<conic::Conic, u64>) -> Figured {
    x.map(|x| match x.kind {
        conic::Kind::Ellipse { a, e, p, q, far } => (x.centre, 0, bits([a, e, p, q, far])),
        conic::Kind::Hyperbola { a, e, p, q, v } => (x.centre, 1, bits([a, e, p, q, v])),
    })
}

fn proved_figured(x: Result<proved::Conic, Refusal>) -> Figured {
    told(x, |x| match x.kind {
        proved::ConicKind::Ellipse { a, e, p, q, far } => (x.centre.0, 0, bits([a, e, p, q, far])),
        proved::ConicKind::Hyperbola { a, e, p, q, root_c3 } => (x.centre.0, 1, bits([a, e, p, q, root_c3])),
    })
}

/// The same state for both, with a random stored acceleration.
fn both(c: &mut Chance, moment: u64, centre: u64, coordinates: [f64; 6]) -> (proved::State, rule::State) {
    let ((position, velocity), acceleration) = (halves(coordinates), anything(c));
    let other = rule::State { moment, centre, position, velocity, acceleration };
    (proved::State { moment: Moment(moment), centre: Body(centre), position, velocity, acceleration }, other)
}

/// A state that is about the Earth, without its acceleration.
fn from_earth(c: Coordinates) -> EarthCoordinates {
    EarthCoordinates { moment: c.moment, position: c.position, velocity: c.velocity }
}

#[test]
fn states() {
    let mut c = Chance::new(2);
    for _ in 0..TIMES {
        let (moment, dut) = moment_dut(&mut c);
        let coordinates = some_state(&mut c);
        let (own, other) = both(&mut c, moment, 1, coordinates);
        let turned = |rule, s: &rule::State| fixed::earth_fixed(rule, dut, s).map(|(p, v)| bits(joined(p, v)));
        let earth = from_earth(own.coordinates());
        assert_eq!(told(proved::earth_fixed(&earth, Dut(dut)), six), turned(0, &other));
        let m = if c.one_in(8) { c.any_bits() } else { c.sized(-2, 20).abs() };
        assert_eq!(proved_figured(proved::conic(m, &earth)), figured(conic::conic(m, &other)));
        let centre = c.pick(&[1, 1, c.clone().between(1, 6), bad_centre(&mut c.clone())]);
        let (own, other) = both(&mut c, moment, centre, coordinates);
        let rule = some_rule(&mut c);
        assert_eq!(told(proved::turn(Rule(rule), Dut(dut), &own.coordinates()), six), turned(rule, &other));
        assert_eq!(proved_figured(proved::orbit(m, &own.coordinates())), figured(conic::conic(m, &other)));
    }
}

/// An angle with a sign: allowed, at an end, just out of range, or any 64 bits.
fn signed(c: &mut Chance) -> i64 {
    let any = c.any_bits().to_bits() as i64;
    let within = c.below(QUARTER + 1) as i64;
    let end = QUARTER as i64;
    c.pick(&[within, -within, within, -within, end, -end, end + 1, -end - 1, 0, any])
}

#[test]
fn injections() {
    let mut c = Chance::new(5);
    let mut accepted = 0;
    for _ in 0..TIMES {
        let (moment, dut) = moment_dut(&mut c);
        let rule = c.pick(&[0, 1, 0, 1, 0, 1, 2]);
        let (latitude, path) = (signed(&mut c), signed(&mut c));
        let (any, round) = (c.any_bits().to_bits(), c.below(CIRCLE));
        let (longitude, azimuth) = (c.pick(&[round, round, round, CIRCLE, any]), c.below(CIRCLE + 2));
        let radius = if c.one_in(8) { c.any_bits() } else { c.sized(-20, 40).abs() };
        let speed = if c.one_in(8) { c.any_bits() } else { c.sized(-20, 40) };
        let other = sphere::Sphere { radius, latitude: latitude.into(), longitude, speed, path: path.into(), azimuth };
        let [latitude, longitude, path_angle, azimuth] = [latitude, longitude as i64, path, azimuth as i64].map(SignedParts);
        let own = proved::Sphere { radius, latitude, longitude, speed, path_angle, azimuth };
        let expected = sphere::from_sphere(rule, dut, moment, &other).map(|(p, v)| bits(joined(p, v)));
        let got = proved::from_sphere(Rule(rule), Moment(moment), Dut(dut), &own);
        let got = told(got, |s| bits(joined(s.position, s.velocity)));
        assert_eq!(got, expected, "{own:?}");
        accepted += u32::from(got.is_ok());
    }
    assert!(accepted > TIMES as u32 / 8);
}

/// The answer of a run.
type Back = (Option<u64>, u32, u64, [u64; 6], [u64; 5]);

fn back(ran: &motion::Ran) -> Back {
    let number = match ran.outcome {
        motion::Outcome::Arrived => Some(0),
        motion::Outcome::Going => None,
        motion::Outcome::Refused(number) => Some(number),
    };
    let coordinates = bits(joined(ran.state.position, ran.state.velocity));
    (number, ran.steps as u32, ran.state.moment, coordinates, ran.guesses)
}

fn proved_back<S: Copy>(ran: &proved::RunAnswer<S>, coordinates: impl Fn(S) -> Coordinates) -> Back {
    let number = match ran.outcome {
        proved::Outcome::Arrived => Some(0),
        proved::Outcome::Going => None,
        proved::Outcome::Refused(refusal) => Some(refusal.number()),
    };
    let reached = coordinates(ran.state);
    (number, ran.steps, reached.moment.0, six(reached.motion()), ran.guesses.0)
}

/// Setting and state of a trip for the proved calls.
fn given(t: &Trip) -> (proved::Setting, proved::State) {
    let rule::Setting { coefficients, dut, extras: Extras { j, a, k }, rule } = t.setting;
    let rule::State { moment, centre, position, velocity, acceleration } = t.state;
    let state = proved::State { moment: Moment(moment), centre: Body(centre), position, velocity, acceleration };
    (proved::Setting { coefficients, j, a, k, dut: Dut(dut), rule: Rule(rule) }, state)
}

/// Coordinates of a state, and the stored acceleration.
fn nine(s: &rule::State) -> [u64; 9] {
    let [p, v, a] = [s.position, s.velocity, s.acceleration].map(bits);
    [p, v, a].concat().try_into().expect("nine")
}

fn proved_nine(s: proved::State) -> [u64; 9] {
    bits(s.nine())
}

fn asked(t: &Trip) -> Run {
    Run { h: t.h, target: Moment(t.target), budget: t.budget, guesses: Guesses(t.guesses) }
}

/// The calls about the Earth, which have the acceleration that the rule gives.
fn on_a_book(c: &mut Chance, w: &World, t: &Trip) {
    let (book, what) = (w.bytes(), format!("{} {}", w.name, t.run_line()));
    let (setting, state) = given(t);
    let (setting, state) = (EarthSetting { coefficients: setting.coefficients, dut: setting.dut }, from_earth(state.coordinates()));
    let own = Book::unchecked(book);
    assert_eq!(told(proved::book_passes(own), |()| ()), book::check(book), "{}", w.name);
    let ran = proved::run(own, &setting, &state, &asked(t));
    assert_eq!(proved_back(&ran, Coordinates::from), back(&t.run(book)), "{what}");
    let ran = proved::single_step(own, &setting, &state, t.h, &Guesses(t.guesses));
    let single = motion::single(book, &t.setting, &t.kept(book).state, t.h, t.guesses);
    assert_eq!(proved_back(&ran, Coordinates::from), back(&single), "{what}");
    let (body, moment) = (c.below(9), t.state.moment);
    let found = book::body(book, body, moment).map(|m| bits(m.six()));
    assert_eq!(told(proved::position(own, Body(body), Moment(moment)), six), found, "{}", w.name);
    let expected = rule::acceleration(book, &t.setting, moment, 1, t.state.position).map(bits);
    let got = told(proved::acceleration(own, &setting, Moment(moment), &t.state.position), bits);
    assert_eq!(got, expected, "{what}");
}

/// The bench's other walks, in calm books, where they equal the reference. Document 01's has no guesses.
fn other_shapes(book: &[u8], t: &Trip, other: &motion::Ran, what: &str) {
    let Some(ran) = best::run(book, &t.setting, &t.state, t.h, t.target, t.budget, t.guesses) else { return };
    assert_eq!(back(&ran), back(other), "best shape: {what}");
    let ran = plain::run(book, &t.setting, &t.state, t.h, t.target, t.budget);
    assert_eq!(back(&motion::Ran { guesses: other.guesses, ..ran }), back(other), "document 01's walk: {what}");
}

/// The calls about any centre, and moves from it.
fn about_a_centre(c: &mut Chance, w: &World, t: &Trip) {
    let (book, what) = (w.bytes(), format!("{} {}", w.name, t.fly_line()));
    let (setting, state) = given(t);
    let own = Book::unchecked(book);
    let (ran, other) = (proved::fly(own, &setting, &state, &asked(t)), t.fly(book));
    assert_eq!(proved_back(&ran, |s| s.coordinates()), back(&other), "{what}");
    other_shapes(book, t, &other, &what);
    assert_eq!((ran.state.centre.0, proved_nine(ran.state)), (other.state.centre, nine(&other.state)), "{what}");
    let expected = rule::inject(book, &t.setting, &t.state).map(|s| nine(&s));
    assert_eq!(told(proved::inject(own, &setting, &state.coordinates()), proved_nine), expected, "{what}");
    let (moment, centre, position) = (t.state.moment, t.state.centre, t.state.position);
    let expected = rule::acceleration(book, &t.setting, moment, centre, position).map(bits);
    let got = proved::pull(own, &setting, Moment(moment), Body(centre), &position);
    assert_eq!(told(got, bits), expected, "{what}");
    let new = if c.one_in(6) { centre } else { some_centre(c, &t.setting) };
    let expected = moves::moved(book, &t.setting, &t.state, new).map(|s| nine(&s));
    let got = told(proved::move_to(own, &setting, &state, Body(new)), proved_nine);
    assert_eq!(got, expected, "to {new}, {what}");
}

#[test]
fn books_and_runs() {
    let mut c = Chance::new(3);
    let mut compared = 0;
    for w in worlds(&mut c, &[]).iter() {
        for (_, make) in RUN.iter().cycle().take(400) {
            for (_, t) in make(&mut c, w) {
                on_a_book(&mut c, w, &t.clone().shortened(w.bytes(), 100));
                let t = centred(&mut c, t).shortened(w.bytes(), 100);
                about_a_centre(&mut c, w, &t.kept(w.bytes()));
                compared += 1;
            }
        }
        for (_, make) in TERMS.iter().cycle().take(200) {
            for (_, t) in make(&mut c, w) {
                about_a_centre(&mut c, w, &t.shortened(w.bytes(), 100).kept(w.bytes()));
                compared += 1;
            }
        }
        for (_, make) in STORED.iter().cycle().take(200) {
            for (_, t) in make(&mut c, w) {
                about_a_centre(&mut c, w, &t.shortened(w.bytes(), 100));
                compared += 1;
            }
        }
    }
    assert!(compared > 1000);
}

/// A fate as the exported call gives it.
fn fate(fate: &repair::Fate) -> proved::Fate {
    match fate {
        repair::Fate::Kept(number) => proved::Fate::Kept(*number as u16),
        repair::Fate::Fields => proved::Fate::Fields,
        repair::Fate::Block => proved::Fate::Block,
        repair::Fate::Coefficient => proved::Fate::Coefficient,
        repair::Fate::Overlap => proved::Fate::Overlap,
        repair::Fate::Room => proved::Fate::Room,
    }
}

#[test]
fn damaged_books() {
    for d in made(&mut Chance::new(4), 4000) {
        let room = d.room.unwrap_or(61_441) as usize;
        let mut output = vec![0xa5; room];
        let got = proved::repair(&d.input, &mut output);
        let expected = repair::repair(&d.input, room);
        let mut left = vec![0xa5; room];
        if let Ok(r) = &expected {
            left[..r.book.len()].copy_from_slice(&r.book);
        }
        assert!(output == left, "{}, room {room}", d.case);
        let expected = expected.map(|r| proved::Repair {
            fates: r.fates.iter().map(fate).collect(),
            kept: r.fates.iter().filter(|f| matches!(f, repair::Fate::Kept(_))).count(),
            written: r.book.len(),
            changed: proved::Changed {
                total: r.changed.total,
                count: r.changed.count,
                order: r.changed.order,
                offsets: r.changed.offsets,
            },
        });
        assert_eq!(told(got, |r| r), expected, "{}, room {room}", d.case);
    }
}
