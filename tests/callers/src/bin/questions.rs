//! questions SEED COUNT QUESTIONS ANSWERS BOOK..: writes COUNT questions for each exported call, and the reference's answers, to
//! two files. Books are real ones, made ones and damaged ones.

use std::fmt::Write as _;
use std::process::ExitCode;

use callers::{bits, line, sum};
use reference::extras::Extras;
use reference::hour::CIRCLE;
use reference::motion::{Outcome, Ran};
use reference::pane::{read, Frame, Line, Pane};
use reference::rule::{Setting, State};
use reference::sphere::QUARTER;
use reference::trial::centres::{centred, some_centre};
use reference::trial::chance::Chance;
use reference::trial::floats::{anything, flight, one_not_finite, wild};
use reference::trial::fuller::pairs;
use reference::trial::mends::{made, real};
use reference::trial::offers::fresh;
use reference::trial::panes::sessions;
use reference::trial::plan::worlds;
use reference::trial::runs::RUN;
use reference::trial::stored::STORED;
use reference::trial::terms::TERMS;
use reference::trial::times::{bad_dut, bad_moment, hard_ut, moment_dut, some_rule};
use reference::trial::trip::{bad_centre, Trip};
use reference::{book, calendar, conic, fixed, holds, hour, motion, moves, repair, root, rule, sine, sphere};

#[derive(Default)]
struct Lines {
    questions: String,
    answers: String,
}

impl Lines {
    fn say(&mut self, name: &str, words: &[u64], answer: &[u64]) {
        // Writing into memory does not fail.
        let _ = writeln!(self.questions, "{name} {}", line(words));
        let _ = writeln!(self.answers, "{}", line(answer));
    }

    fn book(&mut self, name: &str, book: &[u8]) {
        self.questions.push_str(name);
        self.questions.push(' ');
        for b in book {
            let _ = write!(self.questions, "{b:02x}");
        }
        self.questions.push('\n');
    }
}

fn all<const N: usize>(x: [f64; N]) -> Vec<u64> {
    x.iter().map(|&x| bits(x)).collect()
}

fn raw(x: &[f64]) -> Vec<u64> {
    x.iter().map(|x| x.to_bits()).collect()
}

/// 0 and what was written, or the refusal.
fn told<T>(answer: Result<T, u64>, value: impl Fn(T) -> Vec<u64>) -> Vec<u64> {
    match answer {
        Ok(x) => [vec![0], value(x)].concat(),
        Err(number) => vec![number],
    }
}

fn six(p: [f64; 3], v: [f64; 3]) -> Vec<u64> {
    [all(p), all(v)].concat()
}

fn nine(s: &State) -> Vec<u64> {
    [all(s.position), all(s.velocity), all(s.acceleration)].concat()
}

fn raw_nine(s: &State) -> Vec<u64> {
    [raw(&s.position), raw(&s.velocity), raw(&s.acceleration)].concat()
}

fn raw_six(s: &State) -> Vec<u64> {
    [raw(&s.position), raw(&s.velocity)].concat()
}

fn almanac(c: &mut Chance, count: usize, out: &mut Lines) {
    for _ in 0..count {
        let day = if c.one_in(9) { c.any_length(64) } else { c.below(40_000) };
        out.say("date", &[day], &told(calendar::date_of(day), |(y, m, d)| vec![y, m, d]));
        out.say("twice", &[day], &told(calendar::twice_julian(day), |t| vec![t]));
        let (y, m, d) = (c.between(1949, 2050), c.below(14), c.below(33));
        out.say("day", &[y, m, d], &told(calendar::day_of(y, m, d), |d| vec![d]));
        let (mut moment, mut dut) = moment_dut(c);
        if c.one_in(8) {
            moment = bad_moment(c);
        }
        if c.one_in(8) {
            dut = bad_dut(c);
        }
        out.say("hour", &[moment, dut.into()], &told(hour::hour_angle(moment, dut), |p| vec![p]));
        let rule = some_rule(c);
        let (moment, dut) = if c.one_in(3) { (hard_ut(c), 0) } else { (moment, dut) };
        out.say("sidereal", &[rule, moment, dut.into()], &told(hour::sidereal(rule, moment, dut), |p| vec![p]));
        let x = if c.one_in(4) { c.edge() } else { c.any_bits() };
        out.say("root", &[x.to_bits()], &told(root::root(x), |r| vec![bits(r)]));
        let parts = if c.one_in(9) { c.any_length(64) } else { c.below(3_700_000_000_000) };
        out.say("sincos", &[parts], &told(sine::sine_cosine(parts), |(s, c)| all([s, c])));
        let s = some_state(c);
        let v = [s[0], s[1], s[2]];
        let n = (v[0] * v[0] + v[1] * v[1]) + v[2] * v[2];
        out.say("length", &raw(&v), &told(root::root(n), |r| vec![bits(r)]));
    }
}

fn some_state(c: &mut Chance) -> [f64; 6] {
    let make = c.pick(&[flight as fn(&mut Chance) -> [f64; 6], wild, one_not_finite]);
    make(c)
}

fn figured(x: conic::Conic) -> Vec<u64> {
    let (kind, figures) = match x.kind {
        conic::Kind::Ellipse { a, e, p, q, far } => (1, [a, e, p, q, far]),
        conic::Kind::Hyperbola { a, e, p, q, v } => (2, [a, e, p, q, v]),
    };
    [vec![x.centre, kind], all(figures)].concat()
}

fn states(c: &mut Chance, count: usize, out: &mut Lines) {
    for _ in 0..count {
        let (moment, dut) = moment_dut(c);
        let s = some_state(c);
        let mut state = State {
            moment,
            centre: 1,
            position: [s[0], s[1], s[2]],
            velocity: [s[3], s[4], s[5]],
            acceleration: anything(c),
        };
        let turned = |rule, s: &State| told(fixed::earth_fixed(rule, dut, s), |(p, v)| six(p, v));
        out.say("fixed", &[vec![moment], raw_six(&state), vec![dut.into()]].concat(), &turned(0, &state));
        let m = if c.one_in(8) { c.any_bits() } else { c.sized(-2, 20).abs() };
        let words = [vec![m.to_bits(), moment], raw_six(&state)].concat();
        out.say("conic", &words, &told(conic::conic(m, &state), figured));
        state.centre = c.pick(&[1, 1, c.clone().between(1, 6), bad_centre(&mut c.clone())]);
        let rule = some_rule(c);
        let words = [vec![rule, dut.into(), moment, state.centre], raw_six(&state)].concat();
        out.say("turn", &words, &turned(rule, &state));
        let words = [vec![m.to_bits(), moment, state.centre], raw_six(&state)].concat();
        out.say("orbit", &words, &told(conic::conic(m, &state), figured));
    }
}

/// An angle with a sign: allowed, at an end, just out of range, or any 64 bits.
fn signed(c: &mut Chance) -> i64 {
    let any = c.any_bits().to_bits() as i64;
    let within = c.below(QUARTER + 1) as i64;
    let end = QUARTER as i64;
    c.pick(&[within, -within, within, -within, end, -end, end + 1, -end - 1, 0, any])
}

fn launches(c: &mut Chance, count: usize, out: &mut Lines) {
    for _ in 0..count {
        let (moment, dut) = moment_dut(c);
        let rule = c.pick(&[0, 1, 0, 1, 0, 1, 2]);
        let (latitude, path) = (signed(c), signed(c));
        let (any, round) = (c.any_bits().to_bits(), c.below(CIRCLE));
        let (longitude, azimuth) = (c.pick(&[round, round, round, CIRCLE, any]), c.below(CIRCLE + 2));
        let radius = if c.one_in(8) { c.any_bits() } else { c.sized(-20, 40).abs() };
        let speed = if c.one_in(8) { c.any_bits() } else { c.sized(-20, 40) };
        let spoken = sphere::Sphere { radius, latitude: latitude.into(), longitude, speed, path: path.into(), azimuth };
        let words = [
            rule, moment, dut.into(), radius.to_bits(), speed.to_bits(), latitude as u64, longitude, path as u64, azimuth,
        ];
        out.say("sphere", &words, &told(sphere::from_sphere(rule, dut, moment, &spoken), |(p, v)| six(p, v)));
    }
}

fn outcome(o: Outcome) -> u64 {
    match o {
        Outcome::Arrived => 0,
        Outcome::Going => 100,
        Outcome::Refused(number) => number,
    }
}

/// Outcome, the state, guesses and steps; for a run about the Earth without centre and acceleration.
fn ran(ran: &Ran, whole: bool) -> Vec<u64> {
    let s = &ran.state;
    let state = if whole { [vec![s.centre], nine(s)].concat() } else { six(s.position, s.velocity) };
    [vec![outcome(ran.outcome), s.moment], state, ran.guesses.to_vec(), vec![ran.steps]].concat()
}

fn setting(s: &Setting) -> Vec<u64> {
    let Extras { j, a, k } = s.extras;
    [raw(&s.coefficients), raw(&[j, a, k]), vec![s.dut.into(), s.rule]].concat()
}

fn asked(t: &Trip) -> Vec<u64> {
    [vec![t.h.into(), t.target, t.budget.into()], t.guesses.to_vec()].concat()
}

/// The calls about the Earth and of a book.
fn about_the_earth(c: &mut Chance, bytes: &[u8], t: &Trip, out: &mut Lines) {
    let s = &t.state;
    let earth = [raw(&t.setting.coefficients), vec![t.setting.dut.into(), s.moment]].concat();
    out.say("run", &[earth.clone(), raw_six(s), asked(t)].concat(), &ran(&t.run(bytes), false));
    let single = motion::single(bytes, &t.setting, &t.kept(bytes).state, t.h, t.guesses);
    out.say("step", &[earth.clone(), raw_six(s), vec![t.h.into()], t.guesses.to_vec()].concat(), &ran(&single, false));
    let pull = rule::acceleration(bytes, &t.setting, s.moment, 1, s.position);
    out.say("acceleration", &[earth, raw(&s.position)].concat(), &told(pull, all));
    let body = c.below(9);
    out.say("position", &[body, s.moment], &told(book::body(bytes, body, s.moment), |m| all(m.six())));
    out.say("passes", &[], &told(book::check(bytes), |()| vec![]));
}

/// The calls about any centre, and moves from it.
fn about_a_centre(c: &mut Chance, bytes: &[u8], t: &Trip, out: &mut Lines) {
    let s = &t.state;
    let start = [setting(&t.setting), vec![s.moment, s.centre]].concat();
    out.say("fly", &[start.clone(), raw_nine(s), asked(t)].concat(), &ran(&t.fly(bytes), true));
    out.say("inject", &[start.clone(), raw_six(s)].concat(), &told(rule::inject(bytes, &t.setting, s), |s| nine(&s)));
    let pull = rule::acceleration(bytes, &t.setting, s.moment, s.centre, s.position);
    out.say("pull", &[start.clone(), raw(&s.position)].concat(), &told(pull, all));
    let new = if c.one_in(6) { s.centre } else { some_centre(c, &t.setting) };
    let moved = moves::moved(bytes, &t.setting, s, new);
    out.say("move", &[start, raw_nine(s), vec![new]].concat(), &told(moved, |s| [vec![s.centre], nine(&s)].concat()));
}

const STEPS: u64 = 40;

fn flights(c: &mut Chance, count: usize, real: &[(String, Vec<u8>)], out: &mut Lines) {
    let list = worlds(c, real);
    for (i, w) in list.iter().enumerate() {
        let bytes = w.bytes();
        let quota = count * (i + 1) / list.len() - count * i / list.len();
        out.book("book", bytes);
        let mut old = RUN.iter().cycle();
        let mut trips = vec![];
        while trips.len() < quota {
            let (_, make) = old.next().expect("it has no end");
            trips.extend(make(c, w));
        }
        for (_, t) in trips.drain(..quota) {
            about_the_earth(c, bytes, &t.shortened(bytes, STEPS), out);
        }
        let mut turn = 0;
        let mut kinds = [RUN.iter().cycle(), TERMS.iter().cycle(), STORED.iter().cycle()];
        let mut trips = vec![];
        while trips.len() < quota {
            let (_, make) = kinds[turn % 3].next().expect("it has no end");
            for (_, t) in make(c, w) {
                let t = if turn % 3 == 0 { centred(c, t) } else { t }.shortened(bytes, STEPS);
                trips.push(if turn % 3 == 2 { t } else { t.kept(bytes) });
            }
            turn += 1;
        }
        for t in trips.drain(..quota) {
            about_a_centre(c, bytes, &t, out);
        }
    }
}

/// The answer for two books.
fn missing(first: &[u8], second: &[u8]) -> Vec<u64> {
    match holds::missing(first, second) {
        Ok(None) => vec![0],
        Ok(Some(i)) => vec![104, i as u64],
        Err(number) => vec![number],
    }
}

/// Books and fuller ones, in both orders; and with a byte of one of them changed.
fn holding(c: &mut Chance, count: usize, real: &[(String, Vec<u8>)], out: &mut Lines) {
    let list = pairs(c, count / 20 + 1, real);
    let mut told = 0;
    for pair in list.iter().cycle() {
        let (mut a, mut b) = (pair.first.bytes().to_vec(), pair.second.bytes().to_vec());
        for i in 0..4 {
            if i == 2 {
                std::mem::swap(&mut a, &mut b);
            }
            if i % 2 == 1 {
                let hit = if c.one_in(2) { &mut a } else { &mut b };
                if let Some(byte) = hit.len().checked_sub(1).map(|last| c.between(8.min(last as u64), last as u64) as usize) {
                    hit[byte] ^= 1 << c.below(8);
                }
            }
            out.book("book", &a);
            out.book("second", &b);
            out.say("holds", &[], &missing(&a, &b));
            told += 1;
            if told == count {
                return;
            }
        }
    }
}

fn fate(f: &repair::Fate) -> u64 {
    match f {
        repair::Fate::Kept(number) => *number as u64,
        repair::Fate::Fields => 3001,
        repair::Fate::Block => 3002,
        repair::Fate::Coefficient => 3003,
        repair::Fate::Overlap => 3004,
        repair::Fate::Room => 3005,
    }
}

fn mended(r: repair::Repaired) -> Vec<u64> {
    let fates: Vec<u64> = r.fates.iter().map(fate).collect();
    let kept = fates.iter().filter(|&&f| f < 2559).count() as u64;
    let changed = [r.changed.total, r.changed.count, r.changed.order, r.changed.offsets].map(u64::from);
    [vec![fates.len() as u64, kept, r.book.len() as u64], changed.to_vec(), fates, vec![sum(&r.book)]].concat()
}

fn repairs(c: &mut Chance, count: usize, books: &[(String, Vec<u8>)], out: &mut Lines) {
    let mut list: Vec<_> = books.iter().take(1).flat_map(|(_, book)| real(book)).step_by(5).collect();
    list.truncate(count / 10);
    list.extend(made(c, count - list.len()));
    for d in list.into_iter().take(count) {
        let room = d.room.unwrap_or(61_441);
        out.book("book", &d.input);
        out.say("repair", &[room], &told(repair::repair(&d.input, room as usize), mended));
    }
}

/// A pane in memory.
fn laid(pane: &Pane) -> Vec<u64> {
    let list: Vec<&State> = match pane {
        Pane::Clear => vec![],
        Pane::One(a) => vec![a],
        Pane::Two(a, b) => vec![a, b],
    };
    let (mut numbers, mut places) = (vec![list.len() as u64, 0, 0, 0, 0], vec![0; 18]);
    for (i, s) in list.iter().enumerate() {
        numbers[2 * i + 1..2 * i + 3].copy_from_slice(&[s.moment, s.centre]);
        places[9 * i..9 * i + 9].copy_from_slice(&raw_nine(s));
    }
    [numbers, places].concat()
}

/// The same with all NaNs equal, as in an answer.
fn told_alike(memory: &[u64]) -> Vec<u64> {
    memory.iter().enumerate().map(|(i, &w)| if i < 5 { w } else { bits(f64::from_bits(w)) }).collect()
}

fn framed<T>(frame: Result<Frame<T>, u64>, figure: impl Fn(T) -> Vec<u64>, count: usize) -> Vec<u64> {
    let (word, shown, late) = match frame {
        Ok(Frame::Current(x)) => (0, figure(x), 0),
        Ok(Frame::Late(late)) => (102, vec![bits(f64::NAN); count], late),
        Ok(Frame::Empty) => (103, vec![bits(f64::NAN); count], 0),
        Err(number) => (number, vec![bits(f64::NAN); count], 0),
    };
    [vec![word], shown, vec![late]].concat()
}

/// Counts of lines: clear, take, feed, frame.
type Told = [usize; 4];

fn pane_line(now: &mut Pane, text: &[u8], count: usize, told: &mut Told, out: &mut Lines) {
    let before = laid(now);
    let mut room = |i: usize| {
        told[i] += 1;
        told[i] <= count
    };
    match read(text) {
        Some(Line::Clear) => {
            *now = Pane::Clear;
            if room(0) {
                out.say("clear", &before, &[vec![0], laid(now)].concat());
            }
        }
        Some(Line::Take(s)) => {
            let next = now.take(&s);
            *now = next.unwrap_or(*now);
            if room(1) {
                let words = [vec![s.moment, s.centre], raw_nine(&s), before].concat();
                out.say("take", &words, &[vec![next.err().unwrap_or(0)], told_alike(&laid(now))].concat());
            }
        }
        Some(Line::Feed(how, s)) => {
            if matches!(how, Outcome::Refused(n) if n == 0 || n > 18) {
                return;
            }
            let next = now.feed(how, &s);
            let refused = matches!(how, Outcome::Refused(_));
            *now = next.unwrap_or(*now);
            if room(2) {
                let words = [vec![outcome(how), s.moment, s.centre], raw_nine(&s), before].concat();
                let word = next.err().unwrap_or(if refused { 101 } else { 0 });
                out.say("feed", &words, &[vec![word], told_alike(&laid(now))].concat());
            }
        }
        Some(Line::Frame(t)) => {
            if room(3) {
                let words = [vec![t], before].concat();
                out.say("frame", &words, &framed(now.frame(t), all, 3));
                out.say("motion", &words, &framed(now.frame_motion(t), |[p, v]| six(p, v), 6));
            }
        }
        None => {}
    }
}

fn panes(c: &mut Chance, count: usize, out: &mut Lines) {
    let mut told = [0; 4];
    while told.iter().any(|&n| n < count) {
        for session in sessions(c, 200, &[]) {
            let mut now = Pane::Clear;
            for text in &session.lines {
                pane_line(&mut now, text, count, &mut told, out);
            }
            // Sessions are seldom cleared.
            pane_line(&mut now, b"clear", count, &mut told, out);
        }
        if told[1..].iter().all(|&n| n >= count) {
            while told[0] < count {
                let mut now = Pane::One(fresh(c));
                pane_line(&mut now, b"clear", count, &mut told, out);
            }
        }
    }
}

fn make(words: &[String]) -> Result<(), String> {
    let [seed, count, questions, answers, files @ ..] = words else {
        return Err("use: questions SEED COUNT QUESTIONS ANSWERS BOOK..".to_string());
    };
    let number = |text: &String| text.parse::<u64>().map_err(|error| format!("{text}: {error}"));
    let (seed, count) = (number(seed)?, number(count)? as usize);
    let read = |file: &String| std::fs::read(file).map(|book| (file.clone(), book)).map_err(|error| format!("{file}: {error}"));
    let books = files.iter().map(read).collect::<Result<Vec<_>, _>>()?;
    let (mut out, mut c) = (Lines::default(), Chance::new(seed));
    almanac(&mut c, count, &mut out);
    states(&mut c, count, &mut out);
    launches(&mut c, count, &mut out);
    panes(&mut c, count, &mut out);
    holding(&mut c, count, &books, &mut out);
    repairs(&mut c, count, &books, &mut out);
    flights(&mut c, count, &books, &mut out);
    std::fs::write(questions, out.questions).map_err(|error| format!("{questions}: {error}"))?;
    std::fs::write(answers, out.answers).map_err(|error| format!("{answers}: {error}"))
}

fn main() -> ExitCode {
    match make(&std::env::args().skip(1).collect::<Vec<_>>()) {
        Ok(()) => ExitCode::SUCCESS,
        Err(why) => {
            eprintln!("questions: {why}");
            ExitCode::from(2)
        }
    }
}
