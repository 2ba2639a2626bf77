//! Every exported call for a line, as `ask` and `pane` take them. The reference's own functions read the fields and print the
//! answer; the answer itself is the call's.

use belfrywool::calls::*;
use reference::ask::{OF_A_CONIC, OF_A_PULL, OF_A_TURN};
use reference::fields::{all_shown, decimal, decimals, float, floats, put_in, setting, shown, signed, small, state, told, two, SETTING, STATE};
use reference::motion::Outcome;
use reference::pane::{read, Line};
use reference::rule::{Setting, State};

/// What a call wrote, or the refusal that it returned.
fn answered<T>(number: u64, value: T) -> Result<T, u64> {
    if number == 0 { Ok(value) } else { Err(number) }
}

fn nine(s: &State) -> [f64; 9] {
    let (p, v, a) = (s.position, s.velocity, s.acceleration);
    [p[0], p[1], p[2], v[0], v[1], v[2], a[0], a[1], a[2]]
}

fn extras(s: &Setting) -> [f64; 3] {
    [s.extras.j, s.extras.a, s.extras.k]
}

fn turn(f: &[&[u8]], old: bool) -> Option<String> {
    let [rule, dut, rest @ ..] = f else { return None };
    let (rule, dut, s, mut turned) = (decimal(rule)?, small(dut)?, state(rest)?, [0.0; 6]);
    let given = two(s.position, s.velocity);
    let number = unsafe {
        if old { belfry_earth_fixed(s.moment, &given, dut, &mut turned) } else { belfry_turn(rule, dut, s.moment, s.centre, &given, &mut turned) }
    };
    Some(told(answered(number, all_shown(&turned))))
}

fn orbit(f: &[&[u8]], old: bool) -> Option<String> {
    let (m, rest) = f.split_first()?;
    let (m, s, mut names, mut figures) = (float(m)?, state(rest)?, [0; 2], [0.0; 5]);
    let given = two(s.position, s.velocity);
    let number = unsafe {
        if old { belfry_conic(m, s.moment, &given, &mut names, &mut figures) } else { belfry_orbit(m, s.moment, s.centre, &given, &mut names, &mut figures) }
    };
    let kind = if names[1] == 1 { "ELLIPSE" } else { "HYPERBOLA" };
    Some(told(answered(number, format!("{kind} {} {}", names[0], all_shown(&figures)))))
}

fn sphere(f: &[&[u8]]) -> Option<String> {
    let [rule, dut, moment, radius, latitude, longitude, speed, path, azimuth] = f else { return None };
    let (rule, dut, moment, mut six) = (decimal(rule)?, small(dut)?, decimal(moment)?, [0.0; 6]);
    // An angle that does not fit an i64 is out of range, and so is the nearest one that fits.
    let near = |x: i128| x.clamp(i64::MIN.into(), i64::MAX.into()) as i64;
    let angles = [near(signed(latitude)?), near(decimal(longitude)?.into()), near(signed(path)?), near(decimal(azimuth)?.into())];
    let number = unsafe { belfry_from_sphere(rule, moment, dut, &[float(radius)?, float(speed)?], &angles, &mut six) };
    Some(told(answered(number, format!("{moment} {}", all_shown(&six)))))
}

fn pull(book: &[u8], f: &[&[u8]], old: bool) -> Option<String> {
    let (s, rest) = (setting(f.get(..SETTING)?)?, f.get(SETTING..)?);
    let [moment, centre, position @ ..] = rest else { return None };
    let (moment, centre, position, mut a) = (decimal(moment)?, decimal(centre)?, floats(position)?, [0.0; 3]);
    let number = unsafe {
        if old {
            belfry_acceleration(book.as_ptr(), book.len(), &s.coefficients, s.dut, moment, &position, &mut a)
        } else {
            belfry_pull(book.as_ptr(), book.len(), &s.coefficients, &extras(&s), s.dut, s.rule, moment, centre, &position, &mut a)
        }
    };
    Some(told(answered(number, all_shown(&a))))
}

fn inject(book: &[u8], f: &[&[u8]]) -> Option<String> {
    let (s, given) = (setting(f.get(..SETTING)?)?, reference::fields::bare_state(f.get(SETTING..)?)?);
    let (six, mut made) = (two(given.position, given.velocity), [0.0; 9]);
    let number = unsafe {
        belfry_inject(book.as_ptr(), book.len(), &s.coefficients, &extras(&s), s.dut, s.rule, given.moment, given.centre, &six, &mut made)
    };
    Some(told(answered(number, format!("{} {} {}", given.moment, given.centre, all_shown(&made)))))
}

fn moved(book: &[u8], f: &[&[u8]]) -> Option<String> {
    let [.., new] = f else { return None };
    let (s, given, new) = (setting(f.get(..SETTING)?)?, state(f.get(SETTING..f.len() - 1)?)?, decimal(new)?);
    let mut made = [0.0; 9];
    let number = unsafe {
        belfry_move(book.as_ptr(), book.len(), &s.coefficients, &extras(&s), s.dut, s.rule, given.moment, given.centre, &nine(&given), new, &mut made)
    };
    Some(told(answered(number, format!("{} {new} {}", given.moment, all_shown(&made)))))
}

fn outcome(number: u64) -> String {
    match number {
        0 => "ARRIVED".to_string(),
        GOING => "GOING".to_string(),
        number => format!("REFUSED {number}"),
    }
}

fn fly(book: &[u8], f: &[&[u8]]) -> Option<String> {
    let (s, given) = (setting(f.get(..SETTING)?)?, state(f.get(SETTING..SETTING + STATE)?)?);
    let [h, target, budget, guesses @ ..] = f.get(SETTING + STATE..)? else { return None };
    let (h, target, budget, guesses) = (small(h)?, decimal(target)?, small(budget)?, decimals(guesses)?);
    let (mut reached, mut there, mut entries, mut steps) = (0, [0.0; 9], [0; 5], 0);
    let number = unsafe {
        belfry_fly(
            book.as_ptr(), book.len(), &s.coefficients, &extras(&s), s.dut, s.rule, given.moment, given.centre, &nine(&given), h, target,
            budget, &guesses, &mut reached, &mut there, &mut entries, &mut steps,
        )
    };
    let entries = entries.map(|g: u64| g.to_string()).join(" ");
    Some(format!("{} {steps} {reached} {} {} {entries}", outcome(number), given.centre, all_shown(&there)))
}

/// A run about the Earth, or one step of it: `step` is a line of `run` whose target and budget are not read.
fn run(book: &[u8], f: &[&[u8]], one: bool) -> Option<String> {
    let (coefficients, rest) = (floats(f.get(..6)?)?, f.get(6..)?);
    let [dut, moment, rest @ ..] = rest else { return None };
    let (dut, moment, six, rest) = (small(dut)?, decimal(moment)?, floats(rest.get(..6)?)?, rest.get(6..)?);
    let [h, target, budget, guesses @ ..] = rest else { return None };
    let (h, target, budget, guesses) = (small(h)?, decimal(target)?, small(budget)?, decimals(guesses)?);
    let (mut reached, mut there, mut entries, mut steps) = (0, [0.0; 6], [0; 5], 0);
    let (at, length) = (book.as_ptr(), book.len());
    let number = unsafe {
        if one {
            belfry_single_step(at, length, &coefficients, dut, moment, &six, h, &guesses, &mut reached, &mut there, &mut entries, &mut steps)
        } else {
            belfry_run(
                at, length, &coefficients, dut, moment, &six, h, target, budget, &guesses, &mut reached, &mut there, &mut entries, &mut steps,
            )
        }
    };
    let entries = entries.map(|g: u64| g.to_string()).join(" ");
    Some(format!("{} {steps} {reached} {} {entries}", outcome(number), all_shown(&there)))
}

/// A number that a call writes.
fn one(call: impl FnOnce(&mut u64) -> u64) -> String {
    let mut value = 0;
    let number = call(&mut value);
    told(answered(number, value.to_string()))
}

/// The answer to a line by the linked calls; None if the line is unreadable.
pub fn answer(book: &[u8], line: &[u8]) -> Option<String> {
    if line.len() > reference::ask::LONGEST {
        return None;
    }
    let fields: Vec<&[u8]> = line.split(|&b| b == b' ').collect();
    let (name, f) = fields.split_first()?;
    match *name {
        b"root" => {
            let ([x], mut value) = (floats(f)?, 0.0);
            let number = unsafe { belfry_root(x, &mut value) };
            Some(told(answered(number, shown(value))))
        }
        b"sincos" => {
            let ([parts], mut both) = (decimals(f)?, [0.0; 2]);
            let number = unsafe { belfry_sine_cosine(parts, &mut both) };
            Some(told(answered(number, all_shown(&both))))
        }
        b"hour" => {
            let [moment, dut] = f else { return None };
            let (moment, dut) = (decimal(moment)?, small(dut)?);
            Some(one(|parts| unsafe { belfry_hour_angle(moment, dut, parts) }))
        }
        b"sidereal" => {
            let [rule, moment, dut] = f else { return None };
            let (rule, moment, dut) = (decimal(rule)?, decimal(moment)?, small(dut)?);
            Some(one(|parts| unsafe { belfry_sidereal(rule, moment, dut, parts) }))
        }
        b"date" => {
            let ([day], mut date) = (decimals(f)?, [0; 3]);
            let number = unsafe { belfry_date(day, &mut date) };
            Some(told(answered(number, date.map(|x: u64| x.to_string()).join(" "))))
        }
        b"day" => {
            let [year, month, day] = decimals(f)?;
            Some(one(|count| unsafe { belfry_day(year, month, day, count) }))
        }
        b"julian" => {
            let [day] = decimals(f)?;
            Some(one(|twice| unsafe { belfry_twice_julian_date(day, twice) }))
        }
        b"passes" => Some(told(answered(unsafe { belfry_book_passes(book.as_ptr(), book.len()) }, "PASSES".to_string()))),
        b"body" => {
            let ([body, moment], mut motion) = (decimals(f)?, [0.0; 6]);
            let number = unsafe { belfry_position(book.as_ptr(), book.len(), body, moment, &mut motion) };
            Some(told(answered(number, all_shown(&motion))))
        }
        b"fixed" => turn(&put_in(f, &OF_A_TURN)?, true),
        b"turn" => turn(f, false),
        b"sphere" => sphere(f),
        b"conic" => orbit(&put_in(f, &OF_A_CONIC)?, true),
        b"orbit" => orbit(f, false),
        b"accel" => pull(book, &put_in(f, &OF_A_PULL)?, true),
        b"pull" => pull(book, f, false),
        b"inject" => inject(book, f),
        b"move" => moved(book, f),
        b"run" => run(book, f, false),
        b"step" => run(book, f, true),
        b"fly" => fly(book, f),
        _ => None,
    }
}

/// Whether the second book holds the first, and what was written: if nothing was, a value stays that no call writes.
pub fn holds(first: &[u8], second: &[u8]) -> String {
    let mut missing = u64::MAX;
    let number = unsafe { belfry_book_holds(first.as_ptr(), first.len(), second.as_ptr(), second.len(), &mut missing) };
    format!("{number} {missing}")
}

/// The pane in its own memory, one line at a time.
#[derive(Default)]
pub struct Pane {
    pane: [u64; 5],
    places: [f64; 18],
}

impl Pane {
    fn taken(&mut self, number: u64, done: &str) -> String {
        match number {
            0 => done.to_string(),
            UNCHANGED => "UNCHANGED".to_string(),
            number => format!("REFUSED {number}"),
        }
    }

    /// The answer of belfry_frame_motion for a moment, in words.
    pub fn motion(&self, t: u64) -> String {
        let (mut six, mut late) = ([0.0; 6], 0);
        let number = unsafe { belfry_frame_motion(&self.pane, &self.places, t, &mut six, &mut late) };
        if number != 0 && !six.iter().all(|x| x.is_nan()) || number != LATE && late != 0 {
            return format!("{number} with {six:?} and {late}");
        }
        match number {
            0 => format!("CURRENT {}", all_shown(&six)),
            LATE => format!("LATE {late}"),
            EMPTY => "EMPTY".to_string(),
            number => format!("REFUSED {number}"),
        }
    }

    pub fn answer(&mut self, line: &[u8]) -> Option<String> {
        #[allow(unreachable_patterns)] // lines that come later
        Some(match read(line)? {
            Line::Clear => {
                let number = unsafe { belfry_clear(&mut self.pane, &mut self.places) };
                self.taken(number, "EMPTY")
            }
            Line::Take(s) => {
                let number = unsafe { belfry_take(s.moment, s.centre, &nine(&s), &mut self.pane, &mut self.places) };
                self.taken(number, "OK")
            }
            Line::Feed(outcome, s) => {
                let answer = match outcome {
                    Outcome::Arrived => 0,
                    Outcome::Going => GOING,
                    Outcome::Refused(number) => number,
                };
                // A run is refused with a number from 1 to 99; a line may have any.
                let answer = if matches!(outcome, Outcome::Refused(_)) && (answer == 0 || answer == GOING) { 6 } else { answer };
                let number = unsafe { belfry_feed(answer, s.moment, s.centre, &nine(&s), &mut self.pane, &mut self.places) };
                self.taken(number, "OK")
            }
            Line::Frame(t) => {
                let (mut position, mut late) = ([0.0; 3], 0);
                let number = unsafe { belfry_frame(&self.pane, &self.places, t, &mut position, &mut late) };
                if number != 0 && !position.iter().all(|x| x.is_nan()) || number != LATE && late != 0 {
                    return Some(format!("{number} with {position:?} and {late}"));
                }
                match number {
                    0 => format!("CURRENT {}", all_shown(&position)),
                    LATE => format!("LATE {late}"),
                    EMPTY => "EMPTY".to_string(),
                    number => format!("REFUSED {number}"),
                }
            }
            _ => return None,
        })
    }
}
