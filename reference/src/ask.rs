//! The program ask: one call on each line in, one answer on each line out.

use crate::conic::{conic, Kind};
use crate::fields::{
    all_shown, bare_state, decimal, decimals, float, floats, put_in, setting, shown, signed, small, state, state_shown, told, two,
    SETTING, STATE,
};
use crate::motion::{of_an_order, run, Outcome, Ran};
use crate::rule::{acceleration, inject, Setting, State};
use crate::sphere::{from_sphere, Sphere};
use crate::{book, calendar, fixed, hour, moves, root, sine};

/// A line longer than this, without its line feed, is not a call.
pub const LONGEST: usize = 1000;
pub const UNREADABLE: &str = "UNREADABLE";

pub fn ask_date(f: &[&[u8]]) -> Option<String> {
    let [day] = decimals(f)?;
    Some(told(calendar::date_of(day).map(|(y, m, d)| format!("{y} {m} {d}"))))
}

pub fn ask_day(f: &[&[u8]]) -> Option<String> {
    let [year, month, day] = decimals(f)?;
    Some(told(calendar::day_of(year, month, day).map(|d| d.to_string())))
}

pub fn ask_hour(f: &[&[u8]]) -> Option<String> {
    let [moment, dut] = f else { return None };
    let (moment, dut) = (decimal(moment)?, small(dut)?);
    Some(told(hour::hour_angle(moment, dut).map(|parts| parts.to_string())))
}

pub fn ask_sidereal(f: &[&[u8]]) -> Option<String> {
    let [rule, moment, dut] = f else { return None };
    let (rule, moment, dut) = (decimal(rule)?, decimal(moment)?, small(dut)?);
    Some(told(hour::sidereal(rule, moment, dut).map(|parts| parts.to_string())))
}

pub fn ask_root(f: &[&[u8]]) -> Option<String> {
    let [x] = floats(f)?;
    Some(told(root::root(x).map(shown)))
}

pub fn ask_sincos(f: &[&[u8]]) -> Option<String> {
    let [parts] = decimals(f)?;
    Some(told(sine::sine_cosine(parts).map(|(s, c)| all_shown(&[s, c]))))
}

pub fn ask_turn(f: &[&[u8]]) -> Option<String> {
    let [rule, dut, rest @ ..] = f else { return None };
    let answer = fixed::earth_fixed(decimal(rule)?, small(dut)?, &state(rest)?);
    Some(told(answer.map(|(p, v)| all_shown(&two(p, v)))))
}

pub fn ask_sphere(f: &[&[u8]]) -> Option<String> {
    let [rule, dut, moment, radius, latitude, longitude, speed, path, azimuth] = f else { return None };
    let (rule, dut, moment) = (decimal(rule)?, small(dut)?, decimal(moment)?);
    let sphere = Sphere {
        radius: float(radius)?,
        latitude: signed(latitude)?,
        longitude: decimal(longitude)?,
        speed: float(speed)?,
        path: signed(path)?,
        azimuth: decimal(azimuth)?,
    };
    let answer = from_sphere(rule, dut, moment, &sphere);
    Some(told(answer.map(|(p, v)| format!("{moment} {}", all_shown(&two(p, v))))))
}

pub fn ask_orbit(f: &[&[u8]]) -> Option<String> {
    let (m, rest) = f.split_first()?;
    Some(told(conic(float(m)?, &state(rest)?).map(|c| {
        let (name, figures) = match c.kind {
            Kind::Ellipse { a, e, p, q, far } => ("ELLIPSE", [a, e, p, q, far]),
            Kind::Hyperbola { a, e, p, q, v } => ("HYPERBOLA", [a, e, p, q, v]),
        };
        format!("{name} {} {}", c.centre, all_shown(&figures))
    })))
}

pub fn ask_body(book: &[u8], f: &[&[u8]]) -> Option<String> {
    let [number, moment] = decimals(f)?;
    Some(told(book::body(book, number, moment).map(|m| all_shown(&m.six()))))
}

pub fn ask_pull(book: &[u8], f: &[&[u8]]) -> Option<String> {
    let (setting, rest) = (setting(f.get(..SETTING)?)?, f.get(SETTING..)?);
    let [moment, centre, position @ ..] = rest else { return None };
    let (moment, centre, position) = (decimal(moment)?, decimal(centre)?, floats(position)?);
    Some(told(acceleration(book, &setting, moment, centre, position).map(|a| all_shown(&a))))
}

pub fn ask_inject(book: &[u8], f: &[&[u8]]) -> Option<String> {
    let (setting, state) = (setting(f.get(..SETTING)?)?, bare_state(f.get(SETTING..)?)?);
    Some(told(inject(book, &setting, &state).map(|s| state_shown(&s))))
}

pub fn ask_move(book: &[u8], f: &[&[u8]]) -> Option<String> {
    let [.., new] = f else { return None };
    let (setting, state) = (setting(f.get(..SETTING)?)?, state(f.get(SETTING..f.len() - 1)?)?);
    Some(told(moves::moved(book, &setting, &state, decimal(new)?).map(|s| state_shown(&s))))
}

/// The call of a line of `fly`, from its state or from a state made from that.
pub fn flown(book: &[u8], f: &[&[u8]], made: fn(&[u8], &Setting, &State) -> State) -> Option<Ran> {
    let (setting, state) = (setting(f.get(..SETTING)?)?, state(f.get(SETTING..SETTING + STATE)?)?);
    let [h, target, budget, guesses @ ..] = f.get(SETTING + STATE..)? else { return None };
    let (h, target, budget) = (small(h)?, decimal(target)?, small(budget)?);
    Some(run(book, &setting, &made(book, &setting, &state), h, target, budget, decimals(guesses)?))
}

/// Outcome and steps, the state as it is printed, and guesses.
pub fn ran_line(ran: &Ran, state: &str) -> String {
    let outcome = match ran.outcome {
        Outcome::Arrived => "ARRIVED".to_string(),
        Outcome::Going => "GOING".to_string(),
        Outcome::Refused(number) => format!("REFUSED {number}"),
    };
    let guesses = ran.guesses.map(|g| g.to_string()).join(" ");
    format!("{outcome} {} {state} {guesses}", ran.steps)
}

pub fn ask_fly(book: &[u8], f: &[&[u8]]) -> Option<String> {
    let ran = flown(book, f, |_, _, s| *s)?;
    Some(ran_line(&ran, &state_shown(&ran.state)))
}

/// An old state has the acceleration that the rule gives. It is printed without acceleration and centre.
pub fn ask_run(book: &[u8], f: &[&[u8]]) -> Option<String> {
    let ran = flown(book, f, of_an_order)?;
    let s = &ran.state;
    Some(ran_line(&ran, &format!("{} {}", s.moment, all_shown(&two(s.position, s.velocity)))))
}

/// An old line means rule 0 and the Earth, with J, A and K zero: these are inserted as fields of the new line. A conic reads no
/// moment. Neither a conic nor a turn reads the stored acceleration.
pub const RULE: &[u8] = b"0";
pub const CENTRE: &[u8] = b"1";
pub const MOMENT: &[u8] = b"0";
pub const ZERO: &[u8] = b"0000000000000000";
/// The fields that an old line lacks: those of a turn, of a conic, and of an acceleration or a run, which lacks the last three too.
pub const OF_A_TURN: [(usize, &[u8]); 5] = [(0, RULE), (3, CENTRE), (10, ZERO), (11, ZERO), (12, ZERO)];
pub const OF_A_CONIC: [(usize, &[u8]); 5] = [(1, MOMENT), (2, CENTRE), (9, ZERO), (10, ZERO), (11, ZERO)];
pub const OF_A_PULL: [(usize, &[u8]); 5] = [(7, ZERO), (8, ZERO), (9, ZERO), (10, RULE), (12, CENTRE)];
pub const OF_A_RUN: [(usize, &[u8]); 3] = [(19, ZERO), (20, ZERO), (21, ZERO)];

/// The answer to one line, without line feeds; None if it is unreadable.
pub fn readable(book: &[u8], line: &[u8]) -> Option<String> {
    if line.len() > LONGEST {
        return None;
    }
    let fields: Vec<&[u8]> = line.split(|&b| b == b' ').collect();
    let (name, rest) = fields.split_first()?;
    match *name {
        b"root" => ask_root(rest),
        b"sincos" => ask_sincos(rest),
        b"hour" => ask_hour(rest),
        b"sidereal" => ask_sidereal(rest),
        b"date" => ask_date(rest),
        b"day" => ask_day(rest),
        b"fixed" => ask_turn(&put_in(rest, &OF_A_TURN)?),
        b"turn" => ask_turn(rest),
        b"sphere" => ask_sphere(rest),
        b"conic" => ask_orbit(&put_in(rest, &OF_A_CONIC)?),
        b"orbit" => ask_orbit(rest),
        b"body" => ask_body(book, rest),
        b"accel" => ask_pull(book, &put_in(rest, &OF_A_PULL)?),
        b"pull" => ask_pull(book, rest),
        b"inject" => ask_inject(book, rest),
        b"run" => ask_run(book, &put_in(&put_in(rest, &OF_A_PULL)?, &OF_A_RUN)?),
        b"fly" => ask_fly(book, rest),
        b"move" => ask_move(book, rest),
        _ => None,
    }
}

pub fn answer(book: &[u8], line: &[u8]) -> String {
    readable(book, line).unwrap_or_else(|| UNREADABLE.to_string())
}

/// The whole output for a whole input. An empty last piece is not a line.
pub fn answers(book: &[u8], input: &[u8]) -> Vec<u8> {
    let mut out = Vec::new();
    for piece in input.split_inclusive(|&b| b == b'\n') {
        let line = piece.strip_suffix(b"\n").unwrap_or(piece);
        out.extend_from_slice(answer(book, line).as_bytes());
        out.push(b'\n');
    }
    out
}
