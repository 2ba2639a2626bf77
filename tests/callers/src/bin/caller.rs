//! caller QUESTIONS: asks the library each question of a file through the crate, and prints the answers.

use std::fmt::Write as _;
use std::process::ExitCode;

use belfrywool::*;
use callers::{bits, line, sum};

fn float(w: u64) -> f64 {
    f64::from_bits(w)
}

fn floats<const N: usize>(w: &[u64]) -> [f64; N] {
    std::array::from_fn(|i| float(w[i]))
}

fn all(x: &[f64]) -> Vec<u64> {
    x.iter().map(|&x| bits(x)).collect()
}

fn told<T>(answer: Result<T, Refusal>, value: impl Fn(T) -> Vec<u64>) -> Vec<u64> {
    match answer {
        Ok(x) => [vec![0], value(x)].concat(),
        Err(refusal) => vec![refusal.number()],
    }
}

fn six(m: Motion) -> Vec<u64> {
    all(&m.six())
}

fn setting_of(w: &[u64]) -> Setting {
    let [j, a, k] = floats(&w[6..]);
    Setting { coefficients: floats(w), j, a, k, dut: Dut(w[9] as u32), rule: Rule(w[10]) }
}

fn coordinates_of(w: &[u64]) -> Coordinates {
    Coordinates { moment: Moment(w[0]), centre: Body(w[1]), position: floats(&w[2..]), velocity: floats(&w[5..]) }
}

fn state_of(w: &[u64]) -> State {
    State::of_nine(Moment(w[0]), Body(w[1]), floats(&w[2..]))
}

fn earth_setting_of(w: &[u64]) -> EarthSetting {
    EarthSetting { coefficients: floats(w), dut: Dut(w[6] as u32) }
}

fn earth_of(w: &[u64]) -> EarthCoordinates {
    EarthCoordinates { moment: Moment(w[0]), position: floats(&w[1..]), velocity: floats(&w[4..]) }
}

fn guesses_of(w: &[u64]) -> Guesses {
    Guesses(std::array::from_fn(|i| w[i]))
}

fn run_of(w: &[u64]) -> Run {
    Run { h: w[0] as u32, target: Moment(w[1]), budget: w[2] as u32, guesses: guesses_of(&w[3..]) }
}

fn pane_of(w: &[u64]) -> Pane {
    Pane::of_memory(std::array::from_fn(|i| w[i]), floats(&w[5..]))
}

fn laid(pane: &Pane) -> Vec<u64> {
    let (numbers, places) = pane.memory();
    [numbers.to_vec(), all(&places)].concat()
}

fn flown<S>(answer: &RunAnswer<S>, moment: Moment, state: Vec<u64>) -> Vec<u64> {
    [vec![answer.outcome.number(), moment.0], state, answer.guesses.0.to_vec(), vec![answer.steps.into()]].concat()
}

fn earth_flown(answer: RunAnswer<EarthCoordinates>) -> Vec<u64> {
    let s = answer.state;
    flown(&answer, s.moment, [all(&s.position), all(&s.velocity)].concat())
}

fn whole(s: State) -> Vec<u64> {
    [vec![s.centre.0], all(&s.nine())].concat()
}

fn figured(c: Conic) -> Vec<u64> {
    let (kind, figures) = match c.kind {
        ConicKind::Ellipse { a, e, p, q, far } => (1, [a, e, p, q, far]),
        ConicKind::Hyperbola { a, e, p, q, root_c3 } => (2, [a, e, p, q, root_c3]),
    };
    [vec![c.centre.0, kind], all(&figures)].concat()
}

fn framed<T>(frame: Frame<T>, figure: impl Fn(T) -> Vec<u64>, count: usize) -> Vec<u64> {
    let (word, shown, late) = match frame {
        Frame::Current(x) => (0, figure(x), 0),
        Frame::Late(late) => (calls::LATE, vec![bits(f64::NAN); count], late),
        Frame::Empty => (calls::EMPTY, vec![bits(f64::NAN); count], 0),
        Frame::Refused(refusal) => (refusal.number(), vec![bits(f64::NAN); count], 0),
    };
    [vec![word], shown, vec![late]].concat()
}

fn outcome_of(w: u64) -> Outcome {
    match w {
        0 => Outcome::Arrived,
        calls::GOING => Outcome::Going,
        w => Outcome::Refused(Refusal::of_number(w).expect("a refusal")),
    }
}

fn fate(f: &Fate) -> u64 {
    match f {
        Fate::Kept(number) => u64::from(*number),
        Fate::Fields => 3001,
        Fate::Block => 3002,
        Fate::Coefficient => 3003,
        Fate::Overlap => 3004,
        Fate::Room => 3005,
    }
}

fn mended(input: &[u8], room: u64) -> Vec<u64> {
    let mut output = vec![0xa5; room as usize];
    told(repair(input, &mut output), |r| {
        let changed = [r.changed.total, r.changed.count, r.changed.order, r.changed.offsets].map(u64::from);
        let report = [r.fates.len(), r.kept, r.written].map(|n| n as u64);
        [report.to_vec(), changed.to_vec(), r.fates.iter().map(fate).collect(), vec![sum(&output[..r.written])]].concat()
    })
}

fn held(first: Book, second: Book) -> Vec<u64> {
    match book_holds(first, second) {
        Ok(Holds::Every) => vec![0],
        Ok(Holds::Missing(i)) => vec![calls::NOT_HELD, i],
        Err(refusal) => vec![refusal.number()],
    }
}

fn answer(name: &str, w: &[u64], book: Book, second: Book) -> Option<Vec<u64>> {
    let moment = |i: usize| Moment(w[i]);
    let dut = |i: usize| Dut(w[i] as u32);
    Some(match name {
        "date" => told(date(Day(w[0])), |d| vec![d.year, d.month, d.day]),
        "day" => told(day(Date { year: w[0], month: w[1], day: w[2] }), |d| vec![d.0]),
        "twice" => told(twice_julian_date(Day(w[0])), |t| vec![t]),
        "hour" => told(hour_angle(moment(0), dut(1)), |p| vec![p.0]),
        "sidereal" => told(sidereal(Rule(w[0]), moment(1), dut(2)), |p| vec![p.0]),
        "root" => told(root(float(w[0])), |r| vec![bits(r)]),
        "sincos" => told(sine_cosine(Parts(w[0])), |b| all(&[b.sine, b.cosine])),
        "length" => told(length(&floats(w)), |r| vec![bits(r)]),
        "passes" => told(book_passes(book), |()| vec![]),
        "holds" => held(book, second),
        "position" => told(position(book, Body(w[0]), moment(1)), six),
        "repair" => mended(book.bytes(), w[0]),
        "run" => earth_flown(run(book, &earth_setting_of(w), &earth_of(&w[7..]), &run_of(&w[14..]))),
        "step" => earth_flown(single_step(book, &earth_setting_of(w), &earth_of(&w[7..]), w[14] as u32, &guesses_of(&w[15..]))),
        "acceleration" => told(acceleration(book, &earth_setting_of(w), moment(7), &floats(&w[8..])), |a| all(&a)),
        "fixed" => told(earth_fixed(&earth_of(w), dut(7)), six),
        "conic" => told(conic(float(w[0]), &earth_of(&w[1..])), figured),
        "sphere" => {
            let [latitude, longitude, path_angle, azimuth] = [w[5], w[6], w[7], w[8]].map(|a| SignedParts(a as i64));
            let sphere = Sphere { radius: float(w[3]), latitude, longitude, speed: float(w[4]), path_angle, azimuth };
            told(from_sphere(Rule(w[0]), moment(1), dut(2), &sphere), |s| [all(&s.position), all(&s.velocity)].concat())
        }
        "fly" => {
            let answer = fly(book, &setting_of(w), &state_of(&w[11..]), &run_of(&w[22..]));
            flown(&answer, answer.state.moment, whole(answer.state))
        }
        "inject" => told(inject(book, &setting_of(w), &coordinates_of(&w[11..])), |s| all(&s.nine())),
        "pull" => told(pull(book, &setting_of(w), moment(11), Body(w[12]), &floats(&w[13..])), |a| all(&a)),
        "move" => told(move_to(book, &setting_of(w), &state_of(&w[11..]), Body(w[22])), whole),
        "turn" => told(turn(Rule(w[0]), dut(1), &coordinates_of(&w[2..])), six),
        "orbit" => told(orbit(float(w[0]), &coordinates_of(&w[1..])), figured),
        "clear" => {
            let mut pane = pane_of(w);
            pane.clear();
            [vec![0], laid(&pane)].concat()
        }
        "take" => {
            let mut pane = pane_of(&w[11..]);
            let word = told(pane.take(&state_of(w)), |()| vec![]);
            [word, laid(&pane)].concat()
        }
        "feed" => {
            let mut pane = pane_of(&w[12..]);
            let run = RunAnswer { outcome: outcome_of(w[0]), state: state_of(&w[1..]), steps: 0, guesses: Guesses::default() };
            let word = match pane.feed(&run) {
                Ok(Fed::Taken) => 0,
                Ok(Fed::Unchanged) => calls::UNCHANGED,
                Err(refusal) => refusal.number(),
            };
            [vec![word], laid(&pane)].concat()
        }
        "frame" => framed(pane_of(&w[1..]).frame(moment(0)), |p| all(&p), 3),
        "motion" => framed(pane_of(&w[1..]).frame_motion(moment(0)), six, 6),
        _ => return None,
    })
}

fn bytes_of(digits: &str) -> Option<Vec<u8>> {
    (0..digits.len()).step_by(2).map(|i| u8::from_str_radix(digits.get(i..i + 2)?, 16).ok()).collect()
}

fn answers(questions: &str) -> Option<String> {
    let (mut out, mut book, mut second) = (String::new(), vec![], vec![]);
    for question in questions.lines() {
        let (name, rest) = question.split_once(' ')?;
        match name {
            "book" => book = bytes_of(rest)?,
            "second" => second = bytes_of(rest)?,
            _ => {
                let words: Option<Vec<u64>> = rest.split_whitespace().map(|w| u64::from_str_radix(w, 16).ok()).collect();
                let told = answer(name, &words?, Book::unchecked(&book), Book::unchecked(&second))?;
                // Writing into memory does not fail.
                let _ = writeln!(out, "{}", line(&told));
            }
        }
    }
    Some(out)
}

fn main() -> ExitCode {
    let words: Vec<String> = std::env::args().skip(1).collect();
    let [file] = &words[..] else {
        eprintln!("use: caller QUESTIONS");
        return ExitCode::from(2);
    };
    match std::fs::read_to_string(file).ok().and_then(|text| answers(&text)) {
        Some(text) => {
            print!("{text}");
            ExitCode::SUCCESS
        }
        None => {
            eprintln!("caller: {file} cannot be read");
            ExitCode::from(2)
        }
    }
}
