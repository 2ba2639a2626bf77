//! `conformance BOOK`: document 01's figures by the exported calls, and a flight to the Moon of the book. Numbers that are not
//! whole are printed as their bits.

use belfrywool::*;

fn bits(x: &[f64]) -> String {
    x.iter().map(|x| format!(" {:016x}", x.to_bits())).collect()
}

fn told<T>(answer: Result<T, Refusal>, told: impl Fn(T) -> String) -> String {
    match answer {
        Ok(value) => told(value),
        Err(refusal) => format!(" refused {}", refusal.number()),
    }
}

fn number(answer: Result<(), Refusal>) -> u64 {
    answer.err().map_or(0, Refusal::number)
}

fn both(b: SineCosine) -> String {
    bits(&[b.sine, b.cosine])
}

fn calendar() -> Result<(), Refusal> {
    for day in [2922, 18321, 36524, 36525] {
        println!("date {day}:{}", told(date(Day(day)), |d| format!(" {} {} {}", d.year, d.month, d.day)));
    }
    println!("day 2001 2 29:{}", told(day(Date { year: 2001, month: 2, day: 29 }), |d| format!(" {}", d.0)));
    let d = day(Date { year: 2000, month: 2, day: 29 })?;
    println!("day 2000 2 29: {}, twice the Julian date {}", d.0, twice_julian_date(d)?);
    Ok(())
}

/// Day 4322, 82,951 s.
const MOMENT: Moment = Moment(4322 * 86_400_000 + 82_951_000);

fn angles() -> Result<(), Refusal> {
    println!("hour angle: {}", hour_angle(MOMENT, Dut(0))?.0);
    println!("hour angle below 0h UT:{}", told(hour_angle(Moment(34_999), Dut(35_000)), |p| format!(" {}", p.0)));
    println!("sidereal, 1982: {}", sidereal(Rule::IAU_1982, MOMENT, Dut(0))?.0);
    println!("sidereal, a third rule:{}", told(sidereal(Rule(2), Moment(0), Dut(0)), |p| format!(" {}", p.0)));
    println!("sine and cosine of a quarter:{}", both(sine_cosine(Parts(900_000_000_000))?));
    println!("sine and cosine of a circle:{}", told(sine_cosine(Parts(3_600_000_000_000)), both));
    println!("root of 2:{}", bits(&[root(2.0)?]));
    println!("root of -1:{}", told(root(-1.0), |x| bits(&[x])));
    Ok(())
}

/// A book of one entry: the Moon from 0 to 2000, with three coefficients for each axis.
fn moon_book(coefficients: [f64; 9]) -> Vec<u8> {
    let mut book = Vec::new();
    for number in [104u32, 1, 2 + (3 << 16), 32] {
        book.extend(number.to_le_bytes());
    }
    for number in [0u64, 2000] {
        book.extend(number.to_le_bytes());
    }
    for c in coefficients {
        book.extend(c.to_le_bytes());
    }
    book
}

fn positions() {
    let book = moon_book([1.0, 2.0, 3.0, 1.0, 2.0, 3.0, 1.0, 2.0, 3.0]);
    let passes = |book| number(book_passes(Book::unchecked(book)));
    println!("book: {}, cut short: {}", passes(&book), passes(&book[..103]));
    let moon = |moment| position(Book::unchecked(&book), Body::MOON, Moment(moment));
    for moment in [0, 1000] {
        println!("Moon at {moment}:{}", told(moon(moment), |p| bits(&p.six())));
    }
    for moment in [1999, 2000] {
        println!("Moon at {moment}:{}", told(moon(moment), |_| " covered".into()));
    }
}

/// Whether the second book holds every entry of the first.
fn held_line(what: &str, first: &[u8], second: &[u8]) {
    let held = |h| match h {
        Holds::Every => " every entry is held, 99".to_string(),
        Holds::Missing(i) => format!(" entry {i} is missing"),
    };
    println!("{what}:{}", told(book_holds(Book::unchecked(first), Book::unchecked(second)), held));
}

fn two_books() {
    let of = |last| moon_book([1.0, 2.0, 3.0, 1.0, 2.0, 3.0, 1.0, 2.0, last]);
    let (empty, book) = (Book::EMPTY.bytes(), &of(0.0)[..]);
    held_line("the empty book beside the Moon's", empty, book);
    held_line("the Moon's beside the empty book", book, empty);
    held_line("the Moon's beside itself", book, book);
    held_line("the Moon's beside one with -0.0 for 0.0", book, &of(-0.0));
    held_line("the Moon's beside itself cut short", book, &book[..103]);
}

fn earth() -> EarthSetting {
    EarthSetting { coefficients: [8.0, 0.0, 0.0, 0.0, 0.0, 0.0], dut: Dut(0) }
}

fn fate(fate: &Fate) -> u16 {
    match fate {
        Fate::Kept(number) => *number,
        Fate::Fields => 3001,
        Fate::Block => 3002,
        Fate::Coefficient => 3003,
        Fate::Overlap => 3004,
        Fate::Room => 3005,
    }
}

fn repaired(r: &Repair) -> String {
    let Changed { total, count, order, offsets } = r.changed;
    let marks = [total, count, order, offsets].map(|changed| format!(" {}", u8::from(changed))).concat();
    let fates: String = r.fates.iter().map(|f| format!(" {}", fate(f))).collect();
    format!(" kept {} of {}, {} bytes, changed{marks}, fates{fates}", r.kept, r.fates.len(), r.written)
}

fn repairs() -> Result<(), Refusal> {
    let whole = moon_book([1.0, 2.0, 3.0, 1.0, 2.0, 3.0, 1.0, 2.0, 3.0]);
    let mut damaged = whole.clone();
    damaged[..4].copy_from_slice(&0u32.to_le_bytes());
    damaged[4..8].copy_from_slice(&9u32.to_le_bytes());
    let (mut output, mut again) = ([7; 112], [7; 112]);
    println!("repair, total 0 and count 9:{}", repaired(&repair(&damaged, &mut output)?));
    println!("as it was: {}, behind it: {}", u8::from(output[..104] == whole[..]), output[104]);
    println!("repaired again:{}", repaired(&repair(&output[..104], &mut again)?));
    println!("repair into 7 bytes:{}", told(repair(&damaged, &mut output[..7]), |r| repaired(&r)));
    Ok(())
}

fn accelerations() -> Result<(), Refusal> {
    let book = moon_book([4.0, 0.0, 0.0, 0.0, 0.0, 0.0, 0.0, 0.0, 0.0]);
    let (book, mut setting) = (Book::checked(&book)?, earth());
    println!("Earth alone:{}", bits(&acceleration(book, &setting, Moment(0), &[2.0, 0.0, 0.0])?[..1]));
    setting.coefficients[1] = 16.0;
    println!("with the Moon:{}", bits(&acceleration(book, &setting, Moment(0), &[2.0, 0.0, 0.0])?[..1]));
    Ok(())
}

fn at(vx: f64, vy: f64) -> EarthCoordinates {
    EarthCoordinates { moment: Moment(0), position: [2.0, 0.0, 0.0], velocity: [vx, vy, 0.0] }
}

fn six(c: &EarthCoordinates) -> String {
    bits(&Motion { position: c.position, velocity: c.velocity }.six())
}

fn runs() {
    let (book, setting, start) = (Book::EMPTY, earth(), at(0.0, 4.0));
    let ask = Run { h: 3, target: Moment(0), budget: 9, guesses: Guesses::default() };
    let ran = run(book, &setting, &start, &ask);
    if let Outcome::Refused(refusal) = ran.outcome {
        println!("h 3: refused {}, steps {}", refusal.number(), ran.steps);
    }
    let mut ran = run(book, &setting, &start, &Run { h: 1000, ..ask });
    println!("at the target: steps {},{}", ran.steps, six(&ran.state));
    loop {
        ran = run(book, &setting, &ran.state, &Run { h: 1000, target: Moment(5000), budget: 2, guesses: ran.guesses });
        let going = ran.outcome == Outcome::Going;
        let word = if going { "going" } else { "arrived" };
        println!("{word}: steps {}, moment {}", ran.steps, ran.state.moment.0);
        if !going {
            break;
        }
    }
    let ran = single_step(book, &setting, &ran.state, 86_400_000, &ran.guesses);
    let word = if ran.outcome == Outcome::Going { "going" } else { "arrived" };
    println!("a day's step, {word}: steps {}, moment {}", ran.steps, ran.state.moment.0);
}

fn conic_told(conic: Conic) -> String {
    let (kind, figures) = match conic.kind {
        ConicKind::Ellipse { a, e, p, q, far } => ("ellipse", [a, e, p, q, far]),
        ConicKind::Hyperbola { a, e, p, q, root_c3 } => ("hyperbola", [a, e, p, q, root_c3]),
    };
    format!(" centre {}, {kind}{}", conic.centre.0, bits(&figures))
}

fn launch() -> Result<(), Refusal> {
    let mut sphere = Sphere {
        radius: 6570.0,
        latitude: SignedParts(283_090_000_000),
        longitude: SignedParts(2_794_570_000_000),
        speed: 7.8,
        path_angle: SignedParts(0),
        azimuth: SignedParts(900_000_000_000),
    };
    let (moment, dut) = (Moment(411_264_035_000), Dut(35_000));
    let state = from_sphere(Rule::OLD, moment, dut, &sphere)?;
    println!("launch:{}", six(&state));
    let setting = EarthSetting { coefficients: [398_600.63, 0.0, 0.0, 0.0, 0.0, 0.0], dut };
    let ask = Run { h: 60_000, target: moment.plus(HOUR), budget: 100, guesses: Guesses::default() };
    let ran = run(Book::EMPTY, &setting, &state, &ask);
    println!("after an hour, steps {}:{}", ran.steps, six(&ran.state));
    sphere.path_angle = SignedParts(-900_000_000_001);
    println!("path angle below -90 degrees:{}", told(from_sphere(Rule::OLD, moment, dut, &sphere), |s| six(&s)));
    Ok(())
}

fn states() -> Result<(), Refusal> {
    for (vx, vy) in [(0.0, 2.0), (0.0, 4.0), (2.0, 2.0), (2.0, 0.0)] {
        println!("conic:{}", told(conic(8.0, &at(vx, vy)), conic_told));
    }
    println!("Earth-fixed below 0h UT:{}", told(earth_fixed(&at(2.0, 0.0), Dut(1)), |t| bits(&t.six())));
    let up = EarthCoordinates { moment: Moment(0), position: [0.0, 0.0, 3.0], velocity: [0.0; 3] };
    println!("Earth-fixed, 3 km up the axis:{}", bits(&earth_fixed(&up, Dut(0))?.position[2..]));
    println!("the same by the 1982 rule:{}", bits(&turn(Rule::IAU_1982, Dut(0), &up.into())?.position[2..]));
    Ok(())
}

const MINUTE: u64 = 60_000;
const HOUR: u64 = 60 * MINUTE;

/// The length of a vector.
fn length(v: &[f64]) -> Result<f64, Refusal> {
    root((v[0] * v[0] + v[1] * v[1]) + v[2] * v[2])
}

/// The distance of a state from its centre, in km, and its speed, in km/s.
fn told_from(what: &str, steps: u32, state: &State) -> Result<(), Refusal> {
    let (range, speed) = (length(&state.position)?, length(&state.velocity)?);
    println!("{what}, steps {steps}: {range:.3} km from centre {}, {speed:.6} km/s", state.centre.0);
    Ok(())
}

/// JPL's check case 1: the oblate Earth, the Moon and the Sun.
const SETTING: Setting = Setting {
    coefficients: [398_600.63, 4902.6293, 132_714_110_000.0, 0.0, 0.0, 0.0],
    dut: Dut(35_000),
    ..Setting::NOMINAL
};
const INJECTION: Coordinates = Coordinates {
    moment: Moment(411_331_356_297),
    centre: Body::EARTH,
    position: [5936.9501, 2718.6042, -728.83219],
    velocity: [-4.2284408, 8.5267773, -5.4530145],
};

fn in_minutes(target: Moment, budget: u32, guesses: Guesses) -> Run {
    Run { h: MINUTE as u32, target, budget, guesses }
}

/// JPL's check case 1 under the oblate Earth, the Moon and the Sun: 58 hours about the Earth, a move to the Moon, four hours about it.
fn to_the_moon(book: Book) -> Result<(), Refusal> {
    let (setting, reached) = (&SETTING, INJECTION.moment.plus(58 * HOUR));
    let Coordinates { moment, centre, position, velocity } = INJECTION;
    let bare = State { moment, centre, position, velocity, acceleration: [f64::NAN; 3] };
    let ran = fly(book, setting, &bare, &in_minutes(reached, u32::MAX, Guesses::default()));
    if let Outcome::Refused(refusal) = ran.outcome {
        println!("without its acceleration: refused {}, steps {}", refusal.number(), ran.steps);
    }
    let injection = inject(book, setting, &INJECTION)?;
    println!("injected, with the acceleration:{}", bits(&injection.acceleration));
    let ran = fly(book, setting, &injection, &in_minutes(reached, u32::MAX, Guesses::default()));
    told_from("toward the Moon", ran.steps, &ran.state)?;
    let moon = move_to(book, setting, &ran.state, Body::MOON)?;
    told_from("moved to the Moon", 0, &moon)?;
    println!("turned about the Moon:{}", told(turn(Rule::OLD, setting.dut, &moon.coordinates()), |t| bits(&t.six())));
    println!("moved to Mars, which is not used:{}", told(move_to(book, setting, &moon, Body::MARS), |s| bits(&s.nine())));
    let ran = fly(book, setting, &moon, &in_minutes(reached.plus(4 * HOUR), u32::MAX, ran.guesses));
    told_from("four hours on", ran.steps, &ran.state)?;
    println!("there:{}", bits(&ran.state.coordinates().motion().six()));
    println!("its acceleration, as stored:{}", bits(&ran.state.acceleration));
    let rule = pull(book, setting, ran.state.moment, Body::MOON, &ran.state.position)?;
    println!("its acceleration, by the rule:{}", bits(&rule));
    println!("its orbit:{}", conic_told(orbit(setting.coefficients[1], &ran.state.coordinates())?));
    Ok(())
}

/// One line for a frame.
fn frame_line(pane: &Pane, moment: Moment) -> Result<(), Refusal> {
    let text = match pane.frame(moment) {
        Frame::Current(p) => format!("current, {:.3} km", length(&p)?),
        Frame::Late(by) => format!("late by {by} ms"),
        Frame::Empty => "empty".to_string(),
        Frame::Refused(refusal) => return Err(refusal),
    };
    println!("frame {}: {text}", moment.0);
    Ok(())
}

/// One line for a frame with velocity.
fn motion_line(pane: &Pane, moment: Moment) {
    let text = match pane.frame_motion(moment) {
        Frame::Current(motion) => bits(&motion.six()),
        Frame::Late(by) => format!(" late by {by} ms, 1"),
        Frame::Empty => " empty".to_string(),
        Frame::Refused(refusal) => format!(" refused {}", refusal.number()),
    };
    println!("motion {}:{text}", moment.0);
}

/// The first minutes of that flight in a pane: minute by minute under a book without the Moon's record, from the second minute on.
fn live(book: Book) -> Result<(), Refusal> {
    let mut state = inject(book, &SETTING, &INJECTION)?;
    let (start, mut pane) = (state.moment, Pane::default());
    pane.take(&state)?;
    frame_line(&pane, start)?;
    println!("taken again: refused {}", number(pane.take(&state)));
    for (minute, book) in [(1, book), (2, Book::EMPTY)] {
        let ran = fly(book, &SETTING, &state, &in_minutes(start.plus(minute * MINUTE), 1, Guesses::default()));
        println!("fed: {}", u8::from(pane.feed(&ran)? == Fed::Taken));
        state = ran.state;
    }
    let moments = [start.0 - 1, start.0, start.0 + MINUTE / 2, start.0 + MINUTE, start.0 + MINUTE + 1, start.0 + 31 * MINUTE];
    for moment in moments {
        frame_line(&pane, Moment(moment))?;
    }
    for moment in &moments[..5] {
        motion_line(&pane, Moment(*moment));
    }
    pane.clear();
    frame_line(&pane, start)
}

fn main() -> Result<(), Refusal> {
    let Some(Ok(book)) = std::env::args().nth(1).map(std::fs::read) else {
        eprintln!("conformance BOOK");
        std::process::exit(2);
    };
    let book = Book::unchecked(&book);
    calendar()?;
    angles()?;
    positions();
    two_books();
    repairs()?;
    accelerations()?;
    runs();
    states()?;
    launch()?;
    to_the_moon(book)?;
    live(book)
}
