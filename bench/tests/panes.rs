//! The calls of the live pane compared with the reference, on sessions from a seed: the number returned, and every number and every
//! bit in memory.

use belfrywool as proved;
use belfrywool::{calls, Body, Fed, Moment, Refusal};
use reference::motion;
use reference::pane::{read, Frame, Line, Pane};
use reference::rule;
use reference::trial::chance::Chance;
use reference::trial::panes::sessions;

/// Bits, with all NaNs equal.
fn bits(x: f64) -> u64 {
    if x.is_nan() { u64::MAX } else { x.to_bits() }
}

fn nine(s: &rule::State) -> [f64; 9] {
    [s.position, s.velocity, s.acceleration].concat().try_into().expect("nine")
}

/// A pane as it must be in memory: numbers, and bits of floats.
fn laid(pane: &Pane) -> ([u64; 5], Vec<u64>) {
    let (held, list): (u64, Vec<&rule::State>) = match pane {
        Pane::Clear => (0, vec![]),
        Pane::One(a) => (1, vec![a]),
        Pane::Two(a, b) => (2, vec![a, b]),
    };
    let (mut numbers, mut places) = ([held, 0, 0, 0, 0], [0.0; 18]);
    for (i, s) in list.iter().enumerate() {
        numbers[2 * i + 1..2 * i + 3].copy_from_slice(&[s.moment, s.centre]);
        places[9 * i..9 * i + 9].copy_from_slice(&nine(s));
    }
    (numbers, places.map(bits).to_vec())
}

fn memory(pane: &proved::Pane) -> ([u64; 5], Vec<u64>) {
    let (numbers, places) = pane.memory();
    (numbers, places.map(bits).to_vec())
}

fn own(s: &rule::State) -> proved::State {
    proved::State::of_nine(Moment(s.moment), Body(s.centre), nine(s))
}

fn frame(answer: Result<Frame, u64>) -> proved::Frame {
    match answer {
        Ok(Frame::Current(p)) => proved::Frame::Current(p),
        Ok(Frame::Late(by)) => proved::Frame::Late(by),
        Ok(Frame::Empty) => proved::Frame::Empty,
        Err(number) => proved::Frame::Refused(Refusal::of_number(number).expect("a refusal")),
    }
}

/// Position and velocity in bits, how late it is, nothing, or the number of the refusal.
type Shown = proved::Frame<[u64; 6]>;

fn six(motion: proved::Motion) -> [u64; 6] {
    motion.six().map(bits)
}

fn moving(answer: Result<Frame<[[f64; 3]; 2]>, u64>) -> Shown {
    match answer {
        Ok(Frame::Current([p, v])) => proved::Frame::Current(six(proved::Motion { position: p, velocity: v })),
        Ok(Frame::Late(by)) => proved::Frame::Late(by),
        Ok(Frame::Empty) => proved::Frame::Empty,
        Err(number) => proved::Frame::Refused(Refusal::of_number(number).expect("a refusal")),
    }
}

/// A frame with velocity, by the crate and by the exported call itself, which always writes both its places.
fn motion_shown(pane: &proved::Pane, t: u64) -> Shown {
    let shown = match pane.frame_motion(Moment(t)) {
        proved::Frame::Current(motion) => proved::Frame::Current(six(motion)),
        proved::Frame::Late(by) => proved::Frame::Late(by),
        proved::Frame::Empty => proved::Frame::Empty,
        proved::Frame::Refused(refusal) => proved::Frame::Refused(refusal),
    };
    let (numbers, places) = pane.memory();
    let (mut motion, mut late) = ([1.0; 6], u64::MAX);
    let told = unsafe { calls::belfry_frame_motion(&numbers, &places, t, &mut motion, &mut late) };
    let nothing = [u64::MAX; 6];
    let (number, left, by) = match shown {
        proved::Frame::Current(motion) => (0, motion, 0),
        proved::Frame::Late(by) => (calls::LATE, nothing, by),
        proved::Frame::Empty => (calls::EMPTY, nothing, 0),
        proved::Frame::Refused(refusal) => (refusal.number(), nothing, 0),
    };
    assert_eq!((told, motion.map(bits), late), (number, left, by));
    shown
}

/// The law of the two frames: same word, same lateness, same position; but a velocity that is not finite is 7.
fn agrees(frame: proved::Frame, motion: Shown) {
    match (frame, motion) {
        (proved::Frame::Current(p), proved::Frame::Current(m)) => assert_eq!(p.map(bits), m[..3]),
        (proved::Frame::Current(_), other) => assert_eq!(other, proved::Frame::Refused(Refusal::NotFinite)),
        (proved::Frame::Late(by), other) => assert_eq!(other, proved::Frame::Late(by)),
        (proved::Frame::Empty, other) => assert_eq!(other, proved::Frame::Empty),
        (proved::Frame::Refused(refusal), other) => assert_eq!(other, proved::Frame::Refused(refusal)),
    }
}

/// An outcome, if a run can have it: no run is refused with a number that is not a refusal's.
fn outcome(outcome: motion::Outcome) -> Option<proved::Outcome> {
    Some(match outcome {
        motion::Outcome::Arrived => proved::Outcome::Arrived,
        motion::Outcome::Going => proved::Outcome::Going,
        motion::Outcome::Refused(number) => proved::Outcome::Refused(Refusal::of_number(number)?),
    })
}

fn number(outcome: motion::Outcome) -> u64 {
    match outcome {
        motion::Outcome::Arrived => 0,
        motion::Outcome::Going => calls::GOING,
        motion::Outcome::Refused(number) => number,
    }
}

/// The pane after a run with this outcome and state, and whether it is taken: by the crate if it has the outcome, and always by the
/// exported call itself.
fn fed(pane: &mut proved::Pane, how: motion::Outcome, s: &rule::State) -> Result<bool, u64> {
    let (mut numbers, mut places) = pane.memory();
    let told = unsafe { calls::belfry_feed(number(how), s.moment, s.centre, &nine(s), &mut numbers, &mut places) };
    let told = match told {
        calls::UNCHANGED => Ok(false),
        0 => Ok(true),
        number => Err(number),
    };
    let after = proved::Pane::of_memory(numbers, places);
    if let Some(outcome) = outcome(how) {
        let run = proved::RunAnswer { outcome, steps: 0, state: own(s), guesses: proved::Guesses::default() };
        assert_eq!(pane.feed(&run).map(|fed| fed == Fed::Taken).map_err(Refusal::number), told);
        assert_eq!(memory(pane), memory(&after));
    }
    *pane = after;
    told
}

/// Both panes after a line that offers a state; the numbers returned are the same.
fn offered(pane: &mut proved::Pane, other: &mut Pane, line: &Line, what: &str) {
    let (got, expected) = match line {
        Line::Take(s) => (pane.take(&own(s)).map(|()| true).map_err(Refusal::number), other.take(s).map(|next| (true, next))),
        Line::Feed(how, s) => {
            let taken = !matches!(how, motion::Outcome::Refused(_));
            (fed(pane, *how, s), other.feed(*how, s).map(|next| (taken, next)))
        }
        _ => return,
    };
    assert_eq!(got, expected.map(|(taken, _)| taken), "{what}");
    if let Ok((_, next)) = expected {
        *other = next;
    }
}

/// A refused run whose number has another meaning: 0 and 100 are not refusals.
fn no_refusal(line: &Line) -> bool {
    matches!(line, Line::Feed(motion::Outcome::Refused(0 | 100), _))
}

#[test]
fn sessions_of_the_pane() {
    let mut told = [0; 4];
    for session in sessions(&mut Chance::new(6), 2000, &[]) {
        let (mut pane, mut other) = (proved::Pane::default(), Pane::Clear);
        for text in &session.lines {
            let what = format!("{}: {}", session.case, String::from_utf8_lossy(text));
            match read(text) {
                Some(line) if no_refusal(&line) => {}
                Some(Line::Frame(t)) => {
                    let expected = frame(other.frame(t));
                    assert_eq!(pane.frame(Moment(t)), expected, "{what}");
                    let motion = motion_shown(&pane, t);
                    assert_eq!(motion, moving(other.frame_motion(t)), "{what}");
                    agrees(expected, motion);
                    let kind = match expected {
                        proved::Frame::Current(_) => 0,
                        proved::Frame::Late(_) => 1,
                        proved::Frame::Empty => 2,
                        proved::Frame::Refused(_) => 3,
                    };
                    told[kind] += 1;
                }
                Some(Line::Clear) => {
                    pane.clear();
                    other = Pane::Clear;
                }
                Some(line) => offered(&mut pane, &mut other, &line, &what),
                None => {}
            }
            assert_eq!(memory(&pane), laid(&other), "{what}");
        }
    }
    assert!(told.iter().all(|&n| n > 1000), "{told:?}");
}

/// Memory that is not a pane: a number of states other than 1 and 2 is an empty pane, and moments that do not rise show nothing
/// between them.
#[test]
fn memory_that_is_no_pane() {
    let mut c = Chance::new(7);
    for _ in 0..20_000 {
        let (mut numbers, places) = ([0; 5].map(|_| c.any_length(64)), [0.0; 18].map(|_| c.any_bits()));
        if c.one_in(2) {
            numbers[0] = c.below(4);
        }
        let (held, older, newer) = (numbers[0], numbers[1], numbers[3]);
        let mut pane = proved::Pane::of_memory(numbers, places);
        let t = if c.one_in(2) { c.any_length(64) } else { c.pick(&[older, newer]) };
        let shown = pane.frame(Moment(t));
        match held {
            2 if t > newer => assert_eq!(shown, proved::Frame::Late(t - newer)),
            2 if t >= older => assert!(matches!(shown, proved::Frame::Current(_) | proved::Frame::Refused(Refusal::NotFinite))),
            _ => assert_eq!(shown, proved::Frame::Empty),
        }
        agrees(shown, motion_shown(&pane, t));
        let before = memory(&pane);
        let state = proved::State::of_nine(Moment(t), Body::EARTH, [0.0; 9]);
        let outcome = proved::Outcome::Refused(Refusal::Cover);
        let refused = proved::RunAnswer { outcome, steps: 1, state, guesses: proved::Guesses::default() };
        assert_eq!(pane.feed(&refused), Ok(Fed::Unchanged));
        assert_eq!(memory(&pane), before);
    }
}

/// Two states with floats of every sort, and moments at, next to and between theirs: the velocity of a frame, bit by bit.
#[test]
fn velocities() {
    let (mut c, mut told) = (Chance::new(34), [0; 3]);
    for round in 0..60_000 {
        let float = |c: &mut Chance| match c.below(16) {
            0 => c.edge(),
            1 => c.finite(),
            2 => c.not_finite(),
            3 => c.sized(-40, 1023),
            _ => c.within(4e5),
        };
        let state = |c: &mut Chance, moment| {
            let [position, velocity, acceleration] = [(); 3].map(|()| [(); 3].map(|()| float(c)));
            rule::State { moment, centre: 1, position, velocity, acceleration }
        };
        let start = c.below(1 << 42);
        let span = c.pick(&[1, 2, 4, 1000, 60_000, 86_400_000, u64::MAX - start]);
        let (older, newer) = (state(&mut c, start), state(&mut c, start + span));
        let other = Pane::Two(older, newer);
        let mut pane = proved::Pane::default();
        assert_eq!((pane.take(&own(&older)), pane.take(&own(&newer))), (Ok(()), Ok(())));
        let t = match c.below(8) {
            0 => start,
            1 => start + span,
            2 => start + 1,
            3 => start + span - 1,
            4 => (start + span).saturating_add(c.below(1000)),
            _ => start + c.below(span),
        };
        let shown = motion_shown(&pane, t);
        assert_eq!(shown, moving(other.frame_motion(t)), "{round}: {other:?} at {t}");
        agrees(pane.frame(Moment(t)), shown);
        told[match shown {
            proved::Frame::Current(_) => 0,
            proved::Frame::Refused(_) => 1,
            proved::Frame::Late(_) | proved::Frame::Empty => 2,
        }] += 1;
    }
    assert!(told.iter().all(|&n| n > 2000), "{told:?}");
}
