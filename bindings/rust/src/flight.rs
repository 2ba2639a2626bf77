//! The calls about any centre, under the whole setting: accelerations, injections, moves, runs, Earth-fixed coordinates and conics.

use crate::calls;
use crate::conic::figured;
use crate::refusal::{answer, meaning, refused};
use crate::{Body, Book, Conic, Coordinates, Dut, Guesses, Moment, Motion, Refusal, Rule, Setting, State, Vector};

/// How a run ended.
#[derive(Clone, Copy, Debug, PartialEq, Eq)]
pub enum Outcome {
    /// At the target.
    Arrived,
    /// The budget is spent short of the target.
    Going,
    Refused(Refusal),
}

impl Outcome {
    pub(crate) fn of_number(number: u64) -> Outcome {
        match number {
            0 => Outcome::Arrived,
            calls::GOING => Outcome::Going,
            number => Outcome::Refused(refused(number)),
        }
    }

    /// The number that the call returned: 0, 100, or that of the refusal.
    ///
    /// ```
    /// use belfrywool::{Outcome, Refusal};
    ///
    /// assert_eq!(Outcome::Refused(Refusal::Cover).number(), 6);
    /// assert_eq!(Outcome::Going.number(), 100);
    /// ```
    pub fn number(self) -> u64 {
        match self {
            Outcome::Arrived => 0,
            Outcome::Going => calls::GOING,
            Outcome::Refused(refusal) => refusal.number(),
        }
    }

    /// What it means, in a plain sentence.
    ///
    /// ```
    /// assert_eq!(belfrywool::Outcome::Going.meaning(), "the budget is spent short of the target");
    /// ```
    pub fn meaning(self) -> &'static str {
        meaning(self.number())
    }
}

/// The input of a run.
#[derive(Clone, Copy, Debug, PartialEq, Eq)]
pub struct Run {
    /// The step length in milliseconds: even, 2 to 86,400,000.
    pub h: u32,
    pub target: Moment,
    /// The greatest number of steps.
    pub budget: u32,
    pub guesses: Guesses,
}

/// The answer of a run. For every outcome the state is the last one reached. The next run continues from it with these guesses.
#[derive(Clone, Copy, Debug, PartialEq)]
#[must_use]
pub struct RunAnswer<S = State> {
    pub outcome: Outcome,
    pub state: S,
    /// The number of steps done.
    pub steps: u32,
    pub guesses: Guesses,
}

/// The acceleration about a centre, in km/s², at a position from it in km. Refusals: 1, 4, 14, 3, 7, 6.
///
/// ```
/// use belfrywool::{pull, Body, Book, Dut, Moment, Rule, Setting};
///
/// let earth = Setting { coefficients: [8.0, 0.0, 0.0, 0.0, 0.0, 0.0], j: 0.0, a: 0.0, k: 0.0, dut: Dut(0), rule: Rule::OLD };
/// let acceleration = pull(Book::EMPTY, &earth, Moment(0), Body::EARTH, &[2.0, 0.0, 0.0]).unwrap();
/// assert_eq!(acceleration[0], -2.0);
/// ```
pub fn pull(book: Book, setting: &Setting, moment: Moment, centre: Body, position: &Vector) -> Result<Vector, Refusal> {
    let (bytes, mut acceleration) = (book.bytes(), [0.0; 3]);
    let number = unsafe {
        calls::belfry_pull(
            bytes.as_ptr(), bytes.len(), &setting.coefficients, &setting.extras(), setting.dut.0, setting.rule.0, moment.0,
            centre.0, position, &mut acceleration,
        )
    };
    answer(number, acceleration)
}

/// The state of an injection: its coordinates, with the acceleration that the rule gives there. Refusals: 1, 4, 14, 3, 7, 6.
///
/// ```
/// use belfrywool::{inject, Body, Book, Coordinates, Moment, Refusal, Setting};
///
/// let injection = Coordinates { moment: Moment(0), centre: Body::EARTH, position: [7000.0, 0.0, 0.0], velocity: [0.0, 7.5, 0.0] };
/// // All six bodies are used, and this book has none of them.
/// assert_eq!(inject(Book::EMPTY, &Setting::NOMINAL, &injection), Err(Refusal::Cover));
/// ```
pub fn inject(book: Book, setting: &Setting, injection: &Coordinates) -> Result<State, Refusal> {
    let (bytes, mut whole) = (book.bytes(), [0.0; 9]);
    let Coordinates { moment, centre, .. } = *injection;
    let number = unsafe {
        calls::belfry_inject(
            bytes.as_ptr(), bytes.len(), &setting.coefficients, &setting.extras(), setting.dut.0, setting.rule.0, moment.0,
            centre.0, &injection.motion().six(), &mut whole,
        )
    };
    answer(number, State::of_nine(moment, centre, whole))
}

/// The same craft about another centre, with a new acceleration. A move to the same centre returns the state unchanged.
/// Refusals: 1, 4, 14, 3, 7, 6.
///
/// ```
/// use belfrywool::{move_to, Body, Book, Moment, Refusal, Setting, State};
///
/// let state = State::of_nine(Moment(0), Body::EARTH, [7000.0, 0.0, 0.0, 0.0, 7.5, 0.0, 0.0, 0.0, 0.0]);
/// assert_eq!(move_to(Book::EMPTY, &Setting::NOMINAL, &state, Body::EARTH), Ok(state));
/// assert_eq!(move_to(Book::EMPTY, &Setting::NOMINAL, &state, Body(7)), Err(Refusal::Centre));
/// ```
pub fn move_to(book: Book, setting: &Setting, state: &State, centre: Body) -> Result<State, Refusal> {
    let (bytes, mut whole) = (book.bytes(), [0.0; 9]);
    let number = unsafe {
        calls::belfry_move(
            bytes.as_ptr(), bytes.len(), &setting.coefficients, &setting.extras(), setting.dut.0, setting.rule.0,
            state.moment.0, state.centre.0, &state.nine(), centre.0, &mut whole,
        )
    };
    answer(number, State::of_nine(state.moment, centre, whole))
}

/// A run about the state's centre. The stored acceleration must be the rule's, to the bit, else the outcome is refusal 15. `inject`
/// gives it. Refusals: 1, 4, 14, 3, 7, 6, 15, 2, 5, and for a step 6 or 7.
///
/// ```
/// use belfrywool::*;
///
/// let earth = Setting { coefficients: [8.0, 0.0, 0.0, 0.0, 0.0, 0.0], j: 0.0, a: 0.0, k: 0.0, dut: Dut(0), rule: Rule::OLD };
/// let injection = Coordinates { moment: Moment(0), centre: Body::EARTH, position: [2.0, 0.0, 0.0], velocity: [0.0, 4.0, 0.0] };
/// let state = inject(Book::EMPTY, &earth, &injection)?;
/// let run = Run { h: 1000, target: Moment(5000), budget: 2, guesses: Guesses::default() };
/// let answer = fly(Book::EMPTY, &earth, &state, &run);
/// assert_eq!((answer.outcome, answer.steps, answer.state.moment), (Outcome::Going, 2, Moment(2000)));
/// let rest = fly(Book::EMPTY, &earth, &answer.state, &Run { budget: 9, guesses: answer.guesses, ..run });
/// assert_eq!((rest.outcome, rest.steps, rest.state.moment), (Outcome::Arrived, 3, Moment(5000)));
/// # Ok::<(), Refusal>(())
/// ```
pub fn fly(book: Book, setting: &Setting, state: &State, run: &Run) -> RunAnswer {
    let (bytes, nine) = (book.bytes(), state.nine());
    let (mut reached, mut there, mut entries, mut steps) = (0, [0.0; 9], [0; 5], 0);
    let number = unsafe {
        calls::belfry_fly(
            bytes.as_ptr(), bytes.len(), &setting.coefficients, &setting.extras(), setting.dut.0, setting.rule.0,
            state.moment.0, state.centre.0, &nine, run.h, run.target.0, run.budget, &run.guesses.0, &mut reached, &mut there,
            &mut entries, &mut steps,
        )
    };
    let state = State::of_nine(Moment(reached), state.centre, there);
    RunAnswer { outcome: Outcome::of_number(number), state, steps, guesses: Guesses(entries) }
}

/// Coordinates about the Earth in axes that turn with it. Refusals: 4, 14, 3, 7.
///
/// ```
/// use belfrywool::{turn, Body, Coordinates, Dut, Moment, Refusal, Rule};
///
/// let up = Coordinates { moment: Moment(0), centre: Body::EARTH, position: [0.0, 0.0, 3.0], velocity: [0.0; 3] };
/// assert!(turn(Rule::OLD, Dut(0), &up).is_ok());
/// assert_eq!(turn(Rule::OLD, Dut(0), &Coordinates { centre: Body::MOON, ..up }), Err(Refusal::Centre));
/// ```
pub fn turn(rule: Rule, dut: Dut, coordinates: &Coordinates) -> Result<Motion, Refusal> {
    let Coordinates { moment, centre, .. } = *coordinates;
    let mut turned = [0.0; 6];
    let number =
        unsafe { calls::belfry_turn(rule.0, dut.0, moment.0, centre.0, &coordinates.motion().six(), &mut turned) };
    answer(number, Motion::of_six(turned))
}

/// The conic about the centre, whose coefficient is m. Refusals: 4, 14, 7, 9, 10.
///
/// ```
/// use belfrywool::{orbit, Body, ConicKind, Coordinates, Moment};
///
/// let about = Coordinates { moment: Moment(0), centre: Body::MOON, position: [2.0, 0.0, 0.0], velocity: [0.0, 2.0, 0.0] };
/// let conic = orbit(8.0, &about).unwrap();
/// assert_eq!(conic.centre, Body::MOON);
/// assert_eq!(conic.kind, ConicKind::Ellipse { a: 2.0, e: 0.0, p: 2.0, q: 2.0, far: 2.0 });
/// ```
pub fn orbit(m: f64, coordinates: &Coordinates) -> Result<Conic, Refusal> {
    let Coordinates { moment, centre, .. } = *coordinates;
    let (mut names, mut figures) = ([0; 2], [0.0; 5]);
    let number =
        unsafe { calls::belfry_orbit(m, moment.0, centre.0, &coordinates.motion().six(), &mut names, &mut figures) };
    figured(number, names, figures)
}
