//! The live pane: the last two states reached, and what it shows at a moment.

use std::mem::MaybeUninit;

use crate::calls::{self, unset};
use crate::refusal::{answer, meaning, refused};
use crate::{Body, Moment, Motion, Refusal, RunAnswer, State, Vector};

/// The last two states reached. A new one is empty.
///
/// ```
/// use belfrywool::{Body, Frame, Moment, Pane, Refusal, State};
///
/// let mut pane = Pane::default();
/// let at = |moment, x| State::of_nine(Moment(moment), Body::EARTH, [x, 0.0, 0.0, 1.0, 0.0, 0.0, 0.0, 0.0, 0.0]);
/// pane.take(&at(0, 7000.0))?;
/// assert_eq!(pane.frame(Moment(0)), Frame::Empty);
/// pane.take(&at(1000, 7001.0))?;
/// assert_eq!(pane.take(&at(1000, 7001.0)), Err(Refusal::NotNext));
/// assert_eq!(pane.frame(Moment(1000)), Frame::Current([7001.0, 0.0, 0.0]));
/// assert_eq!(pane.frame(Moment(1250)), Frame::Late(250));
/// assert_eq!(pane.newer(), Some(at(1000, 7001.0)));
/// pane.clear();
/// assert_eq!(pane.frame(Moment(1000)), Frame::Empty);
/// # Ok::<(), Refusal>(())
/// ```
#[derive(Clone, Copy, Debug, Default, PartialEq)]
pub struct Pane {
    numbers: [u64; 5],
    places: [f64; 18],
}

/// The result of feeding the answer of a run.
#[derive(Clone, Copy, Debug, PartialEq, Eq)]
pub enum Fed {
    /// Its state is the newer one now.
    Taken,
    /// The run was refused, and the pane is unchanged.
    Unchanged,
}

/// What the pane shows at a moment: a position in km from the centre, or position and velocity.
#[derive(Clone, Copy, Debug, PartialEq)]
#[must_use]
pub enum Frame<T = Vector> {
    Current(T),
    /// The moment is that many milliseconds past the newer state.
    Late(u64),
    /// Fewer than two states, or the moment is before the older one.
    Empty,
    /// Only with 7: the figure is not finite.
    Refused(Refusal),
}

impl<T> Frame<T> {
    /// The number that the call returned: 0, 102, 103, or that of the refusal.
    ///
    /// ```
    /// use belfrywool::{Frame, Vector};
    ///
    /// assert_eq!(Frame::<Vector>::Late(250).number(), 102);
    /// ```
    pub fn number(&self) -> u64 {
        match self {
            Frame::Current(_) => 0,
            Frame::Late(_) => calls::LATE,
            Frame::Empty => calls::EMPTY,
            Frame::Refused(refusal) => refusal.number(),
        }
    }

    /// What it means, in a plain sentence.
    ///
    /// ```
    /// use belfrywool::{Frame, Vector};
    ///
    /// assert_eq!(Frame::<Vector>::Late(250).meaning(), "the moment is past the newer state");
    /// ```
    pub fn meaning(&self) -> &'static str {
        meaning(self.number())
    }
}

fn shown<T>(number: u64, figure: T, late: u64) -> Frame<T> {
    match number {
        0 => Frame::Current(figure),
        calls::LATE => Frame::Late(late),
        calls::EMPTY => Frame::Empty,
        number => Frame::Refused(refused(number)),
    }
}

impl Pane {
    /// From the memory that the calls use: the number of states, moment and centre of the older and of the newer; the nine coordinates
    /// of each. Any memory is a pane: it is empty if the number of states is not 1 or 2.
    ///
    /// ```
    /// use belfrywool::Pane;
    ///
    /// let (numbers, places) = Pane::default().memory();
    /// assert_eq!(Pane::of_memory(numbers, places), Pane::default());
    /// ```
    pub fn of_memory(numbers: [u64; 5], places: [f64; 18]) -> Pane {
        Pane { numbers, places }
    }

    /// The memory that the calls use.
    ///
    /// ```
    /// assert_eq!(belfrywool::Pane::default().memory(), ([0; 5], [0.0; 18]));
    /// ```
    pub fn memory(&self) -> ([u64; 5], [f64; 18]) {
        (self.numbers, self.places)
    }

    fn held(&self, place: usize) -> State {
        let nine = std::array::from_fn(|i| self.places[9 * place + i]);
        State::of_nine(Moment(self.numbers[2 * place + 1]), Body(self.numbers[2 * place + 2]), nine)
    }

    /// The older of the two states, if it holds two.
    ///
    /// ```
    /// use belfrywool::{Body, Moment, Pane, Refusal, State};
    ///
    /// let state = |moment| State::of_nine(Moment(moment), Body::EARTH, [7000.0, 0.0, 0.0, 1.0, 0.0, 0.0, 0.0, 0.0, 0.0]);
    /// let mut pane = Pane::default();
    /// pane.take(&state(0))?;
    /// assert_eq!(pane.older(), None);
    /// pane.take(&state(1000))?;
    /// assert_eq!(pane.older(), Some(state(0)));
    /// # Ok::<(), Refusal>(())
    /// ```
    pub fn older(&self) -> Option<State> {
        (self.numbers[0] == 2).then(|| self.held(0))
    }

    /// The newest state that it holds.
    ///
    /// ```
    /// use belfrywool::{Body, Moment, Pane, Refusal, State};
    ///
    /// let state = |moment| State::of_nine(Moment(moment), Body::EARTH, [7000.0, 0.0, 0.0, 1.0, 0.0, 0.0, 0.0, 0.0, 0.0]);
    /// let mut pane = Pane::default();
    /// assert_eq!(pane.newer(), None);
    /// pane.take(&state(0))?;
    /// assert_eq!(pane.newer(), Some(state(0)));
    /// # Ok::<(), Refusal>(())
    /// ```
    pub fn newer(&self) -> Option<State> {
        match self.numbers[0] {
            1 => Some(self.held(0)),
            2 => Some(self.held(1)),
            _ => None,
        }
    }

    /// Makes it empty: it then takes a state about any centre.
    ///
    /// ```
    /// use belfrywool::{Body, Moment, Pane, Refusal, State};
    ///
    /// let state = |moment| State::of_nine(Moment(moment), Body::EARTH, [7000.0, 0.0, 0.0, 1.0, 0.0, 0.0, 0.0, 0.0, 0.0]);
    /// let mut pane = Pane::default();
    /// pane.take(&state(0))?;
    /// pane.clear();
    /// assert_eq!(pane, Pane::default());
    /// # Ok::<(), Refusal>(())
    /// ```
    pub fn clear(&mut self) {
        // This call always returns 0: that is proved.
        let _ = unsafe { calls::belfry_clear(&mut self.numbers, &mut self.places) };
    }

    /// Takes a state, if its centre is that of the newer one and its moment is later. Otherwise the pane stays unchanged. Refusals: 18.
    ///
    /// ```
    /// use belfrywool::{Body, Moment, Pane, Refusal, State};
    ///
    /// let state = |moment| State::of_nine(Moment(moment), Body::EARTH, [7000.0, 0.0, 0.0, 1.0, 0.0, 0.0, 0.0, 0.0, 0.0]);
    /// let mut pane = Pane::default();
    /// assert_eq!(pane.take(&state(1000)), Ok(()));
    /// assert_eq!(pane.take(&state(999)), Err(Refusal::NotNext));
    /// assert_eq!(pane.take(&State { centre: Body::MOON, ..state(2000) }), Err(Refusal::NotNext));
    /// ```
    pub fn take(&mut self, state: &State) -> Result<(), Refusal> {
        let number = unsafe {
            calls::belfry_take(state.moment.0, state.centre.0, &state.nine(), &mut self.numbers, &mut self.places)
        };
        answer(number, ())
    }

    /// Takes the state of a run's answer. A refused run changes nothing, even if it did some steps. Refusals: 18.
    ///
    /// ```
    /// use belfrywool::*;
    ///
    /// let earth = Setting { coefficients: [8.0, 0.0, 0.0, 0.0, 0.0, 0.0], j: 0.0, a: 0.0, k: 0.0, dut: Dut(0), rule: Rule::OLD };
    /// let injection = Coordinates { moment: Moment(0), centre: Body::EARTH, position: [2.0, 0.0, 0.0], velocity: [0.0, 4.0, 0.0] };
    /// let (state, mut pane) = (inject(Book::EMPTY, &earth, &injection)?, Pane::default());
    /// pane.take(&state)?;
    /// let run = Run { h: 1000, target: Moment(1000), budget: 1, guesses: Guesses::default() };
    /// assert_eq!(pane.feed(&fly(Book::unchecked(&[]), &earth, &state, &run)), Ok(Fed::Unchanged));
    /// assert_eq!(pane.feed(&fly(Book::EMPTY, &earth, &state, &run)), Ok(Fed::Taken));
    /// assert!(matches!(pane.frame(Moment(500)), Frame::Current(_)));
    /// # Ok::<(), Refusal>(())
    /// ```
    pub fn feed(&mut self, run: &RunAnswer) -> Result<Fed, Refusal> {
        let State { moment, centre, .. } = run.state;
        let number = unsafe {
            calls::belfry_feed(
                run.outcome.number(), moment.0, centre.0, &run.state.nine(), &mut self.numbers, &mut self.places,
            )
        };
        match number {
            calls::UNCHANGED => Ok(Fed::Unchanged),
            number => answer(number, Fed::Taken),
        }
    }

    /// The position at a moment, by the cubic through both states.
    ///
    /// ```
    /// use belfrywool::{Body, Frame, Moment, Pane, Refusal, State};
    ///
    /// let state = |moment| State::of_nine(Moment(moment), Body::EARTH, [7000.0, 0.0, 0.0, 1.0, 0.0, 0.0, 0.0, 0.0, 0.0]);
    /// let mut pane = Pane::default();
    /// pane.take(&state(0))?;
    /// pane.take(&state(1000))?;
    /// assert_eq!(pane.frame(Moment(0)), Frame::Current([7000.0, 0.0, 0.0]));
    /// assert_eq!(pane.frame(Moment(1001)), Frame::Late(1));
    /// # Ok::<(), Refusal>(())
    /// ```
    pub fn frame(&self, moment: Moment) -> Frame {
        let (mut position, mut late) = (MaybeUninit::uninit(), MaybeUninit::uninit());
        // SAFETY: the call writes both.
        unsafe {
            let number = unset::frame(&self.numbers, &self.places, moment.0, &mut position, &mut late);
            shown(number, position.assume_init(), late.assume_init())
        }
    }

    /// Position and velocity at a moment, by the cubic through both states.
    ///
    /// ```
    /// use belfrywool::{Frame, Moment, Pane};
    ///
    /// assert_eq!(Pane::default().frame_motion(Moment(0)), Frame::Empty);
    /// ```
    pub fn frame_motion(&self, moment: Moment) -> Frame<Motion> {
        let (mut motion, mut late) = (MaybeUninit::uninit(), MaybeUninit::uninit());
        // SAFETY: the call writes both.
        unsafe {
            let number = unset::frame_motion(&self.numbers, &self.places, moment.0, &mut motion, &mut late);
            shown(number, Motion::of_six(motion.assume_init()), late.assume_init())
        }
    }
}
