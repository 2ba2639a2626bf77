//! Everything that the service does to a pane. There is one function for each event of the theorem of the night
//! (crates/pane_laws/specs/Desk.antt). Nothing else changes a pane or makes a state. The event `moves` is never used: an order
//! names no centre other than the Earth.

use std::sync::Arc;

use belfrywool::{fly, inject, Body, Book, Coordinates, Frame, Guesses, Moment, Motion, Order, Outcome, Pane, Refusal, Run, RunAnswer, State};

/// A state in hand: the injection, or one that a run of this desk reached. Only this module makes one.
#[derive(Clone, Copy, Debug)]
pub struct InHand {
    state: State,
    guesses: Guesses,
}

impl InHand {
    pub fn moment(&self) -> u64 {
        self.state.moment.0
    }

    pub fn state(&self) -> &State {
        &self.state
    }
}

/// A desk after some history: one order, the book in use, and the pane.
#[derive(Clone, Debug)]
pub struct Desk {
    order: Order,
    book: Arc<[u8]>,
    pane: Pane,
}

/// The result of a run: the state that it reached, its steps, and the refusal that ended it.
#[derive(Clone, Copy, Debug)]
pub struct Ran {
    pub reached: InHand,
    pub steps: u32,
    pub refusal: Option<Refusal>,
}

impl Desk {
    /// `begins`: with the injection in hand and an empty pane. An injection that is refused is refused by the number that `strip` prints: a
    /// run from it makes the same checks, and that of the target among them.
    pub fn begins(order: &Order, book: &Arc<[u8]>) -> Result<(Desk, InHand), Refusal> {
        let desk = Desk { order: *order, book: Arc::clone(book), pane: Pane::default() };
        let in_hand = |state| InHand { state, guesses: Guesses::default() };
        match inject(Book::unchecked(book), &order.setting, &order.injection) {
            Ok(state) => Ok((desk, in_hand(state))),
            Err(refusal) => {
                let Coordinates { moment, centre, position, velocity } = order.injection;
                let bare = in_hand(State { moment, centre, position, velocity, acceleration: [0.0; 3] });
                Err(desk.tries(&bare, order.target.0, 0).refusal.unwrap_or(refusal))
            }
        }
    }

    /// `runs`: one step from a state in hand toward the order's target; feeds the answer to the pane.
    pub fn runs(&mut self, from: &InHand) -> Ran {
        let answer = self.answer(from, self.order.target, 1);
        // A refused run leaves the pane unchanged, and so does a state that is not later. The pane's answer shows it.
        let _ = self.pane.feed(&answer);
        ran(answer)
    }

    /// `tries`: a run from a state in hand whose answer is not fed to the pane.
    pub fn tries(&self, from: &InHand, target: u64, budget: u32) -> Ran {
        ran(self.answer(from, Moment(target), budget))
    }

    /// `offers`: offers a state in hand to the pane.
    pub fn offers(&mut self, state: &InHand) {
        // A state that is not taken leaves the pane unchanged.
        let _ = self.pane.take(&state.state);
    }

    /// `clears`: clears the pane.
    pub fn clears(&mut self) {
        self.pane.clear();
    }

    /// `renews`: takes a book that passes and holds every entry of the one in use; `books::judge` has checked this.
    pub fn renews(&mut self, book: &Arc<[u8]>) {
        self.book = Arc::clone(book);
    }

    /// What the pane shows; it changes nothing.
    pub fn frame(&self, moment: u64) -> Frame<Motion> {
        self.pane.frame_motion(Moment(moment))
    }

    pub fn newer(&self) -> Option<State> {
        self.pane.newer()
    }

    pub fn centre(&self) -> Body {
        self.newer().map_or(Body::EARTH, |state| state.centre)
    }

    fn answer(&self, from: &InHand, target: Moment, budget: u32) -> RunAnswer {
        let run = Run { h: self.order.h, target, budget, guesses: from.guesses };
        fly(Book::unchecked(&self.book), &self.order.setting, &from.state, &run)
    }
}

fn ran(answer: RunAnswer) -> Ran {
    let refusal = if let Outcome::Refused(refusal) = answer.outcome { Some(refusal) } else { None };
    Ran { reached: InHand { state: answer.state, guesses: answer.guesses }, steps: answer.steps, refusal }
}
