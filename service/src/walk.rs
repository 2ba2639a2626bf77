//! The walk of a flight: the steps of the order, one step ahead of the clock. Near the clock each step is run and fed to the pane.
//! Far behind the clock the walk catches up by runs that are not fed. Then the pane is cleared, the state reached is offered, and
//! single steps are run and fed.
//!
//! What the pane then shows depends only on order, book and moment: the two states of the walk around the clock's moment. If the
//! next step is refused or the order ends, it has the last two states.

use std::sync::Arc;
use std::time::Instant;

use belfrywool::{Order, Refusal, State};

use crate::desk::{Desk, InHand};
use crate::path::Path;

/// Up to this many steps are run and fed one by one; with more the walk catches up.
const NEAR: u64 = 3;
/// The number of steps tried at a time, so that other flights get their turn.
const PORTION: u64 = 2_000;

/// Why the walk does not continue.
#[derive(Clone, Copy, Debug, PartialEq, Eq)]
pub struct Stuck {
    pub refusal: Refusal,
    /// The moment of the state whose next step is refused; None if the injection itself is.
    pub at: Option<u64>,
}

pub struct Walk {
    order: Order,
    book: Arc<[u8]>,
    /// There is no state before the injection.
    going: Option<Going>,
    stuck: Option<Stuck>,
    pub path: Path,
}

struct Going {
    desk: Desk,
    /// The last state reached, and the state from which the run to it started, with the steps between.
    last: InHand,
    before: Option<(InHand, u64)>,
    /// Whether the pane is up to date: its newer state is the last one reached.
    fed: bool,
}

impl Walk {
    pub fn new(order: &Order, book: &Arc<[u8]>) -> Walk {
        let mut walk = Walk { order: *order, book: Arc::clone(book), going: None, stuck: None, path: Path::new(order) };
        walk.begin();
        walk
    }

    /// Begins at the injection, if the book allows it.
    fn begin(&mut self) {
        match Desk::begins(&self.order, &self.book) {
            Ok((mut desk, last)) => {
                desk.offers(&last);
                self.path.reached(last.state(), &self.book);
                self.going = Some(Going { desk, last, before: None, fed: true });
                self.try_order();
            }
            Err(refusal) => self.stuck = Some(Stuck { refusal, at: None }),
        }
    }

    /// Makes the checks that come before any step, by a run toward the order's target without a budget. Catching up has targets of its
    /// own, and would not see that the order's cannot be reached.
    fn try_order(&mut self) {
        if let Some(Going { desk, last, .. }) = &self.going {
            let refusal = desk.tries(last, self.order.target.0, 0).refusal;
            self.stuck = refusal.map(|refusal| Stuck { refusal, at: Some(last.moment()) });
        }
    }

    /// Takes a book that holds every entry of the one in use: what was refused is tried again.
    pub fn renew(&mut self, book: &Arc<[u8]>) {
        (self.book, self.stuck) = (Arc::clone(book), None);
        match &mut self.going {
            Some(going) => {
                going.desk.renews(book);
                self.try_order();
            }
            None => self.begin(),
        }
    }

    pub fn desk(&self) -> Option<&Desk> {
        self.going.as_ref().map(|going| &going.desk)
    }

    pub fn stuck(&self) -> Option<Stuck> {
        self.stuck
    }

    pub fn newer(&self) -> Option<State> {
        self.desk()?.newer()
    }

    /// The moment that the walk has reached.
    pub fn at(&self) -> u64 {
        self.going.as_ref().map_or(self.order.injection.moment.0, |going| going.last.moment())
    }

    /// The last state that is needed for a moment: the first after it, or the order's last.
    fn wanted(&self, moment: u64) -> u64 {
        let (start, target, h) = (self.order.injection.moment.0, self.order.target.0, u64::from(self.order.h).max(1));
        let next = start.saturating_add((moment.saturating_sub(start) / h + 1).saturating_mul(h));
        // A target before the injection is not reached; the run toward it refuses.
        if target < start {
            next
        } else {
            next.min(target)
        }
    }

    /// Brings walk and pane to a moment, if time allows; returns whether they are there.
    pub fn advance(&mut self, moment: u64, until: Instant) -> bool {
        if moment < self.order.injection.moment.0 {
            return true;
        }
        let (wanted, h) = (self.wanted(moment), u64::from(self.order.h).max(1));
        let Some(going) = &mut self.going else {
            return true;
        };
        while self.stuck.is_none() && going.last.moment() < wanted {
            let missing = (wanted - going.last.moment()).div_ceil(h);
            if going.fed && missing <= NEAR {
                let ran = going.desk.runs(&going.last);
                match ran.refusal {
                    Some(refusal) => self.stuck = Some(Stuck { refusal, at: Some(going.last.moment()) }),
                    None => {
                        going.before = Some((going.last, 1));
                        going.last = ran.reached;
                        self.path.reached(going.last.state(), &self.book);
                    }
                }
                continue;
            }
            if Instant::now() >= until {
                return false;
            }
            going.fed = false;
            // Two steps are left for the pane.
            if missing > 2 {
                let budget = PORTION.min(missing - 2).min(self.path.next(going.last.moment()));
                let target = going.last.moment() + budget * h;
                let ran = going.desk.tries(&going.last, target, budget as u32);
                let steps = u64::from(ran.steps);
                if steps > 0 {
                    (going.before, going.last) = (Some((going.last, steps)), ran.reached);
                    self.path.reached(going.last.state(), &self.book);
                }
                if let Some(refusal) = ran.refusal {
                    self.stuck = Some(Stuck { refusal, at: Some(going.last.moment()) });
                }
            } else {
                going.offer_again(h);
            }
        }
        if !going.fed {
            going.offer_again(h);
        }
        true
    }
}

impl Going {
    /// Clears the pane, offers the state before the last one reached, and runs and feeds one step: the pane then has the walk's
    /// last two.
    fn offer_again(&mut self, h: u64) {
        self.desk.clears();
        self.fed = true;
        let Some((from, steps)) = self.before else {
            self.desk.offers(&self.last);
            return;
        };
        let older = match steps - 1 {
            0 => from,
            n => self.desk.tries(&from, from.moment() + n * h, n as u32).reached,
        };
        self.desk.offers(&older);
        self.last = self.desk.runs(&older).reached;
        self.before = Some((older, 1));
    }
}

#[cfg(test)]
mod tests {
    use super::*;
    use crate::books::Named;
    use crate::lines::Entry;
    use crate::rehearsal::{FIRST, FULLER};
    use crate::show::show;
    use crate::times::moment;
    use std::time::Duration;

    fn order() -> Order {
        Order::of_bytes(include_bytes!("../../data/orders/check-case-1.order144")).unwrap()
    }

    fn books() -> [Named; 2] {
        [FIRST, FULLER].map(|bytes| Named::new("x.book", bytes.to_vec()))
    }

    fn entry(walk: &mut Walk, order: &Order, book: &Named, moment: u64) -> Entry {
        assert!(walk.advance(moment, Instant::now() + Duration::from_secs(60)));
        show(order, Some(book), Some(walk), moment).entry(Some(book))
    }

    /// Moments in rising order, some of them on states: from a small generator, so that every run is the same.
    fn moments(order: &Order, count: u64) -> Vec<u64> {
        let (start, h, mut seed) = (order.injection.moment.0, u64::from(order.h), 7u64);
        let mut all: Vec<u64> = (0..count)
            .map(|i| {
                seed = seed.wrapping_mul(6_364_136_223_846_793_005).wrapping_add(1_442_695_040_888_963_407);
                let step = (seed >> 33) % 600;
                start + step * h + if i % 3 == 0 { 0 } else { (seed >> 20) % h }
            })
            .collect();
        all.extend([start, start + 1, start + h, start + h + 1]);
        all.sort();
        all
    }

    #[test]
    fn what_is_on_air_does_not_depend_on_how_the_walk_came_there() {
        let (order, [first, fuller]) = (order(), books());
        let mut going = Walk::new(&order, &first.bytes);
        for at in moments(&order, 300) {
            let mut fresh = Walk::new(&order, &first.bytes);
            let wanted = entry(&mut fresh, &order, &first, at);
            assert_eq!(entry(&mut going, &order, &first, at), wanted, "{at}");
            // And under the fuller book, taken at that moment or from the start.
            let mut whole = Walk::new(&order, &fuller.bytes);
            fresh.renew(&fuller.bytes);
            assert_eq!(entry(&mut fresh, &order, &fuller, at), entry(&mut whole, &order, &fuller, at), "{at}");
        }
    }

    #[test]
    fn the_last_two_states_stay_when_a_step_is_refused() {
        let (order, [first, _]) = (order(), books());
        // Steps of a minute from 18:42:36.297: the next state would be at 02:10:36.297.
        let last = moment("1963-01-14T02:09:36.297").unwrap();
        for from in [last, last + 1, last + 3_600_000] {
            let mut walk = Walk::new(&order, &first.bytes);
            walk.advance(from, Instant::now() + Duration::from_secs(60));
            assert_eq!(walk.newer().map(|s| s.moment.0), Some(last));
            assert_eq!(walk.stuck(), Some(Stuck { refusal: Refusal::Cover, at: Some(last) }));
        }
        let mut walk = Walk::new(&order, &first.bytes);
        assert!(matches!(entry(&mut walk, &order, &first, last), Entry::Current { .. }));
        assert!(matches!(entry(&mut walk, &order, &first, last + 1), Entry::Late { ms: 1, number: 6, .. }));
    }

    #[test]
    fn orders_that_the_engine_refuses() {
        let [first, _] = books();
        let at = order().injection.moment.0 + 5_000_000;
        let target = order().target;
        let wrong = [
            (Order { h: 0, ..order() }, 2),
            (Order { h: 1001, ..order() }, 2),
            (Order { target: belfrywool::Moment(target.0 + 2), ..order() }, 5),
            (Order { target: belfrywool::Moment(0), ..order() }, 5),
        ];
        for (order, number) in wrong {
            let mut walk = Walk::new(&order, &first.bytes);
            assert!(matches!(entry(&mut walk, &order, &first, at), Entry::Empty { number: n, .. } if n == number), "{order:?}");
        }
        // Far behind the cover it is still the order that is wrong, and one without a step is not spared.
        let (far, start) = (at + 40 * 86_400_000, order().injection.moment);
        let beyond = Order { target: belfrywool::Moment(target.0 + 2), ..order() };
        assert!(matches!(entry(&mut Walk::new(&beyond, &first.bytes), &beyond, &first, far), Entry::Empty { number: 5, .. }));
        let still = Order { h: 1001, target: start, ..order() };
        assert!(matches!(entry(&mut Walk::new(&still, &first.bytes), &still, &first, at), Entry::Empty { number: 2, .. }));
        let mut early = order();
        early.injection.moment.0 -= 400 * 86_400_000;
        let mut walk = Walk::new(&early, &first.bytes);
        assert!(matches!(entry(&mut walk, &early, &first, at), Entry::Empty { number: 6, .. }));
        // Its target is no moment, which is checked before the cover of the injection.
        early.target.0 = crate::times::END;
        assert!(matches!(entry(&mut Walk::new(&early, &first.bytes), &early, &first, at), Entry::Empty { number: 3, .. }));
    }
}
