//! The flown path, for the pages: some states of the walk with the position of the Moon, never more than a few thousand.

use std::sync::Arc;

use belfrywool::{position, Body, Book, Order, State};

use crate::times::{HOUR, MINUTE, SECOND};

/// Moment, position, and the position of the Moon if the book has it.
#[derive(Clone, Copy, Debug, PartialEq)]
pub struct Point {
    pub moment: u64,
    pub place: [f64; 3],
    pub moon: Option<[f64; 3]>,
}

pub struct Path {
    start: u64,
    h: u64,
    /// After that many steps, one point every that many steps; the first is 0.
    strides: [(u64, u64); 3],
    points: Vec<Point>,
}

/// The most points far from the Earth.
const FAR: u64 = 2_000;

impl Path {
    pub fn new(order: &Order) -> Path {
        let (start, h) = (order.injection.moment.0, u64::from(order.h).max(1));
        let whole = order.target.0.saturating_sub(start);
        let steps = |ms: u64| (ms / h).max(1);
        let near = (20 * MINUTE).div_ceil(h);
        let middle = (3 * HOUR).div_ceil(h);
        let far = steps((5 * MINUTE).max(whole / FAR));
        Path { start, h, strides: [(0, steps(10 * SECOND)), (near, steps(MINUTE)), (middle, far)], points: Vec::new() }
    }

    /// How many steps lie between two points after a step, and where that begins.
    fn stride(&self, step: u64) -> (u64, u64) {
        *self.strides.iter().rev().find(|(from, _)| *from <= step).unwrap_or(&self.strides[0])
    }

    /// The number of steps from a moment of the walk to the next point.
    pub fn next(&self, moment: u64) -> u64 {
        let step = (moment - self.start) / self.h;
        let (from, stride) = self.stride(step);
        let next = from + ((step - from) / stride + 1) * stride;
        // A new stride begins with a point.
        let change = self.strides.iter().map(|(from, _)| *from).find(|from| *from > step);
        change.map_or(next, |change| next.min(change)) - step
    }

    /// Keeps a state that the walk reached, if it is one of the points and later than the last.
    pub fn reached(&mut self, state: &State, book: &Arc<[u8]>) {
        let step = (state.moment.0 - self.start) / self.h;
        let (from, stride) = self.stride(step);
        let later = self.points.last().map_or(true, |last| last.moment < state.moment.0);
        if later && (step - from) % stride == 0 {
            let moon = position(Book::unchecked(book), Body::MOON, state.moment).ok().map(|m| m.position);
            self.points.push(Point { moment: state.moment.0, place: state.position, moon });
        }
    }

    /// The points from a number on that are not later than a moment.
    pub fn points(&self, from: usize, moment: u64) -> &[Point] {
        let count = self.points.partition_point(|p| p.moment <= moment);
        self.points.get(from..count).unwrap_or(&[])
    }
}
