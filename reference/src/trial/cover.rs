//! Run calls at the edges of cover.

use super::chance::Chance;
use super::trip::{covered_moment, noted, trip_at, Trip, NOMINAL};
use super::world::World;
use crate::book::Entry;
use crate::hour::END;

/// Some entry, or one over all time if there is none.
pub fn some_entry(c: &mut Chance, w: &World) -> Entry {
    if w.entries.is_empty() {
        Entry { body: 2, n: 2, offset: 32, start: 0, span: END }
    } else {
        c.pick(&w.entries)
    }
}

/// Steps over the end of an entry.
pub fn crossing(c: &mut Chance, w: &World) -> Vec<(String, Trip)> {
    let e = some_entry(c, w);
    let h = (e.span / c.between(1, 8) / 2 * 2).clamp(2, 86_400_000);
    let t = (e.start + e.span).saturating_sub(h * c.between(1, 4) + c.below(3)).min(END - 1);
    let mut trip = trip_at(c, w, t);
    trip.h = h as u32;
    trip.aim(c.between(2, 9));
    trip.budget = c.pick(&[1, 3, 1000]);
    noted("", trip)
}

/// A stage within a millisecond of the start, the middle or the end of an entry.
pub fn edge(c: &mut Chance, w: &World) -> Vec<(String, Trip)> {
    let e = some_entry(c, w);
    let least = c.pick(&[2, 4, 10]);
    let h = (e.span / c.between(1, 4) / 2 * 2).clamp(least, 86_400_000);
    let places = [("start", e.start), ("middle", e.start + e.span / 2), ("end", e.start + e.span)];
    let (side, place) = c.pick(&places);
    let (stage, back) = c.pick(&[("1", 0), ("2", h / 2), ("4", h)]);
    let off = c.below(3);
    let t = (place + off).saturating_sub(1 + back).min(END - 1);
    let mut trip = trip_at(c, w, t);
    // The body of the entry itself is used, with cover or without.
    trip.setting.coefficients[usize::from(e.body) - 1] = 4900.0;
    trip.h = h as u32;
    trip.aim(c.between(1, 3));
    trip.budget = c.pick(&[1, 2, 1000]);
    noted(&format!("stage {stage} at {side} {}", ["-1", "+0", "+1"][off as usize]), trip)
}

/// Pairs of entries of one body with a gap between them.
pub fn gaps(w: &World) -> Vec<(Entry, Entry)> {
    let pairs = w.entries.windows(2).map(|p| (p[0], p[1]));
    pairs.filter(|(a, b)| a.body == b.body && a.start + a.span < b.start).collect()
}

/// t and t + h are covered, t + h/2 falls in a gap or touches it.
pub fn middle_gap(c: &mut Chance, w: &World) -> Vec<(String, Trip)> {
    let gaps = gaps(w);
    if gaps.is_empty() {
        return noted("none in the book", edge(c, w).remove(0).1);
    }
    let (a, b) = c.pick(&gaps);
    let end = a.start + a.span;
    let middle = c.pick(&[end - 1, end, b.start - 1, b.start, end + (b.start - end) / 2]);
    let reach = (b.start + b.span - middle).min(middle - a.start).min(43_200_000);
    let need = (middle + 1 - end.min(middle + 1)).max(b.start.saturating_sub(middle)).max(1);
    let half = if need < reach { c.between(need, reach) } else { need.min(43_200_000) };
    let mut trip = trip_at(c, w, middle.saturating_sub(half));
    trip.setting.coefficients[usize::from(a.body) - 1] = 4900.0;
    trip.h = 2 * half as u32;
    trip.aim(c.between(1, 2));
    trip.budget = 5;
    noted("", trip)
}

/// Every used body at any moment: mostly no cover.
pub fn no_cover(c: &mut Chance, w: &World) -> Vec<(String, Trip)> {
    let t = if c.one_in(2) { c.below(END) } else { covered_moment(c, w) };
    let mut trip = trip_at(c, w, t);
    trip.setting.coefficients = NOMINAL;
    if c.one_in(3) {
        // The least coefficient above 0: the body still counts as used.
        trip.setting.coefficients[1..].fill(f64::from_bits(1));
    }
    if c.one_in(2) {
        trip.state.position = [0.0; 3];
    }
    noted("", trip)
}

/// Cover at the first stage and mostly none at the second, whose position has overflowed: the lookup comes first.
pub fn far_off(c: &mut Chance, w: &World) -> Vec<(String, Trip)> {
    let e = some_entry(c, w);
    let half = c.between(2_000, 43_200_000);
    let back = 1 + c.below(half.min(e.span).min(END));
    let mut trip = trip_at(c, w, (e.start + e.span).saturating_sub(back).min(END - 1));
    trip.setting.coefficients[1..].fill(0.0);
    trip.setting.coefficients[usize::from(e.body) - 1] = 4900.0;
    trip.state.velocity[c.below(3) as usize] = c.pick(&[1.7e308, -1.7e308]);
    trip.h = 2 * half as u32;
    trip.aim(1);
    trip.budget = 1;
    noted("", trip)
}
