//! Run calls whose floats overflow, vanish or meet a centre.

use super::chance::Chance;
use super::cover::crossing;
use super::floats::wild;
use super::trip::{noted, trip, trip_at, Trip};
use super::world::World;
use crate::book::covers;
use crate::hour::END;

/// Velocities so large that a stage's position overflows; with used bodies cover comes first.
pub fn overflow(c: &mut Chance, w: &World) -> Vec<(String, Trip)> {
    let mut t = crossing(c, w).remove(0).1;
    for v in &mut t.state.velocity {
        *v = c.sized(400, 1024);
    }
    if c.one_in(2) {
        t.setting.coefficients[c.between(2, 6) as usize - 1] = 1.0;
    }
    noted("", t)
}

/// Moving away so fast that r3 overflows after a few steps.
pub fn growing(c: &mut Chance, w: &World) -> Vec<(String, Trip)> {
    let mut t = trip(c, w);
    let steps = c.between(1, 6);
    t.setting.coefficients[1..].fill(0.0);
    t.state.velocity[c.below(3) as usize] = 5e102 / (f64::from(t.h) / 1000.0 * steps as f64);
    t.aim(steps + 2);
    t.budget = c.pick(&[2, 1000, u32::MAX]);
    noted("", t)
}

/// The Earth alone, at a moment anywhere, in steps of 1,024 s.
pub fn earth_alone(c: &mut Chance, w: &World, m: f64) -> Trip {
    let at = c.below(END / 2);
    let mut t = trip_at(c, w, at);
    t.setting.coefficients = [m, 0.0, -0.0, 0.0, 0.0, 0.0];
    t.h = 1_024_000;
    t.aim(1);
    t.budget = 1;
    t
}

/// Only stage four is close to the centre: for the greater m its acceleration is finite, and the new velocity is not.
pub fn new_component(c: &mut Chance, w: &World) -> Vec<(String, Trip)> {
    let (m, note) = c.pick(&[(1e93, "velocity not finite"), (1e88, "velocity finite")]);
    let mut t = earth_alone(c, w, m);
    let far = 2f64.powi(266);
    t.set_state([far, 1e-107, 0.0, -far / 1024.0, 0.0, 0.0]);
    noted(note, t)
}

/// Only stage three is close to the centre. For the smallest side the velocity of stage four makes the new position overflow, while
/// the new velocity is finite. For the next one the new position is finite, but so far out that it has no acceleration.
pub fn new_position(c: &mut Chance, w: &World) -> Vec<(String, Trip)> {
    let (side, note) = c.pick(&[(2e-107, "position not finite"), (1e-99, "no acceleration there"), (1.0, "position finite")]);
    let mut t = earth_alone(c, w, 2f64.powi(302));
    t.set_state([2f64.powi(107), side, 0.0, -2f64.powi(97), 0.0, 0.0]);
    noted(note, t)
}

/// The path meets the Earth's centre exactly at a stage.
pub fn collision(c: &mut Chance, w: &World) -> Vec<(String, Trip)> {
    let mut t = earth_alone(c, w, f64::MIN_POSITIVE);
    let far = 2f64.powi(c.below(60) as i32);
    let stage = c.between(1, 4);
    let speed = match stage {
        1 => 0.0,
        4 => far / 1024.0,
        _ => far / 512.0,
    };
    t.set_state([if stage == 1 { 0.0 } else { far }, 0.0, -0.0, -speed, 0.0, 0.0]);
    noted(&format!("stage {}", stage.max(1)), t)
}

/// On a used body itself, or very close to it.
pub fn on_body(c: &mut Chance, w: &World) -> Vec<(String, Trip)> {
    let mut t = trip(c, w);
    let now = t.state.moment;
    if let Some(i) = w.entries.iter().position(|e| covers(*e, now)) {
        if let Ok(m) = crate::book::motion(w.bytes(), i, now) {
            t.state.position = m.place;
            let body = usize::from(w.entries[i].body);
            t.setting.coefficients[body - 1] = 4900.0;
        }
        if c.one_in(2) {
            t.state.position[0] += c.sized(-30, 4);
        }
    }
    noted("", t)
}

/// Floats of every size in state and coefficients.
pub fn any_floats(c: &mut Chance, w: &World) -> Vec<(String, Trip)> {
    let mut t = trip(c, w);
    t.set_state(wild(c));
    if c.one_in(2) {
        for m in &mut t.setting.coefficients {
            *m = if *m > 0.0 { c.finite().abs() } else { *m };
        }
    }
    noted("", t)
}
