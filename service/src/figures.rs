//! The figures of a current frame. Lengths, turns, places and accelerations are proved calls. Latitude, longitude and closing speed
//! are the formulas of docs/ONAIR.md, with one software `atan2`, so that two machines show the same digits.

use std::f64::consts::PI;

use belfrywool::{position, pull, root, turn, Body, Book, Coordinates, Moment, Motion, Setting, Vector};
use libm::atan2;
use serde::Serialize;

use crate::texts::{circle, fixed, significant};

/// If the call refuses, there is no figure.
#[derive(Clone, Copy, Debug, Default, PartialEq, Serialize)]
pub struct Figures {
    pub range_km: Option<f64>,
    pub speed_km_s: Option<f64>,
    pub latitude_deg: Option<f64>,
    pub longitude_deg: Option<f64>,
    pub moon_range_km: Option<f64>,
    pub moon_closing_km_s: Option<f64>,
    pub pull_km_s2: Option<f64>,
}

/// The same as text.
#[derive(Clone, Debug, Default, PartialEq, Eq, Serialize)]
pub struct Texts {
    pub range_km: Option<String>,
    pub speed_km_s: Option<String>,
    pub latitude_deg: Option<String>,
    pub longitude_deg: Option<String>,
    pub moon_range_km: Option<String>,
    pub moon_closing_km_s: Option<String>,
    pub pull_km_s2: Option<String>,
}

fn length([x, y, z]: Vector) -> Option<f64> {
    root((x * x + y * y) + z * z).ok()
}

fn less(a: Vector, b: Vector) -> Vector {
    std::array::from_fn(|i| a[i] - b[i])
}

fn degrees(radians: f64) -> f64 {
    radians * 180.0 / PI
}

/// From -180 to 180 degrees into 0 up to 360.
fn eastward(angle: f64) -> f64 {
    let angle = if angle < 0.0 { angle + 360.0 } else { angle };
    // A negative angle near zero, or a zero with a sign.
    if angle >= 360.0 || angle == 0.0 {
        0.0
    } else {
        angle
    }
}

/// Latitude and longitude of a place in axes that turn with the Earth.
fn ground([x, y, z]: Vector) -> Option<[f64; 2]> {
    let across = root(x * x + y * y).ok()?;
    Some([degrees(atan2(z, across)), eastward(degrees(atan2(y, x)))])
}

/// Distance to another motion, and how fast it decreases.
fn closing(craft: &Motion, other: &Motion) -> (Option<f64>, Option<f64>) {
    let (r, v) = (less(craft.position, other.position), less(craft.velocity, other.velocity));
    let range = length(r);
    let along = (r[0] * v[0] + r[1] * v[1]) + r[2] * v[2];
    let speed = range.map(|range| -along / range).filter(|speed| speed.is_finite());
    (range, speed)
}

impl Figures {
    pub fn of(book: &[u8], setting: &Setting, moment: u64, centre: Body, motion: &Motion) -> Figures {
        let (book, moment) = (Book::unchecked(book), Moment(moment));
        let at = Coordinates { moment, centre, position: motion.position, velocity: motion.velocity };
        let turned = turn(setting.rule, setting.dut, &at).ok();
        let ground = turned.and_then(|turned| ground(turned.position));
        let moon = position(book, Body::MOON, moment).ok();
        let (moon_range_km, moon_closing_km_s) = moon.map_or((None, None), |moon| closing(motion, &moon));
        let pulled = pull(book, setting, moment, centre, &motion.position).ok();
        Figures {
            range_km: length(motion.position),
            speed_km_s: length(motion.velocity),
            latitude_deg: ground.map(|[latitude, _]| latitude),
            longitude_deg: ground.map(|[_, longitude]| longitude),
            moon_range_km,
            moon_closing_km_s,
            pull_km_s2: pulled.and_then(length),
        }
    }

    pub fn texts(&self) -> Texts {
        let places = |x: Option<f64>, n: usize| x.map(|x| fixed(x, n));
        Texts {
            range_km: places(self.range_km, 3),
            speed_km_s: places(self.speed_km_s, 6),
            latitude_deg: places(self.latitude_deg, 4),
            longitude_deg: self.longitude_deg.map(circle),
            moon_range_km: places(self.moon_range_km, 3),
            moon_closing_km_s: places(self.moon_closing_km_s, 6),
            pull_km_s2: self.pull_km_s2.map(|x| significant(x, 3)),
        }
    }
}

impl Texts {
    /// Range, speed, latitude and longitude as the log has them.
    pub fn logged(&self) -> [String; 4] {
        let text = |text: &Option<String>| text.clone().unwrap_or_else(|| "-".to_string());
        [text(&self.range_km), text(&self.speed_km_s), text(&self.latitude_deg), text(&self.longitude_deg)]
    }
}

#[cfg(test)]
mod tests {
    use super::*;

    #[test]
    fn the_ground_point() {
        assert_eq!(ground([1.0, 0.0, 0.0]), Some([0.0, 0.0]));
        assert_eq!(ground([0.0, -2.0, 0.0]), Some([0.0, 270.0]));
        assert_eq!(ground([-1.0, 0.0, 0.0]), Some([0.0, 180.0]));
        assert_eq!(ground([0.0, 0.0, -3.0]), Some([-90.0, 0.0]));
        assert_eq!(ground([1.0, -1e-300, 0.0]).map(|g| g[1]), Some(0.0));
        assert_eq!(ground([f64::MAX, f64::MAX, 0.0]), None);
    }

    #[test]
    fn closing_is_positive_on_the_way_there() {
        let craft = Motion { position: [3.0, 0.0, 0.0], velocity: [2.0, 0.0, 0.0] };
        let moon = Motion { position: [7.0, 3.0, 0.0], velocity: [0.0, 0.0, 0.0] };
        assert_eq!(closing(&craft, &moon), (Some(5.0), Some(1.6)));
        assert_eq!(closing(&craft, &craft), (Some(0.0), None));
    }

    #[test]
    fn texts_have_their_places() {
        let figures = Figures { range_km: Some(88410.12349), speed_km_s: Some(1.5), longitude_deg: Some(359.99999), ..Figures::default() };
        let texts = figures.texts();
        assert_eq!(texts.logged(), ["88410.123", "1.500000", "-", "0.0000"]);
    }
}
