//! The calls about the Earth, without J, A and K and by the old rule. They have their own types, so that no part of a whole setting
//! or state is left out by mistake.

use crate::calls;
use crate::conic::figured;
use crate::flight::Outcome;
use crate::refusal::answer;
use crate::{
    Body, Book, Conic, Coordinates, Dut, Guesses, Moment, Motion, Refusal, Rule, Run, RunAnswer, Setting, SignedParts, Vector,
};

/// A setting without J, A, K and rule.
#[derive(Clone, Copy, Debug, PartialEq)]
pub struct EarthSetting {
    /// The gravitational coefficients of the bodies 1 to 6 in km³/s².
    pub coefficients: [f64; 6],
    pub dut: Dut,
}

impl From<EarthSetting> for Setting {
    /// J, A and K are 0, and the rule is the old one.
    fn from(EarthSetting { coefficients, dut }: EarthSetting) -> Setting {
        Setting { coefficients, j: 0.0, a: 0.0, k: 0.0, dut, rule: Rule::OLD }
    }
}

/// A moment, and position in km and velocity in km/s from the Earth.
#[derive(Clone, Copy, Debug, PartialEq)]
pub struct EarthCoordinates {
    pub moment: Moment,
    pub position: Vector,
    pub velocity: Vector,
}

impl EarthCoordinates {
    fn six(&self) -> [f64; 6] {
        Motion { position: self.position, velocity: self.velocity }.six()
    }

    fn of_six(moment: u64, six: [f64; 6]) -> EarthCoordinates {
        let Motion { position, velocity } = Motion::of_six(six);
        EarthCoordinates { moment: Moment(moment), position, velocity }
    }
}

impl From<EarthCoordinates> for Coordinates {
    fn from(EarthCoordinates { moment, position, velocity }: EarthCoordinates) -> Coordinates {
        Coordinates { moment, centre: Body::EARTH, position, velocity }
    }
}

/// The acceleration in km/s², at a position in km from the Earth. Refusals: 1, 4, 3, 7, 6.
///
/// ```
/// use belfrywool::{acceleration, Book, Dut, EarthSetting, Moment};
///
/// let earth = EarthSetting { coefficients: [8.0, 0.0, 0.0, 0.0, 0.0, 0.0], dut: Dut(0) };
/// assert_eq!(acceleration(Book::EMPTY, &earth, Moment(0), &[2.0, 0.0, 0.0]).unwrap()[0], -2.0);
/// ```
pub fn acceleration(book: Book, setting: &EarthSetting, moment: Moment, position: &Vector) -> Result<Vector, Refusal> {
    let (bytes, mut acceleration) = (book.bytes(), [0.0; 3]);
    let number = unsafe {
        calls::belfry_acceleration(
            bytes.as_ptr(), bytes.len(), &setting.coefficients, setting.dut.0, moment.0, position, &mut acceleration,
        )
    };
    answer(number, acceleration)
}

fn ran(call: impl FnOnce(&mut u64, &mut [f64; 6], &mut [u64; 5], &mut u32) -> u64) -> RunAnswer<EarthCoordinates> {
    let (mut reached, mut there, mut entries, mut steps) = (0, [0.0; 6], [0; 5], 0);
    let outcome = Outcome::of_number(call(&mut reached, &mut there, &mut entries, &mut steps));
    RunAnswer { outcome, state: EarthCoordinates::of_six(reached, there), steps, guesses: Guesses(entries) }
}

/// A run that starts with the acceleration that the rule gives. Refusals: 1, 4, 3, 7, 6, 2, 5, and for a step 6 or 7.
///
/// ```
/// use belfrywool::*;
///
/// let earth = EarthSetting { coefficients: [8.0, 0.0, 0.0, 0.0, 0.0, 0.0], dut: Dut(0) };
/// let start = EarthCoordinates { moment: Moment(0), position: [2.0, 0.0, 0.0], velocity: [0.0, 4.0, 0.0] };
/// let answer = run(Book::EMPTY, &earth, &start, &Run { h: 3, target: Moment(0), budget: 9, guesses: Guesses::default() });
/// assert_eq!((answer.outcome, answer.state), (Outcome::Refused(Refusal::Step), start));
/// ```
pub fn run(book: Book, setting: &EarthSetting, from: &EarthCoordinates, run: &Run) -> RunAnswer<EarthCoordinates> {
    let (bytes, six) = (book.bytes(), from.six());
    ran(|reached, there, entries, steps| unsafe {
        calls::belfry_run(
            bytes.as_ptr(), bytes.len(), &setting.coefficients, setting.dut.0, from.moment.0, &six, run.h, run.target.0,
            run.budget, &run.guesses.0, reached, there, entries, steps,
        )
    })
}

/// A run of one step, to the moment one step on. Refusals: those of `run`.
///
/// ```
/// use belfrywool::*;
///
/// let earth = EarthSetting { coefficients: [8.0, 0.0, 0.0, 0.0, 0.0, 0.0], dut: Dut(0) };
/// let start = EarthCoordinates { moment: Moment(0), position: [2.0, 0.0, 0.0], velocity: [0.0, 4.0, 0.0] };
/// let answer = single_step(Book::EMPTY, &earth, &start, 1000, &Guesses::default());
/// assert_eq!((answer.outcome, answer.state.moment), (Outcome::Arrived, Moment(1000)));
/// ```
pub fn single_step(
    book: Book, setting: &EarthSetting, from: &EarthCoordinates, h: u32, guesses: &Guesses,
) -> RunAnswer<EarthCoordinates> {
    let (bytes, six) = (book.bytes(), from.six());
    ran(|reached, there, entries, steps| unsafe {
        calls::belfry_single_step(
            bytes.as_ptr(), bytes.len(), &setting.coefficients, setting.dut.0, from.moment.0, &six, h, &guesses.0, reached,
            there, entries, steps,
        )
    })
}

/// Coordinates in axes that turn with the Earth. Refusals: 4, 3, 7.
///
/// ```
/// use belfrywool::{earth_fixed, Dut, EarthCoordinates, Moment, Refusal};
///
/// let up = EarthCoordinates { moment: Moment(0), position: [0.0, 0.0, 3.0], velocity: [0.0; 3] };
/// assert!(earth_fixed(&up, Dut(0)).is_ok());
/// assert_eq!(earth_fixed(&up, Dut(1)), Err(Refusal::Moment));
/// ```
pub fn earth_fixed(coordinates: &EarthCoordinates, dut: Dut) -> Result<Motion, Refusal> {
    let mut turned = [0.0; 6];
    let number =
        unsafe { calls::belfry_earth_fixed(coordinates.moment.0, &coordinates.six(), dut.0, &mut turned) };
    answer(number, Motion::of_six(turned))
}

/// An injection as launch crews speak it, Earth-fixed.
#[derive(Clone, Copy, Debug, PartialEq)]
pub struct Sphere {
    /// km.
    pub radius: f64,
    /// From -90 to 90 degrees.
    pub latitude: SignedParts,
    /// Eastward, from 0 up to one circle.
    pub longitude: SignedParts,
    /// km/s.
    pub speed: f64,
    /// From -90 to 90 degrees.
    pub path_angle: SignedParts,
    /// From the north, from 0 up to one circle.
    pub azimuth: SignedParts,
}

/// Its coordinates in 1950.0 axes. Refusals: 4, 3, 12, 7.
///
/// ```
/// use belfrywool::{from_sphere, Dut, Moment, Refusal, Rule, SignedParts, Sphere};
///
/// let sphere = Sphere {
///     radius: 6570.0,
///     latitude: SignedParts(283_090_000_000),
///     longitude: SignedParts(2_794_570_000_000),
///     speed: 7.8,
///     path_angle: SignedParts(0),
///     azimuth: SignedParts(900_000_000_000),
/// };
/// assert!(from_sphere(Rule::OLD, Moment(411_264_035_000), Dut(35_000), &sphere).is_ok());
/// let steep = Sphere { path_angle: SignedParts(-900_000_000_001), ..sphere };
/// assert_eq!(from_sphere(Rule::OLD, Moment(411_264_035_000), Dut(35_000), &steep), Err(Refusal::Angle));
/// ```
pub fn from_sphere(rule: Rule, moment: Moment, dut: Dut, sphere: &Sphere) -> Result<EarthCoordinates, Refusal> {
    let mut six = [0.0; 6];
    let sizes = [sphere.radius, sphere.speed];
    let angles = [sphere.latitude.0, sphere.longitude.0, sphere.path_angle.0, sphere.azimuth.0];
    let number = unsafe { calls::belfry_from_sphere(rule.0, moment.0, dut.0, &sizes, &angles, &mut six) };
    answer(number, EarthCoordinates::of_six(moment.0, six))
}

/// The conic about the Earth, whose coefficient is m. Refusals: 4, 7, 9, 10.
///
/// ```
/// use belfrywool::{conic, EarthCoordinates, Moment, Refusal};
///
/// let straight_up = EarthCoordinates { moment: Moment(0), position: [2.0, 0.0, 0.0], velocity: [2.0, 0.0, 0.0] };
/// assert_eq!(conic(8.0, &straight_up), Err(Refusal::StraightLine));
/// assert_eq!(conic(4.0, &straight_up), Err(Refusal::Parabola));
/// ```
pub fn conic(m: f64, coordinates: &EarthCoordinates) -> Result<Conic, Refusal> {
    let (mut names, mut figures) = ([0; 2], [0.0; 5]);
    let number =
        unsafe { calls::belfry_conic(m, coordinates.moment.0, &coordinates.six(), &mut names, &mut figures) };
    figured(number, names, figures)
}
