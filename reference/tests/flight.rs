//! JPL's check case 1 without the oblate Earth and with it, compared with the positions that document 000 prints, as docs/FLIGHT.md
//! describes.

use reference::fixed::{precession, product, turned};
use reference::motion::{of_an_order, run};
use reference::rule::State;
use reference::strip::{read_either, Order};
use reference::trial::moon::{flight, Said};
use reference::vector::{n, sub, Vector};

fn files(order: &str) -> (Order, Vec<u8>) {
    let order = std::fs::read(format!("../data/orders/{order}")).unwrap();
    (read_either(&order).unwrap(), std::fs::read("../data/books/book31all.bin").unwrap())
}

/// The greatest terms of the IAU 1980 nutation: multiples of D, M, M', F and the node, then those of longitude and obliquity in
/// 0.0001".
const TERMS: [([f64; 5], f64, f64); 9] = [
    ([0.0, 0.0, 0.0, 0.0, 1.0], -171_996.0, 92_025.0),
    ([-2.0, 0.0, 0.0, 2.0, 2.0], -13_187.0, 5_736.0),
    ([0.0, 0.0, 0.0, 2.0, 2.0], -2_274.0, 977.0),
    ([0.0, 0.0, 0.0, 0.0, 2.0], 2_062.0, -895.0),
    ([0.0, 1.0, 0.0, 0.0, 0.0], 1_426.0, 54.0),
    ([0.0, 0.0, 1.0, 0.0, 0.0], 712.0, -7.0),
    ([-2.0, 1.0, 0.0, 2.0, 2.0], -517.0, 224.0),
    ([0.0, 0.0, 0.0, 2.0, 1.0], -386.0, 200.0),
    ([0.0, 0.0, 1.0, 2.0, 2.0], -301.0, 129.0),
];

/// From the mean equator of date to the true one.
fn nutation(moment: u64) -> [Vector; 3] {
    let t = (moment as f64 / 86_400_000.0 - 18_262.5) / 36_525.0;
    let at = [
        297.85036 + 445_267.11148 * t, 357.52772 + 35_999.05034 * t, 134.96298 + 477_198.867398 * t,
        93.27191 + 483_202.017538 * t, 125.04452 - 1_934.136261 * t,
    ];
    let (mut longitude, mut obliquity) = (0.0, 0.0);
    for (multiples, p, e) in TERMS {
        let angle: f64 = multiples.iter().zip(at).map(|(m, a)| m * a).sum();
        longitude += p * angle.to_radians().sin();
        obliquity += e * angle.to_radians().cos();
    }
    let unit = (1e-4f64 / 3600.0).to_radians();
    let mean = (23.4392911 - 0.0130042 * t).to_radians();
    let tilt = |a: f64| [[1.0, 0.0, 0.0], [0.0, a.cos(), a.sin()], [0.0, -a.sin(), a.cos()]];
    let (s, c) = (longitude * -unit).sin_cos();
    product(tilt(-(mean + obliquity * unit)), product([[c, s, 0.0], [-s, c, 0.0], [0.0, 0.0, 1.0]], tilt(mean)))
}

/// The distance of a 1950.0 position from one on the true equator of date, and how much farther out it is.
fn apart(s: &State, printed: Vector) -> (f64, f64) {
    let p = turned(product(nutation(s.moment), precession(s.moment)), s.position);
    (n(sub(p, printed)).sqrt(), n(s.position).sqrt() - n(printed).sqrt())
}

/// JPL's X, Y, Z after a number of hours; then distance and range of each order.
const PRINTED: [(u64, Vector, [(f64, f64); 2]); 10] = [
    (1, [-17_560.347, 12_524.493, -9_615.54], [(28.63, 15.32), (0.06, 0.03)]),
    (6, [-84_114.4, 6_505.9352, -15_548.877], [(221.79, 139.97), (0.46, 0.28)]),
    (18, [-177_705.49, -16_349.802, -15_653.149], [(792.67, 607.04), (1.60, 1.19)]),
    (22, [-201_973.67, -23_590.486, -14_912.014], [(1_010.39, 797.52), (2.02, 1.56)]),
    (26, [-224_266.98, -30_593.316, -14_016.070], [(1_240.13, 1_002.15), (2.47, 1.95)]),
    (30, [-244_976.62, -37_368.612, -13_010.89], [(1_481.26, 1_219.89), (2.95, 2.38)]),
    (34, [-264_375.73, -43_927.89, -11_923.683], [(1_733.33, 1_449.99), (3.45, 2.83)]),
    (38, [-282_666.72, -50_281.177, -10_770.919], [(1_996.00, 1_691.95), (3.96, 3.30)]),
    (46, [-316_530.08, -62_394.955, -8_299.5664], [(2_552.95, 2_210.79), (5.05, 4.31)]),
    (48, [-324_521.14, -65_300.771, -7_647.7978], [(2_698.99, 2_347.96), (5.33, 4.56)]),
];

const ORDERS: [&str; 2] = ["check-case-1.order", "check-case-1.order144"];

#[test]
fn from_the_earth() {
    for (which, name) in ORDERS.iter().enumerate() {
        let (Order { setting, mut state, h, .. }, book) = files(name);
        let start = state.moment;
        state = of_an_order(&book, &setting, &state);
        for (hours, printed, figures) in PRINTED {
            state = run(&book, &setting, &state, h, start + 3_600_000 * hours, u32::MAX, [0; 5]).state;
            let ((distance, range), (d, r)) = (apart(&state, printed), figures[which]);
            assert!((distance - d).abs() < 0.02 && (range - r).abs() < 0.006, "{name} {hours} h: {distance} {range}");
        }
    }
}

/// Where JPL changes the centre, four hours after that, and where its craft hits the Moon.
#[test]
fn from_the_moon() {
    let printed = [[33_320.198, -17_050.552, -14_108.259], [16_618.444, -8_994.4889, -7_269.0611], [1_056.0991, -1_165.0243, -740.4929]];
    let figures = [[(3550.6, -2638.7), (3953.1, -2919.3), (4211.8, 756.6)], [(6.7, -3.9), (7.3, -4.5), (9.1, -6.9)]];
    for (name, figures) in ORDERS.iter().zip(figures) {
        let (order, book) = files(name);
        let said = flight(&order, |line| Ok(reference::ask::answer(&book, line.as_bytes()))).unwrap();
        let states: Vec<State> = said.iter().filter(|s| !s.answer.starts_with("GOING")).filter_map(Said::state).collect();
        for ((i, printed), (d, r)) in [3, 4, 6].into_iter().zip(printed).zip(figures) {
            let (distance, range) = apart(&states[i], printed);
            assert!((distance - d).abs() < 0.06 && (range - r).abs() < 0.06, "{name}: {distance} {range}");
        }
    }
}
