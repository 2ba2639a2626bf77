//! By hand: which entry a second book lacks, and the velocity of a frame.

use reference::holds::missing;
use reference::pane::{Frame, Pane};
use reference::rule::State;
use reference::trial::books::{build, Piece};

fn piece(body: u16, start: u64, last: f64) -> Piece {
    Piece { body, start, span: 1000, coefficients: vec![1.0, 2.0, 3.0, 4.0, 5.0, last] }
}

#[test]
fn the_first_entry_that_is_missing() {
    let [a, b, c] = [piece(2, 0, 6.0), piece(2, 1000, 0.0), piece(4, 0, 6.0)];
    let of = |list: &[&Piece]| build(&list.iter().map(|&p| p.clone()).collect::<Vec<_>>());
    let (all, none) = (of(&[&a, &b, &c]), of(&[]));
    assert_eq!(missing(&of(&[&a, &c]), &all), Ok(None));
    assert_eq!((missing(&none, &all), missing(&none, &none)), (Ok(None), Ok(None)));
    assert_eq!(missing(&all, &of(&[&b, &c])), Ok(Some(0)));
    assert_eq!(missing(&all, &of(&[&a, &c])), Ok(Some(1)));
    assert_eq!(missing(&all, &of(&[&a, &b])), Ok(Some(2)));
    assert_eq!(missing(&all, &of(&[&a, &piece(2, 1000, -0.0), &c])), Ok(Some(1)));
    assert_eq!(missing(&all, &of(&[&a, &b, &piece(5, 0, 6.0)])), Ok(Some(2)));
    assert_eq!((missing(&all, &all[..all.len() - 1]), missing(&all[1..], &all)), (Err(1), Err(1)));
}

/// p = t^3 has the velocity 3·t^2: through (0 km, 0 km/s) at 0 s and (8 km, 12 km/s) at 2 s.
#[test]
fn velocity_of_a_cube() {
    let state = |moment, p, v| State { moment, centre: 1, position: [p; 3], velocity: [v; 3], acceleration: [0.0; 3] };
    let pane = Pane::Two(state(5000, 0.0, 0.0), state(7000, 8.0, 12.0));
    let at = |p: f64, v: f64| Ok(Frame::Current([[p; 3], [v; 3]]));
    assert_eq!([5000, 5500, 6000, 7000].map(|t| pane.frame_motion(t)), [at(0.0, 0.0), at(0.125, 0.75), at(1.0, 3.0), at(8.0, 12.0)]);
    assert_eq!((pane.frame_motion(4999), pane.frame_motion(7001)), (Ok(Frame::Empty), Ok(Frame::Late(1))));
    let fast = Pane::Two(state(0, 0.0, f64::MAX), state(1000, f64::MAX, f64::INFINITY));
    assert!(matches!(fast.frame(1000), Ok(Frame::Current(_))));
    assert_eq!((fast.frame_motion(0), fast.frame_motion(1000)), (Ok(Frame::Current([[0.0; 3], [f64::MAX; 3]])), Err(7)));
}
