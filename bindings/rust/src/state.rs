//! Settings, states, and orders as bytes.

use crate::{Body, Dut, Moment, Motion, Rule, Vector};

/// The setting of a flight.
#[derive(Clone, Copy, Debug, PartialEq)]
pub struct Setting {
    /// The gravitational coefficients of the bodies 1 to 6 in km³/s². A body is used if its coefficient is above 0.
    pub coefficients: [f64; 6],
    /// The Earth's oblateness; 0 leaves it out.
    pub j: f64,
    /// The radius for the oblateness, in km.
    pub a: f64,
    /// Sunlight, in km³/s²; 0 leaves it out.
    pub k: f64,
    pub dut: Dut,
    pub rule: Rule,
}

impl Setting {
    /// The nominal values of source document 003 for all six bodies, with J and A, without sunlight, DUT 0, the old rule.
    pub const NOMINAL: Setting = Setting {
        coefficients: [398_603.20, 4900.7589, 132_715_440_000.0, 324_769.50, 42_977.799, 126_710_600.0],
        j: 0.001623450,
        a: 6378.1650,
        k: 0.0,
        dut: Dut(0),
        rule: Rule::OLD,
    };

    /// J, A and K, as the calls take them.
    pub(crate) fn extras(&self) -> [f64; 3] {
        [self.j, self.a, self.k]
    }
}

/// A moment, a centre, and position and velocity from it: a state without its acceleration. An injection is one of these.
#[derive(Clone, Copy, Debug, PartialEq)]
pub struct Coordinates {
    pub moment: Moment,
    pub centre: Body,
    /// km.
    pub position: Vector,
    /// km/s.
    pub velocity: Vector,
}

impl Coordinates {
    /// Position and velocity alone.
    ///
    /// ```
    /// use belfrywool::{Body, Coordinates, Moment, Motion};
    ///
    /// let (position, velocity) = ([2.0, 0.0, 0.0], [0.0, 4.0, 0.0]);
    /// let at = Coordinates { moment: Moment(0), centre: Body::EARTH, position, velocity };
    /// assert_eq!(at.motion(), Motion { position, velocity });
    /// ```
    pub fn motion(&self) -> Motion {
        Motion { position: self.position, velocity: self.velocity }
    }
}

/// A whole state: coordinates with the acceleration there, which `inject`, `fly` and `move_to` keep equal to the rule's.
#[derive(Clone, Copy, Debug, PartialEq)]
pub struct State {
    pub moment: Moment,
    pub centre: Body,
    /// km.
    pub position: Vector,
    /// km/s.
    pub velocity: Vector,
    /// km/s².
    pub acceleration: Vector,
}

impl State {
    /// From x, y, z, their rates, and the acceleration.
    ///
    /// ```
    /// use belfrywool::{Body, Moment, State};
    ///
    /// let state = State::of_nine(Moment(0), Body::EARTH, [1.0, 2.0, 3.0, 4.0, 5.0, 6.0, 7.0, 8.0, 9.0]);
    /// assert_eq!((state.position, state.acceleration), ([1.0, 2.0, 3.0], [7.0, 8.0, 9.0]));
    /// ```
    pub fn of_nine(moment: Moment, centre: Body, [x, y, z, vx, vy, vz, ax, ay, az]: [f64; 9]) -> State {
        State { moment, centre, position: [x, y, z], velocity: [vx, vy, vz], acceleration: [ax, ay, az] }
    }

    /// x, y, z, their rates, and the acceleration.
    ///
    /// ```
    /// use belfrywool::{Body, Moment, State};
    ///
    /// let nine = [1.0, 2.0, 3.0, 4.0, 5.0, 6.0, 7.0, 8.0, 9.0];
    /// assert_eq!(State::of_nine(Moment(0), Body::EARTH, nine).nine(), nine);
    /// ```
    pub fn nine(&self) -> [f64; 9] {
        let ([x, y, z], [vx, vy, vz], [ax, ay, az]) = (self.position, self.velocity, self.acceleration);
        [x, y, z, vx, vy, vz, ax, ay, az]
    }

    /// From the bits of the nine.
    ///
    /// ```
    /// use belfrywool::{Body, Moment, State};
    ///
    /// let state = State::of_nine(Moment(0), Body::EARTH, [2.0, 0.0, 0.0, 0.0, 4.0, 0.0, -2.0, 0.0, 0.0]);
    /// assert_eq!(state.bits()[0], 0x4000_0000_0000_0000);
    /// assert_eq!(State::of_bits(state.moment, state.centre, state.bits()), state);
    /// ```
    pub fn of_bits(moment: Moment, centre: Body, bits: [u64; 9]) -> State {
        State::of_nine(moment, centre, bits.map(f64::from_bits))
    }

    /// The bits of the nine. Two states are the same if moment, centre and these are.
    ///
    /// ```
    /// use belfrywool::{Body, Moment, State};
    ///
    /// assert_eq!(State::of_nine(Moment(0), Body::EARTH, [-0.0; 9]).bits(), [1 << 63; 9]);
    /// ```
    pub fn bits(&self) -> [u64; 9] {
        self.nine().map(f64::to_bits)
    }

    /// The state without its acceleration.
    ///
    /// ```
    /// use belfrywool::{Body, Moment, State};
    ///
    /// let state = State::of_nine(Moment(5), Body::MOON, [1.0, 2.0, 3.0, 4.0, 5.0, 6.0, 7.0, 8.0, 9.0]);
    /// assert_eq!((state.coordinates().moment, state.coordinates().velocity), (Moment(5), [4.0, 5.0, 6.0]));
    /// ```
    pub fn coordinates(&self) -> Coordinates {
        let State { moment, centre, position, velocity, .. } = *self;
        Coordinates { moment, centre, position, velocity }
    }
}

/// An order: setting, injection, step length in milliseconds, target.
#[derive(Clone, Copy, Debug, PartialEq)]
pub struct Order {
    pub setting: Setting,
    pub injection: Coordinates,
    pub h: u32,
    pub target: Moment,
}

impl Order {
    /// Reads an order of 120 bytes, or of 144 with J, A and K; other lengths give None. Nothing else is checked: the calls do that.
    ///
    /// ```
    /// use belfrywool::{Body, Order};
    ///
    /// let order = Order::of_bytes(&[0; 120]).unwrap();
    /// assert_eq!((order.h, order.injection.centre), (0, Body::EARTH));
    /// assert!(Order::of_bytes(&[0; 119]).is_none());
    /// ```
    pub fn of_bytes(bytes: &[u8]) -> Option<Order> {
        if !matches!(bytes.len(), 120 | 144) {
            return None;
        }
        let eight = |place: usize| bytes[place..].first_chunk().copied();
        let four = |place: usize| bytes[place..].first_chunk().map(|b| u32::from_le_bytes(*b));
        let float = |place: usize| eight(place).map(f64::from_le_bytes);
        let vector = |place: usize| Some([float(place)?, float(place + 8)?, float(place + 16)?]);
        let [earth, moon, sun] = vector(0)?;
        let [venus, mars, jupiter] = vector(24)?;
        let [j, a, k] = if bytes.len() == 144 { vector(120)? } else { [0.0; 3] };
        let coefficients = [earth, moon, sun, venus, mars, jupiter];
        let setting = Setting { coefficients, j, a, k, dut: Dut(four(108)?), rule: Rule::OLD };
        let moment = Moment(eight(48).map(u64::from_le_bytes)?);
        let injection = Coordinates { moment, centre: Body::EARTH, position: vector(56)?, velocity: vector(80)? };
        Some(Order { setting, injection, h: four(104)?, target: Moment(eight(112).map(u64::from_le_bytes)?) })
    }
}
