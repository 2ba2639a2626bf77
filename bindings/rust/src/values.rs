//! Types for numbers, so that one kind cannot be given for another.

/// Three coordinates along the axes of mean equator and equinox 1950.0, or along axes that turn with the Earth.
pub type Vector = [f64; 3];

/// Milliseconds of ephemeris time since 0h 1950 January 1. Allowed are 0 up to but not including 3,155,760,000,000; the calls check it.
///
/// ```
/// use belfrywool::Moment;
///
/// let injection = Moment(411_331_356_297);
/// assert_eq!(injection.plus(60_000).since(injection), Some(60_000));
/// assert_eq!(injection.since(injection.plus(1)), None);
/// ```
#[derive(Clone, Copy, Debug, Default, PartialEq, Eq, Hash, PartialOrd, Ord)]
pub struct Moment(pub u64);

impl Moment {
    /// The moment that many milliseconds later. If there is none, the greatest number, which every call refuses.
    ///
    /// ```
    /// use belfrywool::Moment;
    ///
    /// assert_eq!(Moment(1).plus(2), Moment(3));
    /// assert_eq!(Moment(1).plus(u64::MAX), Moment(u64::MAX));
    /// ```
    pub fn plus(self, ms: u64) -> Moment {
        Moment(self.0.saturating_add(ms))
    }

    /// The milliseconds from the other moment to this one, if this one is not before it.
    ///
    /// ```
    /// use belfrywool::Moment;
    ///
    /// assert_eq!(Moment(3).since(Moment(1)), Some(2));
    /// assert_eq!(Moment(1).since(Moment(3)), None);
    /// ```
    pub fn since(self, other: Moment) -> Option<u64> {
        self.0.checked_sub(other.0)
    }
}

/// Ephemeris time minus UT, in milliseconds. Allowed are 0 to 100,000.
#[derive(Clone, Copy, Debug, Default, PartialEq, Eq, Hash)]
pub struct Dut(pub u32);

/// The rule of the hour angle. Calls refuse any number other than the two constants with 4.
#[derive(Clone, Copy, Debug, Default, PartialEq, Eq, Hash)]
pub struct Rule(pub u64);

impl Rule {
    /// The rule of document 01.
    pub const OLD: Rule = Rule(0);
    /// The IAU 1982 expression for Greenwich mean sidereal time.
    pub const IAU_1982: Rule = Rule(1);
}

/// A body, or a centre, by its number. Calls refuse a number without a body: 14 for a centre, 6 for a body in a book.
#[derive(Clone, Copy, Debug, PartialEq, Eq, Hash, PartialOrd, Ord)]
pub struct Body(pub u64);

impl Body {
    pub const EARTH: Body = Body(1);
    pub const MOON: Body = Body(2);
    pub const SUN: Body = Body(3);
    pub const VENUS: Body = Body(4);
    pub const MARS: Body = Body(5);
    pub const JUPITER: Body = Body(6);

    /// Its name in English, if it is one of the six.
    ///
    /// ```
    /// use belfrywool::Body;
    ///
    /// assert_eq!(Body::MOON.name(), Some("Moon"));
    /// assert_eq!(Body(7).name(), None);
    /// ```
    pub fn name(self) -> Option<&'static str> {
        let names = ["Earth", "Moon", "Sun", "Venus", "Mars", "Jupiter"];
        let place = usize::try_from(self.0.checked_sub(1)?).ok()?;
        names.get(place).copied()
    }
}

/// An angle from 0 up to one circle, in parts of 10^-10 degree; a circle is 3,600,000,000,000 parts.
#[derive(Clone, Copy, Debug, Default, PartialEq, Eq, Hash, PartialOrd, Ord)]
pub struct Parts(pub u64);

/// An angle with a sign, in parts of 10^-10 degree.
#[derive(Clone, Copy, Debug, Default, PartialEq, Eq, Hash, PartialOrd, Ord)]
pub struct SignedParts(pub i64);

/// A day, counted from 1950 January 1, which is 0.
#[derive(Clone, Copy, Debug, Default, PartialEq, Eq, Hash, PartialOrd, Ord)]
pub struct Day(pub u64);

/// A date of the Gregorian calendar.
#[derive(Clone, Copy, Debug, PartialEq, Eq, Hash, PartialOrd, Ord)]
pub struct Date {
    pub year: u64,
    pub month: u64,
    pub day: u64,
}

/// Sine and cosine of an angle.
#[derive(Clone, Copy, Debug, PartialEq)]
pub struct SineCosine {
    pub sine: f64,
    pub cosine: f64,
}

/// A position in km and a velocity in km/s.
#[derive(Clone, Copy, Debug, PartialEq)]
pub struct Motion {
    pub position: Vector,
    pub velocity: Vector,
}

impl Motion {
    /// From x, y, z and their rates.
    ///
    /// ```
    /// use belfrywool::Motion;
    ///
    /// assert_eq!(Motion::of_six([1.0, 2.0, 3.0, 4.0, 5.0, 6.0]).velocity, [4.0, 5.0, 6.0]);
    /// ```
    pub fn of_six([x, y, z, vx, vy, vz]: [f64; 6]) -> Motion {
        Motion { position: [x, y, z], velocity: [vx, vy, vz] }
    }

    /// x, y, z, and then their rates.
    ///
    /// ```
    /// use belfrywool::Motion;
    ///
    /// assert_eq!(Motion { position: [1.0, 2.0, 3.0], velocity: [4.0, 5.0, 6.0] }.six(), [1.0, 2.0, 3.0, 4.0, 5.0, 6.0]);
    /// ```
    pub fn six(&self) -> [f64; 6] {
        let ([x, y, z], [vx, vy, vz]) = (self.position, self.velocity);
        [x, y, z, vx, vy, vz]
    }

    /// The bits of the six.
    ///
    /// ```
    /// use belfrywool::Motion;
    ///
    /// let motion = Motion { position: [2.0, 0.0, 0.0], velocity: [0.0, 4.0, 0.0] };
    /// assert_eq!(motion.bits()[4], 0x4010_0000_0000_0000);
    /// assert_eq!(Motion::of_six(motion.six()), motion);
    /// ```
    pub fn bits(&self) -> [u64; 6] {
        self.six().map(f64::to_bits)
    }
}

/// For each of the bodies 2 to 6 the entry of the book that a run tries first, counted from 0. A guess may be wrong: it changes no
/// answer. Zeros are fine for a first run; the next run takes the guesses of the answer.
#[derive(Clone, Copy, Debug, Default, PartialEq, Eq)]
pub struct Guesses(pub [u64; 5]);
