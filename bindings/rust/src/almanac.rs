//! The calls that take neither book nor state: calendar, hour angle, root, sine and cosine.

use crate::calls;
use crate::refusal::answer;
use crate::{Date, Day, Dut, Moment, Parts, Refusal, Rule, SineCosine, Vector};

/// The date of a day. Refusals: 8.
///
/// ```
/// use belfrywool::{date, Date, Day, Refusal};
///
/// assert_eq!(date(Day(2922)), Ok(Date { year: 1958, month: 1, day: 1 }));
/// assert_eq!(date(Day(36_525)), Err(Refusal::Date));
/// ```
pub fn date(day: Day) -> Result<Date, Refusal> {
    let mut date = [0; 3];
    let number = unsafe { calls::belfry_date(day.0, &mut date) };
    let [year, month, day] = date;
    answer(number, Date { year, month, day })
}

/// The day of a date. Refusals: 8.
///
/// ```
/// use belfrywool::{day, Date, Day, Refusal};
///
/// assert_eq!(day(Date { year: 2000, month: 2, day: 29 }), Ok(Day(18_321)));
/// assert_eq!(day(Date { year: 2001, month: 2, day: 29 }), Err(Refusal::Date));
/// ```
pub fn day(date: Date) -> Result<Day, Refusal> {
    let mut count = 0;
    let number = unsafe { calls::belfry_day(date.year, date.month, date.day, &mut count) };
    answer(number, Day(count))
}

/// Twice the Julian date at 0h of a day. Refusals: 8.
///
/// ```
/// use belfrywool::{twice_julian_date, Day};
///
/// assert_eq!(twice_julian_date(Day(0)), Ok(4_866_565));
/// ```
pub fn twice_julian_date(day: Day) -> Result<u64, Refusal> {
    let mut twice = 0;
    let number = unsafe { calls::belfry_twice_julian_date(day.0, &mut twice) };
    answer(number, twice)
}

/// The hour angle by the rule of document 01. Refusals: 4, 3.
///
/// ```
/// use belfrywool::{hour_angle, Dut, Moment, Parts, Refusal};
///
/// assert_eq!(hour_angle(Moment(4322 * 86_400_000 + 82_951_000), Dut(0)), Ok(Parts(266_188_071_271)));
/// assert_eq!(hour_angle(Moment(34_999), Dut(35_000)), Err(Refusal::Moment));
/// ```
pub fn hour_angle(moment: Moment, dut: Dut) -> Result<Parts, Refusal> {
    let mut parts = 0;
    let number = unsafe { calls::belfry_hour_angle(moment.0, dut.0, &mut parts) };
    answer(number, Parts(parts))
}

/// The hour angle by a rule. Refusals: 4, 3.
///
/// ```
/// use belfrywool::{hour_angle, sidereal, Dut, Moment, Refusal, Rule};
///
/// let moment = Moment(411_331_356_297);
/// assert_eq!(sidereal(Rule::OLD, moment, Dut(0)), hour_angle(moment, Dut(0)));
/// assert!(sidereal(Rule::IAU_1982, moment, Dut(0)).is_ok());
/// assert_eq!(sidereal(Rule(2), moment, Dut(0)), Err(Refusal::Setting));
/// ```
pub fn sidereal(rule: Rule, moment: Moment, dut: Dut) -> Result<Parts, Refusal> {
    let mut parts = 0;
    let number = unsafe { calls::belfry_sidereal(rule.0, moment.0, dut.0, &mut parts) };
    answer(number, Parts(parts))
}

/// The square root. Refusals: 11.
///
/// ```
/// use belfrywool::{root, Refusal};
///
/// assert_eq!(root(9.0), Ok(3.0));
/// assert_eq!(root(f64::INFINITY), Err(Refusal::Root));
/// ```
pub fn root(x: f64) -> Result<f64, Refusal> {
    let mut value = 0.0;
    let number = unsafe { calls::belfry_root(x, &mut value) };
    answer(number, value)
}

/// The length of a vector, for example range or speed: the root of (x·x + y·y) + z·z. Refusals: 11, if that sum is not finite.
///
/// ```
/// use belfrywool::{length, Refusal};
///
/// assert_eq!(length(&[2.0, 3.0, 6.0]), Ok(7.0));
/// assert_eq!(length(&[1e200, 0.0, 0.0]), Err(Refusal::Root));
/// ```
pub fn length(&[x, y, z]: &Vector) -> Result<f64, Refusal> {
    root((x * x + y * y) + z * z)
}

/// Sine and cosine of an angle below one circle. Refusals: 12.
///
/// ```
/// use belfrywool::{sine_cosine, Parts, Refusal, SineCosine};
///
/// assert_eq!(sine_cosine(Parts(0)), Ok(SineCosine { sine: 0.0, cosine: 1.0 }));
/// assert_eq!(sine_cosine(Parts(3_600_000_000_000)), Err(Refusal::Angle));
/// ```
pub fn sine_cosine(parts: Parts) -> Result<SineCosine, Refusal> {
    let mut both = [0.0; 2];
    let number = unsafe { calls::belfry_sine_cosine(parts.0, &mut both) };
    let [sine, cosine] = both;
    answer(number, SineCosine { sine, cosine })
}
