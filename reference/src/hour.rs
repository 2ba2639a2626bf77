//! Moments, universal time and the hour angle, by document 01's rule (0) and by that of 1982 (1).

/// Moments lie below this, in milliseconds.
pub const END: u64 = 3_155_760_000_000;
/// Milliseconds of a day.
pub const DAY: u64 = 86_400_000;
/// The greatest DUT, in milliseconds.
pub const DUT_MOST: u32 = 100_000;
/// Parts of a circle.
pub const CIRCLE: u64 = 3_600_000_000_000;

/// The rules are 0 and 1.
pub const LAST_RULE: u64 = 1;

/// 4 if a setting may not have this DUT or rule.
pub fn allowed(rule: u64, dut: u32) -> Result<(), u64> {
    if dut > DUT_MOST || rule > LAST_RULE {
        return Err(4);
    }
    Ok(())
}

/// Universal time of a moment: 4 for DUT, 3 for the moment or a UT below 0.
pub fn universal(moment: u64, dut: u32) -> Result<u64, u64> {
    allowed(0, dut)?;
    if moment >= END {
        return Err(3);
    }
    moment.checked_sub(u64::from(dut)).ok_or(3)
}

/// Hour angle in parts at a UT; 3 if it is out of range.
pub fn angle_at(ut: u64) -> Result<u64, u64> {
    if ut >= END {
        return Err(3);
    }
    let (d, t) = (u128::from(ut / DAY), u128::from(ut % DAY));
    let below = 1_000_000_000_000_000 + 521 * d;
    // Both fractions over one denominator, so that the sum is rounded down once.
    let above = 29_015 * d * d * below + 417_807_417 * 100_000_000_000 * t * 10_000_000;
    let sum = 1_000_755_426_000 + 9_856_473_460 * d + above / (10_000_000 * below);
    Ok((sum % u128::from(CIRCLE)) as u64)
}

/// The exact value of the 1982 rule at a UT in range, in parts: whole ones, and the rest over PART.
pub fn exact_1982(ut: u64) -> (i128, i128) {
    let (u, t) = (2 * i128::from(ut / DAY) - 36_525, i128::from(ut % DAY));
    // Seconds at 0h in 10^-7 over 73,050^3, and the rate in 10^-16 over 73,050^2.
    let seconds = 241_105_484_100 * SPAN.pow(3) + 86_401_848_128_660 * u * SPAN.pow(2)
        + 931_040 * u.pow(2) * SPAN - 62 * u.pow(3);
    let rate = 10_027_379_093_507_950 * SPAN.pow(2) + 590_060 * u * SPAN - 59 * u.pow(2);
    // 24 seconds are 10^9 parts. Each of the two is a whole number of parts and a rest that is not negative.
    let (day, time) = (100 * seconds, t * rate);
    let (by_day, by_time) = (24 * SPAN.pow(3), 240_000_000_000 * SPAN.pow(2));
    let rests = day.rem_euclid(by_day) * 10_000_000_000 + time.rem_euclid(by_time) * SPAN;
    (day.div_euclid(by_day) + time.div_euclid(by_time) + rests / PART, rests % PART)
}

/// Days in a Julian century, twice: T is (2d - 36,525) over it.
const SPAN: i128 = 73_050;
/// The denominator of a part in `exact_1982`.
pub const PART: i128 = 240_000_000_000 * SPAN.pow(3);

/// The angle at a UT by a rule, in parts; 3 if it is out of range.
pub fn angle_by(rule: u64, ut: u64) -> Result<u64, u64> {
    if rule == 0 || ut >= END {
        return angle_at(ut);
    }
    Ok(exact_1982(ut).0.rem_euclid(i128::from(CIRCLE)) as u64)
}

/// The hour angle call with its rule: 4 for DUT and rule, then 3.
pub fn sidereal(rule: u64, moment: u64, dut: u32) -> Result<u64, u64> {
    allowed(rule, dut)?;
    angle_by(rule, universal(moment, dut)?)
}

/// The hour angle call.
pub fn hour_angle(moment: u64, dut: u32) -> Result<u64, u64> {
    angle_at(universal(moment, dut)?)
}
