//! Moments and DUTs, in range and out of it.

use super::chance::Chance;
use crate::calendar::LAST_DAY;
use crate::hour::{DAY, DUT_MOST, END};

/// A moment and a DUT, most of them in range.
pub fn moment_dut(c: &mut Chance) -> (u64, u32) {
    let dut = match c.below(6) {
        0 => 0,
        1 => DUT_MOST,
        2 => 35_000,
        _ => c.below(u64::from(DUT_MOST) + 1) as u32,
    };
    let moment = match c.below(5) {
        0 => c.below(LAST_DAY + 1) * DAY + u64::from(dut) + c.below(3),
        1 => (c.below(LAST_DAY + 1) * DAY + u64::from(dut)).saturating_sub(c.between(1, 2)),
        _ => c.below(END),
    };
    (moment, dut)
}

/// Every UT whose hour angle is a whole number of octants; for the first three it is 0.
pub const WHOLE_OCTANTS: [u64; 8] = [
    1_028_775_288_437, 2_148_563_809_011, 2_775_407_567_631, 2_256_365_856_775,
    589_133_787_002, 879_959_133_579, 1_023_250_016_132, 1_965_971_330_658,
];

/// A moment and a DUT of such a UT.
pub fn whole_octants(c: &mut Chance) -> (u64, u32) {
    let dut = c.below(u64::from(DUT_MOST) + 1);
    (c.pick(&WHOLE_OCTANTS) + dut, dut as u32)
}

/// UTs whose 1982 value lies less than a millionth of a part above a whole part, then below one.
pub const NEAR_WHOLE: [u64; 16] = [
    2_707_875_744_961, 2_792_911_421_811, 1_549_385_696_448, 1_737_918_006_908,
    1_013_911_274_817, 1_561_479_788_905, 2_120_769_260_360, 1_652_541_019_044,
    2_490_743_421_014, 1_087_586_978_225, 617_865_858_787, 2_066_873_007_806,
    910_346_427_100, 921_795_071_348, 1_315_405_823_143, 1_407_391_085_874,
];

/// 2000 January 1: from this day on at 12h T is above 0.
pub const DAY_2000: u64 = 18_262;

/// A UT that is hard for the 1982 rule: the ends of a day, 2000 January 1, close to a whole part.
pub fn hard_ut(c: &mut Chance) -> u64 {
    match c.below(4) {
        0 => c.below(LAST_DAY + 1) * DAY,
        1 => c.below(LAST_DAY + 1) * DAY + DAY - 1,
        2 => (DAY_2000 - 1 + c.below(3)) * DAY + c.pick(&[0, 1, DAY / 2, DAY - 1, c.clone().below(DAY)]),
        _ => c.pick(&NEAR_WHOLE),
    }
}

/// Mostly one of the two rules.
pub fn some_rule(c: &mut Chance) -> u64 {
    match c.below(12) {
        0..=7 => 1,
        8..=10 => 0,
        _ => bad_rule(c),
    }
}

pub fn bad_rule(c: &mut Chance) -> u64 {
    c.pick(&[2, 3, 255, 256, 257, 1 << 32, (1 << 32) + 1, 1 << 63, u64::MAX])
}

pub fn bad_dut(c: &mut Chance) -> u32 {
    match c.below(4) {
        0 => DUT_MOST + 1,
        1 => u32::MAX,
        2 => 1 << 31,
        _ => c.between(u64::from(DUT_MOST) + 1, u64::from(u32::MAX)) as u32,
    }
}

/// A moment that is out of range.
pub fn bad_moment(c: &mut Chance) -> u64 {
    match c.below(5) {
        0 => END,
        1 => u64::MAX,
        2 => 1 << 63,
        3 => END + c.any_length(50),
        _ => END + c.below(u64::MAX - END),
    }
}
