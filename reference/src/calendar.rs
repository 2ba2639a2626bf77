//! Calendar and day count, 1950 January 1 to 2049 December 31.

/// The year of day 0.
pub const FIRST_YEAR: u64 = 1950;
/// The last year with days.
pub const LAST_YEAR: u64 = 2049;
/// 2049 December 31.
pub const LAST_DAY: u64 = 36_524;

pub fn leap(year: u64) -> bool {
    year % 4 == 0 && (year % 100 != 0 || year % 400 == 0)
}

/// Days of a month; 0 if there is no such month.
pub fn month_days(year: u64, month: u64) -> u64 {
    match month {
        1 | 3 | 5 | 7 | 8 | 10 | 12 => 31,
        4 | 6 | 9 | 11 => 30,
        2 if leap(year) => 29,
        2 => 28,
        _ => 0,
    }
}

/// Year, month and day of month of a day number, by subtracting the lengths of months.
pub fn date_of(day: u64) -> Result<(u64, u64, u64), u64> {
    if day > LAST_DAY {
        return Err(8);
    }
    let mut left = day;
    for year in FIRST_YEAR..=LAST_YEAR {
        for month in 1..=12 {
            let days = month_days(year, month);
            if left < days {
                return Ok((year, month, left + 1));
            }
            left -= days;
        }
    }
    Err(8)
}

/// Day number of a date.
pub fn day_of(year: u64, month: u64, day: u64) -> Result<u64, u64> {
    if !(FIRST_YEAR..=LAST_YEAR).contains(&year) || day < 1 || day > month_days(year, month) {
        return Err(8);
    }
    let years: u64 = (FIRST_YEAR..year).map(|y| if leap(y) { 366 } else { 365 }).sum();
    let months: u64 = (1..month).map(|m| month_days(year, m)).sum();
    Ok(years + months + (day - 1))
}

/// Twice the Julian date at 0h of a day.
pub fn twice_julian(day: u64) -> Result<u64, u64> {
    if day > LAST_DAY {
        return Err(8);
    }
    Ok(4_866_565 + 2 * day)
}
