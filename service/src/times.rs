//! Moments as text and back. A moment is milliseconds of ephemeris time since 0h 1950 January 1. The machine's UTC is counted in the same
//! way, from 1950 on. The calendar is the proved one.

use std::time::{SystemTime, UNIX_EPOCH};

use belfrywool::{date, day, Date, Day};

pub const SECOND: u64 = 1000;
pub const MINUTE: u64 = 60 * SECOND;
pub const HOUR: u64 = 60 * MINUTE;
pub const DAY: u64 = 24 * HOUR;
/// The end of the range of moments: 2050 January 1.
pub const END: u64 = 3_155_760_000_000;
/// Days from 1950 January 1 to 1970 January 1.
const TO_1970: u64 = 7305;

/// The machine's UTC in milliseconds since 1950.
pub fn utc() -> u64 {
    let since = SystemTime::now().duration_since(UNIX_EPOCH).map_or(0, |d| d.as_millis() as u64);
    TO_1970 * DAY + since
}

/// `YYYY-MM-DDTHH:MM:SS.mmm`. A moment outside the calendar is written as its number.
pub fn text(moment: u64) -> String {
    let Ok(Date { year, month, day }) = date(Day(moment / DAY)) else {
        return moment.to_string();
    };
    let (h, m, s, ms) = (moment / HOUR % 24, moment / MINUTE % 60, moment / SECOND % 60, moment % SECOND);
    format!("{year}-{month:02}-{day:02}T{h:02}:{m:02}:{s:02}.{ms:03}")
}

/// Hours, minutes and seconds of a duration, rounded down.
pub fn span(ms: u64) -> String {
    format!("{:02}:{:02}:{:02}", ms / HOUR, ms / MINUTE % 60, ms / SECOND % 60)
}

/// Fields of that many digits with a sign between them, and nothing else.
fn fields<const N: usize>(text: &str, sign: char, widths: [usize; N]) -> Option<[u64; N]> {
    let (mut values, mut parts) = ([0; N], text.split(sign));
    for (value, width) in values.iter_mut().zip(widths) {
        let part = parts.next().filter(|p| p.len() == width && p.bytes().all(|b| b.is_ascii_digit()))?;
        *value = part.parse().ok()?;
    }
    parts.next().is_none().then_some(values)
}

/// The moment of `YYYY-MM-DDTHH:MM:SS`, optionally with `.mmm`.
pub fn moment(text: &str) -> Option<u64> {
    let (date, time) = text.split_once('T')?;
    let (time, part) = time.split_once('.').unwrap_or((time, "000"));
    let [year, month, day_of_month] = fields(date, '-', [4, 2, 2])?;
    let [hours, minutes, seconds] = fields(time, ':', [2, 2, 2])?;
    let [part] = fields(part, '.', [3])?;
    let day = day(Date { year, month, day: day_of_month }).ok()?;
    let within = hours < 24 && minutes < 60 && seconds < 60;
    within.then_some(day.0 * DAY + hours * HOUR + minutes * MINUTE + seconds * SECOND + part)
}

#[cfg(test)]
mod tests {
    use super::*;

    #[test]
    fn there_and_back() {
        for text_ in ["1963-01-13T18:42:36.297", "1950-01-01T00:00:00.000", "2049-12-31T23:59:59.999", "2000-02-29T12:00:00.001"] {
            assert_eq!(text(moment(text_).unwrap()), text_);
        }
        assert_eq!(moment("1963-01-13T18:42:36.297"), Some(411_331_356_297));
        assert_eq!(moment("1963-01-14T02:10:00"), Some(411_358_200_000));
        assert_eq!(text(END), END.to_string());
        assert_eq!(span(31 * MINUTE + 999), "00:31:00");
    }

    #[test]
    fn other_texts_are_none() {
        let texts = [
            "", "02:10:00", "1963-01-14", "1963-01-14T", "1963-01-14T2:10:00", "1963-01-14T02:10", "1963-01-14T24:00:00",
            "1963-01-14T02:60:00", "1963-01-14T02:10:60", "1963-02-29T00:00:00", "1949-12-31T00:00:00", "1963-01-14T02:10:00Z",
            "1963-01-14T02:10:00.", "1963-01-14T02:10:00.1", "1963-01-14T02:10:00.1234", "+963-01-14T02:10:00", " 1963-01-14T02:10:00",
        ];
        for text in texts {
            assert_eq!(moment(text), None, "{text}");
        }
    }
}
