//! When a packet was captured.

use std::fmt;

/// A time since the beginning of 1970, in UTC.
#[derive(Clone, Copy, Debug, PartialEq, Eq, PartialOrd, Ord)]
pub struct Time {
    nanoseconds: i128,
}

const SECOND: i128 = 1_000_000_000;
const DAY: i128 = 86_400;

impl Time {
    /// So many seconds, and so many parts of a second beside them, of which `parts` make one.
    pub fn new(seconds: u64, part: u64, parts: u64) -> Time {
        let beside = i128::from(part) * SECOND / i128::from(parts.max(1));
        Time {
            nanoseconds: i128::from(seconds) * SECOND + beside,
        }
    }

    /// So many units, of which `units` make a second, and seconds beside them.
    pub fn units(count: u64, units: u64, seconds: i64) -> Time {
        let time = Time::new(0, count, units);
        Time {
            nanoseconds: time.nanoseconds + i128::from(seconds) * SECOND,
        }
    }

    /// The seconds since an earlier time, with six digits behind the point.
    pub fn since(self, earlier: Time) -> String {
        let apart = self.nanoseconds - earlier.nanoseconds;
        let sign = if apart < 0 { "-" } else { "" };
        let micros = apart.abs() / 1_000;
        format!("{sign}{}.{:06}", micros / 1_000_000, micros % 1_000_000)
    }
}

/// The date and the time of day, in UTC.
impl fmt::Display for Time {
    fn fmt(&self, f: &mut fmt::Formatter) -> fmt::Result {
        let seconds = self.nanoseconds.div_euclid(SECOND);
        let micros = self.nanoseconds.rem_euclid(SECOND) / 1_000;
        let (year, month, day) = date(seconds.div_euclid(DAY));
        let of_day = seconds.rem_euclid(DAY);
        let (hour, minute, second) = (of_day / 3_600, of_day / 60 % 60, of_day % 60);
        write!(f, "{year:04}-{month:02}-{day:02} ")?;
        write!(f, "{hour:02}:{minute:02}:{second:02}.{micros:06} UTC")
    }
}

/// Year, month and day of the day that comes so many days after the first of January 1970. Years are counted
/// from March, so that the day that comes every four years is a year's last; 400 years have 146,097 days.
fn date(days: i128) -> (i128, i128, i128) {
    let days = days + 719_468; // from the first of March of the year 0
    let (era, day) = (days.div_euclid(146_097), days.rem_euclid(146_097));
    let year = (day - day / 1_460 + day / 36_524 - day / 146_096) / 365;
    let of_year = day - (365 * year + year / 4 - year / 100);
    let month = (5 * of_year + 2) / 153;
    let of_month = of_year - (153 * month + 2) / 5 + 1;
    let month = if month < 10 { month + 3 } else { month - 9 };
    let year = year + 400 * era + i128::from(month <= 2);
    (year, month, of_month)
}

#[cfg(test)]
mod tests {
    use super::*;

    /// Dates as `date -u -d @seconds` has them.
    #[test]
    fn dates() {
        let shown = |seconds| Time::new(seconds, 0, 1).to_string();
        assert_eq!(shown(0), "1970-01-01 00:00:00.000000 UTC");
        assert_eq!(shown(951_782_400), "2000-02-29 00:00:00.000000 UTC");
        assert_eq!(shown(951_868_799), "2000-02-29 23:59:59.000000 UTC");
        assert_eq!(shown(4_107_542_399), "2100-02-28 23:59:59.000000 UTC");
        assert_eq!(shown(4_107_542_400), "2100-03-01 00:00:00.000000 UTC");
        assert_eq!(shown(1_795_000_000), "2026-11-18 11:06:40.000000 UTC");
    }

    #[test]
    fn parts_of_a_second() {
        let first = Time::new(10, 999_999, 1_000_000);
        let second = Time::new(11, 1_000, 1_000_000_000);
        assert_eq!(second.since(first), "0.000002");
        assert_eq!(first.since(second), "-0.000002");
        assert_eq!(Time::units(3 << 20, 1 << 20, 7), Time::new(10, 0, 1));
        assert_eq!(first.to_string(), "1970-01-01 00:00:10.999999 UTC");
    }
}
