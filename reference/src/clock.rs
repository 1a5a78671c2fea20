//! Times: seconds since 2000 began in UTC, years and their days, and the period TTTT.

use std::ops::RangeInclusive;

use crate::octets::decimal;

/// The first second after 2099.
pub const END: u32 = 3_155_760_000;

/// The years that end before it.
pub const YEARS: RangeInclusive<u32> = 2000..=2099;

const DAY: u32 = 86_400;
const DAYS: [i64; 12] = [31, 28, 31, 30, 31, 30, 31, 31, 30, 31, 30, 31];

/// The instant that `YYYY-MM-DDThh:mm:ss+zh:zm` names, if it lies in 2000 to 2099 UTC.
pub fn instant(time: &[u8; 25]) -> Option<u32> {
    let number = |from: usize, to: usize| decimal(&time[from..to]).map(i64::from);
    let marks = [(4, b'-'), (7, b'-'), (10, b'T'), (13, b':'), (16, b':'), (22, b':')];
    if marks.iter().any(|(at, mark)| time[*at] != *mark) {
        return None;
    }
    let sign = match time[19] {
        b'+' => 1,
        b'-' => -1,
        _ => return None,
    };
    let days = days_since_2000(number(0, 4)?, number(5, 7)?, number(8, 10)?)?;
    let (hour, minute, second) = (number(11, 13)?, number(14, 16)?, number(17, 19)?);
    let (zone_hour, zone_minute) = (number(20, 22)?, number(23, 25)?);
    if hour > 23 || minute > 59 || second > 59 || zone_hour > 14 || zone_minute > 59 {
        return None;
    }
    let local = days * i64::from(DAY) + hour * 3600 + minute * 60 + second;
    let utc = local - sign * (zone_hour * 60 + zone_minute) * 60;
    u32::try_from(utc).ok().filter(|seconds| *seconds < END)
}

/// Days from 2000-01-01 to a real date.
fn days_since_2000(year: i64, month: i64, day: i64) -> Option<i64> {
    let leap = is_leap(year);
    if !(1..=12).contains(&month) || day < 1 {
        return None;
    }
    let before = &DAYS[..month as usize - 1];
    let in_month = DAYS[month as usize - 1] + i64::from(leap && month == 2);
    if day > in_month {
        return None;
    }
    let leap_day = i64::from(leap && month > 2);
    Some(days_to_year(year) - days_to_year(2000) + before.iter().sum::<i64>() + leap_day + day - 1)
}

fn is_leap(year: i64) -> bool {
    year % 4 == 0 && (year % 100 != 0 || year % 400 == 0)
}

/// Days before a year began, counted from some day that is the same for all years.
fn days_to_year(year: i64) -> i64 {
    let past = year - 1;
    365 * year + past.div_euclid(4) - past.div_euclid(100) + past.div_euclid(400)
}

/// The year of an instant and its day of the year, in UTC. In 2000 to 2099 every fourth year is
/// a leap year, and the first of four.
fn year_and_day(instant: u32) -> (u32, u32) {
    let (fours, in_four_years) = (instant / DAY / 1461, instant / DAY % 1461);
    let (year, day) = match in_four_years.checked_sub(366) {
        None => (0, in_four_years),
        Some(after_first) => (1 + after_first / 365, after_first % 365),
    };
    (2000 + fours * 4 + year, day + 1)
}

/// The year of an instant, in UTC.
pub fn year(instant: u32) -> u32 {
    year_and_day(instant).0
}

/// Whether a year has a day of this number.
pub fn has_day(year: u32, day: u32) -> bool {
    (1..=365 + u32::from(is_leap(year.into()))).contains(&day)
}

/// Day of the year, hour and minute.
#[derive(Clone, Copy, Debug, PartialEq, Eq)]
pub struct Moment {
    pub day: u32,
    pub hour: u32,
    pub minute: u32,
}

impl Moment {
    pub fn of(instant: u32) -> Moment {
        let (_, day) = year_and_day(instant);
        Moment { day, hour: instant / 3600 % 24, minute: instant / 60 % 60 }
    }
}

/// Minutes that TTTT says for so many seconds, at least 1.
pub fn period(seconds: u32) -> u32 {
    let minutes =
        if seconds <= 2700 { seconds.div_ceil(900) * 15 } else { seconds.div_ceil(1800) * 30 };
    minutes.min(LONGEST_PERIOD)
}

const LONGEST_PERIOD: u32 = 99 * 60 + 30;

/// Whether TTTT can say so many minutes.
pub fn is_period(minutes: u32) -> bool {
    matches!(minutes, 15 | 30 | 45) || (60..=LONGEST_PERIOD).contains(&minutes) && minutes % 30 == 0
}

#[cfg(test)]
mod tests {
    use super::*;

    fn moment(time: &[u8; 25]) -> Option<(u32, u32, u32)> {
        let found = Moment::of(instant(time)?);
        Some((found.day, found.hour, found.minute))
    }

    #[test]
    fn periods_are_rounded_up() {
        let table = [
            (1, 15),
            (900, 15),
            (901, 30),
            (1800, 30),
            (1801, 45),
            (2700, 45),
            (2701, 60),
            (3600, 60),
            (3601, 90),
            (356_400, 5940),
            (356_401, 5970),
            (358_200, 5970),
            (358_201, 5970),
            (u32::MAX, 5970),
        ];
        for (seconds, minutes) in table {
            assert_eq!(period(seconds), minutes, "the period of {seconds} seconds");
        }
    }

    #[test]
    fn moments_are_those_of_utc() {
        assert_eq!(moment(b"2012-12-31T23:30:00-01:00"), Some((1, 0, 30)));
        assert_eq!(moment(b"2012-12-31T18:00:00-00:00"), Some((366, 18, 0)));
        assert_eq!(moment(b"2010-04-05T14:00:30-04:00"), Some((95, 18, 0)));
        assert_eq!(moment(b"2099-12-31T23:59:59+00:00"), Some((365, 23, 59)));
        assert_eq!(moment(b"2000-03-01T00:00:00+00:00"), Some((61, 0, 0)));
    }

    #[test]
    fn dates_are_real() {
        assert_eq!(instant(b"2011-02-29T00:00:00+00:00"), None);
        assert_eq!(instant(b"2012-02-30T00:00:00+00:00"), None);
        assert_eq!(instant(b"2012-04-31T00:00:00+00:00"), None);
        assert_eq!(instant(b"2012-00-01T00:00:00+00:00"), None);
        assert_eq!(instant(b"2012-13-01T00:00:00+00:00"), None);
        assert_eq!(instant(b"2012-01-00T00:00:00+00:00"), None);
        assert_eq!(instant(b"2012-02-29T24:00:00+00:00"), None);
        assert_eq!(instant(b"2012-02-29T23:00:60+00:00"), None);
        assert!(instant(b"2012-02-29T23:59:59+14:59").is_some());
        assert_eq!(instant(b"2012-02-29T23:59:59+15:00"), None);
    }

    #[test]
    fn instants_lie_in_the_hundred_years() {
        assert_eq!(instant(b"2000-01-01T00:00:00+00:00"), Some(0));
        assert_eq!(instant(b"1999-12-31T23:00:00-01:00"), Some(0));
        assert_eq!(instant(b"2000-01-01T00:30:00+01:00"), None);
        assert_eq!(instant(b"2099-12-31T23:59:59+00:00"), Some(END - 1));
        assert_eq!(instant(b"2100-01-01T00:00:00+00:01"), Some(END - 60));
        assert_eq!(instant(b"2100-01-01T00:00:00+00:00"), None);
        assert_eq!(instant(b"0000-01-01T00:00:00+00:00"), None);
        assert_eq!(instant(b"9999-12-31T00:00:00+00:00"), None);
    }

    #[test]
    fn every_day_of_the_hundred_years_counts_on() {
        let mut instant = 0;
        for year in 2000..2100 {
            let length = 365 + u32::from(is_leap(year));
            for day in 1..=length {
                assert_eq!(Moment::of(instant).day, day, "in {year}");
                assert_eq!(i64::from(super::year(instant)), year, "on day {day}");
                assert_eq!(i64::from(super::year(instant + DAY - 1)), year, "on day {day}");
                instant += DAY;
            }
        }
        assert_eq!(instant, END);
    }

    #[test]
    fn years_are_those_of_utc() {
        let year = |time| instant(time).map(super::year);
        assert_eq!(year(b"2012-12-31T23:30:00-01:00"), Some(2013));
        assert_eq!(year(b"2013-01-01T00:30:00+01:00"), Some(2012));
        assert_eq!(year(b"2100-01-01T00:30:00+01:00"), Some(2099));
        assert_eq!(year(b"1999-12-31T23:30:00-01:00"), Some(2000));
    }

    #[test]
    fn leap_years_alone_have_a_day_366() {
        for (year, has_it) in
            [(2000, true), (2012, true), (2096, true), (2011, false), (2099, false)]
        {
            assert_eq!(has_day(year, 366), has_it, "{year}");
            assert!(has_day(year, 1) && has_day(year, 365));
            assert!(!has_day(year, 0) && !has_day(year, 367));
        }
    }

    #[test]
    fn periods_of_headers() {
        let said = |minutes| is_period(minutes);
        assert!(said(15) && said(30) && said(45) && said(60) && said(90) && said(5970));
        assert!(!said(0) && !said(14) && !said(16) && !said(75) && !said(6000) && !said(5971));
    }
}
