//! Times: seconds since 2000 began in UTC, days of the year, and the period TTTT.

/// The first second after 2099.
const END: i64 = 3_155_760_000;
const DAY: i64 = 86_400;
const LONGEST_PERIOD: u32 = 99 * 60 + 30;

/// Days of a common year before each month, and at last all.
const BEFORE: [i64; 13] = [0, 31, 59, 90, 120, 151, 181, 212, 243, 273, 304, 334, 365];

/// The form of a time, `0` for a digit; the sign of the offset may be either.
const FORM: &[u8; 25] = b"0000-00-00T00:00:00+00:00";

/// The instant that a time names, if it lies in 2000 to 2099 UTC.
pub fn instant(time: &[u8]) -> Option<u32> {
    let time = <&[u8; 25]>::try_from(time).ok()?;
    if !has_form(time) {
        return None;
    }
    let two = |at: usize| i64::from(time[at] - b'0') * 10 + i64::from(time[at + 1] - b'0');
    let (hour, minute, second) = (two(11), two(14), two(17));
    let (zone_hour, zone_minute) = (two(20), two(23));
    if hour > 23 || minute > 59 || second > 59 || zone_hour > 14 || zone_minute > 59 {
        return None;
    }
    let days = days_since_2000(two(0) * 100 + two(2), two(5), two(8))?;
    let zone = (zone_hour * 60 + zone_minute) * 60;
    let offset = if time[19] == b'-' { -zone } else { zone };
    let utc = days * DAY + hour * 3600 + minute * 60 + second - offset;
    (0..END).contains(&utc).then_some(utc as u32)
}

fn has_form(time: &[u8; 25]) -> bool {
    let mut wrong = false;
    for (b, form) in time.iter().zip(FORM) {
        let digit = (*form == b'0') & b.is_ascii_digit();
        let sign = (*form == b'+') & (*b == b'-');
        wrong |= !(digit | sign | ((b == form) & (*form != b'0')));
    }
    !wrong
}

/// Days from 2000-01-01 to a real date.
fn days_since_2000(year: i64, month: i64, day: i64) -> Option<i64> {
    if !(1..=12).contains(&month) {
        return None;
    }
    let leap = year % 4 == 0 && (year % 100 != 0 || year % 400 == 0);
    let before = BEFORE[month as usize - 1];
    let length = BEFORE[month as usize] - before + i64::from(leap && month == 2);
    if !(1..=length).contains(&day) {
        return None;
    }
    let to_year = days_to_year(year) - days_to_year(2000);
    Some(to_year + before + i64::from(leap && month > 2) + day - 1)
}

/// Days before a year began, from one day on that is the same for all years.
fn days_to_year(year: i64) -> i64 {
    let past = year + 399;
    365 * year + past / 4 - past / 100 + past / 400
}

/// Day of the year, hour and minute of an instant. In 2000 to 2099 every fourth year is a leap year.
pub fn moment(instant: u32) -> (u32, u32, u32) {
    let in_four_years = instant / DAY as u32 % 1461;
    let day = if in_four_years < 366 { in_four_years } else { (in_four_years - 366) % 365 };
    (day + 1, instant / 3600 % 24, instant / 60 % 60)
}

/// Minutes that TTTT says for so many seconds, at least 1.
pub fn period(seconds: u32) -> u32 {
    let minutes =
        if seconds <= 2700 { seconds.div_ceil(900) * 15 } else { seconds.div_ceil(1800) * 30 };
    minutes.min(LONGEST_PERIOD)
}
