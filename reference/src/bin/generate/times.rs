//! Times as messages and headers write them.

pub const END: i64 = 3_155_760_000;

const DAY: i64 = 86_400;

/// How many days a year has.
pub fn year_length(year: i64) -> i64 {
    let leap = year % 4 == 0 && (year % 100 != 0 || year % 400 == 0);
    365 + i64::from(leap)
}

/// Year and day of the year, from 0, of a day counted from 2000-01-01.
fn year_and_day(mut day: i64) -> (i64, i64) {
    let mut year = 2000;
    while day < 0 {
        year -= 1;
        day += year_length(year);
    }
    while day >= year_length(year) {
        day -= year_length(year);
        year += 1;
    }
    (year, day)
}

/// The UTC instant of a day of a year, from 1, and a second of that day.
pub fn instant(year: i64, day: i64, second: i64) -> i64 {
    let days: i64 = (2000..year).map(year_length).sum();
    (days + day - 1) * DAY + second
}

/// The year of a UTC instant.
pub fn year_of(utc: i64) -> i64 {
    year_and_day(utc.div_euclid(DAY)).0
}

/// A UTC instant with the same day of the year and the same time in another year near it, of 2000
/// to 2099.
pub fn in_another_year(utc: i64) -> i64 {
    let (year, day) = year_and_day(utc.div_euclid(DAY));
    let has_it = |other: &i64| (2000..2100).contains(other) && day < year_length(*other);
    let other = [year + 1, year - 1, year + 4, year - 4].into_iter().find(has_it).unwrap_or(year);
    instant(other, day + 1, utc.rem_euclid(DAY))
}

/// The time of a UTC instant, in seconds since 2000, in a zone of so many minutes.
pub fn time_text(utc: i64, zone: i64) -> String {
    let local = utc + zone * 60;
    let (year, mut day) = year_and_day(local.div_euclid(DAY));
    let february = year_length(year) - 337;
    let mut month = 0;
    for length in [31, february, 31, 30, 31, 30, 31, 31, 30, 31, 30, 31] {
        if day < length {
            break;
        }
        day -= length;
        month += 1;
    }
    let second = local.rem_euclid(DAY);
    format!(
        "{year:04}-{:02}-{:02}T{:02}:{:02}:{:02}{}",
        month + 1,
        day + 1,
        second / 3600,
        second / 60 % 60,
        second % 60,
        zone_text(zone)
    )
}

fn zone_text(zone: i64) -> String {
    let sign = if zone < 0 { '-' } else { '+' };
    format!("{sign}{:02}:{:02}", zone.abs() / 60, zone.abs() % 60)
}

/// JJJHHMM of an instant.
pub fn moment_text(utc: i64) -> String {
    let (_, day) = year_and_day(utc.div_euclid(DAY));
    let second = utc.rem_euclid(DAY);
    format!("{:03}{:02}{:02}", day + 1, second / 3600, second / 60 % 60)
}
