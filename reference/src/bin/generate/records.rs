//! Records of made boards, from small worlds.

use crate::chance::Chance;
use crate::times::{instant, moment_text, year_length, year_of};
use reference::RECORD;

pub const SENT: usize = 1;
pub const SENDER: usize = 5;
pub const IDENTIFIER: usize = 69;
pub const HEADER: usize = 133;
pub const YEAR: usize = 376;
pub const TAIL: usize = 378;

/// What records are taken from: so few names, headers and instants that records concern each other,
/// the instants being the same moments in several years, so that a header comes in each of these.
pub struct World {
    names: usize,
    /// Headers through their locations.
    headers: Vec<String>,
    instants: Vec<i64>,
}

impl World {
    pub fn small(chance: &mut Chance) -> World {
        World::of(chance.pick(&[2, 3, 10]), chance)
    }

    /// One with so many names that most records differ.
    pub fn large(chance: &mut Chance) -> World {
        World::of(1_000_000, chance)
    }

    fn of(names: usize, chance: &mut Chance) -> World {
        let headers = (0..chance.pick(&[1, 2, 4, 8])).map(|_| header(chance)).collect();
        World { names, headers, instants: instants(chance) }
    }

    /// A record of one of the kinds.
    pub fn record(&self, chance: &mut Chance) -> Vec<u8> {
        self.of_kind(chance.pick(&[1, 1, 1, 2, 3]), chance)
    }

    pub fn of_kind(&self, kind: u8, chance: &mut Chance) -> Vec<u8> {
        let sent = chance.pick(&self.instants) + chance.pick(&[0, 0, 1, 59]);
        let mut record = vec![0; RECORD];
        record[0] = kind;
        if kind != 3 {
            record[SENT..SENDER].copy_from_slice(&(sent as u32).to_be_bytes());
            let sender = format!("s{}", chance.below(self.names.min(4)));
            put(&mut record, SENDER, &sender.repeat(chance.pick(&[1, 1, 1, 32])));
            put(&mut record, IDENTIFIER, &format!("i{}", chance.below(self.names)));
        }
        if kind != 2 {
            let header = &self.headers[chance.below(self.headers.len())];
            put(&mut record, HEADER, &format!("{header}+0030-{}-", moment_text(sent)));
        }
        if kind == 3 {
            put_year(&mut record, year_of(sent));
        }
        record
    }
}

fn header(chance: &mut Chance) -> String {
    let event = chance.pick(&["CEM", "TOR"]);
    let place = format!("-00000{}", chance.below(3));
    format!("ZCZC-CIV-{event}{}", place.repeat(chance.pick(&[1, 1, 1, 1, 2, 31])))
}

/// Some moments, each in the years that have its day.
fn instants(chance: &mut Chance) -> Vec<i64> {
    let years = years(chance);
    let mut instants = Vec::new();
    for _ in 0..chance.pick(&[1, 1, 2, 3]) {
        let day = chance.pick(&[1, 2, 60, 65, 95, 365, 366, 366]);
        let minute = chance.pick(&[0, 1, 720, 1439]);
        let with_it = years.iter().filter(|year| day <= year_length(**year));
        instants.extend(with_it.map(|year| instant(*year, day, minute * 60)));
    }
    if instants.is_empty() {
        instants.push(instant(years[0], 1, 0));
    }
    instants
}

/// One to three years not far from each other: often leap years four years apart, the first or the
/// last years, or 2047 and 2048, between which the high byte changes.
fn years(chance: &mut Chance) -> Vec<i64> {
    let first = match chance.below(4) {
        0 => 2000,
        1 => chance.pick(&[2044, 2047, 2095, 2096, 2098, 2099]),
        2 => 2004 + chance.between(0, 22) * 4,
        _ => chance.between(2000, 2099),
    };
    let later: &[i64] = chance.pick(&[&[0], &[0, 1], &[0, 4], &[0, 1, 2], &[0, 1, 4], &[0, 4, 8]]);
    later.iter().map(|later| first + later).filter(|year| *year < 2100).collect()
}

pub fn put(record: &mut [u8], at: usize, text: &str) {
    record[at..at + text.len()].copy_from_slice(text.as_bytes());
}

/// The length of a record's header.
pub fn header_length(record: &[u8]) -> usize {
    record[HEADER..YEAR].iter().position(|b| *b == 0).unwrap_or(YEAR - HEADER)
}

pub fn put_year(record: &mut [u8], year: i64) {
    record[YEAR..TAIL].copy_from_slice(&(year as u16).to_be_bytes());
}

/// The years at the borders, one that is none, and far ones with a byte that a year may have.
const ODD_YEARS: [i64; 9] = [0, 1999, 2000, 2099, 2100, 2010 - 256, 2010 + 256, 0x0700, 0xffff];

/// Gives an aired record another year, or exchanges the bytes of its own.
pub fn put_odd_year(aired: &mut [u8], chance: &mut Chance) {
    match chance.below(4) {
        0 => aired[YEAR..TAIL].reverse(),
        _ => put_year(aired, chance.pick(&ODD_YEARS)),
    }
}
