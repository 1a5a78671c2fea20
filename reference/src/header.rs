//! The header `ZCZC-ORG-EEE-PSSCCC+TTTT-JJJHHMM-LLLLLLLL-`.

use crate::clock::is_period;
use crate::octets::{decimal, Output};
use crate::refusal::Refusal;

/// The most bytes of a header, for which the lent output must have room.
pub const HEADER: usize = 252;

const STATION: usize = 8;
const CODE: usize = 6;
const MOST_LOCATIONS: usize = 31;

/// The longest front: a header through the dash after JJJHHMM.
pub const FRONT: usize = HEADER - STATION - 1;

/// What a header says. Locations are codes joined by dashes, the period is in minutes.
#[derive(Clone, Copy, Debug, PartialEq, Eq)]
pub struct Parts<'a> {
    pub originator: &'a [u8],
    pub event: &'a [u8],
    pub locations: &'a [u8],
    pub period: u32,
    pub day: u32,
    pub hour: u32,
    pub minute: u32,
    pub station: &'a [u8],
}

/// Locations in the form of a header's parts, the first 31 of those that are added.
#[derive(Clone, Copy)]
pub struct Locations {
    joined: [u8; MOST_LOCATIONS * (CODE + 1) - 1],
    length: usize,
}

impl Locations {
    pub const NONE: Locations =
        Locations { joined: [0; MOST_LOCATIONS * (CODE + 1) - 1], length: 0 };

    pub fn joined(&self) -> &[u8] {
        &self.joined[..self.length]
    }

    pub fn add(&mut self, code: &[u8; CODE]) {
        if self.length == self.joined.len() {
            return;
        }
        if self.length > 0 {
            self.joined[self.length] = b'-';
            self.length += 1;
        }
        self.joined[self.length..self.length + CODE].copy_from_slice(code);
        self.length += CODE;
    }
}

/// Reads a header; 17 where it is none.
pub fn read_header(header: &[u8]) -> Result<Parts<'_>, Refusal> {
    read_parts(header).ok_or(Refusal::NO_HEADER)
}

fn read_parts(header: &[u8]) -> Option<Parts<'_>> {
    let end = header.len().checked_sub(STATION + 1)?;
    let (front, station) = header.split_at(end);
    let station = station.strip_suffix(b"-")?;
    if !is_station(station) {
        return None;
    }
    Some(Parts { station, ..read_front(front)? })
}

/// The parts in a front, the station left empty.
pub fn read_front(front: &[u8]) -> Option<Parts<'_>> {
    let rest = front.strip_prefix(b"ZCZC-")?;
    let (originator, rest) = rest.split_at_checked(3)?;
    let (event, rest) = rest.strip_prefix(b"-")?.split_at_checked(3)?;
    let rest = rest.strip_prefix(b"-")?;
    let (locations, rest) = rest.split_at_checked(rest.len().checked_sub(14)?)?;
    let [b'+', period @ .., b'-', _, _, _, _, _, _, _, b'-'] = rest else {
        return None;
    };
    let parts = Parts {
        originator,
        event,
        locations,
        period: decimal(&period[..2])? * 60 + decimal(&period[2..])?,
        day: decimal(&rest[6..9])?,
        hour: decimal(&rest[9..11])?,
        minute: decimal(&rest[11..13])?,
        station: b"",
    };
    // Minutes above 59 could make a period of another spelling.
    let spelled = decimal(&period[2..])? < 60;
    (spelled && is_front(&parts)).then_some(parts)
}

/// Writes the header of some parts and returns its length; 2, 3 or 17.
pub fn write_header(parts: &Parts, out: &mut [u8]) -> Result<usize, Refusal> {
    if out.len() < HEADER {
        return Err(Refusal::OUTPUT);
    }
    if !is_station(parts.station) {
        return Err(Refusal::STATION);
    }
    if !is_front(parts) {
        return Err(Refusal::NO_HEADER);
    }
    Ok(put_header(parts, out))
}

/// Writes the header of parts that are known to have one.
pub fn put_header(parts: &Parts, out: &mut [u8]) -> usize {
    let mut out = Output::on(out);
    put_front(parts, &mut out);
    out.put(parts.station);
    out.put(b"-");
    out.length()
}

pub fn put_front(parts: &Parts, out: &mut Output) {
    out.put(b"ZCZC-");
    out.put(parts.originator);
    out.put(b"-");
    out.put(parts.event);
    out.put(b"-");
    out.put(parts.locations);
    out.put(b"+");
    out.put_number(parts.period / 60, 2);
    out.put_number(parts.period % 60, 2);
    out.put(b"-");
    out.put_number(parts.day, 3);
    out.put_number(parts.hour, 2);
    out.put_number(parts.minute, 2);
    out.put(b"-");
}

/// Whether some header has these parts, the station aside.
fn is_front(parts: &Parts) -> bool {
    is_originator(parts.originator)
        && is_event(parts.event)
        && are_locations(parts.locations)
        && is_period(parts.period)
        && (1..=366).contains(&parts.day)
        && parts.hour <= 23
        && parts.minute <= 59
}

pub fn is_originator(text: &[u8]) -> bool {
    matches!(text, b"PEP" | b"EAS" | b"WXR" | b"CIV")
}

pub fn is_event(text: &[u8]) -> bool {
    text.len() == 3 && text.iter().all(u8::is_ascii_uppercase)
}

fn are_locations(joined: &[u8]) -> bool {
    joined.len() < MOST_LOCATIONS * (CODE + 1)
        && joined
            .split(|b| *b == b'-')
            .all(|code| code.len() == CODE && code.iter().all(u8::is_ascii_digit))
}

pub fn is_station(station: &[u8]) -> bool {
    station.len() == STATION
        && station.iter().all(|b| matches!(b, 32..=126) && !matches!(b, b'-' | b'+'))
}

#[cfg(test)]
mod tests {
    use super::*;

    #[test]
    fn what_is_read_is_written_again() {
        let header = b"ZCZC-WXR-TOR-024031-124031-024031+9930-3662359- ~BENCH.-";
        let parts = read_header(header).unwrap();
        assert_eq!(parts.locations, b"024031-124031-024031");
        assert_eq!((parts.period, parts.day, parts.hour, parts.minute), (5970, 366, 23, 59));
        let mut out = [0; HEADER];
        assert_eq!(write_header(&parts, &mut out), Ok(header.len()));
        assert_eq!(&out[..header.len()], header);
    }

    #[test]
    fn periods_have_one_spelling() {
        for period in ["0060", "0090", "0160", "9990", "0000", "0046", "0115"] {
            let header = format!("ZCZC-CIV-CEM-024031+{period}-0951800-BENCH/01-");
            assert_eq!(read_header(header.as_bytes()), Err(Refusal::NO_HEADER));
        }
    }

    #[test]
    fn locations_stop_at_31() {
        let mut locations = Locations::NONE;
        for _ in 0..40 {
            locations.add(b"024031");
        }
        assert!(are_locations(locations.joined()));
        assert_eq!(locations.joined().len(), 31 * 7 - 1);
        let mut longer = locations.joined().to_vec();
        longer.extend(b"-024031");
        assert!(!are_locations(&longer));
        assert!(!are_locations(b""));
    }
}
