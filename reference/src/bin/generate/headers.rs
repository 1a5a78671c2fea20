//! Cases of headers: read and write.

use crate::chance::Chance;
use crate::hex::to_hex;

struct Parts {
    originator: String,
    event: String,
    locations: Vec<String>,
    hours: u32,
    minutes: u32,
    day: u32,
    hour: u32,
    minute: u32,
    station: Vec<u8>,
}

/// Parts that no header has, some of them beside one that a header may have.
const ORIGINATORS: [&str; 7] = ["EAN", "civ", "XXX", "CI", "CIVX", "-", "C-V"];
const EVENTS: [&str; 7] = ["cEM", "C1M", "CE", "CEMX", "-", "@AB", "AB["];
const CODES: [&str; 7] = ["02403", "0240311", "02403A", "02403/", "02403:", "024.31", "024-31"];
const TIMES: [(u32, u32); 5] = [(23, 59), (23, 60), (24, 0), (23, 99), (99, 0)];
#[rustfmt::skip]
const PERIODS: [(u32, u32); 20] = [
    (0, 0), (0, 14), (0, 16), (0, 29), (0, 31), (0, 44), (0, 46), (0, 60), (0, 90), (1, 15),
    (1, 45), (1, 29), (1, 31), (1, 60), (99, 29), (99, 31), (99, 45), (99, 59), (99, 90), (98, 59),
];

impl Parts {
    fn sound(chance: &mut Chance) -> Parts {
        let count = chance.pick(&[1, 1, 1, 2, 3, 30, 31]);
        let (hours, minutes) = match chance.below(6) {
            0 => (0, 15),
            1 => (0, 30),
            2 => (0, 45),
            3 => (chance.pick(&[1, 99]), chance.pick(&[0, 30])),
            _ => (chance.between(1, 99) as u32, chance.pick(&[0, 30])),
        };
        Parts {
            originator: chance.pick(&["PEP", "EAS", "WXR", "CIV"]).to_string(),
            event: chance.pick(&["CEM", "AAA", "ZZZ", "TOR"]).to_string(),
            locations: (0..count).map(|_| chance.digits(6)).collect(),
            hours,
            minutes,
            day: chance.pick(&[1, 2, 95, 365, 366]),
            hour: chance.pick(&[0, 1, 18, 23]),
            minute: chance.pick(&[0, 1, 30, 59]),
            station: station(chance),
        }
    }

    fn header(&self) -> Vec<u8> {
        let front = format!(
            "ZCZC-{}-{}-{}+{:02}{:02}-{:03}{:02}{:02}-",
            self.originator,
            self.event,
            self.locations.join("-"),
            self.hours,
            self.minutes,
            self.day,
            self.hour,
            self.minute
        );
        [front.as_bytes(), &self.station, b"-"].concat()
    }

    /// Changes one part to what no header has, or to a neighbour that one may have.
    fn change(&mut self, chance: &mut Chance) {
        match chance.below(9) {
            0 => self.originator = chance.pick(&ORIGINATORS).to_string(),
            1 => self.event = chance.pick(&EVENTS).to_string(),
            2 => self.change_locations(chance),
            3 => (self.hours, self.minutes) = chance.pick(&PERIODS),
            4 => self.day = chance.pick(&[0, 1, 366, 367, 999]),
            5 => (self.hour, self.minute) = chance.pick(&TIMES),
            6 => self.minute = chance.pick(&[59, 60, 99]),
            _ => self.station = odd_station(chance),
        }
    }

    fn change_locations(&mut self, chance: &mut Chance) {
        match chance.below(5) {
            0 => self.locations.clear(),
            1 => self.locations = (0..32).map(|_| chance.digits(6)).collect(),
            2 => self.locations = (0..33).map(|_| chance.digits(6)).collect(),
            _ if self.locations.is_empty() => {}
            _ => {
                let place = chance.below(self.locations.len());
                self.locations[place] = chance.pick(&CODES).to_string();
            }
        }
    }
}

/// A station, often with bytes at the ends of their range.
pub fn station(chance: &mut Chance) -> Vec<u8> {
    if chance.once_in(2) {
        return b"BENCH/01".to_vec();
    }
    (0..8).map(|_| chance.pick(b" !*,./09AZaz~}")).collect()
}

/// A station that is none, or has a byte just inside its range.
pub fn odd_station(chance: &mut Chance) -> Vec<u8> {
    let mut station = station(chance);
    match chance.below(9) {
        0 => station.clear(),
        1 => station.truncate(7),
        2 => station.push(b'1'),
        3 => {
            station.truncate(chance.pick(&[6, 6, 7]));
            station.extend("é".bytes());
        }
        _ => {
            let place = chance.below(8);
            station[place] = chance.pick(b"-+\x1f\x7f\x80\x00 ~*,.\xff");
        }
    }
    station
}

pub fn read_case(turn: usize, chance: &mut Chance) -> String {
    let mut parts = Parts::sound(chance);
    if turn % 5 == 1 || turn % 5 == 2 {
        parts.change(chance);
    }
    let mut header = parts.header();
    if turn % 5 == 3 {
        damage_header(&mut header, chance);
    }
    format!("read {}", to_hex(&header))
}

fn damage_header(header: &mut Vec<u8>, chance: &mut Chance) {
    let place = chance.below(header.len());
    match chance.below(6) {
        0 => header.truncate(place),
        1 => {
            header.remove(place);
        }
        2 => header.insert(place, chance.pick(b"-0+ A")),
        3 => header.push(chance.pick(b"-0 \n")),
        4 => header[place] ^= 1 << chance.below(8),
        _ => header[place] = chance.pick(b"-+/0:9@AZ[ ~\x00\xff"),
    }
}

pub fn write_case(turn: usize, chance: &mut Chance) -> String {
    let mut parts = Parts::sound(chance);
    let mut out = chance.pick(&[252, 252, 253, 300, 65_280]);
    for _ in 0..chance.pick(&[[0, 1], [1, 2], [0, 1], [0, 3]])[turn % 2] {
        parts.change(chance);
    }
    if turn % 6 == 5 {
        out = chance.pick(&[0, 1, 41, 42, 250, 251, 252]);
    }
    let none = || "-".to_string();
    let locations = match &parts.locations[..] {
        [] => none(),
        some => some.join(","),
    };
    let period = match parts.minutes {
        minutes if minutes < 60 => parts.hours * 60 + minutes,
        _ => chance.pick(&[59, 61, 75, 5969, 5971, 6000, 999_999_999]),
    };
    format!(
        "write {} {} {locations} {period} {} {} {} {} {out}",
        parts.originator,
        parts.event,
        parts.day,
        parts.hour,
        parts.minute,
        to_hex(&parts.station)
    )
}
