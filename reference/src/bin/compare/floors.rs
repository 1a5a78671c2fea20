//! The calls, and how often each number that a call can give and each kind of its cases and
//! answers must have been compared.

#[path = "kinds.rs"]
mod kinds;

use std::collections::BTreeMap;
use std::fmt::Display;

use self::kinds::boards::NewYear::{Before, Behind};
use self::kinds::boards::{NOTICE, WITHDRAWAL};
use self::kinds::{number_in, Seen};

/// How many of 1,000 answers of a call. Each is about half of what the generator makes; of a kind
/// that several calls share, half of what it makes of that call which has the fewest.
type Floor = usize;

/// What is seen in a case and its answer, and whether it is.
type Kind = (&'static str, Floor, fn(&Seen) -> bool);

struct Call {
    name: &'static str,
    numbers: &'static [(u32, Floor)],
    kinds: &'static [Kind],
    /// Those that other calls have too.
    shared: &'static [Kind],
}

impl Call {
    fn all_kinds(&self) -> impl Iterator<Item = &'static Kind> {
        self.kinds.iter().chain(self.shared)
    }
}

/// Numbers and kinds of the conversion, whose two calls are asked of the same messages.
#[rustfmt::skip]
const CONVERTED: &[(u32, Floor)] = &[
    (0, 333), (2, 19), (3, 10), (4, 7), (5, 71), (6, 12), (7, 64), (8, 5), (9, 4), (10, 13),
    (11, 13), (12, 9), (13, 7), (14, 10),
];
#[rustfmt::skip]
const CONVERSIONS: &[Kind] = &[
    ("a quiet Cancel", 15, |seen| seen.is_quiet()),
    ("a quiet Cancel refused for an output", 2, |seen| seen.refuses_quiet()),
    ("an output refused beside a station that is none", 4, |seen| seen.refuses_output_first()),
    ("a station refused beside a message that would be", 4, |seen| seen.refuses_station_first()),
    ("malformed UTF-8 refused", 19, |seen| seen.is_malformed()),
    ("a declaration of characters that XML does not have", 3, |seen| seen.takes_odd()),
    ("number 7 for a character outside the value's range", 10, |seen| seen.refuses_wide(7)),
    ("number 10 for a character outside the value's range", 3, |seen| seen.refuses_wide(10)),
    ("number 11 for a character outside the value's range", 3, |seen| seen.refuses_wide(11)),
    ("number 12 for a character outside the value's range", 5, |seen| seen.refuses_wide(12)),
    ("number 13 for a character outside the value's range", 2, |seen| seen.refuses_wide(13)),
    ("number 14 for a character outside the value's range", 3, |seen| seen.refuses_wide(14)),
];

/// Kinds of boards; what is refused is refused for this alone.
const BOARDS: &[Kind] = &[
    ("an aired record without a year refused", 1, |seen| seen.refuses_year(0)),
    ("an aired record of 1999 refused", 1, |seen| seen.refuses_year(1999)),
    ("an aired record of 2000 taken", 6, |seen| seen.takes_year(2000)),
    ("an aired record of 2099 taken", 3, |seen| seen.takes_year(2099)),
    ("an aired record of 2100 refused", 1, |seen| seen.refuses_year(2100)),
    ("a year of exchanged bytes refused", 2, |seen| seen.refuses_exchanged()),
    ("an aired record of day 366 refused", 1, |seen| seen.refuses_day_366()),
    ("an aired record of day 366 taken", 13, |seen| seen.takes_day_366()),
    ("a byte behind a year refused", 1, |seen| seen.refuses_behind_year()),
    ("a year in a notice refused", 1, |seen| seen.refuses_year_in(NOTICE)),
    ("a year in a withdrawal refused", 1, |seen| seen.refuses_year_in(WITHDRAWAL)),
];

#[rustfmt::skip]
const CALLS: [Call; 9] = [
    Call {
        name: "header",
        numbers: CONVERTED,
        kinds: &[
            ("must-carry 0", 226, |seen| seen.has_carry("0")),
            ("must-carry 1", 6, |seen| seen.has_carry("1")),
            ("a quiet Cancel that says it must be carried", 4, |seen| seen.is_quiet_and_carried()),
            ("a header output of 251 refused", 8, |seen| seen.is_short(0, "251")),
        ],
        shared: CONVERSIONS,
    },
    Call {
        name: "text",
        numbers: CONVERTED,
        kinds: &[
            ("audio 0", 215, |seen| seen.has_audio("0")),
            ("audio 1", 5, |seen| seen.has_audio("1")),
            ("audio 2", 5, |seen| seen.has_audio("2")),
            ("audio 3", 5, |seen| seen.has_audio("3")),
            ("a quiet Cancel with a resource for audio", 2, |seen| seen.is_quiet_and_heard()),
            ("a text of 1,800 characters", 17, |seen| seen.is_full()),
            ("a text of 1,800 characters, some of several bytes", 13, |seen| seen.is_full_and_wide()),
            ("a mark behind a character of several bytes", 4, |seen| seen.marks_wide()),
            ("200 characters of a senderName, some of several bytes", 3, |seen| seen.names_wide()),
            ("a character of 2 bytes in the text", 129, |seen| seen.has_character(2)),
            ("a character of 3 bytes in the text", 63, |seen| seen.has_character(3)),
            ("a character of 4 bytes in the text", 61, |seen| seen.has_character(4)),
            ("a text of more than 1,800 bytes", 17, |seen| seen.is_longer_than(1800)),
            ("a text of more than 6,000 bytes", 2, |seen| seen.is_longer_than(6000)),
            ("a text output of 7,199 refused", 4, |seen| seen.is_short(0, "7199")),
            ("a text output of 1,800 refused", 2, |seen| seen.is_short(0, "1800")),
            ("a uri output of 1,023 refused", 4, |seen| seen.is_short(1, "1023")),
            ("audio behind a uri with a character outside its range", 6, |seen| seen.passes_uri(true)),
            ("no audio, and a uri with a character outside its range", 2, |seen| seen.passes_uri(false)),
        ],
        shared: CONVERSIONS,
    },
    Call {
        name: "canadian",
        numbers: &[
            (0, 261), (2, 21), (4, 8), (5, 76), (6, 14), (7, 71), (8, 6), (9, 4), (18, 31),
        ],
        kinds: &[
            ("a broadcastText", 65, |seen| seen.is_broadcast()),
            ("a description", 196, |seen| seen.is_described()),
            ("a text of 1,800 characters", 62, |seen| seen.is_full()),
            ("a text of 1,800 characters, some of several bytes", 44, |seen| seen.is_full_and_wide()),
            ("a space left by the cut", 14, |seen| seen.ends_in_space()),
            ("audio 0", 225, |seen| seen.has_audio("0")),
            ("audio 1", 11, |seen| seen.has_audio("1")),
            ("audio 2", 11, |seen| seen.has_audio("2")),
            ("audio 3", 12, |seen| seen.has_audio("3")),
            ("a character of 2 bytes in the text", 140, |seen| seen.has_character(2)),
            ("a character of 3 bytes in the text", 71, |seen| seen.has_character(3)),
            ("a character of 4 bytes in the text", 74, |seen| seen.has_character(4)),
            ("a text of more than 1,800 bytes", 68, |seen| seen.is_longer_than(1800)),
            ("a text of 7,200 bytes", 1, |seen| seen.is_longer_than(7199)),
            ("a text output of 7,199 refused", 4, |seen| seen.is_short(0, "7199")),
            ("a text output of 1,800 refused", 2, |seen| seen.is_short(0, "1800")),
            ("a uri output of 1,023 refused", 4, |seen| seen.is_short(1, "1023")),
            ("malformed UTF-8 refused", 21, |seen| seen.is_malformed()),
            ("audio behind a uri with a character outside its range", 10, |seen| seen.passes_uri(true)),
            ("number 7 for a character outside the value's range", 11, |seen| seen.refuses_wide(7)),
        ],
        shared: &[],
    },
    Call {
        name: "offer",
        numbers: &[
            (0, 235), (1, 49), (4, 3), (5, 20), (6, 5), (7, 30), (8, 2), (9, 2), (10, 7),
            (11, 8), (12, 4), (13, 4), (14, 6), (15, 112),
        ],
        kinds: &[
            ("characters of several bytes taken", 152, |seen| seen.takes_wide()),
            ("malformed UTF-8 refused", 5, |seen| seen.is_malformed()),
            ("number 7 for a character outside the value's range", 5, |seen| seen.refuses_wide(7)),
            ("number 10 for a character outside the value's range", 1, |seen| seen.refuses_wide(10)),
            ("a notice added whose header is held of another year", 17, |seen| seen.adds_held()),
            ("a notice added whose header is aired in another year", 7, |seen| seen.adds_aired()),
            ("a notice added just behind a new year", 14, |seen| seen.adds_near(Before)),
            ("a notice added just before a new year", 13, |seen| seen.adds_near(Behind)),
        ],
        shared: BOARDS,
    },
    Call {
        name: "handout",
        numbers: &[(0, 140), (1, 100), (15, 106), (16, 150)],
        kinds: &[
            ("a header due in two years", 11, |seen| seen.hands_out_of_two_years()),
            ("a header aired in another year", 17, |seen| seen.hands_out_aired()),
            ("a header before one of an earlier year", 17, |seen| seen.hands_out_by_header()),
            ("a header of day 366", 9, |seen| seen.hands_out_day_366()),
            ("a header just behind a new year", 20, |seen| seen.hands_out_near(Before)),
            ("a header just before a new year", 12, |seen| seen.hands_out_near(Behind)),
            ("nothing due, and a header aired in two years", 7, |seen| seen.has_aired_two_years()),
        ],
        shared: BOARDS,
    },
    Call {
        name: "list",
        numbers: &[(0, 355), (1, 53), (2, 90)],
        kinds: &[
            ("more than one row", 80, |seen| seen.has_rows()),
            ("more than one notice in a row", 37, |seen| seen.counts_several()),
            ("a header due in two years", 26, |seen| seen.lists_two_years()),
            ("a header due in two years, in one by more than one notice", 10, |seen| seen.counts_several_of_two_years()),
            ("a header aired in another year", 28, |seen| seen.lists_aired()),
            ("a header withdrawn in another year", 7, |seen| seen.lists_withdrawn()),
            ("another order than that of years, and a header due in two", 12, |seen| seen.lists_by_header() && seen.lists_two_years()),
            ("another order than that of years, each header due in one", 20, |seen| seen.lists_by_header() && !seen.lists_two_years()),
            ("rows refused that years alone make too few", 5, |seen| seen.is_short_by_years()),
        ],
        shared: BOARDS,
    },
    Call { name: "read", numbers: &[(0, 240), (17, 255)], kinds: &[], shared: &[] },
    Call { name: "write", numbers: &[(0, 210), (2, 70), (3, 55), (17, 155)], kinds: &[], shared: &[] },
    Call {
        name: "program",
        numbers: &[
            (0, 269), (4, 10), (5, 76), (6, 12), (7, 62), (8, 6), (9, 4), (10, 14), (11, 15),
            (12, 9), (13, 7), (14, 10),
        ],
        kinds: &[
            ("a character of 2 bytes in the text", 140, |seen| seen.has_character(2)),
            ("a character of 3 bytes in the text", 72, |seen| seen.has_character(3)),
            ("a character of 4 bytes in the text", 71, |seen| seen.has_character(4)),
            ("malformed UTF-8 refused", 21, |seen| seen.is_malformed()),
        ],
        shared: &[],
    },
];

fn found(name: &str) -> Option<&'static Call> {
    CALLS.iter().find(|call| call.name == name)
}

pub fn known_call(name: &str) -> Option<&'static str> {
    found(name).map(|call| call.name)
}

pub fn all_calls() -> impl Iterator<Item = &'static str> {
    CALLS.iter().map(|call| call.name)
}

/// The number in an answer to a call.
pub fn number(call: &str, answer: &str) -> Option<u32> {
    number_in(known_call(call)?, answer)
}

/// How often each call was compared, by number and by kind.
#[derive(Default)]
pub struct Counts {
    numbers: BTreeMap<(&'static str, u32), usize>,
    kinds: BTreeMap<(&'static str, &'static str), usize>,
}

impl Counts {
    /// Counts the answer to a case; says whether it is one of a call.
    pub fn add(&mut self, case: &str, answer: &str) -> bool {
        let call = case.split(' ').next().and_then(found);
        let (Some(call), Some(seen)) = (call, Seen::of(case, answer)) else {
            return false;
        };
        *self.numbers.entry((call.name, seen.number())).or_default() += 1;
        for (kind, _, is_seen) in call.all_kinds() {
            *self.kinds.entry((call.name, kind)).or_default() += usize::from(is_seen(&seen));
        }
        true
    }

    pub fn compared(&self, call: &str) -> usize {
        self.numbers.iter().filter(|((name, _), _)| *name == call).map(|(_, count)| count).sum()
    }

    /// What was counted of a call, in few lines.
    pub fn lines(&self, call: &str) -> Vec<String> {
        let by_number = joined(&self.numbers, call);
        let by_kind = joined(&self.kinds, call);
        let mut lines = vec![format!("{call}: {} compared", self.compared(call))];
        lines.extend((!by_number.is_empty()).then(|| format!("  by number  {by_number}")));
        lines.extend((!by_kind.is_empty()).then(|| format!("  with  {by_kind}")));
        lines
    }

    /// The floors of a call that were not met, in plain sentences; none where it was not compared.
    pub fn faults(&self, call: &str) -> Vec<String> {
        let compared = self.compared(call);
        let Some(call) = found(call).filter(|_| compared > 0) else {
            return Vec::new();
        };
        let count = |number| self.numbers.get(&(call.name, number)).copied().unwrap_or(0);
        let numbers =
            call.numbers.iter().map(|(n, floor)| (format!("number {n}"), *floor, count(*n)));
        let count = |kind| self.kinds.get(&(call.name, kind)).copied().unwrap_or(0);
        let kinds =
            call.all_kinds().map(|(kind, floor, _)| (kind.to_string(), *floor, count(*kind)));
        let least = |floor: Floor| (compared * floor / 1000).max(1);
        let short = numbers.chain(kinds).filter(|(_, floor, count)| *count < least(*floor));
        let sentence = |(what, floor, count)| {
            let least = least(floor);
            format!("{} was compared {count} times with {what}, not {least}.", call.name)
        };
        short.map(sentence).collect()
    }
}

fn joined<T: Display>(counts: &BTreeMap<(&str, T), usize>, call: &str) -> String {
    let of_call = counts.iter().filter(|((name, _), _)| *name == call);
    let each: Vec<String> = of_call.map(|((_, what), count)| format!("{what}: {count}")).collect();
    each.join(", ")
}
