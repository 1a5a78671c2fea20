//! The answer to one case line.

#[path = "hex.rs"]
mod hex;
#[path = "lent.rs"]
mod lent;

use self::hex::{from_hex, to_hex};
use self::lent::{byte_pattern, Lent};
use reference::{
    hand_out, list, offer, program, read_header, write_header, Parts, Refusal, Row, Worded, LINES,
    RECORD,
};

const LONGEST_LINE: usize = 200_000;
const LARGEST_CAP: u32 = 65_280;
const MOST_DIGITS: usize = 9;

/// The answer to a case line; `?` where the line is none.
pub fn answer(line: &[u8]) -> String {
    let fields: Vec<&[u8]> = line.split(|b| *b == b' ').collect();
    let (call, fields) = fields.split_first().expect("A split has a first field.");
    let answer = match *call {
        _ if line.len() > LONGEST_LINE => None,
        b"header" => answer_header(fields),
        b"text" => answer_text(fields),
        b"canadian" => answer_canadian(fields),
        b"offer" => answer_offer(fields),
        b"handout" => answer_hand_out(fields),
        b"list" => answer_list(fields),
        b"read" => answer_read(fields),
        b"write" => answer_write(fields),
        b"program" => answer_program(fields),
        _ => None,
    };
    answer.unwrap_or_else(|| "?".to_string())
}

fn answer_header(fields: &[&[u8]]) -> Option<String> {
    let [message, station, header] = fields else {
        return None;
    };
    let (message, station) = (from_hex(message)?, from_hex(station)?);
    let mut header = Lent::pattern(cap(header)?, byte_pattern);
    let outcome = reference::header(&message, &station, header.items());
    let done = outcome.unwrap_or_default();
    let Refusal { number, field } = refusal(outcome);
    let header = to_hex(header.answer(done.header));
    Some(format!("{number} {field} {header} {}", u8::from(done.carry)))
}

fn answer_text(fields: &[&[u8]]) -> Option<String> {
    let [message, station, caps @ ..] = fields else {
        return None;
    };
    let (message, station) = (from_hex(message)?, from_hex(station)?);
    answer_worded(caps, |text, uri| reference::text(&message, &station, text, uri))
}

fn answer_canadian(fields: &[&[u8]]) -> Option<String> {
    let [message, caps @ ..] = fields else {
        return None;
    };
    let message = from_hex(message)?;
    answer_worded(caps, |text, uri| reference::canadian(&message, text, uri))
}

/// The answer of a call that gives text and audio, by the lengths of its outputs.
fn answer_worded(
    caps: &[&[u8]],
    call: impl FnOnce(&mut [u8], &mut [u8]) -> Result<Worded, Refusal>,
) -> Option<String> {
    let [text, uri] = caps else {
        return None;
    };
    let mut text = Lent::pattern(cap(text)?, byte_pattern);
    let mut uri = Lent::pattern(cap(uri)?, byte_pattern);
    let outcome = call(text.items(), uri.items());
    let done = outcome.unwrap_or_default();
    let Refusal { number, field } = refusal(outcome);
    Some(format!(
        "{number} {field} {} {} {}",
        done.audio as u8,
        to_hex(uri.answer(done.uri)),
        to_hex(text.answer(done.text)),
    ))
}

fn answer_offer(fields: &[&[u8]]) -> Option<String> {
    let [board, message] = fields else {
        return None;
    };
    let before = from_hex(board)?;
    let message = from_hex(message)?;
    let mut board = Lent::new(&before, byte_pattern);
    let outcome = offer(board.items(), &message);
    let added = outcome.unwrap_or(0);
    let Refusal { number, field } = refusal(outcome);
    let after = board.answer(if added > 0 { before.len() } else { 0 }).to_vec();
    check_growth(&before, &after, added);
    let after = if added > 0 { after } else { before };
    Some(format!("{number} {field} {added} {}", to_hex(&after)))
}

fn answer_hand_out(fields: &[&[u8]]) -> Option<String> {
    let [board] = fields else {
        return None;
    };
    let before = from_hex(board)?;
    let mut board = Lent::new(&before, byte_pattern);
    let outcome = hand_out(board.items());
    let Refusal { number, .. } = refusal(outcome);
    let index = outcome.unwrap_or(0);
    let changed = if number == 0 { before.len() } else { 0 };
    let after = board.answer(changed).to_vec();
    check_growth(&before, &after, usize::from(number == 0));
    let after = if number == 0 { after } else { before };
    Some(format!("{number} {index} {}", to_hex(&after)))
}

/// A call that adds records makes the board hold so many more, and keeps those it held.
fn check_growth(before: &[u8], after: &[u8], added: usize) {
    if added == 0 {
        return;
    }
    let filled = |board: &[u8]| board.chunks(RECORD).filter(|record| record[0] != 0).count();
    assert_eq!(filled(after), filled(before) + added, "The board did not grow by what was added.");
    let kept = before
        .chunks(RECORD)
        .filter(|record| record[0] != 0)
        .all(|record| after.chunks(RECORD).any(|other| other == record));
    assert!(kept, "The call lost a record of the board.");
}

fn answer_list(fields: &[&[u8]]) -> Option<String> {
    let [board, rows] = fields else {
        return None;
    };
    let board = from_hex(board)?;
    let row_pattern = |place: usize| Row { index: place * 7 + 1000, count: place * 3 + 2000 };
    let mut rows = Lent::pattern(cap(rows)?, row_pattern);
    let outcome = list(&board, rows.items());
    let Refusal { number, .. } = refusal(outcome);
    let count = outcome.unwrap_or(0);
    let rows = rows.answer(count).iter().map(|row| format!("{}:{}", row.index, row.count));
    Some(format!("{number} {count} {}", joined(&rows.collect::<Vec<_>>())))
}

fn answer_read(fields: &[&[u8]]) -> Option<String> {
    let [header] = fields else {
        return None;
    };
    let header = from_hex(header)?;
    let Ok(parts) = read_header(&header) else {
        return Some("17 - - - 0 0 0 0 -".to_string());
    };
    let mut again = Lent::pattern(reference::HEADER, byte_pattern);
    let length = write_header(&parts, again.items());
    assert_eq!(length, Ok(header.len()), "A header that was read could not be written.");
    assert_eq!(again.answer(header.len()), header, "A header was written differently.");
    let codes = parts.locations.split(|b| *b == b'-').map(text).collect::<Vec<_>>();
    Some(format!(
        "0 {} {} {} {} {} {} {} {}",
        text(parts.originator),
        text(parts.event),
        joined(&codes),
        parts.period,
        parts.day,
        parts.hour,
        parts.minute,
        to_hex(parts.station),
    ))
}

fn answer_write(fields: &[&[u8]]) -> Option<String> {
    let [originator, event, locations, period, day, hour, minute, station, out] = fields else {
        return None;
    };
    if [originator, event, locations].iter().any(|field| field.is_empty()) {
        return None;
    }
    let station = from_hex(station)?;
    let locations = dashed(locations);
    let parts = Parts {
        originator: or_empty(originator),
        event: or_empty(event),
        locations: &locations,
        period: number(period)?,
        day: number(day)?,
        hour: number(hour)?,
        minute: number(minute)?,
        station: &station,
    };
    let mut out = Lent::pattern(cap(out)?, byte_pattern);
    let outcome = write_header(&parts, out.items());
    let Refusal { number, .. } = refusal(outcome);
    Some(format!("{number} {}", to_hex(out.answer(outcome.unwrap_or(0)))))
}

fn answer_program(fields: &[&[u8]]) -> Option<String> {
    let [message] = fields else {
        return None;
    };
    let mut lines = [0; LINES];
    let length = program(&from_hex(message)?, &mut lines);
    Some(to_hex(&lines[..length]))
}

/// The refusal of an outcome; number 0 where there is none.
fn refusal<T>(outcome: Result<T, Refusal>) -> Refusal {
    outcome.err().unwrap_or(Refusal { number: 0, field: 0 })
}

/// Codes joined by commas, joined by dashes; a dash inside a code becomes what no code has.
fn dashed(locations: &[u8]) -> Vec<u8> {
    let swap = |b: &u8| match b {
        b',' => b'-',
        b'-' => b',',
        other => *other,
    };
    or_empty(locations).iter().map(swap).collect()
}

fn or_empty(field: &[u8]) -> &[u8] {
    if field == b"-" {
        b""
    } else {
        field
    }
}

fn number(field: &[u8]) -> Option<u32> {
    let digits = !field.is_empty() && field.iter().all(u8::is_ascii_digit);
    if !digits || field.len() > MOST_DIGITS {
        return None;
    }
    std::str::from_utf8(field).ok()?.parse().ok()
}

fn cap(field: &[u8]) -> Option<usize> {
    number(field).filter(|cap| *cap <= LARGEST_CAP).map(|cap| cap as usize)
}

fn text(bytes: &[u8]) -> String {
    String::from_utf8_lossy(bytes).into_owned()
}

fn joined(items: &[String]) -> String {
    if items.is_empty() {
        return "-".to_string();
    }
    items.join(",")
}
