//! The alert text.

use crate::alert::Info;
use crate::header::Parts;
use crate::octets::Output;
use crate::value::Value;

/// The most characters of a text.
pub const LONGEST_TEXT: usize = 1800;

/// The most bytes of a text, for which the lent output must have room.
pub const TEXT: usize = 4 * LONGEST_TEXT;

const LONGEST_SENDER_NAME: usize = 200;
const MARK: &[u8] = b"***";

/// Writes the text of an activation.
pub fn put_text(parts: &Parts, info: &Info, text: &mut Output) {
    put_sentence(parts, text);
    match info.eas_text {
        Some(value) if !value.is_empty() => {
            text.put(b" ");
            let room = LONGEST_TEXT - text.characters();
            text.put_each(value.take(room));
        }
        _ => put_own_words(info, text),
    }
}

fn put_sentence(parts: &Parts, text: &mut Output) {
    text.put(originator_words(parts.originator));
    text.put(b" issued ");
    put_event(parts.event, text);
    text.put(b" for locations ");
    for (place, code) in parts.locations.split(|b| *b == b'-').enumerate() {
        if place > 0 {
            text.put(b", ");
        }
        text.put(code);
    }
    text.put(b", valid from ");
    text.put_number(parts.hour, 2);
    text.put(b":");
    text.put_number(parts.minute, 2);
    text.put(b" UTC on day ");
    text.put_number(parts.day, 3);
    text.put(b" for ");
    text.put_number(parts.period / 60, 2);
    text.put(b" hours ");
    text.put_number(parts.period % 60, 2);
    text.put(b" minutes.");
}

fn originator_words(originator: &[u8]) -> &'static [u8] {
    match originator {
        b"PEP" => b"Primary Entry Point System",
        b"EAS" => b"Broadcast station or cable system",
        b"WXR" => b"National Weather Service",
        _ => b"Civil authorities",
    }
}

fn put_event(event: &[u8], text: &mut Output) {
    let words: &[u8] = match event {
        b"EAN" => b"Emergency Action Notification",
        b"RMT" => b"Required Monthly Test",
        b"RWT" => b"Required Weekly Test",
        b"CEM" => b"Civil Emergency Message",
        b"FFW" => b"Flash Flood Warning",
        b"TOR" => b"Tornado Warning",
        _ => {
            text.put(b"event ");
            event
        }
    };
    text.put(words);
}

/// Sender phrase, description and instruction.
fn put_own_words(info: &Info, text: &mut Output) {
    let sender_name = info.sender_name.value();
    if !sender_name.is_empty() {
        text.put(b" Message from ");
        text.put_each(sender_name.take(LONGEST_SENDER_NAME));
        text.put(b".");
    }
    let (description, instruction) = (info.description.value(), info.instruction.value());
    // A part of 1,800 and one still longer are cut alike.
    let length = |part: Value| part.take(LONGEST_TEXT).count();
    let (d, i) = (length(description), length(instruction));
    let spaces = usize::from(d > 0) + usize::from(i > 0);
    let room = LONGEST_TEXT - text.characters() - spaces;
    let (for_description, for_instruction) = allotments(room, d, i);
    put_part(description, d, for_description, text);
    put_part(instruction, i, for_instruction, text);
}

/// How many characters of the room a description and an instruction of these lengths get.
fn allotments(room: usize, description: usize, instruction: usize) -> (usize, usize) {
    let half = room / 2;
    if description + instruction <= room {
        (description, instruction)
    } else if instruction <= half {
        (room - instruction, instruction)
    } else if description <= half {
        (description, room - description)
    } else {
        (half, room - half)
    }
}

/// A space and a part, cut with a mark where it is longer than its allotment.
fn put_part(part: Value, length: usize, allotment: usize, text: &mut Output) {
    if length == 0 {
        return;
    }
    text.put(b" ");
    if length <= allotment {
        text.put_each(part);
    } else {
        text.put_each(part.take(allotment - MARK.len()));
        text.put(MARK);
    }
}

#[cfg(test)]
mod tests {
    use super::allotments;

    #[test]
    fn parts_that_fit_get_their_length() {
        assert_eq!(allotments(1000, 0, 0), (0, 0));
        assert_eq!(allotments(1000, 600, 400), (600, 400));
        assert_eq!(allotments(1000, 1000, 0), (1000, 0));
    }

    #[test]
    fn one_part_alone_gets_all() {
        assert_eq!(allotments(1000, 1001, 0), (1000, 0));
        assert_eq!(allotments(1000, 0, 1001), (0, 1000));
    }

    #[test]
    fn of_two_the_shorter_is_spared() {
        assert_eq!(allotments(1001, 900, 500), (501, 500));
        assert_eq!(allotments(1001, 500, 900), (500, 501));
        assert_eq!(allotments(1001, 501, 501), (500, 501));
        assert_eq!(allotments(1000, 501, 500), (500, 500));
        assert_eq!(allotments(1000, 9000, 9000), (500, 500));
    }
}
