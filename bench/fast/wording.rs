//! What an activation writes: header, uri and text.

use super::clock::moment;
use super::info::Info;
use super::judge::Activation;
use super::leaf::Leaf;
use super::output::Output;
use super::words::{read_words, Parts, WideParts, Words, ROOM, WIDE_ROOM};

/// In characters.
const LONGEST_TEXT: usize = 1800;
const LONGEST_SENDER_NAME: usize = 200;
const MARK: &[u8] = b"***";

/// Writes the header and returns its length, as the others do.
pub fn put_header(activation: &Activation, station: &[u8], out: &mut Output) -> usize {
    let (day, hour, minute) = moment(activation.sent);
    out.put(b"ZCZC-");
    out.put(&activation.originator);
    out.put(b"-");
    out.put(&activation.event);
    out.put(activation.info.locations.dashed());
    out.put(b"+");
    out.put_two(activation.period / 60);
    out.put_two(activation.period % 60);
    out.put(b"-");
    out.put_three(day);
    out.put_two(hour);
    out.put_two(minute);
    out.put(b"-");
    out.put(station);
    out.put(b"-");
    out.length()
}

pub fn put_uri(info: &Info, out: &mut Output) -> usize {
    if info.audio != 0 {
        let mut words = Words::<1056>::new();
        read_words(info.uri.content, &mut words);
        out.put(words.value());
    }
    out.length()
}

pub fn put_text(activation: &Activation, parts: &mut Parts, out: &mut Output) -> usize {
    let info = activation.info;
    put_sentence(activation, out);
    // A character of the sentence is one byte.
    let room = LONGEST_TEXT - out.length();
    if let Some(leaf) = info.text.filter(|leaf| !leaf.is_empty()) {
        if !put_value::<ROOM>(&leaf, room - 1, out) {
            put_value::<WIDE_ROOM>(&leaf, room - 1, out);
        }
        return out.length();
    }
    if activation.parts_of_other {
        read_parts(info, parts);
    }
    if parts.suffice(LONGEST_SENDER_NAME, room) {
        put_parts(parts, room, out);
    } else {
        put_wide_parts(info, room, out);
    }
    out.length()
}

/// A space and a value's first characters, so many at most, if N bytes suffice for them; says whether they do.
#[inline(never)]
fn put_value<const N: usize>(leaf: &Leaf, most: usize, out: &mut Output) -> bool {
    let mut words = Words::<N>::new();
    read_words(leaf.content, &mut words);
    let suffices = words.suffices(most);
    if suffices {
        out.put(words.spaced(most));
    }
    suffices
}

fn read_parts<const N: usize, const M: usize>(info: &Info, parts: &mut Parts<N, M>) {
    read_words(info.sender_name.content, &mut parts.sender_name);
    read_words(info.description.content, &mut parts.description);
    read_words(info.instruction.content, &mut parts.instruction);
}

/// The parts of an info, read again where they need more room than was made ready.
#[cold]
#[inline(never)]
fn put_wide_parts(info: &Info, room: usize, out: &mut Output) {
    let mut parts = WideParts::new();
    read_parts(info, &mut parts);
    put_parts(&parts, room, out);
}

fn put_sentence(activation: &Activation, out: &mut Output) {
    let (day, hour, minute) = moment(activation.sent);
    out.put(originator_words(&activation.originator));
    out.put(b" issued ");
    put_event(&activation.event, out);
    out.put(b" for locations ");
    for (place, code) in activation.info.locations.codes().enumerate() {
        if place > 0 {
            out.put(b", ");
        }
        out.put(code);
    }
    out.put(b", valid from ");
    out.put_two(hour);
    out.put(b":");
    out.put_two(minute);
    out.put(b" UTC on day ");
    out.put_three(day);
    out.put(b" for ");
    out.put_two(activation.period / 60);
    out.put(b" hours ");
    out.put_two(activation.period % 60);
    out.put(b" minutes.");
}

fn originator_words(originator: &[u8; 3]) -> &'static [u8] {
    match originator {
        b"PEP" => b"Primary Entry Point System",
        b"EAS" => b"Broadcast station or cable system",
        b"WXR" => b"National Weather Service",
        _ => b"Civil authorities",
    }
}

fn put_event(event: &[u8; 3], out: &mut Output) {
    let words: &[u8] = match event {
        b"EAN" => b"Emergency Action Notification",
        b"RMT" => b"Required Monthly Test",
        b"RWT" => b"Required Weekly Test",
        b"CEM" => b"Civil Emergency Message",
        b"FFW" => b"Flash Flood Warning",
        b"TOR" => b"Tornado Warning",
        _ => {
            out.put(b"event ");
            event
        }
    };
    out.put(words);
}

/// Sender phrase, description and instruction, so many characters at most.
fn put_parts<const N: usize, const M: usize>(parts: &Parts<N, M>, room: usize, out: &mut Output) {
    let room = room - put_sender_phrase(&parts.sender_name, out);
    let (d, i) = (parts.description.characters(), parts.instruction.characters());
    let room = room - usize::from(d > 0) - usize::from(i > 0);
    let (for_description, for_instruction) = allotments(room, d, i);
    put_part(&parts.description, for_description, out);
    put_part(&parts.instruction, for_instruction, out);
}

/// Puts the sender phrase, if there is one, and says how many characters it has.
fn put_sender_phrase<const N: usize>(name: &Words<N>, out: &mut Output) -> usize {
    let characters = name.characters().min(LONGEST_SENDER_NAME);
    if characters == 0 {
        return 0;
    }
    out.put(b" Message from");
    out.put(name.spaced(characters));
    out.put(b".");
    " Message from .".len() + characters
}

/// How much of the room a description and an instruction of these lengths get.
fn allotments(room: usize, description: usize, instruction: usize) -> (usize, usize) {
    let half = room / 2;
    if description + instruction <= room {
        (description, instruction)
    } else if instruction <= half {
        (room - instruction, instruction)
    } else if description <= half {
        (description, room - description)
    } else {
        (half, room - half)
    }
}

/// A space and a part, cut with a mark where it is longer than its allotment.
fn put_part<const N: usize>(part: &Words<N>, allotment: usize, out: &mut Output) {
    let characters = part.characters();
    if characters == 0 {
        return;
    }
    if characters <= allotment {
        out.put(part.spaced(characters));
    } else {
        out.put(part.spaced(allotment - MARK.len()));
        out.put(MARK);
    }
}
