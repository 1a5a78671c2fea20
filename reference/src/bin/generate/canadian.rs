//! Edits for the Canadian mode: its text and where that is cut, what it lacks, and what is not
//! asked there.

use std::ops::RangeInclusive;

use crate::chance::Chance;
use crate::draft::{Draft, Edit};
use crate::letters::put_over;
use crate::sound::{broadcast, broadcast_text, broadcast_value, quiet, resources};
use crate::wide::{wide_canadian_cut, wide_uri};
use crate::wrong::WRONG;

#[rustfmt::skip]
pub const CANADIAN: [Edit; 15] = [
    broadcast_text, broadcast_text, long_broadcast_text, long_description, long_description,
    long_instruction, lacking, lacking_and_refused, not_asked, not_quiet, resources, resources,
    wide_canadian_cut, wide_canadian_cut, wide_uri,
];

/// Those that make texts which are cut, or nearly.
pub const CANADIAN_CUTS: [Edit; 3] = [long_broadcast_text, long_description, long_instruction];

/// A broadcastText round 1,800 characters, some with a space as the last of these.
fn long_broadcast_text(draft: &mut Draft, chance: &mut Chance) {
    let Some(info) = draft.info() else {
        return;
    };
    let length = chance.pick(&[1797, 1798, 1799, 1800, 1801, 2500]);
    let mut value = broadcast_value(length, chance);
    if length >= 1800 && chance.once_in(2) {
        put_over(&mut value, 1798, "x y");
    }
    info.add(broadcast(&value, chance));
}

/// A description round 1,800 characters, with an instruction or without: some cuts leave the space
/// between them.
fn long_description(draft: &mut Draft, chance: &mut Chance) {
    let Some(info) = draft.info() else {
        return;
    };
    let length = chance.between(1797, 1801) as usize;
    info.put("description", &chance.text(length));
    let length = chance.pick(&[1, 2, 3, 20]);
    match chance.below(6) {
        0 => info.remove_all("instruction"),
        1 => info.put("instruction", chance.pick(&["", " \n "])),
        _ => info.put("instruction", &chance.text(length)),
    }
}

/// A description and an instruction that have 1,800 characters with the space, or up to two more
/// or less.
fn long_instruction(draft: &mut Draft, chance: &mut Chance) {
    let Some(info) = draft.info() else {
        return;
    };
    let description = chance.between(1, 1796);
    let instruction = 1799 - description + chance.between(-2, 2);
    info.put("description", &chance.text(description as usize));
    info.put("instruction", &chance.text(instruction as usize));
}

/// No description or an empty one, with an instruction or without, some with a broadcastText.
fn lacking(draft: &mut Draft, chance: &mut Chance) {
    let Some(info) = draft.info() else {
        return;
    };
    match chance.below(3) {
        0 => info.remove_all("description"),
        _ => info.put("description", chance.pick(&["", " \n "])),
    }
    match chance.below(3) {
        0 => info.remove_all("instruction"),
        1 => info.put("instruction", ""),
        _ => {}
    }
    if chance.once_in(2) {
        let value = chance.pick(&["", " \n ", "B"]);
        info.add(broadcast(value, chance));
    }
}

/// An edit that is most often answered by one of these numbers.
fn wrong(numbers: RangeInclusive<u8>, chance: &mut Chance) -> Edit {
    let edits = WRONG.iter().filter(|(number, _)| numbers.contains(number));
    let edits: Vec<Edit> = edits.map(|(_, edit)| *edit).collect();
    chance.pick(&edits)
}

/// What is lacking is asked behind all else.
fn lacking_and_refused(draft: &mut Draft, chance: &mut Chance) {
    lacking(draft, chance);
    wrong(4..=9, chance)(draft, chance);
}

/// What only the American mode refuses.
fn not_asked(draft: &mut Draft, chance: &mut Chance) {
    wrong(10..=14, chance)(draft, chance);
    if chance.once_in(2) {
        broadcast_text(draft, chance);
    }
}

/// A Cancel that is quiet in the American mode only.
fn not_quiet(draft: &mut Draft, chance: &mut Chance) {
    quiet(draft, chance);
    if chance.once_in(2) {
        broadcast_text(draft, chance);
    }
}
