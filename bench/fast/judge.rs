//! Judges what was read: numbers 6 to 14, the lowest that applies.

use super::alert::Alert;
use super::clock::{instant, period};
use super::info::Info;
use super::leaf::{Leaf, Short};
use super::words::{read_words, Words};
use super::Refused;

const LONGEST_WORD: usize = 64;
const MOST_REFERENCES: usize = 16;

/// What is to be aired.
pub struct Activation<'i, 'a> {
    pub info: &'i Info<'a>,
    pub originator: [u8; 3],
    pub event: [u8; 3],
    pub period: u32,
    pub sent: u32,
    /// The long texts are those of another info.
    pub parts_of_other: bool,
}

#[derive(Clone, Copy, PartialEq)]
enum Kind {
    Alert,
    Update,
    Cancel,
    Other,
}

/// None for a quiet Cancel.
pub fn judge<'i, 'a>(alert: &'i Alert<'a>) -> Result<Option<Activation<'i, 'a>>, Refused> {
    if !alert.is_alert {
        return Err(Refused::with(6));
    }
    let leaves = judge_leaves(alert).map_err(|field| Refused { number: 7, field })?;
    if !leaves.is_actual || !leaves.is_public {
        return Err(Refused::with(8));
    }
    if leaves.kind == Kind::Other {
        return Err(Refused::with(9));
    }
    if leaves.kind != Kind::Alert && !are_references(&alert.references) {
        return Err(Refused::with(10));
    }
    let selected = alert.selected.as_ref();
    if leaves.kind == Kind::Cancel && selected.is_none_or(is_quiet) {
        return Ok(None);
    }
    let info = selected.ok_or(Refused::with(11))?;
    judge_info(info, leaves.sent, alert.parts_of_other).map(Some).map_err(Refused::with)
}

/// What the leaves that every message has say.
struct Leaves {
    sent: u32,
    is_actual: bool,
    kind: Kind,
    is_public: bool,
}

/// The lowest field of 1 to 6 at fault, else 7.
fn judge_leaves(alert: &Alert) -> Result<Leaves, u8> {
    if !is_once_word(&alert.identifier) {
        return Err(1);
    }
    if !is_once_word(&alert.sender) {
        return Err(2);
    }
    let sent = time(&alert.sent).ok_or(3)?;
    let is_actual = actual(&alert.status).ok_or(4)?;
    let kind = kind(&alert.msg_type).ok_or(5)?;
    let is_public = public(&alert.scope).ok_or(6)?;
    if alert.language_fault || alert.selected.as_ref().is_some_and(Info::is_at_fault) {
        return Err(7);
    }
    Ok(Leaves { sent, is_actual, kind, is_public })
}

fn is_once_word(leaf: &Leaf) -> bool {
    leaf.is_once() && is_word(leaf.word(&mut Short::new()))
}

fn is_word(bytes: &[u8]) -> bool {
    let mut wrong = false;
    for b in bytes {
        wrong |= (b.wrapping_sub(33) > 93) | (*b == b',') | (*b == b'<') | (*b == b'&');
    }
    !wrong && (1..=LONGEST_WORD).contains(&bytes.len())
}

fn time(leaf: &Leaf) -> Option<u32> {
    if !leaf.is_once() {
        return None;
    }
    instant(leaf.word(&mut Short::new()))
}

fn actual(leaf: &Leaf) -> Option<bool> {
    match leaf.word(&mut Short::new()) {
        _ if !leaf.is_once() => None,
        b"Actual" => Some(true),
        b"Exercise" | b"System" | b"Test" | b"Draft" => Some(false),
        _ => None,
    }
}

fn kind(leaf: &Leaf) -> Option<Kind> {
    match leaf.word(&mut Short::new()) {
        _ if !leaf.is_once() => None,
        b"Alert" => Some(Kind::Alert),
        b"Update" => Some(Kind::Update),
        b"Cancel" => Some(Kind::Cancel),
        b"Ack" | b"Error" => Some(Kind::Other),
        _ => None,
    }
}

fn public(leaf: &Leaf) -> Option<bool> {
    match leaf.word(&mut Short::new()) {
        _ if !leaf.is_once() => None,
        b"Public" => Some(true),
        b"Restricted" | b"Private" => Some(false),
        _ => None,
    }
}

/// Whether references are 1 to 16 groups.
fn are_references(leaf: &Leaf) -> bool {
    if !leaf.is_once() {
        return false;
    }
    if !leaf.marked {
        return are_groups(leaf.content);
    }
    // Sixteen of the longest groups have 2,495 bytes.
    let mut words = Words::<2560>::new();
    read_words(leaf.content, &mut words);
    !words.is_full() && are_groups(words.value())
}

fn are_groups(value: &[u8]) -> bool {
    let mut count = 0;
    for group in value.split(u8::is_ascii_whitespace).filter(|group| !group.is_empty()) {
        count += 1;
        if count > MOST_REFERENCES || !is_group(group) {
            return false;
        }
    }
    count > 0
}

/// Whether bytes are `sender,identifier,sent`.
fn is_group(group: &[u8]) -> bool {
    let mut parts = group.splitn(3, |b| *b == b',');
    let mut next = || parts.next().unwrap_or_default();
    is_word(next()) && is_word(next()) && instant(next()).is_some()
}

fn is_quiet(info: &Info) -> bool {
    info.events == 0 || !info.has_location() || info.expires.count == 0
}

/// Numbers 11 to 14.
fn judge_info<'i, 'a>(
    info: &'i Info<'a>,
    sent: u32,
    parts_of_other: bool,
) -> Result<Activation<'i, 'a>, u8> {
    let event = info.event.filter(|_| info.events == 1).ok_or(11)?;
    let originator = originator(info).ok_or(12)?;
    if info.malformed_location || !info.has_location() {
        return Err(13);
    }
    let expires = time(&info.expires).filter(|expires| *expires > sent).ok_or(14)?;
    let period = period(expires - sent);
    Ok(Activation { info, originator, event, period, sent, parts_of_other })
}

/// The originator that EAS-ORG gives, CIV without one.
fn originator(info: &Info) -> Option<[u8; 3]> {
    let Some(leaf) = &info.originator else {
        return Some(*b"CIV");
    };
    let mut room = Short::new();
    match leaf.word(&mut room) {
        b"PEP" => Some(*b"PEP"),
        b"EAS" => Some(*b"EAS"),
        b"WXR" => Some(*b"WXR"),
        b"CIV" => Some(*b"CIV"),
        _ => None,
    }
}
