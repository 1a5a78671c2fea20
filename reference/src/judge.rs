//! Judges a message, the lowest number that applies: 4 to 9 in every mode, 10 to 14 in the
//! American one.

use crate::alert::{Alert, Info, Leaf};
use crate::clock::{instant, period, Moment};
use crate::header::Parts;
use crate::refusal::Refusal;
use crate::value::{Value, Word};

const LONGEST_MESSAGE: usize = 32_768;
const MOST_REFERENCES: usize = 16;

const STATUSES: [&[u8]; 5] = [b"Actual", b"Exercise", b"System", b"Test", b"Draft"];
const KINDS: [&[u8]; 5] = [b"Alert", b"Update", b"Cancel", b"Ack", b"Error"];
const SCOPES: [&[u8]; 3] = [b"Public", b"Restricted", b"Private"];

const ACTUAL: usize = 0;
const PUBLIC: usize = 0;
const ALERT: usize = 0;
const CANCEL: usize = 2;
const ACK: usize = 3;

/// Who sent a message and when.
#[derive(Clone, Copy)]
pub struct Identity {
    pub sender: Word,
    pub identifier: Word,
    pub sent: u32,
}

/// What a message that is taken asks for.
pub struct Judged<'a> {
    pub identity: Identity,
    /// What an Update or Cancel refers to, known to be well formed.
    references: Option<Value<'a>>,
    /// None for a quiet Cancel.
    pub activation: Option<Activation<'a>>,
}

impl<'a> Judged<'a> {
    pub fn references(&self) -> impl Iterator<Item = Identity> + 'a {
        self.references.map(References::of).into_iter().flatten().flatten()
    }
}

pub struct Activation<'a> {
    pub info: Info<'a>,
    originator: [u8; 3],
    event: [u8; 3],
    period: u32,
    moment: Moment,
}

impl Activation<'_> {
    pub fn parts<'b>(&'b self, station: &'b [u8]) -> Parts<'b> {
        Parts {
            originator: &self.originator,
            event: &self.event,
            locations: self.info.locations.joined(),
            period: self.period,
            day: self.moment.day,
            hour: self.moment.hour,
            minute: self.moment.minute,
            station,
        }
    }
}

/// Numbers 4 to 9: what is read in a message, and the leaves that every message has.
pub fn judge_alert(message: &[u8]) -> Result<(Alert<'_>, Leaves), Refusal> {
    if message.is_empty() || message.len() > LONGEST_MESSAGE {
        return Err(Refusal::LENGTH);
    }
    let alert = Alert::read(message).map_err(|_| Refusal::SUBSET)?;
    if !alert.root {
        return Err(Refusal::ROOT);
    }
    let leaves = judge_leaves(&alert)?;
    if leaves.status != ACTUAL || leaves.scope != PUBLIC {
        return Err(Refusal::STATUS_OR_SCOPE);
    }
    if leaves.kind >= ACK {
        return Err(Refusal::ACK_OR_ERROR);
    }
    Ok((alert, leaves))
}

/// Numbers 4 to 14.
pub fn judge(message: &[u8]) -> Result<Judged<'_>, Refusal> {
    let (alert, leaves) = judge_alert(message)?;
    let references = if leaves.kind == ALERT {
        None
    } else {
        Some(judge_references(&alert.references).ok_or(Refusal::REFERENCES)?)
    };
    let activation = if leaves.kind == CANCEL && is_quiet(&alert.selected) {
        None
    } else {
        Some(judge_info(alert.selected, leaves.identity.sent)?)
    };
    Ok(Judged { identity: leaves.identity, references, activation })
}

/// The leaves that every message has; status, kind and scope as places in their lists.
pub struct Leaves {
    identity: Identity,
    status: usize,
    kind: usize,
    scope: usize,
}

/// Number 7: the field is the lowest of 1 to 6 at fault, else 7.
fn judge_leaves(alert: &Alert) -> Result<Leaves, Refusal> {
    let info_fault = alert.selected.as_ref().is_some_and(|info| info.is_at_fault());
    let identifier = word(&alert.identifier).ok_or(Refusal::leaf(1))?;
    let sender = word(&alert.sender).ok_or(Refusal::leaf(2))?;
    let sent = time(&alert.sent).ok_or(Refusal::leaf(3))?;
    let status = one_of(&alert.status, &STATUSES).ok_or(Refusal::leaf(4))?;
    let kind = one_of(&alert.msg_type, &KINDS).ok_or(Refusal::leaf(5))?;
    let scope = one_of(&alert.scope, &SCOPES).ok_or(Refusal::leaf(6))?;
    if alert.language_fault || info_fault {
        return Err(Refusal::leaf(7));
    }
    Ok(Leaves { identity: Identity { sender, identifier, sent }, status, kind, scope })
}

fn word(leaf: &Leaf) -> Option<Word> {
    let (word, stop) = Word::take(&mut leaf.once()?);
    (stop.is_none() && !word.is_empty()).then_some(word)
}

fn time(leaf: &Leaf) -> Option<u32> {
    instant(&leaf.once()?.exactly()?)
}

fn one_of(leaf: &Leaf, values: &[&[u8]]) -> Option<usize> {
    let value = leaf.once()?;
    values.iter().position(|known| value.is(known))
}

/// The value of references that are 1 to 16 groups.
fn judge_references<'a>(leaf: &Leaf<'a>) -> Option<Value<'a>> {
    let value = leaf.once()?;
    let mut count = 0;
    for group in References::of(value) {
        group?;
        count += 1;
        if count > MOST_REFERENCES {
            return None;
        }
    }
    (count > 0).then_some(value)
}

/// Groups `sender,identifier,sent` parted by space; None for one that is malformed, with
/// which they end.
struct References<'a> {
    rest: Option<Value<'a>>,
}

impl<'a> References<'a> {
    fn of(value: Value<'a>) -> References<'a> {
        References { rest: (!value.is_empty()).then_some(value) }
    }

    fn group(&mut self, value: &mut Value<'a>) -> Option<Identity> {
        let sender = Self::word(value)?;
        let identifier = Self::word(value)?;
        let sent = instant(&value.next_ascii()?)?;
        match value.next() {
            None => {}
            Some(' ') => self.rest = Some(*value),
            Some(_) => return None,
        }
        Some(Identity { sender, identifier, sent })
    }

    fn word(value: &mut Value) -> Option<Word> {
        let (word, stop) = Word::take(value);
        (stop == Some(',') && !word.is_empty()).then_some(word)
    }
}

impl Iterator for References<'_> {
    type Item = Option<Identity>;

    fn next(&mut self) -> Option<Option<Identity>> {
        let mut value = self.rest.take()?;
        Some(self.group(&mut value))
    }
}

/// Whether a Cancel with this selected info is quiet.
fn is_quiet(selected: &Option<Info>) -> bool {
    selected
        .as_ref()
        .is_none_or(|info| info.events == 0 || !info.has_location() || info.expires.is_absent())
}

/// Numbers 11 to 14.
fn judge_info(selected: Option<Info>, sent: u32) -> Result<Activation, Refusal> {
    let info = selected.ok_or(Refusal::EVENT)?;
    if info.events != 1 {
        return Err(Refusal::EVENT);
    }
    let event = info.event.ok_or(Refusal::EVENT)?;
    let originator = info.originator().ok_or(Refusal::ORIGINATOR)?;
    if info.malformed_location || !info.has_location() {
        return Err(Refusal::LOCATION);
    }
    let expires = time(&info.expires).ok_or(Refusal::EXPIRES)?;
    if expires <= sent {
        return Err(Refusal::EXPIRES);
    }
    let moment = Moment::of(sent);
    Ok(Activation { info, originator, event, period: period(expires - sent), moment })
}
