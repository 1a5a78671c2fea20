//! Pairs of cases: one call on two messages, of which the second is the first with other parts
//! that are not read, or with other parts that are read.

use crate::chance::Chance;
use crate::hex::{from_hex, to_hex};
use crate::read::{Parts, READ};
use crate::tree::Tree;
use crate::unread::{Change, Difference, LATER_INFO, PUT_IN, UNREAD};

/// The calls that take a message.
pub const CALLS: [&str; 5] = ["header", "text", "canadian", "offer", "program"];

/// What differs in the messages of a pair.
#[derive(Clone, Copy)]
pub enum Differing {
    Unread,
    Read,
}

impl Differing {
    pub fn named(name: &str) -> Option<Differing> {
        match name {
            "unread" => Some(Differing::Unread),
            "read" => Some(Differing::Read),
            _ => None,
        }
    }

    /// Differences of one message of a call, at places apart from each other.
    fn differences(self, call: &str, tree: &Tree, chance: &mut Chance) -> Differences {
        let mut found = Differences::default();
        match self {
            Differing::Read => {
                let (kind, make) = chance.pick(&READ);
                found.put(kind, make(tree, &Parts::of(call), chance), tree);
            }
            Differing::Unread => {
                // Few messages have a later info: it is looked for apart.
                if chance.once_in(2) {
                    found.add(&[LATER_INFO], tree, chance);
                }
                for _ in 0..=chance.below(5) {
                    found.add(&UNREAD, tree, chance);
                }
            }
        }
        found
    }
}

/// Differences that are to be made in a message, and their kinds.
#[derive(Default)]
struct Differences {
    kinds: Vec<&'static str>,
    changes: Vec<Change>,
}

impl Differences {
    /// Adds a difference of one of these kinds, if there is a place for it.
    fn add(&mut self, kinds: &[Difference], tree: &Tree, chance: &mut Chance) {
        let (kind, make) = chance.pick(kinds);
        self.put(kind, make(tree, chance), tree);
    }

    /// Puts in a change, if there is one and it is apart from the others.
    fn put(&mut self, kind: &'static str, change: Option<Change>, tree: &Tree) {
        let Some((range, bytes)) = change else {
            return;
        };
        let apart = |(other, _): &Change| other.end < range.start || range.end < other.start;
        if self.changes.iter().all(apart) && tree.message[range.clone()] != bytes {
            self.changes.push((range, bytes));
            self.kinds.push(kind);
        }
    }

    fn made_in(mut self, message: &[u8]) -> Vec<u8> {
        self.changes.sort_by_key(|(range, _)| range.start);
        let mut made = message.to_vec();
        for (range, bytes) in self.changes.into_iter().rev() {
            made.splice(range, bytes);
        }
        made
    }

    /// The kinds, each once, joined by commas.
    fn kinds(&self) -> String {
        let mut kinds = self.kinds.clone();
        kinds.sort();
        kinds.dedup();
        kinds.join(",")
    }
}

/// Whether a message has the length and is of the subset.
fn is_allowed(message: &[u8]) -> bool {
    let outcome = reference::header(message, b"BENCH/01", &mut [0; 252]);
    !outcome.is_err_and(|refusal| matches!(refusal.number, 4 | 5))
}

/// The message with up to three more comments and skipped elements, some of which will be
/// changed or taken out.
fn with_more(message: &[u8], chance: &mut Chance) -> Vec<u8> {
    let tree = Tree::of(message);
    let mut more = Differences::default();
    for _ in 0..chance.below(4) {
        more.add(&UNREAD[..PUT_IN], &tree, chance);
    }
    more.made_in(message)
}

/// The message of a call with other parts, and the kinds of difference; none where it has no place
/// for one, or where what came of it is refused with 4 or 5.
fn changed(
    call: &str,
    message: &[u8],
    differing: Differing,
    chance: &mut Chance,
) -> Option<(Vec<u8>, String)> {
    let tree = Tree::of(message);
    let differences = differing.differences(call, &tree, chance);
    let kinds = differences.kinds();
    let other = differences.made_in(message);
    if other == message || !is_allowed(&other) {
        return None;
    }
    let alike = tree.kept() == Tree::of(&other).kept();
    match differing {
        Differing::Unread => assert!(alike, "What is read differs by {kinds}."),
        Differing::Read if alike => return None,
        Differing::Read => {}
    }
    Some((other, kinds))
}

/// A line that names the kinds of difference, and two cases of one call; none where no pair can
/// be made of the case's message.
pub fn pair(case: &str, differing: Differing, chance: &mut Chance) -> Option<[String; 3]> {
    let fields: Vec<&str> = case.split(' ').collect();
    let place = if fields[0] == "offer" { 2 } else { 1 };
    let message = from_hex(fields[place].as_bytes()).filter(|message| is_allowed(message))?;
    let first = Some(with_more(&message, chance)).filter(|message| is_allowed(message))?;
    let (second, kinds) = changed(fields[0], &first, differing, chance)?;
    let asked = |message: &[u8]| {
        let (message, mut fields) = (to_hex(message), fields.clone());
        fields[place] = &message;
        fields.join(" ")
    };
    Some([format!("pair {kinds}"), asked(&first), asked(&second)])
}
