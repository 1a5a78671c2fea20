//! Cases of boards: offers, hand-outs and lists, in chains on one board and on made ones.

use crate::broken::broken_board;
use crate::chance::Chance;
use crate::draft::Draft;
use crate::hex::to_hex;
use crate::messages::{refused_message, sound_message, written};
use crate::records::{put_odd_year, World};
use crate::times::{in_another_year, instant, time_text};
use reference::{hand_out, list, offer, Row, MOST_RECORDS, RECORD};

/// One board, and the messages that are offered to it in some order, some of them again.
pub struct Chain {
    board: Vec<u8>,
    messages: Vec<Vec<u8>>,
    left: usize,
}

impl Chain {
    pub fn new(chance: &mut Chance) -> Chain {
        let records = chance.pick(&[1, 2, 4, 6, 8, 12, 16, 20, 30]);
        let mut messages = Vec::new();
        for _ in 0..=chance.below(3) {
            add_related(&mut messages, chance);
        }
        Chain { board: vec![0; records * RECORD], messages, left: 5 + chance.below(20) }
    }

    fn turn(&mut self, chance: &mut Chance) {
        if self.left == 0 {
            *self = Chain::new(chance);
        }
        self.left -= 1;
    }

    fn offer(&mut self, chance: &mut Chance) -> String {
        self.turn(chance);
        let message = &self.messages[chance.below(self.messages.len())];
        let line = offer_line(&self.board, message);
        let _ = offer(&mut self.board, message);
        line
    }

    fn hand_out(&mut self, chance: &mut Chance) -> String {
        self.turn(chance);
        let line = format!("handout {}", to_hex(&self.board));
        let _ = hand_out(&mut self.board);
        line
    }

    /// A board with something on it, most often after another call.
    fn board(&mut self, chance: &mut Chance) -> Vec<u8> {
        self.turn(chance);
        match chance.below(4) {
            0 if self.board[0] != 0 => {}
            1 if self.board[0] != 0 => drop(hand_out(&mut self.board)),
            _ => {
                let message = &self.messages[chance.below(self.messages.len())];
                let _ = offer(&mut self.board, message);
            }
        }
        self.board.clone()
    }
}

fn offer_line(board: &[u8], message: &[u8]) -> String {
    format!("offer {} {}", to_hex(board), to_hex(message))
}

/// A message and some that concern it: the same header or identity again, the same header in
/// another year, an Update, a Cancel that may come before it, one that withdraws itself.
fn add_related(messages: &mut Vec<Vec<u8>>, chance: &mut Chance) {
    let mut first = Draft::alert(chance);
    if chance.once_in(3) {
        first.set_sent(near_new_year(chance), chance.pick(&[0, 60, -60, 720, -720, 899, -899]));
    }
    let lasts = chance.between(1, 20_000);
    first.expire_after(lasts, first.zone);
    let mut add =
        |draft: &Draft, chance: &mut Chance| messages.push(written(draft.clone(), chance));
    add(&first, chance);
    let zone = chance.pick(&[0, 60, -720, 899]);
    let mut same_header = first.clone();
    same_header.root.put("identifier", "again");
    same_header.set_sent(first.sent, zone);
    add(&same_header, chance);
    let mut other_year = first.clone();
    other_year.set_sent(in_another_year(first.sent), zone);
    other_year.expire_after(lasts, zone);
    add(&other_year, chance);
    let mut same_identity = first.clone();
    same_identity.event("TOR");
    add(&same_identity, chance);
    let named = first.clone().group(zone);
    let mut quiet = Draft::alert(chance);
    quiet.refer("Cancel", &named);
    quiet.root.remove_all("info");
    add(&quiet, chance);
    let mut update = first.clone();
    let later = chance.pick(&[1, 60, 3600]);
    update.set_sent(first.sent + later, first.zone);
    update.expire_after(3600, 0);
    let again = same_header.group(0);
    update.refer("Update", &[named.clone(), again, first.clone().group(0)].join(" "));
    add(&update, chance);
    let mut itself = first.clone();
    itself.root.put("identifier", "self");
    let own = itself.group(zone);
    itself.refer(chance.pick(&["Update", "Cancel"]), &own);
    add(&itself, chance);
}

/// An instant for which some zones have another year than UTC.
fn near_new_year(chance: &mut Chance) -> i64 {
    let new_year = instant(chance.between(2001, 2098), 1, 0);
    new_year + chance.pick(&[-40_000, -1800, -60, -1, 0, 59, 1800, 40_000])
}

/// An Update whose offer adds a notice and so many withdrawals.
fn many_new(count: usize, chance: &mut Chance) -> Vec<u8> {
    let mut draft = Draft::alert(chance);
    let group = |place: usize| format!("s,i{place},{}", time_text(place as i64 * 7, 0));
    let groups: Vec<String> = (0..count).map(group).collect();
    draft.refer("Update", &groups.join(" "));
    written(draft, chance)
}

pub fn offer_case(turn: usize, chain: &mut Chain, chance: &mut Chance) -> String {
    match turn % 10 {
        0..=4 => chain.offer(chance),
        5 | 6 => {
            let message = refused_message(turn / 10 * 2 + turn % 10 - 5, chance);
            offer_line(&chain.board(chance), &message)
        }
        7 => {
            let message = sound_message(chance);
            offer_line(&made_board(chance), &message)
        }
        8 => {
            let board = broken_board(turn / 10, chance);
            let message = if chance.once_in(3) { vec![] } else { sound_message(chance) };
            offer_line(&board, &message)
        }
        _ => offer_for_room(turn / 10, chance),
    }
}

/// Offers that need exactly the room there is, or one record more.
fn offer_for_room(turn: usize, chance: &mut Chance) -> String {
    if turn % 40 == 0 {
        let message = sound_message(chance);
        return offer_line(&full_board(MOST_RECORDS, &message, chance), &message);
    }
    let count = chance.pick(&[1, 2, 15, 16]);
    let message = many_new(count, chance);
    let records = count + chance.below(3);
    let mut board = vec![0; records * RECORD];
    if chance.once_in(3) {
        board = full_board(records, &message, chance);
    }
    offer_line(&board, &message)
}

/// A board of so many records, full or nearly so, that may hold the message's own.
fn full_board(records: usize, message: &[u8], chance: &mut Chance) -> Vec<u8> {
    let mut board = vec![0; records * RECORD];
    let spare = chance.below(3).min(records);
    if chance.once_in(2) {
        let _ = offer(&mut board, message);
    }
    let mut all: Vec<Vec<u8>> =
        board.chunks(RECORD).filter(|r| r[0] != 0).map(|r| r.to_vec()).collect();
    let world = World::large(chance);
    while all.len() < records - spare {
        all.push(world.record(chance));
        all.sort();
        all.dedup();
    }
    joined(all, records)
}

fn joined(mut all: Vec<Vec<u8>>, records: usize) -> Vec<u8> {
    all.sort();
    all.dedup();
    let mut board = all.concat();
    board.resize(records.max(all.len()) * RECORD, 0);
    board
}

/// A board of records from a small world, so that they concern each other. An aired record may
/// have an odd year.
fn made_board(chance: &mut Chance) -> Vec<u8> {
    let world = World::small(chance);
    let count = chance.pick(&[0, 1, 2, 4, 8, 14]);
    let mut all: Vec<Vec<u8>> = (0..count).map(|_| world.record(chance)).collect();
    if let Some(aired) = all.iter_mut().find(|r| r[0] == 3).filter(|_| chance.once_in(12)) {
        put_odd_year(aired, chance);
    }
    let records = (count + chance.below(4)).max(1);
    let mut board = joined(all, records);
    if chance.once_in(3) {
        let filled = board.chunks(RECORD).filter(|r| r[0] != 0).count();
        board.truncate(filled.max(1) * RECORD);
    }
    board
}

pub fn hand_out_case(turn: usize, chain: &mut Chain, chance: &mut Chance) -> String {
    let board = match turn % 10 {
        0..=3 => return chain.hand_out(chance),
        4..=6 => made_board(chance),
        7 | 8 => broken_board(turn / 10 * 2 + turn % 10 - 7, chance),
        _ if turn % 400 == 9 => full_board(MOST_RECORDS, b"", chance),
        _ => full_board(1 + chance.below(4), b"", chance),
    };
    format!("handout {}", to_hex(&board))
}

pub fn list_case(turn: usize, chain: &mut Chain, chance: &mut Chance) -> String {
    let board = match turn % 10 {
        0..=3 => chain.board(chance),
        4..=7 => made_board(chance),
        8 => broken_board(turn / 10, chance),
        _ if turn % 400 == 9 => full_board(MOST_RECORDS, b"", chance),
        _ => full_board(1 + chance.below(4), b"", chance),
    };
    let mut rows = [Row::default(); MOST_RECORDS];
    let due = list(&board, &mut rows).unwrap_or(0);
    let cap = match chance.below(6) {
        0 => due.saturating_sub(1),
        1 => 0,
        2 | 3 => due,
        4 => due + 1,
        _ => chance.pick(&[170, 171, 200]),
    };
    format!("list {} {cap}", to_hex(&board))
}
