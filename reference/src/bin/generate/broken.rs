//! Boards that break a rule.

use crate::chance::Chance;
use crate::records::{header_length, put, put_year, World};
use crate::records::{HEADER, IDENTIFIER, SENDER, SENT, TAIL, YEAR};
use crate::times::{year_length, year_of, END};
use reference::{MOST_RECORDS, RECORD};

const BREAKS: usize = 35;

/// A board that breaks a rule, each rule in its turn.
pub fn broken_board(turn: usize, chance: &mut Chance) -> Vec<u8> {
    let world = World::small(chance);
    let mut board = [1, 2, 3].map(|kind| world.of_kind(kind, chance)).concat();
    board.resize((3 + chance.below(3)) * RECORD, 0);
    let end = board.len();
    match turn % BREAKS {
        0 => board.clear(),
        1 => board.truncate(chance.pick(&[1, 383, 385, 767, 769])),
        2 => board.resize((MOST_RECORDS + 1) * RECORD, 0),
        3 => board.push(0),
        4 => board.truncate(end - 1),
        5 => board.resize(6 * RECORD, 1 + chance.below(255) as u8),
        6 => board[3 * RECORD..].reverse(),
        7 => board.extend(vec![0; 2 * RECORD - 1].iter().chain(&[chance.pick(b"\x01\x03Z")])),
        8 => board[..2 * RECORD].rotate_left(RECORD),
        9 => board[RECORD..3 * RECORD].rotate_left(RECORD),
        10 => board.copy_within(..RECORD, RECORD),
        11 => board[..RECORD].fill(0),
        12 => board[RECORD..2 * RECORD].fill(0),
        13 => {
            let place = chance.below(3 * RECORD);
            board[place] = chance.pick(b"\x00\x01\x02\x03-+,09AZaz~ \xff");
        }
        other => break_records(other - 14, &mut board, chance),
    }
    board
}

/// Breaks one of a notice, a withdrawal and an aired record.
fn break_records(turn: usize, board: &mut [u8], chance: &mut Chance) {
    let (notice, rest) = board.split_at_mut(RECORD);
    let (withdrawal, rest) = rest.split_at_mut(RECORD);
    let aired = &mut rest[..RECORD];
    let keyed = if chance.once_in(2) { &mut *notice } else { &mut *withdrawal };
    match turn {
        0 => keyed[0] = chance.pick(&[0, 4, 255]),
        1 => break_sent(keyed, chance),
        2 => break_word(keyed, SENDER, chance),
        3 => break_word(keyed, IDENTIFIER, chance),
        4 | 5 => break_header(notice, chance),
        6 | 7 => break_header(aired, chance),
        8 => withdrawal[HEADER + chance.below(243)] = chance.pick(b"Z\x01"),
        9 => aired[SENT + chance.below(132)] = chance.pick(b"a\x01"),
        10 => keyed[YEAR + chance.below(8)] = 1 + chance.below(255) as u8,
        // Another minute than that of its sent.
        11 => notice[HEADER + header_length(notice) - 2] ^= 1,
        12 => put_year(aired, 0),
        13 => put_year(aired, 1999),
        14 => put_year(aired, 2100),
        15 => aired[YEAR..TAIL].reverse(),
        16 => break_day(aired, chance),
        17 => aired[TAIL + chance.below(6)] = 1 + chance.below(255) as u8,
        18 => put_year(notice, year_of(sent(notice))),
        19 => put_year(withdrawal, year_of(sent(withdrawal))),
        // Another kind, with a sent alone.
        _ => {
            aired.fill(0);
            aired[0] = 4;
            aired[SENT..SENDER].copy_from_slice(&notice[SENT..SENDER]);
        }
    }
}

fn sent(record: &[u8]) -> i64 {
    record[SENT..SENDER].iter().fold(0, |number, b| number << 8 | i64::from(*b))
}

/// Makes an aired record one of day 366 in a year that most often has no such day.
fn break_day(aired: &mut [u8], chance: &mut Chance) {
    put(aired, HEADER + header_length(aired) - 8, "366");
    let year = chance.between(2000, 2099);
    put_year(aired, if year_length(year) == 366 { chance.pick(&[year, year + 1]) } else { year });
}

fn break_sent(record: &mut [u8], chance: &mut Chance) {
    let sent = chance.pick(&[END as u32, END as u32 + 1, u32::MAX, END as u32 - 1]);
    record[SENT..SENDER].copy_from_slice(&sent.to_be_bytes());
}

fn break_word(record: &mut [u8], at: usize, chance: &mut Chance) {
    match chance.below(6) {
        0 => record[at..at + 64].fill(0),
        1 => record[at] = 0,
        2 => record[at + 10 + chance.below(54)] = b'a',
        3 => record[at + 63] = b'z',
        4 => record[at + 1..at + 3].copy_from_slice(b"\xc3\xa9"),
        _ => record[at + chance.below(2)] = chance.pick(b",<& \x7f\x1f\x80\xff!~;="),
    }
}

fn break_header(record: &mut [u8], chance: &mut Chance) {
    let end = header_length(record);
    match chance.below(6) {
        0 => record[HEADER..YEAR].fill(0),
        1 => record[HEADER + end - 1] = 0,
        2 if end < 243 => {
            record[HEADER + end + chance.below(243 - end)] = chance.pick(b"-A\x01");
        }
        3 => record[HEADER + 5] = b'X',
        _ => record[HEADER + chance.below(end)] = chance.pick(b"-+09AZaz \x00\xff"),
    }
}
