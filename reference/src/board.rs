//! The board: records of 384 bytes, offers, hand-outs and the list of due headers. Two headers
//! are the same only if the UTC year of sent agrees too.

use std::ops::Range;

use crate::clock::{has_day, year, Moment, END, YEARS};
use crate::header::{put_front, read_front, FRONT};
use crate::judge::{judge, Activation, Identity, Judged};
use crate::octets::Output;
use crate::refusal::Refusal;
use crate::value::is_word_byte;

pub const RECORD: usize = 384;
pub const MOST_RECORDS: usize = 170;

const NOTICE: u8 = 1;
const WITHDRAWAL: u8 = 2;
const AIRED: u8 = 3;

const SENT: Range<usize> = 1..5;
const SENDER: Range<usize> = 5..69;
const IDENTIFIER: Range<usize> = 69..133;
const FRONT_FIELD: Range<usize> = 133..133 + FRONT;
/// Of aired records alone.
const YEAR: Range<usize> = FRONT_FIELD.end..FRONT_FIELD.end + 2;
const TAIL: Range<usize> = YEAR.end..RECORD;

/// Sent, sender and identifier: what a withdrawal names.
const KEY: Range<usize> = 1..133;

/// A notice and 16 withdrawals.
const MOST_ADDED: usize = 17;

type Record = [u8; RECORD];

/// A due header: the smallest notice that makes it due, and how many carry it.
#[derive(Clone, Copy, Debug, Default, PartialEq, Eq)]
pub struct Row {
    pub index: usize,
    pub count: usize,
}

/// Offers a message to a board and returns how many records were added; 1, 4 to 15.
pub fn offer(board: &mut [u8], message: &[u8]) -> Result<usize, Refusal> {
    let filled = filled(board)?;
    let judged = judge(message)?;
    let additions = additions(&judged, &board[..filled]);
    add(board, filled, additions.records())?;
    Ok(additions.count)
}

/// Hands out the first due header and returns the smallest notice that makes it due;
/// 1, 16, 15.
pub fn hand_out(board: &mut [u8]) -> Result<usize, Refusal> {
    let filled = filled(board)?;
    let due = DueNotices::of(&board[..filled]);
    let index = *due.indices().first().ok_or(Refusal::NOTHING_DUE)?;
    let aired = aired(header_with_year(record(board, index)));
    add(board, filled, &[aired])?;
    Ok(index)
}

/// Lists the due headers in their order and returns how many there are; 1, 2.
pub fn list(board: &[u8], rows: &mut [Row]) -> Result<usize, Refusal> {
    let filled = filled(board)?;
    let due = DueNotices::of(&board[..filled]);
    let header = |index: &usize| header_with_year(record(board, *index));
    let same_header = |a: &usize, b: &usize| header(a) == header(b);
    let count = due.indices().chunk_by(same_header).count();
    if rows.len() < count {
        return Err(Refusal::OUTPUT);
    }
    for (row, notices) in rows.iter_mut().zip(due.indices().chunk_by(same_header)) {
        *row = Row { index: notices[0], count: notices.len() };
    }
    Ok(count)
}

/// The length of the filled part of a board that keeps the rules.
fn filled(board: &[u8]) -> Result<usize, Refusal> {
    if board.is_empty() || board.len() % RECORD != 0 || board.len() > MOST_RECORDS * RECORD {
        return Err(Refusal::BOARD);
    }
    let count = board.chunks_exact(RECORD).take_while(|record| record[0] != 0).count();
    let (filled, rest) = board.split_at(count * RECORD);
    let records = filled.chunks_exact(RECORD);
    if is_zero(rest) && records.clone().all(is_record) && records.is_sorted_by(|a, b| a < b) {
        Ok(filled.len())
    } else {
        Err(Refusal::BOARD)
    }
}

fn is_record(record: &[u8]) -> bool {
    is_zero(&record[TAIL])
        && match record[0] {
            NOTICE => is_key(record) && is_front_of_sent(record) && is_zero(&record[YEAR]),
            WITHDRAWAL => is_key(record) && is_zero(&record[FRONT_FIELD]) && is_zero(&record[YEAR]),
            AIRED => is_zero(&record[KEY]) && is_front_of_year(record),
            _ => false,
        }
}

fn is_key(record: &[u8]) -> bool {
    sent(record) < END && is_word(&record[SENDER]) && is_word(&record[IDENTIFIER])
}

/// Whether a notice has a front whose JJJHHMM is that of its sent.
fn is_front_of_sent(record: &[u8]) -> bool {
    let moment = Moment::of(sent(record));
    front(record) == Some(moment)
}

/// Whether an aired record has a front, and a year that has the front's day.
fn is_front_of_year(record: &[u8]) -> bool {
    let year = year_field(record);
    YEARS.contains(&year) && front(record).is_some_and(|moment| has_day(year, moment.day))
}

/// The moment in a record's front, if the front is one.
fn front(record: &[u8]) -> Option<Moment> {
    let parts = read_front(without_fill(&record[FRONT_FIELD])?)?;
    Some(Moment { day: parts.day, hour: parts.hour, minute: parts.minute })
}

fn sent(record: &[u8]) -> u32 {
    number(&record[SENT])
}

fn year_field(record: &[u8]) -> u32 {
    number(&record[YEAR])
}

/// The number in some bytes, highest byte first.
fn number(bytes: &[u8]) -> u32 {
    bytes.iter().fold(0, |number, b| number << 8 | u32::from(*b))
}

/// Whether a field holds a sender or an identifier.
fn is_word(field: &[u8]) -> bool {
    without_fill(field)
        .is_some_and(|word| !word.is_empty() && word.iter().all(|b| is_word_byte(*b)))
}

/// A field up to its zeros, if only zeros come after the first.
fn without_fill(field: &[u8]) -> Option<&[u8]> {
    let length = field.iter().position(|b| *b == 0).unwrap_or(field.len());
    is_zero(&field[length..]).then(|| &field[..length])
}

fn is_zero(bytes: &[u8]) -> bool {
    bytes.iter().all(|b| *b == 0)
}

fn record(board: &[u8], index: usize) -> &[u8] {
    &board[index * RECORD..(index + 1) * RECORD]
}

/// The header of a notice or an aired record, with its year: that of a notice's sent, that which
/// an aired record carries.
fn header_with_year(record: &[u8]) -> HeaderWithYear<'_> {
    let year = if record[0] == AIRED { year_field(record) } else { year(sent(record)) };
    HeaderWithYear { front: &record[FRONT_FIELD], year }
}

/// Ordered by header, then year.
#[derive(PartialEq, Eq, PartialOrd, Ord)]
struct HeaderWithYear<'a> {
    front: &'a [u8],
    year: u32,
}

/// New records in their order, none twice.
struct Additions {
    records: [Record; MOST_ADDED],
    count: usize,
}

impl Additions {
    fn records(&self) -> &[Record] {
        &self.records[..self.count]
    }

    /// Adds a record at its place, unless the filled records or these hold it.
    fn add(&mut self, new: Record, filled: &[u8]) {
        if filled.chunks_exact(RECORD).any(|held| held == new) {
            return;
        }
        if let Err(place) = self.records().binary_search(&new) {
            self.records.copy_within(place..self.count, place + 1);
            self.records[place] = new;
            self.count += 1;
        }
    }
}

/// What an offer must add to the filled records.
fn additions(judged: &Judged, filled: &[u8]) -> Additions {
    let mut additions = Additions { records: [[0; RECORD]; MOST_ADDED], count: 0 };
    if let Some(activation) = &judged.activation {
        additions.add(notice(&judged.identity, activation), filled);
    }
    for named in judged.references() {
        additions.add(of_kind(WITHDRAWAL, &named), filled);
    }
    additions
}

fn notice(identity: &Identity, activation: &Activation) -> Record {
    let mut record = of_kind(NOTICE, identity);
    let parts = activation.parts(b"");
    put_front(&parts, &mut Output::on(&mut record[FRONT_FIELD]));
    record
}

/// A record of a kind and an identity, its header left empty.
fn of_kind(kind: u8, identity: &Identity) -> Record {
    let mut record = [0; RECORD];
    record[0] = kind;
    record[SENT].copy_from_slice(&identity.sent.to_be_bytes());
    record[SENDER].copy_from_slice(identity.sender.filled());
    record[IDENTIFIER].copy_from_slice(identity.identifier.filled());
    record
}

fn aired(header: HeaderWithYear) -> Record {
    let mut record = [0; RECORD];
    record[0] = AIRED;
    record[FRONT_FIELD].copy_from_slice(header.front);
    record[YEAR].copy_from_slice(&header.year.to_be_bytes()[2..]);
    record
}

/// Merges new records, in order and not held, into the filled part of a board; 15.
fn add(board: &mut [u8], filled: usize, new: &[Record]) -> Result<(), Refusal> {
    let mut end = filled + new.len() * RECORD;
    if end > board.len() {
        return Err(Refusal::ROOM);
    }
    let mut held = filled;
    for record in new.iter().rev() {
        while held > 0 && board[held - RECORD..held] > record[..] {
            board.copy_within(held - RECORD..held, end - RECORD);
            held -= RECORD;
            end -= RECORD;
        }
        board[end - RECORD..end].copy_from_slice(record);
        end -= RECORD;
    }
    Ok(())
}

/// The notices that make a header due, by header with its year and then by index.
struct DueNotices {
    indices: [usize; MOST_RECORDS],
    count: usize,
}

impl DueNotices {
    fn of(filled: &[u8]) -> DueNotices {
        let mut due = DueNotices { indices: [0; MOST_RECORDS], count: 0 };
        let records = filled.chunks_exact(RECORD);
        for (index, notice) in records.enumerate().take_while(|(_, record)| record[0] == NOTICE) {
            if !is_withdrawn(notice, filled) && !is_aired(notice, filled) {
                due.indices[due.count] = index;
                due.count += 1;
            }
        }
        due.indices[..due.count]
            .sort_unstable_by_key(|index| (header_with_year(record(filled, *index)), *index));
        due
    }

    fn indices(&self) -> &[usize] {
        &self.indices[..self.count]
    }
}

fn is_withdrawn(notice: &[u8], filled: &[u8]) -> bool {
    filled.chunks_exact(RECORD).any(|record| record[0] == WITHDRAWAL && record[KEY] == notice[KEY])
}

fn is_aired(notice: &[u8], filled: &[u8]) -> bool {
    let header = header_with_year(notice);
    filled
        .chunks_exact(RECORD)
        .any(|record| record[0] == AIRED && header_with_year(record) == header)
}

#[cfg(test)]
mod tests {
    use super::*;
    use crate::clock::instant;

    const CEM: &[u8] = b"ZCZC-CIV-CEM-024031+0045-0951800-";
    const TOR: &[u8] = b"ZCZC-CIV-TOR-024031+0045-0951800-";
    const LAST_DAY: &[u8] = b"ZCZC-CIV-CEM-024031+0045-3661800-";

    const IN_2010: [u8; 2] = [0x07, 0xda];
    const IN_2011: [u8; 2] = [0x07, 0xdb];

    /// A record of a kind, of identifier I1 and sender s, its header left empty.
    fn keyed(kind: u8, time: &[u8; 25]) -> Record {
        let mut record = [0; RECORD];
        record[0] = kind;
        record[SENT].copy_from_slice(&instant(time).unwrap().to_be_bytes());
        record[SENDER.start] = b's';
        record[IDENTIFIER][..2].copy_from_slice(b"I1");
        record
    }

    fn notice(time: &[u8; 25], front: &[u8]) -> Record {
        let mut record = keyed(NOTICE, time);
        record[FRONT_FIELD][..front.len()].copy_from_slice(front);
        record
    }

    fn aired(front: &[u8], year: [u8; 2]) -> Record {
        let mut record = [0; RECORD];
        record[0] = AIRED;
        record[FRONT_FIELD][..front.len()].copy_from_slice(front);
        record[YEAR].copy_from_slice(&year);
        record
    }

    fn rows(board: &[u8]) -> Result<Vec<(usize, usize)>, Refusal> {
        let mut rows = [Row::default(); MOST_RECORDS];
        let count = list(board, &mut rows)?;
        Ok(rows[..count].iter().map(|row| (row.index, row.count)).collect())
    }

    fn is_refused(record: Record) -> bool {
        rows(&record) == Err(Refusal::BOARD)
    }

    /// The record that a hand-out puts behind these, of which none is greater.
    fn handed_out(records: &[Record]) -> Record {
        let mut board = [records, &[[0; RECORD]]].concat().concat();
        hand_out(&mut board).unwrap();
        record(&board, records.len()).try_into().unwrap()
    }

    #[test]
    fn an_aired_record_has_its_year_high_byte_first() {
        assert_eq!(YEAR, 376..378);
        let table = [
            (b"2010-04-05T18:00:30+00:00", [0x07, 0xda]),
            (b"2047-04-05T18:00:30+00:00", [0x07, 0xff]),
            (b"2048-04-04T18:00:30+00:00", [0x08, 0x00]),
            (b"2099-04-05T18:00:30+00:00", [0x08, 0x33]),
        ];
        for (sent, year) in table {
            assert_eq!(handed_out(&[notice(sent, CEM)]), aired(CEM, year));
            assert!(!is_refused(aired(CEM, year)));
            assert!(is_refused(aired(CEM, [year[1], year[0]])));
        }
    }

    #[test]
    fn years_of_aired_records_are_2000_to_2099() {
        for year in [2000, 2001, 2047, 2048, 2098, 2099] {
            assert!(!is_refused(aired(CEM, u16::to_be_bytes(year))), "{year}");
        }
        for year in [0, 1, 10, 1999, 2100, 2010 - 256, 2010 + 256, u16::MAX] {
            assert!(is_refused(aired(CEM, u16::to_be_bytes(year))), "{year}");
        }
    }

    #[test]
    fn a_year_of_an_aired_record_has_its_day() {
        for year in [2000, 2012, 2096] {
            assert!(!is_refused(aired(LAST_DAY, u16::to_be_bytes(year))), "{year}");
        }
        for year in [2001, 2011, 2098, 2099, 2100, 0] {
            assert!(is_refused(aired(LAST_DAY, u16::to_be_bytes(year))), "{year}");
        }
    }

    #[test]
    fn other_records_have_no_year() {
        let sent = b"2010-04-05T18:00:30+00:00";
        for record in [notice(sent, CEM), keyed(WITHDRAWAL, sent)] {
            assert!(!is_refused(record));
            for place in YEAR {
                let mut odd = record;
                odd[place] = IN_2010[place - YEAR.start];
                assert!(is_refused(odd), "byte {place} of kind {}", record[0]);
            }
            let mut odd = record;
            odd[YEAR].copy_from_slice(&IN_2010);
            assert!(is_refused(odd), "kind {}", record[0]);
        }
    }

    #[test]
    fn behind_the_year_stand_zeros() {
        let sent = b"2010-04-05T18:00:30+00:00";
        let sound = [notice(sent, CEM), keyed(WITHDRAWAL, sent), aired(CEM, IN_2010)];
        for record in sound {
            for place in 378..RECORD {
                let mut odd = record;
                odd[place] = 1;
                assert!(is_refused(odd), "byte {place} of kind {}", record[0]);
            }
        }
    }

    #[test]
    fn due_headers_are_ordered_by_header_then_year() {
        let board = [
            notice(b"2010-04-05T18:00:30+00:00", TOR),
            notice(b"2011-04-05T18:00:30+00:00", CEM),
            notice(b"2012-04-04T18:00:30+00:00", CEM),
            notice(b"2012-04-04T18:00:31+00:00", TOR),
        ];
        assert_eq!(rows(&board.concat()), Ok(vec![(1, 1), (2, 1), (0, 1), (3, 1)]));
        assert_eq!(handed_out(&board), aired(CEM, IN_2011));
    }

    #[test]
    fn a_header_of_several_years_is_handed_out_in_each() {
        let mut board = [
            notice(b"2010-04-05T18:00:30+00:00", CEM),
            notice(b"2011-04-05T18:00:00+00:00", CEM),
            notice(b"2011-04-05T18:00:59+00:00", CEM),
            [0; RECORD],
            [0; RECORD],
        ]
        .concat();
        assert_eq!(rows(&board), Ok(vec![(0, 1), (1, 2)]));
        assert_eq!(hand_out(&mut board), Ok(0));
        assert_eq!(record(&board, 3), aired(CEM, IN_2010));
        assert_eq!(rows(&board), Ok(vec![(1, 2)]));
        assert_eq!(hand_out(&mut board), Ok(1));
        assert_eq!(record(&board, 4), aired(CEM, IN_2011));
        assert_eq!(hand_out(&mut board), Err(Refusal::NOTHING_DUE));
    }

    #[test]
    fn an_aired_record_airs_its_own_year_alone() {
        let one = notice(b"2010-04-05T18:00:30+00:00", CEM);
        assert_eq!(rows(&[one, aired(CEM, IN_2011)].concat()), Ok(vec![(0, 1)]));
        assert_eq!(rows(&[one, aired(CEM, IN_2010)].concat()), Ok(vec![]));
    }

    #[test]
    fn a_withdrawal_of_one_year_leaves_the_other() {
        let (first, second) = (b"2010-04-05T18:00:30+00:00", b"2011-04-05T18:00:30+00:00");
        let board = [notice(first, CEM), notice(second, CEM), keyed(WITHDRAWAL, first)];
        assert_eq!(rows(&board.concat()), Ok(vec![(1, 1)]));
        assert_eq!(handed_out(&board), aired(CEM, IN_2011));
    }

    fn message(sent: &str, expires: &str) -> String {
        format!(
            "<alert xmlns=\"urn:oasis:names:tc:emergency:cap:1.2\"><identifier>I1</identifier>\
             <sender>s</sender><sent>{sent}</sent><status>Actual</status>\
             <msgType>Alert</msgType><scope>Public</scope><info><eventCode>\
             <valueName>SAME</valueName><value>CEM</value></eventCode>\
             <expires>{expires}</expires><area><geocode><valueName>SAME</valueName>\
             <value>024031</value></geocode></area></info></alert>"
        )
    }

    #[test]
    fn a_message_is_offered_again_a_year_later() {
        let first = message("2010-04-05T18:00:30+00:00", "2010-04-05T18:45:30+00:00");
        let second = message("2011-04-05T18:00:30+00:00", "2011-04-05T18:45:30+00:00");
        let mut board = [0; 4 * RECORD];
        assert_eq!(offer(&mut board, first.as_bytes()), Ok(1));
        assert_eq!(hand_out(&mut board), Ok(0));
        assert_eq!(offer(&mut board, second.as_bytes()), Ok(1));
        assert_eq!(offer(&mut board, second.as_bytes()), Ok(0));
        assert_eq!(hand_out(&mut board), Ok(1));
        assert_eq!(record(&board, 2), aired(CEM, IN_2010));
        assert_eq!(record(&board, 3), aired(CEM, IN_2011));
        assert_eq!(offer(&mut board, first.as_bytes()), Ok(0));
        assert_eq!(hand_out(&mut board), Err(Refusal::NOTHING_DUE));
    }

    #[test]
    fn the_year_is_that_of_sent_in_utc() {
        let table = [
            ("2012-12-31T23:30:00-01:00", "2013-01-01T00:15:00-01:00", "0010030", 2013),
            ("2013-01-01T00:30:00+01:00", "2013-01-01T01:15:00+01:00", "3662330", 2012),
            ("2011-12-31T23:59:59-14:59", "2012-01-01T00:44:59-14:59", "0011458", 2012),
            ("2012-01-01T00:00:00+14:59", "2012-01-01T00:45:00+14:59", "3650901", 2011),
        ];
        for (sent, expires, moment, year) in table {
            let mut board = [0; 2 * RECORD];
            assert_eq!(offer(&mut board, message(sent, expires).as_bytes()), Ok(1), "{sent}");
            assert_eq!(hand_out(&mut board), Ok(0), "{sent}");
            let front = format!("ZCZC-CIV-CEM-024031+0045-{moment}-");
            let wanted = aired(front.as_bytes(), u16::to_be_bytes(year));
            assert_eq!(record(&board, 1), wanted, "{sent}");
        }
    }
}
