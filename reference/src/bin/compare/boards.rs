//! Boards of cases: which headers are due and aired, with their years.

use reference::{list, Row, MOST_RECORDS, RECORD};

pub const NOTICE: u8 = 1;
pub const WITHDRAWAL: u8 = 2;
pub const AIRED: u8 = 3;

const DAY: u32 = 86_400;
const FURTHEST_ZONE: u32 = 15 * 3600;

/// Where the new year that is near a notice lies.
#[derive(Clone, Copy)]
pub enum NewYear {
    Before,
    Behind,
}

/// A board, and the rows of its due headers; none where it is refused.
#[derive(Default)]
pub struct Board {
    bytes: Vec<u8>,
    due: Vec<Row>,
}

impl Board {
    pub fn of(bytes: Vec<u8>) -> Board {
        let due = rows(&bytes).unwrap_or_default();
        Board { bytes, due }
    }

    pub fn records(&self) -> impl Iterator<Item = Record<'_>> {
        records_in(&self.bytes)
    }

    pub fn of_kind(&self, kind: u8) -> impl Iterator<Item = Record<'_>> {
        self.records().filter(move |record| record.kind() == kind)
    }

    pub fn record(&self, index: usize) -> Option<Record<'_>> {
        self.records().nth(index)
    }

    /// The due headers, each by the smallest notice that makes it due.
    pub fn due(&self) -> impl Iterator<Item = Record<'_>> {
        self.due.iter().filter_map(|row| self.record(row.index))
    }

    /// Those that more than one notice makes due.
    pub fn due_by_several(&self) -> impl Iterator<Item = Record<'_>> {
        let several = self.due.iter().filter(|row| row.count > 1);
        several.filter_map(|row| self.record(row.index))
    }

    pub fn is_due_in_another_year(&self, header: Record) -> bool {
        self.due().any(|due| due.is_of_another_year(header))
    }

    pub fn is_aired_in_another_year(&self, header: Record) -> bool {
        self.of_kind(AIRED).any(|aired| aired.is_of_another_year(header))
    }

    fn is_withdrawn(&self, notice: Record) -> bool {
        self.of_kind(WITHDRAWAL).any(|withdrawal| withdrawal.key() == notice.key())
    }

    /// Whether a header is carried by a notice of another year that is withdrawn.
    pub fn is_withdrawn_in_another_year(&self, header: Record) -> bool {
        let mut notices = self.of_kind(NOTICE);
        notices.any(|notice| notice.is_of_another_year(header) && self.is_withdrawn(notice))
    }

    /// Whether a board that is refused is taken where the records at fault are mended.
    pub fn is_taken_with(&self, at_fault: impl Fn(Record) -> bool, mend: fn(&mut [u8])) -> bool {
        let mut mended = self.bytes.clone();
        for record in mended.chunks_exact_mut(RECORD).filter(|record| at_fault(Record(record))) {
            mend(record);
        }
        rows(&self.bytes).is_none() && rows(&mended).is_some()
    }
}

/// The rows of a board's due headers; none where it is refused.
fn rows(board: &[u8]) -> Option<Vec<Row>> {
    let mut rows = [Row::default(); MOST_RECORDS];
    let count = list(board, &mut rows).ok()?;
    Some(rows[..count].to_vec())
}

pub fn records_in(board: &[u8]) -> impl Iterator<Item = Record<'_>> {
    board.chunks_exact(RECORD).map(Record)
}

/// A record of a board.
#[derive(Clone, Copy, PartialEq)]
pub struct Record<'a>(&'a [u8]);

impl<'a> Record<'a> {
    pub fn kind(self) -> u8 {
        self.0[0]
    }

    fn key(self) -> &'a [u8] {
        &self.0[1..133]
    }

    pub fn header(self) -> &'a [u8] {
        &self.0[133..376]
    }

    fn sent(self) -> u32 {
        number(&self.0[1..5])
    }

    /// What stands where an aired record has its year.
    fn year_field(self) -> &'a [u8] {
        &self.0[376..378]
    }

    /// The year of a header: that of a notice's sent, that which an aired record carries.
    pub fn year(self) -> u32 {
        match self.kind() {
            AIRED => number(self.year_field()),
            _ => year_of(self.sent()),
        }
    }

    pub fn is_of_another_year(self, other: Record) -> bool {
        self.header() == other.header() && self.year() != other.year()
    }

    pub fn is_aired_in(self, year: u32) -> bool {
        self.kind() == AIRED && self.year() == year
    }

    /// Whether it is an aired record whose year has its bytes exchanged.
    pub fn is_exchanged(self) -> bool {
        let exchanged = number(&[self.0[377], self.0[376]]);
        self.kind() == AIRED && !is_year(self.year()) && is_year(exchanged)
    }

    /// Whether its header is of day 366: `-366HHMM-` stands at its end.
    pub fn is_of_day_366(self) -> bool {
        let header = self.header().split(|b| *b == 0).next().unwrap_or(&[]);
        header.strip_suffix(b"-").is_some_and(|header| {
            header.len() > 8 && header[header.len() - 8..].starts_with(b"-366")
        })
    }

    /// Whether it is an aired record of day 366 in a year that has no such day.
    pub fn lacks_its_day(self) -> bool {
        let common = is_year(self.year()) && self.year() % 4 != 0;
        self.kind() == AIRED && self.is_of_day_366() && common
    }

    /// Whether some zone has another year than UTC at the time of a notice.
    pub fn is_near(self, new_year: NewYear) -> bool {
        let there = match new_year {
            NewYear::Before => self.sent().checked_sub(FURTHEST_ZONE),
            NewYear::Behind => self.sent().checked_add(FURTHEST_ZONE),
        };
        there.is_some_and(|there| year_of(there) != self.year())
    }
}

fn number(bytes: &[u8]) -> u32 {
    bytes.iter().fold(0, |number, b| number << 8 | u32::from(*b))
}

fn is_year(number: u32) -> bool {
    (2000..2100).contains(&number)
}

/// The year of an instant: in 2000 to 2099 every fourth is a leap year.
fn year_of(instant: u32) -> u32 {
    let (mut year, mut days) = (2000, instant / DAY);
    loop {
        let length = if year % 4 == 0 { 366 } else { 365 };
        if days < length {
            return year;
        }
        (year, days) = (year + 1, days - length);
    }
}
