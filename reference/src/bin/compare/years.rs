//! Kinds of cases on boards, by the years of headers.

use super::boards::{records_in, NewYear, Record, AIRED, NOTICE};
use super::{bytes, Seen};

/// Kinds of lists.
impl Seen<'_> {
    /// Whether a list has a header in two years.
    pub fn lists_two_years(&self) -> bool {
        self.number == 0 && self.board.due().any(|due| self.board.is_due_in_another_year(due))
    }

    /// Whether a list has a header in two years, in one of them by more than one notice.
    pub fn counts_several_of_two_years(&self) -> bool {
        let in_two = |due| self.board.is_due_in_another_year(due);
        self.number == 0 && self.board.due_by_several().any(in_two)
    }

    /// Whether a list has another order than that of years.
    pub fn lists_by_header(&self) -> bool {
        self.number == 0 && !self.board.due().is_sorted_by_key(Record::year)
    }

    /// Whether a list has a header that is aired in another year.
    pub fn lists_aired(&self) -> bool {
        self.number == 0 && self.board.due().any(|due| self.board.is_aired_in_another_year(due))
    }

    /// Whether a list has a header of which a notice of another year is withdrawn.
    pub fn lists_withdrawn(&self) -> bool {
        self.number == 0 && self.board.due().any(|due| self.board.is_withdrawn_in_another_year(due))
    }

    /// Whether rows are refused that would do for the due headers without their years.
    pub fn is_short_by_years(&self) -> bool {
        let mut headers: Vec<&[u8]> = self.board.due().map(Record::header).collect();
        headers.dedup();
        let lent = self.asked.get(2).and_then(|rows| rows.parse().ok()).unwrap_or(0);
        self.number == 2 && headers.len() <= lent
    }
}

/// Kinds of hand-outs.
impl Seen<'_> {
    /// The notice whose header is handed out.
    fn handed_out(&self) -> Option<Record<'_>> {
        let index = self.answer.get(1).filter(|_| self.number == 0)?.parse().ok()?;
        self.board.record(index)
    }

    /// Whether a header is handed out that is due in another year too.
    pub fn hands_out_of_two_years(&self) -> bool {
        self.handed_out().is_some_and(|notice| self.board.is_due_in_another_year(notice))
    }

    /// Whether a header is handed out that is aired in another year.
    pub fn hands_out_aired(&self) -> bool {
        self.handed_out().is_some_and(|notice| self.board.is_aired_in_another_year(notice))
    }

    /// Whether a header is handed out before one of an earlier year.
    pub fn hands_out_by_header(&self) -> bool {
        let earlier = |year| self.board.due().any(|due| due.year() < year);
        self.handed_out().is_some_and(|notice| earlier(notice.year()))
    }

    pub fn hands_out_day_366(&self) -> bool {
        self.handed_out().is_some_and(Record::is_of_day_366)
    }

    pub fn hands_out_near(&self, new_year: NewYear) -> bool {
        self.handed_out().is_some_and(|notice| notice.is_near(new_year))
    }

    /// Whether nothing is due on a board where a header is aired in two years.
    pub fn has_aired_two_years(&self) -> bool {
        let in_two = |aired| self.board.is_aired_in_another_year(aired);
        self.number == 16 && self.board.of_kind(AIRED).any(in_two)
    }
}

/// Kinds of offers.
impl Seen<'_> {
    /// Whether a notice is added of which this holds.
    fn adds(&self, holds: impl Fn(Record) -> bool) -> bool {
        let after = match self.answer[..] {
            ["0", _, _, after] => bytes(after),
            _ => return false,
        };
        let held = |new| self.board.records().any(|record| record == new);
        let mut notices = records_in(&after).filter(|record| record.kind() == NOTICE);
        notices.any(|new| !held(new) && holds(new))
    }

    /// Whether a notice is added whose header a notice of another year carries.
    pub fn adds_held(&self) -> bool {
        let other = |new: Record| self.board.of_kind(NOTICE).any(|n| n.is_of_another_year(new));
        self.adds(other)
    }

    /// Whether a notice is added whose header is aired in another year.
    pub fn adds_aired(&self) -> bool {
        self.adds(|new| self.board.is_aired_in_another_year(new))
    }

    pub fn adds_near(&self, new_year: NewYear) -> bool {
        self.adds(|new| new.is_near(new_year))
    }
}

/// Kinds of boards.
impl Seen<'_> {
    /// Whether a board is refused for years of aired records alone: with another it is taken.
    fn refuses_years(&self, at_fault: impl Fn(Record) -> bool) -> bool {
        let mend = |record: &mut [u8]| record[376..378].copy_from_slice(&2000u16.to_be_bytes());
        self.number == 1 && self.board.is_taken_with(at_fault, mend)
    }

    pub fn refuses_year(&self, year: u32) -> bool {
        self.refuses_years(|record| record.is_aired_in(year))
    }

    pub fn refuses_exchanged(&self) -> bool {
        self.refuses_years(|record| record.is_exchanged())
    }

    pub fn refuses_day_366(&self) -> bool {
        self.refuses_years(|record| record.lacks_its_day())
    }

    /// Whether a board is refused for a year in records of another kind alone.
    pub fn refuses_year_in(&self, kind: u8) -> bool {
        let mend = |record: &mut [u8]| record[376..378].fill(0);
        self.number == 1 && self.board.is_taken_with(|record| record.kind() == kind, mend)
    }

    /// Whether a board is refused for what stands behind the year of an aired record alone.
    pub fn refuses_behind_year(&self) -> bool {
        let mend = |record: &mut [u8]| record[378..].fill(0);
        self.number == 1 && self.board.is_taken_with(|record| record.kind() == AIRED, mend)
    }

    /// Whether a board is taken that has an aired record of day 366.
    pub fn takes_day_366(&self) -> bool {
        self.number != 1 && self.board.of_kind(AIRED).any(Record::is_of_day_366)
    }

    /// Whether a board is taken that has an aired record of this year.
    pub fn takes_year(&self, year: u32) -> bool {
        self.number != 1 && self.board.records().any(|record| record.is_aired_in(year))
    }
}
