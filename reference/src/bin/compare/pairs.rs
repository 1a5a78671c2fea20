//! Compares the answers to pairs of cases, whose messages differ in what is not read or in what
//! is read. Before each pair stands a line that is no case: `pair` and the kinds of difference.

use std::collections::BTreeMap;

use crate::floors::number;
use crate::sources::{asked, at_end, shown, Asked, Source};
use crate::tally::{call_of, Tally, SHOWN_DIFFERENCES};

/// How many of 1,000 pairs must be of each kind of difference.
const FLOOR: usize = 8;

/// How many of 1,000 pairs of a call that differ in what is not read must be answered 0.
const FLOOR_OF_ZEROS: usize = 250;

/// The kinds of difference in what is not read, and in what is read.
#[rustfmt::skip]
const UNREAD: [&str; 20] = [
    "comment-put-in-before", "comment-changed-before", "comment-taken-out-before",
    "comment-put-in-inside", "comment-changed-inside", "comment-taken-out-inside",
    "comment-put-in-value", "comment-changed-value", "comment-taken-out-value",
    "comment-put-in-behind", "comment-changed-behind", "comment-taken-out-behind",
    "skipped-put-in", "skipped-taken-out", "skipped-inside", "skipped-attributes", "skipped-name",
    "later-info", "wide-comment-put-in", "wide-skipped-put-in",
];
#[rustfmt::skip]
const READ: [&str; 9] = [
    "value-changed", "value-widened", "element-put-into-leaf", "leaf-repeated", "leaf-taken-out",
    "container-repeated", "container-taken-out", "later-language-changed", "later-info-taken-out",
];

/// What differs in the messages of a pair.
#[derive(Clone, Copy)]
pub enum Differing {
    /// Both are to be answered alike.
    Unread,
    /// Most are to be answered otherwise.
    Read,
}

impl Differing {
    pub fn named(name: &str) -> Result<Differing, String> {
        match name {
            "unread" => Ok(Differing::Unread),
            "read" => Ok(Differing::Read),
            _ => Err(format!("Pairs differ in what is unread or read, not in {name}.")),
        }
    }

    fn kinds(self) -> &'static [&'static str] {
        match self {
            Differing::Unread => &UNREAD,
            Differing::Read => &READ,
        }
    }

    /// The kinds that the line before a pair names.
    fn kinds_in(self, line: &str) -> Result<Vec<&'static str>, String> {
        let Some(names) = line.strip_prefix("pair ") else {
            return Err(format!("This line names no kinds of difference: {}", shown(line)));
        };
        let known = |name: &str| self.kinds().iter().copied().find(|kind| *kind == name);
        let kinds =
            names.split(',').map(|name| known(name).ok_or(format!("There is no kind {name}.")));
        kinds.collect()
    }
}

/// How many pairs there were, how many were answered 0 alike, and how many otherwise.
#[derive(Default)]
struct Count {
    pairs: usize,
    zeros: usize,
    otherwise: usize,
}

impl Count {
    fn add(&mut self, zero: bool, otherwise: bool) {
        self.pairs += 1;
        self.zeros += usize::from(zero && !otherwise);
        self.otherwise += usize::from(otherwise);
    }

    fn text(&self) -> String {
        let Count { pairs, zeros, otherwise } = self;
        let refused = pairs - zeros - otherwise;
        format!(
            "{pairs} pairs, answered 0: {zeros}, refused alike: {refused}, otherwise: {otherwise}"
        )
    }
}

pub struct Pairs {
    differing: Differing,
    all: Count,
    by_call: BTreeMap<String, Count>,
    by_kind: BTreeMap<&'static str, Count>,
    /// Of pairs that are to be answered alike; of single cases where they are not.
    tally: Tally,
}

impl Pairs {
    fn new(differing: Differing) -> Pairs {
        let kinds = differing.kinds().iter().map(|kind| (*kind, Count::default()));
        let (all, by_call, by_kind) = (Count::default(), BTreeMap::new(), kinds.collect());
        Pairs { differing, all, by_call, by_kind, tally: Tally::default() }
    }

    /// Compares the answers to two cases.
    fn compare(&mut self, kinds: &[&str], names: &[String], first: Asked, second: Asked) {
        let call = call_of(&first.case);
        let zero = number(call, &first.answers[0]) == Some(0);
        let otherwise = first.answers != second.answers;
        self.all.add(zero, otherwise);
        self.by_call.entry(call.to_string()).or_default().add(zero, otherwise);
        for (_, count) in self.by_kind.iter_mut().filter(|(kind, _)| kinds.contains(kind)) {
            count.add(zero, otherwise);
        }
        match self.differing {
            Differing::Unread => self.compare_as_one(names, first, second),
            Differing::Read => {
                self.tally.compare(&first.case, names, &first.answers);
                self.tally.compare(&second.case, names, &second.answers);
            }
        }
    }

    /// Compares all answers to both cases as if they were answers to the first.
    fn compare_as_one(&mut self, names: &[String], first: Asked, second: Asked) {
        let to_second = names.iter().map(|name| format!("{name}, asked the second,"));
        let names: Vec<String> = names.iter().cloned().chain(to_second).collect();
        let answers = [first.answers, second.answers].concat();
        let equal = self.tally.compare(&first.case, &names, &answers);
        if !equal && self.tally.differences <= SHOWN_DIFFERENCES {
            println!("  the second is: {}", shown(&second.case));
        }
    }

    pub fn print(&self, calls: &[&str]) {
        println!("{}", self.all.text());
        for (call, count) in &self.by_call {
            println!("  of {call}: {}", count.text());
        }
        for (kind, count) in &self.by_kind {
            println!("  {kind}: {}", count.text());
        }
        self.tally.print(calls);
    }

    /// What is wrong with the comparison, in plain sentences.
    pub fn faults(&self, calls: &[&str], least: usize) -> Vec<String> {
        let mut faults = Vec::new();
        if self.tally.differences > 0 {
            faults.push(format!("{} answers differ.", self.tally.differences));
        }
        if self.tally.others > 0 {
            faults.push(format!("{} lines are no case.", self.tally.others));
        }
        if self.all.pairs < least {
            faults.push(format!("{} pairs were compared, not {least}.", self.all.pairs));
        }
        for call in calls.iter().filter(|call| self.tally.compared(call) == 0) {
            faults.push(format!("{call} was never compared."));
        }
        match self.differing {
            Differing::Unread => self.add_faults_of_unread(least, &mut faults),
            Differing::Read => self.add_faults_of_read(&mut faults),
        }
        faults
    }

    /// How many pairs there must be of each kind of difference.
    fn floor(&self) -> usize {
        (self.all.pairs * FLOOR / 1000).max(1)
    }

    fn add_faults_of_unread(&self, least: usize, faults: &mut Vec<String>) {
        let zeros = self.all.zeros;
        if zeros * 2 < least {
            faults.push(format!("{zeros} pairs were answered 0, not half of {least}."));
        }
        for (call, Count { pairs, zeros, .. }) in &self.by_call {
            let least = (pairs * FLOOR_OF_ZEROS / 1000).max(1);
            if *zeros < least {
                faults.push(format!("{zeros} pairs of {call} were answered 0, not {least}."));
            }
        }
        let least = self.floor();
        for (kind, Count { zeros, .. }) in &self.by_kind {
            if *zeros < least {
                faults.push(format!("{zeros} pairs answered 0 differ by {kind}, not {least}."));
            }
        }
    }

    fn add_faults_of_read(&self, faults: &mut Vec<String>) {
        for (call, Count { pairs, otherwise, .. }) in &self.by_call {
            if otherwise * 2 <= *pairs {
                let those = format!("{otherwise} of {pairs} pairs of {call}");
                faults.push(format!("Only {those} were answered otherwise."));
            }
        }
        let least = self.floor();
        for (kind, Count { pairs, .. }) in &self.by_kind {
            if *pairs < least {
                faults.push(format!("{pairs} pairs differ by {kind}, not {least}."));
            }
        }
    }
}

pub fn compare_pairs(
    differing: Differing,
    mut cases: Source,
    mut sources: Vec<Source>,
) -> Result<Pairs, String> {
    let names: Vec<String> = sources.iter().map(|source| source.name.clone()).collect();
    let mut pairs = Pairs::new(differing);
    while let Some(line) = asked(&mut cases, &mut sources)? {
        let kinds = differing.kinds_in(&line.case)?;
        let cut_off = "The last pair is cut off.";
        let mut next = || asked(&mut cases, &mut sources)?.ok_or(cut_off.to_string());
        let (first, second) = (next()?, next()?);
        if first.case == second.case || call_of(&first.case) != call_of(&second.case) {
            return Err(format!("This case and the next are no pair: {}", shown(&first.case)));
        }
        pairs.compare(&kinds, &names, first, second);
    }
    at_end(&mut sources)?;
    if pairs.all.pairs == 0 {
        return Err("There are no pairs: nothing was compared.".to_string());
    }
    Ok(pairs)
}

#[cfg(test)]
mod tests {
    use super::*;
    use crate::sources::tests::lines;

    /// Pairs of headers that differ by every kind, compared by two that answer the same.
    fn faults(differing: Differing, least: usize, answers: &[[&str; 2]]) -> Vec<String> {
        let mut cases = String::new();
        let mut answered = String::new();
        for (place, [first, second]) in answers.iter().enumerate() {
            let kinds = differing.kinds().join(",");
            cases += &format!("pair {kinds}\nheader {place}\nheader {place}x\n");
            answered += &format!("?\n{first}\n{second}\n");
        }
        faults_of(differing, least, &cases, &answered, &answered)
    }

    fn faults_of(
        differing: Differing,
        least: usize,
        cases: &str,
        one: &str,
        two: &str,
    ) -> Vec<String> {
        match compare_pairs(differing, lines(cases), vec![lines(one), lines(two)]) {
            Ok(pairs) => pairs.faults(&["header"], least),
            Err(sentence) => vec![sentence],
        }
    }

    const ZERO: [&str; 2] = ["0 0 a", "0 0 a"];
    const SEVEN: [&str; 2] = ["7 1 -", "7 1 -"];
    const OTHERWISE: [&str; 2] = ["0 0 a", "0 0 b"];

    #[test]
    fn equal_pairs_pass() {
        assert!(faults(Differing::Unread, 2, &[ZERO, SEVEN]).is_empty());
    }

    #[test]
    fn an_unequal_pair_fails() {
        let found = faults(Differing::Unread, 2, &[ZERO, ZERO, OTHERWISE]);
        assert_eq!(found, ["1 answers differ."]);
        let found = faults(Differing::Unread, 2, &[ZERO, ZERO, ["0 0 a", "7 1 -"]]);
        assert_eq!(found, ["1 answers differ."]);
    }

    #[test]
    fn a_pair_that_only_one_answers_unequally_fails() {
        let cases = format!("pair {}\nheader a\nheader b\n", UNREAD.join(","));
        let found = faults_of(Differing::Unread, 1, &cases, "?\n0 a\n0 a\n", "?\n0 a\n0 b\n");
        assert_eq!(found[0], "1 answers differ.");
        let cases = format!("pair {}\nheader a\nheader b\n", READ.join(","));
        let found = faults_of(Differing::Read, 1, &cases, "?\n0 a\n0 b\n", "?\n0 a\n0 c\n");
        assert_eq!(found, ["1 answers differ."]);
    }

    #[test]
    fn too_few_pairs_fail() {
        let found = faults(Differing::Unread, 3, &[ZERO, ZERO]);
        assert_eq!(found, ["2 pairs were compared, not 3."]);
        let found = faults(Differing::Read, 2, &[OTHERWISE]);
        assert_eq!(found, ["1 pairs were compared, not 2."]);
        assert_eq!(faults(Differing::Unread, 1, &[]).len(), 1);
        assert_eq!(faults(Differing::Read, 1, &[]).len(), 1);
    }

    #[test]
    fn too_few_pairs_answered_0_fail() {
        let found = faults(Differing::Unread, 3, &[ZERO, SEVEN, SEVEN]);
        assert_eq!(found, ["1 pairs were answered 0, not half of 3."]);
    }

    #[test]
    fn a_control_that_is_mostly_equal_fails() {
        let found = faults(Differing::Read, 2, &[ZERO, SEVEN]);
        assert_eq!(found, ["Only 0 of 2 pairs of header were answered otherwise."]);
        let found = faults(Differing::Read, 2, &[ZERO, OTHERWISE]);
        assert_eq!(found, ["Only 1 of 2 pairs of header were answered otherwise."]);
        assert!(faults(Differing::Read, 2, &[ZERO, OTHERWISE, OTHERWISE]).is_empty());
    }

    /// Headers that meet what is asked of pairs, and one pair of another call.
    fn faults_beside(differing: Differing, pair: [&str; 2], other: [&str; 2]) -> Vec<String> {
        let kinds = differing.kinds().join(",");
        let two = |call: &str| format!("pair {kinds}\n{call} a\n{call} b\n");
        let said = |[first, second]: [&str; 2]| format!("?\n{first}\n{second}\n");
        let cases = two("header").repeat(4) + &two("canadian");
        let answers = said(pair).repeat(4) + &said(other);
        faults_of(differing, 5, &cases, &answers, &answers)
    }

    #[test]
    fn a_call_that_is_not_compared_in_earnest_fails() {
        let found = faults_beside(Differing::Unread, ZERO, SEVEN);
        assert_eq!(found, ["0 pairs of canadian were answered 0, not 1."]);
        assert!(faults_beside(Differing::Unread, ZERO, ZERO).is_empty());
        let found = faults_beside(Differing::Read, OTHERWISE, ZERO);
        assert_eq!(found, ["Only 0 of 1 pairs of canadian were answered otherwise."]);
        assert!(faults_beside(Differing::Read, OTHERWISE, OTHERWISE).is_empty());
    }

    #[test]
    fn too_few_pairs_of_a_kind_fail() {
        let cases = format!("pair {}\nheader a\nheader b\n", UNREAD[1..].join(","));
        let answers = "?\n0 a\n0 a\n";
        let found = faults_of(Differing::Unread, 1, &cases, answers, answers);
        assert_eq!(found, ["0 pairs answered 0 differ by comment-put-in-before, not 1."]);
        let cases = cases.replace("later-info", "later-infos");
        let found = faults_of(Differing::Unread, 1, &cases, answers, answers);
        assert_eq!(found, ["There is no kind later-infos."]);
    }

    #[test]
    fn cases_that_are_not_answered_fail() {
        let found = faults(Differing::Unread, 1, &[ZERO, ["?", "?"]]);
        assert_eq!(found, ["1 lines are no case."]);
        let found = faults(Differing::Read, 1, &[OTHERWISE, OTHERWISE, ["?", "0 0 a"]]);
        assert_eq!(found, ["1 lines are no case."]);
    }

    #[test]
    fn what_is_no_pair_fails() {
        let kinds = UNREAD.join(",");
        let one_case = format!("pair {kinds}\nheader a\nheader a\n");
        let two_calls = format!("pair {kinds}\nheader a\nprogram b\n");
        let cut_off = format!("pair {kinds}\nheader a\n");
        for cases in [&one_case, &two_calls, &cut_off, "header a\nheader b\n"] {
            let answers = "0 a\n".repeat(cases.lines().count());
            assert_eq!(faults_of(Differing::Unread, 1, cases, &answers, &answers).len(), 1);
        }
    }
}
