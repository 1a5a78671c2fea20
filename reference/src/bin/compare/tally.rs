//! Compares the answers to each case, and counts what was compared.

use crate::both::Both;
use crate::floors::{all_calls, Counts};
use crate::sources::{asked, at_end, shown, Source};

pub const SHOWN_DIFFERENCES: usize = 5;

#[derive(Default)]
pub struct Tally {
    counts: Counts,
    /// Lines that are no case, answered `?` by all.
    pub others: usize,
    pub differences: usize,
    /// Header and text of one message, where single cases are compared.
    both: Both,
}

impl Tally {
    /// Compares the answers to one case; says whether they are equal.
    pub fn compare(&mut self, case: &str, names: &[String], answers: &[String]) -> bool {
        if let Some(place) = answers.iter().position(|answer| *answer != answers[0]) {
            self.differences += 1;
            if self.differences <= SHOWN_DIFFERENCES {
                println!("A difference in: {}", shown(case));
                println!("  {} answers: {}", names[0], shown(&answers[0]));
                println!("  {} answers: {}", names[place], shown(&answers[place]));
            }
            return false;
        }
        if !self.counts.add(case, &answers[0]) {
            self.others += 1;
        }
        true
    }

    pub fn compared(&self, call: &str) -> usize {
        self.counts.compared(call)
    }

    /// Prints the counts of the calls that were asked for, and of any other that was compared.
    pub fn print(&self, calls: &[&str]) {
        let wanted = |call: &&str| calls.contains(call) || self.compared(call) > 0;
        for line in all_calls().filter(wanted).flat_map(|call| self.counts.lines(call)) {
            println!("{line}");
        }
        if let Some(line) = self.both.line() {
            println!("{line}");
        }
        println!("lines that are no case: {}", self.others);
        println!("differences: {}", self.differences);
    }

    /// What is wrong with the comparison, in plain sentences.
    pub fn faults(&self, calls: &[&str], least: usize) -> Vec<String> {
        let mut faults = Vec::new();
        if self.differences > 0 {
            faults.push(format!("{} answers differ.", self.differences));
        }
        faults.extend(self.both.difference());
        if ["header", "text"].iter().all(|call| calls.contains(call)) {
            faults.extend(self.both.faults(self.compared("header")));
        }
        for call in calls {
            let compared = self.compared(call);
            if compared < least {
                faults.push(format!("{call} was compared {compared} times, not {least}."));
            }
            faults.extend(self.counts.faults(call));
        }
        faults
    }
}

pub fn call_of(case: &str) -> &str {
    case.split(' ').next().unwrap_or("")
}

pub fn compare(mut cases: Source, mut sources: Vec<Source>) -> Result<Tally, String> {
    let names: Vec<String> = sources.iter().map(|source| source.name.clone()).collect();
    let mut tally = Tally::default();
    let mut lines = 0;
    while let Some(asked) = asked(&mut cases, &mut sources)? {
        lines += 1;
        tally.compare(&asked.case, &names, &asked.answers);
        tally.both.add(&names, asked);
    }
    at_end(&mut sources)?;
    if lines == 0 {
        return Err("There are no cases: nothing was compared.".to_string());
    }
    Ok(tally)
}

#[cfg(test)]
mod tests {
    use super::*;
    use crate::sources::tests::lines;

    fn faults(cases: &str, one: &str, two: &str) -> Vec<String> {
        match compare(lines(cases), vec![lines(one), lines(two)]) {
            Ok(tally) => tally.faults(&["read"], 2),
            Err(sentence) => vec![sentence],
        }
    }

    const REFUSED: &str = "0 CIV\n17 -\n";

    #[test]
    fn equal_answers_pass() {
        assert!(faults("read a\nread b\n", REFUSED, REFUSED).is_empty());
    }

    #[test]
    fn a_difference_fails() {
        let found = faults("read a\nread b\nread c\n", "0 x\n17 -\n0 y\n", "0 x\n17 -\n0 z\n");
        assert_eq!(found, ["1 answers differ."]);
    }

    #[test]
    fn nothing_compared_fails() {
        let nothing = "There are no cases: nothing was compared.";
        assert_eq!(faults("", "", ""), [nothing]);
        let short = "some has fewer answers than there are cases.";
        assert_eq!(faults("read a\nread b\n", "", ""), [short]);
        assert_eq!(faults("read a\nread b\n", REFUSED, "0 CIV\n"), [short]);
        let long = "some has more answers than there are cases.";
        assert_eq!(faults("read a\n", "0 CIV\n", REFUSED), [long]);
        let none = "read was compared 0 times, not 2.";
        assert_eq!(faults("write a\nwrite b\n", REFUSED, REFUSED), [none]);
        assert_eq!(faults("read a\nread b\n", "?\n?\n", "?\n?\n"), [none]);
    }

    #[test]
    fn a_floor_that_is_not_met_fails() {
        let found = faults("read a\nread b\n", "17 -\n17 -\n", "17 -\n17 -\n");
        assert_eq!(found, ["read was compared 0 times with number 0, not 1."]);
    }

    #[test]
    fn header_and_text_of_one_message_are_held_to_each_other() {
        let cases = "header 6d 42 252\ntext 6d 42 7200 1024\n";
        let found = |answers: &str, calls: &[&str]| {
            let tally = compare(lines(cases), vec![lines(answers), lines(answers)]).unwrap();
            tally.faults(calls, 1)
        };
        let unlike = "1 messages are not answered alike by both header and text.";
        let refused = "0 messages were answered 0 by both header and text, not 1.";
        let both = ["header", "text"];
        assert!(found("7 1 - 0\n7 2 0 - -\n", &both).iter().any(|fault| fault == unlike));
        assert!(found("7 1 - 0\n7 1 0 - -\n", &both).iter().any(|fault| fault == refused));
        assert!(found("0 0 5a 0\n0 0 0 - 54\n", &both).iter().all(|fault| fault != refused));
        assert_eq!(found("7 1 - 0\n7 2 0 - -\n", &[]), [unlike]);
        assert!(found("7 1 - 0\n7 1 0 - -\n", &[]).is_empty());
    }
}
