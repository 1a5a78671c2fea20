//! Holds header and text of one message to each other: where all outputs are long enough both
//! calls give the same number and the same field.

use crate::sources::{shown, Asked};
use crate::tally::SHOWN_DIFFERENCES;

/// Of 1,000 headers so many must stand next to the text of the same message and both be answered
/// 0; so many both be refused.
const FLOOR_OF_ZEROS: usize = 230;
const FLOOR_OF_REFUSED: usize = 215;

#[derive(Default)]
pub struct Both {
    /// The case before, if it was not held to one before it.
    last: Option<Asked>,
    zeros: usize,
    refused: usize,
    differences: usize,
}

impl Both {
    /// Holds the answers to a case to those to the case before, if both are of one message.
    pub fn add(&mut self, names: &[String], asked: Asked) {
        match self.last.take() {
            Some(last) if are_of_one_message(&last.case, &asked.case) => {
                self.hold(names, &last, &asked);
            }
            _ => self.last = Some(asked),
        }
    }

    /// Each who answers is held to its own answers.
    fn hold(&mut self, names: &[String], one: &Asked, other: &Asked) {
        let mut answers = one.answers.iter().zip(&other.answers);
        if let Some(place) = answers.position(|(one, other)| start_of(one) != start_of(other)) {
            self.differences += 1;
            if self.differences <= SHOWN_DIFFERENCES {
                println!("Header and text are not answered alike: {}", shown(&one.case));
                println!("  {} answers: {}", names[place], shown(&one.answers[place]));
                println!("  and to the next: {}", shown(&other.answers[place]));
            }
            return;
        }
        match start_of(&one.answers[0]) {
            ["0", _] => self.zeros += 1,
            ["?", _] => {}
            _ => self.refused += 1,
        }
    }

    /// What was held, in one line; nothing where nothing was.
    pub fn line(&self) -> Option<String> {
        let Both { zeros, refused, differences, .. } = self;
        (zeros + refused + differences > 0).then(|| {
            format!(
                "header and text of one message: answered 0 by both: {zeros}, refused alike by \
                 both: {refused}, otherwise: {differences}"
            )
        })
    }

    /// What differs, in a plain sentence.
    pub fn difference(&self) -> Option<String> {
        let Both { differences, .. } = self;
        (*differences > 0).then(|| {
            format!("{differences} messages are not answered alike by both header and text.")
        })
    }

    /// The floors of so many headers that were not met, in plain sentences.
    pub fn faults(&self, headers: usize) -> Vec<String> {
        let kinds = [
            ("answered 0", self.zeros, FLOOR_OF_ZEROS),
            ("refused", self.refused, FLOOR_OF_REFUSED),
        ];
        let mut faults = Vec::new();
        for (what, count, floor) in kinds {
            let least = (headers * floor / 1000).max(1);
            if count < least {
                faults.push(format!(
                    "{count} messages were {what} by both header and text, not {least}."
                ));
            }
        }
        faults
    }
}

/// Number and field of an answer.
fn start_of(answer: &str) -> [&str; 2] {
    let mut fields = answer.split(' ');
    [(); 2].map(|_| fields.next().unwrap_or(""))
}

/// Whether two cases are header and text of one message and station, all outputs long enough.
fn are_of_one_message(one: &str, other: &str) -> bool {
    let (one, other): (Vec<_>, Vec<_>) = (one.split(' ').collect(), other.split(' ').collect());
    match (&one[..], &other[..]) {
        (["header", headed @ .., header], ["text", worded @ .., text, uri])
        | (["text", worded @ .., text, uri], ["header", headed @ .., header]) => {
            headed == worded && is_long(header, 252) && is_long(text, 7200) && is_long(uri, 1024)
        }
        _ => false,
    }
}

fn is_long(cap: &str, least: usize) -> bool {
    cap.parse().is_ok_and(|cap: usize| cap >= least)
}

#[cfg(test)]
mod tests {
    use super::*;

    const HEADER: &str = "header 6d 42 252";
    const TEXT: &str = "text 6d 42 7200 1024";

    /// Holds cases, each with the answers of two.
    fn held(cases: &[(&str, [&str; 2])]) -> Both {
        let mut both = Both::default();
        for (case, answers) in cases {
            let answers = answers.map(String::from).to_vec();
            both.add(&["one", "two"].map(String::from), Asked { case: case.to_string(), answers });
        }
        both
    }

    /// What is wrong with these cases, which two answer alike, of so many headers.
    fn faults(headers: usize, cases: &[(&str, &str)]) -> Vec<String> {
        let cases: Vec<_> = cases.iter().map(|(case, answer)| (*case, [*answer; 2])).collect();
        let both = held(&cases);
        both.difference().into_iter().chain(both.faults(headers)).collect()
    }

    const ZERO: [(&str, &str); 2] = [(HEADER, "0 0 5a 0"), (TEXT, "0 0 0 - 54")];
    const SEVEN: [(&str, &str); 2] = [(HEADER, "7 1 - 0"), (TEXT, "7 1 0 - -")];

    const NO_ZERO: &str = "0 messages were answered 0 by both header and text, not 1.";
    const NO_REFUSAL: &str = "0 messages were refused by both header and text, not 1.";
    const DIFFERENCE: &str = "1 messages are not answered alike by both header and text.";

    #[test]
    fn alike_passes() {
        assert!(faults(2, &[ZERO, SEVEN].concat()).is_empty());
        let mut turned = [ZERO, SEVEN].concat();
        turned.reverse();
        assert!(faults(2, &turned).is_empty());
    }

    #[test]
    fn a_difference_fails() {
        let unlike = [
            ("0 0 5a 0", "7 1 0 - -"),
            ("7 1 - 0", "0 0 0 - 54"),
            ("7 1 - 0", "7 2 0 - -"),
            ("7 1 - 0", "8 1 0 - -"),
            ("7 1 - 0", "?"),
        ];
        for (header, text) in unlike {
            let cases = [ZERO, SEVEN, [(HEADER, header), (TEXT, text)]].concat();
            assert_eq!(faults(3, &cases), [DIFFERENCE]);
        }
    }

    #[test]
    fn each_who_answers_is_held_to_its_own() {
        let alike = [(HEADER, ["7 1 - 0", "8 0 - 0"]), (TEXT, ["7 1 0 - -", "8 0 0 - -"])];
        assert_eq!(held(&alike).difference(), None);
        for second in ["0 0 0 - 54", "7 2 0 - -"] {
            let unlike = [(HEADER, ["7 1 - 0"; 2]), (TEXT, ["7 1 0 - -", second])];
            assert_eq!(held(&unlike).difference().as_deref(), Some(DIFFERENCE));
        }
    }

    #[test]
    fn refusals_alone_fail() {
        assert_eq!(faults(2, &[SEVEN, SEVEN].concat()), [NO_ZERO]);
        assert_eq!(faults(2, &[ZERO, ZERO].concat()), [NO_REFUSAL]);
        assert_eq!(faults(2, &[[(HEADER, "?"), (TEXT, "?")]].concat()), [NO_ZERO, NO_REFUSAL]);
        let one_of_ten = [ZERO, SEVEN].concat();
        let few = ["1 messages were answered 0", "1 messages were refused"];
        let found = faults(10, &one_of_ten);
        assert!(found.iter().zip(few).all(|(found, few)| found.starts_with(few)), "{found:?}");
        assert_eq!(found.len(), 2);
    }

    #[test]
    fn what_is_not_of_one_message_is_not_held() {
        let other = [
            [HEADER, HEADER],
            [TEXT, TEXT],
            [HEADER, "text 6e 42 7200 1024"],
            [HEADER, "text 6d 43 7200 1024"],
            ["header 6d 42 251", TEXT],
            [HEADER, "text 6d 42 7199 1024"],
            [HEADER, "text 6d 42 7200 1023"],
            [HEADER, "canadian 6d 7200 1024"],
            ["program 6d", TEXT],
        ];
        for [one, next] in other {
            assert_eq!(faults(1, &[(one, "0 0 -"), (next, "2 0 -")]), [NO_ZERO, NO_REFUSAL]);
        }
        let apart = [(HEADER, "0 0 5a 0"), ("read -", "17 -"), (TEXT, "7 1 0 - -")];
        assert_eq!(faults(1, &apart), [NO_ZERO, NO_REFUSAL]);
    }
}
