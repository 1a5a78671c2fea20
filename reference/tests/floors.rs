//! The floors of a comparison: one that met a number or a kind of answer too seldom is refused.

#[path = "floors/boards.rs"]
mod boards;
#[path = "floors/conversions.rs"]
mod conversions;
#[path = "../src/bin/compare/floors.rs"]
mod floors;

use boards::{hand_outs, lists, offers};
use conversions::{about, canadians, headers, texts};
use floors::{all_calls, number, Counts};

/// How often a case and its answer come, and the kinds that no other has.
struct Answered {
    often: usize,
    case: String,
    answer: String,
    brings: &'static [&'static str],
}

fn hex(bytes: &[u8]) -> String {
    bytes.iter().map(|b| format!("{b:02x}")).collect()
}

/// Cases of a call.
struct Cases {
    call: &'static str,
    all: Vec<Answered>,
}

impl Cases {
    fn put_of(
        &mut self,
        often: usize,
        case: String,
        answer: &str,
        brings: &'static [&'static str],
    ) {
        self.all.push(Answered { often, case, answer: answer.to_string(), brings });
    }
}

/// Cases of each call that has kinds, which meet its floors.
fn all_cases() -> [Cases; 6] {
    [headers(), texts(), canadians(), offers(), hand_outs(), lists()]
}

fn faults(call: &str, answers: &[(usize, String)]) -> Vec<String> {
    faults_of(call, answers.iter().map(|(often, answer)| (*often, call, answer.as_str())))
}

fn faults_of<'a>(
    call: &str,
    answered: impl Iterator<Item = (usize, &'a str, &'a str)>,
) -> Vec<String> {
    let mut counts = Counts::default();
    for (often, case, answer) in answered {
        for _ in 0..often {
            assert!(counts.add(case, answer), "{answer} is no answer of {call}.");
        }
    }
    counts.faults(call)
}

#[test]
fn enough_of_each_passes() {
    for Cases { call, all } in all_cases() {
        let found = faults_of(call, all.iter().map(|a| (a.often, &a.case[..], &a.answer[..])));
        assert!(found.is_empty(), "{found:?}");
    }
}

#[test]
fn a_kind_that_is_lacking_is_refused() {
    for Cases { call, all } in all_cases() {
        for (place, lacking) in all.iter().enumerate().filter(|(_, a)| !a.brings.is_empty()) {
            let others = all.iter().enumerate().filter(|(other, _)| *other != place);
            let others = others.map(|(_, a)| (a.often, &a.case[..], &a.answer[..]));
            let found = faults_of(call, others);
            let named =
                |what: &&str| found.iter().any(|f| f.contains(&format!(" with {what}, not ")));
            assert!(lacking.brings.iter().all(|what| named(&what)), "{:?}", lacking.brings);
            assert_eq!(found.len(), lacking.brings.len(), "{found:?}");
        }
    }
}

#[test]
fn a_character_elsewhere_is_none_of_a_value() {
    let kind = "number 12 for a character outside the value's range";
    let elsewhere = [
        "<value>CIV</value><description>é</description>",
        "<value a='é'>CIV</value>é",
        "<values>é</values>",
        "<value>a long text with a character é</value>",
    ];
    for message in elsewhere {
        let case = about("header", message);
        let found = faults_of("header", [(1, &case[..], "12 0 - 0")].into_iter());
        let sentence = format!("header was compared 0 times with {kind}, not 1.");
        assert!(found.contains(&sentence), "for {message}");
    }
}

#[test]
fn conversions_that_are_all_alike_are_refused() {
    let found = faults("header", &[(1000, "0 0 5a 1".to_string())]);
    let sentence = "header was compared 0 times with must-carry 0, not 226.";
    assert!(found.iter().any(|fault| fault == sentence), "{found:?}");
    let found = faults("text", &[(1000, "0 0 3 75 54".to_string())]);
    let sentence = "text was compared 0 times with audio 0, not 215.";
    assert!(found.iter().any(|fault| fault == sentence), "{found:?}");
}

#[test]
fn canadian_texts_that_are_all_broadcast_are_refused() {
    let found = faults("canadian", &[(1000, "0 0 1 75 4254".to_string())]);
    for what in ["a description, not 196", "audio 0, not 225"] {
        let sentence = format!("canadian was compared 0 times with {what}.");
        assert!(found.contains(&sentence), "{sentence}");
    }
}

#[test]
fn lists_that_have_one_row_and_one_notice_in_each_are_refused() {
    let found = faults("list", &[(1000, "0 1 3:1".to_string())]);
    for what in ["more than one row, not 80", "more than one notice in a row, not 37"] {
        let sentence = format!("list was compared 0 times with {what}.");
        assert!(found.contains(&sentence), "{sentence}");
    }
}

#[test]
fn what_is_none_of_a_kind_is_not_counted() {
    for (call, kind, case, answer) in boards::unlike().into_iter().chain(conversions::unlike()) {
        let found = faults_of(call, [(1, &case[..], answer)].into_iter());
        let sentence = format!("{call} was compared 0 times with {kind}, not 1.");
        assert!(found.contains(&sentence), "{sentence}");
    }
}

#[test]
fn a_number_that_a_call_can_give_and_did_not_is_refused() {
    let calls: [(&str, &[u32]); 9] = [
        ("header", &[0, 2, 3, 4, 5, 6, 7, 8, 9, 10, 11, 12, 13, 14]),
        ("text", &[0, 2, 3, 4, 5, 6, 7, 8, 9, 10, 11, 12, 13, 14]),
        ("canadian", &[0, 2, 4, 5, 6, 7, 8, 9, 18]),
        ("offer", &[0, 1, 4, 5, 6, 7, 8, 9, 10, 11, 12, 13, 14, 15]),
        ("handout", &[0, 1, 15, 16]),
        ("list", &[0, 1, 2]),
        ("read", &[0, 17]),
        ("write", &[0, 2, 3, 17]),
        ("program", &[0, 4, 5, 6, 7, 8, 9, 10, 11, 12, 13, 14]),
    ];
    assert!(all_calls().eq(calls.map(|(call, _)| call)));
    for (call, numbers) in calls {
        for given in numbers {
            let found = faults(call, &[(1, answer_of(call, *given))]);
            for number in numbers {
                let sentence = format!("{call} was compared 0 times with number {number}, not 1.");
                assert_eq!(found.contains(&sentence), number != given, "{sentence}");
            }
        }
    }
}

/// Some answer of this number.
fn answer_of(call: &str, number: u32) -> String {
    if call != "program" {
        return format!("{number} -");
    }
    format!("number {number} field 0\n").bytes().map(|b| format!("{b:02x}")).collect()
}

#[test]
fn one_answer_below_the_floor_is_refused() {
    let reads = |zeros| [(zeros, "0 CIV".to_string()), (1000 - zeros, "17 -".to_string())];
    assert!(faults("read", &reads(240)).is_empty());
    let found = faults("read", &reads(239));
    assert_eq!(found, ["read was compared 239 times with number 0, not 240."]);
}

#[test]
fn what_is_no_answer_is_not_counted() {
    let mut counts = Counts::default();
    for (call, answer) in [("read", "?"), ("reads", "0 CIV"), ("pair", "?"), ("program", "-")] {
        assert!(!counts.add(call, answer));
    }
    assert_eq!(counts.compared("read"), 0);
    assert_eq!(number("program", &answer_of("program", 10)), Some(10));
}

#[test]
fn counts_are_printed_by_number_and_by_kind() {
    let mut counts = Counts::default();
    for answer in ["0 2 3:1,0:2", "0 0 -", "2 0 -"] {
        assert!(counts.add("list", answer));
    }
    let lines = counts.lines("list");
    assert_eq!(lines[..2], ["list: 3 compared", "  by number  0: 2, 2: 1"]);
    let with = "more than one notice in a row: 1, more than one row: 1";
    assert!(lines[2].starts_with("  with  ") && lines[2].contains(with), "{}", lines[2]);
    assert_eq!(counts.lines("read"), ["read: 0 compared"]);
}
