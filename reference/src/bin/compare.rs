//! Compares answers to the same case lines:
//! `compare [--calls CALLS] [--least COUNT] CASES NAME=ANSWERS NAME=ANSWERS ..`
//! CALLS, joined by commas, are the calls that must have been compared, each at least COUNT
//! times and with each number and kind of answer often enough. A comparison of nothing fails.
//! Header and text of one message, next to each other, must have the same number and field.
//! With `--pairs unread` or `--pairs read` the cases come in pairs, by what differs in their
//! messages, and COUNT pairs must have been compared in all.

#[path = "compare/both.rs"]
mod both;
#[path = "compare/floors.rs"]
mod floors;
#[path = "compare/pairs.rs"]
mod pairs;
#[path = "compare/sources.rs"]
mod sources;
#[path = "compare/tally.rs"]
mod tally;

use std::process::ExitCode;

use floors::{all_calls, known_call};
use pairs::{compare_pairs, Differing};
use sources::Source;
use tally::compare;

struct Arguments {
    calls: Vec<&'static str>,
    least: usize,
    pairs: Option<Differing>,
    cases: String,
    answers: Vec<(String, String)>,
}

impl Arguments {
    fn read(mut given: impl Iterator<Item = String>) -> Result<Arguments, String> {
        let mut calls = all_calls().collect();
        let mut least = 1;
        let mut pairs = None;
        let mut paths = Vec::new();
        while let Some(argument) = given.next() {
            let mut value = || given.next().ok_or(format!("A value is missing after {argument}."));
            match argument.as_str() {
                "--calls" => calls = known_calls(&value()?)?,
                "--least" => least = positive(&value()?)?,
                "--pairs" => pairs = Some(Differing::named(&value()?)?),
                _ => paths.push(argument),
            }
        }
        if paths.len() < 3 {
            return Err("Give a file of cases and two or more NAME=ANSWERS.".to_string());
        }
        let answers = paths.split_off(1);
        let answers = answers.iter().map(|named| name_and_path(named)).collect::<Result<_, _>>()?;
        Ok(Arguments { calls, least, pairs, cases: paths.remove(0), answers })
    }
}

fn name_and_path(named: &str) -> Result<(String, String), String> {
    match named.split_once('=') {
        Some((name, path)) => Ok((name.to_string(), path.to_string())),
        None => Err(format!("{named} is not of the form NAME=ANSWERS.")),
    }
}

fn positive(text: &str) -> Result<usize, String> {
    match text.parse() {
        Ok(number) if number > 0 => Ok(number),
        _ => Err(format!("{text} is no number from 1 on.")),
    }
}

fn known_calls(names: &str) -> Result<Vec<&'static str>, String> {
    let known = |name: &str| known_call(name).ok_or(format!("There is no call {name}."));
    names.split(',').map(known).collect()
}

fn run() -> Result<(), String> {
    let Arguments { calls, least, pairs, cases, answers } =
        Arguments::read(std::env::args().skip(1))?;
    let cases = Source::open("the cases", &cases)?;
    let sources = answers.iter().map(|(name, path)| Source::open(name, path));
    let sources = sources.collect::<Result<_, _>>()?;
    let faults = match pairs {
        None => {
            let tally = compare(cases, sources)?;
            tally.print(&calls);
            tally.faults(&calls, least)
        }
        Some(differing) => {
            let pairs = compare_pairs(differing, cases, sources)?;
            pairs.print(&calls);
            pairs.faults(&calls, least)
        }
    };
    if faults.is_empty() {
        return Ok(());
    }
    Err(faults.join("\n"))
}

fn main() -> ExitCode {
    match run() {
        Ok(()) => ExitCode::SUCCESS,
        Err(sentences) => {
            eprintln!("{sentences}");
            ExitCode::FAILURE
        }
    }
}
