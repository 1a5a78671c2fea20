//! bench MESSAGES SEED: our conversion, the independent converter's and a fast one's, on the same messages, in one run: so many generated ones of each set, by both
//! calls one after the other and by each alone, and the worst beside plain text, by both. Every answer is compared: number, field, lengths, and every byte of the
//! outputs; those to damaged copies too, which are not timed. Nothing is said of times where two answers differ. bench count SET CALLS CONVERTER MESSAGES SEED, CALLS
//! being both, header or text: only asks so many of one of them, and prints their bytes.

mod converters;
mod damage;
mod messages;
mod times;
mod worst;

use converters::{alike, Asked, Converter, Outputs, ASKED, CONVERTERS, COUNT};
use damage::damaged;
use messages::{message, Numbers, Spelling, SPELLINGS};
use std::process::ExitCode;
use std::time::Duration;
use times::{timed, Times};

/// How many messages are held at a time.
const HELD: u64 = 200;

/// How many damaged copies of each are compared.
const COPIES: usize = 2;

/// Of the worst messages the median of so many conversions counts, and of as many more as end within this time.
const ROUNDS: usize = 11;
const WHILE: Duration = Duration::from_millis(300);

/// Messages that were answered alike.
#[derive(Default)]
struct Tally {
    messages: usize,
    bytes: usize,
    zeros: usize,
}

impl Tally {
    fn add(&mut self, message: &[u8]) -> Result<(), String> {
        let number = alike(message).ok_or("An answer differs: nothing is said of times.")?;
        self.messages += 1;
        self.bytes += message.len();
        self.zeros += usize::from(number == 0);
        Ok(())
    }

    /// One line; where all were answered 0, or all refused, next to nothing was compared.
    fn print(&self, what: &str) -> Result<(), String> {
        let refused = self.messages - self.zeros;
        if self.zeros == 0 || refused == 0 {
            return Err(format!(
                "Of the {what} {} were answered 0, {refused} refused.",
                self.zeros
            ));
        }
        println!(
            "{} {what} of {} bytes on average, {} answered 0, {refused} refused, all alike by all four, number and field alike by both calls",
            self.messages,
            self.bytes / self.messages,
            self.zeros
        );
        Ok(())
    }
}

/// Generated messages of a set and damaged copies of them are compared, and the generated ones timed.
fn measure(spelling: &Spelling, count: u64, seed: u64) -> Result<(), String> {
    let mut numbers = Numbers::new(seed);
    let (mut whole, mut broken) = (Tally::default(), Tally::default());
    let (mut times, mut out) = (ASKED.map(Times::of), Outputs::new());
    for _ in 0..count.div_ceil(HELD) {
        let held: Vec<Vec<u8>> = (0..HELD).map(|_| message(&mut numbers, spelling)).collect();
        for message in &held {
            whole.add(message)?;
            for _ in 0..COPIES {
                broken.add(&damaged(message, &mut numbers))?;
            }
        }
        for times in &mut times {
            times.add(&held, &mut out);
        }
    }
    println!("{}:", spelling.set);
    whole.print("messages")?;
    broken.print("damaged copies")?;
    for times in &times {
        times.print();
    }
    Ok(())
}

/// The median time of both calls.
fn median(message: &Vec<u8>, converter: &Converter) -> Duration {
    let mut out = Outputs::new();
    let (mut times, mut all) = (Vec::new(), Duration::ZERO);
    while times.len() < ROUNDS || all < WHILE {
        let time = timed(std::slice::from_ref(message), &mut out, Asked::Both, converter);
        times.push(time);
        all += time;
    }
    times.sort();
    times[times.len() / 2]
}

/// Prints how many times as long as plain text of their length the worst messages take.
fn measure_worst() -> Result<(), String> {
    let (plain, worst) = (worst::plain(), worst::messages());
    let mut all = worst.iter().map(|(_, message)| message).chain([&plain]);
    if !all.all(|message| alike(message) == Some(0)) {
        return Err("One of the worst messages is not answered 0 by all, and alike.".to_string());
    }
    let of_plain = CONVERTERS.each_ref().map(|converter| median(&plain, converter));
    println!(
        "{}: messages of {} bytes, median times; the others beside plain text",
        Asked::Both.label(),
        plain.len()
    );
    print_row("", CONVERTERS.each_ref().map(|converter| converter.name.to_string()));
    print_row("plain text", of_plain.map(|time| format!("{time:.1?}")));
    for (name, message) in &worst {
        let mut place = 0;
        let beside = CONVERTERS.each_ref().map(|converter| {
            let ratio = median(message, converter).as_secs_f64() / of_plain[place].as_secs_f64();
            place += 1;
            format!("{ratio:.2} x")
        });
        print_row(name, beside);
    }
    Ok(())
}

fn print_row(name: &str, columns: [String; COUNT]) {
    let columns = columns.map(|column| format!("{column:>11}"));
    println!("{name:37}{}", columns.concat());
}

/// The call whose instructions are counted: one for all messages, so that the counting begins once and ends once.
#[no_mangle]
#[inline(never)]
pub fn counted_conversions(
    converter: &Converter,
    asked: Asked,
    messages: &[Vec<u8>],
    out: &mut Outputs,
) {
    for message in messages {
        converter.ask(asked, message, out);
    }
}

/// Asks one converter alone, and prints how many bytes.
fn count(set: &str, calls: &str, name: &str, count: u64, seed: u64) -> Result<(), String> {
    let spelling = SPELLINGS.iter().find(|spelling| spelling.set == set);
    let spelling = spelling.ok_or("There is no such set.")?;
    let asked = ASKED.into_iter().find(|asked| asked.name() == calls);
    let asked = asked.ok_or("There are no such calls.")?;
    let converter = CONVERTERS.iter().find(|converter| converter.name == name);
    let converter = converter.ok_or("There is no such converter.")?;
    let mut numbers = Numbers::new(seed);
    let messages: Vec<Vec<u8>> = (0..count).map(|_| message(&mut numbers, spelling)).collect();
    counted_conversions(converter, asked, &messages, &mut Outputs::new());
    println!("{}", messages.iter().map(Vec::len).sum::<usize>());
    Ok(())
}

fn run(words: &[String]) -> Result<(), String> {
    let number = |word: &String| word.parse::<u64>().map_err(|_| format!("{word} is no number."));
    match words {
        [messages, seed] => {
            for spelling in &SPELLINGS {
                measure(spelling, number(messages)?, number(seed)?)?;
            }
            measure_worst()
        }
        [word, set, calls, name, messages, seed] if word == "count" => {
            count(set, calls, name, number(messages)?, number(seed)?)
        }
        _ => Err("Give the number of messages and the seed.".to_string()),
    }
}

fn main() -> ExitCode {
    let words: Vec<String> = std::env::args().skip(1).collect();
    if let Err(why) = run(&words) {
        eprintln!("{why}");
        return ExitCode::FAILURE;
    }
    ExitCode::SUCCESS
}
