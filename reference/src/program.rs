//! What the program prints for a message on its standard input.

use crate::audio::{Audio, URI};
use crate::convert;
use crate::header::HEADER;
use crate::octets::Output;
use crate::refusal::Refusal;
use crate::wording::TEXT;

/// Room for everything that the program can print.
pub const LINES: usize = 64 + HEADER + TEXT + URI;

const STATION: &[u8] = b"BENCH/01";

/// Writes the lines for a message and returns their length.
pub fn program(message: &[u8], lines: &mut [u8; LINES]) -> usize {
    let (mut header, mut text, mut uri) = ([0; HEADER], [0; TEXT], [0; URI]);
    let headed = convert::header(message, STATION, &mut header);
    let worded = convert::text(message, STATION, &mut text, &mut uri);
    let mut lines = Output::on(lines);
    match headed.and_then(|headed| Ok((headed, worded?))) {
        Err(refusal) => put_number(refusal, &mut lines),
        Ok((headed, worded)) => {
            put_number(Refusal::of(0), &mut lines);
            put_line(b"header ", &header[..headed.header], &mut lines);
            put_line(audio_words(worded.audio), &uri[..worded.uri], &mut lines);
            put_line(b"carry ", if headed.carry { b"yes" } else { b"no" }, &mut lines);
            put_line(b"text ", &text[..worded.text], &mut lines);
        }
    }
    lines.length()
}

fn put_number(answer: Refusal, lines: &mut Output) {
    lines.put(b"number ");
    lines.put_number(answer.number.into(), if answer.number < 10 { 1 } else { 2 });
    lines.put(b" field ");
    lines.put_number(answer.field.into(), 1);
    lines.put(b"\n");
}

/// A line of a label and its value, `none` where that is empty.
fn put_line(label: &[u8], value: &[u8], lines: &mut Output) {
    lines.put(label);
    lines.put(if value.is_empty() { b"none" } else { value });
    lines.put(b"\n");
}

fn audio_words(audio: Audio) -> &'static [u8] {
    match audio {
        Audio::None => b"audio ",
        Audio::Mp3 => b"audio mp3 ",
        Audio::Wav => b"audio wav ",
        Audio::Stream => b"audio stream ",
    }
}
