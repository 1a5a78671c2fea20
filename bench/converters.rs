//! The four that are measured: our conversion, the independent converter's, and a fast one's, which goes byte by byte or by blocks of bytes. Each has two calls, one
//! for header and must-carry, one for text and audio.

use std::hint::black_box;

extern "C" {
    fn stuiverhaag_header(
        message: *const u8,
        message_length: usize,
        station: *const u8,
        station_length: usize,
        header: *mut u8,
        header_length: usize,
    ) -> u64;
    fn stuiverhaag_text(
        message: *const u8,
        message_length: usize,
        station: *const u8,
        station_length: usize,
        text: *mut u8,
        text_length: usize,
        uri: *mut u8,
        uri_length: usize,
    ) -> u64;
}

const STATION: &[u8; 8] = b"BENCH/01";

/// Lent outputs.
#[derive(PartialEq)]
pub struct Outputs {
    header: [u8; 252],
    text: [u8; 7200],
    uri: [u8; 1024],
}

impl Outputs {
    pub fn new() -> Outputs {
        Outputs { header: [0; 252], text: [0; 7200], uri: [0; 1024] }
    }

    /// Clears the outputs of what is asked.
    pub fn clear(&mut self, asked: Asked) {
        if asked.has_header() {
            self.header.fill(0);
        }
        if asked.has_text() {
            self.text.fill(0);
            self.uri.fill(0);
        }
    }
}

/// What is asked: both calls, one after the other, or one of them alone.
#[derive(Clone, Copy, PartialEq)]
pub enum Asked {
    Both,
    Header,
    Text,
}

pub const ASKED: [Asked; 3] = [Asked::Both, Asked::Header, Asked::Text];

impl Asked {
    /// As an argument of the program.
    pub fn name(self) -> &'static str {
        match self {
            Asked::Both => "both",
            Asked::Header => "header",
            Asked::Text => "text",
        }
    }

    pub fn label(self) -> &'static str {
        match self {
            Asked::Both => "both calls",
            Asked::Header => "header alone",
            Asked::Text => "text alone",
        }
    }

    fn has_header(self) -> bool {
        self != Asked::Text
    }

    fn has_text(self) -> bool {
        self != Asked::Header
    }
}

/// Converts into lent outputs; the answer is packed as include/stuiverhaag.h says.
type Call = fn(&[u8], &mut Outputs) -> u64;

pub struct Converter {
    pub name: &'static str,
    header: Call,
    text: Call,
}

impl Converter {
    pub fn ask(&self, asked: Asked, message: &[u8], out: &mut Outputs) {
        if asked.has_header() {
            black_box((self.header)(message, out));
        }
        if asked.has_text() {
            black_box((self.text)(message, out));
        }
    }

    /// What both calls answer, and the outputs behind them.
    fn answers(&self, message: &[u8]) -> ([u64; 2], Outputs) {
        let mut out = Outputs::new();
        ([(self.header)(message, &mut out), (self.text)(message, &mut out)], out)
    }
}

/// A converter in Rust, by the crate that has its calls.
macro_rules! in_rust {
    ($name:literal, $library:ident) => {
        Converter {
            name: $name,
            header: |message, out| match $library::header(message, STATION, &mut out.header) {
                Ok(done) => (done.header as u64) << 16 | u64::from(done.carry) << 28,
                Err(refusal) => refused(refusal.number, refusal.field),
            },
            text: |message, out| match $library::text(message, STATION, &mut out.text, &mut out.uri)
            {
                Ok(done) => {
                    (done.audio as u64) << 24 | (done.uri as u64) << 32 | (done.text as u64) << 48
                }
                Err(refusal) => refused(refusal.number, refusal.field),
            },
        }
    };
}

fn refused(number: u8, field: u8) -> u64 {
    u64::from(number) | u64::from(field) << 8
}

/// Ours is the first.
pub const CONVERTERS: [Converter; COUNT] = [
    Converter { name: "ours", header: our_header, text: our_text },
    in_rust!("reference", reference),
    in_rust!("bytes", bytes),
    in_rust!("blocks", blocks),
];

pub const COUNT: usize = 4;

fn our_header(message: &[u8], out: &mut Outputs) -> u64 {
    // SAFETY: each pointer is to as many bytes as its length says, and none of the slices overlap.
    unsafe {
        stuiverhaag_header(
            message.as_ptr(),
            message.len(),
            STATION.as_ptr(),
            STATION.len(),
            out.header.as_mut_ptr(),
            out.header.len(),
        )
    }
}

fn our_text(message: &[u8], out: &mut Outputs) -> u64 {
    // SAFETY: as above.
    unsafe {
        stuiverhaag_text(
            message.as_ptr(),
            message.len(),
            STATION.as_ptr(),
            STATION.len(),
            out.text.as_mut_ptr(),
            out.text.len(),
            out.uri.as_mut_ptr(),
            out.uri.len(),
        )
    }
}

/// The number that both calls of all of them answer to a message; none where an answer or an output differs, or the number or field of the two calls.
pub fn alike(message: &[u8]) -> Option<u8> {
    let [first, others @ ..] = CONVERTERS.each_ref().map(|converter| converter.answers(message));
    let [header, text] = first.0;
    let alike = header as u16 == text as u16 && others.iter().all(|other| *other == first);
    alike.then_some(header as u8)
}
