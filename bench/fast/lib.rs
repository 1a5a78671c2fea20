//! The two calls of the conversion as fast as plain Rust has them: a second measure beside the independent converter, which is written to be read. One pass over the
//! message, no heap; every value stays where it stands in the message until an answer needs it, but the long texts where a text is asked for, which are collapsed as
//! they pass, and read again only where so many of their characters have several bytes that they did not fit. It is built twice: text by words of eight bytes and
//! blocks of sixteen, and, with `by_bytes`, byte by byte, as a good converter is that does not go by blocks.

mod alert;
mod attributes;
mod block;
mod character;
mod clock;
mod info;
mod judge;
mod leaf;
mod locations;
mod output;
mod pairs;
mod reader;
mod reference;
mod tags;
mod word;
mod wording;
mod words;

use alert::Alert;
use judge::judge;
use output::Output;
use words::Parts;

const LONGEST_MESSAGE: usize = 32_768;
const HEADER: usize = 252;
const TEXT: usize = 7200;
const URI: usize = 1024;
const STATION: usize = 8;

/// The number of a refusal, and the field after number 7 (otherwise 0).
pub struct Refused {
    pub number: u8,
    pub field: u8,
}

impl Refused {
    const fn with(number: u8) -> Refused {
        Refused { number, field: 0 }
    }
}

/// The length of the header that was written, and must-carry. Nothing for a quiet Cancel.
#[derive(Default)]
pub struct Headed {
    pub header: usize,
    pub carry: bool,
}

/// The audio choice, and the lengths of its uri and of the text that were written. All nothing for a quiet Cancel.
#[derive(Default)]
pub struct Worded {
    pub audio: u8,
    pub uri: usize,
    pub text: usize,
}

/// Writes a message's header into the lent output; numbers 2 to 14.
pub fn header(message: &[u8], station: &[u8], header: &mut [u8]) -> Result<Headed, Refused> {
    if header.len() < HEADER {
        return Err(Refused::with(2));
    }
    let alert = read(message, station, None)?;
    let Some(activation) = judge(&alert)? else {
        return Ok(Headed::default());
    };
    Ok(Headed {
        header: wording::put_header(&activation, station, &mut Output::on(header)),
        carry: activation.info.carry.is_some_and(|leaf| leaf.is(b"True")),
    })
}

/// Writes a message's text and its uri into the lent outputs; numbers 2 to 14.
pub fn text(
    message: &[u8],
    station: &[u8],
    text: &mut [u8],
    uri: &mut [u8],
) -> Result<Worded, Refused> {
    if text.len() < TEXT || uri.len() < URI {
        return Err(Refused::with(2));
    }
    let mut parts = Parts::new();
    let alert = read(message, station, Some(&mut parts))?;
    let Some(activation) = judge(&alert)? else {
        return Ok(Worded::default());
    };
    Ok(Worded {
        audio: activation.info.audio,
        uri: wording::put_uri(activation.info, &mut Output::on(uri)),
        text: wording::put_text(&activation, &mut parts, &mut Output::on(text)),
    })
}

/// Numbers 3 to 5: what is read in a message, the long texts into parts where there are any.
fn read<'a>(
    message: &'a [u8],
    station: &[u8],
    parts: Option<&mut Parts>,
) -> Result<Alert<'a>, Refused> {
    if !is_station(station) {
        return Err(Refused::with(3));
    }
    if message.is_empty() || message.len() > LONGEST_MESSAGE {
        return Err(Refused::with(4));
    }
    alert::read(message, parts).map_err(|_| Refused::with(5))
}

fn is_station(station: &[u8]) -> bool {
    station.len() == STATION
        && station.iter().all(|b| matches!(b, 32..=126) && !matches!(b, b'-' | b'+'))
}
