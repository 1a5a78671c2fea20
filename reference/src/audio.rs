//! The audio choice.

use crate::octets::Output;
use crate::value::Value;

/// The most bytes of a uri, for which the lent output must have room.
pub const URI: usize = 1024;

#[derive(Clone, Copy, Debug, Default, PartialEq, Eq)]
pub enum Audio {
    #[default]
    None = 0,
    Mp3 = 1,
    Wav = 2,
    Stream = 3,
}

impl Audio {
    /// What a resource of this mimeType is.
    pub(crate) fn of(mime_type: Value) -> Audio {
        if mime_type.is(b"audio/x-ipaws-audio-mp3") {
            Audio::Mp3
        } else if mime_type.is(b"audio/x-ipaws-audio-wav") {
            Audio::Wav
        } else if mime_type.is(b"audio/x-ipaws-streaming-audio-mp3") {
            Audio::Stream
        } else {
            Audio::None
        }
    }
}

/// Whether a uri may be chosen: 1 to 1,024 bytes, each 32 to 126.
pub fn is_suitable(uri: Value) -> bool {
    let length = uri.take(URI + 1).count();
    (1..=URI).contains(&length) && uri.take(URI).all(|character| matches!(character, ' '..='~'))
}

/// Writes the uri of an audio choice, nothing without audio, and returns its length.
pub fn put_uri(audio: Audio, value: Value, uri: &mut [u8]) -> usize {
    let mut uri = Output::on(uri);
    if audio != Audio::None {
        uri.put_each(value);
    }
    uri.length()
}

#[cfg(test)]
mod tests {
    use super::*;

    #[test]
    fn a_suitable_uri_is_of_its_range_and_length() {
        let suitable = |uri: &str| is_suitable(Value::of(uri.as_bytes()));
        assert!(suitable("u") && suitable(" a\n b~ ") && suitable(&"u".repeat(URI)));
        assert!(!suitable("") && !suitable(" \n ") && !suitable(&"u".repeat(URI + 1)));
        for character in ["\u{7f}", "é", "\u{120}", "&#233;", "\u{a0}", "\u{10ffff}"] {
            assert!(!suitable(character) && !suitable(&format!("u{character}")));
            assert!(!suitable(&("u".repeat(URI - 1) + character)));
        }
        assert!(!suitable(&"é".repeat(URI / 2)));
    }
}
