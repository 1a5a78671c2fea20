//! Characters: which are legal in XML, and those of several bytes.

pub fn is_legal(character: char) -> bool {
    matches!(character, '\t' | '\n' | '\r' | ' '..='\u{fffd}' | '\u{10000}'..)
}

pub fn is_utf8(bytes: &[u8]) -> bool {
    bytes.is_ascii() || std::str::from_utf8(bytes).is_ok()
}

/// The length of the character that some bytes, the first of them above 127, begin with, if it is UTF-8 and legal in XML.
#[inline(always)]
pub fn wide(bytes: &[u8]) -> Option<usize> {
    match bytes {
        [0xc2..=0xdf, 0x80..=0xbf, ..] => Some(2),
        _ => wider(bytes),
    }
}

#[inline(never)]
fn wider(bytes: &[u8]) -> Option<usize> {
    match bytes {
        [0xef, 0xbf, 0xbe | 0xbf, ..] => None,
        [0xe0, 0xa0..=0xbf, 0x80..=0xbf, ..]
        | [0xe1..=0xec | 0xee | 0xef, 0x80..=0xbf, 0x80..=0xbf, ..]
        | [0xed, 0x80..=0x9f, 0x80..=0xbf, ..] => Some(3),
        [0xf0, 0x90..=0xbf, 0x80..=0xbf, 0x80..=0xbf, ..]
        | [0xf1..=0xf3, 0x80..=0xbf, 0x80..=0xbf, 0x80..=0xbf, ..]
        | [0xf4, 0x80..=0x8f, 0x80..=0xbf, 0x80..=0xbf, ..] => Some(4),
        _ => None,
    }
}

/// Whether a byte is the first of a character.
#[inline(always)]
pub fn is_first(byte: u8) -> bool {
    !matches!(byte, 0x80..=0xbf)
}
