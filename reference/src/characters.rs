//! Characters: read from UTF-8 as RFC 3629 has it, and which of them XML 1.0 allows.

/// The character at the start of some bytes, and how many of them it takes; None where the bytes
/// are not well formed there.
#[inline]
pub fn first_character(bytes: &[u8]) -> Option<(char, usize)> {
    let first = *bytes.first()?;
    if first.is_ascii() {
        return Some((char::from(first), 1));
    }
    long_character(first, bytes)
}

/// A character of two to four bytes: the first says how many, each of the others carries six bits.
fn long_character(first: u8, bytes: &[u8]) -> Option<(char, usize)> {
    let (length, bits, least) = match first {
        0xc0..=0xdf => (2, first & 0x1f, 0x80),
        0xe0..=0xef => (3, first & 0x0f, 0x800),
        0xf0..=0xf7 => (4, first & 0x07, 0x1_0000),
        _ => return None,
    };
    let mut number = u32::from(bits);
    for b in bytes.get(1..length)? {
        if !is_tail(*b) {
            return None;
        }
        number = number << 6 | u32::from(b & 0x3f);
    }
    // A number below the least has a shorter form. Surrogates and what lies above 10FFFF are no
    // characters.
    if number < least {
        return None;
    }
    Some((char::from_u32(number)?, length))
}

/// Whether a byte is one behind the first of a character.
pub fn is_tail(b: u8) -> bool {
    b & 0xc0 == 0x80
}

pub fn is_well_formed(mut bytes: &[u8]) -> bool {
    while let Some((_, length)) = first_character(bytes) {
        bytes = &bytes[length..];
    }
    bytes.is_empty()
}

/// Whether XML 1.0 has the character: what may stand in a message outside its declaration.
#[inline]
pub fn is_legal(character: char) -> bool {
    matches!(
        character,
        '\t' | '\n' | '\r' | ' '..='\u{d7ff}' | '\u{e000}'..='\u{fffd}' | '\u{10000}'..='\u{10ffff}'
    )
}

pub fn is_white(character: char) -> bool {
    matches!(character, '\t' | '\n' | '\r' | ' ')
}

/// A character of ASCII as its byte.
pub fn ascii(character: char) -> Option<u8> {
    u8::try_from(character).ok().filter(u8::is_ascii)
}

#[cfg(test)]
mod tests {
    use super::*;

    /// The first and the last character of each length, and the neighbours of what is left out.
    const BORDERS: [(u32, &[u8]); 18] = [
        (0, b"\x00"),
        (0x41, b"A"),
        (0x7f, b"\x7f"),
        (0x80, b"\xc2\x80"),
        (0xbf, b"\xc2\xbf"),
        (0xc0, b"\xc3\x80"),
        (0x7ff, b"\xdf\xbf"),
        (0x800, b"\xe0\xa0\x80"),
        (0xfff, b"\xe0\xbf\xbf"),
        (0x1000, b"\xe1\x80\x80"),
        (0xd7ff, b"\xed\x9f\xbf"),
        (0xe000, b"\xee\x80\x80"),
        (0xfffd, b"\xef\xbf\xbd"),
        (0xffff, b"\xef\xbf\xbf"),
        (0x1_0000, b"\xf0\x90\x80\x80"),
        (0x3_ffff, b"\xf0\xbf\xbf\xbf"),
        (0x4_0000, b"\xf1\x80\x80\x80"),
        (0x10_ffff, b"\xf4\x8f\xbf\xbf"),
    ];

    fn number(bytes: &[u8]) -> Option<(u32, usize)> {
        first_character(bytes).map(|(character, length)| (u32::from(character), length))
    }

    #[test]
    fn the_borders_of_each_length_are_read() {
        for (wanted, bytes) in BORDERS {
            assert_eq!(number(bytes), Some((wanted, bytes.len())), "for {bytes:x?}");
            for behind in [&b"\x80"[..], b"A", b"\xff"] {
                let longer = [bytes, behind].concat();
                assert_eq!(number(&longer), Some((wanted, bytes.len())), "for {longer:x?}");
            }
        }
    }

    #[test]
    fn characters_that_are_cut_are_malformed() {
        for (_, bytes) in BORDERS {
            for length in 0..bytes.len() {
                assert_eq!(number(&bytes[..length]), None);
                for behind in [&b"A"[..], b"\xc3\xa9", b"\xff", b"\x00\x00\x00"] {
                    let cut = [&bytes[..length], behind].concat();
                    assert!(length == 0 || number(&cut).is_none(), "for {cut:x?}");
                }
            }
        }
    }

    #[test]
    fn longer_forms_surrogates_and_stray_bytes_are_malformed() {
        let malformed: [&[u8]; 24] = [
            b"",
            b"\x80",
            b"\xbf",
            b"\xc0\x80",
            b"\xc0\xbf",
            b"\xc1\x81",
            b"\xc1\xbf",
            b"\xe0\x80\x80",
            b"\xe0\x81\x81",
            b"\xe0\x9f\xbf",
            b"\xed\xa0\x80",
            b"\xed\xaf\xbf",
            b"\xed\xb0\x80",
            b"\xed\xbf\xbf",
            b"\xf0\x80\x80\x80",
            b"\xf0\x80\x81\x81",
            b"\xf0\x8f\xbf\xbf",
            b"\xf4\x90\x80\x80",
            b"\xf5\x80\x80\x80",
            b"\xf7\xbf\xbf\xbf",
            b"\xf8\x88\x80\x80\x80",
            b"\xfc\x84\x80\x80\x80\x80",
            b"\xfe\xbf\xbf\xbf",
            b"\xff\xff\xff\xff",
        ];
        for bytes in malformed {
            assert_eq!(number(bytes), None, "for {bytes:x?}");
        }
    }

    /// Every two bytes, and every four of which each is at a border of some range.
    #[test]
    fn what_is_well_formed_is_what_std_takes() {
        let agree = |bytes: &[u8]| {
            assert_eq!(is_well_formed(bytes), std::str::from_utf8(bytes).is_ok(), "{bytes:x?}");
        };
        for pair in 0..=u16::MAX {
            agree(&pair.to_be_bytes());
        }
        let borders: [u8; 29] = [
            0x00, 0x41, 0x7f, 0x80, 0x81, 0x8f, 0x90, 0x9f, 0xa0, 0xbe, 0xbf, 0xc0, 0xc1, 0xc2,
            0xdf, 0xe0, 0xe1, 0xec, 0xed, 0xee, 0xef, 0xf0, 0xf1, 0xf3, 0xf4, 0xf5, 0xf7, 0xf8,
            0xff,
        ];
        let mut four = [0; 4];
        for place in 0..borders.len().pow(4) {
            let mut left = place;
            for b in &mut four {
                *b = borders[left % borders.len()];
                left /= borders.len();
            }
            agree(&four);
        }
    }

    #[test]
    fn every_character_is_read_back() {
        for character in '\0'..=char::MAX {
            let mut bytes = [0; 4];
            let length = character.encode_utf8(&mut bytes).len();
            assert_eq!(first_character(&bytes[..length]), Some((character, length)));
        }
    }

    #[test]
    fn legal_characters_are_those_of_xml() {
        for (first, last) in [(0x20, 0xd7ff), (0xe000, 0xfffd), (0x1_0000, 0x10_ffff)] {
            for number in first..=last {
                assert!(is_legal(char::from_u32(number).unwrap()), "for {number:x}");
            }
        }
        let legal = ('\0'..='\u{1f}').filter(|character| is_legal(*character));
        assert!(legal.eq(['\t', '\n', '\r']));
        assert!(!is_legal('\u{fffe}') && !is_legal('\u{ffff}'));
    }

    #[test]
    fn white_space_and_ascii_end_where_they_ended() {
        let white = ('\0'..=char::MAX).filter(|character| is_white(*character));
        assert!(white.eq(['\t', '\n', '\r', ' ']));
        assert_eq!(ascii('\u{7f}'), Some(0x7f));
        for character in ['\u{80}', '\u{e9}', '\u{141}', '\u{10041}'] {
            assert_eq!(ascii(character), None);
        }
    }
}
