//! References: `&amp;` and its like, `&#38;`, `&#x26;`.

use super::character::is_legal;

const MOST_DIGITS: usize = 7;

/// The reference at the start of some bytes: the character that it stands for, and its length.
pub fn reference(bytes: &[u8]) -> Option<(char, usize)> {
    match bytes {
        [b'&', b'a', b'm', b'p', b';', ..] => Some(('&', 5)),
        [b'&', b'l', b't', b';', ..] => Some(('<', 4)),
        [b'&', b'g', b't', b';', ..] => Some(('>', 4)),
        [b'&', b'q', b'u', b'o', b't', b';', ..] => Some(('"', 6)),
        [b'&', b'a', b'p', b'o', b's', b';', ..] => Some(('\'', 6)),
        [b'&', b'#', b'x', digits @ ..] => numbered(digits, 16, 3),
        [b'&', b'#', digits @ ..] => numbered(digits, 10, 2),
        _ => None,
    }
}

/// A reference by its digits, which stand so many bytes behind its start.
fn numbered(digits: &[u8], radix: u32, start: usize) -> Option<(char, usize)> {
    let count = digits.iter().take(MOST_DIGITS + 1).position(|b| *b == b';')?;
    let mut number = 0;
    for byte in &digits[..count] {
        number = number * radix + char::from(*byte).to_digit(radix)?;
    }
    // Without digits the number is 0, which is not legal.
    let character = char::from_u32(number).filter(|character| is_legal(*character))?;
    Some((character, start + count + 1))
}

/// Whether the value of an attribute, decoded, is a word of ASCII without `&`.
pub fn decodes_to(value: &[u8], word: &[u8]) -> bool {
    value == word || value.contains(&b'&') && decodes_one_by_one(value, word)
}

#[cold]
fn decodes_one_by_one(mut value: &[u8], word: &[u8]) -> bool {
    for wanted in word {
        let first = first(value).filter(|(character, _)| *character == char::from(*wanted));
        let Some((_, length)) = first else {
            return false;
        };
        value = &value[length..];
    }
    value.is_empty()
}

/// The first character of a value, and its length; where it has several bytes the first of them, which no word of ASCII has.
fn first(value: &[u8]) -> Option<(char, usize)> {
    match value.first()? {
        b'&' => reference(value),
        byte => Some((char::from(*byte), 1)),
    }
}
