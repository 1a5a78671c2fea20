//! What a leaf or an attribute says: its text decoded, and white space collapsed.

use crate::characters::{ascii, first_character, is_white};
use crate::markup::reference;

/// The decoded text of well formed content without elements: references stand for their
/// characters, comments for nothing.
#[derive(Clone, Copy)]
pub struct Decoded<'a> {
    rest: &'a [u8],
}

impl<'a> Decoded<'a> {
    pub fn of(content: &'a [u8]) -> Decoded<'a> {
        Decoded { rest: content }
    }

    /// Whether it is these words of ASCII.
    pub fn is(self, words: &[u8]) -> bool {
        self.eq(words.iter().map(|b| char::from(*b)))
    }
}

impl Decoded<'_> {
    /// What a reference stands for, or what comes after comments. An element ends the text:
    /// a leaf that holds one is at fault, and its text is never used.
    fn marked(&mut self) -> Option<char> {
        while let Some(inside) = self.rest.strip_prefix(b"<!--") {
            let end = inside.windows(3).position(|three| three == b"-->")?;
            self.rest = &inside[end + b"-->".len()..];
        }
        let (character, length) = match self.rest.first()? {
            b'&' => reference(self.rest)?,
            b'<' => return None,
            _ => first_character(self.rest)?,
        };
        self.rest = &self.rest[length..];
        Some(character)
    }
}

impl Iterator for Decoded<'_> {
    type Item = char;

    #[inline]
    fn next(&mut self) -> Option<char> {
        let (character, length) = first_character(self.rest)?;
        if matches!(character, '<' | '&') {
            return self.marked();
        }
        self.rest = &self.rest[length..];
        Some(character)
    }
}

/// A leaf's value: decoded, its ends trimmed, each run of white space one space.
#[derive(Clone, Copy)]
pub struct Value<'a> {
    text: Decoded<'a>,
    begun: bool,
}

impl<'a> Value<'a> {
    pub fn of(content: &'a [u8]) -> Value<'a> {
        Value { text: Decoded::of(content), begun: false }
    }

    /// Whether it is these words of ASCII.
    pub fn is(self, words: &[u8]) -> bool {
        self.eq(words.iter().map(|b| char::from(*b)))
    }

    /// Whether it is these words of ASCII, their letters in any case.
    pub fn is_in_any_case(self, words: &[u8]) -> bool {
        let words = words.iter().map(|b| char::from(b.to_ascii_lowercase()));
        self.map(|character| character.to_ascii_lowercase()).eq(words)
    }

    pub fn is_empty(mut self) -> bool {
        self.next().is_none()
    }

    /// The next N characters if all are of ASCII.
    pub fn next_ascii<const N: usize>(&mut self) -> Option<[u8; N]> {
        let mut bytes = [0; N];
        for b in &mut bytes {
            *b = ascii(self.next()?)?;
        }
        Some(bytes)
    }

    /// The value if it is exactly N characters of ASCII.
    pub fn exactly<const N: usize>(mut self) -> Option<[u8; N]> {
        let bytes = self.next_ascii()?;
        self.is_empty().then_some(bytes)
    }
}

impl Value<'_> {
    /// The space that a run of white space gives, whose first character is passed, or the
    /// character after the run at the start. At the end a run gives nothing.
    fn gap(&mut self) -> Option<char> {
        let mut after = self.text;
        while is_white(after.next()?) {
            self.text = after;
        }
        if self.begun {
            Some(' ')
        } else {
            self.next()
        }
    }
}

impl Iterator for Value<'_> {
    type Item = char;

    #[inline]
    fn next(&mut self) -> Option<char> {
        let character = self.text.next()?;
        if is_white(character) {
            return self.gap();
        }
        self.begun = true;
        Some(character)
    }
}

/// A sender or an identifier: 1 to 64 bytes of its own range.
#[derive(Clone, Copy)]
pub struct Word {
    bytes: [u8; Word::LONGEST],
    length: usize,
}

impl Word {
    pub const LONGEST: usize = 64;

    /// The characters up to the first that no word holds, which is given too.
    pub fn take(from: &mut Value) -> (Word, Option<char>) {
        let mut word = Word { bytes: [0; Word::LONGEST], length: 0 };
        for character in from {
            match ascii(character).filter(|b| is_word_byte(*b)) {
                Some(b) if word.length < Word::LONGEST => {
                    word.bytes[word.length] = b;
                    word.length += 1;
                }
                _ => return (word, Some(character)),
            }
        }
        (word, None)
    }

    pub fn is_empty(&self) -> bool {
        self.length == 0
    }

    /// The word, zeros after it.
    pub fn filled(&self) -> &[u8; Word::LONGEST] {
        &self.bytes
    }
}

pub fn is_word_byte(b: u8) -> bool {
    matches!(b, 33..=126) && !matches!(b, b',' | b'<' | b'&')
}
