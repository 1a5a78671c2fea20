//! Text as a value has it, decoded and with its white space collapsed, put together from blocks.

use super::block::{put_block, put_last_block, BLOCK};
use super::character::is_first;
use super::reader::{Reader, Step};
use super::word::{is_text, is_white};

/// Where less room than this is left nothing more is put: a block needs it, or a character of four bytes.
const LEAST_ROOM: usize = if BLOCK > 4 { BLOCK } else { 4 };

/// Room for the longest text, if few of its characters have several bytes; the less there is, the less has to be made ready. And room for any.
pub const ROOM: usize = 1824;
pub const WIDE_ROOM: usize = 7232;

/// A space and a value, as far as there is room. What is full holds more than N - 18 bytes.
pub struct Words<const N: usize> {
    bytes: [u8; N],
    length: usize,
    /// Some characters have several bytes.
    is_wide: bool,
    /// How many of the bytes are not the first of their character, once it is read.
    further: usize,
}

impl<const N: usize> Words<N> {
    pub fn new() -> Words<N> {
        Words { bytes: [b' '; N], length: 1, is_wide: false, further: 0 }
    }

    pub fn clear(&mut self) {
        self.length = 1;
        self.is_wide = false;
        self.further = 0;
    }

    pub fn is_full(&self) -> bool {
        self.length > N - LEAST_ROOM
    }

    /// Whether it is the whole value, or has more than so many characters. Where it was full a space may have been taken away.
    pub fn suffices(&self, most: usize) -> bool {
        self.length < N - LEAST_ROOM || self.characters() > most
    }

    /// The value.
    pub fn value(&self) -> &[u8] {
        &self.bytes[1..self.length]
    }

    /// How many characters the value has.
    pub fn characters(&self) -> usize {
        self.length - 1 - self.further
    }

    /// A space and the value's first characters, so many at most.
    pub fn spaced(&self, most: usize) -> &[u8] {
        let spaced = &self.bytes[..self.length];
        if most >= self.characters() {
            spaced
        } else if self.further == 0 {
            &spaced[..most + 1]
        } else {
            first_characters(spaced, most + 1)
        }
    }

    pub fn ends_in_space(&self) -> bool {
        self.bytes[self.length - 1] == b' '
    }

    /// Puts text up to the first byte that asks for more than to be put, or until there is no more room; hands back what is left. What comes first is not white
    /// space behind a space. With WIDE characters of two bytes are put too, and the first byte is the first of a character.
    #[inline(always)]
    pub fn put_text<'a, const WIDE: bool>(&mut self, mut rest: &'a [u8]) -> &'a [u8] {
        if cfg!(by_bytes) {
            return self.put_bytes(rest);
        }
        let mut length = self.length;
        while let Some(to) = self.bytes[length..].first_chunk_mut() {
            let count = match (rest.first_chunk(), rest.get(1..).and_then(<[u8]>::first_chunk)) {
                (Some(block), Some(later)) => put_block::<WIDE>(block, later, to),
                _ => put_last_block::<WIDE>(rest, to),
            };
            if count < BLOCK {
                length += count;
                rest = &rest[count..];
                break;
            }
            length += BLOCK;
            rest = &rest[BLOCK..];
        }
        self.length = length;
        rest
    }

    /// The same, byte by byte.
    #[inline(always)]
    fn put_bytes<'a>(&mut self, rest: &'a [u8]) -> &'a [u8] {
        let mut count = 0;
        for (to, &byte) in self.bytes[self.length..].iter_mut().zip(rest) {
            let white = is_white(byte);
            if !is_text(byte) || white && rest.get(count + 1).is_some_and(|next| is_white(*next)) {
                break;
            }
            *to = if white { b' ' } else { byte };
            count += 1;
        }
        self.length += count;
        &rest[count..]
    }

    /// Puts a character; of white space one space.
    #[inline(always)]
    pub fn put(&mut self, character: char) {
        if !character.is_ascii() {
            return self.put_wide(character.encode_utf8(&mut [0; 4]).as_bytes());
        }
        let byte = character as u8;
        let byte = if is_white(byte) { b' ' } else { byte };
        if byte == b' ' && self.ends_in_space() {
            return;
        }
        self.bytes[self.length] = byte;
        self.length += 1;
    }

    /// Puts a character of several bytes.
    #[inline(always)]
    pub fn put_wide(&mut self, character: &[u8]) {
        for byte in character {
            self.bytes[self.length] = *byte;
            self.length += 1;
        }
        self.is_wide = true;
    }

    /// Takes away the space at the end, and counts.
    pub fn end(&mut self) {
        if self.length > 1 && self.ends_in_space() {
            self.length -= 1;
        }
        if self.is_wide {
            self.further = further(&self.bytes[..self.length]);
        }
    }
}

/// How many bytes are not the first of their character.
fn further(text: &[u8]) -> usize {
    let few = |bytes: &[u8]| bytes.iter().fold(0, |sum, byte| sum + u8::from(!is_first(*byte)));
    text.chunks(128).map(|bytes| usize::from(few(bytes))).sum()
}

/// So many characters of a text that has more. As many bytes are passed; those of them that begin no character are as many characters that are left to pass.
fn first_characters(text: &[u8], count: usize) -> &[u8] {
    let (mut end, mut left) = (0, count);
    while left > 0 {
        let passed = &text[end..end + left];
        end += left;
        left = further(passed);
    }
    let rest = text[end..].iter().position(|byte| is_first(*byte)).unwrap_or(0);
    &text[..end + rest]
}

/// The long texts of the info that was read last: no more of them is needed than a text or a phrase holds.
pub struct Parts<const NAME: usize = 240, const TEXT: usize = ROOM> {
    pub sender_name: Words<NAME>,
    pub description: Words<TEXT>,
    pub instruction: Words<TEXT>,
}

/// With room for any characters.
pub type WideParts = Parts<832, WIDE_ROOM>;

impl<const NAME: usize, const TEXT: usize> Parts<NAME, TEXT> {
    pub fn new() -> Parts<NAME, TEXT> {
        Parts { sender_name: Words::new(), description: Words::new(), instruction: Words::new() }
    }

    pub fn clear(&mut self) {
        self.sender_name.clear();
        self.description.clear();
        self.instruction.clear();
    }

    /// Whether they are whole, or have more than so many characters each.
    pub fn suffice(&self, of_name: usize, of_text: usize) -> bool {
        self.sender_name.suffices(of_name)
            && self.description.suffices(of_text)
            && self.instruction.suffices(of_text)
    }
}

/// The words of content that is known to be well formed.
pub fn read_words<const N: usize>(content: &[u8], words: &mut Words<N>) {
    let read: Step<()> = Reader::on(content).words(words);
    debug_assert!(read.is_ok());
}
