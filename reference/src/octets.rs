//! Classes of bytes, and writing into lent bytes.

use crate::characters::is_tail;

pub fn is_white_byte(b: u8) -> bool {
    matches!(b, 9 | 10 | 13 | 32)
}

pub fn is_name_start(b: u8) -> bool {
    b.is_ascii_alphabetic() || b == b'_'
}

pub fn is_name_byte(b: u8) -> bool {
    b.is_ascii_alphanumeric() || matches!(b, b'_' | b'-' | b'.')
}

/// The number that some digits write; None where one of them is no digit.
pub fn decimal(digits: &[u8]) -> Option<u32> {
    let mut number = 0;
    for b in digits {
        if !b.is_ascii_digit() {
            return None;
        }
        number = number * 10 + u32::from(b - b'0');
    }
    Some(number)
}

/// Lent bytes that are written from their start on.
pub struct Output<'a> {
    lent: &'a mut [u8],
    length: usize,
}

impl<'a> Output<'a> {
    pub fn on(lent: &'a mut [u8]) -> Output<'a> {
        Output { lent, length: 0 }
    }

    pub fn length(&self) -> usize {
        self.length
    }

    /// How many characters were written: each has one byte that is no tail.
    pub fn characters(&self) -> usize {
        self.lent[..self.length].iter().filter(|b| !is_tail(**b)).count()
    }

    pub fn put(&mut self, bytes: &[u8]) {
        let end = self.length + bytes.len();
        self.lent[self.length..end].copy_from_slice(bytes);
        self.length = end;
    }

    /// Characters, in UTF-8.
    pub fn put_each(&mut self, characters: impl Iterator<Item = char>) {
        for character in characters {
            self.length += character.encode_utf8(&mut self.lent[self.length..]).len();
        }
    }

    /// A number in so many digits, zeros before it.
    pub fn put_number(&mut self, number: u32, digits: u32) {
        for place in (0..digits).rev() {
            let digit = number / 10u32.pow(place) % 10;
            self.put(&[b'0' + digit as u8]);
        }
    }
}
