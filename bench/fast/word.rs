//! Eight bytes at a time, as one number: which of them a scan goes on at. A set is a number whose highest bit of each byte tells; its other bits say nothing.

pub const WIDTH: usize = 8;

const ONES: u64 = 0x0101_0101_0101_0101;
const LOW: u64 = 0x7f * ONES;
const HIGH: u64 = 0x80 * ONES;

/// The next bytes, the first lowest; zeros, which stop every scan, behind the end.
#[inline(always)]
pub fn word(rest: &[u8]) -> u64 {
    match rest.first_chunk() {
        Some(bytes) => u64::from_le_bytes(*bytes),
        None => last_word(rest),
    }
}

#[cold]
fn last_word(rest: &[u8]) -> u64 {
    let mut bytes = [0; WIDTH];
    bytes[..rest.len()].copy_from_slice(rest);
    u64::from_le_bytes(bytes)
}

/// The low seven bits of eight bytes.
#[derive(Clone, Copy)]
pub struct Low(u64);

impl Low {
    #[inline(always)]
    pub fn of(word: u64) -> Low {
        Low(word & LOW)
    }

    /// Where they are not a byte below 128.
    #[inline(always)]
    pub fn is_not(self, byte: u8) -> u64 {
        (self.0 ^ (ONES * byte as u64)) + LOW
    }

    #[inline(always)]
    pub fn is(self, byte: u8) -> u64 {
        !self.is_not(byte)
    }

    /// Where they are at least a number of 1 to 127.
    #[inline(always)]
    pub fn from(self, least: u8) -> u64 {
        self.0 + ONES * (128 - least as u64)
    }

    /// Where they are one of a range of bytes.
    #[inline(always)]
    pub fn within(self, least: u8, most: u8) -> u64 {
        self.from(least) & !self.from(most + 1)
    }

    /// Letters as small ones.
    #[inline(always)]
    fn small(self) -> Low {
        Low(self.0 | (ONES * 32))
    }

    #[inline(always)]
    pub fn white(self) -> u64 {
        self.is(b' ') | self.is(b'\n') | self.is(b'\r') | self.is(b'\t')
    }

    /// Text goes on, but that a tab or a carriage return asks for a second look.
    #[inline(always)]
    pub fn text(self) -> u64 {
        let printed = self.from(32) | self.is(b'\n');
        printed & self.is_not(b'<') & self.is_not(b'&') & self.is_not(b']')
    }

    #[inline(always)]
    pub fn name(self) -> u64 {
        let letter = self.small().within(b'a', b'z') | self.is(b'_');
        letter | self.within(b'-', b'9') & self.is_not(b'/')
    }
}

/// Where a scan stops in a word: at the bytes that are not in a set, and at those above 127, which begin characters of several bytes where they may stand at all.
#[inline(always)]
pub fn stops(word: u64, set: u64) -> u64 {
    (!set | word) & HIGH
}

/// How many bytes stand before the first stop.
#[inline(always)]
pub fn before(stops: u64) -> usize {
    stops.trailing_zeros() as usize / 8
}

/// How many bytes, 16 at the most, stand before the first that is surely no letter: those before it may be letters, `_`, or `@`, `[` and their like.
#[inline(always)]
pub fn before_no_letter(rest: &[u8]) -> usize {
    let none = |at: usize| !word(&rest[at..]) & (ONES * 0x40);
    if none(0) != 0 {
        return before(none(0));
    }
    WIDTH + before(none(WIDTH))
}

/// How many bytes, 16 at the most, are bytes of a name.
#[inline(always)]
pub fn before_no_name(rest: &[u8]) -> usize {
    let none = |at: usize| {
        let word = word(&rest[at..]);
        stops(word, Low::of(word).name())
    };
    if none(0) != 0 {
        return before(none(0));
    }
    WIDTH + before(none(WIDTH))
}

pub fn is_white(b: u8) -> bool {
    matches!(b, b' ' | b'\n' | b'\r' | b'\t')
}

/// The characters of one byte that may stand in a message outside its declaration.
pub fn is_allowed(b: u8) -> bool {
    matches!(b, b' '..=0x7f | b'\n' | b'\r' | b'\t')
}

/// Text goes on.
pub fn is_text(b: u8) -> bool {
    is_allowed(b) && !matches!(b, b'<' | b'&' | b']')
}

pub fn is_name(b: u8) -> bool {
    b.is_ascii_alphanumeric() || matches!(b, b'_' | b'-' | b'.')
}

pub fn is_name_start(b: u8) -> bool {
    b.is_ascii_alphabetic() || b == b'_'
}
