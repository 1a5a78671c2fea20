//! The subset of XML, read forward: white space, comments, text. What is wrong anywhere makes the message broken.

use super::character::{is_first, is_utf8, wide};
use super::reference::reference;
use super::word::{before, is_allowed, is_text, is_white, stops, word, Low, WIDTH};
use super::words::Words;

/// The message is not of the subset.
pub struct Broken;

pub type Step<T> = Result<T, Broken>;

pub struct Reader<'a> {
    pub rest: &'a [u8],
    /// A reference or a comment was passed.
    pub marked: bool,
}

impl<'a> Reader<'a> {
    pub fn on(message: &'a [u8]) -> Reader<'a> {
        Reader { rest: message, marked: false }
    }

    /// The next byte; 0, which may stand nowhere, at the end.
    #[inline(always)]
    pub fn peek(&self) -> u8 {
        self.rest.first().copied().unwrap_or(0)
    }

    /// The byte after the next.
    #[inline(always)]
    pub fn peek_second(&self) -> u8 {
        self.rest.get(1).copied().unwrap_or(0)
    }

    #[inline(always)]
    pub fn pass(&mut self, count: usize) {
        self.rest = &self.rest[count..];
    }

    /// What stands from a former place of the reader up to this one.
    #[inline(always)]
    pub fn since(&self, start: &'a [u8]) -> &'a [u8] {
        &start[..start.len() - self.rest.len()]
    }

    /// Passes bytes as long as they are in a set, which is told of eight bytes and of one.
    #[inline(always)]
    pub fn pass_while(&mut self, set: impl Fn(Low) -> u64, has: impl Fn(u8) -> bool) {
        if cfg!(by_bytes) {
            let count = self.rest.iter().position(|byte| !has(*byte));
            return self.pass(count.unwrap_or(self.rest.len()));
        }
        loop {
            let word = word(self.rest);
            let stops = stops(word, set(Low::of(word)));
            if stops != 0 {
                return self.pass(before(stops));
            }
            self.pass(WIDTH);
        }
    }

    #[inline(always)]
    pub fn expect(&mut self, byte: u8) -> Step<()> {
        if self.peek() != byte {
            return Err(Broken);
        }
        self.pass(1);
        Ok(())
    }

    /// Passes white space; says whether there was any.
    #[inline(always)]
    pub fn white_space(&mut self) -> bool {
        if !is_white(self.peek()) {
            return false;
        }
        self.pass_while(Low::white, is_white);
        true
    }

    /// The declaration, if there is one; any characters may stand in it. `<?xml` without white space after it is left where it stands, and is refused there.
    pub fn declaration(&mut self) -> Step<()> {
        let Some(inside) = self.rest.strip_prefix(b"<?xml") else {
            return Ok(());
        };
        if !inside.first().is_some_and(|b| is_white(*b)) {
            return Ok(());
        }
        let end = inside.windows(2).position(|two| two == b"?>").ok_or(Broken)?;
        if !is_utf8(&inside[..end]) {
            return Err(Broken);
        }
        self.rest = &inside[end + 2..];
        Ok(())
    }

    /// White space and comments round the root.
    pub fn surroundings(&mut self) -> Step<()> {
        loop {
            self.white_space();
            if !self.rest.starts_with(b"<!") {
                return Ok(());
            }
            self.comment()?;
        }
    }

    pub fn comment(&mut self) -> Step<()> {
        self.marked = true;
        self.rest = self.rest.strip_prefix(b"<!--").ok_or(Broken)?;
        loop {
            let quiet = |low: Low| low.from(32) & low.is_not(b'-') | low.is(b'\n');
            self.pass_while(quiet, |byte| is_allowed(byte) && byte != b'-');
            if self.rest.starts_with(b"--") {
                break;
            }
            self.character()?;
        }
        self.pass(2);
        self.expect(b'>')
    }

    /// Passes a character that may stand in a message; of those of several bytes as many as stand here.
    #[inline(never)]
    pub fn character(&mut self) -> Step<()> {
        if is_allowed(self.peek()) {
            self.pass(1);
            return Ok(());
        }
        self.wide()?;
        while self.peek() > 127 {
            self.wide()?;
        }
        Ok(())
    }

    /// Passes a character of several bytes, and hands it back.
    #[inline(always)]
    fn wide(&mut self) -> Step<&'a [u8]> {
        let start = self.rest;
        self.pass(wide(start).ok_or(Broken)?);
        Ok(self.since(start))
    }

    pub fn reference(&mut self) -> Step<char> {
        self.marked = true;
        let (character, length) = reference(self.rest).ok_or(Broken)?;
        self.pass(length);
        Ok(character)
    }

    /// A bracket in text, which must not begin `]]>`.
    #[cold]
    pub fn bracket(&mut self) -> Step<()> {
        if self.rest.starts_with(b"]]>") {
            return Err(Broken);
        }
        self.pass(1);
        Ok(())
    }

    /// Passes text up to the next `<`.
    #[inline(always)]
    pub fn text(&mut self) -> Step<()> {
        loop {
            self.pass_while(Low::text, is_text);
            match self.peek() {
                b'<' => return Ok(()),
                b'&' => {
                    self.reference()?;
                }
                b']' => self.bracket()?,
                _ => self.character()?,
            }
        }
    }

    /// Reads text and comments as words, up to the next tag or the end, or until the words are full.
    pub fn words<const N: usize>(&mut self, words: &mut Words<N>) -> Step<()> {
        words.clear();
        loop {
            if words.ends_in_space() {
                self.white_space();
            }
            self.rest = words.put_text::<false>(self.rest);
            if words.is_full() || !self.word_goes_on(words)? {
                break;
            }
        }
        words.end();
        Ok(())
    }

    /// Passes what is more than a byte to be put as it stands; says whether text goes on behind it.
    #[inline(always)]
    fn word_goes_on<const N: usize>(&mut self, words: &mut Words<N>) -> Step<bool> {
        match self.peek() {
            b'&' => words.put(self.reference()?),
            b'<' if self.peek_second() == b'!' => self.comment()?,
            b'<' => return Ok(false),
            b']' => {
                self.bracket()?;
                words.put(']');
            }
            b if is_white(b) => words.put(' '),
            128.. => self.wide_words(words)?,
            _ if self.rest.is_empty() => return Ok(false),
            _ => return Err(Broken),
        }
        Ok(true)
    }

    /// Puts text from a character of several bytes on.
    #[inline(never)]
    fn wide_words<const N: usize>(&mut self, words: &mut Words<N>) -> Step<()> {
        while self.peek() > 127 && !words.is_full() {
            words.put_wide(self.wide()?);
            if is_first(self.peek()) {
                self.rest = words.put_text::<true>(self.rest);
            }
        }
        Ok(())
    }
}
