//! Tags, and the elements that they part a message into.

use super::attributes::{read_attributes, Attribute};
use super::reader::{Broken, Reader, Step};
use super::word::{
    before_no_letter, before_no_name, is_name, is_name_start, is_white, word, Low, WIDTH,
};

const DEPTH: u32 = 12;
const LONGEST_NAME: usize = 64;

/// A start tag.
#[derive(Clone, Copy)]
pub struct Tag<'a> {
    /// The message from the name on.
    from: &'a [u8],
    length: usize,
    pub empty: bool,
    /// The name was seen to be one. Otherwise it is one if it is known, and is looked at where it is skipped.
    checked: bool,
}

impl<'a> Tag<'a> {
    #[inline(always)]
    pub fn name(&self) -> &'a [u8] {
        &self.from[..self.length]
    }

    /// The name without a prefix, which has its colon; nothing, which is no name, where it has not that prefix.
    #[inline(always)]
    pub fn name_in(&self, prefix: &[u8]) -> &'a [u8] {
        if prefix.is_empty() {
            return self.name();
        }
        self.name().strip_prefix(prefix).unwrap_or_default()
    }

    #[inline(always)]
    fn has_name(&self) -> bool {
        self.checked || self.length > 0 && before_no_name(self.from) >= self.length
    }
}

impl<'a> Reader<'a> {
    /// The next child of an element; None once its end tag is passed.
    #[inline(always)]
    pub fn child(&mut self, parent: &Tag<'a>) -> Step<Option<Tag<'a>>> {
        self.text()?;
        self.child_here(parent)
    }

    /// The same from a `<` on.
    #[inline(always)]
    pub fn child_here(&mut self, parent: &Tag<'a>) -> Step<Option<Tag<'a>>> {
        while self.peek_second() == b'!' {
            self.comment()?;
            self.text()?;
        }
        if self.peek_second() == b'/' {
            return self.end_tag(parent).map(|_| None);
        }
        self.start_tag().map(Some)
    }

    /// Passes the rest of an element at a depth, behind its start tag.
    pub fn skip(&mut self, tag: &Tag<'a>, depth: u32) -> Step<()> {
        if depth > DEPTH || !tag.has_name() {
            return Err(Broken);
        }
        if tag.empty {
            return Ok(());
        }
        while let Some(child) = self.child(tag)? {
            self.skip(&child, depth + 1)?;
        }
        Ok(())
    }

    /// A start tag. Most are a name of letters and `>`.
    #[inline(always)]
    pub fn start_tag(&mut self) -> Step<Tag<'a>> {
        let from = &self.rest[1..];
        let length = before_no_letter(from);
        match from[length..] {
            [b'>', ref rest @ ..] => {
                self.rest = rest;
                Ok(Tag { from, length, empty: false, checked: false })
            }
            [b'/', b'>', ref rest @ ..] => {
                self.rest = rest;
                Ok(Tag { from, length, empty: true, checked: false })
            }
            _ => {
                let (length, empty) = self.any_start_tag(|_, _| {})?;
                Ok(Tag { from, length: usize::from(length), empty, checked: true })
            }
        }
    }

    /// A start tag, whose name is told with each attribute.
    pub fn start_tag_with(&mut self, told: impl FnMut(&'a [u8], Attribute<'a>)) -> Step<Tag<'a>> {
        let from = self.rest.get(1..).ok_or(Broken)?;
        let (length, empty) = self.any_start_tag(told)?;
        Ok(Tag { from, length: usize::from(length), empty, checked: true })
    }

    /// The length of its name, and whether its element is empty: so little that it is handed back without a detour by memory.
    #[inline(never)]
    fn any_start_tag(&mut self, mut told: impl FnMut(&'a [u8], Attribute<'a>)) -> Step<(u8, bool)> {
        self.expect(b'<')?;
        let name = self.name()?;
        if is_white(self.peek()) {
            read_attributes(self, |attribute| told(name, attribute))?;
        }
        let empty = self.peek() == b'/';
        if empty {
            self.pass(1);
        }
        self.expect(b'>')?;
        Ok((name.len() as u8, empty))
    }

    /// The end tag of an element.
    #[inline(always)]
    pub fn end_tag(&mut self, tag: &Tag<'a>) -> Step<()> {
        self.pass(2);
        if !begins_alike(tag.from, self.rest, tag.length) {
            return Err(Broken);
        }
        self.pass(tag.length);
        self.white_space();
        self.expect(b'>')
    }

    #[inline(always)]
    pub fn name(&mut self) -> Step<&'a [u8]> {
        let start = self.rest;
        self.simple_name()?;
        if self.peek() == b':' {
            self.pass(1);
            self.simple_name()?;
        }
        let name = self.since(start);
        if name.len() > LONGEST_NAME {
            return Err(Broken);
        }
        Ok(name)
    }

    #[inline(always)]
    fn simple_name(&mut self) -> Step<()> {
        if !is_name_start(self.peek()) {
            return Err(Broken);
        }
        self.pass_while(Low::name, is_name);
        Ok(())
    }
}

/// Whether two byte strings begin with the same bytes, so many; the first has them.
#[inline(always)]
fn begins_alike(first: &[u8], second: &[u8], length: usize) -> bool {
    if length.wrapping_sub(1) >= 2 * WIDTH {
        return second.len() >= length && first[..length] == second[..length];
    }
    if length <= WIDTH {
        return (word(first) ^ word(second)) << (8 * (WIDTH - length)) == 0;
    }
    let at = length - WIDTH;
    word(first) == word(second) && word(&first[at..]) == word(&second[at..])
}
