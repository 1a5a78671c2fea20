//! Leaves: how often one stands in its element, and what the first holds, as it stands in the message.

use super::reader::{Reader, Step};
use super::tags::Tag;
use super::word::{is_text, Low};
use super::words::{read_words, Words};

/// A word of a leaf that has references or comments; what is full is longer than any word.
pub type Short = Words<96>;

#[derive(Clone, Copy, Default)]
pub struct Leaf<'a> {
    pub content: &'a [u8],
    pub count: u32,
    holds_element: bool,
    /// The content has references or comments.
    pub marked: bool,
}

impl<'a> Leaf<'a> {
    pub fn is_at_fault(&self) -> bool {
        self.count > 1 || self.holds_element
    }

    /// Whether it stands exactly once and holds no element.
    pub fn is_once(&self) -> bool {
        self.count == 1 && !self.holds_element
    }

    /// The value if it has no white space within; white space within may stand as it does in the message, which is then no word either.
    #[inline(always)]
    pub fn word<'b>(&'b self, room: &'b mut Short) -> &'b [u8] {
        if !self.marked {
            return self.content.trim_ascii();
        }
        read_words(self.content, room);
        room.value()
    }

    pub fn is_empty(&self) -> bool {
        self.word(&mut Short::new()).is_empty()
    }

    /// Whether the value is a word without white space.
    #[inline(always)]
    pub fn is(&self, word: &[u8]) -> bool {
        if !self.marked {
            return self.content.trim_ascii() == word;
        }
        self.is_decoded(word)
    }

    #[cold]
    fn is_decoded(&self, word: &[u8]) -> bool {
        self.word(&mut Short::new()) == word
    }

    /// Reads a leaf that begins with this very tag, ends with that one, and holds nothing but text, as most do; says whether it stood here.
    #[inline(always)]
    pub fn read_plain<const N: usize, const M: usize>(
        &mut self,
        reader: &mut Reader<'a>,
        start: &[u8; N],
        end: &[u8; M],
    ) -> bool {
        let Some(inside) = reader.rest.strip_prefix(start) else {
            return false;
        };
        let mut text = Reader::on(inside);
        text.pass_while(Low::text, is_text);
        let Some(behind) = text.rest.strip_prefix(end) else {
            return false;
        };
        reader.rest = behind;
        self.count += 1;
        if self.count == 1 {
            self.content = text.since(inside);
        }
        true
    }

    /// Reads a leaf at a depth, behind its start tag.
    #[inline(never)]
    pub fn read(&mut self, reader: &mut Reader<'a>, tag: &Tag<'a>, depth: u32) -> Step<()> {
        let start = reader.rest;
        reader.marked = false;
        self.read_from(start, reader, tag, depth)
    }

    /// The same where the value is kept as words, if there is room for them.
    #[inline(never)]
    pub fn read_words<const N: usize>(
        &mut self,
        reader: &mut Reader<'a>,
        tag: &Tag<'a>,
        depth: u32,
        words: Option<&mut Words<N>>,
    ) -> Step<()> {
        let start = reader.rest;
        reader.marked = false;
        if let Some(words) = words.filter(|_| self.count == 0 && !tag.empty) {
            reader.words(words)?;
        }
        self.read_from(start, reader, tag, depth)
    }

    /// Reads on in a leaf whose content began at a place.
    #[inline(always)]
    fn read_from(
        &mut self,
        start: &'a [u8],
        reader: &mut Reader<'a>,
        tag: &Tag<'a>,
        depth: u32,
    ) -> Step<()> {
        let mut content: &[u8] = b"";
        if !tag.empty {
            reader.text()?;
            while reader.peek_second() != b'/' {
                self.read_marked(reader, depth)?;
                reader.text()?;
            }
            content = reader.since(start);
            reader.end_tag(tag)?;
        }
        if self.count == 0 {
            self.content = content;
            self.marked = reader.marked;
        }
        self.count += 1;
        Ok(())
    }

    /// A comment or an element in a leaf.
    #[cold]
    fn read_marked(&mut self, reader: &mut Reader<'a>, depth: u32) -> Step<()> {
        if reader.peek_second() == b'!' {
            return reader.comment();
        }
        self.holds_element = true;
        let child = reader.start_tag()?;
        reader.skip(&child, depth + 1)
    }
}
