//! One info, as far as it is read.

use super::leaf::{Leaf, Short};
use super::locations::{Locations, CODE};
use super::pairs::{audio_of, is_uri, read_mime_type_and_uri, read_pair};
use super::reader::{Reader, Step};
use super::tags::Tag;
use super::words::Parts;

/// Depths of elements in an info, which is at 2.
const IN_INFO: u32 = 3;
const IN_PAIR: u32 = 4;
const IN_GEOCODE: u32 = 5;

/// What is read of an info.
#[derive(Clone, Copy)]
pub struct Info<'a> {
    pub language: Leaf<'a>,
    pub expires: Leaf<'a>,
    pub sender_name: Leaf<'a>,
    pub description: Leaf<'a>,
    pub instruction: Leaf<'a>,
    /// An eventCode, parameter, geocode or resource in it is at fault.
    holds_fault: bool,
    /// How many eventCodes are named SAME, and the last of them if it is an event.
    pub events: u32,
    pub event: Option<[u8; 3]>,
    pub locations: Locations,
    pub malformed_location: bool,
    /// The values of the first parameters of their names.
    pub originator: Option<Leaf<'a>>,
    pub text: Option<Leaf<'a>>,
    pub carry: Option<Leaf<'a>>,
    pub audio: u8,
    pub uri: Leaf<'a>,
}

impl<'a> Info<'a> {
    pub fn new() -> Info<'a> {
        Info {
            language: Leaf::default(),
            expires: Leaf::default(),
            sender_name: Leaf::default(),
            description: Leaf::default(),
            instruction: Leaf::default(),
            holds_fault: false,
            events: 0,
            event: None,
            locations: Locations::new(),
            malformed_location: false,
            originator: None,
            text: None,
            carry: None,
            audio: 0,
            uri: Leaf::default(),
        }
    }

    /// Whether a leaf other than language is at fault.
    pub fn is_at_fault(&self) -> bool {
        self.holds_fault
            || self.expires.is_at_fault()
            || self.sender_name.is_at_fault()
            || self.description.is_at_fault()
            || self.instruction.is_at_fault()
    }

    pub fn has_location(&self) -> bool {
        self.malformed_location || !self.locations.is_empty()
    }

    pub fn is_english(&self) -> bool {
        let mut room = Short::new();
        let language = self.language.word(&mut room);
        language.is_empty() || language.eq_ignore_ascii_case(b"en-US")
    }

    /// Reads an info behind its start tag.
    pub fn read(
        &mut self,
        reader: &mut Reader<'a>,
        prefix: &[u8],
        tag: &Tag<'a>,
        mut parts: Option<&mut Parts>,
    ) -> Step<()> {
        if let Some(parts) = parts.as_deref_mut() {
            parts.clear();
        }
        if tag.empty {
            return Ok(());
        }
        loop {
            reader.text()?;
            if prefix.is_empty() && self.read_plain_leaf(reader) {
                continue;
            }
            let Some(child) = reader.child_here(tag)? else {
                return Ok(());
            };
            self.read_child(reader, prefix, &child, parts.as_deref_mut())?;
        }
    }

    #[inline(always)]
    fn read_plain_leaf(&mut self, reader: &mut Reader<'a>) -> bool {
        match reader.peek_second() {
            b'l' => self.language.read_plain(reader, b"<language>", b"</language>"),
            b'e' => self.expires.read_plain(reader, b"<expires>", b"</expires>"),
            _ => false,
        }
    }

    /// Reads nothing but the language of an info.
    pub fn read_language(reader: &mut Reader<'a>, prefix: &[u8], tag: &Tag<'a>) -> Step<Leaf<'a>> {
        let mut language = Leaf::default();
        if tag.empty {
            return Ok(language);
        }
        while let Some(child) = reader.child(tag)? {
            match child.name_in(prefix) {
                b"language" => language.read(reader, &child, IN_INFO)?,
                _ => reader.skip(&child, IN_INFO)?,
            }
        }
        Ok(language)
    }

    #[inline(always)]
    fn read_child(
        &mut self,
        reader: &mut Reader<'a>,
        prefix: &[u8],
        tag: &Tag<'a>,
        parts: Option<&mut Parts>,
    ) -> Step<()> {
        match tag.name_in(prefix) {
            b"parameter" => self.read_parameter(reader, prefix, tag),
            b"eventCode" => self.read_event_code(reader, prefix, tag),
            b"resource" => self.read_resource(reader, prefix, tag),
            b"area" => self.read_area(reader, prefix, tag),
            b"language" => self.language.read(reader, tag, IN_INFO),
            b"expires" => self.expires.read(reader, tag, IN_INFO),
            b"senderName" => {
                let words = parts.map(|parts| &mut parts.sender_name);
                self.sender_name.read_words(reader, tag, IN_INFO, words)
            }
            b"description" => {
                let words = parts.map(|parts| &mut parts.description);
                self.description.read_words(reader, tag, IN_INFO, words)
            }
            b"instruction" => {
                let words = parts.map(|parts| &mut parts.instruction);
                self.instruction.read_words(reader, tag, IN_INFO, words)
            }
            _ => reader.skip(tag, IN_INFO),
        }
    }

    fn read_event_code(
        &mut self,
        reader: &mut Reader<'a>,
        prefix: &[u8],
        tag: &Tag<'a>,
    ) -> Step<()> {
        let Some((_, value)) = self.pair(reader, prefix, tag, IN_PAIR)?.filter(is_same) else {
            return Ok(());
        };
        self.events += 1;
        let mut room = Short::new();
        let event = <[u8; 3]>::try_from(value.word(&mut room)).ok();
        self.event = event.filter(|letters| letters.iter().all(u8::is_ascii_uppercase));
        Ok(())
    }

    fn read_parameter(
        &mut self,
        reader: &mut Reader<'a>,
        prefix: &[u8],
        tag: &Tag<'a>,
    ) -> Step<()> {
        let Some((name, value)) = self.pair(reader, prefix, tag, IN_PAIR)? else {
            return Ok(());
        };
        let mut room = Short::new();
        let kept = match name.word(&mut room) {
            b"EAS-ORG" => &mut self.originator,
            b"EASText" => &mut self.text,
            b"EAS-Must-Carry" => &mut self.carry,
            _ => return Ok(()),
        };
        kept.get_or_insert(value);
        Ok(())
    }

    fn read_area(&mut self, reader: &mut Reader<'a>, prefix: &[u8], tag: &Tag<'a>) -> Step<()> {
        if tag.empty {
            return Ok(());
        }
        while let Some(child) = reader.child(tag)? {
            match child.name_in(prefix) {
                b"geocode" => self.read_geocode(reader, prefix, &child)?,
                _ => reader.skip(&child, IN_PAIR)?,
            }
        }
        Ok(())
    }

    fn read_geocode(&mut self, reader: &mut Reader<'a>, prefix: &[u8], tag: &Tag<'a>) -> Step<()> {
        let Some((_, value)) = self.pair(reader, prefix, tag, IN_GEOCODE)?.filter(is_same) else {
            return Ok(());
        };
        let mut room = Short::new();
        match <&[u8; CODE]>::try_from(value.word(&mut room)) {
            Ok(code) if code.iter().all(u8::is_ascii_digit) => self.locations.add(code),
            _ => self.malformed_location = true,
        }
        Ok(())
    }

    /// A valueName and a value, if each stands once in the element and holds none.
    #[inline(always)]
    fn pair(
        &mut self,
        reader: &mut Reader<'a>,
        prefix: &[u8],
        tag: &Tag<'a>,
        depth: u32,
    ) -> Step<Option<(Leaf<'a>, Leaf<'a>)>> {
        let (name, value) = read_pair(reader, prefix, tag, depth)?;
        if !name.is_once() || !value.is_once() {
            self.holds_fault = true;
            return Ok(None);
        }
        Ok(Some((name, value)))
    }

    fn read_resource(&mut self, reader: &mut Reader<'a>, prefix: &[u8], tag: &Tag<'a>) -> Step<()> {
        let (mime_type, uri) = read_mime_type_and_uri(reader, prefix, tag, IN_PAIR)?;
        self.holds_fault |= mime_type.is_at_fault() || uri.is_at_fault();
        if self.audio != 0 {
            return Ok(());
        }
        let audio = audio_of(&mime_type);
        if audio != 0 && is_uri(&uri) {
            self.audio = audio;
            self.uri = uri;
        }
        Ok(())
    }
}

fn is_same<'a>((name, _): &(Leaf<'a>, Leaf<'a>)) -> bool {
    name.is(b"SAME")
}
