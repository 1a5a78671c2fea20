//! The subset of XML: one document, read forward, its elements told to a visitor.

use crate::characters::{first_character, is_legal, is_well_formed};
use crate::octets::{is_name_byte, is_name_start, is_white_byte};

const DEPTH: u32 = 12;
const LONGEST_NAME: usize = 64;
const MOST_DIGITS: usize = 7;

/// The message is not of the subset.
pub struct Broken;

type Step<T> = Result<T, Broken>;

pub struct Tag<'a> {
    pub name: &'a [u8],
    /// The attributes as they stand, well formed.
    pub attributes: &'a [u8],
    empty: bool,
}

/// Learns of each element on entering and on leaving it. A place is what the visitor
/// wants to know of an element while it reads what that holds.
pub trait Visitor<'a> {
    type Place: Copy;
    fn enter(&mut self, parent: Self::Place, tag: &Tag<'a>) -> Self::Place;
    fn leave(&mut self, place: Self::Place, content: &'a [u8]);
}

pub fn read_document<'a, V: Visitor<'a>>(
    message: &'a [u8],
    visitor: &mut V,
    outside: V::Place,
) -> Step<()> {
    let mut reader = Reader { message, at: 0 };
    reader.declaration()?;
    reader.surroundings()?;
    reader.element(visitor, outside, 1)?;
    reader.surroundings()?;
    if reader.at < message.len() {
        return Err(Broken);
    }
    Ok(())
}

struct Reader<'a> {
    message: &'a [u8],
    at: usize,
}

impl<'a> Reader<'a> {
    /// The next byte; 0, which may stand nowhere, at the end.
    fn peek(&self) -> u8 {
        self.message.get(self.at).copied().unwrap_or(0)
    }

    fn comes(&self, bytes: &[u8]) -> bool {
        self.message[self.at..].starts_with(bytes)
    }

    fn expect(&mut self, bytes: &[u8]) -> Step<()> {
        if !self.comes(bytes) {
            return Err(Broken);
        }
        self.at += bytes.len();
        Ok(())
    }

    /// Passes white space; says whether there was any.
    fn white_space(&mut self) -> bool {
        let start = self.at;
        while is_white_byte(self.peek()) {
            self.at += 1;
        }
        self.at > start
    }

    /// Passes a character that may stand in text, attribute values and comments.
    fn character(&mut self) -> Step<()> {
        let found = first_character(&self.message[self.at..]);
        let (_, length) = found.filter(|(character, _)| is_legal(*character)).ok_or(Broken)?;
        self.at += length;
        Ok(())
    }

    /// The declaration, if there is one, of any well formed characters. `<?xml` without white
    /// space after it is left where it stands, and is refused there as an instruction.
    fn declaration(&mut self) -> Step<()> {
        let Some(rest) = self.message.strip_prefix(b"<?xml") else {
            return Ok(());
        };
        if !rest.first().is_some_and(|b| is_white_byte(*b)) {
            return Ok(());
        }
        let end = rest.windows(2).position(|pair| pair == b"?>").ok_or(Broken)?;
        if !is_well_formed(&rest[..end]) {
            return Err(Broken);
        }
        self.at = b"<?xml".len() + end + b"?>".len();
        Ok(())
    }

    /// White space and comments round the root.
    fn surroundings(&mut self) -> Step<()> {
        loop {
            self.white_space();
            if !self.comes(b"<!--") {
                return Ok(());
            }
            self.comment()?;
        }
    }

    fn comment(&mut self) -> Step<()> {
        self.expect(b"<!--")?;
        while !self.comes(b"--") {
            self.character()?;
        }
        self.expect(b"-->")
    }

    fn element<V: Visitor<'a>>(
        &mut self,
        visitor: &mut V,
        parent: V::Place,
        depth: u32,
    ) -> Step<()> {
        if depth > DEPTH {
            return Err(Broken);
        }
        let tag = self.start_tag()?;
        let place = visitor.enter(parent, &tag);
        if tag.empty {
            visitor.leave(place, b"");
            return Ok(());
        }
        let start = self.at;
        self.content(visitor, place, depth)?;
        visitor.leave(place, &self.message[start..self.at]);
        self.end_tag(tag.name)
    }

    /// What an element holds, up to its end tag.
    fn content<V: Visitor<'a>>(
        &mut self,
        visitor: &mut V,
        place: V::Place,
        depth: u32,
    ) -> Step<()> {
        loop {
            self.text()?;
            if self.comes(b"</") {
                return Ok(());
            }
            if self.comes(b"<!") {
                self.comment()?;
            } else {
                self.element(visitor, place, depth + 1)?;
            }
        }
    }

    /// Text up to the next `<`.
    fn text(&mut self) -> Step<()> {
        loop {
            match self.peek() {
                b'<' => return Ok(()),
                b'&' => self.reference()?,
                b'>' if self.message[..self.at].ends_with(b"]]") => return Err(Broken),
                _ => self.character()?,
            }
        }
    }

    fn reference(&mut self) -> Step<()> {
        let (_, length) = reference(&self.message[self.at..]).ok_or(Broken)?;
        self.at += length;
        Ok(())
    }

    fn start_tag(&mut self) -> Step<Tag<'a>> {
        self.expect(b"<")?;
        let name = self.name()?;
        let start = self.at;
        loop {
            let parted = self.white_space();
            let attributes = &self.message[start..self.at];
            match self.peek() {
                b'>' => {
                    self.at += 1;
                    return Ok(Tag { name, attributes, empty: false });
                }
                b'/' => {
                    self.expect(b"/>")?;
                    return Ok(Tag { name, attributes, empty: true });
                }
                _ if parted => self.attribute(attributes)?,
                _ => return Err(Broken),
            }
        }
    }

    fn attribute(&mut self, before: &'a [u8]) -> Step<()> {
        let name = self.name()?;
        if (Attributes { rest: before }).any(|(other, _)| other == name) {
            return Err(Broken);
        }
        self.white_space();
        self.expect(b"=")?;
        self.white_space();
        self.quoted()
    }

    fn quoted(&mut self) -> Step<()> {
        let quote = self.peek();
        if quote != b'"' && quote != b'\'' {
            return Err(Broken);
        }
        self.at += 1;
        loop {
            match self.peek() {
                b if b == quote => {
                    self.at += 1;
                    return Ok(());
                }
                b'<' => return Err(Broken),
                b'&' => self.reference()?,
                _ => self.character()?,
            }
        }
    }

    fn end_tag(&mut self, name: &[u8]) -> Step<()> {
        self.expect(b"</")?;
        self.expect(name)?;
        self.white_space();
        self.expect(b">")
    }

    fn name(&mut self) -> Step<&'a [u8]> {
        let start = self.at;
        self.simple_name()?;
        if self.peek() == b':' {
            self.at += 1;
            self.simple_name()?;
        }
        let name = &self.message[start..self.at];
        if name.len() > LONGEST_NAME {
            return Err(Broken);
        }
        Ok(name)
    }

    fn simple_name(&mut self) -> Step<()> {
        if !is_name_start(self.peek()) {
            return Err(Broken);
        }
        while is_name_byte(self.peek()) {
            self.at += 1;
        }
        Ok(())
    }
}

const NAMED: [(&[u8], char); 5] =
    [(b"&lt;", '<'), (b"&gt;", '>'), (b"&amp;", '&'), (b"&quot;", '"'), (b"&apos;", '\'')];

/// The reference at the start of some bytes: the character that it stands for, and its length.
pub fn reference(bytes: &[u8]) -> Option<(char, usize)> {
    match bytes {
        [b'&', b'#', b'x', ..] => numbered(bytes, 3, 16),
        [b'&', b'#', ..] => numbered(bytes, 2, 10),
        _ => {
            let (name, character) = NAMED.iter().find(|(name, _)| bytes.starts_with(name))?;
            Some((*character, name.len()))
        }
    }
}

/// A reference whose digits begin at a place.
fn numbered(bytes: &[u8], start: usize, radix: u32) -> Option<(char, usize)> {
    let mut number = 0;
    let mut at = start;
    while let Some(digit) = bytes.get(at).and_then(|b| char::from(*b).to_digit(radix)) {
        if at == start + MOST_DIGITS {
            return None;
        }
        number = number * radix + digit;
        at += 1;
    }
    // Without digits the number is 0, which is not legal.
    let character = char::from_u32(number).filter(|character| is_legal(*character))?;
    (bytes.get(at) == Some(&b';')).then_some((character, at + 1))
}

/// The attributes of a well formed tag: name, and value as it stands between its quotes.
pub struct Attributes<'a> {
    pub rest: &'a [u8],
}

impl<'a> Iterator for Attributes<'a> {
    type Item = (&'a [u8], &'a [u8]);

    fn next(&mut self) -> Option<Self::Item> {
        let start = self.rest.iter().position(|b| !is_white_byte(*b))?;
        let text = &self.rest[start..];
        let name = text.iter().position(|b| is_white_byte(*b) || *b == b'=')?;
        let open = text.iter().position(|b| *b == b'"' || *b == b'\'')?;
        let value = &text[open + 1..];
        let close = value.iter().position(|b| *b == text[open])?;
        self.rest = &value[close + 1..];
        Some((&text[..name], &value[..close]))
    }
}

#[cfg(test)]
mod tests {
    use super::*;

    /// What a reference of these bytes stands for, if all of them are one.
    fn whole(bytes: &str) -> Option<char> {
        reference(bytes.as_bytes()).filter(|(_, length)| *length == bytes.len()).map(|(c, _)| c)
    }

    #[test]
    fn references_have_one_to_seven_digits() {
        for digits in 1..=7 {
            assert_eq!(whole(&format!("&#{:0digits$};", 9)), Some('\t'));
            assert_eq!(whole(&format!("&#x{:0digits$X};", 10)), Some('\n'));
        }
        for coded in ["&#;", "&#x;", "&#00000233;", "&#x000000e9;", "&#X41;", "&#65", "&#6é;"] {
            assert_eq!(whole(coded), None, "for {coded}");
        }
    }

    #[test]
    fn references_are_to_legal_characters() {
        for number in (0..0x11_0100).chain([9_999_999, 0xfff_ffff]) {
            let legal = char::from_u32(number).filter(|character| is_legal(*character));
            assert_eq!(whole(&format!("&#x{number:x};")), legal);
            assert_eq!(whole(&format!("&#{number};")), legal);
        }
    }

    struct Blind;

    impl<'a> Visitor<'a> for Blind {
        type Place = ();
        fn enter(&mut self, _: (), _: &Tag<'a>) {}
        fn leave(&mut self, _: (), _: &'a [u8]) {}
    }

    fn is_read(message: &[u8]) -> bool {
        read_document(message, &mut Blind, ()).is_ok()
    }

    #[test]
    fn characters_beyond_ascii_stand_in_text_attributes_and_comments() {
        for character in ["é", "\u{7f}", "\u{800}", "\u{fffd}", "\u{10ffff}"] {
            assert!(is_read(
                format!("<a b='{character}'>{character}<!--{character}--></a>").as_bytes()
            ));
            for message in ["<@/>", "<a@/>", "<a @=''/>", "<a@></a>", "@<a/>", "<a/>@", "<a></a@>"]
            {
                assert!(!is_read(message.replace('@', character).as_bytes()), "for {message}");
            }
        }
        for character in ["\0", "\u{1f}", "\u{fffe}", "\u{ffff}"] {
            for message in ["<a b='@'/>", "<a>@</a>", "<a><!--@--></a>"] {
                assert!(!is_read(message.replace('@', character).as_bytes()), "for {message}");
            }
        }
    }

    #[test]
    fn a_declaration_is_of_any_well_formed_characters() {
        for inside in ["", "é", "\0", "\u{fffe}\u{ffff}", "\u{10ffff}", "\u{13f}\u{13e}"] {
            assert!(is_read(format!("<?xml {inside}?><a/>").as_bytes()), "for {inside:?}");
        }
        for inside in [&b"\x80"[..], b"\xc3", b"\xed\xa0\x80", b"\xc0\x80", b"\xf4\x90\x80\x80"] {
            let message = [b"<?xml ", inside, b"?><a/>"].concat();
            assert!(!is_read(&message), "for {inside:x?}");
        }
        assert!(!is_read("\u{feff}<a/>".as_bytes()));
        assert!(!is_read("\u{feff}<?xml ?><a/>".as_bytes()));
    }
}
