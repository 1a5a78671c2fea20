//! A message of the subset taken apart, by a reader that shares nothing with the converter's:
//! its elements, its comments, the places where a comment may stand, and what is read.

use std::ops::Range;

/// What an element is by its name and by where it stands.
#[derive(Clone, Copy, PartialEq)]
pub enum Place {
    Outside,
    Alert,
    Info,
    /// An info behind the first in English, of which only the language is read.
    Later,
    Parameter,
    /// An eventCode or a geocode.
    Code,
    Resource,
    Area,
    Leaf,
    /// An element in a leaf that is read.
    InLeaf,
    /// A skipped element in one that is read and is no leaf.
    Skipped,
    /// An element in a skipped one, or in one in a leaf.
    Within,
}

impl Place {
    pub fn is_read(self) -> bool {
        !matches!(self, Place::InLeaf | Place::Skipped | Place::Within)
    }

    /// Whether it is read and holds elements that are read or skipped.
    pub fn is_container(self) -> bool {
        self.is_read() && self != Place::Leaf
    }

    /// The place of an element in this one, by its name without the root's prefix.
    fn child(self, name: &[u8]) -> Place {
        match (self, name) {
            (Place::Outside, _) => Place::Alert,
            (Place::Leaf, _) => Place::InLeaf,
            (Place::InLeaf | Place::Skipped | Place::Within, _) => Place::Within,
            (
                Place::Alert,
                b"identifier" | b"sender" | b"sent" | b"status" | b"msgType" | b"scope"
                | b"references",
            )
            | (Place::Info | Place::Later, b"language")
            | (Place::Info, b"expires" | b"senderName" | b"description" | b"instruction")
            | (Place::Parameter | Place::Code, b"valueName" | b"value")
            | (Place::Resource, b"mimeType" | b"uri") => Place::Leaf,
            (Place::Alert, b"info") => Place::Info,
            (Place::Info, b"parameter") => Place::Parameter,
            (Place::Info, b"eventCode") | (Place::Area, b"geocode") => Place::Code,
            (Place::Info, b"resource") => Place::Resource,
            (Place::Info, b"area") => Place::Area,
            _ => Place::Skipped,
        }
    }
}

/// Where a comment stands: round the root, in a leaf that is read, or elsewhere in the root.
#[derive(Clone, Copy, PartialEq)]
pub enum Region {
    Before,
    Inside,
    Value,
    Behind,
}

pub struct Element<'a> {
    pub place: Place,
    pub parent: Place,
    pub depth: usize,
    pub name: &'a [u8],
    /// The attributes as they stand, with the white space round them.
    pub attributes: &'a [u8],
    pub inside: &'a [u8],
    pub whole: Range<usize>,
    /// The places in it where a comment may stand.
    pub spots: Vec<usize>,
    pub holds_element: bool,
    /// Its decoded text up to the first element in it.
    text: String,
}

impl Element<'_> {
    pub fn region(&self) -> Region {
        if self.place == Place::Leaf {
            Region::Value
        } else {
            Region::Inside
        }
    }

    fn value(&self) -> String {
        self.text.split_ascii_whitespace().collect::<Vec<_>>().join(" ")
    }
}

/// The root's tag, and each element that is read by its depth and name; of a leaf its value
/// and whether it holds an element.
#[derive(PartialEq)]
pub struct Kept<'a> {
    root: (&'a [u8], &'a [u8]),
    read: Vec<(usize, &'a [u8], Option<(String, bool)>)>,
}

pub struct Tree<'a> {
    pub message: &'a [u8],
    /// The root's prefix with its colon, or nothing.
    pub prefix: &'a [u8],
    /// In the order in which they begin.
    pub elements: Vec<Element<'a>>,
    pub comments: Vec<(Region, Range<usize>)>,
    /// The places before and behind the root where a comment may stand.
    pub before: Vec<usize>,
    pub behind: Vec<usize>,
    at: usize,
    /// Whether an info in English was read.
    english: bool,
}

impl<'a> Tree<'a> {
    pub fn of(message: &'a [u8]) -> Tree<'a> {
        let mut tree = Tree {
            message,
            prefix: b"",
            elements: Vec::new(),
            comments: Vec::new(),
            before: Vec::new(),
            behind: Vec::new(),
            at: 0,
            english: false,
        };
        if message.starts_with(b"<?xml") {
            tree.pass(b"?>");
        }
        tree.before = tree.surroundings(Region::Before);
        tree.element(Place::Outside, 1);
        tree.behind = tree.surroundings(Region::Behind);
        tree
    }

    pub fn kept(&self) -> Kept<'_> {
        let read = self.elements.iter().filter(|element| element.place.is_read());
        let kept = |element: &Element<'a>| {
            let leaf = element.place == Place::Leaf;
            let value = leaf.then(|| (element.value(), element.holds_element));
            (element.depth, self.local(element.name), value)
        };
        let root = &self.elements[0];
        Kept { root: (root.name, root.attributes), read: read.map(kept).collect() }
    }

    /// The place that an element of this name has in one of a place.
    pub fn place(&self, parent: Place, name: &[u8]) -> Place {
        match parent.child(self.local(name)) {
            Place::Info if self.english => Place::Later,
            place => place,
        }
    }

    /// A name without the root's prefix; nothing where it has another.
    fn local<'b>(&self, name: &'b [u8]) -> &'b [u8] {
        name.strip_prefix(self.prefix).unwrap_or(b"")
    }

    fn rest(&self) -> &'a [u8] {
        &self.message[self.at..]
    }

    /// Goes behind the next of these bytes.
    fn pass(&mut self, bytes: &[u8]) {
        let found = self.rest().windows(bytes.len()).position(|window| window == bytes);
        self.at += found.expect("A message of the subset ends what it begins.") + bytes.len();
    }

    fn pass_while(&mut self, holds: impl Fn(u8) -> bool) -> &'a [u8] {
        let rest = self.rest();
        let length = rest.iter().position(|b| !holds(*b)).unwrap_or(rest.len());
        self.at += length;
        &rest[..length]
    }

    fn surroundings(&mut self, region: Region) -> Vec<usize> {
        let mut spots = vec![self.at];
        loop {
            match self.rest() {
                [b'<', b'!', ..] => self.comment(region),
                [b'<', ..] | [] => return spots,
                _ => self.at += 1,
            }
            spots.push(self.at);
        }
    }

    fn comment(&mut self, region: Region) {
        let start = self.at;
        self.pass(b"<!--");
        self.pass(b"-->");
        self.comments.push((region, start..self.at));
    }

    fn element(&mut self, parent: Place, depth: usize) {
        let start = self.at;
        self.at += 1;
        let name = self.pass_while(|b| !b" \t\r\n/>".contains(&b));
        if parent == Place::Outside {
            self.prefix = &name[..name.iter().position(|b| *b == b':').map_or(0, |at| at + 1)];
        }
        let attributes = self.attributes();
        let place = self.place(parent, name);
        let index = self.elements.len();
        self.elements.push(Element {
            place,
            parent,
            depth,
            name,
            attributes,
            inside: b"",
            whole: start..start,
            spots: Vec::new(),
            holds_element: false,
            text: String::new(),
        });
        if self.rest().starts_with(b">") {
            self.at += 1;
            self.content(index);
        }
        self.pass(b">");
        self.elements[index].whole.end = self.at;
        self.english |= place == Place::Info && self.is_english(index);
    }

    /// The attributes up to the end of the tag, which a quoted `>` or `/` is not.
    fn attributes(&mut self) -> &'a [u8] {
        let start = self.at;
        loop {
            self.pass_while(|b| !b"\"'/>".contains(&b));
            match self.rest()[0] {
                b'/' | b'>' => return &self.message[start..self.at],
                quote => {
                    self.at += 1;
                    self.pass(&[quote]);
                }
            }
        }
    }

    /// What an element holds, up to the end tag.
    fn content(&mut self, index: usize) {
        let start = self.at;
        let Element { place, depth, .. } = self.elements[index];
        let region = self.elements[index].region();
        loop {
            self.elements[index].spots.push(self.at);
            match self.rest() {
                [b'<', b'/', ..] => break,
                [b'<', b'!', ..] => self.comment(region),
                [b'<', ..] => {
                    self.elements[index].holds_element = true;
                    self.element(place, depth + 1);
                }
                _ => {
                    let character = self.character();
                    if !self.elements[index].holds_element {
                        self.elements[index].text.push(character);
                    }
                }
            }
        }
        self.elements[index].inside = &self.message[start..self.at];
    }

    /// The next character of a text, or what a reference stands for.
    fn character(&mut self) -> char {
        let start = self.at;
        if self.message[start] != b'&' {
            self.at += 1;
            self.pass_while(|b| (0x80..0xc0).contains(&b));
            let read = std::str::from_utf8(&self.message[start..self.at]);
            let letter = read.ok().and_then(|read| read.chars().next());
            return letter.expect("A message of the subset is well formed.");
        }
        self.pass(b";");
        match &self.message[start + 1..self.at - 1] {
            b"lt" => '<',
            b"gt" => '>',
            b"amp" => '&',
            b"quot" => '"',
            b"apos" => '\'',
            [b'#', b'x', digits @ ..] => numbered(digits, 16),
            [_, digits @ ..] => numbered(digits, 10),
            [] => '\0',
        }
    }

    /// Whether an info is in English: its first language is absent, empty or en-US.
    fn is_english(&self, info: usize) -> bool {
        let depth = self.elements[info].depth + 1;
        let language = self.elements[info + 1..]
            .iter()
            .find(|element| element.depth == depth && self.local(element.name) == b"language");
        let value = language.map_or(String::new(), Element::value);
        value.is_empty() || value.eq_ignore_ascii_case("en-US")
    }
}

fn numbered(digits: &[u8], radix: u32) -> char {
    let digits = digits.iter().filter_map(|b| char::from(*b).to_digit(radix));
    let number = digits.fold(0, |number, digit| number * radix + digit);
    char::from_u32(number).expect("A reference of the subset is to a character.")
}
