//! Drafts of messages: trees of elements that edits change before they are written out.

use crate::chance::Chance;
use crate::times::{time_text, END};

pub const NAMESPACE: &str = "urn:oasis:names:tc:emergency:cap:1.2";

/// A change to a draft of a message.
pub type Edit = fn(&mut Draft, &mut Chance);

#[derive(Clone)]
pub enum Node {
    Element(Element),
    /// Text that is encoded when it is written.
    Text(String),
    /// Bytes that stand as they are.
    Raw(Vec<u8>),
}

#[derive(Clone)]
pub struct Element {
    pub name: String,
    pub attributes: String,
    pub children: Vec<Node>,
}

impl Element {
    pub fn new(name: &str) -> Element {
        Element { name: name.to_string(), attributes: String::new(), children: Vec::new() }
    }

    pub fn leaf(name: &str, text: &str) -> Element {
        let mut leaf = Element::new(name);
        leaf.set(text);
        leaf
    }

    /// An eventCode, parameter or geocode.
    pub fn pair(name: &str, value_name: &str, value: &str) -> Element {
        let mut pair = Element::new(name);
        pair.add(Element::leaf("valueName", value_name));
        pair.add(Element::leaf("value", value));
        pair
    }

    pub fn set(&mut self, text: &str) {
        self.children = vec![Node::Text(text.to_string())];
    }

    pub fn add(&mut self, child: Element) {
        self.children.push(Node::Element(child));
    }

    pub fn add_first(&mut self, child: Element) {
        self.children.insert(0, Node::Element(child));
    }

    pub fn add_raw(&mut self, raw: &[u8], chance: &mut Chance) {
        let place = chance.below(self.children.len() + 1);
        self.children.insert(place, Node::Raw(raw.to_vec()));
    }

    pub fn parameter(&mut self, name: &str, value: &str) {
        self.add(Element::pair("parameter", name, value));
    }

    fn position(&self, name: &str) -> Option<usize> {
        self.children.iter().position(|node| matches!(node, Node::Element(e) if e.name == name))
    }

    /// The first element along a path of names.
    pub fn find(&mut self, path: &[&str]) -> Option<&mut Element> {
        let mut found = self;
        for name in path {
            let place = found.position(name)?;
            match &mut found.children[place] {
                Node::Element(child) => found = child,
                _ => return None,
            }
        }
        Some(found)
    }

    pub fn remove_all(&mut self, name: &str) {
        self.children.retain(|node| !matches!(node, Node::Element(e) if e.name == name));
    }

    /// Puts a leaf in the place of all of its name.
    pub fn put(&mut self, name: &str, text: &str) {
        self.remove_all(name);
        self.add(Element::leaf(name, text));
    }

    pub fn repeat(&mut self, name: &str) {
        if let Some(place) = self.position(name) {
            let again = self.children[place].clone();
            self.children.push(again);
        }
    }
}

/// How freely a draft is written: each is the chance in so many, 0 for never.
#[derive(Clone, Copy, Default)]
pub struct Style {
    pub gaps: usize,
    pub references: usize,
    pub comments: usize,
    pub skipped: usize,
    pub shuffled: bool,
}

#[derive(Clone)]
pub struct Draft {
    pub before: Vec<u8>,
    pub after: Vec<u8>,
    pub prefix: String,
    /// The root's attributes where they are not the one that declares the namespace.
    pub declares: Option<String>,
    pub root: Element,
    pub style: Style,
    /// White space is added after the root up to this length.
    pub fill: usize,
    pub sent: i64,
    pub zone: i64,
}

impl Draft {
    /// A sound Alert.
    pub fn alert(chance: &mut Chance) -> Draft {
        let sent = chance.between(86_400, END - 10_000_000);
        let zone = chance.pick(&[0, -240, -300, -480, 60, 330, 720, -210]);
        let mut root = Element::new("alert");
        let length = chance.pick(&[1, 2, 5, 9]);
        root.add(Element::leaf("identifier", &chance.word(length)));
        root.add(Element::leaf("sender", &chance.word(length)));
        root.add(Element::leaf("sent", &time_text(sent, zone)));
        root.add(Element::leaf("status", "Actual"));
        root.add(Element::leaf("msgType", "Alert"));
        root.add(Element::leaf("scope", "Public"));
        root.add(info(sent, zone, chance));
        Draft {
            before: Vec::new(),
            after: Vec::new(),
            prefix: String::new(),
            declares: None,
            root,
            style: Style::default(),
            fill: 0,
            sent,
            zone,
        }
    }

    pub fn info(&mut self) -> Option<&mut Element> {
        self.root.find(&["info"])
    }

    pub fn set_sent(&mut self, sent: i64, zone: i64) {
        self.sent = sent;
        self.zone = zone;
        self.root.put("sent", &time_text(sent, zone));
    }

    /// Sets expires to so many seconds after sent.
    pub fn expire_after(&mut self, seconds: i64, zone: i64) {
        let text = time_text(self.sent + seconds, zone);
        if let Some(info) = self.info() {
            info.put("expires", &text);
        }
    }

    /// Makes it an Update or a Cancel with these references.
    pub fn refer(&mut self, kind: &str, references: &str) {
        self.root.put("msgType", kind);
        self.root.put("references", references);
    }

    /// A group that names this message.
    pub fn group(&mut self, zone: i64) -> String {
        let time = time_text(self.sent, zone);
        let mut text = |name: &str| match self.root.find(&[name]).map(|e| &e.children[..]) {
            Some([Node::Text(text)]) => text.clone(),
            _ => String::new(),
        };
        format!("{},{},{time}", text("sender"), text("identifier"))
    }

    pub fn event(&mut self, event: &str) {
        if let Some(value) = self.root.find(&["info", "eventCode", "value"]) {
            value.set(event);
        }
    }
}

/// A sound info.
pub fn info(sent: i64, zone: i64, chance: &mut Chance) -> Element {
    let mut info = Element::new("info");
    if chance.once_in(3) {
        info.add(Element::leaf("language", chance.pick(&["en-US", "EN-us", ""])));
    }
    info.add(Element::leaf("category", "Safety"));
    let event = chance.pick(&["EAN", "RMT", "RWT", "CEM", "FFW", "TOR", "ZZZ", "AAA", "SVR"]);
    info.add(Element::pair("eventCode", "SAME", event));
    let seconds = chance.between(1, 20_000);
    info.add(Element::leaf("expires", &time_text(sent + seconds, zone)));
    info.add(Element::leaf("senderName", "County Bench"));
    let length = chance.below(40);
    info.add(Element::leaf("description", &chance.text(length)));
    info.add(Element::leaf("instruction", &chance.text(length / 2)));
    let mut area = Element::new("area");
    area.add(Element::leaf("areaDesc", "Here"));
    area.add(Element::pair("geocode", "SAME", &chance.digits(6)));
    info.add(area);
    info
}

/// A group `sender,identifier,sent`.
pub fn group(chance: &mut Chance) -> String {
    let lengths = [1, 1, 3, 8, 63, 64];
    let sender = chance.pick(&lengths);
    let identifier = chance.pick(&lengths);
    let time = chance.between(0, END - 1);
    let zone = chance.between(-899, 899);
    let sender = chance.word(sender);
    format!("{sender},{},{}", chance.word(identifier), time_text(time, zone))
}
