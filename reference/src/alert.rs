//! Gathers from a message what is read in it.

use crate::audio::{is_suitable, Audio};
use crate::header::{is_event, is_originator, Locations};
use crate::markup::{read_document, Attributes, Broken, Tag, Visitor};
use crate::value::{Decoded, Value};

const NAMESPACE: &[u8] = b"urn:oasis:names:tc:emergency:cap:1.2";
const BROADCAST_TEXT: &[u8] = b"layer:AEA:2.0:broadcastText";

/// A leaf within its element: how often it stands there, and what the first one holds.
#[derive(Clone, Copy, Default)]
pub struct Leaf<'a> {
    count: u32,
    holds_element: bool,
    content: &'a [u8],
}

impl<'a> Leaf<'a> {
    pub fn is_absent(&self) -> bool {
        self.count == 0
    }

    pub fn is_at_fault(&self) -> bool {
        self.count > 1 || self.holds_element
    }

    /// The value; empty where the leaf is absent.
    pub fn value(&self) -> Value<'a> {
        Value::of(self.content)
    }

    /// The value of a leaf that stands exactly once and holds no element.
    pub fn once(&self) -> Option<Value<'a>> {
        (self.count == 1 && !self.holds_element).then(|| self.value())
    }
}

/// An info as far as it is read.
#[derive(Clone, Copy)]
pub struct Info<'a> {
    language: Leaf<'a>,
    pub expires: Leaf<'a>,
    pub sender_name: Leaf<'a>,
    pub description: Leaf<'a>,
    pub instruction: Leaf<'a>,
    /// A pair or a resource in it is at fault.
    holds_fault: bool,
    /// How many eventCodes are named SAME, and the last of them if it is an event.
    pub events: u32,
    pub event: Option<[u8; 3]>,
    pub locations: Locations,
    pub malformed_location: bool,
    /// The value of the first EAS-ORG parameter, and so on.
    pub originator: Option<Value<'a>>,
    pub eas_text: Option<Value<'a>>,
    pub must_carry: Option<Value<'a>>,
    /// The value of the first broadcastText parameter that is not empty.
    pub broadcast_text: Option<Value<'a>>,
    pub audio: Audio,
    pub uri: Value<'a>,
}

impl Info<'_> {
    fn new() -> Self {
        Info {
            language: Leaf::default(),
            expires: Leaf::default(),
            sender_name: Leaf::default(),
            description: Leaf::default(),
            instruction: Leaf::default(),
            holds_fault: false,
            events: 0,
            event: None,
            locations: Locations::NONE,
            malformed_location: false,
            originator: None,
            eas_text: None,
            must_carry: None,
            broadcast_text: None,
            audio: Audio::None,
            uri: Value::of(b""),
        }
    }

    /// Whether a leaf other than language is at fault.
    pub fn is_at_fault(&self) -> bool {
        let leaves = [&self.expires, &self.sender_name, &self.description, &self.instruction];
        self.holds_fault || leaves.iter().any(|leaf| leaf.is_at_fault())
    }

    pub fn has_location(&self) -> bool {
        self.malformed_location || !self.locations.joined().is_empty()
    }

    /// The originator that EAS-ORG gives, CIV without one.
    pub fn originator(&self) -> Option<[u8; 3]> {
        match self.originator {
            None => Some(*b"CIV"),
            Some(value) => value.exactly().filter(|text| is_originator(text)),
        }
    }

    fn is_english(&self) -> bool {
        let language = self.language.value();
        language.is_empty() || language.is_in_any_case(b"en-US")
    }
}

/// A message as far as it is read.
pub struct Alert<'a> {
    pub root: bool,
    /// The root's prefix with its colon, or nothing.
    prefix: &'a [u8],
    pub identifier: Leaf<'a>,
    pub sender: Leaf<'a>,
    pub sent: Leaf<'a>,
    pub status: Leaf<'a>,
    pub msg_type: Leaf<'a>,
    pub scope: Leaf<'a>,
    pub references: Leaf<'a>,
    pub language_fault: bool,
    pub selected: Option<Info<'a>>,
    selected_is_english: bool,
    /// The info that is being read.
    info: Info<'a>,
    /// The pair or resource that is being read: valueName or mimeType, value or uri.
    first: Leaf<'a>,
    second: Leaf<'a>,
}

/// An element that is read, or that is skipped.
#[derive(Clone, Copy)]
pub enum Place {
    Outside,
    Alert,
    Info,
    EventCode,
    Parameter,
    Resource,
    Area,
    Geocode,
    Leaf(Name),
    Skipped,
}

#[derive(Clone, Copy)]
pub enum Name {
    Identifier,
    Sender,
    Sent,
    Status,
    MsgType,
    Scope,
    References,
    Language,
    Expires,
    SenderName,
    Description,
    Instruction,
    First,
    Second,
}

impl<'a> Alert<'a> {
    /// Reads a whole message.
    pub fn read(message: &'a [u8]) -> Result<Alert<'a>, Broken> {
        let mut alert = Alert {
            root: false,
            prefix: b"",
            identifier: Leaf::default(),
            sender: Leaf::default(),
            sent: Leaf::default(),
            status: Leaf::default(),
            msg_type: Leaf::default(),
            scope: Leaf::default(),
            references: Leaf::default(),
            language_fault: false,
            selected: None,
            selected_is_english: false,
            info: Info::new(),
            first: Leaf::default(),
            second: Leaf::default(),
        };
        read_document(message, &mut alert, Place::Outside)?;
        Ok(alert)
    }

    fn leaf(&mut self, name: Name) -> &mut Leaf<'a> {
        match name {
            Name::Identifier => &mut self.identifier,
            Name::Sender => &mut self.sender,
            Name::Sent => &mut self.sent,
            Name::Status => &mut self.status,
            Name::MsgType => &mut self.msg_type,
            Name::Scope => &mut self.scope,
            Name::References => &mut self.references,
            Name::Language => &mut self.info.language,
            Name::Expires => &mut self.info.expires,
            Name::SenderName => &mut self.info.sender_name,
            Name::Description => &mut self.info.description,
            Name::Instruction => &mut self.info.instruction,
            Name::First => &mut self.first,
            Name::Second => &mut self.second,
        }
    }

    fn enter_root(&mut self, tag: &Tag<'a>) -> Place {
        let Some(prefix) = root_prefix(tag) else {
            return Place::Skipped;
        };
        self.root = true;
        self.prefix = prefix;
        Place::Alert
    }

    /// A pair is judged once both its leaves are known: its name and value if it is in order.
    fn pair(&mut self) -> Option<(Value<'a>, Value<'a>)> {
        let pair = self.first.once().zip(self.second.once());
        self.info.holds_fault |= pair.is_none();
        pair
    }

    fn leave_event_code(&mut self) {
        let Some((_, value)) = self.pair().filter(|(name, _)| name.is(b"SAME")) else {
            return;
        };
        self.info.events += 1;
        self.info.event = value.exactly().filter(|text| is_event(text));
    }

    fn leave_geocode(&mut self) {
        let Some((_, value)) = self.pair().filter(|(name, _)| name.is(b"SAME")) else {
            return;
        };
        match value.exactly::<6>() {
            Some(code) if code.iter().all(u8::is_ascii_digit) => self.info.locations.add(&code),
            _ => self.info.malformed_location = true,
        }
    }

    fn leave_parameter(&mut self) {
        let Some((name, value)) = self.pair() else {
            return;
        };
        let kept = if name.is(b"EAS-ORG") {
            &mut self.info.originator
        } else if name.is(b"EASText") {
            &mut self.info.eas_text
        } else if name.is(b"EAS-Must-Carry") {
            &mut self.info.must_carry
        } else if name.is_in_any_case(BROADCAST_TEXT) && !value.is_empty() {
            &mut self.info.broadcast_text
        } else {
            return;
        };
        kept.get_or_insert(value);
    }

    fn leave_resource(&mut self) {
        self.info.holds_fault |= self.first.is_at_fault() || self.second.is_at_fault();
        if self.info.audio != Audio::None {
            return;
        }
        let uri = self.second.value();
        if is_suitable(uri) {
            self.info.audio = Audio::of(self.first.value());
            self.info.uri = uri;
        }
    }

    /// The first info in English stays, before it the first of all.
    fn leave_info(&mut self) {
        self.language_fault |= self.info.language.is_at_fault();
        let english = self.info.is_english();
        if self.selected.is_none() || english && !self.selected_is_english {
            self.selected = Some(self.info);
            self.selected_is_english = english;
        }
    }
}

impl<'a> Visitor<'a> for Alert<'a> {
    type Place = Place;

    fn enter(&mut self, parent: Place, tag: &Tag<'a>) -> Place {
        match parent {
            Place::Outside => return self.enter_root(tag),
            Place::Skipped => return Place::Skipped,
            Place::Leaf(name) => {
                self.leaf(name).holds_element = true;
                return Place::Skipped;
            }
            _ => {}
        }
        let Some(name) = tag.name.strip_prefix(self.prefix) else {
            return Place::Skipped;
        };
        let place = child(parent, name);
        match place {
            Place::Info => self.info = Info::new(),
            Place::EventCode | Place::Parameter | Place::Resource | Place::Geocode => {
                self.first = Leaf::default();
                self.second = Leaf::default();
            }
            _ => {}
        }
        place
    }

    fn leave(&mut self, place: Place, content: &'a [u8]) {
        match place {
            Place::Leaf(name) => {
                let leaf = self.leaf(name);
                if leaf.count == 0 {
                    leaf.content = content;
                }
                leaf.count += 1;
            }
            Place::EventCode => self.leave_event_code(),
            Place::Geocode => self.leave_geocode(),
            Place::Parameter => self.leave_parameter(),
            Place::Resource => self.leave_resource(),
            Place::Info => self.leave_info(),
            Place::Outside | Place::Alert | Place::Area | Place::Skipped => {}
        }
    }
}

/// The place of an element by its parent and its name without the root's prefix.
fn child(parent: Place, name: &[u8]) -> Place {
    match (parent, name) {
        (Place::Alert, b"identifier") => Place::Leaf(Name::Identifier),
        (Place::Alert, b"sender") => Place::Leaf(Name::Sender),
        (Place::Alert, b"sent") => Place::Leaf(Name::Sent),
        (Place::Alert, b"status") => Place::Leaf(Name::Status),
        (Place::Alert, b"msgType") => Place::Leaf(Name::MsgType),
        (Place::Alert, b"scope") => Place::Leaf(Name::Scope),
        (Place::Alert, b"references") => Place::Leaf(Name::References),
        (Place::Alert, b"info") => Place::Info,
        (Place::Info, b"language") => Place::Leaf(Name::Language),
        (Place::Info, b"expires") => Place::Leaf(Name::Expires),
        (Place::Info, b"senderName") => Place::Leaf(Name::SenderName),
        (Place::Info, b"description") => Place::Leaf(Name::Description),
        (Place::Info, b"instruction") => Place::Leaf(Name::Instruction),
        (Place::Info, b"eventCode") => Place::EventCode,
        (Place::Info, b"parameter") => Place::Parameter,
        (Place::Info, b"resource") => Place::Resource,
        (Place::Info, b"area") => Place::Area,
        (Place::Area, b"geocode") => Place::Geocode,
        (Place::EventCode | Place::Parameter | Place::Geocode, b"valueName") => {
            Place::Leaf(Name::First)
        }
        (Place::EventCode | Place::Parameter | Place::Geocode, b"value") => {
            Place::Leaf(Name::Second)
        }
        (Place::Resource, b"mimeType") => Place::Leaf(Name::First),
        (Place::Resource, b"uri") => Place::Leaf(Name::Second),
        _ => Place::Skipped,
    }
}

/// The prefix, with its colon, of a root that is `alert` under the namespace.
fn root_prefix<'a>(tag: &Tag<'a>) -> Option<&'a [u8]> {
    let prefix = tag.name.strip_suffix(b"alert")?;
    let declares = |name: &[u8]| match name.strip_prefix(b"xmlns") {
        Some(b"") => prefix.is_empty(),
        Some([b':', declared @ ..]) => prefix.strip_suffix(b":") == Some(declared),
        _ => false,
    };
    Attributes { rest: tag.attributes }
        .any(|(name, value)| declares(name) && Decoded::of(value).is(NAMESPACE))
        .then_some(prefix)
}
