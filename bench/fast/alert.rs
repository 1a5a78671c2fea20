//! A whole message, as far as it is read.

use super::info::Info;
use super::leaf::Leaf;
use super::reader::{Broken, Reader, Step};
use super::reference::decodes_to;
use super::tags::Tag;
use super::words::Parts;

const NAMESPACE: &[u8] = b"urn:oasis:names:tc:emergency:cap:1.2";

/// The depth of elements in the root.
const IN_ALERT: u32 = 2;

#[derive(Default)]
pub struct Alert<'a> {
    /// The root is `alert` under its namespace; the prefix is with its colon.
    pub is_alert: bool,
    prefix: &'a [u8],
    pub identifier: Leaf<'a>,
    pub sender: Leaf<'a>,
    pub sent: Leaf<'a>,
    pub status: Leaf<'a>,
    pub msg_type: Leaf<'a>,
    pub scope: Leaf<'a>,
    pub references: Leaf<'a>,
    pub language_fault: bool,
    pub selected: Option<Info<'a>>,
    selected_is_english: bool,
    /// The long texts that were read last are those of another info.
    pub parts_of_other: bool,
}

/// Reads a whole message; the long texts stand in the parts, where there are any.
pub fn read<'a>(message: &'a [u8], parts: Option<&mut Parts>) -> Step<Alert<'a>> {
    let mut reader = Reader::on(message);
    let mut alert = Alert::default();
    reader.declaration()?;
    reader.surroundings()?;
    let tag = alert.read_root_tag(&mut reader)?;
    if alert.is_alert {
        alert.read_children(&mut reader, &tag, parts)?;
    } else {
        reader.skip(&tag, 1)?;
    }
    reader.surroundings()?;
    if !reader.rest.is_empty() {
        return Err(Broken);
    }
    Ok(alert)
}

impl<'a> Alert<'a> {
    fn read_root_tag(&mut self, reader: &mut Reader<'a>) -> Step<Tag<'a>> {
        reader.start_tag_with(|name, attribute| {
            let Some(prefix) = declared_prefix(name, attribute.name) else {
                return;
            };
            self.is_alert |= decodes_to(attribute.value, NAMESPACE);
            self.prefix = prefix;
        })
    }

    fn read_children(
        &mut self,
        reader: &mut Reader<'a>,
        tag: &Tag<'a>,
        mut parts: Option<&mut Parts>,
    ) -> Step<()> {
        if tag.empty {
            return Ok(());
        }
        loop {
            reader.text()?;
            if self.prefix.is_empty() && self.read_plain_leaf(reader) {
                continue;
            }
            let Some(child) = reader.child_here(tag)? else {
                return Ok(());
            };
            self.read_child(reader, &child, parts.as_deref_mut())?;
        }
    }

    #[inline(always)]
    fn read_plain_leaf(&mut self, reader: &mut Reader<'a>) -> bool {
        match reader.peek_second() {
            b'i' => self.identifier.read_plain(reader, b"<identifier>", b"</identifier>"),
            b'm' => self.msg_type.read_plain(reader, b"<msgType>", b"</msgType>"),
            b's' => {
                self.sender.read_plain(reader, b"<sender>", b"</sender>")
                    || self.sent.read_plain(reader, b"<sent>", b"</sent>")
                    || self.status.read_plain(reader, b"<status>", b"</status>")
                    || self.scope.read_plain(reader, b"<scope>", b"</scope>")
            }
            _ => false,
        }
    }

    #[inline(always)]
    fn read_child(
        &mut self,
        reader: &mut Reader<'a>,
        child: &Tag<'a>,
        parts: Option<&mut Parts>,
    ) -> Step<()> {
        let leaf = match child.name_in(self.prefix) {
            b"info" => return self.read_info(reader, child, parts),
            b"identifier" => &mut self.identifier,
            b"sender" => &mut self.sender,
            b"sent" => &mut self.sent,
            b"status" => &mut self.status,
            b"msgType" => &mut self.msg_type,
            b"scope" => &mut self.scope,
            b"references" => &mut self.references,
            _ => return reader.skip(child, IN_ALERT),
        };
        leaf.read(reader, child, IN_ALERT)
    }

    /// The first info in English stays, before it the first of all.
    fn read_info(
        &mut self,
        reader: &mut Reader<'a>,
        tag: &Tag<'a>,
        parts: Option<&mut Parts>,
    ) -> Step<()> {
        if self.selected_is_english {
            let language = Info::read_language(reader, self.prefix, tag)?;
            self.language_fault |= language.is_at_fault();
            return Ok(());
        }
        if self.selected.is_some() {
            return self.read_other_info(reader, tag, parts);
        }
        let info = self.selected.insert(Info::new());
        info.read(reader, self.prefix, tag, parts)?;
        self.language_fault |= info.language.is_at_fault();
        self.selected_is_english = info.is_english();
        Ok(())
    }

    /// An info after one that is not in English.
    #[cold]
    fn read_other_info(
        &mut self,
        reader: &mut Reader<'a>,
        tag: &Tag<'a>,
        parts: Option<&mut Parts>,
    ) -> Step<()> {
        let mut info = Info::new();
        info.read(reader, self.prefix, tag, parts)?;
        self.language_fault |= info.language.is_at_fault();
        self.selected_is_english = info.is_english();
        self.parts_of_other = !self.selected_is_english;
        if self.selected_is_english {
            self.selected = Some(info);
        }
        Ok(())
    }
}

/// The prefix with its colon of a root whose namespace an attribute of this name declares: of `alert` and `xmlns`, or of `p:alert` and `xmlns:p`.
fn declared_prefix<'a>(root: &'a [u8], name: &[u8]) -> Option<&'a [u8]> {
    let prefix = root.strip_suffix(b"alert")?;
    let declared = match name.strip_prefix(b"xmlns")? {
        [] => prefix.is_empty(),
        [b':', declared @ ..] => prefix.strip_suffix(b":") == Some(declared),
        _ => false,
    };
    declared.then_some(prefix)
}
