//! Differences in what is not read.

use std::ops::Range;

use crate::chance::Chance;
use crate::letters::of_length;
use crate::tree::{Element, Place, Region, Tree};

/// The bytes that go, and those that come in their place.
pub type Change = (Range<usize>, Vec<u8>);

/// A kind of difference, and how to make it where a message has a place for it.
pub type Difference = (&'static str, fn(&Tree, &mut Chance) -> Option<Change>);

/// What is put in comes first.
pub const UNREAD: [Difference; 20] = [
    ("comment-put-in-before", |tree, chance| put_comment(tree, Region::Before, chance)),
    ("comment-put-in-inside", |tree, chance| put_comment(tree, Region::Inside, chance)),
    ("comment-put-in-value", |tree, chance| put_comment(tree, Region::Value, chance)),
    ("comment-put-in-behind", |tree, chance| put_comment(tree, Region::Behind, chance)),
    ("skipped-put-in", put_skipped),
    ("wide-comment-put-in", put_wide_comment),
    ("wide-skipped-put-in", put_wide_skipped),
    ("comment-changed-before", |tree, chance| change_comment(tree, Region::Before, chance)),
    ("comment-changed-inside", |tree, chance| change_comment(tree, Region::Inside, chance)),
    ("comment-changed-value", |tree, chance| change_comment(tree, Region::Value, chance)),
    ("comment-changed-behind", |tree, chance| change_comment(tree, Region::Behind, chance)),
    ("comment-taken-out-before", |tree, chance| take_comment(tree, Region::Before, chance)),
    ("comment-taken-out-inside", |tree, chance| take_comment(tree, Region::Inside, chance)),
    ("comment-taken-out-value", |tree, chance| take_comment(tree, Region::Value, chance)),
    ("comment-taken-out-behind", |tree, chance| take_comment(tree, Region::Behind, chance)),
    ("skipped-inside", change_inside),
    ("skipped-attributes", change_attributes),
    ("skipped-name", change_name),
    ("skipped-taken-out", take_skipped),
    LATER_INFO,
];

pub const LATER_INFO: Difference = ("later-info", change_later);

/// How many of them put something in.
pub const PUT_IN: usize = 7;

const COMMENTS: [&str; 10] = [
    "<!---->",
    "<!-- - -->",
    "<!--->-->",
    "<!--<info>-->",
    "<!--&bad; ]]> <?x?> </alert>-->",
    "<!--\r\n\t-->",
    "<!--en-US-->",
    "<!--</identifier><identifier>B2-->",
    "<!--é-->",
    "<!--\u{13e}\u{800}\u{10ffff}-->",
];

const BROADCAST_TEXT: &str = "<@parameter><@valueName>layer:AEA:2.0:broadcastText</@valueName>\
    <@value>B</@value></@parameter>";

/// What a skipped element may hold.
const INSIDE: [&str; 17] = [
    "x",
    " \r\n\t",
    "&amp;",
    "<!-- <a> & -->",
    "<q/>",
    "<q a='1'>t</q>",
    "<@info/>",
    "<@language>fr</@language>",
    "<@identifier>B2</@identifier>",
    "<@value>SAME</@value>",
    "<@references/><@references/>",
    "<@eventCode><@valueName>SAME</@valueName><@value>CEM</@value></@eventCode>",
    "<@info><@expires/><@expires/></@info>",
    BROADCAST_TEXT,
    "ñ&#xF1;&#0000241;",
    "<@description>\u{a0}\u{10ffff}</@description>",
    "<@identifier>\u{7f}</@identifier>",
];

/// What a later info may hold beside its language.
const IN_LATER: [&str; 14] = [
    "",
    "text",
    "<!--<language>en-US</language>-->",
    "<@event>x</@event>",
    "<@description>one</@description><@description/>",
    "<@eventCode/>",
    "<@eventCode><@valueName>SAME</@valueName><@value>TOR</@value></@eventCode>",
    "<@expires><a/></@expires>",
    "<@info><@language>en-US</@language></@info>",
    "<@parameter><@valueName>EAS-ORG</@valueName><@value>PEP</@value></@parameter>",
    BROADCAST_TEXT,
    "<@area><@geocode><@valueName>SAME</@valueName><@value>1</@value></@geocode></@area>",
    "<@senderName>Doña Ana</@senderName>",
    "\u{fffd}<!--\u{80}--><@expires>\u{1f4a7}</@expires>",
];

const ATTRIBUTES: [&str; 9] = [
    "",
    "\n",
    " a='1'",
    " a = \"&lt;>\"\tb='/>'",
    " xmlns='urn:x' xmlns:q='urn:oasis:names:tc:emergency:cap:1.2'",
    " xmlns=\"urn:oasis:names:tc:emergency:cap:1.2\" ",
    " language='en-US' status='Test'",
    " a='é' b=\"&#xe9;\"",
    " a='\u{7f}\u{13e}\u{10ffff}'",
];

/// Names that are read somewhere, and others.
#[rustfmt::skip]
const NAMES: [&str; 21] = [
    "identifier", "sent", "scope", "references", "info", "language", "expires", "description",
    "eventCode", "parameter", "resource", "area", "geocode", "valueName", "value", "uri",
    "contact", "web", "Identifier", "infos", "_",
];

pub fn one_of<T: Copy>(items: impl IntoIterator<Item = T>, chance: &mut Chance) -> Option<T> {
    let items: Vec<T> = items.into_iter().collect();
    (!items.is_empty()).then(|| chance.pick(&items))
}

/// An element written out.
pub fn write_element(
    name: &[u8],
    attributes: &[u8],
    inside: &[u8],
    chance: &mut Chance,
) -> Vec<u8> {
    if inside.is_empty() && chance.once_in(2) {
        return [b"<", name, attributes, b"/>"].concat();
    }
    let gap = chance.pick(&["", "", "\n"]).as_bytes();
    [b"<", name, attributes, b">", inside, b"</", name, gap, b">"].concat()
}

/// Bytes in which @ stands for the root's prefix.
fn with_prefix(tree: &Tree, text: &str) -> Vec<u8> {
    text.as_bytes().split(|b| *b == b'@').collect::<Vec<_>>().join(tree.prefix)
}

fn comment(chance: &mut Chance) -> Vec<u8> {
    if chance.once_in(5) {
        return format!("<!--{}-->", "long ".repeat(chance.below(100))).into_bytes();
    }
    chance.pick(&COMMENTS).into()
}

fn put_comment(tree: &Tree, region: Region, chance: &mut Chance) -> Option<Change> {
    let spots = match region {
        Region::Before => &tree.before,
        Region::Behind => &tree.behind,
        _ => {
            let fits = |element: &&Element| element.region() == region && !element.spots.is_empty();
            &one_of(tree.elements.iter().filter(fits), chance)?.spots
        }
    };
    let at = chance.pick(spots);
    Some((at..at, comment(chance)))
}

/// Some characters of two bytes and more, as they stand or by reference.
fn wide(chance: &mut Chance) -> String {
    let mut text = String::new();
    for _ in 0..=chance.below(3) {
        let letter = of_length(2 + chance.below(3), chance);
        match chance.below(3) {
            0 => text += &format!("&#x{:x};", u32::from(letter)),
            _ => text.push(letter),
        }
    }
    text
}

fn put_wide_comment(tree: &Tree, chance: &mut Chance) -> Option<Change> {
    let region = chance.pick(&[Region::Before, Region::Inside, Region::Value, Region::Behind]);
    let (range, _) = put_comment(tree, region, chance)?;
    Some((range, format!("<!--{}-->", wide(chance)).into_bytes()))
}

fn some_comment(tree: &Tree, region: Region, chance: &mut Chance) -> Option<Range<usize>> {
    let fits = tree.comments.iter().filter(|(stands, _)| *stands == region);
    one_of(fits, chance).map(|(_, range)| range.clone())
}

fn change_comment(tree: &Tree, region: Region, chance: &mut Chance) -> Option<Change> {
    Some((some_comment(tree, region, chance)?, comment(chance)))
}

fn take_comment(tree: &Tree, region: Region, chance: &mut Chance) -> Option<Change> {
    Some((some_comment(tree, region, chance)?, Vec::new()))
}

fn inside(tree: &Tree, chance: &mut Chance) -> Vec<u8> {
    (0..chance.below(4)).flat_map(|_| with_prefix(tree, chance.pick(&INSIDE))).collect()
}

/// A name of an element that is not read in one of this place.
fn skipped_name(tree: &Tree, parent: Place, chance: &mut Chance) -> Vec<u8> {
    loop {
        let pattern = chance.pick(&["", "@", "q:"]);
        let name = with_prefix(tree, &format!("{pattern}{}", chance.pick(&NAMES)));
        if !tree.place(parent, &name).is_read() {
            return name;
        }
    }
}

fn put_skipped(tree: &Tree, chance: &mut Chance) -> Option<Change> {
    let attributes = chance.pick(&ATTRIBUTES);
    let inside = inside(tree, chance);
    put_element(tree, attributes, &inside, chance)
}

/// A skipped element with wide characters in an attribute and in what it holds.
fn put_wide_skipped(tree: &Tree, chance: &mut Chance) -> Option<Change> {
    let (attributes, inside) = (format!(" a='{}'", wide(chance)), wide(chance));
    put_element(tree, &attributes, inside.as_bytes(), chance)
}

/// A skipped element with these attributes that holds this.
fn put_element(
    tree: &Tree,
    attributes: &str,
    inside: &[u8],
    chance: &mut Chance,
) -> Option<Change> {
    let fits = |element: &&Element| element.place.is_container() && !element.spots.is_empty();
    let element = one_of(tree.elements.iter().filter(fits), chance)?;
    let name = skipped_name(tree, element.place, chance);
    let written = write_element(&name, attributes.as_bytes(), inside, chance);
    let at = chance.pick(&element.spots);
    Some((at..at, written))
}

/// An element that is skipped, or stands in a leaf.
fn not_read<'t, 'm>(tree: &'t Tree<'m>, chance: &mut Chance) -> Option<&'t Element<'m>> {
    let fits = |element: &&Element| matches!(element.place, Place::Skipped | Place::InLeaf);
    one_of(tree.elements.iter().filter(fits), chance)
}

fn change_inside(tree: &Tree, chance: &mut Chance) -> Option<Change> {
    let element = not_read(tree, chance)?;
    let other = inside(tree, chance);
    let written = write_element(element.name, element.attributes, &other, chance);
    (other != element.inside).then(|| (element.whole.clone(), written))
}

fn change_attributes(tree: &Tree, chance: &mut Chance) -> Option<Change> {
    let element = not_read(tree, chance)?;
    let other = chance.pick(&ATTRIBUTES).as_bytes();
    let written = write_element(element.name, other, element.inside, chance);
    (other != element.attributes).then(|| (element.whole.clone(), written))
}

fn change_name(tree: &Tree, chance: &mut Chance) -> Option<Change> {
    let element = not_read(tree, chance)?;
    let other = skipped_name(tree, element.parent, chance);
    let written = write_element(&other, element.attributes, element.inside, chance);
    (other != element.name).then(|| (element.whole.clone(), written))
}

/// Takes out a skipped element that stands in no leaf.
fn take_skipped(tree: &Tree, chance: &mut Chance) -> Option<Change> {
    let fits = tree.elements.iter().filter(|element| element.place == Place::Skipped);
    Some((one_of(fits, chance)?.whole.clone(), Vec::new()))
}

/// Writes a later info anew, round its language as it stands.
fn change_later(tree: &Tree, chance: &mut Chance) -> Option<Change> {
    let infos = tree.elements.iter().filter(|element| element.place == Place::Later);
    let info = one_of(infos, chance)?;
    let within = |element: &&Element| info.whole.contains(&element.whole.start);
    let mut inside = Vec::new();
    for language in tree.elements.iter().filter(within).filter(|e| e.place == Place::Leaf) {
        inside.extend(with_prefix(tree, chance.pick(&IN_LATER)));
        inside.extend(&tree.message[language.whole.clone()]);
    }
    for _ in 0..chance.below(3) {
        inside.extend(with_prefix(tree, chance.pick(&IN_LATER)));
    }
    let attributes = chance.pick(&ATTRIBUTES).as_bytes();
    Some((info.whole.clone(), write_element(info.name, attributes, &inside, chance)))
}
