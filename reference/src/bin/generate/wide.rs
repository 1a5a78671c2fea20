//! Edits that bring characters beyond ASCII, where they may stand and where they may not.

use crate::canadian::CANADIAN_CUTS;
use crate::chance::Chance;
use crate::draft::{group, Draft, Element, Node, NAMESPACE};
use crate::letters::{nearly, with_long_s, Spelling};
use crate::sound::{broadcast, broadcast_value, AUDIO, BROADCAST_TEXT, CUTS};

const SPELLINGS: [Spelling; 8] = [
    Spelling::Accented,
    Spelling::Mixed,
    Spelling::Mixed,
    Spelling::Mixed,
    Spelling::Of(2),
    Spelling::Of(3),
    Spelling::Of(4),
    Spelling::Of(4),
];

/// Parts that are cut, or nearly, in characters of several bytes, some behind such a senderName.
pub fn wide_cut(draft: &mut Draft, chance: &mut Chance) {
    let (spelling, edit) = (chance.pick(&SPELLINGS), chance.pick(&CUTS));
    if let Some(info) = draft.info().filter(|_| chance.once_in(2)) {
        let length = chance.pick(&[1, 2, 3, 50, 200]);
        info.put("senderName", &chance.spelled(spelling, |chance| chance.text(length)));
    }
    chance.spelled(spelling, |chance| edit(draft, chance));
}

/// The same of the Canadian mode.
pub fn wide_canadian_cut(draft: &mut Draft, chance: &mut Chance) {
    let (spelling, edit) = (chance.pick(&SPELLINGS), chance.pick(&CANADIAN_CUTS));
    chance.spelled(spelling, |chance| edit(draft, chance));
}

/// Parameters and codes that are named nearly as those that are read, and values that nobody
/// judges.
pub fn wide_values(draft: &mut Draft, chance: &mut Chance) {
    let Some(info) = draft.info() else {
        return;
    };
    let names = ["EASText", "EAS-ORG", "EAS-Must-Carry", BROADCAST_TEXT, ""];
    for _ in 0..=chance.below(3) {
        let name = nearly(chance.pick(&names), chance);
        let value = chance.pick(&["True", "PEP", "Ñ", ""]);
        info.add_first(Element::pair("parameter", &name, value));
    }
    if chance.once_in(3) {
        info.add_first(Element::pair("parameter", &with_long_s(BROADCAST_TEXT), "B"));
    }
    let value = nearly("CEM", chance);
    info.add(Element::pair("eventCode", &nearly("SAME", chance), &value));
    if chance.once_in(2) {
        let carry = nearly("True", chance);
        info.add_first(Element::pair("parameter", "EAS-Must-Carry", &carry));
    }
    if chance.once_in(2) {
        info.parameter("EAS-ORG", "CIV");
        info.parameter("EAS-ORG", &nearly("CIV", chance));
    }
    if let Some(area) = info.find(&["area"]) {
        let value = nearly("024031", chance);
        area.add(Element::pair("geocode", &nearly("SAME", chance), &value));
    }
}

/// A first info whose language is nearly that of the next, so that it is not selected.
pub fn wide_language(draft: &mut Draft, chance: &mut Chance) {
    let mut other = Element::new("info");
    let language = chance.pick(&["en-US", "EN-us", "en-uS", ""]);
    let near = if chance.once_in(2) { with_long_s("en-US") } else { nearly(language, chance) };
    other.put("language", &near);
    let value = broadcast_value(9, chance);
    other.add(broadcast(&value, chance));
    draft.root.add_first(other);
}

const PARTS: [&str; 3] = ["senderName", "description", "instruction"];

/// Values of what others take for white space, alone or at the ends of a text.
pub fn wide_space(draft: &mut Draft, chance: &mut Chance) {
    let Some(info) = draft.info() else {
        return;
    };
    let space = chance.pick(&["\u{a0}", "\u{85}", "\u{2028}", "\u{3000}", "\u{2003}", "\u{feff}"]);
    let text = match chance.below(4) {
        0 => space.to_string(),
        1 => format!(" {space} {space} "),
        2 => format!("{space}a{space}{space}b{space}"),
        _ => format!("a {space} b"),
    };
    match chance.below(5) {
        0 => info.add_first(Element::pair("parameter", "EASText", &text)),
        1 => info.add_first(broadcast(&text, chance)),
        _ => info.put(chance.pick(&PARTS), &text),
    }
}

/// Resources that are unsuitable by a character of their uri or mimeType, and behind them mostly
/// one that is suitable.
pub fn wide_uri(draft: &mut Draft, chance: &mut Chance) {
    let Some(info) = draft.info() else {
        return;
    };
    let resource = |mime_type: &str, uri: &str| {
        let mut resource = Element::new("resource");
        resource.add(Element::leaf("mimeType", mime_type));
        resource.add(Element::leaf("uri", uri));
        resource
    };
    for _ in 0..=chance.below(2) {
        let length = chance.pick(&[1, 4, 511, 1022, 1023, 1024]);
        let uri = chance.plain_text(length);
        let kind = chance.pick(&AUDIO);
        info.add(match chance.below(4) {
            0 => resource(&nearly(kind, chance), &uri),
            1 => resource(kind, &chance.spelled(Spelling::Of(2), |chance| chance.text(512))),
            _ => resource(kind, &nearly(&uri, chance)),
        });
    }
    if !chance.once_in(4) {
        info.add(resource(chance.pick(&AUDIO), "u"));
    }
}

/// Attributes of elements that are read.
pub fn wide_attributes(draft: &mut Draft, chance: &mut Chance) {
    let attributes = [
        " a='é'",
        " a=\"\u{7ff}\u{800}\u{ffff0}\" b='&#xe9;'",
        " a='\u{10ffff}' A='&#x10FFFF;&#0000233;'",
        " x:a='\u{7f}&#127;\u{85}'\n",
        " language='en-u\u{17f}'",
        " a='\u{fffd}'\tb='\u{d7ff}\u{e000}'",
    ];
    let paths: [&[&str]; 5] =
        [&[], &["info"], &["identifier"], &["info", "description"], &["info", "area", "geocode"]];
    for _ in 0..=chance.below(3) {
        if let Some(element) = draft.root.find(chance.pick(&paths)) {
            element.attributes = chance.pick(&attributes).to_string();
        }
    }
}

/// Declarations of characters that are well formed, legal elsewhere or not.
pub fn wide_declaration(draft: &mut Draft, chance: &mut Chance) {
    let declarations = [
        "<?xml é?>",
        "<?xml \u{0}?>",
        "<?xml \u{1}\u{b}\u{1f}\u{7f}?>",
        "<?xml \u{fffe}\u{ffff}?>",
        "<?xml \u{80}\u{7ff}\u{800}\u{d7ff}\u{e000}?>",
        "<?xml \u{10000}\u{10ffff}?>",
        "<?xml version='1.0' encoding='ISO-8859-1'?>",
        "<?xml \u{feff}\u{13f}\u{13e}\u{3f3e}?>",
    ];
    draft.before = chance.pick(&declarations).into();
    draft.before.extend(chance.pick(&["", "\n", "<!--é-->", "<!--\u{10ffff}\u{fffd}-->"]).bytes());
    draft.after.extend(chance.pick(&["", "<!--\u{7f}\u{80}-->", "<!--ñ--><!--💧-->"]).bytes());
}

/// A message of nearly the most bytes, in far fewer characters, or of one byte more.
pub fn wide_fill(draft: &mut Draft, chance: &mut Chance) {
    if !chance.once_in(6) {
        return wide_declaration(draft, chance);
    }
    let (letter, count) = chance.pick(&[("é", 14_000), ("€", 9000), ("💧", 7000)]);
    draft.after.extend(format!("<!--{}-->", letter.repeat(count)).bytes());
    draft.fill = chance.pick(&[32_767, 32_768, 32_768, 32_769]);
}

/// Sequences of bytes that are not well formed.
#[rustfmt::skip]
const MALFORMED: [&[u8]; 50] = [
    b"\x80", b"\xbf", b"\xa9", b"\xe9", b"\xff", b"\xfe", b"\xc3", b"\xc3\xc3\xa9", b"\xc3\xa9\xa9",
    b"\xc0\x80", b"\xc0\xbc", b"\xc1\x81", b"\xc1\xbf", b"\xe0\x80\x80", b"\xe0\x81\x81",
    b"\xe0\x9f\xbf", b"\xed\xa0\x80", b"\xed\xaf\xbf", b"\xed\xb0\x80", b"\xed\xbf\xbf",
    b"\xed\xa0\xbd\xed\xb8\x80", b"\xf0\x80\x80\x80", b"\xf0\x80\x81\x81", b"\xf0\x8f\xbf\xbf",
    b"\xf4\x90\x80\x80", b"\xf5\x80\x80\x80", b"\xf7\xbf\xbf\xbf", b"\xf8\x88\x80\x80\x80",
    b"\xfc\x84\x80\x80\x80\x80", b"\xe1\x80", b"\xe2\x82", b"\xe2(\xa1", b"\xe2\x82(", b"\xf0\x9f",
    b"\xf0\x9f\x98", b"\xf0(\x8c\xbc", b"\xf0\x90(\xbc", b"\xf1\x80\x80", b"\xf4\x8f\xbf", b"\xef\xbb",
    b"\xf0\x82\x82\xac", b"\xf0\x8f\xbf\xbd", b"\xf8\x90\x80\x80", b"\xfc\x80\x80\x80",
    b"\xc3\xc3", b"\xc3\xe9", b"\xe2\x82\xc2", b"\xe2\xe2\x82", b"\xf0\x9f\x98\xc3",
    b"\xf0\x9f\xff\x80",
];

const LEAVES: [&[&str]; 8] = [
    &["identifier"],
    &["sent"],
    &["status"],
    &["info", "expires"],
    &["info", "senderName"],
    &["info", "description"],
    &["info", "instruction"],
    &["info", "eventCode", "value"],
];

const CONTAINERS: [&[&str]; 4] = [&[], &["info"], &["info", "area"], &["info", "eventCode"]];

fn put_raw(draft: &mut Draft, paths: &[&[&str]], raw: &[u8], chance: &mut Chance) {
    if let Some(element) = draft.root.find(chance.pick(paths)) {
        element.add_raw(raw, chance);
    }
}

/// Bytes that are not well formed, in every place that a message has.
pub fn malformed(draft: &mut Draft, chance: &mut Chance) {
    let bytes = chance.pick(&MALFORMED);
    let within = |before: &[u8], behind: &[u8]| [before, bytes, behind].concat();
    let everywhere = [&LEAVES[..], &CONTAINERS].concat();
    match chance.below(10) {
        0 => draft.before = within(b"<?xml ", b"?>"),
        1 => draft.before = within("<?xml é\u{0}".as_bytes(), b"?>"),
        2 => put_raw(draft, &CONTAINERS, &within(b"<a b='", b"'/>"), chance),
        3 => put_raw(draft, &everywhere, &within(b"<!--", b"-->"), chance),
        4 => put_raw(draft, &CONTAINERS, &within(b"<a><b>x", b"</b></a>"), chance),
        5 => put_raw(draft, &CONTAINERS, &within(b"<a", b"/>"), chance),
        6 => draft.after.extend(within(b"<!--", b"-->")),
        7 => draft.after.extend(bytes),
        _ => put_raw(draft, &everywhere, bytes, chance),
    }
}

/// Characters that XML does not have, and references to what is none or has too many digits.
#[rustfmt::skip]
const ILLEGAL: [&str; 28] = [
    "\u{0}", "\u{1}", "\u{8}", "\u{b}", "\u{c}", "\u{e}", "\u{1f}", "\u{fffe}", "\u{ffff}", "&#0;",
    "&#1;", "&#x1F;", "&#xFFFE;", "&#xffff;", "&#65534;", "&#xD800;", "&#xdbff;", "&#xDC00;",
    "&#xDFFF;", "&#55296;", "&#1114112;", "&#x110000;", "&#x1000041;", "&#xfffffff;", "&#9999999;",
    "&#00000233;", "&#x000000E9;", "&#\u{661};",
];

pub fn illegal(draft: &mut Draft, chance: &mut Chance) {
    let text = chance.pick(&ILLEGAL);
    let everywhere = [&LEAVES[..], &CONTAINERS].concat();
    match chance.below(4) {
        0 => put_raw(draft, &CONTAINERS, format!("<a b=\"{text}\"/>").as_bytes(), chance),
        1 if !text.starts_with('&') => {
            put_raw(draft, &everywhere, format!("<!--{text}-->").as_bytes(), chance);
        }
        _ => put_raw(draft, &everywhere, text.as_bytes(), chance),
    }
}

/// Characters beyond ASCII in the markup itself.
#[rustfmt::skip]
const IN_MARKUP: [&str; 18] = [
    "<é/>", "<né/>", "<n\u{7f}/>", "<a:é/>", "<\u{10041}/>", "<a é='1'/>", "<a bé='1'/>",
    "<a\u{a0}b='1'/>", "<a \u{3000}b='1'/>", "<a b\u{85}='1'/>", "<a b=\u{2028}'1'/>", "<a/\u{e9}>",
    "<a></a\u{a0}>", "<a></á>", "<a></aé>", "<\u{13c}/>", "&é;", "&l\u{174};",
];

/// Characters beyond ASCII where none may stand: in names and tags, and round the root.
pub fn misplaced_wide(draft: &mut Draft, chance: &mut Chance) {
    let beside = chance.pick(&["\u{feff}", "é", "\u{a0}", "\u{85}", "\u{3000}", "💧", "\u{7f}"]);
    match chance.below(5) {
        0 => draft.before.extend(beside.bytes()),
        1 => draft.before.splice(0..0, "\u{feff}".bytes()).for_each(drop),
        2 => draft.after.extend(beside.bytes()),
        _ => {
            let raw = chance.pick(&IN_MARKUP).as_bytes();
            put_raw(draft, &[&LEAVES[..], &CONTAINERS].concat(), raw, chance);
        }
    }
}

/// A namespace that is nearly the one.
pub fn wide_root(draft: &mut Draft, chance: &mut Chance) {
    let namespace = nearly(NAMESPACE, chance);
    draft.declares = Some(match draft.prefix.as_str() {
        "" => format!(" xmlns='{namespace}'"),
        prefix => format!(" xmlns:{prefix}='{namespace}'"),
    });
}

/// Makes the text of a leaf nearly what it is.
fn near_leaf(draft: &mut Draft, path: &[&str], chance: &mut Chance) {
    let Some(leaf) = draft.root.find(path) else {
        return;
    };
    if let [Node::Text(text)] = &leaf.children[..] {
        let near = nearly(text, chance);
        leaf.set(&near);
    }
}

/// A character outside its range in one of the six leaves that every message has.
pub fn wide_leaf(draft: &mut Draft, chance: &mut Chance) {
    let name = chance.pick(&["identifier", "sender", "sent", "status", "msgType", "scope"]);
    near_leaf(draft, &[name], chance);
}

/// The same in references; those of an Alert are not judged.
pub fn wide_references(draft: &mut Draft, chance: &mut Chance) {
    let groups = [group(chance), group(chance), group(chance)];
    let place = chance.below(groups.len());
    let near = nearly(&groups[place], chance);
    let all = groups.iter().enumerate().map(
        |(other, group)| {
            if other == place {
                near.as_str()
            } else {
                group
            }
        },
    );
    draft.refer(
        chance.pick(&["Update", "Cancel", "Update", "Alert"]),
        &all.collect::<Vec<_>>().join(" "),
    );
}

pub fn wide_event(draft: &mut Draft, chance: &mut Chance) {
    let leaf = chance.pick(&["value", "value", "valueName"]);
    near_leaf(draft, &["info", "eventCode", leaf], chance);
}

pub fn wide_originator(draft: &mut Draft, chance: &mut Chance) {
    let originator = nearly(chance.pick(&["PEP", "EAS", "WXR", "CIV"]), chance);
    if let Some(info) = draft.info() {
        info.add_first(Element::pair("parameter", "EAS-ORG", &originator));
    }
}

pub fn wide_location(draft: &mut Draft, chance: &mut Chance) {
    let leaf = chance.pick(&["value", "value", "valueName"]);
    near_leaf(draft, &["info", "area", "geocode", leaf], chance);
}

pub fn wide_expires(draft: &mut Draft, chance: &mut Chance) {
    near_leaf(draft, &["info", "expires"], chance);
}
