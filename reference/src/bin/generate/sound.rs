//! Edits that keep a draft sound, or most often do.

use crate::chance::Chance;
use crate::draft::{group, info, Draft, Edit, Element, Style, NAMESPACE};
use crate::letters::put_over;
use crate::render::render;
use crate::times::{time_text, END};
use crate::wide::{
    wide_attributes, wide_cut, wide_declaration, wide_fill, wide_language, wide_space, wide_uri,
    wide_values,
};

#[rustfmt::skip]
pub const SOUND: [Edit; 39] = [
    style, locations, parts, long_parts, long_parts, eas_text, broadcast_text, sender_name, period,
    border_of_time, resources, resources, originator, must_carry, must_carry, languages, update,
    cancel, quiet, shape, prefix, misplaced, empty_pairs, long_words, references_of_alert,
    declaration, fill, wide_cut, wide_cut, wide_values, wide_language, wide_space, wide_uri, wide_uri,
    wide_attributes, wide_declaration, wide_fill, must_carry, quiet,
];

/// Those that make parts which are cut, or nearly.
pub const CUTS: [Edit; 4] = [long_parts, long_parts, eas_text, sender_name];

fn style(draft: &mut Draft, chance: &mut Chance) {
    let odds = [0, 1, 2, 8];
    draft.style = Style {
        gaps: chance.pick(&odds),
        references: chance.pick(&[0, 1, 4, 20]),
        comments: chance.pick(&[0, 2, 8]),
        skipped: chance.pick(&[0, 0, 3, 8]),
        shuffled: chance.once_in(2),
    };
}

fn locations(draft: &mut Draft, chance: &mut Chance) {
    let Some(info) = draft.info() else {
        return;
    };
    info.remove_all("area");
    let mut left = chance.pick(&[1, 2, 3, 10, 30, 31, 32, 40]);
    let mut code = chance.digits(6);
    while left > 0 {
        let mut area = Element::new("area");
        for _ in 0..=chance.below(left.min(20)) {
            if !chance.once_in(4) {
                code = chance.digits(6);
            }
            area.add(Element::pair("geocode", "SAME", &code));
            left -= 1;
            if chance.once_in(8) {
                let name = chance.pick(&["UGC", "same", "SAME ID", ""]);
                area.add(Element::pair("geocode", name, "MDZ013"));
            }
        }
        info.add(area);
    }
}

/// Description, instruction and sender name: there, empty or absent.
fn parts(draft: &mut Draft, chance: &mut Chance) {
    let Some(info) = draft.info() else {
        return;
    };
    for name in ["senderName", "description", "instruction"] {
        info.remove_all(name);
        let length = chance.below(60);
        match chance.below(5) {
            0 => {}
            1 => info.add(Element::new(name)),
            2 => info.add(Element::leaf(name, " \n ")),
            _ => info.add(Element::leaf(name, &chance.text(length))),
        }
    }
}

/// How many characters a draft's text has without some of its parts.
fn length_without(draft: &Draft, names: &[&str]) -> Option<usize> {
    let mut plain = draft.clone();
    plain.style = Style::default();
    for name in names {
        plain.info()?.remove_all(name);
    }
    let message = render(&plain, &mut Chance::seeded(0));
    let (mut text, mut uri) = ([0; 7200], [0; 1024]);
    let done = reference::text(&message, b"BENCH/01", &mut text, &mut uri);
    done.ok().map(|done| String::from_utf8_lossy(&text[..done.text]).chars().count())
}

/// Description and instruction round the borders of their allotments.
fn long_parts(draft: &mut Draft, chance: &mut Chance) {
    let Some(before) = length_without(draft, &["description", "instruction", "parameter"]) else {
        return;
    };
    let Some(info) = draft.info() else {
        return;
    };
    let name = chance.pick(&["description", "instruction"]);
    let other = if name == "description" { "instruction" } else { "description" };
    let room = (1800 - before) as i64 - 2;
    let half = room / 2;
    let near = chance.between(-2, 2);
    let (first, second) = match chance.below(6) {
        0 => (room + 1 + near, 0),
        1 => (room - 20 + near, 20),
        2 => (half + near, half + chance.between(-2, 3)),
        3 => (half + near, 1500),
        4 => (1700, chance.between(1, 900)),
        _ => (room - half + near, half + chance.between(-2, 2)),
    };
    info.put(name, &chance.text(first.max(0) as usize));
    info.put(other, &chance.text(second.max(0) as usize));
}

fn eas_text(draft: &mut Draft, chance: &mut Chance) {
    let parts = ["senderName", "description", "instruction", "parameter"];
    let Some(before) = length_without(draft, &parts) else {
        return;
    };
    let Some(info) = draft.info() else {
        return;
    };
    let length = match chance.below(5) {
        0 => 0,
        1 => chance.below(100),
        2 => 1798_usize.saturating_sub(before) + chance.below(3),
        3 => 1799_usize.saturating_sub(before),
        _ => 1900,
    };
    info.parameter("EASText", &chance.text(length));
    if chance.once_in(3) {
        info.parameter(chance.pick(&["EASText", "eastext", "EASTEXT"]), "Second");
    }
}

pub const BROADCAST_TEXT: &str = "layer:AEA:2.0:broadcastText";

/// Names that are not quite that of a broadcastText.
#[rustfmt::skip]
const NEARLY: [&str; 11] = [
    "layer:AEA:2.0:broadcastTex", "layer:AEA:2.0:broadcastTextx", "ayer:AEA:2.0:broadcastText",
    "xlayer:AEA:2.0:broadcastText", "layer:AEA:2.0:broadcast Text", "layer:AEA:2.1:broadcastText",
    "layer:AEA:2.0.broadcastText", "layer:AEA:2.0:bboadcastText", "layer:AEA:2.0:", "broadcastText",
    "layer:AEA:2.0:broadcastText layer:AEA:2.0:broadcastText",
];

/// The name of a broadcastText in some letter case, some with white space round it.
fn broadcast_name(chance: &mut Chance) -> String {
    let name = BROADCAST_TEXT;
    match chance.below(4) {
        0 => name.to_string(),
        1 => format!(" {}\n", name.to_ascii_lowercase()),
        2 => name.to_ascii_uppercase(),
        _ => name.chars().map(|c| chance.pick(&[c, c.to_ascii_uppercase()])).collect(),
    }
}

/// A broadcastText parameter with this value.
pub fn broadcast(value: &str, chance: &mut Chance) -> Element {
    Element::pair("parameter", &broadcast_name(chance), value)
}

/// A B and so much text. No description begins with B: by that the comparer tells whose text it is.
pub fn broadcast_value(length: usize, chance: &mut Chance) -> String {
    format!("B{}", chance.text(length))
}

/// Up to three parameters named broadcastText or nearly so, before and behind the other parts.
pub fn broadcast_text(draft: &mut Draft, chance: &mut Chance) {
    let Some(info) = draft.info() else {
        return;
    };
    for _ in 0..=chance.below(3) {
        let length = chance.below(60);
        let value = match chance.below(4) {
            0 => chance.pick(&["", " \n "]).to_string(),
            _ => broadcast_value(length, chance),
        };
        let parameter = match chance.below(4) {
            0 => Element::pair("parameter", chance.pick(&NEARLY), &value),
            _ => broadcast(&value, chance),
        };
        if chance.once_in(2) {
            info.add(parameter);
        } else {
            info.add_first(parameter);
        }
    }
    if chance.once_in(3) {
        info.parameter("EASText", "Beside");
    }
}

fn sender_name(draft: &mut Draft, chance: &mut Chance) {
    let length = chance.pick(&[0, 1, 2, 199, 200, 201, 250, 1900]);
    let mut name = chance.text(length);
    if length > 0 && chance.once_in(4) {
        put_over(&mut name, length - 1, ".");
    }
    if length > 200 && chance.once_in(4) {
        put_over(&mut name, 198, "x y");
    }
    if let Some(info) = draft.info() {
        info.put("senderName", &name);
    }
}

fn period(draft: &mut Draft, chance: &mut Chance) {
    let border = chance.pick(&[
        1, 900, 1800, 2700, 3600, 5400, 7200, 86_400, 356_400, 358_200, 360_000, 1_000_000,
    ]);
    let zone = chance.pick(&[draft.zone, 0, -899, 899]);
    draft.expire_after((border + chance.between(-1, 1)).max(1), zone);
}

fn border_of_time(draft: &mut Draft, chance: &mut Chance) {
    let day = 86_400;
    let border = chance.pick(&[
        0,
        60,
        3600,
        day,
        59 * day,
        60 * day,
        366 * day,
        1461 * day,
        1520 * day,
        4748 * day,
        36_159 * day,
        END - 20_000,
    ]);
    let sent = (border + chance.pick(&[-1, 0, 1, 59, 60, -60, 3600])).clamp(0, END - 3601);
    let zone = chance.pick(&[0, 899, -899, 840, -840, 60, -60, 1, -1]);
    draft.set_sent(sent, zone);
    draft.expire_after(chance.pick(&[1, 900, 2700, 3600]), zone);
}

/// The mimeTypes that count.
pub const AUDIO: [&str; 3] =
    ["audio/x-ipaws-audio-mp3", "audio/x-ipaws-audio-wav", "audio/x-ipaws-streaming-audio-mp3"];

pub fn resources(draft: &mut Draft, chance: &mut Chance) {
    let Some(info) = draft.info() else {
        return;
    };
    for _ in 0..=chance.below(3) {
        let mut resource = Element::new("resource");
        resource.add(Element::leaf("resourceDesc", "x"));
        let others = ["audio/mpeg", "Audio/x-ipaws-audio-mp3", "audio/x-ipaws-audio-mp", ""];
        let kinds = if chance.once_in(2) { &AUDIO[..] } else { &others };
        let kind = chance.pick(kinds);
        if !chance.once_in(8) {
            resource.add(Element::leaf("mimeType", kind));
        }
        let length = chance.pick(&[0, 1, 1, 20, 20, 1023, 1024, 1024, 1025, 1100]);
        if !chance.once_in(6) {
            resource.add(Element::leaf("uri", &chance.plain_text(length)));
        }
        info.add(resource);
    }
}

fn originator(draft: &mut Draft, chance: &mut Chance) {
    let Some(info) = draft.info() else {
        return;
    };
    info.parameter("EAS-ORG", chance.pick(&["PEP", "EAS", "WXR", "CIV"]));
    if chance.once_in(4) {
        info.parameter("EAS-ORG", chance.pick(&["XXX", "", "PEP"]));
    }
}

fn must_carry(draft: &mut Draft, chance: &mut Chance) {
    let Some(info) = draft.info() else {
        return;
    };
    let name = chance.pick(&["EAS-Must-Carry", "EAS-Must-Carry", "EAS-must-carry"]);
    info.parameter(name, chance.pick(&["True", " True ", "True", "TRUE", "true", "False", ""]));
    if chance.once_in(3) {
        info.parameter("EAS-Must-Carry", chance.pick(&["True", "False"]));
    }
}

/// Other infos before and behind the draft's own, which is most often the one that is selected.
pub fn languages(draft: &mut Draft, chance: &mut Chance) {
    let Some(info) = draft.info() else {
        return;
    };
    let alone = chance.once_in(4);
    if alone {
        info.put("language", "es-US");
    } else if chance.once_in(2) {
        info.put("language", chance.pick(&["en-US", "", " eN-uS "]));
    }
    for _ in 0..=chance.below(3) {
        let other = foreign_info(draft, chance);
        if alone || chance.once_in(2) {
            draft.root.add(other);
        } else {
            draft.root.add_first(other);
        }
    }
    if chance.once_in(4) {
        let english = another_info(draft, chance);
        draft.root.add(english);
    }
}

/// An empty info, or a sound one.
fn another_info(draft: &Draft, chance: &mut Chance) -> Element {
    if chance.once_in(2) {
        return Element::new("info");
    }
    info(draft.sent, draft.zone, chance)
}

/// An info in another language, with or without faults that do not count.
fn foreign_info(draft: &Draft, chance: &mut Chance) -> Element {
    let mut other = another_info(draft, chance);
    other.put("language", chance.pick(&["es", "en", "en-GB", "fr-CA", "en-USA", "enxUS"]));
    let mut holding = Element::new("description");
    holding.add(Element::new("a"));
    for fault in [Element::new("expires"), Element::new("eventCode"), holding] {
        if chance.once_in(3) {
            other.add(fault.clone());
            other.add(fault);
        }
    }
    other
}

/// References of 1 to 16 groups.
pub fn groups(count: usize, chance: &mut Chance) -> String {
    let mut all = vec![group(chance)];
    while all.len() < count {
        let again = all[0].clone();
        all.push(if chance.once_in(8) { again } else { group(chance) });
    }
    all.join(chance.pick(&[" ", "\n", " \t\r\n "]))
}

fn count_of_groups(chance: &mut Chance) -> usize {
    chance.pick(&[1, 1, 1, 2, 3, 5, 15, 16])
}

fn update(draft: &mut Draft, chance: &mut Chance) {
    let count = count_of_groups(chance);
    draft.refer("Update", &groups(count, chance));
}

pub fn cancel(draft: &mut Draft, chance: &mut Chance) {
    let count = count_of_groups(chance);
    draft.refer("Cancel", &groups(count, chance));
}

/// A Cancel that is quiet for one of the four reasons. Half say that they must be carried, some
/// have audio, and nothing of it is given.
pub fn quiet(draft: &mut Draft, chance: &mut Chance) {
    cancel(draft, chance);
    if chance.once_in(3) {
        resources(draft, chance);
    }
    let Some(info) = draft.info() else {
        return;
    };
    if chance.once_in(2) {
        info.add_first(Element::pair("parameter", "EAS-Must-Carry", "True"));
    }
    match chance.below(6) {
        0 => draft.root.remove_all("info"),
        1 => info.remove_all("eventCode"),
        2 => info.remove_all("area"),
        3 => info.remove_all("expires"),
        4 => {
            info.remove_all("expires");
            info.parameter("EAS-ORG", "XXX");
        }
        _ => {
            if let Some(name) = info.find(&["eventCode", "valueName"]) {
                name.set("same");
            }
        }
    }
}

/// Bytes that the subset allows in any container.
#[rustfmt::skip]
const SHAPES: [&str; 42] = [
    "<a/>", "<a />", "<a></a >", "<a b = '1' c=\"2\"/>", "<a b=\">\"/>", "<a b=\"]]> --\"/>",
    "<a b='\"' c=\"'\"/>", "<!---->", "<!-- - -->", "<!--->-->", "<!--]]> & <-->", "loose", "]]",
    "]>", "]] >", ">", "]]&gt;", "]]<!-- -->>", "&#9;&#10;&#13;&#32;", "&#126;&#x7E;&#x7e;",
    "&#000126;&#x00007e;", "&lt;&gt;&amp;&quot;&apos;", "<_a.-9:_b.-9/>", "<a\n\tb\r=\n'&#60;'\t/>",
    "<a b='' B='' a:b='' b:b=''/>", "<q:identifier>Z</q:identifier>", "\u{7f}", "<a b='\u{7f}'/>",
    "&#127;&#x7f;&#x80;", "&#0000126;&#x000007e;", "&#999999;&#x100041;", "é", "\u{80}\u{7ff}",
    "\u{800}\u{d7ff}\u{e000}\u{fffd}", "\u{10000}\u{10ffff}", "&#233;&#xe9;&#0000233;&#x00000E9;",
    "&#xd7FF;&#xE000;&#xfffd;&#x10000;", "&#1114111;&#x10ffff;&#x010FFFF;&#x1fffe;",
    "<a b='é&#xe9;' c=\"\u{10ffff}&#x10FFFF;\"/>", "<!--é\u{800}\u{10ffff}-->",
    "<a>\u{a0}&#160;</a>", "]]\u{13e}",
];

fn shape(draft: &mut Draft, chance: &mut Chance) {
    let raw = match chance.below(8) {
        0 => nested(chance.pick(&[1, 5, 9]), chance),
        1 => format!("<{}/>", "n".repeat(64)),
        2 => format!("<p:{} />", "n".repeat(62)),
        3 => format!("<a {}='1' {}='2'/>", "n".repeat(63), "n".repeat(64)),
        _ => chance.pick(&SHAPES).to_string(),
    };
    let paths: [&[&str]; 4] = [&[], &["info"], &["info", "area"], &["info", "eventCode"]];
    let path = chance.pick(&paths);
    if let Some(element) = draft.root.find(path) {
        element.add_raw(raw.as_bytes(), chance);
    }
}

/// So many elements in each other.
pub fn nested(depth: usize, chance: &mut Chance) -> String {
    let inmost = chance.pick(&["<d/>", "<d></d>"]);
    let outer = depth - 1;
    format!("{}{inmost}{}", "<d>".repeat(outer), "</d>".repeat(outer))
}

fn prefix(draft: &mut Draft, chance: &mut Chance) {
    let long = "p".repeat(chance.pick(&[51, 52, 53]));
    draft.prefix = chance.pick(&["p", "cap", "_", "xmlns", "alert", "a.b-c", &long]).to_string();
    let name = draft.prefix.clone();
    let coded = NAMESPACE.replace(':', "&#58;").replace("cap", "c&#x61;p");
    draft.declares = match chance.below(5) {
        0 => Some(format!("\n xmlns='urn:x' xmlns:{name} = '{NAMESPACE}' x='1'")),
        1 => Some(format!(" xmlns:{name}=\"{coded}\"")),
        2 => {
            draft.prefix.clear();
            Some(format!(" xmlns:q='{NAMESPACE}' xmlns\t=\n'{coded}'"))
        }
        _ => None,
    };
    if !draft.prefix.is_empty() && chance.once_in(2) {
        draft.root.add_raw(b"<info/><identifier/>", chance);
        if let Some(info) = draft.info() {
            info.add_raw(b"<expires/><description>x</description><eventCode/>", chance);
        }
    }
}

/// What is read in alert, in info, in area, and in pairs and resources.
#[rustfmt::skip]
const NAMES: [&str; 17] = [
    "identifier", "sent", "scope", "references", "info",
    "language", "expires", "description", "eventCode", "parameter", "resource", "area",
    "geocode",
    "valueName", "value", "mimeType", "uri",
];

/// Elements that are read elsewhere, in places where they are skipped.
fn misplaced(draft: &mut Draft, chance: &mut Chance) {
    let mut resource = Element::new("resource");
    resource.add(Element::leaf("uri", "u"));
    resource.add(Element::leaf("valueName", "audio/x-ipaws-audio-mp3"));
    resource.add(Element::leaf("mimeType", chance.pick(&AUDIO)));
    let places: [(&[&str], std::ops::Range<usize>); 5] = [
        (&[], 5..17),
        (&["info"], 0..5),
        (&["info"], 12..17),
        (&["info", "area"], 0..12),
        (&["info", "eventCode"], 0..13),
    ];
    for (path, range) in &places {
        let name = NAMES[chance.between(range.start as i64, range.end as i64 - 1) as usize];
        if let Some(element) = draft.root.find(path).filter(|_| chance.once_in(2)) {
            element.add(Element::pair(name, "SAME", "024031"));
        }
    }
    if let Some(info) = draft.info().filter(|_| chance.once_in(2)) {
        info.add(resource);
    }
}

fn empty_pairs(draft: &mut Draft, chance: &mut Chance) {
    let Some(info) = draft.info() else {
        return;
    };
    info.add(Element::pair("parameter", "", ""));
    info.add(Element::pair("eventCode", chance.pick(&["", "same", "SAM", "SAMEX"]), ""));
    if let Some(area) = info.find(&["area"]) {
        area.add(Element::pair("geocode", chance.pick(&["", "same", "FIPS6"]), "x"));
    }
}

fn long_words(draft: &mut Draft, chance: &mut Chance) {
    for name in ["identifier", "sender"] {
        let length = chance.pick(&[1, 63, 64]);
        draft.root.put(name, &chance.word(length));
    }
}

fn references_of_alert(draft: &mut Draft, chance: &mut Chance) {
    if draft.root.find(&["references"]).is_none() {
        let raw = chance.pick(&[
            "<references/>",
            "<references>x<y/></references><references/>",
            "<references>b@c,A1,2010-04-05T13:00:30-04:00</references>",
        ]);
        draft.root.add_raw(raw.as_bytes(), chance);
    }
}

fn declaration(draft: &mut Draft, chance: &mut Chance) {
    let declarations: [&[u8]; 7] = [
        b"<?xml version=\"1.0\" encoding=\"UTF-8\"?>",
        b"<?xml ?>",
        b"<?xml\n?>",
        b"<?xml <a & b ?>\n",
        b"<?xml \xc2\x80\x00\xc3\xbf?>",
        b"<?xml > ? >?>",
        b"",
    ];
    draft.before = chance.pick(&declarations).to_vec();
    draft.before.extend(chance.pick(&["", "\n", "<!-- & -->", " <!----> <!--->--> "]).bytes());
    draft.after.extend(chance.pick(&["", "\n", "<!-- & -->", "\r\n\t <!--a--><!--b-->"]).bytes());
}

fn fill(draft: &mut Draft, chance: &mut Chance) {
    if chance.once_in(12) {
        draft.fill = chance.pick(&[32_767, 32_768, 32_768]);
    }
}

/// A time at one end of what may stand in a message, or just past it.
pub fn time_at_the_end(chance: &mut Chance) -> String {
    let zone = chance.pick(&[0, 899, -899, 60]);
    time_text(chance.pick(&[-1, 0, END - 1, END]), zone)
}
