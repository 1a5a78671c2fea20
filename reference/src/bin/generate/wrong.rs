//! Edits that make a draft one that is refused, and the number that this is for.

use crate::chance::Chance;
use crate::draft::{Draft, Edit, Element, Node, NAMESPACE};
use crate::sound::{groups, nested, time_at_the_end};
use crate::times::{time_text, END};
use crate::wide::{
    illegal, malformed, misplaced_wide, wide_event, wide_expires, wide_leaf, wide_location,
    wide_originator, wide_references, wide_root,
};

/// The edits, each with the number that it is most often answered by.
pub const WRONG: [(u8, Edit); 38] = [
    (4, too_long),
    (5, odd_bytes),
    (5, odd_bytes),
    (5, odd_surroundings),
    (5, too_deep),
    (6, wrong_root),
    (7, leaf_missing),
    (7, leaf_repeated),
    (7, leaf_with_element),
    (7, leaf_malformed),
    (7, leaf_malformed),
    (7, sent_malformed),
    (7, leaf_of_info),
    (7, pair_at_fault),
    (7, language_at_fault),
    (8, status_or_scope),
    (9, ack_or_error),
    (10, references_wrong),
    (10, references_malformed),
    (11, event_wrong),
    (12, originator_wrong),
    (13, location_wrong),
    (14, expires_malformed),
    (14, expires_not_after),
    (11, no_info),
    (7, leaf_blank),
    (5, malformed),
    (5, malformed),
    (5, illegal),
    (5, misplaced_wide),
    (6, wide_root),
    (7, wide_leaf),
    (7, wide_leaf),
    (10, wide_references),
    (11, wide_event),
    (12, wide_originator),
    (13, wide_location),
    (14, wide_expires),
];

const SIX: [&str; 6] = ["identifier", "sender", "sent", "status", "msgType", "scope"];

fn too_long(draft: &mut Draft, chance: &mut Chance) {
    draft.fill = chance.pick(&[32_769, 32_769, 32_800, 33_500]);
}

/// Bytes that the subset allows nowhere.
#[rustfmt::skip]
const ODD: [&[u8]; 66] = [
    b"<a>", b"</a>", b"<a></b>", b"<a></A>", b"<a><b></a></b>", b"<a b=1/>", b"<a b='1'c='2'/>",
    b"<a b='1' b='2'/>", b"<a c='' b='1' d='b=' b=\"1\" />", b"<a b='<'/>", b"<a b='x\"/>",
    b"<a b/>", b"<a b= />", b"<a =''/>", b"< a/>", b"<a/ >", b"<a / >", b"<a></ a>", b"<a></a b=''>",
    b"<a></a/>", b"&", b"&;", b"&foo;", b"&lt", b"&LT;", b"& lt;", b"&#;", b"&#x;", b"&#X41;",
    b"&#0;", b"&#8;", b"&#11;", b"&#31;", b"&#x1F;", b"&#00000065;", b"&#x00000041;", b"&#6a;",
    b"&#x4g;", b"&#65", b"&#-1;", b"&#+65;", b"]]>", b"]]]>", b"<!-->", b"<!--->", b"<!--a--->",
    b"<!-- -- -->", b"<!-a-->", b"<!--a->", b"<![CDATA[x]]>", b"<!DOCTYPE a>", b"<?pi x?>",
    b"<?xml version='1.0'?>", b"\x00", b"\x08", b"\x0b", b"\x1f", b"\x80", b"\xff", b"<1a/>",
    b"<-a/>", b"<.a/>", b"<a:/>", b"<:a/>", b"<a:b:c/>", b"<a:1/>",
];

fn odd_bytes(draft: &mut Draft, chance: &mut Chance) {
    let long = format!("<{}/>", "n".repeat(65));
    let long_prefixed = format!("<p:{}/>", "n".repeat(63));
    let long_attribute = format!("<a {}=''/>", "n".repeat(65));
    let raw = match chance.below(20) {
        0 => long.as_bytes(),
        1 => long_prefixed.as_bytes(),
        2 => long_attribute.as_bytes(),
        3 => b"<a b='&'/>",
        4 => b"<a b=\"&#x1f;\"/>",
        _ => chance.pick(&ODD),
    };
    let paths: [&[&str]; 6] = [
        &[],
        &["info"],
        &["info", "area"],
        &["identifier"],
        &["info", "description"],
        &["info", "expires"],
    ];
    let path = chance.pick(&paths);
    if let Some(element) = draft.root.find(path) {
        element.add_raw(raw, chance);
    }
}

fn odd_surroundings(draft: &mut Draft, chance: &mut Chance) {
    let raw: [&[u8]; 12] = [
        b"x",
        b"&#32;",
        b"<a/>",
        b"<!-->",
        b"<!--a--->",
        b"<?pi?>",
        b"\x00",
        b"\x0b",
        b"]]>",
        b"<!DOCTYPE a>",
        b"</a>",
        b">",
    ];
    match chance.below(5) {
        0 => draft.before = chance.pick(&[" <?xml ?>", "<?xml?>", "<?xml ", "<?XML ?>"]).into(),
        1 => draft.before.extend(chance.pick(&raw)),
        2 => draft.root.attributes = " xmlns='x' xmlns='y'".to_string(),
        _ => draft.after.extend(chance.pick(&raw)),
    }
}

fn too_deep(draft: &mut Draft, chance: &mut Chance) {
    let inside = draft.info().is_some() && chance.once_in(2);
    let path: &[&str] = if inside { &["info"] } else { &[] };
    let over = chance.pick(&[0, 1, 1, 3]);
    let depth = if inside { 10 } else { 11 } + over;
    let raw = nested(depth, chance);
    if let Some(element) = draft.root.find(path) {
        element.add_raw(raw.as_bytes(), chance);
    }
}

fn wrong_root(draft: &mut Draft, chance: &mut Chance) {
    let other = "urn:oasis:names:tc:emergency:cap:1.1";
    match chance.below(12) {
        0 => draft.root.name = chance.pick(&["Alert", "alerts", "xalert", "feed"]).to_string(),
        1 => draft.declares = Some(String::new()),
        2 => draft.declares = Some(format!(" xmlns='{other}' xmlns:{}p='{other}'", draft.prefix)),
        3 => draft.declares = Some(format!(" xmlns='{NAMESPACE} '")),
        4 => draft.declares = Some(format!(" xmlns=' {NAMESPACE}'")),
        5 => draft.declares = Some(format!(" XMLNS='{NAMESPACE}' xmlnsx='{NAMESPACE}'")),
        6 => draft.declares = Some(format!(" xmlns:q='{NAMESPACE}'")),
        7 => draft.declares = Some(format!(" x='{NAMESPACE}'")),
        8 => draft.declares = Some(format!(" xmlns='{}'", NAMESPACE.to_uppercase())),
        9 => draft.declares = Some(format!(" xmlns='{NAMESPACE}&#10;'")),
        10 => {
            draft.prefix = "p".to_string();
            draft.declares = Some(format!(" xmlns='{NAMESPACE}' xmlns:pp='{NAMESPACE}'"));
        }
        _ => draft.root.name = "q:alert".to_string(),
    }
}

fn leaf_missing(draft: &mut Draft, chance: &mut Chance) {
    draft.root.remove_all(chance.pick(&SIX));
}

fn leaf_blank(draft: &mut Draft, chance: &mut Chance) {
    let name = chance.pick(&SIX);
    draft.root.put(name, chance.pick(&["", " ", "\n\t"]));
}

fn leaf_repeated(draft: &mut Draft, chance: &mut Chance) {
    let name = chance.pick(&SIX);
    if chance.once_in(2) {
        draft.root.repeat(name);
    } else {
        draft.root.add(Element::new(name));
    }
}

fn leaf_with_element(draft: &mut Draft, chance: &mut Chance) {
    let raw = chance.pick(&["<a/>", "<q:z/>", "<value>1</value>", "<z><identifier/></z>"]);
    if let Some(leaf) = draft.root.find(&[chance.pick(&SIX)]) {
        leaf.add_raw(raw.as_bytes(), chance);
    }
}

fn leaf_malformed(draft: &mut Draft, chance: &mut Chance) {
    let long = chance.word(65);
    let words = ["a b", "a,b", ",", "a<b", "a&b", "&", "<", &long];
    match chance.below(6) {
        0 | 1 => draft.root.put("identifier", chance.pick(&words)),
        2 => draft.root.put("sender", chance.pick(&words)),
        3 => draft
            .root
            .put("status", chance.pick(&["actual", "Real", "Actual x", "Actua", "ACTUAL"])),
        4 => {
            draft.root.put("msgType", chance.pick(&["alert", "Notice", "Alert Alert", "Cancelled"]))
        }
        _ => draft.root.put("scope", chance.pick(&["public", "Open", "Publi", "Public Public"])),
    }
}

/// Times that are none, or lie outside the hundred years.
#[rustfmt::skip]
const ODD_TIMES: [&str; 33] = [
    "2011-02-29T00:00:00+00:00", "2012-02-30T00:00:00+00:00", "2010-04-31T00:00:00+00:00",
    "2010-00-05T14:00:30-04:00", "2010-13-05T14:00:30-04:00", "2010-04-00T14:00:30-04:00",
    "2010-04-05T24:00:00-04:00", "2010-04-05T14:60:30-04:00", "2010-04-05T14:00:60-04:00",
    "2010-04-05T14:00:30-15:00", "2010-04-05T14:00:30-04:60", "2010-04-05T14:00:30Z",
    "2010-04-05T14:00:30", "2010-04-05t14:00:30-04:00", "2010-04-05 14:00:30-04:00",
    "2010-4-05T14:00:30-04:00", "2010-04-05T14:00:30.0-04:00", "2010-04-05T14:00:30*04:00",
    "2010-04-05T14:00:30-0400", "2010-04-05T14:00:30-04:00x", "+010-04-05T14:00:30-04:00",
    "2010/04/05T14:00:30-04:00", "2100-02-29T00:00:00+00:00", "1999-12-31T23:59:59+00:00",
    "2000-01-01T00:30:00+01:00", "2100-01-01T00:00:00+00:00", "2099-12-31T23:59:59-00:01",
    "0000-01-01T00:00:00+00:00", "9999-12-31T23:59:59+00:00", "2010-04-05T14:00:3x-04:00",
    "2010-04-05T14-00:30-04:00", "2010-04-05T14:00-30-04:00", "2010-04-05T14:00:30-04-00",
];

fn odd_time(chance: &mut Chance) -> String {
    if chance.once_in(4) {
        return time_at_the_end(chance);
    }
    chance.pick(&ODD_TIMES).to_string()
}

fn sent_malformed(draft: &mut Draft, chance: &mut Chance) {
    draft.root.put("sent", &odd_time(chance));
}

/// A leaf of the info repeated, or with an element in it.
fn leaf_of_info(draft: &mut Draft, chance: &mut Chance) {
    let name = chance.pick(&["expires", "senderName", "description", "instruction"]);
    let Some(info) = draft.info() else {
        return;
    };
    match chance.below(3) {
        0 => info.repeat(name),
        1 => info.children.push(Node::Raw(format!("<{name}/><{name}/>").into_bytes())),
        _ => {
            if let Some(leaf) = info.find(&[name]) {
                leaf.add_raw(b"<b/>", chance);
            }
        }
    }
}

fn pair_at_fault(draft: &mut Draft, chance: &mut Chance) {
    let faults = [
        "<parameter/>",
        "<parameter><value>x</value></parameter>",
        "<eventCode><valueName>x</valueName></eventCode>",
        "<eventCode><q:valueName>x</q:valueName><value/></eventCode>",
        "<parameter><valueName/><valueName/><value/></parameter>",
        "<parameter><valueName/><value/><value/></parameter>",
        "<parameter><valueName>a<b/></valueName><value/></parameter>",
        "<eventCode><valueName/><value><b/></value></eventCode>",
        "<area><geocode/></area>",
        "<area><geocode><valueName/></geocode></area>",
        "<resource><uri/><uri/></resource>",
        "<resource><mimeType/><mimeType/></resource>",
        "<resource><uri>a<b/></uri></resource>",
        "<resource><mimeType><b/></mimeType></resource>",
    ];
    let mut fault = chance.pick(&faults).to_string();
    if !draft.prefix.is_empty() && !chance.once_in(3) {
        let marked = format!("<{}:", draft.prefix);
        fault = fault
            .replace('<', &marked)
            .replace(&format!("{marked}/"), &format!("</{}:", draft.prefix));
        fault = fault.replace(&format!("{}:q:", draft.prefix), "q:");
    }
    if let Some(info) = draft.info() {
        info.add_raw(fault.as_bytes(), chance);
    }
}

fn language_at_fault(draft: &mut Draft, chance: &mut Chance) {
    let mut info = Element::new("info");
    info.add(Element::leaf("language", "es"));
    if chance.once_in(2) {
        info.repeat("language");
    } else if let Some(language) = info.find(&["language"]) {
        language.add_raw(b"<b/>", chance);
    }
    match chance.below(3) {
        0 => draft.root.add(info),
        1 => draft.root.add_first(info),
        _ => {
            if let Some(info) = draft.info() {
                info.add(Element::leaf("language", "en-US"));
                info.add(Element::new("language"));
            }
        }
    }
}

fn status_or_scope(draft: &mut Draft, chance: &mut Chance) {
    if chance.once_in(2) {
        draft.root.put("status", chance.pick(&["Exercise", "System", "Test", "Draft"]));
    } else {
        draft.root.put("scope", chance.pick(&["Restricted", "Private"]));
    }
}

fn ack_or_error(draft: &mut Draft, chance: &mut Chance) {
    draft.root.put("msgType", chance.pick(&["Ack", "Error"]));
}

fn references_wrong(draft: &mut Draft, chance: &mut Chance) {
    let kind = chance.pick(&["Update", "Cancel"]);
    let one = groups(1, chance);
    match chance.below(6) {
        0 => draft.refer(kind, &groups(17, chance)),
        1 => draft.refer(kind, ""),
        2 => {
            draft.refer(kind, &one);
            draft.root.repeat("references");
        }
        3 => {
            draft.refer(kind, &one);
            if let Some(references) = draft.root.find(&["references"]) {
                references.add_raw(b"<q:b/>", chance);
            }
        }
        4 => draft.refer(kind, &[&one[..]; 17].join(" ")),
        _ => {
            draft.refer(kind, "");
            draft.root.remove_all("references");
        }
    }
}

fn references_malformed(draft: &mut Draft, chance: &mut Chance) {
    let kind = chance.pick(&["Update", "Cancel"]);
    let time = "2010-04-05T13:00:30-04:00";
    let odd = odd_time(chance);
    let (w64, w65) = (chance.word(64), chance.word(65));
    let bad = match chance.below(14) {
        0 => format!("a, b,{time}"),
        1 => format!("a ,b,{time}"),
        2 => format!("a,b, {time}"),
        3 => format!(",b,{time}"),
        4 => format!("a,,{time}"),
        5 => "a,b,".to_string(),
        6 => format!("a,b,{time},"),
        7 => format!("a,b,{time};a,b,{time}"),
        8 => format!("a<,b,{time}"),
        9 => format!("a,&b,{time}"),
        10 => format!("{w65},b,{time}"),
        11 => format!("{w64},{w65},{time}"),
        12 => "x".to_string(),
        _ => format!("a,b,{odd}"),
    };
    let good = groups(2, chance);
    let text =
        chance.pick(&[&bad[..], &format!("{good} {bad}"), &format!("{bad} {good}")]).to_string();
    draft.refer(kind, &text);
}

fn no_info(draft: &mut Draft, chance: &mut Chance) {
    if chance.once_in(2) {
        draft.root.remove_all("info");
    } else {
        draft.root.add_first(Element::new("info"));
    }
}

fn event_wrong(draft: &mut Draft, chance: &mut Chance) {
    let odd = ["", "CE", "CEMX", "cem", "C1M", "C M", "CE<", "@AB", "AB["];
    match chance.below(5) {
        0 => {
            if let Some(info) = draft.info() {
                info.remove_all("eventCode");
            }
        }
        1 => {
            if let Some(info) = draft.info() {
                info.repeat("eventCode");
            }
        }
        2 => {
            if let Some(name) = draft.root.find(&["info", "eventCode", "valueName"]) {
                name.set(chance.pick(&["same", "SAM", "SAME2", ""]));
            }
        }
        _ => draft.event(chance.pick(&odd)),
    }
}

fn originator_wrong(draft: &mut Draft, chance: &mut Chance) {
    if let Some(info) = draft.info() {
        let odd = chance.pick(&["", "EAN", "civ", "CI", "CIVX", "C IV", "XXX"]);
        info.add_first(Element::pair("parameter", "EAS-ORG", odd));
    }
}

fn location_wrong(draft: &mut Draft, chance: &mut Chance) {
    let odd = chance
        .pick(&["", "1", "02403", "0240311", "02403a", "024 31", "-24031", "02403/", "02403:"]);
    let Some(info) = draft.info() else {
        return;
    };
    let all = chance.once_in(2);
    if all {
        info.remove_all("area");
    }
    let mut area = Element::new("area");
    area.add(Element::pair("geocode", "SAME", odd));
    match chance.below(4) {
        0 if all => {}
        1 if all => info.add(Element::pair("geocode", "SAME", "024031")),
        _ => info.add(area),
    }
}

fn expires_malformed(draft: &mut Draft, chance: &mut Chance) {
    let odd = odd_time(chance);
    if let Some(info) = draft.info() {
        match chance.below(4) {
            0 => info.remove_all("expires"),
            1 => info.put("expires", ""),
            _ => info.put("expires", &odd),
        }
    }
}

fn expires_not_after(draft: &mut Draft, chance: &mut Chance) {
    if chance.once_in(4) {
        draft.set_sent(END - 600, 0);
        let expires = time_text(END + chance.between(-1, 1), 0);
        if let Some(info) = draft.info() {
            info.put("expires", &expires);
        }
        return;
    }
    let zone = chance.pick(&[0, draft.zone, 899, -899]);
    draft.expire_after(chance.pick(&[0, 0, -1, -3600, 1]), zone);
}
