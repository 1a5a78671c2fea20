//! Cases of headers, of texts and of the Canadian mode that meet the floors, and such as are none
//! of a kind.

use crate::{hex, Cases};

const STATION: &str = "42454e43482f3031";
const QUIET: &str = "<alert xmlns='urn:oasis:names:tc:emergency:cap:1.2'>\
    <identifier>B1</identifier><sender>b@c</sender><sent>2010-04-05T14:00:30-04:00</sent>\
    <status>Actual</status><msgType>Cancel</msgType><scope>Public</scope>\
    <references>b@c,A1,2010-04-05T13:00:30-04:00</references></alert>";
const CARRIED: &str =
    "<parameter><valueName>EAS-Must-Carry</valueName><value>True</value></parameter>";
const HEARD: &str = "<resource><mimeType>audio/x-ipaws-audio-mp3</mimeType></resource>";

/// A case of a call about a message.
pub fn about(call: &str, message: &str) -> String {
    let message = hex(message.as_bytes());
    match call {
        "header" => format!("header {message} {STATION} 252"),
        "text" => format!("text {message} {STATION} 7200 1024"),
        _ => format!("canadian {message} 7200 1024"),
    }
}

impl Cases {
    fn put(&mut self, often: usize, answer: &str, brings: &'static [&'static str]) {
        self.put_about(often, "a", answer, brings);
    }

    fn put_about(
        &mut self,
        often: usize,
        message: &str,
        answer: &str,
        brings: &'static [&'static str],
    ) {
        self.put_of(often, about(self.call, message), answer, brings);
    }

    /// A refusal of a case in which this is another.
    fn put_other(
        &mut self,
        [part, other]: [&str; 2],
        answer: &str,
        brings: &'static [&'static str],
    ) {
        self.put_of(30, about(self.call, "aé").replace(part, other), answer, brings);
    }

    /// Those of which a character is refused, with the answer to each number.
    fn put_refused(&mut self, refused: impl Fn(u32, u32) -> String) {
        let malformed = about(self.call, "aé").replace("c3a9", "e9");
        self.put_of(90, malformed, &refused(5, 0), &["malformed UTF-8 refused"]);
        let brings = &["number 7 for a character outside the value's range"];
        self.put_about(60, "<p:identifier >é</p:identifier>", &refused(7, 1), brings);
    }

    /// Those of which an output for text or uri is refused.
    fn put_short(&mut self, refused: &str) {
        self.put_other(["7200", "7199"], refused, &["a text output of 7,199 refused"]);
        self.put_other(["7200", "1800"], refused, &["a text output of 1,800 refused"]);
        self.put_other(["1024", "1023"], refused, &["a uri output of 1,023 refused"]);
    }

    /// Those that both calls of the conversion have.
    fn put_conversions(&mut self, quiet: &str, refused: impl Fn(u32, u32) -> String) {
        self.put(80, quiet, &["a quiet Cancel"]);
        let brings = &["a quiet Cancel refused for an output"];
        self.put_about(20, QUIET, &refused(2, 0), brings);
        let brings = &["an output refused beside a station that is none"];
        self.put_other([STATION, "42"], &refused(2, 0), brings);
        let brings = &["a station refused beside a message that would be"];
        self.put_about(30, "a", &refused(3, 0), brings);
        for (number, name, brings) in RANGES {
            let message = format!("<{name}>é</{name}>");
            self.put_about(30, &message, &refused(number, 0), brings);
        }
        self.put_refused(&refused);
        for number in [2, 4, 5, 6, 7, 8, 9, 10, 11, 12, 13, 14] {
            let often = if matches!(number, 5 | 7) { 300 } else { 60 };
            self.put(often, &refused(number, 1), &[]);
        }
        self.put_about(60, QUIET, &refused(3, 0), &[]);
    }
}

/// Numbers of values with a range, and the elements that have these values.
const RANGES: [(u32, &str, &[&str]); 5] = [
    (10, "references", &["number 10 for a character outside the value's range"]),
    (11, "value", &["number 11 for a character outside the value's range"]),
    (12, "value", &["number 12 for a character outside the value's range"]),
    (13, "value", &["number 13 for a character outside the value's range"]),
    (14, "expires", &["number 14 for a character outside the value's range"]),
];

const ODD_DECLARATION: &[&str] = &["a declaration of characters that XML does not have"];

pub fn headers() -> Cases {
    let mut cases = Cases { call: "header", all: Vec::new() };
    let refused = |number, field| format!("{number} {field} - 0");
    cases.put(1000, "0 0 5a 0", &[]);
    cases.put(30, "0 0 5a 1", &["must-carry 1"]);
    let brings = &["a quiet Cancel that says it must be carried"];
    cases.put_about(20, CARRIED, "0 0 - 0", brings);
    cases.put_about(30, "<?xml \0?>", "0 0 5a 0", ODD_DECLARATION);
    cases.put_other(["252", "251"], &refused(2, 0), &["a header output of 251 refused"]);
    cases.put_conversions("0 0 - 0", refused);
    cases
}

pub fn texts() -> Cases {
    let mut cases = Cases { call: "text", all: Vec::new() };
    let said = |text: &str| format!("0 0 0 - {}", hex(text.as_bytes()));
    let refused = |number, field| format!("{number} {field} 0 - -");
    cases.put(800, &said("T"), &[]);
    cases.put(30, "0 0 1 75 54", &["audio 1"]);
    cases.put(30, "0 0 2 75 54", &[]);
    cases.put(30, "0 0 3 75 54", &["audio 3"]);
    let brings = &["a quiet Cancel with a resource for audio"];
    cases.put_about(20, HEARD, "0 0 0 - -", brings);
    cases.put_about(30, "<?xml \0?>", &said("T"), ODD_DECLARATION);
    put_wide_texts(&mut cases, said);
    put_uris(&mut cases, said);
    cases.put_short(&refused(2, 0));
    cases.put_conversions("0 0 0 - -", refused);
    cases
}

/// Texts that are long, and such as have characters of several bytes.
fn put_wide_texts(cases: &mut Cases, said: impl Fn(&str) -> String) {
    cases.put(60, &said(&"T".repeat(1800)), &[]);
    cases.put(60, &said(&"é".repeat(1000)), &[]);
    let brings = &["a text of 1,800 characters, some of several bytes"];
    cases.put(60, &said(&"é".repeat(1800)), brings);
    let marked = "é".repeat(1000) + "***" + &"a".repeat(797);
    cases.put(30, &said(&marked), &["a mark behind a character of several bytes"]);
    let named = format!("S. Message from {}.", "é".repeat(200));
    let brings = &["200 characters of a senderName, some of several bytes"];
    cases.put(20, &said(&named), brings);
    cases.put(600, &said("é"), &["a character of 2 bytes in the text"]);
    cases.put(300, &said("€"), &["a character of 3 bytes in the text"]);
    cases.put(300, &said("💧"), &["a character of 4 bytes in the text"]);
    cases.put(20, &said(&"💧".repeat(1600)), &["a text of more than 6,000 bytes"]);
}

/// Uris that are seen in the message.
fn put_uris(cases: &mut Cases, said: impl Fn(&str) -> String) {
    let brings = &["audio behind a uri with a character outside its range"];
    cases.put_about(40, "<uri>é</uri>", "0 0 2 75 54", brings);
    let brings = &["no audio, and a uri with a character outside its range"];
    cases.put_about(20, "<uri>\u{7f}</uri>", &said("T"), brings);
}

pub fn canadians() -> Cases {
    let mut cases = Cases { call: "canadian", all: Vec::new() };
    let said = |text: &str| format!("0 0 0 - {}", hex(text.as_bytes()));
    let refused = |number, field| format!("{number} {field} 0 - -");
    cases.put(400, &said("T"), &[]);
    cases.put(300, &said("BT"), &["a broadcastText"]);
    cases.put(50, "0 0 1 75 54", &["audio 1"]);
    cases.put(50, "0 0 2 75 54", &[]);
    cases.put(50, "0 0 3 75 54", &["audio 3"]);
    cases.put(400, &said(&"é".repeat(1800)), &[]);
    cases.put(20, &said(&"💧".repeat(1800)), &["a text of 7,200 bytes"]);
    cases.put(100, &said(&("T".repeat(1799) + " ")), &["a space left by the cut"]);
    cases.put(400, &said("é"), &[]);
    cases.put(300, &said("€"), &["a character of 3 bytes in the text"]);
    cases.put(300, &said("💧"), &["a character of 4 bytes in the text"]);
    let brings = &["audio behind a uri with a character outside its range"];
    cases.put_about(60, "<uri>é</uri>", "0 0 2 75 54", brings);
    cases.put_short(&refused(2, 0));
    cases.put_refused(refused);
    for number in [2, 4, 5, 6, 7, 8, 9, 18] {
        let often = if matches!(number, 5 | 7 | 18) { 300 } else { 60 };
        cases.put(often, &refused(number, 1), &[]);
    }
    cases
}

/// Kinds that a conversion is not of, and the case with its answer.
pub fn unlike() -> Vec<(&'static str, &'static str, String, &'static str)> {
    let odd_station = |case: String| case.replace(STATION, "42");
    let carried = "a quiet Cancel that says it must be carried";
    let heard = "a quiet Cancel with a resource for audio";
    let quiet = "a quiet Cancel refused for an output";
    let output = "an output refused beside a station that is none";
    let station = "a station refused beside a message that would be";
    let other_value = CARRIED.replace("True", "False");
    let other_name = CARRIED.replace("EAS-Must-Carry", "EAS-ORG");
    let other_type = HEARD.replace("x-ipaws", "mpeg");
    vec![
        ("header", carried, about("header", &other_value), "0 0 - 0"),
        ("header", carried, about("header", &other_name), "0 0 - 0"),
        ("header", carried, about("header", CARRIED), "0 0 5a 1"),
        ("text", heard, about("text", &other_type), "0 0 0 - -"),
        ("text", heard, about("text", HEARD), "0 0 0 - 54"),
        ("header", quiet, about("header", "a"), "2 0 - 0"),
        ("text", quiet, about("text", QUIET), "0 0 0 - -"),
        ("header", output, about("header", "a"), "2 0 - 0"),
        ("text", output, odd_station(about("text", "a")), "3 0 0 - -"),
        ("header", station, odd_station(about("header", QUIET)), "3 0 - 0"),
        ("text", station, about("text", "a"), "5 0 0 - -"),
        ("header", "a header output of 251 refused", about("header", "a"), "2 0 - 0"),
        ("text", "a uri output of 1,023 refused", about("text", "a"), "2 0 0 - -"),
        ("header", "must-carry 0", about("header", "a"), "0 0 - 0"),
        ("text", "audio 0", about("text", "a"), "0 0 0 - -"),
    ]
}
