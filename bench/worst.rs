//! Alerts of the greatest length: full of one thing that is dear to read, or of plain text.

const LENGTH: usize = 32_768;

const BEFORE: &str =
    "<alert xmlns=\"urn:oasis:names:tc:emergency:cap:1.2\"><identifier>B</identifier>\
    <sender>b</sender><sent>2010-04-05T14:00:30-04:00</sent><status>Actual</status>\
    <msgType>Alert</msgType><scope>Public</scope><info><eventCode><valueName>SAME</valueName>\
    <value>CEM</value></eventCode><expires>2010-04-05T14:45:30-04:00</expires><area><geocode>\
    <valueName>SAME</valueName><value>024031</value></geocode></area>";

/// An alert with this in its info, and behind it, in a description, plain text up to the greatest length.
fn alert(within: &str) -> Vec<u8> {
    let behind = "</description></info></alert>";
    let room = LENGTH - BEFORE.len() - within.len() - behind.len();
    let text: String = "water is rising ".chars().cycle().take(room).collect();
    format!("{BEFORE}{within}{text}{behind}").into_bytes()
}

/// An alert with these elements before its description.
fn with_elements(elements: &str) -> Vec<u8> {
    alert(&format!("{elements}<description>"))
}

/// So many attributes, with the shortest names that there are.
fn attributes(count: usize) -> String {
    let starts = ('A'..='Z').chain('a'..='z').chain(['_']);
    let others: Vec<char> = starts.clone().chain('0'..='9').chain(['-', '.']).collect();
    let mut names: Vec<String> = starts.map(String::from).collect();
    let mut place = 0;
    while names.len() < count {
        let name = names[place].clone();
        names.extend(others.iter().map(|other| format!("{name}{other}")));
        place += 1;
    }
    names[..count].iter().map(|name| format!(" {name}=''")).collect()
}

/// Elements in each other, down to depth 12 in an info, which is at depth 2.
fn nested() -> String {
    format!("{}<a/>{}", "<a>".repeat(9), "</a>".repeat(9))
}

pub fn plain() -> Vec<u8> {
    with_elements("")
}

pub fn messages() -> [(&'static str, Vec<u8>); 8] {
    [
        (
            "one start tag with 5,000 attributes",
            with_elements(&format!("<a{}/>", attributes(5_000))),
        ),
        ("8,000 empty elements", with_elements(&"<a/>".repeat(8_000))),
        ("4,800 elements to depth 12", with_elements(&nested().repeat(480))),
        (
            "750 parameters",
            with_elements(&"<parameter><valueName/><value/></parameter>".repeat(750)),
        ),
        (
            "4,600 comments in the description",
            alert(&format!("<description>{}", "<!---->".repeat(4_600))),
        ),
        (
            "5,300 references in the description",
            alert(&format!("<description>{}", "&#xe9;".repeat(5_300))),
        ),
        (
            "16,000 characters of two bytes",
            alert(&format!("<description>{}", "\u{e9}".repeat(16_000))),
        ),
        (
            "8,000 characters of four bytes",
            alert(&format!("<description>{}", "\u{1f30a}".repeat(8_000))),
        ),
    ]
}
