//! Typical alerts: 1 to 6 KB, about a tenth of them refused, in two sets that differ in the spelling of their texts.

/// A generator of numbers, by a seed.
pub struct Numbers(u64);

impl Numbers {
    pub fn new(seed: u64) -> Numbers {
        Numbers(seed.wrapping_mul(0x9e37_79b9_7f4a_7c15) | 1)
    }

    fn next(&mut self) -> u64 {
        self.0 ^= self.0 << 13;
        self.0 ^= self.0 >> 7;
        self.0 ^= self.0 << 17;
        self.0
    }

    /// A number below `most`.
    pub fn below(&mut self, most: u64) -> u64 {
        (self.next() >> 11) % most
    }

    fn one_in(&mut self, count: u64) -> bool {
        self.below(count) == 0
    }

    fn pick<'a>(&mut self, words: &[&'a str]) -> &'a str {
        words[self.below(words.len() as u64) as usize]
    }
}

/// The texts of a set.
pub struct Spelling {
    pub set: &'static str,
    words: &'static [&'static str],
    event: &'static str,
    sender_name: &'static str,
    area: &'static str,
}

/// The sets: every character one byte, and Spanish, most of whose accents are bytes, some references, with a few characters of three and four bytes.
pub const SPELLINGS: [Spelling; 2] = [
    Spelling {
        set: "plain",
        words: &PLAIN,
        event: "Warning",
        sender_name: "National Weather Service, Bench County Office",
        area: "Counties",
    },
    Spelling {
        set: "accents",
        words: &ACCENTS,
        event: "Inundación",
        sender_name: "Servicio Nacional de Meteorología, Oficina de Mayagüez",
        area: "Peñuelas, Añasco y Rincón",
    },
];

const PLAIN: [&str; 16] = [
    "water",
    "the",
    "county",
    "is",
    "rising",
    "move",
    "to",
    "higher",
    "ground",
    "&amp;",
    "until",
    "further",
    "notice,",
    "residents",
    "should",
    "boil",
];

const ACCENTS: [&str; 51] = [
    "agua",
    "el",
    "río",
    "está",
    "subiendo",
    "vayan",
    "a",
    "terreno",
    "más",
    "alto",
    "&amp;",
    "hasta",
    "nuevo",
    "aviso,",
    "los",
    "residentes",
    "de",
    "la",
    "montaña",
    "deben",
    "hervir",
    "¡atención!",
    "¿cuándo?",
    "niños",
    "por",
    "desagüe",
    "según",
    "condado",
    "lluvia",
    "evacúen",
    "r&#225;pido",
    "ma&#xF1;ana",
    "en",
    "zonas",
    "bajas",
    "carretera",
    "cerrada",
    "no",
    "crucen",
    "puentes",
    "ni",
    "corrientes",
    "mantengan",
    "su",
    "radio",
    "encendida",
    "y",
    "sigan",
    "instrucciones",
    "\u{2014}",
    "\u{1f30a}",
];

/// Words of about so many bytes.
fn put_words(out: &mut String, numbers: &mut Numbers, words: &[&str], length: u64) {
    let end = out.len() + length as usize;
    while out.len() < end {
        out.push_str(numbers.pick(words));
        out.push(if numbers.one_in(12) { '\n' } else { ' ' });
    }
}

fn put_pair(out: &mut String, element: &str, name: &str, value: &str) {
    out.push_str(&format!(
        "    <{element}>\n      <valueName>{name}</valueName>\n      <value>{value}</value>\n    </{element}>\n"
    ));
}

/// What is wrong with a message that is to be refused.
#[derive(Clone, Copy, PartialEq)]
enum Wrong {
    Nothing,
    Status,
    Event,
    Location,
    Expires,
    Subset,
}

fn wrong(numbers: &mut Numbers) -> Wrong {
    if !numbers.one_in(10) {
        return Wrong::Nothing;
    }
    [Wrong::Status, Wrong::Event, Wrong::Location, Wrong::Expires, Wrong::Subset]
        [numbers.below(5) as usize]
}

/// One alert.
pub fn message(numbers: &mut Numbers, spelling: &Spelling) -> Vec<u8> {
    let wrong = wrong(numbers);
    let mut out = String::new();
    out.push_str("<?xml version=\"1.0\" encoding=\"UTF-8\"?>\n<alert xmlns=\"urn:oasis:names:tc:emergency:cap:1.2\">\n");
    out.push_str(&format!("  <identifier>BENCH-{}</identifier>\n", numbers.below(1_000_000)));
    out.push_str("  <sender>warnings@bench.example</sender>\n");
    let (day, hour) = (1 + numbers.below(28), numbers.below(20));
    out.push_str(&format!(
        "  <sent>2026-{:02}-{day:02}T{hour:02}:05:00-05:00</sent>\n",
        1 + numbers.below(12)
    ));
    out.push_str(&format!(
        "  <status>{}</status>\n",
        if wrong == Wrong::Status { "Exercise" } else { "Actual" }
    ));
    out.push_str("  <msgType>Alert</msgType>\n  <scope>Public</scope>\n");
    put_info(&mut out, numbers, wrong, spelling);
    out.push_str(if wrong == Wrong::Subset { "</alerts>\n" } else { "</alert>\n" });
    out.into_bytes()
}

fn put_info(out: &mut String, numbers: &mut Numbers, wrong: Wrong, spelling: &Spelling) {
    out.push_str("  <info>\n    <language>en-US</language>\n    <category>Met</category>\n");
    out.push_str(&format!("    <event>{}</event>\n", spelling.event));
    out.push_str("    <urgency>Immediate</urgency>\n    <severity>Severe</severity>\n    <certainty>Likely</certainty>\n");
    if wrong != Wrong::Event {
        put_pair(out, "eventCode", "SAME", numbers.pick(&["TOR", "FFW", "CEM", "RWT", "SVR"]));
    }
    if wrong != Wrong::Expires {
        out.push_str("    <expires>2027-01-01T00:00:00-05:00</expires>\n");
    }
    put_texts(out, numbers, spelling);
    put_pair(out, "parameter", "EAS-ORG", numbers.pick(&["WXR", "CIV"]));
    for _ in 0..numbers.below(5) {
        put_pair(out, "parameter", "VTEC", "/O.NEW.KBNC.TO.W.0017/");
    }
    if numbers.one_in(3) {
        out.push_str("    <resource>\n      <resourceDesc>EAS Broadcast Content</resourceDesc>\n");
        out.push_str("      <mimeType>audio/x-ipaws-audio-mp3</mimeType>\n      <uri>https://bench.example/17.mp3</uri>\n    </resource>\n");
    }
    out.push_str(&format!("    <area>\n    <areaDesc>{}</areaDesc>\n", spelling.area));
    for _ in 0..1 + numbers.below(8) {
        let digits = if wrong == Wrong::Location { 5 } else { 6 };
        let code = format!("{:0digits$}", numbers.below(100_000));
        put_pair(out, "geocode", "SAME", &code);
    }
    out.push_str("    </area>\n  </info>\n");
}

fn put_texts(out: &mut String, numbers: &mut Numbers, spelling: &Spelling) {
    out.push_str(&format!("    <senderName>{}</senderName>\n", spelling.sender_name));
    out.push_str("    <description>");
    let description = 100 + numbers.below(2_400);
    put_words(out, numbers, spelling.words, description);
    out.push_str("</description>\n    <instruction>");
    let instruction = 50 + numbers.below(1_000);
    put_words(out, numbers, spelling.words, instruction);
    out.push_str("</instruction>\n");
}
