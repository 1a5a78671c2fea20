//! Kinds of answers: by what a case asks, and by what is answered to it.

#[path = "boards.rs"]
pub mod boards;
#[path = "conversions.rs"]
mod conversions;
#[path = "years.rs"]
mod years;

use self::boards::Board;

/// A case and the answer to it.
pub struct Seen<'a> {
    asked: Vec<&'a str>,
    answer: Vec<&'a str>,
    number: u32,
    /// What the case lends of these, nothing where there is none.
    board: Board,
    message: Vec<u8>,
    /// The audio choice of a text in either mode.
    audio: Option<&'a str>,
    /// That text, or what the program prints; nothing where there is none.
    text: Vec<u8>,
}

impl<'a> Seen<'a> {
    /// None where the answer has no number.
    pub fn of(case: &'a str, answer: &'a str) -> Option<Seen<'a>> {
        let asked: Vec<&str> = case.split(' ').collect();
        let number = number_in(asked[0], answer)?;
        let answer: Vec<&str> = answer.split(' ').collect();
        let (board, message) = match asked[..] {
            ["offer", board, message] => (bytes(board), bytes(message)),
            ["handout", board] | ["list", board, _] => (bytes(board), Vec::new()),
            ["header" | "text" | "canadian" | "program", message, ..] => {
                (Vec::new(), bytes(message))
            }
            _ => (Vec::new(), Vec::new()),
        };
        let (audio, text) = match (asked[0], &answer[..]) {
            ("text" | "canadian", ["0", _, audio, _, text]) if *text != "-" => {
                (Some(*audio), bytes(text))
            }
            ("program", [printed]) if number == 0 => (None, bytes(printed)),
            _ => (None, Vec::new()),
        };
        Some(Seen { asked, answer, number, board: Board::of(board), message, audio, text })
    }

    pub fn number(&self) -> u32 {
        self.number
    }

    /// Whether a conversion is answered 0 and gives nothing.
    pub fn is_quiet(&self) -> bool {
        matches!(self.answer[..], ["0", _, "-", _] | ["0", _, _, _, "-"])
    }

    pub fn has_audio(&self, wanted: &str) -> bool {
        self.audio == Some(wanted)
    }

    /// Whether a header is given with this must-carry.
    pub fn has_carry(&self, wanted: &str) -> bool {
        matches!(self.answer[..], ["0", _, header, carry] if header != "-" && carry == wanted)
    }

    /// Whether the text has a character of so many bytes.
    pub fn has_character(&self, length: usize) -> bool {
        let first = match length {
            2 => 0xc0..=0xdf,
            3 => 0xe0..=0xef,
            _ => 0xf0..=0xff,
        };
        self.text.iter().any(|b| first.contains(b))
    }

    pub fn is_longer_than(&self, bytes: usize) -> bool {
        self.text.len() > bytes
    }

    /// Whether the text has 1,800 characters.
    pub fn is_full(&self) -> bool {
        self.text.iter().filter(|b| !(0x80..0xc0).contains(*b)).count() == 1800
    }

    pub fn is_full_and_wide(&self) -> bool {
        self.is_full() && self.is_longer_than(1800)
    }

    /// Whether a full text has a part that is cut behind a character of several bytes.
    pub fn marks_wide(&self) -> bool {
        let marked = |four: &[u8]| !four[0].is_ascii() && &four[1..] == b"***";
        self.is_full() && self.text.windows(4).any(marked)
    }

    /// Whether a text says 200 characters of a senderName, some of several bytes.
    pub fn names_wide(&self) -> bool {
        let text = String::from_utf8_lossy(&self.text);
        let named = text.split_once(" Message from ").map_or("", |(_, named)| named);
        let wide = named.chars().take(200).any(|character| !character.is_ascii());
        wide && named.chars().nth(200) == Some('.')
    }

    /// Whether a text is that of a broadcastText: in generated messages these alone begin with B.
    pub fn is_broadcast(&self) -> bool {
        self.text.starts_with(b"B")
    }

    pub fn is_described(&self) -> bool {
        !self.text.is_empty() && !self.is_broadcast()
    }

    pub fn ends_in_space(&self) -> bool {
        self.text.ends_with(b" ")
    }

    /// Whether a list has more than one row.
    pub fn has_rows(&self) -> bool {
        matches!(self.answer[..], ["0", _, rows] if rows.contains(','))
    }

    /// Whether a list has more than one notice in a row.
    pub fn counts_several(&self) -> bool {
        let several = |row: &str| row.split_once(':').is_some_and(|(_, count)| count != "1");
        matches!(self.answer[..], ["0", _, rows] if rows.split(',').any(several))
    }

    /// Whether a message is refused that is not well formed.
    pub fn is_malformed(&self) -> bool {
        self.number == 5 && std::str::from_utf8(&self.message).is_err()
    }

    /// Whether a message is taken that has characters of several bytes.
    pub fn takes_wide(&self) -> bool {
        self.number == 0 && !self.message.is_ascii()
    }

    /// Whether a message is taken that has a character which XML does not have.
    pub fn takes_odd(&self) -> bool {
        let odd = |character| matches!(character, '\0' | '\u{fffe}' | '\u{ffff}');
        self.number == 0 && String::from_utf8_lossy(&self.message).contains(odd)
    }

    /// Whether a message has a uri that a character makes unsuitable, and another is chosen, or
    /// none.
    pub fn passes_uri(&self, chosen: bool) -> bool {
        let passed = self.audio.is_some_and(|audio| (audio != "0") == chosen);
        passed && has_wide(&self.message, b"uri")
    }

    /// Whether a message is refused by this number, and the value that has it holds a character
    /// beyond its range.
    pub fn refuses_wide(&self, number: u32) -> bool {
        let field = self.answer.get(1).copied().unwrap_or("");
        let name: &[u8] = match (number, field) {
            (7, "1") => b"identifier",
            (7, "2") => b"sender",
            (7, "3") => b"sent",
            (7, "4") => b"status",
            (7, "5") => b"msgType",
            (7, "6") => b"scope",
            (10, _) => b"references",
            (14, _) => b"expires",
            (11..=13, _) => b"value",
            _ => return false,
        };
        self.number == number && has_wide(&self.message, name)
    }
}

/// The number in an answer to a call; the program prints it in hex.
pub fn number_in(call: &str, answer: &str) -> Option<u32> {
    if call != "program" {
        return answer.split(' ').next()?.parse().ok();
    }
    let printed = bytes(answer);
    let digits = printed.strip_prefix(b"number ")?.split(|b| *b == b' ').next()?;
    std::str::from_utf8(digits).ok()?.parse().ok()
}

/// The bytes of a field in hex.
fn bytes(hex: &str) -> Vec<u8> {
    let digit = |b: u8| char::from(b).to_digit(16).unwrap_or(0) as u8;
    hex.as_bytes().chunks_exact(2).map(|pair| digit(pair[0]) << 4 | digit(pair[1])).collect()
}

/// Whether an element of this name begins with text in which a byte lies beyond the ranges. Long
/// values of pairs don't count: they are texts.
fn has_wide(message: &[u8], name: &[u8]) -> bool {
    let longest = if name == b"value" { 11 } else { message.len() };
    has_text(message, name, |text| text.len() <= longest && text.iter().any(|b| *b >= 0x7f))
}

/// Whether an element of this name begins with text of which this holds.
fn has_text(message: &[u8], name: &[u8], holds: impl Fn(&[u8]) -> bool) -> bool {
    message.split(|b| *b == b'<').any(|piece| {
        let tag = piece.iter().position(|b| *b == b'>').unwrap_or(piece.len());
        let (tag, text) = piece.split_at(tag);
        let named = tag.split(|b| b" \t\r\n".contains(b)).next().unwrap_or(tag);
        let local = named.rsplit(|b| *b == b':').next().unwrap_or(named);
        let ends = named.starts_with(b"/");
        local == name && !ends && holds(text.strip_prefix(b">").unwrap_or(text))
    })
}
