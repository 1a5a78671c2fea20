//! Characters beyond ASCII for the values of messages.

use crate::chance::Chance;

/// What texts in Spanish have.
pub const ACCENTS: [char; 16] =
    ['á', 'é', 'í', 'ó', 'ú', 'ü', 'ñ', 'Á', 'É', 'Í', 'Ó', 'Ú', 'Ü', 'Ñ', '¿', '¡'];

/// Characters of two, three and four bytes: the first and the last of each length and round what
/// is left out, accents apart from their letters, what others take for white space, what is an
/// ASCII letter in another case, and what has the low bits of white space, `<`, `&`, digits and
/// letters.
#[rustfmt::skip]
const TWO: [char; 24] = [
    '\u{80}', '\u{85}', '\u{9f}', '\u{a0}', '\u{bf}', '\u{c0}', 'á', 'é', 'ñ', 'Ñ', 'ü', '\u{ff}',
    '\u{109}', '\u{10a}', '\u{120}', '\u{126}', '\u{12d}', '\u{13c}', '\u{141}', '\u{17f}', '\u{301}',
    '\u{37e}', '\u{7fe}', '\u{7ff}',
];
#[rustfmt::skip]
const THREE: [char; 22] = [
    '\u{800}', '\u{801}', '\u{fff}', '\u{1000}', '\u{1680}', '\u{2003}', '\u{2020}', '\u{2026}',
    '\u{2028}', '\u{203c}', '\u{20ac}', '\u{212a}', '\u{3000}', '\u{cfff}', '\u{d7ff}', '\u{e000}',
    '\u{e020}', '\u{feff}', '\u{ff21}', '\u{fffc}', '\u{fffd}', '\u{fdd0}',
];
#[rustfmt::skip]
const FOUR: [char; 16] = [
    '\u{10000}', '\u{10020}', '\u{1003c}', '\u{10041}', '\u{1f4a7}', '\u{1f600}', '\u{1fffe}',
    '\u{1ffff}', '\u{3ffff}', '\u{40000}', '\u{fffff}', '\u{100000}', '\u{100020}', '\u{10fffd}',
    '\u{10fffe}', '\u{10ffff}',
];

/// How a text is spelled.
#[derive(Clone, Copy)]
pub enum Spelling {
    /// In ASCII.
    Plain,
    /// In ASCII but for accents.
    Accented,
    /// In characters of one to four bytes, each as often.
    Mixed,
    /// In characters of so many bytes.
    Of(usize),
}

impl Spelling {
    /// A letter that is no white space.
    pub fn letter(self, chance: &mut Chance) -> char {
        match self {
            Spelling::Accented if chance.once_in(5) => chance.pick(&ACCENTS),
            Spelling::Plain | Spelling::Accented => plain(chance),
            Spelling::Mixed => of_length(1 + chance.below(4), chance),
            Spelling::Of(length) => of_length(length, chance),
        }
    }
}

fn plain(chance: &mut Chance) -> char {
    match chance.below(40) {
        0 => chance.pick(&['<', '&', '>', '"', '\'', ']', '-', '~', '!', '*', '.']),
        _ => char::from(b'a' + chance.below(26) as u8),
    }
}

/// A character of one to four bytes.
pub fn of_length(length: usize, chance: &mut Chance) -> char {
    match length {
        2 => chance.pick(&TWO),
        3 => chance.pick(&THREE),
        4 => chance.pick(&FOUR),
        _ if chance.once_in(40) => '\u{7f}',
        _ => plain(chance),
    }
}

/// What no value of a range of ASCII has.
const OUTSIDE: [char; 16] = [
    '\u{7f}',
    '\u{80}',
    '\u{85}',
    '\u{a0}',
    'é',
    'Ñ',
    '\u{120}',
    '\u{12c}',
    '\u{301}',
    '\u{2028}',
    '\u{3000}',
    '\u{feff}',
    '\u{fffd}',
    '\u{10020}',
    '\u{1f600}',
    '\u{10ffff}',
];

/// A character that is taken for a letter of ASCII where only some of its bits are looked at, or
/// where letters of all alphabets have cases.
fn look_alike(letter: char, chance: &mut Chance) -> char {
    match letter {
        's' | 'S' if chance.once_in(2) => '\u{17f}',
        'k' | 'K' => '\u{212a}',
        'i' => '\u{131}',
        'I' => '\u{130}',
        _ => {
            let beyond = chance.pick(&[0x80, 0x100, 0x100, 0x2000, 0xfee0, 0x1_0000, 0x10_0000]);
            char::from_u32(u32::from(letter) + beyond).unwrap_or(letter)
        }
    }
}

/// A word with an s that is one in no letter case of ASCII.
pub fn with_long_s(word: &str) -> String {
    word.replace(['s', 'S'], "\u{17f}")
}

/// A word with one character that no word of ASCII has: one more, or one in the place of another.
pub fn nearly(word: &str, chance: &mut Chance) -> String {
    let mut letters: Vec<char> = word.chars().collect();
    let place = chance.below(letters.len() + 1);
    if place < letters.len() && chance.once_in(2) {
        letters[place] = look_alike(letters[place], chance);
    } else {
        let place = chance.pick(&[0, place, letters.len()]);
        letters.insert(place, chance.pick(&OUTSIDE));
    }
    letters.into_iter().collect()
}

/// Puts letters in the place of those that stand at a place in a text.
pub fn put_over(text: &mut String, place: usize, letters: &str) {
    let behind = text.chars().skip(place + letters.chars().count());
    *text = text.chars().take(place).chain(letters.chars()).chain(behind).collect();
}
