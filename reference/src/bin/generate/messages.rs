//! Cases of messages: header, text, canadian and program.

use crate::canadian::CANADIAN;
use crate::chance::Chance;
use crate::draft::Draft;
use crate::headers::{odd_station, station};
use crate::hex::to_hex;
use crate::render::render;
use crate::sound::{cancel, languages, quiet, SOUND};
use crate::unread::one_of;
use crate::wrong::WRONG;

fn sound_draft(most_edits: usize, chance: &mut Chance) -> Draft {
    let mut draft = Draft::alert(chance);
    for _ in 0..chance.below(most_edits + 1) {
        chance.pick(&SOUND)(&mut draft, chance);
    }
    draft
}

/// Writes a draft out, one in five with other infos round its own.
pub fn written(mut draft: Draft, chance: &mut Chance) -> Vec<u8> {
    if chance.once_in(5) {
        languages(&mut draft, chance);
    }
    render(&draft, chance)
}

/// A message that is most often taken.
pub fn sound_message(chance: &mut Chance) -> Vec<u8> {
    written(sound_draft(2, chance), chance)
}

/// A message with one thing wrong, each kind of wrong in its turn.
pub fn refused_message(turn: usize, chance: &mut Chance) -> Vec<u8> {
    let mut draft = sound_draft(1, chance);
    if chance.once_in(4) {
        cancel(&mut draft, chance);
    }
    let (number, edit) = WRONG[turn % WRONG.len()];
    edit(&mut draft, chance);
    if number == 4 && chance.once_in(3) {
        return Vec::new();
    }
    written(draft, chance)
}

/// A message with two things wrong, of which the lower number decides; each pair of edits
/// in its turn.
fn twice_refused(turn: usize, chance: &mut Chance) -> Vec<u8> {
    let mut draft = sound_draft(1, chance);
    let first = turn % WRONG.len();
    let second = (first + 1 + turn / WRONG.len()) % WRONG.len();
    for (_, edit) in [WRONG[first], WRONG[second]] {
        edit(&mut draft, chance);
    }
    written(draft, chance)
}

/// A message with some of its bytes damaged.
fn damaged(chance: &mut Chance) -> Vec<u8> {
    let mut message = sound_message(chance);
    for _ in 0..=chance.below(2) {
        damage(&mut message, chance);
    }
    message
}

const BYTES: &[u8] = b"<>&;/=\"'- \n!?]:a0\x00\x7f\x80\xa9\xc3\xe2\xed\xf0\xff";

/// Damages a byte of a character beyond ASCII, if there is one.
fn damage_character(message: &mut Vec<u8>, chance: &mut Chance) {
    let places = (0..message.len()).filter(|place| !message[*place].is_ascii());
    let Some(place) = one_of(places, chance) else {
        return;
    };
    match chance.below(5) {
        0 => {
            message.remove(place);
        }
        1 => message.insert(place, message[place]),
        2 => message.truncate(place + chance.below(2)),
        3 => message[place] ^= 1 << chance.below(8),
        _ => message[place] = chance.pick(BYTES),
    }
}

fn damage(message: &mut Vec<u8>, chance: &mut Chance) {
    if message.is_empty() {
        return;
    }
    let place = chance.below(message.len());
    match chance.below(8) {
        0 => message.truncate(place),
        1 => {
            message.remove(place);
        }
        2 => message.insert(place, chance.pick(BYTES)),
        3 => message[place] = chance.pick(BYTES),
        7 => damage_character(message, chance),
        4 => message[place] ^= 1 << chance.below(8),
        5 => {
            let end = (place + 1 + chance.below(40)).min(message.len());
            let piece = message[place..end].to_vec();
            let to = chance.below(message.len());
            message.splice(to..to, piece);
        }
        _ => {
            let end = (place + 1 + chance.below(40)).min(message.len());
            message.drain(place..end);
        }
    }
}

/// The message of a turn; half of them are most often taken.
fn message(turn: usize, chance: &mut Chance) -> Vec<u8> {
    match turn % 20 {
        0 => written(sound_draft(0, chance), chance),
        1..=8 => {
            let mut draft = Draft::alert(chance);
            SOUND[(turn / 20 * 8 + turn % 20 - 1) % SOUND.len()](&mut draft, chance);
            if chance.once_in(2) {
                SOUND[0](&mut draft, chance);
            }
            written(draft, chance)
        }
        9 => written(sound_draft(4, chance), chance),
        10 | 17 => twice_refused(turn / 10, chance),
        11..=16 => refused_message(turn / 20 * 6 + turn % 20 - 11, chance),
        18 => damaged(chance),
        _ => match chance.below(8) {
            0 => Vec::new(),
            1 => vec![chance.pick(b"<a \x00")],
            2 => vec![b' '; chance.pick(&[32_768, 32_769])],
            3 => {
                let mut draft = sound_draft(1, chance);
                quiet(&mut draft, chance);
                written(draft, chance)
            }
            _ => sound_message(chance),
        },
    }
}

/// An output that is lent: its least length, and lengths of which most are too short.
struct Lent {
    least: usize,
    odd: &'static [usize],
}

const HEADER: Lent = Lent { least: 252, odd: &[251, 251, 251, 250, 0, 1, 100, 253, 65_280] };
const TEXT: Lent =
    Lent { least: 7200, odd: &[7199, 7199, 7199, 7198, 1799, 1800, 1800, 1801, 0, 65_280] };
const URI: Lent = Lent { least: 1024, odd: &[1023, 1023, 1023, 1022, 0, 1, 100, 65_280] };

/// The lengths of lent outputs, most often long enough: half of those of every tenth turn have an
/// odd one.
fn caps<const COUNT: usize>(
    lent: [Lent; COUNT],
    turn: usize,
    chance: &mut Chance,
) -> [usize; COUNT] {
    let mut caps = lent.each_ref().map(|lent| lent.least);
    if chance.once_in(4) {
        let over = chance.pick(&[1, 2, 100]);
        caps[chance.below(COUNT)] += over;
    }
    if turn % 10 == 9 && chance.once_in(2) {
        let place = chance.below(COUNT);
        caps[place] = chance.pick(lent[place].odd);
    }
    caps
}

/// A message and a station, in hex.
pub struct Conversion {
    message: String,
    station: String,
}

impl Conversion {
    fn new(turn: usize, chance: &mut Chance) -> Conversion {
        let message = message(turn, chance);
        let odd = turn % 20 == 19 && chance.once_in(2) || chance.once_in(60);
        let station = if odd { odd_station(chance) } else { station(chance) };
        Conversion { message: to_hex(&message), station: to_hex(&station) }
    }
}

/// The conversion that is asked here is left for a text.
pub fn header_case(turn: usize, headed: &mut Option<Conversion>, chance: &mut Chance) -> String {
    let Conversion { message, station } = headed.insert(Conversion::new(turn, chance));
    let [header] = caps([HEADER], turn, chance);
    format!("header {message} {station} {header}")
}

/// The text of what was asked for its header, if that was asked.
pub fn text_case(turn: usize, headed: &mut Option<Conversion>, chance: &mut Chance) -> String {
    let conversion = headed.take().unwrap_or_else(|| Conversion::new(turn, chance));
    let Conversion { message, station } = conversion;
    let [text, uri] = caps([TEXT, URI], turn, chance);
    format!("text {message} {station} {text} {uri}")
}

/// The message of a turn of the Canadian mode; half of them have one of its own edits.
fn canadian_message(turn: usize, chance: &mut Chance) -> Vec<u8> {
    if turn % 20 >= 10 {
        return message(turn, chance);
    }
    let mut draft = sound_draft(1, chance);
    CANADIAN[(turn / 20 * 10 + turn % 20) % CANADIAN.len()](&mut draft, chance);
    if chance.once_in(2) {
        SOUND[0](&mut draft, chance);
    }
    written(draft, chance)
}

pub fn canadian_case(turn: usize, chance: &mut Chance) -> String {
    let message = canadian_message(turn, chance);
    let [text, uri] = caps([TEXT, URI], turn, chance);
    format!("canadian {} {text} {uri}", to_hex(&message))
}

pub fn program_case(turn: usize, chance: &mut Chance) -> String {
    format!("program {}", to_hex(&message(turn, chance)))
}
