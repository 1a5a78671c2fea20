//! Damaged copies of alerts: bytes flipped, pieces taken out or put in, characters of several bytes broken.

use crate::messages::Numbers;

/// What is put in: some of it does no harm, some depends on where it comes to stand, and some is refused anywhere.
const PIECES: [&[u8]; 74] = [
    b"<!-- put in -->",
    b"<!---->",
    b"<!--a--->",
    b"&amp;",
    b"&lt;&gt;",
    b"&apos;&quot;",
    b"&#32;",
    b"&#10;",
    b"&#x41;",
    b"&#0000066;",
    b"&nbsp;",
    b"&",
    b"  ",
    b"\n\n \t",
    b"\r",
    b"]",
    b"]]>",
    b"<",
    b">",
    b"<a/>",
    b"<a>",
    b"</a>",
    b"<q:a b='' c=\"&#38;\"/>",
    b" b='1'",
    b" b='1' b='2'",
    b"q:",
    b"<valueName/>",
    b"<language>es</language>",
    b"<info/>",
    b"<info><language>es</language></info>",
    b"<![CDATA[a]]>",
    b"<!DOCTYPE a>",
    b"<?a b?>",
    b"\0",
    b"\x7f",
    // Characters from 127 on, as bytes and by reference; a byte order mark, and white space outside ASCII, are characters like others.
    "\u{e9}".as_bytes(),
    "\u{85}".as_bytes(),
    "\u{a0}".as_bytes(),
    "\u{17f}".as_bytes(),
    "\u{7ff}\u{800}".as_bytes(),
    "\u{d7ff}\u{e000}".as_bytes(),
    "\u{2028}\u{3000}".as_bytes(),
    "\u{feff}".as_bytes(),
    "\u{fffd}\u{10000}".as_bytes(),
    "\u{10ffff}".as_bytes(),
    "<!-- \u{ed} -->".as_bytes(),
    " b='\u{ed}'".as_bytes(),
    "<\u{ed}/>".as_bytes(),
    "<a\u{ed}>".as_bytes(),
    b"&#233;",
    b"&#xe9;",
    b"&#0000127;",
    b"&#1114111;",
    b"&#x010FFFF;",
    b"&#x1fffe;",
    // No characters of XML, and too many digits.
    b"&#1114112;",
    b"&#xd800;",
    b"&#xFFFE;",
    b"&#00000066;",
    b"\xef\xbf\xbe",
    b"\xef\xbf\xbf",
    // No UTF-8: cut, stray, too long, halves of a pair, beyond the last.
    b"\xc3",
    b"\xe2\x80",
    b"\xf0\x9f\x8c",
    b"\x80",
    b"\xbf",
    b"\xc0\xaf",
    b"\xc1\xbf",
    b"\xe0\x9f\xbf",
    b"\xf0\x8f\xbf\xbf",
    b"\xed\xa0\x80",
    b"\xed\xbf\xbf",
    b"\xf4\x90\x80\x80",
    b"\xff",
];

/// A copy with one to three damages.
pub fn damaged(message: &[u8], numbers: &mut Numbers) -> Vec<u8> {
    let mut copy = message.to_vec();
    for _ in 0..1 + numbers.below(3) {
        damage(&mut copy, numbers);
    }
    copy
}

fn damage(copy: &mut Vec<u8>, numbers: &mut Numbers) {
    let at = numbers.below(copy.len() as u64) as usize;
    match numbers.below(7) {
        0 => copy[at] ^= 1 << numbers.below(8),
        1 => {
            let end = (at + numbers.below(24) as usize).min(copy.len() - 1);
            copy.drain(at.min(end)..end);
        }
        2 => {
            let end = (at + numbers.below(80) as usize).min(copy.len());
            let again = copy[at..end].to_vec();
            let to = numbers.below(copy.len() as u64) as usize;
            copy.splice(to..to, again);
        }
        3 => put(copy, at, numbers),
        4 => break_wide(copy, at, numbers),
        // Behind a tag and before its end a piece is more often in its place.
        5 => put(copy, next_end(copy, at) + 1, numbers),
        _ => put(copy, next_end(copy, at), numbers),
    }
}

fn put(copy: &mut Vec<u8>, at: usize, numbers: &mut Numbers) {
    let piece = PIECES[numbers.below(PIECES.len() as u64) as usize];
    let at = at.min(copy.len());
    copy.splice(at..at, piece.iter().copied());
}

/// Flips a bit of the next character of several bytes, or takes its first or its second byte out. Where there is none, the first byte of one is put in.
fn break_wide(copy: &mut Vec<u8>, at: usize, numbers: &mut Numbers) {
    let Some(length) = copy[at..].iter().position(|b| *b >= 0xc0) else {
        copy.insert(at, 0xc3);
        return;
    };
    let place = (at + length + numbers.below(2) as usize).min(copy.len() - 1);
    if numbers.below(2) == 0 {
        copy.remove(place);
    } else {
        copy[place] ^= 1 << numbers.below(8);
    }
}

/// Where the next tag ends.
fn next_end(copy: &[u8], at: usize) -> usize {
    copy[at..].iter().position(|b| *b == b'>').map_or(copy.len(), |length| at + length)
}
