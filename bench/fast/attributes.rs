//! Attributes: their form, and that no name stands twice in a tag.

use super::reader::{Broken, Reader, Step};
use super::word::{is_text, is_white, Low};

/// A name, and a value as it stands between its quotes.
#[derive(Clone, Copy)]
pub struct Attribute<'a> {
    pub name: &'a [u8],
    pub value: &'a [u8],
}

/// As many names are compared with each other; more are looked up in a table.
const FEW: usize = 16;

/// Reads the attributes of a tag, from the white space after its name up to what ends it, and tells each.
#[inline(never)]
pub fn read_attributes<'a>(
    reader: &mut Reader<'a>,
    mut told: impl FnMut(Attribute<'a>),
) -> Step<()> {
    let start = reader.rest;
    let mut names: [&[u8]; FEW] = [b""; FEW];
    let mut count = 0;
    while reader.white_space() && !matches!(reader.peek(), b'>' | b'/') {
        let attribute = read_attribute(reader)?;
        if count < FEW {
            if names[..count].contains(&attribute.name) {
                return Err(Broken);
            }
            names[count] = attribute.name;
        }
        count += 1;
        told(attribute);
    }
    if count > FEW && !all_differ(reader.since(start), count) {
        return Err(Broken);
    }
    Ok(())
}

fn read_attribute<'a>(reader: &mut Reader<'a>) -> Step<Attribute<'a>> {
    let name = reader.name()?;
    reader.white_space();
    reader.expect(b'=')?;
    reader.white_space();
    let quote = reader.peek();
    if quote != b'"' && quote != b'\'' {
        return Err(Broken);
    }
    reader.pass(1);
    let start = reader.rest;
    loop {
        let quoted = |low: Low| low.text() & low.is_not(quote);
        reader.pass_while(quoted, |byte| is_text(byte) && byte != quote);
        match reader.peek() {
            b if b == quote => break,
            b'<' => return Err(Broken),
            b'&' => {
                reader.reference()?;
            }
            _ => reader.character()?,
        }
    }
    let value = reader.since(start);
    reader.pass(1);
    Ok(Attribute { name, value })
}

/// Whether so many names, in attributes that are well formed, all differ.
#[cold]
fn all_differ(attributes: &[u8], count: usize) -> bool {
    match count {
        ..=128 => differ_in::<256>(attributes),
        ..=1024 => differ_in::<2048>(attributes),
        _ => differ_in::<16_384>(attributes),
    }
}

/// The same by a table of where names stand, counted from 1; it has twice as many slots as there are names at the most.
fn differ_in<const SLOTS: usize>(attributes: &[u8]) -> bool {
    let mut table = [0u16; SLOTS];
    let mut at = 0;
    while let Some((start, length)) = next_name(attributes, at) {
        let name = &attributes[start..start + length];
        let mut slot = spread(name) % SLOTS;
        while table[slot] != 0 {
            if is_name_at(attributes, usize::from(table[slot]) - 1, name) {
                return false;
            }
            slot = (slot + 1) % SLOTS;
        }
        table[slot] = start as u16 + 1;
        at = behind_value(attributes, start + length);
    }
    true
}

fn spread(name: &[u8]) -> usize {
    let step = |hash: u64, b: &u8| {
        (hash.rotate_left(5) ^ u64::from(*b)).wrapping_mul(0x9e37_79b9_7f4a_7c15)
    };
    (name.iter().fold(0, step) >> 40) as usize
}

/// Where the name after a place begins, and its length.
fn next_name(attributes: &[u8], at: usize) -> Option<(usize, usize)> {
    let start = at + attributes[at..].iter().position(|b| !is_white(*b))?;
    let length = attributes[start..].iter().position(|b| ends_name(*b))?;
    Some((start, length))
}

fn ends_name(b: u8) -> bool {
    is_white(b) || b == b'='
}

fn is_name_at(attributes: &[u8], start: usize, name: &[u8]) -> bool {
    let behind = attributes[start..].strip_prefix(name);
    behind.is_some_and(|behind| ends_name(behind[0]))
}

/// The place behind the value of an attribute whose name ends at a place.
fn behind_value(attributes: &[u8], at: usize) -> usize {
    let rest = &attributes[at..];
    let open = rest.iter().position(|b| matches!(b, b'"' | b'\'')).unwrap_or(0);
    let close = rest[open + 1..].iter().position(|b| *b == rest[open]).unwrap_or(0);
    at + open + 1 + close + 1
}
