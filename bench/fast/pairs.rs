//! Elements of an info that hold two leaves: pairs of a name and a value, and resources.

use super::leaf::{Leaf, Short};
use super::reader::{Reader, Step};
use super::tags::Tag;
use super::words::{read_words, Words};
use super::URI;

/// The valueName and the value of an element.
#[inline(always)]
pub fn read_pair<'a>(
    reader: &mut Reader<'a>,
    prefix: &[u8],
    tag: &Tag<'a>,
    depth: u32,
) -> Step<(Leaf<'a>, Leaf<'a>)> {
    let (mut name, mut value) = (Leaf::default(), Leaf::default());
    if tag.empty {
        return Ok((name, value));
    }
    loop {
        reader.text()?;
        if prefix.is_empty()
            && (name.read_plain(reader, b"<valueName>", b"</valueName>")
                || value.read_plain(reader, b"<value>", b"</value>"))
        {
            continue;
        }
        let Some(child) = reader.child_here(tag)? else {
            return Ok((name, value));
        };
        match child.name_in(prefix) {
            b"valueName" => name.read(reader, &child, depth)?,
            b"value" => value.read(reader, &child, depth)?,
            _ => reader.skip(&child, depth)?,
        }
    }
}

/// The mimeType and the uri of a resource.
pub fn read_mime_type_and_uri<'a>(
    reader: &mut Reader<'a>,
    prefix: &[u8],
    tag: &Tag<'a>,
    depth: u32,
) -> Step<(Leaf<'a>, Leaf<'a>)> {
    let (mut mime_type, mut uri) = (Leaf::default(), Leaf::default());
    if tag.empty {
        return Ok((mime_type, uri));
    }
    while let Some(child) = reader.child(tag)? {
        match child.name_in(prefix) {
            b"mimeType" => mime_type.read(reader, &child, depth)?,
            b"uri" => uri.read(reader, &child, depth)?,
            _ => reader.skip(&child, depth)?,
        }
    }
    Ok((mime_type, uri))
}

/// The audio number of a mimeType.
pub fn audio_of(mime_type: &Leaf) -> u8 {
    let mut room = Short::new();
    match mime_type.word(&mut room) {
        b"audio/x-ipaws-audio-mp3" => 1,
        b"audio/x-ipaws-audio-wav" => 2,
        b"audio/x-ipaws-streaming-audio-mp3" => 3,
        _ => 0,
    }
}

/// Whether a value has 1 to 1,024 bytes, all of 32 to 126.
pub fn is_uri(uri: &Leaf) -> bool {
    if !uri.marked && uri.content.len() <= URI {
        return !uri.content.trim_ascii().is_empty() && is_printed(uri.content);
    }
    let mut words = Words::<1056>::new();
    read_words(uri.content, &mut words);
    (1..=URI).contains(&words.value().len()) && is_printed(words.value())
}

/// Whether no byte is above 126; below 32 there is only white space in a message.
fn is_printed(bytes: &[u8]) -> bool {
    !bytes.iter().fold(false, |above, b| above | (*b > 126))
}
