//! Text and audio, which a call gives in either mode.

use crate::alert::Info;
use crate::audio::{put_uri, Audio, URI};
use crate::octets::Output;
use crate::refusal::Refusal;
use crate::wording::TEXT;

/// What was written: the audio choice, and the lengths of its uri and of the text. All nothing
/// for a quiet Cancel.
#[derive(Clone, Copy, Debug, Default, PartialEq, Eq)]
pub struct Worded {
    pub audio: Audio,
    pub uri: usize,
    pub text: usize,
}

/// The lent outputs, known to be long enough.
pub struct Outputs<'a> {
    text: &'a mut [u8],
    uri: &'a mut [u8],
}

impl<'a> Outputs<'a> {
    /// Number 2.
    pub fn on(text: &'a mut [u8], uri: &'a mut [u8]) -> Result<Outputs<'a>, Refusal> {
        if text.len() < TEXT || uri.len() < URI {
            return Err(Refusal::OUTPUT);
        }
        Ok(Outputs { text, uri })
    }

    /// Writes the uri of an info's audio choice, and a text.
    pub fn put(self, info: &Info, put_text: impl FnOnce(&mut Output)) -> Worded {
        let mut text = Output::on(self.text);
        put_text(&mut text);
        let uri = put_uri(info.audio, info.uri, self.uri);
        Worded { audio: info.audio, uri, text: text.length() }
    }
}
