//! Kinds of conversions, by what is lent to them and by what a quiet Cancel says.

use super::{bytes, has_text, Seen};

const HEADER: usize = 252;
const STATION: &[u8] = b"BENCH/01";

/// Kinds of what is lent.
impl Seen<'_> {
    /// Whether a conversion is refused whose output at this place has this length.
    pub fn is_short(&self, place: usize, length: &str) -> bool {
        let lent = match &self.asked[..] {
            ["header" | "text", _, _, lent @ ..] | ["canadian", _, lent @ ..] => lent,
            _ => &[],
        };
        self.number == 2 && lent.get(place) == Some(&length)
    }

    /// Whether an output is refused beside a station that is none.
    pub fn refuses_output_first(&self) -> bool {
        let station = self.asked.get(2).map_or(Vec::new(), |station| bytes(station));
        self.number == 2 && number_of(&self.message, &station) == 3
    }

    /// Whether a station is refused beside a message that would be.
    pub fn refuses_station_first(&self) -> bool {
        self.number == 3 && number_of(&self.message, STATION) != 0
    }
}

/// Kinds of quiet Cancels.
impl Seen<'_> {
    /// Whether a quiet Cancel is refused for an output.
    pub fn refuses_quiet(&self) -> bool {
        self.number == 2
            && reference::header(&self.message, STATION, &mut [0; HEADER])
                .is_ok_and(|headed| headed.header == 0)
    }

    /// Whether a quiet Cancel says that it must be carried.
    pub fn is_quiet_and_carried(&self) -> bool {
        let says = |name: &[u8], value: &[u8]| {
            has_text(&self.message, name, |text| text.trim_ascii() == value)
        };
        self.is_quiet() && says(b"valueName", b"EAS-Must-Carry") && says(b"value", b"True")
    }

    /// Whether a quiet Cancel has a resource for audio.
    pub fn is_quiet_and_heard(&self) -> bool {
        let audio = |text: &[u8]| text.trim_ascii().starts_with(b"audio/x-ipaws-");
        self.is_quiet() && has_text(&self.message, b"mimeType", audio)
    }
}

/// The number that the independent converter gives with an output that is long enough.
fn number_of(message: &[u8], station: &[u8]) -> u8 {
    let headed = reference::header(message, station, &mut [0; HEADER]);
    headed.err().map_or(0, |refusal| refusal.number)
}
