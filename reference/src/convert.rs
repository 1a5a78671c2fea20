//! The conversion, in two calls: header and must-carry, and text and audio.

use crate::header::{is_station, put_header, HEADER};
use crate::judge::{judge, Activation};
use crate::outputs::{Outputs, Worded};
use crate::refusal::Refusal;
use crate::wording::put_text;

/// What was written: the header's length, and must-carry. Nothing for a quiet Cancel.
#[derive(Clone, Copy, Debug, Default, PartialEq, Eq)]
pub struct Headed {
    pub header: usize,
    pub carry: bool,
}

/// Writes a message's header into the lent output; numbers 2 to 14.
pub fn header(message: &[u8], station: &[u8], header: &mut [u8]) -> Result<Headed, Refusal> {
    if header.len() < HEADER {
        return Err(Refusal::OUTPUT);
    }
    let Some(activation) = judge_with_station(message, station)? else {
        return Ok(Headed::default());
    };
    let header = put_header(&activation.parts(station), header);
    let carry = activation.info.must_carry.is_some_and(|value| value.is(b"True"));
    Ok(Headed { header, carry })
}

/// Writes a message's text and its uri into the lent outputs; numbers 2 to 14.
pub fn text(
    message: &[u8],
    station: &[u8],
    text: &mut [u8],
    uri: &mut [u8],
) -> Result<Worded, Refusal> {
    let outputs = Outputs::on(text, uri)?;
    let Some(activation) = judge_with_station(message, station)? else {
        return Ok(Worded::default());
    };
    let (parts, info) = (activation.parts(station), &activation.info);
    Ok(outputs.put(info, |text| put_text(&parts, info, text)))
}

/// Numbers 3 to 14, which both calls ask alike; None for a quiet Cancel.
fn judge_with_station<'a>(
    message: &'a [u8],
    station: &[u8],
) -> Result<Option<Activation<'a>>, Refusal> {
    if !is_station(station) {
        return Err(Refusal::STATION);
    }
    Ok(judge(message)?.activation)
}

#[cfg(test)]
mod tests {
    use super::*;
    use crate::audio::{Audio, URI};
    use crate::wording::TEXT;

    const STATION: &[u8] = b"BENCH/01";
    const EXPIRES: &str = "<expires>2010-04-05T14:45:30-04:00</expires>";

    /// A Cancel that must be carried and has audio, with this in its info.
    fn cancel(inside: &str) -> Vec<u8> {
        let message = format!(
            "<alert xmlns=\"urn:oasis:names:tc:emergency:cap:1.2\"><identifier>B1</identifier>\
             <sender>b@c</sender><sent>2010-04-05T14:00:30-04:00</sent><status>Actual</status>\
             <msgType>Cancel</msgType><scope>Public</scope>\
             <references>b@c,A1,2010-04-05T13:00:30-04:00</references><info>\
             <eventCode><valueName>SAME</valueName><value>CEM</value></eventCode>{inside}\
             <parameter><valueName>EAS-Must-Carry</valueName><value>True</value></parameter>\
             <resource><mimeType>audio/x-ipaws-audio-wav</mimeType><uri>u</uri></resource>\
             <area><geocode><valueName>SAME</valueName><value>024031</value></geocode></area>\
             </info></alert>"
        );
        message.into_bytes()
    }

    /// The outcomes of both calls with outputs of these lengths.
    fn both(
        message: &[u8],
        station: &[u8],
        [in_header, in_text, in_uri]: [usize; 3],
    ) -> (Result<Headed, Refusal>, Result<Worded, Refusal>) {
        let headed = header(message, station, &mut vec![0; in_header]);
        (headed, text(message, station, &mut vec![0; in_text], &mut vec![0; in_uri]))
    }

    const LONG_ENOUGH: [usize; 3] = [HEADER, TEXT, URI];

    #[test]
    fn each_call_gives_its_own() {
        let (mut in_header, mut in_text, mut in_uri) = ([0; HEADER], [0; TEXT], [0; URI]);
        let message = cancel(EXPIRES);
        let headed = header(&message, STATION, &mut in_header).unwrap();
        assert_eq!(&in_header[..headed.header], b"ZCZC-CIV-CEM-024031+0045-0951800-BENCH/01-");
        assert!(headed.carry);
        let worded = text(&message, STATION, &mut in_text, &mut in_uri).unwrap();
        assert_eq!((worded.audio, &in_uri[..worded.uri]), (Audio::Wav, &b"u"[..]));
        let said = "Civil authorities issued Civil Emergency Message for locations 024031, \
                    valid from 18:00 UTC on day 095 for 00 hours 45 minutes.";
        assert_eq!(&in_text[..worded.text], said.as_bytes());
    }

    #[test]
    fn a_quiet_cancel_gives_nothing() {
        let (headed, worded) = both(&cancel(""), STATION, LONG_ENOUGH);
        assert_eq!((headed, worded), (Ok(Headed::default()), Ok(Worded::default())));
    }

    #[test]
    fn a_call_asks_only_the_outputs_that_it_writes() {
        for message in [cancel(EXPIRES), cancel(""), Vec::new()] {
            let (sound_header, sound_text) = both(&message, STATION, LONG_ENOUGH);
            let (headed, worded) = both(&message, STATION, [HEADER - 1, TEXT, URI]);
            assert_eq!((headed, worded), (Err(Refusal::OUTPUT), sound_text));
            for [in_text, in_uri] in [[TEXT - 1, URI], [TEXT, URI - 1]] {
                let (headed, worded) = both(&message, STATION, [HEADER, in_text, in_uri]);
                assert_eq!((headed, worded), (sound_header, Err(Refusal::OUTPUT)));
            }
        }
    }

    #[test]
    fn both_judge_the_station_behind_the_outputs_and_before_the_message() {
        for message in [cancel(EXPIRES), cancel(""), Vec::new()] {
            for station in ["BENCH-01", "BENCH/0", ""] {
                let (headed, worded) = both(&message, station.as_bytes(), LONG_ENOUGH);
                assert_eq!((headed, worded), (Err(Refusal::STATION), Err(Refusal::STATION)));
                let (headed, worded) = both(&message, station.as_bytes(), [0; 3]);
                assert_eq!((headed, worded), (Err(Refusal::OUTPUT), Err(Refusal::OUTPUT)));
            }
        }
    }

    #[test]
    fn both_give_the_same_number_and_field() {
        let sound = String::from_utf8(cancel(EXPIRES)).unwrap();
        let wrong = [
            ("B1", "B 1", Refusal::leaf(1)),
            ("Actual", "Test", Refusal::STATUS_OR_SCOPE),
            ("Cancel", "Ack", Refusal::ACK_OR_ERROR),
            ("b@c,A1", "b@c", Refusal::REFERENCES),
            ("CEM", "cem", Refusal::EVENT),
            ("024031", "x", Refusal::LOCATION),
            ("14:45:30", "14:00:30", Refusal::EXPIRES),
            ("cap:1.2", "cap:1.0", Refusal::ROOT),
            ("</alert>", "", Refusal::SUBSET),
        ];
        for (part, other, refusal) in wrong {
            let message = sound.replace(part, other);
            let (headed, worded) = both(message.as_bytes(), STATION, LONG_ENOUGH);
            assert_eq!((headed, worded), (Err(refusal), Err(refusal)), "for {other}");
        }
    }
}
