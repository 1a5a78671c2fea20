//! The Canadian mode: text and audio only.

use crate::alert::Info;
use crate::judge::judge_alert;
use crate::outputs::{Outputs, Worded};
use crate::refusal::Refusal;
use crate::value::Value;
use crate::wording::LONGEST_TEXT;

/// Writes a message's Canadian text and its uri into the lent outputs; numbers 2, 4 to 9, 18.
pub fn canadian(message: &[u8], text: &mut [u8], uri: &mut [u8]) -> Result<Worded, Refusal> {
    let outputs = Outputs::on(text, uri)?;
    let (alert, _) = judge_alert(message)?;
    let info = alert.selected.ok_or(Refusal::NO_TEXT)?;
    let words = words(&info).ok_or(Refusal::NO_TEXT)?;
    Ok(outputs.put(&info, |text| text.put_each(words.take(LONGEST_TEXT))))
}

/// The broadcastText, or else description and instruction; None where the first of these is
/// empty.
fn words<'a>(info: &Info<'a>) -> Option<impl Iterator<Item = char> + 'a> {
    let (first, second) = match info.broadcast_text {
        Some(value) => (value, Value::of(b"")),
        None => (info.description.value(), info.instruction.value()),
    };
    let space = (!second.is_empty()).then_some(' ');
    (!first.is_empty()).then(|| first.chain(space).chain(second))
}

#[cfg(test)]
mod tests {
    use super::*;
    use crate::audio::{Audio, URI};
    use crate::wording::TEXT;

    const NAME: &str = "layer:AEA:2.0:broadcastText";
    const DESCRIBED: &str = "<description>D.</description>";

    /// A message of this msgType with this after its leaves.
    fn message(kind: &str, rest: &str) -> String {
        format!(
            "<alert xmlns=\"urn:oasis:names:tc:emergency:cap:1.2\"><identifier>B1</identifier>\
             <sender>b@c</sender><sent>2010-04-05T14:00:30-04:00</sent><status>Actual</status>\
             <msgType>{kind}</msgType><scope>Public</scope>{rest}</alert>"
        )
    }

    fn parameter(name: &str, value: &str) -> String {
        format!("<parameter><valueName>{name}</valueName><value>{value}</value></parameter>")
    }

    fn resource(mime_type: &str, uri: &str) -> String {
        format!("<resource><mimeType>{mime_type}</mimeType><uri>{uri}</uri></resource>")
    }

    /// Text, audio and uri of a message.
    fn answer(message: &str) -> Result<(String, Audio, String), Refusal> {
        let (mut text, mut uri) = ([0; TEXT], [0; URI]);
        let done = canadian(message.as_bytes(), &mut text, &mut uri)?;
        let said = |bytes: &[u8]| String::from_utf8_lossy(bytes).into_owned();
        Ok((said(&text[..done.text]), done.audio, said(&uri[..done.uri])))
    }

    /// The answer to an Alert with an info that holds this.
    fn of_info(inside: &str) -> Result<(String, Audio, String), Refusal> {
        answer(&message("Alert", &format!("<info>{inside}</info>")))
    }

    fn text(inside: &str) -> Result<String, Refusal> {
        of_info(inside).map(|(text, _, _)| text)
    }

    fn said(text: &str) -> Result<String, Refusal> {
        Ok(text.to_string())
    }

    #[test]
    fn a_broadcast_text_is_the_whole_text() {
        let coded = " \n&#108;ayer<!-- -->:AEA:2.0:broadcastText ";
        for name in [NAME, "LAYER:aea:2.0:BROADCASTtext", coded] {
            let instruction = "<instruction>I.</instruction>";
            let inside = format!("{DESCRIBED}{instruction}{}", parameter(name, " T.\n U. "));
            assert_eq!(text(&inside), said("T. U."), "for {name}");
        }
        assert_eq!(text(&parameter(NAME, "T.")), said("T."));
    }

    #[test]
    fn other_names_are_passed_over() {
        let others = [
            "layer:AEA:2.0:broadcastTex",
            "layer:AEA:2.0:broadcastTextx",
            "layer:AEA:2.0:broadcast Text",
            "broadcastText",
            "EASText",
            "",
        ];
        for name in others {
            let inside = format!("{}{DESCRIBED}", parameter(name, "T."));
            assert_eq!(text(&inside), said("D."), "for {name}");
        }
    }

    #[test]
    fn the_first_broadcast_text_that_is_not_empty_counts() {
        let (empty, blank) = (parameter(NAME, ""), parameter(NAME, " <!-- -->\n"));
        let (one, two) = (parameter(NAME, "T."), parameter(NAME, "U."));
        assert_eq!(text(&format!("{empty}{blank}{one}{two}{DESCRIBED}")), said("T."));
        assert_eq!(text(&format!("{empty}{blank}{DESCRIBED}")), said("D."));
        assert_eq!(text(&format!("{empty}{blank}")), Err(Refusal::NO_TEXT));
    }

    #[test]
    fn an_instruction_that_is_not_empty_comes_after_a_space() {
        let with = |instruction: &str| text(&format!("{DESCRIBED}{instruction}"));
        assert_eq!(with("<instruction>I.</instruction>"), said("D. I."));
        assert_eq!(with("<instruction> \n</instruction>"), said("D."));
        assert_eq!(with("<instruction/>"), said("D."));
        assert_eq!(with("<senderName>S</senderName>"), said("D."));
    }

    #[test]
    fn a_cut_is_plain() {
        let cut = |text: &str| said(&text[..text.len().min(1800)]);
        for length in [1789, 1790, 1791, 1798, 1799, 1800, 1801, 9000] {
            let (d, i) = ("d".repeat(length), "i".repeat(9));
            let described = format!("<description>{d}</description>");
            assert_eq!(text(&described), cut(&d));
            let instructed = format!("{described}<instruction>{i}</instruction>");
            assert_eq!(text(&instructed), cut(&format!("{d} {i}")));
            assert_eq!(text(&parameter(NAME, &d)), cut(&d));
        }
    }

    #[test]
    fn a_cut_falls_between_characters() {
        let cut = |text: &str| said(&text.chars().take(1800).collect::<String>());
        for last in ["x", "é", "€", "💧"] {
            for behind in ["", "y", "ñ", "\u{800}", "\u{10ffff}"] {
                let whole = "é€💧".repeat(599) + "dé" + last + behind;
                assert_eq!(text(&format!("<description>{whole}</description>")), cut(&whole));
                assert_eq!(text(&parameter(NAME, &whole)), cut(&whole));
            }
        }
        let (most, more) = ("💧".repeat(1800), "💧".repeat(1801));
        assert_eq!(most.len(), TEXT);
        assert_eq!(text(&parameter(NAME, &more)), said(&most));
        let instructed = "<description>é</description><instruction>&#x20AC;</instruction>";
        assert_eq!(text(instructed), said("é €"));
    }

    #[test]
    fn white_space_and_letter_case_are_those_of_ascii() {
        for space in ["\u{a0}", "\u{85}", "\u{2028}", "\u{3000}", "\u{120}"] {
            let spaced = format!("{space}{space} \n {space}");
            let collapsed = format!("{space}{space} {space}");
            assert_eq!(text(&parameter(NAME, &spaced)), said(&collapsed));
            assert_eq!(text(&format!("<description>{space}</description>")), said(space));
        }
        for name in ["layer:AEA:2.0:broadca\u{17f}tText", "layer:\u{141}EA:2.0:broadcastText"] {
            assert_eq!(text(&format!("{}{DESCRIBED}", parameter(name, "T."))), said("D."));
        }
    }

    #[test]
    fn without_a_broadcast_text_and_a_description_there_is_no_text() {
        let instruction = "<instruction>I.</instruction>";
        for inside in ["", instruction, &format!("<description> </description>{instruction}")] {
            assert_eq!(text(inside), Err(Refusal::NO_TEXT), "for {inside}");
        }
        for kind in ["Alert", "Update", "Cancel"] {
            assert_eq!(answer(&message(kind, "")), Err(Refusal::NO_TEXT));
        }
    }

    #[test]
    fn the_selected_info_counts() {
        let info = |language: &str, text: &str| {
            format!("<info><language>{language}</language><description>{text}</description></info>")
        };
        let both = |second: &str| {
            let infos = info("fr-CA", "Un.") + &info(second, "Two.");
            answer(&message("Alert", &infos)).map(|(text, _, _)| text)
        };
        assert_eq!(both("en-US"), said("Two."));
        assert_eq!(both("en-CA"), said("Un."));
    }

    #[test]
    fn audio_is_chosen_as_ever() {
        let mp3 = resource("audio/x-ipaws-audio-mp3", "m");
        let wav = resource("audio/x-ipaws-audio-wav", "w");
        let stream = resource("audio/x-ipaws-streaming-audio-mp3", "s");
        let (mpeg, bare) = (resource("audio/mpeg", "u"), resource("audio/x-ipaws-audio-mp3", ""));
        let chosen = |resources: &[&String]| {
            let inside: String = resources.iter().map(|one| one.as_str()).collect();
            let (_, audio, uri) = of_info(&(DESCRIBED.to_string() + &inside)).unwrap();
            (audio, uri)
        };
        assert_eq!(chosen(&[&mpeg, &mp3, &wav]), (Audio::Mp3, "m".to_string()));
        assert_eq!(chosen(&[&bare, &wav, &mp3]), (Audio::Wav, "w".to_string()));
        assert_eq!(chosen(&[&stream, &mp3]), (Audio::Stream, "s".to_string()));
        assert_eq!(chosen(&[&mpeg, &bare]), (Audio::None, String::new()));
    }

    #[test]
    fn references_are_not_judged_and_no_cancel_is_quiet() {
        let references = [
            "",
            "<references/>",
            "<references>x</references>",
            "<references>b<x/></references><references/>",
        ];
        for kind in ["Alert", "Update", "Cancel"] {
            for references in references {
                let rest = format!("{references}<info>{DESCRIBED}</info>");
                let text = answer(&message(kind, &rest)).map(|(text, _, _)| text);
                assert_eq!(text, said("D."), "for {kind} with {references}");
            }
        }
    }

    #[test]
    fn events_originators_locations_and_expires_are_not_judged() {
        let unfit = [
            "<eventCode><valueName>SAME</valueName><value>x</value></eventCode>".to_string(),
            parameter("EAS-ORG", "XXX"),
            "<area><geocode><valueName>SAME</valueName><value>1</value></geocode></area>"
                .to_string(),
            "<expires>now</expires>".to_string(),
        ];
        assert_eq!(text(&(unfit.concat() + DESCRIBED)), said("D."));
    }

    #[test]
    fn every_leaf_that_is_read_may_be_at_fault() {
        let faults = [
            "<eventCode><valueName>SAME</valueName></eventCode>",
            "<expires/><expires/>",
            "<senderName><x/></senderName>",
            "<area><geocode/></area>",
            "<parameter><value/></parameter>",
            "<resource><uri/><uri/></resource>",
            "<instruction/><instruction/>",
        ];
        for fault in faults {
            assert_eq!(text(&format!("{DESCRIBED}{fault}")), Err(Refusal::leaf(7)), "for {fault}");
        }
        let sound = message("Alert", "");
        let spoilt = sound.replace("<sender>b@c", "<sender>b c").replace("Public", "public");
        assert_eq!(answer(&spoilt), Err(Refusal::leaf(2)));
    }

    #[test]
    fn the_lowest_number_wins() {
        let sound = message("Alert", "");
        let refused = |message: &str| answer(message).unwrap_err();
        assert_eq!(refused(&sound.replace("Actual", "Test")), Refusal::STATUS_OR_SCOPE);
        assert_eq!(refused(&sound.replace("Public", "Private")), Refusal::STATUS_OR_SCOPE);
        assert_eq!(refused(&message("Ack", "")), Refusal::ACK_OR_ERROR);
        assert_eq!(
            refused(&message("Error", "").replace("Actual", "Test")),
            Refusal::STATUS_OR_SCOPE
        );
        assert_eq!(refused(&sound.replace("cap:1.2", "cap:1.0")), Refusal::ROOT);
        assert_eq!(refused("<a><b></a>"), Refusal::SUBSET);
        assert_eq!(refused(""), Refusal::LENGTH);
        assert_eq!(refused(&" ".repeat(32_769)), Refusal::LENGTH);
    }

    #[test]
    fn short_outputs_are_refused_first() {
        let sound = message("Alert", &format!("<info>{DESCRIBED}</info>"));
        for message in ["", &sound] {
            for (text, uri) in [(TEXT - 1, URI), (TEXT, URI - 1), (0, 0)] {
                let (mut text, mut uri) = (vec![0; text], vec![0; uri]);
                let outcome = canadian(message.as_bytes(), &mut text, &mut uri);
                assert_eq!(outcome, Err(Refusal::OUTPUT));
            }
        }
    }
}
