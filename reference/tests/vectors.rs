//! The stored vectors: each case line is answered as the line after it says. A line that begins
//! with # says what a case asks.

#[path = "../src/bin/common/answers.rs"]
mod answers;

fn check(vectors: &str) {
    let lines: Vec<&str> = vectors.lines().filter(|line| !line.starts_with("# ")).collect();
    assert!(!lines.is_empty() && lines.len() % 2 == 0, "Vectors are pairs of lines.");
    for pair in lines.chunks_exact(2) {
        let wanted = pair[1].strip_prefix("= ").expect("An answer stands after `= `.");
        assert_eq!(answers::answer(pair[0].as_bytes()), wanted, "for {}", pair[0]);
    }
}

#[test]
fn readings_are_answered() {
    check(include_str!("../../tests/vectors/readings.txt"));
}

#[test]
fn readings_of_document_02_are_answered() {
    check(include_str!("../../tests/vectors/readings-02.txt"));
}

#[test]
fn header_and_text_are_answered_apart() {
    check(include_str!("../../tests/vectors/two-calls.txt"));
}

#[test]
fn the_canadian_mode_is_answered() {
    check(include_str!("../../tests/vectors/canadian.txt"));
}

#[test]
fn characters_beyond_ascii_are_answered() {
    check(include_str!("../../tests/vectors/utf8.txt"));
}

#[test]
fn headers_with_their_years_are_answered() {
    check(include_str!("../../tests/vectors/years.txt"));
}

#[test]
fn the_sample_is_answered() {
    check(include_str!("../../tests/vectors/sample.txt"));
}

#[test]
fn lines_that_are_no_cases() {
    let sound = "write CIV CEM 024031 45 95 18 0 42454e43482f3031 252";
    assert!(answers::answer(sound.as_bytes()).starts_with("0 "));
    let odd = [
        "",
        "read",
        "read ",
        "read 5",
        "read 5A",
        "read - -",
        "reads -",
        "list - 65281",
        "list - x",
        "list - 0000000001",
        "convert - - 252 7200 1024",
        "header",
        "header - -",
        "header - - 252 7200 1024",
        "header - - 65281",
        "text",
        "text - - 7200",
        "text - - 7200 -1",
        "canadian - 7200",
        "canadian - 7200 65281",
        "canadian - 7200 1024 0",
        "program",
    ];
    for line in odd {
        assert_eq!(answers::answer(line.as_bytes()), "?", "for {line}");
    }
    for (part, other) in [(" 45 ", " 4x "), (" 252", " 65281"), ("3031 ", "303 "), (" 95 ", "  ")] {
        let line = sound.replace(part, other);
        assert_eq!(answers::answer(line.as_bytes()), "?", "for {line}");
    }
}

#[test]
fn parts_that_no_header_has() {
    let sound = "write CIV CEM 024031,124031 45 95 18 0 42454e43482f3031 252";
    let wrong = [
        ("CIV", "-"),
        ("CIV", "CIVX"),
        ("CEM", "cEM"),
        ("CEM", "-"),
        ("024031,124031", "-"),
        ("024031,124031", "024031-124031"),
        ("024031,124031", "024031,"),
        ("024031,124031", "02403,1124031"),
        (" 45 ", " 999999999 "),
        (" 95 ", " 367 "),
        (" 18 ", " 24 "),
        (" 0 ", " 60 "),
    ];
    for (part, other) in wrong {
        let line = sound.replace(part, other);
        assert_eq!(answers::answer(line.as_bytes()), "17 -", "for {line}");
    }
}
