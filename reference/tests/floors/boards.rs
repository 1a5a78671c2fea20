//! Cases on boards that meet the floors, and such as are none of a kind.

use crate::{hex, Cases};

const RECORD: usize = 384;

/// Day 95, 18:00, of two years, in seconds since 2000 began.
const IN_2010: u32 = 323_805_600;
const IN_2011: u32 = 355_341_600;

const NEW_YEAR_2010: u32 = 315_619_200;
const LAST_DAY_OF_2008: u32 = 283_996_800;

const CEM: &str = "CEM-024031+0045-0951800-";
const TOR: &str = "TOR-024031+0045-0951800-";
const DAY_366: &str = "CEM-024031+0045-3660000-";

fn keyed(kind: u8, sent: u32) -> Vec<u8> {
    let mut record = vec![0; RECORD];
    record[0] = kind;
    record[1..5].copy_from_slice(&sent.to_be_bytes());
    record[5] = b's';
    record[69] = b'i';
    record
}

fn put_header(record: &mut [u8], header: &str) {
    let header = format!("ZCZC-CIV-{header}");
    record[133..133 + header.len()].copy_from_slice(header.as_bytes());
}

fn notice(sent: u32, header: &str) -> Vec<u8> {
    let mut record = keyed(1, sent);
    put_header(&mut record, header);
    record
}

fn withdrawal(sent: u32) -> Vec<u8> {
    keyed(2, sent)
}

fn aired(header: &str, year: u16) -> Vec<u8> {
    let mut record = vec![0; RECORD];
    record[0] = 3;
    put_header(&mut record, header);
    record[376..378].copy_from_slice(&year.to_be_bytes());
    record
}

/// A record with this byte at a place.
fn with(mut record: Vec<u8>, place: usize, byte: u8) -> Vec<u8> {
    record[place] = byte;
    record
}

/// A board of these records and two empty ones, in hex.
fn board(records: &[Vec<u8>]) -> String {
    hex(&[records.concat(), vec![0; 2 * RECORD]].concat())
}

/// Boards that are refused, and such as are taken, with nothing due on them.
fn put_boards(cases: &mut Cases, case: fn(&str) -> String, refused: &str, taken: &str) {
    let mut put = |often, record: Vec<u8>, answer: &str, brings| {
        cases.put_of(often, case(&board(&[record])), answer, brings);
    };
    put(5, aired(CEM, 0), refused, &["an aired record without a year refused"]);
    put(5, aired(CEM, 1999), refused, &["an aired record of 1999 refused"]);
    put(30, aired(CEM, 2000), taken, &["an aired record of 2000 taken"]);
    put(30, aired(CEM, 2099), taken, &["an aired record of 2099 taken"]);
    put(5, aired(CEM, 2100), refused, &["an aired record of 2100 refused"]);
    put(9, aired(CEM, 0xda07), refused, &["a year of exchanged bytes refused"]);
    put(5, aired(DAY_366, 2011), refused, &["an aired record of day 366 refused"]);
    put(60, aired(DAY_366, 2012), taken, &["an aired record of day 366 taken"]);
    put(5, with(aired(CEM, 2010), 383, 1), refused, &["a byte behind a year refused"]);
    put(5, with(notice(IN_2010, CEM), 377, 1), refused, &["a year in a notice refused"]);
    put(5, with(withdrawal(IN_2010), 376, 7), refused, &["a year in a withdrawal refused"]);
}

pub fn lists() -> Cases {
    let mut cases = Cases { call: "list", all: Vec::new() };
    let of = |rows: usize, records: &[Vec<u8>]| format!("list {} {rows}", board(records));
    let (cem, cem_later, tor) =
        (notice(IN_2010, CEM), notice(IN_2010 + 59, CEM), notice(IN_2010, TOR));
    let (next_cem, next_cem_later) = (notice(IN_2011, CEM), notice(IN_2011 + 59, CEM));
    cases.put_of(700, of(0, &[]), "0 0 -", &[]);
    cases.put_of(300, of(9, &[cem.clone(), tor.clone()]), "0 2 0:1,1:1", &[]);
    cases.put_of(100, of(9, &[cem.clone(), cem_later]), "0 1 0:2", &[]);
    cases.put_of(250, of(0, &[cem.clone()]), "2 0 -", &[]);
    cases.put_of(120, "list 00 0".to_string(), "1 0 -", &[]);
    let two = [cem.clone(), next_cem.clone()];
    cases.put_of(65, of(2, &two), "0 2 0:1,1:1", &["a header due in two years"]);
    let brings = &["rows refused that years alone make too few"];
    cases.put_of(20, of(1, &two), "2 0 -", brings);
    let brings = &["a header due in two years, in one by more than one notice"];
    let several = [cem.clone(), next_cem.clone(), next_cem_later];
    cases.put_of(21, of(9, &several), "0 2 0:1,1:2", brings);
    let brings = &["another order than that of years, and a header due in two"];
    let three = [cem.clone(), tor.clone(), next_cem.clone()];
    cases.put_of(24, of(9, &three), "0 3 0:1,2:1,1:1", brings);
    let brings = &["another order than that of years, each header due in one"];
    cases.put_of(45, of(9, &[tor, next_cem.clone()]), "0 2 1:1,0:1", brings);
    let brings = &["a header aired in another year"];
    cases.put_of(70, of(9, &[cem.clone(), aired(CEM, 2011)]), "0 1 0:1", brings);
    let brings = &["a header withdrawn in another year"];
    cases.put_of(20, of(9, &[cem, next_cem, withdrawal(IN_2010)]), "0 1 1:1", brings);
    put_boards(&mut cases, |board| format!("list {board} 0"), "1 0 -", "0 0 -");
    cases
}

pub fn hand_outs() -> Cases {
    let mut cases = Cases { call: "handout", all: Vec::new() };
    let of = |records: &[Vec<u8>]| format!("handout {}", board(records));
    let (cem, tor, next_cem) = (notice(IN_2010, CEM), notice(IN_2010, TOR), notice(IN_2011, CEM));
    cases.put_of(400, of(&[cem.clone()]), "0 0 -", &[]);
    cases.put_of(250, "handout 00".to_string(), "1 0 -", &[]);
    cases.put_of(300, format!("handout {}", hex(&cem)), "15 0 -", &[]);
    cases.put_of(300, of(&[]), "16 0 -", &[]);
    let brings = &["a header due in two years"];
    cases.put_of(30, of(&[cem.clone(), next_cem.clone()]), "0 0 -", brings);
    let brings = &["a header aired in another year"];
    cases.put_of(50, of(&[next_cem.clone(), aired(CEM, 2010)]), "0 0 -", brings);
    let brings = &["a header before one of an earlier year"];
    cases.put_of(50, of(&[tor, next_cem]), "0 1 -", brings);
    let day_366 = notice(LAST_DAY_OF_2008, DAY_366);
    cases.put_of(30, of(&[day_366]), "0 0 -", &["a header of day 366"]);
    let behind = notice(NEW_YEAR_2010, "CEM-024031+0045-0010000-");
    cases.put_of(60, of(&[behind]), "0 0 -", &["a header just behind a new year"]);
    let before = notice(NEW_YEAR_2010 - 1, "CEM-024031+0045-3652359-");
    cases.put_of(40, of(&[before]), "0 0 -", &["a header just before a new year"]);
    let brings = &["nothing due, and a header aired in two years"];
    cases.put_of(30, of(&[aired(CEM, 2010), aired(CEM, 2011)]), "16 0 -", brings);
    put_boards(&mut cases, |board| format!("handout {board}"), "1 0 -", "16 0 -");
    cases
}

pub fn offers() -> Cases {
    let mut cases = Cases { call: "offer", all: Vec::new() };
    let of = |message: &str| format!("offer {} {}", board(&[]), hex(message.as_bytes()));
    cases.put_of(500, of("a"), "0 0 0 -", &[]);
    cases.put_of(500, of("é"), "0 0 0 -", &["characters of several bytes taken"]);
    for number in [1, 4, 5, 6, 7, 8, 9, 10, 11, 12, 13, 14, 15] {
        let often = match number {
            15 => 500,
            1 | 5 | 7 => 200,
            _ => 40,
        };
        cases.put_of(often, of("a"), &format!("{number} 0 0 -"), &[]);
    }
    let malformed = of("aé").replace("c3a9", "e9");
    cases.put_of(30, malformed, "5 0 0 -", &["malformed UTF-8 refused"]);
    let brings = &["number 7 for a character outside the value's range"];
    cases.put_of(30, of("<sender>é</sender>"), "7 2 0 -", brings);
    let brings = &["number 10 for a character outside the value's range"];
    cases.put_of(10, of("<references>é</references>"), "10 0 0 -", brings);
    let mut adds = |often, before: &[Vec<u8>], after: &[Vec<u8>], brings| {
        let case = format!("offer {} 61", board(before));
        cases.put_of(often, case, &format!("0 0 1 {}", board(after)), brings);
    };
    let (cem, next_cem) = (notice(IN_2010, CEM), notice(IN_2011, CEM));
    let brings: &[&str] = &["a notice added whose header is held of another year"];
    adds(70, &[cem.clone()], &[cem.clone(), next_cem.clone()], brings);
    let brings = &["a notice added whose header is aired in another year"];
    adds(40, &[aired(CEM, 2010)], &[next_cem, aired(CEM, 2010)], brings);
    let behind = notice(NEW_YEAR_2010, "CEM-024031+0045-0010000-");
    adds(60, &[], &[behind], &["a notice added just behind a new year"]);
    let before = notice(NEW_YEAR_2010 - 1, "CEM-024031+0045-3652359-");
    adds(60, &[], &[before], &["a notice added just before a new year"]);
    put_boards(&mut cases, |board| format!("offer {board} 61"), "1 0 0 -", "0 0 0 -");
    cases
}

/// Kinds that a case on a board is not of, and the case with its answer.
pub fn unlike() -> Vec<(&'static str, &'static str, String, &'static str)> {
    let list = |records: &[Vec<u8>]| format!("list {} 9", board(records));
    let hand_out = |records: &[Vec<u8>]| format!("handout {}", board(records));
    let (cem, next_cem) = (notice(IN_2010, CEM), notice(IN_2011, CEM));
    let first_refused = with(aired(CEM, 1999), 1, 1);
    vec![
        ("list", "an aired record of 1999 refused", list(&[first_refused]), "1 0 -"),
        ("list", "a header aired in another year", list(&[cem.clone(), aired(CEM, 2010)]), "0 0 -"),
        (
            "list",
            "a header due in two years",
            list(&[cem.clone(), next_cem.clone(), aired(CEM, 2011)]),
            "0 1 0:1",
        ),
        (
            "handout",
            "a header due in two years",
            hand_out(&[cem.clone(), next_cem.clone(), aired(CEM, 2010)]),
            "0 1 -",
        ),
        ("handout", "a header before one of an earlier year", hand_out(&[cem, next_cem]), "0 0 -"),
    ]
}
