//! An independent converter of CAP messages to EAS headers, alert text and an audio choice,
//! with its board of alerts, and its Canadian mode of text and audio choice. No call uses a heap;
//! all work on lent bytes and rows.

mod alert;
mod audio;
mod board;
mod canadian;
mod characters;
mod clock;
mod convert;
mod header;
mod judge;
mod markup;
mod octets;
mod outputs;
mod program;
mod refusal;
mod value;
mod wording;

pub use audio::{Audio, URI};
pub use board::{hand_out, list, offer, Row, MOST_RECORDS, RECORD};
pub use canadian::canadian;
pub use convert::{header, text, Headed};
pub use header::{read_header, write_header, Parts, HEADER};
pub use outputs::Worded;
pub use program::{program, LINES};
pub use refusal::Refusal;
pub use wording::TEXT;
