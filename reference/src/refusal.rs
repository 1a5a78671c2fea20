//! Why a call is refused.

/// The number of a refusal, and the field after number 7 (otherwise 0).
#[derive(Clone, Copy, Debug, PartialEq, Eq)]
pub struct Refusal {
    pub number: u8,
    pub field: u8,
}

impl Refusal {
    pub(crate) const fn of(number: u8) -> Refusal {
        Refusal { number, field: 0 }
    }

    pub(crate) const BOARD: Refusal = Refusal::of(1);
    pub(crate) const OUTPUT: Refusal = Refusal::of(2);
    pub(crate) const STATION: Refusal = Refusal::of(3);
    pub(crate) const LENGTH: Refusal = Refusal::of(4);
    pub(crate) const SUBSET: Refusal = Refusal::of(5);
    pub(crate) const ROOT: Refusal = Refusal::of(6);
    pub(crate) const STATUS_OR_SCOPE: Refusal = Refusal::of(8);
    pub(crate) const ACK_OR_ERROR: Refusal = Refusal::of(9);
    pub(crate) const REFERENCES: Refusal = Refusal::of(10);
    pub(crate) const EVENT: Refusal = Refusal::of(11);
    pub(crate) const ORIGINATOR: Refusal = Refusal::of(12);
    pub(crate) const LOCATION: Refusal = Refusal::of(13);
    pub(crate) const EXPIRES: Refusal = Refusal::of(14);
    pub(crate) const ROOM: Refusal = Refusal::of(15);
    pub(crate) const NOTHING_DUE: Refusal = Refusal::of(16);
    pub(crate) const NO_HEADER: Refusal = Refusal::of(17);
    pub(crate) const NO_TEXT: Refusal = Refusal::of(18);

    pub(crate) const fn leaf(field: u8) -> Refusal {
        Refusal { number: 7, field }
    }
}
