//! The locations of an info, the first 31 of them.

pub const CODE: usize = 6;
const MOST_LOCATIONS: usize = 31;

/// Locations as a header has them, each after a dash.
#[derive(Clone, Copy)]
pub struct Locations {
    bytes: [u8; MOST_LOCATIONS * (CODE + 1)],
    length: usize,
}

impl Locations {
    pub fn new() -> Locations {
        Locations { bytes: [0; MOST_LOCATIONS * (CODE + 1)], length: 0 }
    }

    pub fn is_empty(&self) -> bool {
        self.length == 0
    }

    pub fn dashed(&self) -> &[u8] {
        &self.bytes[..self.length]
    }

    pub fn codes(&self) -> impl Iterator<Item = &[u8]> {
        self.dashed().chunks_exact(CODE + 1).map(|dashed| &dashed[1..])
    }

    pub fn add(&mut self, code: &[u8; CODE]) {
        let Some(room) = self.bytes[self.length..].first_chunk_mut::<{ CODE + 1 }>() else {
            return;
        };
        room[0] = b'-';
        room[1..].copy_from_slice(code);
        self.length += CODE + 1;
    }
}
