//! Seeded chance: the same seed gives the same choices.

use crate::letters::Spelling;

pub struct Chance {
    state: u64,
    /// How texts are spelled; by chance where it is not said.
    spelling: Option<Spelling>,
}

impl Chance {
    pub fn seeded(seed: u64) -> Chance {
        Chance { state: seed, spelling: None }
    }

    fn next(&mut self) -> u64 {
        self.state = self.state.wrapping_add(0x9e37_79b9_7f4a_7c15);
        let mut mixed = self.state;
        mixed = (mixed ^ mixed >> 30).wrapping_mul(0xbf58_476d_1ce4_e5b9);
        mixed = (mixed ^ mixed >> 27).wrapping_mul(0x94d0_49bb_1331_11eb);
        mixed ^ mixed >> 31
    }

    pub fn below(&mut self, end: usize) -> usize {
        (self.next() % end as u64) as usize
    }

    /// A number from low to high, both included.
    pub fn between(&mut self, low: i64, high: i64) -> i64 {
        low + (self.next() % (high - low + 1) as u64) as i64
    }

    pub fn once_in(&mut self, times: usize) -> bool {
        self.below(times) == 0
    }

    pub fn pick<T: Copy>(&mut self, items: &[T]) -> T {
        items[self.below(items.len())]
    }

    /// What comes of making something whose texts are all spelled so.
    pub fn spelled<T>(&mut self, spelling: Spelling, make: impl FnOnce(&mut Chance) -> T) -> T {
        let before = self.spelling.replace(spelling);
        let made = make(self);
        self.spelling = before;
        made
    }

    fn spelling(&mut self) -> Spelling {
        match self.below(8) {
            0..=3 => Spelling::Plain,
            4 | 5 => Spelling::Accented,
            6 => Spelling::Mixed,
            _ => Spelling::Of(self.pick(&[2, 3, 4])),
        }
    }

    /// Text of exactly this many characters that collapsing leaves as it is.
    pub fn text(&mut self, length: usize) -> String {
        let spelling = self.spelling.unwrap_or_else(|| self.spelling());
        let spaced = !matches!(spelling, Spelling::Of(_));
        let mut text = String::new();
        for place in 0..length {
            let inside = place > 0 && place + 1 < length && !text.ends_with(' ');
            let space = spaced && inside && self.below(7) == 0;
            text.push(if space { ' ' } else { spelling.letter(self) });
        }
        text
    }

    /// Such a text in ASCII.
    pub fn plain_text(&mut self, length: usize) -> String {
        self.spelled(Spelling::Plain, |chance| chance.text(length))
    }

    /// A sender or an identifier of this length.
    pub fn word(&mut self, length: usize) -> String {
        let letters = b"abcXYZ019!~@.-_'>\"/;]#";
        (0..length).map(|_| char::from(self.pick(letters))).collect()
    }

    pub fn digits(&mut self, length: usize) -> String {
        (0..length).map(|_| char::from(b'0' + self.below(10) as u8)).collect()
    }
}
