//! What is lent to a call: bytes or rows filled with a pattern, with guards around them.

const GUARD: usize = 64;

/// Items to lend, with a copy of them to compare with after the call.
pub struct Lent<T> {
    items: Vec<T>,
    before: Vec<T>,
}

impl<T: Copy + PartialEq> Lent<T> {
    /// Lends these items between guards that the pattern fills.
    pub fn new(items: &[T], pattern: impl Fn(usize) -> T) -> Lent<T> {
        let guard = |from: usize| (from..from + GUARD).map(&pattern);
        let all: Vec<T> =
            guard(0).chain(items.iter().copied()).chain(guard(GUARD + items.len())).collect();
        Lent { before: all.clone(), items: all }
    }

    /// Lends so many items of the pattern.
    pub fn pattern(length: usize, pattern: impl Fn(usize) -> T) -> Lent<T> {
        let items: Vec<T> = (GUARD..GUARD + length).map(&pattern).collect();
        Lent::new(&items, pattern)
    }

    pub fn items(&mut self) -> &mut [T] {
        let end = self.items.len() - GUARD;
        &mut self.items[GUARD..end]
    }

    /// The first items, which the answer names; all else must be as it was.
    pub fn answer(&self, length: usize) -> &[T] {
        let end = GUARD + length;
        let guarded = self.items[..GUARD] == self.before[..GUARD];
        assert!(guarded, "The call changed what stands before a lent slice.");
        let kept = self.items[end..] == self.before[end..];
        assert!(kept, "The call changed what stands past its answer.");
        &self.items[GUARD..end]
    }
}

/// A byte that differs from place to place.
pub fn byte_pattern(place: usize) -> u8 {
    (place * 31 + 0xa5) as u8
}
