//! Lent bytes that are written from their start on.

pub struct Output<'a> {
    lent: &'a mut [u8],
    length: usize,
}

impl<'a> Output<'a> {
    pub fn on(lent: &'a mut [u8]) -> Output<'a> {
        Output { lent, length: 0 }
    }

    pub fn length(&self) -> usize {
        self.length
    }

    #[inline(always)]
    pub fn put(&mut self, bytes: &[u8]) {
        self.lent[self.length..self.length + bytes.len()].copy_from_slice(bytes);
        self.length += bytes.len();
    }

    /// A number below 100 in two digits.
    pub fn put_two(&mut self, number: u32) {
        self.put(&[b'0' + (number / 10) as u8, b'0' + (number % 10) as u8]);
    }

    /// A number below 1,000 in three digits.
    pub fn put_three(&mut self, number: u32) {
        self.put(&[b'0' + (number / 100) as u8]);
        self.put_two(number % 100);
    }
}
