//! A record: a count of 16-bit entries, then the entries.

/// Most entries of one record, so that it fits 65,536 bytes with its count.
pub const MOST: usize = 32_000;

#[derive(Default)]
pub struct Record(Vec<u16>);

impl Record {
    pub fn number(&mut self, number: i32) {
        assert!((-32_768..=65_535).contains(&number), "{number} is no 16-bit entry");
        self.0.push(number as u16);
    }

    pub fn numbers(&mut self, numbers: &[i32]) {
        for &number in numbers {
            self.number(number);
        }
    }

    /// A number that may need more than 16 bits: its low half, then its high half.
    pub fn wide(&mut self, number: u32) {
        self.number((number & 0xffff) as i32);
        self.number((number >> 16) as i32);
    }

    /// Numbers after their count.
    pub fn section(&mut self, numbers: &[i32]) {
        self.number(numbers.len() as i32);
        self.numbers(numbers);
    }

    pub fn entries(&self) -> &[u16] {
        &self.0
    }

    /// Low byte first.
    pub fn bytes(&self) -> Vec<u8> {
        assert!(self.0.len() <= MOST, "a record of {} entries", self.0.len());
        let count = self.0.len() as u16;
        std::iter::once(count).chain(self.0.iter().copied()).flat_map(u16::to_le_bytes).collect()
    }
}
