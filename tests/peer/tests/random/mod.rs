//! Random runs, and images in any numbering.

use peer::image::renumbered;
use peer::row::Row;

/// Steps to draw from. Members change seldom, so that there is time to set normal and to
/// install.
const STEPS: [u8; 48] = [
    0, 1, 1, 1, 2, 2, 2, 3, 4, 5, 5, 5, 6, 6, 6, 6, 6, 6, 7, 7, 7, 8, 8, 8, 8, 8, 9, 9, 9, 9, 10,
    10, 10, 11, 11, 12, 12, 12, 12, 13, 13, 13, 14, 14, 14, 15, 15, 15,
];

/// Numbers below a bound. The draws of Paper 2 follow each other too evenly for long runs, so
/// these are mixed more (SplitMix64).
pub struct Random(u64);

impl Random {
    pub fn new(seed: u32) -> Random {
        Random(seed.into())
    }

    pub fn below(&mut self, bound: usize) -> usize {
        self.0 = self.0.wrapping_add(0x9E37_79B9_7F4A_7C15);
        let z = (self.0 ^ (self.0 >> 30)).wrapping_mul(0xBF58_476D_1CE4_E5B9);
        let z = (z ^ (z >> 27)).wrapping_mul(0x94D0_49BB_1331_11EB);
        (z ^ (z >> 31)) as usize % bound
    }

    /// A board of 1 to `boards`.
    fn board(&mut self, boards: usize) -> u8 {
        1 + self.below(boards) as u8
    }

    /// A record after the opening. Values are few, so that logs share values and differ in
    /// epochs; some a is b in step 9, and some records are malformed in one bit.
    pub fn record(&mut self, boards: usize) -> [u8; 8] {
        let [a, b] = [self.board(boards), self.board(boards)];
        let step = STEPS[self.below(STEPS.len())];
        let mut record = match step {
            1 => [1, a, 0, 0, b'A' + b, 0, 0, 0],
            5 | 10 | 11 | 13 => [step, 0, 0, 0, 0, 0, 0, 0],
            9 => [9, a, b, 0, 0, 0, 0, 0],
            _ => [step, a, 0, 0, 0, 0, 0, 0],
        };
        if self.below(40) == 0 {
            record[self.below(8)] ^= 1 << self.below(8);
        }
        record
    }

    /// An opening, and records on few boards, most of them accepted.
    pub fn records(&mut self, most: usize) -> Vec<[u8; 8]> {
        let boards = 2 + self.below(4);
        let opening = [0, self.board(boards), 0, 0, 0, 0, 0, 0];
        let mut records = vec![opening];
        let mut row = row_of(&records);
        for _ in 0..self.below(most) {
            let record = self.record(boards);
            if row.step(&record).answer == 0 || self.below(8) == 0 {
                records.push(record);
            }
        }
        records
    }

    /// The numbers 1 to n in any order.
    pub fn permutation(&mut self, n: usize) -> Vec<u16> {
        let mut numbers: Vec<u16> = (1..=n as u16).collect();
        for last in (1..n).rev() {
            numbers.swap(last, self.below(last + 1));
        }
        numbers
    }

    /// The image with its records in any order.
    pub fn scrambled(&mut self, image: &[u8]) -> Vec<u8> {
        let permutation = self.permutation((image.len() - 258) / 8);
        renumbered(image, &permutation)
    }
}

/// The row of a sheet's run.
pub fn row_of(records: &[[u8; 8]]) -> Row {
    let mut row = Row::open(records[0][1]).unwrap();
    for record in &records[1..] {
        row.step(record);
    }
    row
}
