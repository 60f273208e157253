//! Bench sheets from a seed: document 02, Paper 2.

use crate::RECORDS_MAX;

/// The draws of a seed. The state starts at the seed.
pub struct Draws {
    state: u32,
}

/// The call: writes the sheet of a seed and a count of records, the opening
/// included, at the beginning of the slice. It returns the sheet's length, or 2
/// or 3, which leave the slice untouched; bytes past the sheet keep their values.
/// It works in place, without the heap.
pub fn make(seed: u32, count: usize, slice: &mut [u8]) -> usize {
    // [2] a count outside 1 to 4,095
    if !(1..=RECORDS_MAX).contains(&count) {
        return 2;
    }
    // [3] a slice shorter than the sheet
    let length = 8 * count;
    if slice.len() < length {
        return 3;
    }
    let (records, _) = slice[..length].as_chunks_mut::<8>();
    let mut draws = Draws::new(seed);
    records[0] = draws.opening();
    for record in &mut records[1..] {
        *record = draws.record();
    }
    length
}

/// The seed and the count that an input asks for: both in base ten without leading
/// zeros, one space between and byte 10 after, and nothing else.
pub fn read(input: &[u8]) -> Option<(u32, usize)> {
    let [line @ .., b'\n'] = input else {
        return None;
    };
    // A second space would stand in the count, where it is no digit.
    let space = line.iter().position(|&byte| byte == b' ')?;
    let seed = number(&line[..space])?;
    let count = number(&line[space + 1..])? as usize;
    (1..=RECORDS_MAX).contains(&count).then_some((seed, count))
}

/// What the program writes for an input: the sheet, or `refused 2`.
pub fn print(input: &[u8]) -> Vec<u8> {
    let Some((seed, count)) = read(input) else {
        return b"refused 2\n".to_vec();
    };
    // Neither refusal of the call is met: the count is read, the slice is long enough.
    let mut sheet = vec![0; 8 * count];
    make(seed, count, &mut sheet);
    sheet
}

/// A 32-bit number in base ten without leading zeros; 0 itself is one digit.
fn number(digits: &[u8]) -> Option<u32> {
    if let [] | [b'0', _, ..] = digits {
        return None;
    }
    let mut n: u32 = 0;
    for digit in digits {
        let b'0'..=b'9' = digit else {
            return None;
        };
        n = n.checked_mul(10)?.checked_add((digit - b'0').into())?;
    }
    Some(n)
}

impl Draws {
    pub fn new(seed: u32) -> Draws {
        Draws { state: seed }
    }

    /// The next draw. What is mixed does not go back into the state.
    pub fn draw(&mut self) -> u32 {
        self.state = self.state.wrapping_add(2_654_435_769);
        let mixed = self.state ^ (self.state >> 16);
        mixed ^ (mixed << 7)
    }

    fn opening(&mut self) -> [u8; 8] {
        [0, self.board(), 0, 0, 0, 0, 0, 0]
    }

    /// A record after the opening: a step, then only the fields it uses, in the
    /// order board, second board, value.
    fn record(&mut self) -> [u8; 8] {
        match self.step() {
            1 => {
                let b = self.board();
                let [v0, v1, v2, v3] = self.draw().to_le_bytes();
                [1, b, 0, 0, v0, v1, v2, v3]
            }
            step @ (5 | 10 | 11 | 13) => [step, 0, 0, 0, 0, 0, 0, 0],
            9 => {
                let a = self.board();
                [9, a, self.second_board(a), 0, 0, 0, 0, 0]
            }
            step => [step, self.board(), 0, 0, 0, 0, 0, 0],
        }
    }

    /// 1 to 15.
    fn step(&mut self) -> u8 {
        1 + (self.draw() % 15) as u8
    }

    /// 1 to 8.
    fn board(&mut self) -> u8 {
        1 + (self.draw() % 8) as u8
    }

    /// A board other than a: one equal to it becomes the next number, 8 becoming 1.
    fn second_board(&mut self, a: u8) -> u8 {
        match self.board() {
            b if b != a => b,
            8 => 1,
            b => b + 1,
        }
    }
}
