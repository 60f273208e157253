//! The proved programs and the second one, on the same slices and the same input.

use generate::Rng;
use std::fmt::Display;
use std::io::{self, ErrorKind, Write};
use std::ops::Range;
use std::path::Path;
use std::process::{Command, Stdio};
use std::{env, fs, iter};

/// Why the comparison ends before its end.
pub enum Fault {
    /// The programs do not agree.
    Differs(String),
    /// A program does not run.
    Fails(io::Error),
}

impl Fault {
    /// What differs, after the words that say what it is said of.
    pub fn of(self, what: impl Display) -> Fault {
        match self {
            Fault::Differs(said) => Fault::Differs(format!("{what}: {said}")),
            fails => fails,
        }
    }

    /// What differs, with more about it.
    pub fn and(self, more: impl FnOnce() -> String) -> Fault {
        match self {
            Fault::Differs(said) => Fault::Differs(said + &more()),
            fails => fails,
        }
    }
}

impl From<io::Error> for Fault {
    fn from(error: io::Error) -> Fault {
        Fault::Fails(error)
    }
}

pub fn differs(said: impl Into<String>) -> Result<(), Fault> {
    Err(Fault::Differs(said.into()))
}

/// Keeps an input that differs, a sheet or an image, beside the comparison.
pub fn keep(what: &str, input: &[u8], fault: Fault) -> Result<(), Fault> {
    let kept = env::current_exe()?.with_file_name(format!("differs.{what}"));
    fs::write(&kept, input)?;
    Err(fault.and(|| format!("\nthe {what} is kept as {}", kept.display())))
}

/// Slices for what is so many bytes long: as long, one byte shorter, longer, and empty.
pub fn about(exact: usize, rng: &mut Rng) -> [usize; 4] {
    [exact, exact - 1, exact + 1 + rng.below(100), 0]
}

/// Calls the C entry of this name and the second program on slices of random bytes,
/// of these lengths.
pub fn in_slices(
    name: &str,
    lengths: &[usize],
    rng: &mut Rng,
    entry: impl Fn(&mut [u8]) -> usize,
    second: impl Fn(&mut [u8]) -> usize,
) -> Result<(), Fault> {
    for &length in lengths {
        // Bytes around the slice show a write outside it.
        let before = 32 + rng.below(32);
        let slice = before..before + length;
        let mut ours = vec![0; slice.end + 32];
        for part in ours.chunks_mut(8) {
            part.copy_from_slice(&rng.draw().to_le_bytes()[..part.len()]);
        }
        let mut theirs = ours.clone();
        let result = entry(&mut ours[slice.clone()]);
        let expected = second(&mut theirs[slice]);
        let gives = || format!("in a slice of {length} bytes {name} gives {result}");
        if result != expected {
            return differs(format!("{}, the second program {expected}", gives()));
        }
        if ours != theirs {
            let same = iter::zip(&ours, &theirs).take_while(|(a, b)| a == b);
            let at = same.count();
            let (is, should, place) = (ours[at], theirs[at], at as isize - before as isize);
            let said = format!("byte {place} of the slice is {is}, not {should}");
            return differs(format!("{}, {said}", gives()));
        }
    }
    Ok(())
}

/// What a call writes in a slice with room for all of it; none if it is refused.
pub fn whole(room: usize, call: impl Fn(&mut [u8]) -> usize) -> Option<Vec<u8>> {
    // One that is wrong may write outside the slice.
    let slice = 64..64 + room;
    let mut place = vec![0; slice.end + 64];
    let length = call(&mut place[slice.clone()]);
    (length > 3).then(|| place[slice][..length.min(room)].to_vec())
}

/// What a C entry writes that must be accepted.
pub fn library(room: usize, call: impl Fn(&mut [u8]) -> usize) -> Result<Vec<u8>, Fault> {
    match whole(room, call) {
        Some(bytes) => Ok(bytes),
        None => Err(Fault::Differs("a C entry refuses a part of a run".into())),
    }
}

/// How many random bytes there are to choose from for dirty places.
const POOL: usize = 1 << 16;

/// Random bytes, for dirty places.
pub struct Pool(Vec<u8>);

impl Pool {
    pub fn new(rng: &mut Rng) -> Pool {
        let bytes = iter::repeat_with(|| rng.draw().to_le_bytes()).take(POOL / 8);
        Pool(bytes.collect::<Vec<_>>().concat())
    }

    /// A dirty slice of this length.
    pub fn place(&self, length: usize, rng: &mut Rng) -> Place {
        let before = 32 + rng.below(32);
        let slice = before..before + length;
        let all = slice.end + 32;
        let from = rng.below(POOL - all);
        let mut place = Place {
            bytes: self.0[from..from + all].to_vec(),
            slice,
        };
        // Marks may be such bytes.
        if rng.one_in(4) {
            let byte = rng.one_of(&[1, 255]);
            place.lent().fill(byte);
        }
        place
    }
}

/// A slice among other bytes, all of them dirty: those around it show a write outside it.
pub struct Place {
    pub bytes: Vec<u8>,
    pub slice: Range<usize>,
}

impl Place {
    pub fn lent(&mut self) -> &mut [u8] {
        &mut self.bytes[self.slice.clone()]
    }

    /// The first byte that differs, counted from the start of the slice.
    pub fn differing(&self, should: &[u8]) -> Option<String> {
        let at = iter::zip(&self.bytes, should).position(|(a, b)| a != b)?;
        let (is, should) = (self.bytes[at], should[at]);
        let at = at as isize - self.slice.start as isize;
        Some(format!("byte {at} is {is}, not {should}"))
    }
}

/// The first byte that differs.
pub fn bytes(ours: &[u8], theirs: &[u8]) -> String {
    let (has, should) = (ours.len(), theirs.len());
    match iter::zip(ours, theirs).position(|(a, b)| a != b) {
        Some(at) => {
            let (is, should) = (ours[at], theirs[at]);
            format!(": byte {at} is {is}, not {should}")
        }
        None => format!(": {has} bytes, not {should}"),
    }
}

/// What a program writes of an input must be as expected; `show` says where it is not.
pub fn writes(
    program: &Path,
    input: &[u8],
    expected: &[u8],
    show: fn(&[u8], &[u8]) -> String,
) -> Result<(), Fault> {
    let mut child = Command::new(program)
        .stdin(Stdio::piped())
        .stdout(Stdio::piped())
        .spawn()
        .map_err(|error| {
            let name = program.display();
            io::Error::other(format!("{name} does not run: {error}"))
        })?;
    // It need not read an input that is too long to its end.
    match child.stdin.take().map(|mut pipe| pipe.write_all(input)) {
        Some(Err(error)) if error.kind() != ErrorKind::BrokenPipe => return Err(error.into()),
        _ => {}
    }
    let output = child.wait_with_output()?;
    if !output.status.success() {
        return differs(format!("the program ended with {}", output.status));
    }
    if output.stdout != expected {
        let shown = show(&output.stdout, expected);
        return differs(format!("the program prints something else{shown}"));
    }
    Ok(())
}
