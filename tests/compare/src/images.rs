//! Images of rows (document 02, Papers 7 and 8): the C entries `save_sheet` and `show_image`
//! and the programs `savesheet`, `showimage` and `resumesheet`, beside the second program.

use crate::both::{bytes, differs, in_slices, keep, library, writes, Fault, Pool};
use crate::damage::{
    chained, damaged, damaged_heads, edges, elsewhere, leaderless, records, scrambled, LENGTH,
};
use crate::sheets;
use generate::{record, Rng};
use peer::image::{read, resume_sheet, HEAD};
use peer::listing::LENGTH_MAX;
use peer::row::{has, Board, Row, Stage, Status, EPOCH_MAX, LOG_MAX};
use peer::scratch::{show_in, SCRATCH_MIN};
use std::path::PathBuf;
use std::{fmt, iter};

extern "C" {
    fn save_sheet(sheet: *const u8, sheet_len: usize, image: *mut u8, image_len: usize) -> usize;
    fn show_image(
        image: *const u8,
        image_len: usize,
        text: *mut u8,
        text_len: usize,
        scratch: *mut u8,
        scratch_len: usize,
    ) -> usize;
}

/// The length of the longest lines.
const TEXT: usize = 8650;
/// Scratches that are long enough, Paper 7's among them, and too short ones.
const SCRATCHES: [usize; 5] = [576, 577, 4608, 575, 0];
/// Dirty scratches by their length and what is answered, 0 for an image that is shown.
const LENT: [(usize, u8); 14] = [
    (576, 0),
    (576, 17),
    (576, 18),
    (576, 19),
    (577, 0),
    (577, 17),
    (577, 18),
    (577, 19),
    (4608, 0),
    (4608, 17),
    (4608, 18),
    (4608, 19),
    (575, 3),
    (0, 3),
];
/// How often each of what is counted should be met.
const ENOUGH: u64 = 5;
/// Of every so many images each byte of the head is damaged.
const THOROUGH_EVERY: u64 = 48;
/// How many other damaged images of each.
const DAMAGED: usize = 24;
/// Of the images at the limits the programs are given the first, and then one in so many.
const THOROUGH: usize = 40;
const PROGRAM_EVERY: usize = 16;

const REFUSALS: [u8; 6] = [1, 2, 3, 17, 18, 19];

/// Rows whose images should be met.
const ROWS: [(&str, fn(&Row) -> bool); 16] = [
    ("a row that is normal", |row| row.status == Status::Normal),
    ("a row that is waiting", |row| row.status == Status::Waiting),
    ("a row that is choosing", |row| {
        row.status == Status::Choosing
    }),
    ("a controller at idle", |row| {
        row.control.stage == Stage::Idle
    }),
    ("a controller at leader", |row| {
        row.control.stage == Stage::Leader
    }),
    ("a controller at boards", |row| {
        row.control.stage == Stage::Boards
    }),
    ("a controller at choosing", |row| {
        row.control.stage == Stage::Choosing
    }),
    ("a heard length above 0, and none of another board", |row| {
        let heard = row.control.heard;
        let some = heard.iter().any(|heard| heard.length > Some(0));
        some && heard.iter().any(|heard| heard.length.is_none())
    }),
    ("a heard length 0", |row| {
        let mut heard = row.control.heard.iter();
        heard.any(|heard| heard.length == Some(0))
    }),
    ("a heard joined epoch", |row| {
        row.control.heard.iter().any(|heard| heard.joined > 0)
    }),
    ("counts of a board for others that differ", |row| {
        let differ = |board: &Board| board.counts.iter().any(|&n| n != board.counts[0]);
        row.boards.iter().filter(|board| differ(board)).count() > 1
    }),
    ("logs of several boards, and receipts", |row| {
        let logs = row.boards.iter().filter(|board| !board.log.is_empty());
        logs.count() > 1 && !row.receipts.is_empty()
    }),
    ("entries of several epochs", |row| {
        let mixed = |board: &Board| {
            let epochs = board.log.epochs();
            epochs.iter().any(|&epoch| epoch != epochs[0])
        };
        row.boards.iter().any(mixed)
    }),
    ("a log of 512 entries", |row| {
        row.boards.iter().any(|board| board.log.len() == LOG_MAX)
    }),
    ("epoch 4,000", |row| row.registry.epoch == EPOCH_MAX),
    ("a row that no run gives", no_run_gives),
];

/// In a run joined, leader epoch and epoch of a board rise in this order, none above the
/// registry's; there are members; and a controller that has the registry's epoch reads no
/// leader while it is choosing.
fn no_run_gives(row: &Row) -> bool {
    let (registry, control) = (&row.registry, &row.control);
    let reads = matches!(control.stage, Stage::Leader | Stage::Boards);
    row.boards.iter().any(|board| {
        let view = &board.view;
        board.joined > view.leader_epoch
            || view.leader_epoch > view.epoch
            || view.epoch > registry.epoch
    }) || registry.members == 0
        || registry.leader_epoch > registry.epoch
        || (row.status == Status::Choosing && reads && control.view.epoch == registry.epoch)
}

/// What else is counted.
#[derive(Clone, Copy)]
enum Done {
    Saved,
    Shown,
    Damaged,
    Renumbered,
    Cut,
    CutRenumbered,
    CutBehind,
    Resumed,
    TurnedAway,
    AnsweredOne,
    Printed,
}

const DONE: [&str; 11] = [
    "sheets saved",
    "images shown",
    "damaged images",
    "renumbered images",
    "runs cut and taken up again",
    "runs taken up from a renumbered image",
    "runs with boards behind a step after the cut",
    "rows that no run gives taken up",
    "of these, rows that came to earn refusal 1",
    "of these, rows with a well-formed record answered 1 for it",
    "images printed by the programs",
];

/// The programs of images.
pub struct Programs {
    pub savesheet: PathBuf,
    pub showimage: PathBuf,
    pub resumesheet: PathBuf,
}

pub struct Images {
    programs: Programs,
    rng: Rng,
    pool: Pool,
    /// How many images of sheets were taken.
    taken: u64,
    refusals: [u64; REFUSALS.len()],
    lent: [u64; LENT.len()],
    rows: [u64; ROWS.len()],
    done: [u64; DONE.len()],
}

/// Compares images alone: those at the limits and those of so many random sheets. Returns the
/// exit status.
pub fn compare(programs: Programs, sheets: u64, seed: u64) -> Result<u8, Fault> {
    let mut images = Images::new(programs, seed);
    println!("images of {sheets} random sheets from seed {seed}");
    images.show_edges()?;
    let mut of_sheets = Rng::new(seed);
    for n in 0..sheets {
        let (kind, sheet) = generate::random(Rng::new(of_sheets.draw()));
        let taken = images
            .take(&sheet)
            .and_then(|()| images.print_saved(&sheet));
        taken.map_err(|fault| fault.of(format!("sheet {n} ({kind:?}) differs")))?;
    }
    images.print_edges()?;
    println!("all agree\n{images}");
    let faults = images.faults();
    for fault in &faults {
        println!("{fault}");
    }
    Ok(if faults.is_empty() { 0 } else { 3 })
}

impl Images {
    pub fn new(programs: Programs, seed: u64) -> Images {
        let mut rng = Rng::new(!seed);
        Images {
            programs,
            pool: Pool::new(&mut rng),
            rng,
            taken: 0,
            refusals: [0; REFUSALS.len()],
            lent: [0; LENT.len()],
            rows: [0; ROWS.len()],
            done: [0; DONE.len()],
        }
    }

    /// Compares what the C entry does with images at the limits of the paper.
    pub fn show_edges(&mut self) -> Result<(), Fault> {
        let mut longest = 0;
        for (n, image) in edges().iter().enumerate() {
            match among_some(n) {
                true => self.show_fully(image)?,
                false => self.show_somehow(image)?,
            }
            longest = longest.max(shown(image).len());
        }
        // What a caller in C is told.
        match longest {
            TEXT => Ok(()),
            _ => differs(format!(
                "the longest lines have {longest} bytes, not {TEXT}"
            )),
        }
    }

    /// Compares what the programs do with some of these images, and with limits of records.
    pub fn print_edges(&mut self) -> Result<(), Fault> {
        let edges = edges();
        let some = (0..).zip(&edges).filter(|&(n, _)| among_some(n));
        for (_, image) in some {
            self.print(image)?;
            self.resume_refused(image)?;
        }
        let whole = chained([LOG_MAX; 9]);
        let opening = chained([0; 9]);
        let append = record(1, 1, 0, 41);
        let receipt = record(2, 1, 0, 0);
        // No record and the most, one more; parts of a record.
        for records in [0, 1, peer::RECORDS_MAX, peer::RECORDS_MAX + 1] {
            let records = [append, receipt].into_iter().cycle().take(records);
            let records = records.collect::<Vec<_>>().concat();
            for image in [&whole, &opening] {
                self.resume(image, &records)?;
                self.resume(image, &[&records[..], &append[..7]].concat())?;
                self.resume(&image[..image.len() - 1], &records)?;
            }
        }
        // An input that ends before its image does, or before its length.
        let input = input(&opening, &[]);
        for length in [0, 1, 3, 4, 5, input.len() - 1] {
            self.writes(&input[..length], &[2])?;
        }
        self.normal_without_a_leader()
    }

    /// Compares what is answered to an image that is mostly refused, and to one with a part of
    /// a record after it: 2 comes before the errors of an image.
    fn resume_refused(&mut self, image: &[u8]) -> Result<(), Fault> {
        // Of a longer one not all need be read.
        if image.len() > LENGTH + 8 {
            return Ok(());
        }
        let append = record(1, 1, 0, 41);
        self.resume(image, &append)?;
        self.resume(image, &append[..1])
    }

    /// Compares the image of a sheet, and images that come from it.
    pub fn take(&mut self, sheet: &[u8]) -> Result<(), Fault> {
        self.save(sheet)?;
        let Ok(image) = peer::image::save_sheet(sheet) else {
            return Ok(());
        };
        self.taken += 1;
        self.show_fully(&image)?;
        let other = self.renumber(&image);
        self.show(&other, SCRATCH_MIN)?;
        for n in 0..DAMAGED {
            let from = if n % 2 == 0 { &image } else { &other };
            let damaged = damaged(from, &mut self.rng);
            self.count(Done::Damaged);
            self.show_somehow(&damaged)?;
        }
        if self.taken % THOROUGH_EVERY == 1 {
            for image in damaged_heads(&other, &mut self.rng) {
                self.count(Done::Damaged);
                self.show_somehow(&image)?;
            }
        }
        let elsewhere = elsewhere(&other, &mut self.rng);
        self.show_somehow(&elsewhere)?;
        let some = match self.taken % 4 {
            0 => &image,
            1 => &other,
            2 => &elsewhere,
            _ => &damaged(&other, &mut self.rng),
        };
        self.print(some)?;
        match self.taken % 2 {
            0 => self.cut(sheet),
            _ => {
                let records = records(&elsewhere, &mut self.rng);
                self.resume(&elsewhere, &records)
            }
        }
    }

    fn count(&mut self, done: Done) {
        self.done[done as usize] += 1;
    }

    fn meet(&mut self, refusal: u8) {
        if let Some(at) = REFUSALS.iter().position(|&n| n == refusal) {
            self.refusals[at] += 1;
        }
    }

    /// Compares what the C entry does with a sheet, in slices about as long as its image.
    pub fn save(&mut self, sheet: &[u8]) -> Result<(), Fault> {
        let image = peer::image::save_sheet(sheet);
        let exact = image.as_ref().map_or(HEAD, Vec::len);
        let longer = exact + 1 + self.rng.below(100);
        let given = sheet.to_vec();
        let second = |slice: &mut [u8]| match &image {
            Err(refusal) => usize::from(*refusal),
            Ok(image) if slice.len() < image.len() => 3,
            Ok(image) => {
                slice[..image.len()].copy_from_slice(image);
                image.len()
            }
        };
        let lengths = [exact, exact + 1, exact - 1, longer, 0];
        in_slices(
            "save_sheet",
            &lengths,
            &mut self.rng,
            |slice| save(&given, slice),
            second,
        )?;
        if given != sheet {
            return differs("save_sheet changed the sheet");
        }
        self.meet(*image.as_ref().err().unwrap_or(&3));
        self.count(Done::Saved);
        Ok(())
    }

    /// Compares what the program writes of a sheet.
    pub fn print_saved(&self, sheet: &[u8]) -> Result<(), Fault> {
        writes(&self.programs.savesheet, sheet, &saved(sheet), bytes)
            .map_err(|fault| fault.of("as an image"))
    }

    /// Compares what the C entry does with an image in this scratch, in text slices as long
    /// as the lines, longer, and too short.
    fn show(&mut self, image: &[u8], scratch: usize) -> Result<(), Fault> {
        let exact = peer::image::show_image(image).map_or(300, |lines| lines.len());
        for text in [exact, exact + 1, exact - 1, 0] {
            self.show_in(image, text, scratch)?;
        }
        self.note(image);
        Ok(())
    }

    /// Compares the same in every scratch.
    fn show_fully(&mut self, image: &[u8]) -> Result<(), Fault> {
        SCRATCHES
            .into_iter()
            .try_for_each(|scratch| self.show(image, scratch))
    }

    /// Compares the same in one text slice and one scratch, mostly long enough.
    fn show_somehow(&mut self, image: &[u8]) -> Result<(), Fault> {
        let exact = peer::image::show_image(image).map_or(300, |lines| lines.len());
        let text = self.rng.one_of(&[exact, exact, exact + 1, exact - 1]);
        let scratch = self.rng.one_of(&SCRATCHES);
        let scratch = self
            .rng
            .one_of(&[scratch, SCRATCH_MIN, SCRATCH_MIN, SCRATCH_MIN]);
        self.show_in(image, text, scratch)?;
        self.note(image);
        Ok(())
    }

    /// Notes the row of an image.
    fn note(&mut self, image: &[u8]) {
        self.count(Done::Shown);
        if let Ok(row) = read(image) {
            for (number, (_, is_such)) in self.rows.iter_mut().zip(ROWS) {
                *number += u64::from(is_such(&row));
            }
        }
    }

    fn show_in(&mut self, image: &[u8], text: usize, scratch: usize) -> Result<(), Fault> {
        let given = image.to_vec();
        let [mut text, mut scratch] =
            [text, scratch].map(|length| self.pool.place(length, &mut self.rng));
        let mut texts = text.bytes.clone();
        let mut scratches = scratch.bytes.clone();
        // The second program is lent a scratch that is as dirty.
        let shown = show_in(image, &mut scratches[scratch.slice.clone()]);
        // What is written, or the refusal.
        let expected = match &shown {
            Err(refusal) => Err(*refusal),
            Ok(lines) if text.slice.len() < lines.len() => Err(3),
            Ok(lines) => Ok(lines.as_bytes()),
        };
        if let Ok(lines) = expected {
            texts[text.slice.start..][..lines.len()].copy_from_slice(lines);
        }
        let result = show(&given, text.lent(), scratch.lent());
        let lent = (scratch.slice.len(), expected.err().unwrap_or(0));
        if let Some(at) = LENT.iter().position(|&met| met == lent) {
            self.lent[at] += 1;
        }
        let expected = match expected {
            Ok(lines) => lines.len(),
            Err(refusal) => {
                self.meet(refusal);
                refusal.into()
            }
        };
        let what = || {
            let (text, scratch) = (text.slice.len(), scratch.slice.len());
            format!("in a text slice of {text} bytes and a scratch of {scratch} show_image gives {result}")
        };
        if result != expected {
            let said = format!("{}, the second program {expected}", what());
            return kept(image, said);
        }
        for (name, place, should) in [("text", &text, &texts), ("scratch", &scratch, &scratches)] {
            if let Some(said) = place.differing(should) {
                let seen = &text.bytes[text.slice.clone()];
                let lines = match &shown {
                    Ok(lines) => sheets::lines(seen, lines.as_bytes()),
                    Err(_) => String::new(),
                };
                return kept(image, format!("{}; the {name}'s {said}{lines}", what()));
            }
        }
        if given != image {
            return kept(image, "show_image changed the image".into());
        }
        Ok(())
    }

    /// Compares what the program prints of an image.
    fn print(&mut self, image: &[u8]) -> Result<(), Fault> {
        self.count(Done::Printed);
        writes(
            &self.programs.showimage,
            image,
            &shown(image),
            sheets::lines,
        )
        .map_err(|fault| fault.of("shown"))
        .or_else(|fault| keep("image", image, fault))
    }

    /// Compares what the program does that takes a row up: answers, sets and the image of
    /// the row after them.
    fn resume(&mut self, image: &[u8], records: &[u8]) -> Result<(), Fault> {
        let expected = resumed(image, records);
        match (&expected, read(image)) {
            (Ok(resumed), Ok(row)) => {
                if no_run_gives(&row) {
                    self.count(Done::Resumed);
                }
                if resumed.image.is_err() {
                    self.count(Done::TurnedAway);
                    self.meet(1);
                    let last = iter::zip(records.as_chunks::<8>().0, &resumed.outcomes).next_back();
                    if let Some((
                        [3 | 4 | 6..=8 | 12 | 14 | 15, 1..=8, 0, 0, 0, 0, 0, 0]
                        | [5 | 10 | 11 | 13, 0, 0, 0, 0, 0, 0, 0],
                        outcome,
                    )) = last
                    {
                        if outcome.answer == 1 {
                            self.count(Done::AnsweredOne);
                        }
                    }
                }
            }
            (Err(refusal), _) => self.meet(*refusal),
            _ => {}
        }
        let expected = expected.map_or_else(|refusal| vec![refusal], |resumed| output(&resumed));
        self.writes(&input(image, records), &expected)
    }

    fn writes(&mut self, input: &[u8], expected: &[u8]) -> Result<(), Fault> {
        writes(&self.programs.resumesheet, input, expected, bytes)
            .map_err(|fault| fault.of("taken up"))
            .or_else(|fault| keep("image", input, fault))
    }

    /// Cuts a run: its first part is saved, the rest taken up from that image. All of it is
    /// as of the uncut run: the lines of the records, the image after them, and its lines.
    fn cut(&mut self, sheet: &[u8]) -> Result<(), Fault> {
        let records = sheet.as_chunks::<8>().0;
        let at = 1 + self.rng.below(records.len());
        let (first, rest) = sheet.split_at(8 * at);
        let mut image = library(LENGTH, |slice| save(first, slice))?;
        if self.rng.one_in(2) {
            image = self.renumber(&image);
            self.count(Done::CutRenumbered);
        }
        self.resume(&image, rest)
            .map_err(|fault| fault.of(format!("cut after {at} records")))?;
        // The program wrote this.
        let Ok(resumed) = resumed(&image, rest) else {
            return differs(format!("cut after {at} records, the image is refused"));
        };
        if resumed.image != Ok(library(LENGTH, |slice| save(sheet, slice))?) {
            return differs(format!(
                "cut after {at} records, the row taken up ends in another image than the uncut run"
            ));
        }
        let before = library(LENGTH_MAX, |slice| sheets::run(first, slice))?;
        let lines = before.split_inclusive(|&byte| byte == b'\n');
        let mut listing = lines.take(at).collect::<Vec<_>>().concat();
        for (number, (record, outcome)) in
            (at + 1..).zip(iter::zip(&records[at..], &resumed.outcomes))
        {
            let (step, answer) = (record[0], outcome.answer);
            listing.extend(format!("{number} {step} {answer}").bytes());
            if let (2 | 13 | 15, 0) = (step, answer) {
                let digits = (1..=8).filter(|&b| has(outcome.behind, b));
                listing.push(b' ');
                listing.extend(digits.map(|b| b'0' + b));
            }
            listing.push(b'\n');
        }
        let after = resumed.image.unwrap_or_default();
        listing.extend(library(LENGTH_MAX, |slice| {
            show(&after, slice, &mut [7; SCRATCH_MIN])
        })?);
        let uncut = library(LENGTH_MAX, |slice| sheets::run(sheet, slice))?;
        if listing != uncut {
            let lines = sheets::lines(&listing, &uncut);
            return differs(format!(
                "cut after {at} records, the listing differs from the uncut run's{lines}"
            ));
        }
        self.count(Done::Cut);
        if resumed.outcomes.iter().any(|outcome| outcome.behind != 0) {
            self.count(Done::CutBehind);
        }
        Ok(())
    }

    /// Set normal on a row that no run gives: it becomes normal with no leader, so that
    /// refusal 1 turns it away.
    fn normal_without_a_leader(&mut self) -> Result<(), Fault> {
        let set_normal = record(13, 0, 0, 0);
        let others = [record(3, 2, 0, 0), record(10, 0, 0, 0), record(0, 1, 0, 0)];
        for leader in 1..=8 {
            let image = leaderless(chained([2; 9]), leader);
            self.show(&image, SCRATCH_MIN)?;
            for more in 0..others.len() {
                let records = [&[set_normal], &others[..more]].concat();
                let Ok(resumed) = resumed(&image, records.as_flattened()) else {
                    return differs("the second program refuses a row without a leader");
                };
                if resumed.image.is_ok() {
                    return differs("the second program keeps a normal row without a leader");
                }
                self.resume(&image, records.as_flattened())?;
            }
        }
        Ok(())
    }

    /// The image with its records in another numbering.
    fn renumber(&mut self, image: &[u8]) -> Vec<u8> {
        let other = scrambled(image, &mut self.rng);
        if other != image {
            self.count(Done::Renumbered);
        }
        other
    }

    /// What is counted, with its number.
    fn counts(&self) -> impl Iterator<Item = (String, u64)> + '_ {
        let refusals = REFUSALS.map(|n| format!("refusal {n} of images"));
        let rows = ROWS.map(|(name, _)| format!("image of {name}"));
        let lent = LENT.map(|(n, answer)| format!("dirty scratches of {n} bytes, answer {answer}"));
        let refusals = refusals.into_iter().zip(self.refusals);
        let lent = lent.into_iter().zip(self.lent);
        let done = DONE.map(String::from).into_iter().zip(self.done);
        let seen = done.chain(refusals).chain(lent);
        seen.chain(rows.into_iter().zip(self.rows))
    }

    /// What was not met often enough.
    pub fn faults(&self) -> Vec<String> {
        let rare = self.counts().filter(|&(_, number)| number < ENOUGH);
        rare.map(|(name, _)| format!("not met {ENOUGH} times: {name}"))
            .collect()
    }
}

impl fmt::Display for Images {
    fn fmt(&self, out: &mut fmt::Formatter) -> fmt::Result {
        for (n, (name, number)) in self.counts().enumerate() {
            let end = if n == 0 { "" } else { "\n" };
            write!(out, "{end}{number:>8} {name}")?;
        }
        Ok(())
    }
}

/// Is the image at the limits of this number one of those that take longer?
fn among_some(n: usize) -> bool {
    n < THOROUGH || n % PROGRAM_EVERY == 0
}

/// The C entry on two slices.
fn save(sheet: &[u8], image: &mut [u8]) -> usize {
    // SAFETY: each pointer goes with its slice's length, and the two do not overlap.
    unsafe { save_sheet(sheet.as_ptr(), sheet.len(), image.as_mut_ptr(), image.len()) }
}

/// The C entry on three slices.
fn show(image: &[u8], text: &mut [u8], scratch: &mut [u8]) -> usize {
    // SAFETY: each pointer goes with its slice's length, and no two of them overlap.
    unsafe {
        show_image(
            image.as_ptr(),
            image.len(),
            text.as_mut_ptr(),
            text.len(),
            scratch.as_mut_ptr(),
            scratch.len(),
        )
    }
}

/// What the second program writes of a sheet's image.
pub fn saved(sheet: &[u8]) -> Vec<u8> {
    peer::image::save_sheet(sheet)
        .unwrap_or_else(|refusal| format!("refused {refusal}\n").into_bytes())
}

/// What the second program prints of an image.
pub fn shown(image: &[u8]) -> Vec<u8> {
    peer::image::show_image(image)
        .unwrap_or_else(|refusal| format!("refused {refusal}\n"))
        .into_bytes()
}

/// The second program takes a row up, with no more records than a sheet has.
fn resumed(image: &[u8], records: &[u8]) -> Result<peer::image::Resumed, u8> {
    match records.len() / 8 {
        0..=peer::RECORDS_MAX => resume_sheet(image, records),
        _ => Err(2),
    }
}

/// The input of the program that takes a row up.
fn input(image: &[u8], records: &[u8]) -> Vec<u8> {
    let length = (image.len() as u32).to_le_bytes();
    [&length, image, records].concat()
}

/// Its output for what is accepted.
fn output(resumed: &peer::image::Resumed) -> Vec<u8> {
    let outcomes = resumed.outcomes.iter();
    let mut output = vec![0];
    output.extend(outcomes.flat_map(|outcome| [outcome.answer, outcome.behind]));
    output.extend(resumed.image.iter().flatten());
    output
}

/// Says what differs of an image, which is kept.
fn kept(image: &[u8], said: String) -> Result<(), Fault> {
    keep("image", image, Fault::Differs(said))
}
