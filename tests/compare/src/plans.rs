//! How many steps back to normal (document 02, Paper 10): the C entries `plan_sheet` and
//! `plan_image` and the programs `plansheet` and `planimage`, beside the second program.

use crate::both::{bytes, differs, keep, library, writes, Fault, Pool};
use crate::course::{course, MET, WHY};
use crate::damage::{chained, damaged, elsewhere, scrambled, LENGTH};
use crate::sheets;
use generate::{record, Kind, Rng};
use peer::image::{read, write, HEAD};
use peer::listing::LENGTH_MAX;
use peer::plan::PLAN_BYTES;
use peer::row::{Heard, Log, Row, Stage, Status, EPOCH_MAX, LOG_MAX};
use peer::scratch::SCRATCH_MIN;
use peer::RECORDS_MAX;
use std::path::{Path, PathBuf};
use std::{array, fmt, iter};

extern "C" {
    fn plan_sheet(sheet: *const u8, sheet_len: usize, list: *mut u8, list_len: usize) -> usize;
    fn plan_image(
        image: *const u8,
        image_len: usize,
        list: *mut u8,
        list_len: usize,
        scratch: *mut u8,
        scratch_len: usize,
    ) -> usize;
}

/// List slices and scratches, long enough and too short. The longest slice has room for more
/// records than there may be, and stands first: there a list that is too long is seen.
const LISTS: [usize; 5] = [20_000, 16_513, 16_512, 16_511, 0];
const SCRATCHES: [usize; 4] = [576, 577, 575, 0];
/// Most slices are so long.
const ROOM: usize = LISTS[0];
/// In a run with an epoch up to this there is a list.
const EPOCH_PROMISED: u16 = EPOCH_MAX - 2;
/// How often each of what is counted should be met.
const ENOUGH: u64 = 5;
/// Of the images that are printed by the programs of images one in so many is here.
const PROGRAM_EVERY: u64 = 4;
/// How many of the directed sheets and images go into every slice and scratch.
const THOROUGH: usize = 24;
/// How many rows that no run gives are made of one.
const ODD: usize = 6;

/// What may be answered: lists, and refusals. 17, 18 and 19 are of images.
const ANSWERS: [&str; 8] = [
    "an empty list",
    "a list of records",
    "2",
    "3",
    "17",
    "18",
    "19",
    "20",
];
const ANSWERS_OF_SHEETS: [usize; 5] = [0, 1, 2, 3, 7];
const ANSWERS_OF_IMAGES: [usize; 7] = [0, 1, 3, 4, 5, 6, 7];

const STATUSES: [&str; 3] = ["normal", "waiting", "choosing"];
const STAGES: [&str; 4] = ["idle", "leader", "boards", "choosing"];
/// The stages that a run can meet with each status. Stage choosing begins and ends with status
/// choosing; and where that begins, set normal has just left the controller idle with the
/// registry's epoch, at which it takes no news.
const CAN_MEET: [&[usize]; 3] = [&[0, 1, 2], &[0, 1, 2], &[0, 3]];

/// The last epochs, in runs that wait or choose.
const EPOCHS: [u16; 3] = [3998, 3999, 4000];

/// What else is counted.
#[derive(Clone, Copy)]
enum Done {
    Played,
    PlayedByImage,
    MostOfSheet,
    MostOfImage,
    PrintedSheets,
    PrintedImages,
}

const DONE: [&str; 6] = [
    "lists of sheets played by run_sheet to normal",
    "lists of images played to normal",
    "sheets with a list of 2,064 records",
    "images with a list of 2,064 records",
    "lists of sheets by the program",
    "lists of images by the program",
];

/// The programs of lists.
pub struct Programs {
    pub plansheet: PathBuf,
    pub planimage: PathBuf,
}

#[derive(Clone, Copy)]
enum Given<'a> {
    Sheet(&'a [u8]),
    Image(&'a [u8]),
}

pub struct Plans {
    programs: Programs,
    rng: Rng,
    pool: Pool,
    /// How many sheets with images were taken.
    taken: u64,
    of_sheets: [u64; ANSWERS.len()],
    of_images: [u64; ANSWERS.len()],
    /// Slices of sheets; slices and scratches of images.
    lists: [u64; LISTS.len()],
    lent: [[u64; SCRATCHES.len()]; LISTS.len()],
    /// By status and stage, of runs and of images.
    runs: [[u64; 4]; 3],
    rows: [[u64; 4]; 3],
    /// By status, waiting and choosing, and epoch.
    epochs: [[u64; EPOCHS.len()]; 2],
    met: [u64; MET.len()],
    why: [u64; WHY.len()],
    done: [u64; DONE.len()],
}

/// Compares lists alone: the directed ones and those of so many random sheets. Returns the
/// exit status.
pub fn compare(programs: Programs, sheets: u64, seed: u64) -> Result<u8, Fault> {
    let mut plans = Plans::new(programs, seed);
    println!("lists of {sheets} random sheets from seed {seed}");
    plans.edges()?;
    let mut of_sheets = Rng::new(seed);
    for n in 0..sheets {
        let (kind, sheet) = generate::random(Rng::new(of_sheets.draw()));
        let taken = plans.take(kind, &sheet, n % PROGRAM_EVERY == 0);
        taken.map_err(|fault| fault.of(format!("sheet {n} ({kind:?}) differs")))?;
    }
    plans.print_edges()?;
    println!("all agree\n{plans}");
    let faults = plans.faults();
    for fault in &faults {
        println!("{fault}");
    }
    Ok(if faults.is_empty() { 0 } else { 3 })
}

impl Plans {
    pub fn new(programs: Programs, seed: u64) -> Plans {
        let mut rng = Rng::new(seed.wrapping_add(10));
        Plans {
            programs,
            pool: Pool::new(&mut rng),
            rng,
            taken: 0,
            of_sheets: [0; ANSWERS.len()],
            of_images: [0; ANSWERS.len()],
            lists: [0; LISTS.len()],
            lent: [[0; SCRATCHES.len()]; LISTS.len()],
            runs: [[0; 4]; 3],
            rows: [[0; 4]; 3],
            epochs: [[0; EPOCHS.len()]; 2],
            met: [0; MET.len()],
            why: [0; WHY.len()],
            done: [0; DONE.len()],
        }
    }

    /// Compares what the C entries do with directed sheets and images: the first of them in
    /// every slice and scratch.
    pub fn edges(&mut self) -> Result<(), Fault> {
        for (n, sheet) in sheet_edges().iter().enumerate() {
            let other = self.rng.one_of(&LISTS);
            let compared = match n < THOROUGH {
                true => self.sheet(sheet, &LISTS),
                false => self.sheet(sheet, &[ROOM, other]),
            };
            compared.or_else(|fault| keep("sheet", sheet, fault))?;
        }
        for (n, image) in image_edges().iter().enumerate() {
            if n < THOROUGH {
                for list in LISTS {
                    for scratch in SCRATCHES {
                        self.image(image, list, scratch)?;
                    }
                }
            } else {
                self.image(image, ROOM, SCRATCH_MIN)?;
                self.image_somehow(image)?;
            }
        }
        Ok(())
    }

    /// Compares what the programs do with them.
    pub fn print_edges(&mut self) -> Result<(), Fault> {
        for sheet in &sheet_edges() {
            let printed = self.print_sheet(sheet);
            printed.or_else(|fault| keep("sheet", sheet, fault))?;
        }
        image_edges()
            .iter()
            .try_for_each(|image| self.print_image(image))
    }

    /// Compares the list of a sheet, and where it is a run that of the row at some place within
    /// it; and if it is one of some, the lists of images that come from it.
    pub fn take(&mut self, kind: Kind, sheet: &[u8], some: bool) -> Result<(), Fault> {
        let list = self.list();
        self.sheet(sheet, &[list])?;
        if let Kind::Edge | Kind::Broken | Kind::Seeded { .. } = kind {
            return Ok(());
        }
        let at = 1 + self.rng.below(sheet.len() / 8);
        let part = &sheet[..8 * at];
        self.sheet(part, &[ROOM])
            .map_err(|fault| fault.of(format!("cut after {at} records")))?;
        if !some {
            return Ok(());
        }
        self.taken += 1;
        let from = self.rng.one_of(&[sheet, part]);
        let images = self.images(from);
        for image in &images {
            self.image_somehow(image)?;
        }
        if self.taken.is_multiple_of(PROGRAM_EVERY) {
            self.print_sheet(sheet)?;
            let image = self.rng.below(images.len());
            self.print_image(&images[image])?;
        }
        Ok(())
    }

    /// The length of a list slice, mostly long enough.
    fn list(&mut self) -> usize {
        let list = self.rng.one_of(&LISTS);
        self.rng.one_of(&[list, ROOM, ROOM, ROOM])
    }

    /// Compares the list of an image in one slice and one scratch, mostly long enough.
    fn image_somehow(&mut self, image: &[u8]) -> Result<(), Fault> {
        let list = self.list();
        let scratch = self.rng.one_of(&SCRATCHES);
        let scratch = self.rng.one_of(&[scratch, SCRATCH_MIN, SCRATCH_MIN, 577]);
        self.image(image, list, scratch)
    }

    /// The image of a sheet's row, and others that come from it.
    fn images(&mut self, sheet: &[u8]) -> Vec<Vec<u8>> {
        let row = played(sheet);
        let image = scrambled(&write(&row), &mut self.rng);
        let mut images = vec![
            elsewhere(&image, &mut self.rng),
            damaged(&image, &mut self.rng),
        ];
        images.extend((0..ODD).map(|_| write(&odd(row.clone(), &mut self.rng))));
        images.push(image);
        images
    }

    fn count(&mut self, done: Done) {
        self.done[done as usize] += 1;
    }

    /// Compares what the C entry does with a sheet, in these slices. A list of a run is played.
    fn sheet(&mut self, sheet: &[u8], lists: &[usize]) -> Result<(), Fault> {
        let mut planned = None;
        for &list in lists {
            let answer = self.call(Given::Sheet(sheet), list, 0)?;
            self.lists[place(&LISTS, list)] += 1;
            self.of_sheets[answer.place()] += 1;
            if list >= PLAN_BYTES {
                planned = Some(answer);
            }
        }
        let Some(answer) = planned.filter(|answer| !matches!(answer, Answer::Refused(2))) else {
            return Ok(());
        };
        let row = played(sheet);
        self.runs[row.status as usize][row.control.stage as usize] += 1;
        if let (Status::Waiting | Status::Choosing, Some(epoch)) = (
            row.status,
            EPOCHS.iter().position(|&n| n == row.registry.epoch),
        ) {
            self.epochs[row.status as usize - 1][epoch] += 1;
        }
        self.note(&row, &answer)?;
        match answer {
            Answer::Refused(refusal) if row.registry.epoch <= EPOCH_PROMISED => differs(format!(
                "plan_sheet refuses {refusal} the row of a run that has a list"
            )),
            Answer::Refused(_) => Ok(()),
            Answer::List(list) => {
                if list.len() == PLAN_BYTES {
                    self.count(Done::MostOfSheet);
                }
                self.play(sheet, &list)
            }
        }
    }

    /// The C entry that runs sheets must accept each record of a list after its sheet, and end
    /// normal; if a sheet can have so many records.
    fn play(&mut self, sheet: &[u8], list: &[u8]) -> Result<(), Fault> {
        let all = [sheet, list].concat();
        if all.len() > 8 * RECORDS_MAX {
            return Ok(());
        }
        let listing = library(LENGTH_MAX, |slice| sheets::run(&all, slice))?;
        let listing = String::from_utf8_lossy(&listing);
        let before = sheet.len() / 8;
        let mut answers = sheets::answers(&listing).skip(before);
        if let Some(at) = answers.position(|answer| answer != 0) {
            return differs(format!("record {} of the list is refused", at + 1));
        }
        let registry = listing.lines().nth(all.len() / 8).unwrap_or_default();
        match registry.starts_with("registry ") && registry.ends_with(" normal") {
            true => self.count(Done::Played),
            false => return differs(format!("the list ends in {registry}")),
        }
        Ok(())
    }

    /// Compares what the C entry does with an image, in this slice and this scratch. A list is
    /// played by the second program.
    fn image(&mut self, image: &[u8], list: usize, scratch: usize) -> Result<(), Fault> {
        let compared = self.compare_image(image, list, scratch);
        compared.or_else(|fault| keep("image", image, fault))
    }

    fn compare_image(&mut self, image: &[u8], list: usize, scratch: usize) -> Result<(), Fault> {
        let answer = self.call(Given::Image(image), list, scratch)?;
        self.lent[place(&LISTS, list)][place(&SCRATCHES, scratch)] += 1;
        self.of_images[answer.place()] += 1;
        let (Answer::List(_) | Answer::Refused(20), Ok(mut row)) = (&answer, read(image)) else {
            return Ok(());
        };
        self.rows[row.status as usize][row.control.stage as usize] += 1;
        self.note(&row, &answer)?;
        let Answer::List(list) = answer else {
            return Ok(());
        };
        if list.len() == PLAN_BYTES {
            self.count(Done::MostOfImage);
        }
        let mut records = list.as_chunks::<8>().0.iter();
        if let Some(at) = records.position(|record| row.call(record).answer != 0) {
            return differs(format!("record {} of the list is refused", at + 1));
        }
        if row.status != Status::Normal {
            return differs("the list does not end normal");
        }
        self.count(Done::PlayedByImage);
        Ok(())
    }

    /// What the C entry and the second program both answer, in dirty places.
    fn call(&mut self, given: Given, list: usize, scratch: usize) -> Result<Answer, Fault> {
        let [mut list, mut scratch] =
            [list, scratch].map(|length| self.pool.place(length, &mut self.rng));
        let [mut lists, mut scratches] = [&list, &scratch].map(|place| place.bytes.clone());
        let expected = given.second(
            &mut lists[list.slice.clone()],
            &mut scratches[scratch.slice.clone()],
        );
        let copy = given.bytes().to_vec();
        let result = given.with(&copy).entry(list.lent(), scratch.lent());
        let what = || {
            let (length, name) = (list.slice.len(), given.name());
            let scratch = match given {
                Given::Sheet(_) => String::new(),
                Given::Image(_) => format!(" and a scratch of {}", scratch.slice.len()),
            };
            format!("in a list slice of {length} bytes{scratch} {name} gives {result}")
        };
        if result != expected {
            let said = format!("{}, the second program {expected}", what());
            return Err(Fault::Differs(said));
        }
        for (name, place, should) in [("list", &list, &lists), ("scratch", &scratch, &scratches)] {
            if let Some(said) = place.differing(should) {
                let said = format!("{}; the {name} slice's {said}", what());
                return Err(Fault::Differs(said));
            }
        }
        if copy != given.bytes() {
            let said = format!("{} changed what it was given", given.name());
            return Err(Fault::Differs(said));
        }
        Ok(match result % 8 {
            0 => Answer::List(list.lent()[..result].to_vec()),
            _ => Answer::Refused(result),
        })
    }

    /// Notes what the list of a row meets, or why it has none, which must be 20.
    fn note(&mut self, row: &Row, answer: &Answer) -> Result<(), Fault> {
        match (course(row), answer) {
            (Ok(course), Answer::List(list)) if course.records.as_flattened() == list => {
                for met in course.met {
                    self.met[met as usize] += 1;
                }
                Ok(())
            }
            (Err(why), Answer::Refused(20)) => {
                self.why[why as usize] += 1;
                Ok(())
            }
            _ => differs("what is counted goes another way than the list"),
        }
    }

    /// Compares what the programs write of a sheet and of an image.
    fn print_sheet(&mut self, sheet: &[u8]) -> Result<(), Fault> {
        self.count(Done::PrintedSheets);
        print(&self.programs.plansheet, sheet, &planned(sheet))
    }

    fn print_image(&mut self, image: &[u8]) -> Result<(), Fault> {
        self.count(Done::PrintedImages);
        print(&self.programs.planimage, image, &planned_image(image))
            .map_err(|fault| fault.of("of an image"))
            .or_else(|fault| keep("image", image, fault))
    }

    /// What is counted, with its number.
    fn counts(&self) -> impl Iterator<Item = (String, u64)> + '_ {
        let mut counts: Vec<(String, u64)> = Vec::new();
        let mut add = |name: String, number| counts.push((name, number));
        for (name, number) in iter::zip(DONE, self.done) {
            add(name.into(), number);
        }
        for at in ANSWERS_OF_SHEETS {
            add(
                format!("sheet answered {}", ANSWERS[at]),
                self.of_sheets[at],
            );
        }
        for at in ANSWERS_OF_IMAGES {
            add(
                format!("image answered {}", ANSWERS[at]),
                self.of_images[at],
            );
        }
        for (length, number) in iter::zip(LISTS, self.lists) {
            add(format!("list slice of {length} bytes for a sheet"), number);
        }
        for (length, numbers) in iter::zip(LISTS, self.lent) {
            for (scratch, number) in iter::zip(SCRATCHES, numbers) {
                let name = format!("list slice of {length} bytes, scratch of {scratch}");
                add(name, number);
            }
        }
        for (status, stage) in pairs() {
            let name = format!("{} at stage {}", STATUSES[status], STAGES[stage]);
            if CAN_MEET[status].contains(&stage) {
                add(format!("row of a run, {name}"), self.runs[status][stage]);
            }
            add(format!("row of an image, {name}"), self.rows[status][stage]);
        }
        for (status, numbers) in iter::zip(&STATUSES[1..], self.epochs) {
            for (epoch, number) in iter::zip(EPOCHS, numbers) {
                add(format!("row of a run, {status} at epoch {epoch}"), number);
            }
        }
        for (name, number) in iter::zip(MET, self.met) {
            add(format!("lists: {name}"), number);
        }
        for (name, number) in iter::zip(WHY, self.why) {
            add(format!("no list: {name}"), number);
        }
        counts.into_iter()
    }

    /// What was not met often enough, and what no run meets and was met.
    pub fn faults(&self) -> Vec<String> {
        let rare = self.counts().filter(|&(_, number)| number < ENOUGH);
        let rare = rare.map(|(name, _)| format!("not met {ENOUGH} times: {name}"));
        let met = pairs().filter(|&(status, stage)| {
            !CAN_MEET[status].contains(&stage) && self.runs[status][stage] > 0
        });
        let met = met.map(|(status, stage)| {
            let (status, stage) = (STATUSES[status], STAGES[stage]);
            format!("met: row of a run, {status} at stage {stage}")
        });
        rare.chain(met).collect()
    }
}

impl fmt::Display for Plans {
    fn fmt(&self, out: &mut fmt::Formatter) -> fmt::Result {
        for (n, (name, number)) in self.counts().enumerate() {
            let end = if n == 0 { "" } else { "\n" };
            write!(out, "{end}{number:>8} {name}")?;
        }
        Ok(())
    }
}

/// What both answer.
enum Answer {
    /// A list in bytes.
    List(Vec<u8>),
    Refused(usize),
}

impl Answer {
    /// Its place in `ANSWERS`.
    fn place(&self) -> usize {
        match self {
            Answer::List(list) => usize::from(!list.is_empty()),
            Answer::Refused(refusal @ 2..=3) => *refusal,
            Answer::Refused(refusal) => refusal - 13,
        }
    }
}

impl<'a> Given<'a> {
    fn bytes(self) -> &'a [u8] {
        match self {
            Given::Sheet(bytes) | Given::Image(bytes) => bytes,
        }
    }

    /// The same of other bytes.
    fn with(self, bytes: &[u8]) -> Given<'_> {
        match self {
            Given::Sheet(_) => Given::Sheet(bytes),
            Given::Image(_) => Given::Image(bytes),
        }
    }

    fn name(self) -> &'static str {
        match self {
            Given::Sheet(_) => "plan_sheet",
            Given::Image(_) => "plan_image",
        }
    }

    fn second(self, list: &mut [u8], scratch: &mut [u8]) -> usize {
        match self {
            Given::Sheet(sheet) => peer::plan::plan_sheet(sheet, list),
            Given::Image(image) => peer::plan::plan_image(image, list, scratch),
        }
    }

    /// The C entry, of an image on three slices.
    fn entry(self, list: &mut [u8], scratch: &mut [u8]) -> usize {
        let (given, length) = (self.bytes().as_ptr(), self.bytes().len());
        // SAFETY: each pointer goes with its slice's length, and no two of them overlap.
        match self {
            Given::Sheet(_) => unsafe { plan_sheet(given, length, list.as_mut_ptr(), list.len()) },
            Given::Image(_) => unsafe {
                plan_image(
                    given,
                    length,
                    list.as_mut_ptr(),
                    list.len(),
                    scratch.as_mut_ptr(),
                    scratch.len(),
                )
            },
        }
    }
}

fn print(program: &Path, input: &[u8], expected: &[u8]) -> Result<(), Fault> {
    writes(program, input, expected, bytes).map_err(|fault| fault.of("as a list"))
}

/// What the second program writes of a sheet's row.
pub fn planned(sheet: &[u8]) -> Vec<u8> {
    written(|list| peer::plan::plan_sheet(sheet, list))
}

/// The same of an image's.
pub fn planned_image(image: &[u8]) -> Vec<u8> {
    written(|list| peer::plan::plan_image(image, list, &mut [0; SCRATCH_MIN]))
}

fn written(call: impl Fn(&mut [u8]) -> usize) -> Vec<u8> {
    let mut list = vec![0; ROOM];
    let length = call(&mut list);
    match length % 8 {
        0 => list[..length].to_vec(),
        _ => format!("refused {length}\n").into_bytes(),
    }
}

/// Every status with every stage.
fn pairs() -> impl Iterator<Item = (usize, usize)> {
    (0..3).flat_map(|status| (0..4).map(move |stage| (status, stage)))
}

fn place(lengths: &[usize], length: usize) -> usize {
    let place = lengths.iter().position(|&n| n == length);
    place.expect("a length of these")
}

/// The row that a sheet ends with, which is not refused.
fn played(sheet: &[u8]) -> Row {
    let records = sheet.as_chunks::<8>().0;
    let mut row = Row::open(records[0][1]).expect("a board of 1 to 8 opens");
    for record in &records[1..] {
        row.step(record);
    }
    row
}

/// These steps, each on a board.
fn steps(steps: &[(u8, u8)]) -> Vec<u8> {
    let records = steps.iter().map(|&(step, b)| record(step, b, 0, 0));
    records.collect::<Vec<_>>().concat()
}

/// Members 1 to 4, leader 1, normal.
const FOUR: [(u8, u8); 14] = [
    (0, 1),
    (3, 2),
    (3, 3),
    (3, 4),
    (10, 0),
    (6, 1),
    (11, 0),
    (12, 2),
    (12, 3),
    (13, 0),
    (6, 1),
    (6, 2),
    (6, 3),
    (6, 4),
];

/// Sheets to be planned: limits, which tests/mutants/try takes by their lengths, then runs.
pub fn sheet_edges() -> Vec<Vec<u8>> {
    let waiting = |length: usize| -> Vec<u8> {
        let first = [record(0, 1, 0, 0), record(3, 2, 0, 0)].concat();
        let more = iter::repeat(record(10, 0, 0, 0)).flatten();
        first.into_iter().chain(more).take(length).collect()
    };
    let most = 8 * RECORDS_MAX;
    let lengths = [
        0,
        1,
        7,
        8,
        9,
        15,
        16,
        17,
        most - 1,
        most,
        most + 1,
        most + 7,
    ];
    let lengths = lengths.into_iter().chain([most + 8, most + 9, 100_000]);
    let mut sheets: Vec<Vec<u8>> = lengths.map(waiting).collect();
    // No list; no opening.
    sheets.push(waiting_at(EPOCH_MAX));
    sheets.push(vec![0; 8]);
    sheets.push(record(3, 2, 0, 0).to_vec());
    // The last epochs, up to set normal, and up to the install.
    let reading = [(10, 0), (6, 1), (11, 0), (6, 2), (12, 2)];
    let hearing = [(10, 0), (6, 2), (14, 2), (6, 3), (14, 3)];
    for epoch in EPOCHS {
        sheets.extend((0..=5).map(|n| [waiting_at(epoch), steps(&reading[..n])].concat()));
        sheets.extend((0..=5).map(|n| [choosing_at(epoch), steps(&hearing[..n])].concat()));
    }
    // The longest list, whoever leads.
    sheets.extend((1..=8).map(longest));
    // A tie of 2 and 3; 3 has an entry that 2 lacks; 4 has one, and is heard before or not.
    let change = steps(&[(5, 0)]);
    let sell = |boards: &[u8]| -> Vec<u8> {
        let received = boards.iter().map(|&b| record(8, b, 0, 0));
        let records = iter::once(record(1, 1, 0, 41)).chain(received);
        records.collect::<Vec<_>>().concat()
    };
    let four = steps(&FOUR);
    for sold in [vec![], sell(&[3]), sell(&[4]), sell(&[2]), sell(&[2, 3])] {
        sheets.push([&four[..], &sold, &change].concat());
        let heard = steps(&[(10, 0), (6, 4), (14, 4)]);
        sheets.push([&four[..], &sold, &change, &heard].concat());
    }
    // Along a run and its list, cut at every place, with an entry more, and 5 and 6 members.
    let run = [&four[..], &sell(&[3]), &steps(&[(3, 5), (3, 6)])].concat();
    sheets.extend(along(run.clone()));
    let normal = [&run[..], &planned(&run)].concat();
    sheets.extend(along([&normal[..], &change].concat()));
    // A status normal with the controller at every stage.
    let two = [(0, 1), (3, 2), (10, 0), (6, 1), (11, 0), (12, 2)];
    for n in 2..=two.len() {
        sheets.push([steps(&two[..n]), steps(&[(4, 2)])].concat());
    }
    // The leader appends after it was read; 2 was read before, and then 3 in its place.
    let append = record(1, 1, 0, 42);
    sheets.push([&steps(&two)[..], &append].concat());
    sheets.push([&steps(&two[..5])[..], &append, &append].concat());
    let three = steps(&[(0, 1), (3, 2), (3, 3), (10, 0), (6, 1), (11, 0), (12, 3)]);
    sheets.push([&three[..], &append].concat());
    sheets.push([&three[..], &steps(&[(12, 2)])].concat());
    sheets.push(three);
    sheets
}

/// A run, and it with each part of its list.
fn along(run: Vec<u8>) -> impl Iterator<Item = Vec<u8>> {
    let list = planned(&run);
    (0..=list.len() / 8).map(move |n| [&run[..], &list[..8 * n]].concat())
}

/// Waiting at this epoch, with members 1, 2 and mostly 3.
fn waiting_at(epoch: u16) -> Vec<u8> {
    let turns = [(3, 3), (4, 3)].into_iter().cycle();
    let turns = [(0, 1), (3, 2)].into_iter().chain(turns);
    steps(&turns.take(epoch.into()).collect::<Vec<_>>())
}

/// Choosing at this epoch, with members 2, 3 and mostly 4.
fn choosing_at(epoch: u16) -> Vec<u8> {
    let turns = [(3, 4), (4, 4)].into_iter().cycle();
    let turns = [(0, 1), (3, 2), (3, 3)].into_iter().chain(turns);
    let normal = [(10, 0), (6, 1), (11, 0), (12, 2), (12, 3), (13, 0), (5, 0)];
    let turns = turns.take(usize::from(epoch) - 2).chain(normal);
    steps(&turns.collect::<Vec<_>>())
}

/// This board leads alone after a change, with 512 entries; then all others are added, of which
/// none has joined under its leader epoch.
fn longest(leader: u8) -> Vec<u8> {
    let opening = if leader == 8 { 7 } else { 8 };
    let first = [
        (0, opening),
        (3, leader),
        (10, 0),
        (6, opening),
        (11, 0),
        (12, leader),
        (13, 0),
        (5, 0),
        (6, leader),
    ];
    let others = (1..=8).filter(|&b| b != leader).map(|b| (3, b));
    let others = steps(&others.collect::<Vec<_>>());
    let entries = record(1, leader, 0, 41).repeat(LOG_MAX);
    [steps(&first), entries, others].concat()
}

/// Images to be planned: limits, which tests/mutants/try takes by their lengths, then rows that
/// no run gives.
pub fn image_edges() -> Vec<Vec<u8>> {
    // Each with another number of records: an empty list, one with records, none, and a number
    // and a link that are wrong.
    let waiting = |records: usize| -> Row {
        let mut row = Row::open(1).expect("board 1 opens");
        append(&mut row, records);
        row.step(&record(3, 2, 0, 0));
        row
    };
    let mut none = waiting(2);
    none.registry.members = 0;
    let mut number = write(&waiting(3));
    number[7] = 1;
    let mut links = write(&waiting(4));
    links[HEAD + 6] = 1;
    let whole = chained([LOG_MAX; 9]);
    let longer = |length: usize| whole.iter().copied().chain(iter::repeat(1)).take(length);
    let mut images = vec![
        chained([0; 9]),
        write(&waiting(1)),
        write(&none),
        number,
        links,
        longer(LENGTH).collect(),
        longer(LENGTH + 1).collect(),
        longer(LENGTH + 8).collect(),
        whole[..HEAD - 1].to_vec(),
        Vec::new(),
    ];
    // Whoever leads, the longest list.
    images.extend((1..=8).map(|leader| write(&played(&longest(leader)))));
    // Up to 2,066 records and more: 2,065 come first, in a slice with room for them.
    images.extend((0..5).map(|n| write(&eight(510, 1 << n))));
    for (entries, with_news) in [
        (510, 0b11),
        (510, 0b1010),
        (510, 0b10100),
        (510, 0b11000),
        (510, 0b10001),
        (510, 0),
        (510, 0b1110_0000),
        (511, 0b11111),
        (511, 0b1),
        (511, 0),
        (512, 0b11111),
        (512, 0b1),
        (512, 0),
        (509, 0),
    ] {
        images.push(write(&eight(entries, with_news)));
    }
    images.extend(odd_edges().iter().map(write));
    images
}

/// Board 1's log gets so many entries.
fn append(row: &mut Row, entries: usize) {
    for n in 0..entries {
        row.step(&record(1, 1, 0, n as u32));
    }
}

/// Choosing with eight members: board 1 has so many entries that all others lack, and these
/// boards have the news. Of 510 entries the list has 2,066 records, less one for each of 1 to 5
/// that has the news.
fn eight(entries: usize, with_news: u8) -> Row {
    let mut row = Row::open(1).expect("board 1 opens");
    append(&mut row, entries);
    row.status = Status::Choosing;
    row.registry.epoch = 2;
    row.registry.leader = 0;
    row.registry.members = 255;
    row.control.view = row.registry;
    row.control.stage = Stage::Choosing;
    for (b, board) in row.boards.iter_mut().enumerate() {
        if with_news >> b & 1 == 1 {
            board.view = row.registry;
        }
    }
    row
}

fn heard(length: usize, joined: u16) -> Heard {
    Heard {
        length: Some(length),
        joined,
    }
}

/// Rows that no run gives, by one difference from the row of a run, or two.
fn odd_edges() -> Vec<Row> {
    // Waiting, 1 was read, and 2 has the news. Choosing, 2 and 3 have the news.
    let two = played(&steps(&[(0, 1), (3, 2), (10, 0), (6, 1), (6, 2), (11, 0)]));
    let changed = steps(&[(5, 0), (10, 0), (6, 2), (6, 3)]);
    let four = played(&[steps(&FOUR), changed].concat());
    let mut rows = Vec::new();
    let mut of_two = |change: &dyn Fn(&mut Row)| {
        let mut row = two.clone();
        change(&mut row);
        rows.push(row);
    };
    // No members; a leader that is none of them, though a majority is heard.
    of_two(&|row| row.registry.members = 0);
    of_two(&|row| {
        for view in [&mut row.registry, &mut row.control.view] {
            view.members = 0b110;
        }
        row.boards[1].view.members = 0b110;
        row.control.heard[2] = heard(0, 0);
    });
    // Another leader in a view: its own or the leader's, with and without news that is due.
    for place in [0, 1] {
        for leader in [0, 2, 3] {
            for epoch in [1, 2, 3] {
                of_two(&|row| {
                    row.boards[place].view.leader = leader;
                    row.boards[place].view.epoch = epoch;
                });
            }
        }
    }
    // The controller's leader and members are others than the registry's.
    of_two(&|row| row.control.view.leader = 3);
    of_two(&|row| row.control.view.leader = 2);
    of_two(&|row| row.control.view.members = 0b101);
    of_two(&|row| {
        row.registry.members = 0b1101;
        row.control.view.members = 0b0111;
    });
    // Every status with every stage; an epoch ahead.
    for status in [Status::Normal, Status::Waiting, Status::Choosing] {
        for stage in [Stage::Idle, Stage::Leader, Stage::Boards, Stage::Choosing] {
            for members in [0b11, 0b111, 0b1011, 0b101, 255] {
                of_two(&|row| {
                    row.status = status;
                    row.control.stage = stage;
                    row.registry.members = members;
                });
            }
        }
    }
    of_two(&|row| row.control.view.epoch = 9);
    // Members of the boards: a join asks its own, a receive the leader's too.
    of_two(&|row| row.boards[1].view.members = 0b001);
    of_two(&|row| row.boards[1].joined = 2);
    of_two(&|row| row.boards[0].view.leader_epoch = 2);
    for entries in 0..=5 {
        of_two(&|row| {
            row.boards[0].view.members = 0b001;
            append(row, entries);
        });
    }
    // The leader was heard at more than it has; board 2 is longer, and was read.
    of_two(&|row| row.control.heard[0] = heard(1, 0));
    for read in [None, Some(0), Some(1), Some(2)] {
        of_two(&|row| {
            append(row, 1);
            let Row { boards, .. } = row;
            let [first, second, ..] = boards;
            second.log.clone_from(&first.log);
            first
                .log
                .clone_from(&Row::open(1).expect("board 1 opens").boards[0].log);
            row.control.heard[1].length = read;
        });
    }
    let mut of_four = |change: &dyn Fn(&mut Row)| {
        let mut row = four.clone();
        change(&mut row);
        rows.push(row);
    };
    for leader in 0..=8 {
        of_four(&|row| row.registry.leader = leader);
        of_four(&|row| {
            row.registry.leader = leader;
            row.registry.members = 0;
        });
    }
    // What was heard before ranks: by joined epoch, then length, the lower number on a tie.
    for (second, third) in [
        (heard(0, 1), heard(0, 1)),
        (heard(0, 1), heard(1, 1)),
        (heard(1, 1), heard(0, 1)),
        (heard(9, 1), heard(0, 2)),
        (heard(0, 2), heard(9, 1)),
        (heard(9, 2), heard(9, 2)),
        (heard(0, 0), heard(0, 1)),
    ] {
        of_four(&|row| {
            row.control.heard[1] = second;
            row.control.heard[2] = third;
        });
        // Board 4 was heard too: a member that the list does not name.
        of_four(&|row| {
            row.control.heard[1] = second;
            row.control.heard[2] = third;
            row.control.heard[3] = heard(100, 3);
        });
    }
    // The controller's members and stage are others; an epoch is ahead.
    for members in [0b0111, 0b1100, 0b1111, 0b1_1111, 0b111_1110, 254, 255] {
        of_four(&|row| row.control.view.members = members);
    }
    of_four(&|row| {
        row.control.view.epoch += 1;
        for board in &mut row.boards {
            board.view.epoch += 1;
        }
    });
    for stage in [Stage::Idle, Stage::Leader, Stage::Boards] {
        of_four(&|row| {
            row.control.stage = stage;
            row.control.view.leader = 1;
        });
    }
    of_four(&|row| row.control.view.epoch = 4000);
    of_four(&|row| row.boards[1].view.epoch = 4000);
    of_four(&|row| row.boards[2].view.epoch = 4000);
    rows
}

/// The row with one to three of its numbers changed: mostly one that no run gives. It may lack
/// a leader where one is asked.
fn odd(mut row: Row, rng: &mut Rng) -> Row {
    for _ in 0..rng.one_of(&[1, 1, 2, 3]) {
        let any = rng.draw();
        let [leader, b, other]: [usize; 3] = array::from_fn(|_| rng.below(8));
        let epoch = row.registry.epoch;
        let near = [epoch - 1, epoch, epoch, epoch + 1];
        let near = rng.one_of(&near).clamp(1, EPOCH_MAX);
        // Members, or other boards.
        let members = row.registry.members;
        let set = rng.one_of(&[members, any as u8, members ^ 1 << b, 255, 0]);
        match rng.below(16) {
            0 => row.status = rng.one_of(&[Status::Normal, Status::Waiting, Status::Choosing]),
            1 => {
                let stages = [Stage::Idle, Stage::Leader, Stage::Boards, Stage::Choosing];
                row.control.stage = rng.one_of(&stages);
            }
            2 => row.registry.leader = leader as u8 + 1,
            3 => row.registry.members = set,
            4 => row.registry.epoch = rng.one_of(&[near, 3998, 3999, 4000]),
            5 => row.control.view.leader = leader as u8 + 1,
            6 => row.control.view.members = set,
            7 => row.control.view.epoch = near,
            8 => row.control.view = row.registry,
            9 => row.boards[b].view.leader = rng.below(9) as u8,
            10 => row.boards[b].view.members = set,
            11 => row.boards[b].view.epoch = near,
            12 => row.boards[b].view = row.registry,
            13 => {
                let term = rng.one_of(&[row.registry.leader_epoch, near, 1]);
                match any % 2 {
                    0 => row.boards[b].joined = term,
                    _ => row.boards[b].view.leader_epoch = term,
                }
            }
            14 => {
                let length = row.boards[b].log.len();
                row.control.heard[b] = Heard {
                    length: rng.one_of(&[None, Some(0), Some(length), Some(length + 1)]),
                    joined: rng.one_of(&[0, row.boards[b].joined, near]),
                };
                row.control.heard[b].length = row.control.heard[b].length.map(|n| n.min(LOG_MAX));
            }
            _ => {
                let log: Log = row.boards[b].log.clone();
                row.boards[b].log = row.boards[other].log.clone();
                row.boards[other].log = log;
            }
        }
    }
    row
}
