//! The sheets that are run, the seeds that sheets are made from, and the images that are
//! read.

use crate::programs::Input;
use generate::{guided, record, Rng};
use peer::row::{Row, LOG_MAX};
use peer::{image, RECORDS_MAX};
use std::array;

/// How many sheets of a seed, and of how many records: those of seeds 1, 2 and so on.
const SEEDED: [(u32, usize); 2] = [(64, 100), (8, RECORDS_MAX)];

/// Inputs of one kind, all of the same number of records.
pub struct Set {
    pub name: String,
    pub records: usize,
    pub inputs: Vec<Input>,
}

/// Guided sheets: enough of each size that no program knows their steps by heart.
fn all_guided(seed: u64, input: fn(Vec<u8>) -> Input) -> [Set; 3] {
    [(64, 100), (16, 1000), (8, RECORDS_MAX)].map(|(number, records)| {
        let mut seeds = Rng::new(seed);
        let sheets = (0..number).map(|_| guided(Rng::new(seeds.draw()), records));
        Set {
            name: format!("guided-{records}"),
            records,
            inputs: sheets.map(input).collect(),
        }
    })
}

/// Sheets to run.
pub fn all(seed: u64) -> Vec<Set> {
    let guided = all_guided(seed, Input::Sheet);
    let seeded = seeds().into_iter().map(|seeds| {
        let sheets = seeds.inputs.iter().map(made);
        set(&format!("seeded-{}", seeds.records), sheets.collect())
    });
    let limits = [
        set("full-logs", vec![full_logs()]),
        set("full-joins", vec![full_joins()]),
        set("longest", vec![longest()]),
    ];
    guided.into_iter().chain(seeded).chain(limits).collect()
}

/// Seeds to make sheets of.
pub fn seeds() -> Vec<Set> {
    let sets = SEEDED.map(|(last, records)| Set {
        name: format!("1 to {last}"),
        records,
        inputs: (1..=last).map(|seed| Input::Seed(seed, records)).collect(),
    });
    sets.into()
}

/// Sheets to tell in words: those of the first seeds.
pub fn told() -> Vec<Set> {
    let few = |set: Set| Set {
        name: format!("seeded-{}", set.records),
        records: set.records,
        inputs: set
            .inputs
            .iter()
            .take(8)
            .map(|seed| Input::Told(made(seed)))
            .collect(),
    };
    seeds().into_iter().map(few).collect()
}

/// Sheets to run and save: the guided ones.
pub fn saved(seed: u64) -> Vec<Set> {
    all_guided(seed, Input::Saved).into()
}

/// Images to read, of values drawn from the seed: of nine lists as long as each other, but
/// for one entry; of eight full logs without receipts; and the longest ones again, each in a
/// numbering drawn for it.
pub fn images(seed: u64) -> Vec<Set> {
    let mut rng = Rng::new(seed);
    let alike = [0, 512, 2304, image::RECORDS_MAX].map(|records| {
        // What is left over goes to the first ones: no log is longer than board 1's.
        let lists = array::from_fn(|n| records / 9 + usize::from(n < records % 9));
        image_set(&format!("image-{records}"), lists, || {
            image_of(lists, &mut rng)
        })
    });
    let mut logs = [LOG_MAX; 9];
    logs[8] = 0;
    let others = [
        image_set("only-logs", logs, || image_of(logs, &mut rng)),
        image_set("renumbered", [LOG_MAX; 9], || {
            let image = image_of([LOG_MAX; 9], &mut rng);
            renumber(&image, &mut rng)
        }),
    ];
    alike.into_iter().chain(others).collect()
}

/// Eight images with lists of these lengths.
fn image_set(name: &str, lists: [usize; 9], mut image: impl FnMut() -> Vec<u8>) -> Set {
    Set {
        name: name.into(),
        records: lists.iter().sum(),
        inputs: (0..8).map(|_| Input::Image(image())).collect(),
    }
}

/// The image of a row with lists of these lengths, the receipts' last; no log is longer than
/// board 1's, and no list is shorter than the receipts.
fn image_of(lists: [usize; 9], rng: &mut Rng) -> Vec<u8> {
    let [logs @ .., receipts] = lists;
    let mut row = Row::open(1).expect("board 1 opens");
    let mut step = |step, a, b, value| {
        let outcome = row.step(&record(step, a, b, value));
        assert_eq!(outcome.answer, 0, "step {step} of {a}");
    };
    (2..=8).for_each(|b| step(3, b, 0, 0));
    (1..=8).for_each(|b| step(6, b, 0, 0));
    (0..logs[0]).for_each(|_| step(1, 1, 0, rng.draw() as u32));
    for (b, length) in (2..).zip(&logs[1..]) {
        (0..*length).for_each(|_| step(8, b, 0, 0));
        if *length > 0 {
            step(9, 1, b, 0);
        }
    }
    (0..receipts).for_each(|_| step(2, 1, 0, 0));
    let image = image::write(&row);
    assert_eq!(image.len(), image::HEAD + 8 * lists.iter().sum::<usize>());
    image
}

/// The image with its records in any order.
fn renumber(image: &[u8], rng: &mut Rng) -> Vec<u8> {
    let records = (image.len() - image::HEAD) / 8;
    let mut numbers: Vec<u16> = (1..=records as u16).collect();
    for n in (1..records).rev() {
        numbers.swap(n, rng.below(n + 1));
    }
    image::renumbered(image, &numbers)
}

/// The sheet that the library makes.
fn made(seed: &Input) -> Vec<u8> {
    let mut sheet = vec![0; 8 * RECORDS_MAX];
    let length = seed.call(0, &mut sheet);
    sheet.truncate(length);
    sheet
}

fn set(name: &str, sheets: Vec<Vec<u8>>) -> Set {
    Set {
        name: name.into(),
        records: sheets[0].len() / 8,
        inputs: sheets.into_iter().map(Input::Sheet).collect(),
    }
}

/// Takes steps that are all accepted, up to the longest sheet.
struct Story {
    sheet: Vec<u8>,
    row: Row,
}

impl Story {
    fn open() -> Story {
        Story {
            sheet: record(0, 1, 0, 0).to_vec(),
            row: Row::open(1).expect("board 1 opens"),
        }
    }

    fn full(&self) -> bool {
        self.sheet.len() / 8 == RECORDS_MAX
    }

    fn record(&mut self, record: [u8; 8]) {
        if !self.full() {
            let outcome = self.row.step(&record);
            assert_eq!(outcome.answer, 0, "{record:?}");
            self.sheet.extend(record);
        }
    }

    fn step(&mut self, step: u8, b: u8) {
        self.record(record(step, b, 0, 0));
    }

    /// Adds boards 2 to `last`; every board takes the news.
    fn add_to(&mut self, last: u8) {
        (2..=last).for_each(|b| self.step(3, b));
        (1..=last).for_each(|b| self.step(6, b));
    }

    /// Board 1 appends to its log's end, values of ten digits.
    fn fill(&mut self) {
        for n in 0..LOG_MAX as u32 {
            self.record(record(1, 1, 0, u32::MAX - n));
        }
    }

    fn receive_all(&mut self, b: u8) {
        (0..LOG_MAX).for_each(|_| self.step(8, b));
    }
}

/// Six logs of 512 and 512 receipts; more entries than that, in logs and
/// receipts together, do not go into a sheet. Board 7 has the rest.
fn full_logs() -> Vec<u8> {
    let mut story = Story::open();
    story.add_to(7);
    story.fill();
    for b in 2..=6 {
        story.receive_all(b);
        story.record(record(9, 1, b, 0));
    }
    (0..LOG_MAX).for_each(|_| story.step(2, 1));
    story.receive_all(7);
    story.sheet
}

/// Two full logs, and one change of leader after the other: every tenth record
/// is a join that compares 512 entries.
fn full_joins() -> Vec<u8> {
    let mut story = Story::open();
    story.add_to(2);
    story.fill();
    story.receive_all(2);
    let (mut leader, mut other) = (1, 2);
    while !story.full() {
        story.step(10, 0);
        story.step(11, 0);
        story.step(12, other);
        story.step(13, 0);
        story.step(5, 0);
        (leader, other) = (other, leader);
        story.step(6, leader);
        story.step(3, other);
        story.step(6, leader);
        story.step(6, other);
        story.step(7, other);
    }
    story.sheet
}

/// About the longest listing: 512 receipts of ten digits, and as many lines with
/// a step of three digits as there is room for.
fn longest() -> Vec<u8> {
    let mut story = Story::open();
    story.fill();
    (0..LOG_MAX).for_each(|_| story.step(2, 1));
    story.add_to(8);
    let mut sheet = story.sheet;
    while sheet.len() / 8 < RECORDS_MAX {
        sheet.extend(record(255, 1, 0, 0));
    }
    sheet
}
