//! Images of rows (document 02, Paper 7) to be compared: at the limits of the paper, damaged,
//! and of rows that no run gives.

use generate::{record, Rng};
use peer::image::{read, renumbered, HEAD, RECORDS_MAX};
use peer::row::{EPOCH_MAX, LOG_MAX};
use std::{array, iter};

/// The length of the longest.
pub const LENGTH: usize = HEAD + 8 * RECORDS_MAX;
/// Where the boards begin in the head, and how long each is.
const BOARDS: usize = 48;
const BOARD: usize = 26;
/// Where the nine first records stand.
const FIRSTS: [usize; 9] = [72, 98, 124, 150, 176, 202, 228, 254, 256];

/// The image with its records in another numbering.
pub fn scrambled(image: &[u8], rng: &mut Rng) -> Vec<u8> {
    let number = (image.len() - HEAD) / 8;
    let mut numbers: Vec<u16> = (1..=number as u16).collect();
    for last in (1..number).rev() {
        numbers.swap(last, rng.below(last + 1));
    }
    renumbered(image, &numbers)
}

/// The image with each byte of the head in turn at other values: limits, one bit changed,
/// anything.
pub fn damaged_heads(image: &[u8], rng: &mut Rng) -> Vec<Vec<u8>> {
    let mut images = Vec::new();
    for place in 0..HEAD {
        let (byte, any) = (image[place], rng.draw() as u8);
        for other in [0, 1, 255, byte ^ 1, byte ^ 128, byte.wrapping_add(1), any] {
            let mut image = image.to_vec();
            image[place] = other;
            images.push(image);
        }
    }
    images
}

/// The image with something damaged, now and then with two things.
pub fn damaged(image: &[u8], rng: &mut Rng) -> Vec<u8> {
    let mut image = image.to_vec();
    for _ in 0..rng.one_of(&[1, 1, 2]) {
        damage(&mut image, rng);
    }
    image
}

fn damage(image: &mut Vec<u8>, rng: &mut Rng) {
    let records = image.len().saturating_sub(HEAD) / 8;
    if image.len() < HEAD {
        return;
    }
    let any = rng.draw();
    // Where a record stands; in an image without records, the end of the head.
    let at = HEAD + 8 * rng.below(records.max(1));
    let last = records as u16;
    let some = rng.below(records + 1) as u16;
    let epoch = rng.one_of(&[0, 1, 4000, 4001, 65_535]);
    match rng.below(8) {
        0 => {
            let place = rng.below(HEAD);
            image[place] = any as u8;
        }
        // Two bytes at a limit, anywhere in the head.
        1 => {
            let place = 2 * rng.below(HEAD / 2);
            let number = rng.one_of(&[0, 1, 512, 513, 4000, 4001, 65_535]);
            put(image, place, number);
        }
        // Links.
        2 => {
            let place = rng.one_of(&FIRSTS);
            let link = link(last, some, rng);
            put(image, place, link);
        }
        3 | 4 if records > 0 => {
            let link = link(last, some, rng);
            put(image, at + 6, link);
        }
        5 if records > 0 => put(image, at + 4, epoch),
        // A record that nothing meets, with such an epoch.
        6 => {
            image.extend([0; 8]);
            let at = image.len() - 4;
            put(image, at, epoch);
            put(image, at + 2, rng.one_of(&[0, some, last + 1]));
        }
        _ => {
            let length = image.len();
            let longer = LENGTH + 1 + rng.below(20);
            let lengths = [
                length - 8,
                length - 1,
                length + 1,
                length + 8,
                longer,
                LENGTH,
                0,
                HEAD - 1,
                HEAD,
            ];
            image.resize(rng.one_of(&lengths), any as u8 & 1);
        }
    }
}

fn link(last: u16, some: u16, rng: &mut Rng) -> u16 {
    rng.one_of(&[0, 1, last, last + 1, 65_535, some, some, some])
}

/// The image with numbers of the head replaced by others in their ranges, some of them or
/// all: mostly of a row that no run gives. It may be refused 18 for want of a leader.
pub fn elsewhere(image: &[u8], rng: &mut Rng) -> Vec<u8> {
    let mut image = image.to_vec();
    if rng.one_in(6) {
        let leader = 1 + rng.below(8) as u8;
        return leaderless(image, leader);
    }
    let often = rng.one_of(&[1, 2, 8, 40]);
    let [epoch, leader_epoch] = [0, 2].map(|at| two(&image, at));
    for (place, field) in fields() {
        if !rng.one_in(often) {
            continue;
        }
        let any = rng.draw() as u16;
        match field {
            Field::Epoch => {
                let few = [1, 2, 3, epoch, epoch, leader_epoch, 4000, 1 + any % 4000];
                put(&mut image, place, rng.one_of(&few));
            }
            Field::HeardJoined => {
                let few = [0, 1, 2, epoch, leader_epoch, 4000, any % 4001];
                put(&mut image, place, rng.one_of(&few));
            }
            Field::Count => put(&mut image, place, rng.one_of(&[0, 1, 2, 512, any % 513])),
            Field::HeardLength => {
                let few = [0, 1, 2, 512, any % 513, 65_535, 65_535];
                put(&mut image, place, rng.one_of(&few));
            }
            Field::Leader => image[place] = (any % 9) as u8,
            Field::Members => image[place] = rng.one_of(&[any as u8, any as u8, 0, 255]),
            Field::Status => image[place] = (any % 3) as u8,
            Field::Stage => image[place] = (any % 4) as u8,
        }
    }
    // Two lists change their places.
    if rng.one_in(2) {
        let [a, b] = array::from_fn(|_| rng.one_of(&FIRSTS));
        let [first, second] = [two(&image, a), two(&image, b)];
        put(&mut image, a, second);
        put(&mut image, b, first);
    }
    image
}

/// Some records for the row of an image, mostly ones that are accepted.
pub fn records(image: &[u8], rng: &mut Rng) -> Vec<u8> {
    let number = rng.one_of(&[0, 1, 5, 40, 40, 200]);
    let mut row = read(image);
    let mut records = Vec::new();
    for _ in 0..number {
        let mut record = any_record(rng);
        if let (Ok(row), false) = (&mut row, rng.one_in(8)) {
            for _ in 0..20 {
                if row.call(&record).answer == 0 {
                    break;
                }
                record = any_record(rng);
            }
        }
        records.extend(record);
    }
    records
}

/// A record of any step, now and then malformed.
fn any_record(rng: &mut Rng) -> [u8; 8] {
    let [a, b] = array::from_fn(|_| 1 + rng.below(8) as u8);
    let any = rng.draw() as u32;
    let mut r = match 1 + rng.below(15) as u8 {
        1 => record(1, a, 0, rng.one_of(&[0, 41, 42, any])),
        step @ (5 | 10 | 11 | 13) => record(step, 0, 0, 0),
        9 => record(9, a, b, 0),
        step => record(step, a, 0, 0),
    };
    if rng.one_in(40) {
        r[rng.below(8)] ^= 1 << rng.below(8);
    }
    r
}

/// The two bytes at a place, low byte first.
fn two(bytes: &[u8], place: usize) -> u16 {
    u16::from_le_bytes([bytes[place], bytes[place + 1]])
}

fn put(bytes: &mut [u8], place: usize, number: u16) {
    bytes[place..place + 2].copy_from_slice(&number.to_le_bytes());
}

#[derive(Clone, Copy)]
enum Field {
    Epoch,
    Leader,
    Members,
    Status,
    Stage,
    HeardLength,
    HeardJoined,
    Count,
}

/// The places of the head's numbers, the first records left out.
fn fields() -> Vec<(usize, Field)> {
    let mut fields = Vec::new();
    for (at, last) in [(0, Field::Status), (8, Field::Stage)] {
        fields.extend([(at, Field::Epoch), (at + 2, Field::Epoch)]);
        fields.extend([(at + 4, Field::Leader), (at + 5, Field::Members)]);
        fields.push((at + 6, last));
    }
    for at in (16..BOARDS).step_by(4) {
        fields.extend([(at, Field::HeardLength), (at + 2, Field::HeardJoined)]);
    }
    for at in (BOARDS..HEAD - 2).step_by(BOARD) {
        fields.extend([0, 2, 4].map(|n| (at + n, Field::Epoch)));
        fields.extend([(at + 6, Field::Leader), (at + 7, Field::Members)]);
        fields.extend((8..24).step_by(2).map(|n| (at + n, Field::Count)));
    }
    fields
}

/// The image of an opened row with lists of these lengths, those of boards 1 to 8 and the
/// receipts, numbered in order. Entries have all epochs in turn.
pub fn chained(lengths: [usize; 9]) -> Vec<u8> {
    let opening = record(0, 1, 0, 0);
    let mut image = peer::image::save_sheet(&opening).expect("board 1 opens");
    let mut number = 0;
    for (length, first) in iter::zip(lengths, FIRSTS) {
        if length > 0 {
            put(&mut image, first, number + 1);
        }
        for left in (0..length).rev() {
            number += 1;
            let next = if left == 0 { 0 } else { number + 1 };
            image.extend(u32::from(number).wrapping_mul(12_345_678).to_le_bytes());
            image.extend((1 + number % EPOCH_MAX).to_le_bytes());
            image.extend(next.to_le_bytes());
        }
    }
    image
}

/// The image with a registry that is choosing and names no leader, and a controller at stage
/// boards, with this leader, that has heard all.
pub fn leaderless(mut image: Vec<u8>, leader: u8) -> Vec<u8> {
    let epoch = two(&image, 0).min(EPOCH_MAX - 1);
    put(&mut image, 0, epoch);
    put(&mut image, 8, epoch);
    [image[4], image[6]] = [0, 2];
    [image[12], image[13], image[14]] = [leader, 255, 2];
    for at in (16..BOARDS).step_by(4) {
        put(&mut image, at, 3);
    }
    image
}

/// Images at the limits of the paper. The first of each length is one that
/// tests/mutants/try takes.
pub fn edges() -> Vec<Vec<u8>> {
    let none = chained([0; 9]);
    let whole = chained([LOG_MAX; 9]);
    let mut images = vec![none.clone(), whole.clone(), longest_lines(whole.clone())];
    // A record that no chain meets, and a zero byte that is not 0.
    images.push([&none[..], &[1, 0, 0, 0, 1, 0, 0, 0]].concat());
    let mut image = chained([1, 1, 0, 0, 0, 0, 0, 0, 0]);
    image[7] = 1;
    images.push(image);
    // Lengths about none, the head, the longest, and far too long.
    let longer = |length: usize| whole.iter().copied().chain(iter::repeat(1)).take(length);
    let far = [65_536 + HEAD, 100_000];
    for length in (LENGTH - 9..=LENGTH + 9).chain(far) {
        images.push(longer(length).collect());
    }
    for length in [0, 1, 8, HEAD - 8, HEAD - 1, HEAD, HEAD + 1, HEAD + 7] {
        images.push(whole[..length].to_vec());
    }
    // A wrong length comes before a wrong number.
    for length in [HEAD + 1, LENGTH + 8] {
        let mut image: Vec<u8> = longer(length).collect();
        image[7] = 1;
        images.push(image);
    }
    // Each list with 511 to 514 entries, alone and among others; in two numberings.
    for n in 0..9 {
        for length in LOG_MAX - 1..=LOG_MAX + 2 {
            for others in [0, 1] {
                let mut lengths = [others; 9];
                lengths[n] = length;
                let image = chained(lengths);
                images.push(turned(&image));
                images.push(image);
            }
        }
    }
    // As many records as there may be, but a list too long and another too short.
    for (long, short) in [(0, 8), (8, 0), (3, 4)] {
        let mut lengths = [LOG_MAX; 9];
        lengths[long] += 1;
        lengths[short] -= 1;
        images.push(chained(lengths));
    }
    images.push(turned(&whole));
    // Every link of small lists at every number that it may hold.
    let small = chained([2, 1, 0, 0, 0, 0, 0, 0, 2]);
    let nexts = (HEAD + 6..small.len()).step_by(8);
    for place in FIRSTS.into_iter().chain(nexts) {
        for link in (0..8).chain([255, 256, 4608, 4609, 32_768, 65_535]) {
            let mut image = small.clone();
            put(&mut image, place, link);
            images.push(image);
        }
    }
    // Every number of the head at and beyond its limits; with it a link past the end, which
    // comes after it.
    for (place, field) in fields() {
        let numbers: &[u16] = match field {
            Field::Epoch | Field::HeardJoined => &[0, 1, 4000, 4001, 65_535],
            Field::Count | Field::HeardLength => &[0, 1, 512, 513, 65_534, 65_535],
            _ => &[0, 1, 2, 3, 4, 8, 9, 255],
        };
        for &number in numbers {
            let mut image = small.clone();
            match field {
                Field::Leader | Field::Members | Field::Status | Field::Stage => {
                    image[place] = number as u8;
                }
                _ => put(&mut image, place, number),
            }
            images.push(image.clone());
            put(&mut image, FIRSTS[8], 65_535);
            images.push(image);
        }
    }
    // A leader that is none, with each status and stage.
    for (status, stage) in (0..3).flat_map(|status| (0..4).map(move |stage| (status, stage))) {
        for (leader, controller) in [(0, 0), (0, 1), (1, 0), (1, 1)] {
            let mut image = small.clone();
            [image[4], image[6]] = [leader, status];
            [image[12], image[14]] = [controller, stage];
            images.push(image);
        }
    }
    // Zero bytes, with each status and stage; with them a link past the end.
    for place in [7, 15] {
        for (kind, byte) in (0..4).flat_map(|kind| [1, 2, 128, 255].map(|byte| (kind, byte))) {
            let mut image = small.clone();
            [image[place - 1], image[place]] = [kind, byte];
            images.push(image.clone());
            put(&mut image, FIRSTS[0], 65_535);
            images.push(image);
        }
    }
    // Epochs of records: of one that a chain meets, of one that none does, and of one with a
    // chain that goes wrong before it.
    for epoch in [0, 1, 4000, 4001, 32_769, 65_535] {
        let mut image = small.clone();
        put(&mut image, HEAD + 12, epoch);
        images.push(image.clone());
        put(&mut image, FIRSTS[0], 65_535);
        images.push(image.clone());
        put(&mut image, FIRSTS[0], 0);
        images.push(image);
        let mut unmet = [&small[..], &[0; 8]].concat();
        put(&mut unmet, small.len() + 4, epoch);
        images.push(unmet);
    }
    images
}

/// The image with the numbers that have the longest lines.
fn longest_lines(mut image: Vec<u8>) -> Vec<u8> {
    for (place, field) in fields() {
        match field {
            Field::Epoch => put(&mut image, place, EPOCH_MAX),
            Field::Leader => image[place] = 8,
            Field::Members => image[place] = 255,
            Field::Status => image[place] = 2,
            Field::Stage => image[place] = 3,
            Field::HeardLength | Field::HeardJoined | Field::Count => {}
        }
    }
    for record in image[HEAD..].as_chunks_mut::<8>().0 {
        record[..4].fill(255);
        put(record, 4, EPOCH_MAX);
    }
    image
}

/// The image with its records numbered from the last.
fn turned(image: &[u8]) -> Vec<u8> {
    let number = (image.len() - HEAD) / 8;
    let numbers: Vec<u16> = (1..=number as u16).rev().collect();
    renumbered(image, &numbers)
}
