//! A smaller scratch for reading: document 02, Paper 8. What is expected follows from Papers 7
//! and 8; beside that, the reader must agree with `image::read`, which knows of no scratch.

mod places;
mod random;

use std::array;

use peer::image::{read, renumbered, save_sheet, show_image, write};
use peer::list;
use peer::row::{Entry, Row};
use peer::scratch::{read_in, show_in, SCRATCH_MIN};
use places::{board, chain_of, firsts, image, record, with, with_two};
use random::{row_of, Random};

/// The store, the second store, the list and the second list.
const LENT: [usize; 4] = [4096, 4096, 512, 512];

/// Lengths of scratches: 3 with fewer than 576 bytes.
const SHORT: [usize; 7] = [0, 1, 8, 72, 512, 574, 575];
const LONG: [usize; 8] = [576, 577, 584, 1152, 4607, 4608, 4609, 40_000];

const OPENING: [u8; 8] = [0, 1, 0, 0, 0, 0, 0, 0];

/// Scratches of a length as the hub may lend them: of one byte all over, of any bytes, and
/// clean but for the last byte.
fn lendable(length: usize) -> Vec<Vec<u8>> {
    let mut random = Random::new(length as u32);
    let mut all: Vec<_> = [0, 1, 2, 128, 170, 255].map(|b| vec![b; length]).into();
    all.push((0..length).map(|_| random.below(256) as u8).collect());
    let mut last = vec![0; length];
    if let Some(byte) = last.last_mut() {
        *byte = 255;
    }
    all.push(last);
    all
}

fn is_zero(scratch: &[u8]) -> bool {
    scratch.iter().all(|&byte| byte == 0)
}

/// The reader's answer to an image on every scratch: 3 on a short one, which is untouched,
/// else what is expected, the same row on all, and the whole scratch ends as zeros. The lines
/// of the row are had under the same rules.
#[track_caller]
fn answer(image: &[u8], expected: Result<(), u8>) {
    for scratch in SHORT.into_iter().flat_map(lendable) {
        let mut lent = scratch.clone();
        assert!(read_in(image, LENT, &mut lent) == Err(3));
        assert_eq!(lent, scratch);
        assert_eq!(show_in(image, &mut lent), Err(3));
        assert_eq!(lent, scratch);
    }
    let (row, lines) = (read(image), show_image(image));
    for scratch in LONG.into_iter().flat_map(lendable) {
        let mut lent = scratch.clone();
        let answer = read_in(image, LENT, &mut lent);
        assert!(answer == row && answer.map(|_| ()) == expected);
        assert!(is_zero(&lent), "{} bytes", lent.len());
        let mut lent = scratch;
        assert_eq!(show_in(image, &mut lent), lines);
        assert!(is_zero(&lent), "{} bytes", lent.len());
    }
}

/// The answer on the least scratch, with all its bits set before: the one of `read`.
#[track_caller]
fn least(image: &[u8]) -> Result<Row, u8> {
    let mut scratch = [255; 576];
    let answer = read_in(image, LENT, &mut scratch);
    assert!(is_zero(&scratch));
    assert!(answer == read(image));
    answer
}

#[track_caller]
fn error_19(image: &[u8]) {
    assert!(least(image) == Err(19));
}

/// An opened row's image. A list is the numbers of its records in order, boards 1 to 8 first,
/// then the receipts; each number up to the last stands in one of them. Record k has the value
/// and epoch of `entry`.
fn image_of(lists: &[Vec<u16>]) -> Vec<u8> {
    let mut image = save_sheet(&OPENING).unwrap();
    image.resize(258 + 8 * lists.iter().map(Vec::len).sum::<usize>(), 0);
    for (number, list) in lists.iter().enumerate() {
        for (n, &k) in list.iter().enumerate() {
            let (value, epoch) = entry(k);
            let place = record(k.into());
            image = with_two(image, link(lists, number, n), k);
            image = with(image, place, &value.to_le_bytes());
            image = with_two(image, place + 4, epoch);
        }
    }
    image
}

/// Where the number of the n-th record of a list stands, both from 0: in the head, or in the
/// record before it.
fn link(lists: &[Vec<u16>], list: usize, n: usize) -> usize {
    match n {
        0 => firsts()[list],
        _ => record(lists[list][n - 1].into()) + 6,
    }
}

/// Value and epoch of record k; all values differ.
fn entry(k: u16) -> (u32, u16) {
    (100_000 + u32::from(k), 1 + k % 4000)
}

/// The numbers in lists of 512, the last one of what is left.
fn in_512s(numbers: &[u16]) -> Vec<Vec<u16>> {
    numbers.chunks(512).map(<[u16]>::to_vec).collect()
}

/// The numbers in lists of 512, two of them moved to the ends of two lists.
fn ending_in(mut numbers: Vec<u16>, ends: [u16; 2], lists: [usize; 2]) -> Vec<Vec<u16>> {
    for (end, list) in ends.into_iter().zip(lists) {
        let at = numbers.iter().position(|&k| k == end).unwrap();
        numbers.swap(at, 512 * list + 511);
    }
    in_512s(&numbers)
}

/// The entries of the nine lists.
fn entries(row: &Row) -> [Vec<(u32, u16)>; 9] {
    let pair = |entry: Entry| (entry.value, entry.epoch);
    let logs = row.boards.each_ref().map(|board| &board.log);
    let mut all = logs.into_iter().chain([&row.receipts]);
    array::from_fn(|_| all.next().unwrap().entries().map(pair).collect())
}

/// The least scratch is enough for this image, and each list has its records in order.
#[track_caller]
fn accepted(image: &[u8], lists: &[Vec<u16>]) {
    let row = least(image).expect("an accepted image");
    for (n, own) in entries(&row).into_iter().enumerate() {
        let records = lists.get(n).map_or(&[][..], |list| list);
        assert!(own.into_iter().eq(records.iter().map(|&k| entry(k))));
    }
}

/// The number in the two bytes at a place.
fn two_at(image: &[u8], place: usize) -> usize {
    u16::from_le_bytes([image[place], image[place + 1]]).into()
}

/// Paper 7 on chains: none "points past the last record or passes 512 entries", and no record
/// "is met twice, by one chain or two, or not at all".
fn chains_are_right(image: &[u8]) -> bool {
    let last = (image.len() - 258) / 8;
    let mut times = vec![0; last];
    for first in firsts() {
        let (mut k, mut entries) = (two_at(image, first), 0);
        while k != 0 {
            entries += 1;
            if k > last || entries > 512 {
                return false;
            }
            times[k - 1] += 1;
            k = two_at(image, record(k) + 6);
        }
    }
    times.iter().all(|&times| times == 1)
}

/// The answer to an image that has no error but in its chains.
#[track_caller]
fn chains_answer(image: &[u8]) -> bool {
    let right = chains_are_right(image);
    assert_eq!(least(image).map(|_| ()), right.then_some(()).ok_or(19));
    right
}

/// All 4,608 records in any numbering.
fn full(random: &mut Random) -> Vec<Vec<u16>> {
    in_512s(&random.permutation(4608))
}

#[test]
fn the_least_scratch() {
    assert_eq!(SCRATCH_MIN, 576);
}

#[test]
fn accepted_on_every_scratch() {
    answer(&save_sheet(&OPENING).unwrap(), Ok(()));
    answer(&image(), Ok(()));
    let [log, others @ .., receipts] = entries(&least(&image()).unwrap());
    assert_eq!((log, receipts), (vec![(41, 1), (42, 1)], vec![(41, 1)]));
    assert!(others.iter().all(Vec::is_empty));
    answer(&chain_of(512, 256), Ok(()));
    let lists = full(&mut Random::new(1));
    answer(&image_of(&lists), Ok(()));
    accepted(&image_of(&lists), &lists);
}

#[test]
fn error_17_on_every_scratch() {
    let longest = image_of(&full(&mut Random::new(2)));
    for length in [0, 257, 259, 258 + 9] {
        answer(&longest[..length], Err(17));
    }
    for more in [1, 7, 8] {
        answer(&[longest.clone(), vec![1; more]].concat(), Err(17));
    }
}

#[test]
fn error_18_on_every_scratch() {
    // The registry's epoch, its zero byte and its leader; a heard length; a count.
    for (place, bytes) in [
        (0, [0, 0]),
        (6, [0, 1]),
        (4, [0, 1]),
        (16, [1, 2]),
        (70, [1, 2]),
    ] {
        answer(&with(image(), place, &bytes), Err(18));
    }
    answer(&with_two(image(), board(8) + 4, 4001), Err(18));
    // The last epoch of all.
    let longest = image_of(&full(&mut Random::new(3)));
    answer(&with_two(longest, record(4608) + 4, 0), Err(18));
}

#[test]
fn error_19_on_every_scratch() {
    // Past the last record, twice, not at all, the 513th entry.
    answer(&with_two(image(), 256, 4), Err(19));
    answer(&with_two(image(), 256, 2), Err(19));
    answer(&with_two(image(), 256, 0), Err(19));
    answer(&chain_of(513, 256), Err(19));
    // The same where all records but one are met before: the receipts' last link.
    let lists = full(&mut Random::new(4));
    let link = link(&lists, 8, 511);
    for k in [4609, 65_535, lists[0][511], lists[8][0], 0] {
        answer(&with_two(image_of(&lists), link, k), Err(19));
    }
}

/// An accepted image, and one for each error.
fn one_for_each() -> [(Vec<u8>, Result<(), u8>); 4] {
    [
        (image(), Ok(())),
        (image()[1..].to_vec(), Err(17)),
        (with(image(), 7, &[1]), Err(18)),
        (with_two(image(), 256, 9), Err(19)),
    ]
}

/// The call with these lent lengths is refused 1, and changes nothing of any scratch.
#[track_caller]
fn refused_1(image: &[u8], lent: [usize; 4]) {
    for length in [0, 575, 576, 4608] {
        for byte in [0, 1, 255] {
            let mut scratch = vec![byte; length];
            assert!(read_in(image, lent, &mut scratch) == Err(1), "{lent:?}");
            assert_eq!(scratch, vec![byte; length]);
        }
    }
}

#[test]
fn wrong_lent_lengths_1() {
    let wrong = [0, 1, 511, 512, 513, 4095, 4096, 4097, 4608, usize::MAX];
    for (image, _) in one_for_each() {
        for place in 0..4 {
            for length in wrong.into_iter().filter(|&length| length != LENT[place]) {
                let mut lent = LENT;
                lent[place] = length;
                refused_1(&image, lent);
            }
        }
        // Stores and lists in another order, and none right.
        refused_1(&image, [512, 512, 4096, 4096]);
        refused_1(&image, [4096, 512, 4096, 512]);
        refused_1(&image, [4096, 512, 512, 4096]);
        refused_1(&image, [0; 4]);
        // A sum or a product that is right.
        refused_1(&image, [4097, 4095, 512, 512]);
        refused_1(&image, [2048, 8192, 512, 512]);
        refused_1(&image, [4096, 4096, 256, 1024]);
    }
}

#[test]
fn of_all_lent_lengths_one_is_right() {
    let lengths = [0, 511, 512, 513, 4095, 4096, 4097];
    let mut right = vec![];
    for n in 0..7_usize.pow(4) {
        let lent = array::from_fn(|place| lengths[n / 7_usize.pow(place as u32) % 7]);
        match read_in(&image(), lent, &mut [255; 576]) {
            Ok(_) => right.push(lent),
            Err(number) => assert_eq!(number, 1, "{lent:?}"),
        }
    }
    assert_eq!(right, [LENT]);
}

#[test]
fn refusals_come_in_order() {
    // A byte too many, the registry's epoch 0, and a first past the last record.
    let [e19, e18] = [with_two(image(), 256, 9), with_two(image(), 0, 0)];
    let both = with_two(e19.clone(), 0, 0);
    let all = [both.clone(), vec![0]].concat();
    refused_1(&all, [4096, 4096, 512, 511]);
    answer(&all, Err(17));
    answer(&[e18.clone(), vec![0]].concat(), Err(17));
    answer(&[e19.clone(), vec![0]].concat(), Err(17));
    answer(&both, Err(18));
    answer(&e18, Err(18));
    answer(&e19, Err(19));
    // 18 also for the last record's epoch, behind a chain that breaks at once.
    let lists = full(&mut Random::new(5));
    let broken = with_two(image_of(&lists), firsts()[0], 4609);
    answer(&broken, Err(19));
    answer(&with_two(broken, record(4608) + 4, 4001), Err(18));
}

/// Opening 1; append 1, 41; receipt by 1; add 2: document 01, with the epochs of Paper 4.
const SAMPLE: &str = "\
registry 2 1 1 12 waiting
control 1 1 1 1 idle
board 1 1 1 1 1 1 1 late
board 2 1 1 1 1 1 0 late
board 3 1 1 1 1 1 0 late
board 4 1 1 1 1 1 0 late
board 5 1 1 1 1 1 0 late
board 6 1 1 1 1 1 0 late
board 7 1 1 1 1 1 0 late
board 8 1 1 1 1 1 0 late
receipts 1 41@1
";

#[test]
fn the_lines_of_the_sample() {
    let append = [1, 1, 0, 0, 41, 0, 0, 0];
    let sheet = [
        OPENING,
        append,
        [2, 1, 0, 0, 0, 0, 0, 0],
        [3, 2, 0, 0, 0, 0, 0, 0],
    ];
    let image = save_sheet(&sheet.concat()).unwrap();
    for mut scratch in LONG.into_iter().flat_map(lendable) {
        assert_eq!(show_in(&image, &mut scratch).as_deref(), Ok(SAMPLE));
        assert!(is_zero(&scratch));
    }
}

#[test]
fn the_lines_of_each_error() {
    for (image, expected) in one_for_each() {
        let mut scratch = [255; 576];
        assert_eq!(show_in(&image, &mut scratch).map(|_| ()), expected);
        assert!(is_zero(&scratch));
        assert_eq!(show_in(&image, &mut [255; 575]), Err(3));
    }
}

#[test]
fn each_length_of_a_scratch() {
    let image = image();
    for length in 0..=4700 {
        let mut scratch = vec![1; length];
        let answer = read_in(&image, LENT, &mut scratch);
        match length {
            0..576 => assert!(answer == Err(3) && scratch == vec![1; length]),
            _ => assert!(answer == read(&image) && is_zero(&scratch)),
        }
    }
}

/// The lent bytes may begin anywhere.
#[test]
fn a_scratch_begins_anywhere() {
    let lists = full(&mut Random::new(6));
    let longest = image_of(&lists);
    let mut memory = [255; 3000];
    for begin in [0, 1, 1000, 2424] {
        let answer = read_in(&longest, LENT, &mut memory[begin..begin + 576]);
        assert!(answer == read(&longest));
        assert!(is_zero(&memory[begin..begin + 576]));
        memory.fill(255);
    }
}

/// Dirty in one byte alone, wherever it stands, the scratch says nothing of any record.
#[test]
fn each_byte_may_be_dirty() {
    let lists = full(&mut Random::new(7));
    let longest = image_of(&lists);
    let unmet = with_two(longest.clone(), link(&lists, 8, 511), 0);
    for place in 0..600 {
        for byte in [1, 128, 255] {
            for (image, expected) in [(&longest, Ok(())), (&unmet, Err(19))] {
                let mut scratch = [0; 600];
                scratch[place] = byte;
                let answer = read_in(image, LENT, &mut scratch);
                assert_eq!(answer.map(|_| ()), expected, "byte {place}");
                assert!(is_zero(&scratch));
            }
        }
    }
}

/// One scratch for all calls: nothing of one is left in the next.
#[test]
fn a_scratch_is_lent_again() {
    let mut random = Random::new(8);
    let lists = full(&mut random);
    let broken = with_two(image_of(&lists), link(&lists, 8, 511), 4609);
    let [first, second] = [image_of(&lists), image_of(&full(&mut random))];
    let images = [image(), first, broken, chain_of(513, 72), second];
    let mut scratch = [170; 700];
    for _ in 0..200 {
        let image = &images[random.below(images.len())];
        assert!(read_in(image, LENT, &mut scratch) == read(image));
        assert!(is_zero(&scratch));
    }
}

/// Numbers with their bits in one byte, in neighbouring ones, or at the ends, and some that are
/// 8, 256, 512, 576, 2,048 or 4,096 apart.
const PAIRS: [[u16; 2]; 24] = [
    [1, 2],
    [1, 8],
    [7, 8],
    [8, 9],
    [9, 16],
    [16, 17],
    [1, 9],
    [8, 16],
    [1, 257],
    [255, 256],
    [256, 257],
    [1, 513],
    [512, 513],
    [1, 577],
    [576, 577],
    [576, 1152],
    [2048, 2049],
    [1, 2049],
    [4096, 4097],
    [512, 4608],
    [4600, 4601],
    [4601, 4608],
    [4607, 4608],
    [1, 4608],
];

/// All 4,608 are met, then one of a pair twice and the other not at all: as many meetings as
/// before.
#[test]
fn one_of_a_pair_is_met_for_the_other() {
    let mut random = Random::new(9);
    for pair in PAIRS {
        for lists in [[0, 1], [1, 0], [0, 8], [8, 0], [3, 4]] {
            let numbers = random.permutation(4608);
            let [one, other] = lists;
            let lists = ending_in(numbers, pair, lists);
            let image = image_of(&lists);
            accepted(&image, &lists);
            error_19(&with_two(image.clone(), link(&lists, other, 511), pair[0]));
            error_19(&with_two(image, link(&lists, one, 511), pair[1]));
        }
    }
}

/// The pair, then the other numbers up to its larger one.
fn before_the_others([a, b]: [u16; 2]) -> Vec<u16> {
    let others = (1..=a.max(b)).filter(|&k| k != a && k != b);
    [a, b].into_iter().chain(others).collect()
}

/// Both are alone in their logs; so 7 lists of 512 are left for the others.
#[test]
fn a_pair_in_two_logs() {
    for [a, b] in PAIRS.into_iter().filter(|pair| pair[1] <= 2 + 7 * 512) {
        let others = in_512s(&before_the_others([a, b])[2..]);
        let lists = [vec![vec![b], vec![a]], others].concat();
        let image = image_of(&lists);
        let [next_of_a, next_of_b] = [a, b].map(|k| record(k.into()) + 6);
        accepted(&image, &lists);
        error_19(&with_two(image.clone(), firsts()[0], a));
        error_19(&with_two(image.clone(), firsts()[1], b));
        // All are met, and one of the pair again: behind the other, behind itself.
        error_19(&with_two(image.clone(), next_of_a, b));
        error_19(&with_two(image.clone(), next_of_b, a));
        error_19(&with_two(image.clone(), next_of_a, a));
        error_19(&with_two(image.clone(), next_of_b, b));
        // In a ring.
        error_19(&with_two(with_two(image, next_of_a, b), next_of_b, a));
    }
}

/// Board 1's log begins with the pair, in either order.
#[test]
fn a_pair_in_one_log() {
    for [a, b] in PAIRS.into_iter().chain(PAIRS.map(|[a, b]| [b, a])) {
        let lists = in_512s(&before_the_others([a, b]));
        let image = image_of(&lists);
        let [next_of_a, next_of_b] = [a, b].map(|k| record(k.into()) + 6);
        accepted(&image, &lists);
        // One is left out, or the first met again.
        error_19(&with_two(image.clone(), firsts()[0], b));
        let third = two_at(&image, next_of_b) as u16;
        error_19(&with_two(image.clone(), next_of_a, third));
        error_19(&with_two(image.clone(), next_of_a, a));
        error_19(&with_two(image.clone(), next_of_b, a));
        error_19(&with_two(image, next_of_b, b));
    }
}

#[test]
fn all_records_in_any_numbering() {
    let up: Vec<u16> = (1..=4608).collect();
    let down: Vec<u16> = (1..=4608).rev().collect();
    // In turn, so that neighbours of a byte stand in nine lists, or as far apart as can be.
    let by_lists: Vec<u16> = (0..4608).map(|k| 1 + k % 512 * 9 + k / 512).collect();
    let by_bits: Vec<u16> = (0..4608).map(|k| 1 + k % 576 * 8 + k / 576).collect();
    let mut all = vec![up, down, by_lists, by_bits];
    all.extend((0..50).map(|seed| Random::new(seed).permutation(4608)));
    for numbers in all {
        let lists = in_512s(&numbers);
        accepted(&image_of(&lists), &lists);
    }
}

/// Each of 4,608 records in turn: the link to it goes to the next one.
#[test]
fn one_record_is_left_out() {
    let lists = full(&mut Random::new(10));
    let image = image_of(&lists);
    for list in 0..9 {
        for n in 0..512 {
            let next = lists[list].get(n + 1).copied().unwrap_or(0);
            error_19(&with_two(image.clone(), link(&lists, list, n), next));
        }
    }
}

/// Each of 4,608 records in turn ends its own list and, in place of another record, a second
/// one.
#[test]
fn one_record_is_doubled() {
    let mut random = Random::new(11);
    let numbers = random.permutation(4608);
    for k in 1..=4608_u16 {
        // Another record, near it or far.
        let step = [1, 2, 7, 8, 256, 4607][random.below(6)];
        let other = 1 + (k - 1 + step) % 4608;
        let [one, two] = [[0, 8], [8, 0], [4, 5], [7, 2]][random.below(4)];
        let lists = ending_in(numbers.clone(), [k, other], [one, two]);
        let image = image_of(&lists);
        assert!(least(&image).is_ok(), "record {k}");
        error_19(&with_two(image, link(&lists, two, 511), k));
    }
}

/// All records are met, and the last of one list also by the one after it, which has room.
#[test]
fn one_record_is_doubled_and_none_left_out() {
    for n in [2, 8, 9, 10, 16, 17, 511, 513, 1000, 4097, 4599, 4607] {
        let numbers = Random::new(n).permutation(n as usize);
        let half = numbers.len() / 2;
        let lists = match n {
            0..=512 => vec![numbers[..half].to_vec(), numbers[half..].to_vec()],
            _ => in_512s(&numbers),
        };
        let image = image_of(&lists);
        accepted(&image, &lists);
        let [.., before, last] = &lists[..] else {
            unreachable!("two lists or more");
        };
        let [end, met] = [last, before].map(|list| *list.last().unwrap());
        error_19(&with_two(image, record(end.into()) + 6, met));
    }
}

/// Of each count of records, all met, and then all but the last or the first: the marks may
/// end anywhere in a byte.
#[test]
fn each_count_of_records() {
    let all: Vec<u16> = (1..=4608).collect();
    for n in 0..=4608 {
        let lists = in_512s(&all[..n]);
        let image = image_of(&lists);
        accepted(&image, &lists);
        if n > 0 {
            let last = link(&lists, lists.len() - 1, (n - 1) % 512);
            error_19(&with_two(image.clone(), last, 0));
            // A number more, past the last record.
            let past = record(n) + 6;
            error_19(&with_two(image.clone(), past, n as u16 + 1));
            let second = lists[0].get(1).copied().unwrap_or(0);
            error_19(&with_two(image, firsts()[0], second));
        }
    }
}

#[test]
fn chains_of_512_and_513() {
    let mut random = Random::new(12);
    for (list, first) in firsts().into_iter().enumerate() {
        let [fits, over] = [chain_of(512, first), chain_of(513, first)];
        let row = least(&random.scrambled(&fits)).unwrap();
        assert!(row == read(&fits).unwrap());
        let lengths = entries(&row).map(|list| list.len());
        let mut expected = [0; 9];
        expected[list] = 512;
        assert_eq!(lengths, expected);
        for image in [random.scrambled(&over), over, chain_of(4608, first)] {
            error_19(&image);
        }
    }
    // Two lists of 512 in one: no record is met twice, and none not at all.
    let lists = full(&mut random);
    for (one, two) in [(0, 1), (1, 0), (7, 8), (8, 7)] {
        let end = record(lists[one][511].into()) + 6;
        let image = with_two(image_of(&lists), end, lists[two][0]);
        error_19(&with_two(image, firsts()[two], 0));
    }
    // A list of 511 and one of 513 among nine: the second's last goes on with the first's.
    let end = record(lists[1][511].into()) + 6;
    let image = with_two(image_of(&lists), end, lists[0][511]);
    error_19(&with_two(image, link(&lists, 0, 511), 0));
}

/// Three records with all their links, from boards 1 and 2 and the receipts, with the numbers
/// that they get among ten; the other seven are board 3's.
#[test]
fn all_images_of_three_records() {
    let mut right = 0;
    let lists = [vec![1], vec![2], (4..=10).collect()];
    let mut image = image_of(&[&lists[..], &vec![vec![]; 5], &[vec![3]]].concat());
    let links = [72, 98, 256, record(1) + 6, record(2) + 6, record(3) + 6];
    for n in 0..5_u32.pow(6) {
        for (at, link) in (0..).zip(links) {
            // The end, one of the three, or one past the last.
            let k = [0, 1, 2, 3, 11][(n / 5_u32.pow(at) % 5) as usize];
            image = with_two(image, link, k);
        }
        for numbers in [[1, 2, 3], [7, 8, 9], [1, 8, 9], [8, 9, 10], [10, 1, 8]] {
            let others = (1..=10).rev().filter(|k| !numbers.contains(k));
            let permutation: Vec<u16> = numbers.into_iter().chain(others).collect();
            right += usize::from(chains_answer(&renumbered(&image, &permutation)));
        }
    }
    // Three records in any order, 6, parted into three lists, 10, in five numberings.
    assert_eq!(right, 6 * 10 * 5);
}

/// The images of random runs, in any numbering: the row of the run, and its lines.
#[test]
fn images_of_runs() {
    for seed in 0..1500 {
        let mut random = Random::new(seed);
        let records = random.records(1500);
        let image = write(&row_of(&records));
        let listing = list(&records.concat()).unwrap();
        let lines: String = listing.split_inclusive('\n').skip(records.len()).collect();
        for image in [random.scrambled(&image), image] {
            assert!(
                least(&image).unwrap().same(&row_of(&records)),
                "seed {seed}"
            );
            let mut scratch = vec![255; 576 + random.below(5000)];
            assert_eq!(show_in(&image, &mut scratch).as_ref(), Ok(&lines));
            assert!(is_zero(&scratch));
        }
    }
}

/// The links of a run's image, or of one with all records, some of them elsewhere.
#[test]
fn damaged_links() {
    let (mut right, mut wrong) = (0, 0);
    for seed in 2000..5000 {
        let mut random = Random::new(seed);
        let image = match seed % 4 {
            0 => image_of(&full(&mut random)),
            _ => write(&row_of(&random.records(800))),
        };
        let mut image = random.scrambled(&image);
        for _ in 0..random.below(3) {
            image = damaged(image, &mut random);
        }
        match chains_answer(&image) {
            true => right += 1,
            false => wrong += 1,
        }
    }
    assert!(right > 500 && wrong > 500, "{right} {wrong}");
}

/// Two links change places, which may be right too, or one gets any number or the other's.
fn damaged(image: Vec<u8>, random: &mut Random) -> Vec<u8> {
    let last = (image.len() - 258) / 8;
    let nexts = (1..=last).map(|k| record(k) + 6);
    let links: Vec<usize> = nexts.chain(firsts()).collect();
    let [one, other] = array::from_fn(|_| links[random.below(links.len())]);
    let [here, there] = [one, other].map(|link| two_at(&image, link) as u16);
    match random.below(6) {
        0 => with_two(image, one, random.below(last + 2) as u16),
        1 => with_two(image, one, random.below(65_536) as u16),
        2 => with_two(image, one, there),
        _ => with_two(with_two(image, one, there), other, here),
    }
}

/// Any bytes in them, and some cut short: 17, 18, 19 or a row, as without a scratch.
#[test]
fn images_from_elsewhere() {
    let mut answers = [0; 20];
    for seed in 6000..10_000 {
        let mut random = Random::new(seed);
        let image = write(&row_of(&random.records(800)));
        let mut image = random.scrambled(&image);
        for _ in 0..random.below(6) {
            let place = random.below(image.len());
            image[place] = match random.below(4) {
                0 => random.below(256) as u8,
                _ => random.below(10) as u8,
            };
        }
        if random.below(8) == 0 {
            image.truncate(random.below(image.len()));
        }
        let answer = least(&image);
        let mut scratch = vec![85; 576 + random.below(5000)];
        assert!(read_in(&image, LENT, &mut scratch) == answer, "seed {seed}");
        assert!(is_zero(&scratch));
        answers[usize::from(answer.err().unwrap_or(0))] += 1;
    }
    let met = [0, 17, 18, 19].map(|number| answers[number]);
    assert_eq!(met.iter().sum::<usize>(), 4000);
    assert!(met.iter().all(|&n| n > 200), "{met:?}");
}
