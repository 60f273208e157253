//! Images of random runs: document 02, Paper 7. A written row reads back as the same row, and
//! a run cut anywhere, saved, read and continued equals the uncut run.

mod random;

use peer::behind::behind;
use peer::image::{read, resume_sheet, save_sheet, show_image, write};
use peer::list;
use peer::row::{Outcome, Status};
use peer::seed::make;
use random::{row_of, Random};

fn outcomes(records: &[[u8; 8]]) -> Vec<Outcome> {
    let all = behind(&records.concat()).unwrap();
    all.into_iter().map(|behind| behind.outcome).collect()
}

/// A listing without the lines of its first n records.
fn lines_after(listing: &str, n: usize) -> String {
    listing.split_inclusive('\n').skip(n).collect()
}

#[test]
fn a_written_row_reads_back_as_the_same_row() {
    // How many rows hold what an image might lose.
    let (mut receipts, mut two_logs, mut heard, mut joined, mut choosing) = (0, 0, 0, 0, 0);
    for seed in 0..3000 {
        let mut random = Random::new(seed);
        let records = random.records(1500);
        let row = row_of(&records);
        let image = write(&row);
        assert_eq!(save_sheet(&records.concat()).as_ref(), Ok(&image));
        assert!(read(&image).unwrap().same(&row), "seed {seed}");
        // In any numbering too; and it is written in one.
        let again = read(&random.scrambled(&image)).unwrap();
        assert!(again.same(&row), "seed {seed}");
        assert_eq!(write(&again), image);
        // The listing says no more of a row than its image.
        let listing = list(&records.concat()).unwrap();
        assert_eq!(show_image(&image), Ok(lines_after(&listing, records.len())));

        let logs = row.boards.iter().filter(|board| board.log.len() > 1);
        two_logs += usize::from(logs.count() > 1);
        receipts += usize::from(row.receipts.len() > 1);
        let all = row.control.heard;
        heard += usize::from(all.iter().any(|heard| heard.length.is_some()));
        joined += usize::from(all.iter().any(|heard| heard.joined != 0));
        choosing += usize::from(row.status == Status::Choosing);
    }
    let met = [two_logs, receipts, heard, joined, choosing];
    assert!(met.iter().all(|&n| n > 50), "{met:?}");
}

/// Bench sheets of Paper 2, on all eight boards.
#[test]
fn bench_rows_read_back() {
    for seed in 0..100 {
        let mut sheet = vec![0; 8 * 4095];
        make(seed, 4095, &mut sheet);
        let image = save_sheet(&sheet).unwrap();
        let listing = list(&sheet).unwrap();
        let scrambled = Random::new(seed).scrambled(&image);
        assert_eq!(show_image(&scrambled), Ok(lines_after(&listing, 4095)));
        assert_eq!(write(&read(&scrambled).unwrap()), image);
    }
}

/// Cuts a run before record n, and continues it from the image in any numbering.
#[track_caller]
fn cut(records: &[[u8; 8]], n: usize, random: &mut Random) {
    let image = save_sheet(&records[..n].concat()).unwrap();
    let resumed = resume_sheet(&random.scrambled(&image), &records[n..].concat()).unwrap();
    assert_eq!(resumed.outcomes, outcomes(records)[n..]);
    assert_eq!(resumed.image, save_sheet(&records.concat()));
    assert!(resumed.row.same(&row_of(records)));
    // The lines of the uncut run, but for their numbers; then the lines of its row.
    let uncut = lines_after(&list(&records.concat()).unwrap(), n);
    assert_eq!(resumed.listing.lines().count(), uncut.lines().count());
    let both = resumed.listing.lines().zip(uncut.lines());
    for (number, (own, theirs)) in (1..).zip(both) {
        if number > records.len() - n {
            assert_eq!(own, theirs);
            continue;
        }
        let theirs = theirs.split_once(' ').unwrap().1;
        assert_eq!(own, format!("{number} {theirs}"));
    }
}

#[test]
fn a_run_cut_anywhere_equals_the_uncut_run() {
    for seed in 3000..3020 {
        let mut random = Random::new(seed);
        let records = random.records(500);
        for n in 1..=records.len() {
            cut(&records, n, &mut random);
        }
    }
    for seed in 4000..5500 {
        let mut random = Random::new(seed);
        let records = random.records(1500);
        let n = 1 + random.below(records.len());
        cut(&records, n, &mut random);
    }
}

/// Power fails after each record.
#[test]
fn a_run_cut_everywhere_equals_the_uncut_run() {
    let mut accepted = [0; 16];
    for seed in 6000..6100 {
        let mut random = Random::new(seed);
        let records = random.records(1500);
        let mut image = save_sheet(&records[0]).unwrap();
        let mut met = vec![Outcome::ACCEPTED];
        for record in &records[1..] {
            let resumed = resume_sheet(&random.scrambled(&image), record).unwrap();
            image = resumed.image.unwrap();
            met.extend(resumed.outcomes);
        }
        assert_eq!(met, outcomes(&records), "seed {seed}");
        assert_eq!(Ok(image), save_sheet(&records.concat()), "seed {seed}");
        for (record, outcome) in records.iter().zip(met) {
            accepted[usize::from(record[0] % 16)] += usize::from(outcome.answer == 0);
        }
    }
    assert!(accepted.iter().all(|&n| n > 10), "{accepted:?}");
}

/// Images with any bytes in them: an error, or a row that no run gives, most of the time. Then
/// it is written and read as the same row, and takes any steps without a panic.
#[test]
fn images_from_elsewhere() {
    let mut verdicts = [0; 20];
    for seed in 7000..13_000 {
        let mut random = Random::new(seed);
        let image = save_sheet(&random.records(800).concat()).unwrap();
        let mut image = random.scrambled(&image);
        for _ in 0..random.below(6) {
            let place = random.below(image.len());
            // Small numbers, and any.
            image[place] = match random.below(4) {
                0 => random.below(256) as u8,
                _ => random.below(10) as u8,
            };
        }
        let row = match read(&image) {
            Ok(row) => row,
            Err(number) => {
                verdicts[usize::from(number)] += 1;
                continue;
            }
        };
        verdicts[0] += 1;
        assert!(!row.turned_away());
        let written = write(&row);
        assert_eq!(written.len(), image.len());
        assert!(read(&written).unwrap().same(&row), "seed {seed}");
        let records: Vec<_> = (0..60).map(|_| random.record(8)).collect();
        let [one, two] = [image, written].map(|image| resume_sheet(&image, &records.concat()));
        let [one, two] = [one.unwrap(), two.unwrap()];
        assert_eq!(one.outcomes, two.outcomes);
        assert_eq!(one.image, two.image);
        assert_eq!(one.listing, two.listing);
    }
    let [read, e18, e19] = [verdicts[0], verdicts[18], verdicts[19]];
    assert!(read > 1000 && e18 > 500 && e19 > 500, "{verdicts:?}");
}
