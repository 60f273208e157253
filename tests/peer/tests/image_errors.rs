//! The errors of reading an image: document 02, Paper 7.

mod places;

use peer::image::{read, save_sheet};
use peer::row::{Row, Status};
use places::{board, chain_of, firsts, image, record, with, with_two};

#[track_caller]
fn accepted(image: Vec<u8>) -> Row {
    read(&image).expect("an accepted image")
}

#[track_caller]
fn error(image: Vec<u8>, number: u8) {
    assert_eq!(read(&image).map(|_| ()), Err(number));
}

/// The image's two bytes at a place may be these numbers, and not those [18].
#[track_caller]
fn two_bytes(place: usize, good: &[u16], bad: &[u16]) {
    for &n in good {
        accepted(with_two(image(), place, n));
    }
    for &n in bad {
        error(with_two(image(), place, n), 18);
    }
}

#[track_caller]
fn one_byte(place: usize, good: &[u8], bad: &[u8]) {
    for &n in good {
        accepted(with(image(), place, &[n]));
    }
    for &n in bad {
        error(with(image(), place, &[n]), 18);
    }
}

#[test]
fn the_length_17() {
    accepted(image());
    let head = save_sheet(&[0, 1, 0, 0, 0, 0, 0, 0]).unwrap();
    assert_eq!(head.len(), 258);
    for length in [0, 1, 8, 250, 257] {
        error(head[..length].to_vec(), 17);
    }
    for more in [
        1, 2, 3, 4, 5, 6, 7, 9, 15, 17, 36_863, 36_865, 36_872, 100_000,
    ] {
        error([head.clone(), vec![1; more]].concat(), 17);
    }
    // 8 and 36,864 more are 1 and 4,608 records, met by no chain; 36,872 would be 4,609.
    for more in [8, 36_864] {
        error([head.clone(), vec![1; more]].concat(), 19);
    }
}

#[test]
fn epochs_18() {
    let mut places = vec![0, 2, 8, 10];
    for b in 1..=8 {
        // epoch, leader epoch and joined
        places.extend([board(b), board(b) + 2, board(b) + 4]);
    }
    for k in 1..=3 {
        places.push(record(k) + 4);
    }
    assert_eq!(places.len(), 4 + 24 + 3);
    for place in places {
        two_bytes(place, &[1, 2, 256, 4000], &[0, 4001, 4096, 32_768, 65_535]);
    }
}

#[test]
fn leaders_18() {
    // The registry is normal: its leader may not be 0. The controller is idle.
    one_byte(4, &[1, 8], &[0, 9, 255]);
    for place in [12].into_iter().chain((1..=8).map(|b| board(b) + 6)) {
        one_byte(place, &[0, 1, 8], &[9, 10, 128, 255]);
    }
}

#[test]
fn status_and_stage_18() {
    one_byte(6, &[0, 1, 2], &[3, 4, 128, 255]);
    one_byte(14, &[0, 1, 2, 3], &[4, 5, 128, 255]);
}

#[test]
fn zero_bytes_18() {
    for place in [7, 15] {
        one_byte(place, &[0], &[1, 2, 128, 255]);
    }
}

#[test]
fn members_may_be_any_set() {
    let all: Vec<u8> = (0..=255).collect();
    for place in [5, 13].into_iter().chain((1..=8).map(|b| board(b) + 7)) {
        one_byte(place, &all, &[]);
    }
}

#[test]
fn counts_18() {
    for b in 1..=8 {
        for c in 1..=8 {
            // Nothing is asked of counts against lengths.
            let place = board(b) + 8 + 2 * (c - 1);
            two_bytes(place, &[0, 1, 512], &[513, 1024, 65_535]);
        }
    }
}

#[test]
fn heard_lengths_18() {
    for b in 1..=8 {
        // None, or 0 to 512; and joined 0 to 4,000, also where no length is heard.
        let place = 16 + 4 * (b - 1);
        two_bytes(place, &[0, 1, 512, 65_535], &[513, 4000, 32_768, 65_534]);
        two_bytes(place + 2, &[0, 1, 513, 4000], &[4001, 65_535]);
        let heard = accepted(with_two(image(), place + 2, 4000)).control.heard[b - 1];
        assert_eq!((heard.length, heard.joined), (None, 4000));
        let heard = accepted(with(image(), place, &[0, 2, 0xA0, 0x0F]))
            .control
            .heard[b - 1];
        assert_eq!((heard.length, heard.joined), (Some(512), 4000));
    }
}

/// The rows that refusal 1 turns away for a leader 0, at each status and stage.
#[test]
fn no_leader_18() {
    for status in 0..=2 {
        for stage in 0..=3 {
            let led = with(with(image(), 6, &[status]), 14, &[stage]);
            accepted(led.clone());
            let registry = with(led.clone(), 4, &[0]);
            match status {
                2 => assert_eq!(accepted(registry).status, Status::Choosing),
                _ => error(registry, 18),
            }
            let control = with(led, 12, &[0]);
            match stage {
                0 | 3 => assert_eq!(accepted(control).control.view.leader, 0),
                _ => error(control, 18),
            }
        }
    }
}

#[test]
fn past_the_last_record_19() {
    for b in 2..=8 {
        for first in [4, 5, 4608, 4609, 65_535] {
            error(with_two(image(), board(b) + 24, first), 19);
        }
    }
    for past in [4, 5, 4608, 4609, 65_535] {
        error(with_two(image(), board(1) + 24, past), 19);
        error(with_two(image(), 256, past), 19);
        // The next of the log's last record, of its first, and of the receipt's.
        error(with_two(image(), record(2) + 6, past), 19);
        error(with_two(image(), record(1) + 6, past), 19);
        error(with_two(image(), record(3) + 6, past), 19);
    }
    // Without records, every first past 0 is past the last.
    let head = save_sheet(&[0, 1, 0, 0, 0, 0, 0, 0]).unwrap();
    error(with_two(head.clone(), board(5) + 24, 1), 19);
    error(with_two(head, 256, 65_535), 19);
}

#[test]
fn met_twice_19() {
    // by one chain: record 2 goes on with 1, with itself; the receipt with itself
    error(with_two(image(), record(2) + 6, 1), 19);
    error(with_two(image(), record(2) + 6, 2), 19);
    error(with_two(image(), record(3) + 6, 3), 19);
    // by two: board 8's log begins with 1, with 2; the log goes on with the receipt, and
    // the receipts with the log's last, which ends there
    error(with_two(image(), board(8) + 24, 1), 19);
    error(with_two(image(), board(8) + 24, 2), 19);
    error(with_two(image(), record(2) + 6, 3), 19);
    error(with_two(image(), record(3) + 6, 2), 19);
    // The same first for two lists that were both empty.
    let twice = with_two(with_two(image(), board(3) + 24, 3), board(4) + 24, 3);
    error(with_two(twice, 256, 0), 19);
}

#[test]
fn not_met_19() {
    error(with_two(image(), 256, 0), 19);
    error(with_two(image(), board(1) + 24, 0), 19);
    error(with_two(image(), board(1) + 24, 2), 19);
    error(with_two(image(), record(1) + 6, 0), 19);
    // The last record, after all that chains meet.
    error([image(), vec![0, 0, 0, 0, 1, 0, 0, 0]].concat(), 19);
    // A ring that no list begins with: its records are met by none.
    let ring = [[0, 0, 0, 0, 1, 0, 5, 0], [0, 0, 0, 0, 1, 0, 4, 0]];
    error([image(), ring.concat()].concat(), 19);
    // Given to board 6, the receipt is met: it is a log of one entry then.
    let moved = accepted(with_two(with_two(image(), 256, 0), board(6) + 24, 3));
    assert_eq!((&*moved.board(6).log, moved.receipts.len()), (&[41][..], 0));
}

#[test]
fn more_than_512_entries_19() {
    for first in firsts() {
        accepted(chain_of(512, first));
        error(chain_of(513, first), 19);
        error(chain_of(4608, first), 19);
    }
    assert_eq!(accepted(chain_of(512, 256)).receipts.len(), 512);
    // A receipts' list of 512 beside an empty log: nothing is asked of one against another.
    assert!(accepted(chain_of(512, 256)).board(1).log.is_empty());
}

#[test]
fn errors_come_in_order() {
    // 17 before 18 and 19: a byte too many, epoch 0, and a first past the last record.
    let all = with_two(with_two(image(), 0, 0), 256, 9);
    error([all.clone(), vec![0]].concat(), 17);
    error(vec![255; 257], 17);
    error(all, 18);
    // 18 before 19, for each part of the head, and for a record.
    let cut = with_two(image(), 256, 9);
    error(cut.clone(), 19);
    for (place, byte) in [(4, 0), (6, 3), (7, 1), (14, 4), (15, 1), (17, 3)] {
        error(with(cut.clone(), place, &[byte]), 18);
    }
    error(with_two(cut.clone(), board(8) + 22, 513), 18);
    // A record that no chain meets has its epoch checked before the chains.
    error(with_two(cut.clone(), record(3) + 4, 0), 18);
    error(with_two(cut, record(3) + 4, 4001), 18);
    error([image(), vec![0; 8]].concat(), 18);
    // Also behind a chain's break, and in a ring.
    let ring = with_two(image(), record(2) + 6, 1);
    error(with_two(ring, record(3) + 4, 0), 18);
    // The 513th entry, and an epoch of 0 in the last record.
    error(with_two(chain_of(513, 256), record(513) + 4, 0), 18);
}

/// Values are any numbers, and no other place of a record asks for less.
#[test]
fn values_are_free() {
    for value in [0, 1, 4001, u32::MAX] {
        let row = accepted(with(image(), record(2), &value.to_le_bytes()));
        assert_eq!(&*row.board(1).log, [41, value]);
    }
}
