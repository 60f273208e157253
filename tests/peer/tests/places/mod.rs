//! Images with other bytes at their places: document 02, Paper 7. Places are counted in the
//! head by hand: the registry from 0, the controller from 8, what is heard from 16 in 4 bytes
//! a board, the boards from 48 in 26 bytes each, the receipts' first at 256, records from 258.

use std::array;

use peer::image::save_sheet;

/// Opening with board 1, append 41 and 42, receipt: log of records 1 and 2, receipt 3.
pub fn image() -> Vec<u8> {
    let append = |value| [1, 1, 0, 0, value, 0, 0, 0];
    let opening = [0, 1, 0, 0, 0, 0, 0, 0];
    let receipt = [2, 1, 0, 0, 0, 0, 0, 0];
    let image = save_sheet(&[opening, append(41), append(42), receipt].concat()).unwrap();
    assert_eq!(image.len(), 258 + 8 * 3);
    image
}

/// An image with other bytes at a place.
pub fn with(mut image: Vec<u8>, place: usize, bytes: &[u8]) -> Vec<u8> {
    image[place..place + bytes.len()].copy_from_slice(bytes);
    image
}

pub fn with_two(image: Vec<u8>, place: usize, n: u16) -> Vec<u8> {
    with(image, place, &n.to_le_bytes())
}

/// The place of board b in the head.
pub fn board(b: usize) -> usize {
    48 + 26 * (b - 1)
}

/// The place of record k.
pub fn record(k: usize) -> usize {
    258 + 8 * (k - 1)
}

/// The places of the nine first records: each board's, then the receipts'.
pub fn firsts() -> [usize; 9] {
    array::from_fn(|list| match list {
        8 => 256,
        _ => board(list + 1) + 24,
    })
}

/// A chain of n records from a first, all epochs 1, on an opened row.
pub fn chain_of(n: u16, first: usize) -> Vec<u8> {
    let head = save_sheet(&[0, 1, 0, 0, 0, 0, 0, 0]).unwrap();
    let mut image = with_two(head, first, 1);
    for number in 1..=n {
        let [n0, n1] = (if number == n { 0 } else { number + 1 }).to_le_bytes();
        image.extend([7, 0, 0, 0, 1, 0, n0, n1]);
    }
    image
}
