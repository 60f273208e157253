//! The calls that are timed: the C entries of the library, and beside each the second
//! program as one.

use std::slice;

extern "C" {
    fn run_sheet(sheet: *const u8, sheet_len: usize, listing: *mut u8, listing_len: usize)
        -> usize;
    fn explain_sheet(sheet: *const u8, sheet_len: usize, text: *mut u8, text_len: usize) -> usize;
    fn seed_sheet(seed: u32, count: usize, sheet: *mut u8, sheet_len: usize) -> usize;
    fn save_sheet(sheet: *const u8, sheet_len: usize, image: *mut u8, image_len: usize) -> usize;
    fn show_image(
        image: *const u8,
        image_len: usize,
        text: *mut u8,
        text_len: usize,
        scratch: *mut u8,
        scratch_len: usize,
    ) -> usize;
}

#[no_mangle]
#[inline(never)]
unsafe extern "C" fn peer_sheet(
    sheet: *const u8,
    sheet_len: usize,
    listing: *mut u8,
    listing_len: usize,
) -> usize {
    // SAFETY: the caller gives each pointer with its slice's length.
    let (sheet, listing) = unsafe {
        (
            slice::from_raw_parts(sheet, sheet_len),
            slice::from_raw_parts_mut(listing, listing_len),
        )
    };
    peer::run(sheet, listing)
}

#[no_mangle]
#[inline(never)]
unsafe extern "C" fn peer_explain(
    sheet: *const u8,
    sheet_len: usize,
    text: *mut u8,
    text_len: usize,
) -> usize {
    // SAFETY: the caller gives each pointer with its slice's length.
    let (sheet, text) = unsafe {
        (
            slice::from_raw_parts(sheet, sheet_len),
            slice::from_raw_parts_mut(text, text_len),
        )
    };
    peer::words::explain(sheet, text)
}

#[no_mangle]
#[inline(never)]
unsafe extern "C" fn peer_seed(seed: u32, count: usize, sheet: *mut u8, sheet_len: usize) -> usize {
    // SAFETY: the caller gives the pointer with its slice's length.
    let sheet = unsafe { slice::from_raw_parts_mut(sheet, sheet_len) };
    peer::seed::make(seed, count, sheet)
}

#[no_mangle]
#[inline(never)]
unsafe extern "C" fn peer_save(
    sheet: *const u8,
    sheet_len: usize,
    image: *mut u8,
    image_len: usize,
) -> usize {
    // SAFETY: the caller gives each pointer with its slice's length.
    let (sheet, image) = unsafe {
        (
            slice::from_raw_parts(sheet, sheet_len),
            slice::from_raw_parts_mut(image, image_len),
        )
    };
    match peer::image::save_sheet(sheet) {
        Ok(saved) if saved.len() <= image.len() => {
            image[..saved.len()].copy_from_slice(&saved);
            saved.len()
        }
        Ok(_) => 3,
        Err(error) => error.into(),
    }
}

/// Needs no scratch: it has its own. The lines are written in place, as `peer::run` does,
/// and not into a string first, as `peer::image::show_image` does.
#[no_mangle]
#[inline(never)]
unsafe extern "C" fn peer_show(
    image: *const u8,
    image_len: usize,
    text: *mut u8,
    text_len: usize,
    _scratch: *mut u8,
    _scratch_len: usize,
) -> usize {
    // SAFETY: the caller gives each pointer with its slice's length.
    let (image, text) = unsafe {
        (
            slice::from_raw_parts(image, image_len),
            slice::from_raw_parts_mut(text, text_len),
        )
    };
    match peer::image::read(image) {
        Ok(row) => {
            let length = peer::listing::length(&[], &[], &row);
            if text.len() < length {
                return 3;
            }
            peer::listing::write(&mut text[..length], &[], &[], &row);
            length
        }
        Err(error) => error.into(),
    }
}

/// What `show_image` is lent.
const SCRATCH: usize = 576;

/// What both programs are given.
pub enum Input {
    /// A sheet, to be run.
    Sheet(Vec<u8>),
    /// A sheet, to be told in words.
    Told(Vec<u8>),
    /// A seed and a count of records, of which a sheet is to be made.
    Seed(u32, usize),
    /// A sheet, to be run and its row saved.
    Saved(Vec<u8>),
    /// An image, to be read and its row shown.
    Image(Vec<u8>),
}

impl Input {
    /// The names of the library's entry and of the second program's.
    pub fn names(&self) -> [&'static str; 2] {
        match self {
            Input::Sheet(_) => ["run_sheet", "peer_sheet"],
            Input::Told(_) => ["explain_sheet", "peer_explain"],
            Input::Seed(..) => ["seed_sheet", "peer_seed"],
            Input::Saved(_) => ["save_sheet", "peer_save"],
            Input::Image(_) => ["show_image", "peer_show"],
        }
    }

    /// Calls the library's entry, 0, or the second program's, 1. The scratch, where one is
    /// lent, is the end of the slice.
    pub fn call(&self, program: usize, out: &mut [u8]) -> usize {
        let (to, room) = (out.as_mut_ptr(), out.len());
        // SAFETY: each pointer goes with its slice's length, and no two overlap.
        unsafe {
            match self {
                Input::Sheet(sheet) => {
                    let run = [run_sheet, peer_sheet][program];
                    run(sheet.as_ptr(), sheet.len(), to, room)
                }
                Input::Told(sheet) => {
                    let explain = [explain_sheet, peer_explain][program];
                    explain(sheet.as_ptr(), sheet.len(), to, room)
                }
                Input::Seed(seed, count) => {
                    let make = [seed_sheet, peer_seed][program];
                    make(*seed, *count, to, room)
                }
                Input::Saved(sheet) => {
                    let save = [save_sheet, peer_save][program];
                    save(sheet.as_ptr(), sheet.len(), to, room)
                }
                Input::Image(image) => {
                    let show = [show_image, peer_show][program];
                    let (text, scratch) = out.split_at_mut(room - SCRATCH);
                    let (text, text_len) = (text.as_mut_ptr(), text.len());
                    show(
                        image.as_ptr(),
                        image.len(),
                        text,
                        text_len,
                        scratch.as_mut_ptr(),
                        SCRATCH,
                    )
                }
            }
        }
    }
}
