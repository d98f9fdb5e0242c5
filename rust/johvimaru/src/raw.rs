//! The library's calls as they are: buffers of any length, records of any content, and replies as
//! numbers.
//!
//! These functions are safe, since the library tests what it is given and refuses what is wrong. They
//! are for tests of the library, and for callers whose record must lie in buffers of their own. All
//! others use [`Store`](crate::Store), which keeps image and record together. The forms with n and k,
//! which end in `_cut`, come with the feature `cut`. Those that begin with `bus` and `model` are for a chip on a
//! bus; all others use [`BusChip`](crate::BusChip) and [`ModelBus`](crate::ModelBus).
//!
//! ```
//! use johvimaru::raw::{self, Record};
//!
//! let mut record = Record::blank();
//! let mut image = vec![0xff; 8 * johvimaru::BLOCK];
//! assert_eq!(raw::format(&mut image, &mut record, &[1; johvimaru::NOISE]), raw::DONE);
//! assert_eq!(raw::write(&mut image, &mut record, 13, 7, b"track"), raw::DONE);
//! // File 13 has no offset 8: that is document 01's refusal 5.
//! assert_eq!(raw::write(&mut image, &mut record, 13, 8, b"track"), 5);
//!
//! let mut output = [0; johvimaru::PAYLOAD];
//! assert_eq!(raw::read(&image, &record, 13, 7, &mut output), (raw::DONE, 5));
//! assert_eq!(output[..6], *b"track\0");
//! assert_eq!(raw::read(&image, &record, 13, 6, &mut output), (8, 0));
//! ```

mod bus;

pub use bus::{bus_erase_byte, bus_program_byte, bus_reply, model_receive, model_send, Registers};

#[cfg(feature = "cut")]
use crate::Cut;
use crate::{ffi, KEYS, PLACES};
use alloc::vec;
use alloc::vec::Vec;
use core::fmt;

/// The reply of a call that was done.
pub const DONE: u32 = 0;
/// The reply of a call that the power cut.
pub const POWER_CUT: u32 = 255;
/// Stands in a map for none.
pub const NONE: u16 = 65_535;
/// Numbers in a map.
pub const MAP: usize = 2 * PLACES;

/// The working record of an image, in buffers that may have any length and content.
#[derive(Clone, PartialEq, Eq)]
pub struct Record {
    /// For each place its page, then for each place its key position; [`NONE`] where it holds nothing.
    pub map: Vec<u16>,
    /// One letter for each key position: f free, u used, d deleted.
    pub letters: Vec<u8>,
    /// Next sequence, next epoch, and the blocks of key block 0, key block 1 and the commit.
    pub numbers: [u32; 5],
}

/// Lengths and counts: the numbers and letters themselves are too many to be read.
impl fmt::Debug for Record {
    fn fmt(&self, f: &mut fmt::Formatter) -> fmt::Result {
        let Record { map, letters, numbers } = self;
        let none = map.iter().filter(|&&number| number == NONE).count();
        let [free, used, deleted] =
            [b'f', b'u', b'd'].map(|letter| letters.iter().filter(|&&of| of == letter).count());
        f.debug_struct("Record")
            .field("map", &format_args!("{} ({none} none)", map.len()))
            .field("letters", &format_args!("{} ({free} f, {used} u, {deleted} d)", letters.len()))
            .field("numbers", numbers)
            .finish()
    }
}

impl Record {
    /// A record of the right lengths, for format or mount to fill.
    pub fn blank() -> Record {
        Record { map: vec![NONE; MAP], letters: vec![b'f'; KEYS], numbers: [0; 5] }
    }
}

/// Formats an image with 7,168 bytes of noise and makes its record.
pub fn format(image: &mut [u8], record: &mut Record, noise: &[u8]) -> u32 {
    ffi::format(image, record, noise, None)
}

/// Finds the record of an image, with a scratch of 224 numbers, and erases every block that is not needed, as
/// [`Store::mount`](crate::Store::mount).
pub fn mount(image: &mut [u8], record: &mut Record, scratch: &mut [u32]) -> u32 {
    ffi::mount(image, record, scratch, None)
}

/// Writes a payload of 1 to 224 bytes at a file's offset.
pub fn write(image: &mut [u8], record: &mut Record, file: u32, offset: u32, payload: &[u8]) -> u32 {
    ffi::write(image, record, (file, offset), payload, None)
}

/// Reads the payload at a file's offset into the first of 224 bytes, and leaves the others as they were. Gives
/// the reply, and how many bytes the payload has, 0 where it was refused.
pub fn read(
    image: &[u8],
    record: &Record,
    file: u32,
    offset: u32,
    output: &mut [u8],
) -> (u32, usize) {
    ffi::read(image, record, (file, offset), output)
}

/// Removes the nodes of a file from an offset on.
pub fn cut_off(image: &mut [u8], record: &mut Record, file: u32, offset: u32) -> u32 {
    ffi::cut_off(image, record, (file, offset), None)
}

/// Copies the live pages of a data block to pages outside it.
///
/// ```
/// use johvimaru::raw::{self, Record};
///
/// let (mut record, mut image) = (Record::blank(), vec![0xff; 8 * johvimaru::BLOCK]);
/// assert_eq!(raw::format(&mut image, &mut record, &[1; johvimaru::NOISE]), raw::DONE);
/// assert_eq!(raw::write(&mut image, &mut record, 0, 0, b"track"), raw::DONE);
/// assert_eq!(record.map[0], 48);
/// assert_eq!(raw::gather(&mut image, &mut record, 3), raw::DONE);
/// assert_eq!(record.map[0], 64);
/// // Block 3 has no live page now, and block 0 is no data block.
/// assert_eq!(raw::gather(&mut image, &mut record, 3), 15);
/// assert_eq!(raw::gather(&mut image, &mut record, 0), 15);
/// ```
pub fn gather(image: &mut [u8], record: &mut Record, block: u32) -> u32 {
    ffi::gather(image, record, block, None)
}

/// Replaces every key that is not used, with 7,168 bytes of noise, and puts the map onto the image.
pub fn commit(image: &mut [u8], record: &mut Record, noise: &[u8]) -> u32 {
    ffi::commit(image, record, noise, None)
}

/// Removes the nodes of a file from an offset on, and commits.
pub fn wipe(image: &mut [u8], record: &mut Record, noise: &[u8], file: u32, offset: u32) -> u32 {
    ffi::wipe(image, record, noise, (file, offset), None)
}

/// A format that the power cuts.
#[cfg(feature = "cut")]
pub fn format_cut(image: &mut [u8], record: &mut Record, noise: &[u8], cut: Cut) -> u32 {
    ffi::format(image, record, noise, Some(cut))
}

/// A mount that the power cuts.
#[cfg(feature = "cut")]
pub fn mount_cut(image: &mut [u8], record: &mut Record, scratch: &mut [u32], cut: Cut) -> u32 {
    ffi::mount(image, record, scratch, Some(cut))
}

/// A write that the power cuts.
#[cfg(feature = "cut")]
pub fn write_cut(
    image: &mut [u8],
    record: &mut Record,
    file: u32,
    offset: u32,
    payload: &[u8],
    cut: Cut,
) -> u32 {
    ffi::write(image, record, (file, offset), payload, Some(cut))
}

/// A cut-off that the power cuts.
#[cfg(feature = "cut")]
pub fn cut_off_cut(image: &mut [u8], record: &mut Record, file: u32, offset: u32, cut: Cut) -> u32 {
    ffi::cut_off(image, record, (file, offset), Some(cut))
}

/// A gather that the power cuts.
#[cfg(feature = "cut")]
pub fn gather_cut(image: &mut [u8], record: &mut Record, block: u32, cut: Cut) -> u32 {
    ffi::gather(image, record, block, Some(cut))
}

/// A commit that the power cuts.
#[cfg(feature = "cut")]
pub fn commit_cut(image: &mut [u8], record: &mut Record, noise: &[u8], cut: Cut) -> u32 {
    ffi::commit(image, record, noise, Some(cut))
}

/// A wipe that the power cuts.
#[cfg(feature = "cut")]
pub fn wipe_cut(
    image: &mut [u8],
    record: &mut Record,
    noise: &[u8],
    file: u32,
    offset: u32,
    cut: Cut,
) -> u32 {
    ffi::wipe(image, record, noise, (file, offset), Some(cut))
}
