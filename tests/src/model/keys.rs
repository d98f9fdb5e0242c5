//! Document 01, "Page forms": where the key of a position is.

use super::pages::{HEADER, PAGE};
use std::ops::Range;

/// Number of key positions.
pub const POSITIONS: usize = BLOCKS * POSITIONS_IN_BLOCK;
/// Number of key blocks.
pub const BLOCKS: usize = 2;
/// Key positions in a key block.
pub const POSITIONS_IN_BLOCK: usize = 224;
/// Keys in a page.
pub const SLOTS: usize = 14;
/// Bytes in a key.
pub const KEY: usize = 16;
/// Bytes of noise that format, commit and wipe take: a key for each position.
pub const NOISE: usize = POSITIONS * KEY;

/// Where the key of a position is.
#[derive(Clone, Copy, Debug, PartialEq, Eq)]
pub struct Slot {
    /// The key block, 0 or 1.
    pub block: usize,
    /// The page in the block, 0 to 15.
    pub page: usize,
    /// The slot in the page, 0 to 13.
    pub slot: usize,
}

impl Slot {
    /// The slot of a position, 0 to 447.
    pub fn of(position: usize) -> Slot {
        Slot {
            block: position / POSITIONS_IN_BLOCK,
            page: position % POSITIONS_IN_BLOCK / SLOTS,
            slot: position % SLOTS,
        }
    }

    /// The bytes of the slot, counted from the start of its key block.
    pub fn bytes(self) -> Range<usize> {
        let start = PAGE * self.page + HEADER + KEY * self.slot;
        start..start + KEY
    }
}

/// The bytes of a position's key in noise.
pub fn in_noise(position: usize) -> Range<usize> {
    KEY * position..KEY * position + KEY
}
