//! A chip in memory.

use crate::step::is_erased;
use crate::{Chip, Misuse, Page, BLOCK, PAGE, PAGES_IN_BLOCK};
use alloc::vec::Vec;
use core::fmt;

/// A chip in memory.
///
/// ```
/// use johvimaru::{Chip, MemoryChip, Misuse};
///
/// let mut chip = MemoryChip::new(vec![0xff; 8 * johvimaru::BLOCK]);
/// chip.program(17, &[b' '; 256])?;
/// assert_eq!(chip.program(17, &[b' '; 256]), Err(Misuse::NotEmpty));
/// chip.erase(1)?;
/// assert_eq!(chip.bytes(), [0xff; 8 * johvimaru::BLOCK]);
/// assert_eq!(chip.erase(8), Err(Misuse::Outside));
/// # Ok::<(), Misuse>(())
/// ```
#[derive(Clone)]
pub struct MemoryChip {
    bytes: Vec<u8>,
}

/// The bytes are not shown.
impl fmt::Debug for MemoryChip {
    fn fmt(&self, f: &mut fmt::Formatter) -> fmt::Result {
        f.debug_struct("MemoryChip").field("blocks", &self.blocks()).finish_non_exhaustive()
    }
}

impl MemoryChip {
    /// A chip with these bytes on it. Bytes after the last full block are no part of it.
    pub fn new(bytes: Vec<u8>) -> MemoryChip {
        MemoryChip { bytes }
    }

    /// What is on it.
    pub fn bytes(&self) -> &[u8] {
        &self.bytes
    }

    /// Gives what is on it.
    pub fn into_bytes(self) -> Vec<u8> {
        self.bytes
    }

    fn page(&mut self, page: usize) -> Result<&mut [u8], Misuse> {
        let pages = PAGES_IN_BLOCK * self.blocks();
        if page >= pages {
            return Err(Misuse::Outside);
        }
        Ok(&mut self.bytes[PAGE * page..][..PAGE])
    }
}

impl Chip for MemoryChip {
    type Error = Misuse;

    fn blocks(&self) -> usize {
        self.bytes.len() / BLOCK
    }

    fn read(&mut self, page: usize, bytes: &mut Page) -> Result<(), Misuse> {
        bytes.copy_from_slice(self.page(page)?);
        Ok(())
    }

    fn program(&mut self, page: usize, bytes: &Page) -> Result<(), Misuse> {
        let at = self.page(page)?;
        if !is_erased(at) {
            return Err(Misuse::NotEmpty);
        }
        at.copy_from_slice(bytes);
        Ok(())
    }

    fn erase(&mut self, block: usize) -> Result<(), Misuse> {
        if block >= self.blocks() {
            return Err(Misuse::Outside);
        }
        self.bytes[BLOCK * block..][..BLOCK].fill(0xff);
        Ok(())
    }
}
