//! Chips: what a store is driven against.

mod cut_chip;
#[cfg(feature = "std")]
mod file_chip;
mod memory_chip;

pub use cut_chip::{CutChip, CutError};
#[cfg(feature = "std")]
pub use file_chip::FileChip;
pub use memory_chip::MemoryChip;

use crate::step::{is_erased, Page};
use crate::{PAGE, PAGES_IN_BLOCK};
use core::error::Error;
use core::fmt;

/// A flash chip of blocks of 16 pages of 256 bytes.
///
/// A step is begun only when the one before it has ended. Where the power fails in a program, some bytes
/// at the page's start are written and the rest is still FFh; where it fails in an erase, some bytes at
/// the block's start are FFh and the rest is as it was.
///
/// A block in whose erase the power failed is unsettled, however it reads: until an erase of it ends, pages that
/// are programmed into it may not be kept. No call programs such a block, because every mount erases all blocks
/// that are not needed, empty ones too. So a chip must do each erase that it is asked for, also of a block that
/// reads FFh.
///
/// A chip with the commands of ONFI needs only a [`Bus`](crate::Bus): [`BusChip`](crate::BusChip) makes a chip of
/// it. A chip behind a controller that programs pages and erases blocks:
///
/// ```
/// use johvimaru::{Chip, Driver, Noise, Page};
/// # #[derive(Debug)]
/// # struct Timeout;
/// # impl std::fmt::Display for Timeout {
/// #     fn fmt(&self, f: &mut std::fmt::Formatter) -> std::fmt::Result {
/// #         f.write_str("the chip does not answer")
/// #     }
/// # }
/// # impl std::error::Error for Timeout {}
/// # struct Controller(Vec<u8>);
/// # impl Controller {
/// #     fn fetch(&self, at: usize, bytes: &mut [u8]) -> Result<(), Timeout> {
/// #         bytes.copy_from_slice(&self.0[at..at + bytes.len()]);
/// #         Ok(())
/// #     }
/// #     fn page_program(&mut self, at: usize, bytes: &[u8]) -> Result<(), Timeout> {
/// #         self.0[at..at + bytes.len()].copy_from_slice(bytes);
/// #         Ok(())
/// #     }
/// #     fn block_erase(&mut self, at: usize) -> Result<(), Timeout> {
/// #         self.0[at..at + 4_096].fill(0xff);
/// #         Ok(())
/// #     }
/// # }
///
/// struct Behind {
///     controller: Controller,
/// }
///
/// impl Chip for Behind {
///     type Error = Timeout;
///
///     fn blocks(&self) -> usize {
///         64
///     }
///
///     fn read(&mut self, page: usize, bytes: &mut Page) -> Result<(), Self::Error> {
///         self.controller.fetch(256 * page, bytes)
///     }
///
///     fn program(&mut self, page: usize, bytes: &Page) -> Result<(), Self::Error> {
///         // Returns when the chip is no longer busy.
///         self.controller.page_program(256 * page, bytes)
///     }
///
///     fn erase(&mut self, block: usize) -> Result<(), Self::Error> {
///         self.controller.block_erase(4_096 * block)
///     }
/// }
///
/// # let controller = Controller(vec![0; 64 * 4_096]);
/// let mut driver = Driver::new(Behind { controller });
/// // Once, when the recorder is made.
/// driver.format(Noise::from_system()?)?;
/// // Each time that its power comes on.
/// driver.mount()?;
/// assert_eq!(driver.record().map(|record| record.counts().free), Some(448));
/// # Ok::<(), Box<dyn std::error::Error>>(())
/// ```
pub trait Chip {
    /// What goes wrong on such a chip. Where it is an error in Rust's sense, so is
    /// [`Failure`](crate::Failure).
    type Error;

    /// How many blocks it has.
    fn blocks(&self) -> usize;

    /// Reads a page, counted from the chip's start.
    fn read(&mut self, page: usize, bytes: &mut Page) -> Result<(), Self::Error>;

    /// Programs a page that is empty.
    fn program(&mut self, page: usize, bytes: &Page) -> Result<(), Self::Error>;

    /// Erases a block: all its bytes are then FFh. A block that is empty already must be erased as well.
    fn erase(&mut self, block: usize) -> Result<(), Self::Error>;

    /// Leaves a block as an erase that the power cuts after its first k bytes: these are FFh, the rest is as
    /// it was. Only [`CutChip`] asks for it. What stands here erases the block and programs the rest again.
    fn erase_part(&mut self, block: usize, k: usize) -> Result<(), Self::Error> {
        let first = PAGES_IN_BLOCK * block;
        let mut old = [[0; PAGE]; PAGES_IN_BLOCK];
        for (page, bytes) in old.iter_mut().enumerate() {
            self.read(first + page, bytes)?;
        }
        old.as_flattened_mut().iter_mut().take(k).for_each(|byte| *byte = 0xff);
        self.erase(block)?;
        for (page, bytes) in old.iter().enumerate().filter(|(_, bytes)| !is_erased(&bytes[..])) {
            self.program(first + page, bytes)?;
        }
        Ok(())
    }
}

impl<C: Chip + ?Sized> Chip for &mut C {
    type Error = C::Error;

    fn blocks(&self) -> usize {
        (**self).blocks()
    }

    fn read(&mut self, page: usize, bytes: &mut Page) -> Result<(), C::Error> {
        (**self).read(page, bytes)
    }

    fn program(&mut self, page: usize, bytes: &Page) -> Result<(), C::Error> {
        (**self).program(page, bytes)
    }

    fn erase(&mut self, block: usize) -> Result<(), C::Error> {
        (**self).erase(block)
    }

    fn erase_part(&mut self, block: usize, k: usize) -> Result<(), C::Error> {
        (**self).erase_part(block, k)
    }
}

/// What a chip cannot be asked. Later versions may have more of it.
#[derive(Clone, Copy, Debug, PartialEq, Eq)]
#[non_exhaustive]
pub enum Misuse {
    /// It has no such page or block.
    Outside,
    /// A page is programmed that is not empty.
    NotEmpty,
}

impl fmt::Display for Misuse {
    fn fmt(&self, f: &mut fmt::Formatter) -> fmt::Result {
        f.write_str(match self {
            Misuse::Outside => "the chip has no such page or block",
            Misuse::NotEmpty => "a page is programmed that is not empty",
        })
    }
}

impl Error for Misuse {}
