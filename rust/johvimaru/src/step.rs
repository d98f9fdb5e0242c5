//! The two steps of the flash.

use crate::{BLOCK, PAGE, PAGES_IN_BLOCK};
use alloc::boxed::Box;
use core::fmt;

/// The bytes of a page.
pub type Page = [u8; PAGE];

/// The pages that a format programs, from the first on: two key blocks, and the ten of a commit.
const FORMATTED_PAGES: usize = 42;

/// A step of the flash.
#[derive(Clone, PartialEq, Eq)]
pub enum Step {
    /// An empty page is programmed.
    Program {
        /// The page, counted from the start of the image.
        page: usize,
        /// Its bytes.
        bytes: Box<Page>,
    },
    /// A block is erased.
    Erase {
        /// The block.
        block: usize,
    },
}

/// The bytes, which may be keys, are not shown.
impl fmt::Debug for Step {
    fn fmt(&self, f: &mut fmt::Formatter) -> fmt::Result {
        match self {
            Step::Program { page, .. } => {
                f.debug_struct("Program").field("page", page).finish_non_exhaustive()
            }
            Step::Erase { block } => f.debug_struct("Erase").field("block", block).finish(),
        }
    }
}

impl Step {
    /// The step by which two images of one length differ, or none where they do not.
    ///
    /// The step that changes nothing, the erase of an empty block, cannot be told from none, and yet a chip must
    /// do it. Only format and mount have such steps: see [`of_format`](Step::of_format) and
    /// [`of_mount`](Step::of_mount).
    ///
    /// ```
    /// use johvimaru::Step;
    ///
    /// let before = vec![0xff; 32_768];
    /// let mut after = before.clone();
    /// after[256..512].fill(b' ');
    /// let program = Step::Program { page: 1, bytes: Box::new([b' '; 256]) };
    /// assert_eq!(Step::between(&before, &after), Some(program));
    /// assert_eq!(Step::between(&after, &before), Some(Step::Erase { block: 0 }));
    /// assert_eq!(Step::between(&before, &before), None);
    /// ```
    pub fn between(before: &[u8], after: &[u8]) -> Option<Step> {
        let mut blocks = before.chunks(BLOCK).zip(after.chunks(BLOCK)).enumerate();
        let (block, (old, new)) = blocks.find(|(_, (old, new))| old != new)?;
        if is_erased(new) {
            return Some(Step::Erase { block });
        }
        let mut pages = old.chunks(PAGE).zip(new.chunks(PAGE)).enumerate();
        let (page, (_, bytes)) = pages.find(|(_, (old, new))| old != new)?;
        let mut copy = Box::new([0xff; PAGE]);
        copy.copy_from_slice(bytes);
        Some(Step::Program { page: PAGES_IN_BLOCK * block + page, bytes: copy })
    }

    /// The steps of a format that was done, from the image that it has left: the erases of all blocks, then the
    /// programs of pages 0 to 41 with the bytes that stand there, each in ascending order. That these are its steps
    /// is proved, as `format-steps-seen`.
    ///
    /// ```
    /// use johvimaru::{Noise, Step, Store};
    ///
    /// let store = Store::format(vec![0; 32_768], Noise::from_system()?)?;
    /// let mut chip = vec![0; 32_768];
    /// Step::of_format(store.image()).for_each(|step| step.apply(&mut chip));
    /// assert_eq!(chip, store.image());
    /// assert_eq!(Step::of_format(store.image()).count(), 50);
    /// # Ok::<(), Box<dyn std::error::Error>>(())
    /// ```
    pub fn of_format(image: &[u8]) -> impl Iterator<Item = Step> + '_ {
        let erases = (0..image.len() / BLOCK).map(|block| Step::Erase { block });
        let pages = image.as_chunks::<PAGE>().0.iter().enumerate().take(FORMATTED_PAGES);
        erases.chain(pages.map(|(page, bytes)| Step::Program { page, bytes: Box::new(*bytes) }))
    }

    /// The steps of a mount that was done, from the image that it has left: the erases of exactly those blocks
    /// that are empty in it, in ascending order. That these are its steps is proved, as `mount-steps-seen`.
    ///
    /// ```
    /// use johvimaru::{Noise, Step, Store};
    ///
    /// let store = Store::format(vec![0; 32_768], Noise::from_system()?)?;
    /// let store = Store::mount(store.into_image())?;
    /// let erases = [3, 4, 5, 6, 7].map(|block| Step::Erase { block });
    /// assert!(Step::of_mount(store.image()).eq(erases));
    /// # Ok::<(), Box<dyn std::error::Error>>(())
    /// ```
    pub fn of_mount(image: &[u8]) -> impl Iterator<Item = Step> + '_ {
        let blocks = image.chunks(BLOCK).enumerate();
        let empty = blocks.filter(|(_, bytes)| is_erased(bytes));
        empty.map(|(block, _)| Step::Erase { block })
    }

    /// Does the step on an image.
    ///
    /// # Panics
    ///
    /// Where the image has no such page or block.
    pub fn apply(&self, image: &mut [u8]) {
        match self {
            Step::Program { page, bytes } => {
                image[PAGE * page..][..PAGE].copy_from_slice(&bytes[..]);
            }
            Step::Erase { block } => image[BLOCK * block..][..BLOCK].fill(0xff),
        }
    }
}

/// Whether all bytes are FFh.
pub(crate) fn is_erased(bytes: &[u8]) -> bool {
    bytes.iter().all(|&byte| byte == 0xff)
}
