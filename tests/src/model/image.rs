//! Document 01, "The flash image": its size, its pages and blocks, the two steps of the flash, and
//! ("Contracts and cases") the power cut as two numbers.

use super::pages::{Page, EMPTY, ERASED, PAGE};
use std::ops::RangeInclusive;

/// Pages in a block.
pub const PAGES_IN_BLOCK: usize = 16;
/// Bytes in a block.
pub const BLOCK: usize = PAGES_IN_BLOCK * PAGE;
/// Numbers of blocks that an image may have.
pub const SIZES: RangeInclusive<usize> = 8..=256;

/// Whether an image is 8 to 256 full blocks.
pub fn has_right_size(image: &[u8]) -> bool {
    image.len().is_multiple_of(BLOCK) && SIZES.contains(&(image.len() / BLOCK))
}

/// The pages of an image.
pub fn pages(image: &[u8]) -> &[Page] {
    image.as_chunks().0
}

/// The blocks of an image, each as its pages.
pub fn blocks(image: &[u8]) -> impl DoubleEndedIterator<Item = &[Page]> + ExactSizeIterator {
    pages(image).chunks_exact(PAGES_IN_BLOCK)
}

/// The pages of a block, where the image has it.
pub fn block(image: &[u8], number: usize) -> Option<&[Page]> {
    blocks(image).nth(number)
}

/// Whether all bytes of these pages are FFh.
pub fn is_empty(pages: &[Page]) -> bool {
    pages.iter().all(|page| *page == EMPTY)
}

/// When the power fails: some steps are done whole, then some bytes of the next.
#[derive(Clone, Copy, Debug, PartialEq, Eq)]
pub struct Power {
    /// The steps done whole, n.
    pub steps: usize,
    /// The bytes of the next step that are done, k; the whole step where it has fewer.
    pub bytes: usize,
}

impl Power {
    /// No call has so many steps: the power stays on.
    pub const STAYS: Power = Power { steps: usize::MAX, bytes: 0 };

    /// The power fails after `steps` whole steps and `bytes` of the next.
    pub fn cut(steps: usize, bytes: usize) -> Power {
        Power { steps, bytes }
    }

    /// How many of a step's bytes are done, the steps being counted from 0.
    pub fn reaches(self, step: usize, bytes: usize) -> usize {
        match step.cmp(&self.steps) {
            std::cmp::Ordering::Less => bytes,
            std::cmp::Ordering::Equal => bytes.min(self.bytes),
            std::cmp::Ordering::Greater => 0,
        }
    }
}

/// A step of the flash.
#[derive(Clone, Debug, PartialEq, Eq)]
pub enum Step {
    /// Program an empty page.
    Program {
        /// The page.
        page: usize,
        /// Its new bytes.
        bytes: Box<Page>,
    },
    /// Erase a block.
    Erase {
        /// The block.
        block: usize,
    },
}

/// Does steps in order, until the power fails. Tells whether it stayed on to the end.
pub fn play(image: &mut [u8], steps: &[Step], power: Power) -> bool {
    for (number, step) in steps.iter().enumerate().take(power.steps.saturating_add(1)) {
        match step {
            Step::Program { page, bytes } => {
                let length = power.reaches(number, PAGE);
                image[PAGE * page..][..length].copy_from_slice(&bytes[..length]);
            }
            Step::Erase { block } => {
                let length = power.reaches(number, BLOCK);
                image[BLOCK * block..][..length].fill(ERASED);
            }
        }
    }
    steps.len() <= power.steps
}
