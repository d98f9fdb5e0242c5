//! Document 02, #106: a chip with unsettled blocks. An erase that is cut leaves its block so, whatever it then
//! reads, until one is done whole. What is programmed there before that is lost.

use super::image::{Power, Step, BLOCK, PAGES_IN_BLOCK};
use super::pages::{ERASED, PAGE};
use crate::rng::Rng;

/// A chip: its bytes, and which of its blocks are unsettled.
#[derive(Clone)]
pub struct Chip {
    bytes: Vec<u8>,
    unsettled: Vec<bool>,
    /// Chooses what stands in place of a lost page.
    rng: Rng,
    lost: usize,
}

impl Chip {
    /// A chip with these bytes, all blocks of which are settled. The seed is for what stands in place of
    /// lost pages.
    pub fn settled(bytes: &[u8], seed: u64) -> Chip {
        let unsettled = vec![false; bytes.len() / BLOCK];
        Chip { bytes: bytes.to_vec(), unsettled, rng: Rng::new(seed), lost: 0 }
    }

    /// A chip with these bytes of whose past nothing is known: any block may be unsettled, so all are.
    pub fn of_unknown_past(bytes: &[u8], seed: u64) -> Chip {
        let mut chip = Chip::settled(bytes, seed);
        chip.unsettled.fill(true);
        chip
    }

    /// What is on it.
    pub fn bytes(&self) -> &[u8] {
        &self.bytes
    }

    /// Has these bytes from now on. Its blocks stay as they are, settled or not.
    pub fn take(&mut self, bytes: &[u8]) {
        self.bytes.copy_from_slice(bytes);
    }

    /// The unsettled blocks, lowest first.
    pub fn unsettled(&self) -> Vec<usize> {
        (0..self.unsettled.len()).filter(|&block| self.unsettled[block]).collect()
    }

    /// How many pages it has lost.
    pub fn lost(&self) -> usize {
        self.lost
    }

    /// Programs the first bytes of a page. A bit that is 0 stays so. In an unsettled block they are lost.
    pub fn program(&mut self, page: usize, bytes: &[u8]) {
        let mut written = bytes.to_vec();
        if self.unsettled[page / PAGES_IN_BLOCK] && !bytes.is_empty() {
            self.lose(&mut written);
            self.lost += 1;
        }
        let on_chip = &mut self.bytes[PAGE * page..][..written.len()];
        on_chip.iter_mut().zip(written).for_each(|(byte, new)| *byte &= new);
    }

    /// Puts other bytes in place of those that are lost: erased ones, any, or the same but for one bit.
    fn lose(&mut self, bytes: &mut [u8]) {
        match self.rng.below(3) {
            0 => bytes.fill(ERASED),
            1 => bytes.fill_with(|| self.rng.number() as u8),
            _ => bytes[self.rng.below(bytes.len())] ^= 1 << self.rng.below(8),
        }
    }

    /// Erases a block, which is settled then.
    pub fn erase(&mut self, block: usize) {
        self.bytes[BLOCK * block..][..BLOCK].fill(ERASED);
        self.unsettled[block] = false;
    }

    /// Erases the first bytes of a block, none of them or all too, and then the power fails.
    pub fn cut_erase(&mut self, block: usize, bytes: usize) {
        self.bytes[BLOCK * block..][..bytes].fill(ERASED);
        self.unsettled[block] = true;
    }

    /// Does steps in order, until the power fails.
    pub fn play(&mut self, steps: &[Step], power: Power) {
        for (number, step) in steps.iter().enumerate().take(power.steps.saturating_add(1)) {
            match step {
                Step::Program { page, bytes } => {
                    self.program(*page, &bytes[..power.reaches(number, PAGE)]);
                }
                Step::Erase { block } if number < power.steps => self.erase(*block),
                Step::Erase { block } => self.cut_erase(*block, power.reaches(number, BLOCK)),
            }
        }
    }

    /// The first of these steps that programs an unsettled block, where those before it are done whole, and
    /// the block.
    pub fn program_on_unsettled(&self, steps: &[Step]) -> Option<(usize, usize)> {
        let mut unsettled = self.unsettled.clone();
        for (number, step) in steps.iter().enumerate() {
            match step {
                Step::Program { page, .. } if unsettled[page / PAGES_IN_BLOCK] => {
                    return Some((number, page / PAGES_IN_BLOCK));
                }
                Step::Program { .. } => {}
                Step::Erase { block } => unsettled[*block] = false,
            }
        }
        None
    }
}
