//! The tests' chip as one that a driver of the crate `johvimaru` drives.

use crate::model::chip::Chip;
use crate::model::image::BLOCK;
use crate::model::pages::{ERASED, PAGE};
use johvimaru::{Misuse, Page};

/// The bytes of a page, where the chip has it.
fn page(chip: &Chip, page: usize) -> Result<&[u8], Misuse> {
    chip.bytes().chunks_exact(PAGE).nth(page).ok_or(Misuse::Outside)
}

/// Tests whether the chip has a block.
fn test_block(chip: &Chip, block: usize) -> Result<(), Misuse> {
    page(chip, block * BLOCK / PAGE).map(|_| ())
}

impl johvimaru::Chip for Chip {
    type Error = Misuse;

    fn blocks(&self) -> usize {
        self.bytes().len() / BLOCK
    }

    fn read(&mut self, number: usize, bytes: &mut Page) -> Result<(), Misuse> {
        bytes.copy_from_slice(page(self, number)?);
        Ok(())
    }

    fn program(&mut self, number: usize, bytes: &Page) -> Result<(), Misuse> {
        if page(self, number)?.iter().any(|&byte| byte != ERASED) {
            return Err(Misuse::NotEmpty);
        }
        Chip::program(self, number, bytes);
        Ok(())
    }

    fn erase(&mut self, block: usize) -> Result<(), Misuse> {
        test_block(self, block)?;
        Chip::erase(self, block);
        Ok(())
    }

    fn erase_part(&mut self, block: usize, k: usize) -> Result<(), Misuse> {
        test_block(self, block)?;
        self.cut_erase(block, k.min(BLOCK));
        Ok(())
    }
}
