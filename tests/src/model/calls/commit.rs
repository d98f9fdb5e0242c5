//! Commit.

use super::format::programs;
use super::{require, run, test_fit, test_lengths, test_noise, Outcome, Refusal};
use crate::model::blocks::{is_data, key_pages, Commit};
use crate::model::image::{blocks, is_empty, Power, Step, PAGES_IN_BLOCK};
use crate::model::keys::{in_noise, POSITIONS_IN_BLOCK};
use crate::model::pages::{Page, DELETED, FREE, LAST, USED};
use crate::model::record::Record;

/// What a commit does.
pub fn outcome(image: &[u8], record: &Record, noise: &[u8]) -> Result<Outcome, Refusal> {
    test_lengths(image, record)?;
    test_noise(noise)?;
    test_fit(image, record)?;
    require(record.numbers.epoch <= LAST, Refusal::NoNumber)?;

    let mut work = Work::new(image, record);
    work.commit(noise)?;
    Ok(work.finish())
}

/// The steps of a commit or wipe so far, the record after them, and which blocks are then empty.
pub struct Work<'a> {
    image: &'a [u8],
    outcome: Outcome,
    empty: Vec<bool>,
}

impl<'a> Work<'a> {
    /// No steps so far.
    pub fn new(image: &'a [u8], record: &Record) -> Work<'a> {
        let outcome = Outcome { steps: Vec::new(), record: record.clone() };
        Work { image, outcome, empty: blocks(image).map(is_empty).collect() }
    }

    /// The record after the steps so far.
    pub fn record(&mut self) -> &mut Record {
        &mut self.outcome.record
    }

    /// What was done.
    pub fn finish(self) -> Outcome {
        self.outcome
    }

    /// New copies of both key blocks and of the commit block, then the erases of each data block
    /// without a live page. All carry the next epoch, of which there is one.
    pub fn commit(&mut self, noise: &[u8]) -> Result<(), Refusal> {
        self.outcome.record.numbers.keys0 = self.replace_keys(0, noise)?;
        self.outcome.record.numbers.keys1 = self.replace_keys(1, noise)?;
        for letter in self.outcome.record.letters.iter_mut().filter(|letter| **letter == DELETED) {
            *letter = FREE;
        }
        self.replace_commit_block()?;
        self.erase_dead_blocks();
        Ok(())
    }

    /// A new commit block from the record as it now is, and the old one erased. It takes the next
    /// epoch.
    pub fn replace_commit_block(&mut self) -> Result<(), Refusal> {
        let record = &self.outcome.record;
        let commit = Commit {
            epoch: record.numbers.epoch,
            covered: record.numbers.sequence - 1,
            letters: record.letters.clone(),
            entries: record.entries(),
        };
        let old = record.numbers.commit;
        self.outcome.record.numbers.commit = self.replace(old, commit.pages())?;
        self.outcome.record.numbers.epoch += 1;
        Ok(())
    }

    /// A new copy of a key block, with new keys for all that is not used, and the old one erased.
    /// Gives the new place.
    fn replace_keys(&mut self, number: usize, noise: &[u8]) -> Result<u32, Refusal> {
        let record = &self.outcome.record;
        let first = POSITIONS_IN_BLOCK * number;
        let mut keys = Vec::new();
        for position in first..first + POSITIONS_IN_BLOCK {
            if record.letters[position] == USED {
                keys.extend_from_slice(&record.key(self.image, position));
            } else {
                keys.extend_from_slice(&noise[in_noise(position)]);
            }
        }
        let old = record.numbers.keys(number) as u32;
        self.replace(old, key_pages(number, record.numbers.epoch, &keys))
    }

    /// Programs pages into the lowest empty block, then erases the old block. Gives the new place.
    fn replace(&mut self, old: u32, pages: Vec<Page>) -> Result<u32, Refusal> {
        let new = self.empty.iter().position(|&empty| empty).ok_or(Refusal::NoRoom)?;
        let old = old as usize;
        self.outcome.steps.extend(programs(new, pages));
        self.outcome.steps.push(Step::Erase { block: old });
        self.empty[new] = false;
        self.empty[old] = true;
        Ok(new as u32)
    }

    /// Erases each data block without a live page. The other steps of a commit touch no data block.
    fn erase_dead_blocks(&mut self) {
        let mut live = vec![false; self.empty.len()];
        for entry in self.outcome.record.entries().into_iter().flatten() {
            live[usize::from(entry.page) / PAGES_IN_BLOCK] = true;
        }
        for (block, pages) in blocks(self.image).enumerate() {
            if !live[block] && is_data(pages) {
                self.outcome.steps.push(Step::Erase { block });
            }
        }
    }
}

/// Purges every key that is not used and makes the map durable. Gives the reply.
pub fn commit(image: &mut [u8], record: &mut Record, noise: &[u8], power: Power) -> u32 {
    let outcome = outcome(image, record, noise);
    run(image, record, power, outcome)
}
