//! Format.

use super::{require, run_steps, test_noise, Refusal};
use crate::model::blocks::{key_pages, Commit};
use crate::model::files::PLACES;
use crate::model::image::{blocks, has_right_size, Power, Step, PAGES_IN_BLOCK};
use crate::model::keys::{NOISE, POSITIONS};
use crate::model::pages::{Page, FREE};
use crate::model::record::{Numbers, LETTERS, MAP, NONE};

/// Where format puts the two key blocks and the commit block.
const KEYS0: usize = 0;
const KEYS1: usize = 1;
const COMMIT: usize = 2;

/// The epoch of all that format writes.
const EPOCH: u32 = 1;

/// The record's numbers after format.
pub const NUMBERS: Numbers = Numbers {
    sequence: 1,
    epoch: EPOCH + 1,
    keys0: KEYS0 as u32,
    keys1: KEYS1 as u32,
    commit: COMMIT as u32,
};

/// The steps of format, from the lengths of map and letters.
pub fn outcome(
    image: &[u8],
    map: usize,
    letters: usize,
    noise: &[u8],
) -> Result<Vec<Step>, Refusal> {
    require(has_right_size(image), Refusal::Image)?;
    require(map == MAP && letters == LETTERS, Refusal::Lengths)?;
    test_noise(noise)?;

    let (noise0, noise1) = noise.split_at(NOISE / 2);
    let commit = Commit {
        epoch: EPOCH,
        covered: 0,
        letters: vec![FREE; POSITIONS],
        entries: vec![None; PLACES],
    };
    let mut steps: Vec<Step> =
        (0..blocks(image).len()).map(|block| Step::Erase { block }).collect();
    steps.extend(programs(KEYS0, key_pages(0, EPOCH, noise0)));
    steps.extend(programs(KEYS1, key_pages(1, EPOCH, noise1)));
    steps.extend(programs(COMMIT, commit.pages()));
    Ok(steps)
}

/// The steps that program pages into a block, from its page 0 on.
pub fn programs(block: usize, pages: Vec<Page>) -> impl Iterator<Item = Step> {
    (PAGES_IN_BLOCK * block..)
        .zip(pages)
        .map(|(page, bytes)| Step::Program { page, bytes: Box::new(bytes) })
}

/// Makes an empty store. Gives the reply and the record's numbers, all 0 when refused.
pub fn format(
    image: &mut [u8],
    map: &mut [u16],
    letters: &mut [u8],
    noise: &[u8],
    power: Power,
) -> (u32, Numbers) {
    match outcome(image, map.len(), letters.len(), noise) {
        Ok(steps) => {
            map.fill(NONE);
            letters.fill(FREE);
            (run_steps(image, &steps, power), NUMBERS)
        }
        Err(refusal) => (refusal.number(), Numbers::default()),
    }
}
