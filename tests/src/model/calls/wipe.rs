//! Wipe, a cut-off with purge.

use super::commit::Work;
use super::cut_off::remove;
use super::{require, run, test_fit, test_lengths, test_noise, test_place, Outcome, Refusal};
use crate::model::image::Power;
use crate::model::pages::LAST;
use crate::model::record::Record;

/// What a wipe does.
pub fn outcome(
    image: &[u8],
    record: &Record,
    file: usize,
    offset: usize,
    noise: &[u8],
) -> Result<Outcome, Refusal> {
    test_lengths(image, record)?;
    test_noise(noise)?;
    test_place(file, offset)?;
    test_fit(image, record)?;
    require(record.numbers.epoch < LAST, Refusal::NoNumber)?;

    let mut work = Work::new(image, record);
    remove(work.record(), file, offset);
    work.replace_commit_block()?;
    work.commit(noise)?;
    Ok(work.finish())
}

/// Removes the nodes of a file from an offset on and purges their keys. Gives the reply.
pub fn wipe(
    image: &mut [u8],
    record: &mut Record,
    file: usize,
    offset: usize,
    noise: &[u8],
    power: Power,
) -> u32 {
    let outcome = outcome(image, record, file, offset, noise);
    run(image, record, power, outcome)
}
