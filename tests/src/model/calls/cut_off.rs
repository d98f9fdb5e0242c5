//! Cut-off from an offset.

use super::{require, run, test_fit, test_lengths, test_place, Outcome, Refusal};
use crate::model::blocks::page_to_take;
use crate::model::files;
use crate::model::image::{blocks, Power, Step};
use crate::model::pages::{Header, DELETED, LAST, PAYLOAD};
use crate::model::record::Record;

/// What a cut-off does.
pub fn outcome(
    image: &[u8],
    record: &Record,
    file: usize,
    offset: usize,
) -> Result<Outcome, Refusal> {
    test_lengths(image, record)?;
    test_place(file, offset)?;
    test_fit(image, record)?;
    let live = files::rest(file, offset).any(|place| record.entry(place).is_some());
    require(live, Refusal::NoNode)?;
    let sequence = record.numbers.sequence;
    require(sequence <= LAST, Refusal::NoNumber)?;
    let page = page_to_take(blocks(image), None).ok_or(Refusal::NoRoom)?;

    let bytes = Box::new(Header::CutOff { sequence, file, offset }.page(&[b' '; PAYLOAD]));
    let mut record = record.clone();
    remove(&mut record, file, offset);
    record.numbers.sequence += 1;
    Ok(Outcome { steps: vec![Step::Program { page, bytes }], record })
}

/// Removes the entries of a file from an offset on: their letters become d.
pub fn remove(record: &mut Record, file: usize, offset: usize) {
    for place in files::rest(file, offset) {
        if let Some(entry) = record.entry(place) {
            record.letters[usize::from(entry.key)] = DELETED;
            record.set(place, None);
        }
    }
}

/// Removes the nodes of a file from an offset on. Gives the reply.
pub fn cut_off(
    image: &mut [u8],
    record: &mut Record,
    file: usize,
    offset: usize,
    power: Power,
) -> u32 {
    let outcome = outcome(image, record, file, offset);
    run(image, record, power, outcome)
}
