//! Document 02, #102: gather.

use super::{require, run, test_fit, test_lengths, Outcome, Refusal};
use crate::model::blocks::{is_data, page_to_take};
use crate::model::files::PLACES;
use crate::model::image::{block as block_of, blocks, pages, play, Power, Step, PAGES_IN_BLOCK};
use crate::model::pages::{payload, Entry, Form, Header, LAST};
use crate::model::record::Record;

/// What a gather does. Each page is searched for on the image as the copies before it leave it.
pub fn outcome(image: &[u8], record: &Record, block: usize) -> Result<Outcome, Refusal> {
    test_lengths(image, record)?;
    test_fit(image, record)?;
    let nodes = live_nodes(record, block);
    let is_data = block_of(image, block).is_some_and(is_data);
    require(is_data && !nodes.is_empty(), Refusal::NothingToGather)?;
    let last = u64::from(record.numbers.sequence) + nodes.len() as u64 - 1;
    require(last <= u64::from(LAST), Refusal::NoNumber)?;

    let mut image = image.to_vec();
    let mut outcome = Outcome { steps: Vec::new(), record: record.clone() };
    for (page, place) in nodes {
        let to = page_to_take(blocks(&image), Some(block)).ok_or(Refusal::NoRoom)?;
        let step = copy(&image, &mut outcome.record, usize::from(page), place, to);
        play(&mut image, std::slice::from_ref(&step), Power::STAYS);
        outcome.steps.push(step);
    }
    Ok(outcome)
}

/// The live pages of a block, lowest first, each with its place.
fn live_nodes(record: &Record, block: usize) -> Vec<(u16, usize)> {
    let page_of = |place| Some((record.entry(place)?.page, place));
    let mut nodes: Vec<_> = (0..PLACES)
        .filter_map(page_of)
        .filter(|&(page, _)| usize::from(page) / PAGES_IN_BLOCK == block)
        .collect();
    nodes.sort_unstable();
    nodes
}

/// The copy of a place's page to another one, with the next sequence: its payload stays as it is stored.
/// The record then names the new page.
fn copy(image: &[u8], record: &mut Record, page: usize, place: usize, to: usize) -> Step {
    let from = &pages(image)[page];
    let Form::Whole(Header::Node { file, offset, key, second, .. }) = Form::of(from) else {
        unreachable!("the record fits");
    };
    let sequence = record.numbers.sequence;
    let header = Header::Node { sequence, file, offset, key, second };
    record.numbers.sequence += 1;
    record.set(place, Some(Entry { page: to as u16, key: key as u16 }));
    Step::Program { page: to, bytes: Box::new(header.page(payload(from))) }
}

/// Copies the live pages of a data block out of it. Gives the reply.
pub fn gather(image: &mut [u8], record: &mut Record, block: usize, power: Power) -> u32 {
    let outcome = outcome(image, record, block);
    run(image, record, power, outcome)
}
