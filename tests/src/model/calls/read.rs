//! Read.

use super::{require, test_fit, test_lengths, test_place, Refusal, DONE};
use crate::model::aes;
use crate::model::image::pages;
use crate::model::pages::{length_of, payload, Form, Header, PAYLOAD};
use crate::model::record::Record;

/// The payload that a read into an output of this length gives.
pub fn outcome(
    image: &[u8],
    record: &Record,
    file: usize,
    offset: usize,
    output: usize,
) -> Result<Vec<u8>, Refusal> {
    test_lengths(image, record)?;
    let place = test_place(file, offset)?;
    require(output == PAYLOAD, Refusal::Payload)?;
    test_fit(image, record)?;
    let entry = record.entry(place).ok_or(Refusal::NoNode)?;

    let page = &pages(image)[usize::from(entry.page)];
    let Form::Whole(Header::Node { second, .. }) = Form::of(page) else {
        unreachable!("the record fits")
    };
    let mut data = payload(page).to_vec();
    aes::stream(&record.key(image, usize::from(entry.key)), &mut data);
    data.truncate(length_of(second));
    Ok(data)
}

/// Puts a node's payload into the first bytes of the output. Gives the reply, and the payload's length
/// or 0 when refused. It has no steps, so no power cut.
pub fn read(
    image: &[u8],
    record: &Record,
    file: usize,
    offset: usize,
    output: &mut [u8],
) -> (u32, usize) {
    match outcome(image, record, file, offset, output.len()) {
        Ok(payload) => {
            output[..payload.len()].copy_from_slice(&payload);
            (DONE, payload.len())
        }
        Err(refusal) => (refusal.number(), 0),
    }
}
