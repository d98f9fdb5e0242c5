//! What appends a node, by its second number and all 224 bytes that its key enciphers. The store's own
//! write is the case of a payload with spaces after it, an older recorder's the case of number 0.

use super::{require, run, test_fit, test_lengths, test_place, Outcome, Refusal};
use crate::model::aes;
use crate::model::blocks::page_to_take;
use crate::model::image::{blocks, Power, Step};
use crate::model::pages::{
    is_node_second, Entry, Header, DELETED, FREE, LAST, PAYLOAD, SPACE, USED,
};
use crate::model::record::Record;

/// What a node's page is made of.
#[derive(Clone, Debug, PartialEq, Eq)]
pub struct Node {
    /// The second number, 0 to 224.
    pub second: u32,
    /// All 224 bytes, plain.
    pub bytes: Vec<u8>,
}

impl Node {
    /// A payload with spaces after it; none where it has not 1 to 224 bytes.
    pub fn padded(payload: &[u8]) -> Option<Node> {
        let mut bytes = payload.to_vec();
        bytes.resize(PAYLOAD, SPACE);
        let right = (1..=PAYLOAD).contains(&payload.len());
        right.then_some(Node { second: payload.len() as u32, bytes })
    }

    /// This number and these bytes; none where the number is above 224 or the bytes are not 224.
    pub fn given(second: u32, bytes: &[u8]) -> Option<Node> {
        let right = is_node_second(second) && bytes.len() == PAYLOAD;
        right.then(|| Node { second, bytes: bytes.to_vec() })
    }
}

/// What appending a node does; with none its lengths are wrong.
pub fn outcome(
    image: &[u8],
    record: &Record,
    file: usize,
    offset: usize,
    node: Option<Node>,
) -> Result<Outcome, Refusal> {
    test_lengths(image, record)?;
    let place = test_place(file, offset)?;
    let Node { second, mut bytes } = node.ok_or(Refusal::Payload)?;
    test_fit(image, record)?;
    let sequence = record.numbers.sequence;
    require(sequence <= LAST, Refusal::NoNumber)?;
    let free = record.letters.iter().position(|&letter| letter == FREE);
    let key = free.ok_or(Refusal::NoKey)?;
    let page = page_to_take(blocks(image), None).ok_or(Refusal::NoRoom)?;

    aes::stream(&record.key(image, key), &mut bytes);
    let bytes = Box::new(Header::Node { sequence, file, offset, key, second }.page(&bytes));

    let mut record = record.clone();
    if let Some(old) = record.entry(place) {
        record.letters[usize::from(old.key)] = DELETED;
    }
    record.letters[key] = USED;
    record.set(place, Some(Entry { page: page as u16, key: key as u16 }));
    record.numbers.sequence += 1;
    Ok(Outcome { steps: vec![Step::Program { page, bytes }], record })
}

/// Stores a node. Gives the reply.
pub fn append(
    image: &mut [u8],
    record: &mut Record,
    file: usize,
    offset: usize,
    node: Option<Node>,
    power: Power,
) -> u32 {
    let outcome = outcome(image, record, file, offset, node);
    run(image, record, power, outcome)
}
