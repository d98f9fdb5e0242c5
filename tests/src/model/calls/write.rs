//! Write.

use super::append::{append, Node};
use crate::model::image::Power;
use crate::model::record::Record;

/// Stores a payload of 1 to 224 bytes, with spaces after it. Gives the reply.
pub fn write(
    image: &mut [u8],
    record: &mut Record,
    file: usize,
    offset: usize,
    payload: &[u8],
    power: Power,
) -> u32 {
    append(image, record, file, offset, Node::padded(payload), power)
}
