//! Document 01, "The plain book of demand 3": what each byte is, from the step that programs it to
//! one that erases it. Nothing else changes where a byte comes from, whatever is read there.

use super::book::Key;
use super::image::{Power, Step, BLOCK};
use super::keys::{KEY, POSITIONS_IN_BLOCK, SLOTS};
use super::pages::{Header, HEADER, PAGE, PAYLOAD_BYTES};
use std::collections::HashSet;

/// Where a byte of the image comes from.
#[derive(Clone, Copy, Debug, PartialEq, Eq)]
pub enum Origin {
    /// From no key: erased, or a byte of something else.
    Nothing,
    /// It was enciphered with this key.
    Enciphered(Key),
    /// It is a byte of this key.
    Key(Key),
}

/// Where each byte of an image comes from.
#[derive(Clone, Default)]
pub struct Origins {
    bytes: Vec<Origin>,
    /// The keys that enciphered a byte at any time, also of pages erased since.
    pub enciphered: HashSet<Key>,
}

impl Origins {
    /// An image of erased bytes.
    pub fn new(length: usize) -> Origins {
        Origins { bytes: vec![Origin::Nothing; length], ..Origins::default() }
    }

    /// The origins of all bytes, in order.
    pub fn bytes(&self) -> &[Origin] {
        &self.bytes
    }

    /// Follows the steps of a call. `present` gives the key that a position has when its key
    /// enciphers, `copied` the key that a new copy of its key block has.
    pub fn follow(
        &mut self,
        steps: &[Step],
        power: Power,
        present: impl Fn(usize) -> Key,
        copied: impl Fn(usize) -> Key,
    ) {
        for (number, step) in steps.iter().enumerate() {
            match step {
                Step::Program { page, bytes } => {
                    let done = power.reaches(number, PAGE);
                    self.program(PAGE * page, done, Header::parse(&bytes[..]), &present, &copied);
                }
                Step::Erase { block } => {
                    let done = power.reaches(number, BLOCK);
                    self.bytes[BLOCK * block..][..done].fill(Origin::Nothing);
                }
            }
        }
    }

    /// The first `done` bytes of a page with this header are programmed at `start`. The others stay what they
    /// were.
    fn program(
        &mut self,
        start: usize,
        done: usize,
        header: Option<Header>,
        present: impl Fn(usize) -> Key,
        copied: impl Fn(usize) -> Key,
    ) {
        self.bytes[start..start + done].fill(Origin::Nothing);
        let done = done.clamp(PAYLOAD_BYTES.start, PAYLOAD_BYTES.end);
        let payload = &mut self.bytes[start + HEADER..start + done];
        match header {
            Some(Header::Node { key, .. }) => {
                payload.fill(Origin::Enciphered(present(key)));
                if !payload.is_empty() {
                    self.enciphered.insert(present(key));
                }
            }
            Some(Header::Keys { block, page, .. }) => {
                let first = POSITIONS_IN_BLOCK * block + SLOTS * page;
                for (slot, bytes) in payload.chunks_mut(KEY).enumerate() {
                    bytes.fill(Origin::Key(copied(first + slot)));
                }
            }
            _ => {}
        }
    }
}
