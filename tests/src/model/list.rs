//! Document 01, "Contracts and cases": a list of calls on one image and record, any of which may be
//! cut, at any n and k. Gathers, of document 02, are among them.

use super::aes;
use super::calls::Node;
use super::image::Power;
use super::keys::{KEY, NOISE};
use super::pages::PAYLOAD;
use super::record::SCRATCH;
use crate::rng::Rng;
use std::fmt;

/// A call on an image and record, with its arguments.
#[derive(Clone, Copy, Debug, PartialEq, Eq)]
pub enum Call {
    /// Mount.
    Mount {
        /// The length of the scratch.
        scratch: usize,
    },
    /// Write.
    Write {
        /// The file.
        file: usize,
        /// The offset.
        offset: usize,
        /// The payload.
        payload: Data,
    },
    /// A write by an older recorder, whose second number is 0, or by one that puts other bytes after a
    /// payload than spaces.
    Append {
        /// The file.
        file: usize,
        /// The offset.
        offset: usize,
        /// The second number.
        second: u32,
        /// All bytes of the page's payload.
        bytes: Data,
    },
    /// Read.
    Read {
        /// The file.
        file: usize,
        /// The offset.
        offset: usize,
        /// The length of the output.
        output: usize,
    },
    /// Cut-off from an offset.
    CutOff {
        /// The file.
        file: usize,
        /// The offset.
        offset: usize,
    },
    /// Commit.
    Commit {
        /// The noise.
        noise: Data,
    },
    /// Wipe.
    Wipe {
        /// The file.
        file: usize,
        /// The offset.
        offset: usize,
        /// The noise.
        noise: Data,
    },
    /// Gather.
    Gather {
        /// The block.
        block: usize,
    },
}

/// Bytes by their length and the seed that gives them, so that a list can be printed small.
#[derive(Clone, Copy, Debug, PartialEq, Eq)]
pub struct Data {
    /// How many bytes.
    pub length: usize,
    /// The seed of the generator that gives them.
    pub seed: u64,
}

impl Data {
    /// A payload that fills its page.
    pub fn payload(seed: u64) -> Data {
        Data { length: PAYLOAD, seed }
    }

    /// So many bytes.
    pub fn of(length: usize, seed: u64) -> Data {
        Data { length, seed }
    }

    /// Noise of the right length.
    pub fn noise(seed: u64) -> Data {
        Data { length: NOISE, seed }
    }

    /// This seed gives bytes that are all FFh.
    pub const ALL_ERASED: u64 = u64::MAX;
    /// This seed gives bytes that a key of FFh enciphers to FFh.
    pub const ERASED_ON_FLASH: u64 = u64::MAX - 3;

    /// The bytes. The last seeds give odd ones: what is erased, zeros, the text of a node's header, and what
    /// is enciphered to FFh.
    pub fn bytes(self) -> Vec<u8> {
        let header = b"N       7  0   0   1      40: ";
        match u64::MAX - self.seed {
            0 => vec![0xff; self.length],
            1 => vec![0; self.length],
            2 => header.iter().copied().cycle().take(self.length).collect(),
            3 => {
                let mut bytes = vec![0xff; self.length];
                aes::stream(&[0xff; KEY], &mut bytes);
                bytes
            }
            _ => Rng::new(self.seed).bytes(self.length),
        }
    }
}

impl Call {
    /// A mount with a scratch of the right length.
    pub const MOUNT: Call = Call::Mount { scratch: SCRATCH };

    /// The call's name.
    pub fn name(self) -> &'static str {
        match self {
            Call::Mount { .. } => "mount",
            Call::Write { .. } => "write",
            Call::Append { .. } => "append",
            Call::Read { .. } => "read",
            Call::CutOff { .. } => "cut-off",
            Call::Commit { .. } => "commit",
            Call::Wipe { .. } => "wipe",
            Call::Gather { .. } => "gather",
        }
    }

    /// Whether what a write is given has the lengths that refusal 6 asks for; true of other calls.
    pub fn has_right_lengths(self) -> bool {
        match self {
            Call::Write { payload, .. } => (1..=PAYLOAD).contains(&payload.length),
            Call::Append { second, bytes, .. } => {
                second as usize <= PAYLOAD && bytes.length == PAYLOAD
            }
            _ => true,
        }
    }

    /// The node that a write stores; none where its lengths are wrong, and for other calls.
    pub fn node(self) -> Option<Node> {
        match self {
            Call::Write { payload, .. } => Node::padded(&payload.bytes()),
            Call::Append { second, bytes, .. } => Node::given(second, &bytes.bytes()),
            _ => None,
        }
    }
}

/// A write of the payload of a seed.
pub fn write(file: usize, offset: usize, seed: u64) -> Call {
    Call::Write { file, offset, payload: Data::payload(seed) }
}

/// A cut-off.
pub fn cut_off(file: usize, offset: usize) -> Call {
    Call::CutOff { file, offset }
}

/// A commit with the noise of a seed.
pub fn commit(seed: u64) -> Call {
    Call::Commit { noise: Data::noise(seed) }
}

/// A wipe with the noise of a seed.
pub fn wipe(file: usize, offset: usize, seed: u64) -> Call {
    Call::Wipe { file, offset, noise: Data::noise(seed) }
}

/// By how much the length of what is lent for a call differs from the right one.
#[derive(Clone, Copy, Debug, Default, PartialEq, Eq)]
pub struct Lent {
    /// Bytes of the image.
    pub image: isize,
    /// Numbers of the map.
    pub map: isize,
    /// Letters.
    pub letters: isize,
}

impl Lent {
    /// All lengths are right.
    pub const RIGHT: Lent = Lent { image: 0, map: 0, letters: 0 };
}

/// A call of a list: what is lent for it, and when the power fails.
#[derive(Clone, Copy, Debug, PartialEq, Eq)]
pub struct Event {
    /// The call.
    pub call: Call,
    /// The lengths of what is lent.
    pub lent: Lent,
    /// When the power fails.
    pub power: Power,
}

impl From<Call> for Event {
    fn from(call: Call) -> Event {
        Event { call, lent: Lent::RIGHT, power: Power::STAYS }
    }
}

impl Event {
    /// The call, cut after `steps` whole steps and `bytes` of the next.
    pub fn cut(call: Call, steps: usize, bytes: usize) -> Event {
        Event { power: Power::cut(steps, bytes), ..call.into() }
    }
}

impl fmt::Display for Event {
    fn fmt(&self, f: &mut fmt::Formatter) -> fmt::Result {
        write!(f, "{:?}", self.call)?;
        if self.lent != Lent::RIGHT {
            write!(f, ", {:?}", self.lent)?;
        }
        if self.power != Power::STAYS {
            write!(f, ", cut at ({}, {})", self.power.steps, self.power.bytes)?;
        }
        Ok(())
    }
}
