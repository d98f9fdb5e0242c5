//! The images on which calls are timed and their instructions counted.

use crate::model::calls::DONE;
use crate::model::copies::live_pages;
use crate::model::files::{self, PLACES};
use crate::model::image::{PAGES_IN_BLOCK, SIZES};
use crate::model::list::{Call, Data};
use crate::model::pages::PAYLOAD;
use crate::model::store::Store;
use crate::side_by_side::to_library;
use johvimaru::raw::Record;

/// Calls in a turn of the benchmark.
pub const CALLS: usize = 4;

/// A place that is never written.
pub const VACANT: usize = PLACES - 1;

/// Bytes of a short payload.
pub const SHORT: usize = 40;

/// The sequence of the first write after a format.
pub const FIRST_SEQUENCE: u32 = 1;

/// The noise of every format.
pub const FORMAT_NOISE: Data = Data { length: 7_168, seed: 3 };

/// An image, and what was written on it.
pub struct Setting {
    /// Its name.
    pub name: &'static str,
    /// How many blocks it has.
    pub blocks: usize,
    /// How many places hold a node, the first ones.
    pub live: usize,
    /// How many writes were made.
    pub writes: usize,
}

/// Each leaves room for the writes of a turn.
pub const SETTINGS: [Setting; 4] = [
    Setting { name: "8 blocks, nearly empty", blocks: 8, live: CALLS, writes: CALLS },
    Setting { name: "8 blocks, nearly full", blocks: 8, live: 60, writes: 60 },
    Setting { name: "256 blocks, nearly empty", blocks: 256, live: CALLS, writes: CALLS },
    Setting { name: "256 blocks, nearly full", blocks: 256, live: VACANT, writes: 440 },
];

/// Each has a block with 16 live pages, and room for them elsewhere: in a fresh block, but that in the last
/// one half of them go to open pages.
pub const GATHER_SETTINGS: [Setting; 4] = [
    Setting { name: "8 blocks, 16 nodes", blocks: 8, live: 16, writes: 16 },
    Setting { name: "256 blocks, 16 nodes", blocks: 256, live: 16, writes: 16 },
    Setting { name: "256 blocks, 27 full ones", blocks: 256, live: VACANT, writes: 432 },
    Setting { name: "256 blocks, nearly full", blocks: 256, live: VACANT, writes: 440 },
];

/// The first block with 16 live pages; where there is none, a number that is no block's.
pub fn full_block(record: &Record) -> u32 {
    let is_full = |block: &usize| live_pages(&record.map, *block).len() == PAGES_IN_BLOCK;
    (0..*SIZES.end()).find(is_full).unwrap_or(*SIZES.end()) as u32
}

/// What the write of this number writes.
pub fn payload(number: usize) -> Data {
    Data::payload(number as u64)
}

impl Setting {
    /// Image and record, made by the second implementation.
    pub fn store(&self) -> Store {
        self.store_with(PAYLOAD, FIRST_SEQUENCE)
    }

    /// The same, but that payloads of the first place are of this length, and the first write has this
    /// sequence.
    fn store_with(&self, length: usize, sequence: u32) -> Store {
        let mut store = Store::formatted(self.blocks, FORMAT_NOISE);
        store.record.numbers.sequence = sequence;
        for number in 0..self.writes {
            let place = number % self.live;
            let (file, offset) = files::node(place);
            let length = if place == 0 { length } else { PAYLOAD };
            let payload = Data { length, ..payload(number) };
            assert_eq!(store.call(Call::Write { file, offset, payload }), DONE);
        }
        store
    }

    /// Image and record in the library's types.
    pub fn lent(&self) -> (Vec<u8>, Record) {
        self.lent_with(PAYLOAD)
    }

    /// The same, but that the payload of the first place is of this length.
    pub fn lent_with(&self, length: usize) -> (Vec<u8>, Record) {
        self.lent_from(length, FIRST_SEQUENCE)
    }

    /// The same, and the first write has this sequence.
    pub fn lent_from(&self, length: usize, sequence: u32) -> (Vec<u8>, Record) {
        let Store { image, record } = self.store_with(length, sequence);
        (image, to_library(record))
    }
}
