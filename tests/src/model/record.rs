//! Document 01, "The working record".

use super::blocks::{self, Kind};
use super::files::{self, PLACES};
use super::image::{block, pages};
use super::keys::{Slot, KEY, POSITIONS};
use super::pages::{is_letter, Entry, Form, Header, LAST, USED};
use std::fmt;

/// Length of the map: a page for each place, then a key for each place.
pub const MAP: usize = 2 * PLACES;
/// Number of letters.
pub const LETTERS: usize = POSITIONS;
/// Length of mount's scratch.
pub const SCRATCH: usize = PLACES;
/// Stands in the map for none.
pub const NONE: u16 = 65_535;

/// The two next numbers and the three block places.
#[derive(Clone, Copy, Debug, Default, PartialEq, Eq)]
pub struct Numbers {
    /// The next sequence.
    pub sequence: u32,
    /// The next epoch.
    pub epoch: u32,
    /// The place of key block 0.
    pub keys0: u32,
    /// The place of key block 1.
    pub keys1: u32,
    /// The place of the commit block.
    pub commit: u32,
}

impl Numbers {
    /// The place of a key block, 0 or 1.
    pub fn keys(&self, number: usize) -> usize {
        [self.keys0, self.keys1][number] as usize
    }
}

/// The working record. Its fields are public: nothing is assumed of lengths or contents.
#[derive(Clone, Default, PartialEq, Eq)]
pub struct Record {
    /// For each place its page, then for each place its key position.
    pub map: Vec<u16>,
    /// One letter for each key position.
    pub letters: Vec<u8>,
    /// The next numbers and block places.
    pub numbers: Numbers,
}

impl Record {
    /// A record of the right lengths that fits no image, for format or mount to fill.
    pub fn blank() -> Record {
        Record { map: vec![0; MAP], letters: vec![0; LETTERS], numbers: Numbers::default() }
    }

    /// Whether map and letters have the right lengths. The functions below suppose it.
    pub fn has_right_lengths(&self) -> bool {
        self.map.len() == MAP && self.letters.len() == LETTERS
    }

    /// The entry of a place. Where the record fits, none in one half is none in both.
    pub fn entry(&self, place: usize) -> Option<Entry> {
        let (page, key) = (self.map[place], self.map[PLACES + place]);
        (page != NONE).then_some(Entry { page, key })
    }

    /// The entries of all places.
    pub fn entries(&self) -> Vec<Option<Entry>> {
        (0..PLACES).map(|place| self.entry(place)).collect()
    }

    /// Sets the entry of a place.
    pub fn set(&mut self, place: usize, entry: Option<Entry>) {
        let Entry { page, key } = entry.unwrap_or(Entry { page: NONE, key: NONE });
        self.map[place] = page;
        self.map[PLACES + place] = key;
    }

    /// The key of a position, from the key block that the record names. The record fits.
    pub fn key(&self, image: &[u8], position: usize) -> [u8; KEY] {
        let slot = Slot::of(position);
        let pages = block(image, self.numbers.keys(slot.block)).expect("the record fits");
        pages.as_flattened()[slot.bytes()].try_into().expect("a slot has the length of a key")
    }

    /// Whether the record fits the image, which has a right size.
    pub fn fits(&self, image: &[u8]) -> bool {
        let Numbers { sequence, epoch, .. } = self.numbers;
        let in_range = |number| (1..=LAST + 1).contains(&number);
        in_range(sequence) && in_range(epoch) && self.blocks_fit(image) && self.nodes_fit(image)
    }

    /// The blocks are whole and of their kind.
    fn blocks_fit(&self, image: &[u8]) -> bool {
        let kind = |number: u32| {
            block(image, number as usize).map(|pages| blocks::kind(pages, &blocks::forms(pages)))
        };
        let Numbers { keys0, keys1, commit, .. } = self.numbers;
        matches!(kind(keys0), Some(Kind::Keys { number: 0, .. }))
            && matches!(kind(keys1), Some(Kind::Keys { number: 1, .. }))
            && matches!(kind(commit), Some(Kind::Commit(_)))
    }

    /// Each place is vacant or has a whole node of its own under the key that it names, no two places
    /// share a key, and the used letters are those of named positions.
    fn nodes_fit(&self, image: &[u8]) -> bool {
        let mut named = [false; POSITIONS];
        let (places, keys) = self.map.split_at(PLACES);
        for (place, (&page, &key)) in places.iter().zip(keys).enumerate() {
            if (page, key) == (NONE, NONE) {
                continue;
            }
            let form = pages(image).get(usize::from(page)).map(Form::of);
            if !form.is_some_and(|form| is_node(form, place, key)) {
                return false;
            }
            if std::mem::replace(&mut named[usize::from(key)], true) {
                return false;
            }
        }
        let fits = |(&letter, named)| is_letter(letter) && (letter == USED) == named;
        self.letters.iter().zip(named).all(fits)
    }
}

/// A record printed small: equal neighbours of map and letters as one.
impl fmt::Debug for Record {
    fn fmt(&self, f: &mut fmt::Formatter) -> fmt::Result {
        let letters: Vec<char> = self.letters.iter().map(|&letter| char::from(letter)).collect();
        f.debug_struct("Record")
            .field("map", &runs(&self.map))
            .field("letters", &runs(&letters))
            .field("numbers", &self.numbers)
            .finish()
    }
}

/// Values with how often each stands there in a row.
fn runs<T: Copy + PartialEq>(values: &[T]) -> Vec<(T, usize)> {
    values.chunk_by(|a, b| a == b).map(|run| (run[0], run.len())).collect()
}

/// Whether this is the form of a whole N page of a place's file and offset, and of this key.
pub fn is_node(form: Form, place: usize, key: u16) -> bool {
    let (file, offset) = files::node(place);
    matches!(form, Form::Whole(Header::Node { file: f, offset: o, key: k, .. })
        if (f, o, k) == (file, offset, usize::from(key)))
}
