//! What a store has: the view of its working record.

use crate::raw::{self, NONE};
use crate::{
    ffi, room, Offset, Refusal, BLOCK, HEADER, KEY, PAGE, PAGES_IN_BLOCK, PAYLOAD, PLACES,
};
use alloc::vec::Vec;
use core::fmt;
use core::ops::Range;

/// What stands for a key position in the record.
#[derive(Clone, Copy, Debug, PartialEq, Eq, Hash)]
pub enum Letter {
    /// f: it has enciphered nothing yet.
    Free,
    /// u: a live node is enciphered under it.
    Used,
    /// d: it is not used again until a commit replaces it.
    Deleted,
}

impl Letter {
    /// The letter: f, u or d.
    pub fn letter(self) -> char {
        match self {
            Letter::Free => 'f',
            Letter::Used => 'u',
            Letter::Deleted => 'd',
        }
    }

    fn of(byte: u8) -> Letter {
        match byte {
            b'f' => Letter::Free,
            b'u' => Letter::Used,
            _ => Letter::Deleted,
        }
    }
}

/// A live node: where its page and its key are.
#[derive(Clone, Copy, Debug, PartialEq, Eq, Hash)]
pub struct Node {
    /// Its file and offset.
    pub at: Offset,
    /// Its page, counted from the start of the image.
    pub page: usize,
    /// Its key position.
    pub key: usize,
}

/// How many key positions have each letter.
#[derive(Clone, Copy, Debug, Default, PartialEq, Eq, Hash)]
pub struct KeyCounts {
    /// Under which live nodes are enciphered.
    pub used: usize,
    /// Which writes can still take.
    pub free: usize,
    /// Which wait for a commit.
    pub deleted: usize,
}

/// The working record of a store, to be looked at.
///
/// ```
/// use johvimaru::{KeyCounts, Noise, Offset, Store};
///
/// let mut store = Store::format(vec![0; 32_768], Noise::from_system()?)?;
/// store.write(Offset::new(2, 5)?, b"track")?;
/// let record = store.record();
/// let node = record.node(Offset::new(2, 5)?).expect("it was written");
/// assert_eq!((node.page, node.key), (48, 0));
/// assert_eq!(record.counts(), KeyCounts { used: 1, free: 447, deleted: 0 });
/// assert_eq!((record.next_sequence(), record.next_epoch()), (2, 2));
/// assert_eq!((record.key_blocks(), record.commit_block()), ([0, 1], 2));
/// # Ok::<(), Box<dyn std::error::Error>>(())
/// ```
#[derive(Clone, PartialEq, Eq)]
pub struct Record(pub(crate) raw::Record);

/// Counts: the nodes and letters themselves are too many to be read.
impl fmt::Debug for Record {
    fn fmt(&self, f: &mut fmt::Formatter) -> fmt::Result {
        f.debug_struct("Record")
            .field("nodes", &self.nodes().count())
            .field("keys", &self.counts())
            .field("next_sequence", &self.next_sequence())
            .field("next_epoch", &self.next_epoch())
            .field("key_blocks", &self.key_blocks())
            .field("commit_block", &self.commit_block())
            .finish()
    }
}

impl Record {
    /// Reads a payload from the image of this record into the first of these bytes, and tells its length.
    pub(crate) fn read(
        &self,
        image: &[u8],
        at: Offset,
        output: &mut [u8; PAYLOAD],
    ) -> Result<usize, Refusal> {
        let (reply, length) = ffi::read(image, &self.0, at.pair(), output);
        Refusal::result(reply).map(|()| length)
    }

    /// The live node at an offset, if there is one.
    pub fn node(&self, at: Offset) -> Option<Node> {
        let place = at.place();
        let page = self.0.map[place];
        let key = self.0.map[PLACES + place];
        (page != NONE).then(|| Node { at, page: page.into(), key: key.into() })
    }

    /// All live nodes, by place.
    pub fn nodes(&self) -> impl Iterator<Item = Node> + '_ {
        Offset::all().filter_map(|at| self.node(at))
    }

    /// How many live pages a block has. It counts the nodes anew at each call, and is the crate's own: nothing is
    /// proved of it.
    pub fn live_pages_of(&self, block: usize) -> usize {
        self.nodes().filter(|node| node.page / PAGES_IN_BLOCK == block).count()
    }

    /// The data blocks that have a live page, the one with the fewest first, the lower first on a tie: the order
    /// in which to gather them. It counts the nodes anew at each call and is the crate's own: nothing is proved
    /// of it. Document 02's #105 will bring the library's own choice.
    ///
    /// ```
    /// # use johvimaru::{Noise, Offset, Store};
    /// let mut store = Store::format(vec![0; 32_768], Noise::from_system()?)?;
    /// for place in 0..17 {
    ///     store.write(Offset::at_place(place).unwrap(), b"track")?;
    /// }
    /// // Block 3 is full, and block 4 has one page.
    /// assert_eq!(store.record().thin_blocks(), [4, 3]);
    /// # Ok::<(), Box<dyn std::error::Error>>(())
    /// ```
    pub fn thin_blocks(&self) -> Vec<usize> {
        room::thin_blocks(self)
    }

    /// The letter of a key position.
    ///
    /// # Panics
    ///
    /// Where the position is not below 448.
    pub fn letter(&self, position: usize) -> Letter {
        Letter::of(self.0.letters[position])
    }

    /// The letters of all key positions.
    pub fn letters(&self) -> impl Iterator<Item = Letter> + '_ {
        self.0.letters.iter().copied().map(Letter::of)
    }

    /// How many key positions have each letter.
    pub fn counts(&self) -> KeyCounts {
        let mut counts = KeyCounts::default();
        for letter in self.letters() {
            *match letter {
                Letter::Used => &mut counts.used,
                Letter::Free => &mut counts.free,
                Letter::Deleted => &mut counts.deleted,
            } += 1;
        }
        counts
    }

    /// The sequence that the next write or cut-off takes, and the first copy of a gather. 100,000,000 is none.
    pub fn next_sequence(&self) -> u32 {
        self.0.numbers[0]
    }

    /// The epoch that the next commit takes. 100,000,000 is none.
    pub fn next_epoch(&self) -> u32 {
        self.0.numbers[1]
    }

    /// The blocks of the image that hold key blocks 0 and 1.
    pub fn key_blocks(&self) -> [usize; 2] {
        [self.0.numbers[2] as usize, self.0.numbers[3] as usize]
    }

    /// The block of the image that holds the commit.
    pub fn commit_block(&self) -> usize {
        self.0.numbers[4] as usize
    }

    /// Where the key of a position stands in the image.
    ///
    /// # Panics
    ///
    /// Where the position is not below 448.
    ///
    /// ```
    /// # use johvimaru::{Noise, Store};
    /// let mut bytes = [0; 7_168];
    /// bytes[16 * 239..][..16].copy_from_slice(b"key position 239");
    /// let store = Store::format(vec![0; 32_768], Noise::new(&bytes)?)?;
    /// assert_eq!(&store.image()[store.record().key_bytes(239)], b"key position 239");
    /// # Ok::<(), johvimaru::Refusal>(())
    /// ```
    pub fn key_bytes(&self, position: usize) -> Range<usize> {
        const IN_PAGE: usize = 14;
        const IN_BLOCK: usize = 16 * IN_PAGE;
        let block = self.key_blocks()[position / IN_BLOCK];
        let (page, slot) = (position % IN_BLOCK / IN_PAGE, position % IN_PAGE);
        let start = BLOCK * block + PAGE * page + HEADER + KEY * slot;
        start..start + KEY
    }
}
