//! Why a call is refused.

use crate::raw;
use alloc::boxed::Box;
use core::error::Error;
use core::fmt;

/// Why a call was refused, with the numbers of documents 01 and 02. Later versions will have more of them.
///
/// ```
/// use johvimaru::{File, Refusal};
///
/// let refusal = File::new(14).unwrap_err();
/// assert_eq!(refusal, Refusal::NoSuchFile);
/// assert_eq!(refusal.number(), 4);
/// assert_eq!(refusal.to_string(), "the file is above 13");
/// ```
#[derive(Clone, Copy, Debug, PartialEq, Eq, PartialOrd, Ord, Hash)]
#[non_exhaustive]
#[repr(u32)]
pub enum Refusal {
    /// The image is not 8 to 256 full blocks.
    ImageSize = 1,
    /// Map, letters or scratch are of a wrong length. Only [`raw`] can meet it.
    BufferLength = 2,
    /// The noise is not 7,168 bytes.
    NoiseLength = 3,
    /// The file is above 13.
    NoSuchFile = 4,
    /// The offset is not below the file's count.
    OffsetOutside = 5,
    /// The payload is not 1 to 224 bytes, or its output not 224. The second only [`raw`] can meet.
    PayloadLength = 6,
    /// The record does not fit the image.
    RecordUnfit = 7,
    /// There is no node there.
    NothingThere = 8,
    /// No key is free. A commit replaces the deleted ones.
    NoFreeKey = 9,
    /// There is no page to take, or no empty block. A commit may bring room; a gather has to come before.
    NoRoom = 10,
    /// The sequences or epochs, which end at 99,999,999, do not last for the call.
    NumbersSpent = 11,
    /// A key block has no whole copy.
    NoKeyBlock = 12,
    /// There is no whole commit block.
    NoCommit = 13,
    /// A live entry does not fit, or a key is named twice.
    EntryUnfit = 14,
    /// The block is not a data block, or none of its pages is live: there is nothing to gather.
    NothingToGather = 15,
}

impl Refusal {
    const ALL: &[Refusal] = &[
        Refusal::ImageSize,
        Refusal::BufferLength,
        Refusal::NoiseLength,
        Refusal::NoSuchFile,
        Refusal::OffsetOutside,
        Refusal::PayloadLength,
        Refusal::RecordUnfit,
        Refusal::NothingThere,
        Refusal::NoFreeKey,
        Refusal::NoRoom,
        Refusal::NumbersSpent,
        Refusal::NoKeyBlock,
        Refusal::NoCommit,
        Refusal::EntryUnfit,
        Refusal::NothingToGather,
    ];

    /// All refusals, by their numbers.
    ///
    /// ```
    /// use johvimaru::Refusal;
    ///
    /// for refusal in Refusal::all() {
    ///     println!("{:3} {refusal}", refusal.number());
    /// }
    /// # assert_eq!(Refusal::all().next(), Some(Refusal::ImageSize));
    /// ```
    pub fn all() -> impl Iterator<Item = Refusal> {
        Refusal::ALL.iter().copied()
    }

    /// The documents' number of it, from 1 on.
    pub fn number(self) -> u32 {
        self as u32
    }

    /// The refusal of a number, or none where the number is that of no refusal.
    ///
    /// ```
    /// use johvimaru::Refusal;
    ///
    /// assert_eq!(Refusal::of(9), Some(Refusal::NoFreeKey));
    /// assert_eq!(Refusal::of(0), None);
    /// ```
    pub fn of(number: u32) -> Option<Refusal> {
        Refusal::all().find(|refusal| refusal.number() == number)
    }

    /// What a reply of the library says of a call that no power cut can meet.
    pub(crate) fn result(reply: u32) -> Result<(), Refusal> {
        match reply {
            raw::DONE => Ok(()),
            number => Err(Refusal::known(number)),
        }
    }

    /// The refusal of a reply that is neither done nor cut.
    pub(crate) fn known(reply: u32) -> Refusal {
        Refusal::of(reply).unwrap_or_else(|| panic!("{reply} is the number of no reply"))
    }
}

impl fmt::Display for Refusal {
    fn fmt(&self, f: &mut fmt::Formatter) -> fmt::Result {
        f.write_str(match self {
            Refusal::ImageSize => "the image is not 8 to 256 full blocks of 4,096 bytes",
            Refusal::BufferLength => "map, letters or scratch are of a wrong length",
            Refusal::NoiseLength => "the noise is not 7,168 bytes",
            Refusal::NoSuchFile => "the file is above 13",
            Refusal::OffsetOutside => "the offset is not below the file's count of nodes",
            Refusal::PayloadLength => "the payload is not 1 to 224 bytes, or its output not 224",
            Refusal::RecordUnfit => "the record does not fit the image",
            Refusal::NothingThere => "there is no node there",
            Refusal::NoFreeKey => "no key is free; a commit replaces the deleted ones",
            Refusal::NoRoom => "no page to take, or no empty block; a commit may bring room",
            Refusal::NumbersSpent => "the sequences or epochs do not last for the call",
            Refusal::NoKeyBlock => "a key block has no whole copy on the image",
            Refusal::NoCommit => "there is no whole commit block on the image",
            Refusal::EntryUnfit => "the image names a page that does not fit, or a key twice",
            Refusal::NothingToGather => {
                "nothing to gather: not a data block with a live page; name one of those that nodes are on"
            }
        })
    }
}

impl Error for Refusal {}

/// A call that took something and was refused: it gives it back, unchanged.
///
/// It is no error itself, since it may borrow an image. `?` makes it its [`Refusal`], also in a function
/// whose error is a box.
pub struct Refused<T> {
    /// Why.
    pub refusal: Refusal,
    /// What the call was given.
    pub back: T,
}

impl<T> fmt::Debug for Refused<T> {
    fn fmt(&self, f: &mut fmt::Formatter) -> fmt::Result {
        f.debug_struct("Refused").field("refusal", &self.refusal).finish_non_exhaustive()
    }
}

impl<T> fmt::Display for Refused<T> {
    fn fmt(&self, f: &mut fmt::Formatter) -> fmt::Result {
        self.refusal.fmt(f)
    }
}

impl<T> From<Refused<T>> for Refusal {
    fn from(refused: Refused<T>) -> Refusal {
        refused.refusal
    }
}

impl<T> From<Refused<T>> for Box<dyn Error> {
    fn from(refused: Refused<T>) -> Box<dyn Error> {
        refused.refusal.into()
    }
}

impl<T> From<Refused<T>> for Box<dyn Error + Send + Sync> {
    fn from(refused: Refused<T>) -> Box<dyn Error + Send + Sync> {
        refused.refusal.into()
    }
}

#[cfg(test)]
mod tests {
    use super::*;
    use alloc::collections::BTreeSet;
    use alloc::string::{String, ToString};

    #[test]
    fn refusals_have_the_numbers_of_the_documents() {
        assert!(Refusal::all().map(Refusal::number).eq(1..=15));
        for refusal in Refusal::all() {
            assert_eq!(Refusal::of(refusal.number()), Some(refusal));
        }
        assert_eq!([0, 16, 255].map(Refusal::of), [None; 3]);
    }

    #[test]
    fn each_has_a_sentence_of_its_own() {
        let sentences: BTreeSet<String> =
            Refusal::all().map(|refusal| refusal.to_string()).collect();
        assert_eq!(sentences.len(), Refusal::all().count());
    }

    #[test]
    #[should_panic(expected = "16 is the number of no reply")]
    fn other_replies_are_no_refusals() {
        let _ = Refusal::result(16);
    }
}
