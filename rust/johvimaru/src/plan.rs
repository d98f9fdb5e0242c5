//! The file plan: files, offsets and places.

use crate::{Refusal, FILES, PLACES};
use core::fmt;

/// The counts of nodes of the files.
const COUNTS: [u32; FILES] = [32, 32, 24, 24, 16, 16, 16, 16, 8, 8, 8, 8, 8, 8];

/// A file, 0 to 13.
///
/// ```
/// use johvimaru::{File, Refusal};
///
/// let file = File::new(2)?;
/// assert_eq!(file.count(), 24);
/// assert_eq!(file.offset(24), Err(Refusal::OffsetOutside));
/// assert_eq!(File::all().map(File::count).sum::<u32>(), 224);
/// # Ok::<(), Refusal>(())
/// ```
#[derive(Clone, Copy, Debug, PartialEq, Eq, PartialOrd, Ord, Hash)]
pub struct File(u32);

impl File {
    /// The file of this number, refused where it is above 13.
    pub fn new(number: u32) -> Result<File, Refusal> {
        match (number as usize) < FILES {
            true => Ok(File(number)),
            false => Err(Refusal::NoSuchFile),
        }
    }

    /// All files.
    pub fn all() -> impl Iterator<Item = File> {
        (0..FILES as u32).map(File)
    }

    /// Its number.
    pub fn number(self) -> u32 {
        self.0
    }

    /// How many nodes it holds.
    pub fn count(self) -> u32 {
        COUNTS[self.0 as usize]
    }

    /// The offset of this number in it, refused where that is not below the count.
    pub fn offset(self, number: u32) -> Result<Offset, Refusal> {
        match number < self.count() {
            true => Ok(Offset { file: self, number }),
            false => Err(Refusal::OffsetOutside),
        }
    }

    /// Its offset 0: a wipe from there clears the file.
    pub fn start(self) -> Offset {
        Offset { file: self, number: 0 }
    }

    /// All its offsets.
    pub fn offsets(self) -> impl Iterator<Item = Offset> {
        (0..self.count()).map(move |number| Offset { file: self, number })
    }
}

impl fmt::Display for File {
    fn fmt(&self, f: &mut fmt::Formatter) -> fmt::Result {
        write!(f, "file {}", self.0)
    }
}

/// An offset in a file: where one node goes. It is below the file's count.
///
/// ```
/// use johvimaru::{Offset, Refusal};
///
/// let at = Offset::new(2, 5)?;
/// assert_eq!(at.place(), 69);
/// assert_eq!(Offset::at_place(69), Some(at));
/// assert_eq!(at.to_string(), "file 2 offset 5");
/// assert_eq!(Offset::new(13, 8), Err(Refusal::OffsetOutside));
/// # Ok::<(), Refusal>(())
/// ```
#[derive(Clone, Copy, Debug, PartialEq, Eq, PartialOrd, Ord, Hash)]
pub struct Offset {
    file: File,
    number: u32,
}

impl Offset {
    /// The offset of this number in the file of that number.
    pub fn new(file: u32, number: u32) -> Result<Offset, Refusal> {
        File::new(file)?.offset(number)
    }

    /// All offsets of all files, by place.
    pub fn all() -> impl Iterator<Item = Offset> {
        File::all().flat_map(File::offsets)
    }

    /// The offset at a place, or none where that is not below 224.
    pub fn at_place(place: usize) -> Option<Offset> {
        Offset::all().nth(place)
    }

    /// Its file.
    pub fn file(self) -> File {
        self.file
    }

    /// Its number in the file.
    pub fn number(self) -> u32 {
        self.number
    }

    /// Its place among the nodes of all files, 0 to 223.
    pub fn place(self) -> usize {
        let earlier: u32 = COUNTS[..self.file.0 as usize].iter().sum();
        let place = (earlier + self.number) as usize;
        debug_assert!(place < PLACES);
        place
    }

    /// File and offset as the library takes them.
    pub(crate) fn pair(self) -> (u32, u32) {
        (self.file.0, self.number)
    }
}

impl fmt::Display for Offset {
    fn fmt(&self, f: &mut fmt::Formatter) -> fmt::Result {
        write!(f, "{} offset {}", self.file, self.number)
    }
}

#[cfg(test)]
mod tests {
    use super::*;
    use alloc::vec::Vec;

    #[test]
    fn places_follow_each_other() {
        let places: Vec<usize> = Offset::all().map(Offset::place).collect();
        assert_eq!(places, (0..PLACES).collect::<Vec<_>>());
        assert!(Offset::all().enumerate().all(|(x, at)| Offset::at_place(x) == Some(at)));
        assert_eq!(Offset::at_place(PLACES), None);
    }

    #[test]
    fn files_and_offsets_end_where_document_01_says() {
        assert_eq!(Offset::new(13, 7).map(Offset::place), Ok(223));
        assert_eq!(Offset::new(13, 8), Err(Refusal::OffsetOutside));
        assert_eq!(Offset::new(14, 0), Err(Refusal::NoSuchFile));
        assert_eq!(File::new(u32::MAX), Err(Refusal::NoSuchFile));
        assert_eq!(File::start(File(3)), Offset::new(3, 0).unwrap());
    }
}
