//! An image that is looked at: as it stands, and its mounted copy.

use crate::image_file;
use crate::Problem;
use johvimaru::{Form, Header, Record, Refusal, Store, PAGE};
use std::path::Path;

/// Where a page goes on after its letter and its sequence.
const AFTER_SEQUENCE: usize = 9;

/// An image, and what a mount finds on it.
pub struct Seen {
    /// The image as it stands.
    pub image: Vec<u8>,
    /// Its mounted copy, or why that is refused.
    pub mounted: Result<Store<Vec<u8>>, Refusal>,
}

impl Seen {
    /// Mounts a copy of an image.
    pub fn of(image: Vec<u8>) -> Seen {
        let mounted = Store::mount(image.clone()).map_err(Refusal::from);
        Seen { image, mounted }
    }

    /// The record that the mount finds, or why it is refused.
    pub fn record(&self) -> Result<&Record, Refusal> {
        self.mounted.as_ref().map(Store::record).map_err(|refusal| *refusal)
    }

    /// Whether a page is an older copy of a live node, as a gather leaves it: another page than the node's, with
    /// the same bytes but for the sequence. A key that was replaced since gives other bytes, so a node that was
    /// replaced is not taken for one.
    pub fn is_older_copy(&self, page: usize) -> bool {
        let pages = self.image.as_chunks::<PAGE>().0;
        let Form::Whole(Header::Node { at, .. }) = Form::of(&pages[page]) else { return false };
        let node = self.record().ok().and_then(|record| record.node(at));
        node.is_some_and(|node| {
            node.page != page && pages[page][AFTER_SEQUENCE..] == pages[node.page][AFTER_SEQUENCE..]
        })
    }
}

/// An image file that is looked at.
pub struct SeenFile<'a> {
    /// Its name.
    pub path: &'a Path,
    /// What is in it.
    pub seen: Seen,
}

impl<'a> SeenFile<'a> {
    /// A file with this image in it.
    pub fn of(path: &'a Path, image: Vec<u8>) -> SeenFile<'a> {
        SeenFile { path, seen: Seen::of(image) }
    }

    /// A file that must be there.
    pub fn there(path: &'a Path) -> Result<SeenFile<'a>, Problem> {
        Ok(SeenFile::of(path, image_file::look(path)?))
    }

    /// Its name as it can be printed.
    pub fn name(&self) -> String {
        image_file::name(self.path)
    }

    /// The refusal of its mount, as a problem of the file.
    pub fn refused(&self) -> Result<(), Problem> {
        match self.seen.record() {
            Ok(_) => Ok(()),
            Err(refusal) => Err(image_file::refused(self.path, refusal)),
        }
    }
}

#[cfg(test)]
mod tests {
    use super::*;

    #[test]
    fn names_that_cannot_be_printed() {
        let file = SeenFile::of(Path::new("a\x1b[1mb\n.img"), vec![0xff; 32_768]);
        assert_eq!(file.name(), "a?[1mb?.img");
        assert!(file.refused().unwrap_err().to_string().starts_with("a?[1mb?.img: refused 13: "));
    }
}
