//! A chip in a file.

use crate::step::is_erased;
use crate::{Chip, Misuse, Page, BLOCK, PAGE, PAGES_IN_BLOCK};
use std::fs::{File, OpenOptions};
use std::io::{self, ErrorKind};
use std::os::unix::fs::FileExt;
use std::path::Path;

/// A chip in a file, of as many full blocks as the file has. It comes with the feature `std`.
///
/// Steps change the file in place, one by one in their order, and each is on the disk (`fdatasync`) when it ends.
/// So a program that is killed leaves what a chip's power cut leaves. The erase of an empty block is written as any
/// other: a mount writes each spare block of the file, so a file that cannot be written cannot be mounted so. To
/// look at one, mount a copy of its bytes by [`Store::mount`](crate::Store::mount). What lies below the file may
/// keep older bytes: docs/USING.md, "What a file cannot promise".
///
/// ```
/// use johvimaru::{Driver, FileChip, Noise, Offset};
///
/// let path = std::env::temp_dir().join(format!("johvimaru-doc-{}.img", std::process::id()));
/// let mut driver = Driver::new(FileChip::create(&path, 8)?);
/// driver.format(Noise::from_system()?)?;
/// driver.write(Offset::new(0, 0)?, &[b'x'; 224])?;
/// assert_eq!(std::fs::read(&path)?, driver.mirror());
/// # std::fs::remove_file(&path)?;
/// # Ok::<(), Box<dyn std::error::Error>>(())
/// ```
#[derive(Debug)]
pub struct FileChip {
    file: File,
    blocks: usize,
}

impl FileChip {
    /// The chip in a file that is there.
    pub fn open(path: impl AsRef<Path>) -> io::Result<FileChip> {
        FileChip::from_file(OpenOptions::new().read(true).write(true).open(path)?)
    }

    /// A new chip with empty blocks, in a file that is not yet there. File and name are on the disk then.
    pub fn create(path: impl AsRef<Path>, blocks: usize) -> io::Result<FileChip> {
        let path = path.as_ref();
        let file = OpenOptions::new().read(true).write(true).create_new(true).open(path)?;
        for block in 0..blocks {
            file.write_all_at(&[0xff; BLOCK], (BLOCK * block) as u64)?;
        }
        file.sync_all()?;
        File::open(folder(path))?.sync_all()?;
        Ok(FileChip { file, blocks })
    }

    /// The chip in a file that was opened to be read and written.
    pub fn from_file(file: File) -> io::Result<FileChip> {
        let blocks = file.metadata()?.len() / BLOCK as u64;
        let blocks = usize::try_from(blocks).map_err(|_| ErrorKind::FileTooLarge)?;
        Ok(FileChip { file, blocks })
    }

    /// Writes a step's bytes, and waits until they are on the disk.
    fn put(&self, bytes: &[u8], start: u64) -> io::Result<()> {
        self.file.write_all_at(bytes, start)?;
        self.file.sync_data()
    }

    /// Where a page or block starts, if the chip has it.
    fn start(&self, number: usize, count: usize, size: usize) -> io::Result<u64> {
        match number < count {
            true => Ok((number * size) as u64),
            false => Err(io::Error::new(ErrorKind::InvalidInput, Misuse::Outside)),
        }
    }
}

impl Chip for FileChip {
    type Error = io::Error;

    fn blocks(&self) -> usize {
        self.blocks
    }

    fn read(&mut self, page: usize, bytes: &mut Page) -> io::Result<()> {
        let start = self.start(page, PAGES_IN_BLOCK * self.blocks, PAGE)?;
        self.file.read_exact_at(bytes, start)
    }

    fn program(&mut self, page: usize, bytes: &Page) -> io::Result<()> {
        let start = self.start(page, PAGES_IN_BLOCK * self.blocks, PAGE)?;
        let mut old = [0; PAGE];
        self.read(page, &mut old)?;
        if !is_erased(&old) {
            return Err(io::Error::new(ErrorKind::InvalidInput, Misuse::NotEmpty));
        }
        self.put(bytes, start)
    }

    fn erase(&mut self, block: usize) -> io::Result<()> {
        self.erase_part(block, BLOCK)
    }

    fn erase_part(&mut self, block: usize, k: usize) -> io::Result<()> {
        let start = self.start(block, self.blocks, BLOCK)?;
        self.put(&[0xff; BLOCK][..k.min(BLOCK)], start)
    }
}

/// The folder in which a file has its name.
fn folder(path: &Path) -> &Path {
    match path.parent() {
        Some(folder) if !folder.as_os_str().is_empty() => folder,
        _ => Path::new("."),
    }
}

#[cfg(test)]
mod tests {
    use super::*;

    #[test]
    fn folders_of_files() {
        for (path, expected) in
            [("/a/b.img", "/a"), ("/b.img", "/"), ("a/b.img", "a"), ("b.img", ".")]
        {
            assert_eq!(folder(Path::new(path)), Path::new(expected), "{path}");
        }
    }
}
