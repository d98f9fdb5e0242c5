//! The image file: looked at, made where there is none, and changed in place.
//!
//! A call changes the file step by step, as it would change a chip, so no older copy of it is left anywhere by the
//! command, and a command that is stopped leaves what a power cut leaves.

use crate::{say, Problem};
use johvimaru::{FileChip, Form, Refusal, Store, BLOCK, HEADER, MAX_BLOCKS, MIN_BLOCKS, PAGE};
use std::ffi::OsString;
use std::fs::{self, File, OpenOptions, TryLockError};
use std::io::{self, ErrorKind, Read, Write};
use std::os::unix::fs::{FileExt, MetadataExt, OpenOptionsExt};
use std::path::{Path, PathBuf};
use std::thread;
use std::time::{Duration, Instant};

/// The blocks of an image that is made on first use.
pub const BLOCKS: usize = 32;

/// What is added to a new image file's name while it is not yet whole.
const NEW: &str = ".johvimaru-new";

/// A wait for another command is told after this time.
const PATIENCE: Duration = Duration::from_secs(1);
/// So often it is looked whether the wait is over.
const PAUSE: Duration = Duration::from_millis(20);

/// An image file at which no other command is at work.
pub struct ImageFile {
    /// Its name, as it was given.
    pub named: PathBuf,
    file: File,
}

impl ImageFile {
    /// Opens a file that must be there, to change it, when no other command is at work on it.
    pub fn open(named: &Path) -> Result<ImageFile, Problem> {
        ImageFile::find(named)?.ok_or_else(|| not_there(named))
    }

    /// Opens a file to change it, or none where there is no file.
    pub fn find(named: &Path) -> Result<Option<ImageFile>, Problem> {
        while is_there(named)? {
            let opened = OpenOptions::new().read(true).write(true).open(named);
            let file = opened.map_err(|error| at(named, error))?;
            wait(named, || file.try_lock(), || file.lock()).map_err(|error| at(named, error))?;
            let image = ImageFile { named: named.to_path_buf(), file };
            // Another file may have taken the name while this one was waited for.
            if image.has_its_name()? {
                return Ok(Some(image));
            }
        }
        Ok(None)
    }

    /// Whether its name still leads to it.
    pub fn has_its_name(&self) -> Result<bool, Problem> {
        let ours = self.file.metadata().map_err(|error| at(&self.named, error))?;
        let named = fs::metadata(&self.named).map_err(|error| at(&self.named, error))?;
        Ok((ours.dev(), ours.ino()) == (named.dev(), named.ino()))
    }

    /// How many bytes it has.
    fn length(&self) -> Result<u64, Problem> {
        Ok(self.file.metadata().map_err(|error| at(&self.named, error))?.len())
    }

    /// How many blocks it has, where it is of the size of an image.
    pub fn blocks(&self) -> Result<Option<usize>, Problem> {
        let length = self.length()?;
        Ok(is_image_size(length).then_some(length as usize / BLOCK))
    }

    /// What is in the file. One of a wrong size is refused.
    pub fn bytes(&self) -> Result<Vec<u8>, Problem> {
        let blocks = self.blocks()?.ok_or_else(|| refused(&self.named, Refusal::ImageSize))?;
        let mut bytes = vec![0; BLOCK * blocks];
        self.file.read_exact_at(&mut bytes, 0).map_err(|error| at(&self.named, error))?;
        Ok(bytes)
    }

    /// Whether all bytes of the file are FFh, whatever its size.
    pub fn is_empty(&self) -> Result<bool, Problem> {
        let length = self.length()?;
        for start in (0..length).step_by(BLOCK) {
            let mut bytes = [0; BLOCK];
            let bytes = &mut bytes[..(length - start).min(BLOCK as u64) as usize];
            self.file.read_exact_at(bytes, start).map_err(|error| at(&self.named, error))?;
            if !is_empty(bytes) {
                return Ok(false);
            }
        }
        Ok(true)
    }

    /// The chip in the file. The file stays locked as long as either of the two is there.
    pub fn chip(&self) -> Result<FileChip, Problem> {
        let chip = self.file.try_clone().and_then(FileChip::from_file);
        chip.map_err(|error| at(&self.named, error))
    }

    /// Makes the file so many empty blocks. All that was in it is overwritten before its size changes.
    pub fn clear(&self, blocks: usize) -> Result<(), Problem> {
        let clear = || {
            let old = self.file.metadata()?.len();
            let new = (BLOCK * blocks) as u64;
            for start in (0..old.max(new)).step_by(BLOCK) {
                let length = (old.max(new) - start).min(BLOCK as u64) as usize;
                self.file.write_all_at(&[0xff; BLOCK][..length], start)?;
            }
            self.file.sync_all()?;
            self.file.set_len(new)?;
            self.file.sync_all()
        };
        clear().map_err(|error| at(&self.named, error))
    }
}

/// Makes an image file of these bytes, whole or not at all. Tells whether it did: not where there is one by now.
pub fn make(named: &Path, bytes: &[u8]) -> Result<bool, Problem> {
    let parent = match named.parent() {
        Some(parent) if !parent.as_os_str().is_empty() => parent,
        _ => Path::new("."),
    };
    let folder = File::open(parent).map_err(|error| at(parent, error))?;
    wait(parent, || folder.try_lock(), || folder.lock()).map_err(|error| at(parent, error))?;
    if is_there(named)? {
        return Ok(false);
    }
    let mut beside = OsString::from(named);
    beside.push(NEW);
    let made = put(Path::new(&beside), bytes)
        .and_then(|()| fs::rename(&beside, named))
        .and_then(|()| folder.sync_all());
    made.map(|()| true).map_err(|error| {
        let _ = fs::remove_file(&beside);
        at(named, error)
    })
}

/// Writes a new file. What a stopped command has left of that name goes.
fn put(path: &Path, bytes: &[u8]) -> io::Result<()> {
    match fs::remove_file(path) {
        Err(error) if error.kind() != ErrorKind::NotFound => return Err(error),
        _ => {}
    }
    // It will have keys in it, so nobody else may read it.
    let mut file = OpenOptions::new().write(true).create_new(true).mode(0o600).open(path)?;
    file.write_all(bytes)?;
    file.sync_all()
}

/// Waits for a lock, and says so where it takes long. Where there are no locks it says that and goes on.
fn wait(
    whose: &Path,
    mut now: impl FnMut() -> Result<(), TryLockError>,
    later: impl FnOnce() -> io::Result<()>,
) -> io::Result<()> {
    let start = Instant::now();
    loop {
        match now() {
            Ok(()) => return Ok(()),
            Err(TryLockError::Error(error)) if error.kind() == ErrorKind::Unsupported => {
                let whose = name(whose);
                say(format!("{whose} cannot be locked; see that no other command works on it"));
                return Ok(());
            }
            Err(TryLockError::Error(error)) => return Err(error),
            Err(TryLockError::WouldBlock) if start.elapsed() < PATIENCE => thread::sleep(PAUSE),
            Err(TryLockError::WouldBlock) => break,
        }
    }
    let whose = name(whose);
    say(format!("another command is at work on {whose}; waiting until it has ended"));
    later()
}

/// Whether there is a file of this name. What is there and is no file is a problem.
fn is_there(path: &Path) -> Result<bool, Problem> {
    match fs::metadata(path) {
        Err(error) if error.kind() == ErrorKind::NotFound => match fs::symlink_metadata(path) {
            Ok(about) if about.is_symlink() => {
                Err(Problem::System(format!("{} is a link to nothing", name(path))))
            }
            // Another command has made it since the first look.
            Ok(_) => is_there(path),
            Err(_) => Ok(false),
        },
        Err(error) => Err(at(path, error)),
        Ok(about) if about.is_file() => Ok(true),
        Ok(_) => Err(Problem::System(format!("{} is no file", name(path)))),
    }
}

/// The image of a file that must be there, to be looked at only. A file of a wrong size is refused.
pub fn look(path: &Path) -> Result<Vec<u8>, Problem> {
    if !is_there(path)? {
        return Err(not_there(path));
    }
    let read = || {
        let mut file = File::open(path)?;
        wait(path, || file.try_lock_shared(), || file.lock_shared())?;
        if !is_image_size(file.metadata()?.len()) {
            return Ok(None);
        }
        let mut bytes = Vec::new();
        file.read_to_end(&mut bytes).map(|_| Some(bytes))
    };
    let image = read().map_err(|error: io::Error| at(path, error))?;
    image.ok_or_else(|| refused(path, Refusal::ImageSize))
}

/// How many blocks a file has, where it is there and of the size of an image.
pub fn blocks_of(path: &Path) -> Result<Option<usize>, Problem> {
    if !is_there(path)? {
        return Ok(None);
    }
    let length = fs::metadata(path).map_err(|error| at(path, error))?.len();
    Ok(is_image_size(length).then_some(length as usize / BLOCK))
}

/// Whether so many bytes are 8 to 256 full blocks.
pub fn is_image_size(length: u64) -> bool {
    let block = BLOCK as u64;
    length.is_multiple_of(block)
        && (MIN_BLOCKS as u64..=MAX_BLOCKS as u64).contains(&(length / block))
}

/// Mounts a copy of an image.
pub fn mount(path: &Path, image: &[u8]) -> Result<Store<Vec<u8>>, Problem> {
    Store::mount(image.to_vec()).map_err(|refused_| refused(path, refused_.refusal))
}

/// A refusal for what is in a file.
pub fn refused(path: &Path, refusal: Refusal) -> Problem {
    Problem::RefusedFile(name(path), refusal)
}

/// What went wrong at a file.
pub fn at(path: &Path, error: io::Error) -> Problem {
    Problem::System(format!("{}: {error}", name(path)))
}

/// There is no file of this name.
fn not_there(path: &Path) -> Problem {
    let words = "is not there; check the name, or name the image file by --image";
    Problem::System(format!("{} {words}", name(path)))
}

/// The name of a file as it can be printed.
pub fn name(path: &Path) -> String {
    path.display().to_string().replace(|c: char| c.is_control(), "?")
}

/// The blocks that are empty in one image and not in the other, which came before.
pub fn erased(before: &[u8], after: &[u8]) -> Vec<usize> {
    let blocks = before.chunks(BLOCK).zip(after.chunks(BLOCK)).enumerate();
    blocks.filter(|(_, (old, new))| is_empty(new) && !is_empty(old)).map(|(b, _)| b).collect()
}

/// The spoilt pages of an image that hold more than the beginning of a header: what a cut erase leaves of a page, or
/// damage.
pub fn spoilt(image: &[u8]) -> Vec<usize> {
    let pages = image.as_chunks::<PAGE>().0.iter().enumerate();
    let is_spoilt =
        |page: &[u8; PAGE]| Form::of(page) == Form::Spoilt && !is_empty(&page[HEADER..]);
    pages.filter(|(_, page)| is_spoilt(page)).map(|(number, _)| number).collect()
}

/// Whether all bytes are FFh.
pub fn is_empty(bytes: &[u8]) -> bool {
    bytes.iter().all(|&byte| byte == 0xff)
}

/// Numbers of blocks in words: `block 5`, `blocks 5 6`.
pub fn blocks_in_words(blocks: &[usize]) -> String {
    numbers_in_words("block", blocks)
}

/// Numbers behind what they count: `page 5`, `pages 5 6`.
pub fn numbers_in_words(name: &str, numbers: &[usize]) -> String {
    let spelt: Vec<String> = numbers.iter().map(usize::to_string).collect();
    format!("{} {}", plural(numbers.len(), name), spelt.join(" "))
}

/// A count of things in words: `1 node`, `2 nodes`.
pub fn counted(count: usize, name: &str) -> String {
    format!("{count} {}", plural(count, name))
}

fn plural(count: usize, name: &str) -> String {
    format!("{name}{}", if count == 1 { "" } else { "s" })
}

#[cfg(test)]
mod tests {
    use super::*;

    #[test]
    fn sizes_of_images() {
        for (length, is) in [
            (0, false),
            (28_672, false),
            (32_768, true),
            (32_769, false),
            (1_048_576, true),
            (1_052_672, false),
            (u64::MAX, false),
        ] {
            assert_eq!(is_image_size(length), is, "{length}");
        }
    }

    /// A file that others make and remove is there or not, and never a problem.
    #[test]
    fn a_file_that_comes_and_goes() {
        let folder = std::env::temp_dir().join(format!("johvimaru-comes-{}", std::process::id()));
        fs::create_dir_all(&folder).unwrap();
        let path = folder.join("recorder.img");
        let (mut some, mut none) = (0, 0);
        thread::scope(|scope| {
            let others = scope.spawn(|| {
                for _ in 0..20_000 {
                    fs::write(&path, []).unwrap();
                    fs::remove_file(&path).unwrap();
                }
            });
            while !others.is_finished() {
                match is_there(&path).unwrap_or_else(|_| panic!("the file is a problem")) {
                    true => some += 1,
                    false => none += 1,
                }
            }
        });
        fs::remove_dir(&folder).unwrap();
        assert!(some > 0 && none > 0, "{some} times there, {none} times not");
    }

    #[test]
    fn erased_blocks_in_words() {
        let mut before = vec![0xff; 3 * BLOCK];
        before[0] = 0;
        before[2 * BLOCK] = 0;
        let mut after = before.clone();
        after[0] = 0xff;
        assert_eq!(erased(&before, &after), [0]);
        assert_eq!(blocks_in_words(&[0]), "block 0");
        assert_eq!(blocks_in_words(&[0, 2]), "blocks 0 2");
        assert_eq!((counted(1, "node"), counted(0, "node")), ("1 node".into(), "0 nodes".into()));
    }
}
