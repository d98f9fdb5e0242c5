//! Calls that drive a chip.

use crate::raw::{self, DONE, POWER_CUT};
use crate::store::number;
use crate::{
    ffi, room, Chip, Cut, Noise, Offset, Payload, Record, Refusal, Step, Store, BLOCK, PAGE,
    PAGES_IN_BLOCK, PAYLOAD, PLACES,
};
use alloc::vec;
use alloc::vec::Vec;
use core::error::Error;
use core::fmt;

/// Why a call on a chip was not done.
///
/// The text of a refusal is the refusal's own. The text of a chip's error is not repeated here: that error is
/// the `source`.
///
/// ```
/// use johvimaru::{Driver, Failure, MemoryChip, Misuse};
/// use std::error::Error;
///
/// let failure: Failure<Misuse> = Driver::new(MemoryChip::new(vec![])).mount().unwrap_err();
/// assert_eq!(failure.to_string(), "the image is not 8 to 256 full blocks of 4,096 bytes");
/// assert!(failure.source().is_none());
///
/// let failure = Failure::Chip(Misuse::NotEmpty);
/// assert_eq!(failure.to_string(), "the chip failed");
/// let source = failure.source().map(ToString::to_string);
/// assert_eq!(source.as_deref(), Some("a page is programmed that is not empty"));
/// ```
#[derive(Clone, Copy, Debug, PartialEq, Eq)]
pub enum Failure<E> {
    /// It was refused, and the chip was told nothing.
    Refused(Refusal),
    /// There is no record: a mount or a format has to come first.
    NotMounted,
    /// The chip failed in a step, or when it was read. A mount has to follow.
    Chip(E),
}

impl<E> Failure<E> {
    /// The refusal, if it is one.
    pub fn refusal(&self) -> Option<Refusal> {
        match self {
            Failure::Refused(refusal) => Some(*refusal),
            _ => None,
        }
    }
}

impl<E> fmt::Display for Failure<E> {
    fn fmt(&self, f: &mut fmt::Formatter) -> fmt::Result {
        match self {
            Failure::Refused(refusal) => refusal.fmt(f),
            Failure::NotMounted => f.write_str("the chip has to be mounted first"),
            Failure::Chip(_) => f.write_str("the chip failed"),
        }
    }
}

impl<E: Error + 'static> Error for Failure<E> {
    fn source(&self) -> Option<&(dyn Error + 'static)> {
        match self {
            Failure::Chip(error) => Some(error),
            Failure::Refused(_) | Failure::NotMounted => None,
        }
    }
}

impl<E> From<Refusal> for Failure<E> {
    fn from(refusal: Refusal) -> Failure<E> {
        Failure::Refused(refusal)
    }
}

/// A chip with its mirror and record: each call goes to the chip step by step.
///
/// A format or a mount is made whole on a copy of the mirror, and its steps are read off the image that it leaves:
/// a format erases all blocks and then programs pages 0 to 41, a mount erases exactly the blocks that are empty
/// then, all in ascending order. So the chip is told the erases of empty blocks too, which make no difference to an
/// image, and which it must do: where the power failed in an erase, a block can look empty and not keep the next
/// page, until an erase of it ends.
///
/// The steps of any other call are learnt from its form with n and k, with k = 0, on copies of the mirror: the copies
/// after n and after n + 1 steps differ by one step. It is handed to the chip, then done on the mirror,
/// and only then the next one is looked for. So a page that a call programs and erases again is seen. None of these
/// calls erases an empty block. The steps that a chip counts are therefore those of the documents.
///
/// Where the chip fails, the call ends: the mirror has the steps that the chip has done whole, the record is
/// gone, and every call but [`mount`](Driver::mount) and [`format`](Driver::format) fails with
/// [`Failure::NotMounted`]. The step that failed may stand on the chip in part; mount reads the chip
/// anew.
///
/// A format or a mount is made on a copy once, any other call as often as it has steps, and at least once.
///
/// ```
/// use johvimaru::{Driver, File, MemoryChip, Noise};
///
/// let chip = MemoryChip::new(vec![0xff; 16 * johvimaru::BLOCK]);
/// let mut driver = Driver::new(chip);
/// driver.format(Noise::from_system()?)?;
/// let at = File::new(0)?.offset(3)?;
/// driver.write(at, b"draught 4.12 m")?;
/// assert_eq!(driver.read(at)?, b"draught 4.12 m");
/// driver.wipe(File::new(0)?.start(), Noise::from_system()?)?;
/// assert_eq!(driver.chip().bytes(), driver.mirror());
/// # Ok::<(), Box<dyn std::error::Error>>(())
/// ```
#[derive(Clone)]
pub struct Driver<C> {
    chip: C,
    mirror: Vec<u8>,
    record: Option<Record>,
}

/// Chip and mirror, which have the keys, are not shown.
impl<C> fmt::Debug for Driver<C> {
    fn fmt(&self, f: &mut fmt::Formatter) -> fmt::Result {
        f.debug_struct("Driver")
            .field("blocks", &(self.mirror.len() / BLOCK))
            .field("record", &self.record)
            .finish_non_exhaustive()
    }
}

impl<C> Driver<C> {
    /// Drives a chip that is not yet mounted.
    pub fn new(chip: C) -> Driver<C> {
        Driver { chip, mirror: Vec::new(), record: None }
    }

    /// The chip.
    pub fn chip(&self) -> &C {
        &self.chip
    }

    /// The chip, to be set up. No step may be done on it so.
    pub fn chip_mut(&mut self) -> &mut C {
        &mut self.chip
    }

    /// Gives the chip up.
    pub fn into_chip(self) -> C {
        self.chip
    }

    /// The mirror: what is on the chip, as far as its steps have ended. It is empty before the first mount
    /// or format.
    pub fn mirror(&self) -> &[u8] {
        &self.mirror
    }

    /// The record, where the chip is mounted.
    pub fn record(&self) -> Option<&Record> {
        self.record.as_ref()
    }

    /// How many pages writes, cut-offs and gathers can still take, where the chip is mounted, as
    /// [`Store::pages_left`]. Which blocks are thin is told by [`Record::thin_blocks`].
    pub fn pages_left(&self) -> Option<usize> {
        self.record.as_ref().map(|_| room::pages_left(&self.mirror))
    }

    /// A store on a copy of the mirror, where the chip is mounted: to try a call on it.
    pub fn copy(&self) -> Option<Store<Vec<u8>>> {
        let record = self.record.clone()?;
        Some(Store::from_parts(self.mirror.clone(), record.0))
    }
}

impl<C: Chip> Driver<C> {
    /// Formats the chip.
    pub fn format(&mut self, noise: Noise) -> Result<(), Failure<C::Error>> {
        self.read_chip()?;
        let (mut image, mut record) = (self.mirror.clone(), raw::Record::blank());
        let reply = raw::format(&mut image, &mut record, noise.bytes());
        self.follow(reply, &image, record, Step::of_format(&image))
    }

    /// Reads the whole chip, and mounts it, as [`Store::mount`]. It has a step for each block that it erases, so
    /// at least one for each empty block.
    pub fn mount(&mut self) -> Result<(), Failure<C::Error>> {
        self.read_chip()?;
        let (mut image, mut record) = (self.mirror.clone(), raw::Record::blank());
        let reply = raw::mount(&mut image, &mut record, &mut [0; PLACES]);
        self.follow(reply, &image, record, Step::of_mount(&image))
    }

    /// Writes a payload, as [`Store::write`].
    pub fn write(&mut self, at: Offset, payload: &[u8]) -> Result<(), Failure<C::Error>> {
        self.call(|image, record, cut| ffi::write(image, record, at.pair(), payload, Some(cut)))
    }

    /// Reads a payload from the mirror, as [`Store::read`].
    pub fn read(&self, at: Offset) -> Result<Payload, Failure<C::Error>> {
        let record = self.record.as_ref().ok_or(Failure::NotMounted)?;
        Ok(Payload::filled(|output| record.read(&self.mirror, at, output))?)
    }

    /// Reads a payload from the mirror into the caller's bytes, as [`Store::read_into`].
    pub fn read_into<'b>(
        &self,
        at: Offset,
        buffer: &'b mut [u8; PAYLOAD],
    ) -> Result<&'b [u8], Failure<C::Error>> {
        let record = self.record.as_ref().ok_or(Failure::NotMounted)?;
        let length = record.read(&self.mirror, at, buffer)?;
        Ok(&buffer[..length])
    }

    /// Removes the nodes of a file from an offset on, as [`Store::cut_off`].
    pub fn cut_off(&mut self, from: Offset) -> Result<(), Failure<C::Error>> {
        self.call(|image, record, cut| ffi::cut_off(image, record, from.pair(), Some(cut)))
    }

    /// Copies the live pages of a data block out of it, as [`Store::gather`]. It has a step for each.
    ///
    /// ```
    /// # use johvimaru::{Driver, Failure, File, MemoryChip, Noise, Refusal, BLOCK, PAGES_IN_BLOCK};
    /// # let mut driver = Driver::new(MemoryChip::new(vec![0xff; 24 * BLOCK]));
    /// # driver.format(Noise::from_system()?)?;
    /// # let at = File::new(0)?.offset(3)?;
    /// // Before a write: blocks from the thinnest on, as long as there is room for their copies, then a commit.
    /// if driver.pages_left() <= Some(PAGES_IN_BLOCK) {
    ///     let mut blocks = driver.record().map_or(vec![], |record| record.thin_blocks());
    ///     // A block whose pages are all live would bring nothing.
    ///     blocks.retain(|block| {
    ///         driver.record().is_some_and(|record| record.live_pages_of(*block) < PAGES_IN_BLOCK)
    ///     });
    ///     for block in blocks {
    ///         match driver.gather(block) {
    ///             Err(Failure::Refused(Refusal::NoRoom)) => {}
    ///             result => result?,
    ///         }
    ///     }
    ///     driver.commit(Noise::from_system()?)?;
    /// }
    /// driver.write(at, b"draught 4.12 m")?;
    /// # Ok::<(), Box<dyn std::error::Error>>(())
    /// ```
    pub fn gather(&mut self, block: usize) -> Result<(), Failure<C::Error>> {
        let block = number(block);
        self.call(|image, record, cut| ffi::gather(image, record, block, Some(cut)))
    }

    /// Replaces every key that no live node has, as [`Store::commit`].
    pub fn commit(&mut self, noise: Noise) -> Result<(), Failure<C::Error>> {
        self.call(|image, record, cut| ffi::commit(image, record, noise.bytes(), Some(cut)))
    }

    /// Removes nodes and their keys, as [`Store::wipe`].
    pub fn wipe(&mut self, from: Offset, noise: Noise) -> Result<(), Failure<C::Error>> {
        self.call(|image, record, cut| {
            ffi::wipe(image, record, noise.bytes(), from.pair(), Some(cut))
        })
    }

    /// Makes the mirror what is on the chip, and forgets the record.
    fn read_chip(&mut self) -> Result<(), Failure<C::Error>> {
        self.record = None;
        let mut bytes = vec![0; BLOCK * self.chip.blocks()];
        for page in 0..PAGES_IN_BLOCK * self.chip.blocks() {
            let mut one = [0; PAGE];
            self.chip.read(page, &mut one).map_err(Failure::Chip)?;
            bytes[PAGE * page..][..PAGE].copy_from_slice(&one);
        }
        self.mirror = bytes;
        Ok(())
    }

    /// Hands the steps of a call on that was made whole on a copy, and has left this image and record.
    fn follow(
        &mut self,
        reply: u32,
        image: &[u8],
        record: raw::Record,
        steps: impl Iterator<Item = Step>,
    ) -> Result<(), Failure<C::Error>> {
        Refusal::result(reply)?;
        for step in steps {
            self.tell(&step).map_err(Failure::Chip)?;
        }
        debug_assert!(self.mirror == image, "the mirror is what the call leaves");
        self.record = Some(Record(record));
        Ok(())
    }

    /// Makes any other call from mirror and record, which a refusal leaves as they are.
    fn call(
        &mut self,
        call: impl Fn(&mut [u8], &mut raw::Record, Cut) -> u32,
    ) -> Result<(), Failure<C::Error>> {
        let record = self.record.take().ok_or(Failure::NotMounted)?;
        let result = self.drive(self.mirror.clone(), record.0.clone(), call);
        if let Err(Failure::Refused(_)) = result {
            self.record = Some(record);
        }
        result
    }

    /// Makes a call on copies of this image and record, step by step, and hands each step on. No step of the call
    /// may erase an empty block.
    fn drive(
        &mut self,
        image: Vec<u8>,
        record: raw::Record,
        call: impl Fn(&mut [u8], &mut raw::Record, Cut) -> u32,
    ) -> Result<(), Failure<C::Error>> {
        let (mut now, mut next) = (image.clone(), image.clone());
        for n in 1.. {
            next.copy_from_slice(&image);
            let mut after = record.clone();
            let reply = call(&mut next, &mut after, Cut { n, k: 0 });
            if !matches!(reply, DONE | POWER_CUT) {
                return Err(Refusal::known(reply).into());
            }
            let step = Step::between(&now, &next);
            debug_assert!(step.is_some(), "each step is seen");
            if let Some(step) = step {
                self.tell(&step).map_err(Failure::Chip)?;
            }
            if reply == DONE {
                debug_assert!(self.mirror == next, "the mirror is what the call leaves");
                self.record = Some(Record(after));
                break;
            }
            core::mem::swap(&mut now, &mut next);
        }
        Ok(())
    }

    /// Hands a step to the chip. Once it has ended there, it is done on the mirror.
    fn tell(&mut self, step: &Step) -> Result<(), C::Error> {
        match step {
            Step::Program { page, bytes } => self.chip.program(*page, bytes)?,
            Step::Erase { block } => self.chip.erase(*block)?,
        }
        step.apply(&mut self.mirror);
        Ok(())
    }
}
