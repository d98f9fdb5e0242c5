//! The store: an image with its record.

use crate::raw::{self, DONE};
use crate::{ffi, room, Noise, Offset, Payload, Record, Refusal, Refused, BLOCK, PAYLOAD, PLACES};
#[cfg(feature = "cut")]
use crate::{Cut, Outcome, Unmounted};
use alloc::vec::Vec;
use core::fmt;

/// An image and its working record, kept together.
///
/// The image is anything that lends its bytes: a `Vec<u8>` or a boxed slice, which the store then owns,
/// or a `&mut [u8]`, which it borrows. It is 8 to 256 blocks of 4,096 bytes. For a chip it is the mirror;
/// [`Driver`](crate::Driver) keeps both alike. Nothing but the store may change it while the store has it:
/// a call on an image that was changed behind it may be refused with [`Refusal::RecordUnfit`].
///
/// ```
/// use johvimaru::{File, Noise, Refusal, Store};
///
/// let mut image = vec![0; 32 * johvimaru::BLOCK];
/// let mut store = Store::format(&mut image[..], Noise::from_system()?)?;
/// let at = File::new(0)?.offset(3)?;
/// store.write(at, b"draught 4.12 m")?;
/// assert_eq!(store.read(at)?, b"draught 4.12 m");
///
/// // Another day: the record is found again from the image alone.
/// let mut store = Store::mount(image)?;
/// assert_eq!(store.read(at)?, b"draught 4.12 m");
/// store.wipe(File::new(0)?.start(), Noise::from_system()?)?;
/// assert_eq!(store.read(at), Err(Refusal::NothingThere));
/// # Ok::<(), Box<dyn std::error::Error>>(())
/// ```
#[derive(Clone)]
pub struct Store<I> {
    image: I,
    record: Record,
}

/// The image, which has the keys, is not shown.
impl<I> fmt::Debug for Store<I> {
    fn fmt(&self, f: &mut fmt::Formatter) -> fmt::Result {
        f.debug_struct("Store").field("record", &self.record).finish_non_exhaustive()
    }
}

impl<I> Store<I> {
    /// The record.
    pub fn record(&self) -> &Record {
        &self.record
    }

    /// Gives the image up, without the record: a mount finds that again.
    pub fn into_image(self) -> I {
        self.image
    }

    pub(crate) fn from_parts(image: I, record: raw::Record) -> Store<I> {
        Store { image, record: Record(record) }
    }
}

impl<I: AsRef<[u8]> + AsMut<[u8]>> Store<I> {
    /// Makes an empty store on an image, whatever that held before. Its keys come from the noise.
    ///
    /// Refused with [`Refusal::ImageSize`]. The image then comes back as it was.
    ///
    /// ```
    /// use johvimaru::{Noise, Refusal, Store};
    ///
    /// let refused = Store::format(vec![0; 28_672], Noise::from_system()?).unwrap_err();
    /// assert_eq!(refused.refusal, Refusal::ImageSize);
    /// assert_eq!(refused.back.len(), 28_672);
    /// # Ok::<(), std::io::Error>(())
    /// ```
    pub fn format(mut image: I, noise: Noise) -> Result<Store<I>, Refused<I>> {
        let mut record = raw::Record::blank();
        match raw::format(image.as_mut(), &mut record, noise.bytes()) {
            DONE => Ok(Store::from_parts(image, record)),
            reply => Err(Refused { refusal: Refusal::known(reply), back: image }),
        }
    }

    /// Finds the record of an image from what is on it alone, and erases every block that is not needed: what cut
    /// calls have left, data blocks without a live page on which the last commit covers everything, and empty
    /// blocks. Those are erased because the power may have failed in an erase of one, after which a chip may not
    /// keep what is programmed there; in memory that changes nothing, and [`Driver`](crate::Driver) has a chip do
    /// it. So a mount has steps also after a call that was done. A second mount changes no byte.
    ///
    /// Refused with [`Refusal::ImageSize`], [`Refusal::NoCommit`], [`Refusal::NoKeyBlock`] or
    /// [`Refusal::EntryUnfit`]. The image then comes back as it was.
    ///
    /// ```
    /// use johvimaru::{Refusal, Store};
    ///
    /// let refused = Store::mount(vec![0xff; 32_768]).unwrap_err();
    /// assert_eq!(refused.refusal, Refusal::NoCommit);
    /// ```
    pub fn mount(mut image: I) -> Result<Store<I>, Refused<I>> {
        let mut record = raw::Record::blank();
        match raw::mount(image.as_mut(), &mut record, &mut [0; PLACES]) {
            DONE => Ok(Store::from_parts(image, record)),
            reply => Err(Refused { refusal: Refusal::known(reply), back: image }),
        }
    }

    /// The image's bytes.
    pub fn image(&self) -> &[u8] {
        self.image.as_ref()
    }

    /// How many pages writes, cut-offs and gathers can still take: the empty ones at the end of each data block,
    /// and 16 for each empty block but one, which is kept for a commit. While 16 are left, a
    /// [`gather`](Store::gather) of any block has room. It looks at every page, and is the crate's own: nothing
    /// is proved of it.
    ///
    /// ```
    /// # use johvimaru::{Noise, Offset, Store};
    /// let mut store = Store::format(vec![0; 32_768], Noise::from_system()?)?;
    /// assert_eq!(store.pages_left(), 64);
    /// store.write(Offset::new(0, 0)?, b"track")?;
    /// assert_eq!(store.pages_left(), 63);
    /// # Ok::<(), Box<dyn std::error::Error>>(())
    /// ```
    pub fn pages_left(&self) -> usize {
        room::pages_left(self.image())
    }

    /// How many live pages each block has, by block. A commit erases the data blocks that have none. It counts
    /// the nodes anew at each call, and is the crate's own: nothing is proved of it. Document 02's #105 will
    /// bring counts that the library keeps.
    ///
    /// ```
    /// # use johvimaru::{Noise, Offset, Store};
    /// let mut store = Store::format(vec![0; 32_768], Noise::from_system()?)?;
    /// store.write(Offset::new(0, 0)?, b"track")?;
    /// assert_eq!(store.live_pages(), [0, 0, 0, 1, 0, 0, 0, 0]);
    /// # Ok::<(), Box<dyn std::error::Error>>(())
    /// ```
    pub fn live_pages(&self) -> Vec<usize> {
        room::live_pages(&self.record, self.image().len() / BLOCK)
    }

    /// Of the data blocks that have a live page the one with the fewest, the lowest of several: the first of
    /// [`Record::thin_blocks`].
    pub fn thinnest(&self) -> Option<usize> {
        self.record.thin_blocks().first().copied()
    }

    /// Writes a payload of 1 to 224 bytes. What was at the offset before is replaced, and its key deleted.
    ///
    /// Spaces follow it on the page up to 224 bytes. They are enciphered with it; the page's header, which is
    /// not enciphered, has the length.
    ///
    /// Refused with [`Refusal::PayloadLength`], [`Refusal::NumbersSpent`], [`Refusal::NoFreeKey`] or
    /// [`Refusal::NoRoom`]. Nothing is changed then; after the last two a commit may bring room. Where it does
    /// not, the blocks are thin: see [`gather`](Store::gather), which has to come in time.
    ///
    /// ```
    /// # use johvimaru::{Noise, Offset, Refusal, Store};
    /// // On 8 blocks, 64 writes are taken after a format.
    /// let mut store = Store::format(vec![0; 32_768], Noise::from_system()?)?;
    /// let at = Offset::new(0, 0)?;
    /// for _ in 0..64 {
    ///     store.write(at, b"track")?;
    /// }
    /// assert_eq!(store.write(at, b"track"), Err(Refusal::NoRoom));
    /// store.commit(Noise::from_system()?)?;
    /// store.write(at, b"track")?;
    /// assert_eq!(store.write(at, b""), Err(Refusal::PayloadLength));
    /// # Ok::<(), Box<dyn std::error::Error>>(())
    /// ```
    pub fn write(&mut self, at: Offset, payload: &[u8]) -> Result<(), Refusal> {
        let Store { image, record } = self;
        Refusal::result(ffi::write(image.as_mut(), &mut record.0, at.pair(), payload, None))
    }

    /// Reads a payload. That of a node from before lengths were kept has 224 bytes, with whatever its writer
    /// put after the record.
    ///
    /// Refused with [`Refusal::NothingThere`].
    pub fn read(&self, at: Offset) -> Result<Payload, Refusal> {
        Payload::filled(|output| self.record.read(self.image(), at, output))
    }

    /// Reads a payload into the caller's bytes, and lends the part of them that it fills. The rest of them
    /// stays as it was.
    ///
    /// Refused with [`Refusal::NothingThere`]. All of them then stay as they were.
    ///
    /// ```
    /// # use johvimaru::{Noise, Offset, Store};
    /// # let mut store = Store::format(vec![0; 32_768], Noise::from_system()?)?;
    /// # let at = Offset::new(0, 0)?;
    /// store.write(at, b"draught 4.12 m")?;
    /// let mut buffer = [0; johvimaru::PAYLOAD];
    /// assert_eq!(store.read_into(at, &mut buffer)?, b"draught 4.12 m");
    /// assert_eq!(buffer[14..], [0; 210]);
    /// # Ok::<(), Box<dyn std::error::Error>>(())
    /// ```
    pub fn read_into<'b>(
        &self,
        at: Offset,
        buffer: &'b mut [u8; PAYLOAD],
    ) -> Result<&'b [u8], Refusal> {
        let length = self.record.read(self.image(), at, buffer)?;
        Ok(&buffer[..length])
    }

    /// Removes the nodes of a file from an offset on. Their keys stay on the image until the next commit.
    ///
    /// Refused with [`Refusal::NothingThere`], [`Refusal::NumbersSpent`] or [`Refusal::NoRoom`].
    ///
    /// ```
    /// # use johvimaru::{Noise, Offset, Refusal, Store};
    /// let mut store = Store::format(vec![0; 32_768], Noise::from_system()?)?;
    /// store.write(Offset::new(5, 2)?, b"track")?;
    /// assert_eq!(store.cut_off(Offset::new(5, 3)?), Err(Refusal::NothingThere));
    /// store.cut_off(Offset::new(5, 1)?)?;
    /// assert_eq!(store.record().nodes().count(), 0);
    /// # Ok::<(), Box<dyn std::error::Error>>(())
    /// ```
    pub fn cut_off(&mut self, from: Offset) -> Result<(), Refusal> {
        let Store { image, record } = self;
        Refusal::result(ffi::cut_off(image.as_mut(), &mut record.0, from.pair(), None))
    }

    /// Copies each live page of a data block, the lowest first, to the page that a write would take outside
    /// that block. Payload, length and key stay, and each copy has a sequence of its own, so all nodes read as
    /// before. The block then has no live page: the next commit erases it, unless a write takes one of its pages
    /// before. So commit next. A mount erases it too, if the last commit covers all that is on it.
    ///
    /// Refused with [`Refusal::NothingToGather`], [`Refusal::NumbersSpent`] (a sequence for each copy) or
    /// [`Refusal::NoRoom`]. Nothing is changed then. Where a write is refused for want of a page, so is every
    /// gather: gather while [`pages_left`](Store::pages_left) are at least 16.
    ///
    /// ```
    /// # use johvimaru::{Noise, Offset, Refusal, Store};
    /// let mut store = Store::format(vec![0; 32_768], Noise::from_system()?)?;
    /// let (kept, log) = (Offset::new(0, 0)?, Offset::new(0, 1)?);
    /// store.write(kept, b"draught 4.12 m")?;
    /// for _ in 0..40 {
    ///     store.write(log, b"track")?;
    /// }
    /// // Block 3 is there for one node. It is gathered and given back.
    /// assert_eq!((store.thinnest(), store.pages_left()), (Some(3), 23));
    /// store.gather(3)?;
    /// assert_eq!(store.gather(3), Err(Refusal::NothingToGather));
    /// store.commit(Noise::from_system()?)?;
    /// assert_eq!(store.pages_left(), 54);
    /// assert_eq!(store.read(kept)?, b"draught 4.12 m");
    /// # Ok::<(), Box<dyn std::error::Error>>(())
    /// ```
    pub fn gather(&mut self, block: usize) -> Result<(), Refusal> {
        let Store { image, record } = self;
        Refusal::result(ffi::gather(image.as_mut(), &mut record.0, number(block), None))
    }

    /// Replaces every key that no live node has, so that what it enciphered cannot be read again, and
    /// erases the data blocks without a live page.
    ///
    /// Refused with [`Refusal::NumbersSpent`] or [`Refusal::NoRoom`].
    pub fn commit(&mut self, noise: Noise) -> Result<(), Refusal> {
        let Store { image, record } = self;
        Refusal::result(ffi::commit(image.as_mut(), &mut record.0, noise.bytes(), None))
    }

    /// Removes the nodes of a file from an offset on, and commits: what they held cannot be read again.
    /// It is done too where there is no node to remove.
    ///
    /// Refused with [`Refusal::NumbersSpent`] (it takes two epochs) or [`Refusal::NoRoom`].
    pub fn wipe(&mut self, from: Offset, noise: Noise) -> Result<(), Refusal> {
        let Store { image, record } = self;
        Refusal::result(ffi::wipe(image.as_mut(), &mut record.0, noise.bytes(), from.pair(), None))
    }
}

/// A block as the library takes it. One that is too large for that is its largest, which is no block either.
pub(crate) fn number(block: usize) -> u32 {
    u32::try_from(block).unwrap_or(u32::MAX)
}

/// The calls in their form with n and k, which come with the feature `cut`. Each takes the store for good:
/// cut, it leaves an image only.
#[cfg(feature = "cut")]
impl<I: AsRef<[u8]> + AsMut<[u8]>> Store<I> {
    /// A format that the power cuts.
    pub fn format_cut(mut image: I, noise: Noise, cut: Cut) -> Result<Outcome<I>, Refused<I>> {
        let mut record = raw::Record::blank();
        let reply = raw::format_cut(image.as_mut(), &mut record, noise.bytes(), cut);
        Store::from_parts(image, record).outcome(reply).map_err(Refused::image)
    }

    /// A mount that the power cuts.
    pub fn mount_cut(mut image: I, cut: Cut) -> Result<Outcome<I>, Refused<I>> {
        let mut record = raw::Record::blank();
        let reply = raw::mount_cut(image.as_mut(), &mut record, &mut [0; PLACES], cut);
        Store::from_parts(image, record).outcome(reply).map_err(Refused::image)
    }

    /// A write that the power cuts.
    ///
    /// ```
    /// # use johvimaru::{Cut, Noise, Offset, Outcome, Store};
    /// let mut store = Store::format(vec![0; 32_768], Noise::from_system()?)?;
    /// let at = Offset::new(0, 0)?;
    /// store.write(at, b"draught 4.12 m")?;
    /// let cut = Cut { n: 0, k: 30 };
    /// let Outcome::Cut(image) = store.write_cut(at, b"lost", cut)? else {
    ///     panic!("a write has one step");
    /// };
    /// // Nothing but a mount can follow. It finds what was there before.
    /// let store = image.mount()?;
    /// assert_eq!(store.read(at)?, b"draught 4.12 m");
    /// assert_eq!(store.record().counts().deleted, 1);
    /// # Ok::<(), Box<dyn std::error::Error>>(())
    /// ```
    pub fn write_cut(
        mut self,
        at: Offset,
        payload: &[u8],
        cut: Cut,
    ) -> Result<Outcome<I>, Refused<Store<I>>> {
        let Store { image, record } = &mut self;
        let reply = ffi::write(image.as_mut(), &mut record.0, at.pair(), payload, Some(cut));
        self.outcome(reply)
    }

    /// A cut-off that the power cuts.
    pub fn cut_off_cut(mut self, from: Offset, cut: Cut) -> Result<Outcome<I>, Refused<Store<I>>> {
        let Store { image, record } = &mut self;
        let reply = ffi::cut_off(image.as_mut(), &mut record.0, from.pair(), Some(cut));
        self.outcome(reply)
    }

    /// A gather that the power cuts. Each copy that is whole counts; the other nodes stay where they are.
    ///
    /// ```
    /// # use johvimaru::{Cut, Noise, Offset, Store};
    /// let mut store = Store::format(vec![0; 32_768], Noise::from_system()?)?;
    /// let [first, second] = [Offset::new(0, 0)?, Offset::new(0, 1)?];
    /// store.write(first, b"draught 4.12 m")?;
    /// store.write(second, b"draught 6.80 m")?;
    /// let store = store.gather_cut(3, Cut { n: 1, k: 100 })?.mounted()?;
    /// let pages = [first, second].map(|at| store.record().node(at).map(|node| node.page));
    /// assert_eq!(pages, [Some(64), Some(49)]);
    /// assert_eq!(store.read(first)?, b"draught 4.12 m");
    /// assert_eq!(store.read(second)?, b"draught 6.80 m");
    /// assert_eq!(store.record().counts().deleted, 0);
    /// # Ok::<(), Box<dyn std::error::Error>>(())
    /// ```
    pub fn gather_cut(mut self, block: usize, cut: Cut) -> Result<Outcome<I>, Refused<Store<I>>> {
        let Store { image, record } = &mut self;
        let reply = ffi::gather(image.as_mut(), &mut record.0, number(block), Some(cut));
        self.outcome(reply)
    }

    /// A commit that the power cuts.
    pub fn commit_cut(mut self, noise: Noise, cut: Cut) -> Result<Outcome<I>, Refused<Store<I>>> {
        let Store { image, record } = &mut self;
        let reply = ffi::commit(image.as_mut(), &mut record.0, noise.bytes(), Some(cut));
        self.outcome(reply)
    }

    /// A wipe that the power cuts.
    pub fn wipe_cut(
        mut self,
        from: Offset,
        noise: Noise,
        cut: Cut,
    ) -> Result<Outcome<I>, Refused<Store<I>>> {
        let Store { image, record } = &mut self;
        let noise = noise.bytes();
        let reply = ffi::wipe(image.as_mut(), &mut record.0, noise, from.pair(), Some(cut));
        self.outcome(reply)
    }

    /// What a reply makes of the store.
    fn outcome(self, reply: u32) -> Result<Outcome<I>, Refused<Store<I>>> {
        match reply {
            DONE => Ok(Outcome::Done(self)),
            raw::POWER_CUT => Ok(Outcome::Cut(Unmounted::new(self.image))),
            number => Err(Refused { refusal: Refusal::known(number), back: self }),
        }
    }
}

#[cfg(feature = "cut")]
impl<I> Refused<Store<I>> {
    /// A refused format or mount, whose record is of no use.
    fn image(self) -> Refused<I> {
        Refused { refusal: self.refusal, back: self.back.image }
    }
}
