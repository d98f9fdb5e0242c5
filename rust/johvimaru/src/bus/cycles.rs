//! The bytes that are sent for a step.

use crate::raw::DONE;
use crate::step::{Page, Step};
use crate::{ffi, Misuse};
use core::fmt;

/// What a byte is marked as that goes to a chip. The numbers are those of the C header.
///
/// ```
/// use johvimaru::{Cycles, Mark};
///
/// // FFh 60h, the three bytes of a row, D0h 70h.
/// let marks: Vec<u32> = Cycles::erase(3)?.map(|cycle| cycle.mark as u32).collect();
/// assert_eq!(marks, [0, 0, 1, 1, 1, 0, 0]);
/// assert_eq!(Mark::Data as u32, 2);
/// # Ok::<(), johvimaru::Misuse>(())
/// ```
#[derive(Clone, Copy, Debug, PartialEq, Eq, Hash)]
pub enum Mark {
    /// A command.
    Command = 0,
    /// A part of an address.
    Address = 1,
    /// A byte of a page.
    Data = 2,
}

/// A byte that goes to a chip, and its mark.
///
/// ```
/// use johvimaru::{Cycle, Mark};
///
/// let reset = Cycle::command(0xff);
/// assert_eq!((reset.mark, reset.byte), (Mark::Command, 0xff));
/// assert_eq!(format!("{:?}", [reset, Cycle::data(7)]), "[Command(ffh), Data]");
/// ```
#[derive(Clone, Copy, PartialEq, Eq, Hash)]
pub struct Cycle {
    /// The mark.
    pub mark: Mark,
    /// The byte.
    pub byte: u8,
}

/// A byte of a page, which may be one of a key, is not shown.
impl fmt::Debug for Cycle {
    fn fmt(&self, f: &mut fmt::Formatter) -> fmt::Result {
        match self.mark {
            Mark::Data => f.write_str("Data"),
            mark => write!(f, "{mark:?}({:02x}h)", self.byte),
        }
    }
}

impl Cycle {
    /// A command.
    pub const fn command(byte: u8) -> Cycle {
        Cycle { mark: Mark::Command, byte }
    }

    /// A part of an address.
    pub const fn address(byte: u8) -> Cycle {
        Cycle { mark: Mark::Address, byte }
    }

    /// A byte of a page.
    pub const fn data(byte: u8) -> Cycle {
        Cycle { mark: Mark::Data, byte }
    }

    /// What the library has put into two bytes.
    fn of([mark, byte]: [u8; 2]) -> Cycle {
        let marks = [Mark::Command, Mark::Address, Mark::Data];
        Cycle { mark: marks[usize::from(mark)], byte }
    }
}

/// The step whose bytes are sent.
#[derive(Clone, Copy)]
enum Of<'p> {
    Program(u32, &'p Page),
    Erase(u32),
}

/// The bytes that are sent to a chip for a step, as the proved library tells them one by one. After the last of
/// them, 70h, the status is received: [`Cycles::is_done`] says what it tells.
///
/// For callers who move the bytes themselves; all others have [`BusChip`](crate::BusChip).
///
/// ```
/// use johvimaru::{Cycle, Cycles, Mark, Misuse};
///
/// let program = Cycles::program(48, &[b'p'; 256])?;
/// assert_eq!(program.len(), 265);
/// let data = program.clone().filter(|cycle| cycle.mark == Mark::Data);
/// assert!(data.map(|cycle| cycle.byte).eq([b'p'; 256]));
///
/// let row = [0x30, 0, 0].map(Cycle::address);
/// let (reset, begin, end) = (Cycle::command(0xff), Cycle::command(0x60), Cycle::command(0xd0));
/// let erase = [reset, begin, row[0], row[1], row[2], end, Cycle::command(0x70)];
/// assert!(Cycles::erase(3)?.eq(erase));
///
/// // There are at most 4,096 pages and 256 blocks.
/// assert_eq!(Cycles::erase(256).err(), Some(Misuse::Outside));
/// # Ok::<(), Misuse>(())
/// ```
#[derive(Clone)]
pub struct Cycles<'p> {
    of: Of<'p>,
    next: usize,
}

/// The bytes themselves are not shown.
impl fmt::Debug for Cycles<'_> {
    fn fmt(&self, f: &mut fmt::Formatter) -> fmt::Result {
        let mut shown = f.debug_struct("Cycles");
        match self.of {
            Of::Program(page, _) => shown.field("page", &page),
            Of::Erase(block) => shown.field("block", &block),
        };
        shown.field("left", &self.len()).finish_non_exhaustive()
    }
}

impl<'p> Cycles<'p> {
    /// The bytes that a program has, and an erase.
    const LENGTHS: (usize, usize) = (265, 7);

    /// The bytes that program a page.
    pub fn program(page: usize, bytes: &'p Page) -> Result<Cycles<'p>, Misuse> {
        Cycles::new(Of::Program(small(page)?, bytes))
    }

    /// The bytes that erase a block.
    pub fn erase(block: usize) -> Result<Cycles<'p>, Misuse> {
        Cycles::new(Of::Erase(small(block)?))
    }

    /// Whether the step was done, by the status that was received after the last byte. Where it was not the chip
    /// has failed, and what stands on it is learnt by a mount only.
    ///
    /// ```
    /// use johvimaru::Cycles;
    ///
    /// assert!(Cycles::is_done(0x40) && !Cycles::is_done(0x41));
    /// ```
    pub fn is_done(status: u8) -> bool {
        ffi::bus::reply(status) == DONE
    }

    fn new(of: Of<'p>) -> Result<Cycles<'p>, Misuse> {
        match of.byte(0) {
            Some(_) => Ok(Cycles { of, next: 0 }),
            None => Err(Misuse::Outside),
        }
    }

    fn length(&self) -> usize {
        match self.of {
            Of::Program(..) => Cycles::LENGTHS.0,
            Of::Erase(_) => Cycles::LENGTHS.1,
        }
    }
}

impl Of<'_> {
    /// A byte of the step, or none where the step cannot be told.
    fn byte(self, i: usize) -> Option<Cycle> {
        let mut cycle = [0; 2];
        let reply = match self {
            Of::Program(page, bytes) => ffi::bus::program_byte(page, bytes, i, &mut cycle),
            Of::Erase(block) => ffi::bus::erase_byte(block, i, &mut cycle),
        };
        (reply == DONE).then(|| Cycle::of(cycle))
    }
}

impl Iterator for Cycles<'_> {
    type Item = Cycle;

    fn next(&mut self) -> Option<Cycle> {
        if self.next == self.length() {
            return None;
        }
        let cycle = self.of.byte(self.next);
        self.next += 1;
        cycle
    }

    fn size_hint(&self) -> (usize, Option<usize>) {
        let left = self.length() - self.next;
        (left, Some(left))
    }
}

impl ExactSizeIterator for Cycles<'_> {}

impl Step {
    /// The bytes that are sent to a chip on a bus for the step.
    ///
    /// ```
    /// use johvimaru::{Cycle, Misuse, Step};
    ///
    /// let mut bytes = Step::Erase { block: 3 }.cycles()?;
    /// assert_eq!(bytes.len(), 7);
    /// assert_eq!(bytes.next(), Some(Cycle::command(0xff)));
    /// # Ok::<(), Misuse>(())
    /// ```
    pub fn cycles(&self) -> Result<Cycles<'_>, Misuse> {
        match self {
            Step::Program { page, bytes } => Cycles::program(*page, bytes),
            Step::Erase { block } => Cycles::erase(*block),
        }
    }
}

/// A page or block as the library takes it.
fn small(number: usize) -> Result<u32, Misuse> {
    u32::try_from(number).map_err(|_| Misuse::Outside)
}
