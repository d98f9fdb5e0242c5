//! A chip whose power fails where it is told.

use crate::{Chip, Cut, Page, BLOCK, PAGE, PAGES_IN_BLOCK};
use alloc::vec::Vec;
use core::error::Error;
use core::fmt;

/// What goes wrong on a chip whose power is cut. The error of the chip inside is the `source`.
#[derive(Clone, Copy, Debug, PartialEq, Eq)]
pub enum CutError<E> {
    /// The power is off.
    PowerCut,
    /// The chip inside failed.
    Chip(E),
}

impl<E> fmt::Display for CutError<E> {
    fn fmt(&self, f: &mut fmt::Formatter) -> fmt::Result {
        f.write_str(match self {
            CutError::PowerCut => "the power is off",
            CutError::Chip(_) => "the chip inside failed",
        })
    }
}

impl<E: Error + 'static> Error for CutError<E> {
    fn source(&self) -> Option<&(dyn Error + 'static)> {
        match self {
            CutError::PowerCut => None,
            CutError::Chip(error) => Some(error),
        }
    }
}

/// A chip whose power fails after n whole steps and k bytes of one more. From then on it answers nothing,
/// until its power is on again.
///
/// It has the fault of a chip whose erases are cut: a block is unsettled from an erase in which the power fails,
/// whatever it then reads, until an erase of it ends. What is programmed into an unsettled block is lost, without
/// an error: the page stays as it was. So a driver that spares a chip the erase of empty blocks loses pages here.
/// [`Driver`](crate::Driver) programs no such block.
///
/// ```
/// use johvimaru::{Cut, CutChip, Driver, MemoryChip, Noise, Offset};
///
/// let chip = MemoryChip::new(vec![0xff; 8 * johvimaru::BLOCK]);
/// let mut driver = Driver::new(CutChip::new(chip));
/// driver.format(Noise::from_system()?)?;
/// let at = Offset::new(0, 0)?;
/// driver.write(at, b"draught 4.12 m")?;
///
/// driver.chip_mut().cut_at(Cut { n: 0, k: 100 });
/// assert!(driver.write(at, b"draught 6.80 m").is_err());
/// assert!(driver.chip().is_off());
///
/// driver.chip_mut().power_on();
/// driver.mount()?;
/// assert_eq!(driver.read(at)?, b"draught 4.12 m");
/// # Ok::<(), Box<dyn std::error::Error>>(())
/// ```
#[derive(Clone)]
pub struct CutChip<C> {
    chip: C,
    steps: u64,
    /// The bytes that were done of the step in which the power failed.
    bytes: usize,
    cut: Option<Cut>,
    off: bool,
    /// The blocks whose last erase was cut.
    unsettled: Vec<usize>,
}

/// The chip inside is not shown.
impl<C> fmt::Debug for CutChip<C> {
    fn fmt(&self, f: &mut fmt::Formatter) -> fmt::Result {
        f.debug_struct("CutChip")
            .field("steps", &self.steps)
            .field("cut", &self.cut)
            .field("off", &self.off)
            .field("unsettled", &self.unsettled)
            .finish_non_exhaustive()
    }
}

impl<C: Chip> CutChip<C> {
    /// A chip whose power stays on until a cut is chosen.
    pub fn new(chip: C) -> CutChip<C> {
        CutChip { chip, steps: 0, bytes: 0, cut: None, off: false, unsettled: Vec::new() }
    }

    /// Chooses the cut: so many whole steps from now on, and so many bytes of one more. A k that is larger
    /// than that step does the whole of it, and the power is off after it.
    pub fn cut_at(&mut self, cut: Cut) {
        self.steps = 0;
        self.cut = Some(cut);
    }

    /// Turns the power on. No cut is chosen then.
    pub fn power_on(&mut self) {
        self.cut = None;
        self.off = false;
    }

    /// Whether the power has been cut.
    pub fn is_off(&self) -> bool {
        self.off
    }

    /// The whole steps since the chip was made or the cut was chosen.
    pub fn steps(&self) -> u64 {
        self.steps
    }

    /// The bytes that were done of the step in which the power last failed.
    pub fn cut_bytes(&self) -> usize {
        self.bytes
    }

    /// The blocks that are unsettled, in the order in which their erases were cut.
    ///
    /// ```
    /// use johvimaru::{Chip, Cut, CutChip, MemoryChip};
    ///
    /// let mut chip = CutChip::new(MemoryChip::new(vec![0xff; 8 * johvimaru::BLOCK]));
    /// chip.cut_at(Cut { n: 0, k: johvimaru::BLOCK });
    /// assert!(chip.erase(1).is_err());
    /// chip.power_on();
    ///
    /// // The block reads FFh, and yet what is programmed into it is lost.
    /// assert_eq!(chip.unsettled(), [1]);
    /// chip.program(17, &[b' '; 256])?;
    /// assert_eq!(chip.inner().bytes(), [0xff; 8 * johvimaru::BLOCK]);
    ///
    /// chip.erase(1)?;
    /// assert_eq!(chip.unsettled(), []);
    /// chip.program(17, &[b' '; 256])?;
    /// assert_eq!(chip.inner().bytes()[17 * 256..18 * 256], [b' '; 256]);
    /// # Ok::<(), Box<dyn std::error::Error>>(())
    /// ```
    pub fn unsettled(&self) -> &[usize] {
        &self.unsettled
    }

    /// The chip inside.
    pub fn inner(&self) -> &C {
        &self.chip
    }

    /// Gives the chip inside.
    pub fn into_inner(self) -> C {
        self.chip
    }

    /// Hands a program to the chip inside, unless it is lost.
    fn program_settled(&mut self, page: usize, bytes: &Page) -> Result<(), CutError<C::Error>> {
        match self.unsettled.contains(&(page / PAGES_IN_BLOCK)) {
            true => Ok(()),
            false => self.chip.program(page, bytes).map_err(CutError::Chip),
        }
    }

    /// The bytes that the step now to come may do, where the power fails in it.
    fn last_bytes(&mut self) -> Result<Option<usize>, CutError<C::Error>> {
        if self.off {
            return Err(CutError::PowerCut);
        }
        match self.cut {
            Some(Cut { n, k }) if n == self.steps => {
                self.off = true;
                Ok(Some(k))
            }
            _ => {
                self.steps += 1;
                Ok(None)
            }
        }
    }
}

impl<C: Chip> Chip for CutChip<C> {
    type Error = CutError<C::Error>;

    fn blocks(&self) -> usize {
        self.chip.blocks()
    }

    fn read(&mut self, page: usize, bytes: &mut Page) -> Result<(), Self::Error> {
        match self.off {
            true => Err(CutError::PowerCut),
            false => self.chip.read(page, bytes).map_err(CutError::Chip),
        }
    }

    fn program(&mut self, page: usize, bytes: &Page) -> Result<(), Self::Error> {
        let Some(k) = self.last_bytes()? else { return self.program_settled(page, bytes) };
        let mut part = [0xff; PAGE];
        self.bytes = k.min(PAGE);
        part[..self.bytes].copy_from_slice(&bytes[..self.bytes]);
        self.program_settled(page, &part)?;
        Err(CutError::PowerCut)
    }

    fn erase(&mut self, block: usize) -> Result<(), Self::Error> {
        let last = self.last_bytes()?;
        let was = self.unsettled.iter().position(|&unsettled| unsettled == block);
        let Some(k) = last else {
            self.chip.erase(block).map_err(CutError::Chip)?;
            was.map(|at| self.unsettled.remove(at));
            return Ok(());
        };
        if was.is_none() {
            self.unsettled.push(block);
        }
        self.bytes = k.min(BLOCK);
        self.chip.erase_part(block, k).map_err(CutError::Chip)?;
        Err(CutError::PowerCut)
    }
}
