//! A chip on a bus.

use crate::step::Page;
use crate::{Bus, Chip, Cycle, Cycles, PAGES_IN_BLOCK};
use core::error::Error;
use core::fmt;

/// What goes wrong on a chip on a bus. The error of the bus is the `source`.
///
/// ```
/// use johvimaru::{BusChip, BusError, Chip, ModelBus};
///
/// let mut chip = BusChip::new(ModelBus::new(vec![0; 8 * johvimaru::BLOCK]), 8);
/// // The page is not empty, and the chip has no block 8.
/// assert_eq!(chip.program(3, &[b' '; 256]), Err(BusError::Failed));
/// assert_eq!(chip.erase(8), Err(BusError::Outside));
/// ```
#[derive(Clone, Copy, Debug, PartialEq, Eq)]
pub enum BusError<E> {
    /// The bus failed. What the chip has done of the step is not known.
    Bus(E),
    /// The chip has said by its status that it failed.
    Failed,
    /// The chip has no such page or block. It was sent nothing.
    Outside,
}

impl<E> fmt::Display for BusError<E> {
    fn fmt(&self, f: &mut fmt::Formatter) -> fmt::Result {
        f.write_str(match self {
            BusError::Bus(_) => "the bus failed",
            BusError::Failed => "the chip's status is failed",
            BusError::Outside => "the chip has no such page or block",
        })
    }
}

impl<E: Error + 'static> Error for BusError<E> {
    fn source(&self) -> Option<&(dyn Error + 'static)> {
        match self {
            BusError::Bus(error) => Some(error),
            BusError::Failed | BusError::Outside => None,
        }
    }
}

/// A chip on a bus: each step is sent byte by byte, and then the status is asked for.
///
/// The bytes of a program and of an erase come from the proved library. From whatever was sent before, they bring
/// the model of the chip to the image that the step gives; where they stop between two bytes and a reset follows,
/// the step is undone or complete. Every step begins with a reset. Nothing is left out: the erase of a block that
/// reads FFh is sent as any other.
///
/// A page is read by FFh, 00h, two column bytes 0, three bytes of the row and 30h, after which 256 bytes are
/// received. These are the crate's own, and nothing is proved of them.
///
/// ```
/// use johvimaru::{BusChip, Driver, File, ModelBus, Noise};
///
/// // A model of the chip on its bus. A device has a bus of its own here.
/// let bus = ModelBus::new(vec![0xff; 16 * johvimaru::BLOCK]);
/// let mut driver = Driver::new(BusChip::new(bus, 16));
/// driver.format(Noise::from_system()?)?;
/// let at = File::new(0)?.offset(3)?;
/// driver.write(at, b"draught 4.12 m")?;
/// assert_eq!(driver.read(at)?, b"draught 4.12 m");
/// assert_eq!(driver.chip().bus().image(), driver.mirror());
/// # Ok::<(), Box<dyn std::error::Error>>(())
/// ```
#[derive(Clone)]
pub struct BusChip<B> {
    bus: B,
    blocks: usize,
}

/// The bus is not shown.
impl<B> fmt::Debug for BusChip<B> {
    fn fmt(&self, f: &mut fmt::Formatter) -> fmt::Result {
        f.debug_struct("BusChip").field("blocks", &self.blocks).finish_non_exhaustive()
    }
}

impl<B: Bus> BusChip<B> {
    /// The chip of so many blocks on this bus. Where a chip has more, the store is on the first ones.
    pub fn new(bus: B, blocks: usize) -> BusChip<B> {
        BusChip { bus, blocks }
    }

    /// The bus.
    pub fn bus(&self) -> &B {
        &self.bus
    }

    /// The bus, to be set up. No step may be done on it so.
    pub fn bus_mut(&mut self) -> &mut B {
        &mut self.bus
    }

    /// Gives the bus up.
    pub fn into_bus(self) -> B {
        self.bus
    }

    /// Sends the bytes of a step, and asks how it ended.
    fn step(&mut self, cycles: Cycles) -> Result<(), BusError<B::Error>> {
        for cycle in cycles {
            self.bus.send(cycle).map_err(BusError::Bus)?;
        }
        let status = self.bus.receive().map_err(BusError::Bus)?;
        match Cycles::is_done(status) {
            true => Ok(()),
            false => Err(BusError::Failed),
        }
    }

    /// Tests whether the chip has a page or block of this number, of so many.
    fn test(&self, number: usize, count: usize) -> Result<(), BusError<B::Error>> {
        match number < count {
            true => Ok(()),
            false => Err(BusError::Outside),
        }
    }
}

/// The bytes before which a page can be received: reset, read, column 0, the row, and its end.
fn read_cycles(page: usize) -> [Cycle; 8] {
    let [reset, begin, end] = [0xff, 0x00, 0x30].map(Cycle::command);
    let [low, middle, high] = [page, page >> 8, page >> 16].map(|row| Cycle::address(row as u8));
    let column = Cycle::address(0);
    [reset, begin, column, column, low, middle, high, end]
}

impl<B: Bus> Chip for BusChip<B> {
    type Error = BusError<B::Error>;

    fn blocks(&self) -> usize {
        self.blocks
    }

    fn read(&mut self, page: usize, bytes: &mut Page) -> Result<(), Self::Error> {
        self.test(page, PAGES_IN_BLOCK * self.blocks)?;
        for cycle in read_cycles(page) {
            self.bus.send(cycle).map_err(BusError::Bus)?;
        }
        for byte in bytes {
            *byte = self.bus.receive().map_err(BusError::Bus)?;
        }
        Ok(())
    }

    fn program(&mut self, page: usize, bytes: &Page) -> Result<(), Self::Error> {
        self.test(page, PAGES_IN_BLOCK * self.blocks)?;
        self.step(Cycles::program(page, bytes).map_err(|_| BusError::Outside)?)
    }

    fn erase(&mut self, block: usize) -> Result<(), Self::Error> {
        self.test(block, self.blocks)?;
        self.step(Cycles::erase(block).map_err(|_| BusError::Outside)?)
    }
}
