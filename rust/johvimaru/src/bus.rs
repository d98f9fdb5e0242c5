//! Chips on a bus: the bytes of a step, a chip that is driven by them, and a model of it for tests.

mod bus_chip;
mod cycles;
mod model_bus;

pub use bus_chip::{BusChip, BusError};
pub use cycles::{Cycle, Cycles, Mark};
pub use model_bus::ModelBus;

/// The bus of a flash chip with the commands of ONFI: bytes go to the chip one by one, each marked as command,
/// address or data, and bytes come back from it.
///
/// A device implements it for its wires, and [`BusChip`] makes a [`Chip`](crate::Chip) of it. The mark is that of
/// the lines CLE and ALE: CLE is high for a command, ALE for an address, neither for data.
///
/// **When to wait.** [`send`](Bus::send) returns when the chip is ready again: after 10h, D0h, 30h and FFh, with
/// which its work begins, it waits for the ready line, at other bytes only as long as the data sheet asks for
/// between two of them. A chip that does not become ready in time is an error of the bus. Status bit 6, which says
/// ready too, is looked at by nobody here.
///
/// ```
/// use johvimaru::{Bus, BusChip, Cycle, Driver, Mark, Noise};
/// # use johvimaru::ModelBus;
/// # struct Wires(ModelBus, Mark);
/// # impl Wires {
/// #     fn cle(&mut self, high: bool) {
/// #         self.1 = if high { Mark::Command } else { Mark::Data };
/// #     }
/// #     fn ale(&mut self, high: bool) {
/// #         self.1 = if high { Mark::Address } else { self.1 };
/// #     }
/// #     fn strobe(&mut self, byte: u8) {
/// #         self.0.send(Cycle { mark: self.1, byte }).unwrap();
/// #     }
/// #     fn wait_until_ready(&mut self) -> Result<(), Timeout> {
/// #         Ok(())
/// #     }
/// #     fn read_strobe(&mut self) -> u8 {
/// #         self.0.receive().unwrap()
/// #     }
/// # }
/// # #[derive(Debug)]
/// # struct Timeout;
/// # impl std::fmt::Display for Timeout {
/// #     fn fmt(&self, f: &mut std::fmt::Formatter) -> std::fmt::Result {
/// #         f.write_str("not ready")
/// #     }
/// # }
/// # impl std::error::Error for Timeout {}
///
/// struct Pins {
///     wires: Wires,
/// }
///
/// impl Bus for Pins {
///     type Error = Timeout;
///
///     fn send(&mut self, cycle: Cycle) -> Result<(), Timeout> {
///         self.wires.cle(cycle.mark == Mark::Command);
///         self.wires.ale(cycle.mark == Mark::Address);
///         self.wires.strobe(cycle.byte);
///         match (cycle.mark, cycle.byte) {
///             (Mark::Command, 0x10 | 0xd0 | 0x30 | 0xff) => self.wires.wait_until_ready(),
///             _ => Ok(()),
///         }
///     }
///
///     fn receive(&mut self) -> Result<u8, Timeout> {
///         Ok(self.wires.read_strobe())
///     }
/// }
///
/// # let wires = Wires(ModelBus::new(vec![0; 64 * 4_096]), Mark::Data);
/// let mut driver = Driver::new(BusChip::new(Pins { wires }, 64));
/// // Once, when the recorder is made.
/// driver.format(Noise::from_system()?)?;
/// // Each time that its power comes on.
/// driver.mount()?;
/// assert_eq!(driver.record().map(|record| record.counts().free), Some(448));
/// # Ok::<(), Box<dyn std::error::Error>>(())
/// ```
pub trait Bus {
    /// What goes wrong on such a bus. Where it is an error in Rust's sense, so is [`BusError`].
    type Error;

    /// Sends a byte with its mark, and returns when the chip is ready again.
    fn send(&mut self, cycle: Cycle) -> Result<(), Self::Error>;

    /// Receives a byte.
    fn receive(&mut self) -> Result<u8, Self::Error>;
}

impl<B: Bus + ?Sized> Bus for &mut B {
    type Error = B::Error;

    fn send(&mut self, cycle: Cycle) -> Result<(), B::Error> {
        (**self).send(cycle)
    }

    fn receive(&mut self) -> Result<u8, B::Error> {
        (**self).receive()
    }
}
