//! The model of a chip on its bus.

use crate::raw::{self, Registers};
use crate::{Bus, Cycle, Refusal};
use alloc::vec::Vec;
use core::fmt;

/// The bus of the library's model of a chip, with the image that is on it: for tests of a device.
///
/// It takes the commands read (00h, 30h), program (80h, 10h), erase (60h, D0h), status (70h) and reset (FFh). A byte
/// out of place, an address outside, data behind the page's end, and the program of a page that is not empty set the
/// status to failed and drop the command. It is always ready. What it does at each byte is
/// proved to be what its contract says.
///
/// An image that is not 8 to 256 blocks is refused with [`Refusal::ImageSize`] at each byte.
///
/// ```
/// use johvimaru::{Bus, Cycle, Cycles, ModelBus};
///
/// let mut bus = ModelBus::new(vec![0xff; 8 * johvimaru::BLOCK]);
/// for cycle in Cycles::program(17, &[b' '; 256])? {
///     bus.send(cycle)?;
/// }
/// assert_eq!(bus.receive()?, 0x40);
/// assert_eq!(bus.image()[17 * 256..18 * 256], [b' '; 256]);
///
/// // The page is not empty now.
/// for cycle in Cycles::program(17, &[b' '; 256])? {
///     bus.send(cycle)?;
/// }
/// assert_eq!(bus.receive()?, 0x41);
///
/// // A page is read from the column on.
/// let address = [255, 0, 17, 0, 0].map(Cycle::address);
/// bus.send(Cycle::command(0x00))?;
/// for cycle in address {
///     bus.send(cycle)?;
/// }
/// bus.send(Cycle::command(0x30))?;
/// assert_eq!([bus.receive()?, bus.receive()?], [b' ', 0xff]);
/// # Ok::<(), Box<dyn std::error::Error>>(())
/// ```
#[derive(Clone)]
pub struct ModelBus {
    image: Vec<u8>,
    registers: Registers,
}

/// Image and registers are not shown.
impl fmt::Debug for ModelBus {
    fn fmt(&self, f: &mut fmt::Formatter) -> fmt::Result {
        f.debug_struct("ModelBus").field("bytes", &self.image.len()).finish_non_exhaustive()
    }
}

impl ModelBus {
    /// A chip with this image on it, as after a reset.
    pub fn new(image: Vec<u8>) -> ModelBus {
        ModelBus { image, registers: Registers::reset() }
    }

    /// What is on the chip.
    pub fn image(&self) -> &[u8] {
        &self.image
    }

    /// Gives what is on the chip.
    pub fn into_image(self) -> Vec<u8> {
        self.image
    }
}

impl Bus for ModelBus {
    type Error = Refusal;

    fn send(&mut self, cycle: Cycle) -> Result<(), Refusal> {
        let ModelBus { image, registers } = self;
        Refusal::result(raw::model_send(image, registers, cycle.mark as u32, cycle.byte))
    }

    fn receive(&mut self) -> Result<u8, Refusal> {
        let (reply, byte) = raw::model_receive(&self.image, &mut self.registers);
        Refusal::result(reply).map(|()| byte)
    }
}
