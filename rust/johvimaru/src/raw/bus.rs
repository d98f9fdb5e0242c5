//! The calls for a chip on a bus.

use crate::{ffi, PAGE};
use alloc::boxed::Box;
use core::fmt;

/// The registers of the model of the chip, which may have any content: what no bytes leave counts as failed,
/// with no command.
///
/// ```
/// use johvimaru::raw::{self, Registers};
///
/// let (mut image, mut registers) = (vec![0xff; 8 * johvimaru::BLOCK], Registers::reset());
/// // The first byte of an erase, and the first of its row.
/// assert_eq!(raw::model_send(&mut image, &mut registers, 0, 0x60), raw::DONE);
/// assert_eq!(raw::model_send(&mut image, &mut registers, 1, 0x30), raw::DONE);
/// assert_eq!(registers.numbers, [5, 3, 0, 0x30, 0]);
/// ```
#[derive(Clone, PartialEq, Eq)]
pub struct Registers {
    /// The state (0 idle, 1 status, 2 output, 3 read, 4 program, 5 erase), the address bytes so far (an erase
    /// counts from 2), the column, the row, and 1 for failed, else 0.
    pub numbers: [u32; 5],
    /// The bytes of a program so far, FFh elsewhere.
    pub page: Box<[u8; PAGE]>,
}

/// The bytes, which may be keys, are not shown.
impl fmt::Debug for Registers {
    fn fmt(&self, f: &mut fmt::Formatter) -> fmt::Result {
        f.debug_struct("Registers").field("numbers", &self.numbers).finish_non_exhaustive()
    }
}

impl Registers {
    /// The registers after a reset.
    pub fn reset() -> Registers {
        Registers { numbers: [0; 5], page: Box::new([0xff; PAGE]) }
    }
}

/// Byte `i`, from 0 on, of what is sent to program a page: its mark and itself. Behind the last of 265 it is
/// 70h again. A refusal leaves the two as they are.
///
/// ```
/// use johvimaru::raw;
///
/// let mut cycle = [9; 2];
/// assert_eq!(raw::bus_program_byte(48, &[b'p'; 256], 4, &mut cycle), raw::DONE);
/// assert_eq!(cycle, [1, 48]);
/// assert_eq!(raw::bus_program_byte(48, &[b'p'; 255], 0, &mut cycle), 6);
/// assert_eq!(raw::bus_program_byte(4_096, &[b'p'; 256], 0, &mut cycle), 10);
/// assert_eq!(cycle, [1, 48]);
/// ```
pub fn bus_program_byte(page: u32, bytes: &[u8], i: usize, cycle: &mut [u8; 2]) -> u32 {
    ffi::bus::program_byte(page, bytes, i, cycle)
}

/// Byte `i`, from 0 on, of what is sent to erase a block: its mark and itself. Behind the last of 7 it is 70h
/// again. A refusal leaves the two as they are.
///
/// ```
/// use johvimaru::raw;
///
/// let mut cycle = [9; 2];
/// assert_eq!(raw::bus_erase_byte(3, 5, &mut cycle), raw::DONE);
/// assert_eq!(cycle, [0, 0xd0]);
/// assert_eq!(raw::bus_erase_byte(256, 5, &mut cycle), 10);
/// assert_eq!(cycle, [0, 0xd0]);
/// ```
pub fn bus_erase_byte(block: u32, i: usize, cycle: &mut [u8; 2]) -> u32 {
    ffi::bus::erase_byte(block, i, cycle)
}

/// The reply of a step, by the status byte that was received after its last byte.
///
/// ```
/// use johvimaru::raw;
///
/// assert_eq!(raw::bus_reply(0x40), raw::DONE);
/// assert_eq!(raw::bus_reply(0x41), 10);
/// ```
pub fn bus_reply(status: u8) -> u32 {
    ffi::bus::reply(status)
}

/// Sends a byte to the model of the chip. Its mark is 0 for a command, 1 for an address and 2 for data; above
/// that the byte counts as a command that there is not.
///
/// ```
/// use johvimaru::raw::{self, Registers};
///
/// let (mut image, mut registers) = (vec![0xff; 8 * johvimaru::BLOCK], Registers::reset());
/// assert_eq!(raw::model_send(&mut image, &mut registers, 0, 0x70), raw::DONE);
/// assert_eq!(raw::model_receive(&image, &mut registers), (raw::DONE, 0x40));
/// // A byte of data that continues no command.
/// assert_eq!(raw::model_send(&mut image, &mut registers, 2, 7), raw::DONE);
/// assert_eq!(raw::model_send(&mut image, &mut registers, 0, 0x70), raw::DONE);
/// assert_eq!(raw::model_receive(&image, &mut registers), (raw::DONE, 0x41));
/// ```
pub fn model_send(image: &mut [u8], registers: &mut Registers, mark: u32, byte: u8) -> u32 {
    ffi::bus::model_send(image, registers, mark, byte)
}

/// Receives a byte from the model of the chip. Gives the reply and the byte, which is FFh where the reply is 1.
///
/// ```
/// use johvimaru::raw::{self, Registers};
///
/// let (image, mut registers) = (vec![0; 8 * johvimaru::BLOCK], Registers::reset());
/// // Neither a page nor the status was asked for.
/// assert_eq!(raw::model_receive(&image, &mut registers), (raw::DONE, 0xff));
/// assert_eq!(raw::model_receive(&image[1..], &mut registers), (1, 0xff));
/// ```
pub fn model_receive(image: &[u8], registers: &mut Registers) -> (u32, u8) {
    ffi::bus::model_receive(image, registers)
}
