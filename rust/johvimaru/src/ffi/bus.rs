//! The functions for a chip on a bus: the bytes of a step, and the model of the chip.

use crate::raw::Registers;
use crate::PAGE;

extern "C" {
    fn johvimaru_bus_program_byte(
        page: u32,
        bytes: *const u8,
        bytes_length: usize,
        i: usize,
        cycle: *mut u8,
    ) -> u32;
    fn johvimaru_bus_erase_byte(block: u32, i: usize, cycle: *mut u8) -> u32;
    fn johvimaru_bus_reply(status: u8) -> u32;
    fn johvimaru_model_send(
        image: *mut u8,
        image_length: usize,
        registers: *mut u32,
        page_register: *mut u8,
        mark: u32,
        byte: u8,
    ) -> u32;
    fn johvimaru_model_receive(
        image: *const u8,
        image_length: usize,
        registers: *mut u32,
        page_register: *const u8,
        byte: *mut u8,
    ) -> u32;
}

/// Byte `i` of a program, with its mark before it.
pub fn program_byte(page: u32, bytes: &[u8], i: usize, cycle: &mut [u8; 2]) -> u32 {
    let (data, length) = (bytes.as_ptr(), bytes.len());
    // SAFETY: pointer and length are those of a borrowed slice, which the function does not write. The
    // cycle is two bytes that are borrowed mutably, so it does not overlap them. All numbers may be any.
    unsafe { johvimaru_bus_program_byte(page, data, length, i, cycle.as_mut_ptr()) }
}

/// Byte `i` of an erase, with its mark before it.
pub fn erase_byte(block: u32, i: usize, cycle: &mut [u8; 2]) -> u32 {
    // SAFETY: the cycle is two bytes that are borrowed mutably. Both numbers may be any.
    unsafe { johvimaru_bus_erase_byte(block, i, cycle.as_mut_ptr()) }
}

/// The reply of a step by the status byte that was received after it.
pub fn reply(status: u8) -> u32 {
    // SAFETY: the function takes any byte, and no pointer.
    unsafe { johvimaru_bus_reply(status) }
}

/// Sends a byte to the model of the chip.
pub fn model_send(image: &mut [u8], registers: &mut Registers, mark: u32, byte: u8) -> u32 {
    let Registers { numbers, page } = registers;
    let page: &mut [u8; PAGE] = page;
    let (image, length) = (image.as_mut_ptr(), image.len());
    // SAFETY: image and length are those of a slice; the registers are five numbers and the page register
    // 256 bytes. All three are borrowed mutably until the call returns, so no two overlap. The function
    // takes any length, numbers and bytes.
    unsafe {
        johvimaru_model_send(image, length, numbers.as_mut_ptr(), page.as_mut_ptr(), mark, byte)
    }
}

/// Receives a byte from the model of the chip. Gives the reply and the byte.
pub fn model_receive(image: &[u8], registers: &mut Registers) -> (u32, u8) {
    let Registers { numbers, page } = registers;
    let page: &[u8; PAGE] = page;
    let mut byte = 0xff;
    // SAFETY: image and length are those of a borrowed slice, and the page register is 256 bytes: the
    // function writes neither. The five numbers are borrowed mutably and the byte is this function's own,
    // so these two overlap nothing. The function takes any length, numbers and bytes.
    let reply = unsafe {
        johvimaru_model_receive(
            image.as_ptr(),
            image.len(),
            numbers.as_mut_ptr(),
            page.as_ptr(),
            &mut byte,
        )
    };
    (reply, byte)
}
