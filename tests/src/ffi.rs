//! The functions of the library `harness`, as safe Rust functions, and those of `recorder` for the chip's bus.
//! Its others are in the crate `johvimaru`.
//!
//! A lent slice goes over as a pointer and a length, and the reply comes back as a number.
//! Nothing compares these declarations with the Rattle source: a change there is a change here.

/// The reply of a call that did its work.
pub const DONE: u32 = 0;

/// The reply of a call with a slice of a wrong length or an argument that is out of its range. It
/// changes nothing.
pub const REFUSED: u32 = 255;

/// The functions of the library `harness` that reach the crate `cipher`.
pub mod cipher {
    extern "C" {
        fn harness_expand(
            key: *const u8,
            key_length: usize,
            round_keys: *mut u8,
            round_keys_length: usize,
        ) -> u32;
        fn harness_encrypt(
            key: *const u8,
            key_length: usize,
            block: *mut u8,
            block_length: usize,
        ) -> u32;
        fn harness_stream(
            key: *const u8,
            key_length: usize,
            data: *mut u8,
            data_length: usize,
        ) -> u32;
    }

    /// Fills `round_keys` (176 bytes) with the eleven round keys of `key` (16 bytes).
    pub fn expand(key: &[u8], round_keys: &mut [u8]) -> u32 {
        // SAFETY: each pointer goes with the length of a slice that is borrowed for the whole call.
        unsafe {
            harness_expand(key.as_ptr(), key.len(), round_keys.as_mut_ptr(), round_keys.len())
        }
    }

    /// Enciphers `block` (16 bytes) in place under `key` (16 bytes).
    pub fn encrypt(key: &[u8], block: &mut [u8]) -> u32 {
        // SAFETY: as in `expand`.
        unsafe { harness_encrypt(key.as_ptr(), key.len(), block.as_mut_ptr(), block.len()) }
    }

    /// Enciphers or deciphers `data`, of any length, in place: counter mode from counter 0 under
    /// `key` (16 bytes).
    pub fn stream(key: &[u8], data: &mut [u8]) -> u32 {
        // SAFETY: as in `expand`.
        unsafe { harness_stream(key.as_ptr(), key.len(), data.as_mut_ptr(), data.len()) }
    }
}

/// The functions of the library `harness` that reach the crate `page`.
///
/// A header goes over as six numbers: kind, number, unit, part, key, second; an entry as two: page and
/// key position.
pub mod page {
    /// The forms of a page, as [`form`] replies them.
    pub const EMPTY: u32 = 0;
    /// Header and closing are both right.
    pub const WHOLE: u32 = 1;
    /// Only the header is right.
    pub const TORN: u32 = 2;
    /// Neither empty nor with a right header.
    pub const SPOILT: u32 = 3;

    /// The reply of [`header`] to fields that no header has.
    pub const OUT_OF_RANGE: u32 = 1;

    /// The reply of [`entry`] to the entry of none.
    pub const VACANT: u32 = 1;
    /// The reply of [`entry`] to what is no entry.
    pub const MISSPELT: u32 = 2;

    extern "C" {
        fn harness_form(
            page: *const u8,
            page_length: usize,
            fields: *mut u32,
            fields_length: usize,
        ) -> u32;
        fn harness_header(
            fields: *const u32,
            fields_length: usize,
            header: *mut u8,
            header_length: usize,
        ) -> u32;
        fn harness_entry(
            entry: *const u8,
            entry_length: usize,
            fields: *mut u32,
            fields_length: usize,
        ) -> u32;
        fn harness_write_entry(page: u32, key: u32, entry: *mut u8, entry_length: usize) -> u32;
        fn harness_cut_off(
            page: *mut u8,
            page_length: usize,
            sequence: u32,
            file: u32,
            offset: u32,
            k: usize,
        ) -> u32;
        fn harness_commit_page(
            page: *mut u8,
            page_length: usize,
            epoch: u32,
            part: u32,
            covered: u32,
            map: *const u16,
            map_length: usize,
            letters: *const u8,
            letters_length: usize,
            k: usize,
        ) -> u32;
        fn harness_commit_valid(payload: *const u8, payload_length: usize, part: u32) -> u32;
    }

    /// The form of `page` (256 bytes). The fields of a whole or torn page's header go into `fields`
    /// (6 numbers).
    pub fn form(page: &[u8], fields: &mut [u32]) -> u32 {
        // SAFETY: each pointer goes with the length of a slice that is borrowed for the whole call.
        unsafe { harness_form(page.as_ptr(), page.len(), fields.as_mut_ptr(), fields.len()) }
    }

    /// Writes the header of `fields` (6 numbers) into `header` (30 bytes).
    pub fn header(fields: &[u32], header: &mut [u8]) -> u32 {
        // SAFETY: as in `form`.
        unsafe { harness_header(fields.as_ptr(), fields.len(), header.as_mut_ptr(), header.len()) }
    }

    /// What `entry` (8 bytes) is. Page and key position go into `fields` (2 numbers).
    pub fn entry(entry: &[u8], fields: &mut [u32]) -> u32 {
        // SAFETY: as in `form`.
        unsafe { harness_entry(entry.as_ptr(), entry.len(), fields.as_mut_ptr(), fields.len()) }
    }

    /// Writes the entry of a page and a key position, as a map has them, into `entry` (8 bytes).
    pub fn write_entry(page: u32, key: u32, entry: &mut [u8]) -> u32 {
        // SAFETY: as in `form`.
        unsafe { harness_write_entry(page, key, entry.as_mut_ptr(), entry.len()) }
    }

    /// Writes the page of a cut-off into `page` (256 bytes), as a program that is cut after `k` bytes.
    pub fn cut_off(page: &mut [u8], sequence: u32, file: u32, offset: u32, k: usize) -> u32 {
        // SAFETY: as in `form`.
        unsafe { harness_cut_off(page.as_mut_ptr(), page.len(), sequence, file, offset, k) }
    }

    /// The commit of which [`commit_page`] writes a part.
    #[derive(Clone, Copy, Debug)]
    pub struct Commit<'a> {
        /// From 1.
        pub epoch: u32,
        /// The covered sequence.
        pub covered: u32,
        /// The pages of the 224 places, then their key positions; page 65,535 is none.
        pub map: &'a [u16],
        /// The letters of the 448 key positions.
        pub letters: &'a [u8],
    }

    /// Writes a part of a commit into `page` (256 bytes), as a program that is cut after `k` bytes.
    pub fn commit_page(page: &mut [u8], commit: Commit, part: u32, k: usize) -> u32 {
        let Commit { epoch, covered, map, letters } = commit;
        // SAFETY: as in `form`.
        unsafe {
            harness_commit_page(
                page.as_mut_ptr(),
                page.len(),
                epoch,
                part,
                covered,
                map.as_ptr(),
                map.len(),
                letters.as_ptr(),
                letters.len(),
                k,
            )
        }
    }

    /// Whether `payload` (224 bytes) is valid as that of a part of a commit: 1 or 0.
    pub fn commit_valid(payload: &[u8], part: u32) -> u32 {
        // SAFETY: as in `form`.
        unsafe { harness_commit_valid(payload.as_ptr(), payload.len(), part) }
    }
}

/// The functions of the library `recorder` for the chip's bus, and those of `harness` that drive a chip over it.
pub mod bus {
    use crate::model::bus::{Raw, Sent};

    extern "C" {
        fn johvimaru_bus_program_byte(
            page: u32,
            bytes: *const u8,
            bytes_length: usize,
            i: usize,
            cycle: *mut u8,
        ) -> u32;
        fn johvimaru_bus_erase_byte(block: u32, i: usize, cycle: *mut u8) -> u32;
        fn johvimaru_bus_reply(status: u8) -> u32;
        fn johvimaru_model_send(
            image: *mut u8,
            image_length: usize,
            registers: *mut u32,
            page_register: *mut u8,
            mark: u32,
            byte: u8,
        ) -> u32;
        fn johvimaru_model_receive(
            image: *const u8,
            image_length: usize,
            registers: *mut u32,
            page_register: *const u8,
            byte: *mut u8,
        ) -> u32;
        fn harness_chip_program(
            image: *mut u8,
            image_length: usize,
            registers: *mut u32,
            page_register: *mut u8,
            page: u32,
            bytes: *const u8,
            bytes_length: usize,
        ) -> u32;
        fn harness_chip_erase(
            image: *mut u8,
            image_length: usize,
            registers: *mut u32,
            page_register: *mut u8,
            block: u32,
        ) -> u32;
    }

    /// The driver's byte `i` for the program of a page: mark and byte go into `cycle`.
    pub fn program_byte(page: u32, bytes: &[u8], i: usize, cycle: &mut [u8; 2]) -> u32 {
        // SAFETY: the pointer to the bytes goes with their length, the other is that of an array of two
        // bytes, and both are borrowed for the whole call.
        unsafe {
            johvimaru_bus_program_byte(page, bytes.as_ptr(), bytes.len(), i, cycle.as_mut_ptr())
        }
    }

    /// The driver's byte `i` for the erase of a block: mark and byte go into `cycle`.
    pub fn erase_byte(block: u32, i: usize, cycle: &mut [u8; 2]) -> u32 {
        // SAFETY: as in `program_byte`.
        unsafe { johvimaru_bus_erase_byte(block, i, cycle.as_mut_ptr()) }
    }

    /// The driver's reply by the status that it received.
    pub fn reply(status: u8) -> u32 {
        // SAFETY: nothing is lent.
        unsafe { johvimaru_bus_reply(status) }
    }

    /// Sends a byte to the model of the chip.
    pub fn send(image: &mut [u8], raw: &mut Raw, sent: Sent) -> u32 {
        let (numbers, page) = (raw.numbers.as_mut_ptr(), raw.page.as_mut_ptr());
        // SAFETY: the image goes over with its length, and the others are arrays of five numbers and of 256
        // bytes. All are borrowed mutably for the whole call, so no two overlap.
        unsafe {
            let (image, length) = (image.as_mut_ptr(), image.len());
            johvimaru_model_send(image, length, numbers, page, sent.mark(), sent.byte())
        }
    }

    /// Receives a byte from the model of the chip, into `byte`.
    pub fn receive(image: &[u8], raw: &mut Raw, byte: &mut u8) -> u32 {
        let (numbers, page) = (raw.numbers.as_mut_ptr(), raw.page.as_ptr());
        // SAFETY: as in `send`; the page register and the image are only read.
        unsafe { johvimaru_model_receive(image.as_ptr(), image.len(), numbers, page, byte) }
    }

    /// Programs a page over the bus.
    pub fn program(image: &mut [u8], raw: &mut Raw, page: u32, bytes: &[u8]) -> u32 {
        let (numbers, register) = (raw.numbers.as_mut_ptr(), raw.page.as_mut_ptr());
        // SAFETY: as in `send`; the bytes go over with their length and are only read.
        unsafe {
            let (image, length) = (image.as_mut_ptr(), image.len());
            harness_chip_program(
                image,
                length,
                numbers,
                register,
                page,
                bytes.as_ptr(),
                bytes.len(),
            )
        }
    }

    /// Erases a block over the bus.
    pub fn erase(image: &mut [u8], raw: &mut Raw, block: u32) -> u32 {
        let (numbers, page) = (raw.numbers.as_mut_ptr(), raw.page.as_mut_ptr());
        // SAFETY: as in `send`.
        unsafe { harness_chip_erase(image.as_mut_ptr(), image.len(), numbers, page, block) }
    }
}
