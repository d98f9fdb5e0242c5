//! The calls of the floor, a plain program in C (`c/floor.h`), and a comparison with the library.
//!
//! Its cipher is nettle's, or where that is missing libtomcrypt's, both without AES instructions.

use crate::model::image::Power;
use crate::model::pages::Page;
use crate::model::store::Store;
use crate::shared_library::SharedLibrary;
use crate::side_by_side::{by_library, difference, from_library, to_library, After, Call};
use johvimaru::raw::Record;
use std::ffi::{c_int, c_void};
use std::sync::OnceLock;

extern "C" {
    fn floor_use_nettle(set_key: *const c_void, encrypt: *const c_void, crypt: *const c_void);
    fn floor_use_tomcrypt(
        cipher: c_int,
        start: *const c_void,
        encrypt: *const c_void,
        done: *const c_void,
    );
    fn floor_write(
        image: *mut u8,
        image_length: usize,
        map: *mut u16,
        map_length: usize,
        letters: *mut u8,
        letters_length: usize,
        numbers: *mut u32,
        file: u32,
        offset: u32,
        payload: *const u8,
        payload_length: usize,
    ) -> u32;
    fn floor_read(
        image: *const u8,
        image_length: usize,
        map: *const u16,
        map_length: usize,
        letters: *const u8,
        letters_length: usize,
        numbers: *const u32,
        file: u32,
        offset: u32,
        output: *mut u8,
        output_length: usize,
        length: *mut usize,
    ) -> u32;
    fn floor_mount(
        image: *mut u8,
        image_length: usize,
        map: *mut u16,
        map_length: usize,
        letters: *mut u8,
        letters_length: usize,
        numbers: *mut u32,
        scratch: *mut u32,
        scratch_length: usize,
    ) -> u32;
    fn floor_cut_off(
        image: *mut u8,
        image_length: usize,
        map: *mut u16,
        map_length: usize,
        letters: *mut u8,
        letters_length: usize,
        numbers: *mut u32,
        file: u32,
        offset: u32,
    ) -> u32;
    fn floor_commit(
        image: *mut u8,
        image_length: usize,
        map: *mut u16,
        map_length: usize,
        letters: *mut u8,
        letters_length: usize,
        numbers: *mut u32,
        noise: *const u8,
        noise_length: usize,
    ) -> u32;
    fn floor_wipe(
        image: *mut u8,
        image_length: usize,
        map: *mut u16,
        map_length: usize,
        letters: *mut u8,
        letters_length: usize,
        numbers: *mut u32,
        noise: *const u8,
        noise_length: usize,
        file: u32,
        offset: u32,
    ) -> u32;
    fn floor_gather(
        image: *mut u8,
        image_length: usize,
        map: *mut u16,
        map_length: usize,
        letters: *mut u8,
        letters_length: usize,
        numbers: *mut u32,
        block: u32,
    ) -> u32;
    fn floor_copy_pages(to: *mut u8, from: *const u8, count: usize, sequence: u32);
}

/// The compiler of the floor.
pub const COMPILER: &str = env!("FLOOR_COMPILER");

/// The floor, with a cipher.
#[derive(Clone, Copy)]
pub struct Floor {
    /// The library that its cipher is from.
    pub cipher: &'static str,
}

/// Calls a function for C with an image, a record and these arguments.
///
/// SAFETY: each pointer goes with the length of a slice that is borrowed for the whole call, and that of
/// the record's numbers points to five. The arguments are such pairs too, or plain numbers.
macro_rules! call {
    ($function:expr, $image:ident, $record:ident, $($argument:expr),*) => {{
        let Record { map, letters, numbers } = $record;
        $function(
            $image.as_mut_ptr(), $image.len(), map.as_mut_ptr(), map.len(),
            letters.as_mut_ptr(), letters.len(), numbers.as_mut_ptr(), $($argument),*
        )
    }};
}
pub(crate) use call;

/// A read, as it is declared for C.
pub(crate) type Read = unsafe extern "C" fn(
    image: *const u8,
    image_length: usize,
    map: *const u16,
    map_length: usize,
    letters: *const u8,
    letters_length: usize,
    numbers: *const u32,
    file: u32,
    offset: u32,
    output: *mut u8,
    output_length: usize,
    length: *mut usize,
) -> u32;

/// Reads by a function. Gives the reply, and the payload's length or 0.
///
/// # Safety
/// The function reads and writes no more than it is lent.
pub(crate) unsafe fn read_by(
    function: Read,
    image: &[u8],
    Record { map, letters, numbers }: &Record,
    (file, offset): (u32, u32),
    output: &mut [u8],
) -> (u32, usize) {
    let mut length = usize::MAX;
    // SAFETY: as `call` says, and one number is borrowed for the length.
    let reply = unsafe {
        function(
            image.as_ptr(),
            image.len(),
            map.as_ptr(),
            map.len(),
            letters.as_ptr(),
            letters.len(),
            numbers.as_ptr(),
            file,
            offset,
            output.as_mut_ptr(),
            output.len(),
            &mut length,
        )
    };
    (reply, length)
}

impl Floor {
    /// The floor; none where no library has a cipher for it.
    pub fn open() -> Option<Floor> {
        static FLOOR: OnceLock<Option<Floor>> = OnceLock::new();
        *FLOOR.get_or_init(|| nettle().or_else(tomcrypt).map(|cipher| Floor { cipher }))
    }

    /// Writes a payload of 1 to 224 bytes at a file's offset.
    pub fn write(
        self,
        image: &mut [u8],
        record: &mut Record,
        file: u32,
        offset: u32,
        payload: &[u8],
    ) -> u32 {
        let (payload, length) = (payload.as_ptr(), payload.len());
        // SAFETY: as `call` says.
        unsafe { call!(floor_write, image, record, file, offset, payload, length) }
    }

    /// Reads the payload at a file's offset into the first of 224 bytes. Gives the reply, and the
    /// payload's length or 0.
    pub fn read(
        self,
        image: &[u8],
        record: &Record,
        file: u32,
        offset: u32,
        output: &mut [u8],
    ) -> (u32, usize) {
        // SAFETY: the floor is trusted with what it is lent, as in every call.
        unsafe { read_by(floor_read, image, record, (file, offset), output) }
    }

    /// Finds the record of an image, with a scratch of 224 numbers.
    pub fn mount(self, image: &mut [u8], record: &mut Record, scratch: &mut [u32]) -> u32 {
        let (scratch, length) = (scratch.as_mut_ptr(), scratch.len());
        // SAFETY: as `call` says.
        unsafe { call!(floor_mount, image, record, scratch, length) }
    }

    /// Removes the nodes of a file from an offset on.
    pub fn cut_off(self, image: &mut [u8], record: &mut Record, file: u32, offset: u32) -> u32 {
        // SAFETY: as `call` says.
        unsafe { call!(floor_cut_off, image, record, file, offset) }
    }

    /// Replaces every key that is not used with 7,168 bytes of noise.
    pub fn commit(self, image: &mut [u8], record: &mut Record, noise: &[u8]) -> u32 {
        let (noise, length) = (noise.as_ptr(), noise.len());
        // SAFETY: as `call` says.
        unsafe { call!(floor_commit, image, record, noise, length) }
    }

    /// Removes the nodes of a file from an offset on, and commits.
    pub fn wipe(
        self,
        image: &mut [u8],
        record: &mut Record,
        noise: &[u8],
        file: u32,
        offset: u32,
    ) -> u32 {
        let (noise, length) = (noise.as_ptr(), noise.len());
        // SAFETY: as `call` says.
        unsafe { call!(floor_wipe, image, record, noise, length, file, offset) }
    }

    /// Copies the live pages of a data block out of it.
    pub fn gather(self, image: &mut [u8], record: &mut Record, block: u32) -> u32 {
        // SAFETY: as `call` says.
        unsafe { call!(floor_gather, image, record, block) }
    }

    /// Copies pages one after the other, with sequences from one on and without a test.
    pub fn copy_pages(self, to: &mut [Page], from: &[Page], sequence: u32) {
        let count = to.len().min(from.len());
        // SAFETY: both slices have so many pages and are borrowed for the whole call, one mutably.
        unsafe {
            let (to, from) = (to.as_mut_ptr().cast(), from.as_ptr().cast());
            floor_copy_pages(to, from, count, sequence);
        }
    }

    /// Does a call, which is no format, by the floor and by the library. Gives the reply, or where they
    /// differ.
    pub fn compare(self, store: &Store, call: Call) -> Result<u32, String> {
        let data = call.data();
        let ours = by_library(store.clone(), call, &data, Power::STAYS);
        let floor = self.after(store.clone(), call, &data);
        match ours == floor {
            true => Ok(ours.reply),
            false => {
                Err(format!("{call:?}, the floor is the other:\n{}", difference(&ours, &floor)))
            }
        }
    }

    /// What a call leaves.
    fn after(self, store: Store, call: Call, data: &[u8]) -> After {
        let Store { mut image, record } = store;
        let mut record = to_library(record);
        let (mut output, mut scratch) = (call.output(), call.scratch());
        let (bytes, of, mut length) = (&mut image, &mut record, 0);
        let reply = match call {
            Call::Format { .. } | Call::Append { .. } => panic!("the floor has no {call:?}"),
            Call::Mount { .. } => self.mount(bytes, of, &mut scratch),
            Call::Write { file, offset, .. } => self.write(bytes, of, file, offset, data),
            Call::Read { file, offset, .. } => {
                let (reply, reported) = self.read(bytes, of, file, offset, &mut output);
                length = reported;
                reply
            }
            Call::CutOff { file, offset } => self.cut_off(bytes, of, file, offset),
            Call::Commit { .. } => self.commit(bytes, of, data),
            Call::Wipe { file, offset, .. } => self.wipe(bytes, of, data, file, offset),
            Call::Gather { block } => self.gather(bytes, of, block),
        };
        let store = Store { image, record: from_library(record) };
        After { reply, length, store, output, scratch }
    }
}

/// Takes nettle's cipher, where nettle is there.
fn nettle() -> Option<&'static str> {
    // Nettle looks here as it is loaded: no AES instructions, and the usual XOR of memory.
    std::env::set_var("NETTLE_FAT_OVERRIDE", "vendor:intel");
    let library = SharedLibrary::open(c"libnettle.so.8")?;
    let set_key = library.address(c"nettle_aes128_set_encrypt_key");
    let encrypt = library.address(c"nettle_aes128_encrypt");
    let crypt = library.address(c"nettle_ctr_crypt");
    // SAFETY: the declarations in floor_cipher.c are those of nettle's aes.h and ctr.h.
    unsafe { floor_use_nettle(set_key, encrypt, crypt) };
    Some("nettle, assembly")
}

/// Takes libtomcrypt's cipher, where libtomcrypt is there.
fn tomcrypt() -> Option<&'static str> {
    type Register = unsafe extern "C" fn(*const c_void) -> c_int;
    let library = SharedLibrary::open(c"libtomcrypt.so.1")?;
    let start = library.address(c"ctr_start");
    let encrypt = library.address(c"ctr_encrypt");
    let done = library.address(c"ctr_done");
    // SAFETY: the declarations here and in floor_cipher.c are those of libtomcrypt's headers, and the
    // descriptor is its own.
    unsafe {
        let register = library.function::<Register>(c"register_cipher");
        let cipher = register(library.address(c"aes_enc_desc"));
        assert!(cipher >= 0, "libtomcrypt takes no further cipher");
        floor_use_tomcrypt(cipher, start, encrypt, done);
    }
    Some("libtomcrypt")
}
