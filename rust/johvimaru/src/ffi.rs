//! The functions of the static library, the only place where it is called.
//!
//! Nothing compares these declarations with include/johvimaru.h: a change there is a change here.
#![allow(unsafe_code)]

pub mod bus;

use crate::raw::Record;
use crate::Cut;

/// Declares a call and its form with n and k: image, record, and then these arguments.
macro_rules! declare {
    ($plain:ident, $cut:ident, $($argument:ident: $kind:ty),*) => {
        extern "C" {
            fn $plain(
                image: *mut u8,
                image_length: usize,
                map: *mut u16,
                map_length: usize,
                letters: *mut u8,
                letters_length: usize,
                numbers: *mut u32,
                $($argument: $kind),*
            ) -> u32;
            fn $cut(
                image: *mut u8,
                image_length: usize,
                map: *mut u16,
                map_length: usize,
                letters: *mut u8,
                letters_length: usize,
                numbers: *mut u32,
                $($argument: $kind,)*
                n: u64,
                k: usize,
            ) -> u32;
        }
    };
}

declare!(johvimaru_format, johvimaru_format_cut, noise: *const u8, noise_length: usize);
declare!(johvimaru_mount, johvimaru_mount_cut, scratch: *mut u32, scratch_length: usize);
declare!(
    johvimaru_write, johvimaru_write_cut,
    file: u32, offset: u32, payload: *const u8, payload_length: usize
);
declare!(johvimaru_cut_off, johvimaru_cut_off_cut, file: u32, offset: u32);
declare!(johvimaru_gather, johvimaru_gather_cut, block: u32);
declare!(johvimaru_commit, johvimaru_commit_cut, noise: *const u8, noise_length: usize);
declare!(
    johvimaru_wipe, johvimaru_wipe_cut,
    noise: *const u8, noise_length: usize, file: u32, offset: u32
);

extern "C" {
    fn johvimaru_read(
        image: *const u8,
        image_length: usize,
        map: *const u16,
        map_length: usize,
        letters: *const u8,
        letters_length: usize,
        numbers: *const u32,
        file: u32,
        offset: u32,
        output: *mut u8,
        output_length: usize,
        length: *mut usize,
    ) -> u32;
}

/// Calls a function with an image, a record and these arguments: with n and k where there is a cut, else
/// its plain form.
macro_rules! call {
    ($plain:ident, $cut:ident, $image:ident, $record:ident, $power:ident, $($argument:expr),*) => {{
        let (image, image_length) = ($image.as_mut_ptr(), $image.len());
        let (map, map_length) = ($record.map.as_mut_ptr(), $record.map.len());
        let (letters, letters_length) = ($record.letters.as_mut_ptr(), $record.letters.len());
        let numbers = $record.numbers.as_mut_ptr();
        match $power {
            None => $plain(
                image, image_length, map, map_length, letters, letters_length, numbers,
                $($argument),*
            ),
            Some(Cut { n, k }) => $cut(
                image, image_length, map, map_length, letters, letters_length, numbers,
                $($argument),*, n, k
            ),
        }
    }};
}

/// Formats `image` with `noise`, cut or whole.
pub fn format(image: &mut [u8], record: &mut Record, noise: &[u8], cut: Option<Cut>) -> u32 {
    let (noise, length) = (noise.as_ptr(), noise.len());
    // SAFETY: each pointer is that of a slice, or of an array of five numbers, which is borrowed until
    // the call returns, and each length is that slice's. Image and record are borrowed mutably, so
    // nothing else that goes over overlaps them. The function takes any lengths and content.
    unsafe { call!(johvimaru_format, johvimaru_format_cut, image, record, cut, noise, length) }
}

/// Finds the record of `image`, cut or whole.
pub fn mount(image: &mut [u8], record: &mut Record, scratch: &mut [u32], cut: Option<Cut>) -> u32 {
    let (scratch, length) = (scratch.as_mut_ptr(), scratch.len());
    // SAFETY: pointers and lengths are those of borrowed slices and of the five numbers. All of them,
    // scratch too, are borrowed mutably until the call returns, so no two overlap.
    unsafe { call!(johvimaru_mount, johvimaru_mount_cut, image, record, cut, scratch, length) }
}

/// Writes `payload` at a file's offset, cut or whole.
pub fn write(
    image: &mut [u8],
    record: &mut Record,
    (file, offset): (u32, u32),
    payload: &[u8],
    cut: Option<Cut>,
) -> u32 {
    let (data, length) = (payload.as_ptr(), payload.len());
    // SAFETY: pointers and lengths are those of borrowed slices and of the five numbers. Image and
    // record are borrowed mutably, so the payload does not overlap them. File and offset may be any.
    unsafe {
        call!(johvimaru_write, johvimaru_write_cut, image, record, cut, file, offset, data, length)
    }
}

/// Removes the nodes of a file from an offset on, cut or whole.
pub fn cut_off(
    image: &mut [u8],
    record: &mut Record,
    (file, offset): (u32, u32),
    cut: Option<Cut>,
) -> u32 {
    // SAFETY: pointers and lengths are those of slices and of the five numbers, all borrowed mutably
    // until the call returns, so no two overlap. File and offset may be any.
    unsafe { call!(johvimaru_cut_off, johvimaru_cut_off_cut, image, record, cut, file, offset) }
}

/// Copies the live pages of a block out of it, cut or whole.
pub fn gather(image: &mut [u8], record: &mut Record, block: u32, cut: Option<Cut>) -> u32 {
    // SAFETY: pointers and lengths are those of slices and of the five numbers, all borrowed mutably
    // until the call returns, so no two overlap. The block may be any.
    unsafe { call!(johvimaru_gather, johvimaru_gather_cut, image, record, cut, block) }
}

/// Commits with `noise`, cut or whole.
pub fn commit(image: &mut [u8], record: &mut Record, noise: &[u8], cut: Option<Cut>) -> u32 {
    let (noise, length) = (noise.as_ptr(), noise.len());
    // SAFETY: pointers and lengths are those of borrowed slices and of the five numbers. Image and
    // record are borrowed mutably, so the noise does not overlap them.
    unsafe { call!(johvimaru_commit, johvimaru_commit_cut, image, record, cut, noise, length) }
}

/// Wipes a file from an offset on with `noise`, cut or whole.
pub fn wipe(
    image: &mut [u8],
    record: &mut Record,
    noise: &[u8],
    (file, offset): (u32, u32),
    cut: Option<Cut>,
) -> u32 {
    let (noise, length) = (noise.as_ptr(), noise.len());
    // SAFETY: pointers and lengths are those of borrowed slices and of the five numbers. Image and
    // record are borrowed mutably, so the noise does not overlap them. File and offset may be any.
    unsafe {
        call!(johvimaru_wipe, johvimaru_wipe_cut, image, record, cut, noise, length, file, offset)
    }
}

/// Reads the payload at a file's offset into the first bytes of `output`. Gives the reply and how many bytes
/// the payload has, 0 where it was refused.
pub fn read(
    image: &[u8],
    record: &Record,
    (file, offset): (u32, u32),
    output: &mut [u8],
) -> (u32, usize) {
    let Record { map, letters, numbers } = record;
    let mut length = 0;
    // SAFETY: pointers and lengths are those of borrowed slices and of the five numbers. The output is
    // borrowed mutably and the length is this function's own, so these two overlap none of the others,
    // which the function does not write.
    let reply = unsafe {
        johvimaru_read(
            image.as_ptr(),
            image.len(),
            map.as_ptr(),
            map.len(),
            letters.as_ptr(),
            letters.len(),
            numbers.as_ptr(),
            file,
            offset,
            output.as_mut_ptr(),
            output.len(),
            &mut length,
        )
    };
    (reply, length)
}
