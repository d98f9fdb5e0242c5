//! Another build of the library, opened at run time as a shared library: its calls stand beside those of the
//! one that is linked.
//!
//! The repository keeps its archive, so that one from before is made at its top by
//!
//!     git show 056eff0:lib/x86_64/librecorder.a > /tmp/before.a
//!     cc -shared -o /tmp/before.so -Wl,--whole-archive /tmp/before.a -Wl,--no-whole-archive
//!
//! (056eff0 is before #103, 5262952 before #106) and stands beside the one that is linked, where
//! `JOHVIMARU_BEFORE` is its whole path, /tmp/before.so.
//!
//! Nothing compares the types here with include/johvimaru.h, neither this one nor that of the other build.

use crate::floor::{call, read_by, Read};
use crate::shared_library::SharedLibrary;
use johvimaru::raw::Record;
use std::ffi::{c_void, CStr, CString};
use std::os::unix::ffi::OsStringExt;
use std::path::Path;

extern "C" {
    /// That of the linked library. It is not called: its address shows which of the two was opened.
    fn johvimaru_write();
}

/// A call, as it is declared for C: image, record, and then these arguments.
macro_rules! declared {
    ($($argument:ty),*) => {
        unsafe extern "C" fn(
            *mut u8, usize, *mut u16, usize, *mut u8, usize, *mut u32, $($argument),*
        ) -> u32
    };
}

/// The calls of another build. Their arguments are those of [`johvimaru::raw`].
#[derive(Clone, Copy)]
pub struct AnotherBuild {
    format: declared!(*const u8, usize),
    mount: declared!(*mut u32, usize),
    write: declared!(u32, u32, *const u8, usize),
    read: Read,
    cut_off: declared!(u32, u32),
    commit: declared!(*const u8, usize),
    wipe: declared!(*const u8, usize, u32, u32),
}

/// Their names.
const NAMES: [&CStr; 7] = [
    c"johvimaru_format",
    c"johvimaru_mount",
    c"johvimaru_write",
    c"johvimaru_read",
    c"johvimaru_cut_off",
    c"johvimaru_commit",
    c"johvimaru_wipe",
];

/// Names the shared library from before.
const VARIABLE: &str = "JOHVIMARU_BEFORE";

impl AnotherBuild {
    /// The build that the variable names; none where it is not set.
    ///
    /// Panics where it cannot be opened or lacks a function.
    pub fn from_before() -> Option<AnotherBuild> {
        let Some(file) = std::env::var_os(VARIABLE) else {
            println!("to have a build from before beside it, set {VARIABLE} to a shared library, made as the head of tests/src/another_build.rs says");
            return None;
        };
        match AnotherBuild::open(file.as_ref()) {
            Ok(build) => Some(build),
            Err(why) => panic!("{VARIABLE}: {file:?} cannot be opened as a shared library: {why}"),
        }
    }

    /// Opens a shared library. Where it cannot be opened, the system's words.
    ///
    /// Panics where it lacks a function, or where one of them is not in that file.
    pub fn open(file: &Path) -> Result<AnotherBuild, String> {
        // The whole path: a name alone would be looked for among the system's libraries.
        let path = file.canonicalize().map_err(|why| why.to_string())?;
        let path = CString::new(path.into_os_string().into_vec()).map_err(|why| why.to_string())?;
        let library = SharedLibrary::open(&path).ok_or_else(SharedLibrary::failure)?;
        for name in NAMES {
            assert_eq!(
                library.file_of(name),
                path,
                "{name:?} is not of the library that was opened"
            );
        }
        let linked = johvimaru_write as *const c_void;
        assert_ne!(library.address(c"johvimaru_write"), linked, "that is the library linked here");
        let [format, mount, write, read, cut_off, commit, wipe] = NAMES;
        // SAFETY: the types are those of include/johvimaru.h.
        Ok(unsafe {
            AnotherBuild {
                format: library.function(format),
                mount: library.function(mount),
                write: library.function(write),
                read: library.function(read),
                cut_off: library.function(cut_off),
                commit: library.function(commit),
                wipe: library.function(wipe),
            }
        })
    }

    /// Formats an image.
    pub fn format(self, image: &mut [u8], record: &mut Record, noise: &[u8]) -> u32 {
        // SAFETY: as `call` says.
        unsafe { call!(self.format, image, record, noise.as_ptr(), noise.len()) }
    }

    /// Finds the record of an image.
    pub fn mount(self, image: &mut [u8], record: &mut Record, scratch: &mut [u32]) -> u32 {
        // SAFETY: as `call` says.
        unsafe { call!(self.mount, image, record, scratch.as_mut_ptr(), scratch.len()) }
    }

    /// Writes a payload.
    pub fn write(
        self,
        image: &mut [u8],
        record: &mut Record,
        file: u32,
        offset: u32,
        payload: &[u8],
    ) -> u32 {
        // SAFETY: as `call` says.
        unsafe { call!(self.write, image, record, file, offset, payload.as_ptr(), payload.len()) }
    }

    /// Reads a payload. Gives the reply and the payload's length.
    pub fn read(
        self,
        image: &[u8],
        record: &Record,
        file: u32,
        offset: u32,
        output: &mut [u8],
    ) -> (u32, usize) {
        // SAFETY: the build is trusted with what it is lent, as in every call.
        unsafe { read_by(self.read, image, record, (file, offset), output) }
    }

    /// Cuts a file off.
    pub fn cut_off(self, image: &mut [u8], record: &mut Record, file: u32, offset: u32) -> u32 {
        // SAFETY: as `call` says.
        unsafe { call!(self.cut_off, image, record, file, offset) }
    }

    /// Commits.
    pub fn commit(self, image: &mut [u8], record: &mut Record, noise: &[u8]) -> u32 {
        // SAFETY: as `call` says.
        unsafe { call!(self.commit, image, record, noise.as_ptr(), noise.len()) }
    }

    /// Wipes a file.
    pub fn wipe(
        self,
        image: &mut [u8],
        record: &mut Record,
        noise: &[u8],
        file: u32,
        offset: u32,
    ) -> u32 {
        // SAFETY: as `call` says.
        unsafe { call!(self.wipe, image, record, noise.as_ptr(), noise.len(), file, offset) }
    }
}
