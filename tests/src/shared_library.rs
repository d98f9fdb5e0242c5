//! Shared libraries of the system, opened at run time: a benchmark builds and runs without them.

use std::ffi::{c_char, c_int, c_void, CStr, CString};
use std::ptr::null;

/// `Dl_info` of dlfcn.h: the file that an address lies in, where it begins, and the nearest symbol.
#[repr(C)]
struct Place {
    file: *const c_char,
    start: *const c_void,
    symbol: *const c_char,
    address: *const c_void,
}

#[link(name = "dl")]
extern "C" {
    fn dlopen(file: *const c_char, mode: c_int) -> *mut c_void;
    fn dlsym(library: *mut c_void, name: *const c_char) -> *mut c_void;
    fn dladdr(address: *const c_void, place: *mut Place) -> c_int;
    fn dlerror() -> *const c_char;
}

/// `RTLD_NOW` of dlfcn.h: find every symbol at once.
const NOW: c_int = 2;

/// A shared library that stays open until the program ends.
#[derive(Clone, Copy)]
pub struct SharedLibrary(*mut c_void);

impl SharedLibrary {
    /// Opens the library `file`, by the system's search path; none where it is not installed.
    pub fn open(file: &CStr) -> Option<Self> {
        // SAFETY: the name ends in a zero byte. The libraries' own start-up code is trusted.
        let library = unsafe { dlopen(file.as_ptr(), NOW) };
        (!library.is_null()).then_some(SharedLibrary(library))
    }

    /// What the system says of the last open or address that failed; empty where none did.
    pub fn failure() -> String {
        // SAFETY: what is not null is a text, which is copied before another call changes it.
        unsafe {
            let text = dlerror();
            if text.is_null() { c"" } else { CStr::from_ptr(text) }.to_string_lossy().into_owned()
        }
    }

    /// The address of `name`.
    ///
    /// Panics where the library has no such symbol.
    pub fn address(self, name: &CStr) -> *const c_void {
        // SAFETY: the library is open, and the name ends in a zero byte.
        let address = unsafe { dlsym(self.0, name.as_ptr()) };
        assert!(!address.is_null(), "the library has no {name:?}: {}", Self::failure());
        address
    }

    /// The file that the code or data of `name` lies in: this library, or one that it needs.
    ///
    /// Panics where the library has no such symbol.
    pub fn file_of(self, name: &CStr) -> CString {
        let mut place = Place { file: null(), start: null(), symbol: null(), address: null() };
        // SAFETY: one place is borrowed for the call. The file's name stays while the library is open.
        unsafe {
            assert_ne!(dladdr(self.address(name), &mut place), 0, "{name:?} lies in no file");
            CStr::from_ptr(place.file).to_owned()
        }
    }

    /// The function `name`, as the function pointer type `F`.
    ///
    /// # Safety
    /// `F` is the type of a pointer to a function with the C declaration of `name`.
    pub unsafe fn function<F: Copy>(self, name: &CStr) -> F {
        assert_eq!(size_of::<F>(), size_of::<*const c_void>());
        let address = self.address(name);
        // SAFETY: as the caller says, and the sizes are the same.
        unsafe { std::mem::transmute_copy(&address) }
    }
}
