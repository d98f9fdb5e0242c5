//! The width of the terminal's window.
#![allow(unsafe_code)]

use std::env;
use std::ffi::{c_int, c_ulong};
use std::io;
use std::os::fd::AsRawFd;

/// How many columns a line of standard output has: those of its terminal, else as many as the variable
/// `COLUMNS` says, else any number.
pub fn of_output() -> Option<usize> {
    let columns = env::var("COLUMNS").ok();
    of_terminal(&io::stdout()).or_else(|| columns?.parse().ok().filter(|columns| *columns > 0))
}

/// A window's size as the system tells it: rows, columns, and two numbers of dots.
#[repr(C)]
#[derive(Default)]
struct Size {
    rows: u16,
    columns: u16,
    dots: [u16; 2],
}

/// Linux's number of the request for a window's size. Where it means nothing the request fails.
const WINDOW_SIZE: c_ulong = 0x5413;

extern "C" {
    fn ioctl(file: c_int, request: c_ulong, ...) -> c_int;
}

/// The columns of a terminal that knows how many it has.
fn of_terminal(file: &impl AsRawFd) -> Option<usize> {
    let mut size = Size::default();
    let place: *mut Size = &mut size;
    // SAFETY: the request writes a Size, four 16-bit numbers, at the place that is its third argument,
    // which is valid until the end of this function. A file that is no terminal is left alone.
    let reply = unsafe { ioctl(file.as_raw_fd(), WINDOW_SIZE, place) };
    (reply == 0 && size.columns > 0).then(|| size.columns.into())
}

#[cfg(test)]
mod tests {
    use super::*;
    use std::fs::File;

    #[test]
    fn what_is_no_terminal_has_no_width() -> io::Result<()> {
        assert_eq!(of_terminal(&File::open("/dev/null")?), None);
        Ok(())
    }

    /// The size that a terminal is told is the one that it tells, where the system gives terminals.
    #[test]
    fn the_width_of_a_terminal() {
        const SET_WINDOW_SIZE: c_ulong = 0x5414;
        let opened = File::options().read(true).write(true).open("/dev/ptmx");
        let Ok(terminal) = opened else { return };
        assert_eq!(of_terminal(&terminal), None, "it has no size yet");
        let size = Size { rows: 24, columns: 77, dots: [0; 2] };
        let place: *const Size = &size;
        // SAFETY: the request reads a Size at the place that is its third argument.
        let reply = unsafe { ioctl(terminal.as_raw_fd(), SET_WINDOW_SIZE, place) };
        assert_eq!((reply, of_terminal(&terminal)), (0, Some(77)));
    }
}
