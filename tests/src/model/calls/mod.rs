//! Document 01, "Calls and their refusals", and document 02: each call in its form with a power cut,
//! which with [`Power::STAYS`] is the plain call.
//!
//! Each module has two functions. `outcome` makes the call's tests in the document's order and tells,
//! from the image and record that the call found, its steps on the flash and the record after them.
//! The other one, with the call's name, does it. A call that the power cut leaves the record as a call
//! that finished: the document fixes only its image. A write is a case of [`append`], whose `outcome` is
//! also its own.

pub mod append;
pub mod commit;
pub mod cut_off;
pub mod format;
pub mod gather;
pub mod mount;
pub mod read;
pub mod wipe;
pub mod write;

pub use append::{append, Node};
pub use commit::commit;
pub use cut_off::cut_off;
pub use format::format;
pub use gather::gather;
pub use mount::mount;
pub use read::read;
pub use wipe::wipe;
pub use write::write;

use super::files;
use super::image::{has_right_size, play, Power, Step};
use super::keys::NOISE;
use super::record::Record;

/// The reply of a call that succeeded.
pub const DONE: u32 = 0;
/// The reply of a call that the power cut. The document has no number for it, since nobody gets it.
pub const CUT: u32 = 255;

/// Why a call is refused, with the document's numbers.
#[derive(Clone, Copy, Debug, PartialEq, Eq)]
#[repr(u32)]
pub enum Refusal {
    /// The image is not 8 to 256 full blocks.
    Image = 1,
    /// Map, letters or scratch are of a wrong length.
    Lengths = 2,
    /// The noise is not 7,168 bytes.
    Noise = 3,
    /// The file is above 13.
    File = 4,
    /// The offset is not below the file's count.
    Offset = 5,
    /// The payload has no bytes or more than 224, or the output is not 224 bytes.
    Payload = 6,
    /// The record does not fit.
    Record = 7,
    /// There is no node there.
    NoNode = 8,
    /// There is no letter f.
    NoKey = 9,
    /// There is no page, or no empty block.
    NoRoom = 10,
    /// The sequences or epochs are used up.
    NoNumber = 11,
    /// A key block has no whole copy.
    NoKeyBlock = 12,
    /// There is no whole commit block.
    NoCommitBlock = 13,
    /// A live entry does not fit, or a key is named twice.
    Entry = 14,
    /// No live page stands in that block, or it is not a data block.
    NothingToGather = 15,
}

impl Refusal {
    /// The document's number.
    pub fn number(self) -> u32 {
        self as u32
    }
}

/// What a call that is not refused does.
#[derive(Clone, Debug, PartialEq, Eq)]
pub struct Outcome {
    /// Its steps on the flash, in order.
    pub steps: Vec<Step>,
    /// The record after it.
    pub record: Record,
}

/// Does a call on a record: a refused one changes nothing.
fn run(
    image: &mut [u8],
    record: &mut Record,
    power: Power,
    outcome: Result<Outcome, Refusal>,
) -> u32 {
    match outcome {
        Ok(outcome) => {
            *record = outcome.record;
            run_steps(image, &outcome.steps, power)
        }
        Err(refusal) => refusal.number(),
    }
}

/// Does the steps of a call and gives its reply.
fn run_steps(image: &mut [u8], steps: &[Step], power: Power) -> u32 {
    if play(image, steps, power) {
        DONE
    } else {
        CUT
    }
}

// ---- Tests that several calls make

fn require(holds: bool, refusal: Refusal) -> Result<(), Refusal> {
    holds.then_some(()).ok_or(refusal)
}

/// Refusals 1 and 2 of the calls on a record.
fn test_lengths(image: &[u8], record: &Record) -> Result<(), Refusal> {
    require(has_right_size(image), Refusal::Image)?;
    require(record.has_right_lengths(), Refusal::Lengths)
}

/// Refusal 3.
fn test_noise(noise: &[u8]) -> Result<(), Refusal> {
    require(noise.len() == NOISE, Refusal::Noise)
}

/// Refusals 4 and 5; else the place.
fn test_place(file: usize, offset: usize) -> Result<usize, Refusal> {
    require(file < files::FILES, Refusal::File)?;
    files::place(file, offset).ok_or(Refusal::Offset)
}

/// Refusal 7.
fn test_fit(image: &[u8], record: &Record) -> Result<(), Refusal> {
    require(record.fits(image), Refusal::Record)
}
