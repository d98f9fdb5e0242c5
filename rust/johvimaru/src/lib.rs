//! Johvimaru: a store of small records on a flash chip, which can be made to forget.
//!
//! The store keeps payloads of 1 to 224 bytes in 14 files of fixed size on the image of a flash chip. Each
//! is enciphered under a key of its own. The keys stand on the same chip, and a payload is forgotten by
//! replacing its key. What every call does, and what the image is after a power cut at any byte, is
//! proved; this crate is the safe way to that library from Rust. It has no dependencies.
//!
//! ```
//! use johvimaru::{File, Noise, Refusal, Store};
//!
//! // An image of 32 blocks, empty. For a chip it is the mirror in memory.
//! let mut store = Store::format(vec![0xff; 32 * johvimaru::BLOCK], Noise::from_system()?)?;
//!
//! let draughts = File::new(0)?;
//! store.write(draughts.offset(0)?, b"draught 4.12 m")?;
//! store.write(draughts.offset(0)?, b"draught 6.80 m")?;
//! assert_eq!(store.read(draughts.offset(0)?)?, b"draught 6.80 m");
//! assert_eq!(store.read(draughts.offset(1)?), Err(Refusal::NothingThere));
//!
//! // What is there: the live nodes, the keys, the next numbers.
//! for node in store.record().nodes() {
//!     println!("{}: page {}, key {}", node.at, node.page, node.key);
//! }
//! assert_eq!(store.record().counts().deleted, 1);
//!
//! // At the quay: the file goes, and its keys with it.
//! store.wipe(draughts.start(), Noise::from_system()?)?;
//! assert_eq!(store.record().counts().free, 448);
//!
//! // The next day. The record is found again from the image alone.
//! let store = Store::mount(store.into_image())?;
//! assert_eq!(store.record().nodes().count(), 0);
//! # Ok::<(), Box<dyn std::error::Error>>(())
//! ```
//!
//! - [`Store`] owns or borrows an image, and keeps its record. [`File`] and [`Offset`] name a node, whose
//!   [`Payload`] reads back as long as it was written; a [`Refusal`] has the documents' number and a sentence.
//! - [`Store::gather`] copies the live pages of a thin block, so that the next commit gives the block back.
//!   [`Store::pages_left`], [`Store::live_pages`] and [`Record::thin_blocks`] tell when, and which block.
//! - [`Driver`] drives a [`Chip`]: each step of a call goes to the chip before the next, and the mirror is
//!   brought along. [`FileChip`] is a chip in a file, [`CutChip`] one whose power fails where it is told.
//! - [`BusChip`] is a chip on a [`Bus`] of the caller's, driven by the bytes of the ONFI commands, which come from
//!   the proved library; [`Cycles`] are the bytes of a step alone, and [`ModelBus`] is a model of the chip for tests.
//! - With the feature `cut`, each call has a form that the power cuts after n steps and k bytes of one
//!   more. It takes the store and leaves an [`Unmounted`] image, which only a mount makes a store again.
//! - [`Form`] says what stands on a page, for pictures and reports.
//! - [`raw`] has the library's calls as they are, for tests of it.
//!
//! # Features
//!
//! - `std`, on by default: [`Noise::from_system`], [`Noise::from_reader`] and [`FileChip`]. Without it the
//!   crate is `no_std`: it needs `core` and `alloc` only, and noise comes from [`Noise::new`].
//! - `cut`, off by default: the calls in their form with n and k, for tests of a device.
//!
//! Neither needs the other. Errors implement `core::error::Error` with and without `std`.
//!
//! # What stays secret
//!
//! `{:?}` of a type of this crate shows no byte of a key or of a payload. A [`Page`] and an image are plain
//! bytes, which are shown where they are printed themselves. How long a payload is stands in its page's
//! header, which is not enciphered.
//!
//! The library clears nothing behind it: what a call used stays on the stack, below the caller's frame, and
//! in registers until something overwrites it. Found were the key of the node on the stack after a write
//! and a read, 16 bytes of the payload in a vector register after a read, and key bytes in vector registers
//! after format, commit and wipe. No payload was found on the stack. The crate clears nothing either:
//! noise, mirrors and copies go back to the allocator as they are, and a read gives its payload by value.
//! The cipher is not constant-time.
//!
//! # The static library
//!
//! The build takes `librecorder.a` from the folder that the variable `JOHVIMARU_LIB_DIR` names. Where none is
//! named it is the proved archive that the repository keeps, if it was built from the very sources at hand;
//! else `rt lib` in crates/recorder proves and builds it, in some minutes, and without the program `rt` the
//! build ends and says so. Cargo looks for changed sources by their times. The library is for x86-64 with ELF
//! objects, uses SSE registers, and needs `memcpy` and `memset` and nothing else; for a target without an
//! operating system name its folder by the variable.

#![no_std]
// The documents name what both features bring.
#![cfg_attr(not(all(feature = "std", feature = "cut")), allow(rustdoc::broken_intra_doc_links))]

extern crate alloc;
#[cfg(feature = "std")]
extern crate std;

mod bus;
mod chip;
#[cfg(feature = "cut")]
mod cut;
mod driver;
mod ffi;
mod form;
mod noise;
mod payload;
mod plan;
pub mod raw;
mod record;
mod refusal;
mod room;
mod step;
mod store;

pub use bus::{Bus, BusChip, BusError, Cycle, Cycles, Mark, ModelBus};
#[cfg(feature = "std")]
pub use chip::FileChip;
pub use chip::{Chip, CutChip, CutError, MemoryChip, Misuse};
#[cfg(feature = "cut")]
pub use cut::{Outcome, Unmounted};
pub use driver::{Driver, Failure};
pub use form::{Form, Header};
pub use noise::Noise;
pub use payload::Payload;
pub use plan::{File, Offset};
pub use record::{KeyCounts, Letter, Node, Record};
pub use refusal::{Refusal, Refused};
pub use step::{Page, Step};
pub use store::Store;

/// Bytes in a page.
pub const PAGE: usize = 256;
/// Pages in a block.
pub const PAGES_IN_BLOCK: usize = 16;
/// Bytes in a block.
pub const BLOCK: usize = PAGE * PAGES_IN_BLOCK;
/// The least number of blocks in an image.
pub const MIN_BLOCKS: usize = 8;
/// The largest number of blocks in an image.
pub const MAX_BLOCKS: usize = 256;
/// Bytes in a page's header.
pub const HEADER: usize = 30;
/// The most bytes that a payload has, and the bytes of an output for one.
pub const PAYLOAD: usize = 224;
/// Files.
pub const FILES: usize = 14;
/// Places: the nodes of all files.
pub const PLACES: usize = 224;
/// Key positions.
pub const KEYS: usize = 448;
/// Bytes in a key.
pub const KEY: usize = 16;
/// Bytes of noise that format, commit and wipe take.
pub const NOISE: usize = KEY * KEYS;

/// Where a power cut falls: after n whole steps and k bytes of one more.
#[derive(Clone, Copy, Debug, PartialEq, Eq, Hash)]
pub struct Cut {
    /// The steps done whole.
    pub n: u64,
    /// The bytes done of the next. More than it has do the whole of it.
    pub k: usize,
}
