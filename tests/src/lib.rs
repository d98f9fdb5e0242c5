//! What the tests and benchmarks of the proved libraries share.
//!
//! The store itself is the crate `johvimaru`, over the library `recorder`.
//!
//! - [`ffi`]: the functions of the library `harness`, and those of `recorder` for the chip's bus, as safe Rust
//!   functions.
//! - [`side_by_side`]: the same call by library and second implementation, and their first difference.
//! - [`kept`]: a store of both with its plain book.
//! - [`model`]: second implementations, written from the public documents alone.
//! - [`random_lists`]: lists of calls of the store.
//! - [`bus_streams`]: streams of bytes on the chip's bus.
//! - [`store_lists`]: lists of calls on library and second implementation side by side.
//! - [`sources`]: the functions of the sources in Rattle, and which calls which.
//! - [`dividing`]: the writer of columns as it was when it divided, with its divisions counted.
//! - [`edits`]: wrong programs, and what the prover says of them.
//! - [`prover`]: checks of the crates, over what an earlier check left.
//! - [`unproved`]: programs in Rattle, compiled and run with no proof.
//! - [`kit`]: the toolchain.
//! - [`rng`]: a generator of test inputs that gives the same ones in every run.
//! - [`guarded`]: buffers that show a write outside the part that was lent.
//! - [`hex`]: bytes to and from hexadecimal text.
//! - [`floor`]: the same calls by a plain program in C, which our times are measured against.
//! - `driven_chip`: the chip of [`model::chip`], as one that a driver of the crate drives.
//! - [`another_build`]: the same calls by another build of the library.
//! - [`settings`]: the images that benchmark and profile work on.
//! - [`shared_library`], [`databases`] and [`timing`]: what speed is compared with, and the clock.

pub mod another_build;
pub mod bus_streams;
pub mod databases;
pub mod dividing;
mod driven_chip;
pub mod edits;
pub mod ffi;
pub mod floor;
pub mod guarded;
pub mod hex;
pub mod kept;
pub mod kit;
pub mod model;
pub mod prover;
pub mod random_lists;
pub mod rng;
pub mod settings;
pub mod shared_library;
pub mod side_by_side;
pub mod sources;
pub mod store_lists;
pub mod timing;
pub mod unproved;
