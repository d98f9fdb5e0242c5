//! Second implementations, written from the public documents alone, to compare the proved ones
//! with. They are made to be read beside the document, not to be fast.
//!
//! [`aes`] is the cipher. The rest is the store of document 01, a module for each of its topics:
//!
//! - [`files`] and [`keys`]: the file plan, and where a key position is.
//! - [`pages`]: page forms, headers, entries and letters.
//! - [`image`]: the flash image, its two steps and a power cut; [`chip`]: a chip with unsettled blocks;
//!   [`bus`]: the chip's side of its bus, and the driver's bytes.
//! - [`blocks`]: key blocks, commit blocks and data blocks.
//! - [`record`]: the working record and its fit.
//! - [`calls`]: the eight calls; [`store`]: an image with its
//!   record, and a call on them.
//! - [`listing`]: the text that the listing program prints.
//! - [`list`], [`book`], [`origin`] and [`demand`]: lists of calls with cuts, the plain book, where each
//!   byte of the flash comes from, and demand 3 as a test, beside a chip; [`copies`]: what it asks of a gather.

pub mod aes;
pub mod blocks;
pub mod book;
pub mod bus;
pub mod calls;
pub mod chip;
pub mod copies;
pub mod demand;
pub mod files;
pub mod image;
pub mod keys;
pub mod list;
pub mod listing;
pub mod origin;
pub mod pages;
pub mod record;
pub mod store;
