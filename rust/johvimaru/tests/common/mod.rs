//! What several tests of the crate use.

#[cfg(feature = "cut")]
pub mod cuts;

use johvimaru::{Noise, Offset, NOISE};

/// Noise that is the same in every run, and has no key twice.
pub fn noise(seed: u8) -> Noise {
    let bytes: Vec<u8> = (0..NOISE).map(|at| (at * 7 + at / 251) as u8 ^ seed).collect();
    Noise::new(&bytes).unwrap()
}

pub fn at(file: u32, offset: u32) -> Offset {
    Offset::new(file, offset).unwrap()
}
