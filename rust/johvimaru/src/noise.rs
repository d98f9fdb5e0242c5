//! The bytes that become keys.

use crate::{Refusal, NOISE};
use alloc::boxed::Box;
use core::fmt;

/// 7,168 bytes of noise: a key of 16 bytes for each of the 448 key positions.
///
/// A call that takes noise takes it for good, so no two calls are given the same. It must come from a
/// good source of randomness, and nobody else may know it.
///
/// ```
/// use johvimaru::{Noise, Refusal};
///
/// let noise = Noise::from_system()?;
/// assert!(Noise::new(&[0; 7_168]).is_ok());
/// assert_eq!(Noise::new(&[0; 7_167]).unwrap_err(), Refusal::NoiseLength);
/// # drop(noise);
/// # Ok::<(), std::io::Error>(())
/// ```
pub struct Noise(Box<[u8]>);

impl Noise {
    /// Noise of these bytes, refused where they are not 7,168.
    pub fn new(bytes: &[u8]) -> Result<Noise, Refusal> {
        match bytes.len() {
            NOISE => Ok(Noise(bytes.into())),
            _ => Err(Refusal::NoiseLength),
        }
    }

    pub(crate) fn bytes(&self) -> &[u8] {
        &self.0
    }
}

/// Sources that come with the feature `std`.
#[cfg(feature = "std")]
impl Noise {
    /// The next 7,168 bytes of a source.
    pub fn from_reader(mut source: impl std::io::Read) -> std::io::Result<Noise> {
        let mut bytes = Box::new([0; NOISE]);
        source.read_exact(&mut bytes[..])?;
        Ok(Noise(bytes))
    }

    /// Noise from the system's randomness, `/dev/urandom`.
    pub fn from_system() -> std::io::Result<Noise> {
        Noise::from_reader(std::fs::File::open("/dev/urandom")?)
    }
}

/// The bytes are not shown.
impl fmt::Debug for Noise {
    fn fmt(&self, f: &mut fmt::Formatter) -> fmt::Result {
        f.write_str("Noise")
    }
}

#[cfg(all(test, feature = "std"))]
mod tests {
    use super::*;

    #[test]
    fn a_source_that_ends_early_gives_none() {
        assert!(Noise::from_reader(&[7; NOISE - 1][..]).is_err());
        assert_eq!(Noise::from_reader(&[7; NOISE + 1][..]).unwrap().bytes(), [7; NOISE]);
    }

    #[test]
    fn the_system_gives_other_noise_each_time() {
        let [a, b] = [0, 1].map(|_| Noise::from_system().unwrap());
        assert_ne!(a.bytes(), b.bytes());
    }
}
