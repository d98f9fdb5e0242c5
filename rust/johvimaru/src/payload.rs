//! What a node holds.

use crate::{Refusal, PAYLOAD};
use core::fmt;
use core::hash::{Hash, Hasher};
use core::ops::Deref;

/// What a node holds: 1 to 224 bytes.
///
/// It is used as the slice of these bytes, and compared with others by them alone. `{:?}` shows how many they
/// are, and none of them.
///
/// ```
/// use johvimaru::{Payload, Refusal};
///
/// let payload = Payload::new(b"draught 4.12 m")?;
/// assert_eq!(payload.len(), 14);
/// assert_eq!(payload, b"draught 4.12 m");
/// assert_eq!(&payload[8..12], b"4.12");
/// assert_ne!(payload, b"draught 4.12 m ");
/// assert_eq!(format!("{payload:?}"), "Payload(14 bytes)");
///
/// assert_eq!(Payload::new(b""), Err(Refusal::PayloadLength));
/// assert_eq!(Payload::new(&[0; 225]), Err(Refusal::PayloadLength));
/// # Ok::<(), Refusal>(())
/// ```
#[derive(Clone, Copy)]
pub struct Payload {
    bytes: [u8; PAYLOAD],
    length: usize,
}

impl Payload {
    /// A payload of these bytes, refused with [`Refusal::PayloadLength`] where there are none or more than
    /// 224.
    pub fn new(bytes: &[u8]) -> Result<Payload, Refusal> {
        let mut all = [0; PAYLOAD];
        match all.get_mut(..bytes.len()) {
            Some(first) if !bytes.is_empty() => first.copy_from_slice(bytes),
            _ => return Err(Refusal::PayloadLength),
        }
        Ok(Payload { bytes: all, length: bytes.len() })
    }

    /// The payload that `fill` puts at the start of the 224 bytes it is lent, of the length that it tells.
    pub(crate) fn filled<E>(
        fill: impl FnOnce(&mut [u8; PAYLOAD]) -> Result<usize, E>,
    ) -> Result<Payload, E> {
        let mut bytes = [0; PAYLOAD];
        let length = fill(&mut bytes)?;
        Ok(Payload { bytes, length })
    }
}

impl Deref for Payload {
    type Target = [u8];

    fn deref(&self) -> &[u8] {
        &self.bytes[..self.length]
    }
}

impl AsRef<[u8]> for Payload {
    fn as_ref(&self) -> &[u8] {
        self
    }
}

impl TryFrom<&[u8]> for Payload {
    type Error = Refusal;

    fn try_from(bytes: &[u8]) -> Result<Payload, Refusal> {
        Payload::new(bytes)
    }
}

/// What lies behind the length has no part in it.
impl PartialEq for Payload {
    fn eq(&self, other: &Payload) -> bool {
        **self == **other
    }
}

impl Eq for Payload {}

impl Hash for Payload {
    fn hash<H: Hasher>(&self, state: &mut H) {
        (**self).hash(state);
    }
}

impl PartialEq<[u8]> for Payload {
    fn eq(&self, other: &[u8]) -> bool {
        **self == *other
    }
}

impl PartialEq<&[u8]> for Payload {
    fn eq(&self, other: &&[u8]) -> bool {
        **self == **other
    }
}

impl<const N: usize> PartialEq<[u8; N]> for Payload {
    fn eq(&self, other: &[u8; N]) -> bool {
        **self == *other
    }
}

impl<const N: usize> PartialEq<&[u8; N]> for Payload {
    fn eq(&self, other: &&[u8; N]) -> bool {
        **self == **other
    }
}

/// The bytes are not shown.
impl fmt::Debug for Payload {
    fn fmt(&self, f: &mut fmt::Formatter) -> fmt::Result {
        let unit = if self.length == 1 { "byte" } else { "bytes" };
        write!(f, "Payload({} {unit})", self.length)
    }
}

#[cfg(test)]
mod tests {
    use super::*;
    use alloc::vec;
    use core::hash::BuildHasher;

    /// A payload of these bytes with other ones behind them.
    fn over(rest: u8, bytes: &[u8]) -> Payload {
        let fill = |all: &mut [u8; PAYLOAD]| {
            all.fill(rest);
            all[..bytes.len()].copy_from_slice(bytes);
            Ok::<usize, Refusal>(bytes.len())
        };
        Payload::filled(fill).unwrap()
    }

    #[test]
    fn one_to_224_bytes() {
        for length in 0..=PAYLOAD + 2 {
            let bytes = vec![7; length];
            match Payload::new(&bytes) {
                Ok(payload) => {
                    assert!((1..=PAYLOAD).contains(&length), "{length}");
                    assert_eq!(payload, bytes[..]);
                }
                Err(refusal) => {
                    assert_eq!(refusal, Refusal::PayloadLength);
                    assert!(length == 0 || length > PAYLOAD, "{length}");
                }
            }
        }
    }

    #[test]
    fn what_lies_behind_the_length_has_no_part() {
        let [a, b] = [b' ', b'x'].map(|rest| over(rest, b"track"));
        assert_eq!(a, b);
        let state = sums();
        assert_eq!(state.hash_one(a), state.hash_one(b));
        assert_eq!(state.hash_one(a), state.hash_one(&b"track"[..]));
        assert_ne!(over(b' ', b"track"), over(b' ', b"track "));
    }

    /// A hasher that is the same for each value.
    fn sums() -> impl BuildHasher {
        core::hash::BuildHasherDefault::<Sum>::default()
    }

    #[derive(Default)]
    struct Sum(u64);

    impl Hasher for Sum {
        fn finish(&self) -> u64 {
            self.0
        }

        fn write(&mut self, bytes: &[u8]) {
            for &byte in bytes {
                self.0 = self.0.wrapping_mul(257).wrapping_add(u64::from(byte) + 1);
            }
        }
    }

    #[test]
    fn it_compares_with_slices_and_arrays() {
        let payload = over(0, b"track");
        assert!(payload == *b"track" && payload == b"track");
        let slice = &b"track"[..];
        assert!(payload == slice && payload == *slice);
        assert!(payload != b"trac" && payload != b"tracks" && payload != b"Track");
        assert_eq!(payload.as_ref(), b"track");
        assert_eq!(Payload::try_from(&b"track"[..]), Ok(payload));
    }
}
