//! Buffers that show a write outside the part that was lent.

/// The least number of guard bytes on each side.
const GUARDS: usize = 64;

/// A buffer whose middle is lent to the routine under test. The bytes on both sides are guards.
pub struct Guarded {
    bytes: Vec<u8>,
    start: usize,
    end: usize,
}

impl Guarded {
    /// A buffer that lends `content`. A `shift` moves its start, so that any alignment can be tried.
    pub fn new(shift: usize, content: &[u8]) -> Self {
        let start = GUARDS + shift;
        let end = start + content.len();
        let mut bytes: Vec<u8> = (0..end + GUARDS).map(guard).collect();
        bytes[start..end].copy_from_slice(content);
        Guarded { bytes, start, end }
    }

    /// The lent part.
    pub fn lent(&mut self) -> &mut [u8] {
        &mut self.bytes[self.start..self.end]
    }

    /// What the lent part holds, once every guard byte was found to be as it was.
    ///
    /// Panics where one is not.
    pub fn content(&self) -> &[u8] {
        for (at, &byte) in self.bytes.iter().enumerate() {
            let lent = self.start <= at && at < self.end;
            assert!(
                lent || byte == guard(at),
                "a write at {} from the start of a lent part of {} bytes",
                at as isize - self.start as isize,
                self.end - self.start,
            );
        }
        &self.bytes[self.start..self.end]
    }
}

/// The guard byte at a position: neighbours differ, and no constant fill looks like them.
fn guard(at: usize) -> u8 {
    (at * 167 + 13) as u8
}

#[cfg(test)]
mod tests {
    use super::Guarded;

    #[test]
    fn writes_inside_pass() {
        let mut buffer = Guarded::new(3, &[1, 2]);
        buffer.lent().fill(9);
        assert_eq!(buffer.content(), [9, 9]);
    }

    #[test]
    #[should_panic(expected = "a write at 2 from the start of a lent part of 2 bytes")]
    fn a_write_after_is_found() {
        let mut buffer = Guarded::new(3, &[1, 2]);
        buffer.bytes[buffer.end] ^= 1;
        buffer.content();
    }

    #[test]
    #[should_panic(expected = "a write at -1 from the start of a lent part of 2 bytes")]
    fn a_write_before_is_found() {
        let mut buffer = Guarded::new(3, &[1, 2]);
        buffer.bytes[buffer.start - 1] ^= 1;
        buffer.content();
    }
}
