//! The writer of decimal columns as the library had it before document 02's #103: it divided. Each of its
//! divisions is counted here. And a division as a processor makes it that has no instruction for it.
//!
//! Functions are those that `page::columns`, `page::words` and `page::headers` had, line by line.

use std::hint::black_box;

/// Four columns of spaces, and the number 0 in four columns, as words.
const SPACES: u32 = 0x2020_2020;
const SPELT_ZERO4: u32 = 0x3020_2020;

/// The digit 0, and a space.
const ZERO: u8 = 0x30;
const SPACE: u8 = 0x20;

/// Where the file's columns start in a header.
const UNIT_AT: usize = 9;

/// How many divisions were made. A quotient is one, and a remainder is one.
#[derive(Clone, Copy, Debug, Default, PartialEq, Eq)]
pub struct Divisions {
    /// By ten, a hundred and ten thousand.
    pub by_tens: usize,
    /// By powers of two.
    pub by_twos: usize,
}

/// The writer, with the divisions that it has made.
#[derive(Default)]
pub struct Dividing {
    /// The divisions so far.
    pub made: Divisions,
}

impl Dividing {
    fn count(&mut self, by: u64) {
        match by {
            10 | 100 | 10_000 => self.made.by_tens += 1,
            0x100 | 0x1_0000 | 0x100_0000 => self.made.by_twos += 1,
            _ => panic!("the writer did not divide by {by}"),
        }
    }

    /// n / by
    fn over(&mut self, n: u32, by: u32) -> u32 {
        self.count(by.into());
        n / by
    }

    /// n / by, of longer words.
    fn over_long(&mut self, n: u64, by: u64) -> u64 {
        self.count(by);
        n / by
    }

    /// n % by
    fn rest(&mut self, n: u32, by: u32) -> u32 {
        self.count(by.into());
        n % by
    }

    /// A column left of the last digit, where m is what is left of the number: a space where nothing is left.
    fn column_of(&mut self, m: u32) -> u8 {
        if m == 0 {
            SPACE
        } else {
            ZERO + self.rest(m, 10) as u8
        }
    }

    /// Writes n into the columns of dst.
    pub fn put(&mut self, dst: &mut [u8], n: u32) {
        let mut i = dst.len() - 1;
        dst[i] = ZERO + self.rest(n, 10) as u8;
        let mut m = self.over(n, 10);
        while 0 < i {
            i -= 1;
            dst[i] = self.column_of(m);
            m = self.over(m, 10);
        }
    }

    /// The four columns of a number below 10,000, as one word.
    pub fn spelt4(&mut self, n: u32) -> u32 {
        if n < 10 {
            return SPELT_ZERO4 + n * 0x100_0000;
        }
        let low = self.rest(n, 100);
        let tail = 0x3030_0000 + self.over(low, 10) * 0x1_0000 + self.rest(low, 10) * 0x100_0000;
        if n < 100 {
            return tail + 0x2020;
        }
        let high = self.over(n, 100);
        if n < 1000 {
            return tail + 0x3020 + high * 0x100;
        }
        tail + 0x3030 + self.over(high, 10) + self.rest(high, 10) * 0x100
    }

    /// The same of a number below 1,000.
    pub fn spelt_three(&mut self, n: u32) -> u32 {
        if n < 10 {
            return SPELT_ZERO4 + n * 0x100_0000;
        }
        let low = self.rest(n, 100);
        let last_two =
            0x3030_0000 + self.over(low, 10) * 0x1_0000 + self.rest(low, 10) * 0x100_0000;
        if n < 100 {
            return last_two + 0x2020;
        }
        last_two + 0x3020 + self.over(n, 100) * 0x100
    }

    /// Four columns of any number, as one word: of a longer one its last four digits.
    fn spelt_low(&mut self, n: u32) -> u32 {
        if n < 10_000 {
            return self.spelt4(n);
        }
        let hundreds = self.over(n, 100);
        let high = self.rest(hundreds, 100);
        let low = self.rest(n, 100);
        0x3030_3030
            + self.over(high, 10)
            + self.rest(high, 10) * 0x100
            + self.over(low, 10) * 0x1_0000
            + self.rest(low, 10) * 0x100_0000
    }

    /// The first four of a number's eight columns, as one word. The others are its four columns.
    fn spelt_high(&mut self, n: u32) -> u32 {
        if n < 10_000 {
            return SPACES;
        }
        let high = self.over(n, 10_000);
        self.spelt_low(high)
    }

    /// Writes n into the three columns of dst from at on: the last three of four.
    pub fn put3(&mut self, dst: &mut [u8], at: usize, n: u32) {
        let word = self.spelt_low(n);
        let word = self.over(word, 0x100);
        self.put_word3(dst, at, word);
    }

    /// Writes n into the four columns of dst from at on.
    pub fn put4(&mut self, dst: &mut [u8], at: usize, n: u32) {
        let word = self.spelt_low(n);
        self.put_word4(dst, at, word);
    }

    /// Writes n into the eight columns of dst from at on.
    pub fn put8(&mut self, dst: &mut [u8], at: usize, n: u32) {
        let word = self.spelt_high(n);
        self.put_word4(dst, at, word);
        let word = self.spelt_low(n);
        self.put_word4(dst, at + 4, word);
    }

    /// Writes the three lowest bytes of w into dst from at on.
    fn put_word3(&mut self, dst: &mut [u8], at: usize, w: u32) {
        dst[at] = self.rest(w, 0x100) as u8;
        let second = self.over(w, 0x100);
        dst[at + 1] = self.rest(second, 0x100) as u8;
        let third = self.over(w, 0x1_0000);
        dst[at + 2] = self.rest(third, 0x100) as u8;
    }

    /// Writes the four bytes of w into dst from at on.
    fn put_word4(&mut self, dst: &mut [u8], at: usize, w: u32) {
        dst[at] = self.rest(w, 0x100) as u8;
        let second = self.over(w, 0x100);
        dst[at + 1] = self.rest(second, 0x100) as u8;
        let third = self.over(w, 0x1_0000);
        dst[at + 2] = self.rest(third, 0x100) as u8;
        dst[at + 3] = self.over(w, 0x100_0000) as u8;
    }

    /// Whether the columns of a header are those of a file and an offset. The file's are given as they are
    /// spelt.
    pub fn is_place(&mut self, header: &[u8], text: u32, offset: u32) -> bool {
        let file = u64::from(self.over(text, 0x100));
        let place = file + u64::from(self.spelt_three(offset)) * 0x100_0000;
        let bytes = header[UNIT_AT - 1..][..8].try_into().expect("a header is longer");
        self.over_long(u64::from_le_bytes(bytes), 0x100) == place
    }
}

/// The bits of a word, and so the steps of a division.
const STEPS: u32 = u32::BITS;

/// Quotient and remainder by shifts, comparisons and subtractions, a step for each bit, as the routine that
/// a compiler calls where the processor has no division. The number to divide by is not 0.
pub fn divide_by_steps(n: u32, by: u32) -> (u32, u32) {
    let (by, mut quotient, mut rest) = (black_box(by), black_box(n), 0u32);
    for _ in 0..STEPS {
        let is_long = rest >> (STEPS - 1) == 1;
        rest = rest << 1 | quotient >> (STEPS - 1);
        quotient <<= 1;
        if is_long || by <= rest {
            rest = rest.wrapping_sub(by);
            quotient |= 1;
        }
    }
    (quotient, rest)
}

#[cfg(test)]
mod tests {
    use super::{divide_by_steps, Dividing, Divisions};
    use crate::model::pages::{spell_field, HEADER};
    use crate::rng::Rng;

    /// Numbers of each length, in digits.
    const CASES: usize = 2_000;

    /// A number of so many digits, 1 to 10.
    fn number(rng: &mut Rng, digits: u32) -> u32 {
        let least = if digits == 1 { 0 } else { 10u64.pow(digits - 1) };
        let end = 10u64.pow(digits).min(1 << u32::BITS);
        (least + rng.number() % (end - least)) as u32
    }

    /// A number's columns by the second implementation, which supposes that they are enough.
    fn spelt<const N: usize>(n: u32) -> [u8; N] {
        let mut columns = [0; 12];
        spell_field(&mut columns, n);
        *columns.last_chunk().expect("the columns are more")
    }

    #[test]
    fn every_writer_writes_what_the_second_implementation_writes() {
        let (mut rng, mut of) = (Rng::new(103), Dividing::default());
        for digits in 1..=10 {
            for _ in 0..CASES {
                let n = number(&mut rng, digits);
                let mut columns = [0; 40];
                of.put3(&mut columns, 1, n);
                of.put4(&mut columns, 5, n);
                of.put8(&mut columns, 10, n);
                of.put(&mut columns[20..32], n);
                assert_eq!(columns[..4], [&[0][..], &spelt::<3>(n)].concat(), "{n}");
                assert_eq!(columns[4..9], [&[0][..], &spelt::<4>(n)].concat(), "{n}");
                assert_eq!(columns[9..18], [&[0][..], &spelt::<8>(n)].concat(), "{n}");
                assert_eq!(columns[18..32], [&[0, 0][..], &spelt::<12>(n)].concat(), "{n}");
                assert_eq!(columns[32..], [0; 8], "{n}");
            }
        }
    }

    #[test]
    fn words_are_what_the_second_implementation_writes() {
        let mut of = Dividing::default();
        for n in 0..10_000 {
            assert_eq!(of.spelt4(n).to_le_bytes(), spelt(n));
            if n < 1_000 {
                assert_eq!(of.spelt_three(n).to_le_bytes(), spelt(n));
            }
        }
    }

    #[test]
    fn a_place_is_told_from_others() {
        let mut of = Dividing::default();
        for file in 0..14 {
            let text = of.spelt4(file);
            for offset in 0..32 {
                let mut header = [b'x'; HEADER];
                header[9..12].copy_from_slice(&spelt::<3>(file));
                header[12..16].copy_from_slice(&spelt::<4>(offset));
                assert!(of.is_place(&header, text, offset));
                assert!(!of.is_place(&header, text, offset + 1));
                let other = of.spelt4(file + 1);
                assert!(!of.is_place(&header, other, offset));
            }
        }
    }

    /// What some work has divided.
    fn divisions<T>(work: impl FnOnce(&mut Dividing) -> T) -> (usize, usize) {
        let mut of = Dividing::default();
        work(&mut of);
        let Divisions { by_tens, by_twos } = of.made;
        (by_tens, by_twos)
    }

    #[test]
    fn divisions_are_those_counted_by_hand() {
        let long = [0, 9, 10, 99, 100, 999, 1_000, 9_999];
        let spelt4 = long.map(|n| divisions(|of| of.spelt4(n)));
        assert_eq!(spelt4.map(|made| made.0), [0, 0, 3, 3, 4, 4, 6, 6]);
        let three = [9, 10, 99, 100, 999].map(|n| divisions(|of| of.spelt_three(n)));
        assert_eq!(three, [(0, 0), (3, 0), (3, 0), (4, 0), (4, 0)]);
        let row = &mut [0; 12];
        assert_eq!(divisions(|of| of.put3(row, 0, 7)), (0, 6));
        assert_eq!(divisions(|of| of.put3(row, 0, 224)), (4, 6));
        assert_eq!(divisions(|of| of.put4(row, 0, 447)), (4, 6));
        assert_eq!(divisions(|of| of.put4(row, 0, 65_535)), (7, 6));
        assert_eq!(divisions(|of| of.put8(row, 0, 9)), (0, 12));
        assert_eq!(divisions(|of| of.put8(row, 0, 4_095)), (6, 12));
        assert_eq!(divisions(|of| of.put8(row, 0, 10_000)), (1 + 7, 12));
        assert_eq!(divisions(|of| of.put8(row, 0, 99_999_999)), (1 + 6 + 7, 12));
        assert_eq!(divisions(|of| of.put(&mut row[..4], 7)), (5, 0));
        assert_eq!(divisions(|of| of.put(&mut row[..4], 447)), (7, 0));
        assert_eq!(divisions(|of| of.is_place(&[0; HEADER], 0x3120_2020, 31)), (3, 2));
    }

    #[test]
    fn steps_divide() {
        let edges = [0, 1, 9, 10, 99, 100, 9_999, 10_000, 1 << 31, u32::MAX - 1, u32::MAX];
        let mut rng = Rng::new(7);
        let random = |rng: &mut Rng| (rng.number() as u32) >> rng.below(32);
        let mut pairs: Vec<(u32, u32)> =
            (0..100_000).map(|_| (random(&mut rng), random(&mut rng))).collect();
        pairs.extend(edges.iter().flat_map(|&n| edges.map(|by| (n, by))));
        for (n, by) in pairs.into_iter().filter(|&(_, by)| by != 0) {
            assert_eq!(divide_by_steps(n, by), (n / by, n % by), "{n} by {by}");
        }
    }
}
