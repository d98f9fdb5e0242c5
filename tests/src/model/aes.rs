//! AES-128 as FIPS 197 has it, byte by byte, and counter mode (SP 800-38A, section 6.5) with
//! counters from 0. The only table is the S-box. Numbers of sections are those of FIPS 197.

/// Bytes in a key.
pub const KEY: usize = 16;
/// Bytes in a block.
pub const BLOCK: usize = 16;
/// Rounds of the cipher, Nr of section 5.
pub const ROUNDS: usize = 10;
/// Bytes in all round keys together: one for the start and one for each round.
pub const ROUND_KEYS: usize = BLOCK * (ROUNDS + 1);

/// The state (section 3.4): row r of column c is the byte at r + 4c.
type State = [u8; BLOCK];

/// A word (section 3.5): four bytes.
type Word = [u8; 4];

/// The round keys of `key`, one after the other: KeyExpansion of section 5.2.
pub fn expand(key: &[u8; KEY]) -> [u8; ROUND_KEYS] {
    let mut words = [[0; 4]; ROUND_KEYS / 4];
    for i in 0..4 {
        words[i].copy_from_slice(&key[4 * i..4 * i + 4]);
    }
    let mut round_constant = 1;
    for i in 4..words.len() {
        let mut word = words[i - 1];
        if i % 4 == 0 {
            word = sub_word(rot_word(word));
            word[0] ^= round_constant;
            round_constant = x_times(round_constant);
        }
        for (byte, earlier) in word.iter_mut().zip(words[i - 4]) {
            *byte ^= earlier;
        }
        words[i] = word;
    }
    let mut round_keys = [0; ROUND_KEYS];
    round_keys.copy_from_slice(words.as_flattened());
    round_keys
}

/// RotWord of section 5.2.
fn rot_word([a, b, c, d]: Word) -> Word {
    [b, c, d, a]
}

/// SubWord of section 5.2.
fn sub_word(word: Word) -> Word {
    word.map(s_box)
}

/// One block enciphered under round keys: Cipher of section 5.1.
pub fn encrypt(round_keys: &[u8; ROUND_KEYS], block: &[u8; BLOCK]) -> [u8; BLOCK] {
    let mut state = *block;
    add_round_key(&mut state, round_keys, 0);
    for round in 1..ROUNDS {
        sub_bytes(&mut state);
        shift_rows(&mut state);
        mix_columns(&mut state);
        add_round_key(&mut state, round_keys, round);
    }
    sub_bytes(&mut state);
    shift_rows(&mut state);
    add_round_key(&mut state, round_keys, ROUNDS);
    state
}

/// SubBytes, section 5.1.1.
fn sub_bytes(state: &mut State) {
    for byte in state {
        *byte = s_box(*byte);
    }
}

/// ShiftRows, section 5.1.2: row r moves r columns to the left, round the end.
fn shift_rows(state: &mut State) {
    let old = *state;
    for r in 0..4 {
        for c in 0..4 {
            state[r + 4 * c] = old[r + 4 * ((c + r) % 4)];
        }
    }
}

/// MixColumns, section 5.1.3.
fn mix_columns(state: &mut State) {
    for column in state.chunks_exact_mut(4) {
        let [a, b, c, d] = [column[0], column[1], column[2], column[3]];
        column[0] = x_times(a) ^ (x_times(b) ^ b) ^ c ^ d;
        column[1] = a ^ x_times(b) ^ (x_times(c) ^ c) ^ d;
        column[2] = a ^ b ^ x_times(c) ^ (x_times(d) ^ d);
        column[3] = (x_times(a) ^ a) ^ b ^ c ^ x_times(d);
    }
}

/// AddRoundKey, section 5.1.4.
fn add_round_key(state: &mut State, round_keys: &[u8; ROUND_KEYS], round: usize) {
    for (byte, key) in state.iter_mut().zip(&round_keys[BLOCK * round..]) {
        *byte ^= key;
    }
}

/// A byte times x in the field, xTimes of section 4.2.
fn x_times(byte: u8) -> u8 {
    let carry = byte >> 7;
    (byte << 1) ^ (carry * 0x1b)
}

/// Enciphers or deciphers `data` in place: counter mode, counters from 0 as 16 bytes big-endian
/// (SP 800-38A, section 6.5). The last block may be short.
pub fn stream(key: &[u8; KEY], data: &mut [u8]) {
    let round_keys = expand(key);
    for (counter, part) in (0u128..).zip(data.chunks_mut(BLOCK)) {
        let output = encrypt(&round_keys, &counter.to_be_bytes());
        for (byte, mask) in part.iter_mut().zip(output) {
            *byte ^= mask;
        }
    }
}

/// The S-box at a byte.
fn s_box(byte: u8) -> u8 {
    S_BOX[usize::from(byte)]
}

/// The S-box of section 5.1.1, sixteen entries to a row.
#[rustfmt::skip]
const S_BOX: [u8; 256] = [
    0x63, 0x7c, 0x77, 0x7b, 0xf2, 0x6b, 0x6f, 0xc5, 0x30, 0x01, 0x67, 0x2b, 0xfe, 0xd7, 0xab, 0x76,
    0xca, 0x82, 0xc9, 0x7d, 0xfa, 0x59, 0x47, 0xf0, 0xad, 0xd4, 0xa2, 0xaf, 0x9c, 0xa4, 0x72, 0xc0,
    0xb7, 0xfd, 0x93, 0x26, 0x36, 0x3f, 0xf7, 0xcc, 0x34, 0xa5, 0xe5, 0xf1, 0x71, 0xd8, 0x31, 0x15,
    0x04, 0xc7, 0x23, 0xc3, 0x18, 0x96, 0x05, 0x9a, 0x07, 0x12, 0x80, 0xe2, 0xeb, 0x27, 0xb2, 0x75,
    0x09, 0x83, 0x2c, 0x1a, 0x1b, 0x6e, 0x5a, 0xa0, 0x52, 0x3b, 0xd6, 0xb3, 0x29, 0xe3, 0x2f, 0x84,
    0x53, 0xd1, 0x00, 0xed, 0x20, 0xfc, 0xb1, 0x5b, 0x6a, 0xcb, 0xbe, 0x39, 0x4a, 0x4c, 0x58, 0xcf,
    0xd0, 0xef, 0xaa, 0xfb, 0x43, 0x4d, 0x33, 0x85, 0x45, 0xf9, 0x02, 0x7f, 0x50, 0x3c, 0x9f, 0xa8,
    0x51, 0xa3, 0x40, 0x8f, 0x92, 0x9d, 0x38, 0xf5, 0xbc, 0xb6, 0xda, 0x21, 0x10, 0xff, 0xf3, 0xd2,
    0xcd, 0x0c, 0x13, 0xec, 0x5f, 0x97, 0x44, 0x17, 0xc4, 0xa7, 0x7e, 0x3d, 0x64, 0x5d, 0x19, 0x73,
    0x60, 0x81, 0x4f, 0xdc, 0x22, 0x2a, 0x90, 0x88, 0x46, 0xee, 0xb8, 0x14, 0xde, 0x5e, 0x0b, 0xdb,
    0xe0, 0x32, 0x3a, 0x0a, 0x49, 0x06, 0x24, 0x5c, 0xc2, 0xd3, 0xac, 0x62, 0x91, 0x95, 0xe4, 0x79,
    0xe7, 0xc8, 0x37, 0x6d, 0x8d, 0xd5, 0x4e, 0xa9, 0x6c, 0x56, 0xf4, 0xea, 0x65, 0x7a, 0xae, 0x08,
    0xba, 0x78, 0x25, 0x2e, 0x1c, 0xa6, 0xb4, 0xc6, 0xe8, 0xdd, 0x74, 0x1f, 0x4b, 0xbd, 0x8b, 0x8a,
    0x70, 0x3e, 0xb5, 0x66, 0x48, 0x03, 0xf6, 0x0e, 0x61, 0x35, 0x57, 0xb9, 0x86, 0xc1, 0x1d, 0x9e,
    0xe1, 0xf8, 0x98, 0x11, 0x69, 0xd9, 0x8e, 0x94, 0x9b, 0x1e, 0x87, 0xe9, 0xce, 0x55, 0x28, 0xdf,
    0x8c, 0xa1, 0x89, 0x0d, 0xbf, 0xe6, 0x42, 0x68, 0x41, 0x99, 0x2d, 0x0f, 0xb0, 0x54, 0xbb, 0x16,
];

#[cfg(test)]
mod tests {
    use super::{s_box, x_times};

    /// The product in the field (section 4.2), by the digits of `a`.
    fn times(a: u8, b: u8) -> u8 {
        let mut power = b;
        let mut sum = 0;
        for bit in 0..8 {
            if a >> bit & 1 == 1 {
                sum ^= power;
            }
            power = x_times(power);
        }
        sum
    }

    /// The multiplicative inverse, found by trying; 0 for 0, as section 5.1.1 has it.
    fn inverse(a: u8) -> u8 {
        (0..=255).find(|&b| times(a, b) == 1).unwrap_or(0)
    }

    /// The affine map of section 5.1.1, bit by bit as its equation has it.
    fn affine(b: u8) -> u8 {
        let bit = |of: u8, i: u32| of >> (i % 8) & 1;
        (0..8)
            .map(|i| {
                let sum = bit(b, i)
                    ^ bit(b, i + 4)
                    ^ bit(b, i + 5)
                    ^ bit(b, i + 6)
                    ^ bit(b, i + 7)
                    ^ bit(0x63, i);
                sum << i
            })
            .sum()
    }

    #[test]
    fn products_are_those_of_section_4_2() {
        assert_eq!(times(0x57, 0x83), 0xc1);
        assert_eq!(times(0x57, 0x13), 0xfe);
    }

    #[test]
    fn s_box_is_the_affine_map_of_the_inverse() {
        for b in 0..=255 {
            assert_eq!(s_box(b), affine(inverse(b)), "S-box at {b:02x}");
        }
        assert_eq!(s_box(0x53), 0xed);
    }
}
