//! Bytes to and from hexadecimal text.

/// The bytes that `text` spells, two digits each. White space is passed over.
///
/// Panics where the text is anything else.
pub fn bytes(text: &str) -> Vec<u8> {
    let digits: Vec<u8> = text
        .chars()
        .filter(|c| !c.is_whitespace())
        .map(|c| c.to_digit(16).expect("a hexadecimal digit") as u8)
        .collect();
    let pairs = digits.chunks(2).map(|pair| match pair {
        [high, low] => high * 16 + low,
        _ => panic!("an odd number of digits: {text}"),
    });
    pairs.collect()
}

/// The `N` bytes that `text` spells.
///
/// Panics where they are not `N`.
pub fn array<const N: usize>(text: &str) -> [u8; N] {
    bytes(text).try_into().expect("as many bytes as asked for")
}

/// The digits of `bytes`, two for each.
pub fn text(bytes: &[u8]) -> String {
    bytes.iter().map(|byte| format!("{byte:02x}")).collect()
}

#[cfg(test)]
mod tests {
    #[test]
    fn text_and_bytes_are_inverse() {
        assert_eq!(super::bytes("00 7f\n80FF"), [0x00, 0x7f, 0x80, 0xff]);
        assert_eq!(super::text(&[0x00, 0x7f, 0x80, 0xff]), "007f80ff");
    }
}
