//! What stands on a page, for pictures and reports: document 01's page forms.

use crate::step::{is_erased, Page};
use crate::{Offset, HEADER, KEYS, PAGE, PAYLOAD};

/// The closing of a whole page.
const CLOSING: [u8; 2] = *b"\r\n";
/// The highest sequence and the highest epoch.
const LAST: u32 = 99_999_999;
/// The longest payload, as a node's header has it.
const LONGEST: u32 = PAYLOAD as u32;

/// The form of a page.
///
/// ```
/// use johvimaru::{Form, Header, Noise, Offset, Store};
///
/// let mut store = Store::format(vec![0; 32_768], Noise::from_system()?)?;
/// store.write(Offset::new(2, 5)?, b"draught 4.12 m")?;
/// let forms: Vec<Form> = Form::all(store.image()).collect();
/// assert_eq!(forms[0], Form::Whole(Header::Keys { epoch: 1, block: 0, page: 0 }));
/// assert!(matches!(forms[32], Form::Whole(Header::Commit { epoch: 1, part: 0, covered: 0, .. })));
/// let Form::Whole(Header::Node { sequence: 1, at, key: 0, length: 14, .. }) = forms[48] else {
///     panic!("the first node, under the first key");
/// };
/// assert_eq!(at, Offset::new(2, 5)?);
/// assert_eq!(forms[49], Form::Empty);
/// # Ok::<(), Box<dyn std::error::Error>>(())
/// ```
#[derive(Clone, Copy, Debug, PartialEq, Eq, Hash)]
pub enum Form {
    /// All bytes are FFh.
    Empty,
    /// Header and closing are both right.
    Whole(Header),
    /// Only the header is right.
    Torn(Header),
    /// Anything else.
    Spoilt,
}

impl Form {
    /// The form of a page.
    pub fn of(page: &Page) -> Form {
        match Header::of(page) {
            Some(header) if page[PAGE - CLOSING.len()..] == CLOSING => Form::Whole(header),
            Some(header) => Form::Torn(header),
            None if is_erased(page) => Form::Empty,
            None => Form::Spoilt,
        }
    }

    /// The forms of all full pages of an image, in order.
    pub fn all(image: &[u8]) -> impl DoubleEndedIterator<Item = Form> + '_ {
        image.as_chunks().0.iter().map(Form::of)
    }

    /// The header of a whole or torn page.
    pub fn header(self) -> Option<Header> {
        match self {
            Form::Whole(header) | Form::Torn(header) => Some(header),
            Form::Empty | Form::Spoilt => None,
        }
    }
}

/// A page's header, with the fields that its kind uses.
///
/// The kinds are the four of document 01. The headers of nodes and commits will get more fields, so `..` ends
/// a pattern for them.
#[derive(Clone, Copy, Debug, PartialEq, Eq, Hash)]
pub enum Header {
    /// N, a node.
    #[non_exhaustive]
    Node {
        /// From 1.
        sequence: u32,
        /// Its file and offset.
        at: Offset,
        /// Its key position.
        key: usize,
        /// How many bytes its payload has, 1 to 224. A node from before lengths were kept has 0 in its
        /// header, which means 224.
        length: usize,
    },
    /// D, a cut-off.
    CutOff {
        /// From 1.
        sequence: u32,
        /// File and first offset removed.
        from: Offset,
    },
    /// K, keys.
    Keys {
        /// From 1.
        epoch: u32,
        /// The key block, 0 or 1.
        block: usize,
        /// The page in it, 0 to 15.
        page: usize,
    },
    /// C, commit.
    #[non_exhaustive]
    Commit {
        /// From 1.
        epoch: u32,
        /// 0 to 9.
        part: usize,
        /// The covered sequence, from 0.
        covered: u32,
    },
}

impl Header {
    /// The header that a page has, if it is one: fields spelt right, in their range, and 0 where the kind
    /// does not use them.
    pub fn of(page: &Page) -> Option<Header> {
        let header = &page[..HEADER];
        let field = |from: usize, to: usize| number(&header[from..to]);
        let (first, unit, part) = (field(1, 9)?, field(9, 12)?, field(12, 16)?);
        let (key, second) = (field(16, 20)?, field(20, 28)?);
        if header[28..] != *b": " || !(1..=LAST).contains(&first) {
            return None;
        }
        let (block, key_position) = (unit as usize, key as usize);
        let place = || Offset::new(unit, part).ok();
        match (header[0], unit, part, key, second) {
            (b'N', _, _, _, 0..=LONGEST) if key_position < KEYS => {
                let length = if second == 0 { PAYLOAD } else { second as usize };
                Some(Header::Node { sequence: first, at: place()?, key: key_position, length })
            }
            (b'D', _, _, 0, 0) => Some(Header::CutOff { sequence: first, from: place()? }),
            (b'K', 0 | 1, 0..=15, 0, 0) => {
                Some(Header::Keys { epoch: first, block, page: part as usize })
            }
            (b'C', 0, 0..=9, 0, covered) => {
                Some(Header::Commit { epoch: first, part: part as usize, covered })
            }
            _ => None,
        }
    }
}

/// The number in the columns of a field: decimal, after spaces, without leading zeros.
fn number(columns: &[u8]) -> Option<u32> {
    let text = core::str::from_utf8(columns).ok()?.trim_start_matches(' ');
    let leading = text.len() > 1 && text.starts_with('0');
    match !leading && text.bytes().all(|byte| byte.is_ascii_digit()) {
        true => text.parse().ok(),
        false => None,
    }
}

#[cfg(test)]
mod tests {
    use super::*;
    use alloc::format;

    fn page(header: &str, closing: &[u8; 2]) -> Page {
        let mut page = [b' '; PAGE];
        page[..HEADER].copy_from_slice(header.as_bytes());
        page[PAGE - 2..].copy_from_slice(closing);
        page
    }

    /// The node of the cases, of a length.
    fn node(length: usize) -> Header {
        Header::Node { sequence: 7, at: Offset::new(2, 5).unwrap(), key: 31, length }
    }

    #[test]
    fn the_second_number_of_a_node_is_its_length() {
        for second in 0..=300 {
            let spelt = page(&format!("N       7  2   5  31{second:8}: "), b"\r\n");
            let expected = match second {
                0 => Form::Whole(node(224)),
                1..=224 => Form::Whole(node(second)),
                _ => Form::Spoilt,
            };
            assert_eq!(Form::of(&spelt), expected, "{second}");
        }
        let torn = page("N       7  2   5  31      14: ", b"\xff\xff");
        assert_eq!(Form::of(&torn), Form::Torn(node(14)));
    }

    #[test]
    fn the_cases_of_document_01() {
        let node = node(PAYLOAD);
        let right = "N       7  2   5  31       0: ";
        assert_eq!(Form::of(&page(right, b"\r\n")), Form::Whole(node));
        assert_eq!(Form::of(&page(right, b"\r\xff")), Form::Torn(node));
        assert_eq!(Form::of(&page("N       7  2   50031       0: ", b"\r\n")), Form::Spoilt);
        assert_eq!(Form::of(&[0xff; PAGE]), Form::Empty);
    }

    #[test]
    fn fields_out_of_range_or_unused_and_not_0() {
        for wrong in [
            "N       0  2   5  31       0: ",
            "N       7 14   0  31       0: ",
            "N       7 13   8  31       0: ",
            "N       7  2   5 448       0: ",
            "N       7  2   5  31     225: ",
            "N       7  2   5  31      01: ",
            "N       7  2   5  31       +: ",
            "N       7  2   5  31        : ",
            "N       7  2   5  31  1     : ",
            "N       7  2   5  3199999999: ",
            "N       7  2   5  31       0:x",
            "N       7  2   5+ 31       0: ",
            "N       7  2   5    +1     0: ",
            "D       7  2   5   1       0: ",
            "D       7  2   5   0       1: ",
            "D       7  2   5   0     224: ",
            "K       7  2   5   0       0: ",
            "K       7  1  16   0       0: ",
            "K       7  1   5   0       1: ",
            "C       7  1   5   0       0: ",
            "C       7  0  10   0       0: ",
            "X       7  0   0   0       0: ",
            "N          2   5  31       0: ",
        ] {
            assert_eq!(Form::of(&page(&wrong[..HEADER], b"\r\n")), Form::Spoilt, "{wrong}");
        }
    }
}
