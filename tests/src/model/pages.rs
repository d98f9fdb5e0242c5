//! Document 01, "Page forms": headers and the forms of a page, and the letters and entries in the
//! payloads of commit pages. Document 02, #101: how long a node's payload is.

use super::{files, keys};
use std::ops::Range;

/// Bytes in a page.
pub const PAGE: usize = 256;
/// Bytes in a header, at the start of a page.
pub const HEADER: usize = 30;
/// Bytes in a payload, after the header.
pub const PAYLOAD: usize = 224;
/// What a write stores after a payload that does not fill its page.
pub const SPACE: u8 = b' ';
/// The closing, the last bytes of a page.
pub const CLOSING: [u8; 2] = [0x0d, 0x0a];
/// An erased byte.
pub const ERASED: u8 = 0xff;
/// The highest sequence and the highest epoch.
pub const LAST: u32 = 99_999_999;

/// The bytes of a page.
pub type Page = [u8; PAGE];

/// An empty page.
pub const EMPTY: Page = [ERASED; PAGE];

/// The payload's bytes in a page.
pub const PAYLOAD_BYTES: Range<usize> = HEADER..HEADER + PAYLOAD;
const CLOSING_BYTES: Range<usize> = HEADER + PAYLOAD..PAGE;

/// The payload of a page.
pub fn payload(page: &Page) -> &[u8] {
    &page[PAYLOAD_BYTES]
}

// ---- Fields

/// The number in the columns of a field: decimal, right-justified with spaces, without leading zeros.
/// The field has at most eight columns.
pub fn parse_field(columns: &[u8]) -> Option<u32> {
    let spaces = columns.iter().take_while(|&&column| column == b' ').count();
    match &columns[spaces..] {
        [] => None,
        [b'0', _, ..] => None,
        digits => digits.iter().try_fold(0, |number, digit| match digit {
            b'0'..=b'9' => Some(10 * number + u32::from(digit - b'0')),
            _ => None,
        }),
    }
}

/// Writes a number into the columns of a field, which are enough for it.
pub fn spell_field(columns: &mut [u8], number: u32) {
    let mut rest = Some(number);
    for column in columns.iter_mut().rev() {
        *column = match rest {
            Some(number) => b'0' + (number % 10) as u8,
            None => b' ',
        };
        rest = rest.map(|number| number / 10).filter(|&number| number > 0);
    }
    debug_assert_eq!(rest, None, "{number} is too long for its field");
}

/// The fields of a header, of any kind and in any range.
#[derive(Clone, Copy, Default)]
struct Fields {
    kind: u8,
    number: u32,
    unit: u32,
    part: u32,
    key: u32,
    second: u32,
}

const KIND: usize = 0;
const NUMBER: Range<usize> = 1..9;
const UNIT: Range<usize> = 9..12;
const PART: Range<usize> = 12..16;
const KEY: Range<usize> = 16..20;
const SECOND: Range<usize> = 20..28;
const COLON: Range<usize> = 28..HEADER;
const COLON_AND_SPACE: &[u8] = b": ";

impl Fields {
    fn parse(header: &[u8; HEADER]) -> Option<Fields> {
        if header[COLON] != *COLON_AND_SPACE {
            return None;
        }
        Some(Fields {
            kind: header[KIND],
            number: parse_field(&header[NUMBER])?,
            unit: parse_field(&header[UNIT])?,
            part: parse_field(&header[PART])?,
            key: parse_field(&header[KEY])?,
            second: parse_field(&header[SECOND])?,
        })
    }

    fn spell(&self) -> [u8; HEADER] {
        let mut header = [0; HEADER];
        header[KIND] = self.kind;
        spell_field(&mut header[NUMBER], self.number);
        spell_field(&mut header[UNIT], self.unit);
        spell_field(&mut header[PART], self.part);
        spell_field(&mut header[KEY], self.key);
        spell_field(&mut header[SECOND], self.second);
        header[COLON].copy_from_slice(COLON_AND_SPACE);
        header
    }
}

// ---- Headers

/// A header, with the fields that its kind uses.
#[derive(Clone, Copy, Debug, PartialEq, Eq)]
pub enum Header {
    /// N, a node.
    Node {
        /// From 1.
        sequence: u32,
        /// 0 to 13.
        file: usize,
        /// Below the file's count.
        offset: usize,
        /// The key position, 0 to 447.
        key: usize,
        /// The payload's length, 1 to 224; 0 in a page of an older recorder.
        second: u32,
    },
    /// D, a cut-off.
    CutOff {
        /// From 1.
        sequence: u32,
        /// 0 to 13.
        file: usize,
        /// The first offset removed, below the file's count.
        offset: usize,
    },
    /// K, keys.
    Keys {
        /// From 1.
        epoch: u32,
        /// The key block, 0 or 1.
        block: usize,
        /// The page in the block, 0 to 15.
        page: usize,
    },
    /// C, commit.
    Commit {
        /// From 1.
        epoch: u32,
        /// 0 to 9.
        part: usize,
        /// The covered sequence, from 0.
        covered: u32,
    },
}

/// Pages of keys in a key block.
pub const KEY_PAGES: usize = keys::POSITIONS_IN_BLOCK / keys::SLOTS;
/// Parts of a commit that hold letters, the first ones.
pub const LETTER_PARTS: usize = keys::POSITIONS / PAYLOAD;
/// Entries in a part of a commit.
pub const ENTRIES: usize = PAYLOAD / ENTRY;
/// Parts of a commit.
pub const PARTS: usize = LETTER_PARTS + files::PLACES / ENTRIES;

impl Header {
    /// The header with which these bytes begin, or none: a field is misspelt, out of range, or unused
    /// and not 0.
    pub fn parse(bytes: &[u8]) -> Option<Header> {
        let header: &[u8; HEADER] = bytes.first_chunk()?;
        if !matches!(header[KIND], b'N' | b'D' | b'K' | b'C') {
            return None;
        }
        let fields = Fields::parse(header)?;
        let Fields { kind, number, second, .. } = fields;
        let [unit, part, key] = [fields.unit, fields.part, fields.key].map(|field| field as usize);
        if !(1..=LAST).contains(&number) {
            return None;
        }
        let has_place = || files::place(unit, part).is_some();
        match (kind, unit, part, key, second) {
            (b'N', file, offset, key, second)
                if has_place() && key < keys::POSITIONS && is_node_second(second) =>
            {
                Some(Header::Node { sequence: number, file, offset, key, second })
            }
            (b'D', file, offset, 0, 0) if has_place() => {
                Some(Header::CutOff { sequence: number, file, offset })
            }
            (b'K', block, page, 0, 0) if block < keys::BLOCKS && page < KEY_PAGES => {
                Some(Header::Keys { epoch: number, block, page })
            }
            (b'C', 0, part, 0, covered) if part < PARTS => {
                Some(Header::Commit { epoch: number, part, covered })
            }
            _ => None,
        }
    }

    /// The bytes of the header.
    pub fn spell(&self) -> [u8; HEADER] {
        let fields = match *self {
            Header::Node { sequence, file, offset, key, second } => Fields {
                kind: b'N',
                number: sequence,
                unit: file as u32,
                part: offset as u32,
                key: key as u32,
                second,
            },
            Header::CutOff { sequence, file, offset } => Fields {
                kind: b'D',
                number: sequence,
                unit: file as u32,
                part: offset as u32,
                ..Fields::default()
            },
            Header::Keys { epoch, block, page } => Fields {
                kind: b'K',
                number: epoch,
                unit: block as u32,
                part: page as u32,
                ..Fields::default()
            },
            Header::Commit { epoch, part, covered } => Fields {
                kind: b'C',
                number: epoch,
                part: part as u32,
                second: covered,
                ..Fields::default()
            },
        };
        fields.spell()
    }

    /// The whole page with this header and a payload of 224 bytes.
    pub fn page(&self, payload: &[u8]) -> Page {
        let mut page = EMPTY;
        page[..HEADER].copy_from_slice(&self.spell());
        page[PAYLOAD_BYTES].copy_from_slice(payload);
        page[CLOSING_BYTES].copy_from_slice(&CLOSING);
        page
    }
}

// ---- Lengths

/// Whether a node's header can have this second number.
pub fn is_node_second(second: u32) -> bool {
    second <= PAYLOAD as u32
}

/// The length of a node's payload by its second number: 0 is an older recorder's, for 224.
pub fn length_of(second: u32) -> usize {
    match second {
        0 => PAYLOAD,
        length => length as usize,
    }
}

// ---- Forms

/// The form of a page.
#[derive(Clone, Copy, Debug, PartialEq, Eq)]
pub enum Form {
    /// All bytes are FFh.
    Empty,
    /// Header and closing are both right.
    Whole(Header),
    /// Only the header is right.
    Torn(Header),
    /// Anything else.
    Spoilt,
}

impl Form {
    /// The form of a page.
    pub fn of(page: &Page) -> Form {
        match Header::parse(page) {
            Some(header) if page[CLOSING_BYTES] == CLOSING => Form::Whole(header),
            Some(header) => Form::Torn(header),
            None if *page == EMPTY => Form::Empty,
            None => Form::Spoilt,
        }
    }

    /// The header of a whole or torn page.
    pub fn header(&self) -> Option<Header> {
        match *self {
            Form::Whole(header) | Form::Torn(header) => Some(header),
            Form::Empty | Form::Spoilt => None,
        }
    }

    /// Whether this is a whole or torn N or D page.
    pub fn is_data(&self) -> bool {
        matches!(self.header(), Some(Header::Node { .. } | Header::CutOff { .. }))
    }
}

// ---- Letters and entries

/// The letter of a free key.
pub const FREE: u8 = b'f';
/// The letter of a used key.
pub const USED: u8 = b'u';
/// The letter of a deleted key.
pub const DELETED: u8 = b'd';

/// Whether a byte is one of the three letters.
pub fn is_letter(byte: u8) -> bool {
    matches!(byte, FREE | USED | DELETED)
}

/// Bytes in an entry of a commit.
pub const ENTRY: usize = 8;
/// An entry's page is below this number, whatever the size of the image.
pub const ENTRY_PAGES: u32 = 4_096;

const ENTRY_PAGE: Range<usize> = 0..4;
const ENTRY_KEY: Range<usize> = 4..ENTRY;
const NO_ENTRY: &[u8; ENTRY] = b"   -   -";

/// Page and key position of a live node.
#[derive(Clone, Copy, Debug, PartialEq, Eq)]
pub struct Entry {
    /// The page, 0 to 4,095.
    pub page: u16,
    /// The key position, 0 to 447.
    pub key: u16,
}

/// The bytes are no entry.
#[derive(Debug, PartialEq, Eq)]
pub struct Misspelt;

/// What 8 bytes of a commit's payload say of a place: an entry or none.
pub fn parse_entry(bytes: &[u8; ENTRY]) -> Result<Option<Entry>, Misspelt> {
    if bytes == NO_ENTRY {
        return Ok(None);
    }
    let page = parse_field(&bytes[ENTRY_PAGE]).ok_or(Misspelt)?;
    let key = parse_field(&bytes[ENTRY_KEY]).ok_or(Misspelt)?;
    if page < ENTRY_PAGES && key < keys::POSITIONS as u32 {
        Ok(Some(Entry { page: page as u16, key: key as u16 }))
    } else {
        Err(Misspelt)
    }
}

/// The 8 bytes of a place's entry or none.
pub fn spell_entry(entry: Option<Entry>) -> [u8; ENTRY] {
    let mut bytes = *NO_ENTRY;
    if let Some(entry) = entry {
        spell_field(&mut bytes[ENTRY_PAGE], u32::from(entry.page));
        spell_field(&mut bytes[ENTRY_KEY], u32::from(entry.key));
    }
    bytes
}
