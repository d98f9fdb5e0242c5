//! Document 01, "Page forms": key blocks, commit blocks and data blocks.

use super::files::PLACES;
use super::image::{is_empty, PAGES_IN_BLOCK};
use super::keys::{KEY, POSITIONS, POSITIONS_IN_BLOCK};
use super::pages::{
    is_letter, parse_entry, payload, spell_entry, Entry, Form, Header, Page, ENTRIES, LETTER_PARTS,
    PARTS, PAYLOAD,
};

/// What a block is.
#[derive(Clone, Debug, PartialEq, Eq)]
pub enum Kind {
    /// All its bytes are FFh.
    Empty,
    /// A whole key block.
    Keys {
        /// The key block, 0 or 1.
        number: usize,
        /// Its epoch.
        epoch: u32,
    },
    /// A whole commit block.
    Commit(Commit),
    /// An event stands in it. No such block is chosen: a whole key or commit block has
    /// no such page.
    Data,
    /// Anything else.
    Other,
}

/// The forms of a block's pages.
pub fn forms(pages: &[Page]) -> [Form; PAGES_IN_BLOCK] {
    std::array::from_fn(|page| Form::of(&pages[page]))
}

/// What the block of these pages, which have these forms, is.
pub fn kind(pages: &[Page], forms: &[Form]) -> Kind {
    if forms.iter().all(|form| *form == Form::Empty) {
        Kind::Empty
    } else if forms.iter().any(Form::is_data) {
        Kind::Data
    } else if let Some((number, epoch)) = whole_keys(forms) {
        Kind::Keys { number, epoch }
    } else if let Some(commit) = Commit::parse(pages, forms) {
        Kind::Commit(commit)
    } else {
        Kind::Other
    }
}

/// Whether an event stands in a block.
pub fn is_data(pages: &[Page]) -> bool {
    pages.iter().any(|page| Form::of(page).is_data())
}

/// Number and epoch of a key block, where each of its pages is whole and in its place.
pub fn whole_keys(forms: &[Form]) -> Option<(usize, u32)> {
    let &Form::Whole(Header::Keys { block, epoch, .. }) = forms.first()? else {
        return None;
    };
    let in_order = forms
        .iter()
        .enumerate()
        .all(|(page, form)| *form == Form::Whole(Header::Keys { epoch, block, page }));
    in_order.then_some((block, epoch))
}

/// The pages of a key block with these keys, one after the other.
pub fn key_pages(number: usize, epoch: u32, keys: &[u8]) -> Vec<Page> {
    debug_assert_eq!(keys.len(), KEY * POSITIONS_IN_BLOCK);
    keys.chunks_exact(PAYLOAD)
        .enumerate()
        .map(|(page, keys)| Header::Keys { epoch, block: number, page }.page(keys))
        .collect()
}

/// What a commit block holds.
#[derive(Clone, Debug, PartialEq, Eq)]
pub struct Commit {
    /// Its epoch.
    pub epoch: u32,
    /// The covered sequence.
    pub covered: u32,
    /// One letter for each key position.
    pub letters: Vec<u8>,
    /// For each place its entry or none.
    pub entries: Vec<Option<Entry>>,
}

impl Commit {
    /// What the block of these pages, which have these forms, holds, where it is a whole commit block:
    /// its parts stand in order, of one epoch and covered sequence and with valid payloads, and
    /// pages 10 to 15 are empty.
    pub fn parse(pages: &[Page], forms: &[Form]) -> Option<Commit> {
        let &Form::Whole(Header::Commit { epoch, covered, .. }) = forms.first()? else {
            return None;
        };
        let (parts, others) = forms.split_at_checked(PARTS)?;
        let in_order = parts
            .iter()
            .enumerate()
            .all(|(part, form)| *form == Form::Whole(Header::Commit { epoch, part, covered }));
        if !in_order || others.iter().any(|form| *form != Form::Empty) {
            return None;
        }
        let (letter_pages, entry_pages) = pages[..PARTS].split_at(LETTER_PARTS);
        let mut letters = Vec::with_capacity(POSITIONS);
        for page in letter_pages {
            letters.extend_from_slice(payload(page));
        }
        let mut entries = Vec::with_capacity(PLACES);
        for page in entry_pages {
            for bytes in payload(page).as_chunks().0 {
                entries.push(parse_entry(bytes).ok()?);
            }
        }
        if !letters.iter().all(|&letter| is_letter(letter)) {
            return None;
        }
        Some(Commit { epoch, covered, letters, entries })
    }

    /// The pages of the commit block before its empty ones.
    pub fn pages(&self) -> Vec<Page> {
        debug_assert_eq!((self.letters.len(), self.entries.len()), (POSITIONS, PLACES));
        let letters = self.letters.chunks_exact(PAYLOAD).map(<[u8]>::to_vec);
        let entries = self
            .entries
            .chunks_exact(ENTRIES)
            .map(|entries| entries.iter().flat_map(|&entry| spell_entry(entry)).collect());
        let (epoch, covered) = (self.epoch, self.covered);
        letters
            .chain(entries)
            .enumerate()
            .map(|(part, payload)| Header::Commit { epoch, part, covered }.page(&payload))
            .collect()
    }
}

/// The page that a write or cut-off takes: the lowest open page of a data block, or a fresh block's
/// first page while another block stays empty. A gather leaves out the block that it gathers.
pub fn page_to_take<'a>(
    blocks: impl Iterator<Item = &'a [Page]>,
    left_out: Option<usize>,
) -> Option<usize> {
    let mut empty_blocks = Vec::new();
    for (number, pages) in blocks.enumerate() {
        let used =
            PAGES_IN_BLOCK - pages.iter().rev().take_while(|page| is_empty(&[**page])).count();
        if used == 0 {
            empty_blocks.push(number);
        } else if used < PAGES_IN_BLOCK && Some(number) != left_out && is_data(pages) {
            return Some(PAGES_IN_BLOCK * number + used);
        }
    }
    match empty_blocks[..] {
        [lowest, _, ..] => Some(PAGES_IN_BLOCK * lowest),
        _ => None,
    }
}
