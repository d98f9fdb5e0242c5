//! Document 02, #102, as demand 3 has it: what a gather is to reply and to program. It is said from the map,
//! the next sequence and the room on the flash, each page being tried by the words of the document.

use super::calls::{Refusal, DONE};
use super::files::PLACES;
use super::image::{pages, play, Power, Step, PAGES_IN_BLOCK};
use super::pages::{Form, LAST};
use super::record::NONE;
use super::store::Store;

/// The forms of all pages of an image.
pub fn forms(image: &[u8]) -> Vec<Form> {
    pages(image).iter().map(Form::of).collect()
}

fn all_empty(forms: &[Form]) -> bool {
    forms.iter().all(|form| *form == Form::Empty)
}

/// Whether a page is open: it stands in a data block, and from it on the block is empty.
pub fn is_open(forms: &[Form], page: usize) -> bool {
    let start = page / PAGES_IN_BLOCK * PAGES_IN_BLOCK;
    let block = &forms[start..start + PAGES_IN_BLOCK];
    all_empty(&block[page - start..]) && block.iter().any(Form::is_data)
}

/// The empty blocks, lowest first.
pub fn empty_blocks(forms: &[Form]) -> Vec<usize> {
    let blocks = forms.chunks(PAGES_IN_BLOCK).enumerate();
    blocks.filter(|(_, forms)| all_empty(forms)).map(|(block, _)| block).collect()
}

/// The open pages outside a block, lowest first.
fn open_pages(forms: &[Form], block: usize) -> impl Iterator<Item = usize> + '_ {
    (0..forms.len()).filter(move |&page| page / PAGES_IN_BLOCK != block && is_open(forms, page))
}

/// The live pages of a block by a map, lowest first. A vacant place has none, whatever block the number
/// for it would be in.
pub fn live_pages(map: &[u16], block: usize) -> Vec<usize> {
    let named = map[..PLACES].iter().filter(|&&page| page != NONE);
    let mut pages: Vec<usize> = named.map(|&page| usize::from(page)).collect();
    pages.retain(|page| page / PAGES_IN_BLOCK == block);
    pages.sort_unstable();
    pages
}

/// What a gather that is not cut replies. There is room where so many pages are open outside the block, or
/// two blocks are empty: one of them takes the live pages of any block.
pub fn reply(store: &Store, block: usize) -> u32 {
    let count = live_pages(&store.record.map, block).len();
    let forms = forms(&store.image);
    if count == 0 {
        Refusal::NothingToGather.number()
    } else if u64::from(store.record.numbers.sequence) + count as u64 > u64::from(LAST) + 1 {
        Refusal::NoNumber.number()
    } else if open_pages(&forms, block).count() < count && empty_blocks(&forms).len() < 2 {
        Refusal::NoRoom.number()
    } else {
        DONE
    }
}

/// The page that a write would find outside a block.
fn page_outside(image: &[u8], block: usize) -> Option<usize> {
    let forms = forms(image);
    let open = open_pages(&forms, block).next();
    open.or_else(|| match empty_blocks(&forms)[..] {
        [lowest, _, ..] => Some(PAGES_IN_BLOCK * lowest),
        _ => None,
    })
}

/// The columns of a header that spell the sequence.
const SEQUENCE: std::ops::Range<usize> = 1..9;

/// What a gather programs where it is not refused: each live page of the block, lowest first, with the next
/// sequence in place of its own and every other byte as it stands.
pub fn steps(store: &Store, block: usize) -> Vec<Step> {
    let mut image = store.image.clone();
    let mut steps = Vec::new();
    let live = live_pages(&store.record.map, block);
    for (sequence, from) in (store.record.numbers.sequence..).zip(live) {
        let mut bytes = Box::new(pages(&store.image)[from]);
        bytes[SEQUENCE].copy_from_slice(format!("{sequence:8}").as_bytes());
        let page = page_outside(&image, block).expect("the call was not refused");
        let step = Step::Program { page, bytes };
        play(&mut image, std::slice::from_ref(&step), Power::STAYS);
        steps.push(step);
    }
    steps
}
