//! How much room an image has: pages that can be taken, and live pages by block.

use crate::{Form, Header, Record, BLOCK, PAGES_IN_BLOCK};
use alloc::vec;
use alloc::vec::Vec;

/// How many pages writes, cut-offs and gathers can take on a mounted image before there is no room: the empty
/// ones at the end of each data block, and all of the empty blocks but one.
pub fn pages_left(image: &[u8]) -> usize {
    let (mut in_data, mut empty) = (0, 0);
    for block in image.chunks(BLOCK) {
        let open = Form::all(block).rev().take_while(|form| *form == Form::Empty).count();
        if open == PAGES_IN_BLOCK {
            empty += 1;
        } else if open > 0 && is_data(block) {
            in_data += open;
        }
    }
    in_data + PAGES_IN_BLOCK * usize::saturating_sub(empty, 1)
}

/// Whether a block is a data block: a page of it, whole or torn, has the header of a node or a cut-off.
fn is_data(block: &[u8]) -> bool {
    Form::all(block)
        .any(|form| matches!(form.header(), Some(Header::Node { .. } | Header::CutOff { .. })))
}

/// How many live pages each of so many blocks has.
pub fn live_pages(record: &Record, blocks: usize) -> Vec<usize> {
    let mut counts = vec![0; blocks];
    for node in record.nodes() {
        counts[node.page / PAGES_IN_BLOCK] += 1;
    }
    counts
}

/// The blocks with a live page, the one with the fewest first, the lower first on a tie. Where the record fits
/// they are data blocks.
pub fn thin_blocks(record: &Record) -> Vec<usize> {
    let highest = record.nodes().map(|node| node.page / PAGES_IN_BLOCK).max();
    let counts = live_pages(record, highest.map_or(0, |block| block + 1));
    let mut blocks: Vec<usize> = (0..counts.len()).filter(|block| counts[*block] > 0).collect();
    blocks.sort_by_key(|block| counts[*block]);
    blocks
}

#[cfg(test)]
mod tests {
    use super::*;
    use crate::{Noise, Offset, Refusal, Store, NOISE};

    type Image = Store<Vec<u8>>;

    fn formatted(blocks: usize) -> Result<Image, Refusal> {
        Ok(Store::format(vec![0; blocks * BLOCK], Noise::new(&[1; NOISE])?)?)
    }

    /// The pages left are as many as writes are then taken.
    #[test]
    fn pages_left_are_those_that_writes_take() -> Result<(), Refusal> {
        let mut store = formatted(8)?;
        assert_eq!(store.pages_left(), 64);
        let at = Offset::new(0, 0)?;
        for left in (0..64).rev() {
            store.write(at, b"track")?;
            assert_eq!(store.pages_left(), left);
        }
        assert_eq!(store.write(at, b"track"), Err(Refusal::NoRoom));
        Ok(())
    }

    /// While 16 pages are left, a gather of any block that has a live page is done.
    #[test]
    fn sixteen_pages_are_enough_for_a_gather() -> Result<(), Refusal> {
        let mut store = formatted(12)?;
        let mut number = 1_u64;
        for _ in 0..400 {
            number = number.wrapping_mul(6_364_136_223_846_793_005).wrapping_add(1);
            let at =
                Offset::at_place((number >> 33) as usize % 60).ok_or(Refusal::OffsetOutside)?;
            if store.write(at, b"track").is_err() {
                store.commit(Noise::new(&[2; NOISE])?)?;
            }
            let enough = store.pages_left() >= PAGES_IN_BLOCK;
            for block in store.record().thin_blocks() {
                let gathered = store.clone().gather(block);
                assert!(gathered.is_ok() || !enough, "block {block}: {gathered:?}");
            }
        }
        Ok(())
    }

    #[test]
    fn thin_blocks_by_their_live_pages() -> Result<(), Refusal> {
        let mut store = formatted(8)?;
        assert_eq!((store.thinnest(), store.record().thin_blocks()), (None, vec![]));
        // Blocks 3 and 4 full, with 3 and 1 live pages, and 1 in block 5.
        for place in (0..4).chain([4; 12]).chain([1; 16]).chain([2]) {
            store.write(Offset::at_place(place).ok_or(Refusal::OffsetOutside)?, b"track")?;
        }
        assert_eq!(store.live_pages(), [0, 0, 0, 3, 1, 1, 0, 0]);
        assert_eq!(store.record().thin_blocks(), [4, 5, 3]);
        assert_eq!(store.thinnest(), Some(4));
        Ok(())
    }
}
