//! What a mount erases, and why.

use crate::image_file::{self, blocks_in_words, is_empty};
use crate::json::Json;
use johvimaru::{Form, Header, BLOCK};

/// The blocks that a mount erases, or would erase.
#[derive(Debug, Default, PartialEq, Eq)]
pub struct Erasures {
    /// How many are empty. Each is erased at every mount, since an erase of it may have been cut.
    pub empty: usize,
    /// Those that are no part of the store: what a cut call has left, or damage.
    pub strays: Vec<usize>,
    /// Data blocks without a live page, on which the last commit covers everything.
    pub covered: Vec<usize>,
}

impl Erasures {
    /// What a mount has erased that found the first image and left the second.
    pub fn between(before: &[u8], after: &[u8]) -> Erasures {
        let empty = before.chunks(BLOCK).filter(|block| is_empty(block)).count();
        let erased = image_file::erased(before, after);
        let (covered, strays) =
            erased.into_iter().partition(|block| is_data(&before[BLOCK * block..][..BLOCK]));
        Erasures { empty, strays, covered }
    }

    /// How many blocks they are, and of which kind: `12 blocks: 10 empty, 1 no part of the store (3), 1 data block
    /// without a live page (7)`.
    pub fn in_words(&self) -> Option<String> {
        let count = self.empty + self.strays.len() + self.covered.len();
        let blocks = if count == 1 { "block" } else { "blocks" };
        match (count, count - self.empty) {
            (0, _) => return None,
            (_, 0) => return Some(format!("{count} empty {blocks}")),
            _ => {}
        }
        let data = if self.covered.len() == 1 { "data block" } else { "data blocks" };
        let kinds = [
            (self.empty, "empty".to_string()),
            (self.strays.len(), format!("no part of the store ({})", spelt(&self.strays))),
            (self.covered.len(), format!("{data} without a live page ({})", spelt(&self.covered))),
        ];
        let kinds = kinds.iter().filter(|(count, _)| *count > 0);
        let kinds: Vec<String> = kinds.map(|(count, kind)| format!("{count} {kind}")).collect();
        Some(format!("{count} {blocks}: {}", kinds.join(", ")))
    }

    /// A line for each kind of block that was not empty.
    pub fn lines(&self) -> Vec<String> {
        [(&self.strays, "no part of the store"), (&self.covered, "no live page there")]
            .iter()
            .filter(|(blocks, _)| !blocks.is_empty())
            .map(|(blocks, why)| format!("mount: erased {}, {why}", blocks_in_words(blocks)))
            .collect()
    }

    /// Them as JSON.
    pub fn as_json(&self) -> Json {
        Json::Object(vec![
            ("empty", self.empty.into()),
            ("no_part_of_the_store", Json::numbers(self.strays.iter().copied())),
            ("data_without_live_page", Json::numbers(self.covered.iter().copied())),
        ])
    }
}

/// Whether a block has a page, whole or torn, with the header of a node or a cut-off.
pub fn is_data(block: &[u8]) -> bool {
    let is_data =
        |form: Form| matches!(form.header(), Some(Header::Node { .. } | Header::CutOff { .. }));
    Form::all(block).any(is_data)
}

fn spelt(numbers: &[usize]) -> String {
    numbers.iter().map(usize::to_string).collect::<Vec<String>>().join(" ")
}

#[cfg(test)]
mod tests {
    use super::*;

    fn words(empty: usize, strays: &[usize], covered: &[usize]) -> Option<String> {
        let (strays, covered) = (strays.to_vec(), covered.to_vec());
        Erasures { empty, strays, covered }.in_words()
    }

    #[test]
    fn erasures_in_words() {
        for (said, expected) in [
            (words(0, &[], &[]), None),
            (words(1, &[], &[]), Some("1 empty block")),
            (words(250, &[], &[]), Some("250 empty blocks")),
            (words(0, &[3], &[]), Some("1 block: 1 no part of the store (3)")),
            (words(4, &[3, 5], &[]), Some("6 blocks: 4 empty, 2 no part of the store (3 5)")),
            (
                words(10, &[3], &[7]),
                Some(
                    "12 blocks: 10 empty, 1 no part of the store (3), 1 data block without a live \
                     page (7)",
                ),
            ),
            (words(0, &[], &[7, 8]), Some("2 blocks: 2 data blocks without a live page (7 8)")),
        ] {
            assert_eq!(said.as_deref(), expected);
        }
    }

    #[test]
    fn lines_name_no_empty_block() {
        let erasures = Erasures { empty: 3, ..Erasures::default() };
        assert!(erasures.lines().is_empty());
        let erasures = Erasures { empty: 3, strays: vec![4], covered: vec![1, 2] };
        let expected = [
            "mount: erased block 4, no part of the store",
            "mount: erased blocks 1 2, no live page there",
        ];
        assert_eq!(erasures.lines(), expected);
    }

    /// A block of nodes, one of something else, and an empty one.
    #[test]
    fn kinds_of_blocks() {
        let mut before = vec![0xff; 4 * BLOCK];
        before[..30].copy_from_slice(b"N       1  0   0   0      14: ");
        before[BLOCK] = 0;
        before[2 * BLOCK + 5] = 1;
        let mut after = vec![0xff; 4 * BLOCK];
        after[2 * BLOCK + 5] = 1;
        let expected = Erasures { empty: 1, strays: vec![1], covered: vec![0] };
        assert_eq!(Erasures::between(&before, &after), expected);
    }
}
