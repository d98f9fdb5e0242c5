//! What a reader of two images sees between an older and a newer one.

use crate::image_file::{self, counted};
use crate::seen::Seen;
use johvimaru::{
    Form, Header, KeyCounts, Letter, Node, Offset, Record, Refusal, Store, BLOCK, KEY, KEYS, PAGE,
};
use std::collections::HashSet;

/// What is between two images. Where a mount is refused, what only that can tell is none.
#[derive(Debug)]
pub struct Changes {
    /// The older image, and the newer one.
    pub sides: [Side; 2],
    /// How many of the bytes that both have are others.
    pub bytes: usize,
    /// Their live nodes.
    pub nodes: Option<Nodes>,
    /// The key positions whose 16 bytes are others in the newer image.
    pub replaced: Option<Vec<usize>>,
    /// The keys of the older image that stand at any byte of the newer one.
    pub left: Option<Vec<LeftKey>>,
    /// Their blocks.
    pub blocks: Blocks,
}

/// One of the two images.
#[derive(Debug)]
pub struct Side {
    /// How many blocks it has.
    pub blocks: usize,
    /// How many whole pages of nodes it has, live or dead.
    pub node_pages: usize,
    /// What its record tells, or why its mount is refused.
    pub told: Result<Told, Refusal>,
}

/// What a record tells of an image, in numbers.
#[derive(Clone, Copy, Debug, PartialEq, Eq)]
pub struct Told {
    /// How many nodes are live.
    pub nodes: usize,
    /// How many keys have each letter.
    pub counts: KeyCounts,
    /// The sequence that the next write takes.
    pub next_sequence: u32,
    /// The epoch that the next commit takes.
    pub next_epoch: u32,
    /// Where key blocks 0 and 1 are.
    pub key_blocks: [usize; 2],
    /// Where the commit is.
    pub commit_block: usize,
}

/// The live nodes of two images, by place.
#[derive(Debug, Default, PartialEq, Eq)]
pub struct Nodes {
    /// Live in the newer image only.
    pub new: Vec<Node>,
    /// Live in the older image only.
    pub gone: Vec<Node>,
    /// Live in both, and not the same.
    pub changed: Vec<ChangedNode>,
}

/// A node with another payload, page or key.
#[derive(Debug, PartialEq, Eq)]
pub struct ChangedNode {
    /// In the older image.
    pub old: Node,
    /// In the newer image.
    pub new: Node,
    /// Whether both read the same.
    pub same_payload: bool,
}

/// A key of the older image of which a copy is on the newer one.
#[derive(Debug, PartialEq, Eq)]
pub struct LeftKey {
    /// Its position in the older image.
    pub position: usize,
    /// The letter of that position in the older image.
    pub letter: Letter,
    /// Whether it is the key of a live node of the newer image, where that can be told.
    pub live: Option<bool>,
}

/// The blocks that are not the same in both images.
#[derive(Debug, Default, PartialEq, Eq)]
pub struct Blocks {
    /// Not empty in the older image, and empty in the newer one.
    pub erased: Vec<usize>,
    /// Empty in the older image, or not there, and not empty in the newer one.
    pub begun: Vec<usize>,
    /// With more pages than before, and all that were there.
    pub written_on: Vec<usize>,
    /// With other pages than before.
    pub other: Vec<usize>,
}

impl Changes {
    /// Compares two images.
    pub fn between(old: &Seen, new: &Seen) -> Changes {
        let both = old.mounted.as_ref().ok().zip(new.mounted.as_ref().ok());
        Changes {
            sides: [old, new].map(Side::of),
            bytes: old.image.iter().zip(&new.image).filter(|(was, is)| was != is).count(),
            nodes: both.map(|(old, new)| Nodes::between(old, new)),
            replaced: both.map(|(old, new)| replaced(old, new)),
            left: old.record().ok().map(|record| left(&old.image, record, new)),
            blocks: Blocks::between(&old.image, &new.image),
        }
    }

    /// How many keys are replaced, in words.
    pub fn replaced_in_words(&self) -> Option<String> {
        Some(match self.replaced.as_ref()?.len() {
            0 => "no key replaced".into(),
            KEYS => format!("all {KEYS} keys replaced"),
            some => format!("{some} of {KEYS} keys replaced"),
        })
    }

    /// How many of the keys that were used or deleted are on the newer image, in words.
    pub fn left_in_words(&self) -> Option<String> {
        let counts = self.sides[0].told.as_ref().ok()?.counts;
        let spent = counts.used + counts.deleted;
        let left = match self.spent_left()?.count() {
            0 => "none is left".into(),
            1 => "1 is left".into(),
            left => format!("{left} are left"),
        };
        Some(format!("of {spent} used or deleted keys, {left}"))
    }

    /// Whether those are of live nodes, in words.
    fn left_whose(&self) -> Option<String> {
        let left = self.spent_left()?.count();
        let live =
            self.spent_left()?.map(|key| key.live.map(usize::from)).sum::<Option<usize>>()?;
        match (left, live) {
            (0, _) => None,
            (_, 0) => Some(", of no live node".into()),
            (1, _) => Some(", of a live node".into()),
            _ if live == left => Some(", of live nodes".into()),
            _ => Some(format!(", {live} of live nodes")),
        }
    }

    /// The keys that were used or deleted and are left.
    fn spent_left(&self) -> Option<impl Iterator<Item = &LeftKey>> {
        Some(self.left.as_ref()?.iter().filter(|key| key.letter != Letter::Free))
    }

    /// What the picture shows of it, in words.
    pub fn in_words(&self) -> String {
        let erased = match &self.blocks.erased[..] {
            [] => "no block erased".into(),
            blocks => format!("{} erased", listed("block", blocks)),
        };
        let gone = self.nodes.as_ref().map(|nodes| counted(nodes.gone.len(), "node") + " gone");
        let left = self.left_in_words().map(|left| left + &self.left_whose().unwrap_or_default());
        let keys = self.replaced_in_words().into_iter().chain(left);
        let all: Vec<String> = keys.chain([erased]).chain(gone).collect();
        format!("since then: {}", all.join("; "))
    }
}

impl Side {
    fn of(seen: &Seen) -> Side {
        let is_node = |form: &Form| matches!(form, Form::Whole(Header::Node { .. }));
        Side {
            blocks: seen.image.len() / BLOCK,
            node_pages: Form::all(&seen.image).filter(is_node).count(),
            told: seen.record().map(Told::of),
        }
    }
}

impl Told {
    fn of(record: &Record) -> Told {
        Told {
            nodes: record.nodes().count(),
            counts: record.counts(),
            next_sequence: record.next_sequence(),
            next_epoch: record.next_epoch(),
            key_blocks: record.key_blocks(),
            commit_block: record.commit_block(),
        }
    }
}

impl Nodes {
    fn between(old: &Store<Vec<u8>>, new: &Store<Vec<u8>>) -> Nodes {
        let mut nodes = Nodes::default();
        for at in Offset::all() {
            match (old.record().node(at), new.record().node(at)) {
                (None, None) => {}
                (Some(node), None) => nodes.gone.push(node),
                (None, Some(node)) => nodes.new.push(node),
                (Some(was), Some(is)) => {
                    let same_payload = old.read(at) == new.read(at);
                    let same_key = key(old.image(), old.record(), was.key)
                        == key(new.image(), new.record(), is.key);
                    if !(same_payload && same_key && was == is) {
                        nodes.changed.push(ChangedNode { old: was, new: is, same_payload });
                    }
                }
            }
        }
        nodes
    }
}

/// The bytes of a key.
fn key<'a>(image: &'a [u8], record: &Record, position: usize) -> &'a [u8] {
    &image[record.key_bytes(position)]
}

fn replaced(old: &Store<Vec<u8>>, new: &Store<Vec<u8>>) -> Vec<usize> {
    let is_other = |position: &usize| {
        let is = key(new.image(), new.record(), *position);
        key(old.image(), old.record(), *position) != is
    };
    (0..KEYS).filter(is_other).collect()
}

/// The keys of an image that stand at any byte of a newer one.
fn left(image: &[u8], record: &Record, new: &Seen) -> Vec<LeftKey> {
    let keys: HashSet<&[u8]> = (0..KEYS).map(|p| key(image, record, p)).collect();
    let found: HashSet<&[u8]> = new.image.windows(KEY).filter(|w| keys.contains(w)).collect();
    let live: Option<HashSet<&[u8]>> = new
        .record()
        .ok()
        .map(|record| record.nodes().map(|node| key(&new.image, record, node.key)).collect());
    (0..KEYS)
        .map(|position| (position, key(image, record, position)))
        .filter(|(_, bytes)| found.contains(bytes))
        .map(|(position, bytes)| LeftKey {
            position,
            letter: record.letter(position),
            live: live.as_ref().map(|live| live.contains(bytes)),
        })
        .collect()
}

impl Blocks {
    fn between(old: &[u8], new: &[u8]) -> Blocks {
        let mut padded = old.to_vec();
        padded.resize(old.len().max(new.len()), 0xff);
        let mut blocks = Blocks {
            erased: image_file::erased(old, new),
            begun: image_file::erased(new, &padded),
            ..Blocks::default()
        };
        for (block, (was, is)) in old.chunks(BLOCK).zip(new.chunks(BLOCK)).enumerate() {
            if was == is || blocks.erased.contains(&block) || blocks.begun.contains(&block) {
                continue;
            }
            let mut pages = was.as_chunks::<PAGE>().0.iter().zip(is.as_chunks::<PAGE>().0);
            match pages.all(|(was, is)| was == is || Form::of(was) == Form::Empty) {
                true => blocks.written_on.push(block),
                false => blocks.other.push(block),
            }
        }
        blocks
    }
}

/// Numbers with the name of what they count: `block 3`, `blocks 3 5-9`.
pub fn listed(name: &str, numbers: &[usize]) -> String {
    let mut text = format!("{name}{}", if numbers.len() == 1 { "" } else { "s" });
    let mut rest = numbers;
    while let Some(first) = rest.first() {
        let run = rest.iter().zip(*first..).take_while(|(number, next)| **number == *next).count();
        let taken = if run > 2 { run } else { 1 };
        text += &format!(" {first}");
        if taken > 1 {
            text += &format!("-{}", rest[taken - 1]);
        }
        rest = &rest[taken..];
    }
    text
}

#[cfg(test)]
mod tests {
    use super::*;
    use johvimaru::{Noise, NOISE};

    type Image = Store<Vec<u8>>;

    /// Noise of its own for each number.
    fn noise(mut number: u64) -> Noise {
        let mut next = || {
            number = number.wrapping_mul(6_364_136_223_846_793_005).wrapping_add(1);
            (number >> 33) as u8
        };
        let bytes: Vec<u8> = (0..NOISE).map(|_| next()).collect();
        Noise::new(&bytes).unwrap()
    }

    fn at(file: u32, offset: u32) -> Offset {
        Offset::new(file, offset).unwrap()
    }

    fn write(store: &mut Image, file: u32, offset: u32, text: &str) {
        store.write(at(file, offset), text.as_bytes()).unwrap();
    }

    /// An image with three live nodes under keys 1 to 3, and key 0 deleted.
    fn store(blocks: usize) -> Image {
        let mut store = Store::format(vec![0; blocks * BLOCK], noise(1)).unwrap();
        for (file, offset, text) in [(0, 0, "a"), (0, 0, "b"), (2, 5, "c"), (13, 7, "d")] {
            write(&mut store, file, offset, text);
        }
        store
    }

    fn seen(store: &Image) -> Seen {
        Seen::of(store.image().to_vec())
    }

    /// What is between an image and what a call makes of it.
    fn after(call: impl FnOnce(&mut Image)) -> Changes {
        let mut store = store(8);
        let old = seen(&store);
        call(&mut store);
        Changes::between(&old, &seen(&store))
    }

    fn nodes(changes: &Changes) -> [Vec<Offset>; 3] {
        let nodes = changes.nodes.as_ref().unwrap();
        let at = |nodes: &[Node]| nodes.iter().map(|node| node.at).collect();
        let changed = nodes.changed.iter().map(|node| node.new.at).collect();
        [at(&nodes.new), at(&nodes.gone), changed]
    }

    /// The positions of the old keys that are left: of live nodes, and of none.
    fn left_keys(changes: &Changes) -> [Vec<usize>; 2] {
        let left = changes.left.as_ref().unwrap();
        [true, false].map(|live| {
            left.iter().filter(|key| key.live == Some(live)).map(|key| key.position).collect()
        })
    }

    #[test]
    fn nothing_is_between_an_image_and_itself() {
        let changes = after(|_| {});
        assert_eq!(nodes(&changes), [const { Vec::new() }; 3]);
        assert_eq!(
            (changes.replaced.as_ref().unwrap().len(), &changes.blocks),
            (0, &Blocks::default())
        );
        assert_eq!(changes.sides[0].told, changes.sides[1].told);
        assert_eq!(changes.sides[0].node_pages, 4);
        let [live, others] = left_keys(&changes);
        assert_eq!((live, others.len()), (vec![1, 2, 3], 445));
    }

    #[test]
    fn nodes_that_are_new_gone_or_changed() {
        let new = after(|store| write(store, 5, 1, "e"));
        assert_eq!(nodes(&new), [vec![at(5, 1)], vec![], vec![]]);
        assert_eq!(new.blocks, Blocks { written_on: vec![3], ..Blocks::default() });
        let gone = after(|store| store.cut_off(at(2, 0)).unwrap());
        assert_eq!(nodes(&gone), [vec![], vec![at(2, 5)], vec![]]);
        assert_eq!(left_keys(&gone)[0], [1, 3]);
        for (text, same) in [("z", false), ("c", true)] {
            let changed = after(|store| write(store, 2, 5, text));
            assert_eq!(nodes(&changed), [vec![], vec![], vec![at(2, 5)]]);
            let node = &changed.nodes.as_ref().unwrap().changed[0];
            assert_eq!((node.old.page, node.new.page, node.same_payload), (50, 52, same));
            assert_eq!((node.old.key, node.new.key), (2, 4));
            assert!(changed.replaced.as_ref().unwrap().is_empty());
        }
    }

    /// A commit replaces all keys but those of live nodes, and leaves no other.
    #[test]
    fn keys_after_a_commit_and_a_wipe() {
        let commit = after(|store| store.commit(noise(2)).unwrap());
        assert_eq!(nodes(&commit), [const { Vec::new() }; 3]);
        assert_eq!(left_keys(&commit), [vec![1, 2, 3], vec![]]);
        let kept: Vec<usize> =
            (0..KEYS).filter(|p| !commit.replaced.as_ref().unwrap().contains(p)).collect();
        assert_eq!(kept, [1, 2, 3]);
        let other = vec![0, 1];
        let (erased, begun) = (vec![2], vec![4]);
        assert_eq!(commit.blocks, Blocks { erased, begun, other, ..Blocks::default() });
        assert_eq!(commit.replaced_in_words().unwrap(), "445 of 448 keys replaced");
        assert_eq!(commit.left_in_words().unwrap(), "of 4 used or deleted keys, 3 are left");
        assert_eq!(commit.left_whose().unwrap(), ", of live nodes");

        let wipe = after(|store| {
            store.wipe(at(0, 0), noise(2)).unwrap();
            store.wipe(at(2, 0), noise(3)).unwrap();
        });
        assert_eq!(nodes(&wipe), [vec![], vec![at(0, 0), at(2, 5)], vec![]]);
        assert_eq!(left_keys(&wipe), [vec![3], vec![]]);
        assert_eq!(wipe.left_in_words().unwrap(), "of 4 used or deleted keys, 1 is left");
        assert_eq!(wipe.left_whose().unwrap(), ", of a live node");
    }

    /// A format with other keys leaves none. A node at the same place with the same page and key position is
    /// changed, since its key is another.
    #[test]
    fn an_image_that_was_formatted() {
        let old = seen(&store(8));
        let mut new = Store::format(vec![0; 8 * BLOCK], noise(9)).unwrap();
        for _ in 0..2 {
            write(&mut new, 0, 0, "b");
        }
        let changes = Changes::between(&old, &seen(&new));
        assert_eq!(nodes(&changes), [vec![], vec![at(2, 5), at(13, 7)], vec![at(0, 0)]]);
        let node = &changes.nodes.as_ref().unwrap().changed[0];
        assert!(node.same_payload && node.old == node.new);
        assert_eq!(left_keys(&changes), [vec![], vec![]]);
        let words = "since then: all 448 keys replaced; of 4 used or deleted keys, none is left; \
                     no block erased; 2 nodes gone";
        assert_eq!(changes.in_words(), words);
    }

    /// A copy of a deleted key that a cut commit left is found, wherever it is.
    #[test]
    fn keys_that_stand_anywhere() {
        let mut store = store(8);
        let old = seen(&store);
        store.commit(noise(2)).unwrap();
        let mut image = store.into_image();
        let stray = image.len() - 100;
        image[stray..stray + KEY].copy_from_slice(key(&old.image, old.record().unwrap(), 0));
        let changes = Changes::between(&old, &Seen::of(image));
        assert_eq!(left_keys(&changes), [vec![1, 2, 3], vec![0]]);
        assert_eq!(changes.left_in_words().unwrap(), "of 4 used or deleted keys, 4 are left");
        assert_eq!(changes.left_whose().unwrap(), ", 3 of live nodes");
    }

    #[test]
    fn images_of_other_sizes() {
        let (small, large) = (seen(&store(8)), seen(&store(9)));
        for (old, new) in [(&small, &large), (&large, &small)] {
            let changes = Changes::between(old, new);
            assert_eq!(nodes(&changes), [const { Vec::new() }; 3]);
            assert_eq!(changes.blocks, Blocks::default());
        }
        let mut image = large.image.clone();
        image[8 * BLOCK] = 0;
        let more = Changes::between(&small, &Seen::of(image.clone()));
        assert_eq!(more.blocks, Blocks { begun: vec![8], ..Blocks::default() });
        let fewer = Changes::between(&Seen::of(image), &small);
        assert_eq!(fewer.blocks, Blocks::default());
        assert_eq!(fewer.sides.map(|side| side.blocks), [9, 8]);
    }

    /// What a mount alone can tell is not told where it is refused; the rest is.
    #[test]
    fn images_that_mount_refuses() {
        let good = seen(&store(8));
        let mut image = good.image.clone();
        image[2 * BLOCK..3 * BLOCK].fill(0xff);
        let bad = Seen::of(image);
        for (old, new) in [(&good, &bad), (&bad, &good), (&bad, &bad)] {
            let changes = Changes::between(old, new);
            assert!(changes.nodes.is_none() && changes.replaced.is_none());
            assert_eq!(changes.left.is_some(), old.record().is_ok());
            assert_eq!(changes.sides[1].told.err(), new.record().err());
        }
        let changes = Changes::between(&good, &bad);
        assert_eq!(changes.blocks, Blocks { erased: vec![2], ..Blocks::default() });
        assert!(changes.left.unwrap().iter().all(|key| key.live.is_none()));
    }

    #[test]
    fn numbers_with_their_name() {
        for (numbers, text) in [
            (&[3][..], "block 3"),
            (&[3, 4], "blocks 3 4"),
            (&[0, 2, 3, 4, 9, 11, 12], "blocks 0 2-4 9 11 12"),
            (&[5, 6, 7, 8], "blocks 5-8"),
        ] {
            assert_eq!(listed("block", numbers), text);
        }
    }
}
