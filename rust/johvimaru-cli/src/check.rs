//! What is on an image, in words.

use crate::erasures::{is_data, Erasures};
use crate::image_file::{self, blocks_in_words, counted, numbers_in_words};
use crate::json::Json;
use crate::listing;
use crate::Problem;
use johvimaru::{File, Record, Store, BLOCK, PAGES_IN_BLOCK};
use std::io::Write;
use std::path::Path;

/// Mounts a copy of an image file, and says what is there. What is left of deleted nodes or of cut calls is a
/// problem.
pub fn run(path: &Path, json: bool, out: &mut dyn Write) -> Result<(), Problem> {
    let image = image_file::look(path)?;
    let store = match image_file::mount(path, &image) {
        Err(Problem::RefusedFile(file, refusal)) if json => {
            writeln!(out, "{}", listing::refused(refusal))?;
            return Err(Problem::RefusedFile(file, refusal));
        }
        store => store?,
    };
    let erasures = Erasures::between(&image, store.image());
    let spoilt = image_file::spoilt(store.image());
    if json {
        writeln!(out, "{}", as_json(path, &store, &erasures, &spoilt))?;
    } else {
        let blocks = image.len() / BLOCK;
        writeln!(out, "{}: {blocks} blocks, {} bytes", image_file::name(path), image.len())?;
        out.write_all(contents(store.record()).as_bytes())?;
        out.write_all(room(&store).as_bytes())?;
        out.write_all(would_erase(&erasures).as_bytes())?;
        if !spoilt.is_empty() {
            let pages = numbers_in_words("page", &spoilt);
            writeln!(out, "spoilt, by a cut erase or by damage: {pages}")?;
        }
    }
    leftovers(store.record().counts().deleted, &erasures.strays, &spoilt)
}

/// Tells of deleted keys, of blocks that are no part of the store, and of pages that no call reads. Empty blocks, and
/// data blocks that a mount erases, are there in a recorder's normal life.
fn leftovers(deleted: usize, strays: &[usize], spoilt: &[usize]) -> Result<(), Problem> {
    let keys = (deleted > 0).then(|| counted(deleted, "deleted key"));
    let blocks = (!strays.is_empty()).then(|| format!("{} of a cut call", blocks_in_words(strays)));
    let pages = (!spoilt.is_empty()).then(|| counted(spoilt.len(), "spoilt page"));
    let left: Vec<String> = keys.into_iter().chain(blocks).chain(pages).collect();
    match left.is_empty() {
        true => Ok(()),
        false => Err(Problem::Leftovers(format!("left over: {}", left.join(", ")))),
    }
}

fn as_json(path: &Path, store: &Store<Vec<u8>>, erasures: &Erasures, spoilt: &[usize]) -> Json {
    let record = store.record();
    Json::Object(vec![
        ("image", path.display().to_string().into()),
        ("blocks", (store.image().len() / BLOCK).into()),
        ("nodes", Json::List(record.nodes().map(listing::node).collect())),
        ("keys", listing::keys(record.counts())),
        ("next_sequence", record.next_sequence().into()),
        ("next_epoch", record.next_epoch().into()),
        ("key_blocks", Json::numbers(record.key_blocks())),
        ("commit_block", record.commit_block().into()),
        ("pages_left", store.pages_left().into()),
        ("live_pages", Json::numbers(store.live_pages())),
        ("thinnest_block", store.thinnest().map_or(Json::Null, Json::from)),
        ("blocks_without_live_page", Json::numbers(without_live_page(store))),
        ("would_erase", erasures.as_json()),
        ("spoilt_pages", Json::numbers(spoilt.iter().copied())),
    ])
}

/// What a record says.
fn contents(record: &Record) -> String {
    let mut text = format!("live nodes: {}\n", record.nodes().count());
    for file in File::all() {
        let offsets: Vec<String> = record
            .nodes()
            .filter(|node| node.at.file() == file)
            .map(|node| node.at.number().to_string())
            .collect();
        if !offsets.is_empty() {
            let (used, count) = (offsets.len(), file.count());
            let name = if used == 1 { "offset" } else { "offsets" };
            text += &format!("  {file}: {used} of {count}, {name} {}\n", offsets.join(" "));
        }
    }
    let counts = record.counts();
    let (used, free, deleted) = (counts.used, counts.free, counts.deleted);
    text += &format!("keys: {used} used, {free} free, {deleted} deleted\n");
    if deleted > 0 {
        text += "  a commit or a wipe replaces the deleted ones\n";
    }
    let (sequence, epoch) = (record.next_sequence(), record.next_epoch());
    text += &format!("next sequence {sequence}, next epoch {epoch}\n");
    let ([keys_0, keys_1], commit) = (record.key_blocks(), record.commit_block());
    text + &format!(
        "key blocks 0 and 1 are in blocks {keys_0} and {keys_1}, the commit in {commit}\n"
    )
}

/// The blocks that a mount erases, in words.
fn would_erase(erasures: &Erasures) -> String {
    let blocks = erasures.in_words();
    format!("a mount would erase {}\n", blocks.as_deref().unwrap_or("nothing"))
}

/// The room on an image, in words, and what brings more.
fn room(store: &Store<Vec<u8>>) -> String {
    let left = store.pages_left();
    let mut text = format!("pages that writes, cut-offs and gathers can still take: {left}\n");
    let (counts, data) = (store.live_pages(), data_blocks(store.image()).len());
    if let Some(thinnest) = store.thinnest() {
        let live = counted(counts[thinnest], "live page");
        text += &format!("data blocks: {data}, the thinnest is block {thinnest}, {live}\n");
        text += advice(left, counts[thinnest]);
    }
    match &without_live_page(store)[..] {
        [] => text,
        dead => text + &format!("a commit erases {}, no live page there\n", blocks_in_words(dead)),
    }
}

/// What to do where so many pages are left and the thinnest data block has so many live ones.
fn advice(left: usize, live: usize) -> &'static str {
    match (left, live) {
        (0, _) => {
            "  no page is left for a gather: commit; where that brings no room, wipe a saved file\n"
        }
        (..=PAGES_IN_BLOCK, PAGES_IN_BLOCK) => {
            "  all of them are full of live pages: wipe a file that is saved elsewhere\n"
        }
        (..=PAGES_IN_BLOCK, _) => {
            "  make room in time: `johvimaru gather --thinnest`, then `johvimaru commit`\n"
        }
        _ => "",
    }
}

/// The data blocks that have no live page.
fn without_live_page(store: &Store<Vec<u8>>) -> Vec<usize> {
    let counts = store.live_pages();
    data_blocks(store.image()).into_iter().filter(|block| counts[*block] == 0).collect()
}

/// The data blocks of an image.
fn data_blocks(image: &[u8]) -> Vec<usize> {
    let blocks = image.chunks(BLOCK).enumerate();
    blocks.filter(|(_, bytes)| is_data(bytes)).map(|(block, _)| block).collect()
}

#[cfg(test)]
mod tests {
    use super::*;
    use johvimaru::{Noise, Offset, Refusal};

    #[test]
    fn room_in_words() -> Result<(), Refusal> {
        let mut store = Store::format(vec![0; 8 * BLOCK], Noise::new(&[1; 7_168])?)?;
        let pages = "pages that writes, cut-offs and gathers can still take:";
        assert_eq!(room(&store), format!("{pages} 64\n"));
        for write in 0..33 {
            store.write(Offset::new(0, if write == 0 { 1 } else { 0 })?, b"x")?;
        }
        let expected = format!(
            "{pages} 31\ndata blocks: 3, the thinnest is block 3, 1 live page\n\
             a commit erases block 4, no live page there\n"
        );
        assert_eq!(room(&store), expected);
        for _ in 0..15 {
            store.write(Offset::new(0, 0)?, b"x")?;
        }
        let expected = format!(
            "{pages} 16\ndata blocks: 3, the thinnest is block 3, 1 live page\n  make room in time: \
             `johvimaru gather --thinnest`, then `johvimaru commit`\na commit erases block 4, no \
             live page there\n"
        );
        assert_eq!(room(&store), expected);
        let begins = [(0, 1), (0, 16), (1, 16), (16, 16), (1, 15), (16, 1), (17, 1)]
            .map(|(left, live)| advice(left, live).split_whitespace().next());
        let [no, all, make] = ["no", "all", "make"].map(Some);
        assert_eq!(begins, [no, no, all, all, make, make, None]);
        Ok(())
    }

    #[test]
    fn a_record_in_words() -> Result<(), Refusal> {
        let mut store = Store::format(vec![0; 8 * BLOCK], Noise::new(&[1; 7_168])?)?;
        for (file, offset) in [(0, 0), (2, 5), (0, 0), (0, 7)] {
            store.write(Offset::new(file, offset)?, &[b'x'; 224])?;
        }
        let expected = "live nodes: 3
  file 0: 2 of 32, offsets 0 7
  file 2: 1 of 24, offset 5
keys: 3 used, 444 free, 1 deleted
  a commit or a wipe replaces the deleted ones
next sequence 5, next epoch 2
key blocks 0 and 1 are in blocks 0 and 1, the commit in 2
";
        assert_eq!(contents(store.record()), expected);
        Ok(())
    }
}
