//! What has changed between two image files.

mod common;

use common::{Folder, Numbers};
use johvimaru::{Noise, Offset, Record, Store, BLOCK, KEY, KEYS, NOISE};
use std::collections::HashSet;

/// An image before a handover, and after it.
fn handover(folder: &Folder) {
    folder.done("format --blocks 8 --image old.img");
    for line in ["write 0 0 one", "write 2 5 two", "write 0 0 three", "write 13 7 four"] {
        folder.done(&format!("--image old.img {line}"));
    }
    folder.put("new.img", &folder.bytes("old.img"));
    for line in ["wipe 0 0", "wipe 2 0", "commit", "write 0 1 five"] {
        folder.done(&format!("--image new.img {line}"));
    }
}

/// What is said, without the number of bytes, which must be this one: it goes by what the keys are.
fn without_count(said: &str, bytes: usize) -> String {
    let line = format!("bytes: {bytes} differ\n");
    assert!(bytes > 0 && said.contains(&line), "{bytes}: {said}");
    said.replace(&line, "bytes: (some) differ\n")
}

#[test]
fn what_diff_says() {
    let folder = Folder::new("diff-says");
    handover(&folder);
    let files = ["old.img", "new.img"].map(|name| folder.bytes(name));
    let said = "before: old.img, 8 blocks, 3 live nodes
now: new.img, 8 blocks, 2 live nodes
bytes: (some) differ
nodes:
  new: file 0 offset 1
  gone: file 0 offset 0
  gone: file 2 offset 5
keys:
  447 of 448 keys replaced
  3 used, 444 free, 1 deleted before; 2 used, 446 free, 0 deleted now
  of 4 used or deleted keys, 1 is left
    of live nodes: key 3
blocks:
  erased: block 0
  newly in use: block 4
  more pages written: block 3
  other contents: blocks 1 2
numbers:
  next sequence: 5 before, 6 now
  next epoch: 2 before, 7 now
  block of key block 0: 0 before, 4 now
";
    let [old, new] = &files;
    let bytes = old.iter().zip(new).filter(|(was, is)| was != is).count();
    assert_eq!(without_count(&folder.done("diff old.img new.img"), bytes), said);
    for name in ["old.img", "new.img"] {
        let said = folder.done(&format!("diff {name} {name}"));
        let ends = "bytes: no difference, the two are the same\nnodes: no difference\nkeys: no difference\nblocks: no difference\n\
                    numbers: no difference\n";
        assert!(said.ends_with(ends), "{said}");
    }
    assert!(files == ["old.img", "new.img"].map(|name| folder.bytes(name)), "diff only looks");
    assert_eq!(folder.names(), ["new.img", "old.img"]);
}

#[test]
fn nodes_with_another_payload_and_with_the_same() {
    let folder = Folder::new("diff-nodes");
    handover(&folder);
    folder.put("old.img", &folder.bytes("new.img"));
    for line in ["write 0 1 six", "write 13 7 four", "cut-off 13 8", "write 1 0 a", "write 1 1 b"] {
        folder.run(&format!("--image new.img {line}"));
    }
    folder.done("--image new.img write 1 2 c");
    let said = folder.done("diff old.img new.img");
    let nodes = "nodes:
  new: file 1 offsets 0-2
  another payload: file 0 offset 1
  the same payload on another page or under another key: file 13 offset 7
keys:
  no key replaced
  2 used, 446 free, 0 deleted before; 5 used, 441 free, 2 deleted now
  of 2 used or deleted keys, 2 are left
    of no live node: keys 0 3
  of those that were free, 446 are left
blocks:
  more pages written: block 3
numbers:
  next sequence: 6 before, 11 now
";
    assert!(said.ends_with(nodes), "{said}");
}

/// The values of a name in a JSON text of one value a line, in order.
fn values<'a>(json: &'a str, name: &str) -> Vec<&'a str> {
    let name = format!("\"{name}\": ");
    let lines = json.lines().filter_map(|line| line.trim_start().strip_prefix(&name));
    lines.map(|value| value.trim_end_matches(',')).collect()
}

/// The numbers of a list in such a text.
fn list(json: &str, name: &str) -> Vec<usize> {
    let (_, rest) = json.split_once(&format!("\"{name}\": [")).expect(name);
    let inner = &rest[..rest.find(']').unwrap()];
    let numbers = inner.split(',').map(str::trim).filter(|number| !number.is_empty());
    numbers.map(|number| number.parse().unwrap()).collect()
}

#[test]
fn the_same_as_json() {
    let folder = Folder::new("diff-json");
    handover(&folder);
    let json = folder.done("diff --json old.img new.img");
    assert_eq!(values(&json, "image"), ["\"old.img\"", "\"new.img\""]);
    assert_eq!(values(&json, "live_nodes"), ["3", "2"]);
    assert_eq!(values(&json, "node_pages"), ["4", "5"]);
    assert_eq!(values(&json, "next_sequence"), ["5", "6"]);
    assert_eq!(values(&json, "next_epoch"), ["2", "7"]);
    assert_eq!(values(&json, "commit_block"), ["2", "2"]);
    assert_eq!(list(&json, "key_blocks"), [0, 1]);
    assert_eq!(values(&json, "deleted"), ["1", "0"]);
    assert_eq!(values(&json, "file"), ["0", "0", "2"]);
    assert_eq!(values(&json, "page"), ["52", "50", "49"]);
    assert_eq!(values(&json, "changed"), ["[]"]);
    assert_eq!(values(&json, "letter"), ["\"u\""]);
    assert_eq!(values(&json, "live"), ["true"]);
    let replaced: Vec<usize> = (0..KEYS).filter(|p| *p != 3).collect();
    assert_eq!(list(&json, "keys_replaced"), replaced);
    assert_eq!(list(&json, "blocks_erased"), [0]);
    assert_eq!(list(&json, "blocks_newly_in_use"), [4]);
    assert_eq!(list(&json, "blocks_written_on"), [3]);
    assert_eq!(list(&json, "blocks_with_other_contents"), [1, 2]);
    assert_eq!(json.matches(['{', '[']).count(), json.matches(['}', ']']).count());
}

/// What is told of bad.img.
const BAD: &str = "johvimaru: bad.img: refused 13: there is no whole commit block on the image; \
                   `johvimaru help mount` says what to do\n";

/// An image before a handover, and one after it that has no commit.
fn without_commit(folder: &Folder) {
    handover(folder);
    let mut image = folder.bytes("new.img");
    image[2 * BLOCK..3 * BLOCK].fill(0xff);
    folder.put("bad.img", &image);
}

/// An image that mount refuses is compared by its blocks, and the refusal is told.
#[test]
fn an_image_that_mount_refuses() {
    let folder = Folder::new("diff-refused");
    without_commit(&folder);
    let ran = folder.run("diff old.img bad.img");
    assert_eq!((ran.status, &ran.errors[..]), (1, BAD));
    let said = "before: old.img, 8 blocks, 3 live nodes
now: bad.img, 8 blocks; mount refuses it, 13: there is no whole commit block on the image
bytes: (some) differ
nodes:
  not told, since a mount is refused
  whole pages of nodes: 4 before, 5 now
keys:
  which are replaced is not told, since a mount is refused
  3 used, 444 free, 1 deleted before
  of 4 used or deleted keys, 1 is left
    of nodes that may be live: key 3
blocks:
  erased: blocks 0 2
  newly in use: block 4
  more pages written: block 3
  other contents: block 1
numbers:
  next sequence: 5 before
  next epoch: 2 before
  block of key block 0: 0 before
  block of key block 1: 1 before
  block of the commit: 2 before
";
    let [old, bad] = ["old.img", "bad.img"].map(|name| folder.bytes(name));
    let bytes = old.iter().zip(&bad).filter(|(was, is)| was != is).count();
    assert_eq!(without_count(&ran.printed, bytes), said);
}

#[test]
fn refusals_on_both_sides_and_as_json() {
    let folder = Folder::new("diff-refusals");
    without_commit(&folder);
    let ran = folder.run("diff bad.img bad.img");
    assert_eq!((ran.status, &ran.errors[..]), (1, BAD));
    let ends = "keys:\n  which are replaced is not told, since a mount is refused\n\
                blocks: no difference\nnumbers:\n  not told, since a mount is refused\n";
    assert!(ran.printed.ends_with(ends), "{}", ran.printed);
    for (line, left) in [("old.img bad.img", "["), ("bad.img old.img", "null")] {
        let ran = folder.run(&format!("diff --json {line}"));
        assert_eq!((ran.status, &ran.errors[..]), (1, BAD));
        assert_eq!(values(&ran.printed, "refused"), ["13"]);
        assert_eq!(values(&ran.printed, "nodes"), ["null"]);
        assert_eq!(values(&ran.printed, "keys_replaced"), ["null"]);
        assert_eq!(values(&ran.printed, "old_keys_left"), [left]);
    }
}

/// Files that are not there are not made, and files that are no images are refused.
#[test]
fn files_that_cannot_be_compared() {
    let folder = Folder::new("diff-files");
    folder.done("format --blocks 8 --image a.img");
    folder.done("format --blocks 9 --image b.img");
    for line in ["diff a.img c.img", "diff c.img a.img", "diff --json c.img c.img"] {
        let ran = folder.run(line);
        assert_eq!((ran.status, &ran.printed[..]), (3, ""), "{line}");
        assert!(ran.errors.starts_with("johvimaru: c.img is not there"), "{line}: {}", ran.errors);
    }
    assert_eq!(folder.names(), ["a.img", "b.img"]);
    folder.put("short.img", &[0; 5]);
    let ran = folder.run("diff a.img short.img");
    assert_eq!((ran.status, &ran.printed[..]), (1, ""));
    assert!(ran.errors.starts_with("johvimaru: short.img: refused 1: "), "{}", ran.errors);
    assert_eq!(folder.run("diff a.img .").status, 3);
    let sizes = folder.done("diff a.img b.img");
    assert!(sizes.starts_with("before: a.img, 8 blocks, 0 live nodes\nnow: b.img, 9 blocks,"));
    assert!(sizes.contains("\nblocks:\n  8 blocks before, 9 blocks now\n"), "{sizes}");
}

// ---- Random images

fn noise(numbers: &mut Numbers) -> Noise {
    let bytes: Vec<u8> = (0..NOISE).map(|_| numbers.below(256) as u8).collect();
    Noise::new(&bytes).unwrap()
}

/// Noise of letters and digits only, which would be seen in a text.
fn readable_noise(numbers: &mut Numbers) -> Noise {
    let bytes: Vec<u8> = (0..NOISE).map(|_| b'A' + numbers.below(26) as u8).collect();
    Noise::new(&bytes).unwrap()
}

fn key<'a>(image: &'a [u8], record: &Record, position: usize) -> &'a [u8] {
    &image[record.key_bytes(position)]
}

/// No part of a payload or a key is printed, whatever has changed.
#[test]
fn no_payload_and_no_key_is_printed() {
    let folder = Folder::new("diff-secret");
    let mut numbers = Numbers(3);
    let mut store = Store::format(vec![0; 8 * BLOCK], readable_noise(&mut numbers)).unwrap();
    let at = |offset| Offset::new(0, offset).unwrap();
    for offset in 0..4 {
        store.write(at(offset), b"SECRET draught").unwrap();
    }
    folder.put("old.img", store.image());
    let old: Vec<Vec<u8>> =
        (0..KEYS).map(|p| key(store.image(), store.record(), p).to_vec()).collect();
    store.write(at(1), b"SECRET of another").unwrap();
    store.wipe(at(2), readable_noise(&mut numbers)).unwrap();
    folder.put("new.img", store.image());
    let new = (0..KEYS).map(|p| key(store.image(), store.record(), p).to_vec());
    let keys: Vec<Vec<u8>> = old.into_iter().chain(new).collect();
    for line in [
        "diff old.img new.img",
        "diff --json old.img new.img",
        "map --before old.img --after new.img",
    ] {
        let printed = folder.done(line);
        assert!(printed.len() > 500 && !printed.contains("SECRET"), "{line}");
        let parts: HashSet<&[u8]> = printed.as_bytes().windows(4).collect();
        let seen = keys.iter().any(|key| key.chunks(4).any(|part| parts.contains(part)));
        assert!(!seen, "{line}");
    }
}

/// On random images of random calls, what `diff --json` says is what reading both images says. Where the last
/// call is a commit, no old key is left but those of live nodes.
#[test]
fn random_calls_between_two_images() {
    let folder = Folder::new("diff-random");
    let mut numbers = Numbers(17);
    let mut committed = 0;
    for case in 0..30 {
        let blocks = 8 + numbers.below(5) as usize;
        let mut store = Store::format(vec![0; BLOCK * blocks], noise(&mut numbers)).unwrap();
        random_calls(&mut store, &mut numbers);
        let old = store.clone();
        random_calls(&mut store, &mut numbers);
        let last = case % 2 == 0 && store.commit(noise(&mut numbers)).is_ok();
        folder.put("old.img", old.image());
        folder.put("new.img", store.image());
        let json = folder.done("diff --json old.img new.img");
        compare(&json, &old, &store, case);
        if last {
            assert!(values(&json, "live").iter().all(|live| *live == "true"), "case {case}");
            committed += 1;
        }
    }
    assert!(committed > 10, "{committed} cases with a commit at the end");
}

fn random_calls(store: &mut Store<Vec<u8>>, numbers: &mut Numbers) {
    for _ in 0..20 {
        let from = Offset::new(numbers.below(14) as u32, numbers.below(4) as u32).unwrap();
        let text = [b'x' + numbers.below(2) as u8; 224];
        // Some are refused.
        let _ = match numbers.below(14) {
            0 => store.cut_off(from),
            1 => store.commit(noise(numbers)),
            2 => store.wipe(from, noise(numbers)),
            3 => store.gather(3 + numbers.below(4) as usize),
            _ => store.write(from, &text),
        };
    }
}

/// Holds a JSON text to what the two stores say.
fn compare(json: &str, old: &Store<Vec<u8>>, new: &Store<Vec<u8>>, case: usize) {
    let replaced =
        |p: &usize| key(old.image(), old.record(), *p) != key(new.image(), new.record(), *p);
    let replaced: Vec<usize> = (0..KEYS).filter(replaced).collect();
    assert_eq!(list(json, "keys_replaced"), replaced, "case {case}");
    let same: Vec<bool> = Offset::all()
        .filter(|at| new.record().node(*at).is_some())
        .filter_map(|at| Some((old.record().node(at)?, new.record().node(at)?)))
        .filter(|(was, is)| was != is || replaced.contains(&is.key))
        .map(|(was, is)| old.read(was.at) == new.read(is.at))
        .collect();
    let told: Vec<bool> =
        values(json, "same_payload").iter().map(|same| same.parse().unwrap()).collect();
    assert_eq!(told, same, "case {case}");
    let image: HashSet<&[u8]> = new.image().windows(KEY).collect();
    let left = (0..KEYS).filter(|p| image.contains(key(old.image(), old.record(), *p)));
    let (_, told) = json.split_once("old_keys_left").unwrap();
    let told: Vec<usize> = values(told, "key").iter().map(|key| key.parse().unwrap()).collect();
    assert_eq!(told, left.collect::<Vec<_>>(), "case {case}");
}
