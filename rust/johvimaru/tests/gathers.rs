//! Gathers: files, lengths and letters stay, whole or cut at any step, and the next commit erases the block, or a
//! mount before it.

#[allow(dead_code)]
mod common;

use common::{at, noise};
use johvimaru::{Driver, Failure, Form, Header, MemoryChip, Offset, Refusal, Store};
use johvimaru::{BLOCK, PAGE, PAGES_IN_BLOCK, PAYLOAD, PLACES};

type Image = Store<Vec<u8>>;

fn formatted(blocks: usize) -> Image {
    Store::format(vec![0; blocks * BLOCK], noise(1)).unwrap()
}

/// The payload that the tests put at a place.
fn payload(place: usize) -> Vec<u8> {
    vec![place as u8 ^ 0x55; place % PAYLOAD + 1]
}

fn place(place: usize) -> Offset {
    Offset::at_place(place).unwrap()
}

/// A store with blocks 3 and 4 full, of 3 and 2 live pages, and a live page in block 5.
fn thin() -> Image {
    let mut store = formatted(10);
    for number in (0..4).chain([4; 12]).chain([5]).chain([3; 15]).chain([4]) {
        store.write(place(number), &payload(number)).unwrap();
    }
    assert_eq!(store.live_pages(), [0, 0, 0, 3, 2, 1, 0, 0, 0, 0]);
    store
}

/// Whether two stores hold the same: files with their lengths, and letters.
fn assert_same(old: &Image, new: &Image, what: &str) {
    for at in Offset::all() {
        assert_eq!(old.read(at), new.read(at), "{what}: {at}");
        let keys = [old, new].map(|store| store.record().node(at).map(|node| node.key));
        assert_eq!(keys[0], keys[1], "{what}: key of {at}");
    }
    assert!(old.record().letters().eq(new.record().letters()), "{what}: letters");
}

/// The page without its sequence.
fn but_sequence(store: &Image, page: usize) -> Vec<u8> {
    let mut bytes = store.image()[PAGE * page..][..PAGE].to_vec();
    bytes[1..9].fill(b'?');
    bytes
}

#[test]
fn each_live_page_is_copied_in_order() {
    let (before, mut store) = (thin(), thin());
    store.gather(3).unwrap();
    assert_same(&before, &store, "gathered");
    assert_eq!(store.live_pages(), [0, 0, 0, 0, 2, 4, 0, 0, 0, 0]);
    let first = before.record().next_sequence();
    for (copy, (old, new)) in [(48, 81), (49, 82), (50, 83)].into_iter().enumerate() {
        assert_eq!(store.record().node(place(copy)).unwrap().page, new);
        assert_eq!(but_sequence(&store, new), but_sequence(&before, old));
        let form = Form::all(store.image()).nth(new).unwrap();
        let Form::Whole(Header::Node { sequence, .. }) = form else { panic!("{form:?}") };
        assert_eq!(sequence, first + copy as u32);
    }
    assert_eq!(store.record().next_sequence(), first + 3);
    // All that was there before is there still, and only these pages are new.
    let pages = before.image().chunks(PAGE).zip(store.image().chunks(PAGE)).enumerate();
    let changed: Vec<usize> = pages.filter(|(_, (a, b))| a != b).map(|(page, _)| page).collect();
    assert_eq!(changed, [81, 82, 83]);
    assert_same(&before, &Store::mount(store.image().to_vec()).unwrap(), "mounted");
}

#[test]
fn the_next_commit_erases_the_block() {
    let (before, mut store) = (thin(), thin());
    let left = store.pages_left();
    store.gather(3).unwrap();
    assert!(store.image()[3 * BLOCK..4 * BLOCK] == before.image()[3 * BLOCK..4 * BLOCK]);
    assert_eq!(store.pages_left(), left - 3);
    let mut expected = before.clone();
    expected.commit(noise(2)).unwrap();
    store.commit(noise(2)).unwrap();
    assert!(store.image()[3 * BLOCK..4 * BLOCK].iter().all(|byte| *byte == 0xff));
    assert_eq!(store.pages_left(), left - 3 + PAGES_IN_BLOCK);
    assert_same(&expected, &store, "committed");
}

/// A gathered block goes with the next mount, if the last commit covers all that is on it, and else waits for a
/// commit. Every node reads as before.
#[test]
fn a_mount_erases_a_gathered_block_that_is_covered() {
    for commits in [false, true] {
        let mut store = thin();
        if commits {
            store.commit(noise(2)).unwrap();
        }
        let before = store.clone();
        let block = store.thinnest().unwrap();
        store.gather(block).unwrap();
        let mounted = Store::mount(store.image().to_vec()).unwrap();
        let is_empty = mounted.image()[BLOCK * block..][..BLOCK].iter().all(|&byte| byte == 0xff);
        assert_eq!(is_empty, commits);
        assert_eq!(mounted.record(), store.record());
        assert_same(&before, &mounted, "after a mount");
    }
}

/// One node on several pages under one key: each mount takes the newest.
#[test]
fn gathered_again_and_again() {
    let (before, mut store) = (thin(), thin());
    for _ in 0..3 {
        for block in store.record().thin_blocks() {
            if let Err(refusal) = store.gather(block) {
                assert_eq!(refusal, Refusal::NoRoom);
            }
            store = Store::mount(store.into_image()).unwrap();
            assert_same(&before, &store, "mounted");
        }
    }
    let is_first =
        |form: &Form| matches!(form, Form::Whole(Header::Node { at, .. }) if *at == place(0));
    assert!(Form::all(store.image()).filter(is_first).count() > 2);
    store.commit(noise(2)).unwrap();
    store.cut_off(at(0, 0)).unwrap();
    assert_eq!(store.record().nodes().count(), 0);
    assert_eq!(store.record().counts().deleted, 6);
    let store = Store::mount(store.into_image()).unwrap();
    assert_eq!((store.record().nodes().count(), store.record().counts().deleted), (0, 6));
}

/// A node from before lengths were kept stays one.
#[test]
fn an_older_node_keeps_its_form() {
    let mut image = thin().into_image();
    image[PAGE * 48 + 20..][..8].copy_from_slice(b"       0");
    let mut store = Store::mount(image).unwrap();
    let old = store.read(place(0)).unwrap();
    assert_eq!(old.len(), PAYLOAD);
    store.gather(3).unwrap();
    let page = store.record().node(place(0)).unwrap().page;
    assert_eq!(store.image()[PAGE * page + 20..][..8], *b"       0");
    assert_eq!(store.read(place(0)), Ok(old));
}

#[test]
fn a_driver_tells_the_chip_each_copy() {
    let store = thin();
    let mut driver = Driver::new(MemoryChip::new(store.image().to_vec()));
    assert_eq!((driver.gather(3), driver.pages_left()), (Err(Failure::NotMounted), None));
    driver.mount().unwrap();
    assert_eq!(driver.pages_left(), Some(store.pages_left()));
    assert_eq!(driver.gather(0), Err(Failure::Refused(Refusal::NothingToGather)));
    driver.gather(3).unwrap();
    let mut expected = store;
    expected.gather(3).unwrap();
    assert!(driver.chip().bytes() == expected.image() && driver.mirror() == expected.image());
    assert_eq!(driver.record(), Some(expected.record()));
}

/// The blocks that a gather may bring room from, the thinnest first.
fn thin_blocks(store: &Image) -> Vec<usize> {
    let record = store.record();
    let is_thin = |block: &usize| record.live_pages_of(*block) < PAGES_IN_BLOCK;
    record.thin_blocks().into_iter().filter(is_thin).collect()
}

/// Whether it is time to make room.
fn is_short(store: &Image) -> bool {
    store.pages_left() <= PAGES_IN_BLOCK || store.record().counts().free == 0
}

/// Gathers in time, from the thinnest block on, as long as there is room for the copies; then commits.
fn make_room(store: &mut Image) {
    for block in thin_blocks(store) {
        if let Err(refusal) = store.gather(block) {
            assert_eq!(refusal, Refusal::NoRoom);
        }
    }
    store.commit(noise(3)).unwrap();
}

/// With gathers in time no write is refused, whichever place it is for.
#[test]
fn no_write_is_refused_from_20_blocks_on() {
    for blocks in [20, 21, 24, 32] {
        let (mut store, mut held) = (formatted(blocks), [const { Vec::new() }; PLACES]);
        let mut number = blocks as u64;
        for write in 0..1_500 {
            number = number.wrapping_mul(6_364_136_223_846_793_005).wrapping_add(1);
            let here = (number >> 33) as usize % PLACES;
            held[here] = payload(here ^ write);
            if is_short(&store) {
                make_room(&mut store);
            }
            store.write(place(here), &held[here]).unwrap();
        }
        for (here, bytes) in held.iter().enumerate().filter(|(_, bytes)| !bytes.is_empty()) {
            assert_eq!(store.read(place(here)).unwrap(), bytes[..], "{blocks} blocks");
        }
    }
}

#[cfg(feature = "cut")]
mod cut {
    use super::common::cuts::{every_step, Memory, NODES};
    use super::*;
    use johvimaru::{Cut, Outcome, Payload};

    /// On a chip and by the form with n and k, at every step and these bytes of it: the files are as before.
    #[test]
    fn at_every_step() {
        let bytes = [0, 1, 8, 9, 29, 30, 31, 100, 254, 255, 256, 257, 5_000];
        let steps = every_step(
            &Memory,
            &bytes,
            |driver| driver.gather(4),
            |store, cut| store.gather_cut(4, cut).unwrap(),
            |_, store| {
                for (file, offset, payload) in NODES {
                    assert_eq!(store.read(at(file, offset)), Payload::new(payload));
                }
                assert_eq!(store.record().nodes().count(), NODES.len());
                let counts = store.record().counts();
                assert_eq!((counts.used, counts.deleted), (4, 17));
            },
        );
        assert_eq!(steps, 4);
    }

    /// At every byte, and then made again, which takes one page more than there are copies to make.
    #[test]
    fn at_every_byte_and_made_again() {
        let before = thin();
        for n in 0..3 {
            for k in 0..=PAGE {
                let cut = before.clone().gather_cut(3, Cut { n, k }).unwrap();
                assert!(cut.is_cut());
                let mut store = cut.mounted().unwrap();
                assert_same(&before, &store, &format!("{n} {k}"));
                let whole = n as usize + usize::from(k == PAGE);
                assert_eq!(store.live_pages()[3], 3 - whole);
                if whole < 3 {
                    store.gather(3).unwrap();
                }
                assert_same(&before, &store, &format!("{n} {k}, again"));
                store.commit(noise(2)).unwrap();
                assert!(store.image()[3 * BLOCK..4 * BLOCK].iter().all(|byte| *byte == 0xff));
            }
        }
        assert!(!before.clone().gather_cut(3, Cut { n: 3, k: 0 }).unwrap().is_cut());
        let refused = before.gather_cut(0, Cut { n: 0, k: 0 }).unwrap_err();
        assert_eq!(refused.refusal, Refusal::NothingToGather);
    }

    /// A call that the power cuts at one time of three, in one of so many steps; mounted again where it was.
    fn by_chance(
        store: Image,
        number: u64,
        steps: u64,
        call: impl Fn(Image, Cut) -> Result<Outcome<Vec<u8>>, Refusal>,
    ) -> Image {
        let n = if number.is_multiple_of(3) { (number >> 40) % steps } else { u64::MAX };
        let cut = Cut { n, k: (number >> 20) as usize % 300 };
        call(store, cut).unwrap().mounted().unwrap()
    }

    /// Gathers, commits and writes that the power cuts, on 24 blocks: no node is lost, and there is always a page.
    #[test]
    fn a_life_of_cuts() {
        let (mut store, mut held) = (formatted(24), [const { Vec::new() }; PLACES]);
        let mut number = 24_u64;
        let mut next = || {
            number = number.wrapping_mul(6_364_136_223_846_793_005).wrapping_add(1);
            number >> 3
        };
        for write in 0..1_200 {
            let mut tries = 0;
            while is_short(&store) {
                for block in thin_blocks(&store) {
                    if store.clone().gather(block).is_ok() {
                        let gather = |store: Image, cut| Ok(store.gather_cut(block, cut)?);
                        store = by_chance(store, next(), 12, gather);
                    }
                }
                let commit = |store: Image, cut| Ok(store.commit_cut(noise(3), cut)?);
                store = by_chance(store, next(), 50, commit);
                tries += 1;
                assert!(tries < 40, "write {write}: no room is made");
            }
            let here = next() as usize % PLACES;
            let bytes = payload(here ^ write);
            let before = held[here].clone();
            let put = |store: Image, cut| Ok(store.write_cut(place(here), &bytes, cut)?);
            store = by_chance(store, next(), 1, put);
            held[here] = store.read(place(here)).map_or(Vec::new(), |payload| payload.to_vec());
            assert!(held[here] == bytes || held[here] == before, "write {write}");
            if write % 50 == 0 {
                for (here, bytes) in held.iter().enumerate().filter(|(_, held)| !held.is_empty()) {
                    assert_eq!(store.read(place(here)).unwrap(), bytes[..], "write {write}");
                }
            }
        }
    }
}

/// No key is taken, replaced or deleted.
#[test]
fn a_gather_takes_no_key() {
    let mut store = thin();
    let keys = |store: &Image| -> Vec<Vec<u8>> {
        (0..448).map(|p| store.image()[store.record().key_bytes(p)].to_vec()).collect()
    };
    let before = (keys(&store), store.record().counts());
    store.gather(4).unwrap();
    assert_eq!((keys(&store), store.record().counts()), before);
}
