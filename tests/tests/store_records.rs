//! The library on damaged images and on records that almost fit, beside the second implementation: each
//! byte of the chosen blocks, each number, letter and place, changed alone.

use johvimaru_tests::model::blocks::page_to_take;
use johvimaru_tests::model::calls::DONE;
use johvimaru_tests::model::files::{self, PLACES};
use johvimaru_tests::model::image::{blocks, Power, PAGES_IN_BLOCK};
use johvimaru_tests::model::list::{Call as Second, Data};
use johvimaru_tests::model::pages::{Header, HEADER, LAST, PAGE, PARTS, PAYLOAD};
use johvimaru_tests::model::record::{LETTERS, MAP, NONE};
use johvimaru_tests::model::store::Store;
use johvimaru_tests::side_by_side::{compare, Call, Tally};
use johvimaru_tests::store_lists::{Change, Target, To};

/// A store with nodes in several files, one replaced, one cut off, a commit, and a torn page after it.
fn rich() -> Store {
    let mut store = Store::formatted(9, Data::noise(1));
    let write = |file, offset, seed| Second::Write { file, offset, payload: Data::payload(seed) };
    let calls = [
        write(0, 0, 1),
        write(0, 1, 2),
        write(3, 23, 3),
        write(0, 0, 4),
        write(7, 2, 5),
        Second::CutOff { file: 7, offset: 0 },
        Second::Commit { noise: Data::noise(2) },
        write(13, 7, 6),
        write(0, 1, 7),
    ];
    for call in calls {
        assert_eq!(store.call(call), DONE, "{call:?}");
    }
    store.cut(write(5, 5, 8), 0, 100);
    assert_eq!(store.call(Second::MOUNT), DONE);
    store
}

/// Compares calls on a changed copy of a store.
fn check(store: &Store, changes: &[Change], tally: &mut Tally) {
    let mut copy = store.clone();
    changes.iter().for_each(|change| change.apply(&mut copy));
    let calls = [
        Call::CutOff { file: 0, offset: 1 },
        Call::Commit { noise: Data::noise(10) },
        Call::Write { file: 0, offset: 1, payload: Data::payload(9) },
        Call::Read { file: 0, offset: 0, output: PAYLOAD },
        Call::Read { file: 13, offset: 0, output: PAYLOAD },
    ];
    for call in calls {
        match compare(&copy, call, Power::STAYS) {
            Ok(after) => tally.count(call.name(), after.reply),
            Err(why) => panic!("{call:?} after {changes:?}:\n{why}"),
        }
    }
}

/// Compares a mount of a changed copy of a store.
fn check_mount(store: &Store, change: Change, tally: &mut Tally) {
    let mut copy = store.clone();
    change.apply(&mut copy);
    match compare(&copy, Call::MOUNT, Power::STAYS) {
        Ok(after) => tally.count("mount", after.reply),
        Err(why) => panic!("mount after {change:?}:\n{why}"),
    }
}

/// The other bytes to try in the place of one.
fn others(byte: u8) -> Vec<u8> {
    let likely = *b" 0129NDKC:-fug\r\n\xff";
    let near = [byte.wrapping_add(1), byte.wrapping_sub(1), byte ^ 0x80];
    likely.into_iter().chain(near).filter(|&other| other != byte).collect()
}

/// Tries other bytes at some places of a page, and mounts such an image.
fn check_page(store: &Store, page: usize, places: impl Iterator<Item = usize>) -> Tally {
    let mut tally = Tally::default();
    for at in places {
        for byte in others(store.image[PAGE * page + at]) {
            let change = Change::Byte(Target::Any(page), at, byte);
            check(store, &[change], &mut tally);
            check_mount(store, change, &mut tally);
        }
    }
    tally
}

fn header_and_closing() -> impl Iterator<Item = usize> {
    (0..HEADER).chain(PAGE - 3..PAGE)
}

#[test]
fn headers_and_closings_of_the_key_blocks() {
    let store = rich();
    let mut tally = Tally::default();
    for number in 0..2 {
        for page in 0..PAGES_IN_BLOCK {
            let page = PAGES_IN_BLOCK * store.record.numbers.keys(number) + page;
            tally.add(&check_page(&store, page, header_and_closing()));
        }
    }
    tally.require("write", &[DONE, 7]);
    tally.require("read", &[DONE, 7, 8]);
    tally.require("cut-off", &[DONE, 7]);
    tally.require("commit", &[DONE, 7]);
    tally.require("mount", &[DONE, 12]);
}

#[test]
fn every_byte_of_the_commit_block() {
    let store = rich();
    let mut tally = Tally::default();
    for page in 0..PARTS {
        let page = PAGES_IN_BLOCK * store.record.numbers.commit as usize + page;
        tally.add(&check_page(&store, page, 0..PAGE));
    }
    for page in PARTS..PAGES_IN_BLOCK {
        let page = PAGES_IN_BLOCK * store.record.numbers.commit as usize + page;
        tally.add(&check_page(&store, page, (0..PAGE).step_by(51)));
    }
    tally.require("write", &[DONE, 7]);
    tally.require("read", &[DONE, 7, 8]);
    tally.require("cut-off", &[DONE, 7]);
    tally.require("commit", &[DONE, 7]);
    tally.require("mount", &[DONE, 13, 14]);
}

#[test]
fn headers_and_closings_of_data_blocks() {
    let store = rich();
    let mut tally = Tally::default();
    let pages: Vec<usize> =
        store.record.entries().into_iter().flatten().map(|e| e.page.into()).collect();
    assert_eq!(pages.len(), 4);
    for page in pages.into_iter().flat_map(|page| page..=page + 2) {
        tally.add(&check_page(&store, page, header_and_closing()));
    }
    tally.require("write", &[DONE, 7]);
    tally.require("read", &[DONE, 7, 8]);
    tally.require("cut-off", &[DONE, 7]);
    tally.require("commit", &[DONE, 7]);
    tally.require("mount", &[DONE, 14]);
}

#[test]
fn each_number_changed() {
    let store = rich();
    let mut tally = Tally::default();
    let edges = [0, 1, 2, 255, 256, 1 << 20, 1 << 31, LAST - 1, LAST, LAST + 1, LAST + 2, u32::MAX];
    for which in 0..5 {
        for to in (0..12).chain(edges) {
            check(&store, &[Change::Number(which, To::Value(to))], &mut tally);
        }
        for by in [1, u32::MAX] {
            check(&store, &[Change::Number(which, To::Plus(by))], &mut tally);
        }
        for other in 0..5 {
            check(&store, &[Change::Exchange(which, other)], &mut tally);
        }
    }
    tally.require("write", &[DONE, 7, 11]);
    tally.require("read", &[DONE, 7, 8]);
    tally.require("cut-off", &[DONE, 7]);
    tally.require("commit", &[DONE, 7]);
}

#[test]
fn each_letter_changed() {
    let store = rich();
    let mut tally = Tally::default();
    for position in 0..LETTERS {
        for letter in [b'f', b'u', b'd', b'e', b'F', 0, 255] {
            check(&store, &[Change::Letter(position, letter)], &mut tally);
        }
    }
    check(&store, &[Change::NoneFree], &mut tally);
    tally.require("write", &[DONE, 7, 9]);
    tally.require("read", &[DONE, 7, 8]);
    tally.require("cut-off", &[DONE, 7]);
    tally.require("commit", &[DONE, 7]);
}

#[test]
fn each_place_changed() {
    let store = rich();
    let mut tally = Tally::default();
    let values: Vec<u32> = store.record.map.iter().map(|&number| number.into()).collect();
    let mut known: Vec<u32> = values.clone();
    known.extend([0, 1, 143, 144, 447, 448, 4_095, 4_096, 65_534, NONE.into()]);
    known.sort();
    known.dedup();
    for at in 0..MAP {
        for &to in &known {
            check(&store, &[Change::Map(at, To::Value(to))], &mut tally);
        }
    }
    for place in 0..PLACES {
        let both = [place, PLACES + place].map(|at| Change::Map(at, To::Value(NONE.into())));
        check(&store, &both, &mut tally);
    }
    tally.require("write", &[DONE, 7]);
    tally.require("read", &[DONE, 7, 8]);
    tally.require("cut-off", &[DONE, 7]);
    tally.require("commit", &[DONE, 7]);
}

/// Two places exchanged, a place named twice, and a key named twice with its letter right.
#[test]
fn places_exchanged_and_doubled() {
    let store = rich();
    let mut tally = Tally::default();
    let live: Vec<usize> = (0..PLACES).filter(|&place| store.record.map[place] != NONE).collect();
    let value = |at: usize| To::Value(store.record.map[at].into());
    for &a in &live {
        for b in 0..PLACES {
            let half = PLACES;
            let doubled = [Change::Map(b, value(a)), Change::Map(half + b, value(half + a))];
            check(&store, &doubled, &mut tally);
            let back = [Change::Map(a, value(b)), Change::Map(half + a, value(half + b))];
            check(&store, &[doubled, back].concat(), &mut tally);
        }
    }
    tally.require("write", &[DONE, 7]);
    tally.require("read", &[DONE, 7, 8]);
    tally.require("cut-off", &[DONE, 7]);
    tally.require("commit", &[DONE, 7]);
}

/// A second whole page of another place under a key that is used: the record fits in all but that the
/// key is named twice.
#[test]
fn a_key_named_twice() {
    let store = rich();
    let mut tally = Tally::default();
    let place = files::place(0, 0).expect("there is such a node");
    let key = store.record.map[PLACES + place];
    let free = page_to_take(blocks(&store.image), None).expect("there is room");
    for (file, offset) in [(0, 2), (1, 0), (13, 6)] {
        let mut doubled = store.clone();
        let header = Header::Node { sequence: 1, file, offset, key: key.into(), second: 224 };
        doubled.image[PAGE * free..][..PAGE].copy_from_slice(&header.page(&[b'.'; PAYLOAD]));
        check(&doubled, &[], &mut tally);
        let other = files::place(file, offset).expect("there is such a node");
        let changes = [
            Change::Map(other, To::Value(free as u32)),
            Change::Map(PLACES + other, To::Value(key.into())),
        ];
        check(&doubled, &changes, &mut tally);
        let mut moved = changes.to_vec();
        moved.extend([place, PLACES + place].map(|at| Change::Map(at, To::Value(NONE.into()))));
        check(&doubled, &moved, &mut tally);
    }
    tally.require("write", &[DONE, 7]);
    tally.require("read", &[DONE, 7, 8]);
    tally.require("cut-off", &[DONE, 7]);
    tally.require("commit", &[DONE, 7]);
}
