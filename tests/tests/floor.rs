//! The floor in C beside the library: payloads of every length, gathers of every block, and headers, entries
//! and letters with any one byte changed.

use johvimaru_tests::floor::Floor;
use johvimaru_tests::model::image::{BLOCK, PAGES_IN_BLOCK};
use johvimaru_tests::model::list::Data;
use johvimaru_tests::model::pages::{Page, ENTRY, HEADER, LAST, PAGE, PAYLOAD};
use johvimaru_tests::model::store::Store;
use johvimaru_tests::rng::Rng;
use johvimaru_tests::side_by_side::{Both, Call, Tally};

const READ: Call = Call::Read { file: 0, offset: 0, output: PAYLOAD };

/// The floor, or none on a machine without a cipher for it.
fn floor() -> Option<Floor> {
    let floor = Floor::open();
    if floor.is_none() {
        println!("the floor has no cipher: to have it, install the Debian package libnettle8");
    }
    floor
}

fn write(file: u32, offset: u32) -> Call {
    Call::Write { file, offset, payload: Data::of(40 + 20 * file as usize % 180, 1) }
}

fn older_write(file: u32, offset: u32) -> Call {
    Call::Append { file, offset, second: 0, bytes: Data::payload(2) }
}

/// A store with nodes of several lengths and a cut-off, before a commit and after it.
fn store() -> Store {
    let mut both = Both::formatted(9);
    for place in 0..12 {
        both.done(&[write(place, place % 8), write(13, 7)]);
    }
    both.done(&[older_write(1, 0), Call::Commit { noise: Data::noise(7) }]);
    both.done(&[write(0, 0), write(2, 23), Call::CutOff { file: 1, offset: 1 }, write(3, 3)]);
    both.0
}

#[test]
fn every_length() {
    let Some(floor) = floor() else { return };
    let store = store();
    let mut tally = Tally::default();
    for length in 0..=226 {
        let call = Call::Write { file: 0, offset: 0, payload: Data::of(length, 3) };
        let mut written = Both(store.clone());
        written.call(call);
        for (store, call) in [(&store, call), (&written.0, READ), (&written.0, Call::MOUNT)] {
            match floor.compare(store, call) {
                Ok(reply) => tally.count(call.name(), reply),
                Err(why) => panic!("{length} bytes: {why}"),
            }
        }
    }
    tally.require("write", &[0, 6]);
    tally.require("read", &[0]);
}

/// Gathers on stores with more and more nodes, of every block and of some outside.
#[test]
fn every_block() {
    let Some(floor) = floor() else { return };
    let mut both = Both::formatted(9);
    let mut tally = Tally::default();
    for number in 0..72 {
        let call = if number % 9 == 8 { Call::Gather { block: number / 9 } } else { write(0, 0) };
        let call = if number % 4 < 3 { write(number % 14, number / 9) } else { call };
        both.call(call);
        for block in (0..10).chain([255, 256, 4_095, 4_096, u32::MAX]) {
            let mut late = both.0.clone();
            late.record.numbers.sequence = LAST - 1;
            for store in [&both.0, &late] {
                match floor.compare(store, Call::Gather { block }) {
                    Ok(reply) => tally.count("gather", reply),
                    Err(why) => panic!("{number} calls, block {block}: {why}"),
                }
            }
        }
    }
    tally.require("gather", &[0, 10, 11, 15]);
}

/// Pages copied without a test are the pages with other sequences.
#[test]
fn copied_pages() {
    let Some(floor) = floor() else { return };
    let from: Vec<Page> = Rng::new(3).bytes(16 * PAGE).as_chunks().0.to_vec();
    for sequence in [1, 9, 10, 99_999, 12_345_678, LAST - 15] {
        let mut to = vec![[0; PAGE]; 16];
        floor.copy_pages(&mut to, &from, sequence);
        for ((mut page, copy), sequence) in from.iter().copied().zip(&to).zip(sequence..) {
            page[1..9].copy_from_slice(format!("{sequence:8}").as_bytes());
            assert!(*copy == page, "sequence {sequence}");
        }
    }
}

/// The first page with such a header.
fn page_of(store: &Store, kind: u8, from: usize) -> usize {
    let pages = store.image.len() / PAGE;
    (from..pages).find(|page| store.image[PAGE * page] == kind).expect("there is such a page")
}

/// Where a byte counts: in headers and closings of all kinds, in letters and in entries.
fn places(store: &Store) -> Vec<usize> {
    let commit = store.record.numbers.commit as usize * PAGES_IN_BLOCK;
    let keys = store.record.numbers.keys1 as usize * PAGES_IN_BLOCK;
    let node = page_of(store, b'N', usize::from(store.record.map[0]));
    let old = page_of(store, b'N', 0);
    let cut_off = page_of(store, b'D', 0);
    let older = usize::from(store.record.map[32]);
    let mut places = Vec::new();
    for page in [keys, keys + 10, commit, commit + 9, node, old, older, cut_off] {
        places.extend((0..HEADER).chain(PAGE - 2..PAGE).map(|at| PAGE * page + at));
    }
    places.extend((0..3 * ENTRY).map(|at| PAGE * (commit + 2) + HEADER + at));
    places.extend([0, 1, 223].map(|at| PAGE * commit + HEADER + at));
    places.extend([0, 255].map(|at| PAGE * (commit + 12) + at));
    places
}

#[test]
fn any_byte_changed() {
    let Some(floor) = floor() else { return };
    let store = store();
    let mut tally = Tally::default();
    for at in places(&store) {
        let mut changed = store.clone();
        for byte in 0..=255 {
            changed.image[at] = byte;
            for call in [Call::MOUNT, READ] {
                match floor.compare(&changed, call) {
                    Ok(reply) => tally.count(call.name(), reply),
                    Err(why) => panic!("byte {} of block {}: {why}", at % BLOCK, at / BLOCK),
                }
            }
        }
    }
    tally.require("mount", &[0, 12, 13, 14]);
    tally.require("read", &[0, 7]);
}
