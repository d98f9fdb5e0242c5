//! Document 01's cases through the library, beside the second implementation.

use johvimaru_tests::model::calls::{CUT, DONE};
use johvimaru_tests::model::files::{self, PLACES};
use johvimaru_tests::model::image::BLOCK;
use johvimaru_tests::model::list::Data;
use johvimaru_tests::model::listing;
use johvimaru_tests::model::record::{Numbers, Record};
use johvimaru_tests::model::store::Store;
use johvimaru_tests::side_by_side::{Both, Call};

fn write(file: u32, offset: u32, seed: u64) -> Call {
    Call::Write { file, offset, payload: Data::payload(seed) }
}

/// A write at a place.
fn write_at(place: usize, seed: u64) -> Call {
    let (file, offset) = files::node(place);
    write(file as u32, offset as u32, seed)
}

fn payload(seed: u64) -> Result<Vec<u8>, u32> {
    Ok(Data::payload(seed).bytes())
}

#[test]
fn p7_p8_files_and_offsets() {
    let mut store = Both::formatted(8);
    assert_eq!(store.call(write(13, 7, 1)), DONE);
    assert_eq!(store.call(write(13, 8, 1)), 5);
    assert_eq!(store.call(write(14, 0, 1)), 4);
}

#[test]
fn p9_sizes_of_images() {
    let sizes = [(32_768, DONE), (28_672, 1), (32_769, 1), (1_048_576, DONE), (1_052_672, 1)];
    for (length, reply) in sizes {
        let mut store = Both(Store { image: vec![0; length], record: Record::blank() });
        let format = Call::Format { noise: Data::noise(1) };
        assert_eq!(store.call(format), reply, "format, {length} bytes");
        assert_eq!(store.call(write(0, 0, 1)), reply, "write, {length} bytes");
        let read = Call::Read { file: 0, offset: 0, output: 224 };
        assert_eq!(store.call(read), reply, "read, {length} bytes");
        assert_eq!(store.call(Call::MOUNT), reply, "mount, {length} bytes");
        let commit = Call::Commit { noise: Data::noise(2) };
        assert_eq!(store.call(commit), reply, "commit, {length} bytes");
        let cut_off = Call::CutOff { file: 0, offset: 0 };
        assert_eq!(store.call(cut_off), reply, "cut-off, {length} bytes");
        let wipe = Call::Wipe { file: 0, offset: 0, noise: Data::noise(3) };
        assert_eq!(store.call(wipe), reply, "wipe, {length} bytes");
    }
}

/// A write over old content, cut at a byte, and a mount after it: the letter of its key, and the content.
#[test]
fn a_cut_write() {
    for (bytes, letter, seed) in [(29, b'f', 1), (30, b'd', 1), (255, b'd', 1), (256, b'u', 2)] {
        let mut store = Both::formatted(8);
        store.done(&[write(5, 3, 1)]);
        assert_eq!(store.cut(write(5, 3, 2), 0, bytes), CUT);
        store.mount();
        assert_eq!(store.0.record.letters[1], letter, "cut at {bytes}");
        assert_eq!(store.content(5, 3), payload(seed), "cut at {bytes}");
    }
}

/// How many writes a new store takes, and the reply to the next.
fn capacity(blocks: usize) -> (usize, u32) {
    let mut store = Both::formatted(blocks);
    let mut taken = 0;
    loop {
        match store.call(write_at(taken % PLACES, taken as u64)) {
            DONE => taken += 1,
            refusal => return (taken, refusal),
        }
    }
}

#[test]
fn writes_that_an_image_takes() {
    assert_eq!(capacity(8), (64, 10));
    assert_eq!(capacity(32), (448, 9));
    assert_eq!(capacity(256), (448, 9));
}

#[test]
fn the_listing() {
    let mut store = Both::formatted(8);
    store.done(&[write(0, 0, 1), write(2, 5, 2), write(0, 0, 3)]);
    let lines = "   0   0    50     2\n   2   5    49     1\n     2   445     1\n";
    assert_eq!(listing::text(&store.0.image), lines);
    assert_eq!(store.content(0, 0), payload(3));
    assert_eq!(store.content(2, 5), payload(2));
    assert_eq!(store.content(2, 4), Err(8));
}

/// A commit after the listing's writes: where its blocks are, and what a mount finds.
#[test]
fn a_commit_after_the_listing() {
    let mut store = Both::formatted(8);
    store.done(&[write(0, 0, 1), write(2, 5, 2), write(0, 0, 3)]);
    store.done(&[Call::Commit { noise: Data::noise(9) }]);
    let numbers = Numbers { sequence: 4, epoch: 3, keys0: 4, keys1: 0, commit: 1 };
    assert_eq!(store.0.record.numbers, numbers);
    let blocks: Vec<u16> = store.0.record.entries().into_iter().flatten().map(|e| e.page).collect();
    assert_eq!(blocks, [50, 49], "the nodes are in block 3");
    assert!(store.0.image[2 * BLOCK..][..BLOCK].iter().all(|&byte| byte == 0xff));
    let after = store.0.clone();
    store.mount();
    assert!(store.0 == after, "a mount finds the same record");
    let lines = "   0   0    50     2\n   2   5    49     1\n     2   446     0\n";
    assert_eq!(listing::text(&store.0.image), lines);
    assert_eq!(store.content(0, 0), payload(3));
    assert_eq!(store.content(2, 5), payload(2));
}

/// A wipe after the listing's writes: the file is gone, and no key is deleted.
#[test]
fn a_wipe_after_the_listing() {
    let mut store = Both::formatted(8);
    store.done(&[write(0, 0, 1), write(2, 5, 2), write(0, 0, 3)]);
    store.done(&[Call::Wipe { file: 0, offset: 0, noise: Data::noise(9) }]);
    store.mount();
    assert_eq!(listing::text(&store.0.image), "   2   5    49     1\n     1   447     0\n");
    assert_eq!(store.content(0, 0), Err(8));
    assert_eq!(store.content(2, 5), payload(2));
}

/// Every place written, read, written again and read again.
#[test]
fn every_place() {
    let mut store = Both::formatted(32);
    for round in [0, 1_000] {
        for place in 0..PLACES {
            store.done(&[write_at(place, round + place as u64)]);
        }
        for place in 0..PLACES {
            let (file, offset) = files::node(place);
            let expected = payload(round + place as u64);
            assert_eq!(store.content(file as u32, offset as u32), expected, "place {place}");
        }
    }
}
