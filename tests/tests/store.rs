//! The calls of the library beside the second implementation: every cut of format, write, cut-off and mount,
//! what a mount erases, the order of the tests, and wrong lengths.

use johvimaru::raw as recorder;
use johvimaru_tests::guarded::Guarded;
use johvimaru_tests::model::calls::{CUT, DONE};
use johvimaru_tests::model::files::COUNTS;
use johvimaru_tests::model::image::{Power, Step, BLOCK};
use johvimaru_tests::model::keys::NOISE;
use johvimaru_tests::model::list::{Data, Lent};
use johvimaru_tests::model::pages::{Entry, LAST, PAGE, PAYLOAD};
use johvimaru_tests::model::record::{Record, LETTERS, MAP, SCRATCH};
use johvimaru_tests::model::store::Store;
use johvimaru_tests::rng::Rng;
use johvimaru_tests::side_by_side::{self, compare, compare_lent, Both, Call, Tally};
use johvimaru_tests::store_lists::{met_in_random_list, Change};
use std::collections::BTreeMap;

const FORMAT: Call = Call::Format { noise: Data { length: NOISE, seed: 1_000 } };

fn write(file: u32, offset: u32, seed: u64) -> Call {
    Call::Write { file, offset, payload: Data::payload(seed) }
}

fn read(file: u32, offset: u32) -> Call {
    Call::Read { file, offset, output: PAYLOAD }
}

fn cut_off(file: u32, offset: u32) -> Call {
    Call::CutOff { file, offset }
}

fn wipe(file: u32, offset: u32, length: usize) -> Call {
    Call::Wipe { file, offset, noise: Data { length, seed: 2_000 } }
}

fn commit(length: usize) -> Call {
    Call::Commit { noise: Data { length, seed: 3_000 } }
}

// ---- Cuts

/// Stores that a write finds: new, with a node there, at the end of a block, and after a torn page.
fn states() -> Vec<Both> {
    let mut states = vec![Both::formatted(8)];
    let mut store = Both::formatted(9);
    store.done(&[write(0, 0, 1), write(1, 31, 2)]);
    states.push(store.clone());
    for seed in 0..13 {
        store.done(&[write(0, 0, seed)]);
    }
    states.push(store.clone());
    assert_eq!(store.cut(write(2, 2, 20), 0, 100), CUT);
    store.mount();
    states.push(store);
    states
}

#[test]
fn every_cut_of_a_write() {
    for store in states() {
        for bytes in (0..=PAGE + 2).chain([usize::MAX]) {
            let mut cut = store.clone();
            assert_eq!(cut.cut(write(0, 0, 9), 0, bytes), CUT);
            cut.mount();
            let is_in = cut.content(0, 0) == Ok(Data::payload(9).bytes());
            assert_eq!(is_in, bytes >= PAGE, "cut at {bytes}");
        }
        let mut plain = store.clone();
        plain.done(&[write(0, 0, 9)]);
        for steps in [1, 2, 1_000, usize::MAX - 1] {
            let mut whole = store.clone();
            assert_eq!(whole.cut(write(0, 0, 9), steps, 0), DONE);
            assert!(whole == plain, "a write with power for {steps} steps");
        }
    }
}

#[test]
fn every_cut_of_a_cut_off() {
    for mut store in states() {
        store.done(&[write(0, 0, 9)]);
        for bytes in (0..=PAGE + 2).chain([usize::MAX]) {
            let mut cut = store.clone();
            assert_eq!(cut.cut(cut_off(0, 0), 0, bytes), CUT);
            cut.mount();
            let is_in = cut.content(0, 0) == Err(8);
            assert_eq!(is_in, bytes >= PAGE, "cut at {bytes}");
        }
    }
}

/// The blocks that a mount erases, in its order.
fn erased_by_mount(store: &Both) -> Vec<usize> {
    let block = |step: Step| match step {
        Step::Erase { block } => block,
        Step::Program { .. } => panic!("a mount programs a page"),
    };
    side_by_side::steps(&store.0, Call::MOUNT).into_iter().map(block).collect()
}

/// Block 5 is a copy of a key block, 6 is spoilt, and 4 and 7 are empty.
fn with_strays() -> Both {
    let mut store = Both::formatted(8);
    store.done(&[write(0, 0, 1), write(2, 5, 2)]);
    store.0.image.copy_within(0..BLOCK, 5 * BLOCK);
    store.0.image[6 * BLOCK + 77] = 0;
    store
}

/// Block 3 was full when it was committed and has no live page any more. Block 6 is spoilt, 5 and 7 are empty.
fn with_covered_block() -> Both {
    let mut store = Both::formatted(8);
    (0..16).for_each(|seed| store.done(&[write(0, 0, seed)]));
    store.done(&[commit(NOISE), write(0, 0, 20)]);
    store.0.image[6 * BLOCK + 77] = 0;
    store
}

/// A mount that erases four blocks, cut at every byte, and the mount after it. Another one erases the same
/// blocks where they are still to be erased, and changes no byte.
#[test]
fn every_cut_of_a_mount() {
    for (store, blocks) in [(with_strays(), [4, 5, 6, 7]), (with_covered_block(), [3, 5, 6, 7])] {
        assert_eq!(erased_by_mount(&store), blocks);
        let mut whole = store.clone();
        whole.mount();
        for steps in 0..4 {
            for bytes in 0..=BLOCK + 1 {
                let mut cut = store.clone();
                assert_eq!(cut.cut(Call::MOUNT, steps, bytes), CUT);
                cut.mount();
                assert!(cut == whole, "cut at {steps}, {bytes}");
            }
        }
        for steps in [4, 5, usize::MAX - 1] {
            let mut other = store.clone();
            assert_eq!(other.cut(Call::MOUNT, steps, 0), DONE);
            assert!(other == whole, "power for {steps} steps");
        }
        let mut again = whole.clone();
        assert_eq!(erased_by_mount(&again), blocks, "they are empty now");
        again.mount();
        assert!(again == whole, "a second mount changes something");
    }
}

/// A data block without a live page is erased by a mount where the commit covers all its headers. A torn one
/// above is as good as a whole one to keep it, and so is a live page.
#[test]
fn covered_blocks_and_their_headers() {
    let mut store = Both::formatted(8);
    (0..15).for_each(|seed| store.done(&[write(0, 0, seed)]));
    store.done(&[commit(NOISE)]);
    assert_eq!(erased_by_mount(&store), [2, 5, 6, 7], "block 3 has a live page");

    let mut torn = store.clone();
    assert_eq!(torn.cut(write(1, 0, 20), 0, 100), CUT);
    torn.mount();
    torn.done(&[write(0, 0, 21)]);
    assert_eq!(torn.0.record.entry(0), Some(Entry { page: 32, key: 1 }));
    assert_eq!(erased_by_mount(&torn), [5, 6, 7], "page 63 is torn and above");
    torn.mount();
    assert_eq!(torn.0.record.letters[0], b'd', "the key of page 63");

    let mut spoilt = store.clone();
    assert_eq!(spoilt.cut(write(1, 0, 20), 0, 29), CUT);
    spoilt.mount();
    spoilt.done(&[write(0, 0, 21)]);
    assert_eq!(erased_by_mount(&spoilt), [3, 5, 6, 7], "page 63 has no header");
    spoilt.mount();
    assert!(spoilt.0.image[3 * BLOCK..4 * BLOCK].iter().all(|&byte| byte == 0xff));

    store.done(&[cut_off(0, 0)]);
    assert_eq!(erased_by_mount(&store), [2, 5, 6, 7], "page 63 removes the node");
    store.mount();
    assert_eq!(store.content(0, 0), Err(8));
}

/// The reply of a mount by both, whose power fails then.
fn mount_of(store: &Store, power: Power) -> u32 {
    compare(store, Call::MOUNT, power).unwrap_or_else(|why| panic!("{power:?}:\n{why}")).reply
}

/// On what random lists find, damaged images too, a mount has as many steps as the second implementation's: a
/// cut in the last one cuts it, and a cut behind it does not.
#[test]
fn steps_of_a_mount_on_damaged_images() {
    let mut lengths = BTreeMap::new();
    for (blocks, seeds, longest) in [(8, 0..300, 40), (9, 300..450, 40), (32, 450..480, 60)] {
        for (store, _) in seeds.flat_map(|seed| met_in_random_list(blocks, seed, longest)) {
            if mount_of(&store, Power::STAYS) == DONE {
                let length = side_by_side::steps(&store, Call::MOUNT).len();
                assert_eq!(mount_of(&store, Power::cut(length, 0)), DONE);
                for cut in (0..length).rev().take(2) {
                    assert_eq!(mount_of(&store, Power::cut(cut, BLOCK)), CUT);
                }
                *lengths.entry(length).or_insert(0) += 1;
            }
        }
    }
    println!("steps of mounts, and on how many images: {lengths:?}");
    assert!(lengths.len() > 7 && lengths.values().sum::<usize>() > 5_000, "{lengths:?}");
}

#[test]
fn every_cut_of_a_format() {
    let bytes = [0, 1, 29, 30, 255, 256, 257, 4_095, 4_096, usize::MAX];
    for blocks in [8, 9, 16] {
        let image = Rng::new(7).bytes(BLOCK * blocks);
        let store = Both(Store { image, record: Record::blank() });
        for steps in 0..blocks + 44 {
            for bytes in bytes {
                let reply = store.clone().cut(FORMAT, steps, bytes);
                let is_cut = steps < blocks + 42;
                assert_eq!(reply, if is_cut { CUT } else { DONE }, "cut at {steps}, {bytes}");
            }
        }
    }
}

#[test]
fn cuts_of_a_large_format() {
    let store = Both(Store { image: vec![0; BLOCK * 256], record: Record::blank() });
    for steps in [0, 100, 255, 256, 271, 272, 287, 288, 297, 298, usize::MAX - 1] {
        let reply = store.clone().cut(FORMAT, steps, 100);
        assert_eq!(reply, if steps < 298 { CUT } else { DONE }, "cut at {steps}");
    }
}

// ---- The order of the tests

/// The faults of a set, by its bits.
struct Faults(u32);

impl Faults {
    /// Whether a fault is in the set.
    fn has(&self, bit: u32) -> bool {
        self.0 & (1 << bit) != 0
    }

    fn choose<T>(&self, bit: u32, wrong: T, right: T) -> T {
        if self.has(bit) {
            wrong
        } else {
            right
        }
    }
}

/// A full store of 8 blocks, and one with room.
fn full_and_open() -> (Store, Store) {
    let mut store = Both::formatted(8);
    for seed in 0..60 {
        store.done(&[write(0, 0, seed)]);
    }
    let open = store.clone();
    for seed in 0..4 {
        store.done(&[write(0, 0, seed)]);
    }
    (store.0, open.0)
}

/// Every set of faults of the calls on a record.
#[test]
fn the_first_fault_decides() {
    let (full, open) = full_and_open();
    let mut tally = Tally::default();
    for faults in (0..1 << 12).map(Faults) {
        let mut store = faults.choose(9, &full, &open).clone();
        if faults.has(11) {
            Change::NoneEmpty.apply(&mut store);
        }
        if faults.has(8) {
            store.record.letters.iter_mut().filter(|l| **l == b'f').for_each(|l| *l = b'd');
        }
        if faults.has(7) {
            store.record.numbers.sequence = LAST + 1;
            store.record.numbers.epoch = LAST;
        }
        if faults.has(6) {
            store.record.numbers.commit += 1;
        }
        let length = faults.choose(5, PAYLOAD + 1, PAYLOAD);
        let noise = faults.choose(5, NOISE - 1, NOISE);
        let file = faults.choose(3, 14, 1);
        let offset = faults.choose(4, 32, 0);
        let lent = Lent {
            image: faults.choose(0, 1, 0),
            map: faults.choose(1, -1, 0),
            letters: faults.choose(2, 1, 0),
        };
        let payload = Data { length, seed: 3 };
        let calls = [
            Call::Write { file, offset, payload },
            Call::Read { file, offset, output: length },
            cut_off(faults.choose(10, file, file - 1), offset),
            wipe(file, offset, noise),
            commit(noise),
        ];
        for call in calls {
            match compare_lent(&store, call, Power::STAYS, lent) {
                Ok(reply) => tally.count(call.name(), reply),
                Err(why) => panic!("{call:?}, faults {:b}:\n{why}", faults.0),
            }
        }
    }
    tally.require("write", &[DONE, 1, 2, 4, 5, 6, 7, 9, 10, 11]);
    tally.require("read", &[1, 2, 4, 5, 6, 7, 8]);
    tally.require("cut-off", &[DONE, 1, 2, 4, 5, 7, 8, 10, 11]);
    tally.require("wipe", &[DONE, 1, 2, 3, 4, 5, 7, 10, 11]);
    tally.require("commit", &[DONE, 1, 2, 3, 7, 10]);
}

/// The last epochs: a commit takes one, a wipe two.
#[test]
fn the_last_epochs() {
    for (epoch, commits, wipes) in
        [(LAST - 1, DONE, DONE), (LAST, DONE, 11), (LAST + 1, 11, 11), (LAST + 2, 7, 7)]
    {
        let mut store = Both::formatted(8);
        store.done(&[write(0, 0, 1)]);
        store.0.record.numbers.epoch = epoch;
        let mut wiped = store.clone();
        assert_eq!(wiped.call(wipe(0, 0, NOISE)), wipes, "epoch {epoch}");
        assert_eq!(store.call(commit(NOISE)), commits, "epoch {epoch}");
    }
}

/// Every set of faults of a mount.
#[test]
fn the_first_fault_of_a_mount_decides() {
    let mut rich = Both::formatted(8);
    rich.done(&[write(0, 0, 1)]);
    for faults in (0..1 << 7).map(Faults) {
        let Both(mut store) = rich.clone();
        if faults.has(6) {
            Change::Entry(7, Some(Entry { page: 4_000, key: 0 })).apply(&mut store);
        }
        if faults.has(5) {
            store.image[BLOCK] = b'k';
        }
        if faults.has(4) {
            store.image[2 * BLOCK] = b'c';
        }
        let scratch = faults.choose(3, SCRATCH + 1, SCRATCH);
        let lent = Lent {
            image: faults.choose(0, -1, 0),
            map: faults.choose(1, 1, 0),
            letters: faults.choose(2, -1, 0),
        };
        let reply = compare_lent(&store, Call::Mount { scratch }, Power::STAYS, lent);
        let expected = [(1, 1), (2, 2), (4, 2), (8, 2), (16, 13), (32, 12), (64, 14)];
        let first = expected.into_iter().find(|(bit, _)| faults.0 & bit != 0);
        assert_eq!(reply, Ok(first.map_or(DONE, |(_, reply)| reply)), "faults {:b}", faults.0);
    }
}

/// Every set of faults of a format.
#[test]
fn the_first_fault_of_a_format_decides() {
    let Both(store) = Both::formatted(8);
    for faults in (0..1 << 4).map(Faults) {
        let noise = Data { length: faults.choose(3, NOISE + 16, NOISE), seed: 5 };
        let lent = Lent {
            image: faults.choose(0, -1, 0),
            map: faults.choose(1, 1, 0),
            letters: faults.choose(2, -1, 0),
        };
        let reply = compare_lent(&store, Call::Format { noise }, Power::STAYS, lent);
        let expected = [(1, 1), (2, 2), (4, 2), (8, 3)];
        let first = expected.into_iter().find(|(bit, _)| faults.0 & bit != 0);
        assert_eq!(reply, Ok(first.map_or(DONE, |(_, reply)| reply)), "faults {:b}", faults.0);
    }
}

// ---- Lengths and arguments

#[test]
fn lengths_of_every_buffer() {
    let mut store = Both::formatted(8);
    store.done(&[write(0, 0, 1)]);
    let [image, map, letters] = [BLOCK * 8, MAP, LETTERS].map(|length| length as isize);
    let mut calls = Vec::new();
    for length in (0..=PAYLOAD + 32).chain([PAGE, 448, 4_096]) {
        calls.push(Call::Write { file: 0, offset: 1, payload: Data { length, seed: 4 } });
        calls.push(Call::Read { file: 0, offset: 0, output: length });
        calls.push(Call::Mount { scratch: length });
    }
    for length in [0, 1, 16, 224, NOISE - 16, NOISE - 1, NOISE, NOISE + 1, 2 * NOISE] {
        calls.push(Call::Format { noise: Data { length, seed: 4 } });
        calls.extend([commit(length), wipe(0, 0, length)]);
    }
    for call in calls {
        store.clone().call(call);
    }
    for by in [-image, -4_096, -256, -1, 1, 256, 4_096, 8 * 4_096] {
        let by_map = by.max(-map);
        let by_letters = by.max(-letters);
        let lents = [
            Lent { image: by, ..Lent::RIGHT },
            Lent { map: by_map, ..Lent::RIGHT },
            Lent { letters: by_letters, ..Lent::RIGHT },
        ];
        for lent in lents {
            let record =
                [write(0, 1, 5), read(0, 0), cut_off(0, 0), commit(NOISE), wipe(0, 0, NOISE)];
            let others = [Call::Gather { block: 3 }, FORMAT, Call::MOUNT];
            for call in record.into_iter().chain(others) {
                let reply = compare_lent(&store.0, call, Power::STAYS, lent);
                reply.unwrap_or_else(|why| panic!("{call:?}, {lent:?}:\n{why}"));
            }
        }
    }
}

#[test]
fn every_file_and_offset() {
    let mut store = Both::formatted(16);
    for (file, count) in (0..).zip(COUNTS) {
        store.done(&[write(file, count as u32 - 1, file.into())]);
    }
    for file in (0..16).chain([255, 256, 1 << 16, u32::MAX]) {
        for offset in (0..40).chain([255, 256, 1 << 16, u32::MAX - 32, u32::MAX]) {
            store.clone().call(write(file, offset, 1));
            store.clone().call(read(file, offset));
            store.clone().call(cut_off(file, offset));
            store.clone().call(wipe(file, offset, NOISE));
        }
    }
}

/// The library writes nothing outside what is lent, wherever that begins.
#[test]
fn nothing_else_is_written() {
    for shift in 0..9 {
        let noise = Data::noise(3).bytes();
        let mut image = Guarded::new(shift, &vec![0; BLOCK * 8]);
        let mut output = Guarded::new(shift, &[0; PAYLOAD]);
        let mut record = recorder::Record::blank();
        let data = Data::payload(8).bytes();
        let reply = recorder::format(image.lent(), &mut record, &noise);
        assert_eq!(reply, recorder::DONE);
        let reply = recorder::write(image.lent(), &mut record, 13, 7, &data);
        assert_eq!(reply, recorder::DONE);
        let read = recorder::read(image.content(), &record, 13, 7, output.lent());
        assert_eq!(read, (recorder::DONE, PAYLOAD));
        assert_eq!(output.content(), data);
        for reply in [
            recorder::gather(image.lent(), &mut record, 3),
            recorder::cut_off(image.lent(), &mut record, 13, 7),
            recorder::commit(image.lent(), &mut record, &noise),
            recorder::wipe(image.lent(), &mut record, &noise, 0, 0),
            recorder::mount(image.lent(), &mut record, &mut [0; SCRATCH]),
        ] {
            assert_eq!(reply, recorder::DONE);
        }
        image.content();
    }
}
