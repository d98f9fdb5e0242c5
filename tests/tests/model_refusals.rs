//! Refusals of document 01 in the second implementation: each call with every set of faults, and the
//! fit of a record. The first fault in the document's order decides, and a refusal changes nothing.

use johvimaru_tests::model::calls::{self, DONE};
use johvimaru_tests::model::image::{Power, BLOCK};
use johvimaru_tests::model::list::{Call, Data};
use johvimaru_tests::model::pages::{Entry, Header, PAGE};
use johvimaru_tests::model::record::{Numbers, Record, MAP, NONE, SCRATCH};
use johvimaru_tests::model::store::Store;
use std::sync::LazyLock;

/// All that a call may be given.
#[derive(Clone, PartialEq)]
struct Arguments {
    store: Store,
    file: usize,
    offset: usize,
    block: usize,
    payload: Vec<u8>,
    noise: Vec<u8>,
    output: Vec<u8>,
    scratch: Vec<u32>,
}

type Made = fn(&mut Arguments) -> u32;

/// The number of a refusal, and a change of right arguments for which it is the only one.
type Fault = (u32, fn(&mut Arguments));

/// A store whose node at file 0, offset 0 is in its commit block, with another one after that.
fn store() -> Store {
    let mut store = Store::formatted(8, Data::noise(1));
    for call in [
        Call::Write { file: 0, offset: 0, payload: Data::payload(2) },
        Call::Commit { noise: Data::noise(3) },
        Call::Write { file: 0, offset: 1, payload: Data::payload(4) },
    ] {
        assert_eq!(store.call(call), DONE);
    }
    store
}

/// The store after as many writes as it takes: one block is empty.
static FULL: LazyLock<Store> = LazyLock::new(|| {
    let mut store = store();
    let payload = Data::payload(5);
    while store.call(Call::Write { file: 0, offset: 0, payload }) == DONE {}
    store
});

/// A store without an empty block: a byte of the last empty block is written.
static WITHOUT_EMPTY_BLOCK: LazyLock<Store> = LazyLock::new(|| {
    let mut store = FULL.clone();
    let empty = store.image.chunks(BLOCK).position(|block| block.iter().all(|&byte| byte == 0xff));
    store.image[BLOCK * empty.expect("one block is left empty")] = 0;
    store
});

fn right_arguments() -> Arguments {
    Arguments {
        store: store(),
        file: 0,
        offset: 0,
        block: 3,
        payload: Data::payload(6).bytes(),
        noise: Data::noise(7).bytes(),
        output: vec![9; 224],
        scratch: vec![9; SCRATCH],
    }
}

/// Makes the call with every set of faults, which are in the order of the document.
fn check_faults(call: Made, faults: &[Fault], is_mount_or_format: bool) {
    let right = right_arguments();
    for set in 0..1_u32 << faults.len() {
        let chosen: Vec<&Fault> = (0..faults.len())
            .filter(|&fault| set >> fault & 1 == 1)
            .map(|at| &faults[at])
            .collect();
        let mut before = right.clone();
        for (_, fault) in chosen.iter().rev() {
            fault(&mut before);
        }
        let numbers: Vec<u32> = chosen.iter().map(|fault| fault.0).collect();
        let mut after = before.clone();
        let reply = call(&mut after);
        assert_eq!(reply, numbers.first().copied().unwrap_or(DONE), "faults {numbers:?}");
        match reply {
            DONE => continue,
            12..=14 => fill(&mut before),
            _ => {}
        }
        if is_mount_or_format {
            before.store.record.numbers = Numbers::default();
        }
        assert!(after == before, "faults {numbers:?}: something changed");
    }
}

/// What refusals 12 to 14 leave.
fn fill(arguments: &mut Arguments) {
    arguments.store.record.map.fill(65_535);
    arguments.store.record.letters.fill(b'd');
    arguments.scratch.fill(0);
}

const IMAGE: Fault = (1, |arguments| {
    arguments.store.image.pop();
});
const MAP_LENGTH: Fault = (2, |arguments| arguments.store.record.map.push(NONE));
const LETTERS_LENGTH: Fault = (2, |arguments| {
    arguments.store.record.letters.pop();
});
const SCRATCH_LENGTH: Fault = (2, |arguments| arguments.scratch.push(1));
const NOISE: Fault = (3, |arguments| {
    arguments.noise.pop();
});
const FILE: Fault = (4, |arguments| arguments.file = 14);
const OFFSET: Fault = (5, |arguments| arguments.offset = 32);
const PAYLOAD: Fault = (6, |arguments| arguments.payload.push(0));
const NO_PAYLOAD: Fault = (6, |arguments| arguments.payload.clear());
const OUTPUT: Fault = (6, |arguments| {
    arguments.output.pop();
});
const FIT: Fault = (7, |arguments| arguments.store.record.numbers.commit = 0);
const NO_NODE: Fault = (8, |arguments| arguments.offset = 2);
const NO_KEY: Fault = (9, |arguments| {
    for letter in arguments.store.record.letters.iter_mut().filter(|letter| **letter == b'f') {
        *letter = b'd';
    }
});
const NO_PAGE: Fault = (10, |arguments| arguments.store = FULL.clone());
const NO_BLOCK: Fault = (10, |arguments| arguments.store = WITHOUT_EMPTY_BLOCK.clone());
const NO_LIVE_PAGE: Fault = (15, |arguments| arguments.block = 7);
const NO_SEQUENCE: Fault = (11, |arguments| arguments.store.record.numbers.sequence = 100_000_000);
const NO_EPOCH: Fault = (11, |arguments| arguments.store.record.numbers.epoch = 100_000_000);
const ONE_EPOCH: Fault = (11, |arguments| arguments.store.record.numbers.epoch = 99_999_999);

#[test]
fn gather() {
    let call = |a: &mut Arguments| {
        calls::gather(&mut a.store.image, &mut a.store.record, a.block, Power::STAYS)
    };
    let faults = [IMAGE, MAP_LENGTH, LETTERS_LENGTH, FIT, NO_LIVE_PAGE, NO_SEQUENCE, NO_PAGE];
    check_faults(call, &faults, false);
}

#[test]
fn format() {
    let call = |a: &mut Arguments| {
        let Record { map, letters, numbers } = &mut a.store.record;
        let (reply, new) = calls::format(&mut a.store.image, map, letters, &a.noise, Power::STAYS);
        *numbers = new;
        reply
    };
    check_faults(call, &[IMAGE, MAP_LENGTH, LETTERS_LENGTH, NOISE], true);
}

#[test]
fn mount() {
    let call = |a: &mut Arguments| {
        let Record { map, letters, numbers } = &mut a.store.record;
        let (reply, new) =
            calls::mount(&mut a.store.image, map, letters, &mut a.scratch, Power::STAYS);
        *numbers = new;
        reply
    };
    const NO_COMMIT_BLOCK: Fault = (13, |arguments| {
        let block = store().record.numbers.commit as usize;
        arguments.store.image[BLOCK * block..][..PAGE].fill(0);
    });
    const NO_KEYS0: Fault = (12, |arguments| {
        let block = store().record.numbers.keys(0);
        arguments.store.image[BLOCK * block..][..PAGE].fill(0);
    });
    const NO_KEYS1: Fault = (12, |arguments| {
        let block = store().record.numbers.keys(1);
        arguments.store.image[BLOCK * block..][15 * PAGE..16 * PAGE].fill(0);
    });
    const WRONG_NODE: Fault = (14, |arguments| {
        let page = usize::from(store().record.map[0]);
        let header = Header::Node { sequence: 1, file: 0, offset: 5, key: 0, second: 224 };
        arguments.store.image[PAGE * page..][..30].copy_from_slice(&header.spell());
    });
    let faults = [
        IMAGE,
        MAP_LENGTH,
        LETTERS_LENGTH,
        SCRATCH_LENGTH,
        NO_COMMIT_BLOCK,
        NO_KEYS0,
        NO_KEYS1,
        WRONG_NODE,
    ];
    check_faults(call, &faults, true);
}

#[test]
fn write() {
    let call = |a: &mut Arguments| {
        let Store { image, record } = &mut a.store;
        calls::write(image, record, a.file, a.offset, &a.payload, Power::STAYS)
    };
    for payload in [PAYLOAD, NO_PAYLOAD] {
        let faults = [
            IMAGE,
            MAP_LENGTH,
            LETTERS_LENGTH,
            FILE,
            OFFSET,
            payload,
            FIT,
            NO_SEQUENCE,
            NO_KEY,
            NO_PAGE,
        ];
        check_faults(call, &faults, false);
    }
}

#[test]
fn read() {
    let call = |a: &mut Arguments| {
        let Store { image, record } = &a.store;
        let (reply, length) = calls::read(image, record, a.file, a.offset, &mut a.output);
        assert_eq!(length, if reply == DONE { 224 } else { 0 }, "reply {reply}");
        reply
    };
    let faults = [IMAGE, MAP_LENGTH, LETTERS_LENGTH, FILE, OFFSET, OUTPUT, FIT, NO_NODE];
    check_faults(call, &faults, false);
}

#[test]
fn cut_off() {
    let call = |a: &mut Arguments| {
        let Store { image, record } = &mut a.store;
        calls::cut_off(image, record, a.file, a.offset, Power::STAYS)
    };
    let faults =
        [IMAGE, MAP_LENGTH, LETTERS_LENGTH, FILE, OFFSET, FIT, NO_NODE, NO_SEQUENCE, NO_PAGE];
    check_faults(call, &faults, false);
}

#[test]
fn commit() {
    let call = |a: &mut Arguments| {
        calls::commit(&mut a.store.image, &mut a.store.record, &a.noise, Power::STAYS)
    };
    let faults = [IMAGE, MAP_LENGTH, LETTERS_LENGTH, NOISE, FIT, NO_EPOCH, NO_BLOCK];
    check_faults(call, &faults, false);
}

#[test]
fn wipe() {
    let call = |a: &mut Arguments| {
        let Store { image, record } = &mut a.store;
        calls::wipe(image, record, a.file, a.offset, &a.noise, Power::STAYS)
    };
    for no_epoch in [NO_EPOCH, ONE_EPOCH] {
        let faults =
            [IMAGE, MAP_LENGTH, LETTERS_LENGTH, NOISE, FILE, OFFSET, FIT, no_epoch, NO_BLOCK];
        check_faults(call, &faults, false);
    }
}

/// Numbers are used up to their last, and then refused.
#[test]
fn last_numbers() {
    let with = |change: fn(&mut Numbers)| {
        let mut store = store();
        change(&mut store.record.numbers);
        store
    };
    let write = Call::Write { file: 0, offset: 0, payload: Data::payload(1) };
    let cut_off = Call::CutOff { file: 0, offset: 0 };
    let commit = Call::Commit { noise: Data::noise(1) };
    let wipe = Call::Wipe { file: 0, offset: 0, noise: Data::noise(1) };
    let gather = Call::Gather { block: 3 };
    for (mut store, taken, refused) in [
        (with(|numbers| numbers.sequence = 99_999_999), write, write),
        (with(|numbers| numbers.sequence = 99_999_999), cut_off, write),
        (with(|numbers| numbers.sequence = 99_999_998), gather, write),
        (with(|numbers| numbers.sequence = 99_999_999), write, gather),
        (with(|numbers| numbers.sequence = 100_000_000), commit, write),
        (with(|numbers| numbers.epoch = 99_999_999), commit, commit),
        (with(|numbers| numbers.epoch = 99_999_998), wipe, commit),
    ] {
        assert_eq!(store.call(taken), DONE, "{taken:?}");
        let record = store.record.clone();
        assert_eq!(store.call(Call::MOUNT), DONE, "{taken:?}");
        assert_eq!(store.record, record, "{taken:?}");
        assert_eq!(store.call(refused), 11, "{taken:?}, then {refused:?}");
    }
}

/// A full store still takes a commit and a wipe.
#[test]
fn a_full_store() {
    let noise = Data::noise(1);
    assert_eq!(FULL.clone().call(Call::Commit { noise }), DONE);
    assert_eq!(FULL.clone().call(Call::Wipe { file: 0, offset: 0, noise }), DONE);
}

// ---- The fit of a record

/// Every call on a record refuses it with 7.
fn check_unfit(what: &str, store: &Store) {
    let noise = Data::noise(1);
    for call in [
        Call::Write { file: 0, offset: 0, payload: Data::payload(1) },
        Call::Read { file: 0, offset: 0, output: 224 },
        Call::CutOff { file: 0, offset: 0 },
        Call::Gather { block: 3 },
        Call::Commit { noise },
        Call::Wipe { file: 0, offset: 0, noise },
    ] {
        let mut refused = store.clone();
        assert_eq!(refused.call(call), 7, "{what}: {call:?}");
        assert!(refused == *store, "{what}: {call:?}");
    }
}

#[test]
fn numbers_that_do_not_fit() {
    let right = store();
    let fits = |change: &dyn Fn(&mut Numbers)| {
        let mut store = right.clone();
        change(&mut store.record.numbers);
        let fits = store.record.fits(&store.image);
        if !fits {
            check_unfit(&format!("{:?}", store.record.numbers), &store);
        }
        fits
    };
    for (number, expected) in
        [(0, false), (1, true), (100_000_000, true), (100_000_001, false), (u32::MAX, false)]
    {
        assert_eq!(fits(&|numbers| numbers.sequence = number), expected, "sequence {number}");
        assert_eq!(fits(&|numbers| numbers.epoch = number), expected, "epoch {number}");
    }
    let numbers = right.record.numbers;
    for block in (0..10).chain([255, 256, 65_535, u32::MAX / 4_096, u32::MAX]) {
        assert_eq!(fits(&|numbers| numbers.keys0 = block), block == numbers.keys0, "{block}");
        assert_eq!(fits(&|numbers| numbers.keys1 = block), block == numbers.keys1, "{block}");
        assert_eq!(fits(&|numbers| numbers.commit = block), block == numbers.commit, "{block}");
    }
}

/// No other number fits at any place of the map, none excepted where both halves have it.
#[test]
fn maps_that_do_not_fit() {
    let right = store();
    for at in 0..MAP {
        for number in [0, 1, 47, 48, 49, 50, 51, 127, 128, 447, 448, 4_095, 4_096, 65_534, NONE] {
            let mut store = right.clone();
            store.record.map[at] = number;
            let fits = store.record.fits(&store.image);
            assert_eq!(fits, store == right, "{number} at {at}");
            if at % 37 == 0 && !fits {
                check_unfit(&format!("{number} at {at}"), &store);
            }
        }
    }
}

#[test]
fn letters_that_do_not_fit() {
    let right = store();
    for position in 0..448 {
        for letter in *b"fud\0xFUD\xff" {
            let mut store = right.clone();
            store.record.letters[position] = letter;
            let used = right.record.letters[position] == b'u';
            let expected = if used { letter == b'u' } else { b"fd".contains(&letter) };
            assert_eq!(store.record.fits(&store.image), expected, "{letter} at {position}");
            if position < 3 && !expected {
                check_unfit(&format!("{letter} at {position}"), &store);
            }
        }
    }
}

/// A node that was removed no longer fits with its letter u, nor a live one without it.
#[test]
fn a_place_removed_from_the_map_alone() {
    let mut store = store();
    store.record.set(0, None);
    check_unfit("no entry", &store);
    store.record.letters[0] = b'd';
    assert!(store.record.fits(&store.image));
    assert_eq!(store.payload(0, 0), Err(8));
}

/// Two nodes under one key: either fits alone, both together do not.
#[test]
fn keys_named_twice() {
    let mut store = store();
    let entry = store.record.entry(0).expect("a node is there");
    let page = &mut store.image[PAGE * 60..][..PAGE];
    let key = usize::from(entry.key);
    let header = Header::Node { sequence: 9, file: 1, offset: 0, key, second: 224 };
    page.copy_from_slice(&header.page(&[0; 224]));
    let mut twice = store.clone();
    twice.record.set(32, Some(Entry { page: 60, ..entry }));
    check_unfit("a key named twice", &twice);
    twice.record.set(0, None);
    assert!(twice.record.fits(&twice.image));
}

/// Damage to a page that the record names, or to one of its three blocks.
#[test]
fn images_that_do_not_fit() {
    let right = store();
    let page = usize::from(right.record.map[0]);
    let numbers = right.record.numbers;
    let damaged = |at: usize| {
        let mut store = right.clone();
        store.image[at] ^= 0x80;
        store
    };
    for at in (0..30).chain(254..256) {
        let store = damaged(PAGE * page + at);
        assert!(!store.record.fits(&store.image), "byte {at} of a node");
        for block in [numbers.keys(0), numbers.keys(1), numbers.commit as usize] {
            let store = damaged(BLOCK * block + 9 * PAGE + at);
            assert!(!store.record.fits(&store.image), "byte {at} of block {block}");
        }
    }
    for at in 30..254 {
        let store = damaged(PAGE * page + at);
        assert!(store.record.fits(&store.image), "byte {at} of a node");
        let store = damaged(BLOCK * numbers.keys(1) + 9 * PAGE + at);
        assert!(store.record.fits(&store.image), "byte {at} of a key page");
        let store = damaged(BLOCK * numbers.commit as usize + 9 * PAGE + at);
        assert!(!store.record.fits(&store.image), "byte {at} of a commit page");
    }
    check_unfit("a spoilt node", &damaged(PAGE * page));
    check_unfit("a spoilt key block", &damaged(BLOCK * numbers.keys(1)));
    check_unfit("a spoilt commit block", &damaged(BLOCK * numbers.commit as usize + 100));
}
