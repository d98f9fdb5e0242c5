//! Document 02, #101, through the library and beside the second implementation: payloads of every length,
//! short writes cut at every byte, nodes of older recorders among new ones, and second numbers right and
//! damaged.

use johvimaru::raw as recorder;
use johvimaru_tests::ffi::page::{self, SPOILT, TORN, WHOLE};
use johvimaru_tests::guarded::Guarded;
use johvimaru_tests::model::calls::{CUT, DONE};
use johvimaru_tests::model::files::{self, PLACES};
use johvimaru_tests::model::list::Data;
use johvimaru_tests::model::pages::{Form, Page, ERASED, PAGE, PAYLOAD};
use johvimaru_tests::side_by_side::{to_library, Both, Call};
use std::collections::BTreeMap;
use std::ops::Range;

/// The columns of the second number in a page.
const SECOND: Range<usize> = 20..28;

/// The first page that a new store programs.
const FIRST: usize = 48;

fn write(file: u32, offset: u32, length: usize, seed: u64) -> Call {
    Call::Write { file, offset, payload: Data::of(length, seed) }
}

/// A write that leaves this second number and all these bytes.
fn append(file: u32, offset: u32, second: u32, seed: u64) -> Call {
    Call::Append { file, offset, second, bytes: Data::payload(seed) }
}

/// A write of a recorder from before lengths were kept.
fn older(file: u32, offset: u32, seed: u64) -> Call {
    append(file, offset, 0, seed)
}

fn commit(seed: u64) -> Call {
    Call::Commit { noise: Data::noise(seed) }
}

// ---- Reads

/// A read's reply, the length that it reports, and its output.
type Read = (u32, usize, Vec<u8>);

/// What a read by the library gives with an output of so many question marks; the second implementation
/// gives the same.
fn read_into(store: &Both, file: u32, offset: u32, output: usize) -> Read {
    let read = Call::Read { file, offset, output };
    let expected = store.clone().call(read);
    let record = to_library(store.0.record.clone());
    let mut lent = Guarded::new(output % 8, &vec![b'?'; output]);
    let (reply, length) = recorder::read(&store.0.image, &record, file, offset, lent.lent());
    assert_eq!(reply, expected, "{read:?}");
    (reply, length, lent.content().to_vec())
}

fn read(store: &Both, file: u32, offset: u32) -> Read {
    read_into(store, file, offset, PAYLOAD)
}

/// What a read of this payload gives.
fn gives(payload: &[u8]) -> Read {
    let mut output = vec![b'?'; PAYLOAD];
    output[..payload.len()].copy_from_slice(payload);
    (DONE, payload.len(), output)
}

/// What a refused read gives.
fn refused(reply: u32, output: usize) -> Read {
    (reply, 0, vec![b'?'; output])
}

// ---- Lengths

#[test]
fn every_length() {
    let new = Both::formatted(8);
    for length in 0..=226 {
        let payload = Data::of(length, 7);
        let mut store = new.clone();
        let reply = store.call(Call::Write { file: 2, offset: 5, payload });
        if (1..=PAYLOAD).contains(&length) {
            assert_eq!(reply, DONE, "{length} bytes");
            let header = format!("N       1  2   5   0{length:8}: ");
            assert_eq!(store.0.image[PAGE * FIRST..][..30], *header.as_bytes());
            assert_eq!(read(&store, 2, 5), gives(&payload.bytes()), "{length} bytes");
            store.mount();
            assert_eq!(read(&store, 2, 5), gives(&payload.bytes()), "{length} bytes, mounted");
        } else {
            assert_eq!(reply, 6, "{length} bytes");
            assert!(store == new, "{length} bytes: something changed");
            assert_eq!(read(&store, 2, 5), refused(8, PAYLOAD), "{length} bytes");
        }
    }
}

/// An output of 224 bytes is asked for, however short the payload is.
#[test]
fn outputs_of_other_lengths() {
    let mut store = Both::formatted(8);
    store.done(&[write(0, 0, 40, 1), older(0, 1, 2)]);
    for output in (0..=300).filter(|&output| output != PAYLOAD) {
        for offset in 0..3 {
            assert_eq!(read_into(&store, 0, offset, output), refused(6, output), "{output} bytes");
        }
    }
}

/// What stands after a payload on its page has no part in it, spaces or not.
#[test]
fn every_second_number() {
    let new = Both::formatted(8);
    let bytes = Data::payload(3).bytes();
    for second in 0..=226 {
        let mut store = new.clone();
        let reply = store.call(append(1, 31, second, 3));
        if second > 224 {
            assert_eq!(reply, 6, "second number {second}");
            continue;
        }
        assert_eq!(reply, DONE, "second number {second}");
        let length = if second == 0 { PAYLOAD } else { second as usize };
        assert_eq!(read(&store, 1, 31), gives(&bytes[..length]), "second number {second}");
        let record = store.0.record.clone();
        store.mount();
        assert_eq!(store.0.record, record, "second number {second}");
    }
}

// ---- Power cuts

/// A write over a node of another length, cut at every byte: below 256 the former payload is read with the
/// length that it had, and from there on the new one with its own.
#[test]
fn every_cut_of_a_write() {
    let formers = [write(5, 3, 77, 1), write(5, 3, PAYLOAD, 1), write(5, 3, 1, 1), older(5, 3, 1)];
    for former in formers {
        let mut start = Both::formatted(8);
        start.done(&[former]);
        let before = read(&start, 5, 3);
        for length in [1, 40, 180, 223, 224] {
            let after = gives(&Data::of(length, 2).bytes());
            for bytes in 0..=PAGE {
                let mut store = start.clone();
                assert_eq!(store.cut(write(5, 3, length, 2), 0, bytes), CUT);
                store.mount();
                let (letter, expected) = match bytes {
                    0..30 => (b'f', &before),
                    30..PAGE => (b'd', &before),
                    _ => (b'u', &after),
                };
                assert_eq!(store.0.record.letters[1], letter, "{length} bytes cut at {bytes}");
                assert_eq!(read(&store, 5, 3), *expected, "{length} bytes cut at {bytes}");
            }
        }
    }
}

// ---- Older nodes among new ones

/// A store, and what its nodes should hold.
struct Kept {
    store: Both,
    nodes: BTreeMap<(u32, u32), Vec<u8>>,
}

impl Kept {
    /// Does a call that must succeed, and then holds every place to what it should give.
    fn done(&mut self, call: Call) {
        self.store.done(&[call]);
        match call {
            Call::Write { file, offset, payload } => {
                self.nodes.insert((file, offset), payload.bytes());
            }
            Call::Append { file, offset, second, bytes } => {
                let length = if second == 0 { PAYLOAD } else { second as usize };
                self.nodes.insert((file, offset), bytes.bytes()[..length].to_vec());
            }
            Call::CutOff { file, offset } | Call::Wipe { file, offset, .. } => {
                self.nodes.retain(|node, _| node.0 != file || node.1 < offset);
            }
            _ => {}
        }
        self.check(&format!("after {call:?}"));
        self.store.mount();
        self.check(&format!("after {call:?} and a mount"));
    }

    fn check(&self, at: &str) {
        for place in 0..PLACES {
            let (file, offset) = files::node(place);
            let (file, offset) = (file as u32, offset as u32);
            let expected = match self.nodes.get(&(file, offset)) {
                Some(payload) => gives(payload),
                None => refused(8, PAYLOAD),
            };
            assert_eq!(read(&self.store, file, offset), expected, "{at}: {file}, {offset}");
        }
    }
}

#[test]
fn older_nodes_among_new_ones() {
    let mut kept = Kept { store: Both::formatted(9), nodes: BTreeMap::new() };
    for call in [
        older(0, 0, 1),
        write(0, 1, 40, 2),
        older(2, 5, 3),
        write(2, 6, 1, 4),
        append(3, 0, 180, 5),
        write(13, 7, 224, 6),
        commit(7),
        write(0, 0, 180, 8),
        older(0, 1, 9),
        write(2, 5, 223, 10),
        older(2, 5, 11),
        Call::CutOff { file: 2, offset: 6 },
        older(0, 2, 12),
        commit(13),
        Call::Wipe { file: 0, offset: 1, noise: Data::noise(14) },
        older(0, 1, 15),
        Call::CutOff { file: 0, offset: 0 },
        Call::Wipe { file: 13, offset: 0, noise: Data::noise(16) },
    ] {
        kept.done(call);
    }
    let left: Vec<_> = kept.nodes.iter().map(|(node, bytes)| (*node, bytes.len())).collect();
    assert_eq!(left, [((2, 5), 224), ((3, 0), 180)]);
}

// ---- Second numbers, right and damaged

/// The length that a node has by these columns; none where they are no second number of a node.
fn length_in(columns: &[u8]) -> Option<usize> {
    let second = (0..=224).find(|second| format!("{second:8}").as_bytes() == columns);
    second.map(|second| if second == 0 { PAYLOAD } else { second })
}

/// Holds the library's form of a page, whole and torn, to whether it has a header.
fn check_form(page: &Page, has_header: bool) {
    let mut torn = *page;
    torn[PAGE - 1] = ERASED;
    for (page, form) in [(page, WHOLE), (&torn, TORN)] {
        let mut fields = [u32::MAX; 6];
        let reply = page::form(page, &mut fields);
        let columns = page[SECOND].escape_ascii();
        assert_eq!(reply, if has_header { form } else { SPOILT }, "second number {columns}");
        assert_eq!(Form::of(page).header().is_some(), has_header, "second number {columns}");
        assert_eq!(fields[5] != u32::MAX, has_header, "second number {columns}");
    }
}

/// A store in which the last page, a node over another or its cut-off, has these columns in its header.
fn damaged(start: &Both, columns: &[u8]) -> Both {
    let mut store = start.clone();
    let page = &mut store.0.image[PAGE * (FIRST + 1)..][..PAGE];
    page[SECOND].copy_from_slice(columns);
    store
}

fn last_page(store: &Both) -> &Page {
    store.0.image[PAGE * (FIRST + 1)..].first_chunk().expect("a page")
}

/// A store with a node of 77 bytes at file 0, offset 0 and then this call.
fn start(last: Call) -> Both {
    let mut store = Both::formatted(8);
    store.done(&[write(0, 0, 77, 1), last]);
    store
}

/// A node over another: with these columns it is a node of their length, or spoilt, and then the record
/// that names it does not fit and a mount finds the former one.
fn check_node(start: &Both, bytes: &[u8], columns: &[u8]) {
    let mut store = damaged(start, columns);
    let (at, length) = (columns.escape_ascii(), length_in(columns));
    check_form(last_page(&store), length.is_some());
    let expected = length.map_or_else(|| refused(7, PAYLOAD), |length| gives(&bytes[..length]));
    assert_eq!(read(&store, 0, 0), expected, "second number {at}");
    store.mount();
    let (sequence, letter) = (store.0.record.numbers.sequence, store.0.record.letters[1]);
    let former = Data::of(77, 1).bytes();
    let expected = gives(length.map_or(&former[..], |length| &bytes[..length]));
    assert_eq!(read(&store, 0, 0), expected, "second number {at}, mounted");
    let spent = if length.is_some() { (3, b'u') } else { (2, b'f') };
    assert_eq!((sequence, letter), spent, "second number {at}");
}

/// The cut-off of a node: with these columns it removes the node, or is spoilt and does not.
fn check_cut_off(start: &Both, columns: &[u8]) {
    let mut store = damaged(start, columns);
    let is_right = columns == b"       0";
    check_form(last_page(&store), is_right);
    store.mount();
    let former = Data::of(77, 1).bytes();
    let expected = if is_right { refused(8, PAYLOAD) } else { gives(&former) };
    assert_eq!(read(&store, 0, 0), expected, "second number {}", columns.escape_ascii());
}

/// Columns that are a node's second number, with its length.
const RIGHT: [(&[u8; 8], usize); 9] = [
    (b"       0", 224),
    (b"       1", 1),
    (b"       9", 9),
    (b"      10", 10),
    (b"      40", 40),
    (b"      99", 99),
    (b"     100", 100),
    (b"     223", 223),
    (b"     224", 224),
];

/// Columns that are none.
const WRONG: [&[u8; 8]; 28] = [
    b"     225",
    b"     226",
    b"     230",
    b"     300",
    b"     999",
    b"    1000",
    b"    1040",
    b"   10000",
    b"   65536",
    b"99999999",
    b"00000000",
    b"00000040",
    b"      00",
    b"      01",
    b"     024",
    b"    0224",
    b"4       ",
    b"      4 ",
    b"     4 0",
    b"40      ",
    b"2 2    4",
    b"        ",
    b"      4O",
    b"       x",
    b"       -",
    b"      -1",
    b"      +1",
    b"\xff\xff\xff\xff\xff\xff\xff\xff",
];

#[test]
fn second_numbers_of_nodes() {
    let store = start(append(0, 0, 180, 2));
    let bytes = Data::payload(2).bytes();
    for (columns, length) in RIGHT {
        assert_eq!(length_in(columns), Some(length));
        check_node(&store, &bytes, columns);
    }
    for columns in WRONG {
        assert_eq!(length_in(columns), None, "{}", columns.escape_ascii());
        check_node(&store, &bytes, columns);
    }
}

#[test]
fn second_numbers_of_cut_offs() {
    let store = start(Call::CutOff { file: 0, offset: 0 });
    for columns in RIGHT.map(|(columns, _)| columns).into_iter().chain(WRONG) {
        check_cut_off(&store, columns);
    }
}

#[test]
fn every_change_of_one_column() {
    let node = start(append(0, 0, 180, 2));
    let cut_off = start(Call::CutOff { file: 0, offset: 0 });
    let bytes = Data::payload(2).bytes();
    for columns in [b"       0", b"      40", b"     199", b"     224"] {
        for at in 0..columns.len() {
            for byte in 0..=255 {
                let mut changed = *columns;
                changed[at] = byte;
                check_node(&node, &bytes, &changed);
                check_cut_off(&cut_off, &changed);
            }
        }
    }
}

/// Nodes beside each other: a damaged second number is found beside right ones, and beside others that are
/// damaged alike.
#[test]
fn damaged_second_numbers_beside_others() {
    let mut start = Both::formatted(8);
    start.done(&[write(0, 0, 77, 1), write(0, 1, 40, 2), write(0, 2, 40, 3)]);
    for columns in WRONG {
        for pages in [&[0][..], &[1], &[2], &[0, 1], &[1, 2], &[0, 1, 2]] {
            let mut store = start.clone();
            for page in pages {
                store.0.image[PAGE * (FIRST + page)..][SECOND].copy_from_slice(columns);
            }
            for offset in 0..3 {
                let at = format!("second number {} on {pages:?}", columns.escape_ascii());
                assert_eq!(read(&store, 0, offset), refused(7, PAYLOAD), "{at}");
            }
        }
    }
}
