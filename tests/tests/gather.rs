//! Document 02, #102, through the library and beside the second implementation: every cut of a gather and
//! what is then in the store beside the plain book, the refusals in their order and at their edges, and where
//! copies go and what they are.

use johvimaru_tests::kept::Kept;
use johvimaru_tests::model::calls::{CUT, DONE};
use johvimaru_tests::model::copies::live_pages;
use johvimaru_tests::model::demand::{Maker, Run};
use johvimaru_tests::model::files::{self, PLACES};
use johvimaru_tests::model::image::{pages, Power, BLOCK};
use johvimaru_tests::model::list::{self, Data, Lent};
use johvimaru_tests::model::pages::{Page, DELETED, ERASED, LAST, PAGE};
use johvimaru_tests::random_lists::RandomList;
use johvimaru_tests::side_by_side::{call_by_library, compare_lent, Both, Call};
use std::ops::Range;

fn write(file: u32, offset: u32, length: usize, seed: u64) -> Call {
    Call::Write { file, offset, payload: Data::of(length, seed) }
}

/// A write that leaves this second number and all these bytes.
fn append(file: u32, offset: u32, second: u32, seed: u64) -> Call {
    Call::Append { file, offset, second, bytes: Data::payload(seed) }
}

fn gather(block: u32) -> Call {
    Call::Gather { block }
}

fn commit(seed: u64) -> Call {
    Call::Commit { noise: Data::noise(seed) }
}

/// So many nodes, on the pages from 48 on.
fn nodes(count: usize) -> Vec<Call> {
    let node = |place| files::node(place);
    (0..count).map(|place| write(node(place).0 as u32, node(place).1 as u32, 50, 9)).collect()
}

/// A store of 8 blocks after these calls.
fn after(calls: &[Call]) -> Both {
    let mut store = Both::formatted(8);
    store.done(calls);
    store
}

/// Records of several lengths, older ones and others, on pages 49 to 54, after a node on page 48 that is
/// replaced by that on 52 and before one that is removed. Block 3 has eight open pages.
fn records() -> Both {
    after(&[
        write(0, 0, 40, 1),
        write(0, 1, 224, 2),
        append(1, 0, 0, 3),
        append(2, 5, 180, 4),
        write(0, 0, 1, 5),
        write(13, 7, 223, 6),
        write(2, 6, 33, 7),
        Call::CutOff { file: 2, offset: 6 },
    ])
}

fn live(store: &Both, block: usize) -> Vec<usize> {
    live_pages(&store.0.record.map, block)
}

fn page(store: &Both, number: usize) -> &Page {
    &pages(&store.0.image)[number]
}

fn is_empty(store: &Both, block: usize) -> bool {
    store.0.image[BLOCK * block..][..BLOCK].iter().all(|&byte| byte == ERASED)
}

/// A call that is refused with this number and changes nothing.
fn refused(store: &Both, call: Call, reply: u32, at: &str) {
    let mut other = store.clone();
    assert_eq!(other.call(call), reply, "{at}");
    assert!(other == *store, "{at}: refused, and something changed");
}

// ---- Where copies go, and what they are

/// The copies of these pages stand on those: with sequences from this one on, and every other byte as it was.
fn check_copies(before: &Both, store: &Both, from: &[usize], to: Range<usize>, sequence: u32) {
    assert_eq!(from.len(), to.len());
    for ((from, to), sequence) in from.iter().zip(to).zip(sequence..) {
        let mut expected = *page(before, *from);
        expected[1..9].copy_from_slice(format!("{sequence:8}").as_bytes());
        assert!(*page(store, to) == expected, "page {to} is not the copy of {from}");
    }
}

#[test]
fn copies_are_the_pages_with_new_sequences() {
    let before = records();
    let mut store = before.clone();
    let from = live(&store, 3);
    assert_eq!(from, [49, 50, 51, 52, 53]);
    store.done(&[gather(3)]);
    check_copies(&before, &store, &from, 64..69, 9);
    assert_eq!(page(&store, 65)[20..28], *b"       0", "an older recorder's");
    assert_eq!(page(&store, 66)[20..28], *b"     180");
    assert_eq!(page(&store, 67)[20..28], *b"       1");
    assert_eq!(store.0.image[..64 * PAGE], before.0.image[..64 * PAGE], "the old block stays");
    assert_eq!(store.0.image[69 * PAGE..], before.0.image[69 * PAGE..]);

    let (now, then) = (&store.0.record, &before.0.record);
    assert_eq!(now.letters, then.letters);
    assert_eq!(now.map[PLACES..], then.map[PLACES..], "keys");
    assert_eq!(now.numbers.sequence, then.numbers.sequence + 5);
    assert_eq!((live(&store, 3), live(&store, 4)), (vec![], vec![64, 65, 66, 67, 68]));
    for place in 0..PLACES {
        let (file, offset) = files::node(place);
        let (file, offset) = (file as u32, offset as u32);
        assert_eq!(store.content(file, offset), before.content(file, offset), "place {place}");
    }
    let record = store.0.record.clone();
    store.mount();
    assert_eq!(store.0.record, record);
}

/// From block 3 to 4 and back to the open pages of 3, which are below, and up again to those of 4. The open
/// pages of the block that is gathered are passed over.
#[test]
fn back_and_forth() {
    let mut store = records();
    for (block, to) in [(3, 64..69), (4, 56..61), (3, 69..74), (4, 61..66)] {
        let (before, sequence) = (store.clone(), store.0.record.numbers.sequence);
        let from = live(&store, block);
        store.done(&[gather(block as u32)]);
        match block {
            4 if to.end > 64 => {
                check_copies(&before, &store, &from[..3], 61..64, sequence);
                check_copies(&before, &store, &from[3..], 80..82, sequence + 3);
            }
            _ => check_copies(&before, &store, &from, to, sequence),
        }
        assert!(live(&store, block).is_empty());
    }
    store.mount();
    assert_eq!((live(&store, 3), live(&store, 5)), (vec![61, 62, 63], vec![80, 81]));
}

/// The next commit erases a gathered block; gathers alone erase nothing.
#[test]
fn the_next_commit_erases_the_block() {
    let mut store = after(&nodes(20));
    store.done(&[gather(3)]);
    assert!(!is_empty(&store, 3) && live(&store, 3).is_empty());
    refused(&store, gather(3), 15, "a dead data block");
    store.done(&[commit(5)]);
    assert!(is_empty(&store, 3), "a block that was gathered");
    refused(&store, gather(3), 15, "an empty block");
    assert_eq!(live(&store, 4).len() + live(&store, 5).len(), 20);
    store.done(&[gather(4), commit(6), gather(5), write(0, 0, 4, 7), commit(8)]);
    let before = after(&nodes(20));
    for place in 1..20 {
        let (file, offset) = files::node(place);
        let (file, offset) = (file as u32, offset as u32);
        assert_eq!(store.content(file, offset), before.content(file, offset), "place {place}");
    }
}

/// Where the last commit covers all headers of a gathered block, the next mount erases it, be mounts before it
/// cut. Else it waits for the next commit.
#[test]
fn the_next_mount_erases_a_covered_block() {
    let mut store = after(&nodes(16));
    store.done(&[gather(3)]);
    store.mount();
    assert!(!is_empty(&store, 3), "its headers are above what format covers");
    store.done(&[commit(5)]);
    let [from, to] = [3, 4].map(|block| is_empty(&store, block));
    assert_eq!((from, to, live(&store, 4).len()), (true, false, 16));

    store.done(&[gather(4)]);
    let block = usize::from(store.0.record.map[0]) / 16;
    assert!(!is_empty(&store, 4) && live(&store, 4).is_empty() && block != 4);
    for bytes in [0, 1_000, BLOCK] {
        let mut cut = store.clone();
        assert_eq!(cut.cut(Call::MOUNT, 0, bytes), CUT);
        assert_eq!(cut.cut(Call::MOUNT, 1, bytes), CUT);
        cut.mount();
        assert!(is_empty(&cut, 4), "a block that was gathered and is covered");
        assert_eq!(live(&cut, block).len(), 16);
        assert_eq!(cut.0.record, store.0.record);
    }
}

/// A node that was replaced and one that was removed are not copied, and their keys stay deleted.
#[test]
fn dead_pages_are_not_copied() {
    let mut store = after(&nodes(16));
    store.done(&[write(0, 5, 7, 1), Call::CutOff { file: 0, offset: 12 }]);
    let letters = store.0.record.letters.clone();
    assert_eq!(letters.iter().filter(|&&letter| letter == DELETED).count(), 5);
    store.done(&[gather(3)]);
    assert_eq!(live(&store, 4), (64..65).chain(66..77).collect::<Vec<_>>());
    assert_eq!(store.0.record.letters, letters);
    store.mount();
    assert_eq!(store.0.record.letters, letters);
}

/// The order of copies is that of pages, whatever the order of their places.
#[test]
fn places_in_any_order() {
    let places = [200, 3, 117, 90, 223, 0, 64, 31];
    let mut store = Both::formatted(8);
    for (seed, place) in (0..).zip(places) {
        let (file, offset) = files::node(place);
        store.done(&[write(file as u32, offset as u32, 8, seed)]);
    }
    store.done(&[gather(3)]);
    assert!(places.iter().zip(64..).all(|(&place, page)| store.0.record.map[place] == page));
}

/// The last block of the largest image.
#[test]
fn the_last_block() {
    let mut store = Both::formatted(256);
    store.done(&nodes(16));
    store.0.image.copy_within(3 * BLOCK..4 * BLOCK, 255 * BLOCK);
    for named in &mut store.0.record.map[..16] {
        *named += 252 * 16;
    }
    store.0.image[3 * BLOCK..4 * BLOCK].fill(ERASED);
    assert_eq!(live(&store, 255).len(), 16);
    let before = store.clone();
    store.done(&[gather(255)]);
    check_copies(&before, &store, &live(&before, 255), 48..64, 17);
    refused(&store, gather(255), 15, "a dead data block");
}

// ---- Refusals

/// A store in which block 3 has three live pages and all others are written again and again until so many
/// writes were made. Blocks 3 to 6 take 64, and one block stays empty.
fn three_live(writes: usize) -> Both {
    let mut store = after(&nodes(16));
    let others = (3..16).map(files::node).cycle();
    for (file, offset) in others.take(writes - 16) {
        store.done(&[write(file as u32, offset as u32, 20, 3)]);
    }
    assert_eq!(live(&store, 3), [48, 49, 50]);
    store
}

/// As many open pages as live ones do, and one fewer do not, unless a block can be taken.
#[test]
fn room_at_its_edge() {
    for (writes, to) in [(61, [109, 110, 111]), (60, [108, 109, 110]), (48, [96, 97, 98])] {
        let (before, mut store) = (three_live(writes), three_live(writes));
        store.done(&[gather(3)]);
        assert_eq!(store.0.record.map[..3], to, "{writes} writes");
        let (to, sequence) = (usize::from(to[0]), before.0.record.numbers.sequence);
        check_copies(&before, &store, &[48, 49, 50], to..to + 3, sequence);
    }
    for writes in [62, 63, 64] {
        refused(&three_live(writes), gather(3), 10, &format!("{writes} writes"));
    }
}

/// The copies that open pages do not take go to a fresh block.
#[test]
fn a_fresh_block_half_way() {
    for (writes, to) in [(45, [93, 94, 95]), (46, [94, 95, 96]), (47, [95, 96, 97])] {
        let mut store = three_live(writes);
        store.done(&[gather(3)]);
        assert_eq!(store.0.record.map[..3], to, "{writes} writes");
        store.mount();
        assert_eq!(store.0.record.map[..3], to, "{writes} writes, mounted");
    }
}

/// A sequence for each copy, the last of them 99,999,999.
#[test]
fn sequences_at_their_edge() {
    for count in 1..=16 {
        let mut store = after(&nodes(count));
        let spent = [count - 1, count / 2, 0];
        for left in spent {
            store.0.record.numbers.sequence = LAST + 1 - left as u32;
            refused(&store, gather(3), 11, &format!("{left} sequences for {count} copies"));
        }
        store.0.record.numbers.sequence = LAST + 1 - count as u32;
        let mut next = store.clone();
        next.0.record.numbers.sequence -= 1;
        next.done(&[gather(3), write(13, 0, 1, 1)]);
        store.done(&[gather(3)]);
        assert_eq!(store.0.record.numbers.sequence, LAST + 1);
        assert_eq!(page(&store, 63 + count)[1..9], *b"99999999");
        refused(&store, gather(4), 11, "no sequence is left");
        let record = store.0.record.clone();
        store.mount();
        assert_eq!(store.0.record, record);
    }
}

/// Chosen, empty and dead blocks, and numbers outside the image: also those whose pages, counted without care,
/// are 65,535, which is none, or those of a block that is there.
#[test]
fn blocks_without_a_live_page() {
    let mut store = records();
    store.done(&[gather(3)]);
    let outside = [8, 9, 255, 256, 4_095, 4_096, 1 << 12 | 4, 1 << 16 | 4, 1 << 28 | 4, u32::MAX];
    for block in [0, 1, 2, 3, 5, 6, 7].into_iter().chain(outside) {
        refused(&store, gather(block), 15, &format!("block {block}"));
    }
    store.done(&[gather(4)]);
    let mut vacant = Both::formatted(256);
    vacant.done(&[write(0, 0, 1, 1), Call::CutOff { file: 0, offset: 0 }]);
    for block in [3, 255, 256, 4_095, u32::MAX] {
        refused(&vacant, gather(block), 15, &format!("block {block} of 256"));
    }
}

/// Every set of faults: the first in the order of the document decides.
#[test]
fn the_first_fault_decides() {
    let (open, full) = (three_live(48), three_live(63));
    for faults in 0..1_u32 << 7 {
        let has = |bit: u32| faults >> bit & 1 == 1;
        let Both(mut store) = if has(6) { full.clone() } else { open.clone() };
        if has(5) {
            store.record.numbers.sequence = LAST - 1;
        }
        if has(3) {
            store.record.letters[440] = b'u';
        }
        let lent = Lent {
            image: if has(0) { -1 } else { 0 },
            map: if has(1) { 1 } else { 0 },
            letters: if has(2) { -1 } else { 0 },
        };
        let call = gather(if has(4) { 7 } else { 3 });
        let numbers = [1, 2, 2, 7, 15, 11, 10];
        let first = (0..7).find(|&bit| has(bit)).map_or(DONE, |bit| numbers[bit as usize]);
        let reply = compare_lent(&store, call, Power::STAYS, lent);
        assert_eq!(reply, Ok(first), "faults {faults:b}");
        if lent == Lent::RIGHT && first != DONE {
            refused(&Both(store), call, first, &format!("faults {faults:b}"));
        }
    }
}

/// A record that does not fit for a page of the block, or of another.
#[test]
fn records_that_do_not_fit() {
    let store = records();
    for page in [49, 53] {
        for at in [0, 8, 11, 15, 19, 27, 28, 254, 255] {
            let mut other = store.clone();
            other.0.image[PAGE * page + at] = b'x';
            refused(&other, gather(3), 7, &format!("byte {at} of page {page}"));
            refused(&other, gather(0), 7, &format!("byte {at} of page {page}"));
        }
    }
    let mut twice = store.clone();
    twice.0.record.map[0] = twice.0.record.map[1];
    refused(&twice, gather(3), 7, "one page at two places");
}

// ---- Power cuts

/// Five live pages in block 3 between dead ones, and one more node on a page of block 4.
fn thin() -> Kept {
    let write = |file, offset, length, seed| {
        let payload = Data::of(length, seed);
        list::Call::Write { file, offset, payload }
    };
    let mut calls: Vec<_> = (0..9).map(|seed| write(0, 0, 30, seed)).collect();
    calls.extend([write(0, 1, 224, 11), write(1, 31, 1, 12), write(2, 5, 180, 13)]);
    let bytes = Data::payload(14);
    calls.push(list::Call::Append { file: 3, offset: 0, second: 0, bytes });
    calls.push(list::Call::Append { file: 3, offset: 1, second: 60, bytes });
    calls.extend([write(4, 4, 5, 15), write(4, 4, 6, 16), write(0, 0, 40, 17)]);
    calls.push(list::Call::CutOff { file: 2, offset: 5 });
    Kept::after(8, &calls)
}

/// A gather cut at every byte of every step and a mount: the files are the book's, which the gather leaves. The
/// same gather and a commit then finish, and the block is empty.
#[test]
fn every_cut_of_a_gather() {
    let kept = thin();
    let (call, count) = (list::Call::Gather { block: 3 }, live(&kept.store, 3).len());
    assert_eq!(count, 5);
    for (n, k) in (0..count).flat_map(|n| (0..=PAGE).map(move |k| (n, k))) {
        let at = format!("cut at {n}, {k}");
        let mut cut = kept.clone();
        assert_eq!(cut.call(call, Power::cut(n, k)), CUT, "{at}");
        assert!(live(&cut.store, 3).is_empty(), "{at}: the record is that after the whole call");
        cut.store.mount();
        cut.check(&at);
        let copied = n + usize::from(k == PAGE);
        assert_eq!(live(&cut.store, 3).len(), count - copied, "{at}");
        let headed = (n + usize::from(k >= 30)) as u32;
        let sequence = kept.store.0.record.numbers.sequence + headed;
        assert_eq!(cut.store.0.record.numbers.sequence, sequence, "{at}");
        let reply = cut.call(call, Power::STAYS);
        assert_eq!(reply, if copied < count { DONE } else { 15 }, "{at}, again");
        let noise = Data::noise(40);
        assert_eq!(cut.call(list::Call::Commit { noise }, Power::STAYS), DONE, "{at}, commit");
        cut.check(&format!("{at}, gathered again"));
        assert!(is_empty(&cut.store, 3), "{at}: block 3");
    }
}

/// With power for all its steps or more a gather is done.
#[test]
fn power_for_every_step() {
    let kept = thin();
    let mut whole = kept.clone();
    assert_eq!(whole.call(list::Call::Gather { block: 3 }, Power::STAYS), DONE);
    whole.check("whole");
    for n in [5, 6, 16, 1_000, usize::MAX - 1] {
        let mut last = kept.clone();
        assert_eq!(last.call(list::Call::Gather { block: 3 }, Power::cut(n, 0)), DONE);
        assert!(last.store == whole.store, "power for {n} steps");
    }
    for k in [257, 4_096, usize::MAX] {
        let mut cut = kept.clone();
        assert_eq!(cut.call(list::Call::Gather { block: 3 }, Power::cut(4, k)), CUT);
        assert!(cut.store == whole.store, "{k} bytes of the last step");
    }
}

/// Cuts upon cuts: each leaves torn copies of the same nodes, and all of them stand under the key of their node.
#[test]
fn many_cuts_of_one_gather() {
    let mut run = Run::by(Maker::Other(call_by_library), 9, 3);
    let mut step = |call: list::Call, power| {
        let event = list::Event { power, ..call.into() };
        run.step(&event).unwrap_or_else(|broken| panic!("{event}: {broken}"))
    };
    for seed in 0..6 {
        let payload = Data::of(30 * seed + 1, seed as u64);
        step(list::Call::Write { file: seed, offset: 0, payload }, Power::STAYS);
    }
    let mut replies = Vec::new();
    for (n, k) in [(0, 30), (1, 31), (1, 200), (0, 255), (2, 254), (1, 256), (0, 1), (3, 100)] {
        for block in [3, 4] {
            replies.extend(step(list::Call::Gather { block }, Power::cut(n, k)));
            step(list::Call::MOUNT, Power::STAYS);
        }
    }
    assert!(replies.iter().filter(|&&reply| reply == CUT).count() >= 8, "{replies:?}");
    step(list::Call::Commit { noise: Data::noise(1) }, Power::STAYS);
}

// ---- Lists held to the book

/// The library in the place of the second implementation in random lists: what demand 3 asks holds of it after
/// each call, gathers among them.
#[test]
fn random_lists_by_the_library() {
    let mut gathers = [0; 256];
    for seed in 0..600 {
        let blocks = [8, 9, 12][seed as usize % 3];
        let mut list = RandomList::new(seed, blocks);
        let mut run = Run::by(Maker::Other(call_by_library), blocks, seed);
        for number in 0..list.length {
            let event = list.next(run.on);
            let reply = run.step(&event).unwrap_or_else(|broken| {
                panic!("{blocks} blocks, seed {seed}, call {number}, {event}: {broken}")
            });
            if matches!(event.call, list::Call::Gather { .. }) {
                gathers[reply.unwrap_or(0) as usize] += 1;
            }
        }
    }
    assert!([0, 15, 255].iter().all(|&reply| gathers[reply] > 50), "{gathers:?}");
}
