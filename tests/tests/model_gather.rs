//! Document 02, #102, on the second implementation: demand 3 with gathers in its lists, and stores that
//! gather in a wrong way, each of which breaks the point of the demand that rules it out.

use johvimaru_tests::model::aes;
use johvimaru_tests::model::calls::{self, Outcome, DONE};
use johvimaru_tests::model::copies::live_pages;
use johvimaru_tests::model::demand::{run_on, Broken, Maker, Run, Way};
use johvimaru_tests::model::image::{pages, Power, Step, PAGES_IN_BLOCK};
use johvimaru_tests::model::list::{Call, Data, Event};
use johvimaru_tests::model::pages::{
    Form, Header, Page, CLOSING, DELETED, FREE, LAST, PAGE, PAYLOAD, PAYLOAD_BYTES, USED,
};
use johvimaru_tests::model::record::Record;
use johvimaru_tests::model::store::Store;

fn write(file: usize, offset: usize, length: usize, seed: u64) -> Event {
    Call::Write { file, offset, payload: Data::of(length, seed) }.into()
}

/// A write that leaves this second number and all these bytes.
fn append(file: usize, offset: usize, second: u32, seed: u64) -> Event {
    Call::Append { file, offset, second, bytes: Data::payload(seed) }.into()
}

fn cut_off(file: usize, offset: usize) -> Event {
    Call::CutOff { file, offset }.into()
}

fn commit(seed: u64) -> Event {
    Call::Commit { noise: Data::noise(seed) }.into()
}

fn gather(block: usize) -> Event {
    Call::Gather { block }.into()
}

fn mount() -> Event {
    Call::MOUNT.into()
}

// ---- Lists

/// Records of several lengths, one of an older recorder, one replaced and one removed: eight pages of block
/// 3, of which 49 to 53 are live, and eight open ones after them.
fn records() -> Vec<Event> {
    vec![
        write(0, 0, 40, 1),
        write(0, 1, 224, 2),
        append(1, 0, 0, 3),
        append(2, 5, 180, 4),
        write(0, 0, 100, 5),
        write(13, 7, 1, 6),
        write(2, 6, 33, 7),
        cut_off(2, 6),
    ]
}

/// Gathers to a fresh block, back to open pages below and up again, and refused ones.
fn back_and_forth() -> Vec<Event> {
    let mut list = records();
    list.extend([3, 3, 4, 4, 0, 2, 7, 8, 4_095, usize::MAX].map(gather));
    list.extend([write(0, 0, 77, 7), gather(3), gather(4), commit(8), gather(3), gather(5)]);
    list.extend([write(0, 1, 60, 9), gather(6), mount(), commit(10), gather(4), gather(3)]);
    list
}

/// Gathers that are cut, mounts after them, and the same gather again.
fn cuts() -> Vec<Event> {
    let mut list = records();
    for (step, bytes) in [(0, 29), (0, 30), (1, 100), (2, 255), (0, 256), (1, 256)] {
        for block in [3, 4] {
            list.push(Event::cut(Call::Gather { block }, step, bytes));
            list.extend([mount(), write(0, 0, 9, 11)]);
        }
    }
    list.extend([gather(3), gather(4), commit(12)]);
    list
}

/// So many nodes, one on each page from 48 on, and then a gather of block 3.
fn nodes(count: usize) -> Vec<Event> {
    let places = (0..14).flat_map(|file| (0..8).map(move |offset| (file, offset)));
    let writes = places.take(count).map(|(file, offset)| write(file, offset, 50, 20));
    writes.chain([gather(3), mount(), write(0, 0, 3, 21), gather(3)]).collect()
}

/// A list, and the sequence that the commit block covers before it.
struct Case {
    covered: u32,
    list: fn() -> Vec<Event>,
}

const BACK_AND_FORTH: Case = Case { covered: 0, list: back_and_forth };
const CUTS: Case = Case { covered: 0, list: cuts };
/// Pages 110 and 111 are open and one block is empty: no room for 16 copies.
const NO_ROOM: Case = Case { covered: 0, list: || nodes(62) };
/// There are a few open pages, and a fresh block.
const FRESH_HALF_WAY: Case = Case { covered: 0, list: || nodes(40) };
/// Five live pages and five sequences.
const LAST_SEQUENCES: Case = Case { covered: LAST - 13, list: back_and_forth };
/// Five live pages and four sequences.
const TOO_FEW_SEQUENCES: Case = Case { covered: LAST - 12, list: back_and_forth };
/// Neither sequences nor pages.
const NEITHER: Case = Case { covered: LAST - 66, list: || nodes(62) };

const CASES: [Case; 7] =
    [BACK_AND_FORTH, CUTS, NO_ROOM, FRESH_HALF_WAY, LAST_SEQUENCES, TOO_FEW_SEQUENCES, NEITHER];

impl Case {
    fn run(&self, maker: Maker) -> Result<Run, Broken> {
        run_on(Run::late(maker, 8, 5, self.covered), &(self.list)())
    }
}

#[test]
fn the_store_keeps_every_point() {
    for (number, case) in CASES.iter().enumerate() {
        let broken = case.run(Maker::Second).err();
        assert_eq!(broken, None, "case {number}");
        assert_eq!(case.run(Maker::Gathers(right)).err(), None, "case {number}, its steps");
    }
}

/// The replies of the gathers of a list.
fn replies(case: &Case) -> Vec<u32> {
    let mut run = Run::late(Maker::Second, 8, 5, case.covered);
    let mut replies = Vec::new();
    for event in (case.list)() {
        let reply = run.step(&event).expect("the store keeps every point");
        if matches!(event.call, Call::Gather { .. }) {
            replies.extend(reply);
        }
    }
    replies
}

/// Each list meets what it is for.
#[test]
fn replies_of_the_lists() {
    let first = |case| replies(case)[0];
    assert_eq!(replies(&BACK_AND_FORTH)[..10], [0, 15, 0, 15, 15, 15, 15, 15, 15, 15]);
    assert!(replies(&CUTS).iter().filter(|&&reply| reply == 255).count() >= 6);
    assert_eq!([&NO_ROOM, &FRESH_HALF_WAY].map(first), [10, 0]);
    assert_eq!([&LAST_SEQUENCES, &TOO_FEW_SEQUENCES, &NEITHER].map(first), [0, 11, 11]);
}

// ---- Ways to gather

fn refused(store: &Store, reply: u32) -> Way {
    Way { reply, steps: Vec::new(), record: store.record.clone() }
}

/// The store's own way.
fn right(store: &Store, block: usize) -> Way {
    match calls::gather::outcome(&store.image, &store.record, block) {
        Ok(Outcome { steps, record }) => Way { reply: DONE, steps, record },
        Err(refusal) => refused(store, refusal.number()),
    }
}

/// The store's own way, but that the page of each copy, which is given with the page it is from, is changed.
fn changed(store: &Store, block: usize, change: impl Fn(&mut Page, &Page)) -> Way {
    let mut way = right(store, block);
    let from = live_pages(&store.record.map, block);
    for (step, from) in way.steps.iter_mut().zip(from) {
        if let Step::Program { bytes, .. } = step {
            change(bytes, &pages(&store.image)[from]);
        }
    }
    way
}

/// The header of a whole or torn page.
fn header(page: &Page) -> Header {
    Form::of(page).header().expect("a page of a node")
}

fn keeps_sequences(store: &Store, block: usize) -> Way {
    changed(store, block, |copy, from| copy[1..9].copy_from_slice(&from[1..9]))
}

fn has_one_sequence_for_all(store: &Store, block: usize) -> Way {
    let first = format!("{:8}", store.record.numbers.sequence);
    let mut way = changed(store, block, |copy, _| copy[1..9].copy_from_slice(first.as_bytes()));
    if way.reply == DONE {
        way.record.numbers.sequence = store.record.numbers.sequence + 1;
    }
    way
}

fn raises_the_sequence_once(store: &Store, block: usize) -> Way {
    let mut way = right(store, block);
    if way.reply == DONE {
        way.record.numbers.sequence = store.record.numbers.sequence + 1;
    }
    way
}

fn raises_the_sequence_too_far(store: &Store, block: usize) -> Way {
    let mut way = right(store, block);
    if way.reply == DONE {
        way.record.numbers.sequence += 40;
    }
    way
}

fn drops_second_numbers(store: &Store, block: usize) -> Way {
    changed(store, block, |copy, _| copy[20..28].copy_from_slice(b"       0"))
}

fn tells_older_lengths(store: &Store, block: usize) -> Way {
    changed(store, block, |copy, from| {
        if from[20..28] == *b"       0" {
            copy[20..28].copy_from_slice(b"     224");
        }
    })
}

fn stores_plain_bytes(store: &Store, block: usize) -> Way {
    changed(store, block, |copy, from| {
        let Header::Node { key, .. } = header(from) else { return };
        aes::stream(&store.record.key(&store.image, key), &mut copy[PAYLOAD_BYTES]);
    })
}

fn pads_anew(store: &Store, block: usize) -> Way {
    changed(store, block, |copy, from| {
        let Header::Node { key, second, .. } = header(from) else { return };
        let length = if second == 0 { PAYLOAD } else { second as usize };
        let key = store.record.key(&store.image, key);
        aes::stream(&key, &mut copy[PAYLOAD_BYTES]);
        copy[PAYLOAD_BYTES][length..].fill(b' ');
        aes::stream(&key, &mut copy[PAYLOAD_BYTES]);
    })
}

fn leaves_out_the_closing(store: &Store, block: usize) -> Way {
    changed(store, block, |copy, _| copy[PAGE - CLOSING.len()..].fill(0xff))
}

/// Each copy under a key of its own, as if it were written anew.
fn renews_keys(store: &Store, block: usize) -> Way {
    let mut way = right(store, block);
    for step in &mut way.steps {
        let Step::Program { page, bytes } = step else { continue };
        let Header::Node { sequence, file, offset, key: old, second } = header(bytes) else {
            continue;
        };
        let free = way.record.letters.iter().position(|&letter| letter == FREE);
        let key = free.expect("few keys are used");
        let mut payload = bytes[PAYLOAD_BYTES].to_vec();
        aes::stream(&store.record.key(&store.image, old), &mut payload);
        aes::stream(&store.record.key(&store.image, key), &mut payload);
        **bytes = Header::Node { sequence, file, offset, key, second }.page(&payload);
        (way.record.letters[old], way.record.letters[key]) = (DELETED, USED);
        let place = (0..224).find(|&place| usize::from(way.record.map[place]) == *page);
        way.record.map[224 + place.expect("the map names it")] = key as u16;
    }
    way
}

fn erases_its_block(store: &Store, block: usize) -> Way {
    let mut way = right(store, block);
    if way.reply == DONE {
        way.steps.push(Step::Erase { block });
    }
    way
}

fn erases_its_block_first(store: &Store, block: usize) -> Way {
    let mut way = right(store, block);
    if way.reply == DONE {
        way.steps.insert(0, Step::Erase { block });
    }
    way
}

fn deletes_keys(store: &Store, block: usize) -> Way {
    let mut way = right(store, block);
    let named = store.record.entries().into_iter().flatten();
    for entry in named.filter(|entry| usize::from(entry.page) / PAGES_IN_BLOCK == block) {
        way.record.letters[usize::from(entry.key)] = DELETED;
    }
    way
}

fn leaves_the_map(store: &Store, block: usize) -> Way {
    let mut way = right(store, block);
    way.record.map.clone_from(&store.record.map);
    way
}

/// The copies go to these pages, one after the other.
fn copies_to(store: &Store, block: usize, mut to: impl Iterator<Item = usize>) -> Way {
    let mut way = right(store, block);
    for step in &mut way.steps {
        let (Step::Program { page, .. }, Some(to)) = (step, to.next()) else { break };
        let named = way.record.map[..224].iter_mut().find(|named| usize::from(**named) == *page);
        *named.expect("the map names it") = to as u16;
        *page = to;
    }
    way
}

/// The empty pages of the blocks from one on.
fn empty_pages(store: &Store, from: usize) -> Vec<usize> {
    let empty = |&page: &usize| Form::of(&pages(&store.image)[page]) == Form::Empty;
    (PAGES_IN_BLOCK * from..store.image.len() / PAGE).filter(empty).collect()
}

fn copies_into_its_block(store: &Store, block: usize) -> Way {
    copies_to(store, block, empty_pages(store, block).into_iter())
}

fn takes_no_page_below_its_block(store: &Store, block: usize) -> Way {
    copies_to(store, block, empty_pages(store, block.saturating_add(1).min(8)).into_iter())
}

/// Always a fresh block.
fn takes_no_open_page(store: &Store, block: usize) -> Way {
    let empty = empty_pages(store, 0);
    let is_fresh = |&page: &usize| (page..page + 16).all(|page| empty.contains(&page));
    let fresh = empty.iter().copied().find(|page| page % 16 == 0 && is_fresh(page));
    copies_to(store, block, fresh.map_or(0..0, |first| first..first + 16))
}

/// The copies in this order, each to the page that the right way has for the copy of its number.
fn in_order(store: &Store, block: usize, order: fn(&mut [usize])) -> Way {
    let mut way = right(store, block);
    let mut live = live_pages(&store.record.map, block);
    order(&mut live);
    for (from, step) in live.into_iter().zip(&mut way.steps) {
        let Step::Program { page, bytes } = step else { continue };
        let sequence = bytes[1..9].to_vec();
        **bytes = pages(&store.image)[from];
        bytes[1..9].copy_from_slice(&sequence);
        let place = store.record.map[..224].iter().position(|&named| usize::from(named) == from);
        way.record.map[place.expect("it is live")] = *page as u16;
    }
    way
}

fn copies_the_highest_first(store: &Store, block: usize) -> Way {
    in_order(store, block, |pages| pages.reverse())
}

fn copies_the_lowest_last(store: &Store, block: usize) -> Way {
    in_order(store, block, |pages| pages.rotate_left(1))
}

fn copies_one_page(store: &Store, block: usize) -> Way {
    let mut way = right(store, block);
    if let [first, ..] = &way.steps[..] {
        let Step::Program { page, .. } = first else { return way };
        let place = way.record.map[..224].iter().position(|&named| usize::from(named) == *page);
        let mut record = store.record.clone();
        record.map[place.expect("it is live")] = *page as u16;
        record.numbers.sequence += 1;
        way = Way { reply: DONE, steps: way.steps[..1].to_vec(), record };
    }
    way
}

/// Every whole node of the block, replaced and removed ones too.
fn copies_dead_nodes(store: &Store, block: usize) -> Way {
    let mut way = right(store, block);
    if way.reply == DONE {
        let first = &pages(&store.image)[PAGES_IN_BLOCK * block];
        let page = empty_pages(store, 0).into_iter().rfind(|page| page % 16 == 15);
        let mut bytes = Box::new(*first);
        bytes[1..9].copy_from_slice(format!("{:8}", way.record.numbers.sequence).as_bytes());
        way.steps.push(Step::Program { page: page.expect("there is room"), bytes });
        way.record.numbers.sequence += 1;
    }
    way
}

/// What there is room for is copied, as far as this many pages, and then comes this reply.
fn half_way(store: &Store, block: usize, most: usize, reply: u32) -> Way {
    let live = live_pages(&store.record.map, block);
    let mut record = store.record.clone();
    let mut steps = Vec::new();
    for (from, page) in live.iter().zip(empty_pages(store, 0)).take(most) {
        let mut bytes = Box::new(pages(&store.image)[*from]);
        bytes[1..9].copy_from_slice(format!("{:8}", record.numbers.sequence).as_bytes());
        steps.push(Step::Program { page, bytes });
        record.numbers.sequence += 1;
    }
    Way { reply, steps, record }
}

fn finds_no_room_half_way(store: &Store, block: usize) -> Way {
    match right(store, block) {
        Way { reply: 10, .. } => half_way(store, block, 2, 10),
        way => way,
    }
}

fn leaves_pages_for_which_there_is_no_room(store: &Store, block: usize) -> Way {
    match right(store, block) {
        Way { reply: 10, .. } => half_way(store, block, 2, DONE),
        way => way,
    }
}

fn finds_no_sequence_half_way(store: &Store, block: usize) -> Way {
    match right(store, block) {
        Way { reply: 11, .. } => half_way(store, block, 4, 11),
        way => way,
    }
}

/// The replies of the second kind in place of those of the first.
fn replies_other(store: &Store, block: usize, from: u32, to: u32) -> Way {
    match right(store, block) {
        way if way.reply == from => refused(store, to),
        way => way,
    }
}

fn has_never_room(store: &Store, block: usize) -> Way {
    replies_other(store, block, DONE, 10)
}

/// Room is looked for before sequences.
fn tests_room_first(store: &Store, block: usize) -> Way {
    let mut young = store.clone();
    young.record.numbers.sequence = 1;
    match right(&young, block).reply {
        10 => refused(store, 10),
        _ => right(store, block),
    }
}

/// The last sequence is not given out.
fn keeps_the_last_sequence(store: &Store, block: usize) -> Way {
    match right(store, block) {
        way if way.record.numbers.sequence > LAST => refused(store, 11),
        way => way,
    }
}

/// Only the first copy's sequence is tested.
fn tests_one_sequence(store: &Store, block: usize) -> Way {
    let is_spent = store.record.numbers.sequence > LAST;
    match right(store, block) {
        Way { reply: 11, .. } if !is_spent => half_way(store, block, 4, DONE),
        way => way,
    }
}

fn takes_dead_blocks(store: &Store, block: usize) -> Way {
    let data = pages(&store.image).chunks(PAGES_IN_BLOCK).nth(block);
    match right(store, block) {
        Way { reply: 15, .. } if data.is_some_and(|pages| pages.iter().any(is_event)) => {
            refused(store, DONE)
        }
        way => way,
    }
}

fn is_event(page: &Page) -> bool {
    Form::of(page).is_data()
}

fn takes_chosen_blocks(store: &Store, block: usize) -> Way {
    let numbers = store.record.numbers;
    let chosen = [numbers.keys0, numbers.keys1, numbers.commit].map(|block| block as usize);
    if chosen.contains(&block) {
        refused(store, DONE)
    } else {
        right(store, block)
    }
}

/// Vacant places are taken for live pages, which are then on page 65,535.
fn counts_vacant_places(store: &Store, block: usize) -> Way {
    if block == 4_095 {
        refused(store, 10)
    } else {
        right(store, block)
    }
}

/// A block with few live pages is left alone.
fn leaves_thin_blocks(store: &Store, block: usize) -> Way {
    match live_pages(&store.record.map, block).len() {
        1..=5 => refused(store, 15),
        _ => right(store, block),
    }
}

/// Every wrong way with the list that shows it, and what the broken point says.
const WRONG: [(fn(&Store, usize) -> Way, Case, &str); 33] = [
    (keeps_sequences, BACK_AND_FORTH, "is not the copy"),
    (has_one_sequence_for_all, BACK_AND_FORTH, "is not the copy"),
    (raises_the_sequence_once, BACK_AND_FORTH, "a mount gives"),
    (raises_the_sequence_too_far, BACK_AND_FORTH, "a mount gives"),
    (drops_second_numbers, BACK_AND_FORTH, "is not the copy"),
    (tells_older_lengths, BACK_AND_FORTH, "is not the copy"),
    (stores_plain_bytes, BACK_AND_FORTH, "is not the copy"),
    (pads_anew, BACK_AND_FORTH, "is not the copy"),
    (leaves_out_the_closing, BACK_AND_FORTH, "is not the copy"),
    (renews_keys, BACK_AND_FORTH, "is not the copy"),
    (erases_its_block, BACK_AND_FORTH, "6 steps, block 3 has 5 live pages"),
    (erases_its_block_first, BACK_AND_FORTH, "6 steps, block 3 has 5 live pages"),
    (deletes_keys, BACK_AND_FORTH, "a mount gives"),
    (leaves_the_map, BACK_AND_FORTH, "block 3 still has the live pages [49, 50, 51, 52, 53]"),
    (copies_into_its_block, BACK_AND_FORTH, "is not the copy"),
    (takes_no_page_below_its_block, BACK_AND_FORTH, "is not the copy"),
    (takes_no_open_page, FRESH_HALF_WAY, "is not the copy"),
    (copies_the_highest_first, BACK_AND_FORTH, "is not the copy"),
    (copies_the_lowest_last, BACK_AND_FORTH, "is not the copy"),
    (copies_one_page, BACK_AND_FORTH, "1 steps, block 3 has 5 live pages"),
    (copies_dead_nodes, BACK_AND_FORTH, "6 steps, block 3 has 5 live pages"),
    (finds_no_room_half_way, NO_ROOM, "refused 10, and something changed"),
    (leaves_pages_for_which_there_is_no_room, NO_ROOM, "reply 0, by the book it is 10"),
    (finds_no_sequence_half_way, TOO_FEW_SEQUENCES, "refused 11, and something changed"),
    (has_never_room, BACK_AND_FORTH, "reply 10, by the book it is 0"),
    (tests_room_first, NEITHER, "reply 10, by the book it is 11"),
    (keeps_the_last_sequence, LAST_SEQUENCES, "reply 11, by the book it is 0"),
    (tests_one_sequence, TOO_FEW_SEQUENCES, "reply 0, by the book it is 11"),
    (takes_dead_blocks, BACK_AND_FORTH, "reply 0, by the book it is 15"),
    (takes_chosen_blocks, BACK_AND_FORTH, "reply 0, by the book it is 15"),
    (counts_vacant_places, BACK_AND_FORTH, "reply 10, by the book it is 15"),
    (leaves_thin_blocks, BACK_AND_FORTH, "reply 15, by the book it is 0"),
    (|store, _| refused(store, 15), FRESH_HALF_WAY, "reply 15, by the book it is 0"),
];

#[test]
fn wrong_gathers_break_their_point() {
    for (number, (way, case, text)) in WRONG.iter().enumerate() {
        let broken = case.run(Maker::Gathers(*way)).err();
        let is_right = broken.as_ref().is_some_and(|broken| broken.contains(text));
        assert!(is_right, "way {number} is to break {text:?}: {broken:?}");
    }
}

// ---- Ways to mount what a cut gather leaves

/// The torn nodes above the covered sequence.
fn torn_nodes(store: &Store) -> Vec<(usize, Header)> {
    let forms = pages(&store.image).iter().map(Form::of).enumerate();
    let torn = forms.filter_map(|(page, form)| match form {
        Form::Torn(header @ Header::Node { .. }) => Some((page, header)),
        _ => None,
    });
    torn.collect()
}

fn takes_torn_copies_for_nodes(store: &mut Store, call: Call, power: Power) -> u32 {
    if !matches!(call, Call::Mount { .. }) {
        return store.call_with(call, power);
    }
    let mut closed = store.clone();
    for (page, _) in torn_nodes(store) {
        closed.image[PAGE * page..][PAGE - CLOSING.len()..PAGE].copy_from_slice(&CLOSING);
    }
    closed.call_with(call, Power::STAYS);
    let reply = store.call_with(call, power);
    store.record = closed.record;
    reply
}

fn spends_the_keys_of_torn_copies(store: &mut Store, call: Call, power: Power) -> u32 {
    let reply = store.call_with(call, power);
    if matches!(call, Call::Mount { .. }) && reply == DONE {
        for (_, header) in torn_nodes(store) {
            let Header::Node { key, .. } = header else { continue };
            store.record.letters[key] = DELETED;
        }
    }
    reply
}

#[test]
fn wrong_mounts_after_cut_gathers() {
    let mounts: [(fn(&mut Store, Call, Power) -> u32, &str); 2] = [
        (takes_torn_copies_for_nodes, "a read at place"),
        (spends_the_keys_of_torn_copies, "letter d, in the book u"),
    ];
    for (mount, text) in mounts {
        let broken = CUTS.run(Maker::Other(mount)).err();
        let is_right = broken.as_ref().is_some_and(|broken| broken.contains(text));
        assert!(is_right, "{text:?}: {broken:?}");
    }
}

// ---- Pages under one key

/// A page that a list leaves under a key, with another byte: it is no longer of the key's node.
#[test]
fn another_byte_under_a_key() {
    let list = [&records()[..], &[gather(3)]].concat();
    let run = run_on(Run::new(8, 5), &list).expect("the store keeps every point");
    let Record { map, .. } = &run.store.record;
    let live = live_pages(map, 4);
    assert_eq!(live, [64, 65, 66, 67, 68]);
    for page in [48, 49, 51, 54, live[0], live[3]] {
        for at in [10, 15, 19, 27, 30, 100, 253] {
            let mut other = run.clone();
            other.store.image[PAGE * page + at] ^= 1;
            let has_header = Form::of(&pages(&other.store.image)[page]).header().is_some();
            let broken = other.check_pages_under_keys().is_err();
            assert_eq!(broken, at >= 30 || has_header, "byte {at} of page {page}");
        }
    }
}
