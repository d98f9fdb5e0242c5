//! Demand 3 of document 01 on the second implementation: lists of calls with cuts, beside the plain
//! book and a chip that loses what is programmed into an unsettled block.

use johvimaru_tests::model::calls::{CUT, DONE};
use johvimaru_tests::model::demand::{run, shrink, Run};
use johvimaru_tests::model::image::{Power, BLOCK};
use johvimaru_tests::model::list::{commit, cut_off, wipe, write, Call, Event};
use johvimaru_tests::model::pages::{HEADER, PAGE};
use johvimaru_tests::random_lists::RandomList;
use std::collections::BTreeMap;
use std::ops::Range;

/// What was met in lists.
#[derive(Default)]
struct Tally {
    /// How often each call got each reply.
    replies: BTreeMap<(&'static str, u32), usize>,
    /// How many calls left a block unsettled.
    unsettled: usize,
}

/// A list that breaks, for reading.
fn report(blocks: usize, seed: u64, broken: &str, events: &[Event]) -> String {
    let list: Vec<String> = events.iter().map(Event::to_string).collect();
    format!("{blocks} blocks, seed {seed}: {broken}\n{}", list.join("\n"))
}

// ---- Random lists

/// Runs the random lists of these seeds on images of so many blocks, and holds them to a mix of replies.
fn check_random_lists(blocks: usize, seeds: Range<u64>) {
    let mut tally = Tally::default();
    for seed in seeds {
        if let Err((broken, events)) = check_random_list(blocks, seed, &mut tally) {
            let (shorter, why) = shrink(blocks, seed, events);
            panic!("{}", report(blocks, seed, &why.unwrap_or(broken), &shorter));
        }
    }
    let Tally { replies: tally, unsettled } = tally;
    let calls: usize = tally.values().sum();
    println!("{blocks} blocks: {calls} calls, {unsettled} left a block unsettled");
    assert!(unsettled > 100, "{unsettled} of {calls} calls left a block unsettled");
    for (call, replies) in [
        ("mount", [DONE, 1, 2, CUT].as_slice()),
        ("write", &[DONE, 1, 2, 4, 5, 6, 10, CUT]),
        ("append", &[DONE, 1, 2, 4, 5, 6, 10, CUT]),
        ("read", &[DONE, 4, 5, 6, 8]),
        ("cut-off", &[DONE, 1, 2, 4, 5, 8, 10, CUT]),
        ("commit", &[DONE, 1, 2, 3, CUT]),
        ("wipe", &[DONE, 1, 2, 3, 4, 5, CUT]),
        ("gather", &[DONE, 1, 2, 10, 15, CUT]),
    ] {
        for &reply in replies {
            assert!(tally.contains_key(&(call, reply)), "no {call} with reply {reply}: {tally:?}");
        }
    }
}

fn check_random_list(
    blocks: usize,
    seed: u64,
    tally: &mut Tally,
) -> Result<(), (String, Vec<Event>)> {
    let mut list = RandomList::new(seed, blocks);
    let mut state = Run::new(blocks, seed);
    let mut events = Vec::new();
    for _ in 0..list.length {
        let event = list.next(state.on);
        events.push(event);
        match state.step(&event) {
            Ok(reply) => {
                let key = (event.call.name(), reply.unwrap_or(0));
                *tally.replies.entry(key).or_default() += 1;
                tally.unsettled += usize::from(!state.chip.unsettled().is_empty());
            }
            Err(broken) => return Err((broken, events)),
        }
    }
    match state.on {
        true => state.check_all_reads().map_err(|broken| (broken, events)),
        false => Ok(()),
    }
}

#[test]
fn random_lists_on_8_blocks() {
    check_random_lists(8, 0..1600);
}

#[test]
fn random_lists_on_9_blocks() {
    check_random_lists(9, 10_000..10_800);
}

#[test]
fn random_lists_on_12_blocks() {
    check_random_lists(12, 20_000..20_600);
}

#[test]
fn random_lists_on_16_blocks() {
    check_random_lists(16, 30_000..30_500);
}

// ---- Chosen lists

/// Runs a list and holds each call to its reply.
fn check_replies(blocks: usize, list: &[(Event, u32)]) {
    let mut state = Run::new(blocks, 0);
    for (number, (event, reply)) in list.iter().enumerate() {
        let found = state.step(event);
        assert_eq!(found, Ok(Some(*reply)), "call {}: {event}", number + 1);
    }
    assert_eq!(state.check_all_reads(), Ok(()));
}

/// One list with a cut write, a cut commit and a cut mount, all of them really cut, and every other call
/// accepted.
#[test]
fn cut_write_cut_commit_and_cut_mount() {
    for blocks in [8, 9, 12, 16] {
        check_replies(
            blocks,
            &[
                (Event::cut(write(0, 0, 1), 0, 100), CUT),
                (Call::MOUNT.into(), DONE),
                (Event::cut(commit(2), 3, 7), CUT),
                (Event::cut(Call::MOUNT, 0, 300), CUT),
                (Call::MOUNT.into(), DONE),
                (commit(3).into(), DONE),
                (wipe(0, 0, 4).into(), DONE),
            ],
        );
    }
}

/// The same over a node that is there, which the cut write leaves and the wipe removes.
#[test]
fn cut_write_cut_commit_and_cut_mount_over_a_node() {
    check_replies(
        8,
        &[
            (write(0, 0, 1).into(), DONE),
            (Event::cut(write(0, 0, 2), 0, 100), CUT),
            (Call::MOUNT.into(), DONE),
            (Call::Read { file: 0, offset: 0, output: 224 }.into(), DONE),
            (Event::cut(commit(3), 3, 7), CUT),
            (Event::cut(Call::MOUNT, 0, 300), CUT),
            (Call::MOUNT.into(), DONE),
            (commit(4).into(), DONE),
            (wipe(0, 0, 5).into(), DONE),
            (Call::Read { file: 0, offset: 0, output: 224 }.into(), 8),
        ],
    );
}

/// The lists with which tempting invariants were found to be false, each ended by calls that finish.
#[test]
fn lists_against_tempting_invariants() {
    let (w, v, x, c, p) = (write(0, 0, 1), write(0, 1, 2), cut_off(0, 0), commit(3), wipe(0, 0, 4));
    let cut = Event::cut;
    let of = |call: Call| Event::from(call);
    let m = of(Call::MOUNT);
    let writes = |call: Call, count: usize| vec![of(call); count];
    let lists: Vec<Vec<Event>> = vec![
        vec![of(w), of(x), cut(c, 45, 256), m, of(w)],
        [vec![of(w), of(x), cut(c, 45, 1), m, of(v)], writes(w, 30), vec![cut(c, 45, 1)]].concat(),
        vec![cut(p, 10, 0)],
        vec![cut(c, 16, 0), m, cut(c, 16, 0), m, cut(c, 16, 0)],
        vec![of(w), cut(p, 10, 0)],
        vec![of(w), of(x), of(c)],
        vec![cut(w, 0, 30), m],
        vec![cut(w, 0, 31), m, cut(c, 16, 0)],
        [writes(w, 64), vec![cut(c, 0, 1)]].concat(),
        vec![cut(w, 0, 30), m, of(w)],
        vec![of(w), cut(w, 0, 29), m, of(w)],
        vec![cut(w, 0, 30), m, cut(w, 0, 30)],
        [writes(w, 17), vec![of(c)], writes(w, 16)].concat(),
        vec![of(w), of(c), of(w), of(w), of(c), of(w)],
        vec![of(w), of(c), of(w)],
        vec![cut(c, 0, 1)],
        vec![of(w), of(x), cut(c, 45, 512)],
    ];
    for list in lists {
        let list = [list, vec![m, of(v), of(c), of(p), m]].concat();
        if let Err(broken) = run(8, 0, &list) {
            let (shorter, why) = shrink(8, 0, list);
            panic!("{}", report(8, 0, &why.unwrap_or(broken), &shorter));
        }
    }
}

/// Each of these calls cut at every step and many bytes, the mount after it cut too, and then a mount, a
/// write, a commit and a wipe that finish.
fn check_every_step(blocks: usize, before: &[Event], calls: &[Call]) {
    let start = run(blocks, 0, before).expect("only whole calls and mounts");
    for &call in calls {
        for step in 0..start.store.steps(call).len() {
            for bytes in [0, 1, HEADER - 1, HEADER, 97, PAGE - 1, PAGE, 15 * PAGE, BLOCK - 1, BLOCK]
            {
                let after = [
                    Event::cut(call, step, bytes),
                    Event::cut(Call::MOUNT, 0, (7 * bytes + 31 * step) % BLOCK),
                    Call::MOUNT.into(),
                    write(0, 0, 97).into(),
                    commit(98).into(),
                    wipe(1, 0, 99).into(),
                ];
                let mut state = start.clone();
                for event in &after {
                    if let Err(broken) = state.step(event) {
                        panic!("{}", report(blocks, 0, &broken, &[before, &after].concat()));
                    }
                }
            }
        }
    }
}

const NODES: [(usize, usize); 5] = [(0, 0), (0, 1), (1, 0), (13, 7), (0, 0)];

fn some_nodes() -> Vec<Event> {
    (10..).zip(NODES).map(|(seed, (file, offset))| write(file, offset, seed).into()).collect()
}

#[test]
fn every_step_of_a_young_store() {
    let calls = [write(0, 0, 1), cut_off(0, 0), commit(2), wipe(0, 0, 3), wipe(5, 0, 4)];
    check_every_step(8, &some_nodes(), &calls);
    check_every_step(8, &some_nodes(), &[Call::Gather { block: 3 }]);
}

/// The store has deleted keys, covered and uncovered nodes and a data block without a live page.
#[test]
fn every_step_of_an_old_store() {
    let mut before = some_nodes();
    before.push(commit(50).into());
    before.extend((0..20).map(|seed| Event::from(write(2, 0, seed))));
    before.extend((0..14).map(|seed| Event::from(write(3, 1, seed))));
    before.push(Event::cut(write(4, 0, 51), 0, 200));
    before.push(Call::MOUNT.into());
    before.push(cut_off(2, 0).into());
    check_every_step(9, &before, &[write(2, 0, 1), cut_off(3, 0), commit(2), wipe(3, 0, 3)]);
    check_every_step(9, &before, &[3, 4, 5].map(|block| Call::Gather { block }));
}

/// A write, a cut-off and the first copy of a gather cut at every byte.
#[test]
fn every_byte_of_a_page() {
    for bytes in 0..=PAGE + 1 {
        for call in [write(0, 0, 1), write(7, 3, 1), cut_off(0, 1), Call::Gather { block: 3 }] {
            let mut list = some_nodes();
            list.extend([Event::cut(call, 0, bytes), Call::MOUNT.into(), write(0, 0, 2).into()]);
            if let Err(broken) = run(8, 0, &list) {
                panic!("{}", report(8, 0, &broken, &list));
            }
        }
    }
}

/// The numbers of a power cut may be as large as they come.
#[test]
fn huge_cuts() {
    let huge = usize::MAX;
    for power in [Power::cut(0, huge), Power::cut(9, huge), Power::cut(huge, huge)] {
        let gather = Call::Gather { block: 3 };
        for call in [write(0, 0, 1), cut_off(0, 0), gather, commit(2), wipe(0, 0, 3)] {
            let mut list = some_nodes();
            list.extend([Event { power, ..call.into() }, Event::cut(Call::MOUNT, 0, huge)]);
            list.push(Call::MOUNT.into());
            if let Err(broken) = run(8, 0, &list) {
                panic!("{}", report(8, 0, &broken, &list));
            }
        }
    }
}
