//! Document 02, #106: a mount erases every spare block, the empty ones too. Its time without the erases' own
//! bytes, which is that of filling as many blocks with FFh, beside the time of a mount from before, which
//! filled none of them.

use crate::bed::{Bed, Side, What};
use crate::whole_blocks::{fill, SIZES};
use johvimaru_tests::another_build::AnotherBuild;
use johvimaru_tests::floor::Floor;
use johvimaru_tests::model::calls::DONE;
use johvimaru_tests::model::image::{Power, Step, BLOCK, PAGES_IN_BLOCK};
use johvimaru_tests::model::list;
use johvimaru_tests::model::pages::{HEADER, PAGE};
use johvimaru_tests::model::store::Store;
use johvimaru_tests::settings::{payload, Setting, CALLS, FORMAT_NOISE, VACANT};
use johvimaru_tests::side_by_side::{compare, to_library, Call};
use johvimaru_tests::timing::{run_ready, Way};
use std::cell::RefCell;

/// The time of a mount without the fill over that of a mount before is at most this.
const LIMIT: f64 = 1.1;

/// Rounds, and times in a round.
const ROUNDS: usize = 200;
const TURNS: usize = 4;

/// Compares what each mount leaves with the second implementation's, and in the benchmark prints the times.
pub fn mounts(bench: bool) {
    let build = bench.then(AnotherBuild::from_before).flatten();
    if bench {
        println!("\n{:<40}{:>36}{:>22}", "", "us, best times", "(now - fill) /");
        print!("{:<40}{:>9}{:>9}{:>9}{:>9}", "a mount", "now", "fill", "before", "floor");
        println!("{:>11}{:>11}", "before", "floor");
    }
    for (name, store) in images() {
        if let Err(why) = compare(&store, Call::MOUNT, Power::STAYS) {
            panic!("{name}:\n{why}");
        }
        if bench {
            times(&name, store, build);
        }
    }
}

/// An image of so many blocks after so many writes.
fn written(blocks: usize, writes: usize) -> Store {
    Setting { name: "", blocks, live: writes.clamp(1, VACANT), writes }.store()
}

/// The images: of every size all spare blocks empty, few and many writes, none to erase, and a block that is
/// dead and covered.
fn images() -> Vec<(String, Store)> {
    let mut images = Vec::new();
    for (blocks, full) in SIZES {
        let kinds = [
            ("all spare blocks empty".to_string(), written(blocks, 0)),
            (format!("{CALLS} writes"), written(blocks, CALLS)),
            (format!("{full} writes"), written(blocks, full)),
            (format!("{CALLS} writes, nothing to erase"), without_spare(written(blocks, CALLS))),
            (format!("{full} writes, nothing to erase"), without_spare(written(blocks, full))),
            ("a covered block".to_string(), with_covered_block(blocks)),
        ];
        images.extend(kinds.map(|(kind, store)| (format!("{blocks} blocks, {kind}"), store)));
    }
    images
}

/// Every block that a mount would erase gets a torn page, above the covered sequence, so that it is kept. Calls
/// leave no such image: one block at least is empty after each.
fn without_spare(mut store: Store) -> Store {
    let from = PAGE * usize::from(store.record.map[0]);
    for step in store.steps(list::Call::MOUNT) {
        if let Step::Erase { block } = step {
            store.image.copy_within(from..from + HEADER, BLOCK * block);
        }
    }
    assert!(store.steps(list::Call::MOUNT).is_empty());
    store
}

/// A block that was full when it was committed, and that has no live page any more.
fn with_covered_block(blocks: usize) -> Store {
    let mut store = Store::formatted(blocks, FORMAT_NOISE);
    let write = list::Call::Write { file: 0, offset: 0, payload: payload(1) };
    let mut calls = vec![write; PAGES_IN_BLOCK];
    calls.extend([list::Call::Commit { noise: FORMAT_NOISE }, write]);
    calls.into_iter().for_each(|call| assert_eq!(store.call(call), DONE));
    assert!(store.steps(list::Call::MOUNT).contains(&Step::Erase { block: 3 }));
    store
}

/// Prints the times of a mount now and before, of the fill and of the floor.
fn times(name: &str, store: Store, build: Option<AnotherBuild>) {
    let steps = store.steps(list::Call::MOUNT);
    let mut image = store.image.clone();
    let bed = RefCell::new(Bed::of(store.image, to_library(store.record), What::Mount));
    let filling = Way { ready: Box::new(|| ()), work: Box::new(|| fill(&mut image, &steps)) };
    let mut ways = vec![Bed::way(&bed, Side::Ours), filling];
    let other = |side: Option<Side>| side.map(|side| Bed::way(&bed, side));
    ways.extend(other(build.map(Side::Before)));
    ways.extend(other(Floor::open().map(Side::Floor)));
    let times = run_ready(&mut ways, ROUNDS, TURNS);
    let best = |at: usize| times.best(at) / 1_000.0;
    let before = build.map(|_| best(2));
    let floor = Floor::open().map(|_| best(2 + usize::from(build.is_some())));
    print_line(name, best(0), best(1), before, floor);
}

fn print_line(name: &str, now: f64, fill: f64, before: Option<f64>, floor: Option<f64>) {
    let text = |time: Option<f64>| time.map_or("-".to_string(), |time| format!("{time:.2}"));
    print!("{name:<40}{now:>9.2}{fill:>9.2}{:>9}{:>9}", text(before), text(floor));
    let beside_before = before.map(|before| (now - fill) / before);
    let beside_floor = floor.map(|floor| (now - fill) / (floor - fill));
    print!("{:>11}{:>11}", text(beside_before), text(beside_floor));
    match beside_before {
        Some(ratio) if ratio > LIMIT => println!("   at most {LIMIT:.2} of before: NOT met"),
        Some(_) => println!("   at most {LIMIT:.2} of before: met"),
        None => println!(),
    }
}
