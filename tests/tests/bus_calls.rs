//! Document 02, #109: the calls of random lists over the bus. The driver's bytes for a call's steps bring the
//! library's chip to what the call leaves, and where they stop, to what the call leaves when it is cut there.

use johvimaru_tests::bus_streams::Sets;
use johvimaru_tests::ffi::bus;
use johvimaru_tests::model::bus::step_bytes;
use johvimaru_tests::model::calls::DONE;
use johvimaru_tests::model::image::{has_right_size, Power};
use johvimaru_tests::model::store::Store;
use johvimaru_tests::side_by_side::{compare, steps, After, Call};
use johvimaru_tests::store_lists::met_in_random_list;

/// What went over the bus.
#[derive(Debug, Default)]
struct Over {
    calls: usize,
    steps: usize,
    bytes: usize,
}

/// What a call replies and leaves, by library and second implementation.
fn after(store: &Store, call: Call, power: Power) -> After {
    compare(store, call, power).unwrap_or_else(|why| panic!("{call:?}, {power:?}:\n{why}"))
}

impl Over {
    /// Sends a call's steps. After each byte the chip is as the call that is cut after the steps that were done.
    fn call(&mut self, store: &Store, call: Call, sets: &mut Sets) {
        let whole = after(store, call, Power::STAYS);
        let steps = if whole.reply == DONE { steps(store, call) } else { Vec::new() };
        let (mut chip, mut raw) = (store.image.clone(), sets.any());
        let mut cut = after(store, call, Power::cut(0, 0)).store.image;
        assert!(cut == chip, "{call:?} with no step");
        for (number, step) in steps.iter().enumerate() {
            let bytes = step_bytes(step);
            for (at, &sent) in bytes.iter().enumerate() {
                assert_eq!(bus::send(&mut chip, &mut raw, sent), 0);
                if at + 2 == bytes.len() {
                    cut = after(store, call, Power::cut(number + 1, 0)).store.image;
                }
                assert!(chip == cut, "{call:?}, step {number}, byte {at}");
            }
            let mut status = 0;
            assert_eq!(bus::receive(&chip, &mut raw, &mut status), 0);
            assert_eq!(bus::reply(status), 0, "{call:?}, step {number}");
            self.bytes += bytes.len();
        }
        assert!(chip == whole.store.image, "{call:?}");
        self.calls += 1;
        self.steps += steps.len();
    }
}

#[test]
fn calls_of_random_lists() {
    let mut over = Over::default();
    for (blocks, seeds, longest) in [(8, 0..60, 40), (9, 100..110, 40), (16, 200..206, 40)] {
        let mut sets = Sets::new(seeds.start, blocks);
        for seed in seeds {
            for (store, call) in met_in_random_list(blocks, seed, longest) {
                if !matches!(call, Call::Append { .. }) && has_right_size(&store.image) {
                    over.call(&store, call, &mut sets);
                }
            }
        }
    }
    println!("{over:?}");
    assert!(over.calls > 500 && over.steps > 2_000 && over.bytes > 500_000, "{over:?}");
}
