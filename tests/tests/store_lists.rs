//! All calls of the library on random lists, beside the second implementation: with power cuts,
//! wrong lengths, damaged images and records that almost fit. Beside them goes a chip that loses what is
//! programmed into an unsettled block.

use johvimaru_tests::model::calls::{CUT, DONE};
use johvimaru_tests::side_by_side::Tally;
use johvimaru_tests::store_lists::check_random_list;
use std::ops::Range;
use std::thread;

/// Random lists on images of so many blocks.
struct Lists {
    blocks: usize,
    seeds: Range<u64>,
    /// The most events of a list.
    longest: usize,
}

const LISTS: [Lists; 5] = [
    Lists { blocks: 8, seeds: 0..18_000, longest: 400 },
    Lists { blocks: 9, seeds: 100_000..108_000, longest: 400 },
    Lists { blocks: 16, seeds: 200_000..203_500, longest: 600 },
    Lists { blocks: 32, seeds: 300_000..300_500, longest: 1_200 },
    Lists { blocks: 256, seeds: 400_000..400_150, longest: 100 },
];

/// Each refusal of a mount for what is on the image is met on so many images at least.
const REFUSED_IMAGES: usize = 1_000;
/// So many calls leave a block unsettled at least.
const UNSETTLED: usize = 4_000;
/// So many calls are compared at least.
const CALLS: usize = 1_000_000;

impl Lists {
    /// Runs the lists, each thread its share.
    fn check(&self) -> Tally {
        let threads = thread::available_parallelism().map_or(1, |threads| threads.get());
        let share = |first: usize| {
            let mut tally = Tally::default();
            for seed in self.seeds.clone().skip(first).step_by(threads) {
                tally.add(&check_random_list(self.blocks, seed, self.longest));
            }
            tally
        };
        let mut tally = Tally::default();
        thread::scope(|scope| {
            let shares: Vec<_> =
                (0..threads).map(|first| scope.spawn(move || share(first))).collect();
            for share in shares {
                tally.add(&share.join().expect("library and second implementation agree"));
            }
        });
        println!("{} blocks: {} calls{}", self.blocks, tally.calls(), tally.table());
        for call in ["format", "mount", "write", "cut-off", "commit", "wipe", "gather"] {
            tally.require(call, &[DONE, CUT]);
        }
        tally
    }
}

#[test]
fn random_lists() {
    let mut tally = Tally::default();
    for lists in &LISTS {
        let one = lists.check();
        if lists.blocks <= 16 {
            one.require_all();
        }
        tally.add(&one);
    }
    for refusal in 12..=14 {
        let images = tally.images(refusal);
        println!("mounts refused {refusal} on {images} images");
        assert!(images >= REFUSED_IMAGES, "{images} images with refusal {refusal}");
    }
    println!("{} calls, {} left a block unsettled", tally.calls(), tally.unsettled);
    assert!(tally.unsettled >= UNSETTLED, "{} calls left a block unsettled", tally.unsettled);
    assert!(tally.calls() >= CALLS, "{} calls", tally.calls());
}
