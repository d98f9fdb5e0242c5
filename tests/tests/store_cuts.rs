//! A commit and a wipe of the library, cut at every byte of every step, and the library's mount after
//! it: beside the second implementation, and what is then in the store beside the plain book.

use johvimaru_tests::kept::Kept;
use johvimaru_tests::model::calls::{CUT, DONE};
use johvimaru_tests::model::image::{Power, Step, BLOCK};
use johvimaru_tests::model::list::{Call, Data};
use johvimaru_tests::model::pages::{DELETED, PAGE, PAYLOAD};

/// A store of 8 blocks with five nodes, one of them an older recorder's, a block without a live page
/// and deleted keys.
fn rich() -> Kept {
    let write = |file, offset, seed: u64| {
        let payload = Data::of(1 + 40 * seed as usize % PAYLOAD, seed);
        Call::Write { file, offset, payload }
    };
    let mut calls: Vec<Call> = (0..17).map(|seed| write(0, 0, seed)).collect();
    calls.extend([write(0, 31, 20), write(2, 5, 21), write(2, 6, 22), write(13, 7, 23)]);
    calls.push(Call::Append { file: 1, offset: 0, second: 0, bytes: Data::payload(24) });
    calls.push(Call::CutOff { file: 2, offset: 6 });
    let kept = Kept::after(8, &calls);
    assert!(kept.book.marks.contains(&DELETED));
    kept
}

/// Cuts a call at every byte of every step, and mounts. Gives how many calls were compared.
fn every_cut(call: Call) -> usize {
    let kept = rich();
    let mut count = 0;
    for (n, step) in kept.store.0.steps(call).iter().enumerate() {
        let bytes = match step {
            Step::Program { .. } => PAGE,
            Step::Erase { .. } => BLOCK,
        };
        for k in 0..=bytes {
            let mut cut = kept.clone();
            assert_eq!(cut.call(call, Power::cut(n, k)), CUT);
            cut.store.mount();
            cut.check(&format!("{call:?} cut at {n}, {k}"));
            count += 2;
        }
    }
    let mut whole = kept.clone();
    assert_eq!(whole.call(call, Power::STAYS), DONE);
    whole.check("whole");
    let steps = kept.store.0.steps(call).len();
    for n in [steps, steps + 1, usize::MAX - 1] {
        let mut last = kept.clone();
        assert_eq!(last.call(call, Power::cut(n, 0)), DONE);
        assert!(last.store == whole.store, "power for {n} steps");
    }
    count
}

#[test]
fn every_cut_of_a_commit() {
    assert!(every_cut(Call::Commit { noise: Data::noise(50) }) > 50_000);
}

#[test]
fn every_cut_of_a_wipe() {
    let noise = Data::noise(51);
    assert!(every_cut(Call::Wipe { file: 0, offset: 0, noise }) > 60_000);
}
