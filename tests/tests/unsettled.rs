//! Document 02, #106, through the library: demand 3 holds of it on lists in which what a cut erase leaves reads
//! FFh, and a chip that loses what is programmed into an unsettled block has what the image has.

use johvimaru_tests::model::calls::{CUT, DONE};
use johvimaru_tests::model::demand::{Maker, Run};
use johvimaru_tests::model::image::{Step, BLOCK};
use johvimaru_tests::model::list::{commit, write, Call, Data, Event};
use johvimaru_tests::random_lists::RandomList;
use johvimaru_tests::side_by_side::call_by_library;

const LIBRARY: Maker = Maker::Other(call_by_library);
const ERASED_NOISE: Data = Data { length: 7_168, seed: Data::ALL_ERASED };

fn wipe(seed: u64) -> Call {
    Call::Wipe { file: 1, offset: 0, noise: Data::noise(seed) }
}

/// Does a call by the library, of which every point must hold. Gives the reply.
fn step(run: &mut Run, event: Event) -> u32 {
    let reply = run.step(&event).unwrap_or_else(|broken| panic!("{event}: {broken}"));
    reply.expect("the power is on, or it is a mount")
}

#[test]
fn random_lists_of_erased_bytes() {
    let (mut cuts, mut unsettled) = (0, 0);
    for seed in 0..200 {
        let blocks = [8, 9, 12][seed as usize % 3];
        let mut list = RandomList::erased(seed, blocks);
        let mut run = Run::with_noise(LIBRARY, blocks, seed, ERASED_NOISE);
        for _ in 0..list.length {
            let event = list.next(run.on);
            cuts += usize::from(step(&mut run, event) == CUT);
            unsettled += usize::from(!run.chip.unsettled().is_empty());
        }
    }
    println!("{cuts} calls were cut, {unsettled} left a block unsettled");
    assert!(cuts > 2_000 && unsettled > 1_000, "{cuts}, {unsettled}");
}

/// A store with a block that is dead and covered, one that is dead alone, and live ones.
fn old_store() -> Run {
    let mut run = Run::by(LIBRARY, 9, 4);
    let mut calls = vec![write(0, 0, 1); 16];
    calls.extend([write(1, 0, 2), commit(3)]);
    calls.extend([write(0, 0, 4); 15]);
    calls.extend([write(1, 1, 5), Call::CutOff { file: 0, offset: 0 }]);
    calls.into_iter().for_each(|call| assert_eq!(step(&mut run, call.into()), DONE));
    run
}

/// Every erase of a commit and of a wipe cut at its first byte, within and behind its last, the mount after it
/// cut at each of its erases, and then calls that program what was unsettled.
#[test]
fn every_erase() {
    let start = old_store();
    let mut unsettled = 0;
    for call in [commit(6), wipe(7)] {
        for (n, of) in start.store.steps(call).iter().enumerate() {
            if matches!(of, Step::Program { .. }) {
                continue;
            }
            for k in [0, 1_000, BLOCK] {
                let mut run = start.clone();
                assert_eq!(step(&mut run, Event::cut(call, n, k)), CUT);
                for mount in 0..run.store.steps(Call::MOUNT).len() {
                    assert_eq!(step(&mut run, Event::cut(Call::MOUNT, mount, k)), CUT);
                    unsettled += run.chip.unsettled().len();
                }
                for call in [Call::MOUNT, commit(8), wipe(9), commit(10)] {
                    assert_eq!(step(&mut run, call.into()), DONE);
                }
            }
        }
    }
    assert!(unsettled > 60, "{unsettled}");
}

/// On the largest image a mount erases 252 blocks, and one that was cut is followed by one that erases all.
#[test]
fn the_largest_image() {
    let mut run = Run::by(LIBRARY, 256, 5);
    step(&mut run, write(0, 0, 1).into());
    assert_eq!(run.store.steps(Call::MOUNT).len(), 252);
    for n in [0, 100, 251] {
        assert_eq!(step(&mut run, Event::cut(Call::MOUNT, n, BLOCK)), CUT);
        assert!(run.chip.unsettled().contains(&(n + 4)));
    }
    assert_eq!(run.chip.unsettled(), [255], "the mounts after them have erased the others");
    assert_eq!(step(&mut run, Event::cut(Call::MOUNT, 252, 0)), DONE);
    assert_eq!(step(&mut run, commit(2).into()), DONE);
}
