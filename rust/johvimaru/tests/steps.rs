//! The steps of a mount and of a format, as they are read off the image that it leaves: the library's forms with n
//! and k have the same ones, the erases of empty blocks too.
#![cfg(feature = "cut")]

#[allow(dead_code)]
mod common;

use common::cuts::rich;
use common::{at, noise};
use johvimaru::raw::{self, Record};
use johvimaru::{Cut, Outcome, Step, Store, BLOCK, NOISE, PLACES};

/// A copy in which the first byte of each empty block is 00h, so that each erase makes a difference. A mount and a
/// format do to such a block what they do to an empty one.
fn marked(image: &[u8]) -> Vec<u8> {
    let mut copy = image.to_vec();
    for block in copy.chunks_mut(BLOCK).filter(|block| block.iter().all(|&byte| byte == 0xff)) {
        block[0] = 0;
    }
    copy
}

/// The steps of a call, by the differences between its cuts.
fn by_cuts(image: &[u8], call: impl Fn(&mut [u8], Cut) -> u32) -> Vec<Step> {
    let start = marked(image);
    let (mut steps, mut now) = (Vec::new(), start.clone());
    for n in 1.. {
        let mut next = start.clone();
        let reply = call(&mut next, Cut { n, k: 0 });
        steps.extend(Step::between(&now, &next));
        if reply == raw::DONE {
            break;
        }
        assert_eq!(reply, raw::POWER_CUT);
        now = next;
    }
    steps
}

fn assert_mount(image: &[u8], what: &str) -> usize {
    let call =
        |image: &mut [u8], cut| raw::mount_cut(image, &mut Record::blank(), &mut [0; PLACES], cut);
    let left = Store::mount(image.to_vec()).unwrap();
    let steps: Vec<Step> = Step::of_mount(left.image()).collect();
    assert!(steps == by_cuts(image, call), "{what}: {steps:?}");
    let mut chip = image.to_vec();
    steps.iter().for_each(|step| step.apply(&mut chip));
    assert!(chip == left.image(), "{what}: image");
    steps.len()
}

/// After every cut of a wipe and of a commit, and after cuts of the mount that follows.
#[test]
fn the_steps_of_mounts() {
    let store = rich().copy().unwrap();
    let mut most = 0;
    for n in 0..58 {
        for k in [0, 30, 255, 700, BLOCK] {
            let cut = Cut { n, k };
            let cuts: [Outcome<Vec<u8>>; 2] = [
                store.clone().wipe_cut(at(0, 0), noise(9), cut).unwrap(),
                store.clone().commit_cut(noise(9), cut).unwrap(),
            ];
            for outcome in cuts {
                most = most.max(assert_mount(outcome.image(), &format!("{cut:?}")));
                let image = outcome.image().to_vec();
                let again = Store::mount_cut(image, Cut { n: n % 3, k }).unwrap();
                assert_mount(again.image(), &format!("{cut:?}, and the mount"));
            }
        }
    }
    assert!(most >= 4, "{most}");
}

#[test]
fn the_steps_of_formats() {
    for (image, blocks) in [(rich().mirror().to_vec(), 8), (vec![0xff; 11 * BLOCK], 11)] {
        let call =
            |image: &mut [u8], cut| raw::format_cut(image, &mut Record::blank(), &[5; NOISE], cut);
        let left =
            Store::format(image.clone(), johvimaru::Noise::new(&[5; NOISE]).unwrap()).unwrap();
        let steps: Vec<Step> = Step::of_format(left.image()).collect();
        assert_eq!(steps.len(), blocks + 42);
        assert!(steps == by_cuts(&image, call), "{blocks}");
    }
}

/// Erased noise, whose keys are all FFh: the pages that hold them are programmed all the same.
#[test]
fn a_format_with_erased_noise() {
    let noise = johvimaru::Noise::new(&[0xff; NOISE]).unwrap();
    let left = Store::format(vec![0; 8 * BLOCK], noise).unwrap();
    let mut chip = vec![0; 8 * BLOCK];
    Step::of_format(left.image()).for_each(|step| step.apply(&mut chip));
    assert!(chip == left.image());
    assert_mount(left.image(), "erased noise");
}
