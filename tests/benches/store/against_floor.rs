//! The library beside the floor: first the same bytes, then the times.

use crate::bed::{Bed, Side, What};
use crate::gathers;
use johvimaru_tests::ffi;
use johvimaru_tests::floor::{Floor, COMPILER};
use johvimaru_tests::model::files::{self, PLACES};
use johvimaru_tests::model::image::BLOCK;
use johvimaru_tests::model::pages::PAYLOAD;
use johvimaru_tests::model::record::NONE;
use johvimaru_tests::model::store::Store;
use johvimaru_tests::rng::Rng;
use johvimaru_tests::settings::{payload, Setting, FORMAT_NOISE, SETTINGS};
use johvimaru_tests::side_by_side::{Call, Tally};
use johvimaru_tests::store_lists::met_in_random_list;
use johvimaru_tests::timing::{run_ready, Way};
use std::cell::RefCell;

/// For each call the most that our time may be of the floor's.
const LIMITS: [(What, f64); 4] =
    [(What::Write, 1.00), (What::Read, 1.00), (What::Mount, 1.10), (What::Commit, 1.10)];

/// Our read of 40 bytes over one of 224 is at most this.
const SHORT_READ_LIMIT: f64 = 1.0;

/// Our cut-off over our write less what enciphering one page takes is at most this.
const CUT_OFF_LIMIT: f64 = 1.1;

/// Random lists of calls, by the number of blocks: seeds, and the most calls of a list.
const LISTS: [(usize, u64, usize); 4] = [(8, 200, 40), (9, 100, 40), (32, 40, 40), (256, 4, 10)];

/// Panics where the floor leaves other bytes than the library. A machine without a cipher for it has no
/// floor.
pub fn compare_results() {
    match Floor::open() {
        Some(floor) => {
            compare_lists(floor);
            compare_settings(floor);
        }
        None => {
            println!("the floor has no cipher: to have it, install the Debian package libnettle8");
        }
    }
}

/// Prints the times, ours over the floor's, and those of our short reads and our cut-off.
pub fn times() {
    if let Some(floor) = Floor::open() {
        compare_times(floor);
        gathers::times(floor);
    }
    short_reads();
    cut_offs();
}

/// The calls that are tried on what every call of a list finds, on the first place with a page.
fn calls(store: &Store) -> [Call; 7] {
    let mut pages = store.record.map.iter().take(PLACES);
    let place = pages.position(|&page| page != NONE).unwrap_or(0);
    let block = store.record.map.get(place).map_or(0, |&page| u32::from(page) / 16);
    let (file, offset) = files::node(place);
    let (file, offset, noise) = (file as u32, offset as u32, FORMAT_NOISE);
    [
        Call::Write { file, offset, payload: payload(1) },
        Call::Read { file, offset, output: PAYLOAD },
        Call::MOUNT,
        Call::Commit { noise },
        Call::Wipe { file, offset, noise },
        Call::CutOff { file, offset },
        Call::Gather { block },
    ]
}

/// An image on which no page is left.
const FULL: Setting = Setting { name: "8 blocks, full", blocks: 8, live: 64, writes: 64 };

/// Compares the calls above, and the one that a list had, on what it found.
fn compare_calls(floor: Floor, store: &Store, met: Option<Call>, tally: &mut Tally) {
    for call in calls(store).into_iter().chain(met) {
        match floor.compare(store, call) {
            Ok(reply) => tally.count(call.name(), reply),
            Err(why) => panic!("{} blocks: {why}", store.image.len() / BLOCK),
        }
    }
}

/// Panics where floor and library differ on what random lists of calls find, or a reply is not met.
fn compare_lists(floor: Floor) {
    let mut tally = Tally::default();
    compare_calls(floor, &FULL.store(), None, &mut tally);
    for (blocks, seeds, longest) in LISTS {
        for seed in 0..seeds {
            for (store, met) in met_in_random_list(blocks, seed, longest) {
                let met = (!matches!(met, Call::Format { .. })).then_some(met);
                compare_calls(floor, &store, met, &mut tally);
            }
        }
    }
    println!("the floor leaves the same bytes on random images and records:{}", tally.table());
    tally.require("mount", &[0, 1, 2, 13, 12, 14]);
    tally.require("write", &[0, 1, 2, 4, 5, 6, 7, 11, 9, 10]);
    tally.require("read", &[0, 1, 2, 4, 5, 6, 7, 8]);
    tally.require("cut-off", &[0, 1, 2, 4, 5, 7, 8, 11, 10]);
    tally.require("commit", &[0, 1, 2, 3, 7, 11, 10]);
    tally.require("wipe", &[0, 1, 2, 3, 4, 5, 7, 11, 10]);
    tally.require("gather", &[0, 1, 2, 7, 15, 11, 10]);
}

/// Panics where floor and library differ on the images to be timed.
fn compare_settings(floor: Floor) {
    for setting in &SETTINGS {
        for what in What::ALL {
            let mut bed = Bed::new(setting, what);
            let same = bed.left(Side::Ours) == bed.left(Side::Floor(floor));
            assert!(same, "{}, {}: the floor differs", setting.name, what.name());
        }
    }
    gathers::compare_results(floor);
}

/// Our best time of a call over the floor's best.
fn ratio(setting: &Setting, what: What, floor: Floor) -> f64 {
    let bed = RefCell::new(Bed::new(setting, what));
    let mut ways = [Bed::way(&bed, Side::Ours), Bed::way(&bed, Side::Floor(floor))];
    let (rounds, turns) = what.often(setting);
    run_ready(&mut ways, rounds, turns).best_ratio(0, 1)
}

fn compare_times(floor: Floor) {
    println!("\nthe floor is compiled at -O3 by {COMPILER}; its cipher is {}", floor.cipher);
    print!("{:<36}", "ours / floor, best times");
    What::ALL.iter().for_each(|what| print!("{:>9}", what.name()));
    println!();
    let mut missed = [0; LIMITS.len()];
    for setting in &SETTINGS {
        print!("{:<36}", setting.name);
        for what in What::ALL {
            let ratio = ratio(setting, what, floor);
            print!("{ratio:>9.2}");
            let limit = LIMITS.iter().position(|limit| limit.0 == what);
            missed[limit.unwrap_or(0)] += usize::from(limit.is_some_and(|at| ratio > LIMITS[at].1));
        }
        println!();
    }
    for ((what, limit), missed) in LIMITS.iter().zip(missed) {
        let word = if missed == 0 { "met".into() } else { format!("NOT met on {missed} of 4") };
        println!("{:<36}{word}", format!("{}, at most {limit:.2}", what.name()));
    }
}

/// Our read of a short payload beside that of a long one.
fn short_reads() {
    println!("\nour read of 40 bytes / our read of 224");
    for setting in &SETTINGS {
        let [long, short] =
            [What::Read, What::ShortRead].map(|what| RefCell::new(Bed::new(setting, what)));
        let mut ways = [Bed::way(&long, Side::Ours), Bed::way(&short, Side::Ours)];
        let ratio = run_ready(&mut ways, 1_000, 10).best_ratio(1, 0);
        let word = if ratio <= SHORT_READ_LIMIT { "met" } else { "NOT met" };
        println!("{:<36}{ratio:>9.2}   at most {SHORT_READ_LIMIT:.2}: {word}", setting.name);
    }
}

/// One page enciphered under a fresh key.
fn cipher() -> Way<'static> {
    let (key, mut page): ([u8; 16], [u8; PAYLOAD]) = (Rng::new(5).array(), Rng::new(6).array());
    Way {
        ready: Box::new(|| ()),
        work: Box::new(move || assert_eq!(ffi::cipher::stream(&key, &mut page), ffi::DONE)),
    }
}

/// Our cut-off beside our write without its cipher.
fn cut_offs() {
    println!("\nour cut-off / (our write - our cipher on one page, its key expanded)");
    for setting in &SETTINGS {
        let write = RefCell::new(Bed::new(setting, What::Write));
        let cut_off = RefCell::new(Bed::new(setting, What::CutOff));
        let mut ways = [Bed::way(&write, Side::Ours), Bed::way(&cut_off, Side::Ours), cipher()];
        let times = run_ready(&mut ways, 1_000, 10);
        let ratio = times.best(1) / (times.best(0) - times.best(2));
        let word = if ratio <= CUT_OFF_LIMIT { "met" } else { "NOT met" };
        println!("{:<36}{ratio:>9.2}   at most {CUT_OFF_LIMIT:.2}: {word}", setting.name);
    }
}
