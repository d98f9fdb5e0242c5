//! The library beside a build of it from before: first the same bytes, then the times, now over before.
//!
//! The other build is a shared library with the same functions for C, as [`johvimaru_tests::another_build`]
//! says.

use crate::bed::{Bed, Side, What};
use johvimaru_tests::another_build::AnotherBuild;
use johvimaru_tests::settings::{Setting, FIRST_SEQUENCE, SETTINGS};
use johvimaru_tests::timing::run_ready;
use std::cell::RefCell;

/// The calls that are compared.
const CALLS: [What; 8] = [
    What::Write,
    What::Read,
    What::ShortRead,
    What::Mount,
    What::Commit,
    What::Wipe,
    What::CutOff,
    What::Format,
];

/// For each call the most that its time may be of that before #103.
const LIMITS: [(What, f64); 3] = [(What::Write, 1.08), (What::Commit, 1.12), (What::Format, 1.12)];

/// A first sequence of eight digits: all that follow it have as many.
const LONG_SEQUENCE: u32 = 12_345_600;

/// An image: a setting, and the sequence of its first write.
type Image = (&'static Setting, u32);

const IMAGES: [Image; 6] = [
    (&SETTINGS[0], FIRST_SEQUENCE),
    (&SETTINGS[1], FIRST_SEQUENCE),
    (&SETTINGS[2], FIRST_SEQUENCE),
    (&SETTINGS[3], FIRST_SEQUENCE),
    (&SETTINGS[1], LONG_SEQUENCE),
    (&SETTINGS[3], LONG_SEQUENCE),
];

/// For each call a ratio of times.
type Ratios = [f64; CALLS.len()];

/// Panics where the build leaves other bytes than the library on an image to be timed.
pub fn compare_results(build: AnotherBuild) {
    for image in IMAGES {
        for what in CALLS {
            let mut bed = bed(image, what);
            let same = bed.left(Side::Ours) == bed.left(Side::Before(build));
            assert!(same, "{}, {}: the build from before differs", name(image), what.name());
        }
    }
    println!("the build from before leaves the same bytes");
}

/// Prints the times, now over before.
pub fn times(build: AnotherBuild) {
    let all = IMAGES.map(|image| CALLS.map(|what| ratios(image, what, build)));
    print_table("now / before, best times", all.map(|calls| calls.map(|(best, _)| best)));
    print_table("now / before, medians", all.map(|calls| calls.map(|(_, median)| median)));
}

fn name((setting, sequence): Image) -> String {
    let digits = if sequence == LONG_SEQUENCE { ", 8 digits" } else { "" };
    format!("{}{digits}", setting.name)
}

fn bed((setting, sequence): Image, what: What) -> Bed {
    Bed::from_sequence(setting, sequence, what)
}

/// The best time of a call over the best before, and the same of the medians.
fn ratios(image: Image, what: What, build: AnotherBuild) -> (f64, f64) {
    let bed = RefCell::new(bed(image, what));
    let mut ways = [Bed::way(&bed, Side::Ours), Bed::way(&bed, Side::Before(build))];
    let (rounds, turns) = what.often(image.0);
    let times = run_ready(&mut ways, rounds, turns);
    (times.best_ratio(0, 1), times.median_ratio(0, 1))
}

fn print_table(title: &str, images: [Ratios; IMAGES.len()]) {
    print!("\n{title:<36}");
    CALLS.iter().for_each(|what| print!("{:>9}", what.name()));
    println!();
    for (image, ratios) in IMAGES.into_iter().zip(images) {
        print!("{:<36}", name(image));
        ratios.iter().for_each(|ratio| print!("{ratio:>9.2}"));
        println!();
    }
    for (what, limit) in LIMITS {
        let over =
            |ratios: &Ratios| CALLS.iter().zip(ratios).any(|(&of, &r)| of == what && r > limit);
        let missed = images.iter().filter(|ratios| over(ratios)).count();
        let of = images.len();
        let word = if missed == 0 { "met".into() } else { format!("NOT met on {missed} of {of}") };
        println!("{:<36}{word}", format!("{}, at most {limit:.2}", what.name()));
    }
}
