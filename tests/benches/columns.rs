//! What document 02's #103 saves where a division is a call: how many divisions a write, a commit and a
//! format made before it in writing columns and in words of columns, and the time of so many divisions by
//! steps, beside the time of the whole call. Now they make none, which `tests/no_division.rs` shows; what
//! they do instead is in the time of the call.
//!
//! A quotient and a remainder are two divisions, also where a routine gives both. Those by powers of two are
//! shifts on any processor: they are counted, and not timed.
//!
//! What it costs on this machine is the time of each call beside that of a build from before, where one is
//! given.
//!
//! Under `cargo bench` it prints counts and times. Under `cargo test` it only compares what is written.

// A gather, which is timed elsewhere, and the floor are not used here.
#[allow(dead_code)]
#[path = "store/bed.rs"]
mod bed;
#[path = "columns/before.rs"]
mod before;
#[path = "columns/beside_before.rs"]
mod beside_before;

use bed::{Bed, Side, What};
use johvimaru_tests::another_build::AnotherBuild;
use johvimaru_tests::dividing::{divide_by_steps, Divisions};
use johvimaru_tests::rng::Rng;
use johvimaru_tests::settings::{Setting, SETTINGS};
use johvimaru_tests::timing::{run_ready, Way};
use std::cell::RefCell;
use std::hint::black_box;

/// The calls that write columns most.
const CALLS: [What; 3] = [What::Write, What::Commit, What::Format];

/// A format writes the same on every image: the parts 10 to 15 of two key blocks with three divisions each;
/// three headers with 42 by powers of two each, and 42 parts with six each.
const OF_FORMAT: Divisions = Divisions { by_tens: 2 * 6 * 3, by_twos: 3 * 42 + 42 * 6 };

/// Divisions in a turn.
const DIVISIONS: usize = 1_000;
/// What is divided by, and the numbers that are divided are below.
const TENS: [u32; 3] = [10, 100, 10_000];
const NUMBERS: usize = 10_000;

fn main() {
    let bench = std::env::args().any(|word| word == "--bench");
    let build = AnotherBuild::from_before();
    let mut lines = Vec::new();
    for setting in &SETTINGS {
        for what in CALLS {
            let (bed, made) = divisions(setting, what);
            if bench {
                lines.push(line(setting, what, bed, made));
            }
        }
    }
    println!("columns written and compared by division are those of the library");
    build.into_iter().for_each(beside_before::compare_results);
    if bench {
        print_table(&lines);
        build.into_iter().for_each(beside_before::times);
    }
}

/// The divisions of a call before #103, and the image on which it is made.
fn divisions(setting: &Setting, what: What) -> (Bed, Divisions) {
    let mut bed = Bed::new(setting, what);
    let left = bed.left(Side::Ours);
    let made = before::divisions(what, &bed.before, &left);
    if what == What::Format {
        assert_eq!(made, OF_FORMAT, "{}", setting.name);
    }
    (bed, made)
}

/// A turn of divisions by steps, of numbers such as stand in columns.
fn by_steps() -> Way<'static> {
    let mut rng = Rng::new(103);
    let pairs: Vec<(u32, u32)> =
        (0..DIVISIONS).map(|at| (rng.below(NUMBERS) as u32, TENS[at % TENS.len()])).collect();
    let divide = move || {
        for &(n, by) in black_box(&pairs) {
            black_box(divide_by_steps(n, by));
        }
    };
    Way { ready: Box::new(|| ()), work: Box::new(divide) }
}

/// How often a call is timed: rounds, and times in a round.
fn often(setting: &Setting, what: What) -> (usize, usize) {
    match what {
        What::Write => (200, 10),
        _ if setting.blocks > 32 => (40, 3),
        _ => (100, 5),
    }
}

/// A line of the table: counts, the time of a division, what all by powers of ten would take, and the time of
/// the call.
fn line(setting: &Setting, what: What, bed: Bed, made: Divisions) -> String {
    let bed = RefCell::new(bed);
    let mut ways = [Bed::way(&bed, Side::Ours), by_steps()];
    let (rounds, turns) = often(setting, what);
    let times = run_ready(&mut ways, rounds, turns);
    let (call, each) = (times.best(0), times.best(1) / DIVISIONS as f64);
    let Divisions { by_tens, by_twos } = made;
    let saved = by_tens as f64 * each;
    let name = format!("{}, {}", what.name(), setting.name);
    format!("{name:<36}{by_tens:>9}{by_twos:>9}{:>9}{each:>9.1}{saved:>12.0}{call:>12.0}", 0)
}

fn print_table(lines: &[String]) {
    let [divisions, times] = ["divisions before", "ns, best times"];
    println!("\n{:<36}{divisions:>18}{:>9}{times:>33}", "", "now");
    print!("{:<36}{:>9}{:>9}{:>9}", "a call", "by tens", "by twos", "");
    println!("{:>9}{:>12}{:>12}", "division", "saved", "the call");
    lines.iter().for_each(|line| println!("{line}"));
}
