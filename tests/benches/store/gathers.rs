//! A gather of 16 live pages: beside the floor's, and beside what no gather can do without, one write's tests
//! and search and 16 pages copied and spelt. Both of these are the floor's.
//!
//! Where some copies go to open pages and the others to a fresh block, a gather has to look at every block, and
//! a write there stops at the first open page: the floor is above the limit as well.

use crate::bed::{Bed, Side, What};
use johvimaru_tests::floor::Floor;
use johvimaru_tests::model::image::PAGES_IN_BLOCK;
use johvimaru_tests::model::pages::{Page, PAGE};
use johvimaru_tests::rng::Rng;
use johvimaru_tests::settings::GATHER_SETTINGS;
use johvimaru_tests::timing::{run_ready, Way};
use std::cell::RefCell;
use std::hint::black_box;

/// On the largest image our gather over the floor's write and copies is at most this.
const LIMIT: f64 = 1.5;
/// The largest image.
const MOST_BLOCKS: usize = 256;

/// Panics where floor and library differ, or a gather copies other than 16 pages.
pub fn compare_results(floor: Floor) {
    for setting in &GATHER_SETTINGS {
        let mut bed = Bed::new(setting, What::Gather);
        let (before, left) = (bed.before.record.numbers[0], bed.left(Side::Ours));
        let same = left == bed.left(Side::Floor(floor));
        assert!(same, "{}, gather: the floor differs", setting.name);
        assert_eq!(left.record.numbers[0] - before, PAGES_IN_BLOCK as u32, "{}", setting.name);
    }
}

/// 16 pages copied and spelt by the floor.
fn copies(floor: Floor) -> Way<'static> {
    let from: Vec<Page> = Rng::new(7).bytes(PAGES_IN_BLOCK * PAGE).as_chunks().0.to_vec();
    let mut to = from.clone();
    Way {
        ready: Box::new(|| ()),
        work: Box::new(move || floor.copy_pages(black_box(&mut to), black_box(&from), 12_345_678)),
    }
}

/// Prints the times.
pub fn times(floor: Floor) {
    println!("\n{:<32}{:>16}{:>12}{:>18}", "", "ours /", "ours /", "floor /");
    let bar = "write, 16 copies";
    println!("{:<32}{bar:>16}{:>12}{bar:>18}", "a gather of 16 live pages", "floor");
    for setting in &GATHER_SETTINGS {
        let [gather, write] =
            [What::Gather, What::Write].map(|what| RefCell::new(Bed::new(setting, what)));
        let floors = Side::Floor(floor);
        let mut ways = [
            Bed::way(&gather, Side::Ours),
            Bed::way(&gather, floors),
            Bed::way(&write, floors),
            copies(floor),
        ];
        let times = run_ready(&mut ways, 1_000, 10);
        let bar = times.best(2) + times.best(3);
        let (ours, floors) = (times.best(0) / bar, times.best(1) / bar);
        let both = times.best_ratio(0, 1);
        print!("{:<36}{ours:>12.2}{both:>12.2}{floors:>18.2}", setting.name);
        println!(
            "{}",
            if setting.blocks == MOST_BLOCKS { verdict(ours, floors) } else { "".into() }
        );
    }
}

/// Whether the limit is kept.
fn verdict(ours: f64, floors: f64) -> String {
    let word = match ours <= LIMIT {
        true => "met".to_string(),
        false if floors > LIMIT => format!("NOT met, nor by the floor ({floors:.2})"),
        false => "NOT met".to_string(),
    };
    format!("   at most {LIMIT:.2}: {word}")
}
