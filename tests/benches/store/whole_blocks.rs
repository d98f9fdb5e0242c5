//! A mount beside one pass of the form of every page and the fill of the blocks that it erases, and a commit
//! and a wipe beside the same bytes moved without a test; all beside the second implementation.
//!
//! What the floor takes of the same pass or moves stands there too, since no call can do with less than
//! document 01's tests. On the largest image those of a commit and a wipe take longer than the moves, so
//! the floor is above their limit as well.

use crate::bed::{Bed, Side, What};
use johvimaru_tests::ffi::page as harness;
use johvimaru_tests::floor::Floor;
use johvimaru_tests::model::calls;
use johvimaru_tests::model::image::{Step, BLOCK};
use johvimaru_tests::model::list::Call;
use johvimaru_tests::model::pages::{self, Form, Header, ERASED, PAGE};
use johvimaru_tests::model::store::Store;
use johvimaru_tests::settings::{Setting, CALLS, FORMAT_NOISE, SETTINGS, VACANT};
use johvimaru_tests::timing::{run_ready, Times, Way};
use std::cell::RefCell;
use std::hint::black_box;

/// On the largest image the time of a mount over that of one pass of the form of every page and the fill, and
/// that of a commit or wipe over that of the same bytes moved without a test, are at most this.
const LIMIT: f64 = 1.5;
/// The largest image.
const MOST_BLOCKS: usize = 256;

/// Sizes of images, and how many writes nearly fill them or all places.
pub const SIZES: [(usize, usize); 4] = [(8, 60), (32, 440), (128, 440), (MOST_BLOCKS, 440)];

/// Rounds, and times in a round.
const ROUNDS: usize = 50;
const TURNS: usize = 3;

/// All of them, as a table.
pub fn whole_blocks(bench: bool) {
    if bench {
        println!("\n{:<36}{:>12}{:>12}{:>12}", "", "ours /", "ours /", "floor /");
        println!("{:<36}{:>12}{:>12}{:>12}", "", "pass, moves", "second", "pass, moves");
    }
    for (blocks, full) in SIZES {
        for writes in [CALLS, full] {
            mounts(&Setting { name: "mount", blocks, live: writes.min(VACANT), writes }, bench);
        }
    }
    for setting in &SETTINGS[2..] {
        purges(setting, What::Commit, Call::Commit { noise: FORMAT_NOISE }, bench);
        purges(setting, What::Wipe, Call::Wipe { file: 0, offset: 0, noise: FORMAT_NOISE }, bench);
    }
}

/// Times ours, the pass or the moves, the second implementation and, where there is one, the floor. Prints
/// a line, with the limit where it holds for so many blocks.
fn compare(name: &str, mut ways: Vec<Way>, blocks: usize) {
    let times: Times = run_ready(&mut ways, ROUNDS, TURNS);
    let (first, second) = (times.best_ratio(0, 1), times.best_ratio(0, 2));
    let floor = (ways.len() > 3).then(|| times.best_ratio(3, 1));
    let in_c = floor.map_or("-".to_string(), |ratio| format!("{ratio:.2}"));
    print!("{name:<36}{first:>12.2}{second:>12.2}{in_c:>12}");
    let word = match floor {
        _ if first <= LIMIT => "met".to_string(),
        Some(ratio) if ratio > LIMIT => format!("NOT met, nor by the floor ({in_c})"),
        _ => "NOT met".to_string(),
    };
    match blocks {
        MOST_BLOCKS => println!("   at most {LIMIT:.2}: {word}"),
        _ => println!(),
    }
}

/// The call by the floor, where there is one.
fn by_floor(bed: &RefCell<Bed>) -> Option<Way<'_>> {
    Floor::open().map(|floor| Bed::way(bed, Side::Floor(floor)))
}

/// The forms of all pages of an image, by the library.
fn pass(image: &[u8]) -> u32 {
    let mut fields = [0; 6];
    image.chunks_exact(PAGE).map(|page| harness::form(page, &mut fields)).sum()
}

/// Fills the blocks that these steps erase with FFh.
pub fn fill(image: &mut [u8], steps: &[Step]) {
    for step in steps {
        if let Step::Erase { block } = step {
            black_box(&mut image[BLOCK * block..][..BLOCK]).fill(ERASED);
        }
    }
}

/// A call by the second implementation, on a copy that it finds as it was.
fn by_second(store: &Store, call: Call) -> Way<'_> {
    let copy = RefCell::new(store.clone());
    let copy: &'static RefCell<Store> = Box::leak(Box::new(copy));
    Way {
        ready: Box::new(|| copy.borrow_mut().clone_from(store)),
        work: Box::new(move || assert_eq!(copy.borrow_mut().call(call), calls::DONE)),
    }
}

/// A mount by the library beside that pass and beside the second implementation's mount.
fn mounts(setting: &Setting, bench: bool) {
    let (store, mut bed) = (setting.store(), Bed::new(setting, What::Mount));
    let left = bed.left(Side::Ours);
    let same = left.image == bed.before.image && left.record == bed.before.record;
    assert!(same, "a mount finds what was written");
    if bench {
        let (mut image, steps) = (bed.before.image.clone(), store.steps(Call::MOUNT));
        let bed = RefCell::new(bed);
        let work = || {
            assert!(pass(black_box(&image)) > 0);
            fill(&mut image, &steps);
        };
        let pass = Way { ready: Box::new(|| ()), work: Box::new(work) };
        let mut ways = vec![Bed::way(&bed, Side::Ours), pass, by_second(&store, Call::MOUNT)];
        ways.extend(by_floor(&bed));
        let name = format!("mount, {} blocks, {} writes", setting.blocks, setting.writes);
        compare(&name, ways, setting.blocks);
    }
}

/// A step that was taken apart: a page's number, header and payload, or a block to erase.
enum Move {
    Page(usize, Header, Vec<u8>),
    Erase(usize),
}

impl Move {
    fn of(step: &Step) -> Move {
        match step {
            Step::Program { page, bytes } => match Form::of(bytes) {
                Form::Whole(header) => Move::Page(*page, header, pages::payload(bytes).to_vec()),
                _ => unreachable!("a call programs whole pages"),
            },
            Step::Erase { block } => Move::Erase(*block),
        }
    }

    /// Spells the page and copies it to its place, or erases the block; nothing is tested.
    fn make(&self, image: &mut [u8]) {
        match self {
            Move::Page(page, header, payload) => {
                image[PAGE * page..][..PAGE].copy_from_slice(&header.page(payload));
            }
            Move::Erase(block) => image[BLOCK * block..][..BLOCK].fill(ERASED),
        }
    }
}

/// A commit or a wipe by the library beside the same bytes moved without a test and beside the second
/// implementation's.
fn purges(setting: &Setting, what: What, call: Call, bench: bool) {
    let (store, bed) = (setting.store(), RefCell::new(Bed::new(setting, what)));
    let moves: Vec<Move> = store.steps(call).iter().map(Move::of).collect();
    let moved = || moves.iter().for_each(|one| one.make(&mut bed.borrow_mut().now.image));
    let ours = bed.borrow_mut().left(Side::Ours);
    moved();
    assert!(ours.image == bed.borrow().now.image, "{}: the images", what.name());
    bed.borrow_mut().restore();
    if bench {
        let moving = Way { ready: Box::new(|| bed.borrow_mut().restore()), work: Box::new(moved) };
        let mut ways = vec![Bed::way(&bed, Side::Ours), moving, by_second(&store, call)];
        ways.extend(by_floor(&bed));
        compare(&format!("{}, {}", what.name(), setting.name), ways, setting.blocks);
    }
}
