//! The listing program, beside the second implementation: document 01's case, which is the crate's own
//! input and output, and what the program prints for images of random lists, damaged images, and
//! input that is no image.

use johvimaru_tests::model::calls::DONE;
use johvimaru_tests::model::image::BLOCK;
use johvimaru_tests::model::list::{write, Call, Data};
use johvimaru_tests::model::listing;
use johvimaru_tests::model::store::Store;
use johvimaru_tests::rng::Rng;
use std::fs;
use std::io::Write;
use std::path::{Path, PathBuf};
use std::process::{Command, Stdio};

fn repository() -> PathBuf {
    Path::new(env!("CARGO_MANIFEST_DIR")).join("..")
}

fn formatted(blocks: usize) -> Store {
    Store::formatted(blocks, Data { length: 7_168, seed: 1_000 })
}

/// The write of a recorder from before lengths were kept.
fn older_write(file: usize, offset: usize, seed: u64) -> Call {
    Call::Append { file, offset, second: 0, bytes: Data::payload(seed) }
}

/// The image of document 01's case, by these writes.
fn case(write: fn(usize, usize, u64) -> Call) -> Vec<u8> {
    let mut store = formatted(8);
    for call in [write(0, 0, 1), write(2, 5, 2), write(0, 0, 3)] {
        assert_eq!(store.call(call), DONE, "{call:?}");
    }
    store.image
}

/// What the program prints for this input.
fn printed(input: &[u8]) -> String {
    let mut program = Command::new(repository().join("crates/listing/out/listing"))
        .stdin(Stdio::piped())
        .stdout(Stdio::piped())
        .spawn()
        .expect("`rt ci`, or `rt run` in crates/listing, has made the program");
    // The program leaves what it does not read, so that the pipe may close early.
    let _ = program.stdin.take().expect("it is piped").write_all(input);
    let output = program.wait_with_output().expect("the program ends");
    String::from_utf8(output.stdout).expect("it prints text")
}

fn assert_same(input: &[u8], name: &str) {
    assert_eq!(printed(input), listing::text(input), "{name}");
}

/// The crate's input is the image that an older recorder left; this one's is listed alike.
#[test]
fn the_case_of_the_crate() {
    let read = |name| fs::read(repository().join("crates/listing").join(name)).expect(name);
    let older = case(older_write);
    assert!(read("stdin") == older, "crates/listing/stdin is not the image of the case");
    assert_eq!(read("stdout"), listing::text(&older).as_bytes());
    let short = |file, offset, seed| {
        let payload = Data::of(40, seed);
        Call::Write { file, offset, payload }
    };
    for image in [older, case(write), case(short)] {
        assert_eq!(printed(&image).as_bytes(), read("stdout"));
    }
}

#[test]
fn input_that_is_no_image() {
    let most = formatted(16).image;
    assert_same(&most, "16 blocks");
    assert_same(&most[1..], "a byte less");
    assert_same(&[most.as_slice(), &[0xff]].concat(), "a byte more");
    assert_same(&formatted(17).image, "17 blocks");
    assert_same(&formatted(256).image, "256 blocks");
    assert_same(&[], "nothing");
    assert_same(&[0xff; 8 * BLOCK], "8 empty blocks");
}

/// Calls on images of 8 to 16 blocks, the last of them cut; each image listed as it stands and with a
/// byte changed.
#[test]
fn images_of_random_calls() {
    let mut rng = Rng::new(7);
    for seed in 0..60 {
        let mut store = formatted(8 + rng.below(9));
        for _ in 0..rng.below(120) {
            let (file, offset) = (rng.below(14), rng.below(8));
            let call = match rng.below(10) {
                0 => Call::CutOff { file, offset },
                1 => Call::Commit { noise: Data::noise(rng.number()) },
                2 => Call::Wipe { file, offset, noise: Data::noise(rng.number()) },
                3 => older_write(file, offset, rng.number()),
                _ => {
                    let payload = Data::of(1 + rng.below(224), rng.number());
                    Call::Write { file, offset, payload }
                }
            };
            store.call(call);
        }
        let last = [write(0, 0, seed), Call::Commit { noise: Data::noise(seed) }][rng.below(2)];
        store.cut(last, rng.below(50), rng.below(300));
        assert_same(&store.image, &format!("list {seed}"));
        let at = rng.below(store.image.len());
        store.image[at] ^= 1 << rng.below(8);
        assert_same(&store.image, &format!("list {seed}, byte {at} changed"));
    }
}
