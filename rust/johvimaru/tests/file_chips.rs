//! Chips in files: the file has each step when it has ended, and after a cut what a chip has.
#![cfg(all(feature = "cut", feature = "std"))]

#[allow(dead_code)]
mod common;

use common::cuts::{rich, wipe_at_every_step, Bed};
use common::{at, noise};
use johvimaru::{
    Chip, Cut, CutChip, Driver, Failure, FileChip, MemoryChip, Misuse, Store, BLOCK, PAGE,
};
use std::error::Error;
use std::fs::{self, File};
use std::io;
use std::path::PathBuf;

fn temporary(name: &str) -> PathBuf {
    let path = PathBuf::from(env!("CARGO_TARGET_TMPDIR")).join(name);
    let _ = fs::remove_file(&path);
    path
}

#[test]
fn a_chip_in_a_file_through_a_handover() {
    let path = temporary("handover.img");
    let mut driver = Driver::new(CutChip::new(FileChip::create(&path, 8).unwrap()));
    driver.format(noise(1)).unwrap();
    driver.write(at(0, 0), &[1; 224]).unwrap();
    driver.write(at(0, 1), &[2; 224]).unwrap();
    assert!(fs::read(&path).unwrap() == driver.mirror());
    let mut store = driver.copy().unwrap();
    driver.chip_mut().cut_at(Cut { n: 30, k: 77 });
    driver.wipe(at(0, 1), noise(2)).unwrap_err();
    let cut = Store::wipe_cut(store.clone(), at(0, 1), noise(2), Cut { n: 30, k: 77 }).unwrap();
    assert!(fs::read(&path).unwrap() == cut.image());

    let mut driver = Driver::new(FileChip::open(&path).unwrap());
    driver.mount().unwrap();
    driver.wipe(at(0, 1), noise(3)).unwrap();
    store = cut.mounted().unwrap();
    store.wipe(at(0, 1), noise(3)).unwrap();
    assert!(fs::read(&path).unwrap() == store.image());
    fs::remove_file(&path).unwrap();
}

#[test]
fn what_a_chip_in_a_file_refuses() {
    let path = temporary("refusing.img");
    let mut chip = FileChip::create(&path, 8).unwrap();
    assert!(FileChip::create(&path, 8).is_err(), "a file that is there is no new chip");
    chip.program(127, &[b' '; PAGE]).unwrap();
    let error = chip.program(127, &[b' '; PAGE]).unwrap_err();
    assert_eq!(error.to_string(), Misuse::NotEmpty.to_string());
    let error = chip.program(128, &[b' '; PAGE]).unwrap_err();
    assert_eq!(error.to_string(), Misuse::Outside.to_string());
    assert!(chip.erase(8).is_err() && chip.read(128, &mut [0; PAGE]).is_err());
    chip.erase(7).unwrap();
    assert_eq!(fs::read(&path).unwrap(), [0xff; 8 * BLOCK]);
    fs::remove_file(&path).unwrap();
    assert!(FileChip::open(&path).is_err());
}

/// Chips in a file of this name.
struct InFile(PathBuf);

impl Bed for InFile {
    type Chip = FileChip;

    fn driver(&self, bytes: &[u8]) -> Driver<CutChip<FileChip>> {
        fs::write(&self.0, bytes).unwrap();
        let mut driver = Driver::new(CutChip::new(FileChip::open(&self.0).unwrap()));
        driver.mount().unwrap();
        driver
    }

    fn bytes(&self, _: &FileChip) -> Vec<u8> {
        fs::read(&self.0).unwrap()
    }
}

/// Some five thousand steps, each of which waits for the disk: the folder of temporary files may be in memory.
#[test]
fn a_wipe_in_a_file_cut_at_every_step() {
    let name = format!("johvimaru-wipe-{}.img", std::process::id());
    let bed = InFile(std::env::temp_dir().join(name));
    assert_eq!(wipe_at_every_step(&bed, &[1, 100, 4_095]), 57);
    fs::remove_file(&bed.0).unwrap();
}

/// Blocks of bytes that are not FFh, but for one page in each.
fn full_blocks() -> Vec<u8> {
    let mut bytes: Vec<u8> = (0..8 * BLOCK).map(|at| (at % 255) as u8).collect();
    bytes.chunks_mut(BLOCK).for_each(|block| block[3 * PAGE..][..PAGE].fill(0xff));
    bytes
}

/// A chip in memory erases a block in part as chips do that say nothing of it, a chip in a file in its own
/// way.
#[test]
fn an_erase_in_part_leaves_the_same_in_memory_and_in_a_file() {
    let path = temporary("part.img");
    let before = full_blocks();
    for k in [0, 1, 255, 256, 4_095, 4_096, 5_000] {
        for block in [0, 5, 7] {
            let mut expected = before.clone();
            expected[BLOCK * block..][..k.min(BLOCK)].fill(0xff);
            let mut memory = MemoryChip::new(before.clone());
            memory.erase_part(block, k).unwrap();
            assert!(memory.bytes() == expected, "block {block}, {k} bytes, in memory");
            fs::write(&path, &before).unwrap();
            FileChip::open(&path).unwrap().erase_part(block, k).unwrap();
            assert!(fs::read(&path).unwrap() == expected, "block {block}, {k} bytes, in a file");
        }
    }
    assert!(MemoryChip::new(before.clone()).erase_part(8, 1).is_err());
    assert!(FileChip::open(&path).unwrap().erase_part(8, 1).is_err());
    assert_eq!(fs::metadata(&path).unwrap().len(), before.len() as u64);
    fs::remove_file(&path).unwrap();
}

/// A mount has blocks to erase, empty ones at least: on a file that cannot be written it fails in its first step, for
/// the system's reason. What is in the file can be read from a copy.
#[test]
fn a_file_that_is_opened_to_be_read_only() {
    let path = temporary("only-read.img");
    let mut bytes = rich().mirror().to_vec();
    bytes.push(b'x');
    fs::write(&path, &bytes).unwrap();
    let chip = FileChip::from_file(File::open(&path).unwrap()).unwrap();
    assert_eq!(chip.blocks(), 8, "a byte after the last block is no part of the chip");
    let mut driver = Driver::new(chip);
    let failure = driver.mount().unwrap_err();
    assert!(failure.source().is_some_and(|source| source.is::<io::Error>()), "{failure:?}");
    assert!(matches!(driver.read(at(0, 0)), Err(Failure::NotMounted)));
    assert!(fs::read(&path).unwrap() == bytes);
    bytes.pop();
    assert_eq!(Store::mount(bytes).unwrap().read(at(0, 0)).unwrap(), [16; 224]);
    fs::remove_file(&path).unwrap();
}

/// The erase of an empty block is written as any other: a file that cannot be written does not take it.
#[test]
fn an_erase_of_an_empty_block_is_written() {
    let path = temporary("empty-erase.img");
    FileChip::create(&path, 8).unwrap().erase(3).unwrap();
    let mut chip = FileChip::from_file(File::open(&path).unwrap()).unwrap();
    assert!(chip.erase(3).is_err());
    fs::remove_file(&path).unwrap();
}

/// A file that has become too short for its blocks.
#[test]
fn a_file_that_ends_early() {
    let path = temporary("short.img");
    let mut driver = Driver::new(FileChip::create(&path, 8).unwrap());
    driver.format(noise(1)).unwrap();
    File::options().write(true).open(&path).unwrap().set_len(7 * BLOCK as u64).unwrap();
    assert!(matches!(driver.mount(), Err(Failure::Chip(_))));
    fs::remove_file(&path).unwrap();
}
