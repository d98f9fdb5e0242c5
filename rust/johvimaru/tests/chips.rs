//! Calls that drive a chip: it is as the mirror after each, and a cut at every step leaves what the
//! library's own form with n and k leaves.
#![cfg(feature = "cut")]

#[allow(dead_code)]
mod common;

use common::cuts::{every_step, memory, rich, wipe_at_every_step, InMemory, Memory, NODES};
use common::{at, noise};
use johvimaru::{
    Chip, Cut, CutError, Driver, Failure, File, MemoryChip, Misuse, Page, Payload, Refusal, Store,
    BLOCK,
};

/// The bytes of a step at which it is cut.
const BYTES: [usize; 11] = [0, 1, 29, 30, 100, 255, 256, 257, 4_095, 4_096, 5_000];

fn assert_same(driver: &InMemory, what: &str) {
    assert!(driver.chip().inner().bytes() == driver.mirror(), "{what}: chip and mirror");
}

/// The whole steps that a call has told the chip.
fn steps<T: std::fmt::Debug>(
    driver: &mut InMemory,
    call: impl FnOnce(&mut InMemory) -> Result<(), T>,
) -> u64 {
    let before = driver.chip().steps();
    call(driver).unwrap();
    assert_same(driver, "after a call");
    driver.chip().steps() - before
}

#[test]
fn each_call_has_the_steps_of_document_01() {
    let mut driver = memory(8);
    assert_eq!(steps(&mut driver, |driver| driver.format(noise(1))), 50);
    // An empty block's erase is told to the chip too.
    assert_eq!(steps(&mut driver, |driver| driver.format(noise(2))), 50);
    assert_eq!(steps(&mut driver, |driver| driver.write(at(13, 7), &[b'p'; 224])), 1);
    assert_eq!(steps(&mut driver, |driver| driver.write(at(13, 7), &[b'p'; 224])), 1);
    assert_eq!(steps(&mut driver, |driver| driver.commit(noise(3))), 45);
    assert_eq!(steps(&mut driver, |driver| driver.cut_off(at(13, 0))), 1);
    assert_eq!(steps(&mut driver, |driver| driver.write(at(13, 7), &[b'p'; 224])), 1);
    assert_eq!(steps(&mut driver, |driver| driver.wipe(at(13, 0), noise(4))), 57);
    assert_eq!(steps(&mut driver, |driver| driver.mount()), 5);
}

/// The same calls by a store in memory leave the same image and record.
#[test]
fn a_chip_has_what_a_store_has() {
    let mut driver = rich();
    let mut store = Store::mount(driver.mirror().to_vec()).unwrap();
    for seed in 2..30 {
        let file = File::new(u32::from(seed) % 14).unwrap();
        let payload = [seed; 224];
        let refused = |failure: Failure<CutError<Misuse>>| failure.refusal().unwrap();
        let same = match seed % 5 {
            0 => driver.commit(noise(seed)).map_err(refused) == store.commit(noise(seed)),
            1 => {
                let by_driver = driver.wipe(file.start(), noise(seed)).map_err(refused);
                by_driver == store.wipe(file.start(), noise(seed))
            }
            2 => driver.cut_off(file.start()).map_err(refused) == store.cut_off(file.start()),
            _ => {
                let by_driver = driver.write(file.start(), &payload).map_err(refused);
                by_driver == store.write(file.start(), &payload)
            }
        };
        assert!(same, "{seed}: reply");
        assert_same(&driver, &seed.to_string());
        assert!(driver.mirror() == store.image(), "{seed}: image");
        assert_eq!(driver.record(), Some(store.record()), "{seed}: record");
    }
}

/// A cut-off has nothing to remove here, so it is refused, and the chip is told nothing.
#[test]
fn a_refused_call_tells_the_chip_nothing() {
    let mut driver = rich();
    let before = (driver.chip().steps(), driver.mirror().to_vec());
    let refused = driver.cut_off(at(5, 0)).unwrap_err();
    assert_eq!(refused, Failure::Refused(Refusal::NothingThere));
    assert_eq!(refused.to_string(), "there is no node there");
    assert_eq!(driver.read(at(5, 0)).unwrap_err().refusal(), Some(Refusal::NothingThere));
    assert!((driver.chip().steps(), driver.mirror().to_vec()) == before);
    assert!(driver.record().is_some());
}

#[test]
fn a_commit_cut_at_every_step() {
    let steps = every_step(
        &Memory,
        &BYTES,
        |driver| driver.commit(noise(9)),
        |store, cut| store.commit_cut(noise(9), cut).unwrap(),
        |_, store| {
            for (file, offset, payload) in NODES {
                assert_eq!(store.read(at(file, offset)), Payload::new(payload));
            }
            assert_eq!(store.record().nodes().count(), NODES.len());
        },
    );
    assert_eq!(steps, 46);
}

#[test]
fn a_wipe_cut_at_every_step() {
    assert_eq!(wipe_at_every_step(&Memory, &BYTES), 57);
}

#[test]
fn writes_and_cut_offs_cut_at_every_step() {
    let steps = every_step(
        &Memory,
        &BYTES,
        |driver| driver.write(at(0, 0), &[99; 224]),
        |store, cut| store.write_cut(at(0, 0), &[99; 224], cut).unwrap(),
        |_, store| assert_eq!(store.record().nodes().count(), NODES.len()),
    );
    assert_eq!(steps, 1);
    let steps = every_step(
        &Memory,
        &BYTES,
        |driver| driver.cut_off(at(2, 0)),
        |store, cut| store.cut_off_cut(at(2, 0), cut).unwrap(),
        |_, store| assert!(store.record().nodes().count() >= NODES.len() - 1),
    );
    assert_eq!(steps, 1);
}

/// A format leaves nothing to mount until its last page is whole.
#[test]
fn a_format_cut_at_every_step() {
    for n in 0..=50 {
        for k in [0, 100, 256, 4_096] {
            let (cut, before) = (Cut { n, k }, rich());
            let mut driver = before.clone();
            driver.chip_mut().cut_at(cut);
            let result = driver.format(noise(7));
            let image = before.mirror().to_vec();
            let expected = Store::format_cut(image, noise(7), cut).unwrap();
            assert!(driver.chip().inner().bytes() == expected.image(), "{cut:?}");
            assert_eq!(result.is_err(), expected.is_cut(), "{cut:?}");
            driver.chip_mut().power_on();
            assert_eq!(driver.mount().is_ok(), expected.mounted().is_ok(), "{cut:?}");
        }
    }
}

/// A mount that is cut is followed by another. Each of its erases is a step, that of an empty block too.
#[test]
fn a_mount_that_is_cut() {
    let mut driver = rich();
    driver.chip_mut().cut_at(Cut { n: 15, k: 0 });
    driver.wipe(at(0, 0), noise(9)).unwrap_err();
    let image = driver.chip().inner().bytes().to_vec();
    let cuts = (0..5).flat_map(|n| [0, 1, 300, 4_096].map(|k| Cut { n, k }));
    for cut in cuts {
        let mut driver = driver.clone();
        driver.chip_mut().power_on();
        driver.chip_mut().cut_at(cut);
        let expected = Store::mount_cut(image.clone(), cut).unwrap();
        if !expected.is_cut() {
            assert_eq!(cut, Cut { n: 4, k: 0 }, "a torn copy of a key block, two empty, one dead");
            return driver.mount().unwrap();
        }
        assert_eq!(driver.mount(), Err(Failure::Chip(CutError::PowerCut)), "{cut:?}");
        assert!(driver.chip().inner().bytes() == expected.image(), "{cut:?}");
        driver.chip_mut().power_on();
        driver.mount().unwrap();
        assert!(driver.mirror() == expected.mounted().unwrap().image(), "{cut:?}");
    }
    panic!("a mount has an end");
}

/// All that this mount does is to erase empty blocks, three of them.
#[test]
fn a_mount_that_fails_or_is_refused_leaves_the_mirror_as_it_was() {
    let image = rich().mirror().to_vec();
    for left in 0..4 {
        let chip = MemoryChip::new(image.clone());
        let mut driver = Driver::new(Failing { chip, left });
        let result = driver.mount();
        assert_eq!(result.is_err(), left < 3, "{left}: {result:?}");
        assert!(driver.mirror() == image && driver.chip().chip.bytes() == image, "{left}");
    }
    for byte in [0xff, 0] {
        let image = vec![byte; 8 * BLOCK];
        let mut driver = Driver::new(Failing { chip: MemoryChip::new(image.clone()), left: 0 });
        assert_eq!(driver.mount(), Err(Failure::Refused(Refusal::NoCommit)));
        assert!(driver.mirror() == image && driver.chip().chip.bytes() == image, "{byte}");
    }
}

/// A chip that fails in its own way at one step.
#[derive(Clone)]
struct Failing {
    chip: MemoryChip,
    left: usize,
}

impl Failing {
    fn step(&mut self) -> Result<(), &'static str> {
        self.left = self.left.checked_sub(1).ok_or("worn out")?;
        Ok(())
    }
}

impl Chip for Failing {
    type Error = &'static str;

    fn blocks(&self) -> usize {
        self.chip.blocks()
    }

    fn read(&mut self, page: usize, bytes: &mut Page) -> Result<(), &'static str> {
        self.chip.read(page, bytes).map_err(|_| "outside")
    }

    fn program(&mut self, page: usize, bytes: &Page) -> Result<(), &'static str> {
        self.step()?;
        self.chip.program(page, bytes).map_err(|_| "not empty")
    }

    fn erase(&mut self, block: usize) -> Result<(), &'static str> {
        self.step()?;
        self.chip.erase(block).map_err(|_| "outside")
    }
}

#[test]
fn a_failing_chip_leaves_the_mirror_where_it_stands() {
    for left in 0..46 {
        let chip = MemoryChip::new(rich().mirror().to_vec());
        let mut driver = Driver::new(Failing { chip, left: 1_000 });
        driver.mount().unwrap();
        driver.chip_mut().left = left;
        assert_eq!(driver.commit(noise(9)), Err(Failure::Chip("worn out")));
        assert!(driver.chip().chip.bytes() == driver.mirror(), "{left}");
        assert!(driver.record().is_none() && driver.copy().is_none());
        assert_eq!(driver.read(at(0, 0)), Err(Failure::NotMounted));
        assert_eq!(driver.commit(noise(9)), Err(Failure::NotMounted));
        driver.chip_mut().left = 1_000;
        driver.mount().unwrap();
        assert_eq!(driver.read(at(0, 0)).unwrap(), [16; 224], "{left}");
    }
}

#[test]
fn a_chip_of_a_wrong_size_is_refused() {
    let mut driver = memory(7);
    assert_eq!(driver.format(noise(1)), Err(Failure::Refused(Refusal::ImageSize)));
    assert_eq!(driver.mount(), Err(Failure::Refused(Refusal::ImageSize)));
    assert_eq!(driver.chip().steps(), 0);
}

/// A chip that is lent.
#[test]
fn a_borrowed_chip() {
    let mut chip = MemoryChip::new(vec![0xff; 8 * BLOCK]);
    Driver::new(&mut chip).format(noise(1)).unwrap();
    assert!(Store::mount(chip.into_bytes()).is_ok());
}
