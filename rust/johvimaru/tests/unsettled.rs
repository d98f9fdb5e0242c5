//! Blocks whose erase was cut: a chip that loses what is programmed into them, driven by random calls that are
//! cut at every step, and a driver that spares it erases and so loses pages.
#![cfg(feature = "cut")]

#[allow(dead_code)]
mod common;

use common::cuts::{rich, InMemory};
use common::{at, noise};
use johvimaru::{
    Chip, Cut, CutChip, CutError, Driver, Failure, MemoryChip, Misuse, Offset, Page, Payload,
    Store, BLOCK, PAGES_IN_BLOCK,
};

/// The bytes of a step at which it is cut: none, some, all of a page, all of a block.
const BYTES: [usize; 4] = [0, 700, 4_095, 4_096];

/// Numbers that are the same in every run.
struct Numbers(u64);

impl Numbers {
    fn below(&mut self, limit: u64) -> u64 {
        self.0 = self.0.wrapping_mul(6_364_136_223_846_793_005).wrapping_add(1);
        (self.0 >> 33) % limit
    }
}

type OnChip = Result<(), Failure<CutError<Misuse>>>;

/// A commit or a wipe.
type Call = fn(&mut InMemory, u8) -> OnChip;

const CALLS: [Call; 2] =
    [|driver, seed| driver.commit(noise(seed)), |driver, seed| driver.wipe(at(2, 0), noise(seed))];

/// What the nodes hold.
fn nodes(driver: &InMemory) -> Vec<(Offset, Payload)> {
    let record = driver.record().expect("the chip is mounted");
    record.nodes().map(|node| (node.at, driver.read(node.at).unwrap())).collect()
}

/// The chip is as the mirror and has no unsettled block, and a mount of its bytes finds the record.
fn assert_settled(driver: &InMemory, what: &str) {
    assert_eq!(driver.chip().unsettled(), [], "{what}: unsettled");
    assert!(driver.chip().inner().bytes() == driver.mirror(), "{what}: chip and mirror");
    let store = Store::mount(driver.mirror().to_vec()).unwrap();
    assert_eq!(driver.record(), Some(store.record()), "{what}: record");
}

/// Mounts a chip whose power was cut. Now and then the mount is cut as well, and made again.
fn mount(driver: &mut InMemory, numbers: &mut Numbers) {
    driver.chip_mut().power_on();
    while numbers.below(3) == 0 {
        let cut = Cut { n: numbers.below(4), k: BYTES[numbers.below(4) as usize] };
        driver.chip_mut().cut_at(cut);
        let result = driver.mount();
        assert!(result.is_ok() || driver.chip().is_off(), "{cut:?}: {result:?}");
        driver.chip_mut().power_on();
    }
    driver.mount().unwrap();
}

/// Some writes and cut-offs by chance. A refusal is no fault.
fn some_calls(driver: &mut InMemory, numbers: &mut Numbers) {
    for _ in 0..numbers.below(12) {
        let place = at(numbers.below(14) as u32, numbers.below(8) as u32);
        let length = 1 + numbers.below(224) as usize;
        let result = match numbers.below(6) {
            0 => driver.cut_off(place),
            1 => driver.gather(numbers.below(8) as usize),
            _ => driver.write(place, &[b'a' + length as u8 % 26; 224][..length]),
        };
        assert!(matches!(result, Ok(()) | Err(Failure::Refused(_))), "{result:?}");
    }
}

/// Commits and wipes are cut at each of their steps, then come mounts, cut ones too, and other calls. No page is
/// lost, and after each call that is done no block is unsettled. Gives the steps in which the power failed, and how
/// often a block was unsettled then that reads FFh.
fn cut_everywhere(call: Call, seed: u64) -> (u64, usize) {
    let (mut numbers, mut empty) = (Numbers(seed), 0);
    for n in 0.. {
        for k in BYTES {
            let mut driver = rich();
            some_calls(&mut driver, &mut numbers);
            driver.chip_mut().cut_at(Cut { n, k });
            if call(&mut driver, 5).is_ok() && k == 4_096 {
                return (n, empty);
            }
            empty += unsettled_and_empty(&driver);
            mount(&mut driver, &mut numbers);
            assert_settled(&driver, "after a mount");
            for seed in 6..9 {
                let before = nodes(&driver);
                driver.commit(noise(seed)).unwrap();
                assert_settled(&driver, "after a commit");
                assert!(nodes(&driver) == before, "a commit changes no node");
                some_calls(&mut driver, &mut numbers);
                assert_settled(&driver, "after other calls");
            }
        }
    }
    unreachable!("a call has an end")
}

/// How many blocks read FFh and are unsettled.
fn unsettled_and_empty(driver: &InMemory) -> usize {
    let chip = driver.chip();
    let bytes = |block: usize| &chip.inner().bytes()[BLOCK * block..][..BLOCK];
    let is_empty = |block: &&usize| bytes(**block).iter().all(|&byte| byte == 0xff);
    chip.unsettled().iter().filter(is_empty).count()
}

#[test]
fn no_call_programs_an_unsettled_block() {
    for (call, least) in CALLS.into_iter().zip([45, 56]) {
        for seed in 1..4 {
            let (steps, empty) = cut_everywhere(call, seed);
            assert!(steps >= least && empty >= 3, "{steps} steps, {empty} unsettled and empty");
        }
    }
}

/// A chip that is spared the erase of empty blocks, as by a driver that learns steps from images as they are.
struct Spared {
    chip: CutChip<MemoryChip>,
}

impl Chip for Spared {
    type Error = CutError<Misuse>;

    fn blocks(&self) -> usize {
        self.chip.blocks()
    }

    fn read(&mut self, page: usize, bytes: &mut Page) -> Result<(), Self::Error> {
        self.chip.read(page, bytes)
    }

    fn program(&mut self, page: usize, bytes: &Page) -> Result<(), Self::Error> {
        self.chip.program(page, bytes)
    }

    fn erase(&mut self, block: usize) -> Result<(), Self::Error> {
        let mut is_empty = true;
        for page in 0..PAGES_IN_BLOCK {
            let mut bytes = [0; 256];
            self.read(PAGES_IN_BLOCK * block + page, &mut bytes)?;
            is_empty &= bytes == [0xff; 256];
        }
        match is_empty {
            true => Ok(()),
            false => self.chip.erase(block),
        }
    }
}

/// The bytes of a chip and of its mirror, after a commit that was cut in its first erase, a mount and a commit.
/// All of the block was erased when the power failed, so it reads FFh.
fn after_a_cut_erase<C: Chip<Error = CutError<Misuse>>>(
    chip: C,
    inner: impl Fn(&mut C) -> &mut CutChip<MemoryChip>,
) -> (Vec<u8>, Vec<u8>) {
    let mut driver = Driver::new(chip);
    driver.mount().unwrap();
    inner(driver.chip_mut()).cut_at(Cut { n: 16, k: BLOCK });
    driver.commit(noise(5)).unwrap_err();
    inner(driver.chip_mut()).power_on();
    assert_eq!(inner(driver.chip_mut()).unsettled(), [0]);
    driver.mount().unwrap();
    driver.commit(noise(6)).unwrap();
    let mirror = driver.mirror().to_vec();
    (inner(driver.chip_mut()).inner().bytes().to_vec(), mirror)
}

/// A driver that spares the chip these erases programs an unsettled block, and the keys there are lost: the chip
/// is not as the mirror, and cannot be mounted again.
#[test]
fn a_driver_that_spares_erases_loses_pages() {
    let cut_chip = || CutChip::new(MemoryChip::new(rich().mirror().to_vec()));
    let (chip, mirror) = after_a_cut_erase(cut_chip(), |chip| chip);
    assert!(chip == mirror);
    assert!(Store::mount(chip).is_ok());

    let (chip, mirror) =
        after_a_cut_erase(Spared { chip: cut_chip() }, |spared: &mut Spared| &mut spared.chip);
    assert!(chip != mirror, "nothing was lost");
    assert!(Store::mount(mirror).is_ok());
    assert!(Store::mount(chip).is_err(), "what was lost is not missed");
}
