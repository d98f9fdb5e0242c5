//! Calls that are cut at every step, on a chip and by the library's own form with n and k.

use super::{at, noise};
use johvimaru::BLOCK;
use johvimaru::{
    Chip, Cut, CutChip, CutError, Driver, Failure, MemoryChip, Outcome, Payload, Store,
};

pub type InMemory = Driver<CutChip<MemoryChip>>;

pub fn memory(blocks: usize) -> InMemory {
    Driver::new(CutChip::new(MemoryChip::new(vec![0x5a; BLOCK * blocks])))
}

/// A chip with a block of dead nodes, live ones in two files, and a cut-off.
pub fn rich() -> InMemory {
    let mut driver = memory(8);
    driver.format(noise(1)).unwrap();
    for write in 0..17 {
        driver.write(at(0, 0), &[write; 224]).unwrap();
    }
    for (file, offset, payload) in [(0, 31, &[20; 1][..]), (2, 5, &[21; 40]), (2, 6, &[22; 223])] {
        driver.write(at(file, offset), payload).unwrap();
    }
    driver.write(at(13, 7), &[23; 223]).unwrap();
    driver.cut_off(at(2, 6)).unwrap();
    driver
}

/// The nodes of a rich store.
pub const NODES: [(u32, u32, &[u8]); 4] =
    [(0, 0, &[16; 224]), (0, 31, &[20; 1]), (2, 5, &[21; 40]), (13, 7, &[23; 223])];

/// How a kind of chip is made and looked at.
pub trait Bed {
    type Chip: Chip<Error: std::fmt::Debug>;

    /// A mounted chip with these bytes on it.
    fn driver(&self, bytes: &[u8]) -> Driver<CutChip<Self::Chip>>;

    /// What is on a chip.
    fn bytes(&self, chip: &Self::Chip) -> Vec<u8>;
}

/// Chips in memory.
pub struct Memory;

impl Bed for Memory {
    type Chip = MemoryChip;

    fn driver(&self, bytes: &[u8]) -> InMemory {
        let mut driver = Driver::new(CutChip::new(MemoryChip::new(bytes.to_vec())));
        driver.mount().unwrap();
        driver
    }

    fn bytes(&self, chip: &MemoryChip) -> Vec<u8> {
        chip.bytes().to_vec()
    }
}

/// Cuts a call on a rich store at every step and at these bytes of it, beside the library's form, and
/// mounts. Gives the steps of the call.
pub fn every_step<B: Bed>(
    bed: &B,
    bytes: &[usize],
    on_chip: impl Fn(&mut Driver<CutChip<B::Chip>>) -> Result<(), OnChip<B>>,
    by_form: impl Fn(Store<Vec<u8>>, Cut) -> Outcome<Vec<u8>>,
    nodes: impl Fn(u64, &Store<Vec<u8>>),
) -> u64 {
    let rich = rich();
    for n in 0.. {
        for &k in bytes {
            let cut = Cut { n, k };
            let mut driver = bed.driver(rich.mirror());
            driver.chip_mut().cut_at(cut);
            let result = on_chip(&mut driver);
            let expected = by_form(rich.copy().unwrap(), cut);
            assert!(bed.bytes(driver.chip().inner()) == expected.image(), "{cut:?}: image");
            if !expected.is_cut() {
                result.unwrap();
                return n;
            }
            assert_off(result, cut);
            mounted_again(bed, driver, expected, |store| nodes(n, store), cut);
        }
    }
    unreachable!("a call has an end")
}

/// Cuts a wipe of file 0 of a rich store. Gives its steps.
pub fn wipe_at_every_step<B: Bed>(bed: &B, bytes: &[usize]) -> u64 {
    every_step(
        bed,
        bytes,
        |driver| driver.wipe(at(0, 0), noise(9)),
        |store, cut| store.wipe_cut(at(0, 0), noise(9), cut).unwrap(),
        |n, store| {
            let left = store.record().nodes().count();
            assert!(if n < 9 { left == 4 } else { left == 2 || n == 9 && left == 4 }, "{n}");
            assert_eq!(store.read(at(13, 7)), Payload::new(&[23; 223]));
        },
    )
}

/// What goes wrong on a chip of a bed whose power is cut.
pub type OnChip<B> = Failure<CutError<<<B as Bed>::Chip as Chip>::Error>>;

/// A call failed since the power was off.
fn assert_off<E: std::fmt::Debug>(result: Result<(), Failure<CutError<E>>>, cut: Cut) {
    assert!(matches!(result, Err(Failure::Chip(CutError::PowerCut))), "{cut:?}: {result:?}");
}

/// With the power off nothing is done; with the power on, a mount finds what the store's mount finds.
fn mounted_again<B: Bed>(
    bed: &B,
    mut driver: Driver<CutChip<B::Chip>>,
    expected: Outcome<Vec<u8>>,
    nodes: impl Fn(&Store<Vec<u8>>),
    cut: Cut,
) {
    let unmounted = driver.write(at(0, 0), &[1; 224]);
    assert!(matches!(unmounted, Err(Failure::NotMounted)), "{cut:?}: {unmounted:?}");
    assert_off(driver.mount(), cut);
    driver.chip_mut().power_on();
    driver.mount().unwrap();
    assert!(bed.bytes(driver.chip().inner()) == driver.mirror(), "{cut:?}: chip and mirror");
    let store = expected.mounted().unwrap();
    assert!(driver.mirror() == store.image(), "{cut:?}: image after a mount");
    assert_eq!(driver.record(), Some(store.record()), "{cut:?}: record");
    nodes(&store);
}
