//! A chip on a bus: driven over the model it is as a chip in memory, whatever was sent before and wherever the bytes
//! stop.
#![cfg(feature = "cut")]

#[allow(dead_code)]
mod common;

use common::cuts::rich;
use common::{at, noise};
use johvimaru::{
    raw, Bus, BusChip, BusError, Chip, Cut, Cycle, Cycles, Driver, Failure, Mark, MemoryChip,
    ModelBus, Outcome, Refusal, Step, Store, BLOCK, PAGE,
};

/// Numbers that are the same in every run.
struct Numbers(u64);

impl Numbers {
    fn below(&mut self, limit: u64) -> u64 {
        self.0 = self.0.wrapping_mul(6_364_136_223_846_793_005).wrapping_add(1);
        (self.0 >> 33) % limit
    }
}

// ---- A bus that is listened to, and that stops

#[derive(Clone, Copy, Debug, PartialEq, Eq)]
struct Stopped;

/// The bus of a model whose power fails before a chosen byte. It keeps what was sent.
#[derive(Clone)]
struct Line {
    model: ModelBus,
    sent: Vec<Cycle>,
    /// How many bytes it still takes.
    left: usize,
}

impl Line {
    fn new(image: Vec<u8>) -> Line {
        Line { model: ModelBus::new(image), sent: Vec::new(), left: usize::MAX }
    }

    /// Forgets what was sent, and takes so many bytes from now on.
    fn takes(&mut self, left: usize) {
        self.sent.clear();
        self.left = left;
    }

    /// How many steps have gone over it whole: each ends with 10h or D0h.
    fn steps(&self) -> u64 {
        let ends = [0x10, 0xd0].map(Cycle::command);
        self.sent.iter().filter(|cycle| ends.contains(cycle)).count() as u64
    }
}

impl Bus for Line {
    type Error = Stopped;

    fn send(&mut self, cycle: Cycle) -> Result<(), Stopped> {
        self.left = self.left.checked_sub(1).ok_or(Stopped)?;
        self.sent.push(cycle);
        self.model.send(cycle).map_err(|_| Stopped)
    }

    fn receive(&mut self) -> Result<u8, Stopped> {
        match self.left {
            0 => Err(Stopped),
            _ => self.model.receive().map_err(|_| Stopped),
        }
    }
}

type OnLine = Driver<BusChip<Line>>;

/// A chip on a line with this image, mounted.
fn on_line(image: &[u8]) -> OnLine {
    let mut driver = Driver::new(BusChip::new(Line::new(image.to_vec()), image.len() / BLOCK));
    driver.mount().unwrap();
    driver.chip_mut().bus_mut().takes(usize::MAX);
    driver
}

fn on_chip(driver: &OnLine) -> &[u8] {
    driver.chip().bus().model.image()
}

// ---- What goes over the bus

/// The bytes that erase these blocks.
fn erases(blocks: impl IntoIterator<Item = usize>) -> Vec<Cycle> {
    blocks.into_iter().flat_map(|block| Cycles::erase(block).unwrap()).collect()
}

/// What was sent after the reading of the chip that format and mount begin with: its pages, eight bytes each.
fn after_reading(driver: &OnLine) -> &[Cycle] {
    let pages = on_chip(driver).len() / PAGE;
    let (reading, rest) = driver.chip().bus().sent.split_at(8 * pages);
    for (page, cycles) in reading.chunks(8).enumerate() {
        let [low, high] = (page as u16).to_le_bytes();
        let [reset, begin, end] = [0xff, 0x00, 0x30].map(Cycle::command);
        assert_eq!([cycles[0], cycles[1], cycles[7]], [reset, begin, end]);
        assert_eq!(cycles[2..7], [0, 0, low, high, 0].map(Cycle::address));
    }
    rest
}

/// The blocks that nothing needs are erased over the bus although they read FFh.
#[test]
fn erases_of_empty_blocks_go_over_the_bus() {
    let image = Store::format(vec![0; 9 * BLOCK], noise(1)).unwrap().into_image();
    let mut driver = on_line(&image);
    driver.mount().unwrap();
    assert!(on_chip(&driver) == image);
    assert_eq!(after_reading(&driver), erases(3..9));
}

/// A format erases every block, also one that reads FFh, and then programs 42 pages.
#[test]
fn a_format_over_the_bus() {
    let mut driver = Driver::new(BusChip::new(Line::new(vec![0xff; 8 * BLOCK]), 8));
    driver.format(noise(1)).unwrap();
    let mut expected = erases(0..8);
    for (page, bytes) in driver.mirror().as_chunks::<PAGE>().0.iter().enumerate().take(42) {
        expected.extend(Cycles::program(page, bytes).unwrap());
    }
    assert!(after_reading(&driver) == expected);
    assert!(on_chip(&driver) == driver.mirror());
}

#[test]
fn a_write_is_265_bytes() {
    let mut driver = on_line(rich().mirror());
    driver.write(at(0, 7), b"draught 4.12 m").unwrap();
    let page = driver.record().unwrap().node(at(0, 7)).unwrap().page;
    let bytes: &[u8; PAGE] = driver.mirror()[PAGE * page..][..PAGE].try_into().unwrap();
    let sent = &driver.chip().bus().sent;
    assert_eq!(sent.len(), 265);
    assert!(Cycles::program(page, bytes).unwrap().eq(sent.iter().copied()));
    assert!(Step::Program { page, bytes: Box::new(*bytes) }.cycles().unwrap().eq(sent.clone()));
}

// ---- The same as in memory

/// A random call, other ones at each number.
fn call<C: Chip>(driver: &mut Driver<C>, mut numbers: Numbers) -> Result<(), Failure<C::Error>> {
    let place = at(numbers.below(14) as u32, numbers.below(8) as u32);
    let seed = numbers.below(200) as u8;
    match numbers.below(24) {
        0 => driver.format(noise(seed)),
        1 | 2 => driver.mount(),
        3 => driver.commit(noise(seed)),
        4 => driver.wipe(place, noise(seed)),
        5 | 6 => driver.cut_off(place),
        7 | 8 => driver.gather(numbers.below(10) as usize),
        _ => driver.write(place, &[seed; 225][..numbers.below(226) as usize]),
    }
}

#[test]
fn random_calls_as_on_a_chip_in_memory() {
    let (mut done, mut refused) = (0, 0);
    for list in 0..12 {
        let blocks = [8, 9, 12][list % 3];
        let image = vec![0x5a; blocks * BLOCK];
        let mut on_bus = Driver::new(BusChip::new(ModelBus::new(image.clone()), blocks));
        let mut in_memory = Driver::new(MemoryChip::new(image));
        on_bus.format(noise(1)).unwrap();
        in_memory.format(noise(1)).unwrap();
        for seed in 0..60 {
            let numbers = || Numbers(1_000 * list as u64 + seed);
            let by_bus = call(&mut on_bus, numbers()).map_err(|failure| failure.refusal().unwrap());
            let by_memory = call(&mut in_memory, numbers()).map_err(|e| e.refusal().unwrap());
            assert_eq!(by_bus, by_memory, "list {list}, call {seed}");
            assert!(on_bus.chip().bus().image() == in_memory.chip().bytes(), "{list}, {seed}");
            assert!(on_bus.mirror() == in_memory.mirror(), "list {list}, call {seed}: mirror");
            assert_eq!(on_bus.record(), in_memory.record(), "list {list}, call {seed}");
            done += usize::from(by_bus.is_ok());
            refused += usize::from(by_bus.is_err());
        }
    }
    assert!(done > 300 && refused > 50, "{done} done, {refused} refused");
}

/// From any registers the bytes of a step do the step on the model.
#[test]
fn steps_from_any_registers() {
    let mut numbers = Numbers(11);
    let mut image = rich().mirror().to_vec();
    for case in 0..2_000 {
        let mut registers = raw::Registers::reset();
        registers.numbers = [7, 8, 300, 200, 3].map(|limit| numbers.below(limit) as u32);
        registers.page.iter_mut().take(case % 300).for_each(|byte| *byte = case as u8);
        let page = numbers.below(128) as usize;
        let is_empty = image[PAGE * page..][..PAGE] == [0xff; PAGE];
        let step = match is_empty {
            true => Step::Program { page, bytes: Box::new([case as u8; PAGE]) },
            false => Step::Erase { block: page / 16 },
        };
        let mut expected = image.clone();
        step.apply(&mut expected);
        for Cycle { mark, byte } in step.cycles().unwrap() {
            let reply = raw::model_send(&mut image, &mut registers, mark as u32, byte);
            assert_eq!(reply, raw::DONE);
        }
        assert!(image == expected, "{case}: {step:?}");
        assert_eq!(raw::model_receive(&image, &mut registers), (raw::DONE, 0x40), "{case}");
    }
}

// ---- Power cuts between two bytes

/// Stops a call before a byte of it, and mounts. What is on the chip is what so many whole steps leave. Gives whether
/// there was such a byte.
fn stop_before(
    byte: usize,
    on_bus: impl Fn(&mut OnLine) -> Result<(), Failure<BusError<Stopped>>>,
    by_form: impl Fn(Store<Vec<u8>>, Cut) -> Outcome<Vec<u8>>,
) -> bool {
    let rich = rich();
    let mut driver = on_line(rich.mirror());
    driver.chip_mut().bus_mut().takes(byte);
    let result = on_bus(&mut driver);
    let steps = driver.chip().bus().steps();
    let expected = by_form(rich.copy().unwrap(), Cut { n: steps, k: 0 });
    assert!(on_chip(&driver) == expected.image(), "{byte}: {steps} steps");
    if result.is_ok() {
        return false;
    }
    assert_eq!(result, Err(Failure::Chip(BusError::Bus(Stopped))), "{byte}");
    assert_eq!(driver.write(at(0, 0), b"x"), Err(Failure::NotMounted), "{byte}");
    // The registers are as the stop has left them: every step begins with a reset.
    driver.chip_mut().bus_mut().takes(usize::MAX);
    driver.mount().unwrap();
    let store = expected.mounted().unwrap();
    assert!(driver.mirror() == store.image() && on_chip(&driver) == store.image(), "{byte}");
    assert_eq!(driver.record(), Some(store.record()), "{byte}");
    true
}

/// Before 10h the old content is there, after it the new one.
#[test]
fn a_write_that_stops_between_any_two_bytes() {
    for byte in 0..=266 {
        let cut = stop_before(
            byte,
            |driver| {
                let result = driver.write(at(0, 0), b"new");
                let old = on_chip(driver) == rich().mirror();
                assert_eq!(old, byte < 264, "{byte}");
                result
            },
            |store, cut| store.write_cut(at(0, 0), b"new", cut).unwrap(),
        );
        assert_eq!(cut, byte < 266, "{byte}");
    }
}

/// Every byte of the first steps of a wipe and of the one that erases, and others of all its steps.
#[test]
fn a_wipe_that_stops_between_two_bytes() {
    let erase = 10 * 265;
    let near = (0..270).step_by(3).chain(erase - 3..erase + 12);
    let mut bytes: Vec<usize> = near.chain((0..16_000).step_by(131)).collect();
    bytes.sort_unstable();
    let cuts = bytes.into_iter().take_while(|&byte| {
        stop_before(
            byte,
            |driver| driver.wipe(at(0, 0), noise(9)),
            |store, cut| store.wipe_cut(at(0, 0), noise(9), cut).unwrap(),
        )
    });
    assert!(cuts.count() > 190);
}

/// A mount that stops is followed by another, which sends all of its erases.
#[test]
fn a_mount_that_stops_between_any_two_bytes() {
    let image = rich().mirror().to_vec();
    let empty = Step::of_mount(&image).count();
    let reading = 8 * image.len() / PAGE;
    for byte in (0..reading).step_by(97).chain(reading..reading + 7 * empty) {
        let mut driver = Driver::new(BusChip::new(Line::new(image.clone()), 8));
        driver.chip_mut().bus_mut().takes(byte);
        assert_eq!(driver.mount(), Err(Failure::Chip(BusError::Bus(Stopped))), "{byte}");
        driver.chip_mut().bus_mut().takes(usize::MAX);
        driver.mount().unwrap();
        assert_eq!(after_reading(&driver).len(), 7 * empty, "{byte}");
        assert!(driver.mirror() == image && on_chip(&driver) == image, "{byte}");
    }
}

// ---- Chips that fail

/// Something else has programmed the page that the next write takes: the chip's status is failed.
#[test]
fn a_failed_status_is_an_error_and_asks_for_a_mount() {
    let mut driver = on_line(rich().mirror());
    let mut copy = driver.copy().unwrap();
    copy.write(at(0, 7), b"x").unwrap();
    let page = copy.record().node(at(0, 7)).unwrap().page;
    for cycle in Cycles::program(page, &[b'?'; PAGE]).unwrap() {
        driver.chip_mut().bus_mut().send(cycle).unwrap();
    }
    let before = on_chip(&driver).to_vec();
    assert_eq!(driver.write(at(0, 7), b"x"), Err(Failure::Chip(BusError::Failed)));
    assert!(on_chip(&driver) == before, "a program that failed changes nothing");
    assert_eq!(driver.write(at(0, 7), b"x"), Err(Failure::NotMounted));
    assert_eq!(driver.read(at(0, 0)), Err(Failure::NotMounted));
    driver.mount().unwrap();
    driver.write(at(0, 7), b"x").unwrap();
    assert_eq!(driver.read(at(0, 7)).unwrap(), b"x");
    assert!(on_chip(&driver) == driver.mirror());
}

/// The chip on this bus says that it failed.
struct Worn(ModelBus);

impl Bus for Worn {
    type Error = Refusal;

    fn send(&mut self, cycle: Cycle) -> Result<(), Refusal> {
        self.0.send(cycle)
    }

    fn receive(&mut self) -> Result<u8, Refusal> {
        Ok(self.0.receive()? | 1)
    }
}

#[test]
fn a_worn_chip_cannot_be_formatted() {
    let mut driver = Driver::new(BusChip::new(Worn(ModelBus::new(vec![0xff; 8 * BLOCK])), 8));
    assert_eq!(driver.format(noise(1)), Err(Failure::Chip(BusError::Failed)));
    assert!(driver.record().is_none());
}

#[test]
fn addresses_that_cannot_be_said_are_not_sent() {
    let mut chip = BusChip::new(Line::new(vec![0xff; 256 * BLOCK]), 300);
    assert_eq!(chip.program(4_096, &[0; PAGE]), Err(BusError::Outside));
    assert_eq!(chip.erase(256), Err(BusError::Outside));
    assert_eq!(chip.erase(usize::MAX), Err(BusError::Outside));
    assert_eq!(chip.read(4_800, &mut [0; PAGE]), Err(BusError::Outside));
    assert_eq!(chip.bus().sent, []);
    chip.program(4_095, &[0; PAGE]).unwrap();
    chip.erase(255).unwrap();
    // A chip that has fewer blocks than was said: pages that it has not read FFh, and their steps fail.
    let mut chip = BusChip::new(Line::new(vec![0; 8 * BLOCK]), 9);
    let mut bytes = [0; PAGE];
    chip.read(128, &mut bytes).unwrap();
    assert_eq!(bytes, [0xff; PAGE]);
    assert_eq!(chip.erase(8), Err(BusError::Failed));
    assert_eq!(chip.program(128, &[0; PAGE]), Err(BusError::Failed));
}

#[test]
fn an_image_of_a_wrong_size() {
    let mut driver = Driver::new(BusChip::new(ModelBus::new(vec![0xff; 7 * BLOCK]), 7));
    let size = Failure::Chip(BusError::Bus(Refusal::ImageSize));
    assert_eq!((driver.mount(), driver.format(noise(1))), (Err(size), Err(size)));
    let mut bus = ModelBus::new(vec![]);
    assert_eq!(bus.send(Cycle::command(0xff)), Err(Refusal::ImageSize));
    assert_eq!(bus.receive(), Err(Refusal::ImageSize));
}

#[test]
fn a_borrowed_bus() {
    let mut bus = ModelBus::new(vec![0xff; 8 * BLOCK]);
    Driver::new(BusChip::new(&mut bus, 8)).format(noise(1)).unwrap();
    assert!(Store::mount(bus.into_image()).is_ok());
}

/// Marks have the numbers of the header, and the lengths are those of its constants.
#[test]
fn marks_and_lengths() {
    let marks = [Mark::Command, Mark::Address, Mark::Data].map(|mark| mark as u32);
    assert_eq!(marks, [0, 1, 2]);
    let bytes = [7; PAGE];
    let [mut program, mut erase] = [Cycles::program(0, &bytes).unwrap(), Cycles::erase(0).unwrap()];
    assert_eq!((program.len(), erase.len()), (265, 7));
    for cycles in [&mut program, &mut erase] {
        assert_eq!(cycles.last(), Some(Cycle::command(0x70)));
    }
    assert_eq!((program.next(), erase.next()), (None, None));
}
