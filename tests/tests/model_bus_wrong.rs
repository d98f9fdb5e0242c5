//! Document 02, #109: wrong chips and wrong drivers. The streams on which the library is compared tell each such
//! chip from the right one, by what is received and by the image alone, and each such driver fails in a step.

use johvimaru_tests::bus_streams::{
    random_image, random_step, random_stream, Event, Sets, STREAMS,
};
use johvimaru_tests::model::bus::{
    drive, step_bytes, Address, Registers, Sent, ERASE, ERASE_END, PROGRAM, PROGRAM_END, READ,
    RESET, STATUS,
};
use johvimaru_tests::model::image::{self, pages, Power, Step, PAGES_IN_BLOCK};
use johvimaru_tests::model::pages::{ERASED, PAGE};
use johvimaru_tests::rng::Rng;

// ---- Chips

/// A chip that may be wrong, and a number that a wrong one keeps beside its registers.
struct Chip {
    registers: Registers,
    kept: usize,
}

type Send = fn(&mut Chip, &mut [u8], Sent);
type Receive = fn(&mut Chip, &[u8]) -> u8;

fn send(chip: &mut Chip, image: &mut [u8], sent: Sent) {
    // Whether it was taken is in the registers.
    let _ = chip.registers.send(image, sent);
}

fn receive(chip: &mut Chip, image: &[u8]) -> u8 {
    chip.registers.receive(image)
}

impl Chip {
    /// The address of the command.
    fn address(&mut self) -> Option<&mut Address> {
        match &mut self.registers {
            Registers::Read { address }
            | Registers::Program { address, .. }
            | Registers::Erase { address } => Some(address),
            _ => None,
        }
    }

    /// Puts another row in place of that of a whole address.
    fn set_row(&mut self, row: usize) {
        if let Some(address) = self.address() {
            let at = address.columns;
            address.bytes.splice(at.., row.to_le_bytes().into_iter().take(3));
        }
    }

    /// The row of a program or an erase that this byte ends.
    fn ends(&mut self, sent: Sent, byte: u8) -> Option<usize> {
        let whole = self.address().filter(|address| address.is_whole());
        let row = whole.map(|address| address.row());
        let fits = matches!(
            (&self.registers, byte),
            (Registers::Program { .. }, PROGRAM_END) | (Registers::Erase { .. }, ERASE_END)
        );
        row.filter(|_| fits && sent == Sent::Command(byte))
    }
}

fn takes_rows_high_byte_first(chip: &mut Chip, image: &mut [u8], mut sent: Sent) {
    if let (Some(address), Sent::Address(byte)) = (chip.address(), sent) {
        if address.bytes.len() == address.columns + 2 {
            let first = &mut address.bytes[address.columns];
            sent = Sent::Address(std::mem::replace(first, byte));
        }
    }
    send(chip, image, sent);
}

fn takes_a_column_for_an_erase(chip: &mut Chip, image: &mut [u8], sent: Sent) {
    let is_new =
        matches!(&chip.registers, Registers::Erase { address } if address.bytes.is_empty());
    match sent {
        Sent::Address(_) if is_new && chip.kept < 2 => chip.kept += 1,
        _ => {
            chip.kept = 0;
            send(chip, image, sent);
        }
    }
}

fn shows_the_status_without_70h(chip: &mut Chip, image: &[u8]) -> u8 {
    match chip.registers {
        Registers::Idle { failed } => 0x40 | u8::from(failed),
        _ => receive(chip, image),
    }
}

fn clears_failed_when_it_is_shown(chip: &mut Chip, image: &[u8]) -> u8 {
    let byte = receive(chip, image);
    if let Registers::Status { failed } = &mut chip.registers {
        *failed = false;
    }
    byte
}

fn keeps_failed_at_a_start(chip: &mut Chip, image: &mut [u8], sent: Sent) {
    let (inside, failed) = (chip.registers.has_command(), chip.registers.has_failed());
    send(chip, image, sent);
    match &mut chip.registers {
        registers if !inside && registers.has_command() => chip.kept = usize::from(failed),
        Registers::Idle { failed } if inside && sent != Sent::Command(RESET) => {
            *failed |= chip.kept == 1;
        }
        _ => {}
    }
}

fn wraps_data(chip: &mut Chip, image: &mut [u8], sent: Sent) {
    if let (Registers::Program { address, bytes }, Sent::Data(_)) = (&mut chip.registers, sent) {
        if address.is_whole() && address.column() + bytes.len() == PAGE {
            address.bytes[..2].fill(0);
            bytes.clear();
        }
    }
    send(chip, image, sent);
}

fn programs_used_pages(chip: &mut Chip, image: &mut [u8], sent: Sent) {
    if let Some(row) = chip.ends(sent, PROGRAM_END) {
        image[PAGE * row..][..PAGE].fill(ERASED);
    }
    send(chip, image, sent);
}

fn programs_zeros_after_the_data(chip: &mut Chip, image: &mut [u8], sent: Sent) {
    if chip.ends(sent, PROGRAM_END).is_some() {
        if let Registers::Program { address, bytes } = &mut chip.registers {
            bytes.resize(PAGE - address.column(), 0);
        }
    }
    send(chip, image, sent);
}

fn erases_by_the_low_row_bits(chip: &mut Chip, image: &mut [u8], sent: Sent) {
    if let Some(row) = chip.ends(sent, ERASE_END) {
        chip.set_row(row * PAGES_IN_BLOCK % pages(image).len());
    }
    send(chip, image, sent);
}

fn erases_from_the_row_on(chip: &mut Chip, image: &mut [u8], sent: Sent) {
    match chip.ends(sent, ERASE_END) {
        Some(row) => {
            let end = pages(image).len().min(row + PAGES_IN_BLOCK);
            image[PAGE * row..PAGE * end].fill(ERASED);
            chip.registers = Registers::NEW;
        }
        None => send(chip, image, sent),
    }
}

fn keeps_its_command_at_a_reset(chip: &mut Chip, image: &mut [u8], sent: Sent) {
    if !chip.registers.has_command() || sent != Sent::Command(RESET) {
        send(chip, image, sent);
    }
}

fn keeps_failed_at_a_reset(chip: &mut Chip, image: &mut [u8], sent: Sent) {
    let before = chip.registers.has_failed();
    send(chip, image, sent);
    if let Registers::Idle { failed } = &mut chip.registers {
        *failed |= before;
    }
}

fn does_not_fail_by_70h(chip: &mut Chip, image: &mut [u8], sent: Sent) {
    let inside = chip.registers.has_command();
    send(chip, image, sent);
    if let Registers::Status { failed } = &mut chip.registers {
        *failed &= !inside;
    }
}

fn goes_on_after_70h(chip: &mut Chip, image: &mut [u8], sent: Sent) {
    if !chip.registers.has_command() || sent != Sent::Command(STATUS) {
        send(chip, image, sent);
    }
}

fn starts_inside_a_command(chip: &mut Chip, image: &mut [u8], sent: Sent) {
    if matches!(sent, Sent::Command(READ | PROGRAM | ERASE)) {
        chip.registers = Registers::NEW;
    }
    send(chip, image, sent);
}

fn judges_the_column_early(chip: &mut Chip, image: &mut [u8], sent: Sent) {
    send(chip, image, sent);
    let address = chip.address();
    if address.is_some_and(|address| address.column() >= PAGE) {
        chip.registers = Registers::Idle { failed: true };
    }
}

fn judges_the_row_early(chip: &mut Chip, image: &mut [u8], sent: Sent) {
    send(chip, image, sent);
    let address = chip.address();
    if address.is_some_and(|address| address.row() >= pages(image).len()) {
        chip.registers = Registers::Idle { failed: true };
    }
}

fn wraps_rows(chip: &mut Chip, image: &mut [u8], mut sent: Sent) {
    if let (Some(address), Sent::Address(byte)) = (chip.address(), sent) {
        if address.bytes.len() == address.columns + 2 {
            let row = (address.row() + (usize::from(byte) << 16)) % pages(image).len();
            let at = address.columns;
            address.bytes.splice(at.., row.to_le_bytes().into_iter().take(2));
            sent = Sent::Address(0);
        }
    }
    send(chip, image, sent);
}

fn takes_any_mark(chip: &mut Chip, image: &mut [u8], sent: Sent) {
    send(chip, image, if let Sent::Stray(_, byte) = sent { Sent::Command(byte) } else { sent });
}

fn shows_the_next_page(chip: &mut Chip, image: &[u8]) -> u8 {
    if let Registers::Output { row, column: column @ PAGE } = &mut chip.registers {
        if *row + 1 < pages(image).len() {
            (*row, *column) = (*row + 1, 0);
        }
    }
    receive(chip, image)
}

fn shows_the_same_byte(chip: &mut Chip, image: &[u8]) -> u8 {
    chip.registers.clone().receive(image)
}

/// Wrong chips.
const CHIPS: [(&str, Send, Receive); 21] = [
    ("takes rows high byte first", takes_rows_high_byte_first, receive),
    ("takes a column for an erase", takes_a_column_for_an_erase, receive),
    ("shows the status without 70h", send, shows_the_status_without_70h),
    ("clears failed when it is shown", send, clears_failed_when_it_is_shown),
    ("keeps failed at a start", keeps_failed_at_a_start, receive),
    ("wraps data", wraps_data, receive),
    ("programs used pages", programs_used_pages, receive),
    ("programs zeros after the data", programs_zeros_after_the_data, receive),
    ("erases by the low row bits", erases_by_the_low_row_bits, receive),
    ("erases from the row on", erases_from_the_row_on, receive),
    ("keeps its command at a reset", keeps_its_command_at_a_reset, receive),
    ("keeps failed at a reset", keeps_failed_at_a_reset, receive),
    ("does not fail by 70h", does_not_fail_by_70h, receive),
    ("goes on after 70h", goes_on_after_70h, receive),
    ("starts inside a command", starts_inside_a_command, receive),
    ("judges the column early", judges_the_column_early, receive),
    ("judges the row early", judges_the_row_early, receive),
    ("wraps rows", wraps_rows, receive),
    ("takes any mark", takes_any_mark, receive),
    ("shows the next page", send, shows_the_next_page),
    ("shows the same byte", send, shows_the_same_byte),
];

/// What is received in a stream, and the image after it.
fn seen(blocks: usize, seed: u64, send: Send, receive: Receive) -> (Vec<u8>, Vec<u8>) {
    let (mut image, events) = random_stream(blocks, seed);
    let mut chip = Chip { registers: Registers::NEW, kept: 0 };
    let mut received = Vec::new();
    for event in events {
        match event {
            Event::Send(sent) => send(&mut chip, &mut image, sent),
            Event::Receive => received.push(receive(&mut chip, &image)),
        }
    }
    (received, image)
}

#[test]
fn wrong_chips_are_seen() {
    let (blocks, seeds) = &STREAMS[0];
    let seeds = || seeds.clone().take(1_000);
    let right: Vec<_> = seeds().map(|seed| seen(*blocks, seed, send, receive)).collect();
    for (name, send, receive) in CHIPS {
        let differs = |(seed, right): (u64, &_)| seen(*blocks, seed, send, receive) != *right;
        let count = seeds().zip(&right).filter(|&pair| differs(pair)).count();
        println!("a chip that {name}: {count} of {} streams", right.len());
        assert!(count >= 10, "a chip that {name} is seen in {count} streams");
    }
}

// ---- Drivers

type Driver = fn(&Step) -> Vec<Sent>;

/// Where a step's row is in its bytes.
fn row_at(step: &Step) -> usize {
    match step {
        Step::Program { .. } => 4,
        Step::Erase { .. } => 2,
    }
}

/// The right bytes after a change.
fn changed(step: &Step, change: impl FnOnce(&mut Vec<Sent>)) -> Vec<Sent> {
    let mut bytes = step_bytes(step);
    change(&mut bytes);
    bytes
}

fn sends_rows_high_byte_first(step: &Step) -> Vec<Sent> {
    changed(step, |bytes| bytes[row_at(step)..][..3].reverse())
}

fn sends_a_column_for_an_erase(step: &Step) -> Vec<Sent> {
    changed(step, |bytes| {
        if let Step::Erase { .. } = step {
            bytes.splice(2..2, [Sent::Address(0); 2]);
        }
    })
}

fn sends_no_column(step: &Step) -> Vec<Sent> {
    changed(step, |bytes| {
        bytes.drain(2..row_at(step));
    })
}

fn sends_two_row_bytes(step: &Step) -> Vec<Sent> {
    changed(step, |bytes| {
        bytes.remove(row_at(step) + 2);
    })
}

fn sends_the_block_as_row(step: &Step) -> Vec<Sent> {
    changed(step, |bytes| {
        if let Step::Erase { block } = step {
            bytes[2..4].copy_from_slice(&[Sent::Address(*block as u8), Sent::Address(0)]);
        }
    })
}

fn sends_no_reset(step: &Step) -> Vec<Sent> {
    changed(step, |bytes| {
        bytes.remove(0);
    })
}

fn reads_the_status_without_70h(step: &Step) -> Vec<Sent> {
    changed(step, |bytes| {
        bytes.pop();
    })
}

fn sends_no_second_command_byte(step: &Step) -> Vec<Sent> {
    changed(step, |bytes| {
        bytes.remove(bytes.len() - 2);
    })
}

fn sends_a_byte_too_few(step: &Step) -> Vec<Sent> {
    changed(step, |bytes| {
        if let Step::Program { .. } = step {
            bytes.remove(bytes.len() - 3);
        }
    })
}

fn sends_a_byte_too_many(step: &Step) -> Vec<Sent> {
    changed(step, |bytes| {
        if let Step::Program { .. } = step {
            bytes.insert(bytes.len() - 2, Sent::Data(ERASED));
        }
    })
}

fn marks_data_as_addresses(step: &Step) -> Vec<Sent> {
    let other = |sent| if let Sent::Data(byte) = sent { Sent::Address(byte) } else { sent };
    step_bytes(step).into_iter().map(other).collect()
}

/// Wrong drivers.
const DRIVERS: [(&str, Driver); 11] = [
    ("sends rows high byte first", sends_rows_high_byte_first),
    ("sends a column for an erase", sends_a_column_for_an_erase),
    ("sends no column", sends_no_column),
    ("sends two row bytes", sends_two_row_bytes),
    ("sends the block as row", sends_the_block_as_row),
    ("sends no reset", sends_no_reset),
    ("reads the status without 70h", reads_the_status_without_70h),
    ("sends no second command byte", sends_no_second_command_byte),
    ("sends a byte too few", sends_a_byte_too_few),
    ("sends a byte too many", sends_a_byte_too_many),
    ("marks data as addresses", marks_data_as_addresses),
];

/// Whether a driver does a random step from a random register set.
fn does(driver: Driver, seed: u64) -> bool {
    let mut rng = Rng::new(seed);
    let mut image = random_image(&mut rng, 8);
    let mut raw = Sets::new(seed, 8).any();
    let step = random_step(&mut rng, &image);
    let mut after = image.clone();
    image::play(&mut after, std::slice::from_ref(&step), Power::STAYS);
    drive(&mut image, &mut raw, Ok(driver(&step))) == 0 && image == after
}

#[test]
fn wrong_drivers_are_seen() {
    assert!((0..300).all(|seed| does(step_bytes, seed)));
    for (name, driver) in DRIVERS {
        let count = (0..300).filter(|&seed| !does(driver, seed)).count();
        println!("a driver that {name}: {count} of 300 steps");
        assert!(count >= 10, "a driver that {name} fails in {count} steps");
    }
}
