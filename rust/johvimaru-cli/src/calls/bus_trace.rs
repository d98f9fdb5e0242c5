//! The bytes that a call sends to a chip on its bus, made on a copy.

use super::{make, mount_device, test_blocks, told, Ready};
use crate::args::{Call, Traced};
use crate::image_file::{self, counted, name, BLOCKS};
use crate::{say, Problem};
use johvimaru::{
    Bus, BusChip, BusError, Chip, CutChip, Cycle, Driver, Mark, ModelBus, Noise, Page, Refusal,
    BLOCK,
};
use std::io::Write;
use std::path::Path;

/// The data bytes on a line.
const ON_A_LINE: usize = 16;

/// What a trace with keys is said to be.
const KEYS: &str =
    "key blocks are programmed here, so the D lines hold keys: keep this trace as you \
                    keep the chip, or leave them out, by grep -v '^D'";

/// A recorder whose chip is a model on its bus, and whose steps are noted.
type Device = Driver<CutChip<NotedChip>>;

/// Makes a call on a copy of the image, and prints what goes over the bus.
pub fn run(path: &Path, traced: Traced, out: &mut dyn Write) -> Result<(), Problem> {
    let has_keys = matches!(
        traced,
        Traced::Format(_) | Traced::Call(Call::Commit) | Traced::Call(Call::Wipe { .. })
    );
    let steps = match traced {
        Traced::Format(blocks) => format(path, blocks)?,
        Traced::Mount => {
            let mut device = device(image_file::look(path)?);
            mount_device(&mut device, path, None)?;
            taken(device, 0)
        }
        Traced::Call(call) => after_mount(path, call)?,
    };
    if has_keys {
        say(KEYS);
    }
    print(&steps, path, out)
}

/// A device whose chip has this image, not yet mounted.
fn device(image: Vec<u8>) -> Device {
    let blocks = image.len() / BLOCK;
    let bus = NotedBus { bus: ModelBus::new(image), moved: Vec::new() };
    Driver::new(CutChip::new(NotedChip { chip: BusChip::new(bus, blocks), steps: Vec::new() }))
}

/// The steps that the device's chip has noted, from this one on.
fn taken(device: Device, first: usize) -> Vec<Noted> {
    device.into_chip().into_inner().steps.split_off(first)
}

/// A format of as many blocks as `format` would take. What stands in the file has no part in it.
fn format(path: &Path, blocks: Option<usize>) -> Result<Vec<Noted>, Problem> {
    test_blocks(blocks)?;
    let blocks = match blocks {
        Some(blocks) => blocks,
        None => image_file::blocks_of(path)?.unwrap_or(BLOCKS),
    };
    let mut device = device(vec![0xff; BLOCK * blocks]);
    device.format(Noise::from_system()?).map_err(told)?;
    Ok(taken(device, 0))
}

/// A call after a mount, whose own steps are not among those that are given.
fn after_mount(path: &Path, call: Call) -> Result<Vec<Noted>, Problem> {
    let ready = Ready::of(call)?;
    let mut device = device(image_file::look(path)?);
    mount_device(&mut device, path, None)?;
    let first = device.chip().inner().steps.len();
    make(&mut device, None, |device| ready.make(device))?;
    Ok(taken(device, first))
}

// ---- What goes over the bus

/// A byte that went over the bus.
enum Moved {
    Sent(Cycle),
    Received(u8),
}

/// A step: what it does, in words, and its bytes.
struct Noted {
    what: String,
    moved: Vec<Moved>,
}

/// The bus of a model that notes what goes over it.
struct NotedBus {
    bus: ModelBus,
    moved: Vec<Moved>,
}

impl Bus for NotedBus {
    type Error = Refusal;

    fn send(&mut self, cycle: Cycle) -> Result<(), Refusal> {
        self.moved.push(Moved::Sent(cycle));
        self.bus.send(cycle)
    }

    fn receive(&mut self) -> Result<u8, Refusal> {
        let byte = self.bus.receive()?;
        self.moved.push(Moved::Received(byte));
        Ok(byte)
    }
}

/// A chip on such a bus. Its steps are kept, what is read from it is not.
struct NotedChip {
    chip: BusChip<NotedBus>,
    steps: Vec<Noted>,
}

impl NotedChip {
    /// Takes what has gone over the bus since it was last taken.
    fn take(&mut self) -> Vec<Moved> {
        std::mem::take(&mut self.chip.bus_mut().moved)
    }

    fn note(&mut self, what: String) {
        let moved = self.take();
        self.steps.push(Noted { what, moved });
    }
}

impl Chip for NotedChip {
    type Error = BusError<Refusal>;

    fn blocks(&self) -> usize {
        self.chip.blocks()
    }

    fn read(&mut self, page: usize, bytes: &mut Page) -> Result<(), Self::Error> {
        self.chip.read(page, bytes)?;
        self.take();
        Ok(())
    }

    fn program(&mut self, page: usize, bytes: &Page) -> Result<(), Self::Error> {
        self.chip.program(page, bytes)?;
        self.note(format!("program page {page}"));
        Ok(())
    }

    fn erase(&mut self, block: usize) -> Result<(), Self::Error> {
        self.chip.erase(block)?;
        self.note(format!("erase block {block}"));
        Ok(())
    }
}

// ---- The lines

/// Prints the steps, and how many bytes they are.
fn print(steps: &[Noted], path: &Path, out: &mut dyn Write) -> Result<(), Problem> {
    let mut sent = 0;
    for (number, Noted { what, moved }) in steps.iter().enumerate() {
        writeln!(out, "step {}: {what}", number + 1)?;
        for line in lines(moved) {
            writeln!(out, "{line}")?;
        }
        sent += moved.iter().filter(|moved| matches!(moved, Moved::Sent(_))).count();
    }
    let (steps, sent) = (counted(steps.len(), "step"), counted(sent, "byte"));
    let left = if path.exists() { "is left as it is" } else { "is not made" };
    Ok(writeln!(out, "{steps}, {sent} sent; this was a copy: {} {left}", name(path))?)
}

/// The letter that a byte's line begins with, the byte, and how many stand on such a line.
fn letter(moved: &Moved) -> (char, u8, usize) {
    match moved {
        Moved::Sent(Cycle { mark: Mark::Command, byte }) => ('C', *byte, 1),
        Moved::Sent(Cycle { mark: Mark::Address, byte }) => ('A', *byte, ON_A_LINE),
        Moved::Sent(Cycle { mark: Mark::Data, byte }) => ('D', *byte, ON_A_LINE),
        Moved::Received(byte) => ('S', *byte, 1),
    }
}

/// The bytes of a step as lines: those of one letter after each other, as far as they go on a line.
fn lines(moved: &[Moved]) -> Vec<String> {
    let mut lines: Vec<String> = Vec::new();
    let mut last = (' ', 0);
    for (letter, byte, limit) in moved.iter().map(letter) {
        match lines.last_mut() {
            Some(line) if last.0 == letter && last.1 < limit => {
                line.push_str(&format!(" {byte:02x}"));
                last.1 += 1;
            }
            _ => {
                lines.push(format!("{letter} {byte:02x}"));
                last = (letter, 1);
            }
        }
    }
    lines
}

#[cfg(test)]
mod tests {
    use super::*;

    #[test]
    fn bytes_by_lines() {
        let sent =
            [Cycle::command(0xff), Cycle::command(0x80), Cycle::address(0), Cycle::address(9)];
        let data = (0..18).map(Cycle::data);
        let mut moved: Vec<Moved> = sent.into_iter().chain(data).map(Moved::Sent).collect();
        moved.extend([0x40, 0x41].map(Moved::Received));
        let data = "D 00 01 02 03 04 05 06 07 08 09 0a 0b 0c 0d 0e 0f";
        let expected = ["C ff", "C 80", "A 00 09", data, "D 10 11", "S 40", "S 41"];
        assert_eq!(lines(&moved), expected);
    }
}
