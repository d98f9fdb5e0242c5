//! Document 02, #109: the chip's side of the bus, a byte at a time, and the driver's bytes for a step.

use super::image::{has_right_size, pages, play, Power, Step, PAGES_IN_BLOCK};
use super::pages::{Page, EMPTY, ERASED, PAGE};

/// The first command byte of a read.
pub const READ: u8 = 0x00;
/// Its second.
pub const READ_END: u8 = 0x30;
/// The first command byte of a program.
pub const PROGRAM: u8 = 0x80;
/// Its second.
pub const PROGRAM_END: u8 = 0x10;
/// The first command byte of an erase.
pub const ERASE: u8 = 0x60;
/// Its second.
pub const ERASE_END: u8 = 0xd0;
/// The command that shows the status.
pub const STATUS: u8 = 0x70;
/// The command that drops all others.
pub const RESET: u8 = 0xff;

/// Bytes of a column, which come before those of the row.
const COLUMN_BYTES: usize = 2;
/// Bytes of a row.
const ROW_BYTES: usize = 3;

/// The highest page and the highest block that the driver sends.
const LAST_PAGE: u32 = 4_095;
const LAST_BLOCK: u32 = 255;

/// A byte that is sent, with its mark.
#[derive(Clone, Copy, Debug, PartialEq, Eq)]
pub enum Sent {
    /// Of a command.
    Command(u8),
    /// Of an address.
    Address(u8),
    /// Of a page.
    Data(u8),
    /// With a number in place of a mark that is none.
    Stray(u32, u8),
}

impl Sent {
    /// A byte with the number of its mark.
    pub fn of(mark: u32, byte: u8) -> Sent {
        match mark {
            0 => Sent::Command(byte),
            1 => Sent::Address(byte),
            2 => Sent::Data(byte),
            _ => Sent::Stray(mark, byte),
        }
    }

    /// The number of its mark.
    pub fn mark(self) -> u32 {
        match self {
            Sent::Command(_) => 0,
            Sent::Address(_) => 1,
            Sent::Data(_) => 2,
            Sent::Stray(mark, _) => mark,
        }
    }

    /// The byte itself.
    pub fn byte(self) -> u8 {
        match self {
            Sent::Command(byte) | Sent::Address(byte) | Sent::Data(byte) | Sent::Stray(_, byte) => {
                byte
            }
        }
    }
}

/// Why a byte is not taken.
#[derive(Clone, Copy, Debug, PartialEq, Eq, PartialOrd, Ord)]
pub enum Fault {
    /// The image is not 8 to 256 full blocks.
    Image,
    /// There is no command, and the byte starts none.
    NoCommand,
    /// The byte does not continue its command.
    NotNext,
    /// The column is outside the page.
    Column,
    /// The row is outside the image.
    Row,
    /// There are data past the page's end.
    PastEnd,
    /// The page to program is not empty.
    NotEmpty,
}

// ---- Addresses

/// The bytes of an address so far.
#[derive(Clone, Debug, PartialEq, Eq)]
pub struct Address {
    /// How many of them are of the column: 2, or none for an erase.
    pub columns: usize,
    /// The bytes.
    pub bytes: Vec<u8>,
}

/// The number of these bytes, of which the lowest comes first.
fn number(bytes: &[u8]) -> usize {
    bytes.iter().rev().fold(0, |number, &byte| 256 * number + usize::from(byte))
}

impl Address {
    fn new(columns: usize) -> Address {
        Address { columns, bytes: Vec::new() }
    }

    fn parts(&self) -> (&[u8], &[u8]) {
        self.bytes.split_at(self.columns.min(self.bytes.len()))
    }

    /// The column, as far as it was sent.
    pub fn column(&self) -> usize {
        number(self.parts().0)
    }

    /// The row, as far as it was sent.
    pub fn row(&self) -> usize {
        number(self.parts().1)
    }

    /// Whether all its bytes were sent.
    pub fn is_whole(&self) -> bool {
        self.bytes.len() == self.columns + ROW_BYTES
    }

    /// The address with one more byte. With its last one it is judged.
    fn with(mut self, byte: u8, pages: usize) -> Result<Address, Fault> {
        if self.is_whole() {
            return Err(Fault::NotNext);
        }
        self.bytes.push(byte);
        match self.is_whole() {
            true if self.column() >= PAGE => Err(Fault::Column),
            true if self.row() >= pages => Err(Fault::Row),
            _ => Ok(self),
        }
    }
}

// ---- The chip

/// The register set: what the chip is at, and what it holds for it.
#[derive(Clone, Debug, PartialEq, Eq)]
pub enum Registers {
    /// No command.
    Idle {
        /// Whether a command has failed.
        failed: bool,
    },
    /// No command, and the status is shown.
    Status {
        /// Whether a command has failed.
        failed: bool,
    },
    /// No command, and a page's bytes are shown.
    Output {
        /// The page.
        row: usize,
        /// The next byte; the page's end where all were shown.
        column: usize,
    },
    /// A read.
    Read {
        /// Of the first byte that is to be shown.
        address: Address,
    },
    /// A program.
    Program {
        /// Of the first byte.
        address: Address,
        /// The bytes from there on.
        bytes: Vec<u8>,
    },
    /// An erase.
    Erase {
        /// Of a page in the block.
        address: Address,
    },
}

/// The chip after a command that failed.
const FAILED: Registers = Registers::Idle { failed: true };

/// The command that a byte starts.
fn started(byte: u8) -> Result<Registers, Fault> {
    let address = Address::new(COLUMN_BYTES);
    match byte {
        READ => Ok(Registers::Read { address }),
        PROGRAM => Ok(Registers::Program { address, bytes: Vec::new() }),
        ERASE => Ok(Registers::Erase { address: Address::new(0) }),
        _ => Err(Fault::NoCommand),
    }
}

/// A page with these bytes from a column on, which fit.
fn page_with(column: usize, bytes: &[u8]) -> Page {
    let mut page = EMPTY;
    page[column..][..bytes.len()].copy_from_slice(bytes);
    page
}

impl Registers {
    /// The chip after a reset.
    pub const NEW: Registers = Registers::Idle { failed: false };

    /// Whether it is inside a command.
    pub fn has_command(&self) -> bool {
        matches!(self, Registers::Read { .. } | Registers::Program { .. } | Registers::Erase { .. })
    }

    /// Whether a command has failed.
    pub fn has_failed(&self) -> bool {
        matches!(self, Registers::Idle { failed: true } | Registers::Status { failed: true })
    }

    /// One byte sent. Gives the step that the flash then has done, if any, or why the byte was not taken.
    pub fn send(&mut self, image: &mut [u8], sent: Sent) -> Result<Option<Step>, Fault> {
        if !has_right_size(image) {
            return Err(Fault::Image);
        }
        let step = self.take(pages(image).len(), sent)?;
        match &step {
            Some(Step::Program { page, .. }) if pages(image)[*page] != EMPTY => {
                *self = FAILED;
                return Err(Fault::NotEmpty);
            }
            Some(step) => play(image, std::slice::from_ref(step), Power::STAYS),
            None => true,
        };
        Ok(step)
    }

    /// The same on an image of so many pages, which is not looked at: gives the step that is to be done.
    fn take(&mut self, pages: usize, sent: Sent) -> Result<Option<Step>, Fault> {
        match sent {
            Sent::Command(RESET) => {
                *self = Registers::NEW;
                Ok(None)
            }
            Sent::Command(STATUS) => {
                let inside = self.has_command();
                *self = Registers::Status { failed: inside || self.has_failed() };
                if inside {
                    return Err(Fault::NotNext);
                }
                Ok(None)
            }
            _ => {
                let before = std::mem::replace(self, FAILED);
                let (after, step) = match before.has_command() {
                    true => before.continued(pages, sent)?,
                    false => (before.begun(sent)?, None),
                };
                *self = after;
                Ok(step)
            }
        }
    }

    /// A byte where there is no command.
    fn begun(self, sent: Sent) -> Result<Registers, Fault> {
        match sent {
            Sent::Command(byte) => started(byte),
            _ => Err(Fault::NoCommand),
        }
    }

    /// A byte inside a command: what is then, and the step that ends it.
    fn continued(self, pages: usize, sent: Sent) -> Result<(Registers, Option<Step>), Fault> {
        use Registers::{Erase, Output, Program, Read};
        let next = match (self, sent) {
            (Read { address }, Sent::Address(byte)) => Read { address: address.with(byte, pages)? },
            (Erase { address }, Sent::Address(byte)) => {
                Erase { address: address.with(byte, pages)? }
            }
            (Program { address, bytes }, Sent::Address(byte)) => {
                Program { address: address.with(byte, pages)?, bytes }
            }
            (Program { address, mut bytes }, Sent::Data(byte)) if address.is_whole() => {
                if address.column() + bytes.len() == PAGE {
                    return Err(Fault::PastEnd);
                }
                bytes.push(byte);
                Program { address, bytes }
            }
            (Read { address }, Sent::Command(READ_END)) if address.is_whole() => {
                Output { row: address.row(), column: address.column() }
            }
            (Program { address, bytes }, Sent::Command(PROGRAM_END)) if address.is_whole() => {
                let bytes = Box::new(page_with(address.column(), &bytes));
                return Ok((Registers::NEW, Some(Step::Program { page: address.row(), bytes })));
            }
            (Erase { address }, Sent::Command(ERASE_END)) if address.is_whole() => {
                let block = address.row() / PAGES_IN_BLOCK;
                return Ok((Registers::NEW, Some(Step::Erase { block })));
            }
            _ => return Err(Fault::NotNext),
        };
        Ok((next, None))
    }

    /// One byte received.
    pub fn receive(&mut self, image: &[u8]) -> u8 {
        if !has_right_size(image) {
            return ERASED;
        }
        match self {
            Registers::Status { failed } => 0x40 | u8::from(*failed),
            Registers::Output { row, column } => {
                let byte = pages(image)[*row].get(*column).copied();
                *column += usize::from(byte.is_some());
                byte.unwrap_or(ERASED)
            }
            _ => ERASED,
        }
    }
}

// ---- The library's numbers

/// A register set in the numbers of the library, which may be any.
#[derive(Clone, Debug, PartialEq, Eq)]
pub struct Raw {
    /// State, address bytes, column, row, failed.
    pub numbers: [u32; 5],
    /// The page register.
    pub page: Page,
}

impl From<&Registers> for Raw {
    fn from(registers: &Registers) -> Raw {
        let sent = |address: &Address| COLUMN_BYTES - address.columns + address.bytes.len();
        let mut page = EMPTY;
        let (state, sent, column, row) = match registers {
            Registers::Idle { .. } => (0, 0, 0, 0),
            Registers::Status { .. } => (1, 0, 0, 0),
            Registers::Output { row, column } => (2, COLUMN_BYTES + ROW_BYTES, *column, *row),
            Registers::Read { address } => (3, sent(address), address.column(), address.row()),
            Registers::Program { address, bytes } => {
                let column = address.column();
                if address.is_whole() {
                    page = page_with(column, bytes);
                }
                (4, sent(address), column + bytes.len(), address.row())
            }
            Registers::Erase { address } => (5, sent(address), 0, address.row()),
        };
        let failed = usize::from(registers.has_failed());
        Raw { numbers: [state, sent, column, row, failed].map(|number| number as u32), page }
    }
}

impl Raw {
    /// Bytes after a reset that leave these numbers, if any bytes do. What was shown up to the page's end
    /// takes a byte received after them.
    fn bytes_to(&self) -> Vec<Sent> {
        let [state, sent, column, row, failed] = self.numbers;
        let data = match (state, sent) {
            (4, 5) => &self.page[..PAGE.min(column as usize)],
            _ => &[],
        };
        let column = match state {
            2 => column.min(PAGE as u32 - 1),
            _ => column - data.len() as u32,
        };
        let address = [column, column >> 8, row, row >> 8, row >> 16];
        let address = address.map(|number| Sent::Address(number as u8));
        let part = &address[..address.len().min(sent as usize)];
        let failure = &[Sent::Data(0)][..usize::from(failed == 1)];
        let command = Sent::Command;
        match state {
            0 => failure.to_vec(),
            1 => [failure, &[command(STATUS)]].concat(),
            2 => [&[command(READ)], &address[..], &[command(READ_END)]].concat(),
            3 => [&[command(READ)], part].concat(),
            4 => {
                let data: Vec<Sent> = data.iter().copied().map(Sent::Data).collect();
                [&[command(PROGRAM)], part, &data].concat()
            }
            _ => [&[command(ERASE)], part.get(COLUMN_BYTES..).unwrap_or_default()].concat(),
        }
    }

    /// The register set of these numbers; none where no bytes over an image of so many pages leave them.
    pub fn registers(&self, pages: usize) -> Option<Registers> {
        let mut registers = Registers::NEW;
        for sent in self.bytes_to() {
            // A byte that fails leaves a set too, and what is left is compared.
            let _ = registers.take(pages, sent);
        }
        if let Registers::Output { column, .. } = &mut registers {
            *column += usize::from(self.numbers[2] == PAGE as u32);
        }
        (Raw::from(&registers) == *self).then_some(registers)
    }

    /// One byte sent, as the library's call. Gives the reply.
    pub fn send(&mut self, image: &mut [u8], sent: Sent) -> u32 {
        if !has_right_size(image) {
            return 1;
        }
        let mut registers = self.registers(pages(image).len()).unwrap_or(FAILED);
        // Whether it was taken is in the registers.
        let _ = registers.send(image, sent);
        *self = Raw::from(&registers);
        0
    }

    /// One byte received, as the library's call. Gives the reply and the byte.
    pub fn receive(&mut self, image: &[u8]) -> (u32, u8) {
        if !has_right_size(image) {
            return (1, ERASED);
        }
        let Some(mut registers) = self.registers(pages(image).len()) else {
            return (0, ERASED);
        };
        let byte = registers.receive(image);
        *self = Raw::from(&registers);
        (0, byte)
    }
}

// ---- The driver

/// The bytes of a row.
fn row_bytes(row: u32) -> impl Iterator<Item = Sent> {
    row.to_le_bytes().into_iter().take(ROW_BYTES).map(Sent::Address)
}

/// The driver's bytes for a program, or its reply where it sends none.
pub fn program_bytes(page: u32, bytes: &[u8]) -> Result<Vec<Sent>, u32> {
    if bytes.len() != PAGE {
        return Err(6);
    }
    if page > LAST_PAGE {
        return Err(10);
    }
    let mut sent = vec![Sent::Command(RESET), Sent::Command(PROGRAM)];
    sent.extend([Sent::Address(0); COLUMN_BYTES]);
    sent.extend(row_bytes(page));
    sent.extend(bytes.iter().copied().map(Sent::Data));
    sent.extend([Sent::Command(PROGRAM_END), Sent::Command(STATUS)]);
    Ok(sent)
}

/// The driver's bytes for an erase, or its reply where it sends none.
pub fn erase_bytes(block: u32) -> Result<Vec<Sent>, u32> {
    if block > LAST_BLOCK {
        return Err(10);
    }
    let mut sent = vec![Sent::Command(RESET), Sent::Command(ERASE)];
    sent.extend(row_bytes(block * PAGES_IN_BLOCK as u32));
    sent.extend([Sent::Command(ERASE_END), Sent::Command(STATUS)]);
    Ok(sent)
}

/// The driver's bytes for a step of an image.
pub fn step_bytes(step: &Step) -> Vec<Sent> {
    let bytes = match step {
        Step::Program { page, bytes } => program_bytes(*page as u32, &bytes[..]),
        Step::Erase { block } => erase_bytes(*block as u32),
    };
    bytes.expect("an image has no more pages and blocks")
}

/// Sends the driver's bytes and looks at the status. Gives the driver's reply.
pub fn drive(image: &mut [u8], raw: &mut Raw, bytes: Result<Vec<Sent>, u32>) -> u32 {
    let bytes = match bytes {
        Ok(_) if !has_right_size(image) => return 1,
        Ok(bytes) => bytes,
        Err(refusal) => return refusal,
    };
    let mut registers = raw.registers(pages(image).len()).unwrap_or(FAILED);
    for sent in bytes {
        // Whether it was taken is in the status.
        let _ = registers.send(image, sent);
    }
    let status = registers.receive(image);
    *raw = Raw::from(&registers);
    10 * u32::from(status & 1)
}
