//! Streams of bytes on the chip's bus: likely commands with mistakes among them, and what they meet.

use crate::model::bus::{
    Fault, Raw, Registers, Sent, ERASE, ERASE_END, PROGRAM, PROGRAM_END, READ, READ_END, RESET,
    STATUS,
};
use crate::model::image::{pages, Step, BLOCK, PAGES_IN_BLOCK};
use crate::model::pages::{EMPTY, ERASED, PAGE};
use crate::rng::Rng;
use std::collections::BTreeMap;
use std::ops::Range;

/// What happens on the bus.
#[derive(Clone, Copy, Debug, PartialEq, Eq)]
pub enum Event {
    /// A byte is sent.
    Send(Sent),
    /// A byte is received.
    Receive,
}

/// A command byte.
fn command(byte: u8) -> Event {
    Event::Send(Sent::Command(byte))
}

/// All bytes that are commands or parts of them.
const COMMANDS: [u8; 8] = [READ, READ_END, PROGRAM, PROGRAM_END, ERASE, ERASE_END, STATUS, RESET];

/// An image of so many blocks of which about half the pages are empty.
pub fn random_image(rng: &mut Rng, blocks: usize) -> Vec<u8> {
    let mut image = vec![ERASED; BLOCK * blocks];
    for page in image.chunks_exact_mut(PAGE) {
        match rng.below(8) {
            0..4 => {}
            4 => page[rng.below(PAGE)] = rng.below(255) as u8,
            _ => page.fill_with(|| rng.number() as u8),
        }
    }
    image
}

/// A step that the chip can do: the program of an empty page or the erase of any block.
pub fn random_step(rng: &mut Rng, image: &[u8]) -> Step {
    let pages = pages(image);
    let from = rng.below(pages.len());
    let mut round = (from..pages.len()).chain(0..from);
    match round.find(|&page| pages[page] == EMPTY) {
        Some(page) if rng.below(3) > 0 => {
            let mut bytes = Box::new(rng.array());
            if rng.below(4) == 0 {
                bytes[rng.below(PAGE)..].fill(ERASED);
            }
            Step::Program { page, bytes }
        }
        _ => Step::Erase { block: from / PAGES_IN_BLOCK },
    }
}

// ---- Streams

/// The streams that chips are compared on: for images of so many blocks, those of these seeds.
pub const STREAMS: [(usize, Range<u64>); 5] = [
    (8, 0..8_000),
    (9, 10_000..10_400),
    (16, 20_000..20_300),
    (255, 30_000..30_050),
    (256, 40_000..40_100),
];

/// A stream with the image that it finds.
pub fn random_stream(blocks: usize, seed: u64) -> (Vec<u8>, Vec<Event>) {
    let image = random_image(&mut Rng::new(!seed), blocks);
    (image, Commands::new(seed, blocks).stream())
}

/// Makes the commands of a stream.
pub struct Commands {
    rng: Rng,
    pages: usize,
    /// Rows that are met again and again.
    often: [usize; 3],
}

impl Commands {
    /// Those of a seed, for an image of so many blocks.
    pub fn new(seed: u64, blocks: usize) -> Commands {
        let mut rng = Rng::new(seed);
        let pages = PAGES_IN_BLOCK * blocks;
        let often = std::array::from_fn(|_| rng.below(pages));
        Commands { rng, pages, often }
    }

    /// A stream of commands.
    fn stream(&mut self) -> Vec<Event> {
        let length = 10 + self.rng.below(30);
        (0..length).flat_map(|_| self.next()).collect()
    }

    /// A command, now and then with mistakes, and most often a look at the status after it.
    fn next(&mut self) -> Vec<Event> {
        let mut events = match self.rng.below(20) {
            18.. => return self.begun(),
            0..5 => self.read(),
            5..11 => self.program(),
            11..15 => self.erase(),
            15 => vec![command(STATUS)],
            16 => vec![command(RESET)],
            _ => (0..1 + self.rng.below(4)).map(|_| self.any()).collect(),
        };
        let mistakes = [0, 0, 0, 0, 1, 1, 2, 3][self.rng.below(8)];
        (0..mistakes).for_each(|_| self.mistake(&mut events));
        if self.rng.below(5) > 0 {
            events.push(command(STATUS));
        }
        events.extend([Event::Receive].repeat(self.rng.below(3)));
        events
    }

    /// A column, most often one of the page.
    fn column(&mut self) -> usize {
        match self.rng.below(16) {
            0 => PAGE,
            1 => 1 + self.rng.below(0xffff),
            2..7 => 0,
            7..11 => PAGE - 1 - self.rng.below(6),
            _ => self.rng.below(PAGE),
        }
    }

    /// A row, most often one of the image.
    fn row(&mut self) -> usize {
        let inside = match self.rng.below(4) {
            0 => self.rng.below(self.pages),
            1 => self.pages - 1 - self.rng.below(2),
            _ => self.often[self.rng.below(self.often.len())],
        };
        match self.rng.below(24) {
            0 => self.pages,
            1 => self.rng.below(1 << 24),
            2 => inside + (1 << 16) * (1 + self.rng.below(255)),
            3 => inside + self.pages,
            _ => inside,
        }
    }

    fn row_bytes(&mut self) -> impl Iterator<Item = Event> {
        let row = self.row().to_le_bytes();
        row.into_iter().take(3).map(|byte| Event::Send(Sent::Address(byte)))
    }

    /// A command byte with column and row, and the column.
    fn addressed(&mut self, byte: u8) -> (Vec<Event>, usize) {
        let column = self.column();
        let mut events = vec![command(byte)];
        let bytes = column.to_le_bytes().into_iter().take(2);
        events.extend(bytes.map(|byte| Event::Send(Sent::Address(byte))));
        events.extend(self.row_bytes());
        (events, column)
    }

    /// So many bytes from a column on: few, or up to the page's end and past it.
    fn length(&mut self, column: usize) -> usize {
        let to_end = PAGE.saturating_sub(column);
        match self.rng.below(12) {
            0 => 0,
            1 => to_end,
            2 => to_end + 1 + self.rng.below(3),
            3 => self.rng.below(to_end + 1),
            _ => 1 + self.rng.below(10),
        }
    }

    fn read(&mut self) -> Vec<Event> {
        let (mut events, column) = self.addressed(READ);
        events.push(command(READ_END));
        events.extend([Event::Receive].repeat(self.length(column)));
        events
    }

    fn program(&mut self) -> Vec<Event> {
        let (mut events, column) = self.addressed(PROGRAM);
        for _ in 0..self.length(column) {
            events.push(Event::Send(Sent::Data(self.rng.number() as u8)));
        }
        events.push(command(PROGRAM_END));
        events
    }

    fn erase(&mut self) -> Vec<Event> {
        let mut events = vec![command(ERASE)];
        events.extend(self.row_bytes());
        events.push(command(ERASE_END));
        events
    }

    /// A command that ends inside its address.
    fn begun(&mut self) -> Vec<Event> {
        let byte = [READ, PROGRAM][self.rng.below(2)];
        let (mut events, _) = self.addressed(byte);
        events.truncate(1 + self.rng.below(events.len()));
        events
    }

    /// A byte with a mark, now and then with none.
    pub fn sent(&mut self) -> Sent {
        let byte = self.rng.number() as u8;
        match self.rng.below(18) {
            0..7 => Sent::Command(COMMANDS[self.rng.below(COMMANDS.len())]),
            7 => Sent::Command(byte),
            8..11 => Sent::Address(byte),
            11 => Sent::Address(self.rng.below(2) as u8),
            12..15 => Sent::Data(byte),
            _ => {
                let mark = [3, 4, 255, 256, 257, 258, u32::MAX][self.rng.below(7)];
                Sent::Stray(mark, COMMANDS[self.rng.below(COMMANDS.len())])
            }
        }
    }

    fn any(&mut self) -> Event {
        match self.rng.below(4) {
            0 => Event::Receive,
            _ => Event::Send(self.sent()),
        }
    }

    /// Spoils a command, most often near its start or end.
    fn mistake(&mut self, events: &mut Vec<Event>) {
        let length = events.len();
        let at = match self.rng.below(3) {
            0 => self.rng.below(length.min(8) + 1),
            1 => length - self.rng.below(length.min(3) + 1),
            _ => self.rng.below(length + 1),
        };
        let any = self.any();
        let draw = self.rng.below(10);
        match (draw, events.get(at).copied()) {
            (0, _) => events.insert(at, command(RESET)),
            (1, _) => events.insert(at, command(STATUS)),
            (2, _) => {
                events.splice(at..at, [Event::Receive; 2]);
            }
            (3, _) => events.insert(at, command([READ, PROGRAM, ERASE][self.rng.below(3)])),
            (4, _) => events.truncate(at),
            (5, Some(_)) => {
                events.remove(at);
            }
            (6, Some(event)) => events.insert(at, event),
            (7, Some(Event::Send(sent))) => {
                events[at] = Event::Send(Sent::of(self.rng.below(4) as u32, sent.byte()));
            }
            (8, Some(Event::Send(sent))) => {
                events[at] = Event::Send(Sent::of(sent.mark(), self.rng.number() as u8));
            }
            _ => events.insert(at, any),
        }
    }
}

// ---- Register sets

/// Register sets of all kinds for an image of so many pages.
pub struct Sets {
    rng: Rng,
    commands: Commands,
    pages: usize,
}

impl Sets {
    /// Those of a seed.
    pub fn new(seed: u64, blocks: usize) -> Sets {
        let commands = Commands::new(seed, blocks);
        Sets { rng: Rng::new(!seed), commands, pages: PAGES_IN_BLOCK * blocks }
    }

    /// A set: one that bytes leave, one that differs from it in a place, or any.
    pub fn any(&mut self) -> Raw {
        let mut raw = match self.rng.below(8) {
            0 => Raw { numbers: std::array::from_fn(|_| self.rng.number() as u32), page: EMPTY },
            1..4 => self.shaped(),
            _ => return self.left(),
        };
        let from = match self.rng.below(4) {
            0 => 0,
            1 => PAGE,
            _ => PAGE.min(raw.numbers[2] as usize),
        };
        raw.page[..from].fill_with(|| self.rng.number() as u8);
        raw
    }

    /// Numbers of the size that registers have.
    fn shaped(&mut self) -> Raw {
        let column = [PAGE + 2, 1 << 16, 3][self.rng.below(3)];
        let row = [self.pages, self.pages + 2, 1 << 16, 1 << 24][self.rng.below(4)];
        let sent = [5, self.rng.below(8)][self.rng.below(2)];
        let failed = [0, 0, 0, 1, 2][self.rng.below(5)];
        let numbers =
            [self.rng.below(7), sent, self.rng.below(column), self.rng.below(row), failed];
        Raw { numbers: numbers.map(|number| number as u32), page: EMPTY }
    }

    /// What a part of a command leaves, in half the cases with one place changed.
    fn left(&mut self) -> Raw {
        let events = self.commands.next();
        let length = self.rng.below(events.len() + 1);
        let mut image = vec![ERASED; PAGE * self.pages];
        let mut registers = Registers::NEW;
        for event in &events[..length] {
            play(&mut registers, &mut image, *event);
        }
        let mut raw = Raw::from(&registers);
        if self.rng.below(2) == 0 {
            let other = [1, u32::MAX, 1 << self.rng.below(32), self.rng.number() as u32];
            let by = other[self.rng.below(other.len())];
            match self.rng.below(7) {
                at @ 0..5 => raw.numbers[at] = raw.numbers[at].wrapping_add(by),
                _ => raw.page[self.rng.below(PAGE)] ^= 1 << (by % 8),
            }
        }
        raw
    }
}

// ---- What is met

/// What an event came to.
#[derive(Clone, Debug, PartialEq, Eq)]
pub enum Came {
    /// A byte was received.
    Received(u8),
    /// A byte was sent. With the last one of a command the flash has done a step.
    Sent(Result<Option<Step>, Fault>),
}

/// Does an event.
pub fn play(registers: &mut Registers, image: &mut [u8], event: Event) -> Came {
    match event {
        Event::Send(sent) => Came::Sent(registers.send(image, sent)),
        Event::Receive => Came::Received(registers.receive(image)),
    }
}

/// How often each thing was met, by two words.
#[derive(Debug, Default)]
pub struct Met(BTreeMap<(&'static str, &'static str), usize>);

/// The name of what the chip is at.
fn name(registers: &Registers) -> &'static str {
    match registers {
        Registers::Idle { .. } => "idle",
        Registers::Status { .. } => "status",
        Registers::Output { .. } => "output",
        Registers::Read { .. } => "read",
        Registers::Program { .. } => "program",
        Registers::Erase { .. } => "erase",
    }
}

/// The name of a fault.
fn fault_name(fault: Fault) -> &'static str {
    match fault {
        Fault::Image => "wrong image",
        Fault::NoCommand => "no command",
        Fault::NotNext => "not next",
        Fault::Column => "column past the page",
        Fault::Row => "row past the image",
        Fault::PastEnd => "data past the end",
        Fault::NotEmpty => "page not empty",
    }
}

/// Commands, and all that a chip can be at.
const INSIDE: [&str; 3] = ["read", "program", "erase"];
const STATES: [&str; 6] = ["idle", "status", "output", "read", "program", "erase"];

impl Met {
    fn count(&mut self, what: &'static str, at: &'static str) {
        *self.0.entry((what, at)).or_default() += 1;
    }

    /// Counts an event, which was done by a chip that had these registers before.
    pub fn event(&mut self, before: &Registers, event: Event, came: &Came) {
        let at = name(before);
        match (event, came) {
            (Event::Receive, Came::Received(_)) => {
                self.count("received", at);
                if matches!(before, Registers::Output { column: PAGE, .. }) {
                    self.count("received past the end", at);
                }
            }
            (Event::Send(sent), Came::Sent(result)) => {
                self.count("sent", at);
                self.sent(before, sent, result);
            }
            _ => unreachable!("a byte is sent or received"),
        }
    }

    fn sent(&mut self, before: &Registers, sent: Sent, result: &Result<Option<Step>, Fault>) {
        let at = name(before);
        match sent {
            Sent::Command(RESET) => self.count("reset", at),
            Sent::Command(STATUS) => self.count("status", at),
            Sent::Command(READ | PROGRAM | ERASE) => self.count("start", at),
            Sent::Stray(..) => self.count("stray", at),
            _ => {}
        }
        match (before, result) {
            (_, Err(fault)) => self.count(fault_name(*fault), at),
            (Registers::Program { bytes, .. }, Ok(Some(_))) => {
                self.count(if bytes.is_empty() { "done without data" } else { "done" }, at);
            }
            (Registers::Erase { address }, Ok(Some(_))) => {
                let low = address.row() % PAGES_IN_BLOCK > 0;
                self.count(if low { "done with low row bits" } else { "done" }, at);
            }
            (Registers::Read { .. }, Ok(_)) if sent == Sent::Command(READ_END) => {
                self.count("done", at);
            }
            _ => {}
        }
    }

    /// How often this was met, whatever the chip was at.
    pub fn times(&self, what: &str) -> usize {
        self.0.iter().filter(|((met, _), _)| *met == what).map(|(_, count)| count).sum()
    }

    /// A line for each thing that was met.
    pub fn table(&self) -> String {
        self.0.iter().map(|((what, at), count)| format!("{what}, {at}: {count}\n")).collect()
    }

    /// Panics where one of the things that can be met was met less than so often.
    pub fn require(&self, least: usize) {
        let mut keys = vec![
            ("received past the end", "output"),
            ("done without data", "program"),
            ("done with low row bits", "erase"),
            ("data past the end", "program"),
            ("page not empty", "program"),
            ("column past the page", "read"),
            ("column past the page", "program"),
        ];
        for at in STATES {
            let fault = if INSIDE.contains(&at) { "not next" } else { "no command" };
            let each = ["received", "sent", "reset", "status", "start", "stray", fault];
            keys.extend(each.map(|what| (what, at)));
        }
        for at in INSIDE {
            keys.extend(["done", "row past the image"].map(|what| (what, at)));
        }
        for key in keys {
            let count = self.0.get(&key).copied().unwrap_or(0);
            assert!(count >= least, "{key:?} met {count} times:\n{}", self.table());
        }
    }
}
