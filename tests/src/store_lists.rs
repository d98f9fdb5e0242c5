//! Lists of calls on library and second implementation side by side, on images and records that were
//! damaged too.

use crate::model::calls::{CUT, DONE};
use crate::model::chip::Chip;
use crate::model::files::{self, PLACES};
use crate::model::image::{Power, BLOCK, PAGES_IN_BLOCK};
use crate::model::list::{self, Data, Lent};
use crate::model::pages::{
    spell_entry, Entry, Header, Page, ENTRIES, ENTRY, HEADER, LAST, LETTER_PARTS, PAGE, PARTS,
    PAYLOAD,
};
use crate::model::record::{Record, LETTERS, MAP, NONE};
use crate::model::store::Store;
use crate::random_lists::RandomList;
use crate::rng::Rng;
use crate::side_by_side::{self, compare, garbage, steps, stretch_all, Call, Tally};
use std::fmt;

/// A page to damage.
#[derive(Clone, Copy, Debug, PartialEq, Eq)]
pub enum Target {
    /// A page of key block 0 or 1.
    Keys(usize, usize),
    /// A page of the commit block.
    Commit(usize),
    /// The page of a live place, counted round from this one.
    Live(usize),
    /// Any page of the image.
    Any(usize),
}

/// A new value: this one, or the old one with so much added.
#[derive(Clone, Copy, Debug, PartialEq, Eq)]
pub enum To {
    /// This one.
    Value(u32),
    /// The old one with this added, wrapping.
    Plus(u32),
}

impl To {
    fn of(self, old: u32) -> u32 {
        match self {
            To::Value(value) => value,
            To::Plus(value) => old.wrapping_add(value),
        }
    }
}

/// A change of an image or of its record.
#[derive(Clone, Copy, Debug, PartialEq, Eq)]
pub enum Change {
    /// A byte of a page.
    Byte(Target, usize, u8),
    /// One of the record's five numbers.
    Number(usize, To),
    /// A number of the map.
    Map(usize, To),
    /// A letter.
    Letter(usize, u8),
    /// Two of the record's five numbers exchanged.
    Exchange(usize, usize),
    /// Every free key deleted.
    NoneFree,
    /// A byte of every empty block programmed.
    NoneEmpty,
    /// A page with this header and other bytes after it. It is torn where it has no closing.
    Put {
        /// The page.
        target: Target,
        /// Its header.
        header: Header,
        /// Whether it has a closing.
        whole: bool,
    },
    /// The entry of a place in the commit block.
    Entry(usize, Option<Entry>),
    /// The entry of a place in the commit block, with this page and key position.
    EntryAt(usize, Target, u16),
    /// The header of a page replaced by that of another.
    Header(Target, Target),
    /// The block of the second page copied onto that of the first.
    Copy(Target, Target),
    /// The blocks of two pages exchanged.
    Swap(Target, Target),
    /// So many bytes of a page's block erased.
    Erase(Target, usize),
    /// The epoch of a whole block's pages.
    Epoch(Target, u32),
    /// The covered sequence of the commit block.
    Covered(u32),
}

impl Change {
    /// Makes the change.
    pub fn apply(self, store: &mut Store) {
        let mut numbers = side_by_side::five(store.record.numbers);
        match self {
            Change::Number(which, to) => numbers[which] = to.of(numbers[which]),
            Change::Map(at, to) => {
                let number = &mut store.record.map[at];
                *number = to.of(u32::from(*number)) as u16;
            }
            Change::Letter(position, to) => store.record.letters[position] = to,
            Change::Exchange(a, b) => numbers.swap(a, b),
            Change::NoneFree => {
                let letters = store.record.letters.iter_mut();
                letters.filter(|letter| **letter == b'f').for_each(|letter| *letter = b'd');
            }
            _ => self.apply_to_image(store),
        }
        store.record.numbers = side_by_side::numbers(numbers);
    }

    /// Makes a change of the image.
    fn apply_to_image(self, store: &mut Store) {
        let start_of = |target: Target| target.page(store) / PAGES_IN_BLOCK * BLOCK;
        match self {
            Change::Byte(target, at, to) => {
                let page = target.page(store);
                store.image[PAGE * page + at] = to;
            }
            Change::NoneEmpty => {
                let blocks = store.image.chunks_exact_mut(BLOCK);
                let empty = blocks.filter(|block| block.iter().all(|&byte| byte == 0xff));
                empty.for_each(|block| block[BLOCK / 2] = 0);
            }
            Change::Put { target, header, whole } => {
                let page = target.page(store);
                let bytes = header.page(&[b'.'; PAYLOAD]);
                let length = if whole { PAGE } else { HEADER };
                store.image[PAGE * page..][..length].copy_from_slice(&bytes[..length]);
            }
            Change::Entry(place, entry) => {
                let page = Target::Commit(LETTER_PARTS + place / ENTRIES).page(store);
                let start = PAGE * page + HEADER + ENTRY * (place % ENTRIES);
                store.image[start..][..ENTRY].copy_from_slice(&spell_entry(entry));
            }
            Change::EntryAt(place, target, key) => {
                let page = target.page(store) as u16;
                Change::Entry(place, Some(Entry { page, key })).apply_to_image(store);
            }
            Change::Header(to, from) => {
                let [to, from] = [to, from].map(|target| PAGE * target.page(store));
                store.image.copy_within(from..from + HEADER, to);
            }
            Change::Copy(to, from) => {
                let [to, from] = [to, from].map(start_of);
                store.image.copy_within(from..from + BLOCK, to);
            }
            Change::Swap(a, b) => {
                let [a, b] = [a, b].map(start_of);
                let first = store.image[a..a + BLOCK].to_vec();
                store.image.copy_within(b..b + BLOCK, a);
                store.image[b..b + BLOCK].copy_from_slice(&first);
            }
            Change::Erase(target, bytes) => {
                let start = start_of(target);
                store.image[start..][..bytes].fill(0xff);
            }
            Change::Epoch(target, to) => {
                let start = start_of(target);
                change_headers(&mut store.image[start..start + BLOCK], |header| match header {
                    Header::Keys { epoch, .. } | Header::Commit { epoch, .. } => *epoch = to,
                    Header::Node { .. } | Header::CutOff { .. } => {}
                });
            }
            Change::Covered(to) => {
                let start = start_of(Target::Commit(0));
                change_headers(&mut store.image[start..start + BLOCK], |header| {
                    if let Header::Commit { covered, .. } = header {
                        *covered = to;
                    }
                });
            }
            _ => unreachable!("a change of the record"),
        }
    }
}

/// Changes the headers of a block's pages.
fn change_headers(block: &mut [u8], change: impl Fn(&mut Header)) {
    let (pages, _) = block.as_chunks_mut::<PAGE>();
    for page in pages as &mut [Page] {
        if let Some(mut header) = Header::parse(page) {
            change(&mut header);
            page[..HEADER].copy_from_slice(&header.spell());
        }
    }
}

impl Target {
    /// The page's number; a page that is there, whatever the record says.
    fn page(self, store: &Store) -> usize {
        let numbers = store.record.numbers;
        let page = match self {
            Target::Keys(number, page) => PAGES_IN_BLOCK * numbers.keys(number) + page,
            Target::Commit(page) => PAGES_IN_BLOCK * numbers.commit as usize + page,
            Target::Live(from) => {
                let entries = store.record.entries();
                let mut places = (from..entries.len()).chain(0..from);
                let live = places.find_map(|place| entries[place]);
                live.map_or(from, |entry| usize::from(entry.page))
            }
            Target::Any(page) => page,
        };
        page % (store.image.len() / PAGE)
    }
}

/// One event of a list.
#[derive(Clone, Debug, PartialEq, Eq)]
pub enum Event {
    /// A call. With changes or wrong lengths it is made on a copy of image and record, and where it is
    /// cut there a mount follows.
    Call {
        /// The call.
        call: Call,
        /// When the power fails.
        power: Power,
        /// The lengths of what is lent.
        lent: Lent,
        /// Changes before the call.
        changes: Vec<Change>,
    },
    /// Changes that stay. A mount follows.
    Damage(Vec<Change>),
}

impl Event {
    fn is_mount(&self) -> bool {
        matches!(self, Event::Call { call: Call::Mount { .. }, .. })
    }
}

impl fmt::Display for Event {
    fn fmt(&self, f: &mut fmt::Formatter) -> fmt::Result {
        match self {
            Event::Call { call, power, lent, changes } => {
                write!(f, "{call:?}")?;
                if *lent != Lent::RIGHT {
                    write!(f, ", {lent:?}")?;
                }
                if *power != Power::STAYS {
                    write!(f, ", cut at ({}, {})", power.steps, power.bytes)?;
                }
                if !changes.is_empty() {
                    write!(f, ", after {changes:?}")?;
                }
                Ok(())
            }
            Event::Damage(changes) => write!(f, "damage {changes:?}"),
        }
    }
}

/// A run of a list: image and record, and whether the record is of use.
pub struct Run {
    /// Image and record.
    pub store: Store,
    on: bool,
    /// The chip that each call's steps are done on, beside the image. There is none from a format that was
    /// cut to one that is done: the image may then be mounted, but its blocks may be unsettled.
    chip: Option<Chip>,
    /// The replies of all calls.
    pub tally: Tally,
    /// What each call found, where that is kept.
    met: Option<Vec<(Store, Call)>>,
}

impl Run {
    /// An image of so many blocks with random bytes, and no record yet.
    pub fn new(blocks: usize, seed: u64) -> Run {
        let image = Rng::new(seed).bytes(BLOCK * blocks);
        let store = Store { image, record: Record::blank() };
        Run { store, on: true, chip: None, tally: Tally::default(), met: None }
    }

    /// Does an event, or says where library and second implementation differ.
    pub fn step(&mut self, event: &Event) -> Result<(), String> {
        if !self.on && !event.is_mount() {
            self.mount()?;
        }
        match event {
            Event::Call { call, power, lent, changes } => {
                if *lent == Lent::RIGHT && changes.is_empty() {
                    self.call(*call, *power)?;
                } else {
                    let mut copy = self.store.clone();
                    changes.iter().for_each(|change| change.apply(&mut copy));
                    stretch_all(&mut copy, *lent);
                    self.call_on_copy(copy, *call, *power)?;
                }
            }
            Event::Damage(changes) => {
                changes.iter().for_each(|change| change.apply(&mut self.store));
                self.chip = Some(Chip::settled(&self.store.image, self.seed()));
                self.power_off();
            }
        }
        Ok(())
    }

    /// Does a call by both on a copy that is then dropped, and a mount where it is cut.
    fn call_on_copy(&mut self, copy: Store, call: Call, power: Power) -> Result<(), String> {
        self.keep(&copy, call);
        let mut after = compare(&copy, call, power)?;
        self.tally.count_on(&copy.image, call, after.reply);
        if after.reply == CUT {
            after.store.record = garbage(self.seed());
            self.keep(&after.store, Call::MOUNT);
            let mounted = compare(&after.store, Call::MOUNT, Power::STAYS)?;
            self.tally.count_on(&after.store.image, Call::MOUNT, mounted.reply);
        }
        Ok(())
    }

    /// Does a call by both. Gives the reply.
    fn call(&mut self, call: Call, power: Power) -> Result<u32, String> {
        if let Some(met) = self.met.as_mut().filter(|_| call.is_ours()) {
            met.push((self.store.clone(), call));
        }
        let after = compare(&self.store, call, power)?;
        let reply = after.reply;
        self.tally.count_on(&self.store.image, call, reply);
        let refused = !matches!(reply, DONE | CUT);
        let before = std::mem::replace(&mut self.store, after.store);
        if !refused {
            self.follow(&before, call, reply, power)?;
        }
        match call {
            // Refused for a scratch of a wrong length it leaves map and letters, but no numbers.
            Call::Mount { .. } | Call::Format { .. } if refused => self.power_off(),
            _ if reply == CUT => self.power_off(),
            Call::Mount { .. } | Call::Format { .. } => self.on = true,
            _ => {}
        }
        if reply == DONE {
            self.read_after(call)?;
        }
        Ok(reply)
    }

    /// Does the steps of a call that was done or cut on the chip, which must then have what the image has.
    /// After a call that finished no block is unsettled. Before a format any may be.
    fn follow(
        &mut self,
        before: &Store,
        call: Call,
        reply: u32,
        power: Power,
    ) -> Result<(), String> {
        if matches!(call, Call::Format { .. }) {
            let chip = Chip::of_unknown_past(&before.image, self.seed());
            self.chip = (reply == DONE).then_some(chip);
        }
        let Some(chip) = &mut self.chip else {
            return Ok(());
        };
        if reply == DONE && chip.unsettled().is_empty() {
            // All blocks are settled and every step is done, so that nothing can be lost.
            chip.take(&self.store.image);
            return Ok(());
        }
        chip.play(&steps(before, call), power);
        let unsettled = chip.unsettled();
        self.tally.unsettled += usize::from(!unsettled.is_empty());
        if chip.bytes() != self.store.image {
            return Err("the chip has lost a page\n".into());
        }
        if reply == DONE && !unsettled.is_empty() {
            return Err(format!("the blocks {unsettled:?} are left unsettled\n"));
        }
        Ok(())
    }

    /// A seed for what is chosen at random in the present call.
    fn seed(&self) -> u64 {
        self.tally.calls() as u64
    }

    /// Reads by both what a write has written, and after a mount one of the nodes that are there.
    fn read_after(&mut self, call: Call) -> Result<(), String> {
        let (file, offset) = match call {
            Call::Write { file, offset, .. } | Call::Append { file, offset, .. } => (file, offset),
            Call::Mount { .. } => {
                let first = self.tally.calls() % PLACES;
                let mut places = (first..PLACES).chain(0..first);
                let live = places.find(|&place| self.store.record.entry(place).is_some());
                let (file, offset) = files::node(live.unwrap_or(first));
                (file as u32, offset as u32)
            }
            _ => return Ok(()),
        };
        let read = Call::Read { file, offset, output: PAYLOAD };
        let after = compare(&self.store, read, Power::STAYS)?;
        self.tally.count(read.name(), after.reply);
        Ok(())
    }

    /// Keeps what a call of the library finds, where that is asked for.
    fn keep(&mut self, store: &Store, call: Call) {
        if let Some(met) = self.met.as_mut().filter(|_| call.is_ours()) {
            met.push((store.clone(), call));
        }
    }

    /// Nothing of the record is of use until a mount has finished.
    fn power_off(&mut self) {
        self.on = false;
        self.store.record = garbage(self.seed());
    }

    /// Gives the image a record again: by a mount, or where that is refused by a format.
    fn mount(&mut self) -> Result<(), String> {
        if self.call(Call::MOUNT, Power::STAYS)? != DONE {
            self.call(Call::Format { noise: Data::noise(1) }, Power::STAYS)?;
        }
        Ok(())
    }
}

// ---- Random lists

/// The list of this seed, for an image of so many blocks, with at most so many events. It begins with a
/// format.
fn random_list(seed: u64, blocks: usize, longest: usize) -> Vec<Event> {
    let calls = RandomList::new(seed, blocks);
    let length = calls.length.min(longest);
    let mut events = Events { rng: Rng::new(!seed), calls, blocks, cut: false };
    let call = Call::Format { noise: Data::noise(events.rng.number()) };
    let first = Event::Call { call, power: Power::STAYS, lent: Lent::RIGHT, changes: Vec::new() };
    std::iter::once(first).chain((1..length).map(|_| events.event())).collect()
}

/// Makes the events of a list.
struct Events {
    rng: Rng,
    calls: RandomList,
    blocks: usize,
    /// Whether the last call was to be cut.
    cut: bool,
}

impl Events {
    fn event(&mut self) -> Event {
        match self.rng.below(400) {
            0 | 1 => {
                let cut = Power::cut(self.rng.below(60), self.rng.below(BLOCK + 2));
                let power = [Power::STAYS, cut][self.rng.below(2)];
                return self.format(power);
            }
            2..8 => return Event::Damage(self.changes(Self::damage)),
            _ => {}
        }
        let mounts = self.cut && self.rng.below(2) == 0;
        let list::Event { call, lent, power } = self.calls.next(!mounts);
        self.cut = power != Power::STAYS;
        let call = match (call, self.rng.below(8)) {
            (list::Call::Write { file, offset, .. }, 0) => {
                let output = [PAYLOAD, self.rng.below(300)][usize::from(self.rng.below(20) == 0)];
                list::Call::Read { file, offset, output }
            }
            (list::Call::Write { .. }, 1) => list::Call::MOUNT,
            _ => call,
        };
        let changes = match (call, self.rng.below(4)) {
            (list::Call::Mount { .. }, 1..) => self.changes(Self::damage),
            (_, 0) => self.changes(Self::change),
            _ => Vec::new(),
        };
        Event::Call { call: call.into(), power, lent, changes }
    }

    fn format(&mut self, power: Power) -> Event {
        let noise = Data::noise(self.rng.number());
        let noise = match self.rng.below(8) {
            0 => Data { length: noise.length - 1, ..noise },
            1 => Data { length: noise.length + 1, ..noise },
            _ => noise,
        };
        let lent = match self.rng.below(8) {
            0 => Lent { image: [-1, 1, BLOCK as isize / 2][self.rng.below(3)], ..Lent::RIGHT },
            1 => Lent { map: [-1, 1][self.rng.below(2)], ..Lent::RIGHT },
            2 => Lent { letters: [-1, 1][self.rng.below(2)], ..Lent::RIGHT },
            _ => Lent::RIGHT,
        };
        Event::Call { call: Call::Format { noise }, power, lent, changes: Vec::new() }
    }

    /// One to three changes.
    fn changes(&mut self, one: fn(&mut Self) -> Change) -> Vec<Change> {
        (0..1 + self.rng.below(3)).map(|_| one(self)).collect()
    }

    fn change(&mut self) -> Change {
        match self.rng.below(16) {
            0 | 1 => Change::Number(self.rng.below(5), self.to()),
            2 => Change::Number(self.rng.below(2), To::Value(LAST + self.rng.below(2) as u32)),
            3 => Change::Exchange(self.rng.below(5), self.rng.below(5)),
            4 => [Change::NoneFree, Change::NoneEmpty][self.rng.below(2)],
            5..8 => Change::Letter(self.position(), b"fudg\xff"[self.rng.below(5)]),
            8..12 => Change::Map(self.rng.below(MAP), self.to()),
            _ => self.byte(),
        }
    }

    /// A key position, most often a low one, since these are used first.
    fn position(&mut self) -> usize {
        let limit = [8, LETTERS][self.rng.below(2)];
        self.rng.below(limit)
    }

    fn to(&mut self) -> To {
        match self.rng.below(4) {
            0 => To::Plus(1),
            1 => To::Plus(u32::MAX),
            2 => To::Value(self.rng.below(300) as u32),
            _ => {
                let edges = [0, 1, 447, 448, u32::from(NONE), LAST, LAST + 1, LAST + 2, u32::MAX];
                To::Value(edges[self.rng.below(edges.len())])
            }
        }
    }

    /// A page, most often one that matters.
    fn target(&mut self) -> Target {
        match self.rng.below(4) {
            0 => Target::Keys(self.rng.below(2), self.rng.below(PAGES_IN_BLOCK)),
            1 => Target::Commit(self.rng.below(PARTS + 1)),
            2 => Target::Live(self.rng.below(MAP / 2)),
            _ => Target::Any(self.rng.below(PAGES_IN_BLOCK * self.blocks)),
        }
    }

    /// A change of the image.
    fn damage(&mut self) -> Change {
        let (a, b) = (self.target(), self.target());
        match self.rng.below(12) {
            0 => Change::Copy(Target::Any(self.rng.below(PAGES_IN_BLOCK * self.blocks)), b),
            1 => Change::Swap(a, b),
            2 => Change::Erase(a, [BLOCK / 2, PAGE, HEADER, BLOCK, 1][self.rng.below(5)]),
            3 => Change::Epoch(a, self.rng.below(4) as u32 + 1),
            4 => Change::Covered(self.rng.below(12) as u32),
            5 => Change::Header(a, b),
            6 => Change::Entry(self.rng.below(PLACES), self.entry()),
            7 => Change::EntryAt(self.place(), a, self.position() as u16),
            8 | 9 => Change::Put { target: a, header: self.header(), whole: self.rng.below(3) > 0 },
            _ => self.byte(),
        }
    }

    /// An entry: none, one of a page that may be live, or any.
    fn entry(&mut self) -> Option<Entry> {
        let pages = [PAGES_IN_BLOCK * self.blocks, 4_096][self.rng.below(2)];
        let entry = Entry { page: self.rng.below(pages) as u16, key: self.position() as u16 };
        (self.rng.below(4) > 0).then_some(entry)
    }

    /// A place, most often one of the first.
    fn place(&mut self) -> usize {
        let limit = [4, PLACES][self.rng.below(2)];
        self.rng.below(limit)
    }

    /// A header of low numbers, so that sequences, epochs and keys are met twice.
    fn header(&mut self) -> Header {
        let (file, offset) = files::node(self.place());
        let number = [self.rng.below(12) as u32 + 1, LAST][usize::from(self.rng.below(30) == 0)];
        match self.rng.below(8) {
            0..5 => {
                let (key, second) = (self.position(), self.rng.below(PAYLOAD + 1) as u32);
                Header::Node { sequence: number, file, offset, key, second }
            }
            5 | 6 => Header::CutOff { sequence: number, file, offset },
            _ => Header::Keys { epoch: number, block: self.rng.below(2), page: self.rng.below(16) },
        }
    }

    /// A byte of a page, most often of a header or closing and one that headers have.
    fn byte(&mut self) -> Change {
        let at = match self.rng.below(4) {
            0 => PAGE - 1 - self.rng.below(3),
            1 => self.rng.below(PAGE),
            _ => self.rng.below(HEADER),
        };
        let likely = b" 0123459NDKC:-fud\r\n\xff";
        let to = match self.rng.below(4) {
            0 => self.rng.below(256) as u8,
            _ => likely[self.rng.below(likely.len())],
        };
        Change::Byte(self.target(), at, to)
    }
}

/// Runs a random list.
///
/// Panics where library and second implementation differ, with a shorter list that shows it.
pub fn check_random_list(blocks: usize, seed: u64, longest: usize) -> Tally {
    let mut events = random_list(seed, blocks, longest);
    match run(blocks, seed, &events) {
        Ok(tally) => tally,
        Err((at, why)) => {
            events.truncate(at + 1);
            let (events, why) = shrink(blocks, seed, events, why);
            let list: Vec<String> = events.iter().map(Event::to_string).collect();
            panic!("{blocks} blocks, seed {seed}, call {at}:\n{why}after\n{}", list.join("\n"));
        }
    }
}

/// The calls of a random list, each with the image and record that it finds: cut and damaged ones among
/// them.
pub fn met_in_random_list(blocks: usize, seed: u64, longest: usize) -> Vec<(Store, Call)> {
    let mut run = Run::new(blocks, seed);
    run.met = Some(Vec::new());
    for event in &random_list(seed, blocks, longest) {
        run.step(event).unwrap_or_else(|why| panic!("{blocks} blocks, seed {seed}:\n{why}"));
    }
    run.met.unwrap_or_default()
}

/// Runs a list to its end, or to the first call on which library and second implementation differ.
fn run(blocks: usize, seed: u64, events: &[Event]) -> Result<Tally, (usize, String)> {
    let mut run = Run::new(blocks, seed);
    for (at, event) in events.iter().enumerate() {
        run.step(event).map_err(|why| (at, why))?;
    }
    Ok(run.tally)
}

/// Drops events until each that is left is needed for a difference. Gives them, and the difference.
fn shrink(
    blocks: usize,
    seed: u64,
    mut events: Vec<Event>,
    mut why: String,
) -> (Vec<Event>, String) {
    let mut chunk = events.len();
    loop {
        let before = events.len();
        let mut at = 0;
        while at < events.len() {
            let mut fewer = events.clone();
            fewer.drain(at..events.len().min(at + chunk));
            match run(blocks, seed, &fewer) {
                Err((last, text)) => {
                    fewer.truncate(last + 1);
                    events = fewer;
                    why = text;
                }
                Ok(_) => at += chunk,
            }
        }
        if chunk > 1 {
            chunk /= 2;
        } else if events.len() == before {
            return (events, why);
        }
    }
}
