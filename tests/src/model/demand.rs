//! Document 01, demand 3 ("The plain book of demand 3", "Contracts and cases"): a list of calls with
//! cuts, run on a store beside the book and a chip with unsettled blocks, and what must hold after each call.

use super::aes;
use super::blocks::page_to_take;
use super::book::{Book, Key};
use super::calls::{self, Refusal, CUT, DONE};
use super::chip::Chip;
use super::copies;
use super::files::{self, PLACES};
use super::image::{blocks, has_right_size, pages, play, Power, Step, BLOCK, PAGES_IN_BLOCK};
use super::keys::{in_noise, Slot, NOISE, POSITIONS};
use super::list::{Call, Data, Event, Lent};
use super::origin::{Origin, Origins};
use super::pages::{Header, Page, ERASED, FREE, HEADER, LAST, PAGE, PAYLOAD, PAYLOAD_BYTES, SPACE};
use super::record::{Numbers, Record, LETTERS, MAP, NONE, SCRATCH};
use super::store::Store;
use crate::rng::Rng;
use std::collections::HashMap;

/// What does not hold, in words.
pub type Broken = String;

/// What a call does: its reply where the power stays on, its steps and the record after them.
pub struct Way {
    /// The reply.
    pub reply: u32,
    /// The steps.
    pub steps: Vec<Step>,
    /// The record.
    pub record: Record,
}

/// Who does the calls of a run.
#[derive(Clone, Copy)]
pub enum Maker {
    /// The second implementation.
    Second,
    /// The same, but that gathers go this way.
    Gathers(fn(&Store, usize) -> Way),
    /// The same, but that mounts go this way.
    Mounts(fn(&Store) -> Way),
    /// This function. The steps are to be those of the second implementation.
    Other(fn(&mut Store, Call, Power) -> u32),
}

impl Maker {
    /// The way that a call goes, where it is not the second implementation's.
    fn way(self, store: &Store, call: Call) -> Option<Way> {
        match (self, call) {
            (Maker::Gathers(way), Call::Gather { block }) => Some(way(store, block)),
            (Maker::Mounts(way), Call::MOUNT)
                if has_right_size(&store.image) && store.record.has_right_lengths() =>
            {
                Some(way(store))
            }
            _ => None,
        }
    }

    /// The steps that a call has.
    fn steps(self, store: &Store, call: Call) -> Vec<Step> {
        self.way(store, call).map_or_else(|| store.steps(call), |way| way.steps)
    }

    /// Does a call. Gives the reply.
    fn call(self, store: &mut Store, call: Call, power: Power) -> u32 {
        match (self, self.way(store, call)) {
            (_, Some(Way { reply, steps, record })) => {
                store.record = record;
                if play(&mut store.image, &steps, power) {
                    reply
                } else {
                    CUT
                }
            }
            (Maker::Other(function), None) => function(store, call, power),
            _ => store.call_with(call, power),
        }
    }
}

/// A run of a list: the store, whether the power is on, and beside them the book.
#[derive(Clone)]
pub struct Run {
    maker: Maker,
    /// Image and record. The record is of no use while the power is off.
    pub store: Store,
    /// Whether the last call was not cut, or a mount has finished since.
    pub on: bool,
    /// The book.
    pub book: Book,
    /// The chip that each call's steps are done on, beside the image.
    pub chip: Chip,
    /// Whether a mount is tried after each call that finished. What it must give follows from the points.
    tries_mounts: bool,
    origins: Origins,
    /// For each call by its number the noise that it took.
    noises: Vec<Vec<u8>>,
    /// For each key the node that it has enciphered, on whatever pages, erased ones too.
    nodes: HashMap<Key, Node>,
    /// The sequence that format's commit block covers.
    covered: u32,
    seed: u64,
}

/// A node: its file, offset and second number, all bytes that its key enciphers, and what they are then.
#[derive(Clone, Debug, PartialEq, Eq)]
struct Node {
    file: usize,
    offset: usize,
    second: u32,
    bytes: Vec<u8>,
    stored: Vec<u8>,
}

impl Node {
    /// The node of a write; none for other calls.
    fn of(call: Call) -> Option<Node> {
        match call {
            Call::Write { file, offset, payload } => {
                let padding = vec![SPACE; PAYLOAD - payload.length];
                let bytes = [payload.bytes(), padding].concat();
                let second = payload.length as u32;
                Some(Node { file, offset, second, bytes, stored: Vec::new() })
            }
            Call::Append { file, offset, second, bytes } => {
                let bytes = bytes.bytes();
                Some(Node { file, offset, second, bytes, stored: Vec::new() })
            }
            _ => None,
        }
    }

    /// Its header, with this sequence and key position.
    fn header(&self, sequence: u32, key: usize) -> Header {
        let &Node { file, offset, second, .. } = self;
        Header::Node { sequence, file, offset, key, second }
    }
}

/// Fails with this text where something does not hold.
macro_rules! ensure {
    ($holds:expr, $($text:tt)*) => {
        if !$holds {
            return Err(format!($($text)*));
        }
    };
}

impl Run {
    /// Formats an image of so many blocks that held random bytes.
    pub fn new(blocks: usize, seed: u64) -> Run {
        Run::by(Maker::Second, blocks, seed)
    }

    /// The same, and the calls are then done by this maker.
    pub fn by(maker: Maker, blocks: usize, seed: u64) -> Run {
        let noise = Data::noise(Rng::new(!seed).number());
        Run::with_noise(maker, blocks, seed, noise)
    }

    /// The same, and the format has this noise. Before it any block may be unsettled.
    pub fn with_noise(maker: Maker, blocks: usize, seed: u64, noise: Data) -> Run {
        let image = Rng::new(seed).bytes(BLOCK * blocks);
        let mut chip = Chip::of_unknown_past(&image, seed);
        let mut store = Store { image, record: Record::blank() };
        let bytes = noise.bytes();
        let steps = calls::format::outcome(&store.image, MAP, LETTERS, &bytes);
        let steps = steps.expect("the image has a right size");
        assert_eq!(store.format(noise, Power::STAYS), DONE);
        assert_eq!(chip.program_on_unsettled(&steps), None, "of a format");
        chip.play(&steps, Power::STAYS);

        let mut origins = Origins::new(store.image.len());
        let key = |position| Key::new(position, 0);
        origins.follow(&steps, Power::STAYS, key, key);
        Run {
            maker,
            store,
            on: true,
            book: Book::new(),
            chip,
            tries_mounts: true,
            origins,
            noises: vec![bytes],
            nodes: HashMap::new(),
            covered: 0,
            seed,
        }
    }

    /// The same, but that no mount is tried after the calls: it is held to the points alone.
    pub fn by_points_alone(self) -> Run {
        Run { tries_mounts: false, ..self }
    }

    /// The same, but that the commit block covers this sequence, so that the next is the one after it.
    pub fn late(maker: Maker, blocks: usize, seed: u64, covered: u32) -> Run {
        let mut run = Run::by(maker, blocks, seed);
        let Store { image, record } = &mut run.store;
        let block = &mut image[BLOCK * record.numbers.commit as usize..][..BLOCK];
        let (pages, _) = block.as_chunks_mut::<PAGE>();
        for page in pages as &mut [Page] {
            if let Some(Header::Commit { epoch, part, .. }) = Header::parse(page) {
                let header = Header::Commit { epoch, part, covered };
                page[..HEADER].copy_from_slice(&header.spell());
            }
        }
        record.numbers.sequence = covered + 1;
        run.chip = Chip::settled(image, seed);
        run.covered = covered;
        run
    }

    /// Where each byte of the image comes from, in order.
    pub fn origins(&self) -> &[Origin] {
        self.origins.bytes()
    }

    /// Does one call and holds it to the book. Gives the reply, or none where the power is off and the
    /// call is no mount, so that it cannot be made.
    pub fn step(&mut self, event: &Event) -> Result<Option<u32>, Broken> {
        let &Event { call, lent, power } = event;
        if !self.on && !matches!(call, Call::Mount { .. }) {
            return Ok(None);
        }
        let number = self.noises.len();
        self.noises.push(match call {
            Call::Commit { noise } | Call::Wipe { noise, .. } => noise.bytes(),
            _ => Vec::new(),
        });
        if lent != Lent::RIGHT {
            return self.call_with_wrong_lengths(event).map(Some);
        }

        let before = self.store.clone();
        let steps = self.maker.steps(&before, call);
        let reply = self.maker.call(&mut self.store, call, power);
        self.check_reply(&before, call, reply)?;
        self.check_on_settled(&steps)?;
        self.chip.play(&steps, power);
        match reply {
            DONE | CUT => {
                self.check_played(&before, &steps, power)?;
                self.check_programs(event, &before, &steps)?;
                self.check_copies(call, &before, &steps)?;
                self.enter(number, event, reply, before, &steps)?;
            }
            refusal => self.check_refused(call, refusal, before)?,
        }
        let is_cut = power.steps < steps.len();
        ensure!((reply == CUT) == is_cut, "reply {reply}, the call has {} steps", steps.len());
        ensure!(self.chip.bytes() == self.store.image, "the chip has lost a page");
        Ok(Some(reply))
    }

    /// No step programs a block that is unsettled at that moment.
    fn check_on_settled(&self, steps: &[Step]) -> Result<(), Broken> {
        match self.chip.program_on_unsettled(steps) {
            Some((step, block)) => Err(format!("step {step} programs the unsettled block {block}")),
            None => Ok(()),
        }
    }

    /// The image is what the steps leave of the one before.
    fn check_played(&self, before: &Store, steps: &[Step], power: Power) -> Result<(), Broken> {
        let mut image = before.image.clone();
        play(&mut image, steps, power);
        ensure!(image == self.store.image, "another image than its steps leave");
        Ok(())
    }

    /// A gather programs a copy of each live page of its block and that alone, and then the block has no live
    /// page.
    fn check_copies(&self, call: Call, before: &Store, steps: &[Step]) -> Result<(), Broken> {
        let Call::Gather { block } = call else {
            return Ok(());
        };
        let copies = copies::steps(before, block);
        let (found, expected) = (steps.len(), copies.len());
        ensure!(found == expected, "{found} steps, block {block} has {expected} live pages");
        let other = (0..).zip(steps.iter().zip(&copies)).find(|(_, (step, copy))| step != copy);
        let other = other.map(|(number, _)| number);
        ensure!(other.is_none(), "step {other:?} is not the copy of its page");
        let live = copies::live_pages(&self.store.record.map, block);
        ensure!(live.is_empty(), "block {block} still has the live pages {live:?}");
        Ok(())
    }

    /// A write that is taken programs its node and that alone, a mount programs nothing, and a read has no
    /// step.
    fn check_programs(
        &mut self,
        event: &Event,
        before: &Store,
        steps: &[Step],
    ) -> Result<(), Broken> {
        let programs = steps.iter().any(|step| matches!(step, Step::Program { .. }));
        match (event.call, Node::of(event.call)) {
            (Call::Mount { .. }, _) => ensure!(!programs, "a mount programs a page"),
            (Call::Read { .. }, _) => ensure!(steps.is_empty(), "a read has steps"),
            (_, Some(node)) => self.check_node(node, event.power, before, steps)?,
            (_, None) => {}
        }
        Ok(())
    }

    /// The steps of a write are its node's, under the key that the lowest f then has and that has enciphered
    /// no node before.
    fn check_node(
        &mut self,
        mut node: Node,
        power: Power,
        before: &Store,
        steps: &[Step],
    ) -> Result<(), Broken> {
        let lowest = self.book.marks.iter().position(|&mark| mark == FREE);
        let position = lowest.expect("the call was not refused");
        let key = self.book.key(position);
        let noise = &self.noises[key.call as usize][in_noise(position)];

        node.stored = node.bytes.clone();
        aes::stream(noise.try_into().expect("16 bytes of noise"), &mut node.stored);
        let header = node.header(before.record.numbers.sequence, position);
        let page = page_to_take(blocks(&before.image), None).expect("the call was not refused");
        let programs = Step::Program { page, bytes: Box::new(header.page(&node.stored)) };
        ensure!(*steps == [programs], "another page than that of the node");

        let old = self.nodes.get(&key);
        ensure!(old.is_none(), "{key:?} has enciphered {old:?} before");
        if power.reaches(0, PAGE) >= HEADER {
            self.nodes.insert(key, node);
        }
        Ok(())
    }

    /// A generator for what the checks of the present call choose at random.
    fn rng(&self) -> Rng {
        Rng::new(self.seed.wrapping_add(self.noises.len() as u64))
    }

    /// Enters a call that was done or cut into book and origins, and checks what must hold after one
    /// that finished.
    fn enter(
        &mut self,
        number: usize,
        event: &Event,
        reply: u32,
        before: Store,
        steps: &[Step],
    ) -> Result<(), Broken> {
        let &Event { call, power, .. } = event;
        let book = self.book.clone();
        self.book.enter(number, call, reply, power);

        let purges = matches!(call, Call::Commit { .. } | Call::Wipe { .. });
        let origins = purges.then(|| self.origins.bytes().to_vec());
        let copied = |position| match self.book.is_in_use(book.key(position)) {
            true => book.key(position),
            false => Key::new(position, number),
        };
        self.origins.follow(steps, power, |position| book.key(position), copied);

        self.check_pages_under_keys()?;
        self.on = reply == DONE;
        if !self.on {
            self.spoil_record();
            return Ok(());
        }
        self.check_at_rest()?;
        if matches!(call, Call::Mount { .. }) {
            self.check_accounted()?;
        }
        self.check_reads(call)?;
        match origins {
            Some(origins) => self.check_purge(call, before, &origins),
            None => Ok(()),
        }
    }

    /// A refused call changes nothing; mount returns zeros for the record's numbers.
    fn check_refused(&mut self, call: Call, refusal: u32, before: Store) -> Result<(), Broken> {
        if matches!(call, Call::Mount { .. }) {
            ensure!(
                self.store.record.numbers == Default::default(),
                "refused {refusal} with numbers"
            );
            self.store.record.numbers = before.record.numbers;
        }
        ensure!(self.store == before, "refused {refusal}, and something changed");
        Ok(())
    }

    /// A call that is lent something of a wrong length is refused with 1 or 2 and changes nothing.
    fn call_with_wrong_lengths(&mut self, event: &Event) -> Result<u32, Broken> {
        let &Event { call, lent, power } = event;
        let right = self.store.clone();
        let Store { image, record } = &mut self.store;
        image.resize(image.len().saturating_add_signed(lent.image), 0xff);
        record.map.resize(record.map.len().saturating_add_signed(lent.map), 0);
        record.letters.resize(record.letters.len().saturating_add_signed(lent.letters), FREE);
        let wrong = self.store.clone();
        let reply = self.maker.call(&mut self.store, call, power);
        let expected = if lent.image != 0 { Refusal::Image } else { Refusal::Lengths };
        ensure!(reply == expected.number(), "reply {reply} to a wrong length");
        self.check_refused(call, reply, wrong)?;
        self.store = right;
        Ok(reply)
    }

    /// The reply is one that the book and what the call found allow.
    fn check_reply(&self, before: &Store, call: Call, reply: u32) -> Result<(), Broken> {
        let expected = match call {
            Call::Gather { block } => copies::reply(before, block),
            _ => self
                .expected_reply(before.record.numbers, call)
                .map_or_else(Refusal::number, |()| DONE),
        };
        let no_page = || {
            matches!(call, Call::Write { .. } | Call::Append { .. } | Call::CutOff { .. })
                && reply == Refusal::NoRoom.number()
                && !has_page(&before.image)
        };
        let right = reply == expected || expected == DONE && (reply == CUT || no_page());
        ensure!(right, "reply {reply}, by the book it is {expected}");
        Ok(())
    }

    /// The reply by the arguments, the book and the next numbers, where there is a page for the call and it is
    /// not cut. A gather's is in [`copies`].
    fn expected_reply(&self, next: Numbers, call: Call) -> Result<(), Refusal> {
        let test = |holds: bool, refusal| if holds { Ok(()) } else { Err(refusal) };
        let test_node = |file, offset| match files::COUNTS.get(file) {
            Some(&count) => test(offset < count, Refusal::Offset),
            None => Err(Refusal::File),
        };
        match call {
            Call::Mount { scratch } => test(scratch == SCRATCH, Refusal::Lengths),
            Call::Write { file, offset, .. } | Call::Append { file, offset, .. } => {
                test_node(file, offset)?;
                test(call.has_right_lengths(), Refusal::Payload)?;
                test(next.sequence <= LAST, Refusal::NoNumber)?;
                test(self.book.marks.contains(&FREE), Refusal::NoKey)
            }
            Call::Read { file, offset, output } => {
                test_node(file, offset)?;
                test(output == PAYLOAD, Refusal::Payload)?;
                let place = files::rest(file, offset).start;
                test(self.book.places[place].is_some(), Refusal::NoNode)
            }
            Call::CutOff { file, offset } => {
                test_node(file, offset)?;
                let live = self.book.places[files::rest(file, offset)].iter().any(Option::is_some);
                test(live, Refusal::NoNode)?;
                test(next.sequence <= LAST, Refusal::NoNumber)
            }
            Call::Commit { noise } => {
                test(noise.length == NOISE, Refusal::Noise)?;
                test(next.epoch <= LAST, Refusal::NoNumber)
            }
            Call::Wipe { file, offset, noise } => {
                test(noise.length == NOISE, Refusal::Noise)?;
                test_node(file, offset)?;
                test(next.epoch < LAST, Refusal::NoNumber)
            }
            Call::Gather { .. } => Ok(()),
        }
    }

    /// What holds after each call that finished, the power being on.
    pub fn check_at_rest(&self) -> Result<(), Broken> {
        let unsettled = self.chip.unsettled();
        ensure!(unsettled.is_empty(), "the blocks {unsettled:?} are left unsettled");
        if self.tries_mounts {
            self.check_mount()?;
        }
        let record = &self.store.record;
        for (place, content) in self.book.places.iter().enumerate() {
            let key = record.entry(place).map(|entry| usize::from(entry.key));
            let position = content.as_ref().map(|content| content.position);
            ensure!(key == position, "place {place}: key {key:?}, in the book {position:?}");
        }
        for (position, (&letter, &mark)) in record.letters.iter().zip(&self.book.marks).enumerate()
        {
            let (letter, mark) = (char::from(letter), char::from(mark));
            ensure!(letter == mark, "position {position}: letter {letter}, in the book {mark}");
        }
        self.check_counted()?;
        self.check_keys()
    }

    /// A byte that is of no key and that none has enciphered is text or erased.
    fn check_accounted(&self) -> Result<(), Broken> {
        let is_plain = |byte: u8| matches!(byte, ERASED | b' '..=b'~' | b'\r' | b'\n');
        let mut bytes = self.store.image.iter().zip(self.origins.bytes());
        let other = bytes.position(|(&byte, &from)| from == Origin::Nothing && !is_plain(byte));
        ensure!(other.is_none(), "byte {other:?} is of no key and yet no text");
        Ok(())
    }

    /// A call uses up as many sequences at most as a block has pages, or two epochs.
    fn check_counted(&self) -> Result<(), Broken> {
        let (calls, numbers) = (self.noises.len(), self.store.record.numbers);
        let sequences = (numbers.sequence - self.covered) as usize;
        ensure!(sequences <= PAGES_IN_BLOCK * calls, "sequence {sequences} after {calls} calls");
        let epoch = numbers.epoch as usize;
        ensure!(epoch <= 2 * calls, "epoch {epoch} after {calls} calls");
        Ok(())
    }

    /// All pages on the flash under one key are of one node: every byte that a key enciphered is the node's
    /// at its place in the page, and where a header can be read it is the node's.
    pub fn check_pages_under_keys(&self) -> Result<(), Broken> {
        let origins = self.origins.bytes().chunks_exact(PAGE);
        for (number, (page, origins)) in pages(&self.store.image).iter().zip(origins).enumerate() {
            let key = origins.iter().find_map(|origin| match origin {
                Origin::Enciphered(key) => Some(*key),
                _ => None,
            });
            let is_right = key.is_none_or(|key| self.is_page_under_key(key, page, origins));
            ensure!(is_right, "page {number} is not of the node of {key:?}");
        }
        Ok(())
    }

    /// Whether the bytes of a page that were enciphered, and its header if it has one, are of the node that a
    /// key has.
    fn is_page_under_key(&self, key: Key, page: &Page, origins: &[Origin]) -> bool {
        let Some(node) = self.nodes.get(&key) else {
            return false;
        };
        let header = Header::parse(page);
        let is_headed = match header {
            Some(Header::Node { sequence, .. }) => {
                header == Some(node.header(sequence, usize::from(key.position)))
            }
            other => other.is_none(),
        };
        let stored = PAYLOAD_BYTES.zip(&node.stored);
        let mut bytes = stored.filter(|&(at, _)| origins[at] != Origin::Nothing);
        is_headed
            && bytes.all(|(at, &byte)| origins[at] == Origin::Enciphered(key) && page[at] == byte)
    }

    /// A mount is accepted, gives the record and keeps every live page; a second one changes nothing.
    fn check_mount(&self) -> Result<(), Broken> {
        let mut store = Store { record: Record::blank(), ..self.store.clone() };
        let reply = self.maker.call(&mut store, Call::MOUNT, Power::STAYS);
        ensure!(reply == DONE, "a mount replies {reply}");
        let (found, own) = (&store.record, &self.store.record);
        ensure!(found == own, "a mount gives {found:?}, the record is {own:?}");
        for &page in own.map[..PLACES].iter().filter(|&&page| page != NONE) {
            let bytes = PAGE * usize::from(page)..PAGE * (usize::from(page) + 1);
            let kept = store.image[bytes.clone()] == self.store.image[bytes];
            ensure!(kept, "a mount changes the live page {page}");
        }
        let once = store.clone();
        let reply = self.maker.call(&mut store, Call::MOUNT, Power::STAYS);
        ensure!(reply == DONE, "a second mount replies {reply}");
        ensure!(store == once, "a second mount changes something");
        Ok(())
    }

    /// Each slot of the chosen key blocks holds its position's key, and no key is anywhere else. No byte
    /// is or was under the key of a free position.
    fn check_keys(&self) -> Result<(), Broken> {
        let Store { image, record } = &self.store;
        for position in 0..POSITIONS {
            let slot = Slot::of(position);
            let start = BLOCK * record.numbers.keys(slot.block) + slot.bytes().start;
            let bytes = start..start + slot.bytes().len();
            let call = self.book.bringers[position];
            let right = image[bytes.clone()] == self.noises[call][in_noise(position)];
            ensure!(right, "the slot of position {position} has not the key of call {call}");
            let origin = Origin::Key(self.book.key(position));
            let right = self.origins.bytes()[bytes].iter().all(|&byte| byte == origin);
            ensure!(right, "the slot of position {position} is not from call {call}");
        }
        let chosen = [record.numbers.keys(0), record.numbers.keys(1)];
        for (block, bytes) in self.origins.bytes().chunks(BLOCK).enumerate() {
            let stale = bytes.iter().any(|origin| matches!(origin, Origin::Key(_)));
            ensure!(chosen.contains(&block) || !stale, "block {block} has bytes of a stale key");
        }
        for position in (0..POSITIONS).filter(|&position| self.book.marks[position] == FREE) {
            let key = self.book.key(position);
            ensure!(!self.origins.enciphered.contains(&key), "free {key:?} has enciphered a page");
        }
        Ok(())
    }

    /// Reads give the book's payload or 8: at every place with a payload after a mount, commit, wipe or
    /// gather, else at the place of the call; and at some others.
    fn check_reads(&self, call: Call) -> Result<(), Broken> {
        let mut rng = self.rng();
        let mut places: Vec<usize> = (0..4).map(|_| rng.below(PLACES)).collect();
        match call {
            Call::Write { file, offset, .. }
            | Call::Append { file, offset, .. }
            | Call::Read { file, offset, .. }
            | Call::CutOff { file, offset } => places.extend(files::place(file, offset)),
            Call::Mount { .. } | Call::Commit { .. } | Call::Wipe { .. } | Call::Gather { .. } => {
                places.extend((0..PLACES).filter(|&place| self.book.places[place].is_some()));
            }
        }
        places.into_iter().try_for_each(|place| self.check_read(place))
    }

    /// A read gives the book's payload or 8 at every place.
    pub fn check_all_reads(&self) -> Result<(), Broken> {
        (0..PLACES).try_for_each(|place| self.check_read(place))
    }

    /// A read reports the length of the book's payload and puts its bytes before the rest of the output,
    /// or is refused with 8, reports 0 and leaves the output.
    fn check_read(&self, place: usize) -> Result<(), Broken> {
        let (file, offset) = files::node(place);
        let before = self.rng().bytes(PAYLOAD);
        let mut output = before.clone();
        let Store { image, record } = &self.store;
        let (reply, length) = calls::read(image, record, file, offset, &mut output);
        let (expected, payload) = match &self.book.places[place] {
            Some(content) => (DONE, content.payload.as_slice()),
            None => (Refusal::NoNode.number(), [].as_slice()),
        };
        ensure!(reply == expected, "a read at place {place} replies {reply}, not {expected}");
        let expected = payload.len();
        ensure!(length == expected, "a read at place {place} reports {length}, not {expected}");
        let right = output == [payload, &before[length..]].concat();
        ensure!(right, "a read at place {place} leaves another output");
        Ok(())
    }

    /// The call just done leaves the same image where the bytes of each key that is no payload's after
    /// it, wherever they were on the flash, are altered at will.
    fn check_purge(&self, call: Call, before: Store, origins: &[Origin]) -> Result<(), Broken> {
        let mut store = before;
        let mut rng = self.rng();
        let fill = [None, Some(0x00), Some(0xff)][rng.below(3)];
        for (byte, origin) in store.image.iter_mut().zip(origins) {
            if matches!(*origin, Origin::Key(key) if !self.book.is_in_use(key)) {
                *byte = fill.unwrap_or_else(|| rng.number() as u8);
            }
        }
        let reply = self.maker.call(&mut store, call, Power::STAYS);
        ensure!(reply == DONE, "with other dead keys the reply is {reply}");
        ensure!(store.image == self.store.image, "with other dead keys the image differs");
        ensure!(store.record == self.store.record, "with other dead keys the record differs");
        Ok(())
    }

    /// Nothing of the record is of use after a cut.
    fn spoil_record(&mut self) {
        let mut rng = self.rng();
        let Record { map, letters, numbers } = &mut self.store.record;
        map.fill_with(|| rng.number() as u16);
        letters.fill_with(|| rng.number() as u8);
        numbers.sequence = rng.number() as u32;
        numbers.keys0 = rng.number() as u32;
    }
}

/// Whether there is a page for a write, each page being tried by the words of the document.
fn has_page(image: &[u8]) -> bool {
    let forms = copies::forms(image);
    let in_data_block = (0..forms.len()).any(|page| copies::is_open(&forms, page));
    in_data_block || copies::empty_blocks(&forms).len() >= 2
}

/// Runs a list of calls on an image of so many blocks, and reads all places at its end.
pub fn run(blocks: usize, seed: u64, events: &[Event]) -> Result<Run, Broken> {
    run_on(Run::new(blocks, seed), events)
}

/// Runs a list of calls further, and reads all places at its end.
pub fn run_on(mut run: Run, events: &[Event]) -> Result<Run, Broken> {
    run.check_at_rest()?;
    for (number, event) in events.iter().enumerate() {
        run.step(event).map_err(|broken| format!("call {}: {broken}", number + 1))?;
    }
    if run.on {
        run.check_all_reads()?;
    }
    Ok(run)
}

/// A part of a list that breaks, as short as leaving out calls makes it, and what breaks in it.
pub fn shrink(blocks: usize, seed: u64, mut events: Vec<Event>) -> (Vec<Event>, Option<Broken>) {
    let mut broken = None;
    let mut length = events.len();
    while length > 0 {
        let mut start = 0;
        while start < events.len() {
            let end = events.len().min(start + length);
            let shorter = [&events[..start], &events[end..]].concat();
            match run(blocks, seed, &shorter) {
                Ok(_) => start = end,
                Err(found) => (events, broken) = (shorter, Some(found)),
            }
        }
        length /= 2;
    }
    (events, broken)
}
