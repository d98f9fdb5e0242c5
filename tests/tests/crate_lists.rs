//! The crate `johvimaru` beside the second implementation: random lists of calls with power cuts, by a
//! `Store` and by a `Driver` on a chip that loses what is programmed into an unsettled block; and the forms
//! of pages.

use johvimaru::{
    Chip as _, Cut, CutChip, CutError, Driver, Failure, Letter, MemoryChip, Misuse, Noise, Offset,
    Outcome, Record, Refusal, Store, MAX_BLOCKS, MIN_BLOCKS,
};
use johvimaru_tests::model;
use johvimaru_tests::model::calls::{CUT, DONE};
use johvimaru_tests::model::chip::Chip;
use johvimaru_tests::model::image::{Power, BLOCK, SIZES};
use johvimaru_tests::model::list::{Call, Data, Event, Lent};
use johvimaru_tests::model::pages::{PAGE, PAYLOAD};
use johvimaru_tests::random_lists::RandomList;
use johvimaru_tests::rng::Rng;

/// A store of the crate, which a cut leaves as an image.
enum Ours {
    On(Store<Vec<u8>>),
    Off(Vec<u8>),
}

/// A call whose arguments the crate's types have taken.
enum Typed {
    Mount,
    Write(Offset, Vec<u8>),
    Read(Offset),
    CutOff(Offset),
    Commit(Data),
    Wipe(Offset, Data),
    Gather(usize),
}

impl Typed {
    /// Takes the arguments in the order in which document 01 tests them.
    fn of(call: Call) -> Result<Typed, Refusal> {
        let noise = |data: Data| Noise::new(&data.bytes()).map(|_| data);
        let at = |file, offset| Offset::new(file as u32, offset as u32);
        Ok(match call {
            Call::Mount { .. } => Typed::Mount,
            Call::Write { file, offset, payload } => {
                Typed::Write(at(file, offset)?, payload.bytes())
            }
            Call::Append { .. } => panic!("the crate has no such call"),
            Call::Read { file, offset, .. } => Typed::Read(at(file, offset)?),
            Call::CutOff { file, offset } => Typed::CutOff(at(file, offset)?),
            Call::Commit { noise: data } => Typed::Commit(noise(data)?),
            Call::Wipe { file, offset, noise: data } => {
                let data = noise(data)?;
                Typed::Wipe(at(file, offset)?, data)
            }
            Call::Gather { block } => Typed::Gather(block),
        })
    }
}

fn noise(data: Data) -> Noise {
    Noise::new(&data.bytes()).expect("the length is right")
}

/// Does a call by the store. Gives the reply, and what is left.
fn by_store(ours: Ours, call: &Typed, power: Power) -> (u32, Ours) {
    let cut = Cut { n: power.steps as u64, k: power.bytes };
    let store = match (ours, call) {
        (Ours::On(store), Typed::Mount) => {
            return outcome(Store::mount_cut(store.into_image(), cut))
        }
        (Ours::Off(image), Typed::Mount) => return outcome(Store::mount_cut(image, cut)),
        (Ours::On(store), _) => store,
        (Ours::Off(_), _) => panic!("a mount comes first"),
    };
    if power == Power::STAYS {
        return plain(store, call);
    }
    let result = match call {
        Typed::Read(_) | Typed::Mount => return plain(store, call),
        Typed::Write(at, payload) => store.write_cut(*at, payload, cut),
        Typed::CutOff(from) => store.cut_off_cut(*from, cut),
        Typed::Commit(data) => store.commit_cut(noise(*data), cut),
        Typed::Wipe(from, data) => store.wipe_cut(*from, noise(*data), cut),
        Typed::Gather(block) => store.gather_cut(*block, cut),
    };
    match result {
        Ok(Outcome::Done(store)) => (DONE, Ours::On(store)),
        Ok(Outcome::Cut(image)) => (CUT, Ours::Off(image.into_image())),
        Err(refused) => (refused.refusal.number(), Ours::On(refused.back)),
    }
}

/// What a mount with n and k leaves.
fn outcome(result: Result<Outcome<Vec<u8>>, johvimaru::Refused<Vec<u8>>>) -> (u32, Ours) {
    match result {
        Ok(Outcome::Done(store)) => (DONE, Ours::On(store)),
        Ok(Outcome::Cut(image)) => (CUT, Ours::Off(image.into_image())),
        Err(refused) => (refused.refusal.number(), Ours::Off(refused.back)),
    }
}

/// A call in its plain form.
fn plain(mut store: Store<Vec<u8>>, call: &Typed) -> (u32, Ours) {
    let result = match call {
        Typed::Mount => panic!("a mount takes an image"),
        Typed::Write(at, payload) => store.write(*at, payload),
        Typed::Read(at) => store.read(*at).map(|_| ()),
        Typed::CutOff(from) => store.cut_off(*from),
        Typed::Commit(data) => store.commit(noise(*data)),
        Typed::Wipe(from, data) => store.wipe(*from, noise(*data)),
        Typed::Gather(block) => store.gather(*block),
    };
    (result.map_or_else(Refusal::number, |()| DONE), Ours::On(store))
}

/// Does a call on a chip. Gives the reply.
fn by_driver(driver: &mut Driver<CutChip<Chip>>, call: &Typed, power: Power) -> u32 {
    driver.chip_mut().power_on();
    if power != Power::STAYS {
        driver.chip_mut().cut_at(Cut { n: power.steps as u64, k: power.bytes });
    }
    let result = match call {
        Typed::Mount => driver.mount(),
        Typed::Write(at, payload) => driver.write(*at, payload),
        Typed::Read(at) => driver.read(*at).map(|_| ()),
        Typed::CutOff(from) => driver.cut_off(*from),
        Typed::Commit(data) => driver.commit(noise(*data)),
        Typed::Wipe(from, data) => driver.wipe(*from, noise(*data)),
        Typed::Gather(block) => driver.gather(*block),
    };
    match result {
        Ok(()) => DONE,
        Err(Failure::Refused(refusal)) => refusal.number(),
        Err(Failure::Chip(CutError::PowerCut)) => CUT,
        Err(other) => panic!("{other}"),
    }
}

/// The crate's view of a record is what the second implementation's record has.
fn assert_record(ours: &Record, second: &model::record::Record, at: &str) {
    for (place, offset) in Offset::all().enumerate() {
        let node = ours.node(offset).map(|node| (node.page, node.key));
        let entry = second.entry(place).map(|entry| (entry.page.into(), entry.key.into()));
        assert_eq!(node, entry, "{at}: {offset}");
    }
    let letters: Vec<u8> = ours.letters().map(|letter| letter.letter() as u8).collect();
    assert!(letters == second.letters, "{at}: letters");
    let used = ours.letters().filter(|letter| *letter == Letter::Used).count();
    assert_eq!(ours.counts().used, used, "{at}: used");
    let numbers = second.numbers;
    assert_eq!(
        (ours.next_sequence(), ours.next_epoch()),
        (numbers.sequence, numbers.epoch),
        "{at}"
    );
    let [keys0, keys1] = ours.key_blocks().map(|block| block as u32);
    let blocks = (keys0, keys1, ours.commit_block() as u32);
    assert_eq!(blocks, (numbers.keys0, numbers.keys1, numbers.commit), "{at}: blocks");
}

/// The three that do each call.
struct Three {
    second: model::store::Store,
    ours: Ours,
    driver: Driver<CutChip<Chip>>,
    on: bool,
    /// How many calls left a block of the chip unsettled.
    unsettled: usize,
}

impl Three {
    fn formatted(blocks: usize) -> Three {
        let data = Data::noise(1_000);
        let second = model::store::Store::formatted(blocks, data);
        let store = Store::format(vec![0; BLOCK * blocks], noise(data)).expect("a right size");
        let chip = Chip::of_unknown_past(&vec![0x77; BLOCK * blocks], 5);
        let mut driver = Driver::new(CutChip::new(chip));
        assert_eq!(driver.format(noise(data)), Ok::<(), Failure<CutError<Misuse>>>(()));
        Three { second, ours: Ours::On(store), driver, on: true, unsettled: 0 }
    }

    /// Does a call by all three, and compares what they leave.
    fn call(&mut self, call: Call, power: Power, at: &str) -> u32 {
        let expected = self.second.call_with(call, power);
        let reply = match Typed::of(call) {
            Err(refusal) => refusal.number(),
            Ok(typed) => {
                let ours = std::mem::replace(&mut self.ours, Ours::Off(Vec::new()));
                let (reply, ours) = by_store(ours, &typed, power);
                self.ours = ours;
                assert_eq!(by_driver(&mut self.driver, &typed, power), expected, "{at}: driver");
                reply
            }
        };
        assert_eq!(reply, expected, "{at}: reply");
        if let Call::Read { file, offset, .. } = call {
            self.compare_read(file, offset, at);
        }
        self.on = reply != CUT && (self.on || matches!(call, Call::Mount { .. }) && reply == DONE);
        let unsettled = self.driver.chip().inner().unsettled();
        assert!(!self.on || unsettled.is_empty(), "{at}: {unsettled:?} are unsettled");
        self.unsettled += usize::from(!unsettled.is_empty());
        self.compare(at);
        reply
    }

    /// The write of another recorder, by the second implementation: the others mount what it leaves.
    fn append(&mut self, call: Call, power: Power, at: &str) -> u32 {
        let reply = self.second.call_with(call, power);
        if matches!(reply, DONE | CUT) {
            let image = &self.second.image;
            self.driver = Driver::new(CutChip::new(Chip::settled(image, 5)));
            self.ours = Ours::Off(image.clone());
            self.call(Call::MOUNT, Power::STAYS, at);
        }
        reply
    }

    /// Compares what all three read at a node, and how long it is.
    fn compare_read(&self, file: usize, offset: usize, at: &str) {
        let (Ours::On(store), Ok(node)) = (&self.ours, Offset::new(file as u32, offset as u32))
        else {
            return;
        };
        let second = self.second.payload(file, offset).ok();
        let payload = second.as_deref().unwrap_or_default();
        assert_eq!(store.read(node).ok().as_deref(), second.as_deref(), "{at}: read");
        assert_eq!(self.driver.read(node).ok().as_deref(), second.as_deref(), "{at}: driver");
        let mut output = [b'?'; PAYLOAD];
        assert_eq!(store.read_into(node, &mut output).ok(), second.as_deref(), "{at}: read into");
        let rest = vec![b'?'; PAYLOAD - payload.len()];
        assert!(output[..] == [payload, &rest].concat(), "{at}: output");
    }

    fn compare(&self, at: &str) {
        let image = &self.second.image;
        assert!(self.driver.chip().inner().bytes() == image, "{at}: chip");
        match &self.ours {
            Ours::Off(ours) => assert!(ours == image, "{at}: image"),
            Ours::On(store) => {
                assert!(store.image() == image, "{at}: image");
                assert_record(store.record(), &self.second.record, at);
                assert!(self.driver.mirror() == image, "{at}: mirror");
                assert_eq!(self.driver.record(), Some(store.record()), "{at}: driver's record");
            }
        }
    }
}

/// Whether the crate can be given this call: it brings its own scratch and output.
fn is_typed(call: Call) -> bool {
    match call {
        Call::Mount { scratch: length } | Call::Read { output: length, .. } => length == 224,
        _ => true,
    }
}

/// Runs a list. Gives how many of its calls were cut, and how many left a block unsettled.
fn run(blocks: usize, seed: u64) -> (usize, usize) {
    let mut list = RandomList::new(seed, blocks);
    let mut three = Three::formatted(blocks);
    let mut cuts = 0;
    for number in 0..list.length {
        let at = format!("{blocks} blocks, seed {seed}, call {number}");
        let Event { call, lent, power } = list.next(three.on);
        if lent != Lent::RIGHT || !is_typed(call) {
            continue;
        }
        if !three.on && !matches!(call, Call::Mount { .. }) {
            three.call(Call::MOUNT, Power::STAYS, &at);
        }
        let reply = match call {
            Call::Append { .. } => three.append(call, power, &at),
            _ => three.call(call, power, &at),
        };
        cuts += usize::from(reply == CUT);
    }
    (cuts, three.unsettled)
}

#[test]
fn random_lists_by_store_and_driver() {
    let mut all = (0, 0);
    for seed in 0..240 {
        let (cuts, unsettled) = run([8, 9, 12, 33][seed as usize % 4], seed);
        all = (all.0 + cuts, all.1 + unsettled);
    }
    println!("{} calls were cut, {} left a block unsettled", all.0, all.1);
    assert!(all.0 > 500 && all.1 > 300, "{all:?}");
}

/// The forms of pages that the crate sees are those of the second implementation.
#[test]
fn forms_of_pages() {
    let mut store = model::store::Store::formatted(8, Data::noise(1));
    for (file, offset) in [(0, 0), (2, 5), (13, 7)] {
        store.call(Call::Write { file, offset, payload: Data::of(40 + 92 * offset / 5, 5) });
    }
    store.call(Call::Append { file: 1, offset: 0, second: 0, bytes: Data::payload(6) });
    store.call(Call::CutOff { file: 2, offset: 5 });
    let mut rng = Rng::new(11);
    let likely = b" 0123459NDKC:-fud\r\n\xff+x";
    for case in 0..200_000 {
        let start = PAGE * rng.below(64);
        let mut page: [u8; PAGE] = store.image[start..][..PAGE].try_into().expect("a page");
        for _ in 0..rng.below(3) {
            let at = [rng.below(30), rng.below(PAGE), 254 + rng.below(2)][rng.below(3)];
            page[at] = likely[rng.below(likely.len())];
        }
        let ours = format!("{:?}", plain_form(johvimaru::Form::of(&page)));
        let second = format!("{:?}", with_length(model::pages::Form::of(&page)));
        assert_eq!(ours, second, "case {case}");
    }
}

/// A form of the second implementation with a node's length for its second number, as the crate has it.
fn with_length(mut form: model::pages::Form) -> model::pages::Form {
    use model::pages::{length_of, Form, Header};
    if let Form::Whole(Header::Node { second, .. }) | Form::Torn(Header::Node { second, .. }) =
        &mut form
    {
        *second = length_of(*second) as u32;
    }
    form
}

/// A form of the crate in the second implementation's types.
fn plain_form(form: johvimaru::Form) -> model::pages::Form {
    use johvimaru::{Form, Header};
    let header = |header| match header {
        Header::Node { sequence, at, key, length, .. } => {
            let (file, offset) = (at.file().number() as usize, at.number() as usize);
            model::pages::Header::Node { sequence, file, offset, key, second: length as u32 }
        }
        Header::CutOff { sequence, from } => {
            let (file, offset) = (from.file().number() as usize, from.number() as usize);
            model::pages::Header::CutOff { sequence, file, offset }
        }
        Header::Keys { epoch, block, page } => model::pages::Header::Keys { epoch, block, page },
        Header::Commit { epoch, part, covered, .. } => {
            model::pages::Header::Commit { epoch, part, covered }
        }
    };
    match form {
        Form::Empty => model::pages::Form::Empty,
        Form::Spoilt => model::pages::Form::Spoilt,
        Form::Whole(of) => model::pages::Form::Whole(header(of)),
        Form::Torn(of) => model::pages::Form::Torn(header(of)),
    }
}

/// The crate's constants are the second implementation's.
#[test]
fn constants() {
    use model::{files, image, keys, pages};
    assert_eq!((MIN_BLOCKS, MAX_BLOCKS), (*SIZES.start(), *SIZES.end()));
    assert_eq!((johvimaru::PAGE, johvimaru::BLOCK), (pages::PAGE, image::BLOCK));
    assert_eq!(johvimaru::PAGES_IN_BLOCK, image::PAGES_IN_BLOCK);
    assert_eq!((johvimaru::HEADER, johvimaru::PAYLOAD), (pages::HEADER, pages::PAYLOAD));
    assert_eq!((johvimaru::FILES, johvimaru::PLACES), (files::FILES, files::PLACES));
    assert_eq!((johvimaru::KEYS, johvimaru::KEY), (keys::POSITIONS, keys::KEY));
    assert_eq!(johvimaru::NOISE, keys::NOISE);
    let counts = johvimaru::File::all().map(|file| file.count() as usize);
    assert!(counts.eq(files::COUNTS));
    assert_eq!(MemoryChip::new(vec![0; 9 * BLOCK + 1]).blocks(), 9);
}
