//! The time of a write and of a read of 224 bytes: the proved library beside the second
//! implementation, LMDB and SQLite, on a small and a large image, with few and with many nodes.
//!
//! LMDB and SQLite keep the same number of records, without encipherment and without waiting for the
//! disk. The library and the second implementation test in each call whether the record fits the
//! image. A read at a vacant place is that test and little else, so it tells the test's share.
//!
//! Every call is timed beside the floor, a plain program in C with the same tests, on the same image and
//! record, and each limit is said to be met or not: read and write are to take no longer than there, and
//! a read of 40 bytes no longer than one of 224. A mount is timed also beside one pass of the form of
//! every page with the fill of the blocks that it erases, and without that fill beside a mount from before
//! #106; a commit and a wipe beside the same bytes moved without a test; a gather of 16 live pages beside a
//! write and 16 pages copied without a test.
//!
//! Under `cargo bench` it prints ratios. Under `cargo test` it only compares results. With the word `mounts` it
//! times mounts alone, beside those from before #106.

#[path = "store/against_floor.rs"]
mod against_floor;
#[path = "store/bed.rs"]
mod bed;
#[path = "store/gathers.rs"]
mod gathers;
#[path = "store/mounts.rs"]
mod mounts;
#[path = "store/whole_blocks.rs"]
mod whole_blocks;

use johvimaru::raw as recorder;
use johvimaru::Refusal;
use johvimaru_tests::databases::{Folder, Lmdb, Sqlite};
use johvimaru_tests::floor::Floor;
use johvimaru_tests::model::calls;
use johvimaru_tests::model::files;
use johvimaru_tests::model::image::{Power, BLOCK};
use johvimaru_tests::model::pages::{ERASED, PAGE, PAYLOAD};
use johvimaru_tests::model::record::Record;
use johvimaru_tests::model::store::Store;
use johvimaru_tests::settings::{self, Setting, CALLS, FORMAT_NOISE, SETTINGS, VACANT};
use johvimaru_tests::shared_library::SharedLibrary;
use johvimaru_tests::timing::{self, Work};
use std::cell::RefCell;

/// Rounds in which every peer has its turns.
const ROUNDS: usize = 400;

/// The library's time over that of the second implementation is at most this.
const LIMIT: f64 = 3.0;

type Payload = [u8; PAYLOAD];

/// A store of payloads by place.
trait Peer {
    fn name(&self) -> &'static str;
    fn write(&mut self, place: usize, payload: &Payload);
    fn read(&mut self, place: usize, output: &mut Payload);
    /// From here on the writes of a turn are taken back at its end, so that each turn finds the same.
    fn keep(&mut self) {}
    /// Takes back the writes to these places since [`Peer::keep`].
    fn take_back(&mut self, _places: std::ops::Range<usize>) {}
}

fn main() {
    let has_word = |word: &str| std::env::args().any(|other| other == word);
    let bench = has_word("--bench");
    if has_word("mounts") {
        return mounts::mounts(bench);
    }
    against_floor::compare_results();
    let mut verdicts = Vec::new();
    for setting in &SETTINGS {
        let folder = Folder::new("bench");
        let peers = peers(setting, &folder);
        compare_results(setting, &peers);
        if bench {
            verdicts.push(compare_times(setting, &peers));
        }
    }
    if bench {
        let title = format!("ours / second, at most {LIMIT:.2}");
        println!("{title:<36}{:>15}{:>15}", "write", "read");
        verdicts.iter().for_each(|verdict| println!("{verdict}"));
    }
    whole_blocks::whole_blocks(bench);
    mounts::mounts(bench);
    if bench {
        against_floor::times();
    }
}

/// What the write of this number writes.
fn payload(number: usize) -> Payload {
    settings::payload(number).bytes().try_into().expect("a payload has this length")
}

/// All peers, the library first and the second implementation next, as the setting has them.
fn peers(setting: &Setting, folder: &Folder) -> Vec<RefCell<Box<dyn Peer>>> {
    let mut peers: Vec<Box<dyn Peer>> =
        vec![Box::new(Ours::new(setting.blocks)), Box::new(Second::new(setting.blocks))];
    if let Some(floor) = Floor::open() {
        peers.push(Box::new(InC { floor, lent: Ours::new(setting.blocks) }));
    }
    match SharedLibrary::open(c"liblmdb.so.0") {
        Some(library) => peers.push(Box::new(Lmdb::new(library, folder))),
        None => say_missing("LMDB", "liblmdb0"),
    }
    match SharedLibrary::open(c"libsqlite3.so.0") {
        Some(library) => peers.push(Box::new(Sqlite::new(library, folder))),
        None => say_missing("SQLite", "libsqlite3-0"),
    }
    for peer in &mut peers {
        for number in 0..setting.writes {
            peer.write(number % setting.live, &payload(number));
        }
        peer.keep();
    }
    peers.into_iter().map(RefCell::new).collect()
}

fn say_missing(name: &str, package: &str) {
    println!(
        "{name} is missing: to have it in the comparison, install the Debian package {package}"
    );
}

/// Panics where a peer reads another payload than was last written.
fn compare_results(setting: &Setting, peers: &[RefCell<Box<dyn Peer>>]) {
    let last = |place| (0..setting.writes).rfind(|number| number % setting.live == place);
    for peer in peers {
        let mut peer = peer.borrow_mut();
        let mut output = [0; PAYLOAD];
        for place in 0..setting.live {
            peer.read(place, &mut output);
            let number = last(place).expect("every live place was written");
            assert_eq!(output, payload(number), "{}, {}: place {place}", setting.name, peer.name());
        }
        for place in 0..CALLS {
            peer.write(place, &turn_payload(place));
            peer.read(place, &mut output);
            assert_eq!(output, turn_payload(place), "{}, {}: a write", setting.name, peer.name());
        }
        peer.take_back(0..CALLS);
    }
    println!("{}: {} implementations give the same payloads", setting.name, peers.len());
}

/// What a turn writes at a place.
fn turn_payload(place: usize) -> Payload {
    payload(1_000_000 + place)
}

/// A turn of writes over nodes that are there.
fn writes(peer: &RefCell<Box<dyn Peer>>) -> Work<'_> {
    let payloads: Vec<Payload> = (0..CALLS).map(turn_payload).collect();
    Box::new(move || {
        let mut peer = peer.borrow_mut();
        for (place, payload) in payloads.iter().enumerate() {
            peer.write(place, payload);
        }
        peer.take_back(0..CALLS);
    })
}

/// A turn of reads of nodes that are there.
fn reads(peer: &RefCell<Box<dyn Peer>>) -> Work<'_> {
    let mut output = [0; PAYLOAD];
    Box::new(move || {
        let mut peer = peer.borrow_mut();
        for place in 0..CALLS {
            peer.read(place, &mut output);
        }
    })
}

/// A turn of the library's test whether the record fits: reads of a place without a node.
fn fits(setting: &Setting) -> Work<'static> {
    let mut ours = Ours::new(setting.blocks);
    for number in 0..setting.writes {
        ours.write(number % setting.live, &payload(number));
    }
    let (file, offset) = node(VACANT);
    let mut output = [0; PAYLOAD];
    Box::new(move || {
        for _ in 0..CALLS {
            let read = recorder::read(&ours.image, &ours.record, file, offset, &mut output);
            assert_eq!(read, (Refusal::NothingThere.number(), 0));
        }
    })
}

/// Prints each peer's times as multiples of ours. Gives a line that says whether the limit is kept.
fn compare_times(setting: &Setting, peers: &[RefCell<Box<dyn Peer>>]) -> String {
    let mut ways: Vec<Work> = peers.iter().map(writes).collect();
    ways.extend(peers.iter().map(reads));
    ways.push(fits(setting));
    let (first_read, fit) = (peers.len(), 2 * peers.len());
    let times = timing::run(ways, ROUNDS);
    println!("times, ours = 1.00{:>33}{:>15}", "write", "read");
    for (at, peer) in peers.iter().enumerate() {
        let (write, read) = (times.ratio(at, 0), times.ratio(first_read + at, first_read));
        println!("{:<36}{write:>15.2}{read:>15.2}", peer.borrow().name());
    }
    let (write, read) = (times.ratio(fit, 0), times.ratio(fit, first_read));
    println!("{:<36}{write:>15.2}{read:>15.2}\n", "the record's fit, of our time");
    let ratios = [times.ratio(0, 1), times.ratio(first_read, first_read + 1)];
    let word = if ratios.iter().all(|&ratio| ratio <= LIMIT) { "met" } else { "NOT MET" };
    format!("{:<36}{:>15.2}{:>15.2}   {word}", setting.name, ratios[0], ratios[1])
}

/// File and offset of a place.
fn node(place: usize) -> (u32, u32) {
    let (file, offset) = files::node(place);
    (file as u32, offset as u32)
}

/// The proved library.
struct Ours {
    image: Vec<u8>,
    record: recorder::Record,
    kept: recorder::Record,
}

impl Ours {
    fn new(blocks: usize) -> Ours {
        let (mut image, mut record) = (vec![0; BLOCK * blocks], recorder::Record::blank());
        let reply = recorder::format(&mut image, &mut record, &FORMAT_NOISE.bytes());
        assert_eq!(reply, recorder::DONE);
        Ours { image, kept: record.clone(), record }
    }
}

impl Peer for Ours {
    fn name(&self) -> &'static str {
        "Johvimaru"
    }

    fn write(&mut self, place: usize, payload: &Payload) {
        let (file, offset) = node(place);
        let reply = recorder::write(&mut self.image, &mut self.record, file, offset, payload);
        assert_eq!(reply, recorder::DONE);
    }

    fn read(&mut self, place: usize, output: &mut Payload) {
        let (file, offset) = node(place);
        let read = recorder::read(&self.image, &self.record, file, offset, output);
        assert_eq!(read, (recorder::DONE, PAYLOAD));
    }

    fn keep(&mut self) {
        self.kept = self.record.clone();
    }

    fn take_back(&mut self, places: std::ops::Range<usize>) {
        erase_pages(&mut self.image, &self.record.map[places]);
        self.record.map.copy_from_slice(&self.kept.map);
        self.record.letters.copy_from_slice(&self.kept.letters);
        self.record.numbers = self.kept.numbers;
    }
}

/// The floor, on an image that the library has formatted.
struct InC {
    floor: Floor,
    lent: Ours,
}

impl Peer for InC {
    fn name(&self) -> &'static str {
        "floor in C"
    }

    fn write(&mut self, place: usize, payload: &Payload) {
        let ((file, offset), Ours { image, record, .. }) = (node(place), &mut self.lent);
        assert_eq!(self.floor.write(image, record, file, offset, payload), recorder::DONE);
    }

    fn read(&mut self, place: usize, output: &mut Payload) {
        let ((file, offset), Ours { image, record, .. }) = (node(place), &self.lent);
        let read = self.floor.read(image, record, file, offset, output);
        assert_eq!(read, (recorder::DONE, PAYLOAD));
    }

    fn keep(&mut self) {
        self.lent.keep();
    }

    fn take_back(&mut self, places: std::ops::Range<usize>) {
        self.lent.take_back(places);
    }
}

/// Makes the pages that writes have programmed empty again.
fn erase_pages(image: &mut [u8], pages: &[u16]) {
    for &page in pages {
        image[PAGE * usize::from(page)..][..PAGE].fill(ERASED);
    }
}

/// The second implementation.
struct Second {
    store: Store,
    kept: Record,
}

impl Second {
    fn new(blocks: usize) -> Second {
        let store = Store::formatted(blocks, FORMAT_NOISE);
        Second { kept: store.record.clone(), store }
    }
}

impl Peer for Second {
    fn name(&self) -> &'static str {
        "second implementation"
    }

    fn write(&mut self, place: usize, payload: &Payload) {
        let (file, offset) = files::node(place);
        let Store { image, record } = &mut self.store;
        let reply = calls::write(image, record, file, offset, payload, Power::STAYS);
        assert_eq!(reply, calls::DONE);
    }

    fn read(&mut self, place: usize, output: &mut Payload) {
        let (file, offset) = files::node(place);
        let read = calls::read(&self.store.image, &self.store.record, file, offset, output);
        assert_eq!(read, (calls::DONE, PAYLOAD));
    }

    fn keep(&mut self) {
        self.kept = self.store.record.clone();
    }

    fn take_back(&mut self, places: std::ops::Range<usize>) {
        erase_pages(&mut self.store.image, &self.store.record.map[places]);
        self.store.record.map.copy_from_slice(&self.kept.map);
        self.store.record.letters.copy_from_slice(&self.kept.letters);
        self.store.record.numbers = self.kept.numbers;
    }
}

impl Peer for Lmdb {
    fn name(&self) -> &'static str {
        "LMDB"
    }

    fn write(&mut self, place: usize, payload: &Payload) {
        Lmdb::write(self, place as u32, payload);
    }

    fn read(&mut self, place: usize, output: &mut Payload) {
        Lmdb::read(self, place as u32, output);
    }
}

impl Peer for Sqlite {
    fn name(&self) -> &'static str {
        "SQLite"
    }

    fn write(&mut self, place: usize, payload: &Payload) {
        Sqlite::write(self, place as u32, payload);
    }

    fn read(&mut self, place: usize, output: &mut Payload) {
        Sqlite::read(self, place as u32, output);
    }
}
