//! An image and record on which one call is made again and again, by each side, and always finds the same.

use johvimaru::raw::{self as recorder, Record, DONE};
use johvimaru_tests::another_build::AnotherBuild;
use johvimaru_tests::floor::Floor;
use johvimaru_tests::model::files::PLACES;
use johvimaru_tests::model::pages::{PAGE, PAYLOAD};
use johvimaru_tests::settings::{
    full_block, payload, Setting, FIRST_SEQUENCE, FORMAT_NOISE, SHORT,
};
use johvimaru_tests::timing::Way;
use std::cell::RefCell;

/// A call. Those that take a place take the first of file 0, and a gather takes the first block with 16 live
/// pages.
#[derive(Clone, Copy, Debug, PartialEq, Eq)]
pub enum What {
    Write,
    Read,
    /// A read of 40 bytes.
    ShortRead,
    Mount,
    Commit,
    Wipe,
    CutOff,
    Gather,
    /// The floor has none, so it is not timed beside one.
    #[allow(dead_code)]
    Format,
}

impl What {
    /// Those that every setting has room for and both sides have.
    pub const ALL: [What; 7] = [
        What::Write,
        What::Read,
        What::ShortRead,
        What::Mount,
        What::Commit,
        What::Wipe,
        What::CutOff,
    ];

    pub fn name(self) -> &'static str {
        match self {
            What::Write => "write",
            What::Read => "read",
            What::ShortRead => "read 40",
            What::Mount => "mount",
            What::Commit => "commit",
            What::Wipe => "wipe",
            What::CutOff => "cut-off",
            What::Gather => "gather",
            What::Format => "format",
        }
    }

    /// The length of the payload that the call finds at its place.
    fn length(self) -> usize {
        match self {
            What::ShortRead => SHORT,
            _ => PAYLOAD,
        }
    }

    /// The reply of a read, whose payload must be as long as the one at its place.
    fn read(self, (reply, length): (u32, usize)) -> u32 {
        assert_eq!(length, self.length());
        reply
    }

    /// How often the call is timed beside another side's: rounds, and times in a round.
    pub fn often(self, setting: &Setting) -> (usize, usize) {
        match self {
            What::Write | What::Read | What::ShortRead | What::CutOff | What::Gather => (1_000, 10),
            _ if setting.blocks > 32 => (200, 4),
            _ => (500, 8),
        }
    }
}

/// Who makes a call.
#[derive(Clone, Copy)]
pub enum Side {
    Ours,
    Floor(Floor),
    /// The library as it was.
    #[allow(dead_code)]
    Before(AnotherBuild),
}

/// What a call is given and leaves.
#[derive(Clone, PartialEq, Eq)]
pub struct Lent {
    pub image: Vec<u8>,
    pub record: Record,
    scratch: Vec<u32>,
    output: Vec<u8>,
}

/// The image and record, as they were and as they are, and the pages that the call changes.
pub struct Bed {
    what: What,
    pub before: Lent,
    pub now: Lent,
    changed: Vec<usize>,
    block: u32,
    payload: Vec<u8>,
    noise: Vec<u8>,
}

impl Bed {
    /// The image of a setting for a call, which must be taken.
    pub fn new(setting: &Setting, what: What) -> Bed {
        Bed::from_sequence(setting, FIRST_SEQUENCE, what)
    }

    /// The same, but that the setting's first write has this sequence.
    pub fn from_sequence(setting: &Setting, sequence: u32, what: What) -> Bed {
        let (image, record) = setting.lent_from(what.length(), sequence);
        Bed::of(image, record, what)
    }

    /// The same of this image and record.
    pub fn of(image: Vec<u8>, record: Record, what: What) -> Bed {
        let before = Lent { image, record, scratch: vec![0; PLACES], output: vec![0; PAYLOAD] };
        let (payload, noise) = (payload(1_000_000).bytes(), FORMAT_NOISE.bytes());
        let (changed, block) = (Vec::new(), full_block(&before.record));
        let mut bed = Bed { what, now: before.clone(), before, changed, block, payload, noise };
        bed.make(Side::Ours);
        let pages = bed.now.image.chunks_exact(PAGE).zip(bed.before.image.chunks_exact(PAGE));
        bed.changed = (0..).zip(pages).filter(|(_, (a, b))| a != b).map(|(g, _)| g).collect();
        bed.restore();
        bed
    }

    /// Makes the call.
    pub fn make(&mut self, side: Side) {
        let reply = match side {
            Side::Ours => self.by_library(),
            Side::Floor(floor) => self.by_floor(floor),
            Side::Before(build) => self.by_build(build),
        };
        assert_eq!(reply, DONE);
    }

    /// Makes the call by the library.
    fn by_library(&mut self) -> u32 {
        let Lent { image, record, scratch, output } = &mut self.now;
        match self.what {
            What::Write => recorder::write(image, record, 0, 0, &self.payload),
            What::Read | What::ShortRead => {
                self.what.read(recorder::read(image, record, 0, 0, output))
            }
            What::Mount => recorder::mount(image, record, scratch),
            What::Commit => recorder::commit(image, record, &self.noise),
            What::Wipe => recorder::wipe(image, record, &self.noise, 0, 0),
            What::CutOff => recorder::cut_off(image, record, 0, 0),
            What::Gather => recorder::gather(image, record, self.block),
            What::Format => recorder::format(image, record, &self.noise),
        }
    }

    /// Makes the call by the floor.
    fn by_floor(&mut self, floor: Floor) -> u32 {
        let Lent { image, record, scratch, output } = &mut self.now;
        match self.what {
            What::Write => floor.write(image, record, 0, 0, &self.payload),
            What::Read | What::ShortRead => self.what.read(floor.read(image, record, 0, 0, output)),
            What::Mount => floor.mount(image, record, scratch),
            What::Commit => floor.commit(image, record, &self.noise),
            What::Wipe => floor.wipe(image, record, &self.noise, 0, 0),
            What::CutOff => floor.cut_off(image, record, 0, 0),
            What::Gather => floor.gather(image, record, self.block),
            What::Format => panic!("the floor has no format"),
        }
    }

    /// Makes the call by another build.
    fn by_build(&mut self, build: AnotherBuild) -> u32 {
        let Lent { image, record, scratch, output } = &mut self.now;
        match self.what {
            What::Write => build.write(image, record, 0, 0, &self.payload),
            What::Read | What::ShortRead => self.what.read(build.read(image, record, 0, 0, output)),
            What::Mount => build.mount(image, record, scratch),
            What::Commit => build.commit(image, record, &self.noise),
            What::Wipe => build.wipe(image, record, &self.noise, 0, 0),
            What::CutOff => build.cut_off(image, record, 0, 0),
            What::Gather => panic!("gathers of two builds are not compared"),
            What::Format => build.format(image, record, &self.noise),
        }
    }

    /// Takes the call back.
    pub fn restore(&mut self) {
        let Record { map, letters, numbers } = &self.before.record;
        self.now.record.map.copy_from_slice(map);
        self.now.record.letters.copy_from_slice(letters);
        self.now.record.numbers = *numbers;
        for &page in &self.changed {
            let bytes = PAGE * page..PAGE * (page + 1);
            self.now.image[bytes.clone()].copy_from_slice(&self.before.image[bytes]);
        }
    }

    /// The call by a side, as a way to time.
    pub fn way(bed: &RefCell<Bed>, side: Side) -> Way<'_> {
        Way {
            ready: Box::new(|| bed.borrow_mut().restore()),
            work: Box::new(move || bed.borrow_mut().make(side)),
        }
    }

    /// What the call leaves, by a side, of all that it is given: scratch and output too.
    pub fn left(&mut self, side: Side) -> Lent {
        self.now = self.before.clone();
        self.make(side);
        let left = self.now.clone();
        self.restore();
        left
    }
}
