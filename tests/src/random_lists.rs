//! Random lists of calls with cuts, wrong arguments and wrong lengths.

use crate::model::files::{COUNTS, FILES};
use crate::model::image::{Power, BLOCK, PAGES_IN_BLOCK};
use crate::model::list::{Call, Data, Event, Lent};
use crate::model::pages::{HEADER, PAGE, PAYLOAD};
use crate::rng::Rng;

/// Makes the calls of one list.
pub struct RandomList {
    rng: Rng,
    habit: Habit,
    blocks: usize,
    /// How many calls the list has.
    pub length: usize,
}

/// Of a hundred writes so many are of another recorder.
const FOREIGN: usize = 15;

/// What a list is made of: of a hundred calls so many are of each kind (mounts are the rest), and so
/// many are cut.
#[derive(Clone, Copy)]
struct Habit {
    writes: usize,
    cut_offs: usize,
    commits: usize,
    wipes: usize,
    reads: usize,
    gathers: usize,
    cuts: usize,
    /// Of a hundred mounts after a cut so many are cut too.
    cut_mounts: usize,
    /// Of a hundred payloads and noises so many read FFh on the flash.
    erased: usize,
    /// Files and offsets are below these, so that nodes are met again.
    files: usize,
    offsets: usize,
    /// The longest list.
    longest: usize,
}

/// Some of everything.
const MIXED: Habit = Habit {
    writes: 42,
    cut_offs: 13,
    commits: 13,
    wipes: 9,
    reads: 9,
    gathers: 9,
    cuts: 30,
    cut_mounts: 40,
    erased: 0,
    files: 4,
    offsets: 4,
    longest: 40,
};

/// Cuts upon cuts in commits and wipes.
const PURGES: Habit = Habit {
    writes: 30,
    cut_offs: 8,
    commits: 28,
    wipes: 23,
    reads: 0,
    gathers: 6,
    cuts: 70,
    ..MIXED
};

/// Gathers upon gathers, whole and cut.
const GATHERS: Habit = Habit {
    writes: 48,
    cut_offs: 8,
    commits: 5,
    wipes: 2,
    reads: 2,
    gathers: 30,
    cuts: 40,
    offsets: 6,
    longest: 80,
    ..MIXED
};

/// Cuts upon cuts in writes and cut-offs.
const TORN: Habit = Habit {
    writes: 66,
    cut_offs: 14,
    commits: 6,
    wipes: 4,
    reads: 1,
    gathers: 5,
    cuts: 60,
    files: FILES,
    offsets: 2,
    longest: 60,
    ..MIXED
};

/// Images that fill up. The list is longer, the larger the image.
const FULL: Habit = Habit {
    writes: 85,
    cut_offs: 8,
    commits: 1,
    wipes: 0,
    reads: 1,
    gathers: 2,
    cuts: 3,
    files: FILES,
    offsets: 32,
    longest: 0,
    ..MIXED
};

/// Payloads and keys that read FFh on the flash, so that what is left of a cut erase may look empty, and
/// mounts that are cut again and again.
const ERASED: Habit = Habit {
    writes: 40,
    cut_offs: 10,
    commits: 18,
    wipes: 14,
    reads: 1,
    gathers: 9,
    cuts: 70,
    cut_mounts: 75,
    erased: 90,
    longest: 80,
    ..MIXED
};

impl RandomList {
    /// The list of this seed, for an image of so many blocks.
    pub fn new(seed: u64, blocks: usize) -> RandomList {
        let mut rng = Rng::new(seed);
        let habits = [MIXED, MIXED, MIXED, PURGES, PURGES, TORN, TORN, GATHERS, GATHERS, FULL];
        let mut habit = habits[rng.below(10)];
        if habit.longest == 0 {
            habit.longest = 2 * PAGES_IN_BLOCK * blocks;
        }
        let length = 1 + rng.below(habit.longest);
        RandomList { rng, habit, blocks, length }
    }

    /// A list of this seed whose payloads and keys read FFh on the flash, and with cuts upon cuts. The format
    /// before it is to have noise of FFh.
    pub fn erased(seed: u64, blocks: usize) -> RandomList {
        let mut rng = Rng::new(seed);
        let length = 1 + rng.below(ERASED.longest);
        RandomList { rng, habit: ERASED, blocks, length }
    }

    /// The next call. While the power is off only mounts can be made.
    pub fn next(&mut self, on: bool) -> Event {
        let call = if on { self.call() } else { self.mount() };
        let cuts = if on { self.habit.cuts } else { self.habit.cut_mounts };
        let power = if self.happens(cuts) { self.cut(&call) } else { Power::STAYS };
        let lent = if self.happens(2) { self.wrong_lengths() } else { Lent::RIGHT };
        Event { call, lent, power }
    }

    fn happens(&mut self, percent: usize) -> bool {
        self.rng.below(100) < percent
    }

    fn call(&mut self) -> Call {
        let Habit { writes, cut_offs, commits, wipes, reads, gathers, .. } = self.habit;
        let (file, offset) = self.node();
        let mut draw = self.rng.below(100);
        let mut drawn = |share| {
            let hit = draw < share;
            draw = draw.saturating_sub(share);
            hit
        };
        if drawn(writes) {
            self.write(file, offset)
        } else if drawn(cut_offs) {
            Call::CutOff { file, offset }
        } else if drawn(commits) {
            Call::Commit { noise: self.data(Data::noise) }
        } else if drawn(wipes) {
            Call::Wipe { file, offset, noise: self.data(Data::noise) }
        } else if drawn(reads) {
            let output = self.length(PAYLOAD);
            Call::Read { file, offset, output }
        } else if drawn(gathers) {
            Call::Gather { block: self.block() }
        } else {
            self.mount()
        }
    }

    /// A write of this store, now and then one of an older recorder or of another.
    fn write(&mut self, file: usize, offset: usize) -> Call {
        if self.happens(self.habit.erased) {
            return Call::Write { file, offset, payload: Data::payload(Data::ERASED_ON_FLASH) };
        }
        let seed = self.seed();
        if !self.happens(FOREIGN) {
            return Call::Write { file, offset, payload: Data::of(self.payload_length(), seed) };
        }
        let bytes = Data::of(self.length(PAYLOAD), seed);
        let second = match self.rng.below(20) {
            0 => [225, 226, 999, u32::MAX][self.rng.below(4)],
            1..10 => 0,
            _ => self.rng.below(PAYLOAD + 1) as u32,
        };
        Call::Append { file, offset, second, bytes }
    }

    /// The length of a payload: often the whole page or any, now and then one at an edge or a wrong one.
    fn payload_length(&mut self) -> usize {
        match self.rng.below(32) {
            0 => [0, 225, 226][self.rng.below(3)],
            1..7 => [1, 40, 180, 223][self.rng.below(4)],
            7..20 => 1 + self.rng.below(PAYLOAD),
            _ => PAYLOAD,
        }
    }

    fn mount(&mut self) -> Call {
        Call::Mount { scratch: self.length(224) }
    }

    /// File and offset, now and then wrong ones.
    fn node(&mut self) -> (usize, usize) {
        let file = match self.rng.below(60) {
            0 => FILES,
            1 => usize::MAX,
            _ => self.rng.below(self.habit.files),
        };
        let count = COUNTS.get(file).copied().unwrap_or(1);
        let offset = match self.rng.below(60) {
            0 => count,
            1 => usize::MAX,
            _ => self.rng.below(count.min(self.habit.offsets)),
        };
        (file, offset)
    }

    /// A block, most often one that nodes come to before others, now and then one outside the image. On a
    /// new image block 3 is the first.
    fn block(&mut self) -> usize {
        match self.rng.below(40) {
            0 => self.blocks,
            1 => [4_095, 65_535, 1 << 28, usize::MAX][self.rng.below(4)],
            2..8 => self.rng.below(self.blocks),
            8..26 => 3,
            _ => self.rng.below(self.blocks.min(8)),
        }
    }

    /// Bytes of the right length, now and then of a wrong one or odd ones.
    fn data(&mut self, right: fn(u64) -> Data) -> Data {
        if self.happens(self.habit.erased) {
            return right(Data::ALL_ERASED);
        }
        let data = right(self.seed());
        Data { length: self.length(data.length), ..data }
    }

    /// A seed, now and then one of those that give odd bytes.
    fn seed(&mut self) -> u64 {
        match self.rng.below(48) {
            odd @ 0..3 => u64::MAX - odd as u64,
            _ => self.rng.number(),
        }
    }

    /// This length, now and then a wrong one.
    fn length(&mut self, right: usize) -> usize {
        match self.rng.below(100) {
            0 => right - 1,
            1 => right + 1,
            2 => self.rng.below(right),
            _ => right,
        }
    }

    fn wrong_lengths(&mut self) -> Lent {
        let by = [-448, -100, -1, 1, 2_048][self.rng.below(5)];
        match self.rng.below(3) {
            0 => Lent { image: by, ..Lent::RIGHT },
            1 => Lent { map: by, ..Lent::RIGHT },
            _ => Lent { letters: by, ..Lent::RIGHT },
        }
    }

    /// A power cut, most often one that the call meets.
    fn cut(&mut self, call: &Call) -> Power {
        let steps = match call {
            Call::Mount { .. } => [2, self.blocks - 3][self.rng.below(2)],
            Call::Write { .. } | Call::Append { .. } | Call::CutOff { .. } => 2,
            Call::Read { .. } => 2,
            Call::Commit { .. } => 50,
            Call::Wipe { .. } => 60,
            Call::Gather { .. } => 6,
        };
        let edges = [0, 9, 10, 15, 16, 26, 27, 32, 33, 43, 44, 45, 54, 55, 56];
        let steps = match self.rng.below(3) {
            0 => edges[self.rng.below(edges.len())].min(steps - 1),
            _ => self.rng.below(steps),
        };
        let edges = [0, 1, HEADER - 1, HEADER, HEADER + 1, 254, 255, PAGE, 257, BLOCK - 1, BLOCK];
        let bytes = match self.rng.below(4) {
            0 => edges[self.rng.below(edges.len())],
            1 => self.rng.below(PAGE),
            2 => self.rng.below(BLOCK),
            _ => self.rng.below(16) * PAGE + self.rng.below(HEADER + 2),
        };
        Power { steps, bytes }
    }
}
