//! The same call by the library `recorder` and by the second implementation, from the same image and
//! record, and where they then differ.
//!
//! The library has no call for the write of another recorder ([`Call::Append`]): that is done by the second
//! implementation alone, and both go on from what it leaves.

use crate::model::calls::{self, Node, CUT, DONE};
use crate::model::image::{Power, Step, BLOCK};
use crate::model::list::{self, Data, Lent};
use crate::model::pages::{PAGE, PAYLOAD};
use crate::model::record::{self as model, Numbers, SCRATCH};
use crate::model::store::Store;
use crate::rng::Rng;
use johvimaru::raw as recorder;
use johvimaru::{Cut, Refusal};
use std::collections::{BTreeMap, HashSet};
use std::fmt;
use std::hash::{DefaultHasher, Hash, Hasher};

/// A call, with its arguments in the library's types.
#[derive(Clone, Copy, Debug, PartialEq, Eq)]
pub enum Call {
    /// Format.
    Format {
        /// The noise.
        noise: Data,
    },
    /// Write.
    Write {
        /// The file.
        file: u32,
        /// The offset.
        offset: u32,
        /// The payload.
        payload: Data,
    },
    /// A write by another recorder.
    Append {
        /// The file.
        file: u32,
        /// The offset.
        offset: u32,
        /// The second number.
        second: u32,
        /// All bytes of the page's payload.
        bytes: Data,
    },
    /// Read.
    Read {
        /// The file.
        file: u32,
        /// The offset.
        offset: u32,
        /// The length of the output.
        output: usize,
    },
    /// Mount.
    Mount {
        /// The length of the scratch.
        scratch: usize,
    },
    /// Cut-off from an offset.
    CutOff {
        /// The file.
        file: u32,
        /// The offset.
        offset: u32,
    },
    /// Commit.
    Commit {
        /// The noise.
        noise: Data,
    },
    /// Wipe.
    Wipe {
        /// The file.
        file: u32,
        /// The offset.
        offset: u32,
        /// The noise.
        noise: Data,
    },
    /// Gather.
    Gather {
        /// The block.
        block: u32,
    },
}

/// A number of the second implementation in the library's type.
fn narrow(number: usize) -> u32 {
    u32::try_from(number).unwrap_or(u32::MAX)
}

impl From<list::Call> for Call {
    fn from(call: list::Call) -> Call {
        match call {
            list::Call::Mount { scratch } => Call::Mount { scratch },
            list::Call::Write { file, offset, payload } => {
                Call::Write { file: narrow(file), offset: narrow(offset), payload }
            }
            list::Call::Append { file, offset, second, bytes } => {
                Call::Append { file: narrow(file), offset: narrow(offset), second, bytes }
            }
            list::Call::Read { file, offset, output } => {
                Call::Read { file: narrow(file), offset: narrow(offset), output }
            }
            list::Call::CutOff { file, offset } => {
                Call::CutOff { file: narrow(file), offset: narrow(offset) }
            }
            list::Call::Commit { noise } => Call::Commit { noise },
            list::Call::Wipe { file, offset, noise } => {
                Call::Wipe { file: narrow(file), offset: narrow(offset), noise }
            }
            list::Call::Gather { block } => Call::Gather { block: narrow(block) },
        }
    }
}

impl Call {
    /// A mount with a scratch of the right length.
    pub const MOUNT: Call = Call::Mount { scratch: SCRATCH };

    /// The call's name.
    pub fn name(self) -> &'static str {
        match self {
            Call::Format { .. } => "format",
            Call::Write { .. } => "write",
            Call::Append { .. } => "append",
            Call::Read { .. } => "read",
            Call::Mount { .. } => "mount",
            Call::CutOff { .. } => "cut-off",
            Call::Commit { .. } => "commit",
            Call::Wipe { .. } => "wipe",
            Call::Gather { .. } => "gather",
        }
    }

    /// Whether the library has this call.
    pub(crate) fn is_ours(self) -> bool {
        !matches!(self, Call::Append { .. })
    }

    /// The payload or noise that goes with it.
    pub(crate) fn data(self) -> Vec<u8> {
        match self {
            Call::Format { noise: data }
            | Call::Commit { noise: data }
            | Call::Wipe { noise: data, .. }
            | Call::Write { payload: data, .. }
            | Call::Append { bytes: data, .. } => data.bytes(),
            Call::Read { .. } | Call::Mount { .. } | Call::CutOff { .. } | Call::Gather { .. } => {
                Vec::new()
            }
        }
    }

    /// The output that is lent for a read, before it.
    pub(crate) fn output(self) -> Vec<u8> {
        match self {
            Call::Read { output, .. } => (0..output).map(|at| (at * 7 + 3) as u8).collect(),
            _ => Vec::new(),
        }
    }

    /// The scratch that is lent for a mount, before it.
    pub(crate) fn scratch(self) -> Vec<u32> {
        match self {
            Call::Mount { scratch } => (0..scratch as u32).map(|at| at * 1_000_003 + 9).collect(),
            _ => Vec::new(),
        }
    }
}

/// What a call replied and left.
#[derive(Clone, PartialEq, Eq)]
pub struct After {
    /// The reply.
    pub reply: u32,
    /// The length that a read reports, else 0.
    pub length: usize,
    /// Image and record.
    pub store: Store,
    /// The output of a read.
    pub output: Vec<u8>,
    /// The scratch of a mount.
    pub scratch: Vec<u32>,
}

/// The numbers of a record in the library's order.
pub fn five(numbers: Numbers) -> [u32; 5] {
    let Numbers { sequence, epoch, keys0, keys1, commit } = numbers;
    [sequence, epoch, keys0, keys1, commit]
}

/// The record's numbers of five in the library's order.
pub fn numbers(five: [u32; 5]) -> Numbers {
    let [sequence, epoch, keys0, keys1, commit] = five;
    Numbers { sequence, epoch, keys0, keys1, commit }
}

/// A record in the library's types.
pub fn to_library(record: model::Record) -> recorder::Record {
    let model::Record { map, letters, numbers } = record;
    recorder::Record { map, letters, numbers: five(numbers) }
}

/// A record of the library in the second implementation's types.
pub fn from_library(record: recorder::Record) -> model::Record {
    let recorder::Record { map, letters, numbers: of } = record;
    model::Record { map, letters, numbers: numbers(of) }
}

/// Does a call with this data by the second implementation.
fn by_second(mut store: Store, call: Call, data: &[u8], power: Power) -> After {
    let (mut output, mut scratch) = (call.output(), call.scratch());
    let Store { image, record } = &mut store;
    let wide = |number: u32| number as usize;
    let mut length = 0;
    let reply = match call {
        Call::Format { .. } => {
            let model::Record { map, letters, .. } = record;
            let (reply, numbers) = calls::format(image, map, letters, data, power);
            record.numbers = numbers;
            reply
        }
        Call::Mount { .. } => {
            let model::Record { map, letters, .. } = record;
            let (reply, numbers) = calls::mount(image, map, letters, &mut scratch, power);
            record.numbers = numbers;
            reply
        }
        Call::Write { file, offset, .. } => {
            calls::write(image, record, wide(file), wide(offset), data, power)
        }
        Call::Append { file, offset, second, .. } => {
            calls::append(image, record, wide(file), wide(offset), Node::given(second, data), power)
        }
        Call::Read { file, offset, .. } => {
            let read = calls::read(image, record, wide(file), wide(offset), &mut output);
            length = read.1;
            read.0
        }
        Call::CutOff { file, offset } => {
            calls::cut_off(image, record, wide(file), wide(offset), power)
        }
        Call::Commit { .. } => calls::commit(image, record, data, power),
        Call::Wipe { file, offset, .. } => {
            calls::wipe(image, record, wide(file), wide(offset), data, power)
        }
        Call::Gather { block } => calls::gather(image, record, wide(block), power),
    };
    After { reply, length, store, output, scratch }
}

/// Does a call with this data by the library: its plain form where the power stays on, else its form
/// with n and k.
pub(crate) fn by_library(store: Store, call: Call, data: &[u8], power: Power) -> After {
    let Store { mut image, record } = store;
    let mut record = to_library(record);
    let (mut output, mut scratch) = (call.output(), call.scratch());
    let (reply, length) = match (call, power) {
        (Call::Read { file, offset, .. }, _) => {
            recorder::read(&image, &record, file, offset, &mut output)
        }
        (_, Power::STAYS) => {
            (whole_by_library(&mut image, &mut record, call, data, &mut scratch), 0)
        }
        (_, Power { steps, bytes }) => {
            let cut = Cut { n: steps as u64, k: bytes };
            (cut_by_library(&mut image, &mut record, call, data, &mut scratch, cut), 0)
        }
    };
    After { reply, length, store: Store { image, record: from_library(record) }, output, scratch }
}

/// A call with steps, in its plain form.
fn whole_by_library(
    image: &mut [u8],
    record: &mut recorder::Record,
    call: Call,
    data: &[u8],
    scratch: &mut [u32],
) -> u32 {
    match call {
        Call::Format { .. } => recorder::format(image, record, data),
        Call::Mount { .. } => recorder::mount(image, record, scratch),
        Call::Write { file, offset, .. } => recorder::write(image, record, file, offset, data),
        Call::Append { .. } | Call::Read { .. } => panic!("no call of the library with steps"),
        Call::CutOff { file, offset } => recorder::cut_off(image, record, file, offset),
        Call::Commit { .. } => recorder::commit(image, record, data),
        Call::Wipe { file, offset, .. } => recorder::wipe(image, record, data, file, offset),
        Call::Gather { block } => recorder::gather(image, record, block),
    }
}

/// A call with steps, in its form with n and k.
fn cut_by_library(
    image: &mut [u8],
    record: &mut recorder::Record,
    call: Call,
    data: &[u8],
    scratch: &mut [u32],
    cut: Cut,
) -> u32 {
    match call {
        Call::Format { .. } => recorder::format_cut(image, record, data, cut),
        Call::Mount { .. } => recorder::mount_cut(image, record, scratch, cut),
        Call::Write { file, offset, .. } => {
            recorder::write_cut(image, record, file, offset, data, cut)
        }
        Call::Append { .. } | Call::Read { .. } => panic!("no call of the library with steps"),
        Call::CutOff { file, offset } => recorder::cut_off_cut(image, record, file, offset, cut),
        Call::Commit { .. } => recorder::commit_cut(image, record, data, cut),
        Call::Wipe { file, offset, .. } => {
            recorder::wipe_cut(image, record, data, file, offset, cut)
        }
        Call::Gather { block } => recorder::gather_cut(image, record, block, cut),
    }
}

/// Does a call of a list by the library, for another recorder's write by the second implementation. Gives
/// the reply.
pub fn call_by_library(store: &mut Store, call: list::Call, power: Power) -> u32 {
    let call = Call::from(call);
    let (before, data) = (store.clone(), call.data());
    let after = match call.is_ours() {
        true => by_library(before, call, &data, power),
        false => by_second(before, call, &data, power),
    };
    *store = after.store;
    after.reply
}

/// The steps of a call, by the second implementation; none where it is refused.
pub fn steps(store: &Store, call: Call) -> Vec<Step> {
    let wide = |number: u32| number as usize;
    let call = match call {
        Call::Format { noise } => {
            let model::Record { map, letters, .. } = &store.record;
            let outcome =
                calls::format::outcome(&store.image, map.len(), letters.len(), &noise.bytes());
            return outcome.unwrap_or_default();
        }
        Call::Mount { scratch } => list::Call::Mount { scratch },
        Call::Write { file, offset, payload } => {
            list::Call::Write { file: wide(file), offset: wide(offset), payload }
        }
        Call::Append { file, offset, second, bytes } => {
            list::Call::Append { file: wide(file), offset: wide(offset), second, bytes }
        }
        Call::Read { .. } => return Vec::new(),
        Call::CutOff { file, offset } => {
            list::Call::CutOff { file: wide(file), offset: wide(offset) }
        }
        Call::Commit { noise } => list::Call::Commit { noise },
        Call::Wipe { file, offset, noise } => {
            list::Call::Wipe { file: wide(file), offset: wide(offset), noise }
        }
        Call::Gather { block } => list::Call::Gather { block: wide(block) },
    };
    store.steps(call)
}

/// Does a call by both. Gives what they left, or where they differ.
pub fn compare(store: &Store, call: Call, power: Power) -> Result<After, String> {
    let data = call.data();
    let second = by_second(store.clone(), call, &data, power);
    if !call.is_ours() {
        return Ok(second);
    }
    let ours = by_library(store.clone(), call, &data, power);
    match ours == second {
        true => Ok(second),
        false => Err(difference(&ours, &second)),
    }
}

/// Does a call by both with buffers of wrong lengths. Gives the reply, or where they differ.
pub fn compare_lent(store: &Store, call: Call, power: Power, lent: Lent) -> Result<u32, String> {
    let mut store = store.clone();
    stretch_all(&mut store, lent);
    compare(&store, call, power).map(|after| after.reply)
}

/// Gives image, map and letters other lengths.
pub fn stretch_all(store: &mut Store, lent: Lent) {
    stretch(&mut store.image, lent.image);
    stretch(&mut store.record.map, lent.map);
    stretch(&mut store.record.letters, lent.letters);
}

/// Shortens or lengthens a buffer.
fn stretch<T: Clone + From<u8>>(buffer: &mut Vec<T>, by: isize) {
    let length = buffer.len().saturating_add_signed(by);
    buffer.resize(length, T::from(b'f'));
}

/// A reply's number and what it says.
fn in_words(reply: u32) -> String {
    match Refusal::of(reply) {
        Some(refusal) => format!("{reply} ({refusal})"),
        None if reply == DONE => format!("{reply} (done)"),
        None if reply == CUT => format!("{reply} (cut)"),
        None => format!("{reply} (no reply)"),
    }
}

/// In words, where two outcomes of a call differ.
pub(crate) fn difference(ours: &After, second: &After) -> String {
    let mut text = String::new();
    if ours.reply != second.reply {
        let [ours, second] = [ours.reply, second.reply].map(in_words);
        text += &format!("reply: library {ours}, the other {second}\n");
    }
    if ours.length != second.length {
        text += &format!("length: library {}, the other {}\n", ours.length, second.length);
    }
    let (a, b) = (&ours.store.image, &second.store.image);
    if let Some(at) = first_difference("image", a, b, &mut text) {
        text += &format!("  that is byte {} of page {}\n", at % PAGE, at / PAGE);
    }
    let (a, b) = (&ours.store.record, &second.store.record);
    first_difference("map", &a.map, &b.map, &mut text);
    first_difference("letters", &a.letters, &b.letters, &mut text);
    first_difference("numbers", &five(a.numbers), &five(b.numbers), &mut text);
    first_difference("output", &ours.output, &second.output, &mut text);
    first_difference("scratch", &ours.scratch, &second.scratch, &mut text);
    text
}

/// Says where two buffers of one length first differ, and gives the place.
fn first_difference<T: PartialEq + fmt::Debug>(
    name: &str,
    ours: &[T],
    second: &[T],
    text: &mut String,
) -> Option<usize> {
    let at = ours.iter().zip(second).position(|(a, b)| a != b)?;
    let count = ours.iter().zip(second).filter(|(a, b)| a != b).count();
    *text += &format!(
        "{name}: {count} differ, the first at {at}: library {:?}, the other {:?}\n",
        ours[at], second[at]
    );
    Some(at)
}

/// Image and record, on which each call is done by both.
///
/// A call panics where library and second implementation differ.
#[derive(Clone, PartialEq, Eq)]
pub struct Both(pub Store);

impl Both {
    /// A formatted image of so many blocks, which held random bytes before.
    pub fn formatted(blocks: usize) -> Both {
        let image = Rng::new(blocks as u64).bytes(BLOCK * blocks);
        let mut both = Both(Store { image, record: model::Record::blank() });
        both.done(&[Call::Format { noise: Data::noise(1_000) }]);
        both
    }

    /// Does a call. Gives the reply.
    pub fn call(&mut self, call: Call) -> u32 {
        self.call_with(call, Power::STAYS)
    }

    /// Does a call whose power fails after `steps` whole steps and `bytes` of the next. Gives the reply.
    pub fn cut(&mut self, call: Call, steps: usize, bytes: usize) -> u32 {
        self.call_with(call, Power::cut(steps, bytes))
    }

    fn call_with(&mut self, call: Call, power: Power) -> u32 {
        match compare(&self.0, call, power) {
            Ok(after) => {
                self.0 = after.store;
                after.reply
            }
            Err(why) => panic!("{call:?}, {power:?}:\n{why}"),
        }
    }

    /// Does calls that must all succeed.
    pub fn done(&mut self, calls: &[Call]) {
        for &call in calls {
            assert_eq!(self.call(call), DONE, "{call:?}");
        }
    }

    /// Gives the image a new record, by a mount that must succeed.
    pub fn mount(&mut self) {
        self.0.record = garbage(1);
        self.done(&[Call::MOUNT]);
    }

    /// What a read gives: the payload, or the number of its refusal.
    pub fn content(&self, file: u32, offset: u32) -> Result<Vec<u8>, u32> {
        let read = Call::Read { file, offset, output: PAYLOAD };
        match compare(&self.0, read, Power::STAYS) {
            Ok(after) if after.reply == DONE => Ok(after.output[..after.length].to_vec()),
            Ok(after) => Err(after.reply),
            Err(why) => panic!("{read:?}:\n{why}"),
        }
    }
}

/// A record of the right lengths and of no use, as a power cut leaves it.
pub fn garbage(seed: u64) -> model::Record {
    let mut rng = Rng::new(seed);
    let mut record = model::Record::blank();
    record.map.fill_with(|| rng.number() as u16);
    record.letters.fill_with(|| rng.number() as u8);
    record.numbers = numbers(std::array::from_fn(|_| rng.number() as u32));
    record
}

/// How often each call got each reply, and the images on which a mount was refused.
#[derive(Clone, Debug, Default, PartialEq, Eq)]
pub struct Tally {
    replies: BTreeMap<(&'static str, u32), usize>,
    /// For each reply of a mount the hashes of the images that it found.
    refused: BTreeMap<u32, HashSet<u64>>,
    /// How many calls left a block unsettled.
    pub unsettled: usize,
}

impl Tally {
    /// Counts a reply to a call by its name.
    pub fn count(&mut self, name: &'static str, reply: u32) {
        *self.replies.entry((name, reply)).or_default() += 1;
    }

    /// Counts a reply to a call on this image.
    pub fn count_on(&mut self, image: &[u8], call: Call, reply: u32) {
        self.count(call.name(), reply);
        if matches!(call, Call::Mount { .. }) && (12..=14).contains(&reply) {
            let mut hasher = DefaultHasher::new();
            image.hash(&mut hasher);
            self.refused.entry(reply).or_default().insert(hasher.finish());
        }
    }

    /// Adds another tally.
    pub fn add(&mut self, other: &Tally) {
        for (key, count) in &other.replies {
            *self.replies.entry(*key).or_default() += count;
        }
        for (reply, images) in &other.refused {
            self.refused.entry(*reply).or_default().extend(images);
        }
        self.unsettled += other.unsettled;
    }

    /// How many calls were counted.
    pub fn calls(&self) -> usize {
        self.replies.values().sum()
    }

    /// On how many different images a mount got a refusal, 12 to 14.
    pub fn images(&self, refusal: u32) -> usize {
        self.refused.get(&refusal).map_or(0, HashSet::len)
    }

    /// The replies and how often each was met, a line for each call.
    pub fn table(&self) -> String {
        let mut text = String::new();
        let mut last = "";
        for ((name, reply), count) in &self.replies {
            if *name != last {
                text += &format!("\n  {name}:");
                last = name;
            }
            text += &format!(" {reply} x {count}");
        }
        text
    }

    /// Panics where a call never got one of these replies.
    pub fn require(&self, name: &'static str, replies: &[u32]) {
        for &reply in replies {
            let met = self.replies.contains_key(&(name, reply));
            assert!(met, "no {name} with reply {}:{}", in_words(reply), self.table());
        }
    }

    /// Panics where one of the replies that the calls can give was not met.
    pub fn require_all(&self) {
        self.require("format", &[DONE, 1, 2, 3, CUT]);
        self.require("mount", &[DONE, 1, 2, 13, 12, 14, CUT]);
        self.require("write", &[DONE, 1, 2, 4, 5, 6, 7, 11, 9, 10, CUT]);
        self.require("read", &[DONE, 1, 2, 4, 5, 6, 7, 8]);
        self.require("cut-off", &[DONE, 1, 2, 4, 5, 7, 8, 11, 10, CUT]);
        self.require("commit", &[DONE, 1, 2, 3, 7, 11, 10, CUT]);
        self.require("wipe", &[DONE, 1, 2, 3, 4, 5, 7, 11, 10, CUT]);
        self.require("gather", &[DONE, 1, 2, 7, 15, 11, 10, CUT]);
    }
}
