//! Document 01, "The plain book of demand 3". It is fed with the calls, their arguments, replies and
//! cuts, and never looks at the image. A gather, cut or not, leaves it as it is.

use super::calls::{CUT, DONE};
use super::files::{self, PLACES};
use super::image::Power;
use super::keys::{POSITIONS, POSITIONS_IN_BLOCK};
use super::list::Call;
use super::pages::{DELETED, FREE, HEADER, PAGE, USED};

/// A payload with its key position.
#[derive(Clone, Debug, PartialEq, Eq)]
pub struct Content {
    /// The payload, of 1 to 224 bytes.
    pub payload: Vec<u8>,
    /// The key position.
    pub position: usize,
}

/// A key: its position and the call that brought it. Calls are numbered from 1, format is 0.
#[derive(Clone, Copy, Debug, PartialEq, Eq, Hash)]
pub struct Key {
    /// The position.
    pub position: u16,
    /// The call.
    pub call: u32,
}

impl Key {
    /// The key of a position that a call brought.
    pub fn new(position: usize, call: usize) -> Key {
        Key { position: position as u16, call: call as u32 }
    }
}

/// The book.
#[derive(Clone, Debug, PartialEq, Eq)]
pub struct Book {
    /// For each place none or its payload.
    pub places: Vec<Option<Content>>,
    /// For each position its mark: f, u or d.
    pub marks: Vec<u8>,
    /// For each position the call that brought its key.
    pub bringers: Vec<usize>,
}

/// The payload that a write brings: what it is given, or so much of all its bytes as its second number
/// says, 0 for 224.
fn written(call: Call) -> Vec<u8> {
    match call {
        Call::Write { payload, .. } => payload.bytes(),
        Call::Append { second: 0, bytes, .. } => bytes.bytes(),
        Call::Append { second, bytes, .. } => bytes.bytes()[..second as usize].to_vec(),
        _ => Vec::new(),
    }
}

/// The steps, counted from 0, with which the copies of a commit are made whole.
#[derive(Clone, Copy)]
struct CopySteps {
    keys: [usize; 2],
    commit: usize,
}

/// A commit is 16 programs, an erase, 16 programs, an erase, 10 programs, an erase, and then erases.
const COMMIT_STEPS: CopySteps = CopySteps { keys: [15, 32], commit: 43 };
/// A wipe is 10 programs, an erase, and then a commit.
const WIPE_STEPS: CopySteps = CopySteps { keys: [26, 43], commit: 54 };
/// The step with which the first commit block of a wipe is made whole.
const WIPE_REMOVAL: usize = 9;

impl Book {
    /// The book after format, call 0.
    pub fn new() -> Book {
        Book {
            places: vec![None; PLACES],
            marks: vec![FREE; POSITIONS],
            bringers: vec![0; POSITIONS],
        }
    }

    /// The key that a position has.
    pub fn key(&self, position: usize) -> Key {
        Key::new(position, self.bringers[position])
    }

    /// Whether a payload has this key.
    pub fn is_in_use(&self, key: Key) -> bool {
        let position = usize::from(key.position);
        self.marks[position] == USED && self.key(position) == key
    }

    /// Enters a call, its number in the list, its reply and when its power was to fail.
    pub fn enter(&mut self, number: usize, call: Call, reply: u32, power: Power) {
        let reached = |step| match reply {
            DONE => PAGE,
            CUT => power.reaches(step, PAGE),
            _ => 0,
        };
        let made_whole = |step| reached(step) == PAGE;
        match call {
            Call::Mount { .. } | Call::Read { .. } | Call::Gather { .. } => {}
            Call::Write { file, offset, .. } | Call::Append { file, offset, .. } => {
                if made_whole(0) {
                    self.write(file, offset, written(call));
                } else if reached(0) >= HEADER {
                    self.take_free(DELETED);
                }
            }
            Call::CutOff { file, offset } => {
                if made_whole(0) {
                    self.remove(file, offset);
                }
            }
            Call::Commit { .. } => self.purge(number, COMMIT_STEPS, made_whole),
            Call::Wipe { file, offset, .. } => {
                if made_whole(WIPE_REMOVAL) {
                    self.remove(file, offset);
                }
                self.purge(number, WIPE_STEPS, made_whole);
            }
        }
    }

    /// Takes the lowest free position for the payload, and deletes the one that the place had.
    fn write(&mut self, file: usize, offset: usize, payload: Vec<u8>) {
        let position = self.take_free(USED);
        let place = files::place(file, offset).expect("the call was not refused");
        let content = Content { payload, position };
        if let Some(old) = self.places[place].replace(content) {
            self.marks[old.position] = DELETED;
        }
    }

    /// Gives the lowest f another mark.
    fn take_free(&mut self, mark: u8) -> usize {
        let lowest = self.marks.iter().position(|&mark| mark == FREE);
        let position = lowest.expect("the call was not refused");
        self.marks[position] = mark;
        position
    }

    /// The file ends at the offset; the positions behind it are deleted.
    fn remove(&mut self, file: usize, offset: usize) {
        for place in files::rest(file, offset) {
            if let Some(old) = self.places[place].take() {
                self.marks[old.position] = DELETED;
            }
        }
    }

    /// Keys of this call for all that is not used; then deleted positions are free.
    fn purge(&mut self, number: usize, steps: CopySteps, made_whole: impl Fn(usize) -> bool) {
        for position in 0..POSITIONS {
            let copied = made_whole(steps.keys[position / POSITIONS_IN_BLOCK]);
            if copied && self.marks[position] != USED {
                self.bringers[position] = number;
            }
        }
        if made_whole(steps.commit) {
            for mark in self.marks.iter_mut().filter(|mark| **mark == DELETED) {
                *mark = FREE;
            }
        }
    }
}

impl Default for Book {
    fn default() -> Book {
        Book::new()
    }
}
