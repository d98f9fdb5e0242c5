//! Document 01, "Cases": the text that the listing program prints.

use super::calls::{self, DONE};
use super::files::{self, PLACES};
use super::image::Power;
use super::pages::{DELETED, FREE, USED};
use super::record::{Record, SCRATCH};
use std::fmt::Write;

/// The longest input that is read as an image.
pub const LONGEST: usize = 65_536;

/// What the program prints for this input.
pub fn text(input: &[u8]) -> String {
    if input.len() > LONGEST {
        return number(calls::Refusal::Image.number());
    }
    let mut record = Record::blank();
    let (reply, _) = calls::mount(
        &mut input.to_vec(),
        &mut record.map,
        &mut record.letters,
        &mut [0; SCRATCH],
        Power::STAYS,
    );
    if reply == DONE {
        nodes_and_totals(&record)
    } else {
        number(reply)
    }
}

/// The line of a refused mount.
fn number(reply: u32) -> String {
    format!("{reply:6}\n")
}

/// A line for each live node by place, then the totals of letters.
fn nodes_and_totals(record: &Record) -> String {
    let mut text = String::new();
    for place in 0..PLACES {
        if let Some(entry) = record.entry(place) {
            let (file, offset) = files::node(place);
            writeln!(text, "{file:4}{offset:4}{:6}{:6}", entry.page, entry.key)
                .expect("a string takes any text");
        }
    }
    let total = |letter| record.letters.iter().filter(|&&l| l == letter).count();
    let (used, free, deleted) = (total(USED), total(FREE), total(DELETED));
    writeln!(text, "{used:6}{free:6}{deleted:6}").expect("a string takes any text");
    text
}
