//! A gather, and what is said of it.

use super::told;
use crate::image_file::{counted, is_empty, numbers_in_words};
use crate::Problem;
use johvimaru::{Chip, CutChip, Driver, Record, Refusal, BLOCK, PAGES_IN_BLOCK};
use std::fmt::Display;

/// Gathers a block, or where none is named the thinnest that there is room for.
pub fn make<C: Chip<Error: Display>>(
    device: &mut Driver<CutChip<C>>,
    block: Option<usize>,
) -> Result<(), Problem> {
    let thin = device.record().map_or(Vec::new(), Record::thin_blocks);
    match (block, &thin[..]) {
        (Some(block), _) => one(device, block),
        (None, []) => {
            let words =
                "no node is live, so there is nothing to gather; a commit erases all data blocks";
            Err(Problem::Explained(Refusal::NothingToGather, words.into()))
        }
        (None, [thinnest, others @ ..]) => {
            let refused = match one(device, *thinnest) {
                Err(problem @ Problem::Explained(Refusal::NoRoom, _)) => problem,
                result => return result,
            };
            for block in others {
                match one(device, *block) {
                    Err(Problem::Explained(Refusal::NoRoom, _)) => {}
                    result => return result,
                }
            }
            Err(refused)
        }
    }
}

/// Gathers this block. A refusal says why, and what to do.
fn one<C: Chip<Error: Display>>(
    device: &mut Driver<CutChip<C>>,
    block: usize,
) -> Result<(), Problem> {
    let refused = match device.gather(block).map_err(told) {
        Err(Problem::Refused(refusal)) => refusal,
        result => return result,
    };
    let words = match refused {
        Refusal::NothingToGather => nothing_there(device, block),
        Refusal::NoRoom => format!(
            "there is no room outside block {block} for copies of its {}; nothing was copied; \
             commit, and where that brings no room, wipe a file that is saved elsewhere",
            counted(device.record().map_or(0, |record| record.live_pages_of(block)), "live page")
        ),
        _ => return Err(Problem::Refused(refused)),
    };
    Err(Problem::Explained(refused, words))
}

/// Why there is nothing to gather in a block, and what can be gathered.
fn nothing_there<C>(device: &Driver<C>, block: usize) -> String {
    let blocks = device.mirror().len() / BLOCK;
    let (keys, commit) = device.record().map_or(([usize::MAX; 2], usize::MAX), |record| {
        (record.key_blocks(), record.commit_block())
    });
    let why = match device.mirror().chunks(BLOCK).nth(block) {
        None => {
            return format!("the image has {blocks} blocks, 0 to {}, and no {block}", blocks - 1)
        }
        Some(_) if keys.contains(&block) => "holds keys".to_string(),
        Some(_) if commit == block => "holds the commit".to_string(),
        Some(bytes) if is_empty(bytes) => "is empty".to_string(),
        Some(_) => "has no live page, and the next commit erases it".to_string(),
    };
    format!("block {block} {why}; `johvimaru check` names the thinnest data block")
}

/// What a gather has done, from the records before it and after it.
pub fn in_words(old: &Record, new: &Record) -> String {
    let moved = old.nodes().filter_map(|was| Some((was.page, new.node(was.at)?.page)));
    let mut moved: Vec<(usize, usize)> = moved.filter(|(was, is)| was != is).collect();
    moved.sort_unstable();
    let Some((first, _)) = moved.first() else { return String::new() };
    let block = first / PAGES_IN_BLOCK;
    let pages: Vec<usize> = moved.iter().map(|(_, is)| *is).collect();
    let (copied, to) = (counted(pages.len(), "page"), numbers_in_words("page", &pages));
    format!(
        "gathered: block {block}, {copied} copied to {to}; every node reads as before\n\
         commit next: that erases block {block}\n"
    )
}
