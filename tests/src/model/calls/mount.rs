//! Mount.

use super::{require, run_steps, Refusal};
use crate::model::blocks::{forms, kind, Commit, Kind};
use crate::model::files::{self, PLACES};
use crate::model::image::{blocks, has_right_size, Power, Step, PAGES_IN_BLOCK};
use crate::model::keys::POSITIONS;
use crate::model::pages::{Entry, Form, Header, DELETED, FREE, USED};
use crate::model::record::{is_node, Numbers, Record, LETTERS, MAP, NONE, SCRATCH};

/// What a mount that is not refused does.
#[derive(Clone, Debug, PartialEq, Eq)]
pub struct Mounted {
    /// Its erases, in order.
    pub steps: Vec<Step>,
    /// The record.
    pub record: Record,
    /// Each place's deciding sequence or 0.
    pub scratch: Vec<u32>,
}

/// What mount finds on an image of a right size, with refusals 13, 12 and 14.
pub fn outcome(image: &[u8]) -> Result<Mounted, Refusal> {
    let survey = Survey::of(image);
    let chosen = survey.choose()?;
    let decisions = survey.decisions(chosen.commit.covered);
    let mut record = Record { numbers: survey.numbers(&chosen), ..Record::blank() };

    let mut used = [false; POSITIONS];
    for (place, decision) in decisions.iter().enumerate() {
        let entry = match decision {
            Some(decision) => decision.entry,
            None => chosen.commit.entries[place],
        };
        record.set(place, entry);
        let Some(Entry { page, key }) = entry else { continue };
        let fits =
            survey.forms.get(usize::from(page)).is_some_and(|&form| is_node(form, place, key));
        let named = std::mem::replace(&mut used[usize::from(key)], true);
        require(fits && !named, Refusal::Entry)?;
    }

    let spent = survey.spent(chosen.commit.covered);
    for (position, letter) in record.letters.iter_mut().enumerate() {
        *letter = if used[position] {
            USED
        } else if chosen.commit.letters[position] != FREE || spent[position] {
            DELETED
        } else {
            FREE
        };
    }

    let sequence = |decision: Option<Decision>| decision.map_or(0, |decision| decision.sequence);
    let scratch = decisions.into_iter().map(sequence).collect();
    Ok(Mounted { steps: survey.erases(&record, chosen.commit.covered), record, scratch })
}

/// What all pages and blocks of an image are.
struct Survey {
    forms: Vec<Form>,
    kinds: Vec<Kind>,
}

/// The chosen blocks.
struct Chosen<'a> {
    keys: [usize; 2],
    place: usize,
    commit: &'a Commit,
}

/// What an event above the covered sequence says of a place.
#[derive(Clone, Copy)]
struct Decision {
    sequence: u32,
    entry: Option<Entry>,
}

impl Survey {
    fn of(image: &[u8]) -> Survey {
        let mut survey = Survey { forms: Vec::new(), kinds: Vec::new() };
        for pages in blocks(image) {
            let forms = forms(pages);
            survey.kinds.push(kind(pages, &forms));
            survey.forms.extend(forms);
        }
        survey
    }

    /// The whole commit block and the whole copies of the key blocks of highest epoch, on a tie the
    /// lower block.
    fn choose(&self) -> Result<Chosen<'_>, Refusal> {
        let mut commit = None;
        let mut keys = [None; 2];
        for (place, kind) in self.kinds.iter().enumerate() {
            match kind {
                Kind::Commit(found) => raise(&mut commit, found.epoch, (place, found)),
                Kind::Keys { number, epoch } => raise(&mut keys[*number], *epoch, place),
                Kind::Empty | Kind::Data | Kind::Other => {}
            }
        }
        let (_, (place, commit)) = commit.ok_or(Refusal::NoCommitBlock)?;
        match keys {
            [Some((_, keys0)), Some((_, keys1))] => {
                Ok(Chosen { keys: [keys0, keys1], place, commit })
            }
            _ => Err(Refusal::NoKeyBlock),
        }
    }

    /// Of the events of a place above the covered sequence the highest, on a tie that of the higher
    /// page. Only whole pages are events.
    fn decisions(&self, covered: u32) -> Vec<Option<Decision>> {
        let mut decisions = vec![None; PLACES];
        for (page, form) in self.forms.iter().enumerate() {
            let (places, new) = match *form {
                Form::Whole(Header::Node { sequence, file, offset, key, .. }) => {
                    let entry = Some(Entry { page: page as u16, key: key as u16 });
                    let place = files::rest(file, offset).start;
                    (place..place + 1, Decision { sequence, entry })
                }
                Form::Whole(Header::CutOff { sequence, file, offset }) => {
                    (files::rest(file, offset), Decision { sequence, entry: None })
                }
                _ => continue,
            };
            if new.sequence <= covered {
                continue;
            }
            for decision in &mut decisions[places] {
                if decision.is_none_or(|old: Decision| old.sequence <= new.sequence) {
                    *decision = Some(new);
                }
            }
        }
        decisions
    }

    /// The positions that nodes' headers above the covered sequence name, torn pages among them.
    fn spent(&self, covered: u32) -> [bool; POSITIONS] {
        let mut spent = [false; POSITIONS];
        for header in self.forms.iter().filter_map(Form::header) {
            if let Header::Node { sequence, key, .. } = header {
                spent[key] |= sequence > covered;
            }
        }
        spent
    }

    /// The next numbers, one above the highest, and the chosen blocks' places.
    fn numbers(&self, chosen: &Chosen) -> Numbers {
        let sequences = self.forms.iter().filter_map(sequence);
        let epochs = self.kinds.iter().filter_map(|kind| match kind {
            Kind::Keys { epoch, .. } | Kind::Commit(Commit { epoch, .. }) => Some(*epoch),
            Kind::Empty | Kind::Data | Kind::Other => None,
        });
        Numbers {
            sequence: 1 + sequences.fold(chosen.commit.covered, u32::max),
            epoch: 1 + epochs.fold(chosen.commit.epoch, u32::max),
            keys0: chosen.keys[0] as u32,
            keys1: chosen.keys[1] as u32,
            commit: chosen.place as u32,
        }
    }

    /// The erases, in one pass: of all blocks but the chosen ones and data blocks, so of empty ones too, and of
    /// each data block that has neither a live page nor a header above the covered sequence.
    fn erases(&self, record: &Record, covered: u32) -> Vec<Step> {
        let Numbers { keys0, keys1, commit, .. } = record.numbers;
        let chosen = [keys0, keys1, commit].map(|place| place as usize);
        let is_live = |block| {
            let mut named = record.map[..PLACES].iter().filter(|&&page| page != NONE);
            named.any(|&page| usize::from(page) / PAGES_IN_BLOCK == block)
        };
        let goes = |block| match self.kinds[block] {
            Kind::Data => !is_live(block) && self.highest_sequence(block) <= Some(covered),
            _ => !chosen.contains(&block),
        };
        let blocks = (0..self.kinds.len()).filter(|&block| goes(block));
        blocks.map(|block| Step::Erase { block }).collect()
    }

    /// The highest sequence of a block's whole and torn headers.
    fn highest_sequence(&self, block: usize) -> Option<u32> {
        let forms = &self.forms[PAGES_IN_BLOCK * block..][..PAGES_IN_BLOCK];
        forms.iter().filter_map(sequence).max()
    }
}

/// The sequence of a whole or torn page with a node or a cut-off.
fn sequence(form: &Form) -> Option<u32> {
    match form.header()? {
        Header::Node { sequence, .. } | Header::CutOff { sequence, .. } => Some(sequence),
        Header::Keys { .. } | Header::Commit { .. } => None,
    }
}

/// Keeps what has the highest epoch, the first on a tie.
fn raise<T>(best: &mut Option<(u32, T)>, epoch: u32, found: T) {
    if best.as_ref().is_none_or(|&(highest, _)| highest < epoch) {
        *best = Some((epoch, found));
    }
}

/// Finds the record of an image and erases the blocks that it does not need. Gives the reply and the record's
/// numbers, all 0 when refused.
pub fn mount(
    image: &mut [u8],
    map: &mut [u16],
    letters: &mut [u8],
    scratch: &mut [u32],
    power: Power,
) -> (u32, Numbers) {
    if !has_right_size(image) {
        return (Refusal::Image.number(), Numbers::default());
    }
    if map.len() != MAP || letters.len() != LETTERS || scratch.len() != SCRATCH {
        return (Refusal::Lengths.number(), Numbers::default());
    }
    match outcome(image) {
        Ok(mounted) => {
            map.copy_from_slice(&mounted.record.map);
            letters.copy_from_slice(&mounted.record.letters);
            scratch.copy_from_slice(&mounted.scratch);
            (run_steps(image, &mounted.steps, power), mounted.record.numbers)
        }
        Err(refusal) => {
            map.fill(NONE);
            letters.fill(DELETED);
            scratch.fill(0);
            (refusal.number(), Numbers::default())
        }
    }
}
