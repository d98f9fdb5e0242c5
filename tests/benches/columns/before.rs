//! The divisions that a call made before #103 in writing columns and in words of columns: the columns that
//! it wrote, and those that it compared with the image's, are spelt again, from image and record before the
//! call and after it, and must be what stands there.
//!
//! What it divided in reading numbers, all by powers of two, is not among them.

use crate::bed::{Lent, What};
use johvimaru::raw::{Record, NONE};
use johvimaru_tests::dividing::{Dividing, Divisions};
use johvimaru_tests::model::files::{self, FILES, PLACES};
use johvimaru_tests::model::image::PAGES_IN_BLOCK;
use johvimaru_tests::model::pages::{
    parse_field, ENTRIES, ENTRY, HEADER, LETTER_PARTS, PAGE, PARTS, PAYLOAD_BYTES,
};
use std::ops::Range;

/// Where each number's columns are in a header.
const NUMBER: Range<usize> = 1..9;
const UNIT: Range<usize> = 9..12;
const PART: Range<usize> = 12..16;
const KEY: Range<usize> = 16..20;
const SECOND: Range<usize> = 20..28;

/// Places whose entries were written together: as one string where none has a page.
const TOGETHER: usize = 4;
/// Places that the fit test passed at once where all were vacant.
const RUN: usize = 8;

/// The divisions of a call that found one and left the other.
pub fn divisions(what: What, found: &Lent, left: &Lent) -> Divisions {
    let mut of = Dividing::default();
    match what {
        What::Write => {
            fit(&mut of, found);
            let page = left.record.map[0];
            write_header(&mut of, header(&left.image, page.into()));
        }
        What::Commit => {
            fit(&mut of, found);
            write_blocks(&mut of, left);
        }
        What::Format => write_blocks(&mut of, left),
        _ => panic!("{} is not looked at", what.name()),
    }
    of.made
}

/// The header of a page.
fn header(image: &[u8], page: usize) -> &[u8; HEADER] {
    image[PAGE * page..].first_chunk().expect("the image has this page")
}

/// The four bytes of a header from a place on, as a word.
fn word4(header: &[u8; HEADER], at: usize) -> u32 {
    u32::from_le_bytes(*header[at..].first_chunk().expect("they are in the header"))
}

/// Writes the columns of a header by its numbers. Gives what was written.
fn write_header(of: &mut Dividing, header: &[u8; HEADER]) -> [u8; HEADER] {
    let field = |columns: Range<usize>| parse_field(&header[columns]).expect("a header is spelt");
    let mut written = *header;
    written[NUMBER.start..SECOND.end].fill(0);
    of.put8(&mut written, NUMBER.start, field(NUMBER));
    of.put3(&mut written, UNIT.start, field(UNIT));
    of.put4(&mut written, PART.start, field(PART));
    of.put4(&mut written, KEY.start, field(KEY));
    of.put8(&mut written, SECOND.start, field(SECOND));
    assert_eq!(written, *header, "the header is as it was before");
    written
}

/// Writes the headers of a block's pages, so many: that of the first, and in copies of it each page's part.
fn write_headers(of: &mut Dividing, image: &[u8], block: u32, pages: usize) {
    let first = PAGES_IN_BLOCK * block as usize;
    let like = write_header(of, header(image, first));
    for part in 0..pages {
        let mut written = like;
        of.put4(&mut written, PART.start, part as u32);
        assert_eq!(written, *header(image, first + part), "the part is as it was before");
    }
}

/// Writes the entries of four places, the payload's bytes of which are given.
fn write_four(of: &mut Dividing, map: &[u16], place: usize, payload: &[u8]) {
    if map[place..][..TOGETHER].iter().all(|&page| page == NONE) {
        return;
    }
    for (at, entry) in (place..place + TOGETHER).zip(payload.chunks_exact(ENTRY)) {
        let (page, key) = (map[at], map[PLACES + at]);
        if page != NONE {
            let mut written = [0; ENTRY];
            of.put4(&mut written, 0, page.into());
            of.put4(&mut written, 4, key.into());
            assert_eq!(written, *entry, "the entry is as it was before");
        }
    }
}

/// Writes both key blocks and the commit block that a commit or a format leaves.
fn write_blocks(of: &mut Dividing, left: &Lent) {
    let Lent { image, record: Record { map, numbers, .. }, .. } = left;
    let [_, _, keys0, keys1, commit] = *numbers;
    write_headers(of, image, keys0, PAGES_IN_BLOCK);
    write_headers(of, image, keys1, PAGES_IN_BLOCK);
    write_headers(of, image, commit, PARTS);
    for part in LETTER_PARTS..PARTS {
        let page = PAGES_IN_BLOCK * commit as usize + part;
        let payload = &image[PAGE * page..][PAYLOAD_BYTES];
        let first = ENTRIES * (part - LETTER_PARTS);
        let fours = payload.chunks_exact(TOGETHER * ENTRY);
        for (place, four) in (first..first + ENTRIES).step_by(TOGETHER).zip(fours) {
            write_four(of, map, place, four);
        }
    }
}

/// Spells the parts that the pages of a block are to have, so many: all but the first are compared.
fn compare_parts(of: &mut Dividing, image: &[u8], block: u32, pages: usize) {
    for part in 1..pages {
        let page = PAGES_IN_BLOCK * block as usize + part;
        let same = of.spelt4(part as u32) == word4(header(image, page), PART.start);
        assert!(same, "the record fits: part {part} of block {block}");
    }
}

/// Spells what the test whether the record fits compares: the parts of its blocks, the file of each run of
/// places that is not vacant, and offset and key position of each live place.
fn fit(of: &mut Dividing, found: &Lent) {
    let Lent { image, record: Record { map, numbers, .. }, .. } = found;
    let [_, _, keys0, keys1, commit] = *numbers;
    compare_parts(of, image, keys0, PAGES_IN_BLOCK);
    compare_parts(of, image, keys1, PAGES_IN_BLOCK);
    compare_parts(of, image, commit, PARTS);
    for file in 0..FILES {
        let places = files::rest(file, 0);
        for run in places.clone().step_by(RUN) {
            let run = run..places.end.min(run + RUN);
            if !run.clone().all(|place| map[place] == NONE && map[PLACES + place] == NONE) {
                compare_run(of, found, file, run);
            }
        }
    }
}

/// Spells the file of a run, and offset and key position of its live places.
fn compare_run(of: &mut Dividing, found: &Lent, file: usize, run: Range<usize>) {
    let map = &found.record.map;
    let text = of.spelt4(file as u32);
    for place in run.filter(|&place| map[place] != NONE) {
        let header = header(&found.image, map[place].into());
        let (_, offset) = files::node(place);
        let same = of.is_place(header, text, offset as u32)
            & (of.spelt_three(map[PLACES + place].into()) == word4(header, KEY.start));
        assert!(same, "the record fits: place {place}");
    }
}
