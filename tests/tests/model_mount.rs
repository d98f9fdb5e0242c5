//! Mount of document 01 in the second implementation: on images made by hand, beside a mount that tries
//! every page for every place, and on damaged images.

use johvimaru_tests::model::blocks::{self, key_pages, Commit, Kind};
use johvimaru_tests::model::calls::mount::{outcome, Mounted};
use johvimaru_tests::model::calls::{Refusal, CUT, DONE};
use johvimaru_tests::model::files::{self, PLACES};
use johvimaru_tests::model::image::{self, pages, Power, Step, BLOCK};
use johvimaru_tests::model::keys::POSITIONS;
use johvimaru_tests::model::list::{Call, Data, Event};
use johvimaru_tests::model::pages::{Entry, Form, Header, Page, PAGE};
use johvimaru_tests::model::record::{Numbers, Record};
use johvimaru_tests::model::store::Store;
use johvimaru_tests::random_lists::RandomList;
use johvimaru_tests::rng::Rng;

// ---- Images made by hand

/// A formatted image of 8 blocks, whose blocks 3 to 7 are empty.
fn image() -> Vec<u8> {
    Store::formatted(8, Data::noise(1)).image
}

/// Puts pages into an image from a page on.
fn put(image: &mut [u8], page: usize, bytes: &[Page]) {
    image[PAGE * page..][..PAGE * bytes.len()].copy_from_slice(bytes.as_flattened());
}

fn node(sequence: u32, file: usize, offset: usize, key: usize) -> Page {
    let second = sequence % 225;
    Header::Node { sequence, file, offset, key, second }.page(&[0; 224])
}

fn cut_off(sequence: u32, file: usize, offset: usize) -> Page {
    Header::CutOff { sequence, file, offset }.page(&[b' '; 224])
}

fn torn(mut page: Page) -> Page {
    page[PAGE - 1] = 0xff;
    page
}

/// A commit with these entries, each a place, page and key, whose letters are u there and else f.
fn commit(epoch: u32, covered: u32, entries: &[(usize, u16, u16)]) -> Commit {
    let mut commit =
        Commit { epoch, covered, letters: vec![b'f'; POSITIONS], entries: vec![None; PLACES] };
    for &(place, page, key) in entries {
        commit.entries[place] = Some(Entry { page, key });
        commit.letters[usize::from(key)] = b'u';
    }
    commit
}

/// An image of 8 blocks with this commit block in block 7 beside format's.
fn image_with(commit: &Commit) -> Vec<u8> {
    let mut image = image();
    put(&mut image, 112, &commit.pages());
    image
}

fn mounted(image: &[u8]) -> Mounted {
    outcome(image).expect("the mount is accepted")
}

/// The live nodes: place, page and key.
fn live(record: &Record) -> Vec<(usize, u16, u16)> {
    let entries = (0..PLACES).filter_map(|place| record.entry(place).map(|entry| (place, entry)));
    entries.map(|(place, entry)| (place, entry.page, entry.key)).collect()
}

/// The positions that have a letter.
fn with_letter(record: &Record, letter: u8) -> Vec<usize> {
    (0..POSITIONS).filter(|&position| record.letters[position] == letter).collect()
}

#[test]
fn the_highest_sequence_decides() {
    let mut image = image();
    put(&mut image, 48, &[node(5, 0, 0, 2), node(3, 0, 0, 1), node(4, 0, 0, 0)]);
    let Mounted { record, scratch, steps } = mounted(&image);
    assert_eq!(live(&record), [(0, 48, 2)]);
    assert_eq!(with_letter(&record, b'd'), [0, 1]);
    assert_eq!(record.numbers.sequence, 6);
    assert_eq!(scratch[0], 5);
    assert_eq!(steps, [4, 5, 6, 7].map(|block| Step::Erase { block }));
}

#[test]
fn a_tie_goes_to_the_higher_page() {
    let mut image = image();
    put(&mut image, 48, &[node(5, 0, 0, 2), node(5, 0, 0, 1)]);
    put(&mut image, 80, &[node(7, 1, 0, 3), cut_off(7, 1, 0), cut_off(8, 2, 0), node(8, 2, 1, 4)]);
    let record = mounted(&image).record;
    assert_eq!(live(&record), [(0, 49, 1), (65, 83, 4)]);
    assert_eq!(with_letter(&record, b'd'), [2, 3]);
}

#[test]
fn a_cut_off_removes_the_rest_of_its_file_alone() {
    let nodes = [node(1, 0, 30, 0), node(2, 0, 31, 1), node(3, 1, 0, 2), node(4, 1, 31, 3)];
    let mut image = image();
    put(&mut image, 48, &nodes);
    put(&mut image, 52, &[cut_off(5, 0, 31)]);
    let Mounted { record, scratch, .. } = mounted(&image);
    assert_eq!(live(&record), [(30, 48, 0), (32, 50, 2), (63, 51, 3)]);
    assert_eq!(with_letter(&record, b'd'), [1]);
    assert_eq!(scratch[29..34], [0, 1, 5, 3, 0]);
}

/// A covered node that is dead stays dead.
#[test]
fn covered_pages_are_no_events() {
    let mut image = image_with(&commit(2, 9, &[(0, 48, 0)]));
    put(&mut image, 48, &[node(3, 0, 0, 0), node(9, 0, 0, 1), cut_off(9, 0, 0), node(8, 1, 0, 2)]);
    let Mounted { record, scratch, steps } = mounted(&image);
    assert_eq!(live(&record), [(0, 48, 0)]);
    assert_eq!(with_letter(&record, b'u'), [0]);
    assert_eq!(with_letter(&record, b'd'), []);
    assert_eq!(record.numbers, Numbers { sequence: 10, epoch: 3, keys0: 0, keys1: 1, commit: 7 });
    assert_eq!(scratch, [0; PLACES]);
    assert_eq!(steps, [2, 4, 5, 6].map(|block| Step::Erase { block }));
}

/// A torn page is no event. A torn node above the covered sequence spends its key, and any torn page
/// counts for the next sequence.
#[test]
fn torn_pages() {
    let mut image = image_with(&commit(2, 9, &[(0, 48, 0)]));
    put(&mut image, 48, &[node(3, 0, 0, 0), torn(node(10, 0, 0, 1)), torn(cut_off(12, 0, 0))]);
    put(&mut image, 51, &[torn(node(9, 0, 0, 2)), torn(node(11, 5, 0, 0))]);
    let record = mounted(&image).record;
    assert_eq!(live(&record), [(0, 48, 0)]);
    assert_eq!(with_letter(&record, b'd'), [1]);
    assert_eq!(record.numbers.sequence, 13);
}

/// Letters other than f that no live node has are deleted.
#[test]
fn letters_of_the_commit() {
    let mut old = commit(2, 9, &[(0, 48, 0)]);
    old.letters[5] = b'd';
    old.letters[6] = b'u';
    let mut image = image_with(&old);
    put(&mut image, 48, &[node(3, 0, 0, 0), node(10, 1, 0, 5)]);
    let record = mounted(&image).record;
    assert_eq!(with_letter(&record, b'u'), [0, 5]);
    assert_eq!(with_letter(&record, b'd'), [6]);
    put(&mut image, 50, &[cut_off(11, 1, 0), cut_off(11, 0, 0)]);
    assert_eq!(with_letter(&mounted(&image).record, b'd'), [0, 5, 6]);
}

/// Of whole blocks the highest epoch is chosen, the lower block on a tie; the others are erased.
#[test]
fn the_chosen_blocks() {
    let noise = Data::noise(2).bytes();
    let (first, second) = noise.split_at(3_584);
    let mut image = image();
    put(&mut image, 64, &key_pages(0, 5, first));
    put(&mut image, 80, &key_pages(0, 5, second));
    put(&mut image, 96, &commit(3, 4, &[]).pages());
    put(&mut image, 112, &commit(3, 6, &[]).pages());
    let Mounted { record, steps, .. } = mounted(&image);
    assert_eq!(record.numbers, Numbers { sequence: 5, epoch: 6, keys0: 4, keys1: 1, commit: 6 });
    assert_eq!(steps, [0, 2, 3, 5, 7].map(|block| Step::Erase { block }));

    // Blocks that are not whole count for nothing.
    image[BLOCK * 4 + 255] = 0;
    image[BLOCK * 6 + 15 * PAGE] = 0;
    let Mounted { record, steps, .. } = mounted(&image);
    assert_eq!(record.numbers, Numbers { sequence: 7, epoch: 6, keys0: 5, keys1: 1, commit: 7 });
    assert_eq!(steps, [0, 2, 3, 4, 6].map(|block| Step::Erase { block }));

    // A whole block that is not chosen counts for the next epoch too.
    image[BLOCK * 5 + 255] = 0;
    image[BLOCK * 7 + 255] = 0;
    put(&mut image, 48, &key_pages(1, 9, second));
    let numbers = mounted(&image).record.numbers;
    assert_eq!(numbers, Numbers { sequence: 1, epoch: 10, keys0: 0, keys1: 3, commit: 2 });
}

/// Strays are erased, whatever is in them, and so are empty blocks.
#[test]
fn what_mount_erases() {
    let mut image = image();
    put(&mut image, 63, &[torn(cut_off(1, 0, 0))]);
    put(&mut image, 70, &[Header::Keys { epoch: 9, block: 0, page: 6 }.page(&[0; 224])]);
    image[BLOCK * 6 - 1] = 0xfe;
    put(&mut image, 96, &[Header::Commit { epoch: 9, part: 0, covered: 0 }.page(&[b'f'; 224])]);
    put(&mut image, 97, &[node(2, 0, 0, 0)]);
    let Mounted { record, steps, .. } = mounted(&image);
    assert_eq!(steps, [4, 5, 7].map(|block| Step::Erase { block }));
    assert_eq!(record.numbers, Numbers { sequence: 3, epoch: 2, keys0: 0, keys1: 1, commit: 2 });
}

/// A data block without a live page is erased where the commit covers all its headers, torn ones too.
#[test]
fn covered_data_blocks_are_erased() {
    let mut image = image_with(&commit(2, 9, &[(0, 48, 0)]));
    put(&mut image, 48, &[node(3, 0, 0, 0)]);
    put(&mut image, 64, &[node(9, 0, 1, 1), torn(node(8, 0, 2, 2)), cut_off(4, 3, 0)]);
    put(&mut image, 80, &[node(7, 0, 3, 3), torn(node(10, 0, 4, 4))]);
    let erases = |image: &[u8]| mounted(image).steps;
    assert_eq!(erases(&image), [2, 4, 6].map(|block| Step::Erase { block }));
    put(&mut image, 96, &[cut_off(10, 0, 0)]);
    assert_eq!(erases(&image), [2, 3, 4].map(|block| Step::Erase { block }));
}

fn refusal(image: &[u8]) -> Option<Refusal> {
    outcome(image).err()
}

#[test]
fn entries_that_do_not_fit() {
    let with_page = |page: Page| {
        let mut image = image_with(&commit(2, 9, &[(0, 48, 0)]));
        put(&mut image, 48, &[page]);
        image
    };
    assert_eq!(refusal(&with_page(node(3, 0, 0, 0))), None);
    for page in [
        torn(node(3, 0, 0, 0)),
        node(3, 0, 1, 0),
        node(3, 1, 0, 0),
        node(3, 0, 0, 1),
        cut_off(3, 0, 0),
        [0xff; PAGE],
        Header::Keys { epoch: 3, block: 0, page: 0 }.page(&[0; 224]),
    ] {
        assert_eq!(refusal(&with_page(page)), Some(Refusal::Entry), "{:?}", Form::of(&page));
    }
    // A page of the image's end is inside it, the next one is not.
    let mut image = image_with(&commit(2, 9, &[(0, 111, 0)]));
    put(&mut image, 111, &[node(3, 0, 0, 0)]);
    assert_eq!(refusal(&image), None);
    for page in [128, 4_095] {
        let image = image_with(&commit(2, 9, &[(0, page, 0)]));
        assert_eq!(refusal(&image), Some(Refusal::Entry), "page {page}");
    }
}

/// An entry that an event overrides is not looked at.
#[test]
fn overridden_entries() {
    for event in [node(10, 0, 0, 7), cut_off(10, 0, 0)] {
        let mut image = image_with(&commit(2, 9, &[(0, 4_095, 0), (32, 48, 1)]));
        put(&mut image, 48, &[node(3, 1, 0, 1), event]);
        let record = mounted(&image).record;
        assert_eq!(live(&record).last(), Some(&(32, 48, 1)));
        assert_eq!(record.letters[0], b'd');
    }
}

#[test]
fn keys_named_twice() {
    let refusal_of = |entries: &[(usize, u16, u16)], pages: &[Page]| {
        let mut image = image_with(&commit(2, 9, entries));
        put(&mut image, 48, pages);
        refusal(&image)
    };
    let first = node(3, 0, 0, 7);
    // Two entries, an entry and an event, two events.
    assert_eq!(
        refusal_of(&[(0, 48, 7), (32, 49, 7)], &[first, node(4, 1, 0, 7)]),
        Some(Refusal::Entry)
    );
    assert_eq!(refusal_of(&[(0, 48, 7)], &[first, node(10, 1, 0, 7)]), Some(Refusal::Entry));
    assert_eq!(refusal_of(&[], &[node(10, 0, 0, 7), node(11, 1, 0, 7)]), Some(Refusal::Entry));
    // One of them overridden.
    assert_eq!(refusal_of(&[(0, 48, 7)], &[first, node(10, 0, 0, 7)]), None);
    assert_eq!(refusal_of(&[(0, 48, 7)], &[first, node(10, 1, 0, 7), cut_off(11, 0, 0)]), None);
}

// ---- A mount that tries every page for every place

/// The record and scratch of an image, or the refusal, by the words of the document.
fn plain_mount(image: &[u8]) -> Result<(Record, Vec<u32>), u32> {
    let forms: Vec<Form> = pages(image).iter().map(Form::of).collect();
    let kinds: Vec<Kind> =
        image::blocks(image).map(|pages| blocks::kind(pages, &blocks::forms(pages))).collect();
    // Of the blocks with an epoch, the first of those with the highest.
    let choose = |epoch: &dyn Fn(&Kind) -> Option<u32>| {
        let highest = kinds.iter().filter_map(epoch).max();
        kinds.iter().position(|kind| epoch(kind).is_some() && epoch(kind) == highest)
    };
    let commit_epoch = |kind: &Kind| match kind {
        Kind::Commit(commit) => Some(commit.epoch),
        _ => None,
    };
    let keys_epoch = |wanted: usize| {
        move |kind: &Kind| match kind {
            Kind::Keys { number, epoch } if *number == wanted => Some(*epoch),
            _ => None,
        }
    };
    let commit_place = choose(&commit_epoch).ok_or(13_u32)?;
    let Kind::Commit(commit) = &kinds[commit_place] else { unreachable!() };
    let keys0 = choose(&keys_epoch(0)).ok_or(12_u32)?;
    let keys1 = choose(&keys_epoch(1)).ok_or(12_u32)?;

    let mut record = Record::blank();
    let mut scratch = Vec::new();
    for place in 0..PLACES {
        let (file, offset) = files::node(place);
        let event = |page: usize| match forms[page] {
            Form::Whole(Header::Node { sequence, file: f, offset: o, key, .. }) => {
                ((f, o) == (file, offset)).then_some((sequence, page, Some(key)))
            }
            Form::Whole(Header::CutOff { sequence, file: f, offset: o }) => {
                (f == file && o <= offset).then_some((sequence, page, None))
            }
            _ => None,
        };
        let above = |&(sequence, ..): &(u32, usize, Option<usize>)| sequence > commit.covered;
        let last = (0..forms.len()).filter_map(event).filter(above).max();
        let entry = match last {
            Some((_, page, key)) => key.map(|key| Entry { page: page as u16, key: key as u16 }),
            None => commit.entries[place],
        };
        if let (None, Some(entry)) = (last, entry) {
            let fits = match forms.get(usize::from(entry.page)) {
                Some(&Form::Whole(Header::Node { file: f, offset: o, key, .. })) => {
                    (f, o, key) == (file, offset, usize::from(entry.key))
                }
                _ => false,
            };
            if !fits {
                return Err(14);
            }
        }
        record.set(place, entry);
        scratch.push(last.map_or(0, |(sequence, ..)| sequence));
    }

    let live = record.entries();
    for position in 0..POSITIONS {
        let names =
            live.iter().flatten().filter(|entry| usize::from(entry.key) == position).count();
        let spent = forms.iter().filter_map(Form::header).any(|header| {
            matches!(header, Header::Node { sequence, key, .. }
                if sequence > commit.covered && key == position)
        });
        record.letters[position] = match (names, commit.letters[position]) {
            (0, b'f') if !spent => b'f',
            (0, _) => b'd',
            (1, _) => b'u',
            _ => return Err(14),
        };
    }

    let sequences = forms.iter().filter_map(|form| match form.header()? {
        Header::Node { sequence, .. } | Header::CutOff { sequence, .. } => Some(sequence),
        _ => None,
    });
    let epochs = kinds.iter().filter_map(|kind| match kind {
        Kind::Keys { epoch, .. } => Some(*epoch),
        _ => commit_epoch(kind),
    });
    record.numbers = Numbers {
        sequence: sequences.chain([commit.covered]).max().unwrap_or(0) + 1,
        epoch: epochs.max().unwrap_or(0) + 1,
        keys0: keys0 as u32,
        keys1: keys1 as u32,
        commit: commit_place as u32,
    };
    Ok((record, scratch))
}

// ---- Damaged images

/// A store as random calls leave it, cut ones among them, which need not have been mounted since.
fn used_store(rng: &mut Rng) -> Store {
    let blocks = [8, 8, 9, 12][rng.below(4)];
    let mut store = Store::formatted(blocks, Data::noise(rng.number()));
    let mut list = RandomList::new(rng.number(), blocks);
    let mut on = true;
    for _ in 0..list.length.min(40) {
        let Event { call, power, .. } = list.next(on);
        on = store.call_with(call, power) != CUT;
        if !on && rng.below(4) > 0 {
            on = store.call(Call::MOUNT) == DONE;
        }
    }
    store
}

/// Changes an image in one way out of many.
fn damage(image: &mut [u8], rng: &mut Rng) {
    let used: Vec<usize> =
        (0..image.len() / PAGE).filter(|&page| image[PAGE * page] != 0xff).collect();
    let page = used.get(rng.below(used.len() + 1)).copied().unwrap_or(0);
    let other = rng.below(image.len() / PAGE);
    let block = rng.below(image.len() / BLOCK);
    match rng.below(8) {
        // A byte.
        0 => image[rng.below(image.len())] = rng.number() as u8,
        // A page over another, a block over another.
        1 => image.copy_within(PAGE * page..PAGE * (page + 1), PAGE * other),
        2 => {
            let to = rng.below(image.len() / BLOCK);
            image.copy_within(BLOCK * block..BLOCK * (block + 1), BLOCK * to);
        }
        // A page torn or spoilt.
        3 => image[PAGE * page + 250 + rng.below(6)] = 0xff,
        4 => image[PAGE * page..][..1 + rng.below(PAGE)].fill(0xff),
        // The number of a header.
        5 | 6 => {
            let number = [1, 2, 3, rng.below(40), 99_999_999][rng.below(5)];
            let pages =
                if rng.below(2) == 0 { page..page + 1 } else { 16 * block..16 * (block + 1) };
            for page in pages {
                image[PAGE * page + 1..][..8].copy_from_slice(format!("{number:8}").as_bytes());
            }
        }
        // The key of a header.
        _ => {
            let key = rng.below(12);
            image[PAGE * page + 16..][..4].copy_from_slice(format!("{key:4}").as_bytes());
        }
    }
}

/// A call with right arguments at a place that is met again.
fn some_call(rng: &mut Rng) -> Call {
    let (file, offset) = (rng.below(4), rng.below(4));
    let noise = Data::noise(rng.number());
    match rng.below(6) {
        0 => Call::MOUNT,
        1 => Call::Write { file, offset, payload: Data::payload(rng.number()) },
        2 => Call::Read { file, offset, output: 224 },
        3 => Call::CutOff { file, offset },
        4 => Call::Commit { noise },
        _ => Call::Wipe { file, offset, noise },
    }
}

/// Only empty pages are programmed.
fn check_programs(image: &[u8], steps: &[Step]) {
    let mut image = image.to_vec();
    for step in steps {
        if let Step::Program { page, .. } = step {
            assert_eq!(Form::of(&pages(&image)[*page]), Form::Empty, "page {page}");
        }
        assert!(image::play(&mut image, std::slice::from_ref(step), Power::STAYS));
    }
}

/// Mount is the plain one on damaged images. One that is accepted leaves a record that fits, and a
/// second one gives the same and changes nothing. Calls after it leave a record that fits.
#[test]
fn damaged_images() {
    let mut replies = [0; 256];
    for seed in 0..4_000 {
        let mut rng = Rng::new(seed);
        let mut store = used_store(&mut rng);
        for _ in 0..rng.below(6) {
            damage(&mut store.image, &mut rng);
        }
        let found = outcome(&store.image);
        let plain = plain_mount(&store.image);
        match (&found, &plain) {
            (Ok(mounted), Ok((record, scratch))) => {
                assert_eq!(mounted.record, *record, "seed {seed}");
                assert_eq!(mounted.scratch, *scratch, "seed {seed}");
            }
            (Err(refusal), Err(number)) => assert_eq!(refusal.number(), *number, "seed {seed}"),
            _ => panic!("seed {seed}: {:?}, plainly {:?}", found.is_ok(), plain.is_ok()),
        }
        let reply = store.call(Call::MOUNT);
        replies[reply as usize] += 1;
        if reply != DONE {
            continue;
        }
        let once = store.clone();
        assert_eq!(store.call(Call::MOUNT), DONE, "seed {seed}");
        assert!(store == once, "seed {seed}: a second mount changes something");
        for _ in 0..4 {
            let call = some_call(&mut rng);
            check_programs(&store.image, &store.steps(call));
            store.call(call);
            assert!(store.record.fits(&store.image), "seed {seed}: after {call:?}");
        }
    }
    for reply in [DONE, 12, 13, 14] {
        let count = replies[reply as usize];
        assert!(count > 50, "{count} mounts with reply {reply}");
    }
}

/// A record from elsewhere that fits: a call on it that succeeds leaves a record that fits, and programs
/// only empty pages. With any record no call fails otherwise than by a reply.
#[test]
fn records_from_elsewhere() {
    let mut taken = 0;
    for seed in 0..6_000 {
        let mut rng = Rng::new(seed);
        let mut store = used_store(&mut rng);
        if rng.below(4) > 0 {
            store.call(Call::MOUNT);
        }
        for _ in 0..rng.below(4) {
            alter(&mut store.record, &mut rng);
        }
        for _ in 0..rng.below(2) {
            damage(&mut store.image, &mut rng);
        }
        for _ in 0..3 {
            let call = some_call(&mut rng);
            let fits = store.record.fits(&store.image);
            check_programs(&store.image, &store.steps(call));
            let power = match rng.below(3) {
                0 => Power::cut(rng.below(60), rng.below(BLOCK)),
                _ => Power::STAYS,
            };
            let reply = store.call_with(call, power);
            if !matches!(call, Call::Mount { .. }) {
                assert_eq!(reply == 7, !fits, "seed {seed}: {call:?} replies {reply}");
            }
            if reply == DONE {
                taken += 1;
                assert!(store.record.fits(&store.image), "seed {seed}: after {call:?}");
            }
        }
    }
    assert!(taken > 1_000, "{taken} calls were taken");
}

/// Changes a record in one way out of many.
fn alter(record: &mut Record, rng: &mut Rng) {
    let wild = rng.number() as u32;
    let number = [0, 1, 99_999_998, 99_999_999, 100_000_000, 100_000_001, wild][rng.below(7)];
    let block = [0, 1, 2, 3, rng.below(16) as u32, wild][rng.below(6)];
    let place = rng.below(PLACES);
    match rng.below(10) {
        0 => record.numbers.sequence = number,
        1 => record.numbers.epoch = number,
        2 => record.numbers.keys0 = block,
        3 => record.numbers.keys1 = block,
        4 => record.numbers.commit = block,
        5 => record.map[rng.below(2 * PLACES)] = rng.number() as u16,
        6 => {
            // A node leaves the map, its letter becomes d.
            if let Some(entry) = record.entry(place) {
                if let Some(letter) = record.letters.get_mut(usize::from(entry.key)) {
                    *letter = b'd';
                }
                record.set(place, None);
            }
        }
        7 => record.letters[rng.below(POSITIONS)] = b"fud\0"[rng.below(4)],
        _ => {
            // Free and deleted keys change about.
            for letter in record.letters.iter_mut().filter(|letter| **letter != b'u') {
                *letter = b"fd"[rng.below(2)];
            }
        }
    }
}

/// No bytes, lengths or numbers make a call fail otherwise than by a reply.
#[test]
fn random_bytes() {
    for seed in 0..2_000 {
        let mut rng = Rng::new(seed);
        let length = match rng.below(3) {
            0 => rng.below(3 * BLOCK),
            1 => BLOCK * rng.below(12),
            _ => 8 * BLOCK,
        };
        let image = match rng.below(3) {
            0 => vec![0xff; length],
            1 => vec![b' '; length],
            _ => rng.bytes(length),
        };
        let lengths = [0, 1, 447, 448, 449, 448, 448];
        let (map, letters) = (lengths[rng.below(7)], lengths[rng.below(7)]);
        let record = Record {
            map: (0..map).map(|_| rng.number() as u16).collect(),
            letters: rng.bytes(letters),
            numbers: Numbers {
                sequence: rng.number() as u32,
                epoch: rng.number() as u32,
                keys0: rng.number() as u32,
                keys1: rng.number() as u32,
                commit: rng.number() as u32,
            },
        };
        let mut store = Store { image, record };
        let before = store.clone();
        let call = some_call(&mut rng);
        let reply = store.cut(call, rng.below(3), rng.below(BLOCK));
        assert!((1..=14).contains(&reply), "seed {seed}: {call:?} replies {reply}");
        assert!(store.image == before.image, "seed {seed}: {call:?} changes the image");
    }
}
