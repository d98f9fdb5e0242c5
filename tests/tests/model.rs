//! The calls of document 01 in the second implementation: the document's cases, the number of steps of
//! each call, and what a call that is cut leaves.

use johvimaru_tests::model::aes;
use johvimaru_tests::model::calls::{self, CUT, DONE};
use johvimaru_tests::model::files;
use johvimaru_tests::model::image::{pages, play, Power, Step, BLOCK};
use johvimaru_tests::model::list::{commit, cut_off, wipe, write, Call, Data};
use johvimaru_tests::model::listing;
use johvimaru_tests::model::pages::{Entry, Form, Header, PAGE};
use johvimaru_tests::model::record::{Numbers, Record, LETTERS, MAP, NONE, SCRATCH};
use johvimaru_tests::model::store::Store;

const FORMAT_NOISE: Data = Data { length: 7_168, seed: 1_000 };

fn formatted(blocks: usize) -> Store {
    Store::formatted(blocks, FORMAT_NOISE)
}

fn payload(seed: u64) -> Result<Vec<u8>, u32> {
    Ok(Data::payload(seed).bytes())
}

/// Does calls that must all succeed.
fn done(store: &mut Store, calls: &[Call]) {
    for &call in calls {
        assert_eq!(store.call(call), DONE, "{call:?}");
    }
}

// ---- Cases of the document; P1 to P6 are with the page forms

#[test]
fn p7_p8_files_and_offsets() {
    let mut store = formatted(8);
    assert_eq!(store.call(write(13, 7, 1)), DONE);
    assert_eq!(store.call(write(13, 8, 1)), 5);
    assert_eq!(store.call(write(14, 0, 1)), 4);
}

#[test]
fn p9_sizes_of_images() {
    for (length, reply) in
        [(32_768, DONE), (28_672, 1), (32_769, 1), (1_048_576, DONE), (1_052_672, 1), (0, 1)]
    {
        let mut store = Store { image: vec![0; length], record: Record::blank() };
        assert_eq!(store.format(FORMAT_NOISE, Power::STAYS), reply, "{length} bytes");
        assert_eq!(store.call(Call::MOUNT), reply, "{length} bytes");
    }
}

/// The S-box at 53h, by the key expansion: its first word adds the S-box of the key's last word.
#[test]
fn p10_s_box() {
    let mut key = [0; aes::KEY];
    key[12..].fill(0x53);
    assert_eq!(aes::expand(&key)[17..20], [0xed; 3]);
}

/// A write over old content, cut at a byte, and a mount after it: the letter of its key, and the content.
#[test]
fn a_cut_write() {
    for (bytes, letter, content) in [(29, b'f', 1), (30, b'd', 1), (255, b'd', 1), (256, b'u', 2)] {
        let mut store = formatted(8);
        done(&mut store, &[write(0, 0, 1)]);
        assert_eq!(store.cut(write(0, 0, 2), 0, bytes), CUT);
        assert_eq!(store.call(Call::MOUNT), DONE);
        assert_eq!(char::from(store.record.letters[1]), char::from(letter), "cut at {bytes}");
        assert_eq!(store.payload(0, 0), payload(content), "cut at {bytes}");
        let old_letter = if content == 1 { b'u' } else { b'd' };
        assert_eq!(store.record.letters[0], old_letter, "cut at {bytes}");
    }
}

/// How many writes a formatted image takes, and the refusal of the next.
fn capacity(blocks: usize) -> (usize, u32) {
    let mut store = formatted(blocks);
    for count in 0.. {
        let (file, offset) = files::node(count % files::PLACES);
        match store.call(write(file, offset, 1)) {
            DONE => {}
            refusal => return (count, refusal),
        }
    }
    unreachable!()
}

#[test]
fn writes_that_an_image_takes() {
    assert_eq!(capacity(8), (64, 10));
    assert_eq!(capacity(9), (80, 10));
    assert_eq!(capacity(31), (432, 10));
    assert_eq!(capacity(32), (448, 9));
    assert_eq!(capacity(33), (448, 9));
}

fn listing_case() -> Store {
    let mut store = formatted(8);
    done(&mut store, &[write(0, 0, 1), write(2, 5, 2), write(0, 0, 3)]);
    store
}

#[test]
fn the_listing() {
    let text = listing::text(&listing_case().image);
    assert_eq!(text, "   0   0    50     2\n   2   5    49     1\n     2   445     1\n");
}

#[test]
fn listings_of_refused_images() {
    let store = formatted(16);
    assert_eq!(listing::text(&store.image), "     0   448     0\n");
    assert_eq!(listing::text(&[]), "     1\n");
    assert_eq!(listing::text(&store.image[1..]), "     1\n");
    assert_eq!(listing::text(&formatted(17).image), "     1\n");
    let longer = [store.image.as_slice(), &[0xff]].concat();
    assert_eq!(listing::text(&longer), "     1\n");
    assert_eq!(listing::text(&[0xff; 8 * BLOCK]), "    13\n");
    let mut torn = store.image.clone();
    torn[PAGE - 1] = 0;
    assert_eq!(listing::text(&torn), "    12\n");
}

/// The place of a block by its first page.
fn block_of(store: &Store, is_wanted: impl Fn(Header) -> bool) -> Vec<usize> {
    let headers = pages(&store.image).iter().map(|page| Form::of(page).header());
    let mut blocks: Vec<usize> = headers
        .enumerate()
        .filter(|(_, header)| header.is_some_and(&is_wanted))
        .map(|(page, _)| page / 16)
        .collect();
    blocks.dedup();
    blocks
}

#[test]
fn the_commit_after_the_listing() {
    let mut store = listing_case();
    done(&mut store, &[commit(4)]);
    let numbers = Numbers { sequence: 4, epoch: 3, keys0: 4, keys1: 0, commit: 1 };
    assert_eq!(store.record.numbers, numbers);
    assert_eq!(block_of(&store, |header| matches!(header, Header::Keys { block: 0, .. })), [4]);
    assert_eq!(block_of(&store, |header| matches!(header, Header::Keys { block: 1, .. })), [0]);
    assert_eq!(block_of(&store, |header| matches!(header, Header::Commit { .. })), [1]);
    assert_eq!(block_of(&store, |header| matches!(header, Header::Node { .. })), [3]);
    assert_eq!(listing::text(&store.image).lines().last(), Some("     2   446     0"));
    assert_eq!(store.payload(0, 0), payload(3));
    assert_eq!(store.payload(2, 5), payload(2));
}

// ---- Bytes on the flash

#[test]
fn the_image_after_format() {
    let mut store = Store { image: vec![0; 8 * BLOCK], record: Record::blank() };
    assert_eq!(store.format(FORMAT_NOISE, Power::STAYS), DONE);
    let noise = FORMAT_NOISE.bytes();
    let page = |number: usize| &store.image[PAGE * number..][..PAGE];
    for number in 0..32 {
        let header = format!("K       1{:3}{:4}   0       0: ", number / 16, number % 16);
        let expected = [header.as_bytes(), &noise[224 * number..][..224], b"\r\n"].concat();
        assert_eq!(page(number), expected, "page {number}");
    }
    for part in 0..10 {
        let header = format!("C       1  0{part:4}   0       0: ");
        let payload = if part < 2 { "f".repeat(224) } else { "   -".repeat(56) };
        assert_eq!(page(32 + part), format!("{header}{payload}\r\n").as_bytes(), "part {part}");
    }
    assert_eq!(store.image[PAGE * 42..], [0xff; 8 * BLOCK - PAGE * 42]);
    let record = Record {
        map: vec![NONE; MAP],
        letters: vec![b'f'; LETTERS],
        numbers: Numbers { sequence: 1, epoch: 2, keys0: 0, keys1: 1, commit: 2 },
    };
    assert_eq!(store.record, record);
}

#[test]
fn the_pages_of_a_write_and_a_cut_off() {
    let mut store = formatted(8);
    done(&mut store, &[write(2, 5, 1), cut_off(2, 3)]);
    let mut enciphered = Data::payload(1).bytes();
    aes::stream(&FORMAT_NOISE.bytes()[..16].try_into().unwrap(), &mut enciphered);
    let node = [b"N       1  2   5   0     224: ", enciphered.as_slice(), b"\r\n"].concat();
    assert_eq!(store.image[PAGE * 48..][..PAGE], node);
    let cut_off = format!("D       2  2   3   0       0: {}\r\n", " ".repeat(224));
    assert_eq!(store.image[PAGE * 49..][..PAGE], *cut_off.as_bytes());
}

/// A short payload is enciphered with the spaces after it; an older recorder's page has the number 0.
#[test]
fn the_pages_of_short_and_older_nodes() {
    let mut store = formatted(8);
    let payload = Data::of(40, 1);
    let short = Call::Write { file: 2, offset: 5, payload };
    let older = Call::Append { file: 2, offset: 6, second: 0, bytes: Data::payload(2) };
    done(&mut store, &[short, older]);
    let padded = [payload.bytes(), vec![b' '; 184]].concat();
    let nodes = [
        (b"N       1  2   5   0      40: ", padded),
        (b"N       2  2   6   1       0: ", Data::payload(2).bytes()),
    ];
    for (number, (header, mut bytes)) in nodes.into_iter().enumerate() {
        let key = &FORMAT_NOISE.bytes()[16 * number..][..16];
        aes::stream(key.try_into().expect("16 bytes"), &mut bytes);
        let page = [header.as_slice(), &bytes, b"\r\n"].concat();
        assert_eq!(store.image[PAGE * (48 + number)..][..PAGE], page, "node {number}");
    }
    assert_eq!(store.payload(2, 5), Ok(payload.bytes()));
    assert_eq!(store.payload(2, 6), Ok(Data::payload(2).bytes()));
}

/// Commit after a commit: entries, letters, covered sequence, and the keys that it keeps.
#[test]
fn the_blocks_of_a_commit() {
    let mut store = listing_case();
    done(&mut store, &[commit(4)]);
    let page = |number: usize| &store.image[PAGE * number..][..PAGE];
    let letters = format!("C       2  0   0   0       3: fuu{}\r\n", "f".repeat(221));
    assert_eq!(page(16), letters.as_bytes());
    let entries = format!("C       2  0   2   0       3:   50   2{}\r\n", "   -".repeat(54));
    assert_eq!(page(18), entries.as_bytes());
    let entries = format!(
        "C       2  0   4   0       3: {}  49   1{}\r\n",
        "   -".repeat(26),
        "   -".repeat(28)
    );
    assert_eq!(page(20), entries.as_bytes());
    let (old, new) = (FORMAT_NOISE.bytes(), Data::noise(4).bytes());
    let keys = [&new[..16], &old[16..48], &new[48..224]].concat();
    let expected = [b"K       2  0   0   0       0: ", keys.as_slice(), b"\r\n"].concat();
    assert_eq!(page(64), expected);
    let expected = [b"K       2  1  15   0       0: ", &new[6_944..], b"\r\n"].concat();
    assert_eq!(page(15), expected);
}

/// The first commit block of a wipe: cut just after it is whole.
#[test]
fn the_first_commit_block_of_a_wipe() {
    let mut store = listing_case();
    assert_eq!(store.cut(wipe(0, 0, 5), 10, 0), CUT);
    let page = |number: usize| &store.image[PAGE * number..][..PAGE];
    let letters = format!("C       2  0   0   0       3: dud{}\r\n", "f".repeat(221));
    assert_eq!(page(64), letters.as_bytes());
    let none = format!("C       2  0   2   0       3: {}\r\n", "   -".repeat(56));
    assert_eq!(page(66), none.as_bytes());
    assert_eq!(store.call(Call::MOUNT), DONE);
    assert_eq!(store.record.numbers.epoch, 3);
    assert_eq!(store.payload(0, 0), Err(8));
    assert_eq!(store.payload(2, 5), payload(2));
}

#[test]
fn a_wipe_leaves_used_and_free_keys_only() {
    let mut store = listing_case();
    done(&mut store, &[wipe(0, 0, 5)]);
    let numbers = store.record.numbers;
    assert_eq!((numbers.sequence, numbers.epoch), (4, 4));
    assert_eq!(listing::text(&store.image), "   2   5    49     1\n     1   447     0\n");
    // Nothing live is no refusal.
    done(&mut store, &[wipe(0, 0, 6)]);
    assert_eq!(store.payload(2, 5), payload(2));
}

// ---- Finding a page

/// Pages are taken one after the other from block 3 on, and the last empty block is left.
#[test]
fn pages_are_taken_in_order() {
    let mut store = formatted(8);
    for page in 48..112 {
        done(&mut store, &[write(0, 0, page)]);
        assert_eq!(store.record.entry(0), Some(Entry { page: page as u16, key: page as u16 - 48 }));
    }
    assert_eq!(store.call(cut_off(0, 0)), 10);
    done(&mut store, &[wipe(13, 0, 1)]);
    assert_eq!(store.record.entry(0), Some(Entry { page: 111, key: 63 }));
}

/// Of a dead block whose erase was cut, mount erases the rest: no empty pages stand before used ones.
#[test]
fn a_dead_block_half_erased_is_erased_by_the_mount() {
    let mut store = formatted(8);
    done(&mut store, &[write(0, 0, 1), write(0, 1, 2), cut_off(0, 0)]);
    assert_eq!(store.cut(commit(3), 45, PAGE), CUT);
    assert_eq!(store.call(Call::MOUNT), DONE);
    done(&mut store, &[write(0, 0, 4)]);
    assert_eq!(store.record.entry(0), Some(Entry { page: 32, key: 0 }));
}

/// A spoilt page is passed over, and so is a torn one.
#[test]
fn spoilt_and_torn_pages_are_passed_over() {
    let mut store = formatted(8);
    done(&mut store, &[write(0, 0, 1)]);
    for (bytes, page, key) in [(29, 50, 1), (30, 52, 3), (255, 54, 5), (0, 55, 6)] {
        assert_eq!(store.cut(write(0, 0, 2), 0, bytes), CUT);
        assert_eq!(store.call(Call::MOUNT), DONE);
        done(&mut store, &[write(0, 0, 3)]);
        assert_eq!(store.record.entry(0), Some(Entry { page, key }), "cut at {bytes}");
    }
}

/// A first page cut within its header makes no data block: mount erases it.
#[test]
fn a_first_page_cut_within_its_header() {
    let mut store = formatted(8);
    assert_eq!(store.cut(write(0, 0, 1), 0, 29), CUT);
    assert_eq!(store.steps(Call::MOUNT).len(), 5);
    assert_eq!(store.call(Call::MOUNT), DONE);
    assert!(store == formatted(8));
}

// ---- Number of steps

/// The steps of a call: with one fewer it is cut, with as many it is not.
fn check_steps(store: &Store, call: Call, steps: usize) {
    assert_eq!(store.steps(call).len(), steps, "{call:?}");
    if let Some(fewer) = steps.checked_sub(1) {
        assert_eq!(store.clone().cut(call, fewer, usize::MAX), CUT, "{call:?}");
    }
    let mut plain = store.clone();
    let reply = plain.call(call);
    assert_ne!(reply, CUT, "{call:?}");
    for bytes in [0, 1, usize::MAX] {
        let mut enough = store.clone();
        assert_eq!(enough.cut(call, steps, bytes), reply, "{call:?}");
        assert!(enough == plain, "{call:?}");
    }
}

#[test]
fn steps_of_format() {
    for blocks in [8, 9, 32, 256] {
        let mut store = Store { image: vec![0; BLOCK * blocks], record: Record::blank() };
        let steps = blocks + 42;
        assert_eq!(store.format(FORMAT_NOISE, Power::cut(steps - 1, PAGE)), CUT);
        assert_eq!(store.format(FORMAT_NOISE, Power::cut(steps, 0)), DONE);
    }
}

#[test]
fn steps_of_the_other_calls() {
    let store = listing_case();
    check_steps(&store, Call::MOUNT, 4);
    check_steps(&store, write(0, 0, 1), 1);
    check_steps(&store, cut_off(0, 0), 1);
    check_steps(&store, Call::Gather { block: 3 }, 2);
    check_steps(&store, Call::Read { file: 0, offset: 0, output: 224 }, 0);
    check_steps(&store, commit(1), 45);
    check_steps(&store, wipe(0, 0, 1), 56);
    check_steps(&store, wipe(5, 0, 1), 56);
    for refused in [write(14, 0, 1), cut_off(5, 0), wipe(0, 32, 1), Call::Gather { block: 4 }] {
        check_steps(&store, refused, 0);
    }
}

/// Each data block without a live page is one step more, for a wipe after its removal.
#[test]
fn steps_with_dead_blocks() {
    let mut store = formatted(10);
    for _ in 0..40 {
        done(&mut store, &[write(0, 0, 1)]);
    }
    check_steps(&store, commit(1), 47);
    check_steps(&store, wipe(1, 0, 1), 58);
    check_steps(&store, wipe(0, 0, 1), 59);
    done(&mut store, &[cut_off(0, 0)]);
    check_steps(&store, commit(1), 48);
}

/// A mount has a step for each block but the chosen ones and those with data; an empty one counts.
#[test]
fn steps_of_mount() {
    let mut store = listing_case();
    assert_eq!(store.cut(commit(1), 3, 7), CUT);
    check_steps(&store, Call::MOUNT, 4);
    assert_eq!(store.cut(Call::MOUNT, 0, 17), CUT);
    check_steps(&store, Call::MOUNT, 4);
    for block in [5, 7] {
        store.image[BLOCK * block + 100] = 0;
    }
    check_steps(&store, Call::MOUNT, 4);
    assert_eq!(store.call(Call::MOUNT), DONE);
    check_steps(&store, Call::MOUNT, 4);
}

/// The kinds of a call's steps, in order: P for a program, E for an erase.
fn shape(store: &Store, call: Call) -> String {
    let steps = store.steps(call);
    steps.iter().map(|step| if matches!(step, Step::Erase { .. }) { 'E' } else { 'P' }).collect()
}

#[test]
fn the_order_of_steps() {
    let mut store = listing_case();
    done(&mut store, &[cut_off(0, 0), cut_off(2, 0)]);
    let (sixteen, ten) = ("P".repeat(16), "P".repeat(10));
    let of_commit = format!("{sixteen}E{sixteen}E{ten}EE");
    assert_eq!(shape(&store, commit(1)), of_commit);
    assert_eq!(shape(&store, wipe(0, 0, 1)), format!("{ten}E{of_commit}"));
}

// ---- What a cut call leaves

/// The image of a cut call has so many steps whole and so many bytes of the next, the record is that of
/// the whole call.
#[test]
fn what_a_cut_call_leaves() {
    let mut store = listing_case();
    done(&mut store, &[cut_off(0, 0), cut_off(2, 0)]);
    for call in [write(0, 0, 1), commit(2), wipe(0, 0, 3)] {
        let mut whole = store.clone();
        done(&mut whole, &[call]);
        let mut image = store.image.clone();
        for (count, step) in store.steps(call).into_iter().enumerate() {
            let (start, length) = match step {
                Step::Program { page, .. } => (PAGE * page, PAGE),
                Step::Erase { block } => (BLOCK * block, BLOCK),
            };
            let mut next = image.clone();
            assert!(play(&mut next, &[step], Power::STAYS));
            for bytes in [0, 1, 30, 255, 256, 257, BLOCK, usize::MAX] {
                let mut cut = store.clone();
                assert_eq!(cut.cut(call, count, bytes), CUT);
                let end = start + length.min(bytes);
                let expected = [&image[..start], &next[start..end], &image[end..]].concat();
                assert!(cut.image == expected, "{call:?} cut at ({count}, {bytes})");
                assert_eq!(cut.record, whole.record, "{call:?} cut at ({count}, {bytes})");
            }
            image = next;
        }
        assert!(image == whole.image, "{call:?}");
    }
}

/// A format that was cut gives no store until its commit block is whole.
#[test]
fn a_cut_format() {
    for (steps, bytes, reply) in [
        (0, 0, 13),
        (7, BLOCK, 13),
        (8, 100, 13),
        (40, 0, 13),
        (49, 255, 13),
        (49, 256, DONE),
        (50, 0, DONE),
    ] {
        let mut store = Store { image: vec![0; 8 * BLOCK], record: Record::blank() };
        let is_cut = store.format(FORMAT_NOISE, Power::cut(steps, bytes)) == CUT;
        assert_eq!(is_cut, steps < 50);
        assert_eq!(store.record, formatted(8).record);
        assert_eq!(store.call(Call::MOUNT), reply, "cut at ({steps}, {bytes})");
    }
}

/// Mount's scratch has each place's deciding sequence, that of a cut-off too, or 0.
#[test]
fn the_scratch_of_mount() {
    let mut store = formatted(8);
    done(&mut store, &[write(0, 0, 1), write(0, 1, 2), write(1, 0, 3), commit(4)]);
    done(&mut store, &[write(0, 0, 5), write(2, 5, 6), cut_off(0, 1)]);
    let mut scratch = [77; SCRATCH];
    let Record { map, letters, .. } = &mut store.record;
    let (reply, _) = calls::mount(&mut store.image, map, letters, &mut scratch, Power::STAYS);
    assert_eq!(reply, DONE);
    let mut expected = [0; SCRATCH];
    expected[0] = 4;
    expected[69] = 5;
    expected[1..32].fill(6);
    assert_eq!(scratch, expected);
}
