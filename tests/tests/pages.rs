//! The crate `page` through the static library `harness`, beside the second implementation: headers,
//! forms, entries, and pages up to every byte.

use johvimaru_tests::ffi::page::{self, MISSPELT, OUT_OF_RANGE, SPOILT, TORN, VACANT, WHOLE};
use johvimaru_tests::ffi::{DONE, REFUSED};
use johvimaru_tests::guarded::Guarded;
use johvimaru_tests::hex;
use johvimaru_tests::model::blocks::Commit;
use johvimaru_tests::model::files::{COUNTS, FILES, PLACES};
use johvimaru_tests::model::image::PAGES_IN_BLOCK;
use johvimaru_tests::model::keys::POSITIONS;
use johvimaru_tests::model::pages::{
    is_letter, parse_entry, payload, spell_entry, Entry, Form, Header, Misspelt, Page, CLOSING,
    DELETED, EMPTY, ENTRY, FREE, HEADER, LAST, LETTER_PARTS, PAGE, PARTS, PAYLOAD, USED,
};
use johvimaru_tests::rng::Rng;

/// Random cases of each comparison. Case n has the generator of seed n.
const CASES: u64 = 4_000;

/// The fields of a header, in the library's order.
type Fields = [u32; 6];

/// What the fields hold before a call that must not change them.
const UNTOUCHED: Fields = [u32::MAX; 6];

/// None, as a map has it.
const NONE: u16 = 65_535;

/// A part of a page as text, for a message.
fn text(bytes: &[u8]) -> String {
    bytes.escape_ascii().to_string()
}

// ---- Headers and forms

/// The fields of a header of the second implementation.
fn fields(header: Header) -> Fields {
    match header {
        Header::Node { sequence, file, offset, key, second } => {
            [b'N'.into(), sequence, file as u32, offset as u32, key as u32, second]
        }
        Header::CutOff { sequence, file, offset } => {
            [b'D'.into(), sequence, file as u32, offset as u32, 0, 0]
        }
        Header::Keys { epoch, block, page } => {
            [b'K'.into(), epoch, block as u32, page as u32, 0, 0]
        }
        Header::Commit { epoch, part, covered } => [b'C'.into(), epoch, 0, part as u32, 0, covered],
    }
}

/// What the library must reply to the form of a page.
fn expected_form(page: &Page) -> (u32, Fields) {
    match Form::of(page) {
        Form::Empty => (page::EMPTY, UNTOUCHED),
        Form::Whole(header) => (WHOLE, fields(header)),
        Form::Torn(header) => (TORN, fields(header)),
        Form::Spoilt => (SPOILT, UNTOUCHED),
    }
}

fn compare_form(what: &str, page: &Page) {
    let mut got = UNTOUCHED;
    let reply = page::form(page, &mut got);
    assert_eq!(
        (reply, got),
        expected_form(page),
        "{what}: page with header {:?} and closing {}",
        text(&page[..HEADER]),
        hex::text(&page[HEADER + PAYLOAD..]),
    );
}

/// A sequence or epoch, a small one as often as a large one.
fn random_number(rng: &mut Rng) -> u32 {
    let last = [9, 1_000, LAST][rng.below(3)];
    1 + rng.below(last as usize) as u32
}

/// A header of a random kind with random fields.
fn random_header(rng: &mut Rng) -> Header {
    let file = rng.below(FILES);
    let offset = rng.below(COUNTS[file]);
    match rng.below(4) {
        0 => Header::Node {
            sequence: random_number(rng),
            file,
            offset,
            key: rng.below(POSITIONS),
            second: rng.below(PAYLOAD + 1) as u32,
        },
        1 => Header::CutOff { sequence: random_number(rng), file, offset },
        2 => Header::Keys {
            epoch: random_number(rng),
            block: rng.below(2),
            page: rng.below(PAGES_IN_BLOCK),
        },
        _ => Header::Commit {
            epoch: random_number(rng),
            part: rng.below(PARTS),
            covered: random_number(rng) - 1,
        },
    }
}

/// A header of each kind with small fields, and one of each with the last ones.
const SOME_HEADERS: [Header; 10] = [
    Header::Node { sequence: 7, file: 2, offset: 5, key: 31, second: 0 },
    Header::Node { sequence: 7, file: 2, offset: 5, key: 31, second: 9 },
    Header::Node { sequence: 1, file: 9, offset: 0, key: 0, second: 40 },
    Header::CutOff { sequence: 10, file: 13, offset: 0 },
    Header::Keys { epoch: 1, block: 0, page: 9 },
    Header::Commit { epoch: 100, part: 4, covered: 0 },
    Header::Node { sequence: LAST, file: 0, offset: 31, key: 447, second: 224 },
    Header::CutOff { sequence: LAST, file: 10, offset: 7 },
    Header::Keys { epoch: LAST, block: 1, page: 15 },
    Header::Commit { epoch: LAST, part: 9, covered: LAST },
];

#[test]
fn forms_after_every_change_of_one_byte_of_a_header() {
    for header in SOME_HEADERS {
        let whole = header.page(&[b'.'; PAYLOAD]);
        compare_form("unchanged", &whole);
        for at in 0..HEADER {
            for byte in 0..=255 {
                let mut page = whole;
                page[at] = byte;
                compare_form(&format!("byte {at} set to {byte}"), &page);
            }
        }
    }
}

/// Changes up to three columns of a header to bytes that often stand in one.
fn damage(rng: &mut Rng, bytes: &mut [u8]) {
    let usual = b" 0123456789-:NDKC\xff";
    for _ in 0..=rng.below(3) {
        let at = rng.below(bytes.len());
        bytes[at] = match rng.below(4) {
            0 => rng.array::<1>()[0],
            _ => usual[rng.below(usual.len())],
        };
    }
}

#[test]
fn forms_of_damaged_headers_agree() {
    for seed in 0..CASES {
        let mut rng = Rng::new(seed);
        let mut page = random_header(&mut rng).page(&rng.bytes(PAYLOAD));
        compare_form(&format!("seed {seed}, whole"), &page);
        damage(&mut rng, &mut page[..HEADER]);
        compare_form(&format!("seed {seed}, damaged"), &page);
    }
}

/// Pages of which only the first k bytes were programmed, and ones with another closing.
#[test]
fn forms_of_cut_pages_agree() {
    for (number, header) in SOME_HEADERS.into_iter().enumerate() {
        let mut rng = Rng::new(number as u64);
        let whole = header.page(&rng.bytes(PAYLOAD));
        for k in 0..=PAGE {
            let mut page = EMPTY;
            page[..k].copy_from_slice(&whole[..k]);
            compare_form(&format!("the first {k} bytes"), &page);
        }
        for at in PAGE - CLOSING.len()..PAGE {
            for byte in 0..=255 {
                let mut page = whole;
                page[at] = byte;
                compare_form(&format!("byte {at} set to {byte}"), &page);
            }
        }
    }
}

/// Empty pages but for one byte, and pages of random bytes.
#[test]
fn forms_of_other_pages_agree() {
    compare_form("empty", &EMPTY);
    for at in 0..PAGE {
        let mut page = EMPTY;
        page[at] = 0xfe;
        compare_form(&format!("empty but for byte {at}"), &page);
    }
    for seed in 0..CASES {
        compare_form(&format!("seed {seed}"), &Rng::new(seed).array());
    }
}

/// What the library must make of a header's fields: the second implementation reads them back.
fn compare_header(what: &str, given: &Fields) {
    let old = [b'?'; HEADER];
    let mut header = Guarded::new(0, &old);
    let reply = page::header(given, header.lent());
    let got = header.content();
    match Header::parse(got) {
        Some(back) if reply == DONE => {
            assert_eq!(fields(back), *given, "{what}: {}", text(got));
            assert_eq!(text(got), text(&back.spell()), "{what}: {given:?}");
        }
        _ => {
            assert_eq!((reply, text(got)), (OUT_OF_RANGE, text(&old)), "{what}: {given:?}");
            assert!(!is_in_range(given), "{what}: {given:?} is the header of a page");
        }
    }
}

/// Whether the second implementation has a header of these fields: as text, it parses.
fn is_in_range(fields: &Fields) -> bool {
    let [kind, number, unit, part, key, second] = *fields;
    let Ok(kind) = u8::try_from(kind) else {
        return false;
    };
    let columns = format!("{number:>8}{unit:>3}{part:>4}{key:>4}{second:>8}: ");
    columns.len() + 1 == HEADER && Header::parse(&[&[kind], columns.as_bytes()].concat()).is_some()
}

#[test]
fn headers_agree() {
    for header in SOME_HEADERS {
        compare_header("some header", &fields(header));
    }
    for seed in 0..CASES {
        let mut rng = Rng::new(seed);
        let mut given = fields(random_header(&mut rng));
        compare_header(&format!("seed {seed}, in range"), &given);
        let small = [0, 1, 2, 8, 9, 10, 13, 14, 15, 16, 31, 32];
        let edges = [&small[..], &[223, 224, 225, 256, 447, 448, LAST, LAST + 1]].concat();
        let at = rng.below(6);
        given[at] = match rng.below(4) {
            0 => rng.number() as u32,
            1 => given[at].wrapping_add(256),
            _ => edges[rng.below(edges.len())],
        };
        compare_header(&format!("seed {seed}, field {at} changed"), &given);
    }
}

// ---- Entries

fn compare_entry(what: &str, bytes: &[u8; ENTRY]) {
    let mut got = [u32::MAX; 2];
    let reply = page::entry(bytes, &mut got);
    let expected = match parse_entry(bytes) {
        Ok(Some(Entry { page, key })) => (DONE, [page.into(), key.into()]),
        Ok(None) => (VACANT, [u32::MAX; 2]),
        Err(Misspelt) => (MISSPELT, [u32::MAX; 2]),
    };
    assert_eq!((reply, got), expected, "{what}: entry {:?}", text(bytes));
}

#[test]
fn entries_after_every_change_of_one_byte() {
    for entry in [b"   -   -", b"   0   0", b"  49   1", b"4095 447", b" 100  99", b"1000 100"] {
        for at in 0..ENTRY {
            for byte in 0..=255 {
                let mut bytes = *entry;
                bytes[at] = byte;
                compare_entry(&format!("byte {at} set to {byte}"), &bytes);
            }
        }
    }
}

#[test]
fn entries_agree() {
    for seed in 0..CASES {
        let mut rng = Rng::new(seed);
        compare_entry(&format!("seed {seed}, random"), &rng.array());
        let entry = Entry { page: rng.below(4_500) as u16, key: rng.below(500) as u16 };
        let mut bytes = spell_entry(Some(entry));
        compare_entry(&format!("seed {seed}, spelt"), &bytes);
        damage(&mut rng, &mut bytes);
        compare_entry(&format!("seed {seed}, damaged"), &bytes);
    }
}

fn compare_written_entry(entry: Option<Entry>) {
    let (page, key) = entry.map_or((NONE, NONE), |entry| (entry.page, entry.key));
    let mut got = Guarded::new(0, &[0; ENTRY]);
    assert_eq!(page::write_entry(page.into(), key.into(), got.lent()), DONE, "{entry:?}");
    assert_eq!(text(got.content()), text(&spell_entry(entry)), "{entry:?}");
}

#[test]
fn written_entries_agree() {
    compare_written_entry(None);
    for page in 0..4_096 {
        compare_written_entry(Some(Entry { page, key: page % POSITIONS as u16 }));
    }
    for key in 0..POSITIONS as u16 {
        compare_written_entry(Some(Entry { page: 4_095 - key, key }));
    }
}

// ---- Pages up to every byte

/// The first k bytes of a page, and the rest erased.
fn cut(page: &Page, k: usize) -> Page {
    let mut cut = EMPTY;
    cut[..k].copy_from_slice(&page[..k]);
    cut
}

/// Numbers of bytes after which a program is cut: every one of a page, and some beyond.
fn cuts() -> impl Iterator<Item = usize> {
    (0..=PAGE).chain([257, 4_096, usize::MAX])
}

/// Holds what a call writes into a page to the second implementation's page, cut after k bytes.
fn compare_page(what: &str, page: &Page, k: usize, write: impl Fn(&mut [u8], usize) -> u32) {
    let mut got = Guarded::new(k % 16, &[b'?'; PAGE]);
    assert_eq!(write(got.lent(), k), DONE, "{what}, k = {k}");
    let (got, expected) = (got.content(), cut(page, k.min(PAGE)));
    let wrong = (0..PAGE).find(|&at| got[at] != expected[at]);
    assert_eq!(wrong, None, "{what}, k = {k}: first wrong byte; got {:?}", text(got));
}

#[test]
fn cut_off_pages_agree() {
    for seed in 0..16 {
        let mut rng = Rng::new(seed);
        let file = rng.below(FILES);
        let (sequence, offset) = (random_number(&mut rng), rng.below(COUNTS[file]));
        let expected = Header::CutOff { sequence, file, offset }.page(&[b' '; PAYLOAD]);
        for k in cuts() {
            compare_page(&format!("seed {seed}"), &expected, k, |page, k| {
                page::cut_off(page, sequence, file as u32, offset as u32, k)
            });
        }
    }
}

// ---- Commits

fn random_commit(rng: &mut Rng) -> Commit {
    let letters = (0..POSITIONS).map(|_| [FREE, USED, DELETED][rng.below(3)]).collect();
    let entries = (0..PLACES)
        .map(|_| match rng.below(3) {
            0 => None,
            _ => Some(Entry { page: rng.below(4_096) as u16, key: rng.below(POSITIONS) as u16 }),
        })
        .collect();
    let (epoch, covered) = (random_number(rng), random_number(rng) - 1);
    Commit { epoch, covered, letters, entries }
}

/// The pages of the places, then their key positions.
fn map_of(commit: &Commit) -> Vec<u16> {
    let pages = commit.entries.iter().map(|entry| entry.map_or(NONE, |entry| entry.page));
    let keys = commit.entries.iter().map(|entry| entry.map_or(NONE, |entry| entry.key));
    pages.chain(keys).collect()
}

#[test]
fn commit_pages_agree() {
    for seed in 0..200 {
        let mut rng = Rng::new(seed);
        let commit = random_commit(&mut rng);
        let map = map_of(&commit);
        let given = page::Commit {
            epoch: commit.epoch,
            covered: commit.covered,
            map: &map,
            letters: &commit.letters,
        };
        for (part, expected) in commit.pages().iter().enumerate() {
            for k in [PAGE, rng.below(PAGE), rng.below(PAGE)] {
                compare_page(&format!("seed {seed}, part {part}"), expected, k, |page, k| {
                    page::commit_page(page, given, part as u32, k)
                });
            }
        }
    }
}

/// Whether the second implementation takes a payload as that of a part.
fn is_valid(bytes: &[u8], part: usize) -> bool {
    if part < LETTER_PARTS {
        bytes.iter().all(|&byte| is_letter(byte))
    } else {
        bytes.as_chunks().0.iter().all(|entry| parse_entry(entry).is_ok())
    }
}

#[test]
fn validity_of_commit_payloads_agrees() {
    for seed in 0..200 {
        let mut rng = Rng::new(seed);
        for (part, page) in random_commit(&mut rng).pages().iter().enumerate() {
            let mut bytes = payload(page).to_vec();
            for what in ["right", "damaged"] {
                for asked in [part, rng.below(PARTS)] {
                    assert_eq!(
                        page::commit_valid(&bytes, asked as u32),
                        u32::from(is_valid(&bytes, asked)),
                        "seed {seed}, {what} payload of part {part} as part {asked}",
                    );
                }
                damage(&mut rng, &mut bytes);
            }
        }
    }
}

// ---- Refusals

/// Lengths around the right ones.
const LENGTHS: [usize; 14] = [0, 1, 2, 5, 6, 7, 8, 15, 16, 30, 31, 224, 255, 256];

/// Every pair of lengths but the right one is refused, and changes nothing.
#[test]
fn other_lengths_are_refused() {
    let bytes = [b'?'; PAGE];
    for a in LENGTHS {
        for b in LENGTHS {
            let mut numbers = vec![9; b];
            if (a, b) != (PAGE, 6) {
                assert_eq!(page::form(&bytes[..a], &mut numbers), REFUSED, "form, {a} and {b}");
            }
            if (a, b) != (ENTRY, 2) {
                assert_eq!(page::entry(&bytes[..a], &mut numbers), REFUSED, "entry, {a} and {b}");
            }
            assert_eq!(numbers, vec![9; b]);
            let mut lent = Guarded::new(0, &bytes[..b]);
            if (a, b) != (6, HEADER) {
                assert_eq!(page::header(&vec![0; a], lent.lent()), REFUSED, "header, {a} and {b}");
            }
            assert_eq!(lent.content(), &bytes[..b]);
        }
    }
}

#[test]
fn writers_refuse_other_lengths() {
    let bytes = [b'?'; PAGE];
    for a in LENGTHS {
        let mut lent = Guarded::new(0, &bytes[..a]);
        if a != PAGE {
            assert_eq!(page::cut_off(lent.lent(), 1, 0, 0, PAGE), REFUSED, "cut-off, {a}");
        }
        if a != ENTRY {
            assert_eq!(page::write_entry(1, 1, lent.lent()), REFUSED, "entry, {a}");
        }
        if a != PAYLOAD {
            assert_eq!(page::commit_valid(lent.lent(), 0), REFUSED, "payload of a commit, {a}");
        }
        assert_eq!(lent.content(), &bytes[..a]);
    }
}

#[test]
fn commit_pages_refuse_other_lengths_and_parts() {
    let (map, letters, bytes) = ([0; 449], [FREE; 449], [b'?'; 257]);
    for (page_length, map_length, letters_length, part) in [
        (255, 448, 448, 0),
        (257, 448, 448, 0),
        (256, 447, 448, 0),
        (256, 449, 448, 9),
        (256, 448, 447, 2),
        (256, 448, 449, 2),
        (256, 448, 448, 10),
        (256, 448, 448, u32::MAX),
    ] {
        let commit = page::Commit {
            epoch: 1,
            covered: 0,
            map: &map[..map_length],
            letters: &letters[..letters_length],
        };
        let mut lent = Guarded::new(0, &bytes[..page_length]);
        assert_eq!(page::commit_page(lent.lent(), commit, part, PAGE), REFUSED);
        assert_eq!(lent.content(), &bytes[..page_length]);
    }
    assert_eq!(page::commit_valid(&letters[..PAYLOAD], 10), REFUSED);
}

#[test]
fn numbers_out_of_range_are_refused() {
    for (page, key) in [(65_536, 0), (0, 65_536), (u32::MAX, 0), (0, u32::MAX)] {
        let mut lent = Guarded::new(0, &[b'?'; ENTRY]);
        assert_eq!(page::write_entry(page, key, lent.lent()), REFUSED, "{page} and {key}");
        assert_eq!(lent.content(), [b'?'; ENTRY]);
    }
}
