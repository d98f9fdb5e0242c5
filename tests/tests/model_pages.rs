//! Page forms of document 01 in the second implementation: headers, entries and forms, right and
//! damaged ones.

use johvimaru_tests::model::blocks::{self, Commit, Kind};
use johvimaru_tests::model::files::{self, COUNTS, FILES, PLACES};
use johvimaru_tests::model::keys::{Slot, POSITIONS};
use johvimaru_tests::model::pages::{
    length_of, parse_entry, parse_field, payload, spell_entry, spell_field, Entry, Form, Header,
    Misspelt, Page, EMPTY, ENTRY, HEADER, PAGE, PAYLOAD,
};
use johvimaru_tests::rng::Rng;

// ---- Cases of the document

#[test]
fn p1_a_node() {
    assert_eq!(
        Header::parse(b"N       7  2   5  31       0: "),
        Some(Header::Node { sequence: 7, file: 2, offset: 5, key: 31, second: 0 }),
    );
}

/// The second number of a node is its payload's length; 0 is an older recorder's, for 224.
#[test]
fn lengths_of_nodes() {
    for second in 0..=300 {
        let node = Header::Node { sequence: 7, file: 2, offset: 5, key: 31, second };
        let parsed = Header::parse(format!("N       7  2   5  31{second:8}: ").as_bytes());
        assert_eq!(parsed, (second <= 224).then_some(node), "second number {second}");
    }
    assert_eq!([0, 1, 40, 223, 224].map(length_of), [224, 1, 40, 223, 224]);
    for second in
        ["      01", "     024", "      4 ", " 22     ", "       -", "        ", "99999999"]
    {
        let header = format!("N       7  2   5  31{second}: ");
        assert_eq!(Header::parse(header.as_bytes()), None, "{header}");
    }
}

#[test]
fn p2_leading_zeros() {
    assert_eq!(Header::parse(b"N       7  2   50031       0: "), None);
}

#[test]
fn p3_p4_p5_key_positions() {
    assert_eq!(Slot::of(223), Slot { block: 0, page: 15, slot: 13 });
    assert_eq!(Slot::of(224), Slot { block: 1, page: 0, slot: 0 });
    assert_eq!(Slot::of(239), Slot { block: 1, page: 1, slot: 1 });
}

/// A commit block with the entry of file 2, offset 5 alone: it is at place 69, so in part 4, bytes 104
/// to 111.
#[test]
fn p6_place_of_an_entry() {
    assert_eq!(files::place(2, 5), Some(69));
    let mut entries = vec![None; PLACES];
    entries[69] = Some(Entry { page: 49, key: 1 });
    let letters = vec![b'f'; POSITIONS];
    let pages = Commit { epoch: 1, covered: 0, letters, entries }.pages();
    for (part, page) in pages.iter().enumerate().skip(2) {
        for (number, bytes) in payload(page).chunks(ENTRY).enumerate() {
            let expected = if (part, 8 * number) == (4, 104) { b"  49   1" } else { b"   -   -" };
            assert_eq!(bytes, expected, "part {part}, bytes from {}", 8 * number);
        }
    }
}

// ---- Fields

/// A field is right exactly if the standard library spells its number so.
#[test]
fn fields_are_spelt_in_one_way() {
    let alphabet = b" 019-+:\xff";
    for width in 1..=4 {
        for index in 0..alphabet.len().pow(width) {
            let columns: Vec<u8> = (0..width)
                .map(|column| alphabet[index / alphabet.len().pow(column) % alphabet.len()])
                .collect();
            let number = std::str::from_utf8(&columns).ok().and_then(|text| {
                let number: u32 = text.trim_start_matches(' ').parse().ok()?;
                (format!("{number:width$}", width = width as usize) == text).then_some(number)
            });
            assert_eq!(parse_field(&columns), number, "{columns:?}");
        }
    }
}

#[test]
fn fields_come_back() {
    let mut rng = Rng::new(1);
    let random = (0..20_000).map(|_| {
        let digits = 1 + rng.below(8) as u32;
        rng.below(10_usize.pow(digits)) as u32
    });
    for number in [0, 9, 10, 99_999_999].into_iter().chain(random) {
        let mut columns = [b'x'; 8];
        spell_field(&mut columns, number);
        assert_eq!(columns, format!("{number:8}").as_bytes());
        assert_eq!(parse_field(&columns), Some(number));
    }
}

// ---- Headers

/// The bytes of a header by the standard library.
fn text(header: Header) -> String {
    let columns = |kind, number: u32, unit: usize, part: usize, key: usize, second: u32| {
        format!("{kind}{number:8}{unit:3}{part:4}{key:4}{second:8}: ")
    };
    match header {
        Header::Node { sequence, file, offset, key, second } => {
            columns('N', sequence, file, offset, key, second)
        }
        Header::CutOff { sequence, file, offset } => columns('D', sequence, file, offset, 0, 0),
        Header::Keys { epoch, block, page } => columns('K', epoch, block, page, 0, 0),
        Header::Commit { epoch, part, covered } => columns('C', epoch, 0, part, 0, covered),
    }
}

/// Headers of each kind, with fields at the ends of their ranges.
fn edge_headers() -> Vec<Header> {
    let numbers = [1, 9, 10, 12_345_678, 99_999_999];
    let mut headers = Vec::new();
    for number in numbers {
        for file in [0, 2, 9, 10, FILES - 1] {
            for offset in [0, COUNTS[file] / 2, COUNTS[file] - 1] {
                headers.push(Header::CutOff { sequence: number, file, offset });
                for (key, second) in [(0, 0), (31, 9), (99, 40), (POSITIONS - 1, 224)] {
                    headers.push(Header::Node { sequence: number, file, offset, key, second });
                }
            }
        }
        for page in [0, 9, 10, 15] {
            headers.push(Header::Keys { epoch: number, block: 0, page });
            headers.push(Header::Keys { epoch: number, block: 1, page });
        }
        for part in [0, 1, 2, 9] {
            for covered in [0, 1, 99_999_999] {
                headers.push(Header::Commit { epoch: number, part, covered });
            }
        }
    }
    headers
}

fn random_header(rng: &mut Rng) -> Header {
    let digits = 1 + rng.below(8) as u32;
    let number = 1 + rng.below(10_usize.pow(digits) - 1) as u32;
    let file = rng.below(FILES);
    let offset = rng.below(COUNTS[file]);
    match rng.below(4) {
        0 => {
            let (key, second) = (rng.below(POSITIONS), rng.below(PAYLOAD + 1) as u32);
            Header::Node { sequence: number, file, offset, key, second }
        }
        1 => Header::CutOff { sequence: number, file, offset },
        2 => Header::Keys { epoch: number, block: rng.below(2), page: rng.below(16) },
        _ => {
            let covered = rng.below(100_000_000) as u32;
            Header::Commit { epoch: number, part: rng.below(10), covered }
        }
    }
}

/// No bytes but those that a header spells are that header.
fn check_bytes(bytes: &[u8]) {
    if let Some(header) = Header::parse(bytes) {
        assert_eq!(header.spell(), bytes[..HEADER], "{header:?}");
    }
}

#[test]
fn headers_come_back() {
    let mut rng = Rng::new(2);
    let random: Vec<Header> = (0..20_000).map(|_| random_header(&mut rng)).collect();
    for header in edge_headers().into_iter().chain(random) {
        assert_eq!(header.spell(), text(header).as_bytes(), "{header:?}");
        assert_eq!(Header::parse(&header.spell()), Some(header));
    }
}

#[test]
fn every_change_of_one_byte() {
    let mut still_headers = 0;
    for header in edge_headers() {
        let right = header.spell();
        for at in 0..HEADER {
            for byte in (0..=255).filter(|&byte| byte != right[at]) {
                let mut changed = right;
                changed[at] = byte;
                check_bytes(&changed);
                still_headers += usize::from(Header::parse(&changed).is_some());
            }
        }
    }
    assert!(
        still_headers > 1000,
        "a change of a digit often gives another header: {still_headers}"
    );
}

#[test]
fn random_changes() {
    let characters = b" 0123456789NDKC:-\xff";
    for seed in 0..200_000 {
        let mut rng = Rng::new(seed);
        let mut bytes = random_header(&mut rng).spell();
        for _ in 0..1 + rng.below(4) {
            bytes[rng.below(HEADER)] = characters[rng.below(characters.len())];
        }
        check_bytes(&bytes);
    }
}

/// Each field one step outside its range, and each unused field not 0.
#[test]
fn fields_out_of_range() {
    for bytes in [
        b"N       0  2   5  31       0: ",
        b"N       7 14   0  31       0: ",
        b"N       7  0  32  31       0: ",
        b"N       7  2  24  31       0: ",
        b"N       7 13   8  31       0: ",
        b"N       7  2   5 448       0: ",
        b"N       7  2   5  31     225: ",
        b"D       0  2   5   0       0: ",
        b"D       7 14   0   0       0: ",
        b"D       7 13   8   0       0: ",
        b"D       7  2   5   1       0: ",
        b"D       7  2   5   0       1: ",
        b"K       0  0   0   0       0: ",
        b"K       1  2   0   0       0: ",
        b"K       1  1  16   0       0: ",
        b"K       1  1  15   1       0: ",
        b"K       1  1  15   0       1: ",
        b"C       0  0   0   0       0: ",
        b"C       1  1   0   0       0: ",
        b"C       1  0  10   0       0: ",
        b"C       1  0   0   1       0: ",
        b"M       1  0   0   0       0: ",
        b"n       7  2   5  31       0: ",
        b"N       7  2   5  31       0 :",
        b"N       7  2   5  31       0:\0",
        b"N7         2   5  31       0: ",
        b"N          2   5  31       0: ",
        b"N      +7  2   5  31       0: ",
    ] {
        assert_eq!(Header::parse(bytes), None, "{}", String::from_utf8_lossy(bytes));
    }
}

#[test]
fn too_few_bytes() {
    let header = Header::CutOff { sequence: 1, file: 0, offset: 0 }.spell();
    for length in 0..HEADER {
        assert_eq!(Header::parse(&header[..length]), None);
    }
}

// ---- Forms

/// A page cut at every byte, with a payload that begins and ends like an erased one.
#[test]
fn forms_of_a_cut_page() {
    let mut payload = [0xff; PAYLOAD];
    payload[100] = 0;
    for header in edge_headers().into_iter().step_by(7) {
        let page = header.page(&payload);
        for bytes in 0..=PAGE {
            let mut cut = EMPTY;
            cut[..bytes].copy_from_slice(&page[..bytes]);
            let expected = match bytes {
                0 => Form::Empty,
                1..=29 => Form::Spoilt,
                30..=255 => Form::Torn(header),
                _ => Form::Whole(header),
            };
            assert_eq!(Form::of(&cut), expected, "{header:?} cut at {bytes}");
        }
    }
}

/// The erased part of a page at its start makes it spoilt, at its end torn.
#[test]
fn forms_of_damaged_pages() {
    let header = Header::Keys { epoch: 3, block: 1, page: 15 };
    let page = header.page(&[b'k'; PAYLOAD]);
    let changed = |at: usize, byte: u8| -> Page {
        let mut page = page;
        page[at] = byte;
        page
    };
    for at in 0..PAGE {
        let form = Form::of(&changed(at, 0xff));
        let expected = match at {
            0..=29 => Form::Spoilt,
            30..=253 => Form::Whole(header),
            _ => Form::Torn(header),
        };
        assert_eq!(form, expected, "byte {at}");
    }
    let mut lone = EMPTY;
    lone[PAGE - 1] = 0x0a;
    assert_eq!(Form::of(&lone), Form::Spoilt);
}

// ---- Entries and letters

#[test]
fn entries_come_back() {
    assert_eq!(parse_entry(b"   -   -"), Ok(None));
    assert_eq!(spell_entry(None), *b"   -   -");
    for page in 0..4_096 {
        for key in [0, 1, 9, 10, 99, 100, 447, page % 448] {
            let bytes = spell_entry(Some(Entry { page, key }));
            assert_eq!(bytes, format!("{page:4}{key:4}").as_bytes());
            assert_eq!(parse_entry(&bytes), Ok(Some(Entry { page, key })));
        }
    }
}

#[test]
fn wrong_entries() {
    for bytes in [
        b"4096   0",
        b"   0 448",
        b"   -   0",
        b"   0   -",
        b"        ",
        b"  -    -",
        b"  01   0",
        b"   0  01",
        b"   0    ",
        b"    0   ",
        b"-1     0",
        b"\xff\xff\xff\xff\xff\xff\xff\xff",
    ] {
        assert_eq!(parse_entry(bytes), Err(Misspelt), "{}", String::from_utf8_lossy(bytes));
    }
}

#[test]
fn damaged_entries() {
    let characters = b" 0123456789-\xff";
    for seed in 0..200_000 {
        let mut rng = Rng::new(seed);
        let entry = Entry { page: rng.below(4_096) as u16, key: rng.below(448) as u16 };
        let mut bytes = spell_entry(Some(entry).filter(|_| seed % 10 > 0));
        for _ in 0..1 + rng.below(3) {
            bytes[rng.below(ENTRY)] = characters[rng.below(characters.len())];
        }
        if let Ok(entry) = parse_entry(&bytes) {
            assert_eq!(spell_entry(entry), bytes, "seed {seed}");
        }
    }
}

// ---- Blocks

/// A block of these pages, then empty ones.
fn block(pages: &[Page]) -> Vec<Page> {
    let mut block = pages.to_vec();
    block.resize(16, EMPTY);
    block
}

fn kind(pages: &[Page]) -> Kind {
    blocks::kind(pages, &blocks::forms(pages))
}

fn some_commit() -> Commit {
    let mut rng = Rng::new(3);
    let letters = (0..POSITIONS).map(|_| b"fud"[rng.below(3)]).collect();
    let entry = |rng: &mut Rng| Entry { page: rng.below(4_096) as u16, key: rng.below(448) as u16 };
    let entries = (0..PLACES).map(|_| (rng.below(2) == 0).then(|| entry(&mut rng))).collect();
    Commit { epoch: 12, covered: 345, letters, entries }
}

#[test]
fn commit_blocks_come_back() {
    let commit = some_commit();
    assert_eq!(kind(&block(&commit.pages())), Kind::Commit(commit));
}

#[test]
fn key_blocks_come_back() {
    let keys = Rng::new(4).bytes(3_584);
    for number in [0, 1] {
        let pages = blocks::key_pages(number, 7, &keys);
        assert_eq!(kind(&pages), Kind::Keys { number, epoch: 7 });
        let payloads: Vec<u8> = pages.iter().flat_map(|page| payload(page).to_vec()).collect();
        assert_eq!(payloads, keys);
    }
}

/// A commit block is not whole with any one letter, entry, header or closing spoilt, with a page missing
/// or from another commit, or with a page after its last part that is not empty.
#[test]
fn commit_blocks_that_are_not_whole() {
    let right = block(&some_commit().pages());
    let other = block(&Commit { epoch: 13, ..some_commit() }.pages());
    let covers_other = block(&Commit { covered: 346, ..some_commit() }.pages());
    for page in 0..10 {
        for replacement in [EMPTY, other[page], covers_other[page], right[(page + 1) % 10]] {
            let mut pages = right.clone();
            pages[page] = replacement;
            assert_eq!(kind(&pages), Kind::Other, "page {page}");
        }
        for at in 0..PAGE {
            let mut pages = right.clone();
            pages[page][at] = b'x';
            assert_eq!(kind(&pages), Kind::Other, "page {page}, byte {at}");
        }
    }
    for page in 10..16 {
        let mut pages = right.clone();
        pages[page][255] = 0;
        assert_eq!(kind(&pages), Kind::Other, "page {page}");
    }
}

/// A key block is not whole with any one header or closing spoilt, or a page missing or from another
/// one. Its keys may be any bytes.
#[test]
fn key_blocks_that_are_not_whole() {
    let keys = [0xff; 3_584];
    let right = blocks::key_pages(0, 7, &keys);
    let other_epoch = blocks::key_pages(0, 8, &keys);
    let other_number = blocks::key_pages(1, 7, &keys);
    for page in 0..16 {
        let others = [EMPTY, other_epoch[page], other_number[page], right[(page + 1) % 16]];
        for replacement in others {
            let mut pages = right.clone();
            pages[page] = replacement;
            assert_eq!(kind(&pages), Kind::Other, "page {page}");
        }
        for at in 0..PAGE {
            let mut pages = right.clone();
            pages[page][at] = b'x';
            let is_key = (HEADER..HEADER + PAYLOAD).contains(&at);
            assert_eq!(kind(&pages) == kind(&right), is_key, "page {page}, byte {at}");
        }
    }
}

#[test]
fn data_blocks() {
    let node = Header::Node { sequence: 1, file: 0, offset: 0, key: 0, second: 40 };
    let cut_off = Header::CutOff { sequence: 1, file: 0, offset: 0 };
    for header in [node, cut_off] {
        for closing in [0x0a, 0xff] {
            for page in 0..16 {
                let mut pages = vec![EMPTY; 16];
                pages[page] = header.page(&[0; PAYLOAD]);
                pages[page][PAGE - 1] = closing;
                assert_eq!(kind(&pages), Kind::Data);
                assert!(blocks::is_data(&pages));
                pages[page][0] = 0xff;
                assert_eq!(kind(&pages), Kind::Other);
                assert!(!blocks::is_data(&pages));
            }
        }
    }
    assert_eq!(kind(&[EMPTY; 16]), Kind::Empty);
}
