//! What `{:?}` shows of each public type: no byte of a key, and none of a payload.
#![cfg(all(feature = "cut", feature = "std"))]

use johvimaru::{
    raw, Bus, BusChip, BusError, Cut, CutChip, CutError, Cycle, Cycles, Driver, Failure, File,
    FileChip, Form, Mark, MemoryChip, Misuse, ModelBus, Noise, Offset, Outcome, Payload, Refusal,
    Refused, Step, Store, BLOCK, NOISE, PAGE,
};
use std::collections::BTreeSet;
use std::fmt::Debug;
use std::fs;
use std::path::{Path, PathBuf};

/// Each byte of the keys, and each of the payloads: so any four of them are the same four.
const KEY_BYTE: u8 = b'K';
const PAYLOAD_BYTE: u8 = b'P';

/// Whether a text has four of these bytes after each other: as a list of numbers, hexadecimal or as text.
fn has_run(text: &str, byte: u8) -> bool {
    let plain: String = text.chars().filter(char::is_ascii_alphanumeric).collect();
    let plain = plain.to_lowercase();
    let forms = [
        format!("{byte}"),
        format!("{byte:02x}"),
        format!("x{byte:02x}"),
        format!("0x{byte:02x}"),
        char::from(byte).to_lowercase().to_string(),
    ];
    forms.iter().any(|form| plain.contains(&form.repeat(4)))
}

#[test]
fn runs_of_bytes_are_found_in_every_form() {
    let (four, three) = ([KEY_BYTE; 4], [KEY_BYTE; 3]);
    let spelt = |bytes: &[u8]| {
        let text = String::from_utf8(bytes.to_vec()).unwrap();
        let hex: String = bytes.iter().map(|byte| format!("{byte:02x}")).collect();
        let escaped: String = bytes.iter().map(|byte| format!("\\x{byte:02X}")).collect();
        let lists = [format!("{bytes:?}"), format!("{bytes:#?}"), format!("{bytes:x?}")];
        let more = [format!("{bytes:#04X?}"), format!("{bytes:#x?}"), format!("{text:?}")];
        [&lists[..], &more, &[text, hex, escaped]].concat()
    };
    assert!(spelt(&four).iter().all(|text| has_run(text, KEY_BYTE)), "{:?}", spelt(&four));
    assert!(!spelt(&three).iter().any(|text| has_run(text, KEY_BYTE)), "{:?}", spelt(&three));
    assert!(!spelt(&four).iter().any(|text| has_run(text, PAYLOAD_BYTE)));
}

/// The name of a type, and what `{:?}` and `{:#?}` show of a value.
fn shown<T: Debug>(value: T) -> (String, String) {
    let path = std::any::type_name::<T>();
    let path = path.split('<').next().unwrap_or(path);
    (path.rsplit("::").next().unwrap_or(path).to_string(), format!("{value:?}\n{value:#?}\n"))
}

fn noise() -> Noise {
    Noise::new(&[KEY_BYTE; NOISE]).unwrap()
}

fn written() -> Store<Vec<u8>> {
    let mut store = Store::format(vec![0; 8 * BLOCK], noise()).unwrap();
    store.write(Offset::new(2, 5).unwrap(), &[PAYLOAD_BYTE; 224]).unwrap();
    store
}

/// What holds an image, or bytes that may be one.
fn holders(image: &[u8], file: &Path) -> Vec<(String, String)> {
    let mut bytes = image.to_vec();
    let mut record = raw::Record::blank();
    assert_eq!(raw::mount(&mut bytes, &mut record, &mut [0; 224]), raw::DONE);
    let chip = MemoryChip::new(bytes.clone());
    let mut driver = Driver::new(CutChip::new(chip.clone()));
    driver.mount().unwrap();
    let in_file = || FileChip::open(file).unwrap();
    let mut driver_in_file = Driver::new(in_file());
    driver_in_file.mount().unwrap();
    let cut = written().commit_cut(noise(), Cut { n: 3, k: 60 }).unwrap();
    let Outcome::Cut(unmounted) = cut.clone() else { panic!("a commit has more steps") };
    vec![
        shown(written()),
        shown(Store::mount(&mut bytes[..]).unwrap()),
        shown(written().record().clone()),
        shown(record),
        shown(chip.clone()),
        shown(CutChip::new(chip)),
        shown(in_file()),
        shown(CutChip::new(in_file())),
        shown(driver),
        shown(driver_in_file),
        shown(Outcome::Done(written())),
        shown(cut),
        shown(unmounted),
        shown(Step::between(&vec![0xff; image.len()], image).unwrap()),
        shown(Step::Program { page: 3, bytes: Box::new([PAYLOAD_BYTE; PAGE]) }),
        shown(Step::Erase { block: 3 }),
        shown(Refused { refusal: Refusal::NoCommit, back: image.to_vec() }),
        shown(Refused { refusal: Refusal::NoRoom, back: written() }),
        shown(noise()),
    ]
}

/// What belongs to a bus, over which bytes of a page have gone.
fn on_a_bus(image: &[u8]) -> Vec<(String, String)> {
    let page = [KEY_BYTE; PAGE];
    let cycles = || Cycles::program(127, &page).unwrap();
    let mut bus = ModelBus::new(image.to_vec());
    let mut registers = raw::Registers::reset();
    for cycle in cycles().take(200) {
        bus.send(cycle).unwrap();
        let (mark, byte) = (cycle.mark as u32, cycle.byte);
        assert_eq!(raw::model_send(&mut image.to_vec(), &mut registers, mark, byte), raw::DONE);
    }
    assert!(has_run(&format!("{:?}", registers.page), KEY_BYTE), "the page register has keys");
    vec![
        shown(bus.clone()),
        shown(BusChip::new(bus, 8)),
        shown(registers),
        shown(cycles()),
        shown(Mark::Data),
        shown(Cycle::data(KEY_BYTE)),
        shown(Cycle::command(0xff)),
        shown(BusError::Bus(Refusal::ImageSize)),
        // Several of them, as they would be shown after each other.
        ("Cycle".into(), format!("{:?}", cycles().skip(7).take(50).collect::<Vec<_>>())),
    ]
}

/// What is small, and tells of an image.
fn small(image: &[u8]) -> Vec<(String, String)> {
    let store = written();
    let mut all = vec![
        shown(store.record().nodes().next().unwrap()),
        shown(store.record().counts()),
        shown(store.record().letter(0)),
        shown(Offset::new(2, 5).unwrap()),
        shown(File::new(2).unwrap()),
        shown(Payload::new(&[PAYLOAD_BYTE; 40]).unwrap()),
        shown(store.read(Offset::new(2, 5).unwrap()).unwrap()),
        shown(Cut { n: 1, k: 2 }),
        shown(Failure::Chip(CutError::Chip(Misuse::NotEmpty))),
        shown(CutError::Chip(Misuse::Outside)),
        shown(Misuse::NotEmpty),
    ];
    all.extend(Refusal::all().map(shown));
    all.extend(Form::all(image).map(shown));
    all.extend(Form::all(image).filter_map(Form::header).map(shown));
    all
}

/// The names of the public types in the sources of a folder.
fn public_types(folder: &Path) -> BTreeSet<String> {
    let mut names = BTreeSet::new();
    for entry in fs::read_dir(folder).unwrap() {
        let path = entry.unwrap().path();
        if path.is_dir() {
            names.extend(public_types(&path));
            continue;
        }
        let text = fs::read_to_string(&path).unwrap();
        let starts = ["pub struct ", "pub enum ", "pub union "];
        let types = text.lines().filter_map(|line| {
            let rest = starts.iter().find_map(|start| line.strip_prefix(start))?;
            rest.split(|letter: char| !letter.is_alphanumeric()).next()
        });
        names.extend(types.map(String::from));
    }
    names
}

#[test]
fn no_public_type_shows_keys_or_payloads() {
    let file = PathBuf::from(env!("CARGO_TARGET_TMPDIR")).join("debug.img");
    let image = written().into_image();
    assert!(has_run(&format!("{image:?}"), KEY_BYTE), "the keys are on the image");
    fs::write(&file, &image).unwrap();
    let all = [holders(&image, &file), on_a_bus(&image), small(&image)].concat();
    fs::remove_file(&file).unwrap();
    for (name, text) in &all {
        assert!(!has_run(text, KEY_BYTE), "a key in {name}: {text}");
        assert!(!has_run(text, PAYLOAD_BYTE), "a payload in {name}: {text}");
        assert!(text.len() < 1_200, "{name} is long: {text}");
    }
    let names: BTreeSet<String> = all.into_iter().map(|(name, _)| name).collect();
    assert_eq!(names, public_types(&Path::new(env!("CARGO_MANIFEST_DIR")).join("src")));
}

/// What is shown instead.
#[test]
fn counts_and_numbers_are_shown() {
    let store = written();
    let record = "Record { nodes: 1, keys: KeyCounts { used: 1, free: 447, deleted: 0 }, \
                  next_sequence: 2, next_epoch: 2, key_blocks: [0, 1], commit_block: 2 }";
    assert_eq!(format!("{store:?}"), format!("Store {{ record: {record}, .. }}"));
    let mut driver = Driver::new(MemoryChip::new(store.into_image()));
    assert_eq!(format!("{driver:?}"), "Driver { blocks: 0, record: None, .. }");
    driver.mount().unwrap();
    let expected = format!("Driver {{ blocks: 8, record: Some({record}), .. }}");
    assert_eq!(format!("{driver:?}"), expected);
    assert_eq!(format!("{:?}", driver.chip()), "MemoryChip { blocks: 8, .. }");
    let blank = "Record { map: 448 (448 none), letters: 448 (448 f, 0 u, 0 d), \
                 numbers: [0, 0, 0, 0, 0] }";
    assert_eq!(format!("{:?}", raw::Record::blank()), blank);
    let step = Step::Program { page: 3, bytes: Box::new([0; PAGE]) };
    assert_eq!(format!("{step:?}"), "Program { page: 3, .. }");
    assert_eq!(format!("{:?}", step.cycles().unwrap()), "Cycles { page: 3, left: 265, .. }");
    let cycles = [Cycle::command(0xff), Cycle::address(0x0a), Cycle::data(7)];
    assert_eq!(format!("{cycles:?}"), "[Command(ffh), Address(0ah), Data]");
    assert_eq!(format!("{:?}", noise()), "Noise");
    for (bytes, shown) in [(&b"P"[..], "Payload(1 byte)"), (&[0; 224], "Payload(224 bytes)")] {
        assert_eq!(format!("{:?}", Payload::new(bytes).unwrap()), shown);
    }
}
