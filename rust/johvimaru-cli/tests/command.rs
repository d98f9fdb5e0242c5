//! Each subcommand, as somebody types it.

mod common;

use common::{Folder, Numbers};
use johvimaru::{Cut, Form, Noise, Offset, Outcome, Payload, Refusal, Store, BLOCK, NOISE};
use std::fs;
use std::io::Write;
use std::path::Path;
use std::process::{Command, Stdio};

/// A mounted copy of an image.
fn mounted(image: Vec<u8>) -> Store<Vec<u8>> {
    Store::mount(image).unwrap()
}

fn at(file: u32, offset: u32) -> Offset {
    Offset::new(file, offset).unwrap()
}

#[test]
fn a_day_of_calls() {
    let folder = Folder::new("day");
    assert_eq!(folder.done("format --blocks 8"), "formatted: 8 blocks, all keys new\n");
    assert_eq!(folder.image().len(), 8 * BLOCK);
    assert_eq!(folder.done("write 0 0 one"), "written: file 0 offset 0, 3 bytes, page 48, key 0\n");
    assert_eq!(folder.done("write 2 5 two"), "written: file 2 offset 5, 3 bytes, page 49, key 1\n");
    assert_eq!(
        folder.done("write 0 0 three"),
        "written: file 0 offset 0, 5 bytes, page 50, key 2\n"
    );
    assert_eq!(folder.done("read 0 0"), "three");
    let listing = "   0   0    50     2\n   2   5    49     1\n     2   445     1\n";
    assert_eq!(folder.done("list"), listing);
    let removed = "removed: 1 node of file 2 from offset 3 on\n\
                   their keys are deleted, and on the image until a commit\n";
    assert_eq!(folder.done("cut-off 2 3"), removed);
    assert_eq!(folder.done("list"), "   0   0    50     2\n     1   445     2\n");
    let committed = "committed: each key that no node has is a new one\n";
    assert_eq!(folder.done("commit"), committed);
    assert_eq!(folder.done("list"), "   0   0    50     2\n     1   447     0\n");
    let wiped = "wiped: 1 node of file 0 from offset 0 on\n\
                 each key that no node has is a new one\n";
    assert_eq!(folder.done("wipe 0 0"), wiped);
    assert_eq!(folder.done("list"), "     0   448     0\n");
    assert_eq!(folder.done("mount"), "mounted: erased 5 empty blocks\n");
    assert_eq!(folder.names(), ["recorder.img"]);
}

#[test]
fn a_write_and_a_format_make_the_image() {
    for line in ["write 0 0 x", "format"] {
        let folder = Folder::new("first");
        let ran = folder.run(line);
        assert_eq!(ran.status, 0, "{line}: {}", ran.errors);
        assert_eq!(folder.image().len(), 32 * BLOCK, "{line}");
        mounted(folder.image());
        let made = "johvimaru: recorder.img was not there; made, 32 blocks\n";
        assert_eq!(ran.errors, if line == "format" { "" } else { made }, "{line}");
        assert_eq!(folder.names(), ["recorder.img"]);
    }
    let folder = Folder::new("first-cut");
    folder.done("format --blocks 8 --cut 9,100");
    assert_eq!(folder.image().len(), 8 * BLOCK);
    assert_eq!(folder.run("check").status, 1);
}

#[test]
fn payloads_from_words_and_from_standard_input() {
    let folder = Folder::new("payloads");
    folder.done("write 0 0 word");
    assert_eq!(mounted(folder.image()).read(at(0, 0)), Payload::new(b"word"));
    assert_eq!(folder.run_with("write 0 1 -", b"from input\n").status, 0);
    assert_eq!(folder.done("read 0 1"), "from input\n");
    assert_eq!(folder.run_with("write 0 2", &[0xfe; 224]).status, 0);
    assert_eq!(mounted(folder.image()).read(at(0, 2)), Payload::new(&[0xfe; 224]));
    let raw = folder.command(&["read", "0", "2", "--raw"]).output().unwrap();
    assert_eq!(raw.stdout, [0xfe; 224]);
    folder.run_words(&["write", "0", "3", "--", "--force of two words"]);
    assert_eq!(folder.done("read 0 3"), "--force of two words");
    let one = folder.run_words(&["write", "0", "4", " "]);
    assert!(one.printed.starts_with("written: file 0 offset 4, 1 byte, page "), "{}", one.printed);
    assert_eq!(folder.done("read 0 4"), " ");
    assert_eq!(folder.run_words(&["write", "0", "5", &"x".repeat(224)]).status, 0);
}

#[test]
fn what_check_says() {
    let folder = Folder::new("check");
    folder.done("format --blocks 8");
    folder.done("write 0 0 one");
    folder.done("write 0 9 two");
    folder.done("wipe 0 9 --cut 20,5");
    let before = folder.image();
    let said = "recorder.img: 8 blocks, 32768 bytes
live nodes: 1
  file 0: 1 of 32, offset 0
keys: 1 used, 446 free, 1 deleted
  a commit or a wipe replaces the deleted ones
next sequence 3, next epoch 3
key blocks 0 and 1 are in blocks 0 and 1, the commit in 4
pages that writes, cut-offs and gathers can still take: 62
data blocks: 1, the thinnest is block 3, 1 live page
a mount would erase 4 blocks: 3 empty, 1 no part of the store (2)
";
    let ran = folder.run("check");
    assert_eq!((ran.status, &ran.printed[..]), (4, said));
    assert_eq!(ran.errors, "johvimaru: left over: 1 deleted key, block 2 of a cut call\n");
    assert!(folder.image() == before, "check leaves the file as it is");
    let erased = "mounted: erased 4 blocks: 3 empty, 1 no part of the store (2)\n";
    assert_eq!(folder.done("mount"), erased);
    let ran = folder.run("check");
    assert!(ran.printed.ends_with("a mount would erase 4 empty blocks\n"), "{}", ran.printed);
    assert_eq!((ran.status, &ran.errors[..]), (4, "johvimaru: left over: 1 deleted key\n"));
    folder.done("commit");
    assert_eq!(folder.run("check").status, 0);
}

#[test]
fn what_list_and_check_say_as_json() {
    let folder = Folder::new("json");
    folder.done("format --blocks 8");
    folder.done("write 13 7 x");
    let listed = "{
  \"nodes\": [
    {
      \"file\": 13,
      \"offset\": 7,
      \"page\": 48,
      \"key\": 0,
      \"length\": 1
    }
  ],
  \"keys\": {
    \"used\": 1,
    \"free\": 447,
    \"deleted\": 0
  }
}
";
    assert_eq!(folder.done("list --json"), listed);
    let checked = folder.done("check --json");
    for line in [
        "  \"image\": \"recorder.img\",",
        "  \"blocks\": 8,",
        "  \"next_sequence\": 2,",
        "  \"commit_block\": 2,",
        "  \"pages_left\": 63,",
        "  \"thinnest_block\": 3,",
        "  \"blocks_without_live_page\": [],",
        "  \"would_erase\": {",
        "    \"empty\": 4,",
        "    \"no_part_of_the_store\": [],",
        "    \"data_without_live_page\": []",
        "  \"spoilt_pages\": []",
    ] {
        assert!(checked.lines().any(|printed| printed == line), "{line}\n{checked}");
    }
    folder.put("recorder.img", &[0xff; 8 * BLOCK]);
    for line in ["list --json", "check --json"] {
        let ran = folder.run(line);
        assert_eq!((ran.status, &ran.printed[..]), (1, "{\n  \"refused\": 13\n}\n"), "{line}");
    }
}

#[test]
fn the_version() {
    let folder = Folder::new("version");
    let said = format!("johvimaru {}\n", env!("CARGO_PKG_VERSION"));
    for line in ["--version", "-V", "version"] {
        assert_eq!(folder.done(line), said);
    }
    assert!(folder.done("help --man").starts_with(".TH JOHVIMARU 1 "));
}

#[test]
fn other_images_and_their_sizes() {
    let folder = Folder::new("sizes");
    for blocks in [8, 9, 255, 256] {
        folder.done(&format!("format --force --blocks {blocks} --image x.img"));
        assert_eq!(folder.bytes("x.img").len(), blocks * BLOCK);
    }
    folder.done("--image=x.img format --force");
    assert_eq!(folder.bytes("x.img").len(), 256 * BLOCK, "a format keeps the size");
    assert_eq!(folder.names(), ["x.img"]);
}

#[test]
fn a_link_to_the_image_is_followed() {
    let folder = Folder::new("link");
    fs::create_dir(folder.path.join("chips")).unwrap();
    folder.done("format --image chips/a.img");
    std::os::unix::fs::symlink("chips/a.img", folder.path.join("recorder.img")).unwrap();
    folder.done("write 0 0 x");
    assert!(folder.path.join("recorder.img").is_symlink());
    assert_eq!(folder.done("read 0 0 --image chips/a.img"), "x");
}

#[test]
fn help_for_each() {
    let folder = Folder::new("help");
    let all = folder.done("--help");
    for name in [
        "format",
        "mount",
        "write",
        "read",
        "cut-off",
        "gather",
        "commit",
        "wipe",
        "handover",
        "export",
        "import",
        "list",
        "check",
        "map",
        "diff",
        "bus-trace",
        "demo",
        "version",
    ] {
        assert!(all.contains(name), "{name}");
        let text = folder.done(&format!("{name} --help"));
        assert!(text.starts_with(&format!("johvimaru {name}")), "{name}");
        assert_eq!(folder.done(&format!("help {name}")), text);
    }
    assert_eq!(folder.names(), [""; 0], "help makes no image");
}

// ---- Cuts

/// The forms of an image's pages. They do not tell what keys it has.
fn forms(image: &[u8]) -> Vec<Form> {
    Form::all(image).collect()
}

fn other_noise() -> Noise {
    Noise::new(&[9; NOISE]).unwrap()
}

/// A call with a cut leaves pages of the forms that the library's own form leaves.
#[test]
fn cuts_in_every_call() {
    let start = Folder::new("cut-start");
    for line in ["format --blocks 9", "write 0 0 a", "write 2 5 b", "write 0 0 c", "write 1 1 d"] {
        start.done(line);
    }
    let image = start.image();
    type Form = fn(Store<Vec<u8>>, Cut) -> Outcome<Vec<u8>>;
    let calls: [(&str, Form); 6] = [
        ("write 0 1 e", |s, cut| s.write_cut(at(0, 1), b"e", cut).unwrap()),
        ("cut-off 0 0", |s, cut| s.cut_off_cut(at(0, 0), cut).unwrap()),
        ("gather 3", |s, cut| s.gather_cut(3, cut).unwrap()),
        ("commit", |s, cut| s.commit_cut(other_noise(), cut).unwrap()),
        ("wipe 2 0", |s, cut| s.wipe_cut(at(2, 0), other_noise(), cut).unwrap()),
        ("format --force", |s, cut| Store::format_cut(s.into_image(), other_noise(), cut).unwrap()),
    ];
    let folder = Folder::new("cuts");
    for (line, by_form) in calls {
        for (n, k) in [(0, 0), (0, 30), (0, 256), (1, 7), (10, 2_000), (20, 100), (44, 9), (99, 0)]
        {
            folder.put("recorder.img", &image);
            let ran = folder.run(&format!("{line} --cut {n},{k}"));
            assert_eq!(ran.status, 0, "{line} {n},{k}: {}", ran.errors);
            let expected = by_form(mounted(image.clone()), Cut { n, k });
            assert_eq!(forms(&folder.image()), forms(expected.image()), "{line} {n},{k}");
            let is_cut = ran.printed.contains("the power failed after");
            assert_eq!(is_cut, expected.is_cut(), "{line} {n},{k}: {}", ran.printed);
        }
    }
}

/// A write is the same every time, so its image is too.
#[test]
fn a_cut_write_byte_for_byte() {
    let folder = Folder::new("cut-write");
    folder.done("format --blocks 8");
    folder.done("write 0 0 old");
    let image = folder.image();
    for k in [0, 29, 30, 31, 255, 256, 300] {
        folder.put("recorder.img", &image);
        let printed = folder.done(&format!("write 0 0 new --cut 0,{k}"));
        let bytes = k.min(256);
        let said = format!("the power failed after 0 whole steps and {bytes} bytes of one more\n");
        assert_eq!(printed, said);
        let cut = mounted(image.clone()).write_cut(at(0, 0), b"new", Cut { n: 0, k }).unwrap();
        assert!(folder.image() == cut.image(), "{k}");
        assert_eq!(folder.done("read 0 0"), if k < 256 { "old" } else { "new" }, "{k}");
    }
}

#[test]
fn a_mount_that_is_cut_and_mounted_again() {
    let folder = Folder::new("cut-mount");
    folder.done("format --blocks 8");
    folder.done("commit --cut 3,100");
    let image = folder.image();
    let said = "the power failed after 0 whole steps and 5 bytes of one more\n";
    assert_eq!(folder.done("mount --cut 0,5"), said);
    let cut = Store::mount_cut(image, Cut { n: 0, k: 5 }).unwrap();
    assert!(folder.image() == cut.image());
    let erased = "mounted: erased 5 blocks: 4 empty, 1 no part of the store (3)\n";
    assert_eq!(folder.done("mount"), erased);
    // Each erase of an empty block is a step as well.
    let cut = "the power failed after 4 whole steps and 5 bytes of one more\n";
    assert_eq!(folder.done("mount --cut 4,5"), cut);
    let late = "mounted: erased 5 empty blocks\n\
                the call was done before the cut: it has 5 whole steps\n";
    assert_eq!(folder.done("mount --cut 5,0"), late);
}

/// A data block dies after a commit that covers all on it: the next mount erases it, and says so. Empty blocks are
/// told by `check` and `mount` alone.
#[test]
fn data_blocks_that_a_mount_erases() {
    let folder = Folder::new("covered");
    folder.done("format --blocks 8");
    folder.done("write 0 0 one");
    folder.done("commit");
    for write in 0..15 {
        folder.done(&format!("write 1 {write} x"));
    }
    folder.done("gather 3");
    let written = folder.done("write 0 0 two");
    assert!(written.starts_with("written: "), "block 3 has pages that no commit covers: {written}");
    folder.done("commit");
    folder.done("write 0 0 three");
    folder.done("gather 2");
    let ran = folder.run("check");
    let said = "a mount would erase 3 blocks: 2 empty, 1 data block without a live page (2)\n";
    assert!(ran.printed.ends_with(said), "{}", ran.printed);
    let json = folder.run("check --json").printed;
    assert!(json.contains("\"data_without_live_page\": [\n      2\n    ]"), "{json}");
    let image = folder.image();
    assert_eq!(
        folder.done("mount"),
        "mounted: erased 3 blocks: 2 empty, 1 data block without a live page (2)\n"
    );
    folder.put("recorder.img", &image);
    let committed = "mount: erased block 2, no live page there\n\
                     committed: each key that no node has is a new one\n";
    assert_eq!(folder.done("commit"), committed);
}

/// A call mounts first, and what that erases is erased even if the call is then refused. Where the arguments alone
/// are wrong, nothing is touched.
#[test]
fn each_call_mounts_first() {
    for (line, mounts) in [("cut-off 5 0", true), ("write 14 0 x", false), ("wipe 0 32", false)] {
        let folder = Folder::new("mounts");
        folder.done("format --blocks 8");
        folder.done("commit --cut 3,100");
        let before = folder.image();
        assert_eq!(folder.run(line).status, 1, "{line}");
        let expected = if mounts { mounted(before).into_image() } else { before };
        assert!(folder.image() == expected, "{line}");
    }
}

// ---- The listing

/// What the proved program prints for an image.
fn listing_program(image: &[u8]) -> String {
    let program = Path::new(env!("CARGO_MANIFEST_DIR")).join("../../crates/listing/out/listing");
    let mut child = Command::new(program)
        .stdin(Stdio::piped())
        .stdout(Stdio::piped())
        .spawn()
        .unwrap_or_else(|error| panic!("target/bin/listing, by `rt check listing`: {error}"));
    let _ = child.stdin.take().unwrap().write_all(image);
    String::from_utf8(child.wait_with_output().unwrap().stdout).unwrap()
}

/// `list` prints what the program of crates/listing prints, on images of random calls, on damaged ones,
/// and on what is no image.
#[test]
fn list_is_the_proved_listing() {
    let folder = Folder::new("listing");
    let mut numbers = Numbers(7);
    let mut refused = 0;
    for case in 0..40 {
        let blocks = 8 + numbers.below(9) as usize;
        let mut store = Store::format(vec![0; BLOCK * blocks], other_noise()).unwrap();
        for _ in 0..numbers.below(90) {
            let from = at(numbers.below(14) as u32, numbers.below(8) as u32);
            let _ = match numbers.below(12) {
                0 => store.cut_off(from),
                1 => store.commit(other_noise()),
                2 => store.wipe(from, other_noise()),
                length => store.write(from, &[b'x'; 224][..20 * length as usize]),
            };
        }
        let cut = Cut { n: numbers.below(50), k: numbers.below(300) as usize };
        let mut image = match store.commit_cut(other_noise(), cut) {
            Ok(outcome) => outcome.image().to_vec(),
            Err(refused) => refused.back.into_image(),
        };
        if case % 2 == 1 {
            let page = numbers.below(image.len() as u64 / 256) as usize;
            image[256 * page + numbers.below(30) as usize] ^= 1;
        }
        folder.put("recorder.img", &image);
        let ran = folder.run("list");
        refused += ran.status;
        assert_eq!(ran.printed, listing_program(&image), "case {case}");
        assert!(folder.image() == image, "list leaves the file as it is");
    }
    assert!(refused > 0, "no mount was refused");
    for wrong in [vec![], vec![0xff; 32_767], vec![0xff; 32_768]] {
        folder.put("recorder.img", &wrong);
        assert_eq!(folder.run("list").printed, listing_program(&wrong));
    }
}

// ---- The demo

#[test]
fn the_demo() {
    let folder = Folder::new("demo");
    let start = std::time::Instant::now();
    let text = folder.done("demo");
    assert!(start.elapsed().as_secs() < 10);
    for line in [
        "   mounted: file 2 offset 1 still reads \"track 51.97 N 4.11 E\"",
        "   the firm's payloads were under keys 0 1 2 3 4 5 6",
        "   found on the chip: 0 of their 7 texts, which are enciphered",
        "   found on the chip: 7 of these 7 keys",
        "   found on the chip: 2 of these 7 keys",
        "   found on the chip: 0 of these 7 keys",
        "   none of the 7 keys begins at any of the 32768 bytes",
    ] {
        assert!(text.lines().any(|printed| printed == line), "{line:?} is not in\n{text}");
    }
    assert_eq!(folder.names(), [""; 0], "the demo leaves no file");
}

/// Holds a session that docs/COMMAND.md shows, from its first call on, to what the command prints.
fn compare_session(name: &str, first_call: &str, lines: usize) {
    let top = Path::new(env!("CARGO_MANIFEST_DIR")).join("../..");
    let page = fs::read_to_string(top.join("docs/COMMAND.md")).unwrap();
    let prompt = "    $ johvimaru ";
    let session: Vec<&str> = page
        .lines()
        .skip_while(|line| line.strip_prefix(prompt) != Some(first_call))
        .take_while(|line| line.starts_with("    "))
        .collect();
    assert!(session.len() >= lines, "the session is there");
    let folder = Folder::new(name);
    let mut printed = Vec::new();
    for call in session.iter().filter_map(|line| line.strip_prefix(prompt)) {
        let script = format!("{} {call} 2>&1", env!("CARGO_BIN_EXE_johvimaru"));
        let output =
            Command::new("sh").args(["-c", &script]).current_dir(&folder.path).output().unwrap();
        printed.push(format!("{prompt}{call}"));
        let text = String::from_utf8(output.stdout).unwrap();
        printed.extend(text.lines().map(|line| format!("    {line}")));
    }
    assert_eq!(printed.join("\n"), session.join("\n"));
}

#[test]
fn the_sessions_of_the_documents() {
    compare_session("session", "write 0 0 \"draught 4.12 m\"", 20);
    compare_session("session-gather", "write 0 0 \"draught 4.12 m\" --image thin.img", 10);
    compare_session("session-bus", "format --blocks 8 --image bus.img", 20);
}

/// The refusals of a call have the documents' numbers and a sentence.
#[test]
fn refusals_of_calls() {
    let folder = Folder::new("refusals");
    folder.done("format --blocks 8");
    let before = folder.image();
    for (line, refusal) in [
        ("write 14 0 x", Refusal::NoSuchFile),
        ("write 13 8 x", Refusal::OffsetOutside),
        ("write 99999999999999999999 0 x", Refusal::NoSuchFile),
        ("read 14 0", Refusal::NoSuchFile),
        ("read 0 32", Refusal::OffsetOutside),
        ("read 0 31", Refusal::NothingThere),
        ("cut-off 0 0", Refusal::NothingThere),
        ("cut-off 14 0", Refusal::NoSuchFile),
        ("wipe 2 24", Refusal::OffsetOutside),
        ("format --blocks 7", Refusal::ImageSize),
        ("format --blocks 257", Refusal::ImageSize),
        ("format --blocks 99999999999", Refusal::ImageSize),
    ] {
        let ran = folder.run(line);
        let words = match refusal {
            Refusal::OffsetOutside => " has ".to_string(),
            _ => format!("{refusal}\n"),
        };
        let said = format!("johvimaru: refused {}: ", refusal.number());
        assert!(ran.errors.starts_with(&said) && ran.errors.contains(&words), "{}", ran.errors);
        assert_eq!((ran.status, ran.printed), (1, String::new()), "{line}");
        assert!(folder.image() == before, "{line}");
    }
    let outside = "johvimaru: refused 5: file 13 has 8 offsets, 0 to 7, and no 8\n";
    assert_eq!(folder.run("write 13 8 x").errors, outside);
    for write in 0..64 {
        folder.done(&format!("write 0 {} x", write % 32));
    }
    let full = folder.run("write 0 0 x");
    assert_eq!((full.status, &full.errors[..22]), (1, "johvimaru: refused 10:"));
}

/// No bytes and too many, from a word and from standard input.
#[test]
fn payloads_that_are_refused() {
    let folder = Folder::new("payloads-refused");
    folder.done("format --blocks 8");
    let before = folder.image();
    let many = "johvimaru: refused 6: a payload has at most 224 bytes, and this has more; \
                use two offsets\n";
    let none = "johvimaru: refused 6: there is nothing to write: a payload has 1 to 224 bytes; \
                cut-off or wipe removes what is there\n";
    let word = "x".repeat(225);
    for (ran, said) in [
        (folder.run_words(&["write", "0", "0", &word]), many),
        (folder.run_with("write 0 0 -", &[b'x'; 100_000]), many),
        (folder.run_with("write 0 0", word.as_bytes()), many),
        (folder.run_words(&["write", "0", "0", ""]), none),
        (folder.run_with("write 0 0 -", b""), none),
        (folder.run("write 0 0"), none),
    ] {
        assert_eq!((ran.status, &ran.errors[..]), (1, said));
        assert!(ran.printed.is_empty() && folder.image() == before);
    }
}
