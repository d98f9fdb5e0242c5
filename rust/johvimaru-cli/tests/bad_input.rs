//! Words that are not understood, and files that are no images.

mod common;

use common::{Folder, Numbers};
use johvimaru::BLOCK;
use std::ffi::OsString;
use std::fs;
use std::os::unix::ffi::OsStringExt;

/// All calls on an image.
const CALLS: [&str; 16] = [
    "format",
    "mount",
    "write 0 0 x",
    "read 0 0",
    "cut-off 0 0",
    "commit",
    "wipe 0 0",
    "list",
    "check",
    "map",
    "export 0",
    "import 0",
    "handover",
    "bus-trace mount",
    "bus-trace write 0 0 x",
    "bus-trace commit",
];

/// Lines that are not understood.
const WRONG: [&str; 73] = [
    "",
    "forget",
    "--cut 1,2",
    "write",
    "write 0",
    "write 0 x y",
    "write 0 0 x y",
    "write zero 0 x",
    "write -1 0 x",
    "write 0 0 x --cut",
    "write 0 0 x --cut 1",
    "write 0 0 x --cut 1,",
    "write 0 0 x --cut ,1",
    "write 0 0 x --cut 1,2,3",
    "write 0 0 x --cut -1,2",
    "write 0 0 x --cut one,two",
    "read 0",
    "read 0 0 0",
    "read 0 0 --cut 1,2",
    "cut-off 0",
    "commit 1",
    "commit --force",
    "wipe",
    "format 8",
    "format --blocks",
    "format --blocks eight",
    "format --blocks 8 --blocks 9",
    "format --force=yes",
    "list all",
    "list --raw",
    "check --image",
    "map --before a",
    "map --after a",
    "map --before a --after b --image c",
    "map picture.svg",
    "map --svg",
    "map --svg=",
    "map --svg recorder.img",
    "map --cut 1,2",
    "demo fast",
    "help forget",
    "help write read",
    "help --man write",
    "-x",
    "--image",
    "export",
    "export x",
    "export 0 1",
    "import 0 --raw",
    "import --text",
    "handover 0",
    "handover --keep",
    "handover --keep x",
    "handover --keep 1,",
    "handover --report=",
    "version 2",
    "list --json=yes",
    "gather",
    "gather x",
    "gather 3 4",
    "gather 3 --thinnest",
    "gather --thinnest=3",
    "gather --thin",
    "bus-trace",
    "bus-trace --image x",
    "bus-trace forget",
    "bus-trace read 0 0",
    "bus-trace bus-trace mount",
    "bus-trace write 0",
    "bus-trace write 0 0 x y",
    "bus-trace commit --cut 1,2",
    "bus-trace commit --json",
    "bus-trace --cut 1,2 commit",
];

/// What was meant is told where it can be guessed.
#[test]
fn words_that_were_meant() {
    let folder = Folder::new("meant");
    for (line, said) in [
        ("wirte 0 0 x", "there is no \"wirte\"; is it write?"),
        ("help bustrace", "there is no \"bustrace\"; is it bus-trace?"),
        ("bus-trace cutoff 0 0", "there is no \"cutoff\"; is it cut-off?"),
        ("forget", "there is no \"forget\""),
    ] {
        let said = format!("johvimaru: {said}\n`johvimaru --help` says what there is.\n");
        assert_eq!(folder.run(line).errors, said, "{line}");
    }
}

#[test]
fn words_that_are_not_understood() {
    let folder = Folder::new("words");
    for line in WRONG {
        let ran = folder.run(line);
        assert_eq!((ran.status, ran.printed), (2, String::new()), "{line:?}: {}", ran.errors);
        assert!(ran.errors.starts_with("johvimaru: "), "{line:?}: {}", ran.errors);
        assert!(ran.errors.ends_with("`johvimaru --help` says what there is.\n"), "{line:?}");
    }
    assert_eq!(folder.names(), [""; 0], "nothing was made");
}

/// Words that the command knows.
const KNOWN: &str =
    "write read format list wipe gather commit handover export import check 0 1 13 - -- --cut 0,0 \
     --blocks 8 --image i.img --raw --help = --cut=1,1 --keep --json --text --version bus-trace";

/// Any bytes may stand among the words: the command answers, and does not fall over.
#[test]
fn random_words() {
    let folder = Folder::new("random-words");
    let mut numbers = Numbers(3);
    let known: Vec<&str> = KNOWN.split(' ').collect();
    for case in 0..300 {
        let words: Vec<OsString> = (0..numbers.below(6))
            .map(|_| match numbers.below(4) {
                0 => {
                    let length = numbers.below(5);
                    let byte = |_| 1 + numbers.below(255) as u8;
                    OsString::from_vec((0..length).map(byte).filter(|b| *b != b'/').collect())
                }
                _ => known[numbers.below(known.len() as u64) as usize].into(),
            })
            .collect();
        let ran = folder.run_words(&words);
        assert!((0..=4).contains(&ran.status), "case {case}, {words:?}: {}", ran.errors);
        assert!(!ran.errors.contains("panicked"), "case {case}, {words:?}: {}", ran.errors);
    }
}

/// A file that is no image is left alone by every call.
#[test]
fn files_that_are_no_images() {
    let folder = Folder::new("no-image");
    let random: Vec<u8> = (0..8 * BLOCK).map(|at| (at * 31 + at / 7) as u8).collect();
    for (bytes, number) in [
        (b"".to_vec(), 1),
        (b"a letter to the harbour master\n".to_vec(), 1),
        (vec![0xff; 7 * BLOCK], 1),
        (vec![0xff; 8 * BLOCK + 1], 1),
        (vec![0; 257 * BLOCK], 1),
        (random, 13),
        (vec![0; 8 * BLOCK], 13),
    ] {
        for line in CALLS {
            folder.put("recorder.img", &bytes);
            let ran = folder.run(line);
            if line == "format" && bytes.iter().all(|&byte| byte == 0xff) {
                // A file without anything in it may be formatted, whatever its size.
                assert_eq!(ran.status, 0, "{}", ran.errors);
                continue;
            }
            let said = format!("johvimaru: recorder.img: refused {number}: ");
            assert!(ran.errors.starts_with(&said), "{line}: {}", ran.errors);
            assert_eq!(ran.status, if line == "format" { 3 } else { 1 }, "{line}");
            match (line, number) {
                ("list", _) => assert_eq!(ran.printed, format!("{number:6}\n")),
                ("map", 13) => assert!(ran.printed.contains("mount refuses it, 13"), "{ran:?}"),
                ("handover", _) => {
                    let loud = format!("THE RECORDER MUST NOT BE HANDED OVER: {}", &said[11..]);
                    assert!(ran.printed.starts_with(&loud), "{ran:?}");
                }
                _ => assert_eq!(ran.printed, "", "{line}"),
            }
            assert!(folder.image() == bytes, "{line}: the file was changed");
            assert_eq!(folder.names(), ["recorder.img"], "{line}");
        }
    }
}

/// Only with --force is a file formatted that holds anything, and what it holds is told. An empty chip can be
/// formatted.
#[test]
fn a_format_over_something_else() {
    let folder = Folder::new("over");
    folder.put("recorder.img", &[b'x'; 9 * BLOCK]);
    let ran = folder.run("format");
    assert_eq!(ran.status, 3);
    assert!(ran.errors.ends_with("; `format --force` makes an empty store of it\n"), "{ran:?}");
    folder.done("format --force");
    assert_eq!(folder.image().len(), 9 * BLOCK);
    folder.done("write 0 0 x");
    folder.done("write 0 1 y");
    let before = folder.image();
    for line in ["format", "format --blocks 8", "format --cut 3,3"] {
        let said = "johvimaru: recorder.img holds a store with 2 live nodes, last sequence 2; \
                    `format --force` makes an empty store of it\n";
        let ran = folder.run(line);
        assert_eq!((ran.status, &ran.errors[..]), (3, said), "{line}");
        assert!(folder.image() == before, "{line}");
    }
    folder.put("recorder.img", b"too short");
    assert_eq!(folder.run("format").status, 3);
    folder.done("format --force");
    assert_eq!(folder.image().len(), 32 * BLOCK);
    folder.put("recorder.img", &[0xff; 10 * BLOCK]);
    folder.done("format");
    assert_eq!(folder.image().len(), 10 * BLOCK);
    folder.done("format --force --cut 20,9");
    assert_eq!(folder.run("format").status, 3, "a format that was cut left no image");
    folder.done("format --force");
    folder.done("check");
}

/// Where there is no file, only format and write make one; all other calls leave nothing behind.
#[test]
fn a_file_that_is_not_there() {
    let folder = Folder::new("not-there");
    for line in
        CALLS.iter().filter(|line| !line.starts_with("format") && !line.starts_with("write"))
    {
        let ran = folder.run(line);
        let said = "johvimaru: recorder.img is not there; \
                    check the name, or name the image file by --image\n";
        assert_eq!((ran.status, &ran.errors[..]), (3, said), "{line}");
        assert_eq!(ran.printed.is_empty(), *line != "handover", "{line}");
    }
    for line in ["write 14 0 x", "write 0 32 x", "format --blocks 7"] {
        assert_eq!(folder.run(line).status, 1, "{line}");
    }
    assert_eq!(folder.names(), [""; 0], "nothing was made");
    std::os::unix::fs::symlink("nowhere.img", folder.path.join("recorder.img")).unwrap();
    for line in CALLS {
        let ran = folder.run(line);
        let said = "johvimaru: recorder.img is a link to nothing\n";
        assert_eq!((ran.status, &ran.errors[..]), (3, said), "{line}");
    }
    assert!(folder.path.join("recorder.img").is_symlink());
}

#[test]
fn what_is_no_file() {
    let folder = Folder::new("no-file");
    fs::create_dir(folder.path.join("recorder.img")).unwrap();
    for line in CALLS {
        let ran = folder.run(line);
        assert_eq!(ran.status, 3, "{line}");
        assert_eq!(ran.errors, "johvimaru: recorder.img is no file\n", "{line}");
        let ran = folder.run(&format!("{line} --image nowhere/x.img"));
        assert_eq!(ran.status, 3, "{line}");
        let said = ["No such file", "is not there"].iter().any(|said| ran.errors.contains(said));
        assert!(said, "{line}: {}", ran.errors);
        let ran = folder.run(&format!("{line} --image /dev/null"));
        assert_eq!(ran.status, 3, "{line}");
        assert_eq!(ran.errors, "johvimaru: /dev/null is no file\n", "{line}");
    }
}

/// Standard output that takes nothing is a problem and no panic, and the call is done all the same.
#[test]
fn standard_output_that_takes_nothing() {
    let folder = Folder::new("full");
    let full = fs::OpenOptions::new().write(true).open("/dev/full").unwrap();
    let output = folder.command(&["write", "0", "0", "kept"]).stdout(full).output().unwrap();
    assert_eq!(output.status.code(), Some(3));
    assert_eq!(folder.done("read 0 0"), "kept");
    let full = fs::OpenOptions::new().write(true).open("/dev/full").unwrap();
    let output = folder.command(&["help"]).stdout(full).output().unwrap();
    let errors = String::from_utf8_lossy(&output.stderr);
    assert_eq!(output.status.code(), Some(3), "{errors}");
    assert!(errors.starts_with("johvimaru: ") && !errors.contains("panicked"), "{errors}");
}

/// Where standard error takes nothing, the status tells.
#[test]
fn standard_error_that_takes_nothing() {
    let folder = Folder::new("full-errors");
    for (line, status) in [("forget", 2), ("check", 3), ("write 0 0 x", 0), ("read 1 1", 1)] {
        let full = fs::OpenOptions::new().write(true).open("/dev/full").unwrap();
        let words: Vec<&str> = line.split(' ').collect();
        let output = folder.command(&words).stderr(full).output().unwrap();
        assert_eq!(output.status.code(), Some(status), "{line}");
    }
}
