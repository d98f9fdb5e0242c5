//! What a call forgets is at no byte of the image file, whatever name leads to it.

mod common;

use common::{holds, Folder};
use johvimaru::{Cut, Noise, Offset, Step, Store, BLOCK, NOISE, PAGE};
use std::fs;
use std::os::unix::fs::MetadataExt;
use std::path::Path;
use std::process::Command;

/// The key of a live node, as it stands on the image.
fn key_of(folder: &Folder, file: u32, offset: u32) -> Vec<u8> {
    let store = Store::mount(folder.image()).unwrap();
    let node = store.record().node(Offset::new(file, offset).unwrap()).unwrap();
    store.image()[store.record().key_bytes(node.key)].to_vec()
}

/// The file is the same one throughout, so a second name of it sees the wipe too, and no other file is made.
#[test]
fn a_wipe_forgets_in_the_file_and_in_a_hard_link_of_it() {
    let folder = Folder::new("forgetting");
    folder.done("format --blocks 16");
    folder.done("write 0 0 draught");
    folder.done("write 2 5 track");
    fs::hard_link(folder.path.join("recorder.img"), folder.path.join("link.img")).unwrap();
    let number = || fs::metadata(folder.path.join("recorder.img")).unwrap().ino();
    let (key, other, file) = (key_of(&folder, 0, 0), key_of(&folder, 2, 5), number());
    assert!(holds(&folder.bytes("link.img"), &key));
    folder.done("wipe 0 0");
    for name in ["recorder.img", "link.img"] {
        assert!(!holds(&folder.bytes(name), &key), "{name}");
        assert!(holds(&folder.bytes(name), &other), "{name}: the track is still there");
    }
    assert_eq!(number(), file);
    assert_eq!(folder.names(), ["link.img", "recorder.img"]);
}

/// The same for an overwritten node and a commit, and for a format to a smaller and to a larger image.
#[test]
fn a_commit_and_a_format_forget_too() {
    let folder = Folder::new("forgetting-more");
    folder.done("format --blocks 16");
    folder.done("write 0 0 old");
    let key = key_of(&folder, 0, 0);
    folder.done("write 0 0 new");
    assert!(holds(&folder.image(), &key), "a commit has yet to come");
    folder.done("commit");
    assert!(!holds(&folder.image(), &key));
    for blocks in [8, 24, 24] {
        fs::hard_link(folder.path.join("recorder.img"), folder.path.join("link.img")).unwrap();
        let (key, page) = (key_of(&folder, 0, 0), folder.image()[48 * 256..49 * 256].to_vec());
        folder.done(&format!("format --force --blocks {blocks}"));
        assert_eq!(folder.image().len(), 4_096 * blocks);
        for old in [&key, &page] {
            assert!(!holds(&folder.bytes("link.img"), old), "{blocks} blocks");
        }
        fs::remove_file(folder.path.join("link.img")).unwrap();
        folder.done("write 0 0 next");
    }
}

/// Calls that only look change neither the file nor its time of change, also where a mount would erase.
#[test]
fn looks_leave_the_file_as_it_is() {
    let folder = Folder::new("looks");
    folder.done("format --blocks 8");
    folder.done("write 0 0 x");
    folder.done("commit --cut 3,100");
    let about = || fs::metadata(folder.path.join("recorder.img")).unwrap();
    let (image, time) = (folder.image(), about().modified().unwrap());
    for line in ["read 0 0", "export 0", "list", "list --json", "check", "check --json", "map"] {
        let status = if line.starts_with("check") { 4 } else { 0 };
        assert_eq!(folder.run(line).status, status, "{line}");
        assert!(folder.image() == image && about().modified().unwrap() == time, "{line}");
    }
}

/// A file that may only be read can be looked at, and every other call says that it may not be changed.
#[test]
fn a_file_that_may_only_be_read() {
    let folder = Folder::new("read-only");
    folder.done("format --blocks 8");
    folder.done("write 0 0 x");
    let path = folder.path.join("recorder.img");
    let mut rights = fs::metadata(&path).unwrap().permissions();
    rights.set_readonly(true);
    fs::set_permissions(&path, rights).unwrap();
    assert_eq!(folder.done("read 0 0"), "x");
    // Whoever may write to any file is not stopped by the file's rights.
    if fs::OpenOptions::new().write(true).open(&path).is_err() {
        let before = folder.image();
        for line in ["write 0 0 y", "wipe 0 0", "handover", "format --force"] {
            assert_eq!(folder.run(line).status, 3, "{line}");
        }
        assert!(folder.image() == before);
    }
}

/// Builds the library that logs what changes a file.
fn log_of_steps(folder: &Folder) -> std::path::PathBuf {
    let source = Path::new(env!("CARGO_MANIFEST_DIR")).join("tests/c/log_steps.c");
    let library = folder.path.join("log_steps.so");
    let words = ["-shared", "-fPIC", "-O1", "-Wall", "-Wextra", "-Werror", "-ldl", "-o"];
    let built = Command::new("cc").arg(source).args(words).arg(&library).output();
    let built = built.expect("a C compiler is there");
    assert!(built.status.success(), "{}", String::from_utf8_lossy(&built.stderr));
    library
}

/// The steps of a mount after a call that was done, as the log must have them: each empty block is erased.
fn steps_of_mount(before: &[u8]) -> String {
    let blocks = before.chunks(BLOCK).enumerate();
    let empty = blocks.filter(|(_, block)| block.iter().all(|&byte| byte == 0xff));
    empty.map(|(block, _)| format!("write {BLOCK} {}\nsync 0 0\n", BLOCK * block)).collect()
}

/// The steps of a wipe as the log must have them: each where it goes, and a sync behind it.
fn steps_of_wipe(before: &[u8]) -> String {
    let noise = || Noise::new(&[9; NOISE]).unwrap();
    let after = |n| {
        let store = Store::mount(before.to_vec()).unwrap();
        store.wipe_cut(Offset::new(0, 0).unwrap(), noise(), Cut { n, k: 0 }).unwrap()
    };
    let mut lines = String::new();
    for n in 0.. {
        let (now, next) = (after(n), after(n + 1));
        lines += &match Step::between(now.image(), next.image()) {
            Some(Step::Program { page, .. }) => format!("write {PAGE} {}\nsync 0 0\n", PAGE * page),
            Some(Step::Erase { block }) => format!("write {BLOCK} {}\nsync 0 0\n", BLOCK * block),
            None => String::new(),
        };
        if !next.is_cut() {
            break;
        }
    }
    lines
}

/// The file is written in the order of the steps, first those of the mount, and each is on the disk before the next
/// begins.
#[test]
fn each_step_is_synced_before_the_next() {
    let folder = Folder::new("synced");
    let library = log_of_steps(&folder);
    folder.done("format --blocks 8");
    folder.done("write 0 0 x");
    let expected = steps_of_mount(&folder.image()) + &steps_of_wipe(&folder.image());
    let mut wipe = folder.command(&["wipe", "0", "0"]);
    let wiped =
        wipe.env("LD_PRELOAD", library).env("LOG", folder.path.join("log")).output().unwrap();
    assert!(wiped.status.success(), "{}", String::from_utf8_lossy(&wiped.stderr));
    assert_eq!(expected.lines().count(), 2 * (4 + 57));
    assert_eq!(String::from_utf8(folder.bytes("log")).unwrap(), expected);
}
