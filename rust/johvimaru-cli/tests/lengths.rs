//! Payloads go in and come out byte for byte, as long as they were; those of older recorders have 224 bytes.

mod common;

use common::Folder;
use johvimaru::{Form, Header, PAGE, PAYLOAD};
use std::process::{Command, Stdio};

/// Runs a line of a shell in the folder, in which `johvimaru` is the command.
fn shell(folder: &Folder, line: &str) -> bool {
    let script = format!("johvimaru() {{ '{}' \"$@\"; }}; {line}", env!("CARGO_BIN_EXE_johvimaru"));
    let mut shell = Command::new("sh");
    shell.args(["-c", &script]).current_dir(&folder.path).stdin(Stdio::null());
    shell.output().unwrap().status.success()
}

/// Payloads of several lengths, with ends that look like padding or like the end of a line.
fn payloads() -> Vec<Vec<u8>> {
    let mut payloads = vec![b" ".to_vec(), b"\n".to_vec(), vec![0], vec![0xff]];
    for length in [1, 40, 223, 224] {
        let bytes: Vec<u8> = (0..length).map(|at| (at * 7 + length) as u8).collect();
        for end in [&b""[..], b" ", b"   ", b"\n", b"\r\n", b"\n\n", b"\0", b"\0\0", b"\xff\xff"] {
            if end.len() <= length {
                payloads.push([&bytes[..length - end.len()], end].concat());
            }
        }
    }
    payloads
}

#[test]
fn what_is_written_is_read_byte_for_byte() {
    let folder = Folder::new("cmp");
    folder.done("format");
    for payload in payloads() {
        folder.put("payload", &payload);
        assert!(shell(&folder, "johvimaru write 0 0 <payload >said"), "{payload:?}");
        assert!(shell(&folder, "johvimaru read 0 0 | cmp - payload"), "{payload:?}");
        assert!(shell(&folder, "johvimaru read 0 0 --raw | cmp - payload"), "{payload:?}");
        assert!(shell(&folder, "cat payload | johvimaru write 0 1 - >said"), "{payload:?}");
        assert!(shell(&folder, "johvimaru read 0 1 >out && cmp out payload"), "{payload:?}");
        let said = String::from_utf8(folder.bytes("said")).unwrap();
        let count = payload.len();
        let bytes = if count == 1 { "1 byte".into() } else { format!("{count} bytes") };
        assert!(said.starts_with(&format!("written: file 0 offset 1, {bytes}, page ")), "{said}");
    }
    assert!(!shell(&folder, "johvimaru read 0 2 | cmp - payload"), "cmp sees a difference");
}

/// No bytes and too many are refused with 6, before a file is made or touched.
#[test]
fn lengths_that_are_refused() {
    let folder = Folder::new("lengths-refused");
    for _ in 0..2 {
        let before = folder.names();
        let image = before.first().map(|name| folder.bytes(name));
        for (input, said) in [(&b""[..], "there is nothing to write"), (&[0; 225], "at most 224")] {
            for line in ["write 0 0", "write 0 0 -"] {
                let ran = folder.run_with(line, input);
                assert_eq!((ran.status, &ran.printed[..]), (1, ""), "{line}");
                assert!(ran.errors.starts_with("johvimaru: refused 6: "), "{}", ran.errors);
                assert!(ran.errors.contains(said), "{}", ran.errors);
                assert_eq!(folder.names(), before);
                assert!(before.first().map(|name| folder.bytes(name)) == image);
            }
        }
        folder.done("write 0 0 kept");
    }
}

/// Lines of an export bring each payload back with its length, in both forms.
#[test]
fn an_export_keeps_lengths() {
    let folder = Folder::new("lengths-export");
    folder.done("format");
    let payloads = payloads();
    let kept = &payloads[payloads.len() - 32..];
    for (offset, payload) in kept.iter().enumerate() {
        folder.put(&offset.to_string(), payload);
        assert!(shell(&folder, &format!("johvimaru write 0 {offset} <{offset} >said")));
    }
    for form in ["", "--text"] {
        let import = format!(
            "johvimaru export 0 {form} >lines && johvimaru format --image b.img --force >said && \
             johvimaru import 0 {form} --image b.img <lines >said"
        );
        assert!(shell(&folder, &import), "{form}");
        for offset in 0..kept.len() {
            let same = format!("johvimaru read 0 {offset} --image b.img | cmp - {offset}");
            assert!(shell(&folder, &same), "{form} {offset}");
        }
        let diff = folder.done("diff recorder.img b.img");
        assert!(!diff.contains("another payload"), "{diff}");
    }
}

/// A form that was not asked for is no import: nothing is written.
#[test]
fn an_import_in_the_other_form() {
    let folder = Folder::new("lengths-form");
    folder.done("write 0 0 4120");
    let before = folder.image();
    for (export, import, said) in [
        ("export 0", "import 0 --text", "these are hexadecimal digits: leave --text out"),
        ("export 0 --text", "import 0", "is it text? then give --text"),
    ] {
        let lines = folder.done(export);
        let ran = folder.run_with(import, lines.as_bytes());
        assert_eq!(ran.status, 3, "{import}");
        assert!(
            ran.errors.contains(said) && ran.errors.contains("nothing was written"),
            "{import}"
        );
        assert!(folder.image() == before, "{import}");
    }
}

/// Only the length differs: that is another payload.
#[test]
fn a_diff_of_lengths() {
    let folder = Folder::new("lengths-diff");
    folder.done("format --image a.img --blocks 8");
    folder.run_words(&["write", "0", "0", "a", "--image", "a.img"]);
    folder.put("b.img", &folder.bytes("a.img"));
    folder.run_words(&["write", "0", "0", "a ", "--image", "b.img"]);
    let diff = folder.done("diff a.img b.img");
    assert!(diff.contains("another payload: file 0 offset 0"), "{diff}");
}

// ---- Older recorders

/// An image as a recorder from before lengths were kept leaves it: each node's header has 0 there.
fn older(mut image: Vec<u8>) -> Vec<u8> {
    let forms: Vec<Form> = Form::all(&image).collect();
    for (page, form) in forms.iter().enumerate() {
        if let Some(Header::Node { .. }) = form.header() {
            image[PAGE * page + 20..][..8].copy_from_slice(b"       0");
        }
    }
    image
}

#[test]
fn an_image_of_an_older_recorder() {
    let folder = Folder::new("older");
    folder.done("format --blocks 8");
    for line in ["write 0 0 draught", "write 0 1 gone", "write 0 1 track", "cut-off 0 1"] {
        folder.done(line);
    }
    folder.put("recorder.img", &older(folder.image()));
    let mut expected = [b' '; PAYLOAD];
    expected[..7].copy_from_slice(b"draught");
    folder.put("expected", &expected);
    let before = folder.image();
    assert_eq!(folder.done("list"), "   0   0    48     0\n     1   445     2\n");
    assert!(folder.done("list --json").contains("\"length\": 224"));
    assert!(shell(&folder, "johvimaru read 0 0 | cmp - expected"));
    assert!(folder.image() == before);
    let text = folder.done("export 0 --text");
    assert_eq!(text, format!("0\tdraught{}\\x20\n", " ".repeat(216)));
    for form in ["", "--text"] {
        let again = format!(
            "johvimaru export 0 {form} >lines && johvimaru format --image b.img --force >said && \
             johvimaru import 0 {form} --image b.img <lines >said && \
             johvimaru read 0 0 --image b.img | cmp - expected"
        );
        assert!(shell(&folder, &again), "{form}");
    }
    assert!(!folder.done("diff recorder.img b.img").contains("another payload"));
    // It is committed and written on, and nodes of both kinds stand beside each other.
    folder.done("commit");
    folder.done("write 0 1 short");
    assert!(shell(&folder, "johvimaru read 0 0 | cmp - expected"));
    assert_eq!(folder.done("read 0 1"), "short");
    let handed = folder.done("handover");
    assert!(handed.contains("The recorder may be handed over"), "{handed}");
}
