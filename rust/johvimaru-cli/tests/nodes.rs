//! Nodes as lines: export and import.

mod common;

use common::Folder;
use johvimaru::{Noise, Offset, Store, BLOCK, NOISE};

fn at(file: u32, offset: u32) -> Offset {
    Offset::new(file, offset).unwrap()
}

#[test]
fn an_export_line_by_line() {
    let folder = Folder::new("export");
    folder.done("format --blocks 8");
    folder.done("write 0 7 seven");
    folder.run_words(&["write", "0", "0", "a\ttab, a \\ and \u{e9}\n"]);
    folder.done("write 1 0 other");
    let text = "0\ta\\ttab, a \\\\ and \u{e9}\\n\n7\tseven\n";
    assert_eq!(folder.done("export 0 --text"), text);
    let seven: String = b"seven".iter().map(|byte| format!("{byte:02x}")).collect();
    let line = format!("7\t5\t{seven}\n");
    assert_eq!(folder.done("export 0").split_inclusive('\n').nth(1), Some(&line[..]));
    let ran = folder.run("export 13");
    assert_eq!(
        (ran.status, &ran.printed[..], &ran.errors[..]),
        (0, "", "johvimaru: 0 nodes of file 13\n")
    );
}

/// What was exported and is imported on another recorder reads the same, byte for byte, in both forms.
#[test]
fn an_import_brings_back_what_was_exported() {
    let folder = Folder::new("import");
    let mut store = Store::format(vec![0; 16 * BLOCK], Noise::new(&[3; NOISE]).unwrap()).unwrap();
    for offset in 0..32 {
        let length = if offset < 4 { 1 + 74 * offset } else { 1 + 223 * offset / 31 };
        let bytes: Vec<u8> = (0..length).map(|at| (7 * at + offset * offset) as u8).collect();
        store.write(at(0, offset), &bytes).unwrap();
    }
    folder.put("old.img", store.image());
    for form in ["", " --text"] {
        let lines = folder.done(&format!("export 0{form} --image old.img"));
        folder.done("format --force");
        folder.done("write 0 5 replaced");
        folder.done("write 1 5 kept");
        let ran = folder.run_with(&format!("import 0{form}"), lines.as_bytes());
        assert_eq!((ran.status, &ran.printed[..]), (0, "imported: 32 nodes of file 0\n"));
        let new = Store::mount(folder.image()).unwrap();
        assert!((0..32).all(|offset| new.read(at(0, offset)) == store.read(at(0, offset))));
        assert_eq!(folder.done("read 1 5"), "kept");
    }
}

/// Where a line is wrong, or there is no room for all, nothing is written.
#[test]
fn an_import_is_tested_before_it_begins() {
    let folder = Folder::new("import-wrong");
    folder.done("format --blocks 8");
    folder.done("write 0 0 x");
    let before = folder.image();
    for (line, input, status, said) in [
        ("import 0 --text", "0\ta\n1 b\n", 3, "line 2: there is no tab; nothing was written"),
        (
            "import 0",
            "0\tbeef\n",
            3,
            "line 1: after the offset stands no length, tab and two hexadecimal digits",
        ),
        (
            "import 0 --text",
            "0\ta\n32\tb\n",
            1,
            "refused 5: line 2: file 0 has 32 offsets, 0 to 31",
        ),
        ("import 14", "", 1, "refused 4: "),
        ("import 0 --image none.img", "", 3, "none.img is not there"),
    ] {
        let ran = folder.run_with(line, input.as_bytes());
        assert_eq!(ran.status, status, "{line}: {}", ran.errors);
        assert!(ran.errors.starts_with(&format!("johvimaru: {said}")), "{line}: {}", ran.errors);
        assert!(folder.image() == before, "{line}");
    }
    let lines: String = (0..32).map(|offset| format!("{offset}\tx\n")).collect();
    assert_eq!(folder.run_with("import 0 --text", lines.as_bytes()).status, 0);
    let before = folder.image();
    let ran = folder.run_with("import 1 --text", lines.as_bytes());
    let said = "johvimaru: refused 10: 32 nodes wanted, and 31 pages left; nothing was written";
    assert_eq!((ran.status, &ran.errors[..said.len()]), (1, said));
    assert!(folder.image() == before);
    assert_eq!(folder.names(), ["recorder.img"]);
}

/// Without enough free keys nothing is written either.
#[test]
fn an_import_without_keys() {
    let folder = Folder::new("import-keys");
    let mut store = Store::format(vec![0; 64 * BLOCK], Noise::new(&[3; NOISE]).unwrap()).unwrap();
    for write in 0..420 {
        store.write(at(0, write % 32), &[b'x'; 224]).unwrap();
    }
    folder.put("recorder.img", store.image());
    let lines: String = (0..32).map(|offset| format!("{offset}\tx\n")).collect();
    let ran = folder.run_with("import 1 --text", lines.as_bytes());
    let said =
        "johvimaru: refused 9: 32 nodes wanted, and 28 free keys left; nothing was written; \
                a commit may bring more\n";
    assert_eq!((ran.status, &ran.errors[..]), (1, said));
    assert!(folder.image() == store.image());
    folder.done("commit");
    assert_eq!(folder.run_with("import 1 --text", lines.as_bytes()).status, 0);
}
