//! `gather`: what it does and says, whole and cut, and what other calls say of images with several pages of one
//! node under one key.

mod common;

use common::Folder;
use johvimaru::{Form, Header, Noise, Offset, Store, BLOCK, NOISE};

/// An image of 8 blocks: block 3 with a live page at its start and dead ones, block 4 dead, block 5 begun.
fn thin(folder: &Folder) {
    let mut store = Store::format(vec![0xff; 8 * BLOCK], Noise::new(&[1; NOISE]).unwrap()).unwrap();
    let at = |offset| Offset::new(0, offset).unwrap();
    store.write(at(7), b"draught 4.12 m").unwrap();
    store.write(at(9), b"hopper 3120 t").unwrap();
    for _ in 0..32 {
        store.write(at(0), b"track").unwrap();
    }
    folder.put("recorder.img", store.image());
}

fn read_all(folder: &Folder) -> String {
    folder.done("export 0")
}

#[test]
fn what_a_gather_says_and_does() {
    let folder = Folder::new("gather");
    thin(&folder);
    let files = read_all(&folder);
    let said = "gathered: block 3, 2 pages copied to pages 82 83; every node reads as before\n\
                commit next: that erases block 3\n";
    assert_eq!(folder.done("gather 3"), said);
    assert_eq!(read_all(&folder), files);
    let checked = folder.run("check").printed;
    assert!(
        checked.contains("data blocks: 3, the thinnest is block 5, 3 live pages\n"),
        "{checked}"
    );
    assert!(checked.contains("a commit erases blocks 3 4, no live page there\n"), "{checked}");
    let again = "johvimaru: refused 15: block 3 has no live page, and the next commit erases it; \
                 `johvimaru check` names the thinnest data block\n";
    let ran = folder.run("gather 3");
    assert_eq!((ran.status, &ran.printed[..], &ran.errors[..]), (1, "", again));
    folder.done("commit");
    assert_eq!(read_all(&folder), files);
    assert!(folder.image()[3 * BLOCK..5 * BLOCK].iter().all(|byte| *byte == 0xff));
    assert_eq!(folder.run("check").status, 0);
}

#[test]
fn the_thinnest() {
    let folder = Folder::new("gather-thinnest");
    thin(&folder);
    // Block 5 has one live page and block 3 two.
    let said = "gathered: block 5, 1 page copied to page 96; every node reads as before\n\
                commit next: that erases block 5\n";
    assert_eq!(folder.done("gather --thinnest"), said);
    folder.done("format --force");
    let none =
        "johvimaru: refused 15: no node is live, so there is nothing to gather; a commit erases \
                all data blocks\n";
    let ran = folder.run("gather --thinnest");
    assert_eq!((ran.status, &ran.errors[..]), (1, none));
}

/// Where the thinnest block has the only open pages, its copies have no room, and the next one is taken.
#[test]
fn the_thinnest_that_there_is_room_for() {
    let folder = Folder::new("gather-room");
    thin(&folder);
    for _ in 0..20 {
        folder.done("write 0 0 track");
    }
    let checked = folder.run("check").printed;
    assert!(checked.contains("gathers can still take: 10\n"), "{checked}");
    assert!(
        checked.contains("the thinnest is block 6, 1 live page\n  make room in time"),
        "{checked}"
    );
    let full = "johvimaru: refused 10: there is no room outside block 6 for copies of its 1 live page; \
                nothing was copied; commit, and where that brings no room, wipe a file that is saved \
                elsewhere\n";
    let before = folder.image();
    let ran = folder.run("gather 6");
    assert_eq!((ran.status, &ran.errors[..]), (1, full));
    assert!(folder.image() == before);
    assert!(folder.done("gather --thinnest").starts_with("gathered: block 3, 2 pages copied to"));
    for _ in 0..8 {
        folder.done("write 0 0 track");
    }
    for line in ["gather --thinnest", "gather 6"] {
        assert_eq!(folder.run(line).errors, full.replace("its 1 live page", "its 3 live pages"));
    }
}

#[test]
fn blocks_that_cannot_be_gathered() {
    let folder = Folder::new("gather-refused");
    thin(&folder);
    let before = folder.image();
    for (block, why) in [
        ("0", "block 0 holds keys; "),
        ("1", "block 1 holds keys; "),
        ("2", "block 2 holds the commit; "),
        ("4", "block 4 has no live page, and the next commit erases it; "),
        ("7", "block 7 is empty; "),
        ("8", "the image has 8 blocks, 0 to 7, and no 8\n"),
        ("99999999999999999999", "the image has 8 blocks, 0 to 7, and no 4294967295\n"),
    ] {
        let ran = folder.run(&format!("gather {block}"));
        let said = format!("johvimaru: refused 15: {why}");
        assert!(ran.errors.starts_with(&said), "{block}: {}", ran.errors);
        assert_eq!((ran.status, &ran.printed[..]), (1, ""), "{block}");
        assert!(folder.image() == before, "{block}");
    }
    assert_eq!(folder.run("gather 3 --image none.img").status, 3);
    assert_eq!(folder.names(), ["recorder.img"]);
}

/// Cut at every step and at some bytes: every node reads as before, no key is lost, and it is made again.
#[test]
fn cuts() {
    let folder = Folder::new("gather-cut");
    thin(&folder);
    let (image, files) = (folder.image(), read_all(&folder));
    for n in 0..2 {
        for k in [0, 29, 30, 255, 256] {
            folder.put("recorder.img", &image);
            let printed = folder.done(&format!("gather 3 --cut {n},{k}"));
            assert!(printed.starts_with(&format!("the power failed after {n} whole step")));
            assert_eq!(read_all(&folder), files, "{n},{k}");
            assert!(folder.done("list").ends_with("     3   414    31\n"), "{n},{k}");
            let checked = folder.run("check");
            assert_eq!(checked.errors, "johvimaru: left over: 31 deleted keys\n", "{n},{k}");
            if (n, k) != (1, 256) {
                folder.done("gather 3");
            }
            folder.done("commit");
            assert_eq!(read_all(&folder), files, "{n},{k}");
            assert_eq!(folder.run("check").status, 0, "{n},{k}");
        }
    }
    folder.put("recorder.img", &image);
    let late = folder.done("gather 3 --cut 2,0");
    assert!(late.ends_with("the call was done before the cut: it has 2 whole steps\n"), "{late}");
}

// ---- Several pages of one node

/// Older copies are drawn apart from dead pages, and from live ones.
#[test]
fn older_copies_in_the_picture() {
    let folder = Folder::new("gather-map");
    thin(&folder);
    folder.done("gather 3 --cut 1,100");
    let map = folder.done("map");
    for line in ["   3  = 0 x x x x x x x x x x x x x x", "   5  x 0 0 t . . . . . . . . . . . ."] {
        assert!(map.lines().any(|drawn| drawn.starts_with(line)), "{line}\n{map}");
    }
    assert!(map.contains("= older copy of a live node"), "{map}");
    folder.done("gather 3");
    folder.done("gather 5");
    let map = folder.done("map");
    for line in ["   3  = = x x x x x x x x x x x x x x", "   5  x = = t = . . . . . . . . . . ."] {
        assert!(map.lines().any(|drawn| drawn.starts_with(line)), "{line}\n{map}");
    }
    folder.done("map --svg out.svg");
    let svg = String::from_utf8(folder.bytes("out.svg")).unwrap();
    let title = "page 48: node of file 0 offset 7, 14 bytes, sequence 1, key 0, older copy of the live node";
    assert!(svg.contains(&format!("<title>{title}</title>")), "{title}");
    assert!(svg.contains(">2 copied, 14 dead</text>"), "{svg}");
    // When nodes are removed, their older copies are dead pages.
    folder.done("cut-off 0 7");
    let map = folder.done("map");
    assert!(map.contains("   3  x x x x x") && map.contains("   5  x = x t x / . ."), "{map}");
}

/// A node that is written again under a key that was replaced is no copy, whatever its header says.
#[test]
fn a_replaced_key_makes_no_copy() {
    let folder = Folder::new("gather-replaced");
    folder.done("format --blocks 8");
    for line in ["write 0 0 same", "write 1 0 stays", "cut-off 0 0", "commit", "write 0 0 same"] {
        folder.run(line);
    }
    let forms: Vec<Form> = Form::all(&folder.image()).collect();
    let of_first = forms.iter().filter(
        |form| matches!(form, Form::Whole(Header::Node { at, key: 0, .. }) if at.number() == 0),
    );
    assert_eq!(of_first.count(), 2, "one key position, two nodes");
    let map = folder.done("map");
    assert!(map.contains("   3  x 1 / 0 . .") && !map.contains("older copy"), "{map}");
}

/// A handover with a kept file says what its older copies tell, and finds no fault in them.
#[test]
fn a_handover_with_older_copies() {
    let folder = Folder::new("gather-handover");
    thin(&folder);
    folder.done("write 1 0 other");
    folder.done("gather 3 --cut 1,256");
    let files = read_all(&folder);
    let report = folder.done("handover --keep 0");
    assert_eq!(read_all(&folder), files);
    assert!(report.contains("may be handed over"), "{report}");
    // The gather was done but for its end: block 3 is erased.
    assert!(!report.contains("older page"), "{report}");
    thin(&folder);
    folder.done("gather 3 --cut 0,256");
    let report = folder.done("handover --keep 0");
    assert!(report.contains("1 older page of live nodes, of before a gather"), "{report}");
    assert!(report.contains("may be handed over"), "{report}");
    let report = folder.done("handover");
    assert!(report.ends_with("no file is on it, and no old key.\n"), "{report}");
    let full = folder.image().chunks(BLOCK).filter(|b| b.iter().any(|&byte| byte != 0xff)).count();
    assert_eq!(full, 3);
}
