//! The picture: its letters, and the SVG file.

mod common;

use common::{Folder, Numbers};
use johvimaru::{Noise, Offset, Store, BLOCK, NOISE, PAGE};
use std::collections::HashSet;
use std::fs;
use std::os::unix::fs::symlink;
use std::path::Path;
use std::process::Command;

/// Document 01's case.
fn case_of_document_01(folder: &Folder) {
    folder.done("format --blocks 8");
    for line in ["write 0 0 one", "write 2 5 two", "write 0 0 three"] {
        folder.done(line);
    }
}

#[test]
fn the_letters_of_the_case_of_document_01() {
    let folder = Folder::new("map-case");
    case_of_document_01(&folder);
    let drawn = "image recorder.img
8 blocks, 2 live nodes
keys: 2 used, 445 free, 1 deleted
blocks and their pages                 key positions
   0 K0K0K0K0K0K0K0K0K0K0K0K0K0K0K0K0     0 duufffffffffffffffffffffffff
   1 K1K1K1K1K1K1K1K1K1K1K1K1K1K1K1K1    28 to 447: all f
   2 C0C1C2C3C4C5C6C7C8C9 . . . . . .
   3  x 2 0 . . . . . . . . . . . . .
   4 to 7: empty
block 0: key block 0, epoch 1
block 1: key block 1, epoch 1
block 2: commit, epoch 1, covers 0

K0 key block 0  K1 key block 1  C0 to C9 commit  0 to 13 live node, by file
x dead node  . empty  f free key  u used  d deleted
";
    assert_eq!(folder.done("map"), drawn);
    folder.done("commit");
    let after = folder.done("map");
    for line in [
        "   0 K1K1K1K1K1K1K1K1K1K1K1K1K1K1K1K1     0 fuufffffffffffffffffffffffff",
        "   1 C0C1C2C3C4C5C6C7C8C9 . . . . . .    28 to 447: all f",
        "   3  x 2 0 . . . . . . . . . . . . .",
        "   4 K0K0K0K0K0K0K0K0K0K0K0K0K0K0K0K0",
        "block 1: commit, epoch 2, covers 3",
    ] {
        assert!(after.lines().any(|drawn| drawn == line), "{line}\n{after}");
    }
}

/// Document 01's case and a fourth write, and the same after a wipe of the fourth's file.
fn before_and_after_a_wipe(folder: &Folder) {
    case_of_document_01(folder);
    folder.done("write 13 7 four");
    folder.put("before.img", &folder.image());
    folder.done("wipe 13 0");
}

/// Two pictures have the same rows, and marks at what has changed: a node gone, keys replaced.
#[test]
fn two_pictures_side_by_side() {
    let folder = Folder::new("map-pair");
    before_and_after_a_wipe(&folder);
    let drawn = "before: before.img                     after: recorder.img
8 blocks, 3 live nodes                 8 blocks, 2 live nodes
keys: 3 used, 444 free, 1 deleted      keys: 2 used, 446 free, 0 deleted
blocks and their pages                 blocks and their pages
   0 K0K0K0K0K0K0K0K0K0K0K0K0K0K0K0K0     0 K1K1K1K1K1K1K1K1K1K1K1K1K1K1K1K1
   1 K1K1K1K1K1K1K1K1K1K1K1K1K1K1K1K1     1 C0C1C2C3C4C5C6C7C8C9 . . . . . .
   2 C0C1C2C3C4C5C6C7C8C9 . . . . . .     2 K0K0K0K0K0K0K0K0K0K0K0K0K0K0K0K0
   3  x 2 0-s . . . . . . . . . . . .     3  x 2 0 x . . . . . . . . . . . .
   4 to 7: empty                          4 to 7: empty
block 0: key block 0, epoch 1          block 0: key block 1, epoch 3
block 1: key block 1, epoch 1          block 1: commit, epoch 3, covers 4
block 2: commit, epoch 1, covers 0     block 2: key block 0, epoch 3

key positions                          key positions
   0 DuuUFFFFFFFFFFFFFFFFFFFFFFFF         0 FuuFFFFFFFFFFFFFFFFFFFFFFFFF
  28 to 447: all F                       28 to 447: all F

since then: 446 of 448 keys replaced; of 4 used or deleted keys, 2 are left,
  of live nodes; no block erased; 1 node gone

K0 key block 0  K1 key block 1  C0 to C9 commit  0 to 13 live node, by file
-0 to -9 node gone since  -p to -s of files 10 to 13  x dead node  . empty
f free key  u used  d deleted  F U D the same, replaced since
";
    assert_eq!(folder.done("map --before before.img --after recorder.img"), drawn);
}

/// After a wipe of all files each key has a mark, and the blocks that are erased.
#[test]
fn marks_of_all_that_is_wiped() {
    let folder = Folder::new("map-wiped");
    before_and_after_a_wipe(&folder);
    for file in [0, 2] {
        folder.done(&format!("wipe {file} 0"));
    }
    let all = folder.done("map --before before.img --after recorder.img");
    for line in [
        "   3* x-2-0-s . . . . . . . . . . . .     3* . . . . . . . . . . . . . . . .",
        "   0 DUUUFFFFFFFFFFFFFFFFFFFFFFFF         0 to 447: all F",
        "since then: all 448 keys replaced; of 4 used or deleted keys, none is left;",
        "  block 3 erased; 3 nodes gone",
    ] {
        assert!(all.lines().any(|drawn| drawn == line), "{line}\n{all}");
    }
    for entry in ["-0 to -9 node gone", "F U D the same, replaced", "* block erased"] {
        assert!(all.contains(&format!("{entry} since")), "{entry}\n{all}");
    }
    let same = folder.done("map --before before.img --after before.img");
    assert!(same.contains("no key replaced; of 4 used or deleted keys, 4 are left, 3 of"));
    for mark in ["*", "F", "-0"] {
        assert!(!same.contains(mark), "{mark}\n{same}");
    }
}

/// The marks of two images of which mount refuses one: only blocks can be compared.
#[test]
fn marks_without_a_mount() {
    let folder = Folder::new("map-marks");
    case_of_document_01(&folder);
    folder.put("before.img", &folder.image());
    let mut image = folder.image();
    image[2 * BLOCK..3 * BLOCK].fill(0xff);
    folder.put("after.img", &image);
    let ran = folder.run("map --before before.img --after after.img");
    assert_eq!(ran.status, 1);
    let row = "   2*C0C1C2C3C4C5C6C7C8C9 . . . . . .     2* . . . . . . . . . . . . . . . .";
    assert!(ran.printed.lines().any(|line| line == row), "{}", ran.printed);
    let words = "\nsince then: of 3 used or deleted keys, 3 are left; block 2 erased\n";
    assert!(ran.printed.contains(words), "{}", ran.printed);
    assert!(!ran.printed.contains("replaced") && !ran.printed.contains("gone"), "{}", ran.printed);
}

/// The demo ends with the picture before the wipe and after it.
#[test]
fn the_pictures_of_the_demo() {
    let folder = Folder::new("map-demo");
    let text = folder.done("demo");
    let from = text.find("\nbefore the wipe ").expect("the picture is there");
    let picture = text[from..].trim_start();
    let side_by_side = |left: &str, right: &str| {
        let line = format!("{left:39}{right}");
        assert!(picture.lines().any(|drawn| drawn == line.trim_end()), "{line}\n{picture}");
    };
    side_by_side("before the wipe", "after it");
    side_by_side("8 blocks, 5 live nodes", "8 blocks, 0 live nodes");
    side_by_side("   3* x-0-0-2-2-0 t . . . . . . . . .", "   3* . . . . . . . . . . . . . . . .");
    side_by_side("   0 DUUUUUDFFFFFFFFFFFFFFFFFFFFF", "   0 to 447: all F");
    let claim = "since then: all 448 keys replaced; of 7 used or deleted keys, none is left;\n";
    assert!(picture.contains(claim), "{picture}");
    assert!(picture.lines().count() < 25, "{picture}");
}

// ---- SVG

/// The names of the elements of an XML text, or what is wrong with it: each is closed, attributes are
/// quoted, and no sign stands for itself that has a meaning.
fn elements(text: &str) -> Result<Vec<String>, String> {
    let (mut open, mut all) = (Vec::new(), Vec::new());
    let mut rest = text.trim_end();
    while !rest.is_empty() {
        let words = &rest[..rest.find('<').unwrap_or(rest.len())];
        for part in words.split('&').skip(1) {
            let end = part.find(';').ok_or("an & alone")?;
            if !["amp", "lt", "gt", "quot"].contains(&&part[..end]) {
                return Err(format!("&{}", &part[..end]));
            }
        }
        if words.chars().any(|c| c.is_control() && c != '\n')
            || (open.is_empty() && !words.is_empty())
        {
            return Err(format!("{words:?}"));
        }
        rest = &rest[words.len()..];
        let Some(end) = rest.find('>') else { break };
        let tag = &rest[1..end];
        rest = &rest[end + 1..];
        if let Some(name) = tag.strip_prefix('/') {
            (open.pop().as_deref() == Some(name)).then_some(()).ok_or(format!("</{name}>"))?;
            continue;
        }
        let inner = tag.strip_suffix('/').unwrap_or(tag);
        let (name, attributes) = inner.split_once(' ').unwrap_or((inner, ""));
        quoted(attributes).ok_or(format!("<{tag}>"))?;
        all.push(name.to_string());
        if !tag.ends_with('/') {
            open.push(name.to_string());
        }
    }
    if open.is_empty() {
        Ok(all)
    } else {
        Err(format!("{open:?} stay open"))
    }
}

/// Goes through attributes, of which no name comes twice.
fn quoted(mut attributes: &str) -> Option<()> {
    let mut names = HashSet::new();
    while !attributes.is_empty() {
        let (name, rest) = attributes.split_once("=\"")?;
        let (value, rest) = rest.split_once('"')?;
        let right = name.bytes().all(|b| b.is_ascii_alphabetic() || b == b'-');
        if !right || value.contains('<') || !names.insert(name) {
            return None;
        }
        attributes = rest.trim_start();
    }
    Some(())
}

/// The values of an attribute, in order.
fn values<'a>(text: &'a str, attribute: &str) -> Vec<&'a str> {
    let name = format!(" {attribute}=\"");
    text.split(&name[..]).skip(1).filter_map(|part| part.split('"').next()).collect()
}

/// An SVG file that a reader of SVG takes: well-formed, and all that is used is defined.
fn assert_svg(text: &str) {
    let elements = elements(text).unwrap_or_else(|wrong| panic!("{wrong}"));
    assert_eq!(elements[0], "svg");
    let ids = values(text, "id");
    assert_eq!(ids.iter().collect::<HashSet<_>>().len(), ids.len(), "an id comes twice");
    for used in values(text, "href") {
        assert!(ids.contains(&used.strip_prefix('#').unwrap()), "{used}");
    }
    for fill in values(text, "fill").into_iter().filter_map(|fill| fill.strip_prefix("url(#")) {
        assert!(ids.contains(&fill.strip_suffix(')').unwrap()), "{fill}");
    }
}

#[test]
fn the_small_reader_of_xml_knows_what_is_wrong() {
    assert_eq!(elements("<a b=\"1\"><c/>x &amp; y</a>").unwrap(), ["a", "c"]);
    for wrong in ["<a>", "<a></b>", "<a b=1/>", "<a b=\"1\" b=\"2\"/>", "<a>&</a>", "x", "<a/>x"] {
        assert!(elements(wrong).is_err(), "{wrong}");
    }
}

/// An image with a page of every kind, and what it is drawn as.
fn every_kind() -> Vec<u8> {
    let at = |file, offset| Offset::new(file, offset).unwrap();
    let noise = |byte| Noise::new(&[byte; NOISE]).unwrap();
    let mut store = Store::format(vec![0xff; 9 * BLOCK], noise(1)).unwrap();
    for (file, offset) in [(0, 0), (0, 0), (13, 7), (5, 1)] {
        store.write(at(file, offset), &[b'x'; 224]).unwrap();
    }
    store.cut_off(at(5, 0)).unwrap();
    let mut image = store.into_image();
    let copy = image[..BLOCK / 2].to_vec();
    image[8 * BLOCK..][..BLOCK / 2].copy_from_slice(&copy);
    let torn = (3 * 16 + 5) * PAGE;
    image[torn..torn + 30].copy_from_slice(b"N       6  2   5  31       0: ");
    image[torn + PAGE] = b'?';
    image
}

#[test]
fn every_kind_of_page_is_drawn() {
    let folder = Folder::new("map-kinds");
    folder.put("recorder.img", &every_kind());
    let text = folder.done("map");
    for line in [
        "   0 K0K0K0K0K0K0K0K0K0K0K0K0K0K0K0K0     0 duudffffffffffffffffffffffff",
        "   1 K1K1K1K1K1K1K1K1K1K1K1K1K1K1K1K1    28 fffdffffffffffffffffffffffff",
        "   2 C0C1C2C3C4C5C6C7C8C9 . . . . . .    56 to 447: all f",
        "   3  x 013 x / t ? . . . . . . . . .",
        "   8  o o o o o o o o . . . . . . . .",
        "block 8: not in use: key block 0, epoch 1",
    ] {
        assert!(text.lines().any(|drawn| drawn == line), "{line}\n{text}");
    }
    assert_eq!(folder.done("map --svg out.svg"), "");
    let svg = String::from_utf8(folder.bytes("out.svg")).unwrap();
    assert_svg(&svg);
    let used = values(&svg, "href");
    for name in [
        "keys0", "keys1", "commit0", "commit9", "live0", "live13", "dead", "cutoff", "left",
        "torn", "spoilt", "empty9", "free", "used", "deleted",
    ] {
        assert!(used.contains(&&format!("#{name}")[..]), "{name}");
    }
    for words in ["key block 1, epoch 1", "commit, epoch 1, covers 0", "deleted key", "spoilt"] {
        assert!(svg.contains(words), "{words}");
    }
    assert!(!svg.contains("live or dead"), "no node is of an image without a mount");
}

/// An image that mount refuses is drawn by its forms, and the refusal is told.
#[test]
fn an_image_that_mount_refuses() {
    let folder = Folder::new("map-refused");
    let mut image = every_kind();
    image[2 * BLOCK] = b'X';
    folder.put("recorder.img", &image);
    let ran = folder.run("map");
    let told = "johvimaru: recorder.img: refused 13: there is no whole commit block on the image; \
                `johvimaru help mount` says what to do\n";
    assert_eq!((ran.status, &ran.errors[..]), (1, told));
    assert!(ran.printed.contains("   3  n n n n / t ? . ."), "{}", ran.printed);
    assert!(ran.printed.contains("mount refuses it, 13; drawn by form"), "{}", ran.printed);
    folder.put("good.img", &every_kind());
    for line in ["map --svg a.svg", "map --before good.img --after recorder.img --svg a.svg"] {
        let ran = folder.run(line);
        assert_eq!((ran.status, &ran.errors[..], &ran.printed[..]), (1, told, ""), "{line}");
        let svg = String::from_utf8(folder.bytes("a.svg")).unwrap();
        assert_svg(&svg);
        assert!(svg.contains("node, live or dead") && svg.contains("refuses it, 13"), "{line}");
    }
    assert!(folder.image() == image, "map leaves the file as it is");
}

/// Pictures of every size, of images with anything on them.
#[test]
fn images_of_all_sizes() {
    let folder = Folder::new("map-sizes");
    let mut numbers = Numbers(5);
    for blocks in [8, 9, 32, 33, 64, 65, 129, 255, 256] {
        folder.done(&format!("format --force --blocks {blocks}"));
        let image = with_anything(folder.image(), &mut numbers);
        folder.put("other.img", &image);
        for line in ["--image other.img map", "map --before recorder.img --after other.img"] {
            let text = folder.done(line);
            assert!(text.lines().all(|line| line.len() < 100), "{blocks}: {line}\n{text}");
            folder.done(&format!("{line} --svg out.svg"));
            let svg = String::from_utf8(folder.bytes("out.svg")).unwrap();
            assert_svg(&svg);
            let last = svg.rsplit("blocks and their pages").next().unwrap();
            assert_eq!(told(last, "page"), (0..16 * blocks).collect::<Vec<_>>(), "{line}");
            assert!(svg.contains(&format!(">{}</text>", blocks - 1)), "{blocks}: {line}");
        }
    }
}

/// An image with pages of anything from block 3 on, in each block at least one.
fn with_anything(mut image: Vec<u8>, numbers: &mut Numbers) -> Vec<u8> {
    for page in 48..image.len() / PAGE {
        let from = PAGE * numbers.below(48) as usize;
        match numbers.below(4) {
            0 => image.copy_within(from..from + PAGE, PAGE * page),
            1 => image[PAGE * page] = 0,
            _ if page % 16 == 0 => image[PAGE * page] = b'?',
            _ => {}
        }
    }
    image
}

/// The pages or keys that have a title in an SVG text, in order: `page 3: ..`, `pages 3 to 5: ..`.
fn told(svg: &str, what: &str) -> Vec<usize> {
    let number = |text: &str| text.parse::<usize>().unwrap();
    let titles = svg.split("<title>").skip(1).filter_map(|part| part.split_once(": "));
    let named = titles.filter_map(|(name, _)| name.strip_prefix(what));
    named
        .flat_map(|name| match name.strip_prefix("s ") {
            None => number(name.trim())..number(name.trim()) + 1,
            Some(range) => {
                let (from, to) = range.split_once(" to ").unwrap();
                number(from)..number(to) + 1
            }
        })
        .collect()
}

/// Every cell says in words what its page or key is; blocks that are empty are one line.
#[test]
fn titles_of_cells() {
    let folder = Folder::new("map-titles");
    folder.put("recorder.img", &every_kind());
    folder.done("map --svg out.svg");
    let svg = String::from_utf8(folder.bytes("out.svg")).unwrap();
    for title in [
        "page 0: keys 0 to 13, key block 0, epoch 1",
        "page 31: keys 434 to 447, key block 1, epoch 1",
        "page 41: commit, part 9, epoch 1, covers 0",
        "pages 42 to 47: empty",
        "page 48: node of file 0 offset 0, 224 bytes, sequence 1, key 0, dead",
        "page 49: node of file 0 offset 0, 224 bytes, sequence 2, key 1, live",
        "page 50: node of file 13 offset 7, 224 bytes, sequence 3, key 2, live",
        "page 52: cut-off of file 5 from offset 0 on, sequence 5",
        "page 53: node of file 2 offset 5, 224 bytes, sequence 6, key 31, torn",
        "page 54: spoilt",
        "page 128: keys 0 to 13, key block 0, epoch 1, not in use",
        "key 0: deleted",
        "key 1: used by file 0 offset 0",
        "key 447: free",
    ] {
        assert!(svg.contains(&format!("<title>{title}</title>")), "{title}");
    }
    assert_eq!(told(&svg, "page"), (0..64).chain(128..144).collect::<Vec<_>>());
    assert_eq!(told(&svg, "key"), (0..448).collect::<Vec<_>>());
    assert!(svg.contains(">4 to 7: empty</text>"));
}

/// The marks of two images, and what is said of them.
#[test]
fn titles_of_marks() {
    let folder = Folder::new("map-mark-titles");
    folder.put("recorder.img", &every_kind());
    let mut store = Store::mount(every_kind()).unwrap();
    for file in [0, 13] {
        store.wipe(Offset::new(file, 0).unwrap(), Noise::new(&[9; NOISE]).unwrap()).unwrap();
    }
    folder.put("after.img", store.image());
    folder.done("map --before recorder.img --after after.img --svg out.svg");
    let svg = String::from_utf8(folder.bytes("out.svg")).unwrap();
    assert_svg(&svg);
    for title in [
        "page 49: node of file 0 offset 0, 224 bytes, sequence 2, key 1, live, gone since, erased since",
        "page 54: spoilt, erased since",
        "pages 48 to 63: empty, erased since",
        "key 1: used by file 0 offset 0, replaced since",
        "key 31: deleted, replaced since",
        "key 31: free, replaced since",
    ] {
        assert!(svg.contains(&format!("<title>{title}</title>")), "{title}");
    }
    for words in ["node gone since", "key replaced since", "block erased since"] {
        assert!(svg.contains(&format!(">{words}</text>")), "{words}");
    }
    assert!(svg.contains("none is left; blocks 3 8 erased; 2 nodes gone</text>"));
}

// ---- The width of the terminal

/// What is printed with `COLUMNS` set.
fn in_columns(folder: &Folder, line: &str, columns: usize) -> String {
    let words: Vec<&str> = line.split_whitespace().collect();
    let output = folder.command(&words).env("COLUMNS", columns.to_string()).output().unwrap();
    String::from_utf8(output.stdout).unwrap()
}

/// No line is longer than the width, on images with little and with much on them, of long names, and of such
/// as mount refuses.
#[test]
fn no_line_is_longer_than_the_width() {
    let folder = Folder::new("map-width");
    let mut numbers = Numbers(11);
    let long = format!("{}.img", "long".repeat(30));
    for blocks in [8, 32, 256] {
        folder.done(&format!("format --force --blocks {blocks}"));
        folder.done("write 13 7 x");
        let full = with_anything(folder.image(), &mut numbers);
        folder.put(&long, &full);
        let mut refused = full;
        refused[2 * BLOCK] = b'X';
        folder.put("refused.img", &refused);
        for line in [
            "map".to_string(),
            format!("map --image {long}"),
            "map --image refused.img".into(),
            format!("map --before recorder.img --after {long}"),
            format!("map --before {long} --after recorder.img"),
            "map --before recorder.img --after refused.img".into(),
        ] {
            for columns in [40, 60, 80, 100, 120] {
                let text = in_columns(&folder, &line, columns);
                assert!(text.lines().count() > 10, "{blocks}: {line}\n{text}");
                let longest = text.lines().map(|line| line.chars().count()).max().unwrap();
                assert!(longest <= columns, "{blocks}: {line}: {longest} of {columns}\n{text}");
            }
            assert_eq!(in_columns(&folder, &line, 1_000), folder.run(&line).printed, "{line}");
        }
    }
}

/// Where there is room the parts stand beside each other, and else one below the other.
#[test]
fn parts_beside_each_other_or_below() {
    let folder = Folder::new("map-parts");
    case_of_document_01(&folder);
    let keys = |line: &str, columns: usize| {
        let text = in_columns(&folder, line, columns);
        let heads = text.lines().filter(|line| line.contains("key positions"));
        heads.map(str::to_string).collect::<Vec<String>>()
    };
    let pair = "map --before recorder.img --after recorder.img";
    for (line, columns, expected) in [
        ("map", 72, vec!["blocks and their pages                 key positions"]),
        ("map", 71, vec!["key positions"]),
        (pair, 76, vec!["key positions                          key positions"]),
        (pair, 75, vec!["blocks and their pages                 key positions"; 2]),
        (pair, 71, vec!["key positions"; 2]),
    ] {
        assert_eq!(keys(line, columns), expected, "{line}, {columns}");
    }
    // Small cells where not even one picture has room.
    let small = in_columns(&folder, "map", 36);
    assert!(small.lines().any(|line| line == "   2 CCCCCCCCCC......"), "{small}");
    assert!(small.contains("0 to 9 live node, by file"), "{small}");
}

/// Names with signs of XML in them are spelt; those that no text can have are left out.
#[test]
fn names_of_files() {
    let folder = Folder::new("map-names");
    let name = "a & b <c> \"d\" \u{1b}.img";
    folder.run_words(&["format", "--image", name]);
    folder.run_words(&["map", "--image", name, "--svg", "out.svg"]);
    let svg = String::from_utf8(folder.bytes("out.svg")).unwrap();
    assert_svg(&svg);
    assert!(svg.contains("<title>image a &amp; b &lt;c&gt; &quot;d&quot; ?.img</title>"));
    let ran = folder.run_words(&["map", "--image", name]);
    assert!(ran.printed.starts_with("image a & b <c> \"d\" ?.img\n"), "{}", ran.printed);
    let long = "long/".repeat(40) + "x.img";
    fs::create_dir_all(folder.path.join(&long).parent().unwrap()).unwrap();
    folder.run_words(&["format", "--image", &long]);
    assert_eq!(folder.run_words(&["map", "--image", &long, "--svg", "out.svg"]).status, 0);
    assert_svg(&String::from_utf8(folder.bytes("out.svg")).unwrap());
}

/// Images that are not there are not made, and no image is overwritten by its picture.
#[test]
fn files_that_cannot_be_used() {
    let folder = Folder::new("map-files");
    folder.done("format --blocks 8 --image a.img");
    for line in ["map --before a.img --after b.img", "map --before b.img --after a.img"] {
        let ran = folder.run(line);
        assert_eq!(ran.status, 3, "{line}");
        assert!(ran.errors.starts_with("johvimaru: b.img is not there"), "{line}: {}", ran.errors);
    }
    let ran = folder.run("map --image a.img --svg nowhere/out.svg");
    assert_eq!((ran.status, ran.printed), (3, String::new()));
    assert!(ran.errors.starts_with("johvimaru: nowhere/out.svg: "), "{}", ran.errors);
    let before = folder.bytes("a.img");
    symlink("a.img", folder.path.join("link.svg")).unwrap();
    fs::hard_link(folder.path.join("a.img"), folder.path.join("name.svg")).unwrap();
    for name in ["link.svg", "name.svg"] {
        let ran = folder.run(&format!("map --image a.img --svg {name}"));
        let words = "is there already and is no picture; name another file";
        assert_eq!((ran.status, ran.errors), (3, format!("johvimaru: {name} {words}\n")));
        assert!(folder.bytes("a.img") == before);
    }
    for _ in 0..2 {
        folder.done("map --image a.img --svg new.svg");
    }
    assert_eq!(folder.names(), ["a.img", "link.svg", "name.svg", "new.svg"]);
}

/// The README's picture is what its script makes.
#[test]
fn the_picture_of_the_readme() {
    let folder = Folder::new("map-readme");
    let img = Path::new(env!("CARGO_MANIFEST_DIR")).join("../../docs/img");
    let out = folder.path.join("handover.svg");
    let mut script = Command::new("sh");
    script.arg(img.join("handover.sh")).arg(env!("CARGO_BIN_EXE_johvimaru")).arg(&out);
    let output = script.output().unwrap();
    assert!(output.status.success(), "{}", String::from_utf8_lossy(&output.stderr));
    let made = fs::read_to_string(out).unwrap();
    assert_svg(&made);
    let kept = fs::read_to_string(img.join("handover.svg")).unwrap();
    assert!(made == kept, "docs/img/handover.sh makes another picture");
    assert!(kept.len() < 200_000);
}
