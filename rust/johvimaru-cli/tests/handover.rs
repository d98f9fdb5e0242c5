//! A handover in one command: whatever state the image is in, it is cleared, or the command says that it is not.

mod common;

use common::{holds, Folder, Numbers};
use johvimaru::{Cut, Form, Noise, Offset, Store, BLOCK, KEY, KEYS, NOISE};

fn at(file: u32, offset: u32) -> Offset {
    Offset::new(file, offset).unwrap()
}

/// Noise of which each key is another one, and of another call another.
fn noise(call: u64) -> Noise {
    let mut numbers = Numbers(call);
    let bytes: Vec<u8> = (0..NOISE).map(|_| numbers.below(256) as u8).collect();
    Noise::new(&bytes).unwrap()
}

/// All keys of the chosen key blocks.
fn keys(store: &Store<Vec<u8>>) -> Vec<Vec<u8>> {
    (0..KEYS).map(|p| store.image()[store.record().key_bytes(p)].to_vec()).collect()
}

/// An image of random calls, the last of them cut.
fn image(numbers: &mut Numbers) -> Vec<u8> {
    let blocks = 8 + numbers.below(12) as usize;
    let mut store = Store::format(vec![0; BLOCK * blocks], noise(numbers.below(1 << 30))).unwrap();
    for _ in 0..numbers.below(50) {
        let from = at(numbers.below(14) as u32, numbers.below(8) as u32);
        let fresh = noise(numbers.below(1 << 30));
        let _ = match numbers.below(12) {
            0 => store.cut_off(from),
            1 => store.commit(fresh),
            2 => store.wipe(from, fresh),
            3 => store.gather(numbers.below(blocks as u64) as usize),
            _ => store.write(from, &[b'x'; 224]),
        };
    }
    let cut = Cut { n: numbers.below(70), k: numbers.below(4_097) as usize };
    let ended = match numbers.below(4) {
        0 => store.commit_cut(noise(numbers.below(1 << 30)), cut),
        1 => store.gather_cut(numbers.below(6) as usize, Cut { n: cut.n % 4, k: cut.k }),
        _ => store.wipe_cut(at(numbers.below(14) as u32, 0), noise(numbers.below(1 << 30)), cut),
    };
    match ended {
        Ok(outcome) => outcome.image().to_vec(),
        Err(refused) => refused.back.into_image(),
    }
}

/// After a cut call anywhere, everything is gone: three blocks are left, with new keys, and no old key is at any
/// byte.
#[test]
fn every_state_is_cleared() {
    let folder = Folder::new("handover-all");
    let mut numbers = Numbers(11);
    for case in 0..25 {
        let before = image(&mut numbers);
        folder.put("recorder.img", &before);
        let old = keys(&Store::mount(before).unwrap());
        let report = folder.done("handover");
        let verdict = "The recorder may be handed over with this image on its chip: recorder.img, ";
        assert!(report.lines().last().unwrap().starts_with(verdict), "case {case}: {report}");
        assert!(report.ends_with(" blocks; no file is on it, and no old key.\n"), "case {case}");
        let after = folder.image();
        assert!(old.iter().all(|key| !holds(&after, key)), "case {case}");
        let full = after.chunks(BLOCK).filter(|block| block.iter().any(|&byte| byte != 0xff));
        assert_eq!(full.count(), 3, "case {case}");
        let store = Store::mount(after.clone()).unwrap();
        assert!(store.image() == after && store.record().nodes().count() == 0, "case {case}");
        assert_eq!(store.record().counts().free, KEYS, "case {case}");
    }
}

/// Kept files read as before, under their keys; all other keys are new ones.
#[test]
fn kept_files_stay() {
    let folder = Folder::new("handover-keep");
    let mut numbers = Numbers(12);
    let mut kept_nodes = 0;
    for case in 0..25 {
        let before = image(&mut numbers);
        folder.put("recorder.img", &before);
        let old = Store::mount(before).unwrap();
        let has_nodes =
            |file: &u32| old.record().nodes().any(|node| node.at.file().number() == *file);
        let keep: Vec<u32> = [3, 0, 3].into_iter().filter(has_nodes).collect();
        let words: Vec<String> = keep.iter().map(u32::to_string).collect();
        folder.done(&match &words[..] {
            [] => "handover".into(),
            words => format!("handover --keep {}", words.join(",")),
        });
        let new = Store::mount(folder.image()).unwrap();
        let is_kept = |at: Offset| keep.contains(&at.file().number());
        for at in Offset::all() {
            let expected = if is_kept(at) { old.read(at).ok() } else { None };
            assert_eq!(new.read(at).ok(), expected, "case {case}: {at}");
        }
        let used: Vec<usize> =
            old.record().nodes().filter(|node| is_kept(node.at)).map(|node| node.key).collect();
        for (position, key) in keys(&old).iter().enumerate() {
            let stays = used.contains(&position);
            assert_eq!(holds(&folder.image(), key), stays, "case {case}: {position}");
        }
        kept_nodes += used.len();
    }
    assert!(kept_nodes > 20, "{kept_nodes} nodes were kept");
}

/// What is said of the recorder whose report is looked at.
const VERDICT: &str = "The recorder may be handed over with this image on its chip: recorder.img, \
                       8 blocks; file 3 is kept on it, and no old key but theirs.";

#[test]
fn the_report_as_text() {
    let folder = Folder::new("handover-text");
    folder.done("format --blocks 8");
    for line in ["write 0 0 one", "write 0 1 two", "write 0 0 three", "write 3 0 kept"] {
        folder.done(line);
    }
    folder.done("wipe 0 0 --cut 20,100");
    assert_eq!(
        folder.done("handover --keep 3 --report out.txt"),
        format!("report: out.txt\n{VERDICT}\n")
    );
    let report = String::from_utf8(folder.bytes("out.txt")).unwrap();
    let mut lines: Vec<&str> = report.lines().collect();
    assert!(lines[0].starts_with("Handover of recorder.img, 20") && lines[0].ends_with(" UTC"));
    assert_eq!(lines[1], format!("by johvimaru {}", env!("CARGO_PKG_VERSION")));
    for line in [4, 14] {
        assert!(lines[line].starts_with("  8 blocks, SHA-256 "), "{report}");
        lines[line] = "  (hash)";
    }
    let expected = "
Before
  (hash)
  file 3: 1 node, kept
  keys: 1 used, 444 free, 3 deleted
  left by a cut call: block 2

Done
  mount: erased block 2, no part of the store
  committed: every file that has a node is kept

After
  (hash)
  file 3: 1 node, kept
  keys: 1 used, 447 free, 0 deleted

Old keys
  on the image before: 578 keys
  of kept nodes, and still there: 1
  positions 0-2 4-447: no copy at any byte

What a reader of the chip can still learn
  next sequence 5: 4 pages since the format, written, cut off or gathered
  next epoch 4: 2 epochs since the format, one for a commit, two for a wipe
  keys in blocks 2 and 0, commit in 1: something of how blocks were used
  file 3: the content of 1 node, whose keys are on the chip
  3 headers beside live nodes: file, offset, length and sequence of what was removed, no content

Recorder ______________  Handed over by ______________  Taken over by ______________
";
    assert_eq!(lines[2..].join("\n"), format!("{expected}\n{VERDICT}"));
}

/// The hashes are those that anybody reckons of the file.
#[test]
fn the_hashes_are_of_the_file() {
    let folder = Folder::new("handover-hash");
    folder.done("format --blocks 8");
    let hash = || {
        let mut sum = std::process::Command::new("sha256sum");
        let output = sum.arg("recorder.img").current_dir(&folder.path).output();
        let output = output.expect("sha256sum is there");
        String::from_utf8(output.stdout).unwrap().split(' ').next().unwrap().to_string()
    };
    let before = hash();
    let report = folder.done("handover");
    for hash in [before, hash()] {
        assert!(report.contains(&format!("SHA-256 {hash}\n")), "{hash}\n{report}");
    }
}

#[test]
fn the_report_as_json_names_each_key() {
    let folder = Folder::new("handover-json");
    folder.done("format --blocks 8");
    folder.done("write 0 0 secret-of-the-firm");
    let store = Store::mount(folder.image()).unwrap();
    let report = folder.done("handover --json");
    assert_eq!(report.matches("\"copies\": 0").count(), KEYS);
    assert_eq!(report.matches("\"copies\": ").count(), KEYS);
    assert!(report.contains("\"may_be_handed_over\": true"));
    assert!(!report.contains("secret"));
    let hex = |bytes: &[u8]| bytes.iter().map(|byte| format!("{byte:02x}")).collect::<String>();
    assert!(keys(&store).iter().all(|key| !report.contains(&hex(&key[..4]))));
}

/// An image that cannot be mounted is not handed over, and nothing of it is changed; with --force it is formatted.
#[test]
fn an_image_that_cannot_be_mounted() {
    let folder = Folder::new("handover-refused");
    folder.done("format --blocks 8");
    folder.done("write 0 0 x");
    let mut image = folder.image();
    let key = image[30..30 + KEY].to_vec();
    image[2 * BLOCK] = b'X';
    folder.put("recorder.img", &image);
    for line in ["handover", "handover --keep 0 --force", "handover --report out.txt"] {
        let ran = folder.run(line);
        let loud = "THE RECORDER MUST NOT BE HANDED OVER: recorder.img: refused 13: ";
        assert!(ran.status == 1 && ran.printed.starts_with(loud), "{line}: {}", ran.printed);
        assert!(ran.errors.contains("refused 13"), "{}", ran.errors);
        assert!(ran.errors.ends_with("; `johvimaru help mount` says what to do\n"));
        assert!(folder.image() == image, "{line}");
    }
    let said = folder.run("handover --json").printed;
    assert!(said.starts_with("{\n  \"may_be_handed_over\": false,\n  \"verdict\": \"THE RECORDER"));
    folder.done("handover --force");
    assert!(!holds(&folder.image(), &key));
    assert_eq!(folder.run("check").status, 0);
    assert_eq!(folder.names(), ["recorder.img"]);
}

/// With --force too, only what has pages of a recorder on it is formatted.
#[test]
fn what_is_no_recorder() {
    let folder = Folder::new("handover-other");
    for bytes in [vec![0xff; 8 * BLOCK], vec![0; 8 * BLOCK], vec![b'x'; 32 * BLOCK]] {
        folder.put("recorder.img", &bytes);
        assert_eq!(folder.run("handover --force").status, 1);
        assert!(folder.image() == bytes);
    }
    folder.put("recorder.img", b"a letter");
    assert_eq!(folder.run("handover --force").status, 1);
    assert_eq!(folder.image(), b"a letter");
}

/// A file that is to be kept and has no node was mistyped: nothing is changed.
#[test]
fn a_file_without_a_node_cannot_be_kept() {
    let folder = Folder::new("handover-nothing-kept");
    folder.done("format --blocks 8");
    folder.done("write 3 0 x");
    let before = folder.image();
    for line in ["handover --keep 4", "handover --keep 3,4 --force --report out.txt"] {
        let ran = folder.run(line);
        let said = "johvimaru: refused 8: file 4 has no node to keep; nothing was changed\n";
        assert_eq!((ran.status, &ran.errors[..]), (1, said), "{line}");
        assert!(folder.image() == before, "{line}");
    }
    assert_eq!(folder.names(), ["recorder.img"]);
}

/// An image whose next epoch is this one.
fn with_epoch(epoch: u32) -> Vec<u8> {
    let mut store = Store::format(vec![0; 8 * BLOCK], noise(1)).unwrap();
    for file in [0, 1, 3] {
        store.write(at(file, 0), b"x").unwrap();
    }
    let mut image = store.into_image();
    for page in image.chunks_mut(256).filter(|page| matches!(page[0], b'K' | b'C')) {
        page[1..9].copy_from_slice(format!("{:8}", epoch - 1).as_bytes());
    }
    assert_eq!(Store::mount(image.clone()).unwrap().record().next_epoch(), epoch);
    image
}

/// Where the epochs do not last for all wipes nothing is wiped, and the command says what to do.
#[test]
fn epochs_that_are_spent() {
    let folder = Folder::new("handover-spent");
    for (epoch, keep, needed) in
        [(100_000_000, "", 6), (99_999_995, "", 6), (99_999_997, " --keep 0", 4)]
    {
        let image = with_epoch(epoch);
        folder.put("recorder.img", &image);
        let ran = folder.run(&format!("handover{keep}"));
        let said = format!(
            "johvimaru: refused 11: this takes {needed} epochs, and {} are left; nothing was \
             changed; export what is needed, then `handover --force` formats the image\n",
            100_000_000 - epoch
        );
        assert_eq!((ran.status, ran.errors), (1, said));
        assert!(folder.image() == image);
    }
    folder.done("handover --force");
    assert!(folder
        .done("check")
        .starts_with("recorder.img: 8 blocks, 32768 bytes\nlive nodes: 0\n"));
    folder.put("recorder.img", &with_epoch(99_999_994));
    folder.done("handover");
    assert!(folder.done("check").contains("\nnext sequence 4, next epoch 100000000\n"));
}

/// Keys that are alike by value are told as left: the search goes by bytes.
#[test]
fn a_key_that_is_found_again_is_told() {
    let folder = Folder::new("handover-found");
    let same = Noise::new(&[7; NOISE]).unwrap();
    let mut store = Store::format(vec![0; 8 * BLOCK], same).unwrap();
    // A page of a data block that looks like a key of the chip, beside a node that is kept.
    store.write(at(1, 0), b"kept").unwrap();
    let mut image = store.into_image();
    let torn = 49 * 256;
    image[torn..torn + 30].copy_from_slice(b"N       2  0   0   1       0: ");
    image[torn + 100..torn + 100 + KEY].copy_from_slice(&[7; KEY]);
    image[BLOCK + 30..BLOCK + 30 + KEY].copy_from_slice(b"a key by itself.");
    image[torn + 130..torn + 130 + KEY].copy_from_slice(b"a key by itself.");
    assert!(matches!(Form::all(&image).nth(49), Some(Form::Torn(_))));
    folder.put("recorder.img", &image);
    let ran = folder.run("handover --keep 1");
    assert_eq!(ran.status, 4, "{}", ran.printed);
    assert!(ran.printed.contains("  position 224: STILL THERE, page 49\n"), "{}", ran.printed);
    let verdict = "THE RECORDER MUST NOT BE HANDED OVER: recorder.img, 8 blocks: 1 old key still";
    assert!(ran.printed.contains(verdict), "{}", ran.printed);
    assert!(folder.done("handover").contains("positions 0-447: no copy at any byte"));
}

/// A page of keys that is damaged and stands beside a kept node is told each time, since no call looks at it.
#[test]
fn a_damaged_page_beside_a_kept_node() {
    let folder = Folder::new("handover-damaged");
    folder.done("format --blocks 8");
    folder.done("write 3 0 kept");
    folder.done("write 0 0 secret");
    let image = folder.image();
    for (header, what) in [(b'J', "damaged"), (b'K', "whole")] {
        let mut image = image.clone();
        image.copy_within(0..256, 60 * 256);
        image[60 * 256] = header;
        folder.put("recorder.img", &image);
        for run in 0..2 {
            let ran = folder.run("handover --keep 3");
            assert_eq!(ran.status, 4, "{what}, {run}: {}", ran.printed);
            let fault = "no node is on page 60, and something is";
            assert!(ran.printed.contains(fault), "{what}, {run}: {}", ran.printed);
        }
        folder.done("handover");
    }
}

/// What a cut erase of a dead block has left is no damage, where an older recorder, whose mount did not erase that
/// block, has put a kept node onto it.
#[test]
fn a_cut_erase_beside_a_kept_node() {
    let mut store = Store::format(vec![0; 8 * BLOCK], noise(1)).unwrap();
    for offset in 0..10 {
        store.write(at(0, offset), b"old").unwrap();
    }
    store.cut_off(at(0, 0)).unwrap();
    store.write(at(3, 0), b"kept").unwrap();
    store.commit(noise(2)).unwrap();
    let node = store.record().node(at(3, 0)).unwrap();
    let mut image = store.into_image();
    image[3 * BLOCK..][..600].fill(0xff);
    let store = Store::mount(image).unwrap();
    assert_eq!((node.page, Form::all(store.image()).nth(50)), (59, Some(Form::Spoilt)));
    let folder = Folder::new("handover-erased");
    folder.put("recorder.img", store.image());
    let ran = folder.run("check");
    assert_eq!(ran.status, 4);
    assert!(
        ran.printed.ends_with("spoilt, by a cut erase or by damage: page 50\n"),
        "{}",
        ran.printed
    );
    folder.done("handover --keep 3");
    assert_eq!(folder.done("read 3 0"), "kept");
}

/// The report is there before anything is changed, and says that the handover is not finished until it is.
#[test]
fn a_report_of_a_handover_that_failed() {
    let folder = Folder::new("handover-stopped");
    folder.done("format --blocks 64");
    for file in 0..14 {
        folder.done(&format!("write {file} 0 x"));
    }
    // Files may not grow beyond the first block, so that the first step fails.
    let binary = env!("CARGO_BIN_EXE_johvimaru");
    let script = format!("trap '' XFSZ; ulimit -f 8; exec {binary} handover --report out.txt");
    let mut shell = std::process::Command::new("sh");
    let output = shell.args(["-c", &script]).current_dir(&folder.path).output().unwrap();
    let errors = String::from_utf8_lossy(&output.stderr);
    let printed = String::from_utf8_lossy(&output.stdout);
    assert_eq!(output.status.code(), Some(3), "{errors}");
    let said = "THE RECORDER MUST NOT BE HANDED OVER: not finished: the image file: ";
    assert!(printed.starts_with(said), "{printed}{errors}");
    let report = String::from_utf8(folder.bytes("out.txt")).unwrap();
    assert!(report.contains("\n  file 0: 1 node\n"), "{report}");
    let verdict = "THE RECORDER MUST NOT BE HANDED OVER: recorder.img, 64 blocks: \
                   the handover was not finished; make it again.\n";
    assert!(report.ends_with(verdict), "{report}");
    folder.done("handover --report again.txt");
}

/// The report goes to a new file only, and where it cannot be written nothing is changed.
#[test]
fn where_a_report_goes() {
    let folder = Folder::new("handover-report");
    folder.done("format --blocks 8");
    folder.done("write 0 0 x");
    let before = folder.image();
    for name in ["recorder.img", "old.txt"] {
        folder.put("old.txt", b"an older report");
        let ran = folder.run(&format!("handover --report {name}"));
        let said = format!("johvimaru: {name} is there already; name a new file\n");
        assert_eq!((ran.status, ran.errors), (3, said));
        assert!(folder.image() == before && folder.bytes("old.txt") == b"an older report");
    }
    assert_eq!(folder.run("handover --report nowhere/x.txt").status, 3);
    let ran = folder.run("handover --report /dev/full");
    assert_eq!(ran.status, 3);
    assert!(ran.printed.starts_with("THE RECORDER MUST NOT BE HANDED OVER: "), "{}", ran.printed);
    assert_eq!(folder.run("handover --keep 14 --report x.txt").status, 1);
    assert_eq!(folder.run("handover --image none.img --report x.txt").status, 3);
    assert_eq!(folder.names(), ["old.txt", "recorder.img"]);
    let full = std::fs::OpenOptions::new().write(true).open("/dev/full").unwrap();
    let output = folder.command(&["handover"]).stdout(full).output().unwrap();
    assert_eq!(output.status.code(), Some(3), "the report is lost");
}
