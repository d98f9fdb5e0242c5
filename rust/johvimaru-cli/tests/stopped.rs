//! The command stopped at random moments, and many at once: the image file is what a power cut leaves.

mod common;

use common::{holds, Folder, Numbers};
use johvimaru::{Cut, Form, Noise, Offset, Outcome, Payload, Store, BLOCK, NOISE};
use std::collections::HashSet;
use std::process::Stdio;
use std::time::{Duration, Instant};

fn noise() -> Noise {
    Noise::new(&[9; NOISE]).unwrap()
}

fn at(file: u32, offset: u32) -> Offset {
    Offset::new(file, offset).unwrap()
}

/// Starts the command and kills it after some time. Tells whether it had ended by itself.
fn kill_after(folder: &Folder, line: &str, time: Duration) -> bool {
    let words: Vec<&str> = line.split_whitespace().collect();
    let mut child = folder
        .command(&words)
        .stdin(Stdio::null())
        .stdout(Stdio::null())
        .stderr(Stdio::null())
        .spawn()
        .unwrap();
    std::thread::sleep(time);
    let _ = child.kill();
    child.wait().unwrap().success()
}

/// What stands on an image, whatever its keys are.
fn forms(image: &[u8]) -> Vec<Form> {
    Form::all(image).collect()
}

/// A call with the power cut.
type CutCall = fn(Store<Vec<u8>>, Cut) -> Outcome<Vec<u8>>;

/// What a call leaves after each number of whole steps, by form.
fn after_each_step(before: &[u8], call: CutCall) -> Vec<Vec<Form>> {
    let mut all = Vec::new();
    for n in 0.. {
        let ended = call(Store::mount(before.to_vec()).unwrap(), Cut { n, k: 0 });
        all.push(forms(ended.image()));
        if !ended.is_cut() {
            break;
        }
    }
    all
}

/// Kills a command at random moments of its run. The file is each time what some number of whole steps leaves, and
/// a look at it is given to `look`.
fn killed(name: &str, line: &str, call: CutCall, look: impl Fn(&Folder, &[u8])) {
    let folder = Folder::new(name);
    folder.done("format --blocks 16");
    folder.done("write 0 0 old");
    let before = folder.image();
    let right = after_each_step(&before, call);
    let start = Instant::now();
    folder.done(line);
    let whole = start.elapsed().as_micros() as u64;
    let mut numbers = Numbers(1);
    let mut seen = HashSet::new();
    for run in 0..80 {
        folder.put("recorder.img", &before);
        let ended = kill_after(&folder, line, Duration::from_micros(numbers.below(2 * whole)));
        let image = folder.image();
        let steps = right.iter().rposition(|one| *one == forms(&image));
        let steps = steps.unwrap_or_else(|| panic!("run {run}: no number of steps leaves this"));
        assert!(!ended || steps + 1 == right.len(), "run {run}: it ended after {steps} steps");
        seen.insert(steps);
        look(&folder, &image);
        assert_eq!(folder.names(), ["recorder.img"], "run {run}");
    }
    let (least, most) = (seen.iter().min(), seen.iter().max());
    assert!(least < most, "{name}: killed at one moment only, {seen:?}");
    println!("{name}: stopped after {} different numbers of steps", seen.len());
}

#[test]
fn a_write_that_is_killed() {
    let write: CutCall = |s, cut| s.write_cut(at(0, 0), b"new", cut).unwrap();
    killed("killed-write", "write 0 0 new", write, |_, image| {
        let read = Store::mount(image.to_vec()).unwrap().read(at(0, 0)).unwrap();
        assert!(read == b"old" || read == b"new");
    });
}

/// After each kill a mount is good, and the wipe made again forgets: the old key is at no byte of the file.
#[test]
fn a_wipe_that_is_killed() {
    let wipe: CutCall = |store, cut| store.wipe_cut(at(0, 0), noise(), cut).unwrap();
    killed("killed-wipe", "wipe 0 0", wipe, |folder, image| {
        let store = Store::mount(image.to_vec()).unwrap();
        let read = store.read(at(0, 0));
        assert!(read.is_err() || read == Payload::new(b"old"));
        let Some(node) = store.record().node(at(0, 0)) else { return };
        let old = image[store.record().key_bytes(node.key)].to_vec();
        folder.done("wipe 0 0");
        assert!(!holds(&folder.image(), &old));
    });
}

#[test]
fn a_format_that_is_killed() {
    let format: CutCall = |s, cut| Store::format_cut(s.into_image(), noise(), cut).unwrap();
    killed("killed-format", "format --force", format, |folder, _| {
        folder.done("format --force");
        assert_eq!(folder.run("check").status, 0);
    });
}

/// A command that is killed while it makes the image leaves none or a whole one.
#[test]
fn a_first_use_that_is_killed() {
    let mut numbers = Numbers(5);
    let (mut none, mut some, mut limit) = (0, 0, 4_000);
    for run in 0..80 {
        let folder = Folder::new("killed-first");
        kill_after(&folder, "write 0 0 x", Duration::from_micros(numbers.below(2 * limit)));
        if folder.names().contains(&"recorder.img".to_string()) {
            let store = Store::mount(folder.image()).unwrap();
            assert!(store.record().nodes().count() < 2, "run {run}");
            some += 1;
            limit -= limit / 5;
        } else {
            none += 1;
            limit += limit / 4;
        }
        let _ = std::fs::remove_file(folder.path.join("recorder.img"));
        folder.done("write 0 0 x");
        assert_eq!(folder.names(), ["recorder.img"], "run {run}");
    }
    assert!(none > 9 && some > 9, "{none} times none, {some} times one");
}

/// Where the disk takes no more, the file is what a power cut leaves, and the command says what went wrong.
#[test]
fn a_disk_that_takes_no_more() {
    let folder = Folder::new("full-disk");
    folder.done("format --blocks 256");
    folder.done("write 0 0 old");
    // The limit ends the command by a signal, or, where that is ignored, by an error.
    for script in ["ulimit -f 8", "trap '' XFSZ; ulimit -f 8"] {
        for line in ["write 0 0 x", "wipe 0 0", "commit", "write 0 0 x --image new.img"] {
            let binary = env!("CARGO_BIN_EXE_johvimaru");
            let script = format!("{script}; exec {binary} {line}");
            let output = std::process::Command::new("sh")
                .args(["-c", &script])
                .current_dir(&folder.path)
                .output()
                .unwrap();
            let code = output.status.code();
            assert!(matches!(code, None | Some(3)), "{script}: {code:?}");
            assert_eq!(folder.done("read 0 0"), "old", "{script}");
            assert!(!folder.names().contains(&"new.img".to_string()), "{script}");
        }
    }
    folder.done("write 0 0 x");
}

/// Of many commands at once none loses what another has written.
#[test]
fn many_at_once() {
    let folder = Folder::new("many");
    let children: Vec<_> = (0..32)
        .map(|offset| {
            let offset = offset.to_string();
            let words = ["write", "1", &offset, &offset];
            folder.command(&words).stdout(Stdio::null()).stderr(Stdio::null()).spawn().unwrap()
        })
        .collect();
    for mut child in children {
        assert!(child.wait().unwrap().success());
    }
    let store = Store::mount(folder.image()).unwrap();
    assert_eq!(store.record().nodes().count(), 32);
    assert_eq!(folder.image().len(), 32 * BLOCK);
    for offset in 0..32 {
        assert_eq!(folder.done(&format!("read 1 {offset}")), offset.to_string());
    }
}

/// A command that has to wait for another one says so after a second, and goes on when that has ended.
#[test]
fn a_wait_for_another_command() {
    let folder = Folder::new("wait");
    folder.done("format --blocks 8");
    for (line, held) in [("check", 3_000), ("write 0 0 x", 3_000), ("check", 200)] {
        let file = std::fs::File::open(folder.path.join("recorder.img")).unwrap();
        file.lock().unwrap();
        let words: Vec<&str> = line.split_whitespace().collect();
        let child = folder.command(&words).stderr(Stdio::piped()).stdout(Stdio::piped()).spawn();
        std::thread::sleep(Duration::from_millis(held));
        file.unlock().unwrap();
        let ran = common::Ran::of(child.unwrap().wait_with_output().unwrap());
        assert_eq!(ran.status, 0, "{line}: {}", ran.errors);
        let said = ran.errors.contains("another command is at work on recorder.img");
        assert_eq!(said, held > 1_000, "{line}: {}", ran.errors);
    }
}
