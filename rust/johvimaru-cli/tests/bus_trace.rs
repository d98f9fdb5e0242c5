//! `bus-trace`: its bytes do to a chip on a bus what the call does to the file, and leave the file alone.

mod common;

use common::{holds, Folder};
use johvimaru::{Bus, Cycle, Form, ModelBus, Refusal, Step, Store, BLOCK, KEY};

/// What is said of a trace with keys.
const KEYS: &str = "johvimaru: key blocks are programmed here, so the D lines hold keys: keep this trace as you keep \
                    the chip, or leave them out, by grep -v '^D'\n";

/// A file with nodes in two data blocks, the first of them thin, and a deleted key.
fn folder(name: &str) -> Folder {
    let folder = Folder::new(name);
    folder.done("format --blocks 9");
    folder.done("write 0 0 kept");
    for write in 0..17 {
        folder.done(&format!("write 2 {} track", write % 3));
    }
    folder
}

/// What a line of a trace says.
#[derive(Debug, PartialEq, Eq)]
enum Line {
    Step(String),
    Sent(Vec<Cycle>),
    Received(u8),
    End(String),
}

fn line(text: &str) -> Line {
    let byte = |digits: &str| {
        assert!(digits.len() == 2 && digits == digits.to_lowercase(), "{text}");
        u8::from_str_radix(digits, 16).unwrap_or_else(|error| panic!("{text}: {error}"))
    };
    let (first, rest) = text.split_once(' ').expect("each line has words");
    let bytes = || rest.split(' ').map(byte);
    match first {
        "C" => Line::Sent(bytes().map(Cycle::command).collect()),
        "A" => Line::Sent(bytes().map(Cycle::address).collect()),
        "D" => Line::Sent(bytes().map(Cycle::data).collect()),
        "S" => Line::Received(byte(rest)),
        "step" => Line::Step(rest.into()),
        _ => Line::End(text.into()),
    }
}

/// Sends a trace to a chip with this image, which must answer as the trace says. Gives what is on it then, and
/// what the steps were.
fn replayed(image: Vec<u8>, trace: &str) -> (Vec<u8>, Vec<String>) {
    let (mut bus, mut steps) = (ModelBus::new(image), Vec::new());
    let (trace, last) = trace.trim_end().rsplit_once('\n').expect("a trace has lines");
    for text in trace.lines() {
        match line(text) {
            Line::Step(what) => steps.push(what),
            Line::Sent(cycles) => cycles.into_iter().for_each(|cycle| bus.send(cycle).unwrap()),
            Line::Received(status) => assert_eq!(bus.receive(), Ok(status)),
            Line::End(text) => panic!("{text}"),
        }
    }
    assert!(matches!(line(last), Line::End(_)), "{last}");
    for (number, step) in steps.iter().enumerate() {
        assert!(step.starts_with(&format!("{}: ", number + 1)), "{step}");
    }
    (bus.into_image(), steps)
}

/// Calls that are the same each time: the trace brings the mounted image to what the call then leaves in the file.
#[test]
fn a_trace_does_what_the_call_does() {
    for call in
        ["write 0 0 new", "write 13 7 x", "cut-off 2 1", "gather --thinnest", "gather 3", "mount"]
    {
        let folder = folder("same");
        let before = folder.image();
        let ran = folder.run(&format!("bus-trace {call}"));
        assert_eq!((ran.status, &ran.errors[..]), (0, ""), "{call}");
        assert!(folder.image() == before, "{call}: the file is left as it is");
        let mounted = Store::mount(before).unwrap().into_image();
        let (image, steps) = replayed(mounted, &ran.printed);
        assert!(!steps.is_empty(), "{call}");
        folder.done(call);
        assert!(folder.image() == image, "{call}");
    }
}

/// A mount's own steps are printed, those of the mount before another call are not.
#[test]
fn the_steps_of_a_mount() {
    let folder = folder("mount");
    folder.done("commit --cut 3,100");
    let printed = folder.done("bus-trace mount");
    let (image, steps) = replayed(folder.image(), &printed);
    let store = Store::mount(folder.image()).unwrap();
    assert!(image == store.image());
    let erases = Step::of_mount(store.image()).enumerate().map(|(number, step)| {
        let Step::Erase { block } = step else { panic!("a mount erases only") };
        format!("{}: erase block {block}", number + 1)
    });
    assert!(erases.eq(steps), "{printed}");
    let end = "4 steps, 28 bytes sent; this was a copy: recorder.img is left as it is\n";
    assert!(printed.ends_with(end), "{printed}");
    let written = folder.done("bus-trace write 0 0 x");
    assert!(written.starts_with("step 1: program page "), "{written}");
    assert_eq!(written.lines().count(), 24, "{written}");
}

/// Commits and wipes take noise, so their bytes are others each time.
#[test]
fn commits_and_wipes() {
    for (call, nodes, steps) in [("commit", 4, 45), ("wipe 2 0", 1, 57), ("wipe 0 0", 3, 56)] {
        let folder = folder("noise");
        let before = folder.image();
        let ran = folder.run(&format!("bus-trace {call}"));
        assert_eq!((ran.status, &ran.errors[..]), (0, KEYS), "{call}");
        assert!(folder.image() == before, "{call}");
        let old = Store::mount(before).unwrap();
        let (image, done) = replayed(old.image().to_vec(), &ran.printed);
        let new = Store::mount(image).unwrap();
        assert_eq!((new.record().nodes().count(), done.len()), (nodes, steps), "{call}");
        let first = old.record().nodes().next().unwrap();
        let key = &old.image()[old.record().key_bytes(first.key)];
        assert_eq!(key.len(), KEY);
        // The warning is right: the key of a node that stays is in the trace.
        let stays = new.record().node(first.at).is_some();
        assert_eq!(holds(new.image(), key), stays, "{call}");
        folder.done(call);
        let forms = |image: &[u8]| Form::all(image).collect::<Vec<_>>();
        assert_eq!(forms(&folder.image()), forms(new.image()), "{call}");
    }
}

/// A format is traced for a file that is not there, for the size that is asked for and for that of the file.
#[test]
fn formats() {
    let folder = Folder::new("format");
    let ran = folder.run("bus-trace format --blocks 8");
    assert_eq!((ran.status, &ran.errors[..]), (0, KEYS));
    let end = "50 steps, 11186 bytes sent; this was a copy: recorder.img is not made\n";
    assert!(ran.printed.ends_with(end), "{}", ran.printed.lines().last().unwrap());
    assert_eq!(folder.names(), [""; 0], "no file is made");
    let (image, _) = replayed(vec![0x5a; 8 * BLOCK], &ran.printed);
    assert_eq!(Store::mount(image).unwrap().record().nodes().count(), 0);
    for (bytes, steps) in [(vec![b'x'; 11 * BLOCK], 53), (b"a letter".to_vec(), 74)] {
        folder.put("recorder.img", &bytes);
        let printed = folder.done("bus-trace format");
        let steps = format!("\n{steps} steps, ");
        assert!(printed.contains(&steps), "{}", printed.lines().last().unwrap());
        assert!(folder.image() == bytes);
    }
}

#[test]
fn refusals_are_those_of_the_call() {
    let folder = folder("refused");
    let before = folder.image();
    for call in [
        "write 14 0 x",
        "write 13 8 x",
        "cut-off 5 0",
        "wipe 0 32",
        "gather 0",
        "gather 99",
        "format --blocks 7",
        "format --blocks 257",
        "commit --image none.img",
        "write 0 0 x --image /dev/null",
    ] {
        let by_call = folder.run(call);
        let traced = folder.run(&format!("bus-trace {call}"));
        assert!(by_call.status == 1 || by_call.status == 3, "{call}: {by_call:?}");
        assert_eq!(traced.status, by_call.status, "{call}");
        assert_eq!(traced.errors, by_call.errors, "{call}");
        assert_eq!(traced.printed, "", "{call}");
    }
    let empty = folder.run_words(&["bus-trace", "write", "0", "0", ""]);
    let number = format!("johvimaru: refused {}: ", Refusal::PayloadLength.number());
    assert!(empty.status == 1 && empty.errors.starts_with(&number), "{empty:?}");
    assert!(Store::mount(before).unwrap().image() == Store::mount(folder.image()).unwrap().image());
    assert_eq!(folder.names(), ["recorder.img"]);
}

/// A payload from standard input, and a write where there is no file.
#[test]
fn payloads_and_files_that_are_not_there() {
    let folder = folder("input");
    let by_word = folder.done("bus-trace write 0 1 abc");
    assert_eq!(folder.run_with("bus-trace write 0 1 -", b"abc").printed, by_word);
    let none = folder.run("bus-trace write 0 0 x --image none.img");
    assert_eq!((none.status, &none.printed[..]), (3, ""));
    assert!(none.errors.contains("none.img is not there"), "{}", none.errors);
    assert_eq!(folder.names(), ["recorder.img"]);
}
