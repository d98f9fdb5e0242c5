//! The C header: programs that use it, as C and as C++, its constants, and the words of johvimaru.c.

use johvimaru::raw::{Registers, DONE, POWER_CUT};
use johvimaru::{Cycles, Mark, Refusal};
use johvimaru_tests::model::files::{COUNTS, FILES, PLACES};
use johvimaru_tests::model::image::{BLOCK, SIZES};
use johvimaru_tests::model::keys::NOISE;
use johvimaru_tests::model::pages::{PAGE, PAYLOAD};
use johvimaru_tests::model::record::{LETTERS, MAP, NONE, SCRATCH};
use std::collections::HashSet;
use std::path::{Path, PathBuf};
use std::process::Command;

/// A path in the repository.
fn path(name: &str) -> PathBuf {
    Path::new(env!("CARGO_MANIFEST_DIR")).join("..").join(name)
}

/// Builds a program of tests/c with a compiler and these words, runs it, and gives what it prints.
fn run(name: &str, compiler: &str, words: &[&str]) -> String {
    let program = Path::new(env!("CARGO_TARGET_TMPDIR")).join(format!("{name}-{compiler}"));
    let built = Command::new(compiler)
        .args(words)
        .args(["-Wall", "-Wextra", "-Wpedantic", "-Werror", "-O1", "-I"])
        .arg(path("include"))
        .arg(path("tests/c").join(name).with_extension("c"))
        .args(["-x", "none"])
        .arg(env!("RECORDER_ARCHIVE"))
        .arg("-o")
        .arg(&program)
        .output()
        .unwrap_or_else(|error| panic!("{compiler} cannot be run: {error}"));
    assert!(built.status.success(), "{compiler}: {}", String::from_utf8_lossy(&built.stderr));
    let run = Command::new(&program).output().expect("the program was built");
    let printed = String::from_utf8(run.stdout).expect("the program prints text");
    assert!(run.status.success(), "{name} ended with {}: {printed}", run.status);
    printed
}

/// What a program of tests/c must print.
fn text(name: &str) -> String {
    std::fs::read_to_string(path("tests/c").join(name)).expect("the text is there")
}

/// A compiler of each language, and the words that name the language.
const LANGUAGES: [(&str, [&str; 3]); 2] =
    [("cc", ["-std=c11", "-x", "c"]), ("c++", ["-std=c++17", "-x", "c++"])];

#[test]
fn the_example_in_both_languages() {
    for (compiler, words) in LANGUAGES {
        assert_eq!(run("example", compiler, &words), text("example.txt"), "{compiler}");
    }
}

/// The bytes of each step, sent to the model of a chip, leave it as the image. Where they stop within a write, a
/// mount finds what was there before, or what was written.
#[test]
fn the_bytes_on_a_bus() {
    for (compiler, words) in LANGUAGES {
        assert_eq!(run("bus", compiler, &words), text("bus.txt"), "{compiler}");
    }
    let page = std::fs::read_to_string(path("docs/USING.md")).expect("the page is there");
    let shown: String = text("bus.txt").lines().map(|line| format!("    {line}\n")).collect();
    assert!(page.contains(&format!("&& ./bus\n{shown}\n")), "docs/USING.md shows other lines");
}

/// The steps of each call, as the header says that they are learnt, leave a chip as the image, and no block of it
/// unsettled that is then programmed.
#[test]
fn the_steps_on_a_chip() {
    let text = "mount: reply 13, nothing is done to the chip\n\
                format: reply 0, steps 50\nwrite: reply 0, steps 1\nwrite: reply 0, steps 1\n\
                read: reply 0, 40 bytes, the payload, then 184 stars\n\
                read: reply 8, 0 bytes, none, then 224 stars\n\
                gather: reply 0, steps 1\ncommit: reply 0, steps 46\n\
                cut-off: reply 0, steps 1\nwrite: reply 0, steps 1\nwipe: reply 0, steps 57\n\
                mount: reply 0, steps 5\ncommit: the power failed in step 17\n\
                block 1 is unsettled and reads FFh\n\
                mount: reply 0, steps 5\ncommit: reply 0, steps 45\n";
    for (compiler, words) in LANGUAGES {
        assert_eq!(run("chip", compiler, &words), text, "{compiler}");
    }
}

#[test]
fn the_stack_that_calls_take() {
    assert_eq!(run("stack", "cc", &["-std=c11", "-x", "c"]), "");
}

/// What the header says that calls leave behind, and no more.
#[test]
fn the_secrets_that_calls_leave() {
    let text = "format, stack:, vectors: key\n\
                write, stack: key, vectors:\n\
                read, stack: key, vectors: payload\n\
                mount, stack:, vectors:\n\
                gather, stack:, vectors:\n\
                commit, stack:, vectors: key\n\
                mount, stack:, vectors:\n\
                cut-off, stack:, vectors:\n\
                write, stack: key, vectors:\n\
                wipe, stack:, vectors: key\n\
                write of 40 bytes, stack: key, vectors:\n\
                read of 40 bytes, stack: key, vectors: payload\n\
                byte of a program, stack:, vectors:\n\
                the model, data, stack: key, vectors:\n\
                the model, 10h, stack: key, vectors:\n";
    assert_eq!(run("secrets", "cc", &["-std=c11", "-Wl,-z,now", "-x", "c"]), text);
}

/// The header.
fn header() -> String {
    std::fs::read_to_string(path("include/johvimaru.h")).expect("the header is there")
}

/// The text that the header defines for a name.
fn text_of<'a>(header: &'a str, name: &str) -> &'a str {
    let define = format!("#define JOHVIMARU_{name} ");
    let mut values = header.lines().filter_map(|line| line.strip_prefix(define.as_str()));
    values.next().unwrap_or_else(|| panic!("the header has no {name}"))
}

/// The number that the header defines for a name.
fn defined(header: &str, name: &str) -> u32 {
    let value = text_of(header, name);
    value.parse().unwrap_or_else(|_| panic!("{name} is {value:?}"))
}

/// The number that the header defines for a name, which does not have the type int.
fn defined_wide(header: &str, name: &str, suffix: &str) -> usize {
    let value = text_of(header, name);
    let number = value.strip_suffix(suffix).and_then(|digits| digits.parse().ok());
    number.unwrap_or_else(|| panic!("{name} is {value:?}"))
}

/// The replies by their names in the header.
fn replies() -> [(&'static str, u32); 17] {
    [
        ("DONE", DONE),
        ("REFUSED_IMAGE", Refusal::ImageSize.number()),
        ("REFUSED_LENGTHS", Refusal::BufferLength.number()),
        ("REFUSED_NOISE", Refusal::NoiseLength.number()),
        ("REFUSED_FILE", Refusal::NoSuchFile.number()),
        ("REFUSED_OFFSET", Refusal::OffsetOutside.number()),
        ("REFUSED_PAYLOAD", Refusal::PayloadLength.number()),
        ("REFUSED_RECORD", Refusal::RecordUnfit.number()),
        ("NOTHING_THERE", Refusal::NothingThere.number()),
        ("NO_FREE_KEY", Refusal::NoFreeKey.number()),
        ("NO_ROOM", Refusal::NoRoom.number()),
        ("NUMBERS_SPENT", Refusal::NumbersSpent.number()),
        ("NO_KEY_BLOCK", Refusal::NoKeyBlock.number()),
        ("NO_COMMIT", Refusal::NoCommit.number()),
        ("ENTRY_UNFIT", Refusal::EntryUnfit.number()),
        ("NOTHING_TO_GATHER", Refusal::NothingToGather.number()),
        ("POWER_CUT", POWER_CUT),
    ]
}

#[test]
fn the_constants() {
    let header = header();
    let sizes = [
        ("PAGE_SIZE", PAGE),
        ("BLOCK_SIZE", BLOCK),
        ("MIN_BLOCKS", *SIZES.start()),
        ("MAX_BLOCKS", *SIZES.end()),
        ("FILES", FILES),
        ("PLACES", PLACES),
        ("PAYLOAD_SIZE", PAYLOAD),
        ("MAP_LENGTH", MAP),
        ("LETTERS_LENGTH", LETTERS),
        ("NUMBERS_LENGTH", 5),
        ("SCRATCH_LENGTH", SCRATCH),
        ("NOISE_SIZE", NOISE),
        ("BUS_PROGRAM_LENGTH", Cycles::program(0, &[0; PAGE]).expect("there is a page 0").len()),
        ("BUS_ERASE_LENGTH", Cycles::erase(0).expect("there is a block 0").len()),
        ("MODEL_REGISTERS_LENGTH", Registers::reset().numbers.len()),
    ];
    for (name, size) in sizes {
        assert_eq!(defined_wide(&header, name, "UL"), size, "{name}");
    }
    assert_eq!(defined_wide(&header, "NONE", "U"), NONE.into());
    let counts = COUNTS.map(|count| count.to_string()).join(", ");
    assert_eq!(text_of(&header, "FILE_COUNTS"), format!("{{{counts}}}"));
    let indices = ["NEXT_SEQUENCE", "NEXT_EPOCH", "KEYS_0", "KEYS_1", "COMMIT"];
    assert_eq!(indices.map(|name| defined(&header, name)), [0, 1, 2, 3, 4]);
    let marks = ["BUS_COMMAND", "BUS_ADDRESS", "BUS_DATA"];
    let numbers = [Mark::Command, Mark::Address, Mark::Data].map(|mark| mark as u32);
    assert_eq!(marks.map(|name| defined(&header, name)), numbers);
    for (name, reply) in replies() {
        assert_eq!(defined(&header, name), reply, "{name}");
    }
    // The others are the guard against a second inclusion, the version, none, the counts and the size of
    // the stack.
    let all = sizes.len() + indices.len() + marks.len() + replies().len() + 5;
    let defines = header.lines().filter(|line| line.starts_with("#define JOHVIMARU_")).count();
    assert_eq!(defines, all, "a constant of the header is not looked at here");
}

/// The first sentence that the header has above a name, as a log takes it.
fn sentence<'a>(header: &'a str, name: &str) -> &'a str {
    let define = format!("#define JOHVIMARU_{name} ");
    let at = header.lines().position(|line| line.starts_with(&define)).expect("it is defined");
    let comment = header.lines().nth(at - 1).expect("it has a comment");
    let sentences = comment.strip_prefix("/* ").and_then(|text| text.strip_suffix(". */"));
    sentences.expect("the comment is one line").split(". ").next().expect("it has a sentence")
}

/// The words of replies are those of the header, and other numbers have others.
#[test]
fn the_words_of_replies() {
    let header = header();
    let mut text = format!("version {}\n", defined(&header, "VERSION"));
    for (name, reply) in replies() {
        let sentence = sentence(&header, name);
        text += &format!("{reply} {}{}\n", sentence[..1].to_lowercase(), &sentence[1..]);
    }
    for other in [16, 254, 256, u32::MAX] {
        text += &format!("{other} no reply has this number\n");
    }
    let words = path("include/johvimaru.c").display().to_string();
    for (compiler, [standard, x, language]) in LANGUAGES {
        let printed = run("replies", compiler, &[standard, x, language, &words]);
        assert_eq!(printed, text, "{compiler}");
    }
    let sentences: HashSet<&str> = replies().map(|(name, _)| sentence(&header, name)).into();
    assert_eq!(sentences.len(), replies().len(), "two replies have one sentence");
}
