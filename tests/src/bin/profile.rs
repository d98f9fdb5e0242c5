//! How many instructions each call executes on the images of the benchmark, and in which functions.
//!
//! Without words it runs itself under valgrind for each call and image, and prints a table in Markdown.
//! With the word `save` it prints the sums alone, as `profile-before.txt` has them. With `ours` or `floor`,
//! a call and the number of an image it makes that call once, which is what valgrind looks at.

use johvimaru::raw::{self as recorder, Record, DONE};
use johvimaru_tests::floor::Floor;
use johvimaru_tests::model::files::PLACES;
use johvimaru_tests::model::pages::PAYLOAD;
use johvimaru_tests::settings::{
    full_block, payload, Setting, FORMAT_NOISE, GATHER_SETTINGS, SETTINGS, SHORT,
};
use std::collections::BTreeMap;
use std::path::Path;
use std::process::Command;

/// The calls, as the library's functions end. A short read is one of 40 bytes; a gather has 16 live pages and
/// images of its own.
const CALLS: [&str; 7] = ["write", "read", SHORT_READ, "mount", "commit", "cut_off", GATHER];
const GATHER: &str = "gather";
const SHORT_READ: &str = "short_read";

/// The two sides.
const OURS: &str = "ours";
const FLOOR: &str = "floor";

/// The sums of an earlier version.
const BEFORE: &str = include_str!("../../profile-before.txt");

/// Columns of the table, each with the beginnings of the functions that it counts. What is in none is in
/// the last.
const COLUMNS: [(&str, &[&str]); 8] = [
    ("fit", &["store::fit"]),
    ("kinds", &["store::kinds"]),
    (
        "headers, entries",
        &["image::look::form_at", "page::headers", "page::columns", "page::entries", "page::forms"],
    ),
    ("search, emptiness", &["store::find", "image::look", "store::sweep"]),
    ("cipher", &["cipher"]),
    ("pages written", &["page", "image", "store::stages"]),
    ("memory", &["mem", "__mem"]),
    ("the call", &[""]),
];

fn main() {
    let words: Vec<String> = std::env::args().skip(1).collect();
    match words.as_slice() {
        [] => print_table(),
        [word] if word == "save" => print_sums(),
        [side, call, at] => {
            let setting = &settings(call)[at.parse::<usize>().expect("the number of an image")];
            let reply = if side == OURS { ours(call, setting) } else { floor(call, setting) };
            assert_eq!(reply, DONE);
        }
        _ => panic!("no words, `save`, or a side, a call and the number of an image"),
    }
}

/// The images that a call is made on.
fn settings(call: &str) -> &'static [Setting] {
    if call == GATHER {
        &GATHER_SETTINGS
    } else {
        &SETTINGS
    }
}

/// Image and record that a call finds.
fn lent(call: &str, setting: &Setting) -> (Vec<u8>, Record) {
    setting.lent_with(if call == SHORT_READ { SHORT } else { PAYLOAD })
}

/// Makes a call by the library, the only one in this run.
fn ours(call: &str, setting: &Setting) -> u32 {
    let (mut image, mut record) = lent(call, setting);
    let (noise, data) = (FORMAT_NOISE.bytes(), payload(1_000_000).bytes());
    let of: &mut Record = &mut record;
    match call {
        "write" => recorder::write(&mut image, of, 0, 0, &data),
        "read" | SHORT_READ => recorder::read(&image, of, 0, 0, &mut [0; PAYLOAD]).0,
        "mount" => recorder::mount(&mut image, of, &mut [0; PLACES]),
        "commit" => recorder::commit(&mut image, of, &noise),
        "cut_off" => recorder::cut_off(&mut image, of, 0, 0),
        GATHER => recorder::gather(&mut image, of, full_block(of)),
        _ => panic!("no call {call}"),
    }
}

/// Makes a call by the floor.
fn floor(call: &str, setting: &Setting) -> u32 {
    let floor = Floor::open().expect("a cipher: the Debian package libnettle8");
    let (mut image, mut record) = lent(call, setting);
    let (noise, data) = (FORMAT_NOISE.bytes(), payload(1_000_000).bytes());
    let of: &mut Record = &mut record;
    match call {
        "write" => floor.write(&mut image, of, 0, 0, &data),
        "read" | SHORT_READ => floor.read(&image, of, 0, 0, &mut [0; PAYLOAD]).0,
        "mount" => floor.mount(&mut image, of, &mut [0; PLACES]),
        "commit" => floor.commit(&mut image, of, &noise),
        "cut_off" => floor.cut_off(&mut image, of, 0, 0),
        GATHER => floor.gather(&mut image, of, full_block(of)),
        _ => panic!("no call {call}"),
    }
}

/// The instructions of each function in a call by a side.
fn count(side: &str, call: &str, at: usize) -> BTreeMap<String, u64> {
    let this = std::env::current_exe().expect("the program has a path");
    let prefix = if side == OURS { "johvimaru" } else { side };
    let function = if call == SHORT_READ { "read" } else { call };
    let out = std::env::temp_dir().join(format!("profile-{}-{call}-{at}", std::process::id()));
    let run = Command::new("valgrind")
        .args(["--tool=callgrind", "--compress-strings=no", "--compress-pos=no"])
        .arg(format!("--toggle-collect={prefix}_{function}"))
        .arg(format!("--callgrind-out-file={}", out.display()))
        .arg(this)
        .args([side, call, &at.to_string()])
        .output()
        .expect("valgrind is needed: the Debian package valgrind");
    assert!(run.status.success(), "{}", String::from_utf8_lossy(&run.stderr));
    let counts = parse(&out);
    std::fs::remove_file(out).expect("valgrind has written it");
    counts
}

/// What a file of callgrind's says of each function itself, without what it calls.
fn parse(file: &Path) -> BTreeMap<String, u64> {
    let text = std::fs::read_to_string(file).expect("valgrind has written it");
    let mut counts = BTreeMap::new();
    let (mut function, mut is_call) = (String::new(), false);
    for line in text.lines() {
        if let Some(name) = line.strip_prefix("fn=") {
            function = name.to_string();
        } else if line.starts_with("calls=") {
            is_call = true;
        } else if line.starts_with(|first: char| first.is_ascii_digit() || first == '+') {
            let cost = line.split_whitespace().nth(1).and_then(|cost| cost.parse::<u64>().ok());
            if !std::mem::take(&mut is_call) {
                *counts.entry(function.clone()).or_default() += cost.unwrap_or(0);
            }
        }
    }
    counts
}

/// The column of a function.
fn column(function: &str) -> usize {
    let is_in = |begins: &[&str]| begins.iter().any(|begin| function.starts_with(begin));
    COLUMNS.iter().position(|(_, begins)| is_in(begins)).expect("the last column has all")
}

/// The sum that an earlier version had.
fn before(call: &str, at: usize) -> Option<u64> {
    let line = BEFORE.lines().find_map(|line| line.strip_prefix(&format!("{call} {at} ")))?;
    line.parse().ok()
}

/// A number with commas.
fn spell(number: u64) -> String {
    let digits = number.to_string();
    let mut text = String::new();
    for (at, digit) in digits.chars().enumerate() {
        if at > 0 && (digits.len() - at).is_multiple_of(3) {
            text.push(',');
        }
        text.push(digit);
    }
    text
}

fn print_table() {
    let names: Vec<&str> = COLUMNS.iter().map(|(name, _)| *name).collect();
    println!("| call | image | before | now | floor | {} |", names.join(" | "));
    println!("|---|---|---:|---:|---:|{}", "---:|".repeat(names.len()));
    for call in CALLS {
        for (at, setting) in settings(call).iter().enumerate() {
            let mut sums = [0; COLUMNS.len()];
            let counts = count(OURS, call, at);
            counts.iter().for_each(|(function, cost)| sums[column(function)] += cost);
            let before = before(call, at).map_or("-".to_string(), spell);
            let floor = spell(count(FLOOR, call, at).values().sum());
            let cells: Vec<String> = sums.into_iter().map(spell).collect();
            let (name, sum) = (call.replace('_', "-"), spell(sums.iter().sum()));
            let cells = cells.join(" | ");
            println!("| {name} | {} | {before} | {sum} | {floor} | {cells} |", setting.name);
        }
    }
}

fn print_sums() {
    for call in CALLS {
        for at in 0..settings(call).len() {
            println!("{call} {at} {}", count(OURS, call, at).values().sum::<u64>());
        }
    }
}
