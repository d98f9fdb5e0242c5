//! What docs/USING.md and the examples' own documents show is what the examples print.

#[allow(dead_code)]
#[path = "../examples/last_numbers.rs"]
mod last_numbers;
#[cfg(feature = "std")]
#[allow(dead_code)]
#[path = "../examples/recorder.rs"]
mod recorder;
#[allow(dead_code)]
#[path = "../examples/thin_blocks.rs"]
mod thin_blocks;
#[allow(dead_code)]
#[path = "../examples/wear.rs"]
mod wear;

use std::error::Error;
use std::fs;
use std::path::Path;

/// The lines that the document shows after the command of an example.
fn shown(example: &str) -> String {
    let path = Path::new(env!("CARGO_MANIFEST_DIR")).join("../../docs/USING.md");
    let text = fs::read_to_string(path).expect("docs/USING.md can be read");
    let command = format!("--example {example}\n");
    let (_, after) = text.split_once(&command).expect("the example is shown");
    let block = after.lines().take_while(|line| line.starts_with("    "));
    block.map(|line| format!("{}\n", &line[4..])).collect()
}

fn compare(example: &str, text: Result<String, Box<dyn Error>>) {
    assert_eq!(shown(example), text.expect("the example runs"), "{example}");
}

#[test]
fn the_wear_of_blocks() {
    compare("wear", wear::text());
}

#[test]
fn images_pinned_by_thin_blocks() {
    compare("thin_blocks", thin_blocks::text());
}

#[test]
fn the_last_numbers() {
    compare("last_numbers", last_numbers::text());
}

/// The lines that an example shows itself.
#[cfg(feature = "std")]
#[test]
fn a_recorders_life() {
    let path = Path::new(env!("CARGO_MANIFEST_DIR")).join("examples/recorder.rs");
    let source = fs::read_to_string(path).expect("the example can be read");
    let (_, after) = source.split_once("//! ```text\n").expect("the example shows its lines");
    let (shown, _) = after.split_once("//! ```\n").expect("the lines end");
    assert_eq!(shown.replace("//! ", ""), recorder::text().expect("the example runs"));
}
