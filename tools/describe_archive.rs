//! Prints the text that stands beside an archive which a toolchain has built from the sources at hand.
//! Run at the top of the repository, by keep-archive.sh: `describe_archive ARCHIVE TOOLCHAIN`.

use std::path::Path;

// What the build script alone needs of it is not used here.
#[allow(dead_code)]
mod archive;

fn main() -> Result<(), String> {
    let words: Vec<String> = std::env::args().skip(1).collect();
    let [path, toolchain] = words.as_slice() else {
        return Err("two words are needed: ARCHIVE TOOLCHAIN".to_string());
    };
    let archive = std::fs::read(path).map_err(|error| format!("{path}: {error}"))?;
    print!("{}", archive::text(toolchain, &archive::Sources::of(Path::new("."))?, &archive));
    Ok(())
}
