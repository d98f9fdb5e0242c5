//! The archive of the static library `recorder`, and the text beside it that says what it was built
//! from.
//!
//! The text has three lines: `toolchain` and what `rt version` prints, `sources` and the SHA-256 of the
//! sources, `archive` and the SHA-256 of the archive.
//!
//! The SHA-256 of the sources is that of a list. First come the lines that crates.txt has for `recorder`
//! and for the crates that it uses, directly or through others, in the order of that file. Then comes a
//! line for each file below `src`, `specs` and `proofs` of these crates, as `sha256sum` prints it for the
//! path from the top of the repository, by the bytes of these paths. In a shell, there:
//!
//! ```text
//! { grep -E '^(base|cipher|page|image|chip|store|recorder)[ :]' crates.txt
//!   find crates/{base,cipher,page,image,chip,store,recorder}/{src,specs,proofs} -type f |
//!     LC_ALL=C sort | xargs sha256sum; } | sha256sum
//! ```

use std::fs;
use std::path::{Path, PathBuf};

#[path = "../rust/sha256.rs"]
mod sha256;

/// The archive's name.
pub const ARCHIVE: &str = "librecorder.a";
/// The name of the text beside it.
pub const TEXT: &str = "librecorder.txt";

/// The crate that the library is made of, and the folders of a crate that are proved.
const CRATE: &str = "recorder";
const FOLDERS: [&str; 3] = ["src", "specs", "proofs"];

/// The sources of the library.
pub struct Sources {
    /// Their SHA-256.
    pub hash: String,
    /// The files and folders that it is taken of.
    pub paths: Vec<PathBuf>,
}

impl Sources {
    /// The sources in a repository.
    pub fn of(top: &Path) -> Result<Sources, String> {
        let crates = read_text(&top.join("crates.txt"))?;
        let names = used(&crates);
        let lines = crates.lines().filter(|line| names.contains(&name_of(line)));
        let mut list: String = lines.map(|line| format!("{line}\n")).collect();
        let mut paths = vec![top.join("crates.txt")];
        let mut files = Vec::new();
        for name in &names {
            for folder in FOLDERS.map(|folder| format!("crates/{name}/{folder}")) {
                add_files(top, &folder, &mut files)?;
                paths.push(top.join(folder));
            }
        }
        files.sort();
        for file in files {
            list += &format!("{}  {file}\n", sha256::hex(&read(&top.join(&file))?));
        }
        Ok(Sources { hash: sha256::hex(list.as_bytes()), paths })
    }
}

/// The text for an archive that a toolchain has built from these sources.
pub fn text(toolchain: &str, sources: &Sources, archive: &[u8]) -> String {
    let archive = sha256::hex(archive);
    format!("toolchain {toolchain}\nsources {}\narchive {archive}\n", sources.hash)
}

/// The archive in a folder, if it was built from these sources, or why it cannot be taken.
pub fn take(folder: &Path, sources: &Sources) -> Result<Vec<u8>, String> {
    let path = folder.join(ARCHIVE);
    let archive = read(&path)?;
    let text = read_text(&folder.join(TEXT))?;
    let said = |name| text.lines().find_map(|line| line.strip_prefix(name)?.strip_prefix(' '));
    if said("sources") != Some(&sources.hash) {
        return Err(format!("{} was built from other sources", path.display()));
    }
    if said("archive") != Some(&sha256::hex(&archive)) {
        return Err(format!("{} is not the archive that its text names", path.display()));
    }
    Ok(archive)
}

/// The crate's name and those that it uses. What has no line is of the toolchain.
fn used(crates: &str) -> Vec<&str> {
    let mut names = vec![CRATE];
    let mut at = 0;
    while at < names.len() {
        let line = crates.lines().find(|line| name_of(line) == names[at]);
        let uses = line.and_then(|line| line.split_once(':')).map_or("", |(_, uses)| uses);
        for name in uses.split_whitespace() {
            if !names.contains(&name) {
                names.push(name);
            }
        }
        at += 1;
    }
    names
}

/// The name that a line of crates.txt begins with.
fn name_of(line: &str) -> &str {
    line.split([' ', ':']).next().unwrap_or_default()
}

/// Adds the files below a folder, if it is there, by their paths from the top.
fn add_files(top: &Path, folder: &str, files: &mut Vec<String>) -> Result<(), String> {
    if !top.join(folder).exists() {
        return Ok(());
    }
    let entries =
        fs::read_dir(top.join(folder)).and_then(|entries| entries.collect::<Result<Vec<_>, _>>());
    for entry in entries.map_err(|error| format!("{folder}: {error}"))? {
        let name = entry.file_name();
        let name = name.to_str().ok_or_else(|| format!("{folder} has a name that is no text"))?;
        let path = format!("{folder}/{name}");
        if entry.path().is_dir() {
            add_files(top, &path, files)?;
        } else {
            files.push(path);
        }
    }
    Ok(())
}

fn read(path: &Path) -> Result<Vec<u8>, String> {
    fs::read(path).map_err(|error| format!("{}: {error}", path.display()))
}

fn read_text(path: &Path) -> Result<String, String> {
    fs::read_to_string(path).map_err(|error| format!("{}: {error}", path.display()))
}
