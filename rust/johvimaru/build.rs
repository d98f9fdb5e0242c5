//! Finds the static library `recorder`, or has it built, and links it.
//!
//! The folder that JOHVIMARU_LIB_DIR names is taken as it is. Where none is named it is the archive that is
//! kept in the repository, else one that `rt` has built here; either only where it was built from the
//! sources at hand (tools/archive.rs). Else `rt` builds it now.

use std::env;
use std::fs::{self, File, OpenOptions};
use std::io::{self, BufRead, BufReader, IsTerminal, Write};
use std::path::{Path, PathBuf};
use std::process::{Command, Stdio};

#[path = "../../tools/archive.rs"]
mod archive;

use archive::{take, Sources, ARCHIVE, TEXT};

const FOLDER: &str = "JOHVIMARU_LIB_DIR";
/// The folder of the kept archive, and that of the one that `rt` has built here.
const KEPT: &str = "lib/x86_64";
const BUILT: &str = "target/staticlib";
/// The folder in which `rt` builds the library, the words for it, and where the archive then is.
const CRATE: &str = "crates/recorder";
const WORDS: [&str; 3] = ["lib", "--cpu", "x86-64"];
const MADE: &str = "crates/recorder/out/librecorder.a";
/// The crates in the order in which `rt` proves them, and how many seconds each takes on two cores.
const CRATES: [(&str, u32); 7] = [
    ("base", 2),
    ("cipher", 30),
    ("page", 60),
    ("image", 25),
    ("chip", 30),
    ("store", 150),
    ("recorder", 30),
];

fn main() {
    println!("cargo::rerun-if-env-changed={FOLDER}");
    match folder() {
        Ok(folder) => {
            println!("cargo::rustc-link-search=native={}", folder.display());
            println!("cargo::rustc-link-lib=static=recorder");
            println!("cargo::metadata=archive={}", folder.join(ARCHIVE).display());
        }
        Err(missing) => println!("cargo::error={missing}"),
    }
}

/// The folder that has the library, or what is missing.
fn folder() -> Result<PathBuf, String> {
    if let Some(named) = env::var_os(FOLDER) {
        return match PathBuf::from(named) {
            named if named.is_absolute() => named_folder(named),
            named => Err(format!("{FOLDER} has to be a path from /, and is {named:?}")),
        };
    }
    test_target()?;
    let top = Path::new(&env::var_os("CARGO_MANIFEST_DIR").expect("cargo sets it")).join("../..");
    let top = top.canonicalize().map_err(|error| format!("{}: {error}", top.display()))?;
    let sources = Sources::of(&top)?;
    let kept = top.join(KEPT);
    // A file that is not there would count as changed each time.
    let files =
        [ARCHIVE, TEXT].map(|name| kept.join(name)).into_iter().filter(|file| file.exists());
    for path in sources.paths.iter().cloned().chain(files) {
        println!("cargo::rerun-if-changed={}", path.display());
    }
    let archive = take(&kept, &sources).or_else(|why| built(&top, &sources, &why))?;
    // What is linked is what was looked at, whatever becomes of the file that it was read from.
    let folder = PathBuf::from(env::var_os("OUT_DIR").expect("cargo sets it"));
    match fs::write(folder.join(ARCHIVE), archive) {
        Ok(()) => Ok(folder),
        Err(error) => Err(format!("{}: {error}", folder.join(ARCHIVE).display())),
    }
}

/// The folder that the variable names.
fn named_folder(folder: PathBuf) -> Result<PathBuf, String> {
    let path = folder.join(ARCHIVE);
    println!("cargo::rerun-if-changed={}", path.display());
    match path.exists() {
        true => Ok(folder),
        false => {
            Err(format!("{FOLDER} is set to {}, and there is no {ARCHIVE} in it", folder.display()))
        }
    }
}

/// Tells whether the toolchain can build for the machine that is asked for.
fn test_target() -> Result<(), String> {
    let target = ["CARGO_CFG_TARGET_ARCH", "CARGO_CFG_TARGET_OS"].map(env::var);
    let target = target.map(|word| word.expect("cargo sets it")).join(" ");
    match target.as_str() {
        "x86_64 linux" => Ok(()),
        _ => Err(format!(
            "the static library is built for x86_64 linux, not for {target}; if you have one for \
             it, set {FOLDER} to its folder"
        )),
    }
}

/// The archive that `rt` has built, or builds now, since the kept one cannot be taken.
fn built(top: &Path, sources: &Sources, why: &str) -> Result<Vec<u8>, String> {
    let folder = top.join(BUILT);
    let _lock = lock(&folder).map_err(|error| format!("{why}, and {BUILT}: {error}"))?;
    take(&folder, sources).or_else(|_| {
        build(top, why)?;
        put(top, &folder)?;
        describe(top, &folder, sources)?;
        take(&folder, sources)
    })
}

/// Waits until no other build has the folder.
fn lock(folder: &Path) -> io::Result<File> {
    fs::create_dir_all(folder)?;
    let file = File::create(folder.join("librecorder.lock"))?;
    file.lock()?;
    Ok(file)
}

/// Has the library built at the top of the repository, and shows what `rt` says.
fn build(top: &Path, why: &str) -> Result<(), String> {
    let minutes = (CRATES.iter().map(|(_, seconds)| seconds).sum::<u32>() + 30) / 60;
    let how_long = format!("some {minutes} minutes on two cores");
    let start = format!("johvimaru: {why}: rt proves and builds it anew, {how_long}");
    match run_rt(top, &start) {
        Ok((true, _)) => Ok(()),
        Ok((false, last)) => {
            Err(format!("{why}, and `rt lib` in {CRATE} failed; it said last: {last}"))
        }
        Err(error) if error.kind() == io::ErrorKind::NotFound => Err(format!(
            "{why}, and the program `rt`, which builds it anew, is not here: install the Rattle \
             toolchain, or bring crates and {KEPT} back to what the repository has, or set \
             {FOLDER} to a folder that has the library"
        )),
        Err(error) => Err(format!("{why}, and `rt` cannot be run: {error}")),
    }
}

/// Runs `rt lib` for the library, and shows this line and its own ones. Tells whether it ended well, and what
/// it said last.
fn run_rt(top: &Path, start: &str) -> io::Result<(bool, String)> {
    let (lines, end) = io::pipe()?;
    let mut command = Command::new("rt");
    command.args(WORDS).current_dir(top.join(CRATE)).stdin(Stdio::null());
    command.stdout(end.try_clone()?).stderr(end);
    let mut rt = command.spawn()?;
    // The command has the pipe's end, without which the lines would not end.
    drop(command);
    let mut shown = cargo_output();
    say(&mut shown, start);
    let mut last = "nothing".to_string();
    for line in BufReader::new(lines).split(b'\n') {
        let line = String::from_utf8_lossy(&line?).into_owned();
        if line.starts_with("rt: ") {
            say(&mut shown, &timed(&line));
        }
        if !line.trim().is_empty() {
            last = line;
        }
    }
    Ok((rt.wait()?.success(), last))
}

/// Puts the archive that `rt` has just built into a folder.
fn put(top: &Path, folder: &Path) -> Result<(), String> {
    fs::copy(top.join(MADE), folder.join(ARCHIVE))
        .map(|_| ())
        .map_err(|error| format!("{}: {error}", top.join(MADE).display()))
}

/// Writes the text beside that archive.
fn describe(top: &Path, folder: &Path, sources: &Sources) -> Result<(), String> {
    if Sources::of(top)?.hash != sources.hash {
        return Err("the sources were changed while `rt` built the library: build again".into());
    }
    let fault = |what: &Path, error| format!("{}: {error}", what.display());
    let version =
        Command::new("rt").arg("version").output().map_err(|e| fault(Path::new("rt"), e))?;
    let version = String::from_utf8_lossy(&version.stdout);
    let expected = fs::read_to_string(top.join("toolchain.txt")).unwrap_or_default();
    if version.trim() != expected.trim() {
        let (is, has) = (version.trim(), expected.trim());
        println!("cargo::warning=rt is {is}, and toolchain.txt has {has}");
    }
    let (path, text) = (folder.join(ARCHIVE), folder.join(TEXT));
    let archive = fs::read(&path).map_err(|error| fault(&path, error))?;
    let words = archive::text(version.trim(), sources, &archive);
    fs::write(&text, words).map_err(|error| fault(&text, error))
}

/// Where cargo writes its own lines, if that is a terminal or a pipe: what a build script writes to its
/// own output is kept until it has failed.
fn cargo_output() -> Option<File> {
    let status = fs::read_to_string("/proc/self/status").ok()?;
    let cargo = status.lines().find_map(|line| line.strip_prefix("PPid:"))?.trim();
    let path = PathBuf::from(format!("/proc/{cargo}/fd/2"));
    let file = OpenOptions::new().write(true).open(&path).ok()?;
    let is_pipe = fs::read_link(&path).ok()?.to_string_lossy().starts_with("pipe:");
    (file.is_terminal() || is_pipe).then_some(file)
}

/// Writes a line there. On a terminal it takes the place of the bar that cargo draws.
fn say(shown: &mut Option<File>, line: &str) {
    if let Some(file) = shown {
        let clear = if file.is_terminal() { "\r\x1b[K" } else { "" };
        // If nobody can read it, there is nothing to be said.
        let _ = writeln!(file, "{clear}{line}");
    }
}

/// A line of `rt`, and how long the crate takes with which it says that it begins.
fn timed(line: &str) -> String {
    let name = line.strip_prefix("rt: chose --jobs ").and_then(|rest| rest.split_once(" for "));
    let at = name.and_then(|(_, name)| CRATES.iter().find(|(other, _)| *other == name));
    match at {
        Some((_, seconds)) => format!("{line}, some {seconds} s"),
        None => line.to_string(),
    }
}
