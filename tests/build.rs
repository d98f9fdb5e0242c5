//! Links the static library `harness`, which tools/static-libraries.sh has built, and the floor in C of `c/`.
//! The crate `johvimaru` links `recorder`.

use std::path::{Path, PathBuf};
use std::process::Command;

/// The files of the floor.
const FLOOR: [&str; 6] = [
    "floor_calls.c",
    "floor_cipher.c",
    "floor_commit.c",
    "floor_fit.c",
    "floor_gather.c",
    "floor_mount.c",
];
/// The one of them that the system's compiler makes faster, where that is gcc.
const BY_SYSTEM: &str = "floor_mount.c";
/// The headers that they take in.
const FLOOR_HEADERS: [&str; 4] = ["floor.h", "floor_calls.h", "floor_look.h", "floor_text.h"];

fn main() {
    recorder();
    harness();
    floor();
}

/// Names the archive that the crate `johvimaru` is linked with, for the programs in C.
fn recorder() {
    let archive = std::env::var("DEP_RECORDER_ARCHIVE").expect("its build script names it");
    println!("cargo::rustc-env=RECORDER_ARCHIVE={archive}");
}

fn harness() {
    let folder = Path::new(env!("CARGO_MANIFEST_DIR")).join("../target/staticlib");
    let archive = folder.join("libharness.a");
    println!("cargo::rustc-link-search=native={}", folder.display());
    println!("cargo::rerun-if-changed={}", archive.display());
    println!("cargo::rustc-link-lib=static=harness");
    if !archive.exists() {
        println!(
            "cargo::error=target/staticlib/libharness.a is missing: run tools/static-libraries.sh"
        );
    }
}

/// A compiler, and the words that it needs.
struct Compiler {
    name: PathBuf,
    words: Vec<String>,
}

impl Compiler {
    /// The system's own.
    fn of_system() -> Compiler {
        Compiler { name: "cc".into(), words: Vec::new() }
    }

    /// What `FLOOR_CC` and `FLOOR_FLAGS` say, else the one that makes the proved libraries, which gives
    /// the faster floor.
    fn first_choice() -> Option<Compiler> {
        println!("cargo::rerun-if-env-changed=FLOOR_CC");
        println!("cargo::rerun-if-env-changed=FLOOR_FLAGS");
        if let Ok(name) = std::env::var("FLOOR_CC") {
            let words = std::env::var("FLOOR_FLAGS").unwrap_or_default();
            let words = words.split_whitespace().map(str::to_string).collect();
            return Some(Compiler { name: name.into(), words });
        }
        let guide = PathBuf::from(say("rt", &["doc"])?);
        let name = guide.parent()?.join("toolchain/bin/clang");
        let own = say("cc", &["-print-file-name=include"])?;
        let system = format!("/usr/include/{}", say("cc", &["-print-multiarch"])?);
        Some(Compiler { name, words: ["-isystem".into(), own, "-isystem".into(), system].into() })
    }

    /// Compiles a file for any x86-64, as the proved libraries are. Tells whether it could.
    fn compile(&self, source: &Path, object: &Path) -> bool {
        let mut command = Command::new(&self.name);
        command.args(["-std=c11", "-O3", "-fPIC", "-Wall", "-Wextra", "-Wpedantic", "-Werror"]);
        // So that its times depend less on where the linker puts it.
        command.args(["-falign-functions=64", "-falign-loops=32"]);
        command.args(&self.words).arg("-c").arg(source).arg("-o").arg(object);
        command.status().is_ok_and(|status| status.success())
    }
}

/// What a command prints, without the end of its line; none where it fails.
fn say(command: &str, words: &[&str]) -> Option<String> {
    let run = Command::new(command).args(words).output().ok()?;
    let text = String::from_utf8(run.stdout).ok()?;
    run.status.success().then(|| text.lines().next().unwrap_or_default().to_string())
}

/// Compiles the floor, all but its mount by the first choice if it can and else by the system's compiler.
fn floor() {
    let sources = Path::new(env!("CARGO_MANIFEST_DIR")).join("c");
    let folder = PathBuf::from(std::env::var("OUT_DIR").expect("cargo sets it"));
    let archive = folder.join("libfloor.a");
    let _ = std::fs::remove_file(&archive);
    let compile = |compiler: &Compiler, name: &str| {
        compiler.compile(&sources.join(name), &folder.join(name).with_extension("o"))
    };
    let first = Compiler::first_choice().filter(|compiler| compile(compiler, FLOOR[0]));
    let compiler = first.unwrap_or_else(Compiler::of_system);
    let system = Compiler::of_system();
    for name in FLOOR {
        if !compile(if name == BY_SYSTEM { &system } else { &compiler }, name) {
            println!("cargo::error=tests/c/{name} cannot be compiled");
        }
    }
    let mut archiver = Command::new("ar");
    archiver.arg("crs").arg(&archive);
    archiver.args(FLOOR.map(|name| folder.join(name).with_extension("o")));
    if !archiver.status().is_ok_and(|status| status.success()) {
        println!("cargo::error=the floor needs ar");
    }
    for name in FLOOR.iter().chain(&FLOOR_HEADERS) {
        println!("cargo::rerun-if-changed={}", sources.join(name).display());
    }
    let version = |compiler: &Compiler| say(&compiler.name.to_string_lossy(), &["--version"]);
    let [most, mount] = [&compiler, &system].map(|one| version(one).unwrap_or_default());
    println!("cargo::rustc-env=FLOOR_COMPILER={most}, its mount by {mount}");
    println!("cargo::rustc-link-search=native={}", folder.display());
    println!("cargo::rustc-link-lib=static=floor");
}
