//! What tools/install.sh installs, used as a C programmer uses it.

use std::collections::HashMap;
use std::fs;
use std::path::{Path, PathBuf};
use std::process::{Command, Output};

/// The top of the repository.
fn top() -> PathBuf {
    Path::new(env!("CARGO_MANIFEST_DIR")).join("..")
}

/// An empty folder.
fn folder(name: &str) -> PathBuf {
    let folder = Path::new(env!("CARGO_TARGET_TMPDIR")).join(name);
    let _ = fs::remove_dir_all(&folder);
    fs::create_dir_all(&folder).expect("it can be made");
    folder
}

/// What a command prints. It must end well.
fn printed(command: &mut Command) -> String {
    let Output { status, stdout, stderr } = command.output().expect("it runs");
    let said = String::from_utf8_lossy(&stderr);
    assert!(status.success(), "{command:?} ended with {status}: {said}");
    String::from_utf8(stdout).expect("it prints text")
}

/// The script, for a prefix.
fn install(prefix: &Path) -> Command {
    let mut command = Command::new(top().join("tools/install.sh"));
    command.arg(prefix).env_remove("DESTDIR");
    command
}

/// The compiler's words for the library, from pkg-config's file itself.
fn words_of_file(prefix: &Path) -> Vec<String> {
    let text = fs::read_to_string(prefix.join("lib/pkgconfig/johvimaru.pc")).expect("it is there");
    let mut values: HashMap<&str, String> = HashMap::new();
    for line in text.lines().filter(|line| !line.is_empty()) {
        let at = line.find([':', '=']).expect("each line gives something a value");
        let mut value = line[at + 1..].trim().replace('"', "");
        for (name, other) in &values {
            value = value.replace(&format!("${{{name}}}"), other);
        }
        values.insert(&line[..at], value);
    }
    let words = ["Cflags", "Libs"].map(|name| values[name].split_whitespace());
    words.into_iter().flatten().map(str::to_string).collect()
}

/// The same from pkg-config; from the file where this machine does not have it.
fn words(prefix: &Path) -> Vec<String> {
    let of_file = words_of_file(prefix);
    let mut command = Command::new("pkg-config");
    command.args(["--cflags", "--libs", "johvimaru"]);
    command.env("PKG_CONFIG_PATH", prefix.join("lib/pkgconfig"));
    if command.output().is_ok() {
        let words = printed(&mut command);
        assert_eq!(words.split_whitespace().collect::<Vec<_>>(), of_file);
    }
    of_file
}

/// Compiles a program of tests/c with what is installed, and gives what it prints.
fn compiled(prefix: &Path, name: &str) -> String {
    let program = prefix.join(name);
    let source = top().join("tests/c").join(name).with_extension("c");
    let mut compiler = Command::new("cc");
    compiler.arg("-std=c11").arg(source).args(words(prefix)).arg("-o").arg(&program);
    printed(&mut compiler);
    printed(&mut Command::new(&program))
}

#[test]
fn what_is_installed_works() {
    let prefix = folder("installed");
    printed(&mut install(&prefix));
    let text = fs::read_to_string(top().join("tests/c/example.txt")).expect("it is there");
    assert_eq!(compiled(&prefix, "example"), text);
    assert!(compiled(&prefix, "replies").starts_with("version "));
    let command = prefix.join("bin/johvimaru");
    assert!(!printed(Command::new(&command).arg("demo")).is_empty());
    // The manual page is what the command prints for it.
    let manual = Command::new(&command).args(["help", "--man"]).output().expect("it runs");
    let manual = manual.status.success().then_some(manual.stdout);
    assert_eq!(fs::read(prefix.join("share/man/man1/johvimaru.1")).ok(), manual);
}

#[test]
fn packagers_have_their_own_root() {
    let root = folder("root");
    printed(install(Path::new("/opt/a prefix")).env("DESTDIR", &root));
    let installed = root.join("opt/a prefix");
    for name in ["lib/libjohvimaru.a", "include/johvimaru.h", "bin/johvimaru"] {
        assert!(installed.join(name).is_file(), "{name}");
    }
    let text = fs::read_to_string(installed.join("lib/pkgconfig/johvimaru.pc"));
    let first = text.expect("it is there").lines().next().map(str::to_string);
    assert_eq!(first.as_deref(), Some("prefix=/opt/a prefix"));
}

#[test]
fn a_prefix_is_asked_for() {
    for words in [&[][..], &[""], &["/a", "/b"]] {
        let run = Command::new(top().join("tools/install.sh")).args(words).output();
        let run = run.expect("it runs");
        assert_eq!(run.status.code(), Some(2), "{words:?}");
        assert_eq!(run.stderr, b"install: usage: tools/install.sh PREFIX\n", "{words:?}");
    }
}
