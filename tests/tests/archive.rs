//! Which archive the build script of the crate `johvimaru` links: in small repositories, with a script in
//! the place of `rt`.

use std::fs;
use std::io::{BufRead, BufReader, Read};
use std::os::unix::fs::PermissionsExt;
use std::path::{Path, PathBuf};
use std::process::{Command, Stdio};
use std::sync::OnceLock;

// What the build script alone needs of it is not used here.
#[allow(dead_code)]
#[path = "../../tools/archive.rs"]
mod archive;

use archive::{Sources, ARCHIVE, TEXT};

/// The start of a script that stands for `rt`: it notes that it was called and where, and knows `rt version`.
const RT: &str = "#!/bin/sh\n\
    PATH=/usr/bin:/bin\n\
    echo \"${PWD##*/}: $*\" >>\"${0%/*}/called\"\n\
    [ \"$1\" = version ] && echo 'test 1' && exit\n";
/// Its rest where it builds an archive of what it finds in one source.
const BUILDS: &str = "echo 'rt: chose --jobs 2 for cipher' >&2\n\
    mkdir -p out\n\
    cp ../base/proofs/Deep/Laws.antt out/librecorder.a\n\
    echo 'rt: the archive is there'\n";
const FAILS: &str = "echo 'rt: FAILED: base' >&2\nexit 1\n";

/// The sources of the library in the small repositories.
const SOURCES: [&str; 4] = [
    "crates/base/proofs/Deep/Laws.antt",
    "crates/store/specs/Lib.antt",
    "crates/store/src/lib.rt",
    "crates/recorder/src/lib.rt",
];
/// A source on which the library does not depend.
const OTHER: &str = "crates/guarantee/proofs/Lib.antt";

/// The top of the repository that this test is in.
fn here() -> PathBuf {
    Path::new(env!("CARGO_MANIFEST_DIR")).join("..")
}

/// The build script as a program.
fn script() -> &'static Path {
    static SCRIPT: OnceLock<PathBuf> = OnceLock::new();
    SCRIPT.get_or_init(|| {
        let program = Path::new(env!("CARGO_TARGET_TMPDIR")).join("build-script");
        let mut rustc = Command::new("rustc");
        rustc.args(["--edition", "2021", "-D", "warnings", "-o"]).arg(&program);
        let status = rustc.arg(here().join("rust/johvimaru/build.rs")).status();
        assert!(status.expect("rustc runs").success());
        program
    })
}

/// A repository with a kept archive, and a folder of programs.
struct Repository {
    top: PathBuf,
}

impl Drop for Repository {
    fn drop(&mut self) {
        let _ = fs::remove_dir_all(&self.top);
    }
}

impl Repository {
    /// A new one without `rt`, among the temporary files: below this repository `rt` would look for its crates.
    fn new(name: &str) -> Repository {
        let folder = format!("johvimaru-archive-{}-{name}", std::process::id());
        let top = std::env::temp_dir().join(folder);
        let _ = fs::remove_dir_all(&top);
        let repository = Repository { top };
        let crates = "base:\nstore: base\nguarantee: store base\nrecorder staticlib: store\n";
        repository.put("crates.txt", crates);
        for path in SOURCES.into_iter().chain([OTHER]) {
            repository.put(path, path);
        }
        repository.put("lib/x86_64/librecorder.a", "kept");
        let text = archive::text("test 1", &repository.sources(), b"kept");
        repository.put("lib/x86_64/librecorder.txt", &text);
        fs::create_dir_all(repository.path("programs")).expect("it can be made");
        fs::create_dir_all(repository.path("out")).expect("it can be made");
        fs::create_dir_all(repository.path("rust/johvimaru")).expect("it can be made");
        repository
    }

    fn path(&self, name: &str) -> PathBuf {
        self.top.join(name)
    }

    fn put(&self, name: &str, content: &str) {
        let path = self.path(name);
        fs::create_dir_all(path.parent().expect("it is in a folder")).expect("it can be made");
        fs::write(path, content).expect("it can be written");
    }

    /// Copies files of the repository that this test is in.
    fn copy(&self, names: &[&str]) {
        for name in names {
            self.put(name, &fs::read_to_string(here().join(name)).expect("it is there"));
        }
    }

    /// The programs of this machine, with those of the repository before them.
    fn programs(&self) -> String {
        let programs = std::env::var("PATH").expect("cargo runs with one");
        format!("{}:{programs}", self.path("programs").display())
    }

    /// Puts a script in the place of `rt`.
    fn put_rt(&self, rest: &str) {
        self.put("programs/rt", &(RT.to_string() + rest));
        let executable = fs::Permissions::from_mode(0o755);
        fs::set_permissions(self.path("programs/rt"), executable).expect("it is there");
    }

    /// How many times `rt` was called to build the library.
    fn times_built(&self) -> usize {
        let called = fs::read_to_string(self.path("programs/called")).unwrap_or_default();
        called.lines().filter(|line| line.starts_with("recorder: lib ")).count()
    }

    fn sources(&self) -> Sources {
        Sources::of(&self.top).expect("all can be read")
    }

    /// The build script, as cargo runs it. A shell is between, since it writes to its parent's output.
    fn command(&self) -> Command {
        let mut command = Command::new("/bin/sh");
        command.args(["-c", "\"$0\"; exit $?"]).arg(script());
        command.env_remove("JOHVIMARU_LIB_DIR").env("PATH", self.path("programs"));
        command.env("CARGO_CFG_TARGET_ARCH", "x86_64").env("CARGO_CFG_TARGET_OS", "linux");
        command.env("CARGO_MANIFEST_DIR", self.path("rust/johvimaru"));
        command.env("OUT_DIR", self.path("out"));
        command
    }

    /// The archive that is linked, or the error.
    fn linked(&self) -> Result<String, String> {
        linked(&mut self.command())
    }
}

/// The archive that is linked after this command, or the error.
fn linked(command: &mut Command) -> Result<String, String> {
    let run = command.output().expect("it runs");
    assert!(run.status.success(), "the script ended with {}", run.status);
    let said = String::from_utf8(run.stdout).expect("it is text");
    let after = |word: &str| said.lines().find_map(|line| line.strip_prefix(word));
    match (after("cargo::error="), after("cargo::rustc-link-search=native=")) {
        (Some(error), None) => Err(error.to_string()),
        (None, Some(folder)) => {
            let path = Path::new(folder).join(ARCHIVE).display().to_string();
            assert_eq!(after("cargo::metadata=archive="), Some(path.as_str()));
            Ok(fs::read_to_string(path).expect("it is there"))
        }
        _ => panic!("neither an error nor a folder, or both: {said}"),
    }
}

/// The error has all these words.
fn assert_error(linked: Result<String, String>, words: &[&str]) {
    let error = linked.expect_err("an archive is linked");
    for word in words {
        assert!(error.contains(word), "{word:?} is not in {error:?}");
    }
}

#[test]
fn the_kept_archive_needs_no_rt() {
    let repository = Repository::new("kept");
    assert_eq!(repository.linked(), Ok("kept".into()));
    repository.put_rt(BUILDS);
    repository.put(OTHER, "another crate's proofs are changed");
    assert_eq!(repository.linked(), Ok("kept".into()));
    assert_eq!(repository.times_built(), 0);
    assert!(!repository.path("target").exists(), "something was written into the repository");
}

#[test]
fn a_changed_source_makes_the_kept_archive_stale() {
    let repository = Repository::new("stale");
    let words = ["other sources", "`rt`", "is not here", "toolchain", "JOHVIMARU_LIB_DIR"];
    for path in SOURCES {
        repository.put(path, "changed");
        assert_error(repository.linked(), &words);
        repository.put(path, path);
        assert_eq!(repository.linked(), Ok("kept".into()), "{path} is as it was");
    }
    repository.put("crates/recorder/proofs/Lib.antt", "a new file");
    assert_error(repository.linked(), &words);
    fs::remove_dir_all(repository.path("crates/recorder/proofs")).expect("it is there");
    fs::remove_file(repository.path(SOURCES[2])).expect("it is there");
    assert_error(repository.linked(), &words);
    repository.put(SOURCES[2], SOURCES[2]);
    repository.put(
        "crates.txt",
        "base:\nstore:\nguarantee: store base\nrecorder staticlib: store base\n",
    );
    assert_error(repository.linked(), &words);
}

#[test]
fn each_source_is_watched() {
    let repository = Repository::new("watched");
    let run = repository.command().output().expect("it runs");
    let said = String::from_utf8(run.stdout).expect("it is text");
    let watched = said.lines().filter_map(|line| line.strip_prefix("cargo::rerun-if-changed="));
    let watched: Vec<&Path> = watched.map(Path::new).collect();
    let kept = [ARCHIVE, TEXT].map(|name| format!("lib/x86_64/{name}"));
    for path in SOURCES.into_iter().chain(["crates.txt"]).chain(kept.iter().map(String::as_str)) {
        let path = repository.path(path);
        let path = path.canonicalize().expect("it is there");
        assert!(watched.iter().any(|watched| path.starts_with(watched)), "{}", path.display());
    }
}

#[test]
fn a_damaged_archive_is_not_linked() {
    let repository = Repository::new("damaged");
    repository.put("lib/x86_64/librecorder.a", "kepT");
    assert_error(repository.linked(), &["is not the archive that its text names", "`rt`"]);
    repository.put_rt(BUILDS);
    assert_eq!(repository.linked(), Ok(SOURCES[0].into()));
    repository.put("target/staticlib/librecorder.a", "damaged too");
    assert_eq!(repository.linked(), Ok(SOURCES[0].into()));
    assert_eq!(repository.times_built(), 2);
    fs::remove_file(repository.path("lib/x86_64/librecorder.txt")).expect("it is there");
    assert_eq!(repository.linked(), Ok(SOURCES[0].into()));
    assert_eq!(repository.times_built(), 2);
}

#[test]
fn what_rt_built_is_taken_while_the_sources_are_the_same() {
    let repository = Repository::new("built");
    repository.put_rt(BUILDS);
    // Nobody says what this one was built from.
    repository.put("target/staticlib/librecorder.a", "of unknown sources");
    for (times, content) in ["first", "second"].into_iter().enumerate() {
        repository.put(SOURCES[0], content);
        for _ in 0..2 {
            assert_eq!(repository.linked(), Ok(content.into()));
            assert_eq!(repository.times_built(), times + 1);
        }
    }
    repository.put(SOURCES[0], SOURCES[0]);
    assert_eq!(repository.linked(), Ok("kept".into()));
}

#[test]
fn what_rt_says_is_shown_line_by_line() {
    let repository = Repository::new("shown");
    repository.put(SOURCES[0], "changed");
    let wait = "while [ ! -e ../../go ]; do sleep 0.02; done\n";
    repository.put_rt(&BUILDS.replace("mkdir", &format!("echo 'a note' >&2\n{wait}mkdir")));
    let mut command = repository.command();
    let mut run = command.stdout(Stdio::null()).stderr(Stdio::piped()).spawn().expect("it runs");
    let mut lines = BufReader::new(run.stderr.take().expect("it is piped"));
    let mut line = || {
        let mut line = String::new();
        lines.read_line(&mut line).expect("it is text");
        line
    };
    let first = line();
    assert!(
        first.contains("other sources") && first.ends_with("some 5 minutes on two cores\n"),
        "{first}"
    );
    assert_eq!(line(), "rt: chose --jobs 2 for cipher, some 30 s\n");
    // It waits until here.
    repository.put("go", "");
    let mut rest = String::new();
    lines.read_to_string(&mut rest).expect("it is text");
    assert_eq!(rest, "rt: the archive is there\n");
    assert!(run.wait().expect("it ends").success());
}

#[test]
fn a_failure_of_rt_is_told() {
    let repository = Repository::new("failed");
    repository.put(SOURCES[0], "changed");
    repository.put_rt(FAILS);
    assert_error(repository.linked(), &["other sources", "it said last: rt: FAILED: base"]);
    repository.put_rt("exit 0\n");
    assert_error(repository.linked(), &["crates/recorder/out/librecorder.a: No such file"]);
    repository.put_rt(&format!("{BUILDS}echo >../store/src/lib.rt\n"));
    assert_error(repository.linked(), &["the sources were changed while"]);
}

#[test]
fn a_named_folder_is_taken_as_it_is() {
    let repository = Repository::new("named");
    repository.put(SOURCES[0], "changed");
    repository.put("mine/librecorder.a", "my own");
    let with = |folder: &str| {
        let mut command = repository.command();
        command.env("JOHVIMARU_LIB_DIR", repository.path(folder));
        // Nobody asks for what machine it is.
        command.env("CARGO_CFG_TARGET_ARCH", "aarch64");
        command
    };
    assert_eq!(linked(&mut with("mine")), Ok("my own".into()));
    assert_error(linked(&mut with("out")), &["JOHVIMARU_LIB_DIR is set to", "out"]);
}

#[test]
fn other_machines_are_told_so() {
    let repository = Repository::new("machines");
    for (name, value) in [("CARGO_CFG_TARGET_ARCH", "aarch64"), ("CARGO_CFG_TARGET_OS", "macos")] {
        let mut command = repository.command();
        command.env(name, value);
        assert_error(linked(&mut command), &["x86_64 linux", value, "JOHVIMARU_LIB_DIR"]);
    }
}

#[test]
fn cargo_notices_a_changed_source() {
    let repository = Repository::new("cargo");
    repository.copy(&["rust/johvimaru/build.rs", "rust/sha256.rs", "tools/archive.rs"]);
    let manifest = "[package]\nname = \"johvimaru\"\nedition = \"2021\"\nlinks = \"recorder\"\n\
                    [workspace]\n";
    repository.put("rust/johvimaru/Cargo.toml", manifest);
    repository.put("rust/johvimaru/src/lib.rs", "");
    repository.put_rt(FAILS);
    let check = || {
        let mut cargo = Command::new(std::env::var_os("CARGO").unwrap_or("cargo".into()));
        cargo.args(["check", "--offline", "--target-dir"]).arg(repository.path("out"));
        cargo.current_dir(repository.path("rust/johvimaru")).env_remove("JOHVIMARU_LIB_DIR");
        cargo.env("PATH", repository.programs());
        let run = cargo.output().expect("cargo runs");
        (run.status.success(), String::from_utf8(run.stderr).expect("it is text"))
    };
    let (right, said) = check();
    assert!(right, "{said}");
    repository.put(SOURCES[0], "changed");
    let (right, said) = check();
    assert!(!right && said.contains("other sources"), "{said}");
    assert!(said.contains("\nrt: FAILED: base\n"), "the lines are not shown: {said}");
    repository.put(SOURCES[0], SOURCES[0]);
    let (right, said) = check();
    assert!(right, "{said}");
}

/// The gate's comparison of the kept archive with the one that `rt` has built.
#[test]
fn the_kept_archive_must_be_what_rt_builds() {
    let repository = Repository::new("compared");
    let tools = ["keep-archive.sh", "static-libraries.sh", "describe_archive.rs", "archive.rs"];
    let tools = tools.map(|name| format!("tools/{name}"));
    repository.copy(&tools.each_ref().map(String::as_str));
    let executable = fs::Permissions::from_mode(0o755);
    fs::set_permissions(repository.path(&tools[1]), executable).expect("it is there");
    repository.copy(&["rust/sha256.rs"]);
    repository.put_rt(BUILDS);
    let keep = |words: &[&str]| {
        let mut shell = Command::new("sh");
        shell.arg(repository.path("tools/keep-archive.sh")).args(words);
        let run = shell.env("PATH", repository.programs()).output().expect("it runs");
        let said = String::from_utf8([run.stdout, run.stderr].concat()).expect("it is text");
        (run.status.code(), said)
    };
    let assert_checked = |status, words: &str| {
        let (code, said) = keep(&["--check"]);
        assert_eq!(code, Some(status), "{said}");
        assert!(said.contains(words), "{said}");
    };
    repository.put("target/staticlib/librecorder.a", SOURCES[0]);
    assert_checked(1, "run tools/keep-archive.sh");
    assert_eq!(keep(&[]).0, Some(0));
    assert_eq!(repository.linked(), Ok(SOURCES[0].into()), "what was kept now is linked");
    assert_checked(0, "byte for byte");
    repository.put(SOURCES[3], "changed, without a change of the archive");
    assert_checked(1, "run tools/keep-archive.sh");
    let text = fs::read_to_string(repository.path("lib/x86_64/librecorder.txt"));
    let other = text.expect("it is there").replace("test 1", "test 2");
    repository.put("lib/x86_64/librecorder.txt", &other);
    assert_checked(0, "rt is test 1 and the kept archive is of test 2");
}

/// The command in the comment of tools/archive.rs gives the same SHA-256, here.
#[test]
fn sha256sum_gives_the_same() {
    let text = fs::read_to_string(here().join("tools/archive.rs")).expect("it is there");
    let command = text.split("```").nth(1).and_then(|block| block.strip_prefix("text\n"));
    let command = command.expect("the comment has a command").replace("//!", "");
    let run = Command::new("bash").args(["-c", &command]).current_dir(here()).output();
    let printed = String::from_utf8(run.expect("bash runs").stdout).expect("it prints text");
    assert_eq!(printed, format!("{}  -\n", Sources::of(&here()).expect("all can be read").hash));
}
