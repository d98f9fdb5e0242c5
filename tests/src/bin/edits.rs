//! Tries wrong programs: each edit of `crates/*/refused` and `crates/*/must-fail` is made on a copy of the
//! repository, and the prover must then refuse the crate, at the place that the edit names and because a fact
//! fails there.
//!
//! An edit of either folder has a line `refused:` with the function, or the file of proofs, that must no longer be
//! proved; `rt ci` tries those of `must-fail` too, and passes over that line. Here an edit is checked over what
//! the proof of its crate left (`rt check`), so that many can be tried. Edits that each change the body of one
//! function, no two that of the same one, are checked together: a function's proof sees of the others their
//! contracts alone. So are those of the contract of a function that no other calls. One that does not count then
//! is checked alone; where a fact fails at a place that none of them names, each half of them is tried by itself.
//!
//! A proof can also be refused because it no longer fits the code, which a right program shows as well
//! as a wrong one. So an edit of code counts only if a program of `tests/edits`, run with it and no proof,
//! also does something else, and no edit counts where the prover's words are of the proof's shape. The
//! edits of `refused/controls` are right programs: of each the tool must say that it is not a fact. Programs are run
//! once all edits are checked: each edit is made alone, on a copy of the crates that can see it, and the programs over
//! some such copies are compiled together.
//!
//! The prover names what is known after a test by the test's words. Where an edit of a test is refused because the
//! proof of the function has the name of before, the names of today are put into the proof, test for test, and
//! the edit is checked once more.
//!
//! `edits [CRATE..]`, at the top of the repository; `CRATE/NAME` is one edit. What the prover said of each is left
//! in `target/edits`. As many run at a time as the machine has processors, or `RT_JOBS`.

use johvimaru_tests::edits::{Calls, Edit, Made, Tests, Verdict};
use johvimaru_tests::prover::Prover;
use johvimaru_tests::unproved::{Library, Ran, Runner, Together};
use std::cmp::Reverse;
use std::collections::{BTreeMap, HashMap};
use std::fs;
use std::io;
use std::path::{Path, PathBuf};
use std::process::{Command, ExitCode};
use std::sync::atomic::{AtomicUsize, Ordering};
use std::sync::Mutex;
use std::thread;
use std::time::{Duration, Instant};

/// A program over the crates.
struct Program {
    path: &'static str,
    /// The name of its own crate, and the crates that it reaches, each before those that it uses.
    name: &'static str,
    reached: &'static [&'static str],
    /// Those of them whose edits it is run with.
    tells: &'static [&'static str],
}

/// An edit is run with each that tells of its crate, until one does something else.
static PROGRAMS: [Program; 3] = [
    Program {
        path: "tests/edits/pages.txt",
        name: "tried_pages",
        reached: &["harness", "chip", "image", "page", "cipher", "base"],
        tells: &["harness", "image", "page", "cipher", "base"],
    },
    Program {
        path: "tests/edits/bus.txt",
        name: "tried_bus",
        reached: &["chip", "image", "page", "cipher", "base"],
        tells: &["chip", "image", "page", "cipher", "base"],
    },
    Program {
        path: "tests/edits/calls.txt",
        name: "tried_calls",
        reached: &["recorder", "store", "chip", "image", "page", "cipher", "base"],
        tells: &["recorder", "store", "image", "page", "cipher", "base"],
    },
];

/// The folders of a crate that have wrong programs, and the one that has right ones.
const WRONG: [&str; 2] = ["refused", "must-fail"];
const RIGHT: &str = "refused/controls";

/// How many edits are checked together at most.
const MOST_TOGETHER: usize = 32;

/// With how many edits a program is compiled together at most.
const MOST_COMPILED: usize = 16;

/// The folders of a crate that a check reads, and the one in which `rt check` leaves what the next one takes over.
const READ: [&str; 3] = ["src", "specs", "proofs"];
const LEFT: &str = "out/incremental";

/// The ending of what a check has proved: it writes such a file anew under its name, so that two folders can have
/// the same one.
const PROVED: &str = "oantt";

impl Program {
    fn tells_of(&self, name: &str) -> bool {
        self.tells.contains(&name)
    }

    /// Its root file, below a copy of the repository.
    fn root(&self, copy: &Path) -> PathBuf {
        copy.join("programs").join(self.name).join("lib.rt")
    }

    /// The crates that an edit of this one can change: it, and those that may use it. Then the others.
    fn split(&self, name: &str) -> (&[&'static str], &[&'static str]) {
        let place = self.reached.iter().position(|one| *one == name);
        self.reached.split_at(place.map_or(0, |place| place + 1))
    }

    /// Which of some runs do something else than the first, which is without an edit.
    fn differ(&self, ran: &[Ran]) -> Result<Vec<bool>, String> {
        match ran {
            [usual, others @ ..] if usual.status == Some(0) && !usual.wrote.is_empty() => {
                Ok(others.iter().map(|other| other != usual).collect())
            }
            _ => Err(format!("{} does not run: {:?}", self.path, ran.first())),
        }
    }
}

/// What is tried: an edit of a crate.
struct Trial {
    name: String,
    edit: Edit,
    /// Whether it is a right program.
    right: bool,
    /// Whether it may be checked together with others, and whether its function has a proof of its own.
    joins: bool,
    has_proof: bool,
}

impl Trial {
    /// The trials of a crate, or the one that is named with it.
    fn read(repository: &Path, word: &str) -> Result<Vec<Trial>, String> {
        let (name, one) = word.split_once('/').unwrap_or((word, ""));
        let home = repository.join("crates").join(name);
        let calls = Calls::read(&home)?;
        let mut trials = Vec::new();
        for (folder, right) in [(RIGHT, true)].into_iter().chain(WRONG.map(|one| (one, false))) {
            for path in edits_in(&home.join(folder))? {
                let edit = Edit::read(&path)?;
                let joins = !right && edit.is_apart(&home, &calls);
                let has_proof = edit.has_proof(&home);
                trials.push(Trial { name: name.to_string(), edit, right, joins, has_proof });
            }
        }
        trials.retain(|trial| one.is_empty() || trial.edit.name == one);
        match trials.is_empty() {
            true => Err(format!("{word}: no such edit")),
            false => Ok(trials),
        }
    }

    /// Says what came out, after how long a check and a run. Gives whether that is what must: a fact for a
    /// wrong program, none for a right one.
    fn report(&self, verdict: &Verdict, check: Duration, run: Duration) -> bool {
        let Trial { name, edit, right, .. } = self;
        let said = match (verdict, right) {
            (Verdict::Refused(why), false) => format!("refused at {}: {why}", edit.place),
            (Verdict::NotAFact(why), true) => format!("not a fact, as it must be: {why}"),
            (Verdict::Refused(why), true) => format!("COUNTED, though it is right: {why}"),
            (Verdict::NotAFact(why) | Verdict::Useless(why) | Verdict::Renamed(why), _) => {
                format!("NOT A FACT: {why}")
            }
            (Verdict::Proved, _) => format!("NOT REFUSED at {}", edit.place),
            (Verdict::Unchecked, _) => "NOT CHECKED".to_string(),
        };
        let (check, run) = (check.as_secs_f32(), run.as_secs_f32());
        println!("edits: {name}/{} ({check:.0} + {run:.0} s): {}", edit.name, shortened(&said));
        matches!((verdict, right), (Verdict::Refused(_), false) | (Verdict::NotAFact(_), true))
    }
}

/// A trial that was checked.
struct Checked {
    trial: Trial,
    verdict: Verdict,
    /// Its share of the time that the check took, and of the time that programs were run with it.
    check: Duration,
    run: Duration,
    /// Whether a program did something else with its edit; nothing where none was run.
    differs: Option<bool>,
}

/// The edits of a folder, by name; none where there is no such folder.
fn edits_in(folder: &Path) -> Result<Vec<PathBuf>, String> {
    if !folder.is_dir() {
        return Ok(Vec::new());
    }
    let entries = fs::read_dir(folder).map_err(|error| format!("{}: {error}", folder.display()))?;
    let mut paths: Vec<PathBuf> = entries.filter_map(Result::ok).map(|one| one.path()).collect();
    paths.retain(|path| path.extension().is_some_and(|extension| extension == "edit"));
    paths.sort();
    Ok(paths)
}

/// The beginning of a text.
fn shortened(text: &str) -> String {
    match text.char_indices().nth(240) {
        Some((end, _)) => format!("{} ..", &text[..end]),
        None => text.to_string(),
    }
}

/// A trial, and under which names its function's proof has its tests and is to have them.
#[derive(Clone)]
struct Try<'a> {
    trial: &'a Trial,
    names: Option<(Tests, Tests)>,
}

/// What all benches have in common.
struct Common<'a> {
    repository: &'a Path,
    prover: Prover,
    /// Where the folders stand that a check of each crate left.
    kept: PathBuf,
    /// The names of the tests of functions without an edit, by the places of the functions.
    tests: Mutex<HashMap<String, Tests>>,
    /// How many trials came out otherwise than they must.
    wrong: AtomicUsize,
}

impl Common<'_> {
    /// Says what came out of a trial, and counts it where that is not what must.
    fn settle(&self, checked: Checked) {
        let Checked { trial, verdict, check, run, differs } = checked;
        let is_right = trial.report(&verdict.with_run(differs), check, run);
        self.wrong.fetch_add(usize::from(!is_right), Ordering::Relaxed);
    }
}

/// Where edits are made: a copy of the repository.
struct Bench<'a> {
    common: &'a Common<'a>,
    copy: PathBuf,
    runner: Runner,
}

impl Bench<'_> {
    /// A copy of what a check reads of the repository.
    fn new<'a>(common: &'a Common, folder: &Path, number: usize) -> Result<Bench<'a>, String> {
        let copy = folder.join(number.to_string());
        let runner = Runner::new(&copy.join("run"))?;
        let bench = Bench { common, copy, runner };
        bench.fill().map_err(|error| format!("{}: {error}", bench.copy.display()))?;
        Ok(bench)
    }

    fn fill(&self) -> io::Result<()> {
        for entry in fs::read_dir(self.common.repository.join("crates"))? {
            let entry = entry?;
            for part in READ.map(|part| entry.path().join(part)).iter().filter(|one| one.is_dir()) {
                let to = self.home(&entry.file_name().to_string_lossy());
                copy_folder(part, &to.join(part.file_name().unwrap_or_default()))?;
            }
        }
        for program in &PROGRAMS {
            let root = program.root(&self.copy);
            fs::create_dir_all(root.parent().unwrap_or(&self.copy))?;
            fs::copy(self.common.repository.join(program.path), root)?;
        }
        Ok(())
    }

    /// The folder of a crate.
    fn home(&self, name: &str) -> PathBuf {
        self.copy.join("crates").join(name)
    }

    /// The folder of what a check here finds and leaves.
    fn left(&self) -> PathBuf {
        self.copy.join("left")
    }

    /// Crates, with their root files.
    fn libraries(&self, names: &[&'static str]) -> Vec<Library<'static>> {
        names.iter().map(|name| (*name, self.home(name).join("src/lib.rt"))).collect()
    }

    /// No programs yet, over crates as they are.
    fn together(&self, shared: &[&'static str]) -> Result<Together, String> {
        let folder = self.copy.join("together");
        remove(&folder)?;
        Ok(Together::over(&folder, &self.libraries(shared)))
    }

    /// Adds a program, over copies of crates as they are now.
    fn add(
        &self,
        together: &mut Together,
        program: &Program,
        own: &[&'static str],
    ) -> Result<(), String> {
        let root = (program.name, program.root(&self.copy));
        let libraries = [vec![root], self.libraries(own)].concat();
        together.add(&libraries).map_err(|error| format!("{}: {error}", self.copy.display()))
    }

    /// Whether a program does something else than without an edit, with each of some edits of one crate, made alone.
    /// Where it does not run with all of them, each half of them is tried by itself.
    fn differ(&self, program: &Program, trials: &[&Trial]) -> Result<Vec<bool>, String> {
        let (own, shared) = program.split(&trials[0].name);
        let mut together = self.together(shared)?;
        self.add(&mut together, program, own)?;
        for trial in trials {
            let made = [Try { trial, names: None }];
            self.with_edits(&made, |_| self.add(&mut together, program, own))?;
        }
        let differ = self.runner.run(&together).and_then(|ran| program.differ(&ran));
        match (differ, trials) {
            (Err(_), [_, _, ..]) => {
                let (first, second) = trials.split_at(trials.len() / 2);
                Ok([self.differ(program, first)?, self.differ(program, second)?].concat())
            }
            (differ, _) => differ,
        }
    }

    /// Runs a program with each of some edits of one crate. Settles those with which it does something else, and gives
    /// the others.
    fn run_batch(&self, program: &Program, batch: Vec<Checked>) -> Result<Vec<Checked>, String> {
        let start = Instant::now();
        let trials: Vec<&Trial> = batch.iter().map(|one| &one.trial).collect();
        let differ = self.differ(program, &trials)?;
        let run = start.elapsed() / batch.len() as u32;
        let mut open = Vec::new();
        for (mut checked, differs) in batch.into_iter().zip(differ) {
            checked.run += run;
            checked.differs = Some(differs);
            match differs {
                true => self.common.settle(checked),
                false => open.push(checked),
            }
        }
        Ok(open)
    }

    /// Has `rt check` prove a crate of the repository as it stands, and keeps what it leaves.
    fn check_whole(&self, name: &str) -> Result<(), String> {
        let start = Instant::now();
        let home = self.common.repository.join("crates").join(name);
        let output = Command::new("rt").arg("check").current_dir(&home).output();
        let output = output.map_err(|error| format!("rt cannot be run: {error}"))?;
        if !output.status.success() {
            let account = [output.stdout, output.stderr].concat();
            let account = String::from_utf8_lossy(&account);
            return Err(format!("{name}: not proved as it stands\n{account}"));
        }
        println!("edits: {name}, as it stands ({} s): proved", start.elapsed().as_secs());
        let to = self.common.kept.join(name);
        link_folder(&home.join(LEFT), &to).map_err(|error| format!("{}: {error}", to.display()))
    }

    /// Checks the edits of a group over what the check of their crate left. Settles those with which no program is to
    /// be run, and gives the others.
    fn check_group(&self, group: Vec<Trial>) -> Result<Vec<Checked>, String> {
        let start = Instant::now();
        let tries: Vec<Try> = group.iter().map(|trial| Try { trial, names: None }).collect();
        let mut verdicts = self.verdicts(&tries)?;
        let is_renamed = |at: &usize| matches!(verdicts[*at], Verdict::Renamed(_));
        let renamed: Vec<usize> = (0..group.len()).filter(is_renamed).collect();
        if !renamed.is_empty() {
            let again = self.named(renamed.iter().map(|&at| &group[at]).collect())?;
            for (at, verdict) in renamed.into_iter().zip(self.verdicts(&again)?) {
                verdicts[at] = verdict;
            }
        }
        let (check, run) = (start.elapsed() / group.len() as u32, Duration::ZERO);
        let mut open = Vec::new();
        for (trial, verdict) in group.into_iter().zip(verdicts) {
            let is_run = verdict.counts_if_run() && self.can_be_run(&trial)?;
            let checked = Checked { trial, verdict, check, run, differs: None };
            match is_run {
                true => open.push(checked),
                false => self.common.settle(checked),
            }
        }
        Ok(open)
    }

    /// Whether the edit is one of code that a program tells of.
    fn can_be_run(&self, trial: &Trial) -> Result<bool, String> {
        let is_code = |made: &[Made]| Ok(made.iter().any(|made| made.code));
        let is_told = PROGRAMS.iter().any(|program| program.tells_of(&trial.name));
        Ok(is_told && self.with_edits(&[Try { trial, names: None }], is_code)?)
    }

    /// What the prover shows of edits of one crate, all of them made. One that does not count then is checked again
    /// alone. Where what is said of all together is of no use, each half of them is tried by itself.
    fn verdicts(&self, tries: &[Try]) -> Result<Vec<Verdict>, String> {
        let account = self.account(tries);
        let edits: Vec<&Edit> = tries.iter().map(|one| &one.trial.edit).collect();
        let account = match tries {
            [_] => Some(account?),
            _ => account.ok().filter(|account| Edit::are_told(&edits, account)),
        };
        let Some(account) = account else {
            let (first, second) = tries.split_at(tries.len() / 2);
            return Ok([self.verdicts(first)?, self.verdicts(second)?].concat());
        };
        let verdict = |one: &Try| {
            let edit = &one.trial.edit;
            let verdict = edit.judge(&account);
            let is_settled = match verdict {
                Verdict::Renamed(_) => one.names.is_none(),
                _ => verdict.counts_if_run(),
            };
            match tries.len() == 1 || is_settled {
                true => Ok(verdict),
                false => Ok(edit.judge(&self.account(std::slice::from_ref(one))?)),
            }
        };
        tries.iter().map(verdict).collect()
    }

    /// Trials whose edits give tests of their functions other names, with the names of before and of then.
    fn named<'a>(&self, trials: Vec<&'a Trial>) -> Result<Vec<Try<'a>>, String> {
        let tries: Vec<Try> = trials.iter().map(|trial| Try { trial, names: None }).collect();
        let known = |place: &String| -> Result<Option<Tests>, String> {
            let tests = self.common.tests.lock().map_err(|error| error.to_string())?;
            Ok(tests.get(place).cloned())
        };
        let mut missing = Vec::new();
        for one in &tries {
            if known(&one.trial.edit.place)?.is_none() {
                missing.push(one.clone());
            }
        }
        let found = self.tests(&missing, &[])?;
        let mut tests = self.common.tests.lock().map_err(|error| error.to_string())?;
        tests.extend(missing.iter().map(|one| one.trial.edit.place.clone()).zip(found));
        drop(tests);
        let mut named = Vec::new();
        for (one, new) in tries.iter().zip(self.tests(&tries, &tries)?) {
            let old = known(&one.trial.edit.place)?.unwrap_or_default();
            named.push(Try { trial: one.trial, names: Some((old, new)) });
        }
        Ok(named)
    }

    /// The names of the tests of the functions of some trials of one crate, with these edits made.
    fn tests(&self, of: &[Try], made: &[Try]) -> Result<Vec<Tests>, String> {
        let Some(Try { trial: Trial { name, .. }, .. }) = of.first() else { return Ok(Vec::new()) };
        let modules = self.copy.join("modules");
        remove(&modules)?;
        let functions = of.iter().filter_map(|one| one.trial.edit.function());
        let words = functions.clone().flat_map(|function| ["--start", function]);
        let to = format!("--generated={}", modules.display());
        let words: Vec<String> = words.chain([to.as_str()]).map(str::to_string).collect();
        let said = self.with_edits(made, |_| self.check(name, &words))?;
        let of_function = |function: &str| {
            let path = format!("Rattle-{name}-proofs/{}/Lts.antt", function.replace("::", "/"));
            let path = modules.join(path);
            let text = fs::read_to_string(&path);
            let fault = |error| format!("{}: {error}\n{said}", path.display());
            text.map(|text| Tests::of_steps(&text)).map_err(fault)
        };
        functions.map(of_function).collect()
    }

    /// Makes edits of one crate, does something with them, and undoes them.
    fn with_edits<R>(
        &self,
        tries: &[Try],
        does: impl FnOnce(&[Made]) -> Result<R, String>,
    ) -> Result<R, String> {
        let mut all: Vec<Made> = Vec::new();
        let result = tries.iter().try_for_each(|Try { trial, names }| {
            let Trial { name, edit, .. } = trial;
            let made = edit.make(&self.home(name), names.as_ref());
            all.push(made.map_err(|why| format!("{name}/{}: {why}", edit.name))?);
            Ok(())
        });
        let result = result.and_then(|()| does(&all));
        all.iter().rev().try_for_each(Made::undo)?;
        result
    }

    /// Checks a crate over what was kept of it, with more words for the prover. Gives what the prover says.
    fn check(&self, name: &str, words: &[String]) -> Result<String, String> {
        let Common { prover, kept, .. } = self.common;
        let left = self.left();
        remove(&left)?;
        link_folder(&kept.join(name), &left)
            .map_err(|error| format!("{}: {error}", left.display()))?;
        prover.check(name, &self.home(name), &left, words)
    }

    /// What the prover says of edits of one crate, all of them made.
    fn account(&self, tries: &[Try]) -> Result<String, String> {
        let name = &tries[0].trial.name;
        let account = self.with_edits(tries, |_| self.check(name, &[]))?;
        let folder = self.common.repository.join("target/edits").join(name);
        let write =
            |one: &Try| fs::write(folder.join(format!("{}.log", one.trial.edit.name)), &account);
        fs::create_dir_all(&folder)
            .and_then(|()| tries.iter().try_for_each(write))
            .map_err(|error| format!("{}: {error}", folder.display()))?;
        Ok(account)
    }
}

/// A folder among the temporary files, which goes with this.
struct Room(PathBuf);

impl Room {
    /// An empty one. What an earlier run that was ended left in its place goes.
    fn new() -> Result<Room, String> {
        let room = std::env::temp_dir().join(format!("edits-{}", std::process::id()));
        remove(&room)?;
        fs::create_dir_all(&room).map_err(|error| format!("{}: {error}", room.display()))?;
        Ok(Room(room))
    }
}

impl Drop for Room {
    fn drop(&mut self) {
        if let Err(why) = remove(&self.0) {
            eprintln!("edits: {why}");
        }
    }
}

/// Removes a folder, if it is there.
fn remove(folder: &Path) -> Result<(), String> {
    let removed = if folder.exists() { fs::remove_dir_all(folder) } else { Ok(()) };
    removed.map_err(|error| format!("{}: {error}", folder.display()))
}

/// Copies a folder with all in it.
fn copy_folder(from: &Path, to: &Path) -> io::Result<()> {
    each_file(from, to, &|from, to| fs::copy(from, to).map(|_| ()))
}

/// Makes a folder of what a check left in another, with the same files of what is proved where it can be.
fn link_folder(from: &Path, to: &Path) -> io::Result<()> {
    each_file(from, to, &|from, to| {
        let is_proved = from.extension().is_some_and(|extension| extension == PROVED);
        match is_proved && fs::hard_link(from, to).is_ok() {
            true => Ok(()),
            false => fs::copy(from, to).map(|_| ()),
        }
    })
}

/// Makes a folder and those below it as another has them, each file by what is given.
fn each_file(
    from: &Path,
    to: &Path,
    makes: &dyn Fn(&Path, &Path) -> io::Result<()>,
) -> io::Result<()> {
    fs::create_dir_all(to)?;
    for entry in fs::read_dir(from)? {
        let entry = entry?;
        let to = to.join(entry.file_name());
        match entry.file_type()?.is_dir() {
            true => each_file(&entry.path(), &to, makes)?,
            false => makes(&entry.path(), &to)?,
        }
    }
    Ok(())
}

/// Has every item done on one of the benches, each bench taking the next as soon as it is free.
fn share<T: Send, R: Send>(
    benches: &[Bench],
    items: Vec<T>,
    does: impl Fn(&Bench, T) -> Result<R, String> + Sync,
) -> Result<Vec<R>, String> {
    let left = Mutex::new(items.into_iter());
    let next = || left.lock().map_err(|error| error.to_string()).map(|mut left| left.next());
    let work = |bench: &Bench| -> Result<Vec<R>, String> {
        let mut results = Vec::new();
        while let Some(item) = next()? {
            results.push(does(bench, item)?);
        }
        Ok(results)
    };
    thread::scope(|scope| {
        let started: Vec<_> = benches.iter().map(|bench| scope.spawn(|| work(bench))).collect();
        let ended = started.into_iter().map(|one| one.join().map_err(|_| "a worker panicked")?);
        ended
            .collect::<Result<Vec<Vec<R>>, String>>()
            .map(|parts| parts.into_iter().flatten().collect())
    })
}

/// The names of the crates with edits, those with the most of them first.
fn crates_with_edits(repository: &Path) -> Result<Vec<String>, String> {
    let crates = fs::read_dir(repository.join("crates")).map_err(|error| error.to_string())?;
    let mut counted = Vec::new();
    for path in crates.filter_map(Result::ok).map(|entry| entry.path()) {
        let mut count = 0;
        for folder in WRONG {
            count += edits_in(&path.join(folder))?.len();
        }
        let name = path.file_name().unwrap_or_default().to_string_lossy().into_owned();
        counted.push((count, name));
    }
    counted.retain(|(count, _)| *count != 0);
    counted.sort();
    Ok(counted.into_iter().rev().map(|(_, name)| name).collect())
}

/// The trials in groups whose edits are checked together, the largest first: wrong programs of one crate that
/// no other function's proof sees, and no two of a group of the same function, or of one without a proof of its
/// own that calls the other. All others are alone. Those that fit the fewest others are put into groups first, so
/// that there are few.
fn grouped(trials: Vec<Trial>, calls: &HashMap<String, Calls>) -> Vec<Vec<Trial>> {
    let fit = |one: &Trial, other: &Trial| {
        let (place, others) = (&one.edit.place, &other.edit.place);
        let join = one.joins && other.joins && one.name == other.name && place != others;
        let calls = |one: &Trial, other: &Trial| {
            !one.has_proof && calls[&one.name].calls(&one.edit.place, &other.edit.place)
        };
        join && !calls(one, other) && !calls(other, one) && one.edit.is_clear_of(&other.edit)
    };
    let fitting = |one: &Trial| trials.iter().filter(|other| fit(one, other)).count();
    let counts: Vec<usize> = trials.iter().map(fitting).collect();
    let mut counted: Vec<(usize, Trial)> = counts.into_iter().zip(trials).collect();
    counted.sort_by_key(|(count, _)| *count);
    let mut groups: Vec<Vec<Trial>> = Vec::new();
    for (_, trial) in counted {
        let takes = |group: &&mut Vec<Trial>| {
            group.len() < MOST_TOGETHER && group.iter().all(|one| fit(one, &trial))
        };
        match groups.iter_mut().find(takes) {
            Some(group) => group.push(trial),
            None => groups.push(vec![trial]),
        }
    }
    groups.sort_by_key(|group| Reverse(group.len()));
    groups
}

/// Trials in batches of one crate each, of about one size, with which a program is compiled together.
fn batches(trials: Vec<Checked>) -> Vec<Vec<Checked>> {
    let mut by_crate: BTreeMap<String, Vec<Checked>> = BTreeMap::new();
    for checked in trials {
        by_crate.entry(checked.trial.name.clone()).or_default().push(checked);
    }
    let in_batches = |mut trials: Vec<Checked>| {
        let size = trials.len().div_ceil(trials.len().div_ceil(MOST_COMPILED));
        let mut batches = Vec::new();
        while !trials.is_empty() {
            batches.push(trials.split_off(trials.len().saturating_sub(size)));
        }
        batches
    };
    let mut batches: Vec<Vec<Checked>> = by_crate.into_values().flat_map(in_batches).collect();
    batches.sort_by_key(|batch| Reverse(batch.len()));
    batches
}

/// Runs the programs with the edits of trials, each until one does something else, and settles them.
fn run_programs(benches: &[Bench], mut open: Vec<Checked>, common: &Common) -> Result<(), String> {
    for program in &PROGRAMS {
        let is_told = |checked: &Checked| program.tells_of(&checked.trial.name);
        let (told, others): (Vec<Checked>, Vec<Checked>) = open.into_iter().partition(is_told);
        let left = share(benches, batches(told), |bench, batch| bench.run_batch(program, batch))?;
        open = left.into_iter().flatten().chain(others).collect();
    }
    open.into_iter().for_each(|checked| common.settle(checked));
    Ok(())
}

/// How many run at a time.
fn jobs() -> usize {
    let asked = std::env::var("RT_JOBS").ok().and_then(|jobs| jobs.parse().ok());
    asked.unwrap_or_else(|| thread::available_parallelism().map_or(1, |count| count.get()))
}

/// Tries the edits of the crates that are named, or of all. Gives how many there are, and how many of
/// them came out otherwise than they must.
fn run(mut words: Vec<String>) -> Result<(usize, usize), String> {
    let repository = std::env::current_dir().map_err(|error| error.to_string())?;
    if words.is_empty() {
        words = crates_with_edits(&repository)?;
    }
    let mut trials = Vec::new();
    for word in &words {
        trials.extend(Trial::read(&repository, word)?);
    }
    let mut names: Vec<String> = trials.iter().map(|trial| trial.name.clone()).collect();
    names.dedup();
    let mut calls = HashMap::new();
    for name in &names {
        calls.insert(name.clone(), Calls::read(&repository.join("crates").join(name))?);
    }
    let room = Room::new()?;
    let common = Common {
        repository: &repository,
        prover: Prover::of(&repository)?,
        kept: room.0.join("kept"),
        tests: Mutex::default(),
        wrong: AtomicUsize::default(),
    };
    let benches: Vec<Bench> =
        (0..jobs()).map(|number| Bench::new(&common, &room.0, number)).collect::<Result<_, _>>()?;
    share(&benches, names, |bench, name| bench.check_whole(&name))?;
    let (count, groups) = (trials.len(), grouped(trials, &calls));
    println!("edits: {count} in {} checks", groups.len());
    let open = share(&benches, groups, |bench, group| bench.check_group(group))?;
    run_programs(&benches, open.into_iter().flatten().collect(), &common)?;
    Ok((count, common.wrong.into_inner()))
}

fn main() -> ExitCode {
    let words: Vec<String> = std::env::args().skip(1).collect();
    let tried = match words.iter().any(|word| word.starts_with('-')) {
        true => Err("usage: edits [CRATE..]".to_string()),
        false => run(words),
    };
    match tried {
        Ok((count, 0)) => {
            println!(
                "edits: {count} tried: of each wrong program a fact fails, of each right one none"
            );
            ExitCode::SUCCESS
        }
        Ok((count, wrong)) => {
            println!("edits: {count} tried, {wrong} OTHERWISE THAN THEY MUST");
            ExitCode::FAILURE
        }
        Err(why) => {
            eprintln!("edits: {why}");
            ExitCode::FAILURE
        }
    }
}
