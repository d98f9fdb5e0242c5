//! Wrong programs that the prover must refuse: an edit, and what the prover's account of it shows.
//!
//! A refusal shows something of a contract only if a fact fails. It shows nothing where the proof no
//! longer fits the code: where a fact is named that the code does not have, where there are more or
//! fewer of them, or where a definition does not compile.

use std::collections::{BTreeMap, HashMap, HashSet};
use std::fs;
use std::path::{Path, PathBuf};

/// A text of a file of the crate, which stands there once, and the one that takes its place.
#[derive(Clone, Debug, PartialEq, Eq)]
pub struct Replacement {
    /// The file, from the crate's folder on.
    pub file: String,
    /// The text.
    pub old: String,
    /// What takes its place.
    pub new: String,
}

/// A wrong program, as changes of a crate.
#[derive(Clone, Debug, PartialEq, Eq)]
pub struct Edit {
    /// The name of its file, without what follows the point.
    pub name: String,
    /// The function, or the file of proofs, that must be refused.
    pub place: String,
    /// The changes.
    pub replacements: Vec<Replacement>,
}

/// What became of an edit.
#[derive(Clone, Debug, PartialEq, Eq)]
pub enum Verdict {
    /// A fact fails at the place that the edit names: the first, in the prover's words.
    Refused(String),
    /// A fact is found there that the goal has no use for, in the prover's words.
    Useless(String),
    /// The prover did not refuse it there.
    Proved,
    /// It did not come to the prover, or the prover to an end.
    Unchecked,
    /// It was refused, but that shows nothing: why.
    NotAFact(String),
    /// The same, and the proof of the function names what the code no longer has: why.
    Renamed(String),
}

impl Edit {
    /// Reads an edit.
    pub fn read(path: &Path) -> Result<Edit, String> {
        let text =
            fs::read_to_string(path).map_err(|error| format!("{}: {error}", path.display()))?;
        let name = path.file_stem().unwrap_or_default().to_string_lossy().into_owned();
        Edit::parse(&name, &text)
    }

    /// The edit of a text: `refused:` and the place, then for each file `file:` with pairs of `old:`
    /// and `new:`. All other lines are passed over.
    pub fn parse(name: &str, text: &str) -> Result<Edit, String> {
        let (mut place, mut file, mut old) = (String::new(), String::new(), None);
        let mut replacements: Vec<Replacement> = Vec::new();
        for line in text.lines() {
            if let Some(named) = line.strip_prefix("refused: ") {
                place = named.to_string();
            } else if let Some(path) = line.strip_prefix("file: ") {
                file = path.to_string();
            } else if let Some(text) = line.strip_prefix("old: ") {
                old = Some(text.to_string());
            } else if let Some(new) = line.strip_prefix("new:") {
                let old = old.take().ok_or(format!("{name}: a `new:` without its `old:`"))?;
                let new = new.strip_prefix(' ').unwrap_or(new).to_string();
                replacements.push(Replacement { file: file.clone(), old, new });
            }
        }
        if place.is_empty() || replacements.is_empty() || old.is_some() {
            return Err(format!("{name}: a place or a `new:` is missing"));
        }
        let edit = Edit { name: name.to_string(), place, replacements };
        edit.check_files().map(|()| edit)
    }

    /// Whether it changes files of `src` and `specs` alone, and no text twice.
    fn check_files(&self) -> Result<(), String> {
        let Edit { name, replacements, .. } = self;
        for (at, Replacement { file, old, .. }) in replacements.iter().enumerate() {
            if !is_in_src_or_specs(file) {
                return Err(format!("{name}: {file} is not in src/ or specs/ of the crate"));
            }
            let same = |other: &Replacement| (&other.file, &other.old) == (file, old);
            if replacements[..at].iter().any(same) {
                return Err(format!("{name}: `{old}` is given twice"));
            }
        }
        Ok(())
    }

    /// Whether no other function's proof sees the edit: it changes nothing but the body of the function that it
    /// names, or its contract too where no function of the crate calls it. What a function is held to is its own
    /// code and the contracts of those that it calls.
    pub fn is_apart(&self, folder: &Path, calls: &Calls) -> bool {
        let called = calls.any_calls(&self.place);
        self.replacements.iter().all(|Replacement { file, old, .. }| {
            let text = fs::read_to_string(folder.join(file)).unwrap_or_default();
            let found = text.find(old.as_str()).and_then(|at| function_at(&text, at));
            let Some((function, in_body)) = found else { return false };
            let path = match file.strip_prefix("src/").and_then(|path| path.strip_suffix(".rt")) {
                Some("lib") => function.to_string(),
                Some(module) => format!("{}::{function}", module.replace('/', "::")),
                None => return false,
            };
            let named = self.place.split_once("::").is_some_and(|(_, place)| place == path);
            named && (in_body || !called)
        })
    }

    /// Whether neither edit brings a text that the other one replaces, so that both can be made.
    pub fn is_clear_of(&self, other: &Edit) -> bool {
        let clear = |one: &Replacement, other: &Replacement| {
            one.file != other.file
                || !(one.new.contains(&other.old) || other.new.contains(&one.old))
        };
        self.replacements.iter().all(|one| other.replacements.iter().all(|two| clear(one, two)))
    }

    /// Makes the edit in the crate's folder, and gives the tests of its function these other names in the
    /// function's proof. Gives each file as it was before a replacement in it.
    pub fn make(&self, folder: &Path, names: Option<&(Tests, Tests)>) -> Result<Made, String> {
        let mut made = Made { before: Vec::new(), code: false };
        for Replacement { file, old, new } in &self.replacements {
            let path = folder.join(file);
            let text = fs::read_to_string(&path).map_err(|error| format!("{file}: {error}"))?;
            if text.matches(old.as_str()).count() != 1 {
                made.undo()?;
                return Err(format!("`{old}` does not stand once in {file}"));
            }
            let changed = text.replace(old.as_str(), new);
            made.code |= file.starts_with("src/") && code_of(&text) != code_of(&changed);
            fs::write(&path, changed).map_err(|error| format!("{file}: {error}"))?;
            made.before.push((path, text));
        }
        if let (Some(function), Some((old, new))) = (self.function(), names) {
            let proofs = folder.join("proofs").join(function.replace("::", "/"));
            let fault = |error| format!("{}: {error}", proofs.display());
            for entry in fs::read_dir(&proofs).map_err(fault)? {
                let path = entry.map_err(fault)?.path();
                if path.extension().is_some_and(|extension| extension == "antt") {
                    let text = fs::read_to_string(&path).map_err(fault)?;
                    fs::write(&path, old.renamed(new, &text)).map_err(fault)?;
                    made.before.push((path, text));
                }
            }
        }
        Ok(made)
    }

    /// What the prover's account of the edit shows.
    pub fn judge(&self, account: &str) -> Verdict {
        match account.lines().find(|line| line.starts_with("logic=")) {
            None => return Verdict::Unchecked,
            Some(line) if !line.starts_with("logic=not-proved") => return Verdict::Proved,
            Some(_) => {}
        }
        let errors = Failure::all(account);
        if let Some(error) = errors.iter().find(|error| error.is_outside_proofs()) {
            return Verdict::NotAFact(format!("a definition fails: {}", error.text));
        }
        let unclosed = account.lines().filter_map(|line| unclosed(line, &self.place));
        let here = errors.iter().filter(|error| error.is_at(&self.place));
        let texts = here.map(|error| error.text.clone()).chain(unclosed);
        let causes: Vec<String> = texts.filter(|text| !is_consequence(text)).collect();
        if causes.is_empty() {
            return Verdict::Proved;
        }
        if let Some(shape) = causes.iter().find(|text| !is_fact(text) && !is_useless(text)) {
            let why = format!("the proof does not fit: {shape}");
            let names_are_gone =
                self.function().is_some() && causes.iter().any(|text| names_are_gone(text));
            return if names_are_gone { Verdict::Renamed(why) } else { Verdict::NotAFact(why) };
        }
        match causes.iter().find(|text| is_useless(text)) {
            Some(text) => Verdict::Useless(text.clone()),
            None => Verdict::Refused(causes[0].clone()),
        }
    }

    /// Whether the prover's account of several edits tells of each of them: the prover came to an end, and nothing
    /// fails elsewhere.
    pub fn are_told(edits: &[&Edit], account: &str) -> bool {
        let checked = edits.iter().all(|edit| edit.judge(account) != Verdict::Unchecked);
        checked && !Edit::fails_elsewhere(edits, account)
    }

    /// Whether the prover's account shows a failure that is at the place of none of the edits and does not
    /// follow from another.
    fn fails_elsewhere(edits: &[&Edit], account: &str) -> bool {
        let at_error = |error: &Failure| {
            let here = edits.iter().any(|edit| error.is_at(&edit.place));
            !here && !is_consequence(&error.text)
        };
        let at_line = |line: &str| {
            let here = edits.iter().any(|edit| unclosed(line, &edit.place).is_some());
            !here && line.starts_with("fn ") && line.contains(NOT_FOUND)
        };
        Failure::all(account).iter().any(at_error) || account.lines().any(at_line)
    }

    /// The function that it names, by its path below the crate; none where it names a file.
    pub fn function(&self) -> Option<&str> {
        self.place.split_once("::").map(|(_, function)| function)
    }

    /// Whether the function that it names has a proof of its own, in the crate's folder. Of one that has none the
    /// prover says nothing more where it calls a function that is not proved.
    pub fn has_proof(&self, folder: &Path) -> bool {
        let proof = |function: &str| folder.join("proofs").join(function.replace("::", "/"));
        self.function().is_some_and(|function| proof(function).is_dir())
    }
}

impl Verdict {
    /// Whether a fact fails, if what a program does with the edit does not speak against it.
    pub fn counts_if_run(&self) -> bool {
        matches!(self, Verdict::Refused(_) | Verdict::Useless(_))
    }

    /// The verdict once the program over the libraries was run with the edit: whether it then does
    /// something else; nothing where the edit cannot be run.
    pub fn with_run(self, differs: Option<bool>) -> Verdict {
        match (self, differs) {
            (Verdict::Refused(_) | Verdict::Useless(_), Some(false)) => {
                Verdict::NotAFact("the program does what it did before".to_string())
            }
            (Verdict::Useless(why), Some(true)) => Verdict::Refused(why),
            (Verdict::Useless(why), None) => {
                Verdict::NotAFact(format!("the proof does not fit: {why}"))
            }
            (Verdict::Renamed(why), _) => Verdict::NotAFact(why),
            (verdict, _) => verdict,
        }
    }
}

/// An edit that was made.
#[derive(Debug)]
pub struct Made {
    before: Vec<(PathBuf, String)>,
    /// Whether it changes code, and not only contracts and definitions.
    pub code: bool,
}

impl Made {
    /// Makes the files what they were before.
    pub fn undo(&self) -> Result<(), String> {
        self.before.iter().rev().try_for_each(|(path, text)| {
            fs::write(path, text).map_err(|error| format!("{}: {error}", path.display()))
        })
    }
}

fn is_in_src_or_specs(file: &str) -> bool {
    let inside = !file.split('/').any(|part| part == ".." || part.is_empty());
    inside && (file.starts_with("src/") || file.starts_with("specs/"))
}

/// The words with which the clauses of a contract begin.
const CLAUSES: [&str; 2] = ["requires", "ensures"];

/// The lines of a source that are run: not those of a clause, up to its last brace, nor those that begin with
/// `ghost`.
fn code_of(text: &str) -> Vec<&str> {
    let mut open: Option<usize> = None;
    let is_run = |line: &&str| {
        let words = line.trim_start();
        let begins = |word: &&str| {
            words.strip_prefix(*word).is_some_and(|rest| rest.starts_with([' ', '*', '{']))
        };
        if open.is_none() && CLAUSES.iter().any(begins) {
            open = Some(0);
        }
        let Some(braces) = open else { return !line.starts_with("ghost ") };
        let braces = braces + line.matches('{').count() - line.matches('}').count();
        open = Some(braces).filter(|braces| *braces > 0 || !line.contains('}'));
        false
    };
    text.lines().filter(is_run).collect()
}

/// The function, at the top of a module, that has this byte of a source in its contract or its body, and whether
/// it is its body.
fn function_at(text: &str, at: usize) -> Option<(&str, bool)> {
    let (mut function, mut in_body, mut start) = (None, false, 0);
    for line in text.split_inclusive('\n') {
        let head =
            line.split_once("fn ").filter(|(head, _)| head.is_empty() || head.ends_with(' '));
        if let (Some((_, rest)), false) = (head, line.starts_with([' ', '/'])) {
            function = rest.split(['(', '<']).next();
        }
        in_body |= line == "{\n";
        start += line.len();
        if at < start {
            return function.map(|function| (function, in_body));
        }
        if line == "}\n" || (line == "\n" && !in_body) {
            (function, in_body) = (None, false);
        }
    }
    None
}

// ---- Calls

/// Which functions of a crate each of its functions calls, directly or through others, by their last names.
#[derive(Debug, Default)]
pub struct Calls(HashMap<String, HashSet<String>>);

impl Calls {
    /// The calls in the crate's modules.
    pub fn read(folder: &Path) -> Result<Calls, String> {
        let source = folder.join("src");
        let fail = |error| format!("{}: {error}", source.display());
        let mut texts = String::new();
        for entry in fs::read_dir(&source).map_err(fail)? {
            texts += &fs::read_to_string(entry.map_err(fail)?.path()).map_err(fail)?;
        }
        Ok(Calls::of(&texts))
    }

    /// The calls in some sources.
    fn of(texts: &str) -> Calls {
        let mut direct: HashMap<String, HashSet<String>> = HashMap::new();
        let mut function = "";
        for line in texts.lines() {
            function = named_function(line).unwrap_or(function);
            let called = direct.entry(function.to_string()).or_default();
            let words =
                line.split('(').filter_map(|text| text.rsplit([' ', ':', '.', '!', '&']).next());
            called.extend(words.filter(|word| *word != function).map(str::to_string));
        }
        let names: HashSet<String> = direct.keys().cloned().collect();
        direct.values_mut().for_each(|called| called.retain(|name| names.contains(name)));
        while Calls::widen(&mut direct) {}
        Calls(direct)
    }

    /// Adds to each function's calls those of the functions that it calls. Tells whether there were any.
    fn widen(calls: &mut HashMap<String, HashSet<String>>) -> bool {
        let mut any = false;
        for name in calls.keys().cloned().collect::<Vec<String>>() {
            let further: HashSet<String> =
                calls[&name].iter().flat_map(|called| calls[called].clone()).collect();
            let called = calls.get_mut(&name).expect("it is one of them");
            let before = called.len();
            called.extend(further);
            any |= called.len() > before;
        }
        any
    }

    /// Whether a function is called by another.
    pub fn any_calls(&self, function: &str) -> bool {
        let last = function.rsplit("::").next().unwrap_or(function);
        self.0.values().any(|called| called.contains(last))
    }

    /// Whether one function calls another.
    pub fn calls(&self, one: &str, other: &str) -> bool {
        let last = |path: &str| path.rsplit("::").next().unwrap_or(path).to_string();
        self.0.get(&last(one)).is_some_and(|called| called.contains(&last(other)))
    }
}

/// The function of which a line is the head.
fn named_function(line: &str) -> Option<&str> {
    let (head, rest) = line.split_once("fn ")?;
    let is_head = !line.trim_start().starts_with("//") && (head.is_empty() || head.ends_with(' '));
    rest.split(['(', '<']).next().filter(|_| is_head)
}

// ---- The prover's account

/// An error of an account: `PATH:LINE:COLUMN: error: TEXT`, and the lines set in below it.
struct Failure<'a> {
    path: &'a str,
    text: String,
}

impl<'a> Failure<'a> {
    /// The errors of an account.
    fn all(account: &'a str) -> Vec<Failure<'a>> {
        let mut all: Vec<Failure> = Vec::new();
        let mut open = false;
        for line in account.lines() {
            if let Some((place, text)) = line.split_once(": error: ") {
                let path = place.rsplitn(3, ':').nth(2).unwrap_or(place);
                all.push(Failure { path, text: text.to_string() });
                open = true;
            } else if let (true, true, Some(last)) = (open, line.starts_with("  "), all.last_mut())
            {
                last.text += &line[1..];
            } else {
                open = false;
            }
        }
        all
    }

    /// Whether it is at a place: in the function's folder of proofs, or in the file.
    fn is_at(&self, place: &str) -> bool {
        let path = self.path.trim_start_matches("./");
        match place.split_once("::") {
            Some((_, function)) => {
                let folder = format!("proofs/{}", function.replace("::", "/"));
                path.rsplit_once('/').is_some_and(|(parent, _)| parent == folder)
            }
            None => {
                let file = place.rsplit_once("proofs/").map_or(place, |(_, file)| file);
                path.strip_prefix("proofs/") == Some(file)
            }
        }
    }

    fn is_outside_proofs(&self) -> bool {
        !self.path.trim_start_matches("./").starts_with("proofs/")
    }
}

/// What is said of a function of which something is not found.
fn unclosed(line: &str, function: &str) -> Option<String> {
    let text = line.strip_prefix("fn ")?.strip_prefix(function)?.strip_prefix(": no proof: ")?;
    Some(text.split("; ").last().unwrap_or(text).to_string())
}

/// How it is said that nothing is found that proves what is asked of a function.
const NOT_FOUND: &str = "`search` did not prove";

/// Whether an error only follows from another.
fn is_consequence(text: &str) -> bool {
    let depends = text.contains(" that depend") && text.contains(" not checked: ");
    depends || text.starts_with("it calls `") || text.contains("so this cannot be checked")
}

/// Whether an error, `` `NAME`: TEXT ``, says that a fact fails: two sides differ, a number is out of its
/// bounds, a test comes out false, or nothing is found that proves what is asked. All else is the
/// proof's shape: a fact, a field or a name that is not there, or a statement of another kind.
fn is_fact(text: &str) -> bool {
    const FACTS: [&str; 10] = [
        "the two types first differ where",
        "the two types differ only where",
        "the two sides first differ where",
        "the two sides differ only where",
        "the two types are `Prim.⊥` (expected)",
        "but this has type `",
        "does not hold (this comparison",
        "does not follow from what it read",
        "`search`: no proof of",
        "give a proof of that as the last argument",
    ];
    let (name, said) = text.split_once(": ").unwrap_or(("", text));
    let of_a_loop = name.starts_with("`invariant-") || name.starts_with("`decreases-");
    let fact = FACTS.iter().any(|fact| said.contains(fact));
    let not_found = text.starts_with(NOT_FOUND);
    (fact || not_found) && !of_a_loop && !said.contains("type `goal.")
}

/// Whether an error says that what the code gives does not stand in the goal: with `n == 12` for
/// `n == 0` it does not, but neither with `0 == n`.
fn is_useless(text: &str) -> bool {
    text.contains("`rw`: no occurrence of the path's") || text.contains("`rw`: no part of the goal")
}

/// Whether an error says that a proof names a goal or a fact that the code does not have.
fn names_are_gone(text: &str) -> bool {
    let goal = text.contains(".Goals` has no `") || text.contains(".Given` has no `");
    goal || (text.contains("record `") && text.contains("` has no field `"))
}

// ---- Names

/// The tests of a function by their numbers: under which name its proof knows each. The name is made of the test's
/// words, so that an edit of the test changes it.
#[derive(Clone, Debug, Default, PartialEq, Eq)]
pub struct Tests(BTreeMap<usize, String>);

/// What stands before the name of a test: in the name of what it shows, of a place behind it, and of a goal there.
const SHOWN: &str = "if-";
const BEFORE_TEST: [&str; 5] = [SHOWN, "Then-", "Else-", "-then-", "-else-"];

/// The beginning of the name of a test that takes the opposite, and the ending of what it then shows of the test
/// itself.
const OPPOSITE: &str = "not-";
const OF_TEST: &str = "-raw";

impl Tests {
    /// The tests in the prover's text of a function's steps. In each branch of a test it has `if-NAME : BRANCH`, and
    /// the branch's name ends in `Then` or `Else` and the test's number.
    pub fn of_steps(steps: &str) -> Tests {
        let words: Vec<&str> = steps.split_whitespace().collect();
        let test = |words: &[&str]| {
            let [name, ":", branch] = words else { return None };
            let branch = branch.rsplit('-').next()?;
            let number = branch.strip_prefix("Then").or(branch.strip_prefix("Else"))?;
            Some((number.parse().ok()?, name.strip_prefix(SHOWN)?.to_string()))
        };
        Tests(words.windows(3).filter_map(test).collect())
    }

    /// A text of a proof over these tests, with the names that others have for the same tests.
    pub fn renamed(&self, others: &Tests, proof: &str) -> String {
        let mut renamed = String::new();
        // Whether what follows is said of the opposite of a test, which is now the test.
        let mut turned = false;
        for word in proof.split_inclusive(|c| !is_of_name(c)) {
            match self.in_word(others, word) {
                Some((before, old, new, rest)) => {
                    turned = old.starts_with(OPPOSITE) && !new.starts_with(OPPOSITE);
                    renamed += &[before, new, rest].concat();
                }
                None if turned => {
                    renamed += &word.replace(OF_TEST, "");
                    turned = false;
                }
                None => renamed += word,
            }
        }
        renamed
    }

    /// The parts of a word that has the name of a test: what stands before it, the name, the one that others have,
    /// and what stands behind it.
    fn in_word<'a>(
        &'a self,
        others: &'a Tests,
        word: &'a str,
    ) -> Option<(&'a str, &'a str, &'a str, &'a str)> {
        let ends = BEFORE_TEST.iter().filter_map(|before| {
            let at = word.find(before)?;
            (at == 0 || before.starts_with('-')).then_some(at + before.len())
        });
        let (before, name) = word.split_at(ends.min()?);
        let parts = |(number, old): (&usize, &'a String)| {
            let rest = name.strip_prefix(old.as_str())?;
            let ends = !rest.starts_with(|c| is_of_name(c) && c != '-');
            Some((before, old.as_str(), others.0.get(number)?.as_str(), rest)).filter(|_| ends)
        };
        self.0.iter().filter_map(parts).max_by_key(|(_, old, ..)| old.len())
    }
}

/// Whether a character can stand in a name of a proof between dots.
fn is_of_name(c: char) -> bool {
    c.is_alphanumeric() || c == '_' || c == '-' || c == '\''
}

#[cfg(test)]
mod tests {
    use super::{code_of, function_at, Calls, Edit, Tests, Verdict};

    fn edit(place: &str) -> Edit {
        let text = format!("refused: {place}\nfile: src/lib.rt\nold: a\nnew: b\n");
        Edit::parse("edit", &text).expect("it is right")
    }

    /// An account with these lines.
    fn judged(lines: &[&str]) -> Verdict {
        let account = [lines.join("\n"), "logic=not-proved".to_string()].join("\n");
        edit("page::keys::slot_of").judge(&account)
    }

    /// An account with this error at the place.
    fn judged_error(text: &str) -> Verdict {
        judged(&[&format!("./proofs/keys/slot_of/Answers.antt:10:2: error: {text}")])
    }

    #[test]
    fn an_edit_has_a_place_and_changes_in_src_or_specs() {
        let parse = |text: &str| Edit::parse("edit", text).map(|edit| edit.replacements.len());
        let right = "refused: a::b\nfile: src/a.rt\nold: x\nnew: y\nold: z\nnew:\n";
        assert_eq!(parse(right), Ok(2));
        for wrong in [
            "file: src/a.rt\nold: x\nnew: y\n",
            "refused: a::b\nfile: src/a.rt\n",
            "refused: a::b\nfile: src/a.rt\nnew: y\n",
            "refused: a::b\nfile: src/a.rt\nold: x\nnew: y\nold: z\n",
            "refused: a::b\nfile: proofs/A.antt\nold: x\nnew: y\n",
            "refused: a::b\nfile: src/../proofs/A.antt\nold: x\nnew: y\n",
            "refused: a::b\nfile: ../b/src/a.rt\nold: x\nnew: y\n",
            "refused: a::b\nfile: src/a.rt\nold: x\nnew: y\nold: x\nnew: z\n",
        ] {
            assert!(parse(wrong).is_err(), "{wrong}");
        }
    }

    #[test]
    fn contracts_are_not_run() {
        let source = "ghost use a;\nfn f() -> u8\n    requires b {\n        c {d = 1} ≡ b\n    }\n    ensures* { ⌜ result ≡ a ⌝ }\n    ensures c { result ≡ a }\n{\n    requires_no(1)\n}\n";
        assert_eq!(code_of(source), ["fn f() -> u8", "{", "    requires_no(1)", "}"]);
        let in_trait = "    fn f()\n        ensures { result ≡ a };\n    fn g() {}\n";
        assert_eq!(code_of(in_trait), ["    fn f()", "    fn g() {}"]);
    }

    #[test]
    fn functions_by_their_bodies() {
        let function = "// A fn that\npub(crate) fn f<'a>(x: &'a u8) -> u8\n    ensures { b ≡ 1 }\n{\n    c\n}\n";
        let method = "impl D {\n    fn g() {\n        e\n    }\n}\n";
        let source =
            ["const A: u8 = 1;\n", function, method, "fn h()\n{\n    i\n}\nconst C: u8 = 1;\n"]
                .join("\n");
        let around = |text: &str| function_at(&source, source.find(text).expect("it stands there"));
        assert_eq!(around("    c\n"), Some(("f", true)));
        assert_eq!(around("    i\n"), Some(("h", true)));
        assert_eq!(around("b ≡ 1"), Some(("f", false)));
        for text in ["A: u8", "    e\n", "C: u8"] {
            assert_eq!(around(text), None, "{text}");
        }
    }

    #[test]
    fn texts_that_another_edit_brings() {
        let of = |file: &str, old: &str, new: &str| {
            let text = format!("refused: a::b\nfile: src/{file}.rt\nold: {old}\nnew: {new}\n");
            Edit::parse("edit", &text).expect("it is right")
        };
        let edit = of("a", "x / 1", "x / 2");
        assert!(edit.is_clear_of(&of("a", "x / 3", "x / 4")));
        assert!(edit.is_clear_of(&of("b", "x / 2", "x / 4")));
        assert!(!edit.is_clear_of(&of("a", "x / 2", "x / 4")));
        assert!(!of("a", "x / 2", "x / 4").is_clear_of(&edit));
    }

    #[test]
    fn calls_through_others() {
        let source = "// The fn of\nfn a() {\n    b(m::c(1))\n}\npub fn b<'a>(x: &'a u8) {\n    d(x)\n}\nfn c() {}\nfn d() {}\nfn e() {}\n";
        let calls = Calls::of(source);
        for (one, other) in [("k::a", "k::b"), ("k::a", "k::m::c"), ("a", "d"), ("b", "d")] {
            assert!(calls.calls(one, other), "{one} {other}");
        }
        for (one, other) in [("b", "a"), ("b", "c"), ("a", "e"), ("c", "d"), ("a", "a")] {
            assert!(!calls.calls(one, other), "{one} {other}");
        }
        assert!(["k::b", "m::c", "d"].iter().all(|name| calls.any_calls(name)));
        assert!(!["k::a", "e"].iter().any(|name| calls.any_calls(name)));
    }

    #[test]
    fn failures_elsewhere() {
        let edit = edit("page::keys::slot_of");
        let fails = |text: &str| Edit::fails_elsewhere(&[&edit], text);
        let of =
            |path: &str, text: &str| format!("./proofs/{path}/Answers.antt:1:2: error: {text}");
        let consequence =
            "1 declaration that depends on `split`, which was rejected, was not checked: returns";
        let fact = "`returns`: the two types first differ where";
        assert!(!fails(&of("keys/slot_of", fact)));
        assert!(!fails(&of("keys/page_of", consequence)));
        assert!(fails(&of("keys/page_of", fact)));
        assert!(fails(&of("keys/slot_of/inner", fact)));
        let search = |function: &str| {
            format!("fn page::keys::{function}: no proof: expected answers in ./proofs/keys/{function}/Answers.antt; `search` did not prove `returns`")
        };
        assert!(!fails(&search("slot_of")));
        assert!(fails(&search("page_of")));
        assert!(!fails(
            "fn page::keys::page_of: no proof: it calls `page::keys::slot_of`, which is not proved"
        ));
    }

    #[test]
    fn facts_that_fail() {
        for text in [
            "`returns`: as printed, the two types first differ where one has `a`\n  and the other `b`",
            "`returns`: computed as far as they go, the two types differ only where one has `2`",
            "`rule`: computed as far as they go, the two types are `Prim.⊥` (expected) and `Prim.Unit`",
            "`loop-i-init`: expected type `◌≡◌ {A = ℕ} 0 16`, but this has type `◌≡◌ {A = ℕ} 0 0`",
            "`returns`: `take 1`\n  ≟ `take 2`\n  does not hold (this comparison, made here, had to wait)",
            "`add`: `omega`: the goal does not follow from what it read. All of that holds, and ..",
            "`add`: `omega`: the part `.fits` of the goal does not follow from what it read. All ..",
            "`returns`: `search`: no proof of `Post`",
            "`returns`: give a proof of that as the last argument, `rw L t`",
        ] {
            assert!(matches!(judged_error(text), Verdict::Refused(_)), "{text}");
        }
        let line = "fn page::keys::slot_of: no proof: expected answers in ./proofs/keys/slot_of/Answers.antt; \
                    `search` did not prove `returns`, `add-requires`";
        let said = Verdict::Refused("`search` did not prove `returns`, `add-requires`".to_string());
        assert_eq!(judged(&[line]), said);
    }

    #[test]
    fn a_run_decides_where_the_words_do_not() {
        let words = judged_error("`returns`: `rw`: no occurrence of the path's left endpoint");
        assert!(matches!(words, Verdict::Useless(_)));
        assert!(matches!(words.clone().with_run(Some(true)), Verdict::Refused(_)));
        assert!(matches!(words.clone().with_run(Some(false)), Verdict::NotAFact(_)));
        assert!(matches!(words.with_run(None), Verdict::NotAFact(_)));
        let fact = Verdict::Refused("`returns`: the two types first differ where".to_string());
        assert_eq!(fact.clone().with_run(Some(true)), fact);
        assert_eq!(fact.clone().with_run(None), fact);
        assert!(matches!(fact.with_run(Some(false)), Verdict::NotAFact(_)));
        assert_eq!(Verdict::Proved.with_run(Some(false)), Verdict::Proved);
    }

    #[test]
    fn a_proof_that_does_not_fit_is_no_fact() {
        for text in [
            "`copy-requires`: `split` is not in scope",
            "`returns`: expected type `goal.returns`, but this has type `goal.copy-requires`",
            "`invariant-loop-i`: computed as far as they go, the two types are `ℕ → Type 0` (expected) and ..",
            "`decreases-loop-i`: computed as far as they go, the two types differ only where one has `a`",
        ] {
            assert!(matches!(judged_error(text), Verdict::NotAFact(_)), "{text}");
        }
        let line = "fn page::keys::slot_of: no proof: expected invariants in ./proofs/keys/slot_of/Invariants.antt";
        assert!(matches!(judged(&[line]), Verdict::NotAFact(_)));
        let scope = "./specs/Key.antt:3:1: error: `key_slot`: `+` is not in scope";
        let fact =
            "./proofs/keys/slot_of/Answers.antt:1:2: error: `returns`: the two types first differ \
                    where one has `a`";
        assert!(matches!(judged(&[scope, fact]), Verdict::NotAFact(_)));
    }

    #[test]
    fn a_file_of_proofs_as_a_place() {
        let fails = "./proofs/Finish.antt:1:2: error: `end`: the two types first differ where\nlogic=not-proved";
        for place in ["Finish.antt", "proofs/Finish.antt", "guarantee/proofs/Finish.antt"] {
            assert!(matches!(edit(place).judge(fails), Verdict::Refused(_)), "{place}");
        }
        assert_eq!(edit("guarantee/proofs/Start.antt").judge(fails), Verdict::Proved);
    }

    #[test]
    fn names_that_are_gone() {
        let goal = "`returns-then-n-eq0`: `goal.returns-then-n-eq0`: module `Rattle.page.proofs.keys.slot_of.Goals` \
                    has no `returns-then-n-eq0` that can be named from here (names in it that begin alike: `returns`)";
        let field = "`returns`: record `Rattle.page.proofs.keys.slot_of.Lts.Else1` has no field `if-n-eq0` \
                     (nearest: .if-n-eq1)\n  the fields that can be named here are `before`, `if-n-eq1`";
        for text in [goal, field] {
            let verdict = judged_error(text);
            assert!(matches!(verdict, Verdict::Renamed(_)), "{text}");
            assert!(!verdict.counts_if_run());
            assert!(matches!(verdict.with_run(None), Verdict::NotAFact(_)));
        }
        let file = edit("proofs/Keys.antt");
        let account = format!("./proofs/Keys.antt:1:2: error: {field}\nlogic=not-proved");
        assert!(matches!(file.judge(&account), Verdict::NotAFact(_)));
    }

    #[test]
    fn tests_by_their_numbers() {
        let steps = |first: &str, second: &str| {
            Tests::of_steps(&format!(
                "pub record Then1 : Type 0 where\n  pub before : Start\n  pub if-{first} : Own-Then1 before\n\
                 pub record Else1 : Type 0 where\n  pub if-{first} : Step-Else1 before\n  pub if-{second} :\n    \
                 Own-Then2 before\n  pub calls : After-copy\n"
            ))
        };
        let (old, new) = (steps("n-eq0", "at-n"), steps("n-lt4", "n-eq0"));
        let proof = "pub returns-then-n-eq0 : goal.returns-then-n-eq0\nreturns-then-n-eq0 c = c.if-n-eq0.true, \
                     c.if-at-n.false, if-n-eq04, copy-then-at-n-2, returns-else-at-n, n-eq0, c.at-n\n";
        let expected = "pub returns-then-n-lt4 : goal.returns-then-n-lt4\nreturns-then-n-lt4 c = c.if-n-lt4.true, \
                        c.if-n-eq0.false, if-n-eq04, copy-then-n-eq0-2, returns-else-n-eq0, n-eq0, c.at-n\n";
        assert_eq!(old.renamed(&new, proof), expected);
        assert_eq!(old.renamed(&old, proof), proof);
        assert_eq!(old.renamed(&Tests::default(), proof), proof);
    }

    #[test]
    fn tests_of_the_opposite() {
        let steps = |name: &str| Tests::of_steps(&format!("pub if-{name} : Own-Then1 before"));
        let (not, empty) = (steps("not-empty"), steps("empty"));
        let proof = "not-true c.empty.result c.if-not-empty.true-raw, c.x.true-raw";
        let turned = "not-true c.empty.result c.if-empty.true, c.x.true-raw";
        assert_eq!(not.renamed(&empty, proof), turned);
        assert_eq!(empty.renamed(&not, "c.if-empty.true"), "c.if-not-empty.true");
    }

    #[test]
    fn errors_elsewhere_are_not_at_the_place() {
        let other =
            "./proofs/keys/page_of/Answers.antt:1:2: error: `returns`: the two types first differ \
                     where one has `a`";
        let here = "./proofs/keys/slot_of/Answers.antt:1:2: error: 2 declarations that depend on `split`, which \
                    was not admitted, were not checked: returns, add-requires";
        let calls =
            "fn page::keys::slot_of: no proof: it calls `page::keys::page_of`, which is not proved";
        assert_eq!(judged(&[other]), Verdict::Proved);
        assert_eq!(judged(&[other, here]), Verdict::Proved);
        assert_eq!(judged(&[other, calls]), Verdict::Proved);
        assert_eq!(edit("page::keys::slot_of").judge("logic=proved functions=55"), Verdict::Proved);
        assert_eq!(edit("page::keys::slot_of").judge("rattle: cannot read it"), Verdict::Unchecked);
    }
}
