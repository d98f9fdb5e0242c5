//! The words of the command, sorted by what they are.

use crate::help::Topic;
use johvimaru::Cut;
use std::ffi::{OsStr, OsString};
use std::fmt;
use std::os::unix::ffi::{OsStrExt, OsStringExt};
use std::path::PathBuf;

/// What is wrong with the words, in a sentence.
#[derive(Debug, PartialEq, Eq)]
pub struct Usage(pub(super) String);

impl fmt::Display for Usage {
    fn fmt(&self, f: &mut fmt::Formatter) -> fmt::Result {
        write!(f, "{}\n`johvimaru --help` says what there is.", self.0)
    }
}

pub(super) fn wrong<T>(words: impl Into<String>) -> Result<T, Usage> {
    Err(Usage(words.into()))
}

/// What a subcommand takes.
pub(super) struct Shape {
    pub(super) topic: Topic,
    /// The names of its words, and how many of them are needed.
    pub(super) words: &'static [&'static str],
    pub(super) needed: usize,
    /// Its options with a value, and those without.
    values: &'static [&'static str],
    flags: &'static [&'static str],
}

/// The options of every subcommand.
pub(super) const IMAGE_OPTION: &str = "--image";
pub(super) const HELP: &str = "--help";
/// Prints the help texts as a man page.
pub(super) const MAN: &str = "--man";

impl Shape {
    pub(super) fn of(topic: Topic) -> Shape {
        let at: &[&str] = &["FILE", "OFFSET"];
        let (words, needed, values, flags): (&[&str], usize, &[&str], &[&str]) = match topic {
            Topic::Johvimaru => (&["WHAT"], 0, &[], &["--man"]),
            Topic::Demo | Topic::Version => (&[], 0, &[], &[]),
            Topic::List | Topic::Check => (&[], 0, &[], &["--json"]),
            Topic::Format => (&[], 0, &["--blocks", "--cut"], &["--force"]),
            Topic::Mount | Topic::Commit => (&[], 0, &["--cut"], &[]),
            Topic::Write => (&["FILE", "OFFSET", "TEXT"], 2, &["--cut"], &[]),
            Topic::Read => (at, 2, &[], &["--raw"]),
            Topic::CutOff | Topic::Wipe => (at, 2, &["--cut"], &[]),
            Topic::Gather => (&["BLOCK"], 0, &["--cut"], &["--thinnest"]),
            Topic::Export | Topic::Import => (&["FILE"], 1, &[], &["--text"]),
            Topic::Handover => (&[], 0, &["--keep", "--report"], &["--json", "--force"]),
            Topic::Map => (&[], 0, &["--svg", "--before", "--after"], &[]),
            Topic::Diff => (&["OLD", "NEW"], 2, &[], &["--json"]),
            Topic::BusTrace => (&["CALL"], 1, &[], &[]),
        };
        Shape { topic, words, needed, values, flags }
    }

    /// Whether it is a call with steps: the power can be cut in each of them.
    pub(super) fn has_steps(&self) -> bool {
        self.values.contains(&"--cut")
    }
}

/// The words of a subcommand, sorted by what they are.
#[derive(Default)]
pub(super) struct Words {
    pub(super) plain: Vec<OsString>,
    values: Vec<(&'static str, OsString)>,
    flags: Vec<&'static str>,
}

impl Words {
    /// Sorts the words after the subcommand.
    pub(super) fn sort(shape: &Shape, words: &[OsString]) -> Result<Words, Usage> {
        let mut sorted = Words::default();
        let mut rest = words.iter();
        while let Some(word) = rest.next() {
            let bytes = word.as_bytes();
            if bytes == b"--" {
                sorted.plain.extend(rest.by_ref().cloned());
            } else if bytes.len() > 1 && bytes[0] == b'-' {
                sorted.option(shape, word, &mut rest)?;
            } else {
                sorted.plain.push(word.clone());
            }
        }
        Ok(sorted)
    }

    /// Takes an option, and its value from the same word or from the next.
    fn option<'a>(
        &mut self,
        shape: &Shape,
        word: &OsStr,
        rest: &mut impl Iterator<Item = &'a OsString>,
    ) -> Result<(), Usage> {
        let text = word.to_string_lossy();
        let (name, joined) = match word.as_bytes().iter().position(|&byte| byte == b'=') {
            Some(at) => (&word.as_bytes()[..at], Some(&word.as_bytes()[at + 1..])),
            None => (word.as_bytes(), None),
        };
        let name = if name == b"-h" { HELP.as_bytes() } else { name };
        let named = |names: &[&'static str]| names.iter().copied().find(|n| n.as_bytes() == name);
        if let Some(name) = named(shape.values).or_else(|| named(&[IMAGE_OPTION])) {
            let value = match joined {
                Some(value) => OsString::from_vec(value.to_vec()),
                None => rest.next().cloned().ok_or(Usage(format!("{name} needs a value")))?,
            };
            if self.value(name).is_some() {
                return wrong(format!("{name} is given twice"));
            }
            self.values.push((name, value));
        } else if let Some(name) = named(shape.flags).or_else(|| named(&[HELP])) {
            if joined.is_some() {
                return wrong(format!("{name} takes no value"));
            }
            self.flags.push(name);
        } else {
            return wrong(format!("{} has no option {text}", shape.topic.name()));
        }
        Ok(())
    }

    pub(super) fn value(&self, name: &str) -> Option<&OsString> {
        self.values.iter().find(|(of, _)| *of == name).map(|(_, value)| value)
    }

    pub(super) fn path(&self, name: &str) -> Option<PathBuf> {
        self.value(name).map(PathBuf::from)
    }

    pub(super) fn has(&self, flag: &str) -> bool {
        self.flags.contains(&flag)
    }

    /// The number that stands at a place among the plain words.
    pub(super) fn number(&self, shape: &Shape, at: usize) -> Result<u32, Usage> {
        number(shape.words[at], &self.plain[at])
    }

    /// The cut that is asked for.
    pub(super) fn cut(&self) -> Result<Option<Cut>, Usage> {
        let Some(value) = self.value("--cut") else { return Ok(None) };
        let text = value.to_string_lossy();
        let Some((n, k)) = text.split_once(',') else {
            return wrong(format!("--cut takes two numbers n,k and not {text}"));
        };
        let (n, k) = (number("n of --cut", OsStr::new(n))?, number("k of --cut", OsStr::new(k))?);
        Ok(Some(Cut { n: n.into(), k: k as usize }))
    }
}

/// A number of decimal digits. One that is too large for the library's type is its largest.
pub(super) fn number(name: &str, word: &OsStr) -> Result<u32, Usage> {
    let text = word.to_string_lossy();
    if text.is_empty() || !text.bytes().all(|byte| byte.is_ascii_digit()) {
        return wrong(format!("{name} is a number in decimal digits and not {text:?}"));
    }
    Ok(text.parse().unwrap_or(u32::MAX))
}
