//! Checks of the repository's crates, over what an earlier check left.
//!
//! They are those of `rt check`, with the same words for the prover behind it. But rt is not asked: it would offer
//! what a check leaves to the repository's other copies on this machine, and here crates are wrong.

use crate::kit;
use std::fs;
use std::path::{Path, PathBuf};
use std::process::Command;

/// A line of crates.txt.
#[derive(Debug)]
struct Line {
    name: String,
    is_static: bool,
    uses: Vec<String>,
}

/// The crates of a repository, with their libraries as `rt check` has built them there.
#[derive(Debug)]
pub struct Prover {
    kit: PathBuf,
    crates: PathBuf,
    lines: Vec<Line>,
}

impl Prover {
    /// That of the repository at this top.
    pub fn of(top: &Path) -> Result<Prover, String> {
        let path = top.join("crates.txt");
        let text =
            fs::read_to_string(&path).map_err(|error| format!("{}: {error}", path.display()))?;
        let lines = text.lines().filter_map(Line::parse).collect();
        Ok(Prover { kit: kit::top()?, crates: top.join("crates"), lines })
    }

    fn line(&self, name: &str) -> Option<&Line> {
        self.lines.iter().find(|line| line.name == name)
    }

    /// The crates that a crate uses: those of the repository, and those of the toolchain.
    fn uses(&self, name: &str) -> (Vec<&str>, Vec<&str>) {
        let uses = self.line(name).into_iter().flat_map(|line| &line.uses).map(String::as_str);
        uses.partition(|name| self.line(name).is_some())
    }

    /// The crates of the repository that it reaches, each after those that it uses.
    fn below(&self, name: &str) -> Vec<&str> {
        let mut found: Vec<&str> = Vec::new();
        for name in self.uses(name).0 {
            for name in self.below(name).into_iter().chain([name]) {
                if !found.contains(&name) {
                    found.push(name);
                }
            }
        }
        found
    }

    /// A check of a crate that stands in this folder, over what an earlier one left in another, with more words.
    /// Gives what the prover says.
    pub fn check(
        &self,
        name: &str,
        folder: &Path,
        left: &Path,
        words: &[String],
    ) -> Result<String, String> {
        let mut rattle = Command::new(self.kit.join("bin/rattle"));
        let root = if folder.join("src/main.rt").exists() { "src/main.rt" } else { "src/lib.rt" };
        rattle.args(["check", "--crate-name", name, root]);
        let library = |name: &str, path: PathBuf| format!("{name}={}", path.display());
        let of_kit = |name: &str| library(name, self.kit.join(format!("rlibs/{name}.rlib")));
        let built = |name: &str| self.crates.join(format!("{name}/out/rlib"));
        let (own, of_kits) = self.uses(name);
        for name in ["std"].into_iter().chain(of_kits) {
            rattle.arg("--extern").arg(of_kit(name));
        }
        rattle.arg("-L").arg(library("dependency", self.kit.join("rlibs")));
        for name in own {
            rattle.arg("--extern").arg(library(name, built(name).join(format!("{name}.rlib"))));
        }
        for name in self.below(name) {
            rattle.arg("-L").arg(library("dependency", built(name)));
        }
        rattle.arg("--antt-project").arg(self.kit.join("rattle/logic/antt-project.json"));
        rattle.arg("--logic-built").arg(self.kit.join("logic_built"));
        rattle.args(["--jobs", "1", "--links", &format!("{name}=")]);
        if self.line(name).is_some_and(|line| line.is_static) {
            rattle.args(["--crate-type", "staticlib"]);
        }
        rattle.arg("--incremental").arg(left).args(words).current_dir(folder);
        let output = rattle.output().map_err(|error| format!("rattle cannot be run: {error}"))?;
        let said = [output.stdout, output.stderr].concat();
        Ok(String::from_utf8_lossy(&said).into_owned())
    }
}

impl Line {
    /// `NAME: LIBRARY ..` or `NAME staticlib: LIBRARY ..`, and none of another line.
    fn parse(line: &str) -> Option<Line> {
        let (head, uses) = line.split('#').next()?.split_once(':')?;
        let mut words = head.split_whitespace();
        let name = words.next()?.to_string();
        let uses = uses.split_whitespace().map(str::to_string).collect();
        Some(Line { name, is_static: words.any(|word| word == "staticlib"), uses })
    }
}

#[cfg(test)]
mod tests {
    use super::{Line, Prover};

    #[test]
    fn crates_in_the_order_of_their_uses() {
        let text =
            "# One line: each\nbase:\npage: base io\nstore: page base\nffi staticlib: store page\n";
        let lines = text.lines().filter_map(Line::parse).collect();
        let prover = Prover { kit: "".into(), crates: "".into(), lines };
        assert_eq!(prover.below("ffi"), ["base", "page", "store"]);
        assert_eq!(prover.below("base"), [""; 0]);
        assert_eq!(prover.uses("page"), (vec!["base"], vec!["io"]));
        assert!(prover.lines.iter().all(|line| line.is_static == (line.name == "ffi")));
    }
}
