//! The functions of the sources in Rattle: the body of each, and which others it calls.
//!
//! A function is named by its module, as in `page::columns::put_at`, one of a type by the type, as in
//! `page::Frame::node`. Its header and contract are apart from its body; comments, and what stands in
//! strings, are in neither.

use std::collections::{BTreeMap, BTreeSet, VecDeque};
use std::path::Path;

/// Words with which a contract's clauses begin.
const CLAUSES: [&str; 2] = ["requires", "ensures"];

/// Words that can stand before a parenthesis and name no function.
const KEYWORDS: [&str; 9] = ["as", "else", "for", "if", "in", "let", "match", "return", "while"];

/// What stands before `fn` where a function is exported, without what the quotes hold.
const EXPORTED: [&str; 3] = ["extern", "\"", "\""];

/// What the language and its library have to call on a value, none of which divides by what is not a constant.
const OWN_METHODS: [&str; 9] = [
    "len",
    "enumerate",
    "fill",
    "first_chunk_mut",
    "iter",
    "split_at_mut",
    "step_by",
    "to_le_bytes",
    "unwrap",
];

/// The signs of a division, alone or before `=`.
const DIVISIONS: [&str; 2] = ["/", "%"];

/// Files that stand for their crate as a whole.
const CRATE_FILES: [&str; 2] = ["lib", "main"];

/// A function of the sources.
#[derive(Clone, Debug, Default, PartialEq, Eq)]
pub struct Function {
    /// The module whose file has it.
    module: String,
    /// The words and signs of its body.
    body: Vec<String>,
    /// The functions that it names.
    pub calls: BTreeSet<String>,
    /// What it calls that is no function of the sources.
    pub unknown: BTreeSet<String>,
    /// Whether its name outside is the last word of its name alone.
    pub is_exported: bool,
}

impl Function {
    /// The signs of a division in its body.
    pub fn divisions(&self) -> usize {
        self.body.iter().filter(|word| DIVISIONS.contains(&word.as_str())).count()
    }
}

/// All functions, by name.
pub struct Sources {
    functions: BTreeMap<String, Function>,
}

impl Sources {
    /// Those of crates/*/src, below the top of the repository.
    pub fn of(top: &Path) -> Sources {
        let mut texts = Vec::new();
        for name in names_in(&top.join("crates")) {
            let folder = top.join("crates").join(&name).join("src");
            for file in names_in(&folder) {
                if let Some(stem) = file.strip_suffix(".rt") {
                    let text = std::fs::read_to_string(folder.join(&file)).expect("it is a text");
                    texts.push((module(&name, stem), text));
                }
            }
        }
        let texts = texts.iter().map(|(module, text)| (module.as_str(), text.as_str()));
        Sources::of_texts(&texts.collect::<Vec<_>>())
    }

    /// Those of texts, each with the name of its module.
    pub fn of_texts(texts: &[(&str, &str)]) -> Sources {
        let crates: BTreeSet<&str> = texts.iter().map(|(module, _)| first(module)).collect();
        let modules: Vec<Module> =
            texts.iter().map(|(name, text)| Module::parse(name, text, &crates)).collect();
        let mut functions = BTreeMap::new();
        for module in &modules {
            for (name, body, is_exported) in &module.functions {
                let (module, is_exported) = (module.name.clone(), *is_exported);
                let (body, others) = (body.clone(), Function::default());
                let function = Function { module, body, is_exported, ..others };
                let last = functions.insert(name.clone(), function);
                assert_eq!(last, None, "{name} is there twice");
            }
        }
        let names: BTreeSet<String> = functions.keys().cloned().collect();
        for module in &modules {
            for (name, body, _) in &module.functions {
                let function = functions.get_mut(name).expect("it was put there");
                (function.calls, function.unknown) = module.calls(body, &names);
            }
        }
        Sources { functions }
    }

    /// A function by its name.
    pub fn function(&self, name: &str) -> Option<&Function> {
        self.functions.get(name)
    }

    /// The functions of a module.
    pub fn in_module(&self, module: &str) -> Vec<(&str, &Function)> {
        let all = self.functions.iter().map(|(name, function)| (name.as_str(), function));
        all.filter(|(_, function)| function.module == module).collect()
    }

    /// The functions that these reach by calls, themselves among them.
    pub fn reached(&self, roots: &[&str]) -> BTreeSet<String> {
        self.closure(roots, |name| self.functions[name].calls.iter().cloned().collect())
    }

    /// The functions that reach these by calls, themselves among them.
    pub fn reaching(&self, roots: &[&str]) -> BTreeSet<String> {
        let callers = |name: &str| {
            let calls = |(_, function): &(&String, &Function)| function.calls.contains(name);
            self.functions.iter().filter(calls).map(|(name, _)| name.clone()).collect()
        };
        self.closure(roots, callers)
    }

    /// These functions, and what `next` gives of each, of each of those, and so on.
    fn closure(&self, roots: &[&str], next: impl Fn(&str) -> Vec<String>) -> BTreeSet<String> {
        let mut found = BTreeSet::new();
        let mut open: VecDeque<String> = roots.iter().map(|name| name.to_string()).collect();
        while let Some(name) = open.pop_front() {
            assert!(self.functions.contains_key(&name), "the sources have no {name}");
            if found.insert(name.clone()) {
                open.extend(next(&name));
            }
        }
        found
    }
}

/// The names in a folder, in order; none where there is no such folder.
fn names_in(folder: &Path) -> Vec<String> {
    let entries = std::fs::read_dir(folder).into_iter().flatten().flatten();
    let mut names: Vec<String> =
        entries.filter_map(|entry| entry.file_name().into_string().ok()).collect();
    names.sort();
    names
}

/// The module of a file in a crate.
fn module(name: &str, stem: &str) -> String {
    match CRATE_FILES.contains(&stem) {
        true => name.to_string(),
        false => format!("{name}::{stem}"),
    }
}

/// The first word of a name.
fn first(name: &str) -> &str {
    name.split("::").next().unwrap_or(name)
}

/// A text without comments, and with nothing between the quotes of strings and characters.
fn plain(text: &str) -> String {
    let chars: Vec<char> = text.chars().collect();
    let mut plain = String::new();
    let mut at = 0;
    while at < chars.len() {
        match (chars[at], chars.get(at + 1)) {
            ('/', Some('/')) => at = end_of_line(&chars, at),
            ('"', _) => {
                plain += "\"\"";
                at = end_of_string(&chars, at + 1);
            }
            ('\'', Some(&next)) if next == '\\' || chars.get(at + 2) == Some(&'\'') => {
                plain += "''";
                at = if next == '\\' { at + 4 } else { at + 3 };
            }
            (other, _) => {
                plain.push(other);
                at += 1;
            }
        }
    }
    plain
}

/// Where the line ends that goes on at a place.
fn end_of_line(chars: &[char], from: usize) -> usize {
    (from..chars.len()).find(|&at| chars[at] == '\n').unwrap_or(chars.len())
}

/// The place after a string that goes on at one.
fn end_of_string(chars: &[char], from: usize) -> usize {
    let mut at = from;
    while at < chars.len() && chars[at] != '"' {
        at += if chars[at] == '\\' { 2 } else { 1 };
    }
    at + 1
}

/// Whether a character can stand in a name or a number.
fn is_of_word(c: char) -> bool {
    c.is_alphanumeric() || c == '_'
}

/// The words and signs of a plain text: names, numbers, `::`, `..`, and any other sign alone.
fn words(text: &str) -> Vec<String> {
    let mut words = Vec::new();
    let mut rest = text.trim_start();
    while let Some(c) = rest.chars().next() {
        let length = match c {
            c if is_of_word(c) => rest.find(|c| !is_of_word(c)).unwrap_or(rest.len()),
            _ if rest.starts_with("::") || rest.starts_with("..") => 2,
            c => c.len_utf8(),
        };
        words.push(rest[..length].to_string());
        rest = rest[length..].trim_start();
    }
    words
}

/// The place after the brace that closes the one at a place.
fn after_braces(words: &[String], open: usize) -> usize {
    assert_eq!(words[open], "{", "a brace opens here");
    let mut depth = 0;
    for (at, word) in words.iter().enumerate().skip(open) {
        match word.as_str() {
            "{" => depth += 1,
            "}" => depth -= 1,
            _ => (),
        }
        if depth == 0 {
            return at + 1;
        }
    }
    panic!("a brace is not closed");
}

/// The place after the clause that begins at a place: it may have a star and a name before its braces.
fn after_clause(words: &[String], clause: usize) -> usize {
    let is_star = words[clause + 1] == "*";
    let is_named = is_name(&words[clause + 1 + usize::from(is_star)]);
    after_braces(words, clause + 1 + usize::from(is_star) + usize::from(is_named))
}

/// Whether a word is a name, and no number.
fn is_name(word: &str) -> bool {
    word.starts_with(|c: char| c.is_alphabetic() || c == '_')
}

/// A file of the sources: what it uses under which name, and its functions with their bodies and whether they
/// are exported.
struct Module {
    name: String,
    crates: BTreeSet<String>,
    uses: BTreeMap<String, String>,
    functions: Vec<(String, Vec<String>, bool)>,
}

impl Module {
    fn parse(name: &str, text: &str, crates: &BTreeSet<&str>) -> Module {
        let words = words(&plain(text));
        let crates = crates.iter().map(|name| name.to_string()).collect();
        let (uses, functions) = (BTreeMap::new(), Vec::new());
        let mut module = Module { name: name.to_string(), crates, uses, functions };
        let mut owner: Option<(String, usize)> = None;
        let mut at = 0;
        while at < words.len() {
            if owner.as_ref().is_some_and(|(_, end)| *end <= at) {
                owner = None;
            }
            at = match words[at].as_str() {
                "ghost" => end_of_use(&words, at),
                "use" => module.parse_use(&words, at),
                "impl" => {
                    let open = find(&words, at, &["{"]);
                    owner = Some((module.resolve(&words[at + 1]), after_braces(&words, open)));
                    open + 1
                }
                "fn" => module.parse_function(&words, at, owner.as_ref().map(|(name, _)| name)),
                _ => at + 1,
            };
        }
        module
    }

    /// Takes a use in, and gives the place after it.
    fn parse_use(&mut self, words: &[String], at: usize) -> usize {
        let end = end_of_use(words, at);
        self.take_use("", &words[at + 1..end - 1]);
        end
    }

    /// Takes in what a use names below a path: one thing, or in braces several.
    fn take_use(&mut self, above: &str, words: &[String]) {
        if let Some(open) = words.iter().position(|word| word == "{") {
            let above = above.to_string() + &words[..open].concat();
            parts(&words[open + 1..words.len() - 1])
                .into_iter()
                .for_each(|part| self.take_use(&above, part));
            return;
        }
        let (path, name) = match words {
            [path @ .., word, name] if word == "as" => (path.concat(), Some(name.as_str())),
            [path] if path == "self" => (String::new(), None),
            path => (path.concat(), None),
        };
        let path = above.to_string() + &path;
        let path = path.trim_end_matches("::");
        let name = name.or(path.rsplit("::").next()).unwrap_or(path).to_string();
        self.uses.insert(name, self.resolve(path));
    }

    /// Takes a function in, and gives the place after it.
    fn parse_function(&mut self, words: &[String], at: usize, owner: Option<&String>) -> usize {
        let mut next = find(words, at, &["{", CLAUSES[0], CLAUSES[1]]);
        while CLAUSES.contains(&words[next].as_str()) {
            next = after_clause(words, next);
        }
        let end = after_braces(words, next);
        let name = format!("{}::{}", owner.unwrap_or(&self.name), words[at + 1]);
        let is_exported = words[..at].ends_with(&EXPORTED.map(String::from));
        self.functions.push((name, words[next..end].to_vec(), is_exported));
        end
    }

    /// The name from its crate on, of a name as it stands here.
    fn resolve(&self, path: &str) -> String {
        let (begin, rest) = path.split_once("::").map_or((path, None), |(a, b)| (a, Some(b)));
        let whole = match (begin, self.uses.get(begin)) {
            ("crate", _) => first(&self.name).to_string(),
            (_, Some(used)) => used.clone(),
            (begin, None) if rest.is_some() && self.crates.contains(begin) => begin.to_string(),
            (begin, None) => format!("{}::{begin}", self.name),
        };
        rest.map_or(whole.clone(), |rest| format!("{whole}::{rest}"))
    }

    /// The functions that a body names, of all that there are, and what else it calls.
    fn calls(
        &self,
        body: &[String],
        names: &BTreeSet<String>,
    ) -> (BTreeSet<String>, BTreeSet<String>) {
        let (mut calls, mut unknown) = (BTreeSet::new(), BTreeSet::new());
        let mut at = 0;
        while at < body.len() {
            let end = end_of_path(body, at);
            let is_call = body.get(end).is_some_and(|word| word == "(");
            let path = body[at..end].concat();
            let last = body[end - 1].as_str();
            let found: Vec<&String> = if at > 0 && body[at - 1] == "." {
                names.iter().filter(|name| is_call && is_method(name, last)).collect()
            } else {
                names.get(&self.resolve(&path)).into_iter().collect()
            };
            let is_ours = is_name(last) && !last.starts_with(char::is_uppercase);
            let is_own = [&KEYWORDS[..], &OWN_METHODS[..]].concat().contains(&last);
            if found.is_empty() && is_call && is_ours && !is_own {
                unknown.insert(path);
            }
            calls.extend(found.into_iter().cloned());
            at = end;
        }
        (calls, unknown)
    }
}

/// Whether a function is one of a type, with this last word.
fn is_method(name: &str, last: &str) -> bool {
    let mut words = name.rsplit("::");
    words.next() == Some(last) && words.next().is_some_and(|of| of.starts_with(char::is_uppercase))
}

/// The place after the name that begins at a place, with the modules before it; after a sign, the next place.
fn end_of_path(words: &[String], at: usize) -> usize {
    let mut end = at + 1;
    while is_name(&words[at])
        && words.get(end).is_some_and(|word| word == "::")
        && words.get(end + 1).is_some_and(|word| is_name(word))
    {
        end += 2;
    }
    end
}

/// What commas outside of braces part.
fn parts(words: &[String]) -> Vec<&[String]> {
    let mut depth = 0;
    let is_end = |word: &String| {
        depth += i32::from(word == "{") - i32::from(word == "}");
        word == "," && depth == 0
    };
    words.split(is_end).filter(|part| !part.is_empty()).collect()
}

/// The first place from one on that has one of these words.
fn find(words: &[String], from: usize, those: &[&str]) -> usize {
    let is_there = |at: &usize| those.contains(&words[*at].as_str());
    (from..words.len()).find(is_there).expect("a function has a body")
}

/// The place after the end of a use.
fn end_of_use(words: &[String], from: usize) -> usize {
    find(words, from, &[";"]) + 1
}

#[cfg(test)]
mod tests {
    use super::{plain, words, Sources};

    fn names(names: &[&str]) -> Vec<String> {
        names.iter().map(|name| name.to_string()).collect()
    }

    #[test]
    fn comments_and_quotes_are_taken_out() {
        let text = "a // b / c\n\"d // % \\\" e\" b'/' '\\n' &'a [u8]";
        assert_eq!(plain(text), "a \n\"\" b'' '' &'a [u8]");
    }

    #[test]
    fn words_are_names_numbers_and_signs() {
        let found = words("x::put4(&a[0..n_1], 10_000) /= b");
        let signs = ["x", "::", "put4", "(", "&", "a", "[", "0", "..", "n_1", "]", ",", "10_000"];
        assert_eq!(found, names(&[&signs[..], &[")", "/", "=", "b"]].concat()));
    }

    #[test]
    fn calls_are_found_under_the_names_of_their_modules() {
        let page = "use crate::{Frame, words::{self, three as drei}};\n\
            impl Frame { pub fn of(self) -> u32 ensures* { old / new } { 1 } }\n\
            fn local<'a>(x: &'a [u8]) -> u32 { words::two(x) + drei(x) }\n\
            pub fn all(x: &[u8]) -> u32\n    requires { {x} ≡ x % 2 }\n    ensures low { 1 }\n\
            {\n    if (x.len() < 3) { return Frame::of(x); }\n    local(&x[1..local(x)])\n}\n";
        let words =
            "pub fn two(x: &[u8]) -> u32 { 2 }\npub fn three(x: &[u8]) -> u32 { other(3) }\n";
        let main = "use page::columns;\nghost use Rattle.lib.fn.{a};\n#[unsafe(no_mangle)]\n\
            pub extern \"C\" fn out(f: Frame) -> u32 { columns::all(f) + f.of() }\n";
        let texts = [("page::columns", page), ("page::words", words), ("recorder", main)];
        let sources = Sources::of_texts(&texts);
        let calls = |name| {
            let function = sources.function(name).expect("it is there");
            function.calls.iter().map(String::as_str).collect::<Vec<_>>()
        };
        assert_eq!(calls("page::columns::local"), ["page::words::three", "page::words::two"]);
        assert_eq!(calls("page::columns::all"), ["page::Frame::of", "page::columns::local"]);
        assert_eq!(calls("recorder::out"), ["page::Frame::of", "page::columns::all"]);
        let unknown = &sources.function("page::words::three").expect("it is there").unknown;
        assert!(unknown.iter().eq(["other"]));
        assert!(sources.function("recorder::out").is_some_and(|function| function.is_exported));
        assert!(sources.function("page::columns::all").is_some_and(|of| !of.is_exported));
        let reached = sources.reached(&["page::columns::local"]);
        let expected = ["page::columns::local", "page::words::three", "page::words::two"];
        assert!(reached.iter().eq(expected));
        let reaching = sources.reaching(&["page::words::two"]);
        let expected = ["page::columns::all", "page::columns::local", "page::words::two"];
        assert!(reaching.iter().eq(expected.iter().chain(&["recorder::out"])));
        assert_eq!(sources.in_module("page::columns").len(), 3);
    }

    #[test]
    #[should_panic(expected = "the sources have no page::words::four")]
    fn a_root_must_be_there() {
        let _ = Sources::of_texts(&[("page::words", "")]).reached(&["page::words::four"]);
    }
}
