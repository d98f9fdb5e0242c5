//! The man page, made from the help texts.

use crate::help::{self, Topic};

/// The page in the form that `man` takes.
pub fn page() -> String {
    let version = env!("CARGO_PKG_VERSION");
    let mut page = format!(".TH JOHVIMARU 1 \"\" \"johvimaru {version}\" \"\"\n");
    let whole = help::text(Topic::Johvimaru);
    let (first, rest) = whole.split_once('\n').unwrap_or((whole, ""));
    let what = first.split_once(": ").map_or(first, |(_, what)| what);
    page += &format!(".SH NAME\njohvimaru \\- {}\n", spelt(what));
    page += &format!(".SH DESCRIPTION\n{}", as_it_is(rest));
    for topic in Topic::ALL.into_iter().filter(|topic| *topic != Topic::Johvimaru) {
        page += &format!(".SH {}\n", topic.name().to_uppercase());
        page += &as_it_is(help::text(topic));
    }
    page
}

/// Lines that are printed as they are.
fn as_it_is(text: &str) -> String {
    let lines: String = text.trim_matches('\n').lines().map(|line| spelt(line) + "\n").collect();
    format!(".nf\n{lines}.fi\n")
}

/// A line in which nothing is a command of the page's language.
fn spelt(line: &str) -> String {
    let line = line.replace('\\', "\\e").replace('-', "\\-");
    match line.starts_with(['.', '\'']) {
        true => format!("\\&{line}"),
        false => line,
    }
}

#[cfg(test)]
mod tests {
    use super::*;

    #[test]
    fn every_line_of_help_is_in_the_page() {
        let page = page();
        for topic in Topic::ALL {
            let skipped = usize::from(topic == Topic::Johvimaru);
            for line in help::text(topic).lines().skip(skipped) {
                assert!(page.lines().any(|other| other == spelt(line)), "{line}");
            }
        }
        assert!(page.contains("\n.SH NAME\njohvimaru \\- a flash page store that forgets"));
    }

    #[test]
    fn lines_that_would_be_commands() {
        assert_eq!(spelt(".nf"), "\\&.nf");
        assert_eq!(spelt("a\\n --x"), "a\\en \\-\\-x");
    }
}
