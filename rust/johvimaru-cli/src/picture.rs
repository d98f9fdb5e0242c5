//! The picture of an image: a row for each block, a cell for each page, and the keys by letter. Two images
//! are drawn with marks at what has changed between them.

mod cells;
mod svg;
mod terminal;
mod width;
mod words;

use crate::args::MapOptions;
use crate::changes::Changes;
use crate::image_file::{at, name};
use crate::seen::SeenFile;
use crate::Problem;
use cells::{Cells, Marks};
use std::env;
use std::ffi::OsString;
use std::fs;
use std::io::{self, IsTerminal, Write};
use std::iter;
use std::path::Path;

pub use cells::Shown;

/// Whether standard output takes colours.
fn colours() -> bool {
    takes_colours(io::stdout().is_terminal(), env::var_os("NO_COLOR"))
}

/// A terminal does, unless `NO_COLOR` is set and not empty.
fn takes_colours(is_terminal: bool, no_color: Option<OsString>) -> bool {
    is_terminal && no_color.is_none_or(|value| value.is_empty())
}

/// One image, or two and what is between them.
struct Drawing<'a> {
    cells: Vec<Cells<'a>>,
    changes: Option<Changes>,
}

impl<'a> Drawing<'a> {
    /// Looks at one image, or compares an older one with a newer one.
    fn of(shown: &'a [Shown<'a>]) -> Drawing<'a> {
        let changes = match shown {
            [old, new] => Some(Changes::between(old.seen, new.seen)),
            _ => None,
        };
        let marks = changes.iter().flat_map(Marks::of).chain(iter::repeat_with(Marks::default));
        let cells = shown.iter().zip(marks).map(|(shown, marks)| Cells::of(shown, marks));
        Drawing { cells: cells.collect(), changes }
    }
}

/// The picture as standard output takes it.
pub fn text(shown: &[Shown]) -> String {
    terminal::text(&Drawing::of(shown), colours(), width::of_output())
}

/// Draws what `map` is asked for. An image that mount refuses is drawn too, and then the refusal is told.
pub fn run(path: &Path, options: &MapOptions, out: &mut dyn Write) -> Result<(), Problem> {
    let files = match &options.before_after {
        None => vec![("image", SeenFile::there(path)?)],
        Some((before, after)) => {
            vec![("before:", SeenFile::there(before)?), ("after:", SeenFile::there(after)?)]
        }
    };
    let shown = files.iter().map(|(words, file)| {
        let title = format!("{words} {}", file.name());
        Shown { title, seen: &file.seen }
    });
    let shown: Vec<Shown> = shown.collect();
    match &options.svg {
        Some(svg) => put(svg, &svg::svg(&Drawing::of(&shown)))?,
        None => out.write_all(text(&shown).as_bytes())?,
    }
    files.iter().try_for_each(|(_, file)| file.refused())
}

/// Writes the SVG file, over nothing but another picture.
fn put(path: &Path, text: &str) -> Result<(), Problem> {
    match fs::read(path) {
        Ok(old) if !old.starts_with(b"<svg ") => {
            let words = "is there already and is no picture; name another file";
            return Err(Problem::System(format!("{} {words}", name(path))));
        }
        _ => {}
    }
    fs::write(path, text).map_err(|error| at(path, error))
}

/// The start and the end of a text that is too long.
fn shortened(text: &str, room: usize) -> String {
    const BETWEEN: &str = "...";
    let length = text.chars().count();
    if length <= room {
        return text.into();
    }
    let kept = room.saturating_sub(BETWEEN.len());
    let (start, end) = (kept / 3, kept - kept / 3);
    text.chars().take(start).chain(BETWEEN.chars()).chain(text.chars().skip(length - end)).collect()
}

/// A text in lines of at most so many letters, broken between words. Those after the first are set in.
fn broken(text: &str, room: usize) -> Vec<String> {
    let mut lines = vec![String::new()];
    for word in text.split(' ') {
        let last = lines.len() - 1;
        let length = lines[last].chars().count();
        if length > 0 && length + 1 + word.chars().count() > room {
            lines.push(format!("  {word}"));
        } else {
            lines[last] += if length > 0 { " " } else { "" };
            lines[last] += word;
        }
    }
    lines
}

#[cfg(test)]
mod tests {
    use super::*;
    use crate::seen::Seen;
    use johvimaru::{Noise, Offset, Refusal, Store};

    #[test]
    fn colours_only_on_a_terminal_and_not_against_no_color() {
        assert!(takes_colours(true, None) && takes_colours(true, Some("".into())));
        assert!(!takes_colours(true, Some("1".into())));
        assert!(!takes_colours(false, None));
    }

    /// Without their colours the pictures are the same.
    #[test]
    fn colours_stand_around_the_letters() -> Result<(), Refusal> {
        let mut store = Store::format(vec![0; 32_768], Noise::new(&[1; 7_168])?)?;
        store.write(Offset::new(13, 5)?, &[b'x'; 224])?;
        let seen = Seen::of(store.into_image());
        let shown = [Shown { title: "one".into(), seen: &seen }];
        let drawing = Drawing::of(&shown);
        let [plain, coloured] = [false, true].map(|c| terminal::text(&drawing, c, None));
        assert!(!plain.contains('\x1b'));
        assert!(coloured.contains("\x1b[97;48;5;25mK0K0K0"));
        assert!(coloured.contains("\x1b[30;48;5;214m13\x1b[0m"));
        // Each code goes from its ESC to the next m.
        let mut parts = coloured.split('\x1b');
        let first = parts.next().unwrap_or("").to_string();
        let letters = |part: &str| part.split_once('m').map_or("", |(_, rest)| rest).to_string();
        let without = first + &parts.map(letters).collect::<String>();
        let trimmed = |text: &str| text.lines().map(str::trim_end).collect::<Vec<_>>().join("\n");
        assert_eq!(trimmed(&without), trimmed(&plain));
        Ok(())
    }

    #[test]
    fn texts_that_are_too_long() {
        assert_eq!(broken("of 16 keys none is left", 12), ["of 16 keys", "  none is", "  left"]);
        assert_eq!(broken("of 16 keys", 10), ["of 16 keys"]);
        assert_eq!(shortened("recorder.img", 12), "recorder.img");
        assert_eq!(shortened("before: a/recorder.img", 12), "bef...er.img");
    }
}
