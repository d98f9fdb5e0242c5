//! The cells of the picture, and the elements of the file.

use super::super::cells::{Key, Kind};
use super::{Layout, KEY_CELL};
use johvimaru::{Letter, PAGES_IN_BLOCK};
use std::fmt::Write;

/// The name of a page's cell in the file; of so many empty ones beside each other.
pub fn name(kind: Kind, empty: usize) -> String {
    match kind {
        Kind::Keys(block) => format!("keys{block}"),
        Kind::Commit(part) => format!("commit{part}"),
        Kind::Live(file) => format!("live{file}"),
        Kind::Gone(file) => format!("gone{file}"),
        Kind::OlderCopy => "older".into(),
        Kind::Dead => "dead".into(),
        Kind::Node => "node".into(),
        Kind::CutOff => "cutoff".into(),
        Kind::LeftOver => "left".into(),
        Kind::Torn => "torn".into(),
        Kind::Spoilt => "spoilt".into(),
        Kind::Empty => format!("empty{empty}"),
    }
}

/// The name of a key's cell in the file.
pub fn key_name(key: Key) -> &'static str {
    match (key.letter, key.replaced) {
        (Letter::Free, false) => "free",
        (Letter::Used, false) => "used",
        (Letter::Deleted, false) => "deleted",
        (Letter::Free, true) => "free-new",
        (Letter::Used, true) => "used-new",
        (Letter::Deleted, true) => "deleted-new",
    }
}

/// How a cell looks: its ground, its letters, a pattern over the ground, and whether it is struck out.
struct Look {
    ground: &'static str,
    ink: &'static str,
    pattern: Option<&'static str>,
    struck: bool,
}

/// Colours that stay apart for colour-blind eyes; patterns where the page is of no use any more.
fn look(kind: Kind) -> Look {
    let (ground, ink, pattern) = match kind {
        Kind::Keys(0) => ("#0072b2", "#fff", None),
        Kind::Keys(_) => ("#7cc4ee", "#000", None),
        Kind::Commit(_) => ("#3dbb94", "#000", None),
        Kind::Live(_) | Kind::Gone(_) => ("#f0a800", "#000", None),
        Kind::OlderCopy => ("#f5d9a0", "#000", Some("slash")),
        Kind::Dead => ("#bdbdbd", "#000", Some("slash")),
        Kind::Node => ("#f7dd94", "#000", None),
        Kind::CutOff => ("#d99ac0", "#000", None),
        Kind::LeftOver => ("#a9d5f2", "#000", Some("back")),
        Kind::Torn => ("#ff9e6b", "#000", Some("bars")),
        Kind::Spoilt => ("#333", "#fff", None),
        Kind::Empty => ("#fff", "#fff", None),
    };
    Look { ground, ink, pattern, struck: matches!(kind, Kind::Gone(_)) }
}

fn look_of_key(letter: Letter) -> Look {
    let (ground, ink, pattern) = match letter {
        Letter::Free => ("#fff", "#767676", None),
        Letter::Used => ("#f0a800", "#000", None),
        Letter::Deleted => ("#ff9e6b", "#000", Some("slash")),
    };
    Look { ground, ink, pattern, struck: false }
}

/// The cells and patterns that the picture uses.
pub fn symbols(layout: &Layout, body: &str) -> String {
    let mut text = String::from("<defs>\n");
    for (name, path) in [("slash", "M-1 7L7 -1"), ("back", "M-1 -1L7 7"), ("bars", "M1 0V6")] {
        let _ = writeln!(
            text,
            "<pattern id=\"{name}\" width=\"6\" height=\"6\" patternUnits=\"userSpaceOnUse\">\
             <path d=\"{path}\" stroke=\"#fff\" stroke-width=\"1.1\"/></pattern>"
        );
    }
    for (name, drawn) in pages(layout).into_iter().chain(keys()) {
        if body.contains(&format!("\"#{name}\"")) {
            let _ = writeln!(text, "<g id=\"{name}\">{drawn}</g>");
        }
    }
    text + "</defs>\n"
}

/// The cells of pages, and the marks of blocks.
fn pages(layout: &Layout) -> Vec<(String, String)> {
    let (width, height) = (layout.width, layout.height);
    let full = Kind::every().filter(|kind| *kind != Kind::Empty).map(|kind| {
        let drawn = cell((width, height, layout.font), &look(kind), &layout.text(kind));
        (name(kind, 0), drawn)
    });
    let runs =
        (1..=PAGES_IN_BLOCK).map(|count| (name(Kind::Empty, count), empty(count, width, height)));
    let erased = ("erased".into(), outline(layout.block_width(), height));
    let sample = ("erasure".into(), empty(1, width, height) + &outline(width, height));
    full.chain(runs).chain([erased, sample]).collect()
}

/// The cells of keys, and the mark of those that are replaced.
fn keys() -> Vec<(String, String)> {
    const CORNER: &str = "<path class=\"corner\" d=\"M9 0h6v6z\"/>";
    let all = Key::all(false).into_iter().chain(Key::all(true)).map(|key| {
        let letter = key.letter.letter().to_string();
        let drawn = cell((KEY_CELL, KEY_CELL, 10), &look_of_key(key.letter), &letter);
        (key_name(key).into(), if key.replaced { drawn + CORNER } else { drawn })
    });
    let sample = ("replaced".into(), empty(1, KEY_CELL, KEY_CELL) + CORNER);
    all.chain([sample]).collect()
}

/// A cell with its letters.
fn cell(size: (usize, usize, usize), look: &Look, letters: &str) -> String {
    let (width, height, font) = size;
    let Look { ground, ink, pattern, struck } = look;
    let rect = |fill: &str| {
        format!("<rect class=\"cell\" width=\"{width}\" height=\"{height}\" fill=\"{fill}\"/>")
    };
    let mut over = pattern.map_or(String::new(), |name| rect(&format!("url(#{name})")));
    if *struck {
        over += &format!("<path class=\"mark\" d=\"M1 {}L{} 1\"/>", height - 1, width - 1);
    }
    let (middle, baseline) = (width as f32 / 2.0, (height + font) / 2 - 1);
    format!(
        "{}{over}<text class=\"in\" x=\"{middle}\" y=\"{baseline}\" font-size=\"{font}\" \
         fill=\"{ink}\">{letters}</text>",
        rect(ground)
    )
}

/// Empty cells beside each other.
fn empty(count: usize, width: usize, height: usize) -> String {
    let all = count * width;
    let between: String = (1..count).map(|n| format!("M{} 0v{height}", n * width)).collect();
    format!("<path class=\"cell\" fill=\"#fff\" d=\"M0 0h{all}v{height}h-{all}z{between}\"/>")
}

/// The mark of an erased block: a line inside its edges.
fn outline(width: usize, height: usize) -> String {
    let (width, height) = (width as f32 - 1.6, height as f32 - 1.6);
    format!("<rect class=\"mark\" x=\".8\" y=\".8\" width=\"{width}\" height=\"{height}\"/>")
}

// ---- Elements

/// How words, cells and marks look.
pub const STYLE: &str = "<style>
text { font-family: 'DejaVu Sans', Verdana, Arial, sans-serif }
.title { font-size: 14px; font-weight: bold }
.words { font-size: 11px }
.since { font-size: 12px; font-weight: bold; fill: #a3001b }
.number { text-anchor: end; font-size: 10px; fill: #444 }
.folded { font-size: 10px; fill: #444 }
.in { font-family: 'DejaVu Sans Mono', Menlo, Consolas, monospace; text-anchor: middle }
.cell { stroke: #999; stroke-width: .5 }
.mark { fill: none; stroke: #c8102e; stroke-width: 1.6; pointer-events: none }
.corner { fill: #c8102e }
</style>
";

/// A part of the picture at its place.
pub fn group(x: usize, y: usize, inner: &str) -> String {
    format!("<g transform=\"translate({x} {y})\">\n{inner}</g>\n")
}

/// A cell at its place, and what it is in words.
pub fn using(name: &str, x: usize, y: usize, title: &str) -> String {
    match title {
        "" => format!("<use href=\"#{name}\" x=\"{x}\" y=\"{y}\"/>\n"),
        _ => format!("<use href=\"#{name}\" x=\"{x}\" y=\"{y}\"><title>{title}</title></use>\n"),
    }
}

/// A line of words.
pub fn words(x: usize, y: usize, class: &str, text: &str) -> String {
    match text {
        "" => String::new(),
        _ => format!("<text class=\"{class}\" x=\"{x}\" y=\"{y}\">{}</text>\n", escaped(text)),
    }
}

/// A text as it stands in XML.
pub fn escaped(text: &str) -> String {
    text.replace('&', "&amp;").replace('<', "&lt;").replace('>', "&gt;").replace('"', "&quot;")
}

#[cfg(test)]
mod tests {
    use super::*;

    /// The light that a colour gives, from 0 to 1, as the guidelines for web content reckon it.
    fn light(colour: &str) -> f64 {
        let digits: Vec<u32> = colour[1..].chars().filter_map(|digit| digit.to_digit(16)).collect();
        let parts: Vec<u32> = match digits.len() {
            3 => digits.iter().map(|digit| 17 * digit).collect(),
            _ => digits.chunks(2).map(|pair| 16 * pair[0] + pair[1]).collect(),
        };
        let linear = parts.iter().map(|part| match f64::from(*part) / 255.0 {
            low if low <= 0.04045 => low / 12.92,
            high => ((high + 0.055) / 1.055).powf(2.4),
        });
        linear.zip([0.2126, 0.7152, 0.0722]).map(|(part, weight)| part * weight).sum()
    }

    /// Letters stand out from their ground by what is asked of small text.
    #[test]
    fn letters_can_be_read() {
        let letters = Key::all(false).map(|key| look_of_key(key.letter));
        let pages = Kind::ALL.into_iter().filter(|kind| *kind != Kind::Empty).map(look);
        for Look { ground, ink, .. } in pages.chain(letters) {
            let (a, b) = (light(ground), light(ink));
            let contrast = (a.max(b) + 0.05) / (a.min(b) + 0.05);
            assert!(contrast >= 4.5, "{ink} on {ground}: {contrast}");
        }
    }
}
