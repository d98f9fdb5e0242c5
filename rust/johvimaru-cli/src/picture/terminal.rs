//! The picture as lines of text.

use super::cells::{Cells, Key, Kind, Row, BLOCKS_TITLE, ERASED, FOLD, KEYS_TITLE};
use super::{broken, shortened, Drawing};
use johvimaru::Letter;

/// How many rows of blocks are drawn with cells of two columns.
const WIDE_ROWS: usize = 40;
/// The columns of a row with cells of two columns, of one with cells of one, and of a line of keys.
const WIDE: usize = 37;
const SMALL: usize = 21;
const KEY_LINE: usize = 33;
/// Columns of blocks where the cells are small and there is one picture.
const SMALL_COLUMNS: usize = 3;
/// Key positions in a line: those of two key pages.
const KEYS_IN_LINE: usize = 28;
/// The legend is broken before this column.
const LEGEND: usize = 78;
/// Columns between two parts.
const GAP: usize = 2;

/// The pictures, side by side where they have room, and the legend. No line is longer than the width.
pub fn text(drawing: &Drawing, colours: bool, width: Option<usize>) -> String {
    let room = width.unwrap_or(usize::MAX);
    let rows = Row::all(&drawing.cells);
    let style = Style { wide: rows.len() <= WIDE_ROWS && room >= WIDE, rows };
    let mut lines = pictures(&drawing.cells, &style, room);
    lines.push(Line::default());
    let room = room.min(LEGEND);
    if let Some(changes) = &drawing.changes {
        lines.extend(plain(broken(&changes.in_words(), room)));
        lines.push(Line::default());
    }
    lines.extend(legend(&drawing.cells, style.wide, room));
    lines.iter().map(|line| line.spelt(colours)).collect()
}

/// How the blocks are drawn: their rows, and whether cells have two columns.
struct Style {
    rows: Vec<Row>,
    wide: bool,
}

// ---- The pictures

/// The pictures beside each other: as wide as they are, or else with their lines broken, or else one below
/// the other.
fn pictures(cells: &[Cells], style: &Style, room: usize) -> Vec<Line> {
    if let [cells] = cells {
        return alone(cells, style, room);
    }
    let gaps = GAP * (cells.len() - 1);
    let widest = side_by_side(cells, style, usize::MAX);
    if width(&widest) <= room {
        return widest;
    }
    let share = room.saturating_sub(gaps) / cells.len();
    if share >= if style.wide { WIDE } else { KEY_LINE } {
        return side_by_side(cells, style, share);
    }
    let mut lines = Vec::new();
    for cells in cells {
        lines.extend((!lines.is_empty()).then(Line::default));
        lines.extend(alone(cells, style, room));
    }
    lines
}

/// Pictures beside each other, with their keys at one height.
fn side_by_side(cells: &[Cells], style: &Style, room: usize) -> Vec<Line> {
    let mut panels: Vec<Vec<Line>> = cells.iter().map(|cells| head(cells, room)).collect();
    for (panel, cells) in panels.iter_mut().zip(cells) {
        panel.push(Line::plain(BLOCKS_TITLE));
        panel.extend(style.rows.iter().map(|row| line_of_pages(cells, *row, style.wide)));
        panel.extend(notes(cells, room));
    }
    let height = panels.iter().map(Vec::len).max().unwrap_or(0);
    for (panel, cells) in panels.iter_mut().zip(cells) {
        panel.resize_with(height + 1, Line::default);
        panel.extend(keys(cells));
    }
    beside(panels)
}

/// One picture by itself, with its keys beside the blocks if there is room.
fn alone(cells: &Cells, style: &Style, room: usize) -> Vec<Line> {
    let mut lines = head(cells, room);
    let fitting = room.saturating_add(GAP) / (SMALL + GAP);
    let columns = if style.wide { 1 } else { fitting.clamp(1, SMALL_COLUMNS) };
    let rows = style.rows.chunks(style.rows.len().div_ceil(columns)).map(|rows| {
        rows.iter().map(|row| line_of_pages(cells, *row, style.wide)).collect::<Vec<Line>>()
    });
    let mut blocks = vec![Line::plain(BLOCKS_TITLE)];
    blocks.extend(beside(rows.collect()));
    if style.wide && WIDE + GAP + KEY_LINE <= room {
        lines.extend(beside(vec![blocks, keys(cells)]));
        lines.extend(notes(cells, room));
        return lines;
    }
    lines.extend(blocks);
    lines.extend(notes(cells, room));
    lines.push(Line::default());
    lines.extend(keys(cells));
    lines
}

/// The title of a picture, and what is there.
fn head(cells: &Cells, room: usize) -> Vec<Line> {
    let title = Line(vec![Piece(shortened(&cells.shown.title, room), BOLD)]);
    let summary = cells.summary();
    let summary = summary.iter().flat_map(|text| broken(text, room));
    [title].into_iter().chain(plain(summary)).collect()
}

/// What the blocks of keys and commits are.
fn notes(cells: &Cells, room: usize) -> Vec<Line> {
    plain(cells.system_notes().iter().flat_map(|text| broken(text, room))).collect()
}

/// A row of one picture. A star stands behind the number of a block that is erased.
fn line_of_pages(cells: &Cells, row: Row, wide: bool) -> Line {
    let block = match row.within(cells.blocks()) {
        None => return Line::default(),
        Some(Row::Empty(from, to)) => {
            return Line(vec![Piece(format!("{from:4} to {to}: empty"), DIM)]);
        }
        Some(Row::Block(block)) => block,
    };
    let mut line = Line::plain(format!("{block:4}"));
    match cells.is_erased(block) {
        true => line.push(ERASED, MARKED),
        false => line.push(" ", ""),
    }
    for kind in cells.block(block) {
        let text = if wide { format!("{:>2}", kind.text()) } else { kind.letter().to_string() };
        line.push(&text, colours_of(*kind));
    }
    line
}

/// The letters of the key positions, where there is a record. Lines of one letter are drawn as one.
fn keys(cells: &Cells) -> Vec<Line> {
    let keys = &cells.keys;
    if keys.is_empty() {
        return Vec::new();
    }
    let mut lines = vec![Line::plain(KEYS_TITLE)];
    let mut first = 0;
    while first < keys.len() {
        let alike = keys[first..].iter().take_while(|key| **key == keys[first]).count();
        let folded = alike / KEYS_IN_LINE;
        let length = if folded >= FOLD { folded * KEYS_IN_LINE } else { KEYS_IN_LINE };
        lines.push(match folded >= FOLD {
            true => all_alike(first, first + length - 1, keys[first]),
            false => line_of_keys(first, &keys[first..first + length]),
        });
        first += length;
    }
    lines
}

fn line_of_keys(first: usize, keys: &[Key]) -> Line {
    let mut line = Line::plain(format!("{first:4} "));
    for key in keys {
        line.push(&key.text().to_string(), colours_of_key(*key));
    }
    line
}

fn all_alike(from: usize, to: usize, key: Key) -> Line {
    let mut line = Line(vec![Piece(format!("{from:4} to {to}: all "), DIM)]);
    line.push(&key.text().to_string(), colours_of_key(key));
    line
}

// ---- The legend

/// What stands for what, of all that is drawn.
fn legend(cells: &[Cells], wide: bool, room: usize) -> Vec<Line> {
    let mut lines = vec![Line::default()];
    for entry in entries(cells, wide) {
        let last = lines.last().map_or(0, Line::width);
        if last > 0 && last + GAP + entry.width() > room {
            lines.push(Line::default());
        }
        if let Some(line) = lines.last_mut() {
            let gap = if line.0.is_empty() { "" } else { "  " };
            line.push(gap, "");
            line.0.extend(entry.0);
        }
    }
    lines
}

/// The kinds of pages, the letters of keys, and the marks.
fn entries(cells: &[Cells], wide: bool) -> Vec<Line> {
    let entry = |name: &str, colours, words: &str| {
        Line(vec![Piece(name.into(), colours), Piece(format!(" {words}"), "")])
    };
    let mut entries = Vec::new();
    for kind in Kind::ALL.into_iter().filter(|kind| cells.iter().any(|cells| cells.has(*kind))) {
        entries.push(entry(&in_legend(kind, wide), colours_of(kind), kind.words()));
        let letters = letters_of_files(kind, wide);
        let letters = letters.filter(|_| cells.iter().any(|cells| cells.has_above_9(kind)));
        entries.extend(letters.map(|text| entry(text, colours_of(kind), "of files 10 to 13")));
    }
    if cells.iter().any(|cells| !cells.keys.is_empty()) {
        for (key, words) in Key::all(false).into_iter().zip(["free key", "used", "deleted"]) {
            entries.push(entry(&key.text().to_string(), colours_of_key(key), words));
        }
    }
    if cells.iter().any(Cells::has_replaced) {
        let mut line = Line::default();
        for key in Key::all(true) {
            line.push(&key.text().to_string(), colours_of_key(key));
            line.push(" ", "");
        }
        line.push("the same, replaced since", "");
        entries.push(line);
    }
    if cells.iter().any(Cells::has_erased) {
        entries.push(entry(ERASED, MARKED, "block erased since"));
    }
    entries
}

/// What stands in the cells of a kind.
fn in_legend(kind: Kind, wide: bool) -> String {
    match (kind, wide) {
        (Kind::Live(_), true) => "0 to 13".into(),
        (Kind::Live(_), false) => "0 to 9".into(),
        (Kind::Gone(_), true) => "-0 to -9".into(),
        (Kind::Commit(_), true) => "C0 to C9".into(),
        (_, true) => kind.text(),
        (_, false) => kind.letter().to_string(),
    }
}

/// What stands there for files above 9, where that is no number.
fn letters_of_files(kind: Kind, wide: bool) -> Option<&'static str> {
    match (kind, wide) {
        (Kind::Live(_), false) => Some("p to s"),
        (Kind::Gone(_), true) => Some("-p to -s"),
        _ => None,
    }
}

// ---- Lines

/// A part of a line, and its colours as a terminal takes them; none are the terminal's own.
struct Piece(String, &'static str);

/// A line of pieces.
#[derive(Default)]
struct Line(Vec<Piece>);

impl Line {
    fn plain(text: impl Into<String>) -> Line {
        Line(vec![Piece(text.into(), "")])
    }

    fn width(&self) -> usize {
        self.0.iter().map(|piece| piece.0.chars().count()).sum()
    }

    /// Adds a piece; one of the same colours goes on.
    fn push(&mut self, text: &str, colours: &'static str) {
        match self.0.last_mut() {
            Some(last) if last.1 == colours => last.0 += text,
            _ => self.0.push(Piece(text.into(), colours)),
        }
    }

    fn spelt(&self, colours: bool) -> String {
        let mut text = String::new();
        for Piece(piece, code) in &self.0 {
            match colours && !code.is_empty() {
                true => text += &format!("\x1b[{code}m{piece}\x1b[0m"),
                false => text += piece,
            }
        }
        text.trim_end().to_string() + "\n"
    }
}

fn plain(texts: impl IntoIterator<Item = String>) -> impl Iterator<Item = Line> {
    texts.into_iter().map(Line::plain)
}

fn width(lines: &[Line]) -> usize {
    lines.iter().map(Line::width).max().unwrap_or(0)
}

/// Puts parts beside each other, each as wide as its widest line.
fn beside(parts: Vec<Vec<Line>>) -> Vec<Line> {
    let height = parts.iter().map(Vec::len).max().unwrap_or(0);
    let mut lines: Vec<Line> = (0..height).map(|_| Line::default()).collect();
    let mut start = 0;
    for part in parts {
        let width = width(&part);
        for (line, piece) in lines.iter_mut().zip(part) {
            let before = start - line.width();
            line.push(&" ".repeat(before), "");
            line.0.extend(piece.0);
        }
        start += width + GAP;
    }
    lines
}

// ---- Colours

const BOLD: &str = "1";
const DIM: &str = "2";
const MARKED: &str = "97;48;5;124";

/// Letters and ground of a page, from the palette of 256 colours; they stay apart for colour-blind eyes.
fn colours_of(kind: Kind) -> &'static str {
    match kind {
        Kind::Keys(0) => "97;48;5;25",
        Kind::Keys(_) => "30;48;5;74",
        Kind::Commit(_) => "30;48;5;36",
        Kind::Live(_) => "30;48;5;214",
        Kind::Gone(_) => MARKED,
        Kind::OlderCopy => "30;48;5;223",
        Kind::Dead => "30;48;5;250",
        Kind::Node => "30;48;5;229",
        Kind::CutOff => "30;48;5;175",
        Kind::LeftOver => "30;48;5;153",
        Kind::Torn => "30;48;5;209",
        Kind::Spoilt => "97;48;5;238",
        Kind::Empty => DIM,
    }
}

fn colours_of_key(key: Key) -> &'static str {
    match (key.letter, key.replaced) {
        (Letter::Free, false) => DIM,
        (Letter::Used, false) => "30;48;5;214",
        (Letter::Deleted, false) => "30;48;5;209",
        (Letter::Free, true) => "4",
        (Letter::Used, true) => "4;30;48;5;214",
        (Letter::Deleted, true) => "4;30;48;5;209",
    }
}
