//! The picture as SVG.

mod symbols;

use super::cells::{Cells, Key, Kind, Row, BLOCKS_TITLE, KEYS_IN_PAGE, KEYS_TITLE};
use super::{broken, shortened, Drawing};
use johvimaru::PAGES_IN_BLOCK;
use symbols::{escaped, group, key_name, name, symbols, using, words, STYLE};

/// Free space around all, and between parts.
const MARGIN: usize = 16;
const GAP: usize = 28;
/// The height of a line of words, and the width of two of its letters and of one of a title's, with some to
/// spare.
const LINE: usize = 16;
const TWO_LETTERS: usize = 13;
const TITLE_LETTER: usize = 9;
/// The width of the numbers before a row.
const NUMBER: usize = 28;
/// Key positions in a row: those of two key pages, with a gap between. Rows of the two key blocks have a
/// gap between too.
const KEYS_IN_ROW: usize = 2 * KEYS_IN_PAGE;
const KEY_ROWS: usize = 16;
const KEY_CELL: usize = 15;
const KEY_GAP: usize = 5;

/// Sizes of the map of blocks.
#[derive(Clone, Copy)]
struct Layout {
    /// Columns of rows, and rows in each.
    columns: usize,
    rows: usize,
    /// A cell, and its letters.
    width: usize,
    height: usize,
    font: usize,
    /// Columns of letters in a cell.
    letters: usize,
    /// The width of the words beside each row; 0 where they stand below.
    notes: usize,
}

impl Layout {
    /// The layout for so many rows, and words of so many letters beside them.
    fn of(rows: usize, longest_note: usize) -> Layout {
        let (columns, width, height, font, letters) = match rows {
            0..=32 => (1, 19, 16, 10, 2),
            33..=64 => (2, 17, 15, 10, 2),
            _ => (4, 10, 11, 9, 1),
        };
        let notes = if columns == 1 { 8 + TWO_LETTERS * longest_note / 2 } else { 0 };
        Layout { columns, rows: rows.div_ceil(columns), width, height, font, letters, notes }
    }

    /// The width of the cells of a block.
    fn block_width(&self) -> usize {
        PAGES_IN_BLOCK * self.width
    }

    fn column_width(&self) -> usize {
        NUMBER + self.block_width() + self.notes
    }

    fn map_width(&self) -> usize {
        self.columns * self.column_width() + (self.columns - 1) * MARGIN
    }

    /// Where a row starts, before its number.
    fn place(&self, row: usize) -> (usize, usize) {
        let (column, row) = (row / self.rows, row % self.rows);
        (column * (self.column_width() + MARGIN), row * self.height)
    }

    fn text(&self, kind: Kind) -> String {
        match kind {
            Kind::Empty => String::new(),
            // It is struck out besides.
            Kind::Gone(file) => self.text(Kind::Live(file)),
            _ if self.letters == 1 => kind.letter().to_string(),
            _ => kind.text(),
        }
    }
}

/// Where the parts of a picture stand.
struct Places {
    layout: Layout,
    /// The keys stand beside the map, or below it.
    beside: bool,
    keys_height: usize,
    map_height: usize,
    notes_height: usize,
}

impl Places {
    const HEAD: usize = 4 * LINE;
    const KEYS_WIDTH: usize = NUMBER + KEYS_IN_ROW * KEY_CELL + KEY_GAP;
    const KEYS_HEIGHT: usize = LINE + KEY_ROWS * KEY_CELL + KEY_GAP;

    fn of(cells: &[Cells], rows: &[Row]) -> Places {
        let notes = |cells: &Cells| (0..cells.blocks()).map(|b| cells.note(b).len()).max();
        let longest = cells.iter().filter_map(notes).max().unwrap_or(0);
        let layout = Layout::of(rows.len(), longest);
        let lines = cells.iter().map(|cells| cells.system_notes().len()).max().unwrap_or(0);
        let notes_height = if layout.notes == 0 { LINE * (lines + 1) } else { 0 };
        let map_height = LINE + layout.rows * layout.height + MARGIN;
        let keys = cells.iter().any(|cells| !cells.keys.is_empty());
        let keys_height = if keys { Self::KEYS_HEIGHT } else { LINE };
        Places { layout, beside: cells.len() == 1, keys_height, map_height, notes_height }
    }

    /// Where the keys start.
    fn keys(&self) -> (usize, usize) {
        match self.beside {
            true => (self.layout.map_width() + GAP, Self::HEAD),
            false => (0, Self::HEAD + self.map_height + self.notes_height),
        }
    }

    fn width(&self) -> usize {
        (self.keys().0 + Self::KEYS_WIDTH).max(self.layout.map_width())
    }

    fn height(&self) -> usize {
        let below = Self::HEAD + self.map_height + self.notes_height;
        below.max(self.keys().1 + self.keys_height)
    }
}

/// The pictures side by side, what is between them, and the legend, as one SVG file.
pub fn svg(drawing: &Drawing) -> String {
    let cells = &drawing.cells;
    let rows = Row::all(cells);
    let places = Places::of(cells, &rows);
    let width = cells.len() * places.width() + (cells.len() - 1) * GAP;
    let mut body = String::new();
    for (number, cells) in cells.iter().enumerate() {
        let left = MARGIN + number * (places.width() + GAP);
        body += &group(left, MARGIN, &panel(cells, &rows, &places));
    }
    let mut below = MARGIN + places.height() + GAP / 2;
    if let Some(changes) = &drawing.changes {
        for line in broken(&changes.in_words(), width / TITLE_LETTER) {
            body += &words(MARGIN, below + LINE - 4, "since", &line);
            below += LINE;
        }
        below += LINE;
    }
    let (legend, legend_height) = legend(cells, &places.layout, width);
    body += &group(MARGIN, below, &legend);
    let titles: Vec<String> = cells.iter().map(|cells| escaped(&cells.shown.title)).collect();
    let (all_width, all_height) = (width + 2 * MARGIN, below + legend_height + MARGIN);
    format!(
        "<svg xmlns=\"http://www.w3.org/2000/svg\" role=\"img\" width=\"{all_width}\" \
         height=\"{all_height}\" viewBox=\"0 0 {all_width} {all_height}\">\n\
         <title>{}</title>\n{STYLE}{}\
         <rect width=\"100%\" height=\"100%\" fill=\"#fff\"/>\n{body}</svg>\n",
        titles.join(", "),
        symbols(&places.layout, &body)
    )
}

// ---- One picture

fn panel(cells: &Cells, rows: &[Row], places: &Places) -> String {
    let room = places.width() / TITLE_LETTER;
    let mut text = words(0, LINE - 2, "title", &shortened(&cells.shown.title, room));
    for (number, line) in cells.summary().iter().enumerate() {
        text += &words(0, LINE * (number + 2), "words", line);
    }
    text += &group(0, Places::HEAD, &map(cells, rows, &places.layout));
    if places.layout.notes == 0 {
        for (number, note) in cells.system_notes().iter().enumerate() {
            let y = Places::HEAD + places.map_height + LINE * number;
            text += &words(NUMBER, y, "words", note);
        }
    }
    let (x, y) = places.keys();
    text + &group(x, y, &keys(cells))
}

/// The rows of blocks.
fn map(cells: &Cells, rows: &[Row], layout: &Layout) -> String {
    let mut text = words(NUMBER, 10, "words", BLOCKS_TITLE);
    for (number, row) in rows.iter().enumerate() {
        let (x, y) = layout.place(number);
        let y = y + LINE;
        let baseline = y + (layout.height + layout.font) / 2 - 1;
        match row.within(cells.blocks()) {
            None => {}
            Some(Row::Empty(from, to)) => {
                let empty = format!("{from} to {to}: empty");
                text += &words(x + NUMBER, baseline, "folded", &empty);
            }
            Some(Row::Block(block)) => {
                text += &words(x + NUMBER - 5, baseline, "number", &block.to_string());
                text += &pages(cells, block, layout, (x + NUMBER, y));
                if layout.notes > 0 {
                    let after = x + NUMBER + layout.block_width() + 8;
                    text += &words(after, baseline, "words", &cells.note(block));
                }
            }
        }
    }
    text
}

/// The cells of a block; empty ones beside each other are one.
fn pages(cells: &Cells, block: usize, layout: &Layout, (x, y): (usize, usize)) -> String {
    let pages = cells.block(block);
    let mut text = String::new();
    let mut page = 0;
    while page < pages.len() {
        let empty = pages[page..].iter().take_while(|kind| **kind == Kind::Empty).count();
        let said = cells.page_in_words(PAGES_IN_BLOCK * block + page, empty.max(1));
        text += &using(&name(pages[page], empty), x + page * layout.width, y, &said);
        page += empty.max(1);
    }
    match cells.is_erased(block) {
        true => text + &using("erased", x, y, ""),
        false => text,
    }
}

/// The key positions by letter.
fn keys(cells: &Cells) -> String {
    if cells.keys.is_empty() {
        return words(0, 10, "words", "no letters of keys without a mount");
    }
    let mut text = words(NUMBER, 10, "words", KEYS_TITLE);
    for (position, key) in cells.keys.iter().enumerate() {
        let (row, column) = (position / KEYS_IN_ROW, position % KEYS_IN_ROW);
        let y = LINE + row * KEY_CELL + KEY_GAP * (row / (KEY_ROWS / 2));
        let x = NUMBER + column * KEY_CELL + KEY_GAP * (column / KEYS_IN_PAGE);
        if column == 0 {
            text += &words(NUMBER - 5, y + KEY_CELL - 4, "number", &position.to_string());
        }
        text += &using(key_name(*key), x, y, &cells.key_in_words(position));
    }
    text
}

// ---- The legend

/// What stands for what, of all that is drawn, in a width; and its height.
fn legend(cells: &[Cells], layout: &Layout, width: usize) -> (String, usize) {
    const CELL: usize = 24;
    let (mut text, mut x, mut y) = (String::new(), 0, 0);
    for (name, label, size) in entries(cells, layout) {
        let wide = CELL + TWO_LETTERS * label.len() / 2 + MARGIN;
        if x > 0 && x + wide > width {
            (x, y) = (0, y + LINE + 8);
        }
        let (right, down) = ((CELL - 5 - size.0) / 2, (LINE - size.1) / 2);
        text += &using(&name, x + right, y + down, "");
        text += &words(x + CELL, y + 12, "words", label);
        x += wide;
    }
    (text, y + LINE)
}

/// The names of the cells in the legend, what they are, and their sizes.
fn entries(cells: &[Cells], layout: &Layout) -> Vec<(String, &'static str, (usize, usize))> {
    let small = layout.letters == 1;
    let (page, key) = ((layout.width, layout.height), (KEY_CELL, KEY_CELL));
    let mut entries = Vec::new();
    for kind in Kind::ALL.into_iter().filter(|kind| cells.iter().any(|cells| cells.has(*kind))) {
        entries.push((name(kind, 1), in_legend(kind, small), page));
    }
    if cells.iter().any(|cells| !cells.keys.is_empty()) {
        let labels = ["free key", "used key", "deleted key"];
        let letters = Key::all(false).map(key_name).into_iter().zip(labels);
        entries.extend(letters.map(|(name, label)| (name.into(), label, key)));
    }
    if cells.iter().any(Cells::has_replaced) {
        entries.push(("replaced".into(), "key replaced since", key));
    }
    if cells.iter().any(Cells::has_erased) {
        entries.push(("erasure".into(), "block erased since", page));
    }
    entries
}

fn in_legend(kind: Kind, small: bool) -> &'static str {
    match kind {
        Kind::Live(_) if small => "live node, with its file (p to s: 10 to 13)",
        Kind::Live(_) => "live node, with its file",
        Kind::Commit(_) if !small => "commit, with its part",
        Kind::Node => "node, live or dead",
        _ => kind.words(),
    }
}
