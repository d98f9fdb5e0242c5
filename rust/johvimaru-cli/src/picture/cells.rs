//! What each page, block and key is in the picture.

use crate::changes::Changes;
use crate::seen::Seen;
use johvimaru::{Form, Header, Letter, Record, FILES, PAGES_IN_BLOCK};

/// Empty blocks in a row that are drawn as one line.
pub const FOLD: usize = 3;
/// Keys in a key page.
pub const KEYS_IN_PAGE: usize = 14;
/// What stands above the rows of blocks, and above the keys.
pub const BLOCKS_TITLE: &str = "blocks and their pages";
pub const KEYS_TITLE: &str = "key positions";
/// What stands in the terminal behind the number of a block that is erased.
pub const ERASED: &str = "*";

/// What a page is.
#[derive(Clone, Copy, Debug, PartialEq, Eq, Hash)]
pub enum Kind {
    /// Of the key block 0 or 1 that is in use.
    Keys(usize),
    /// A part of the commit that is in use.
    Commit(usize),
    /// A live node of this file.
    Live(u32),
    /// A live node of this file that is gone in the newer image beside.
    Gone(u32),
    /// An older copy of a live node, of before a gather.
    OlderCopy,
    /// A node that was replaced or removed.
    Dead,
    /// A node of an image that is not mounted: nothing says whether it is live.
    Node,
    /// A cut-off.
    CutOff,
    /// Whole, of a key block or commit that is not in use.
    LeftOver,
    /// A right header without its closing.
    Torn,
    /// Neither empty nor with a right header.
    Spoilt,
    /// All bytes are FFh.
    Empty,
}

impl Kind {
    /// One of each, in the order of the legend.
    pub const ALL: [Kind; 13] = [
        Kind::Keys(0),
        Kind::Keys(1),
        Kind::Commit(0),
        Kind::Live(0),
        Kind::Gone(0),
        Kind::OlderCopy,
        Kind::Dead,
        Kind::Node,
        Kind::CutOff,
        Kind::LeftOver,
        Kind::Torn,
        Kind::Spoilt,
        Kind::Empty,
    ];

    /// All of them, with every part and file.
    pub fn every() -> impl Iterator<Item = Kind> {
        let files = || 0..FILES as u32;
        let parts = (0..10).map(Kind::Commit);
        let nodes = files().map(Kind::Live).chain(files().map(Kind::Gone));
        let has_number =
            |kind: &Kind| matches!(kind, Kind::Commit(_) | Kind::Live(_) | Kind::Gone(_));
        Kind::ALL.into_iter().filter(move |kind| !has_number(kind)).chain(parts).chain(nodes)
    }

    /// Whether two are one line of the legend.
    pub fn is_like(self, other: Kind) -> bool {
        match (self, other) {
            (Kind::Commit(_), Kind::Commit(_))
            | (Kind::Live(_), Kind::Live(_))
            | (Kind::Gone(_), Kind::Gone(_)) => true,
            _ => self == other,
        }
    }

    /// What stands in its cell, in one or two columns.
    pub fn text(self) -> String {
        match self {
            Kind::Keys(block) => format!("K{block}"),
            Kind::Commit(part) => format!("C{part}"),
            Kind::Live(file) => file.to_string(),
            Kind::Gone(file) => format!("-{}", file_letter(file)),
            _ => self.letter().to_string(),
        }
    }

    /// What stands in its cell, in one column: L for key block 1.
    pub fn letter(self) -> char {
        match self {
            Kind::Keys(0) => 'K',
            Kind::Keys(_) => 'L',
            Kind::Commit(_) => 'C',
            Kind::Live(file) => file_letter(file),
            Kind::Gone(_) => '-',
            Kind::OlderCopy => '=',
            Kind::Dead => 'x',
            Kind::Node => 'n',
            Kind::CutOff => '/',
            Kind::LeftOver => 'o',
            Kind::Torn => 't',
            Kind::Spoilt => '?',
            Kind::Empty => '.',
        }
    }

    /// What it is, in words.
    pub fn words(self) -> &'static str {
        match self {
            Kind::Keys(0) => "key block 0",
            Kind::Keys(_) => "key block 1",
            Kind::Commit(_) => "commit",
            Kind::Live(_) => "live node, by file",
            Kind::Gone(_) => "node gone since",
            Kind::OlderCopy => "older copy of a live node",
            Kind::Dead => "dead node",
            Kind::Node => "node",
            Kind::CutOff => "cut-off",
            Kind::LeftOver => "keys or commit not in use",
            Kind::Torn => "torn",
            Kind::Spoilt => "spoilt",
            Kind::Empty => "empty",
        }
    }
}

/// A file in one column: p to s for 10 to 13, so that no letter is one of keys or of a kind of page.
fn file_letter(file: u32) -> char {
    match file {
        0..=9 => char::from_digit(file, 10).unwrap_or('#'),
        _ => (b'p'..=b's').nth(file as usize - 10).map_or('#', char::from),
    }
}

/// A key position.
#[derive(Clone, Copy, Debug, PartialEq, Eq)]
pub struct Key {
    /// Its letter.
    pub letter: Letter,
    /// Whether its bytes are others in the image beside.
    pub replaced: bool,
}

impl Key {
    /// One of each, in the order of the legend, replaced or not.
    pub fn all(replaced: bool) -> [Key; 3] {
        [Letter::Free, Letter::Used, Letter::Deleted].map(|letter| Key { letter, replaced })
    }

    /// What stands for it in the terminal: its letter, a capital where it is replaced.
    pub fn text(self) -> char {
        match self.replaced {
            true => self.letter.letter().to_ascii_uppercase(),
            false => self.letter.letter(),
        }
    }

    /// Its letter in words.
    pub fn words(self) -> &'static str {
        match self.letter {
            Letter::Free => "free",
            Letter::Used => "used",
            Letter::Deleted => "deleted",
        }
    }
}

/// An image that is drawn.
pub struct Shown<'a> {
    /// What stands above it.
    pub title: String,
    /// The image.
    pub seen: &'a Seen,
}

/// What is marked in an image that is drawn beside another.
#[derive(Default)]
pub struct Marks {
    /// The blocks that are erased between the two.
    erased: Vec<usize>,
    /// The key positions that are replaced between them.
    replaced: Vec<usize>,
    /// The pages of live nodes that are gone in the newer one.
    gone: Vec<usize>,
}

impl Marks {
    /// The marks of the older image and of the newer one.
    pub fn of(changes: &Changes) -> [Marks; 2] {
        let gone = changes.nodes.iter().flat_map(|nodes| &nodes.gone).map(|node| node.page);
        [gone.collect(), Vec::new()].map(|gone| Marks {
            erased: changes.blocks.erased.clone(),
            replaced: changes.replaced.clone().unwrap_or_default(),
            gone,
        })
    }
}

/// The pages of an image by what they are.
pub struct Cells<'a> {
    /// The image.
    pub shown: &'a Shown<'a>,
    /// Its keys, where there is a record.
    pub keys: Vec<Key>,
    pub(super) forms: Vec<Form>,
    pub(super) kinds: Vec<Kind>,
    marks: Marks,
}

impl<'a> Cells<'a> {
    /// Looks at each page and each key.
    pub fn of(shown: &'a Shown<'a>, marks: Marks) -> Cells<'a> {
        let record = shown.seen.record().ok();
        let forms: Vec<Form> = Form::all(&shown.seen.image).collect();
        let kinds = forms.iter().enumerate().map(|(page, form)| match kind(*form, page, record) {
            Kind::Live(file) if marks.gone.contains(&page) => Kind::Gone(file),
            Kind::Dead if shown.seen.is_older_copy(page) => Kind::OlderCopy,
            kind => kind,
        });
        let letters = record.into_iter().flat_map(Record::letters).enumerate();
        let keys = letters
            .map(|(p, letter)| Key { letter, replaced: marks.replaced.contains(&p) })
            .collect();
        Cells { shown, keys, kinds: kinds.collect(), forms, marks }
    }

    /// How many blocks there are.
    pub fn blocks(&self) -> usize {
        self.kinds.len() / PAGES_IN_BLOCK
    }

    /// The pages of a block; none where the image has no such block.
    pub fn block(&self, block: usize) -> &[Kind] {
        let first = (PAGES_IN_BLOCK * block).min(self.kinds.len());
        &self.kinds[first..(first + PAGES_IN_BLOCK).min(self.kinds.len())]
    }

    /// Whether there is no block of this number or nothing on it.
    pub fn is_empty(&self, block: usize) -> bool {
        self.block(block).iter().all(|kind| *kind == Kind::Empty)
    }

    /// Whether a block is marked as erased.
    pub fn is_erased(&self, block: usize) -> bool {
        self.marks.erased.contains(&block)
    }

    /// Whether any block is marked as erased.
    pub fn has_erased(&self) -> bool {
        (0..self.blocks()).any(|block| self.is_erased(block))
    }

    /// Whether any key is marked as replaced.
    pub fn has_replaced(&self) -> bool {
        self.keys.iter().any(|key| key.replaced)
    }

    /// Whether there is a page of this kind.
    pub fn has(&self, kind: Kind) -> bool {
        self.kinds.iter().any(|other| other.is_like(kind))
    }

    /// Whether there is a node of this kind of a file above 9.
    pub fn has_above_9(&self, kind: Kind) -> bool {
        let above = |other: &Kind| matches!(other, Kind::Live(10..) | Kind::Gone(10..));
        self.kinds.iter().any(|other| other.is_like(kind) && above(other))
    }

    /// What is there, in two lines.
    pub fn summary(&self) -> [String; 2] {
        let blocks = self.blocks();
        match self.shown.seen.record() {
            Ok(record) => {
                let nodes = record.nodes().count();
                let counts = record.counts();
                let (used, free, deleted) = (counts.used, counts.free, counts.deleted);
                let s = if nodes == 1 { "" } else { "s" };
                [
                    format!("{blocks} blocks, {nodes} live node{s}"),
                    format!("keys: {used} used, {free} free, {deleted} deleted"),
                ]
            }
            Err(refusal) => [
                format!("{blocks} blocks; mount refuses it, {}; drawn by form", refusal.number()),
                refusal.to_string(),
            ],
        }
    }
}

/// What a page is.
fn kind(form: Form, page: usize, record: Option<&Record>) -> Kind {
    let block = page / PAGES_IN_BLOCK;
    let header = match form {
        Form::Empty => return Kind::Empty,
        Form::Spoilt => return Kind::Spoilt,
        Form::Torn(_) => return Kind::Torn,
        Form::Whole(header) => header,
    };
    let in_use = |chosen: fn(&Record, usize) -> bool| record.is_none_or(|r| chosen(r, block));
    match header {
        Header::Keys { block, .. } if in_use(|r, at| r.key_blocks().contains(&at)) => {
            Kind::Keys(block)
        }
        Header::Commit { part, .. } if in_use(|r, at| r.commit_block() == at) => Kind::Commit(part),
        Header::Keys { .. } | Header::Commit { .. } => Kind::LeftOver,
        Header::CutOff { .. } => Kind::CutOff,
        Header::Node { at, .. } => match record.map(|record| record.node(at)) {
            None => Kind::Node,
            Some(Some(node)) if node.page == page => Kind::Live(at.file().number()),
            Some(_) => Kind::Dead,
        },
    }
}

// ---- Rows

/// A row: one block, or the empty ones from one to another.
#[derive(Clone, Copy, Debug, PartialEq, Eq)]
pub enum Row {
    /// A block.
    Block(usize),
    /// Blocks with nothing on them, the first and the last.
    Empty(usize, usize),
}

impl Row {
    /// The rows of all pictures, which are the same in each.
    pub fn all(cells: &[Cells]) -> Vec<Row> {
        let blocks = cells.iter().map(Cells::blocks).max().unwrap_or(0);
        let is_empty = |block: usize| cells.iter().all(|cells| cells.is_empty(block));
        let mut rows = Vec::new();
        let mut block = 0;
        while block < blocks {
            let empty = (block..blocks).take_while(|b| is_empty(*b)).count();
            if empty >= FOLD {
                rows.push(Row::Empty(block, block + empty - 1));
            } else {
                rows.extend((block..block + empty.max(1)).map(Row::Block));
            }
            block += empty.max(1);
        }
        rows
    }

    /// The row as far as an image of so many blocks has it.
    pub fn within(self, blocks: usize) -> Option<Row> {
        match self {
            Row::Block(block) => (block < blocks).then_some(self),
            Row::Empty(from, to) => (from < blocks).then(|| Row::Empty(from, to.min(blocks - 1))),
        }
    }
}

#[cfg(test)]
mod tests {
    use super::*;
    use std::collections::HashMap;

    /// No text in the cells stands for two things. In one column the parts of a commit are one thing, and so
    /// are the nodes that are gone.
    #[test]
    fn no_text_has_two_meanings() {
        let small = |kind: Kind| match kind {
            Kind::Commit(_) | Kind::Gone(_) => kind.words().to_string(),
            _ => format!("{kind:?}"),
        };
        let in_two = Kind::every().map(|kind| (kind.text(), format!("{kind:?}"))).collect();
        let in_one = Kind::every().map(|kind| (kind.letter().to_string(), small(kind))).collect();
        let keys = Key::all(false).into_iter().chain(Key::all(true));
        let keys = keys.map(|key| (key.text().to_string(), format!("{key:?}")));
        let others: Vec<(String, String)> =
            keys.chain([(ERASED.into(), "erased".into())]).collect();
        for pages in [in_two, in_one] {
            let pages: Vec<(String, String)> = pages;
            let mut meanings = HashMap::new();
            for (text, meaning) in pages.iter().chain(&others) {
                let other = meanings.insert(text, meaning).unwrap_or(meaning);
                assert_eq!(other, meaning, "{text}");
            }
        }
        assert_eq!(Kind::every().map(|kind| kind.text().len()).max(), Some(2));
    }

    /// Nor does a letter stand for one thing, and for another as a capital. The capitals of keys are the same
    /// letters, replaced.
    #[test]
    fn no_letter_has_two_meanings_as_a_capital() {
        let pages =
            Kind::every().filter(|kind| !matches!(kind, Kind::Commit(1..) | Kind::Gone(1..)));
        let letters = pages.map(Kind::letter).chain(Key::all(false).map(Key::text));
        let mut letters: Vec<char> = letters.map(|letter| letter.to_ascii_lowercase()).collect();
        let all = letters.len();
        letters.sort_unstable();
        letters.dedup();
        assert_eq!(letters.len(), all, "{letters:?}");
        for file in 0..FILES as u32 {
            assert_eq!(Kind::Live(file).letter().is_ascii_digit(), file < 10);
        }
        for (key, replaced) in Key::all(false).into_iter().zip(Key::all(true)) {
            assert_eq!(replaced.text().to_ascii_lowercase(), key.text());
        }
    }

    #[test]
    fn three_empty_blocks_are_one_row() {
        let mut image = vec![0xff; 12 * 4_096];
        for block in [0, 3, 5] {
            image[block * 4_096] = 0;
        }
        let [seen, other] = [12, 9].map(|blocks| Seen::of(image[..blocks * 4_096].to_vec()));
        let shown = [&seen, &other].map(|seen| Shown { title: String::new(), seen });
        let cells = shown.each_ref().map(|shown| Cells::of(shown, Marks::default()));
        let rows = Row::all(&cells);
        let blocks = (0..6).map(Row::Block);
        assert_eq!(rows, blocks.chain([Row::Empty(6, 11)]).collect::<Vec<Row>>());
        assert_eq!(rows[6].within(9), Some(Row::Empty(6, 8)));
        assert_eq!((rows[6].within(6), rows[5].within(5)), (None, None));
    }
}
