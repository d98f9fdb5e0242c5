//! What is said of blocks, pages and keys in the picture.

use super::cells::{Cells, Kind, KEYS_IN_PAGE};
use crate::image_file::counted;
use johvimaru::{Form, Header, KEYS, PAGES_IN_BLOCK};

/// At most so many lines on the blocks of keys and commits.
const MOST_NOTES: usize = 8;

impl Cells<'_> {
    /// What a block is, in words; nothing for an empty one.
    pub fn note(&self, block: usize) -> String {
        let note = self.system_note(block).unwrap_or_else(|| self.data_note(block));
        match (self.is_erased(block), note.is_empty()) {
            (false, _) => note,
            (true, true) => "erased".into(),
            (true, false) => note + "; erased since",
        }
    }

    /// The blocks of keys and of commits, in words; not too many of them.
    pub fn system_notes(&self) -> Vec<String> {
        let note = |block| Some(format!("block {block}: {}", self.system_note(block)?));
        let mut notes: Vec<String> = (0..self.blocks()).filter_map(note).collect();
        if notes.len() > MOST_NOTES {
            let more = notes.len() - (MOST_NOTES - 1);
            notes.truncate(MOST_NOTES - 1);
            notes.push(format!("and {more} more"));
        }
        notes
    }

    /// What a block of keys or of a commit is, in words.
    fn system_note(&self, block: usize) -> Option<String> {
        let first = PAGES_IN_BLOCK * block;
        let forms = self.forms.get(first..first + PAGES_IN_BLOCK)?;
        let is_data = |form: &Form| {
            matches!(form.header(), Some(Header::Node { .. } | Header::CutOff { .. }))
        };
        if forms.iter().any(is_data) {
            return None;
        }
        let words = forms.iter().find_map(|form| match form.header()? {
            Header::Keys { epoch, block, .. } => Some(format!("key block {block}, epoch {epoch}")),
            Header::Commit { epoch, covered, .. } => {
                Some(format!("commit, epoch {epoch}, covers {covered}"))
            }
            _ => None,
        })?;
        let in_use = self.shown.seen.record().map_or(true, |record| {
            record.key_blocks().contains(&block) || record.commit_block() == block
        });
        Some(if in_use { words } else { format!("not in use: {words}") })
    }

    /// How many pages of each kind a block has, in words.
    fn data_note(&self, block: usize) -> String {
        let pages = self.block(block);
        let named: [(&[Kind], &str); 8] = [
            (&[Kind::Live(0), Kind::Gone(0)], "live"),
            (&[Kind::OlderCopy], "copied"),
            (&[Kind::Dead], "dead"),
            (&[Kind::Node], "nodes"),
            (&[Kind::CutOff], "cut-off"),
            (&[Kind::Torn], "torn"),
            (&[Kind::Spoilt], "spoilt"),
            (&[Kind::LeftOver], "not in use"),
        ];
        let count = |kinds: &[Kind]| {
            pages.iter().filter(|page| kinds.iter().any(|kind| page.is_like(*kind))).count()
        };
        let counted: Vec<String> = named
            .into_iter()
            .map(|(kinds, name)| (count(kinds), name))
            .filter(|(count, _)| *count > 0)
            .map(|(count, name)| format!("{count} {name}"))
            .collect();
        counted.join(", ")
    }

    /// What a page is, in words; for an empty one with so many empty ones from it on.
    pub fn page_in_words(&self, page: usize, length: usize) -> String {
        let name = match length {
            1 => format!("page {page}"),
            _ => format!("pages {page} to {}", page + length - 1),
        };
        let (what, state) = match self.forms[page] {
            Form::Empty => ("empty".into(), ""),
            Form::Spoilt => ("spoilt".into(), ""),
            Form::Torn(header) => (header_in_words(header), ", torn"),
            Form::Whole(header) => (header_in_words(header), self.state(page)),
        };
        let erased = if self.is_erased(page / PAGES_IN_BLOCK) { ", erased since" } else { "" };
        format!("{name}: {what}{state}{erased}")
    }

    /// What a whole page is to the record.
    fn state(&self, page: usize) -> &'static str {
        match self.kinds[page] {
            Kind::Live(_) => ", live",
            Kind::Gone(_) => ", live, gone since",
            Kind::OlderCopy => ", older copy of the live node",
            Kind::Dead => ", dead",
            Kind::LeftOver => ", not in use",
            _ => "",
        }
    }

    /// What a key is, in words.
    pub fn key_in_words(&self, position: usize) -> String {
        let key = self.keys[position];
        let record = self.shown.seen.record().ok();
        let node = record.and_then(|record| record.nodes().find(|node| node.key == position));
        let by = node.map_or(String::new(), |node| format!(" by {}", node.at));
        let replaced = if key.replaced { ", replaced since" } else { "" };
        format!("key {position}: {}{by}{replaced}", key.words())
    }
}

/// What a header says.
fn header_in_words(header: Header) -> String {
    match header {
        Header::Node { sequence, at, key, length, .. } => {
            let bytes = counted(length, "byte");
            format!("node of {at}, {bytes}, sequence {sequence}, key {key}")
        }
        Header::CutOff { sequence, from } => {
            let (file, offset) = (from.file(), from.number());
            format!("cut-off of {file} from offset {offset} on, sequence {sequence}")
        }
        Header::Keys { epoch, block, page } => {
            let first = KEYS / 2 * block + KEYS_IN_PAGE * page;
            let last = first + KEYS_IN_PAGE - 1;
            format!("keys {first} to {last}, key block {block}, epoch {epoch}")
        }
        Header::Commit { epoch, part, covered, .. } => {
            format!("commit, part {part}, epoch {epoch}, covers {covered}")
        }
    }
}
