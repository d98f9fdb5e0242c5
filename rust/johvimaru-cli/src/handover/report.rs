//! The report of a handover: no content, and no byte of a key.

use super::keys::Found;
use super::{changed, search};
use crate::changes::listed;
use crate::image_file::{self, blocks_in_words, counted, numbers_in_words};
use crate::json::Json;
use crate::seen::Seen;
use crate::Problem;
use johvimaru::{File, Record, BLOCK, PAGE, PAGES_IN_BLOCK};
use std::time::{SystemTime, UNIX_EPOCH};

/// Where those sign who hand over and take over.
const SIGNATURES: &str = "\
Recorder ______________  Handed over by ______________  Taken over by ______________";

/// What a handover found, did and left.
pub struct Report {
    image: String,
    made: String,
    keep: Vec<File>,
    before: Seen,
    /// What was done, in words.
    pub done: Vec<String>,
    /// The image after it, and what is left of old keys; none before it is finished.
    after: Option<After>,
    /// What must not be, in words.
    pub faults: Vec<String>,
}

/// What a finished handover left.
struct After {
    seen: Seen,
    /// The keys that were there before and are of no kept node.
    keys: Vec<Found>,
    /// How many keys are of kept nodes.
    kept_keys: usize,
}

impl Report {
    /// A handover that is not finished.
    pub fn begun(image: String, keep: &[File], before: Seen) -> Report {
        let faults = vec!["the handover was not finished; make it again".into()];
        Report {
            image,
            made: now(),
            keep: keep.to_vec(),
            before,
            done: vec![],
            after: None,
            faults,
        }
    }

    /// Looks at the image after it. The name may lead to another file by then, or a call may have been refused.
    pub fn finish(&mut self, seen: Seen, is_named: bool, refused: Option<&Problem>) {
        let (keys, kept_keys) = search(&self.before, &seen, &self.keep);
        self.faults = faults(&self.before, &seen, &self.keep, &keys);
        if !is_named {
            self.faults.insert(0, "the name leads to another file now".into());
        }
        if let Some(problem) = refused {
            self.faults.insert(0, problem.to_string());
        }
        self.after = Some(After { seen, keys, kept_keys });
    }

    /// Whether the recorder may be handed over.
    pub fn verdict(&self) -> String {
        let image = format!("{}, {} blocks", self.image, self.before.image.len() / BLOCK);
        if !self.faults.is_empty() {
            let faults = self.faults.join("; ");
            return format!("THE RECORDER MUST NOT BE HANDED OVER: {image}: {faults}.");
        }
        let files = self.after.as_ref().map_or(Vec::new(), |after| after.seen.files());
        let names: Vec<String> = files.iter().map(|(file, _)| file.to_string()).collect();
        let what = match &names[..] {
            [] => "no file is on it, and no old key".into(),
            names => format!("{} is kept on it, and no old key but theirs", names.join(", ")),
        };
        format!("The recorder may be handed over with this image on its chip: {image}; {what}.")
    }

    /// The report in one of its forms.
    pub fn spelt(&self, json: bool) -> String {
        if json {
            format!("{}\n", self.json())
        } else {
            self.text()
        }
    }

    // ---- As text

    /// The report as lines.
    fn text(&self) -> String {
        let mut lines = vec![
            format!("Handover of {}, {}", self.image, self.made),
            format!("by johvimaru {}", env!("CARGO_PKG_VERSION")),
        ];
        lines.push("\nBefore".into());
        lines.extend(self.side(&self.before));
        lines.push("\nDone".into());
        lines.extend(self.done.iter().map(|done| format!("  {done}")));
        if self.done.is_empty() {
            lines.push("  nothing".into());
        }
        if let Some(after) = &self.after {
            lines.push("\nAfter".into());
            lines.extend(self.side(&after.seen));
            lines.push("\nOld keys".into());
            lines.extend(after.old_keys());
            lines.push("\nWhat a reader of the chip can still learn".into());
            lines.extend(after.learned().iter().map(|line| format!("  {line}")));
            lines.push(format!("\n{SIGNATURES}"));
        }
        lines.push(format!("\n{}\n", self.verdict()));
        lines.join("\n")
    }

    /// What is on the image at one time.
    fn side(&self, side: &Seen) -> Vec<String> {
        let blocks = side.image.len() / BLOCK;
        let mut lines = vec![format!("  {blocks} blocks, SHA-256 {}", side.hash())];
        if let Err(refusal) = side.record() {
            lines.push(format!("  mount refuses it, {}: {refusal}", refusal.number()));
        }
        for (file, nodes) in side.files() {
            let kept = if self.keep.contains(&file) { ", kept" } else { "" };
            lines.push(format!("  {file}: {}{kept}", counted(nodes, "node")));
        }
        if let Some(counts) = side.counts() {
            if side.files().is_empty() {
                lines.push("  no file has a node".into());
            }
            let (used, free, deleted) = (counts.used, counts.free, counts.deleted);
            lines.push(format!("  keys: {used} used, {free} free, {deleted} deleted"));
        }
        if !side.strays().is_empty() {
            lines.push(format!("  left by a cut call: {}", blocks_in_words(&side.strays())));
        }
        let spoilt = image_file::spoilt(&side.image);
        if !spoilt.is_empty() {
            lines.push(format!("  spoilt: {}", numbers_in_words("page", &spoilt)));
        }
        lines
    }

    // ---- As JSON

    /// The report as JSON.
    fn json(&self) -> Json {
        let after = self.after.as_ref();
        let keys = |after: &After| Json::List(after.keys.iter().map(key_json).collect());
        Json::Object(vec![
            ("image", self.image.as_str().into()),
            ("made", self.made.as_str().into()),
            ("version", env!("CARGO_PKG_VERSION").into()),
            ("kept", Json::numbers(self.keep.iter().map(|file| file.number() as usize))),
            ("before", side_json(&self.before)),
            ("done", texts(&self.done)),
            ("after", after.map_or(Json::Null, |after| side_json(&after.seen))),
            ("keys_of_kept_nodes", after.map_or(Json::Null, |after| after.kept_keys.into())),
            ("old_keys", after.map_or(Json::Null, keys)),
            ("can_be_learned", after.map_or(Json::Null, |after| texts(&after.learned()))),
            ("faults", texts(&self.faults)),
            ("may_be_handed_over", self.faults.is_empty().into()),
            ("verdict", self.verdict().into()),
        ])
    }
}

impl After {
    fn old_keys(&self) -> Vec<String> {
        let total = counted(self.keys.len() + self.kept_keys, "key");
        let mut lines = vec![format!("  on the image before: {total}")];
        if self.kept_keys > 0 {
            lines.push(format!("  of kept nodes, and still there: {}", self.kept_keys));
        }
        let in_slots = |left: bool| {
            let keys = self.keys.iter().filter(move |key| (key.copies > 0) == left);
            let mut positions: Vec<usize> = keys.filter_map(|key| key.position).collect();
            positions.sort_unstable();
            positions.dedup();
            positions
        };
        let (gone, left) = (in_slots(false), in_slots(true));
        for (positions, what) in [(gone, "no copy at any byte".into()), (left, self.where_left())] {
            if !positions.is_empty() {
                lines.push(format!("  {}: {what}", listed("position", &positions)));
            }
        }
        let torn = self.keys.iter().filter(|key| key.position.is_none());
        let (gone, left): (Vec<&Found>, Vec<&Found>) = torn.partition(|key| key.copies == 0);
        for (keys, what) in [(gone, "no copy at any byte".into()), (left, self.where_left())] {
            if !keys.is_empty() {
                lines.push(format!("  on pages without a header, {}: {what}", keys.len()));
            }
        }
        lines
    }

    /// The pages on which old keys are.
    fn where_left(&self) -> String {
        let mut pages: Vec<usize> =
            self.keys.iter().filter_map(|key| Some(key.first? / PAGE)).collect();
        pages.sort_unstable();
        pages.dedup();
        format!("STILL THERE, {}", listed("page", &pages))
    }

    /// What the image tells whoever reads it.
    fn learned(&self) -> Vec<String> {
        let Ok(record) = self.seen.record() else {
            return vec!["all that is on it: it is not cleared".into()];
        };
        let mut lines = numbers_tell(record);
        for (file, nodes) in self.seen.files() {
            let nodes = counted(nodes, "node");
            lines.push(format!("{file}: the content of {nodes}, whose keys are on the chip"));
        }
        let (dead, older) = (self.seen.dead_headers(), self.seen.older_copies());
        if dead > 0 {
            lines.push(format!(
                "{} beside live nodes: file, offset, length and sequence of what was removed, no \
                 content",
                counted(dead, "header")
            ));
        }
        if older > 0 {
            lines.push(format!(
                "{} of live nodes, of before a gather: the same content once more",
                counted(older, "older page")
            ));
        }
        lines
    }
}

/// What is said where there is no report.
pub fn not_done(problem: &Problem, json: bool) -> String {
    let verdict = format!("THE RECORDER MUST NOT BE HANDED OVER: {problem}");
    match json {
        false => verdict + "\n",
        true => {
            let fields = vec![("may_be_handed_over", false.into()), ("verdict", verdict.into())];
            format!("{}\n", Json::Object(fields))
        }
    }
}

fn texts(lines: &[String]) -> Json {
    Json::List(lines.iter().map(|line| line.as_str().into()).collect())
}

fn side_json(side: &Seen) -> Json {
    let files = side.files().into_iter().map(|(file, nodes)| {
        Json::Object(vec![("file", file.number().into()), ("nodes", nodes.into())])
    });
    let refused = side.record().err().map_or(Json::Null, |refusal| refusal.number().into());
    let number = |of: fn(&Record) -> u32| side.record().map_or(Json::Null, |r| of(r).into());
    Json::Object(vec![
        ("blocks", (side.image.len() / BLOCK).into()),
        ("sha256", side.hash().into()),
        ("refused", refused),
        ("files", Json::List(files.collect())),
        ("keys", side.counts().map_or(Json::Null, crate::listing::keys)),
        ("next_sequence", number(Record::next_sequence)),
        ("next_epoch", number(Record::next_epoch)),
        ("left_by_a_cut_call", Json::numbers(side.strays())),
        ("spoilt_pages", Json::numbers(image_file::spoilt(&side.image))),
    ])
}

fn key_json(key: &Found) -> Json {
    Json::Object(vec![
        ("position", key.position.map_or(Json::Null, Json::from)),
        ("block", (key.page / PAGES_IN_BLOCK).into()),
        ("page", (key.page % PAGES_IN_BLOCK).into()),
        ("slot", key.slot.into()),
        ("copies", key.copies.into()),
    ])
}

/// What must not be on an image that is handed over.
fn faults(before: &Seen, after: &Seen, keep: &[File], keys: &[Found]) -> Vec<String> {
    let mut faults = Vec::new();
    if let Err(refusal) = after.record() {
        faults.push(format!("mount refuses the image, {}: {refusal}", refusal.number()));
    }
    for (file, nodes) in after.files().iter().filter(|(file, _)| !keep.contains(file)) {
        faults.push(format!("{file} still has {}", counted(*nodes, "node")));
    }
    for node in changed(before, after, keep) {
        faults.push(format!("{node} was to be kept and is not as it was"));
    }
    let deleted = after.counts().map_or(0, |counts| counts.deleted);
    if deleted > 0 {
        faults.push(format!("{} on the image", counted(deleted, "deleted key")));
    }
    let blocks = after.blocks_in_question();
    if !blocks.is_empty() {
        faults.push(format!("{} not erased", blocks_in_words(&blocks)));
    }
    let pages = after.pages_in_question();
    if !pages.is_empty() {
        faults
            .push(format!("no node is on {}, and something is", numbers_in_words("page", &pages)));
    }
    let left = keys.iter().filter(|key| key.copies > 0).count();
    if left > 0 {
        faults.push(format!("{} still on the image", counted(left, "old key")));
    }
    faults
}

/// What the record's numbers tell.
fn numbers_tell(record: &Record) -> Vec<String> {
    let (sequence, epoch) = (record.next_sequence(), record.next_epoch());
    let [keys_0, keys_1] = record.key_blocks();
    vec![
        format!(
            "next sequence {sequence}: {} since the format, written, cut off or gathered",
            counted(sequence as usize - 1, "page")
        ),
        format!(
            "next epoch {epoch}: {} since the format, one for a commit, two for a wipe",
            counted((epoch as usize).saturating_sub(2), "epoch")
        ),
        format!(
            "keys in blocks {keys_0} and {keys_1}, commit in {}: something of how blocks were used",
            record.commit_block()
        ),
    ]
}

/// Date and time of day, as UTC.
fn now() -> String {
    let since = SystemTime::now().duration_since(UNIX_EPOCH).map_or(0, |time| time.as_secs());
    let (year, month, day) = date(since / 86_400);
    let (hour, minute) = (since / 3_600 % 24, since / 60 % 60);
    format!("{year}-{month:02}-{day:02} {hour:02}:{minute:02} UTC")
}

/// Year, month and day, so many days after the first of January 1970.
fn date(mut days: u64) -> (u64, u64, u64) {
    let is_leap = |year: u64| {
        year.is_multiple_of(4) && (!year.is_multiple_of(100) || year.is_multiple_of(400))
    };
    let mut year = 1970;
    while days >= 365 + u64::from(is_leap(year)) {
        days -= 365 + u64::from(is_leap(year));
        year += 1;
    }
    let february = 28 + u64::from(is_leap(year));
    let lengths = [31, february, 31, 30, 31, 30, 31, 31, 30, 31, 30, 31];
    let mut month = 1;
    for length in lengths {
        if days < length {
            break;
        }
        days -= length;
        month += 1;
    }
    (year, month, days + 1)
}

#[cfg(test)]
mod tests {
    use super::*;

    #[test]
    fn days_as_dates() {
        for (days, expected) in [
            (0, (1970, 1, 1)),
            (58, (1970, 2, 28)),
            (59, (1970, 3, 1)),
            (11_016, (2000, 2, 29)),
            (11_322, (2000, 12, 31)),
            (11_323, (2001, 1, 1)),
            (47_540, (2100, 2, 28)),
            (47_541, (2100, 3, 1)),
        ] {
            assert_eq!(date(days), expected, "{days}");
        }
    }
}
