//! A recorder is cleared for its next owner: files wiped, the image read anew and searched, a report.

mod keys;
mod report;

use crate::args::Handover;
use crate::calls::{self, Device};
use crate::erasures::Erasures;
use crate::image_file::{self, at, counted, is_empty, name, ImageFile};
use crate::seen::Seen;
use crate::sha256;
use crate::Problem;
use johvimaru::{
    File, Form, Header, KeyCounts, Noise, Record, Refusal, Store, BLOCK, PAGE, PAGES_IN_BLOCK,
};
use keys::{Found, Search};
use report::Report;
use std::fs::{self, OpenOptions};
use std::io::{ErrorKind, Write};
use std::os::unix::fs::FileExt;
use std::path::Path;

/// The first number that is no epoch.
const EPOCHS_END: u32 = 100_000_000;

/// Hands a recorder over, and reports. Where anything is left, or nothing could be done, that is said loudly.
pub fn run(path: &Path, options: &Handover, out: &mut dyn Write) -> Result<(), Problem> {
    let keep = kept_files(&options.keep)?;
    let result = hand_over(path, &keep, options, out);
    match &result {
        // The report has said so.
        Ok(()) | Err(Problem::Leftovers(_) | Problem::Refused(_)) => {}
        Err(problem) => out.write_all(report::not_done(problem, options.json).as_bytes())?,
    }
    result
}

fn hand_over(
    path: &Path,
    keep: &[File],
    options: &Handover,
    out: &mut dyn Write,
) -> Result<(), Problem> {
    let file = ImageFile::open(path)?;
    let before = Seen::of(file.bytes()?);
    let way = Way::of(&file, &before, keep, options.force)?;
    // A report that says "not finished" is on the disk before anything is changed.
    let paper = Paper::new(options)?;
    let mut report = Report::begun(name(path), keep, before);
    paper.write(&report)?;
    let ended = way.go(&file, keep, &mut report.done);
    if let Err(Problem::System(words)) = ended {
        return Err(Problem::System(format!("not finished: {words}")));
    }
    report.finish(Seen::of(file.bytes()?), file.has_its_name()?, ended.as_ref().err());
    paper.write(&report)?;
    match paper.path {
        None => out.write_all(report.spelt(options.json).as_bytes())?,
        Some(path) => writeln!(out, "report: {}\n{}", name(path), report.verdict())?,
    }
    ended?;
    match report.faults.is_empty() {
        true => Ok(()),
        false => Err(Problem::Leftovers(report.verdict())),
    }
}

/// The files that stay, each once.
fn kept_files(numbers: &[u32]) -> Result<Vec<File>, Problem> {
    let files: Result<Vec<File>, Refusal> = numbers.iter().map(|file| File::new(*file)).collect();
    let mut files = files?;
    files.sort();
    files.dedup();
    Ok(files)
}

/// The file that the report goes to, where one is named.
struct Paper<'a> {
    path: Option<&'a Path>,
    file: Option<fs::File>,
    json: bool,
}

impl Paper<'_> {
    /// A file that is not there yet.
    fn new(options: &Handover) -> Result<Paper<'_>, Problem> {
        let path = options.report.as_deref();
        let create = |path: &Path| match OpenOptions::new().write(true).create_new(true).open(path)
        {
            Err(error) if error.kind() == ErrorKind::AlreadyExists => {
                Err(Problem::System(format!("{} is there already; name a new file", name(path))))
            }
            created => created.map_err(|error| at(path, error)),
        };
        Ok(Paper { path, file: path.map(create).transpose()?, json: options.json })
    }

    /// Writes the report over what was there of it.
    fn write(&self, report: &Report) -> Result<(), Problem> {
        let (Some(path), Some(file)) = (self.path, &self.file) else { return Ok(()) };
        let text = report.spelt(self.json);
        let written = file.write_all_at(text.as_bytes(), 0);
        let written = written.and_then(|()| file.set_len(text.len() as u64));
        written.and_then(|()| file.sync_all()).map_err(|error| {
            let words = "the report could not be written; make the handover again with another one";
            Problem::System(format!("{}: {error}: {words}", name(path)))
        })
    }
}

/// How an image is cleared.
enum Way {
    /// These files are wiped.
    Wipes(Vec<File>),
    /// No file has to go: a commit replaces the deleted keys.
    Commit,
    /// It cannot be mounted, or its epochs are spent, and all of it may go.
    Format,
}

impl Way {
    /// Finds the way, or why there is none. Nothing is changed yet.
    fn of(file: &ImageFile, before: &Seen, keep: &[File], force: bool) -> Result<Way, Problem> {
        let record = match before.record() {
            Ok(record) => record,
            Err(_) if force && keep.is_empty() && has_headers(&before.image) => {
                return Ok(Way::Format);
            }
            Err(refusal) => return Err(image_file::refused(&file.named, refusal)),
        };
        if let Some(file) = keep.iter().find(|file| nodes_of(record, **file) == 0) {
            let words = format!("{file} has no node to keep; nothing was changed");
            return Err(Problem::Explained(Refusal::NothingThere, words));
        }
        let to_wipe = |file: &File| !keep.contains(file) && nodes_of(record, *file) > 0;
        let files: Vec<File> = File::all().filter(to_wipe).collect();
        let needed = (2 * files.len()).max(1);
        let left = (EPOCHS_END - record.next_epoch()) as usize;
        match (left < needed, force && keep.is_empty()) {
            (true, true) => Ok(Way::Format),
            (true, false) => {
                let words = format!(
                    "this takes {}, and {left} are left; nothing was changed; export what is \
                     needed, then `handover --force` formats the image",
                    counted(needed, "epoch")
                );
                Err(Problem::Explained(Refusal::NumbersSpent, words))
            }
            _ if files.is_empty() => Ok(Way::Commit),
            _ => Ok(Way::Wipes(files)),
        }
    }

    /// Clears the image, and notes what was done.
    fn go(&self, file: &ImageFile, keep: &[File], done: &mut Vec<String>) -> Result<(), Problem> {
        match self {
            Way::Format => format(file, done),
            Way::Wipes(files) => wipe(file, files, done),
            Way::Commit => {
                let mut device = mounted(file, done)?;
                device.commit(Noise::from_system()?).map_err(calls::told)?;
                done.push(match keep {
                    [] => "committed: no file had a node to wipe".into(),
                    _ => "committed: every file that has a node is kept".into(),
                });
                Ok(())
            }
        }
    }
}

/// Whether any page has a header of the store's.
fn has_headers(image: &[u8]) -> bool {
    Form::all(image).any(|form| form.header().is_some())
}

/// Formats an image that cannot be cleared otherwise.
fn format(file: &ImageFile, done: &mut Vec<String>) -> Result<(), Problem> {
    let mut device = calls::device(file)?;
    device.format(Noise::from_system()?).map_err(calls::told)?;
    done.push("formatted: every block erased, all keys new".into());
    Ok(())
}

/// Wipes these files.
fn wipe(image: &ImageFile, files: &[File], done: &mut Vec<String>) -> Result<(), Problem> {
    let mut device = mounted(image, done)?;
    for file in files {
        let nodes = device.record().map_or(0, |record| nodes_of(record, *file));
        device.wipe(file.start(), Noise::from_system()?).map_err(calls::told)?;
        done.push(format!("wiped: {file}, {}", counted(nodes, "node")));
    }
    Ok(())
}

/// The device, mounted. What the mount has erased is noted.
fn mounted(file: &ImageFile, done: &mut Vec<String>) -> Result<Device, Problem> {
    let mut said = Vec::new();
    let device = calls::mounted(file, &mut said)?;
    done.extend(String::from_utf8_lossy(&said).lines().map(String::from));
    Ok(device)
}

/// How many nodes a file has.
fn nodes_of(record: &Record, file: File) -> usize {
    record.nodes().filter(|node| node.at.file() == file).count()
}

/// What a report tells of an image.
impl Seen {
    fn hash(&self) -> String {
        sha256::hex(&self.image)
    }

    fn counts(&self) -> Option<KeyCounts> {
        self.record().ok().map(Record::counts)
    }

    /// The files that have nodes, with their numbers of nodes.
    fn files(&self) -> Vec<(File, usize)> {
        let Ok(record) = self.record() else { return Vec::new() };
        let counted = File::all().map(|file| (file, nodes_of(record, file)));
        counted.filter(|(_, nodes)| *nodes > 0).collect()
    }

    /// The blocks that are no part of the store, as a cut call leaves them.
    fn strays(&self) -> Vec<usize> {
        let mounted = self.mounted.as_ref().map(Store::image);
        mounted.map_or(Vec::new(), |image| Erasures::between(&self.image, image).strays)
    }

    /// Pages that no call looks at, and of which it cannot be told what is in them: those of keys and commits in
    /// blocks that are not chosen, and spoilt ones that no cut erase leaves, which begins with FFh.
    fn pages_in_question(&self) -> Vec<usize> {
        let Ok(record) = self.record() else { return Vec::new() };
        let [first, second] = record.key_blocks();
        let chosen = [first, second, record.commit_block()];
        let is_other = |(page, form): &(usize, Form)| {
            !chosen.contains(&(page / PAGES_IN_BLOCK))
                && matches!(form.header(), Some(Header::Keys { .. } | Header::Commit { .. }))
        };
        let others = Form::all(&self.image).enumerate().filter(is_other).map(|(page, _)| page);
        let spoilt = image_file::spoilt(&self.image).into_iter();
        let damaged = spoilt.filter(|page| self.image[PAGE * page] != 0xff);
        let mut pages: Vec<usize> = others.chain(damaged).collect();
        pages.sort_unstable();
        pages
    }

    /// The blocks that are not empty, not chosen, and have no live node.
    fn blocks_in_question(&self) -> Vec<usize> {
        let Ok(record) = self.record() else { return Vec::new() };
        let [first, second] = record.key_blocks();
        let mut known = vec![first, second, record.commit_block()];
        known.extend(record.nodes().map(|node| node.page / PAGES_IN_BLOCK));
        let blocks = self.image.chunks(BLOCK).enumerate();
        blocks.filter(|(b, bytes)| !known.contains(b) && !is_empty(bytes)).map(|(b, _)| b).collect()
    }

    /// How many pages are older copies of live nodes.
    fn older_copies(&self) -> usize {
        (0..self.image.len() / PAGE).filter(|page| self.is_older_copy(*page)).count()
    }

    /// How many pages have the header of a node that is not live, or of a cut-off; older copies of live nodes are
    /// not counted.
    fn dead_headers(&self) -> usize {
        let is_live = |page: usize| {
            self.record().is_ok_and(|record| record.nodes().any(|node| node.page == page))
        };
        let is_dead = |(page, form): &(usize, Form)| match form.header() {
            Some(Header::Node { .. }) => !is_live(*page) && !self.is_older_copy(*page),
            Some(Header::CutOff { .. }) => true,
            _ => false,
        };
        Form::all(&self.image).enumerate().filter(is_dead).count()
    }
}

/// Which kept nodes are not as they were.
fn changed(before: &Seen, after: &Seen, keep: &[File]) -> Vec<String> {
    let (Ok(old), Ok(new)) = (&before.mounted, &after.mounted) else { return Vec::new() };
    let nodes = old.record().nodes().filter(|node| keep.contains(&node.at.file()));
    let is_other = |at| old.read(at).ok() != new.read(at).ok();
    nodes.map(|node| node.at).filter(|at| is_other(*at)).map(|at| at.to_string()).collect()
}

/// The keys that were on the image before, those of kept nodes left out, and where they are found now.
fn search(before: &Seen, after: &Seen, keep: &[File]) -> (Vec<Found>, usize) {
    let kept: Vec<[u8; johvimaru::KEY]> = before.record().map_or(Vec::new(), |record| {
        let nodes = record.nodes().filter(|node| keep.contains(&node.at.file()));
        nodes.map(|node| keys::at(&before.image, record.key_bytes(node.key).start)).collect()
    });
    let search = Search::for_keys_on(&before.image, &kept);
    (search.through(&after.image), kept.len())
}
