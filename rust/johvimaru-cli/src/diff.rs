//! What has changed between two image files, in words or as JSON. No byte of a key or a payload is told.

use crate::changes::{listed, Blocks, ChangedNode, Changes, LeftKey, Nodes, Side, Told};
use crate::image_file::counted;
use crate::json::Json;
use crate::listing;
use crate::seen::SeenFile;
use crate::Problem;
use johvimaru::{File, KeyCounts, Letter, Node, Offset};
use std::io::Write;
use std::path::Path;

/// What is said where a mount is refused that would tell more.
const NOT_TOLD: &str = "not told, since a mount is refused";

/// Compares two image files, which must be there, and says what has changed. Then a refused mount is told.
pub fn run(old: &Path, new: &Path, json: bool, out: &mut dyn Write) -> Result<(), Problem> {
    let files = [SeenFile::there(old)?, SeenFile::there(new)?];
    let changes = Changes::between(&files[0].seen, &files[1].seen);
    match json {
        true => writeln!(out, "{}", as_json([old, new], &changes))?,
        false => {
            let names = files.each_ref().map(SeenFile::name);
            out.write_all(text(&names, &changes).as_bytes())?;
        }
    }
    files[0].refused().and(files[1].refused())
}

// ---- In words

fn text(names: &[String; 2], changes: &Changes) -> String {
    let mut lines = Vec::new();
    for ((when, name), side) in ["before", "now"].iter().zip(names).zip(&changes.sides) {
        lines.push(format!("{when}: {name}, {}", side_in_words(side)));
    }
    lines.push(bytes_in_words(changes));
    lines.extend(group("nodes", nodes_in_words(changes)));
    lines.extend(group("keys", keys_in_words(changes)));
    lines.extend(group("blocks", blocks_in_words(changes)));
    lines.extend(group("numbers", numbers_in_words(changes)));
    lines.join("\n") + "\n"
}

/// Whether the images are the same at all.
fn bytes_in_words(changes: &Changes) -> String {
    let [old, new] = changes.sides.each_ref().map(|side| side.blocks);
    match changes.bytes {
        0 if old == new => "bytes: no difference, the two are the same".into(),
        bytes => format!("bytes: {bytes} differ"),
    }
}

/// The lines of a group, set in below its name.
fn group(name: &str, lines: Vec<String>) -> Vec<String> {
    match lines.is_empty() {
        true => vec![format!("{name}: no difference")],
        false => {
            let set_in = lines.iter().map(|line| format!("  {line}"));
            [format!("{name}:")].into_iter().chain(set_in).collect()
        }
    }
}

fn side_in_words(side: &Side) -> String {
    let blocks = side.blocks;
    match &side.told {
        Ok(told) => format!("{blocks} blocks, {}", counted(told.nodes, "live node")),
        Err(refusal) => {
            format!("{blocks} blocks; mount refuses it, {}: {refusal}", refusal.number())
        }
    }
}

fn nodes_in_words(changes: &Changes) -> Vec<String> {
    let Some(Nodes { new, gone, changed }) = &changes.nodes else {
        let [old, new] = changes.sides.each_ref().map(|side| side.node_pages);
        return vec![NOT_TOLD.into(), format!("whole pages of nodes: {old} before, {new} now")];
    };
    let at = |nodes: &[Node]| nodes.iter().map(|node| node.at).collect::<Vec<Offset>>();
    let changed = |same: bool| {
        let changed = changed.iter().filter(move |node| node.same_payload == same);
        changed.map(|node| node.new.at).collect::<Vec<Offset>>()
    };
    [
        ("new", at(new)),
        ("gone", at(gone)),
        ("another payload", changed(false)),
        ("the same payload on another page or under another key", changed(true)),
    ]
    .iter()
    .flat_map(|(what, at)| by_file(what, at))
    .collect()
}

/// A line for each file that has one of these offsets.
fn by_file(what: &str, at: &[Offset]) -> Vec<String> {
    let line = |file: File| {
        let of_file = at.iter().filter(|at| at.file() == file);
        let numbers: Vec<usize> = of_file.map(|at| at.number() as usize).collect();
        (!numbers.is_empty()).then(|| format!("{what}: {file} {}", listed("offset", &numbers)))
    };
    File::all().filter_map(line).collect()
}

fn keys_in_words(changes: &Changes) -> Vec<String> {
    let counts = changes.sides.each_ref().map(|side| side.told.ok().map(|told| told.counts));
    let replaced = changes.replaced.as_ref();
    if replaced.is_some_and(Vec::is_empty) && counts[0] == counts[1] {
        return Vec::new();
    }
    let not_told = || format!("which are replaced is {NOT_TOLD}");
    let mut lines = vec![changes.replaced_in_words().unwrap_or_else(not_told)];
    lines.extend(both(counts.map(|counts| counts.map(counts_in_words)), "; "));
    lines.extend(changes.left_in_words());
    lines.extend(changes.left.iter().flat_map(|left| left_by_use(left)));
    lines
}

fn counts_in_words(counts: KeyCounts) -> String {
    format!("{} used, {} free, {} deleted", counts.used, counts.free, counts.deleted)
}

/// Which of the keys that were used or deleted are left, and how many of the free ones.
fn left_by_use(left: &[LeftKey]) -> Vec<String> {
    let of = |live| {
        let spent = left.iter().filter(move |key| key.letter != Letter::Free && key.live == live);
        spent.map(|key| key.position).collect::<Vec<usize>>()
    };
    let named = [
        ("of live nodes", of(Some(true))),
        ("of no live node", of(Some(false))),
        ("of nodes that may be live", of(None)),
    ];
    let free = left.iter().filter(|key| key.letter == Letter::Free).count();
    let named = named.iter().filter(|(_, keys)| !keys.is_empty());
    named
        .map(|(what, keys)| format!("  {what}: {}", listed("key", keys)))
        .chain((free > 0).then(|| format!("of those that were free, {free} are left")))
        .collect()
}

fn blocks_in_words(changes: &Changes) -> Vec<String> {
    let sizes = changes.sides.each_ref().map(|side| Some(format!("{} blocks", side.blocks)));
    let Blocks { erased, begun, written_on, other } = &changes.blocks;
    let named = [
        ("erased", erased),
        ("newly in use", begun),
        ("more pages written", written_on),
        ("other contents", other),
    ];
    let named = named.iter().filter(|(_, blocks)| !blocks.is_empty());
    let named = named.map(|(what, blocks)| format!("{what}: {}", listed("block", blocks)));
    both(sizes, ", ").into_iter().chain(named).collect()
}

/// The numbers that are not the same in both images.
fn numbers_in_words(changes: &Changes) -> Vec<String> {
    type Number = fn(&Told) -> usize;
    let numbers: [(&str, Number); 5] = [
        ("next sequence", |told| told.next_sequence as usize),
        ("next epoch", |told| told.next_epoch as usize),
        ("block of key block 0", |told| told.key_blocks[0]),
        ("block of key block 1", |told| told.key_blocks[1]),
        ("block of the commit", |told| told.commit_block),
    ];
    let line = |(name, number): (&str, Number)| {
        let told = changes.sides.each_ref().map(|side| side.told.as_ref().ok().map(number));
        let words = both(told.map(|number| number.map(|number| number.to_string())), ", ")?;
        Some(format!("{name}: {words}"))
    };
    let lines: Vec<String> = numbers.into_iter().filter_map(line).collect();
    match changes.sides.iter().all(|side| side.told.is_err()) {
        true => vec![NOT_TOLD.into()],
        false => lines,
    }
}

/// What was before and what is now, where they are not the same.
fn both(texts: [Option<String>; 2], between: &str) -> Option<String> {
    let [was, is] = texts;
    if was == is {
        return None;
    }
    let was = was.map(|was| format!("{was} before"));
    let is = is.map(|is| format!("{is} now"));
    Some(was.into_iter().chain(is).collect::<Vec<String>>().join(between))
}

// ---- As JSON

fn as_json(paths: [&Path; 2], changes: &Changes) -> Json {
    let [old, new] = [0, 1].map(|at| side_as_json(paths[at], &changes.sides[at]));
    let nodes = changes.nodes.as_ref().map_or(Json::Null, nodes_as_json);
    let positions = |keys: &Vec<usize>| Json::numbers(keys.iter().copied());
    let left = |keys: &Vec<LeftKey>| Json::List(keys.iter().map(left_as_json).collect());
    let Blocks { erased, begun, written_on, other } = &changes.blocks;
    Json::Object(vec![
        ("old", old),
        ("new", new),
        ("bytes_differing", changes.bytes.into()),
        ("nodes", nodes),
        ("keys_replaced", changes.replaced.as_ref().map_or(Json::Null, positions)),
        ("old_keys_left", changes.left.as_ref().map_or(Json::Null, left)),
        ("blocks_erased", positions(erased)),
        ("blocks_newly_in_use", positions(begun)),
        ("blocks_written_on", positions(written_on)),
        ("blocks_with_other_contents", positions(other)),
    ])
}

fn side_as_json(path: &Path, side: &Side) -> Json {
    let mut values = vec![
        ("image", path.display().to_string().into()),
        ("blocks", side.blocks.into()),
        ("node_pages", side.node_pages.into()),
    ];
    match &side.told {
        Err(refusal) => values.push(("refused", refusal.number().into())),
        Ok(told) => values.extend([
            ("live_nodes", told.nodes.into()),
            ("keys", listing::keys(told.counts)),
            ("next_sequence", told.next_sequence.into()),
            ("next_epoch", told.next_epoch.into()),
            ("key_blocks", Json::numbers(told.key_blocks)),
            ("commit_block", told.commit_block.into()),
        ]),
    }
    Json::Object(values)
}

fn nodes_as_json(nodes: &Nodes) -> Json {
    let list = |nodes: &[Node]| Json::List(nodes.iter().copied().map(listing::node).collect());
    let changed = |node: &ChangedNode| {
        Json::Object(vec![
            ("old", listing::node(node.old)),
            ("new", listing::node(node.new)),
            ("same_payload", node.same_payload.into()),
        ])
    };
    Json::Object(vec![
        ("new", list(&nodes.new)),
        ("gone", list(&nodes.gone)),
        ("changed", Json::List(nodes.changed.iter().map(changed).collect())),
    ])
}

fn left_as_json(key: &LeftKey) -> Json {
    Json::Object(vec![
        ("key", key.position.into()),
        ("letter", key.letter.letter().to_string().into()),
        ("live", key.live.map_or(Json::Null, Json::from)),
    ])
}
