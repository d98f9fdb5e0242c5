//! Document 01's listing.

use crate::image_file;
use crate::json::Json;
use crate::Problem;
use johvimaru::{KeyCounts, Node, Record, Refusal, Store};
use std::io::Write;
use std::path::Path;

/// Prints the listing of an image file. Where its mount is refused, the number is printed.
pub fn run(path: &Path, json: bool, out: &mut dyn Write) -> Result<(), Problem> {
    match image_file::look(path).and_then(|image| image_file::mount(path, &image)) {
        Ok(store) if json => writeln!(out, "{}", as_json(&store)?)?,
        Ok(store) => out.write_all(text(store.record()).as_bytes())?,
        Err(problem) => {
            if let Problem::RefusedFile(_, refusal) = problem {
                match json {
                    true => writeln!(out, "{}", refused(refusal))?,
                    false => writeln!(out, "{:6}", refusal.number())?,
                }
            }
            return Err(problem);
        }
    }
    Ok(())
}

/// A refusal as JSON.
pub fn refused(refusal: Refusal) -> Json {
    Json::Object(vec![("refused", refusal.number().into())])
}

/// A node as JSON.
pub fn node(node: Node) -> Json {
    Json::Object(fields(node))
}

fn fields(node: Node) -> Vec<(&'static str, Json)> {
    vec![
        ("file", node.at.file().number().into()),
        ("offset", node.at.number().into()),
        ("page", node.page.into()),
        ("key", node.key.into()),
    ]
}

/// How many keys have each letter, as JSON.
pub fn keys(counts: KeyCounts) -> Json {
    Json::Object(vec![
        ("used", counts.used.into()),
        ("free", counts.free.into()),
        ("deleted", counts.deleted.into()),
    ])
}

/// The listing as JSON, in which each node has the length of its payload too.
fn as_json(store: &Store<Vec<u8>>) -> Result<Json, Problem> {
    let record = store.record();
    let with_length = |node: Node| {
        let mut fields = fields(node);
        fields.push(("length", store.read(node.at)?.len().into()));
        Ok(Json::Object(fields))
    };
    let nodes = record.nodes().map(with_length).collect::<Result<_, Problem>>()?;
    Ok(Json::Object(vec![("nodes", Json::List(nodes)), ("keys", keys(record.counts()))]))
}

/// A line for each node, by place, then how many keys have each letter.
pub fn text(record: &Record) -> String {
    let mut text = String::new();
    for node in record.nodes() {
        let (file, offset) = (node.at.file().number(), node.at.number());
        text += &format!("{file:4}{offset:4}{:6}{:6}\n", node.page, node.key);
    }
    let counts = record.counts();
    text + &format!("{:6}{:6}{:6}\n", counts.used, counts.free, counts.deleted)
}

#[cfg(test)]
mod tests {
    use super::*;
    use johvimaru::{Noise, Offset};

    #[test]
    fn the_case_of_document_01() -> Result<(), Refusal> {
        let mut store = Store::format(vec![0; 32_768], Noise::new(&[1; 7_168])?)?;
        for (file, offset) in [(0, 0), (2, 5), (0, 0)] {
            store.write(Offset::new(file, offset)?, &[b'x'; 224])?;
        }
        let expected = "   0   0    50     2\n   2   5    49     1\n     2   445     1\n";
        assert_eq!(text(store.record()), expected);
        Ok(())
    }
}
