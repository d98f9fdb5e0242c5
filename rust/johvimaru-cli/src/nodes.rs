//! Payloads read, and the nodes of a file as lines: offset, tab, length, tab, payload in hexadecimal digits; or
//! offset, tab, payload as text.

use crate::calls::{self, fitting, offset_in};
use crate::image_file::{self, counted, ImageFile};
use crate::{say, Problem};
use johvimaru::{File, Offset, Payload, Record, Refusal, PAYLOAD};
use std::io::{self, IsTerminal, Read, Write};
use std::path::Path;

/// The first number that is no sequence.
const SEQUENCES_END: u64 = 100_000_000;

/// Reads a payload and prints its bytes. On a terminal a line's end follows where they have none, so that what
/// comes next stands on a line of its own, unless they are to be left as they are there too.
pub fn read(
    path: &Path,
    file: u32,
    offset: u32,
    raw: bool,
    out: &mut dyn Write,
) -> Result<(), Problem> {
    let at = offset_in(file, offset)?;
    let payload = image_file::mount(path, &image_file::look(path)?)?.read(at)?;
    out.write_all(&payload)?;
    if !raw && io::stdout().is_terminal() && !payload.ends_with(b"\n") {
        writeln!(out)?;
    }
    Ok(())
}

/// Prints the nodes of a file, a line each.
pub fn export(path: &Path, file: u32, text: bool, out: &mut dyn Write) -> Result<(), Problem> {
    let file = File::new(file)?;
    let store = image_file::mount(path, &image_file::look(path)?)?;
    let nodes: Vec<_> = store.record().nodes().filter(|node| node.at.file() == file).collect();
    for node in &nodes {
        let payload = store.read(node.at)?;
        let offset = node.at.number();
        match text {
            true => writeln!(out, "{offset}\t{}", as_text(&payload))?,
            false => writeln!(out, "{offset}\t{}\t{}", payload.len(), as_digits(&payload))?,
        }
    }
    say(format!("{} of {file}", counted(nodes.len(), "node")));
    Ok(())
}

/// Writes the nodes of such lines from standard input, all or none of them unless it is stopped.
pub fn import(path: &Path, file: u32, text: bool, out: &mut dyn Write) -> Result<(), Problem> {
    let file = File::new(file)?;
    let mut lines = Vec::new();
    io::stdin().lock().read_to_end(&mut lines)?;
    let nodes = parsed(file, text, &lines)?;
    let image = ImageFile::open(path)?;
    let mut device = calls::mounted(&image, out)?;
    if let (Some(record), Some(pages)) = (device.record(), device.pages_left()) {
        room_for(nodes.len(), record, pages)?;
    }
    for (at, payload) in &nodes {
        device.write(*at, payload).map_err(calls::told)?;
    }
    Ok(writeln!(out, "imported: {} of {file}", counted(nodes.len(), "node"))?)
}

/// Refuses more nodes than there is room for.
fn room_for(nodes: usize, record: &Record, pages: usize) -> Result<(), Problem> {
    let none = |refusal, left: usize, of: &str| {
        let words = format!(
            "{} wanted, and {} left; nothing was written; a commit may bring more",
            counted(nodes, "node"),
            counted(left, of)
        );
        Err(Problem::Explained(refusal, words))
    };
    let free = record.counts().free;
    match () {
        () if SEQUENCES_END - u64::from(record.next_sequence()) < nodes as u64 => {
            Err(Refusal::NumbersSpent.into())
        }
        () if free < nodes => none(Refusal::NoFreeKey, free, "free key"),
        () if pages < nodes => none(Refusal::NoRoom, pages, "page"),
        () => Ok(()),
    }
}

// ---- Lines

/// The nodes of lines.
fn parsed(file: File, text: bool, lines: &[u8]) -> Result<Vec<(Offset, Payload)>, Problem> {
    let mut nodes: Vec<(Offset, Payload)> = Vec::new();
    let lines = lines.strip_suffix(b"\n").unwrap_or(lines);
    if lines.is_empty() {
        return Ok(nodes);
    }
    for (number, line) in lines.split(|&byte| byte == b'\n').enumerate() {
        // An editor may have ended the lines so. Export writes no such byte in a line.
        let line = line.strip_suffix(b"\r").unwrap_or(line);
        let node = node_of(file, text, line).map_err(|problem| in_line(number + 1, problem))?;
        if nodes.iter().any(|(at, _)| *at == node.0) {
            let twice = Problem::System(format!("offset {} stands twice", node.0.number()));
            return Err(in_line(number + 1, twice));
        }
        nodes.push(node);
    }
    Ok(nodes)
}

/// A problem with a line of the input.
fn in_line(number: usize, problem: Problem) -> Problem {
    let at = |words: String| format!("line {number}: {words}; nothing was written");
    match problem {
        Problem::Refused(refusal) => Problem::Explained(refusal, at(refusal.to_string())),
        Problem::Explained(refusal, words) => Problem::Explained(refusal, at(words)),
        other => Problem::System(at(other.to_string())),
    }
}

/// The node of a line.
fn node_of(file: File, text: bool, line: &[u8]) -> Result<(Offset, Payload), Problem> {
    let wrong = |words: &str| Problem::System(words.into());
    let tab = line.iter().position(|&byte| byte == b'\t');
    let (offset, payload) = line.split_at(tab.ok_or(wrong("there is no tab"))?);
    let digits = std::str::from_utf8(offset).ok().filter(|text| is_number(text));
    let offset =
        digits.and_then(|text| text.parse().ok()).ok_or(wrong("the offset is no number"))?;
    let at = offset_in(file.number(), offset)?;
    let digits = from_length_and_digits(&payload[1..]);
    let bytes = match (text, digits) {
        (true, Some(_)) => return Err(wrong("these are hexadecimal digits: leave --text out")),
        (true, None) => from_text(&payload[1..])
            .ok_or(wrong("a backslash stands before what it does not go with"))?,
        (false, digits) => digits.ok_or(wrong(
            "after the offset stands no length, tab and two hexadecimal digits for each byte; \
             is it text? then give --text",
        ))?,
    };
    Ok((at, fitting(&bytes)?))
}

/// The payload that an export without `--text` has spelt: its length, a tab and its digits. Version 0.2.0 left the
/// length out, and had 224 bytes always.
fn from_length_and_digits(payload: &[u8]) -> Option<Vec<u8>> {
    let tab = payload.iter().position(|&byte| byte == b'\t');
    let (length, digits) = match tab {
        None => (PAYLOAD, payload),
        Some(tab) => {
            let length = std::str::from_utf8(&payload[..tab]).ok().filter(|text| is_number(text));
            (length?.parse().ok()?, &payload[tab + 1..])
        }
    };
    from_digits(digits).filter(|bytes| bytes.len() == length)
}

fn is_number(text: &str) -> bool {
    !text.is_empty() && text.bytes().all(|byte| byte.is_ascii_digit())
}

fn as_digits(bytes: &[u8]) -> String {
    bytes.iter().map(|byte| format!("{byte:02x}")).collect()
}

fn from_digits(digits: &[u8]) -> Option<Vec<u8>> {
    let digit = |byte: u8| char::from(byte).to_digit(16);
    let (pairs, []) = digits.as_chunks() else { return None };
    pairs.iter().map(|&[a, b]| Some((16 * digit(a)? + digit(b)?) as u8)).collect()
}

/// Bytes as a text of one line, in which a backslash begins what stands for something else. A space at the end is
/// spelt so too: it is seen then, and no editor takes it away.
fn as_text(bytes: &[u8]) -> String {
    if let Some((b' ', before)) = bytes.split_last() {
        return inner_text(before) + &escaped(b" ");
    }
    inner_text(bytes)
}

fn inner_text(bytes: &[u8]) -> String {
    let mut text = String::new();
    for chunk in bytes.utf8_chunks() {
        for c in chunk.valid().chars() {
            match c {
                '\\' => text += "\\\\",
                '\t' => text += "\\t",
                '\n' => text += "\\n",
                '\r' => text += "\\r",
                c if c.is_control() => text += &escaped(c.encode_utf8(&mut [0; 4]).as_bytes()),
                c => text.push(c),
            }
        }
        text += &escaped(chunk.invalid());
    }
    text
}

fn escaped(bytes: &[u8]) -> String {
    bytes.iter().map(|byte| format!("\\x{byte:02x}")).collect()
}

/// The bytes of such a text.
fn from_text(text: &[u8]) -> Option<Vec<u8>> {
    let mut bytes = Vec::new();
    let mut rest = text;
    while let Some((&byte, after)) = rest.split_first() {
        rest = after;
        if byte != b'\\' {
            bytes.push(byte);
            continue;
        }
        let (&name, after) = rest.split_first()?;
        rest = after;
        match name {
            b'\\' => bytes.push(b'\\'),
            b't' => bytes.push(b'\t'),
            b'n' => bytes.push(b'\n'),
            b'r' => bytes.push(b'\r'),
            b'x' => {
                let digits;
                (digits, rest) = rest.split_at_checked(2)?;
                bytes.extend(from_digits(digits)?);
            }
            _ => return None,
        }
    }
    Some(bytes)
}

#[cfg(test)]
mod tests {
    use super::*;

    #[test]
    fn payloads_go_to_text_and_back() {
        let all: Vec<u8> = (0..=255).collect();
        let odd = "\u{85}öß \\x41\r\n".as_bytes();
        for bytes in [&all[..200], &all[100..], odd, b"a   ", b" ", b""] {
            let text = as_text(bytes);
            assert!(!text.contains(['\n', '\t', '\r']) && !text.ends_with(' '), "{text}");
            assert_eq!(from_text(text.as_bytes()).as_deref(), Some(bytes));
            assert_eq!(from_digits(as_digits(bytes).as_bytes()).as_deref(), Some(bytes));
        }
        assert_eq!(as_text(b"a\\b\x01\xff"), "a\\\\b\\x01\\xff");
        assert_eq!(as_text(b" a  "), " a \\x20");
    }

    const NO_DIGITS: &str = "line 1: after the offset stands no length, tab and two hexadecimal \
                             digits for each byte; is it text? then give --text; nothing was \
                             written";

    /// Lines of version 0.2.0, which had 224 bytes always and left spaces out of a text's end.
    #[test]
    fn lines_of_older_exports() {
        let file = File::new(2).unwrap();
        let digits = format!("3\t{}{}\n", "41".repeat(4), "20".repeat(220));
        let nodes = parsed(file, false, digits.as_bytes()).unwrap();
        assert_eq!(nodes[0].1, [&b"AAAA"[..], &[b' '; 220]].concat()[..]);
        assert!(parsed(file, true, digits.as_bytes()).is_err(), "they are no text");
        assert!(parsed(file, false, &digits.as_bytes()[..440]).is_err(), "a line without its end");
        assert_eq!(parsed(file, true, b"3\tAAAA\n").unwrap()[0].1, b"AAAA");
    }

    #[test]
    fn lines_that_are_wrong() {
        let file = File::new(2).unwrap();
        for (text, lines, said) in [
            (false, "0 00", "line 1: there is no tab; nothing was written"),
            (true, "0\ta\n\n", "line 2: there is no tab; nothing was written"),
            (false, "x\t00", "line 1: the offset is no number; nothing was written"),
            (false, "+1\t00", "line 1: the offset is no number; nothing was written"),
            (false, "0\t41", NO_DIGITS),
            (false, "0\t1\t0g", NO_DIGITS),
            (false, "0\t1\t4141", NO_DIGITS),
            (false, "0\t2\t41", NO_DIGITS),
            (false, "0\t+1\t41", NO_DIGITS),
            (false, "0\t1\t41\t", NO_DIGITS),
            (false, "0\tdraught", NO_DIGITS),
            (true, "0\t1\t41", "line 1: these are hexadecimal digits: leave --text out; nothing"),
            (true, "0\t", "refused 6: line 1: there is nothing to write"),
            (false, "0\t0\t", "refused 6: line 1: there is nothing to write"),
            (true, "0\ta\n0\tb", "line 2: offset 0 stands twice; nothing was written"),
            (true, "24\ta", "refused 5: line 1: file 2 has 24 offsets, 0 to 23, and no 24"),
            (true, "0\ta\\b", "line 1: a backslash stands before what it does not go with"),
            (true, "0\ta\\x4", "line 1: a backslash stands before what it does not go with"),
            (true, "0\ta\\", "line 1: a backslash stands before what it does not go with"),
        ] {
            let problem = parsed(file, text, lines.as_bytes()).unwrap_err().to_string();
            assert!(problem.starts_with(said), "{lines:?}: {problem}");
        }
        let long = format!("0\t{}", "a".repeat(PAYLOAD + 1));
        let problem = parsed(file, true, long.as_bytes()).unwrap_err().to_string();
        assert!(problem.starts_with("refused 6: line 1: a payload has at most 224"), "{problem}");
        assert_eq!(parsed(file, true, b"").unwrap(), []);
        for lines in [&b"3\tx\n"[..], b"3\tx\r\n", b"3\tx"] {
            let expected = (Offset::new(2, 3).unwrap(), Payload::new(b"x").unwrap());
            assert_eq!(parsed(file, true, lines).unwrap(), [expected]);
        }
    }
}
