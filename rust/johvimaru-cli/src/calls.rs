//! The calls that change the flash, on an image file. Each but format mounts first.

pub mod bus_trace;
mod gather;

use crate::args::Call;
use crate::erasures::Erasures;
use crate::image_file::{self, counted, name, ImageFile, BLOCKS};
use crate::{say, Problem};
use johvimaru::{
    Chip, Cut, CutChip, CutError, Driver, Failure, FileChip, MemoryChip, Noise, Offset, Payload,
    Record, Refusal, Store, BLOCK, MAX_BLOCKS, MIN_BLOCKS, PAYLOAD,
};
use std::fmt::Display;
use std::io::{self, IsTerminal, Read, Write};
use std::path::Path;

/// A recorder whose chip is a file, and whose power can be cut.
pub type Device = Driver<CutChip<FileChip>>;

/// How a call ended.
#[derive(Clone, Copy, PartialEq, Eq)]
enum End {
    Done,
    Cut,
}

/// Makes a call after a mount, and says what it has done.
pub fn run(path: &Path, call: Call, cut: Option<Cut>, out: &mut dyn Write) -> Result<(), Problem> {
    // What the arguments alone decide is tested before the file is touched.
    let ready = Ready::of(call)?;
    let file = match ready {
        Ready::Write(..) => open_or_make(path)?,
        _ => ImageFile::open(path)?,
    };
    let mut device = mounted(&file, out)?;
    let old = device.record().cloned();
    match make(&mut device, cut, |device| ready.make(device))? {
        End::Cut => say_cut(&device, out),
        End::Done => {
            say_done(&ready, old.as_ref(), &device, out)?;
            say_late_cut(&device, cut, out)
        }
    }
}

// ---- Format

/// Formats an image file, which is made where it is not there.
pub fn format(
    path: &Path,
    blocks: Option<usize>,
    force: bool,
    cut: Option<Cut>,
    out: &mut dyn Write,
) -> Result<(), Problem> {
    test_blocks(blocks)?;
    let Some(file) = ImageFile::find(path)? else {
        return format_new(path, blocks.unwrap_or(BLOCKS), cut, out);
    };
    if !force && !file.is_empty()? {
        let what = what_stands(&file)?;
        let words = format!("{what}; `format --force` makes an empty store of it");
        return Err(Problem::System(words));
    }
    let old = file.blocks()?;
    let blocks = blocks.or(old).unwrap_or(BLOCKS);
    if old != Some(blocks) {
        file.clear(blocks)?;
    }
    let mut device = device(&file)?;
    let end = make(&mut device, cut, |device| device.format(Noise::from_system()?).map_err(told))?;
    say_formatted(end, blocks, &device, cut, out)
}

/// Tests whether an image can have so many blocks, where a number is asked for.
fn test_blocks(blocks: Option<usize>) -> Result<(), Refusal> {
    match blocks.is_none_or(|blocks| (MIN_BLOCKS..=MAX_BLOCKS).contains(&blocks)) {
        true => Ok(()),
        false => Err(Refusal::ImageSize),
    }
}

/// What stands in a file, in words.
fn what_stands(file: &ImageFile) -> Result<String, Problem> {
    match file.bytes().and_then(|bytes| image_file::mount(&file.named, &bytes)) {
        Ok(store) => {
            let nodes = counted(store.record().nodes().count(), "live node");
            let last = store.record().next_sequence() - 1;
            Ok(format!("{} holds a store with {nodes}, last sequence {last}", name(&file.named)))
        }
        Err(problem @ Problem::System(_)) => Err(problem),
        Err(problem) => Ok(problem.to_string()),
    }
}

/// Formats a file that is not there: the file comes into its folder as the call leaves it.
fn format_new(
    path: &Path,
    blocks: usize,
    cut: Option<Cut>,
    out: &mut dyn Write,
) -> Result<(), Problem> {
    let chip = MemoryChip::new(vec![0xff; BLOCK * blocks]);
    let mut device = Driver::new(CutChip::new(chip));
    let format = |device: &mut Driver<_>| device.format(Noise::from_system()?).map_err(told);
    let end = make(&mut device, cut, format)?;
    if !image_file::make(path, device.chip().inner().bytes())? {
        return Err(Problem::System(format!(
            "{} was made by another command meanwhile; nothing was done",
            name(path)
        )));
    }
    say_formatted(end, blocks, &device, cut, out)
}

fn say_formatted<C: Chip>(
    end: End,
    blocks: usize,
    device: &Driver<CutChip<C>>,
    cut: Option<Cut>,
    out: &mut dyn Write,
) -> Result<(), Problem> {
    match end {
        End::Cut => say_cut(device, out),
        End::Done => {
            writeln!(out, "formatted: {blocks} blocks, all keys new")?;
            say_late_cut(device, cut, out)
        }
    }
}

/// The file, which is made as an empty store where it is not there.
fn open_or_make(path: &Path) -> Result<ImageFile, Problem> {
    if let Some(file) = ImageFile::find(path)? {
        return Ok(file);
    }
    let empty = vec![0xff; BLOCK * BLOCKS];
    let store = Store::format(empty, Noise::from_system()?).map_err(Refusal::from)?;
    if image_file::make(path, store.image())? {
        say(format!("{} was not there; made, {BLOCKS} blocks", name(path)));
    }
    ImageFile::open(path)
}

// ---- Mount, and what the calls after it need

/// Mounts, and nothing more. All that it has erased is told, the empty blocks by their number.
pub fn mount(path: &Path, cut: Option<Cut>, out: &mut dyn Write) -> Result<(), Problem> {
    let file = ImageFile::open(path)?;
    let before = file.bytes()?;
    let mut device = device(&file)?;
    match mount_device(&mut device, &file.named, cut)? {
        End::Done => {
            match Erasures::between(&before, device.mirror()).in_words() {
                Some(blocks) => writeln!(out, "mounted: erased {blocks}")?,
                None => writeln!(out, "mounted: nothing to erase")?,
            }
            say_late_cut(&device, cut, out)
        }
        End::Cut => say_cut(&device, out),
    }
}

/// A device that is mounted, on a file. What the mount has erased is told, but for blocks that were empty: those it
/// erases each time.
pub fn mounted(file: &ImageFile, out: &mut dyn Write) -> Result<Device, Problem> {
    let before = file.bytes()?;
    let mut device = device(file)?;
    mount_device(&mut device, &file.named, None)?;
    for line in Erasures::between(&before, device.mirror()).lines() {
        writeln!(out, "{line}")?;
    }
    Ok(device)
}

/// A call that comes after a mount, its arguments tested as far as they can be without an image.
enum Ready {
    Write(Offset, Box<Payload>),
    CutOff(Offset),
    Gather(Option<usize>),
    Commit,
    Wipe(Offset),
}

impl Ready {
    fn of(call: Call) -> Result<Ready, Problem> {
        Ok(match call {
            Call::Write { file, offset, text } => {
                let at = offset_in(file, offset)?;
                let bytes = text.map_or_else(standard_input, Ok)?;
                Ready::Write(at, Box::new(fitting(&bytes)?))
            }
            Call::CutOff { file, offset } => Ready::CutOff(offset_in(file, offset)?),
            Call::Wipe { file, offset } => Ready::Wipe(offset_in(file, offset)?),
            Call::Gather(block) => Ready::Gather(block.map(|block| block as usize)),
            Call::Commit => Ready::Commit,
        })
    }

    fn make<C: Chip<Error: Display>>(
        &self,
        device: &mut Driver<CutChip<C>>,
    ) -> Result<(), Problem> {
        match self {
            Ready::Write(at, payload) => device.write(*at, payload),
            Ready::CutOff(from) => device.cut_off(*from),
            Ready::Gather(block) => return gather::make(device, *block),
            Ready::Commit => device.commit(Noise::from_system()?),
            Ready::Wipe(from) => device.wipe(*from, Noise::from_system()?),
        }
        .map_err(told)
    }
}

/// As many bytes as make it plain whether a payload is too long.
fn standard_input() -> Result<Vec<u8>, Problem> {
    if io::stdin().is_terminal() {
        say("type the payload; Ctrl-D at the start of a line ends it");
    }
    let mut bytes = Vec::new();
    io::stdin().lock().take(PAYLOAD as u64 + 1).read_to_end(&mut bytes)?;
    Ok(bytes)
}

/// The offset of these numbers. A refusal says how many the file has.
pub fn offset_in(file: u32, offset: u32) -> Result<Offset, Problem> {
    let file = johvimaru::File::new(file)?;
    file.offset(offset).map_err(|refusal| {
        let count = file.count();
        let words = format!("{file} has {count} offsets, 0 to {}, and no {offset}", count - 1);
        Problem::Explained(refusal, words)
    })
}

/// The payload of these bytes. A refusal says how many there may be, and what to do.
pub fn fitting(bytes: &[u8]) -> Result<Payload, Problem> {
    Payload::new(bytes).map_err(|refusal| {
        let words = match bytes.is_empty() {
            true => format!(
                "there is nothing to write: a payload has 1 to {PAYLOAD} bytes; cut-off or wipe \
                 removes what is there"
            ),
            false => {
                format!("a payload has at most {PAYLOAD} bytes, and this has more; use two offsets")
            }
        };
        Problem::Explained(refusal, words)
    })
}

// ---- The device

/// A device on a file, not yet mounted.
pub fn device(file: &ImageFile) -> Result<Device, Problem> {
    Ok(Driver::new(CutChip::new(file.chip()?)))
}

/// Mounts the device. A refusal is one of the file.
fn mount_device<C: Chip<Error: Display>>(
    device: &mut Driver<CutChip<C>>,
    path: &Path,
    cut: Option<Cut>,
) -> Result<End, Problem> {
    let end = make(device, cut, |device| device.mount().map_err(told));
    end.map_err(|problem| match problem {
        Problem::Refused(refusal) => image_file::refused(path, refusal),
        other => other,
    })
}

/// Makes a call, with the power cut where that is asked.
fn make<C: Chip>(
    device: &mut Driver<CutChip<C>>,
    cut: Option<Cut>,
    call: impl FnOnce(&mut Driver<CutChip<C>>) -> Result<(), Problem>,
) -> Result<End, Problem> {
    match cut {
        Some(cut) => device.chip_mut().cut_at(cut),
        None => device.chip_mut().power_on(),
    }
    match call(device) {
        Ok(()) => Ok(End::Done),
        Err(_) if device.chip().is_off() => Ok(End::Cut),
        Err(problem) => Err(problem),
    }
}

/// A failure of the device as the command tells it.
pub fn told<E: Display>(failure: Failure<CutError<E>>) -> Problem {
    match failure {
        Failure::Refused(refusal) => Problem::Refused(refusal),
        Failure::Chip(CutError::Chip(error)) => Problem::System(format!("the image file: {error}")),
        other => Problem::System(other.to_string()),
    }
}

// ---- What was done, in words

fn say_cut<C: Chip>(device: &Driver<CutChip<C>>, out: &mut dyn Write) -> Result<(), Problem> {
    let (steps, bytes) = (device.chip().steps(), device.chip().cut_bytes());
    writeln!(out, "the power failed after {} and {bytes} bytes of one more", whole_steps(steps))?;
    Ok(())
}

/// Says of a call that was done that the cut came too late for it.
fn say_late_cut<C: Chip>(
    device: &Driver<CutChip<C>>,
    cut: Option<Cut>,
    out: &mut dyn Write,
) -> Result<(), Problem> {
    if cut.is_some() {
        let steps = whole_steps(device.chip().steps());
        writeln!(out, "the call was done before the cut: it has {steps}")?;
    }
    Ok(())
}

fn whole_steps(steps: u64) -> String {
    format!("{steps} whole step{}", if steps == 1 { "" } else { "s" })
}

fn say_done(
    ready: &Ready,
    old: Option<&Record>,
    device: &Device,
    out: &mut dyn Write,
) -> Result<(), Problem> {
    let (Some(old), Some(new)) = (old, device.record()) else { return Ok(()) };
    let gone = old.nodes().filter(|node| new.node(node.at).is_none()).count();
    let removed = |from: &Offset| {
        format!("{} of {} from offset {} on", counted(gone, "node"), from.file(), from.number())
    };
    match ready {
        Ready::Write(at, payload) => {
            if let Some(node) = new.node(*at) {
                let bytes = counted(payload.len(), "byte");
                writeln!(out, "written: {at}, {bytes}, page {}, key {}", node.page, node.key)?;
            }
        }
        Ready::CutOff(from) => {
            writeln!(out, "removed: {}", removed(from))?;
            writeln!(out, "their keys are deleted, and on the image until a commit")?;
        }
        Ready::Wipe(from) => {
            writeln!(out, "wiped: {}", removed(from))?;
            writeln!(out, "each key that no node has is a new one")?;
        }
        Ready::Gather(_) => out.write_all(gather::in_words(old, new).as_bytes())?,
        Ready::Commit => writeln!(out, "committed: each key that no node has is a new one")?,
    }
    Ok(())
}
