//! How often each block is erased and programmed, by commits and by mounts.
//!
//! `cargo run --release --offline --manifest-path rust/Cargo.toml --example wear`

use johvimaru::{Chip, Driver, Failure, MemoryChip, Misuse, Noise, Offset, Page, Refusal};
use johvimaru::{BLOCK, NOISE, PAGES_IN_BLOCK, PAYLOAD, PLACES};
use std::error::Error;

/// The commits of a run, and the blocks of its chip.
const COMMITS: usize = 200;
const BLOCKS: usize = 16;

const HEAD: &str = "        8 writes before each          64 writes before each
block   erases programs with mounts   erases programs with mounts
";

/// The sizes whose mounts are counted.
const SIZES: [usize; 6] = [8, 16, 19, 32, 64, 256];

const HEAD_OF_MOUNTS: &str = "erases of one mount
blocks  formatted  224 nodes
";

/// What was done to a block.
#[derive(Clone, Copy, Default, PartialEq, Eq)]
struct Wear {
    erases: usize,
    programs: usize,
}

/// A chip that counts.
struct Counting {
    chip: MemoryChip,
    wear: Vec<Wear>,
}

impl Chip for Counting {
    type Error = Misuse;

    fn blocks(&self) -> usize {
        self.chip.blocks()
    }

    fn read(&mut self, page: usize, bytes: &mut Page) -> Result<(), Misuse> {
        self.chip.read(page, bytes)
    }

    fn program(&mut self, page: usize, bytes: &Page) -> Result<(), Misuse> {
        self.wear[page / PAGES_IN_BLOCK].programs += 1;
        self.chip.program(page, bytes)
    }

    fn erase(&mut self, block: usize) -> Result<(), Misuse> {
        self.wear[block].erases += 1;
        self.chip.erase(block)
    }
}

fn noise() -> Result<Noise, Refusal> {
    Noise::new(&[7; NOISE])
}

type Device = Driver<Counting>;

/// A device that was just formatted, which is not counted.
fn formatted(blocks: usize) -> Result<Device, Box<dyn Error>> {
    let chip = MemoryChip::new(vec![0xff; BLOCK * blocks]);
    let mut device = Driver::new(Counting { chip, wear: vec![Wear::default(); blocks] });
    device.format(noise()?)?;
    device.chip_mut().wear.fill(Wear::default());
    Ok(device)
}

/// Writes the nodes of file 0 in their order, and commits after so many writes. With mounts, the power comes on
/// before these writes each time.
fn run(blocks: usize, writes: usize, mounts: bool) -> Result<Vec<Wear>, Box<dyn Error>> {
    let mut device = formatted(blocks)?;
    let mut offsets = (0..32).cycle();
    for _ in 0..COMMITS {
        if mounts {
            device.mount()?;
        }
        for offset in offsets.by_ref().take(writes) {
            device.write(Offset::new(0, offset)?, &[b'x'; PAYLOAD])?;
        }
        device.commit(noise()?)?;
    }
    Ok(device.into_chip().wear)
}

/// How often each block was erased by a call.
fn erased_by<E: Error + 'static>(
    device: &mut Device,
    call: impl FnOnce(&mut Device) -> Result<(), E>,
) -> Result<Vec<usize>, Box<dyn Error>> {
    let before = device.chip().wear.clone();
    call(device)?;
    let wear = device.chip().wear.iter().zip(before);
    Ok(wear.map(|(new, old)| new.erases - old.erases).collect())
}

/// How often one block is erased at most, in one commit or wipe and in one mount, in a run with all of them in turn.
fn most_in_one_call() -> Result<[usize; 2], Box<dyn Error>> {
    let mut device = formatted(BLOCKS)?;
    let mut most = [0; 2];
    for round in 0..COMMITS as u32 {
        for offset in 0..32 {
            device.write(Offset::new(0, (7 * offset + round) % 32)?, &[b'x'; PAYLOAD])?;
        }
        let (from, noise) = (Offset::new(0, round % 32)?, noise()?);
        let purged = erased_by(&mut device, |device| match round % 2 {
            0 => device.commit(noise),
            _ => device.wipe(from, noise),
        })?;
        let mounted = erased_by(&mut device, Driver::mount)?;
        for (most, erased) in most.iter_mut().zip([purged, mounted]) {
            *most = erased.into_iter().max().unwrap_or(0).max(*most);
        }
    }
    Ok(most)
}

/// How many blocks one mount erases: after a format, and with all nodes written in their order, where there is room.
fn mounts() -> Result<String, Box<dyn Error>> {
    let mut text = String::from(HEAD_OF_MOUNTS);
    for blocks in SIZES {
        let mut device = formatted(blocks)?;
        let formatted: usize = erased_by(&mut device, Driver::mount)?.iter().sum();
        let full = |device: &mut Device| {
            (0..PLACES).try_for_each(|place| {
                let at = Offset::at_place(place).ok_or(Refusal::OffsetOutside)?;
                device.write(at, &[b'x'; PAYLOAD])
            })
        };
        let full = match full(&mut device) {
            Ok(()) => erased_by(&mut device, Driver::mount)?.iter().sum::<usize>().to_string(),
            Err(Failure::Refused(Refusal::NoRoom)) => "no room".into(),
            Err(failure) => return Err(failure.into()),
        };
        text += &format!("{blocks:6} {formatted:10} {full:>10}\n");
    }
    Ok(text)
}

/// The counts of each block without mounts and its erases with them, for two numbers of writes before a commit.
fn table() -> Result<String, Box<dyn Error>> {
    let runs = [run(BLOCKS, 8, false)?, run(BLOCKS, 64, false)?];
    let mounted = [run(BLOCKS, 8, true)?, run(BLOCKS, 64, true)?];
    let used = |block: &usize| runs.iter().any(|run| run[*block] != Wear::default());
    let last = (0..BLOCKS).rfind(used).unwrap_or(0);
    let mut text = format!("{BLOCKS} blocks, {COMMITS} commits\n{HEAD}");
    for block in 0..=last {
        text += &format!("{block:5}");
        for (wear, mounted) in runs.iter().map(|run| run[block]).zip(&mounted) {
            let (erases, programs) = (wear.erases, wear.programs);
            text += &format!(" {erases:8} {programs:8} {:11}", mounted[block].erases);
        }
        text += "\n";
    }
    text += &format!("blocks {} to {}: nothing, ", last + 1, BLOCKS - 1);
    let spare: Vec<usize> =
        mounted.iter().flat_map(|run| run[last + 1..].iter().map(|wear| wear.erases)).collect();
    let most = spare.iter().max().unwrap_or(&0);
    text += &format!("with mounts at most {most} erases each\n");
    let larger = [run(2 * BLOCKS, 8, false)?, run(2 * BLOCKS, 64, false)?];
    let same = runs.iter().zip(&larger).all(|(run, larger)| {
        run[..] == larger[..BLOCKS] && larger[BLOCKS..].iter().all(|w| *w == Wear::default())
    });
    let words = if same { "the same blocks and numbers" } else { "other numbers" };
    Ok(text + &format!("{} blocks without mounts: {words}\n", 2 * BLOCKS))
}

/// What the chip has counted.
pub fn text() -> Result<String, Box<dyn Error>> {
    let [purged, mounted] = most_in_one_call()?;
    let text = table()? + &format!("erases of one block in one commit or wipe: at most {purged}\n");
    Ok(text + &format!("erases of one block in one mount: at most {mounted}\n") + &mounts()?)
}

fn main() -> Result<(), Box<dyn Error>> {
    print!("{}", text()?);
    Ok(())
}
