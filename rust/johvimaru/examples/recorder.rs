//! A recorder's life: it logs draughts, its power fails in a write, and at the quay it is handed over.
//!
//! `cargo run --release --offline --manifest-path rust/Cargo.toml --example recorder` prints:
//!
//! ```text
//! logged: 3 draughts, the last "draught 6.80 m"
//! the power failed after 100 bytes of the page of the next one
//! mounted: 3 draughts, the last "draught 6.80 m"
//! old keys: 4, on the chip: 4
//! handed over: all files wiped, 0 nodes left, 448 keys free
//! old keys: 4, on the chip: 0
//! ```

use johvimaru::{Cut, CutChip, Driver, Failure, File, Letter, MemoryChip, Noise, Refusal};
use johvimaru::{Record, BLOCK, KEYS};
use std::error::Error;

/// The file of the draughts.
const DRAUGHTS: u32 = 0;

/// A chip in memory, of which the power can be cut. A recorder has a `Chip` of its own here.
type Device = Driver<CutChip<MemoryChip>>;

/// Writes a draught behind those that are there. Where keys or pages have run out, a commit brings more.
fn log(device: &mut Device, text: &str) -> Result<(), Box<dyn Error>> {
    let at = File::new(DRAUGHTS)?.offset(draughts(device)?.len() as u32)?;
    match device.write(at, text.as_bytes()) {
        Err(Failure::Refused(Refusal::NoFreeKey | Refusal::NoRoom)) => {
            device.commit(Noise::from_system()?)?;
            Ok(device.write(at, text.as_bytes())?)
        }
        reply => Ok(reply?),
    }
}

/// The draughts that were logged, in their order.
fn draughts(device: &Device) -> Result<Vec<String>, Box<dyn Error>> {
    let mut texts = Vec::new();
    for at in File::new(DRAUGHTS)?.offsets() {
        match device.read(at) {
            Err(Failure::Refused(Refusal::NothingThere)) => break,
            payload => texts.push(String::from_utf8_lossy(&payload?).into_owned()),
        }
    }
    Ok(texts)
}

fn summary(device: &Device) -> Result<String, Box<dyn Error>> {
    let texts = draughts(device)?;
    Ok(format!("{} draughts, the last {:?}\n", texts.len(), texts.last().ok_or("none")?))
}

/// The keys that have enciphered something, the one of the lost draught among them.
fn old_keys(device: &Device, record: &Record) -> Vec<Vec<u8>> {
    let old = (0..KEYS).filter(|&position| record.letter(position) != Letter::Free);
    old.map(|position| device.mirror()[record.key_bytes(position)].to_vec()).collect()
}

/// Looks for these keys in every byte of the chip.
fn search(device: &Device, keys: &[Vec<u8>]) -> String {
    let bytes = device.chip().inner().bytes();
    let is_there = |key: &&Vec<u8>| bytes.windows(key.len()).any(|part| part == &key[..]);
    format!("old keys: {}, on the chip: {}\n", keys.len(), keys.iter().filter(is_there).count())
}

/// What is logged, lost, found again and forgotten.
pub fn text() -> Result<String, Box<dyn Error>> {
    let mut device = Driver::new(CutChip::new(MemoryChip::new(vec![0xff; 32 * BLOCK])));
    device.format(Noise::from_system()?)?;
    for draught in ["draught 4.12 m", "draught 5.35 m", "draught 6.80 m"] {
        log(&mut device, draught)?;
    }
    let mut text = format!("logged: {}", summary(&device)?);

    device.chip_mut().cut_at(Cut { n: 0, k: 100 });
    let lost = log(&mut device, "draught 6.95 m");
    assert!(lost.is_err() && device.chip().is_off());
    text += "the power failed after 100 bytes of the page of the next one\n";

    device.chip_mut().power_on();
    device.mount()?;
    text += &format!("mounted: {}", summary(&device)?);

    let keys = old_keys(&device, device.record().ok_or("not mounted")?);
    text += &search(&device, &keys);
    for file in File::all() {
        device.wipe(file.start(), Noise::from_system()?)?;
    }
    let record = device.record().ok_or("not mounted")?;
    let (nodes, free) = (record.nodes().count(), record.counts().free);
    text += &format!("handed over: all files wiped, {nodes} nodes left, {free} keys free\n");
    Ok(text + &search(&device, &keys))
}

fn main() -> Result<(), Box<dyn Error>> {
    print!("{}", text()?);
    Ok(())
}
