//! A handover, played on a chip in memory.

use crate::calls::told;
use crate::picture::{self, Shown};
use crate::seen::Seen;
use crate::Problem;
use johvimaru::{
    Cut, CutChip, CutError, Driver, Failure, File, MemoryChip, Misuse, Noise, Offset, Record,
    Refusal, BLOCK, KEY,
};
use std::io::Write;

/// The blocks of the chip.
const BLOCKS: usize = 8;
/// The files of draughts and of the track.
const DRAUGHTS: u32 = 0;
const TRACK: u32 = 2;

/// What the first firm writes.
const WRITTEN: [(u32, u32, &str); 5] = [
    (DRAUGHTS, 0, "draught fore 4.12 m"),
    (DRAUGHTS, 1, "draught mid 4.31 m"),
    (DRAUGHTS, 2, "draught aft 4.50 m"),
    (TRACK, 0, "track 51.92 N 4.48 E"),
    (TRACK, 1, "track 51.97 N 4.11 E"),
];
const OVERWRITTEN: (u32, u32, &str) = (DRAUGHTS, 0, "draught fore 6.80 m");
const LOST: (u32, u32, &str) = (TRACK, 1, "track 52.01 N 3.87 E");
const NEXT_FIRM: (u32, u32, &str) = (DRAUGHTS, 0, "draught fore 3.95 m");

/// Where the power fails: in the write after its header, in the wipe while key block 0 is copied.
const CUT_WRITE: Cut = Cut { n: 0, k: 100 };
const CUT_WIPE: Cut = Cut { n: 20, k: 100 };

type Device = Driver<CutChip<MemoryChip>>;

/// A key that enciphered something of the first firm's.
struct Noted {
    position: usize,
    bytes: [u8; KEY],
}

/// Plays the handover.
pub fn run(out: &mut dyn Write) -> Result<(), Problem> {
    let chip = MemoryChip::new(vec![0xff; BLOCK * BLOCKS]);
    let mut play = Play { device: Driver::new(CutChip::new(chip)), number: 0, out };
    play.format()?;
    play.first_firm()?;
    play.overwrite()?;
    play.cut_write()?;
    let noted = play.note_keys()?;
    let before = play.seen();
    play.cut_wipe(&noted)?;
    play.wipe_again(&noted)?;
    play.search(&noted)?;
    let after = play.seen();
    play.next_firm()?;
    play.pictures(&before, &after)
}

/// The play: the device, and where its words go.
struct Play<'a> {
    device: Device,
    number: usize,
    out: &'a mut dyn Write,
}

impl Play<'_> {
    // ---- Its parts

    fn format(&mut self) -> Result<(), Problem> {
        self.head("A recorder is formatted")?;
        self.device.format(Noise::from_system()?).map_err(told)?;
        let free = self.record().counts().free;
        self.say(&format!("{BLOCKS} blocks of 16 pages; {free} keys from the system's randomness"))
    }

    fn first_firm(&mut self) -> Result<(), Problem> {
        self.head("The first firm writes draughts and its track")?;
        for (file, offset, text) in WRITTEN {
            self.write(file, offset, text)?;
        }
        Ok(())
    }

    fn overwrite(&mut self) -> Result<(), Problem> {
        let (file, offset, text) = OVERWRITTEN;
        self.head(&format!("A draught is written again, at file {file} offset {offset}"))?;
        let old = self.node(file, offset)?;
        self.write(file, offset, text)?;
        self.say(&format!(
            "page {} still holds the old one, enciphered; key {} is now deleted",
            old.page, old.key
        ))
    }

    fn cut_write(&mut self) -> Result<(), Problem> {
        let (file, offset, text) = LOST;
        self.head(&format!("The power fails in a write, after {} of 256 bytes", CUT_WRITE.k))?;
        self.device.chip_mut().cut_at(CUT_WRITE);
        let at = Offset::new(file, offset)?;
        let result = self.device.write(at, text.as_bytes());
        self.expect_cut(result)?;
        let deleted = self.record_after_mount()?.counts().deleted;
        let text = self.text(file, offset)?;
        self.say(&format!("mounted: {at} still reads {text:?}"))?;
        self.say(&format!("the key that the torn page names is deleted too: {deleted} deleted now"))
    }

    /// Notes the keys that have enciphered anything: those that are used, and those that are deleted.
    fn note_keys(&mut self) -> Result<Vec<Noted>, Problem> {
        self.head("At the quay, before the handover")?;
        let record = self.record();
        let spent = (0..johvimaru::KEYS).filter(|&p| record.letter(p).letter() != 'f');
        let noted: Vec<Noted> = spent
            .map(|position| {
                let mut bytes = [0; KEY];
                bytes.copy_from_slice(&self.device.mirror()[record.key_bytes(position)]);
                Noted { position, bytes }
            })
            .collect();
        let positions: Vec<String> = noted.iter().map(|key| key.position.to_string()).collect();
        self.say(&format!("the firm's payloads were under keys {}", positions.join(" ")))?;
        self.say_texts()?;
        self.say_found(&noted)?;
        Ok(noted)
    }

    fn cut_wipe(&mut self, noted: &[Noted]) -> Result<(), Problem> {
        let Cut { n, k } = CUT_WIPE;
        self.head(&format!(
            "The draughts are wiped, and the power fails after {n} steps and {k} bytes"
        ))?;
        self.device.chip_mut().cut_at(CUT_WIPE);
        let result = self.device.wipe(File::new(DRAUGHTS)?.start(), Noise::from_system()?);
        self.expect_cut(result)?;
        let before = self.device.chip().inner().bytes().to_vec();
        let record = self.record_after_mount()?;
        let erased = crate::image_file::erased(&before, self.device.mirror());
        let blocks = crate::image_file::blocks_in_words(&erased);
        self.say(&format!("mounted: {blocks} erased, a copy of a key block that was not whole"))?;
        let nodes = record.nodes().count();
        self.say(&format!("the draughts are out of the index, {nodes} nodes are left"))?;
        self.say_found(noted)
    }

    fn wipe_again(&mut self, noted: &[Noted]) -> Result<(), Problem> {
        for (name, file) in [("draughts", DRAUGHTS), ("track", TRACK)] {
            self.head(&format!("The {name}, file {file}: wiped, to the end"))?;
            let start = File::new(file)?.start();
            self.device.wipe(start, Noise::from_system()?).map_err(told)?;
            let nodes = self.record().nodes().count();
            self.say(&format!("{nodes} nodes are left"))?;
            self.say_found(noted)?;
        }
        Ok(())
    }

    /// The proof by search: no old key begins at any byte.
    fn search(&mut self, noted: &[Noted]) -> Result<(), Problem> {
        self.head("The old keys are looked for, byte for byte")?;
        let chip = self.device.chip().inner().bytes();
        let found = noted.iter().filter(|key| contains(chip, &key.bytes)).count();
        let bytes = chip.len();
        if found > 0 {
            return Err(Problem::System(format!("{found} old keys are still on the chip")));
        }
        self.say(&format!("none of the {} keys begins at any of the {bytes} bytes", noted.len()))
    }

    fn next_firm(&mut self) -> Result<(), Problem> {
        let (file, offset, text) = NEXT_FIRM;
        self.head("The next firm writes")?;
        self.write(file, offset, text)?;
        let text = self.text(file, offset)?;
        self.say(&format!("file {file} offset {offset} reads {text:?}"))
    }

    fn pictures(&mut self, before: &Seen, after: &Seen) -> Result<(), Problem> {
        let shown = [("before the wipe", before), ("after it", after)]
            .map(|(title, seen)| Shown { title: title.into(), seen });
        writeln!(self.out)?;
        self.out.write_all(picture::text(&shown).as_bytes())?;
        Ok(())
    }

    // ---- What they use

    fn write(&mut self, file: u32, offset: u32, text: &str) -> Result<(), Problem> {
        let at = Offset::new(file, offset)?;
        self.device.write(at, text.as_bytes()).map_err(told)?;
        let node = self.node(file, offset)?;
        self.say(&format!("{at}: {text:?} on page {} under key {}", node.page, node.key))
    }

    /// A payload's text.
    fn text(&self, file: u32, offset: u32) -> Result<String, Problem> {
        let payload = self.device.read(Offset::new(file, offset)?).map_err(told)?;
        Ok(String::from_utf8_lossy(&payload).into_owned())
    }

    fn node(&self, file: u32, offset: u32) -> Result<johvimaru::Node, Problem> {
        let at = Offset::new(file, offset)?;
        self.record().node(at).ok_or(Problem::Refused(Refusal::NothingThere))
    }

    fn record(&self) -> Record {
        self.device.record().expect("the device is mounted").clone()
    }

    fn seen(&self) -> Seen {
        Seen::of(self.device.mirror().to_vec())
    }

    /// The power comes on, and the device mounts.
    fn record_after_mount(&mut self) -> Result<Record, Problem> {
        self.device.chip_mut().power_on();
        self.device.mount().map_err(told)?;
        Ok(self.record())
    }

    fn expect_cut(&mut self, result: Result<(), Failure<CutError<Misuse>>>) -> Result<(), Problem> {
        match result {
            Err(Failure::Chip(CutError::PowerCut)) => Ok(()),
            Err(other) => Err(told(other)),
            Ok(()) => Err(Problem::System("the call ended before the cut".into())),
        }
    }

    fn head(&mut self, text: &str) -> Result<(), Problem> {
        self.number += 1;
        Ok(writeln!(self.out, "{}. {text}", self.number)?)
    }

    fn say(&mut self, text: &str) -> Result<(), Problem> {
        Ok(writeln!(self.out, "   {text}")?)
    }

    /// Looks for the texts that were written.
    fn say_texts(&mut self) -> Result<(), Problem> {
        let chip = self.device.chip().inner().bytes();
        let texts = WRITTEN.iter().chain([&OVERWRITTEN, &LOST]);
        let found = texts.clone().filter(|(_, _, text)| contains(chip, text.as_bytes())).count();
        let all = texts.count();
        self.say(&format!("found on the chip: {found} of their {all} texts, which are enciphered"))
    }

    fn say_found(&mut self, noted: &[Noted]) -> Result<(), Problem> {
        let chip = self.device.chip().inner().bytes();
        let found = noted.iter().filter(|key| contains(chip, &key.bytes)).count();
        self.say(&format!("found on the chip: {found} of these {} keys", noted.len()))
    }
}

/// Whether some bytes stand anywhere in an image.
fn contains(image: &[u8], bytes: &[u8]) -> bool {
    image.windows(bytes.len()).any(|window| window == bytes)
}
