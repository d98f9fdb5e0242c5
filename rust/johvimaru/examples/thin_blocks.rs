//! Which sizes of image are pinned by thin blocks: data blocks that cannot be erased, each for the few live
//! nodes on it.
//!
//! `cargo run --release --offline --manifest-path rust/Cargo.toml --example thin_blocks`

use johvimaru::{Noise, Offset, Refusal, Store};
use johvimaru::{BLOCK, NOISE, PAGES_IN_BLOCK, PAYLOAD, PLACES};
use std::error::Error;

/// Writes in the runs by chance and in order.
const WRITES: usize = 3_000;
/// The sizes that are tried.
const BLOCKS: [usize; 12] = [8, 18, 19, 20, 24, 32, 40, 48, 56, 64, 228, 229];

fn noise() -> Result<Noise, Refusal> {
    Noise::new(&[7; NOISE])
}

fn place(place: usize) -> Offset {
    Offset::at_place(place % PLACES).expect("it is below 224")
}

/// A store, and what was done on it.
struct Run {
    store: Store<Vec<u8>>,
    gathers: bool,
    commits: usize,
    copies: u32,
}

impl Run {
    /// An empty store, on which thin blocks are gathered or not.
    fn new(blocks: usize, gathers: bool) -> Result<Run, Refusal> {
        let store = Store::format(vec![0xff; BLOCK * blocks], noise()?)?;
        Ok(Run { store, gathers, commits: 0, copies: 0 })
    }

    /// Writes, and commits where the write is refused for want of a key or a page.
    fn write(&mut self, at: Offset) -> Result<(), Refusal> {
        if self.gathers && self.store.pages_left() <= PAGES_IN_BLOCK {
            self.make_room()?;
        }
        match self.store.write(at, &[b'x'; PAYLOAD]) {
            Err(Refusal::NoFreeKey | Refusal::NoRoom) => {
                self.commit()?;
                self.store.write(at, &[b'x'; PAYLOAD])
            }
            reply => reply,
        }
    }

    /// Gathers blocks, from the thinnest on, as long as there is room for their copies, and commits, which gives
    /// these blocks back. A block whose pages are all live would bring nothing.
    fn make_room(&mut self) -> Result<(), Refusal> {
        let before = self.store.record().next_sequence();
        let live = self.store.live_pages();
        for block in self.store.record().thin_blocks() {
            if live[block] < PAGES_IN_BLOCK {
                match self.store.gather(block) {
                    Err(Refusal::NoRoom) => {}
                    reply => reply?,
                }
            }
        }
        self.copies += self.store.record().next_sequence() - before;
        self.commit()
    }

    fn commit(&mut self) -> Result<(), Refusal> {
        self.commits += 1;
        self.store.commit(noise()?)
    }

    /// Writes these places one after the other; after how many writes the image is pinned, if it is.
    fn written(&mut self, places: impl Iterator<Item = usize>) -> Result<Option<usize>, Refusal> {
        for (done, at) in places.enumerate() {
            match self.write(place(at)) {
                Err(Refusal::NoRoom) => return Ok(Some(done)),
                reply => reply?,
            }
        }
        Ok(None)
    }
}

/// Places in their order, over and over.
fn in_order() -> impl Iterator<Item = usize> {
    (0..PLACES).cycle().take(WRITES)
}

/// Places by chance, the same in every run.
fn by_chance() -> impl Iterator<Item = usize> {
    let next = |number: &u64| Some(number.wrapping_mul(6_364_136_223_846_793_005).wrapping_add(1));
    let numbers = std::iter::successors(Some(1_u64), next);
    numbers.map(|number| (number >> 33) as usize).take(WRITES)
}

/// One node that stays on each block, and then one that is written again and again until the block is full.
fn on_purpose() -> impl Iterator<Item = usize> {
    (1..=PLACES + 1).flat_map(|stays| [stays].into_iter().chain([0; PAGES_IN_BLOCK - 1]))
}

/// What the calls reply on a pinned image, one after the other.
fn way_out() -> Result<String, Refusal> {
    let mut run = Run::new(32, false)?;
    run.written(on_purpose())?;
    let (mut store, at) = (run.store, place(0));
    let thinnest = store.thinnest().expect("nodes are on it");
    let reply = |result: Result<(), Refusal>| match result {
        Ok(()) => "done".to_string(),
        Err(refusal) => format!("refused {}", refusal.number()),
    };
    let replies = [
        ("write", reply(store.write(at, &[b'x'; PAYLOAD]))),
        ("commit", reply(store.commit(noise()?))),
        ("write", reply(store.write(at, &[b'x'; PAYLOAD]))),
        ("cut-off", reply(store.cut_off(at))),
        ("gather", reply(store.gather(thinnest))),
        ("wipe", reply(store.wipe(at, noise()?))),
        ("write", reply(store.write(at, &[b'x'; PAYLOAD]))),
    ];
    let text = replies.map(|(name, reply)| format!("  {name:8}{reply}\n"));
    Ok(format!("32 blocks, pinned on purpose without gathers:\n{}", text.concat()))
}

const HEAD: &str = "        without gathers            with gathers
blocks  order chance on purpose    order chance on purpose  commits copies
";

/// The three runs of a size, with gathers or without: the number of writes after which it was pinned in order and by
/// chance, and the number of live nodes with which it was pinned on purpose. With them the run by chance.
fn runs(blocks: usize, gathers: bool) -> Result<(String, Run), Refusal> {
    let spelt = |pinned: Option<usize>| pinned.map_or("no".into(), |number| number.to_string());
    let order = spelt(Run::new(blocks, gathers)?.written(in_order())?);
    let mut by_purpose = Run::new(blocks, gathers)?;
    let pinned = by_purpose.written(on_purpose())?;
    let purpose = spelt(pinned.map(|_| by_purpose.store.record().nodes().count()));
    let mut run = Run::new(blocks, gathers)?;
    let chance = spelt(run.written(by_chance())?);
    Ok((format!("{order:>5} {chance:>6} {purpose:>10}"), run))
}

/// What the runs have shown.
pub fn text() -> Result<String, Box<dyn Error>> {
    let mut text = String::from(HEAD);
    for blocks in BLOCKS {
        let (without, _) = runs(blocks, false)?;
        let (with, Run { commits, copies, .. }) = runs(blocks, true)?;
        text += &format!("{blocks:6}  {without}    {with} {commits:>8} {copies:>6}\n");
    }
    Ok(text + &way_out()?)
}

fn main() -> Result<(), Box<dyn Error>> {
    print!("{}", text()?);
    Ok(())
}
