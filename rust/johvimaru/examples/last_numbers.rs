//! The end of a volume's life: what is still done when sequences or epochs are spent.
//!
//! `cargo run --release --offline --manifest-path rust/Cargo.toml --example last_numbers`

use johvimaru::{Form, Header, Noise, Offset, Refusal, Store};
use johvimaru::{BLOCK, NOISE, PAGE, PAYLOAD};
use std::error::Error;

/// The last sequence and the last epoch.
const LAST: u32 = 99_999_999;

type Image = Store<Vec<u8>>;

fn noise() -> Result<Noise, Refusal> {
    Noise::new(&[7; NOISE])
}

/// An image as it is after very many calls: the headers of its keys and commit get this epoch, and the
/// commit this covered sequence.
fn aged(mut image: Vec<u8>, epoch: u32, covered: u32) -> Vec<u8> {
    for page in image.chunks_mut(PAGE) {
        let bytes: &mut [u8; PAGE] = page.try_into().expect("blocks are full");
        match Form::of(bytes).header() {
            Some(Header::Keys { .. }) => put(bytes, 1, epoch),
            Some(Header::Commit { .. }) => {
                put(bytes, 1, epoch);
                put(bytes, 20, covered);
            }
            _ => {}
        }
    }
    image
}

/// Puts a number into eight columns of a header.
fn put(page: &mut [u8; PAGE], from: usize, number: u32) {
    page[from..from + 8].copy_from_slice(format!("{number:8}").as_bytes());
}

/// An image with two nodes in block 3, committed, at these next numbers.
fn at_the_end(next_sequence: u32, next_epoch: u32) -> Result<Image, Box<dyn Error>> {
    let mut store = Store::format(vec![0xff; 8 * BLOCK], noise()?)?;
    for offset in 0..2 {
        store.write(Offset::new(0, offset)?, &[b'x'; PAYLOAD])?;
    }
    store.commit(noise()?)?;
    Ok(Store::mount(aged(store.into_image(), next_epoch - 1, next_sequence - 1))?)
}

/// Each call on a copy of a store, and what it replies.
fn replies(store: &Image) -> Result<String, Box<dyn Error>> {
    let at = Offset::new(0, 0)?;
    let reply = |result: Result<(), Refusal>| match result {
        Ok(()) => "done".to_string(),
        Err(refusal) => format!("refused {}", refusal.number()),
    };
    let copy = || store.clone();
    let remounted = Store::mount(copy().into_image()).map(drop).map_err(Refusal::from);
    let all = [
        ("mount", reply(remounted)),
        ("read", reply(store.read(at).map(drop))),
        ("write", reply(copy().write(at, &[b'y'; PAYLOAD]))),
        ("cut-off", reply(copy().cut_off(at))),
        ("gather", reply(copy().gather(3))),
        ("commit", reply(copy().commit(noise()?))),
        ("wipe", reply(copy().wipe(at, noise()?))),
    ];
    Ok(all.map(|(name, reply)| format!("  {name:8}{reply}\n")).concat())
}

/// What the calls reply at the end of the numbers.
pub fn text() -> Result<String, Box<dyn Error>> {
    let mut text = String::new();
    let ends = [(LAST, 3), (LAST + 1, 3), (3, LAST), (3, LAST + 1), (LAST + 1, LAST + 1)];
    for (sequence, epoch) in ends {
        let store = at_the_end(sequence, epoch)?;
        let record = store.record();
        let (sequence, epoch) = (record.next_sequence(), record.next_epoch());
        text += &format!("next sequence {sequence}, next epoch {epoch}\n{}", replies(&store)?);
    }
    let days = LAST / 86_400;
    Ok(text + &format!("a write each second lasts {days} days\n"))
}

fn main() -> Result<(), Box<dyn Error>> {
    print!("{}", text()?);
    Ok(())
}
