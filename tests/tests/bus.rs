//! Document 02, #109: the library's model of the chip beside the second implementation, a byte at a time.

use johvimaru_tests::bus_streams::{
    play, random_image, random_stream, Came, Commands, Event, Met, Sets, STREAMS,
};
use johvimaru_tests::ffi::bus;
use johvimaru_tests::guarded::Guarded;
use johvimaru_tests::model::bus::{Raw, Registers, Sent, RESET, STATUS};
use johvimaru_tests::model::image::{pages, BLOCK};
use johvimaru_tests::model::pages::{EMPTY, ERASED};
use johvimaru_tests::rng::Rng;

/// So many bytes are sent at least.
const BYTES: usize = 3_000_000;
/// Each thing that can be met on the bus is met so often at least.
const OFTEN: usize = 100;

/// The library's reply to an event, and the byte that is received.
fn by_library(image: &mut [u8], raw: &mut Raw, event: Event) -> (u32, Option<u8>) {
    match event {
        Event::Send(sent) => (bus::send(image, raw, sent), None),
        Event::Receive => {
            let mut byte = 0x5a;
            let reply = bus::receive(image, raw, &mut byte);
            (reply, Some(byte))
        }
    }
}

// ---- Streams

/// Runs a stream on both.
fn check_stream(blocks: usize, seed: u64, met: &mut Met) {
    let (mut image, events) = random_stream(blocks, seed);
    let mut our_image = image.clone();
    let mut registers = Registers::NEW;
    let mut ours = Raw::from(&registers);
    for (at, &event) in events.iter().enumerate() {
        let before = registers.clone();
        let came = play(&mut registers, &mut image, event);
        met.event(&before, event, &came);
        let answer = by_library(&mut our_image, &mut ours, event);
        let (received, stepped) = match came {
            Came::Received(byte) => (Some(byte), false),
            Came::Sent(result) => (None, matches!(result, Ok(Some(_)))),
        };
        let place = || format!("{blocks} blocks, seed {seed}, {at}: {event:?} at {before:?}");
        assert_eq!(answer, (0, received), "{}", place());
        let second = Raw::from(&registers);
        assert!(ours == second, "{}: library {ours:?}, the other {second:?}", place());
        assert!(!stepped || our_image == image, "{}: images", place());
    }
    assert!(our_image == image, "{blocks} blocks, seed {seed}: images");
}

#[test]
fn random_streams() {
    let mut met = Met::default();
    for (blocks, seeds) in STREAMS {
        seeds.for_each(|seed| check_stream(blocks, seed, &mut met));
    }
    let [sent, received] = ["sent", "received"].map(|what| met.times(what));
    println!("{sent} bytes sent, {received} received\n{}", met.table());
    met.require(OFTEN);
    assert!(sent >= BYTES, "{sent} bytes sent");
}

// ---- Register sets

/// A byte received and a byte sent, each from this set. Gives which state it counts as.
fn check_set(image: &mut Vec<u8>, our_image: &mut Vec<u8>, raw: &Raw, sent: Sent) -> usize {
    let (mut ours, mut second) = (raw.clone(), raw.clone());
    let (reply, byte) = second.receive(image);
    let answer = by_library(our_image, &mut ours, Event::Receive);
    assert_eq!(answer, (reply, Some(byte)), "received from {raw:?}");
    assert_eq!(ours, second, "received from {raw:?}");
    let state = match raw.registers(pages(image).len()) {
        Some(_) => raw.numbers[0] as usize,
        None => {
            assert!(ours == *raw && byte == ERASED, "received from {raw:?}");
            6
        }
    };
    (ours, second) = (raw.clone(), raw.clone());
    let reply = second.send(image, sent);
    assert_eq!(by_library(our_image, &mut ours, Event::Send(sent)), (reply, None), "{raw:?}");
    assert_eq!(ours, second, "{sent:?} from {raw:?}");
    assert!(our_image == image, "{sent:?} from {raw:?}: images");
    state
}

#[test]
fn register_sets() {
    let mut counts = [0; 7];
    for (blocks, sets) in [(8, 200_000), (9, 30_000), (256, 3_000)] {
        let mut image = random_image(&mut Rng::new(blocks as u64), blocks);
        let mut our_image = image.clone();
        let mut sent = Commands::new(7, blocks);
        let mut random = Sets::new(blocks as u64, blocks);
        for _ in 0..sets {
            let (raw, sent) = (random.any(), sent.sent());
            counts[check_set(&mut image, &mut our_image, &raw, sent)] += 1;
        }
    }
    println!("sets by state, and those that no bytes leave: {counts:?}");
    assert!(counts.iter().all(|&count| count > 1_000), "{counts:?}");
    assert!(counts[6] > 100_000, "{counts:?}");
}

/// A set that no bytes leave counts as failed with no command, whatever is sent.
#[test]
fn sets_that_no_bytes_leave() {
    let mut image = random_image(&mut Rng::new(3), 8);
    let before = image.clone();
    let mut odd = 0;
    let mut random = Sets::new(4, 8);
    for raw in std::iter::repeat_with(|| random.any()).take(20_000) {
        if raw.registers(pages(&image).len()).is_some() {
            continue;
        }
        odd += 1;
        for (byte, numbers) in [(STATUS, [1, 0, 0, 0, 1]), (RESET, [0; 5]), (0x10, [0, 0, 0, 0, 1])]
        {
            let mut ours = raw.clone();
            assert_eq!(bus::send(&mut image, &mut ours, Sent::Command(byte)), 0);
            assert_eq!(ours, Raw { numbers, page: EMPTY }, "{byte:02x}h from {raw:?}");
        }
    }
    assert!(image == before && odd > 8_000, "{odd} odd sets");
}

// ---- Images

#[test]
fn wrong_images() {
    let blocks = [0, 1, 2, 4, 7, 257, 258, 512].map(|blocks| blocks * BLOCK);
    let others = [1, 255, 256, 8 * BLOCK - 1, 8 * BLOCK + 1, 8 * BLOCK + 256, 256 * BLOCK + 1];
    for length in blocks.into_iter().chain(others) {
        let mut rng = Rng::new(length as u64);
        let content = rng.bytes(length);
        let mut image = Guarded::new(rng.below(8), &content);
        let (mut sets, mut sent) = (Sets::new(1, 8), Commands::new(length as u64, 8));
        for _ in 0..300 {
            let (raw, sent) = (sets.any(), sent.sent());
            for event in [Event::Send(sent), Event::Receive] {
                let mut ours = raw.clone();
                let (reply, byte) = by_library(image.lent(), &mut ours, event);
                assert_eq!((reply, byte.unwrap_or(ERASED)), (1, ERASED), "{length} bytes");
                assert!(ours == raw, "{length} bytes: {event:?} from {raw:?}");
            }
        }
        assert!(image.content() == content, "{length} bytes");
    }
}

/// Every right number of blocks is taken, and the last row of it, and no row more.
#[test]
fn right_images() {
    for blocks in 8..=256 {
        let mut image = vec![ERASED; BLOCK * blocks];
        let rows = [16 * blocks - 1, 16 * blocks];
        for (row, status) in rows.into_iter().zip([0x40, 0x41]) {
            let mut raw = Raw::from(&Registers::NEW);
            let [low, middle, high, ..] = row.to_le_bytes();
            let mut sent = vec![Sent::Command(0x60)];
            sent.extend([low, middle, high].map(Sent::Address));
            sent.extend([0xd0, STATUS].map(Sent::Command));
            for sent in sent {
                assert_eq!(bus::send(&mut image, &mut raw, sent), 0, "{blocks} blocks");
            }
            let answer = by_library(&mut image, &mut raw, Event::Receive);
            assert_eq!(answer, (0, Some(status)), "{blocks} blocks, row {row}");
        }
    }
}
