//! Document 02, #109, on the second implementation: what the request says of the chip's side and of the driver.

use johvimaru_tests::bus_streams::{
    play, random_image, random_step, random_stream, Came, Event, Met, Sets, STREAMS,
};
use johvimaru_tests::model::bus::{
    drive, erase_bytes, program_bytes, step_bytes, Raw, Registers, Sent, RESET,
};
use johvimaru_tests::model::image::{self, pages, Power, Step, BLOCK};
use johvimaru_tests::model::pages::{EMPTY, ERASED, PAGE};
use johvimaru_tests::rng::Rng;

/// The bytes of a text: c, a or d for the mark, the byte in hexadecimal, and then how often it is sent.
fn parse(text: &str) -> Vec<Sent> {
    let one = |word: &str| {
        let (byte, times) = word[1..].split_once('x').unwrap_or((&word[1..], "1"));
        let byte = u8::from_str_radix(byte, 16).expect("a byte");
        let sent = match &word[..1] {
            "c" => Sent::Command(byte),
            "a" => Sent::Address(byte),
            "d" => Sent::Data(byte),
            _ => panic!("no mark: {word}"),
        };
        vec![sent; times.parse().expect("a number")]
    };
    text.split_whitespace().flat_map(one).collect()
}

/// An image of 8 blocks with one byte, the first of page 3.
fn almost_empty() -> Vec<u8> {
    let mut image = vec![ERASED; 8 * BLOCK];
    image[3 * PAGE] = 0x33;
    image
}

/// Bytes that are sent, and the byte that is then received.
const CASES: [(&str, &str, u8); 26] = [
    ("a new chip", "", 0xff),
    ("a reset", "d01 cff c70", 0x40),
    ("a byte without a command", "d01 c70", 0x41),
    ("the status again", "d01 c70 c70", 0x41),
    ("the status ends", "c70 a00", 0xff),
    ("a start clears", "d01 c00 a00x4 a00 c30 c70", 0x40),
    ("a read", "c00 a00x2 a03 a00x2 c30", 0x33),
    ("a read from a column", "c00 a01 a00 a03 a00x2 c30", 0xff),
    ("a read that is not finished", "c00 a00x2 a03 a00x2", 0xff),
    ("an address byte too few", "c00 a00x2 a03 a00 c30 c70", 0x41),
    ("an address byte too many", "c00 a00x2 a03 a00x3 c30 c70", 0x41),
    ("data in a read", "c00 a00x2 a03 a00x2 d00 c30 c70", 0x41),
    ("the last column", "c00 aff a00 a03 a00x2 c30 c70", 0x40),
    ("a column past the page", "c00 a00 a01 a03 a00x2 c30 c70", 0x41),
    ("a whole page", "c80 a00x2 a01 a00x2 d07x256 c10 c70", 0x40),
    ("a byte past its end", "c80 a00x2 a01 a00x2 d07x257 c10 c70", 0x41),
    ("past its end from a column", "c80 aff a00 a01 a00x2 d07x2 c10 c70", 0x41),
    ("no data", "c80 a00x2 a01 a00x2 c10 c70", 0x40),
    ("a page in use", "c80 a00x2 a03 a00x2 c10 c70", 0x41),
    ("the last page", "c80 a00x2 a7f a00x2 d07 c10 c70", 0x40),
    ("a row past the image", "c80 a00x2 a80 a00x2 d07 c10 c70", 0x41),
    ("the wrong end", "c80 a00x2 a01 a00x2 d07 cd0 c70", 0x41),
    ("an erase", "c60 a05 a00x2 cd0 c70", 0x40),
    ("an erase with a column", "c60 a00x2 a05 a00x2 cd0 c70", 0x41),
    ("a status inside a command", "c60 a05 c70", 0x41),
    ("a start inside a command", "c60 a05 c60 a05 a00x2 cd0 c70", 0x41),
];

#[test]
fn cases_of_the_request() {
    for (name, text, expected) in CASES {
        let (mut image, mut registers) = (almost_empty(), Registers::NEW);
        for sent in parse(text) {
            play(&mut registers, &mut image, Event::Send(sent));
        }
        assert_eq!(registers.receive(&image), expected, "{name}");
    }
}

/// What programs and erases leave on the flash.
#[test]
fn bytes_on_the_flash() {
    let cases = [
        ("a part of a page", "c80 afd a00 a01 a00x2 d01 d02 c10", 1, (0xfd, &[1, 2, 0xff][..])),
        ("a page in use", "c80 a01 a00 a03 a00x2 d01 c10", 3, (0, &[0x33, 0xff][..])),
        ("a reset before the end", "c80 a00x2 a01 a00x2 d01 cff c10", 1, (0, &[0xff][..])),
        ("an erase by its low bits", "c60 a0f a00x2 cd0", 3, (0, &[0xff][..])),
        ("an erase of the next block", "c60 a10 a00x2 cd0", 3, (0, &[0x33][..])),
    ];
    for (name, text, page, (column, bytes)) in cases {
        let (mut image, mut registers) = (almost_empty(), Registers::NEW);
        for sent in parse(text) {
            play(&mut registers, &mut image, Event::Send(sent));
        }
        assert_eq!(&pages(&image)[page][column..][..bytes.len()], bytes, "{name}");
    }
}

/// Whatever bytes leave is found again from its numbers, and received bytes are those of page and status.
#[test]
fn numbers_of_all_sets_that_are_left() {
    let mut met = Met::default();
    for (blocks, seeds) in STREAMS {
        for seed in seeds.take(200) {
            let (mut image, events) = random_stream(blocks, seed);
            let mut registers = Registers::NEW;
            for event in events {
                let before = registers.clone();
                let came = play(&mut registers, &mut image, event);
                met.event(&before, event, &came);
                let raw = Raw::from(&registers);
                let again = raw.registers(pages(&image).len());
                let again = again.as_ref().map(Raw::from);
                assert_eq!(again, Some(raw), "{blocks} blocks, seed {seed}, {registers:?}");
                if let Came::Received(byte) = came {
                    let shown = matches!(before, Registers::Output { .. });
                    assert!(shown || [0x40, 0x41, 0xff].contains(&byte));
                }
            }
        }
    }
    met.require(10);
}

/// Sets that no bytes leave are many kinds, and count as failed with no command.
#[test]
fn sets_that_no_bytes_leave() {
    let mut image = random_image(&mut Rng::new(1), 8);
    let mut sets = Sets::new(1, 8);
    let mut counts = [0; 2];
    for _ in 0..20_000 {
        let mut raw = sets.any();
        let left = raw.registers(pages(&image).len()).is_some();
        counts[usize::from(left)] += 1;
        if !left {
            let before = raw.clone();
            assert_eq!(raw.receive(&image), (0, ERASED));
            assert!(raw == before);
            assert_eq!(raw.send(&mut image, Sent::Command(0x70)), 0);
            assert_eq!(raw, Raw { numbers: [1, 0, 0, 0, 1], page: EMPTY });
        }
    }
    println!("{} sets that bytes leave, {} that none do", counts[1], counts[0]);
    assert!(counts.iter().all(|&count| count > 4_000), "{counts:?}");
}

#[test]
fn wrong_images() {
    for length in [0, 1, BLOCK, 7 * BLOCK, 8 * BLOCK - 1, 8 * BLOCK + 1, 257 * BLOCK] {
        let mut image = vec![0; length];
        let mut raw = Sets::new(length as u64, 8).any();
        let before = raw.clone();
        assert_eq!(raw.send(&mut image, Sent::Command(RESET)), 1);
        assert_eq!(raw.receive(&image), (1, ERASED));
        assert_eq!(drive(&mut image, &mut raw, erase_bytes(0)), 1);
        assert_eq!(drive(&mut image, &mut raw, program_bytes(0, &EMPTY)), 1);
        assert!(raw == before && image.iter().all(|&byte| byte == 0));
    }
}

// ---- The driver

#[test]
fn refusals_of_the_driver() {
    for length in [0, 1, 255, 257] {
        assert_eq!(program_bytes(u32::MAX, &vec![0; length]), Err(6));
    }
    assert_eq!(program_bytes(4_096, &EMPTY), Err(10));
    assert_eq!(program_bytes(4_095, &EMPTY).map(|bytes| bytes.len()), Ok(265));
    assert_eq!(erase_bytes(256), Err(10));
    assert_eq!(erase_bytes(255), Ok(parse("cff c60 af0 a0f a00 cd0 c70")));
}

/// The image that a step gives.
fn stepped(image: &[u8], step: &Step) -> Vec<u8> {
    let mut after = image.to_vec();
    image::play(&mut after, std::slice::from_ref(step), Power::STAYS);
    after
}

/// The driver's bytes do a step from any register set.
#[test]
fn steps_from_any_set() {
    for seed in 0..2_000 {
        let blocks = [8, 8, 8, 9, 256][(seed % 100 / 24) as usize];
        let mut rng = Rng::new(seed);
        let mut image = random_image(&mut rng, blocks);
        let step = random_step(&mut rng, &image);
        let after = stepped(&image, &step);
        let mut raw = Sets::new(seed, blocks).any();
        assert_eq!(drive(&mut image, &mut raw, Ok(step_bytes(&step))), 0, "seed {seed}: {step:?}");
        assert!(image == after, "seed {seed}: {step:?}");
        assert_eq!(raw, Raw { numbers: [1, 0, 0, 0, 0], page: EMPTY }, "seed {seed}");
    }
}

/// A step that the chip refuses: reply 10, and nothing changed.
#[test]
fn steps_that_fail() {
    let image = almost_empty();
    let steps = [program_bytes(3, &EMPTY), program_bytes(128, &EMPTY), erase_bytes(8)];
    for bytes in steps {
        let (mut after, mut raw) = (image.clone(), Raw::from(&Registers::NEW));
        assert_eq!(drive(&mut after, &mut raw, bytes), 10);
        assert!(after == image);
        assert_eq!(raw, Raw { numbers: [1, 0, 0, 0, 1], page: EMPTY });
    }
}

/// A reset between any two bytes of a step leaves it undone or complete, and so do the rest of its bytes.
#[test]
fn resets_in_steps() {
    for seed in 0..60 {
        let mut rng = Rng::new(seed);
        let image = random_image(&mut rng, 8);
        let step = random_step(&mut rng, &image);
        let (bytes, whole) = (step_bytes(&step), stepped(&image, &step));
        for k in 0..=bytes.len() {
            let (mut after, mut registers) = (image.clone(), Registers::NEW);
            for &sent in &bytes[..k] {
                play(&mut registers, &mut after, Event::Send(sent));
            }
            play(&mut registers, &mut after, Event::Send(Sent::Command(RESET)));
            assert_eq!(registers, Registers::NEW);
            let expected = if k < bytes.len() - 1 { &image } else { &whole };
            assert!(after == *expected, "seed {seed}, {k} bytes of {step:?}");
            for &sent in &bytes[k..] {
                play(&mut registers, &mut after, Event::Send(sent));
            }
            assert!(after == image || after == whole, "seed {seed}, {k} bytes of {step:?}");
        }
    }
}
