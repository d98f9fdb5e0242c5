//! Document 02, #109: the library's driver beside the second implementation, and its steps on the library's chip.

use johvimaru_tests::bus_streams::{random_image, random_step, Sets};
use johvimaru_tests::ffi::bus;
use johvimaru_tests::model::bus::{
    drive, erase_bytes, program_bytes, step_bytes, Raw, Registers, Sent, RESET, STATUS,
};
use johvimaru_tests::model::image::{self, Power, Step, BLOCK};
use johvimaru_tests::model::pages::PAGE;
use johvimaru_tests::rng::Rng;

/// Pages and blocks at the edges of what there is.
const NUMBERS: [u32; 17] =
    [0, 1, 7, 8, 15, 16, 17, 127, 128, 254, 255, 256, 257, 4_095, 4_096, 65_536, u32::MAX];
/// Lengths about that of a page.
const LENGTHS: [usize; 7] = [PAGE, 0, 1, 255, 257, 512, 65_536 + 256];

// ---- Bytes

/// The bytes at these positions are the expected ones, 70h behind the last; where nothing is sent, the reply is
/// and no byte is given.
fn check_bytes(
    name: &str,
    expected: Result<Vec<Sent>, u32>,
    ours: impl Fn(usize, &mut [u8; 2]) -> u32,
) {
    for i in (0..300).chain([65_536, usize::MAX - 1, usize::MAX]) {
        let mut cycle = [0xa5, 0x5a];
        let reply = ours(i, &mut cycle);
        let (right, sent) = match &expected {
            Ok(bytes) => {
                let sent = bytes.get(i).copied().unwrap_or(Sent::Command(STATUS));
                (0, [sent.mark() as u8, sent.byte()])
            }
            Err(refusal) => (*refusal, [0xa5, 0x5a]),
        };
        assert_eq!((reply, cycle), (right, sent), "{name}, byte {i}");
    }
}

#[test]
fn bytes_of_a_program() {
    let mut rng = Rng::new(1);
    for page in NUMBERS.into_iter().chain((0..4_096).step_by(83)) {
        for length in LENGTHS {
            let bytes = rng.bytes(length);
            let expected = program_bytes(page, &bytes);
            check_bytes(&format!("page {page}, {length} bytes"), expected, |i, cycle| {
                bus::program_byte(page, &bytes, i, cycle)
            });
        }
    }
}

#[test]
fn bytes_of_an_erase() {
    for block in NUMBERS.into_iter().chain(0..300) {
        let name = format!("block {block}");
        check_bytes(&name, erase_bytes(block), |i, cycle| bus::erase_byte(block, i, cycle));
    }
}

#[test]
fn replies_by_the_status() {
    for status in 0..=255 {
        assert_eq!(bus::reply(status), 10 * u32::from(status & 1), "{status:02x}h");
    }
}

// ---- Steps

/// What the driver is asked for.
#[derive(Debug)]
enum Asked {
    Program(u32, Vec<u8>),
    Erase(u32),
}

impl Asked {
    /// A step that can be done, or one of any number and length.
    fn random(rng: &mut Rng, image: &[u8]) -> Asked {
        let number = match rng.below(2) {
            0 => NUMBERS[rng.below(NUMBERS.len())],
            _ => rng.below(1 + image.len() / BLOCK) as u32,
        };
        match rng.below(6) {
            0 => Asked::Erase(number),
            1 => {
                let length = LENGTHS[rng.below(LENGTHS.len())];
                Asked::Program(number, rng.bytes(length))
            }
            _ => match random_step(rng, image) {
                Step::Program { page, bytes } => Asked::Program(page as u32, bytes.to_vec()),
                Step::Erase { block } => Asked::Erase(block as u32),
            },
        }
    }

    fn bytes(&self) -> Result<Vec<Sent>, u32> {
        match self {
            Asked::Program(page, bytes) => program_bytes(*page, bytes),
            Asked::Erase(block) => erase_bytes(*block),
        }
    }

    fn by_library(&self, image: &mut [u8], raw: &mut Raw) -> u32 {
        match self {
            Asked::Program(page, bytes) => bus::program(image, raw, *page, bytes),
            Asked::Erase(block) => bus::erase(image, raw, *block),
        }
    }
}

/// Whether a set that nothing was sent to came back as it was. Numbers that stand for no set come back as others
/// that no bytes leave.
fn came_back(before: &Raw, after: &Raw) -> bool {
    let [state, _, column, row, failed] = before.numbers;
    if state <= 5 && failed <= 1 {
        return after == before;
    }
    let state = if state <= 5 { state } else { 0 };
    let numbers = |failed| [state, 6, column, row, failed];
    after.page == before.page && [numbers(0), numbers(1)].contains(&after.numbers)
}

/// Asks both. Gives the reply.
fn check_asked(image: &[u8], raw: &Raw, asked: &Asked) -> u32 {
    let (mut our_image, mut ours) = (image.to_vec(), raw.clone());
    let (mut second_image, mut second) = (image.to_vec(), raw.clone());
    let reply = drive(&mut second_image, &mut second, asked.bytes());
    let place = || format!("{} bytes of image, {asked:?} from {raw:?}", image.len());
    assert_eq!(asked.by_library(&mut our_image, &mut ours), reply, "{}", place());
    assert!(our_image == second_image, "{}: images", place());
    if asked.bytes().is_err() || reply == 1 {
        assert!(second == *raw && our_image == image, "{}", place());
        assert!(came_back(raw, &ours), "{}: library {ours:?}", place());
    } else {
        assert_eq!(ours, second, "{}", place());
    }
    reply
}

#[test]
fn steps_from_any_set() {
    let mut replies = [0; 11];
    for (blocks, seeds) in [(8, 0..6_000), (9, 10_000..11_000), (256, 20_000..20_200)] {
        let mut sets = Sets::new(seeds.start, blocks);
        for seed in seeds {
            let mut rng = Rng::new(seed);
            let image = random_image(&mut rng, blocks);
            let asked = Asked::random(&mut rng, &image);
            replies[check_asked(&image, &sets.any(), &asked) as usize] += 1;
        }
    }
    println!("replies: {replies:?}");
    assert!(replies[0] > 3_000 && replies[6] > 100 && replies[10] > 300, "{replies:?}");
}

/// The order of the replies: each length of the bytes with each number, on right and wrong images.
#[test]
fn order_of_replies() {
    let lengths = [8 * BLOCK, 256 * BLOCK, 0, 7 * BLOCK, 8 * BLOCK + 1, 257 * BLOCK];
    let mut replies = [0; 11];
    for (at, length) in lengths.into_iter().enumerate() {
        let image = vec![0xff; length];
        let mut sets = Sets::new(at as u64, 8);
        for number in NUMBERS {
            replies[check_asked(&image, &sets.any(), &Asked::Erase(number)) as usize] += 1;
            for length in LENGTHS {
                let asked = Asked::Program(number, vec![1; length]);
                replies[check_asked(&image, &sets.any(), &asked) as usize] += 1;
            }
        }
    }
    assert!([0, 1, 6, 10].iter().all(|&reply| replies[reply] > 15), "{replies:?}");
}

// ---- Resets

/// Sends bytes to the library's chip.
fn send(image: &mut [u8], raw: &mut Raw, bytes: &[Sent]) {
    for &sent in bytes {
        assert_eq!(bus::send(image, raw, sent), 0);
    }
}

/// A reset after each number of a step's bytes, and then the rest of them. Gives how many bytes were sent.
fn check_resets(image: &[u8], step: &Step, sets: &mut Sets) -> usize {
    let mut whole = image.to_vec();
    image::play(&mut whole, std::slice::from_ref(step), Power::STAYS);
    let bytes = step_bytes(step);
    for k in 0..=bytes.len() {
        let (mut after, mut raw) = (image.to_vec(), sets.any());
        send(&mut after, &mut raw, &bytes[..k]);
        send(&mut after, &mut raw, &[Sent::Command(RESET)]);
        assert_eq!(raw, Raw::from(&Registers::NEW), "{k} bytes of {step:?}");
        let expected = if k < bytes.len() - 1 { image } else { &whole };
        assert!(after == expected, "{k} bytes of {step:?}");
        send(&mut after, &mut raw, &bytes[k..]);
        assert!(after == image || after == whole, "{k} bytes of {step:?} and the rest");
    }
    (bytes.len() + 1) * (bytes.len() + 1)
}

#[test]
fn resets_in_steps() {
    let mut sent = 0;
    let mut sets = Sets::new(5, 8);
    for seed in 0..30 {
        let mut rng = Rng::new(seed);
        let image = random_image(&mut rng, 8);
        sent += check_resets(&image, &random_step(&mut rng, &image), &mut sets);
    }
    println!("{sent} bytes");
    assert!(sent > 1_000_000, "{sent} bytes");
}
