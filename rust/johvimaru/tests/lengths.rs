//! Payloads of every length, and nodes from before lengths were kept.

#[allow(dead_code)]
mod common;

use common::{at, noise};
use johvimaru::{Driver, Failure, Form, Header, MemoryChip, Payload, Refusal, Store};
use johvimaru::{BLOCK, HEADER, PAGE, PAYLOAD};

fn formatted() -> Store<Vec<u8>> {
    Store::format(vec![0; 32 * BLOCK], noise(1)).unwrap()
}

/// A payload with bytes at its end that a careless reader takes for padding.
fn payload(length: usize) -> Vec<u8> {
    let mut bytes: Vec<u8> = (0..length).map(|at| (at * 31 + length) as u8).collect();
    let ends = [b"   ", b"\0\0\0", b"\xff\xff\xff", b"\r\n\n"];
    for (byte, end) in bytes.iter_mut().rev().zip(ends[length % 4]) {
        *byte = *end;
    }
    bytes
}

/// Where a node's page has its second number.
fn second(page: usize) -> std::ops::Range<usize> {
    PAGE * page + 20..PAGE * page + 28
}

#[test]
fn every_length_reads_back() {
    let mut store = formatted();
    for length in 1..=PAYLOAD {
        let (here, bytes) = (at(0, length as u32 % 32), payload(length));
        store.write(here, &bytes).unwrap();
        assert_eq!(store.read(here).unwrap(), bytes[..], "{length}");
        let page = store.record().node(here).unwrap().page;
        assert_eq!(store.image()[second(page)], *format!("{length:8}").as_bytes());
        let form = Form::all(store.image()).nth(page).unwrap();
        assert!(matches!(form, Form::Whole(Header::Node { length: told, .. }) if told == length));
    }
    // After a mount, and after a commit.
    let mut store = Store::mount(store.into_image()).unwrap();
    for _ in 0..2 {
        for length in PAYLOAD - 31..=PAYLOAD {
            assert_eq!(store.read(at(0, length as u32 % 32)), Payload::new(&payload(length)));
        }
        store.commit(noise(2)).unwrap();
    }
}

#[test]
fn lengths_that_are_refused() {
    let mut store = formatted();
    store.write(at(0, 0), b"kept").unwrap();
    let before = (store.image().to_vec(), store.record().clone());
    for wrong in [0, 225, 226, 256, 70_000] {
        let bytes = vec![b'x'; wrong];
        assert_eq!(store.write(at(0, 0), &bytes), Err(Refusal::PayloadLength), "{wrong}");
        assert!(store.image() == before.0 && *store.record() == before.1, "{wrong}");
    }
    let mut driver = Driver::new(MemoryChip::new(before.0));
    driver.mount().unwrap();
    for wrong in [&[][..], &[b'x'; 225]] {
        let refused = driver.write(at(0, 0), wrong);
        assert_eq!(refused, Err(Failure::Refused(Refusal::PayloadLength)));
    }
    assert_eq!(driver.read(at(0, 0)).unwrap(), b"kept");
}

#[test]
fn read_into_leaves_the_rest() {
    let mut store = formatted();
    store.write(at(2, 5), b"track").unwrap();
    let mut driver = Driver::new(MemoryChip::new(store.image().to_vec()));
    let mut buffer = [7; PAYLOAD];
    assert_eq!(driver.read_into(at(2, 5), &mut buffer), Err(Failure::NotMounted));
    driver.mount().unwrap();
    assert_eq!(store.read_into(at(2, 6), &mut buffer), Err(Refusal::NothingThere));
    assert_eq!(buffer, [7; PAYLOAD], "a refused read leaves all of it");
    assert_eq!(store.read_into(at(2, 5), &mut buffer), Ok(&b"track"[..]));
    assert_eq!((&buffer[..5], &buffer[5..]), (&b"track"[..], &[7; 219][..]));
    let mut other = [9; PAYLOAD];
    assert_eq!(driver.read_into(at(2, 5), &mut other), Ok(&b"track"[..]));
    assert_eq!(other[5..], [9; 219]);
}

/// Two payloads of one length, under one key, differ on the page as they do themselves: after them are the same
/// spaces under the same key stream.
#[test]
fn spaces_follow_and_are_enciphered() {
    let stored = |payload: &[u8]| {
        let mut store = formatted();
        store.write(at(0, 0), payload).unwrap();
        let page = store.record().node(at(0, 0)).unwrap().page;
        store.image()[PAGE * page + HEADER..][..PAYLOAD].to_vec()
    };
    let stream: Vec<u8> = stored(&[0; PAYLOAD]);
    for length in [1, 15, 16, 17, 223] {
        let bytes = payload(length);
        let padded = [&bytes[..], &vec![b' '; PAYLOAD - length]].concat();
        let plain: Vec<u8> = stored(&bytes).iter().zip(&stream).map(|(a, b)| a ^ b).collect();
        assert_eq!(plain, padded, "{length}");
    }
}

/// A recorder from before lengths were kept has 0 there, which means 224 bytes.
#[test]
fn older_nodes() {
    let mut store = formatted();
    store.write(at(0, 0), b"draught 4.12 m").unwrap();
    store.write(at(0, 1), b"draught 6.80 m").unwrap();
    let page = store.record().node(at(0, 0)).unwrap().page;
    let mut image = store.into_image();
    image[second(page)].copy_from_slice(b"       0");
    let mut store = Store::mount(image).unwrap();
    let mut expected = [b' '; PAYLOAD];
    expected[..14].copy_from_slice(b"draught 4.12 m");
    for _ in 0..2 {
        assert_eq!(store.read(at(0, 0)).unwrap(), expected);
        assert_eq!(store.read(at(0, 1)).unwrap(), b"draught 6.80 m");
        store.commit(noise(2)).unwrap();
    }
    let form = Form::all(store.image()).nth(page).unwrap();
    assert!(matches!(form, Form::Whole(Header::Node { length: PAYLOAD, .. })));
    // What is read is written again with its length.
    let payload = store.read(at(0, 0)).unwrap();
    store.write(at(0, 0), &payload).unwrap();
    let page = store.record().node(at(0, 0)).unwrap().page;
    assert_eq!(store.image()[second(page)], *b"     224");
    assert_eq!(store.read(at(0, 0)), Ok(payload));
}

/// A second number that no node may have: the page is spoilt, and the place holds what it held before.
#[test]
fn second_numbers_that_are_none() {
    for wrong in [b"     225", b"00000014", b"      0 ", b"  +    1", b"99999999"] {
        let mut store = formatted();
        store.write(at(0, 0), b"old").unwrap();
        store.write(at(0, 0), b"new").unwrap();
        let page = store.record().node(at(0, 0)).unwrap().page;
        let mut image = store.into_image();
        image[second(page)].copy_from_slice(wrong);
        assert_eq!(Form::all(&image).nth(page), Some(Form::Spoilt));
        let store = Store::mount(image).unwrap();
        assert_eq!(store.read(at(0, 0)).unwrap(), b"old");
    }
}

/// Wherever a write is cut, the place reads as the old payload or as the new one, each with its own length.
#[cfg(feature = "cut")]
#[test]
fn lengths_after_a_cut() {
    use johvimaru::Cut;
    for (old, new) in [(224, 1), (1, 224), (40, 41), (41, 40), (223, 223)] {
        let (old, new) = (payload(old), payload(new));
        let mut store = formatted();
        store.write(at(0, 0), &old).unwrap();
        for k in 0..=PAGE {
            let cut = store.clone().write_cut(at(0, 0), &new, Cut { n: 0, k }).unwrap();
            assert!(cut.is_cut());
            let mounted = cut.mounted().unwrap();
            let expected = if k < PAGE { &old } else { &new };
            assert_eq!(mounted.read(at(0, 0)).unwrap(), expected[..], "{k}");
        }
        let refused = store.write_cut(at(0, 0), b"", Cut { n: 0, k: 30 }).unwrap_err();
        assert_eq!(refused.refusal, Refusal::PayloadLength);
        assert_eq!(refused.back.read(at(0, 0)).unwrap(), old[..]);
    }
}
