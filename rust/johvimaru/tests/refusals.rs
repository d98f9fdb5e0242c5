//! Each refusal, from 1 to 15.

#[allow(dead_code)]
mod common;

use common::{at, noise};
use johvimaru::{raw, Noise, Offset, Refusal, Store, BLOCK, NOISE, PAGE};

fn formatted(blocks: usize) -> Store<Vec<u8>> {
    Store::format(vec![0; BLOCK * blocks], noise(1)).unwrap()
}

/// A whole page with this header.
fn page(header: &str) -> [u8; PAGE] {
    let mut page = [b' '; PAGE];
    page[..30].copy_from_slice(header.as_bytes());
    page[PAGE - 2..].copy_from_slice(b"\r\n");
    page
}

/// Puts a page onto an image.
fn put(image: &mut [u8], number: usize, page: &[u8; PAGE]) {
    image[PAGE * number..][..PAGE].copy_from_slice(page);
}

/// What a mount of an image replies.
fn mounted(image: Vec<u8>) -> Result<Store<Vec<u8>>, Refusal> {
    Ok(Store::mount(image)?)
}

#[test]
fn refusal_1_the_image_size() {
    for bytes in [0, 7 * BLOCK, 8 * BLOCK + 1, 257 * BLOCK] {
        let refused = Store::format(vec![3; bytes], noise(1)).unwrap_err();
        assert_eq!((refused.refusal, refused.back), (Refusal::ImageSize, vec![3; bytes]));
        assert_eq!(mounted(vec![3; bytes]).unwrap_err(), Refusal::ImageSize);
    }
    assert!(Store::format(vec![3; 256 * BLOCK], noise(1)).is_ok());
}

#[test]
fn refusal_2_the_lengths() {
    let mut image = formatted(8).into_image();
    let mut record = raw::Record::blank();
    record.letters.pop();
    assert_eq!(raw::mount(&mut image, &mut record, &mut [0; 224]), 2);
    assert_eq!(raw::mount(&mut image, &mut raw::Record::blank(), &mut [0; 223]), 2);
    assert_eq!(raw::format(&mut image, &mut record, &[0; NOISE]), 2);
}

#[test]
fn refusals_3_to_6_arguments() {
    assert_eq!(Noise::new(&[0; NOISE - 1]).unwrap_err(), Refusal::NoiseLength);
    assert_eq!(Noise::new(&[0; NOISE + 1]).unwrap_err(), Refusal::NoiseLength);
    assert_eq!(Offset::new(14, 0), Err(Refusal::NoSuchFile));
    assert_eq!(Offset::new(13, 8), Err(Refusal::OffsetOutside));
    let (mut image, mut record) = (vec![0; 8 * BLOCK], raw::Record::blank());
    assert_eq!(raw::format(&mut image, &mut record, &[0; NOISE + 1]), 3);
    assert_eq!(raw::format(&mut image, &mut record, &[0; NOISE]), raw::DONE);
    assert_eq!(raw::write(&mut image, &mut record, 14, 0, &[0; 224]), 4);
    assert_eq!(raw::write(&mut image, &mut record, 13, 8, &[0; 224]), 5);
    for wrong in [0, 225, 1_000] {
        assert_eq!(raw::write(&mut image, &mut record, 13, 7, &vec![0; wrong]), 6, "{wrong}");
    }
    for wrong in [0, 1, 223, 225] {
        assert_eq!(raw::read(&image, &record, 13, 7, &mut vec![0; wrong]), (6, 0), "{wrong}");
    }
    assert_eq!(raw::commit(&mut image, &mut record, &[]), 3);
    assert_eq!(raw::wipe(&mut image, &mut record, &[], 14, 0), 3);
    assert_eq!(raw::cut_off(&mut image, &mut record, 14, 0), 4);
    assert_eq!(raw::gather(&mut image[1..], &mut record, 256), 1);
    record.map.pop();
    assert_eq!(raw::gather(&mut image, &mut record, 256), 2);
}

/// An image that another hand changes: it lends a second one when it is told.
struct Exchanged {
    images: [Vec<u8>; 2],
    which: std::rc::Rc<std::cell::Cell<usize>>,
}

impl AsRef<[u8]> for Exchanged {
    fn as_ref(&self) -> &[u8] {
        &self.images[self.which.get()]
    }
}

impl AsMut<[u8]> for Exchanged {
    fn as_mut(&mut self) -> &mut [u8] {
        &mut self.images[self.which.get()]
    }
}

#[test]
fn refusal_7_the_record() {
    let which = std::rc::Rc::new(std::cell::Cell::new(0));
    let images = [vec![0; 8 * BLOCK], vec![0xff; 8 * BLOCK]];
    let mut store = Store::format(Exchanged { images, which: which.clone() }, noise(1)).unwrap();
    store.write(at(0, 0), &[1; 224]).unwrap();
    which.set(1);
    assert_eq!(store.read(at(0, 0)), Err(Refusal::RecordUnfit));
    assert_eq!(store.write(at(0, 0), &[2; 224]), Err(Refusal::RecordUnfit));
    assert_eq!(store.cut_off(at(0, 0)), Err(Refusal::RecordUnfit));
    assert_eq!(store.gather(0), Err(Refusal::RecordUnfit));
    assert_eq!(store.commit(noise(2)), Err(Refusal::RecordUnfit));
    assert_eq!(store.wipe(at(0, 0), noise(2)), Err(Refusal::RecordUnfit));
    which.set(0);
    assert_eq!(store.read(at(0, 0)).unwrap(), [1; 224]);
}

#[test]
fn refusal_8_nothing_there() {
    let mut store = formatted(8);
    store.write(at(0, 3), &[1; 224]).unwrap();
    assert_eq!(store.read(at(0, 2)), Err(Refusal::NothingThere));
    assert_eq!(store.cut_off(at(0, 4)), Err(Refusal::NothingThere));
    assert_eq!(store.wipe(at(0, 4), noise(2)), Ok(()));
    assert_eq!(store.read(at(0, 3)).unwrap(), [1; 224]);
}

#[test]
fn refusal_9_no_free_key() {
    let mut store = formatted(32);
    for write in 0..448 {
        store.write(at(0, 0), &[write as u8; 224]).unwrap();
    }
    assert_eq!(store.write(at(0, 0), &[1; 224]), Err(Refusal::NoFreeKey));
    store.commit(noise(2)).unwrap();
    assert_eq!(store.write(at(0, 0), &[1; 224]), Ok(()));
}

#[test]
fn refusal_10_no_room() {
    let mut store = formatted(8);
    for write in 0..64 {
        store.write(at(0, 0), &[write; 224]).unwrap();
    }
    assert_eq!(store.write(at(0, 0), &[1; 224]), Err(Refusal::NoRoom));
    assert_eq!(store.cut_off(at(0, 0)), Err(Refusal::NoRoom));
    assert_eq!(store.gather(6), Err(Refusal::NoRoom));
    let mut image = store.into_image();
    put(&mut image, 7 * 16, &page("D      65 13   0   0       0: "));
    let mut store = mounted(image).unwrap();
    assert_eq!(store.commit(noise(2)), Err(Refusal::NoRoom));
    assert_eq!(store.wipe(at(0, 0), noise(2)), Err(Refusal::NoRoom));
}

#[test]
fn refusal_11_numbers_spent() {
    let mut image = formatted(8).into_image();
    put(&mut image, 3 * 16, &page("N99999999  0   0   0       0: "));
    let mut store = mounted(image).unwrap();
    assert_eq!(store.record().next_sequence(), 100_000_000);
    assert_eq!(store.write(at(0, 0), &[1; 224]), Err(Refusal::NumbersSpent));
    assert_eq!(store.cut_off(at(0, 0)), Err(Refusal::NumbersSpent));
    assert_eq!(store.gather(3), Err(Refusal::NumbersSpent));
    assert_eq!(store.gather(4), Err(Refusal::NothingToGather), "15 comes first");

    let mut image = formatted(8).into_image();
    for page in 0..16 {
        image[PAGE * page + 1..][..8].copy_from_slice(b"99999999");
    }
    let mut store = mounted(image).unwrap();
    assert_eq!(store.record().next_epoch(), 100_000_000);
    assert_eq!(store.commit(noise(2)), Err(Refusal::NumbersSpent));
    assert_eq!(store.wipe(at(0, 0), noise(2)), Err(Refusal::NumbersSpent));
}

#[test]
fn refusals_12_to_14_what_is_on_the_image() {
    let image = formatted(8).into_image();
    let mut no_keys = image.clone();
    no_keys[BLOCK] = b'X';
    assert_eq!(mounted(no_keys).unwrap_err(), Refusal::NoKeyBlock);
    assert_eq!(mounted(vec![0xff; 8 * BLOCK]).unwrap_err(), Refusal::NoCommit);
    let mut unfit = image.clone();
    unfit[2 * BLOCK + 2 * PAGE + 30..][..8].copy_from_slice(b"  48   0");
    assert_eq!(mounted(unfit).unwrap_err(), Refusal::EntryUnfit);
    assert!(mounted(image).is_ok());
}

/// Two copies are to be made, and there is one sequence, or one page. Nothing is programmed.
#[test]
fn a_gather_that_would_stop_on_its_way() {
    let mut store = formatted(8);
    for offset in (0..2).chain([2; 14]).chain([3; 47]) {
        store.write(at(0, offset), &[1; 224]).unwrap();
    }
    assert_eq!((store.live_pages()[3], store.pages_left()), (3, 1));
    let before = store.image().to_vec();
    assert_eq!(store.gather(3), Err(Refusal::NoRoom));
    assert_eq!(store.gather(6), Err(Refusal::NoRoom), "its own page does not count");
    assert!(store.image() == before);

    let mut image = formatted(8).into_image();
    put(&mut image, 3 * 16, &page("N99999997  0   0   0       0: "));
    put(&mut image, 3 * 16 + 1, &page("N99999998  0   1   1       0: "));
    let mut store = mounted(image.clone()).unwrap();
    assert_eq!(store.gather(3), Err(Refusal::NumbersSpent));
    assert!(store.image() == image);
    store.cut_off(at(0, 1)).unwrap();
    assert_eq!(store.gather(3), Err(Refusal::NumbersSpent), "the cut-off took the last one");
}

#[test]
fn refusal_15_nothing_to_gather() {
    let mut store = formatted(8);
    for _ in 0..17 {
        store.write(at(0, 0), &[1; 224]).unwrap();
    }
    let before = store.image().to_vec();
    // Keys, commit, a data block without a live page, an empty block, and what is none.
    for block in [0, 1, 2, 3, 5, 7, 8, 255, 256, 4_095, 65_535, u32::MAX as usize, usize::MAX] {
        assert_eq!(store.gather(block), Err(Refusal::NothingToGather), "{block}");
    }
    assert!(store.image() == before);
    assert_eq!(store.gather(4), Ok(()));
}

/// A refused mount gives the image back as it was.
#[test]
fn a_refused_mount_changes_nothing() {
    let image: Vec<u8> = (0..8 * BLOCK).map(|at| at as u8).collect();
    let refused = Store::mount(image.clone()).unwrap_err();
    assert_eq!(refused.refusal, Refusal::NoCommit);
    assert!(refused.back == image);
}
