//! The keys on an image, wherever they stand, and the search for their bytes on another.

use johvimaru::{Form, Header, HEADER, KEY, PAGE, PAGES_IN_BLOCK};
use std::collections::HashMap;

/// Keys in a page of keys.
const KEYS_IN_PAGE: usize = 14;

/// The bytes of a key.
type Bytes = [u8; KEY];

/// A key that was on an image, and how often its bytes stand on another.
#[derive(Clone, Copy, Debug, PartialEq, Eq)]
pub struct Found {
    /// The page on which it stood.
    pub page: usize,
    /// The slot in that page.
    pub slot: usize,
    /// Its position, where the page's header tells it.
    pub position: Option<usize>,
    /// At how many bytes of the other image it begins.
    pub copies: usize,
    /// The first of them.
    pub first: Option<usize>,
}

/// A search for the keys of an image.
pub struct Search {
    keys: Vec<(Found, Bytes)>,
}

impl Search {
    /// Takes every key on an image but those of these bytes.
    pub fn for_keys_on(image: &[u8], but: &[Bytes]) -> Search {
        let mut keys = keys_on(image);
        keys.retain(|(_, bytes)| !but.contains(bytes));
        Search { keys }
    }

    /// Looks for the keys at every byte of an image.
    pub fn through(self, image: &[u8]) -> Vec<Found> {
        let mut copies: HashMap<Bytes, (usize, Option<usize>)> = HashMap::new();
        copies.extend(self.keys.iter().map(|(_, bytes)| (*bytes, (0, None))));
        for (at, window) in image.windows(KEY).enumerate() {
            if let Some((count, first)) = copies.get_mut(window) {
                *count += 1;
                first.get_or_insert(at);
            }
        }
        let found = |(key, bytes): &(Found, Bytes)| {
            let (copies, first) = copies[bytes];
            Found { copies, first, ..*key }
        };
        self.keys.iter().map(found).collect()
    }
}

/// The key that begins at a byte of an image.
pub fn at(image: &[u8], start: usize) -> Bytes {
    let mut bytes = [0; KEY];
    bytes.copy_from_slice(&image[start..start + KEY]);
    bytes
}

/// The keys on an image: the slots of all pages of keys, whole or torn, and of spoilt pages in blocks without nodes
/// and cut-offs, where an erase may have left the end of such a page.
fn keys_on(image: &[u8]) -> Vec<(Found, Bytes)> {
    let forms: Vec<Form> = Form::all(image).collect();
    let mut keys = Vec::new();
    for (block, forms) in forms.chunks(PAGES_IN_BLOCK).enumerate() {
        let is_data = forms
            .iter()
            .any(|form| matches!(form.header(), Some(Header::Node { .. } | Header::CutOff { .. })));
        for (number, form) in forms.iter().enumerate() {
            let page = PAGES_IN_BLOCK * block + number;
            match form {
                Form::Whole(Header::Keys { .. }) => keys.extend(slots(image, page, *form)),
                Form::Torn(Header::Keys { .. }) => {
                    keys.extend(slots(image, page, *form).filter(|(_, bytes)| is_written(bytes)));
                }
                Form::Spoilt if !is_data => {
                    keys.extend(slots(image, page, *form).filter(|(_, bytes)| !is_text(bytes)));
                }
                _ => {}
            }
        }
    }
    keys
}

/// The slots of a page.
fn slots(image: &[u8], page: usize, form: Form) -> impl Iterator<Item = (Found, Bytes)> + '_ {
    (0..KEYS_IN_PAGE).map(move |slot| {
        let position = match form.header() {
            Some(Header::Keys { block, page, .. }) => {
                Some(KEYS_IN_PAGE * (PAGES_IN_BLOCK * block + page) + slot)
            }
            _ => None,
        };
        let bytes = at(image, PAGE * page + HEADER + KEY * slot);
        (Found { page, slot, position, copies: 0, first: None }, bytes)
    })
}

/// Whether a slot of a page that the power cut was begun.
fn is_written(bytes: &Bytes) -> bool {
    bytes.iter().any(|&byte| byte != 0xff)
}

/// Whether bytes of a page without a header are erased or text, as those of a commit are.
fn is_text(bytes: &Bytes) -> bool {
    bytes.iter().all(|byte| matches!(byte, 0xff | b' '..=b'~'))
}

#[cfg(test)]
mod tests {
    use super::*;
    use johvimaru::{Noise, Refusal, Store, BLOCK, KEYS, NOISE};

    /// Noise in which each key is another.
    fn noise() -> Noise {
        let word = |at: usize| (at as u32 + 1).wrapping_mul(2_654_435_761).to_be_bytes();
        let bytes: Vec<u8> = (0..NOISE / 4).flat_map(word).collect();
        Noise::new(&bytes).unwrap()
    }

    #[test]
    fn each_key_of_a_store_is_found_where_it_stands() -> Result<(), Refusal> {
        let store = Store::format(vec![0; 8 * BLOCK], noise())?;
        let keys = keys_on(store.image());
        assert_eq!(keys.len(), KEYS);
        for (key, bytes) in keys {
            let start = store.record().key_bytes(key.position.unwrap()).start;
            assert_eq!(start, PAGE * key.page + HEADER + KEY * key.slot);
            assert_eq!(bytes, at(store.image(), start));
        }
        Ok(())
    }

    /// What a cut erase leaves of a page of keys, without its header, is searched for too.
    #[test]
    fn keys_of_a_page_whose_header_is_erased() -> Result<(), Refusal> {
        let mut image = Store::format(vec![0; 8 * BLOCK], noise())?.into_image();
        let last = 15 * PAGE;
        image[..last + HEADER + 5].fill(0xff);
        let left: Vec<usize> = keys_on(&image)
            .iter()
            .filter(|(key, _)| key.page == 15)
            .map(|(key, _)| key.slot)
            .collect();
        assert_eq!(left, (0..KEYS_IN_PAGE).collect::<Vec<_>>());
        image[..last + HEADER + KEY].fill(0xff);
        assert!(keys_on(&image).iter().all(|(key, _)| key.page != 15 || key.slot > 0));
        Ok(())
    }

    /// Text of a commit whose first page is damaged is taken for no key.
    #[test]
    fn text_is_no_key() -> Result<(), Refusal> {
        let mut image = Store::format(vec![0; 8 * BLOCK], noise())?.into_image();
        image[2 * BLOCK] = b'X';
        assert_eq!(keys_on(&image).len(), KEYS);
        Ok(())
    }

    #[test]
    fn copies_are_found_at_any_byte() -> Result<(), Refusal> {
        let store = Store::format(vec![0; 8 * BLOCK], noise())?;
        let key = at(store.image(), store.record().key_bytes(300).start);
        let mut other = vec![0xff; 8 * BLOCK];
        other[1_001..1_001 + KEY].copy_from_slice(&key);
        let found = Search::for_keys_on(store.image(), &[]).through(&other);
        let with_copies: Vec<Option<usize>> =
            found.iter().filter(|key| key.copies > 0).map(|key| key.position).collect();
        assert_eq!(with_copies, [Some(300)]);
        assert!(Search::for_keys_on(store.image(), &[key])
            .through(&other)
            .iter()
            .all(|key| key.copies == 0));
        Ok(())
    }
}
