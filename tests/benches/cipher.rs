//! The time of one page, a fresh key expanded and 224 bytes enciphered in counter mode from 0, and
//! of the key expansion alone: the proved library beside the byte-wise second implementation and
//! libraries of the system, none with the processor's AES instructions.
//!
//! Under `cargo bench` it prints ratios. Under `cargo test` it only compares results.

use johvimaru_tests::rng::Rng;
use johvimaru_tests::shared_library::SharedLibrary;
use johvimaru_tests::timing::{self, Times, Work};
use johvimaru_tests::{ffi, model::aes};
use std::ffi::{c_int, c_ulong, c_void, CStr};
use std::hint::black_box;

/// Bytes of payload in a page.
const PAGE: usize = 224;
/// Pages in a turn, each under its own key. They stay in the first-level cache.
const PAGES: usize = 64;
/// Rounds in which every implementation has its turn.
const ROUNDS: usize = 1500;

const OURS: &str = "Johvimaru";
const TOMCRYPT: &str = "libtomcrypt";
const NETTLE: &str = "nettle, assembly";
const BEARSSL_SMALL: &str = "BearSSL, S-box only";

/// The limits to keep: our time for a page over that of a peer.
const LIMITS: [(&str, f64); 3] = [(TOMCRYPT, 0.85), (NETTLE, 1.00), (BEARSSL_SMALL, 0.35)];

/// The first counter.
static ZERO: [u8; aes::BLOCK] = [0; aes::BLOCK];

type Key = [u8; aes::KEY];
type Page = [u8; PAGE];

/// Expands a key.
type Expand = Box<dyn Fn(&Key)>;
/// Expands a key and enciphers a page with it.
type Encipher = Box<dyn Fn(&Key, &mut Page)>;

/// An implementation to compare.
struct Peer {
    name: &'static str,
    expand: Expand,
    page: Encipher,
}

/// A library of the system that may be absent.
struct Source {
    name: &'static str,
    /// The file to open.
    file: &'static CStr,
    /// The Debian package that has the file.
    package: &'static str,
    /// The implementations that the library has.
    peers: fn(SharedLibrary) -> Vec<Peer>,
}

const SOURCES: [Source; 3] = [
    Source {
        name: TOMCRYPT,
        file: c"libtomcrypt.so.1",
        package: "libtomcrypt1",
        peers: libtomcrypt,
    },
    Source { name: "nettle", file: c"libnettle.so.8", package: "libnettle8", peers: nettle },
    Source { name: "BearSSL", file: c"libbearssl.so.0", package: "libbearssl0", peers: bearssl },
];

/// Room for any library's expanded key or counter mode state, of which the largest takes 4.4 kB.
#[repr(align(64))]
struct Room {
    _bytes: [u8; 16384],
}

/// A room that stays until the program ends.
fn room() -> *mut c_void {
    let room = Room { _bytes: [0; 16384] };
    Box::into_raw(Box::new(room)).cast()
}

fn main() {
    // Nettle looks here as it is loaded: no AES instructions, and the usual XOR of memory.
    std::env::set_var("NETTLE_FAT_OVERRIDE", "vendor:intel");
    let mut peers = vec![ours(), second()];
    for source in SOURCES {
        match SharedLibrary::open(source.file) {
            Some(library) => peers.extend((source.peers)(library)),
            None => println!(
                "{} is missing: to have it in the comparison, install the Debian package {}",
                source.name, source.package
            ),
        }
    }
    compare_results(&peers);
    if std::env::args().any(|word| word == "--bench") {
        compare_times(&peers);
    }
}

/// Keys and pages to work on.
fn inputs() -> (Vec<Key>, Vec<Page>) {
    let mut rng = Rng::new(0x224);
    (0..PAGES).map(|_| (rng.array(), rng.array())).unzip()
}

/// Panics where a peer's pages are not those of the second implementation.
fn compare_results(peers: &[Peer]) {
    let (keys, pages) = inputs();
    for peer in peers {
        for (key, page) in keys.iter().zip(&pages) {
            let (mut got, mut want) = (*page, *page);
            (peer.page)(key, &mut got);
            aes::stream(key, &mut want);
            assert_eq!(got, want, "{}: another page than the second implementation's", peer.name);
        }
    }
    println!("{} implementations give the same pages", peers.len());
}

/// Expands each key once.
fn expansions<'a>(peer: &'a Peer, keys: &'a [Key]) -> Work<'a> {
    Box::new(|| keys.iter().for_each(|key| (peer.expand)(key)))
}

/// Enciphers each page once under its key, in a copy of the pages.
fn encipherments<'a>(peer: &'a Peer, keys: &'a [Key], pages: &[Page]) -> Work<'a> {
    let mut pages = pages.to_vec();
    Box::new(move || {
        for (key, page) in keys.iter().zip(&mut pages) {
            (peer.page)(key, page);
        }
    })
}

/// Prints each peer's times as multiples of ours, then the limits.
fn compare_times(peers: &[Peer]) {
    let (keys, pages) = inputs();
    let expansions = peers.iter().map(|peer| expansions(peer, &keys));
    let expansion = timing::run(expansions.collect(), ROUNDS);
    let encipherments = peers.iter().map(|peer| encipherments(peer, &keys, &pages));
    let page = timing::run(encipherments.collect(), ROUNDS);
    println!("\n{:<36}{:>15}{:>15}", "times, ours = 1.00", "key expansion", "whole page");
    for (at, peer) in peers.iter().enumerate() {
        let (expansion, page) = (expansion.ratio(at, 0), page.ratio(at, 0));
        println!("{:<36}{expansion:>15.2}{page:>15.2}", peer.name);
    }
    println!();
    for (name, limit) in LIMITS {
        println!("{}", verdict(peers, &page, name, limit));
    }
}

/// A line that says whether our time over that of the peer `name` keeps to `limit`.
fn verdict(peers: &[Peer], page: &Times, name: &str, limit: f64) -> String {
    let Some(at) = peers.iter().position(|peer| peer.name == name) else {
        return format!("ours / {name}: not measured");
    };
    let ratio = page.ratio(0, at);
    let word = if ratio <= limit { "met" } else { "NOT MET" };
    format!("ours / {name}: {ratio:.2}, at most {limit:.2}: {word}")
}

/// The proved library.
fn ours() -> Peer {
    Peer {
        name: OURS,
        expand: Box::new(|key| {
            let mut round_keys = [0; aes::ROUND_KEYS];
            assert_eq!(ffi::cipher::expand(key, &mut round_keys), ffi::DONE);
            black_box(round_keys);
        }),
        page: Box::new(|key, page| assert_eq!(ffi::cipher::stream(key, page), ffi::DONE)),
    }
}

/// The second implementation.
fn second() -> Peer {
    Peer {
        name: "second implementation, byte by byte",
        expand: Box::new(|key| {
            black_box(aes::expand(black_box(key)));
        }),
        page: Box::new(|key, page| aes::stream(key, page)),
    }
}

/// libtomcrypt: its counter mode over its AES without decryption, the faster of its two.
fn libtomcrypt(library: SharedLibrary) -> Vec<Peer> {
    type Register = unsafe extern "C" fn(*const c_void) -> c_int;
    type Setup = unsafe extern "C" fn(*const u8, c_int, c_int, *mut c_void) -> c_int;
    type Start = unsafe extern "C" fn(
        c_int,
        *const u8,
        *const u8,
        c_int,
        c_int,
        c_int,
        *mut c_void,
    ) -> c_int;
    type Encrypt = unsafe extern "C" fn(*const u8, *mut u8, c_ulong, *mut c_void) -> c_int;
    type Done = unsafe extern "C" fn(*mut c_void) -> c_int;
    /// `CTR_COUNTER_BIG_ENDIAN` of tomcrypt_cipher.h.
    const BIG_ENDIAN: c_int = 0x1000;
    /// `CRYPT_OK` of tomcrypt.h.
    const OK: c_int = 0;

    // SAFETY: the types above are those of libtomcrypt's headers, and the descriptor is its own.
    let (cipher, setup, start, encrypt, done) = unsafe {
        let register = library.function::<Register>(c"register_cipher");
        (
            register(library.address(c"aes_enc_desc")),
            library.function::<Setup>(c"rijndael_enc_setup"),
            library.function::<Start>(c"ctr_start"),
            library.function::<Encrypt>(c"ctr_encrypt"),
            library.function::<Done>(c"ctr_done"),
        )
    };
    assert!(cipher >= 0, "libtomcrypt takes no further cipher");
    let state = room();
    vec![Peer {
        name: TOMCRYPT,
        // SAFETY: 16 bytes of key, and room for what is made of it.
        expand: Box::new(move |key| unsafe {
            assert_eq!(setup(key.as_ptr(), 16, 0, state), OK);
        }),
        // SAFETY: 16 bytes of counter and of key, room for the state, and a page in place.
        page: Box::new(move |key, page| unsafe {
            let (counter, key, data) = (ZERO.as_ptr(), key.as_ptr(), page.as_mut_ptr());
            assert_eq!(start(cipher, counter, key, 16, 0, BIG_ENDIAN, state), OK);
            assert_eq!(encrypt(data, data, PAGE as c_ulong, state), OK);
            assert_eq!(done(state), OK);
        }),
    }]
}

/// nettle: its counter mode over its AES-128.
fn nettle(library: SharedLibrary) -> Vec<Peer> {
    type SetKey = unsafe extern "C" fn(*mut c_void, *const u8);
    type Cipher = unsafe extern "C" fn(*const c_void, usize, *mut u8, *const u8);
    type Crypt =
        unsafe extern "C" fn(*const c_void, Cipher, usize, *mut u8, usize, *mut u8, *const u8);

    // SAFETY: the types above are those of nettle's aes.h and ctr.h.
    let (set_key, cipher, crypt) = unsafe {
        (
            library.function::<SetKey>(c"nettle_aes128_set_encrypt_key"),
            library.function::<Cipher>(c"nettle_aes128_encrypt"),
            library.function::<Crypt>(c"nettle_ctr_crypt"),
        )
    };
    let state = room();
    vec![Peer {
        name: NETTLE,
        // SAFETY: 16 bytes of key, and room for what is made of it.
        expand: Box::new(move |key| unsafe { set_key(state, key.as_ptr()) }),
        // SAFETY: 16 bytes of key and of counter, room for the state, and a page in place.
        page: Box::new(move |key, page| unsafe {
            let (mut counter, data) = (ZERO, page.as_mut_ptr());
            set_key(state, key.as_ptr());
            crypt(state, cipher, 16, counter.as_mut_ptr(), PAGE, data, data);
        }),
    }]
}

/// BearSSL: the counter modes of its four AES implementations without AES instructions.
fn bearssl(library: SharedLibrary) -> Vec<Peer> {
    type Init = unsafe extern "C" fn(*mut c_void, *const u8, usize);
    type Run = unsafe extern "C" fn(*const c_void, *const u8, u32, *mut u8, usize) -> u32;

    let peer = |name, init: &CStr, run: &CStr| {
        // SAFETY: the types above are those of bearssl_block.h.
        let (init, run) = unsafe { (library.function::<Init>(init), library.function::<Run>(run)) };
        let state = room();
        Peer {
            name,
            // SAFETY: 16 bytes of key, and room for what is made of it.
            expand: Box::new(move |key| unsafe { init(state, key.as_ptr(), 16) }),
            // SAFETY: 16 bytes of key, the counter's first 12, room for the state, and a page in
            // place.
            page: Box::new(move |key, page| unsafe {
                init(state, key.as_ptr(), 16);
                run(state, ZERO.as_ptr(), 0, page.as_mut_ptr(), PAGE);
            }),
        }
    };
    vec![
        peer(BEARSSL_SMALL, c"br_aes_small_ctr_init", c"br_aes_small_ctr_run"),
        peer("BearSSL, word tables", c"br_aes_big_ctr_init", c"br_aes_big_ctr_run"),
        peer("BearSSL, constant time, 32 bits", c"br_aes_ct_ctr_init", c"br_aes_ct_ctr_run"),
        peer("BearSSL, constant time, 64 bits", c"br_aes_ct64_ctr_init", c"br_aes_ct64_ctr_run"),
    ]
}
