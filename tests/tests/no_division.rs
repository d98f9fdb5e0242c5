//! Document 02, #103: what writes decimal columns, or words of columns, does not divide. A test over the
//! sources, and one over the compiled archives.

use johvimaru_tests::sources::Sources;
use std::collections::BTreeSet;
use std::path::{Path, PathBuf};
use std::process::Command;

/// Where writing columns, and making words of columns, begins.
const ROOTS: [&str; 5] = [
    "page::columns::put_at",
    "page::columns::spelt4",
    "page::entries::write_commit_payload",
    "page::headers::write_header",
    "page::headers::write_header_like",
];

/// All that they reach.
const REACHED: [&str; 28] = [
    "page::bytes::copy",
    "page::bytes::fill",
    "page::columns::counted",
    "page::columns::counted_long",
    "page::columns::four_digits",
    "page::columns::hundred_millions",
    "page::columns::less",
    "page::columns::less_long",
    "page::columns::put",
    "page::columns::put_at",
    "page::columns::put_columns",
    "page::columns::spelt4",
    "page::columns::spelt8",
    "page::columns::spelt_long",
    "page::columns::spelt_low",
    "page::columns::spelt_middle",
    "page::columns::spelt_short",
    "page::columns::ten_thousands",
    "page::columns::three_digits",
    "page::columns::twelve",
    "page::columns::two_digits",
    "page::entries::write_commit_payload",
    "page::entries::write_entries",
    "page::entries::write_entry",
    "page::headers::put_part",
    "page::headers::write_header",
    "page::headers::write_header_like",
    "page::words::eight",
];

/// The modules in which no function divides: those that read columns take shifts and masks too.
const MODULES: [&str; 4] = ["page::columns", "page::entries", "page::headers", "page::words"];

/// What a compiler calls for a division where the processor has none: of gcc and LLVM for any processor, and
/// those of the ARM interface.
const ROUTINES: [&str; 21] = [
    "__udivsi3",
    "__umodsi3",
    "__udivmodsi4",
    "__divsi3",
    "__modsi3",
    "__divmodsi4",
    "__udivdi3",
    "__umoddi3",
    "__udivmoddi4",
    "__divdi3",
    "__moddi3",
    "__divmoddi4",
    "__udivti3",
    "__umodti3",
    "__divti3",
    "__modti3",
    "__aeabi_uidiv",
    "__aeabi_uidivmod",
    "__aeabi_idiv",
    "__aeabi_idivmod",
    "__aeabi_uldivmod",
];

/// The processor's own divisions of whole numbers, of any width.
const INSTRUCTIONS: [&str; 10] =
    ["div", "divb", "divw", "divl", "divq", "idiv", "idivb", "idivw", "idivl", "idivq"];

/// The top of the repository.
fn top() -> PathBuf {
    Path::new(env!("CARGO_MANIFEST_DIR")).join("..")
}

// ---- The sources

/// What is wrong with what the roots reach: other functions than are listed, a division, or a call of which
/// nobody knows where it goes.
fn complaints(sources: &Sources, roots: &[&str], listed: &[&str]) -> Vec<String> {
    let reached = sources.reached(roots);
    let listed: BTreeSet<String> = listed.iter().map(|name| name.to_string()).collect();
    let mut complaints = Vec::new();
    complaints.extend(reached.difference(&listed).map(|name| format!("{name} is not listed")));
    complaints.extend(listed.difference(&reached).map(|name| format!("{name} is not reached")));
    for name in &reached {
        let function = sources.function(name).expect("it was reached");
        if function.divisions() > 0 {
            complaints.push(format!("{name} divides"));
        }
        complaints.extend(function.unknown.iter().map(|call| format!("{name} calls {call}")));
    }
    complaints
}

/// The functions of a module that divide.
fn dividing(sources: &Sources, module: &str) -> Vec<String> {
    let functions = sources.in_module(module);
    assert!(!functions.is_empty(), "the sources have no module {module}");
    let dividing = functions.into_iter().filter(|(_, function)| function.divisions() > 0);
    dividing.map(|(name, _)| name.to_string()).collect()
}

#[test]
fn what_writes_columns_does_not_divide() {
    let complaints = complaints(&Sources::of(&top()), &ROOTS, &REACHED);
    assert!(complaints.is_empty(), "{}", complaints.join("\n"));
}

#[test]
fn no_function_of_columns_words_headers_and_entries_divides() {
    let sources = Sources::of(&top());
    for module in MODULES {
        assert_eq!(dividing(&sources, module), [""; 0]);
    }
}

/// The test above would see a division in the sources: where a key stands is worked out by some.
#[test]
fn a_division_in_the_sources_is_seen() {
    let sources = Sources::of(&top());
    let expected = ["block_of", "page_of", "slot_of"].map(|name| format!("page::keys::{name}"));
    assert_eq!(dividing(&sources, "page::keys"), expected);
}

/// The root in the small texts below.
const ROOT: &str = "page::columns::put4";

/// What is wrong with what `put4` reaches in a text of the module of columns, where it is to reach these.
fn complaints_of(text: &str, listed: &[&str]) -> Vec<String> {
    let words = "// Not here: /\npub fn put(w: u32) { set(w >> 8); }\nfn set(w: u32) { w; }\n\
        pub fn parted(w: u32) -> u32 { w / 0x100 }\n";
    let texts = [("page::columns", text), ("page::words", words)];
    complaints(&Sources::of_texts(&texts), &[ROOT], listed)
}

#[test]
fn a_division_in_a_body_is_seen() {
    for sign in ["n / 10", "n % 10", "{ let mut m = n; m /= 10; m }", "{ m %= 10; m }"] {
        let text = format!("pub fn put4(n: u32) -> u32\n{{\n    {sign}\n}}\n");
        assert_eq!(complaints_of(&text, &[ROOT]), ["page::columns::put4 divides"], "{sign}");
    }
}

#[test]
fn a_division_in_a_callee_is_seen() {
    let text = "fn digit(n: u32) -> u32 { n % 10 }\nfn low(n: u32) -> u32 { digit(n) }\n\
        pub fn put4(n: u32) -> u32 { low(n) }\nfn other(n: u32) -> u32 { n / 3 }\n";
    let listed = [ROOT, "page::columns::low", "page::columns::digit"];
    assert_eq!(complaints_of(text, &listed), ["page::columns::digit divides"]);
    let text = "use crate::words;\npub fn put4(n: u32) -> u32 { words::parted(n) }\n";
    let listed = [ROOT, "page::words::parted"];
    assert_eq!(complaints_of(text, &listed), ["page::words::parted divides"]);
    let text = "use crate::words::parted as low;\npub fn put4(n: u32) -> u32 { low(n) }\n";
    assert_eq!(complaints_of(text, &listed), ["page::words::parted divides"]);
    let text = "pub fn put4(n: u32) -> u32 { crate::words::parted(n) }\n";
    assert_eq!(complaints_of(text, &listed), ["page::words::parted divides"]);
}

#[test]
fn signs_outside_of_bodies_are_no_divisions() {
    let comment = "// n / 10\npub fn put4(n: u32) -> u32 { n // and n % 10\n}\n";
    let contract = "pub fn put4(n: u32) -> u32\n    requires low { n / 10 < 10 }\n    \
        requires even { n % 2 ≡ 0 }\n    ensures* { ⌜ result ≡ n / 10 ⌝ }\n{\n    n\n}\n";
    let quotes = "pub fn put4(n: u32) -> u32 { both(b'/', '%', b\"/ \\\" %\") }\nfn both() {}\n";
    let constant = "ghost use Rattle.std.specs.Prelude.{◌/◌, ◌%◌};\nconst TEN: u32 = 100 / 10;\n\
        pub fn put4(n: u32) -> u32 { n }\n";
    for text in [comment, contract, constant] {
        assert_eq!(complaints_of(text, &[ROOT]), [""; 0], "{text}");
    }
    assert_eq!(complaints_of(quotes, &[ROOT, "page::columns::both"]), [""; 0]);
}

#[test]
fn the_list_must_name_what_is_reached() {
    let text = "use crate::words;\npub fn put4(n: u32) { words::put(n); }\n";
    let listed = [ROOT, "page::words::put", "page::words::set"];
    assert_eq!(complaints_of(text, &listed), [""; 0]);
    assert_eq!(complaints_of(text, &listed[..2]), ["page::words::set is not listed"]);
    let more = [&listed[..], &["page::words::parted"]].concat();
    assert_eq!(complaints_of(text, &more), ["page::words::parted is not reached"]);
}

#[test]
fn a_call_must_be_of_a_function_that_is_there() {
    let text = "use crate::words;\npub fn put4(n: u32) { words::quotient(n.checked_div(10)); }\n";
    let expected = ["checked_div", "words::quotient"].map(|call| format!("{ROOT} calls {call}"));
    assert_eq!(complaints_of(text, &[ROOT]), expected);
}

/// A function of columns as it was before #103.
const BEFORE: &str = "
// Four columns of any number, as one word: of a longer one its last four digits.
fn spelt_low(n: u32) -> u32
    ensures { word_bytes 4 result ≡ spell 4 n }
{
    let high = n / 100 % 100;
    let low = n % 100;
    0x30303030 + high / 10 + high % 10 * 0x100 + low / 10 * 0x10000 + low % 10 * 0x1000000
}

// Writes n into the four columns of dst from at on.
pub(crate) fn put4(dst: &mut [u8], at: usize, n: u32)
    requires { at + 4 ≤ length dst.old }
    ensures { dst.new ≡ splice dst.old at (spell 4 n) }
{
    spelt_low(n);
}
";

#[test]
fn the_columns_of_before_are_seen_to_divide() {
    let listed = [ROOT, "page::columns::spelt_low"];
    assert_eq!(complaints_of(BEFORE, &listed), ["page::columns::spelt_low divides"]);
    let sources = Sources::of_texts(&[("page::columns", BEFORE)]);
    assert_eq!(dividing(&sources, "page::columns"), ["page::columns::spelt_low"]);
    let function = sources.function("page::columns::spelt_low").expect("it is there");
    assert_eq!(function.divisions(), 7);
}

// ---- The archives

/// What a program that disassembles says of an object file or an archive, with the symbols that the
/// instructions name.
fn disassembly(program: &str, file: &Path) -> Result<String, String> {
    let words = ["--disassemble", "--reloc", "--no-show-raw-insn"];
    let run = Command::new(program).args(words).arg(file).output();
    let run =
        run.map_err(|_| format!("{program} is needed: install the Debian package binutils"))?;
    match run.status.success() {
        true => Ok(String::from_utf8_lossy(&run.stdout).into_owned()),
        false => Err(String::from_utf8_lossy(&run.stderr).into_owned()),
    }
}

/// The name in a line with which a function begins.
fn begun(line: &str) -> Option<&str> {
    let (address, name) = line.strip_suffix(">:")?.split_once(" <")?;
    address.bytes().all(|digit| digit.is_ascii_hexdigit()).then_some(name)
}

/// Whether a line is a division, or names a routine for one.
fn is_division(line: &str) -> bool {
    let mut words = line.split(|c: char| !c.is_ascii_alphanumeric() && c != '_');
    let instruction = line.split('\t').nth(1).and_then(|text| text.split_whitespace().next());
    instruction.is_some_and(|word| INSTRUCTIONS.contains(&word))
        || words.any(|word| ROUTINES.contains(&word))
}

/// The functions of a disassembly, and the lines of it that are divisions, each with its function.
fn compiled(text: &str) -> (BTreeSet<String>, Vec<String>) {
    let (mut functions, mut divisions) = (BTreeSet::new(), Vec::new());
    let mut function = "";
    for line in text.lines() {
        if let Some(name) = begun(line) {
            function = name;
            functions.insert(name.to_string());
        } else if is_division(line) {
            divisions.push(format!("{function}: {}", line.trim()));
        }
    }
    (functions, divisions)
}

/// The archive with which the tests are linked, of the store's calls.
fn recorder() -> PathBuf {
    PathBuf::from(env!("RECORDER_ARCHIVE"))
}

/// The other one, of the inner layers.
fn harness() -> PathBuf {
    top().join("target/staticlib/libharness.a")
}

/// The functions of an archive that have the code of a function of the sources: its own, or those of its
/// callers, into which the compiler may have taken it.
fn holders(sources: &Sources, compiled: &BTreeSet<String>, name: &str) -> Vec<String> {
    let symbol = |name: &String| match sources.function(name) {
        Some(function) if function.is_exported => name.rsplit("::").next().map(String::from),
        _ => Some(name.clone()),
    };
    let names = sources.reaching(&[name]);
    names.iter().filter_map(symbol).filter(|symbol| compiled.contains(symbol)).collect()
}

#[test]
fn code_is_looked_for_in_its_callers() {
    let sources = Sources::of(&top());
    let in_archive = |names: &[&str]| names.iter().map(|name| name.to_string()).collect();
    let found = |names: &[&str], of| holders(&sources, &in_archive(names), of);
    let write = ["johvimaru_write", "store::find::new_page_from"];
    let put = "page::columns::put_columns";
    assert_eq!(found(&write, put), ["johvimaru_write"]);
    assert_eq!(found(&[put], put), [put]);
    assert_eq!(found(&["cipher::expand"], put), [""; 0]);
    assert_eq!(found(&write, "page::columns::put_at"), [""; 0]);
}

/// No function of an archive divides. The compiler takes most functions of the list into their callers, in
/// other crates too, so that no name in the archive tells where the code of one ends; with all functions
/// looked at, it is looked at wherever it went. The archive has the code of these roots, and so of what they
/// reach, or the test would look at nothing.
///
/// On x86-64 a division by a constant is compiled as a multiplication, so here the sources tell more than the
/// archive does.
fn assert_undivided(archive: &Path, roots: &[&str]) {
    let text = disassembly("objdump", archive).unwrap_or_else(|why| panic!("{why}"));
    let (functions, divisions) = compiled(&text);
    let sources = Sources::of(&top());
    for root in roots {
        let holders = holders(&sources, &functions, root);
        assert!(!holders.is_empty(), "{}: the code of {root} is not there", archive.display());
        println!("{root} is in {}", holders.join(", "));
    }
    let own = REACHED.into_iter().filter(|name| functions.contains(*name));
    println!("of the list, by their own names: {}", own.collect::<Vec<_>>().join(", "));
    assert!(divisions.is_empty(), "{}:\n{}", archive.display(), divisions.join("\n"));
}

/// The listing program alone calls `put_at`, so no archive has it.
#[test]
fn no_function_of_the_recorder_divides() {
    assert_undivided(&recorder(), &ROOTS[1..]);
}

#[test]
fn no_function_of_the_harness_divides() {
    let roots = ["page::entries::write_commit_payload", "page::headers::write_header"];
    assert_undivided(&harness(), &roots);
}

/// Compiled by the system's compiler: an instruction, a routine, neither.
const IN_C: &str = "unsigned by(unsigned a, unsigned b) { return a / b; }\n\
    int rest(int a, int b) { return a % b; }\n\
    unsigned __int128 wide(unsigned __int128 a, unsigned __int128 b) { return a / b; }\n\
    unsigned shifted(unsigned a) { return a >> 8 & 0xff; }\n\
    double real(double a, double b) { return a / b; }\n";

#[test]
fn a_division_in_an_object_file_is_seen() {
    let object = Path::new(env!("CARGO_TARGET_TMPDIR")).join("division.o");
    let source = object.with_extension("c");
    std::fs::write(&source, IN_C).expect("it can be written");
    let mut compiler = Command::new("cc");
    compiler.args(["-std=gnu11", "-O2", "-c", "-o"]).arg(&object).arg(&source);
    assert!(compiler.status().expect("a C compiler is needed").success());
    let text = disassembly("objdump", &object).unwrap_or_else(|why| panic!("{why}"));
    let (functions, divisions) = compiled(&text);
    assert!(functions.iter().eq(["by", "real", "rest", "shifted", "wide"]));
    let of: Vec<&str> = divisions.iter().filter_map(|line| line.split(':').next()).collect();
    assert_eq!(of, ["by", "rest", "wide"], "{divisions:?}");
    assert!(divisions[0].contains("div") && divisions[2].contains("__udivti3"), "{divisions:?}");
}

#[test]
fn lines_of_a_disassembly_are_told_apart() {
    assert_eq!(begun("0000000000000000 <page::columns::put8>:"), Some("page::columns::put8"));
    assert_eq!(begun("   5:\tjmp    a <page::columns::put8+0xa>"), None);
    for line in ["   7:\tdiv    %ecx", "  1a:\tidivl  0x8(%rsp)", "  1c:\tdivq   %rsi"] {
        assert!(is_division(line), "{line}");
    }
    for routine in ROUTINES {
        assert!(is_division(&format!("\t\t\t5: R_X86_64_PLT32\t{routine}-0x4")), "{routine}");
        assert!(is_division(&format!("   8:\tbl\t0 <{routine}>")), "{routine}");
    }
    for line in ["   7:\tdivss  %xmm1,%xmm0", "   9:\timul   $0xcccccccd,%rax,%rax"] {
        assert!(!is_division(line), "{line}");
    }
    assert!(!is_division("\t\t\t5: R_X86_64_PLT32\tcipher::caching::new_cache-0x4"));
}

#[test]
fn a_program_that_is_missing_is_named_with_its_package() {
    let said = disassembly("no-such-objdump", &recorder());
    let expected = "no-such-objdump is needed: install the Debian package binutils";
    assert_eq!(said, Err(expected.to_string()));
}
