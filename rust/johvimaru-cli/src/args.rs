//! What the command is asked, from its words.

mod spelling;
mod words;

use crate::help::Topic;
use johvimaru::Cut;
use std::ffi::{OsStr, OsString};
use std::os::unix::ffi::OsStrExt;
use std::path::PathBuf;
use words::{number, wrong, Shape, Usage, Words, HELP, IMAGE_OPTION, MAN};

/// The image file where none is named.
pub const IMAGE: &str = "recorder.img";

/// What the command is asked.
#[derive(Debug, PartialEq, Eq)]
pub struct Request {
    /// The image file.
    pub image: PathBuf,
    /// What to do.
    pub command: Command,
}

/// What to do.
#[derive(Debug, PartialEq, Eq)]
pub enum Command {
    /// Print a help text.
    Help(Topic),
    /// Print all help texts as a man page.
    Man,
    /// Print the version.
    Version,
    /// Make an empty store.
    Format {
        /// How many blocks.
        blocks: Option<usize>,
        /// Also over a file that holds something.
        force: bool,
        /// Where the power fails.
        cut: Option<Cut>,
    },
    /// Mount, and nothing more; and where the power fails.
    Mount(Option<Cut>),
    /// Mount and make a call, and cut it where that is asked.
    Call(Call, Option<Cut>),
    /// Read a payload.
    Read {
        /// The file.
        file: u32,
        /// The offset.
        offset: u32,
        /// Add nothing to its bytes, on a terminal neither.
        raw: bool,
    },
    /// Print the nodes of a file, a line each.
    Export {
        /// The file.
        file: u32,
        /// Payloads as text.
        text: bool,
    },
    /// Write the nodes of such lines.
    Import {
        /// The file.
        file: u32,
        /// Payloads are text.
        text: bool,
    },
    /// Clear the recorder for another owner.
    Handover(Handover),
    /// Print document 01's listing, as JSON where that is asked.
    List(bool),
    /// Say what is there, as JSON where that is asked.
    Check(bool),
    /// Draw the picture.
    Map(MapOptions),
    /// Play a handover.
    Demo,
    /// Print the bytes that a call sends to a chip on its bus.
    BusTrace(Traced),
    /// Say what has changed between two images.
    Diff {
        /// The older image file.
        old: PathBuf,
        /// The newer one.
        new: PathBuf,
        /// As JSON.
        json: bool,
    },
}

/// A call that changes the flash and comes after a mount.
#[derive(Debug, PartialEq, Eq)]
pub enum Call {
    /// Write.
    Write {
        /// The file.
        file: u32,
        /// The offset.
        offset: u32,
        /// The text, or none where it comes from standard input.
        text: Option<Vec<u8>>,
    },
    /// Cut-off.
    CutOff {
        /// The file.
        file: u32,
        /// The first offset removed.
        offset: u32,
    },
    /// Gather a block; none is the thinnest.
    Gather(Option<u32>),
    /// Commit.
    Commit,
    /// Wipe.
    Wipe {
        /// The file.
        file: u32,
        /// The first offset removed.
        offset: u32,
    },
}

/// A call whose bytes are printed.
#[derive(Debug, PartialEq, Eq)]
pub enum Traced {
    /// Format, and how many blocks.
    Format(Option<usize>),
    /// Mount.
    Mount,
    /// A call that comes after a mount.
    Call(Call),
}

/// How a recorder is handed over.
#[derive(Debug, Default, PartialEq, Eq)]
pub struct Handover {
    /// The files that stay.
    pub keep: Vec<u32>,
    /// The file that the report is written to; none is standard output.
    pub report: Option<PathBuf>,
    /// The report as JSON.
    pub json: bool,
    /// Format an image that cannot be mounted.
    pub force: bool,
}

/// What picture is drawn, and where it goes.
#[derive(Debug, Default, PartialEq, Eq)]
pub struct MapOptions {
    /// The SVG file that is written instead of the terminal's text.
    pub svg: Option<PathBuf>,
    /// The images before and after, instead of the image file.
    pub before_after: Option<(PathBuf, PathBuf)>,
}

/// Takes the words of the command, without its own name.
pub fn parse(words: &[OsString]) -> Result<Request, Usage> {
    let (topic, rest) = subcommand(words, "what is to be done is missing")?;
    if topic == Topic::BusTrace {
        return bus_trace(&rest);
    }
    let shape = Shape::of(topic);
    let words = Words::sort(&shape, &rest)?;
    let image = words.path(IMAGE_OPTION).unwrap_or_else(|| PathBuf::from(IMAGE));
    if image.as_os_str().is_empty() {
        return wrong("--image needs the name of a file");
    }
    if topic == Topic::Johvimaru {
        return Ok(Request { image, command: help(&words)? });
    }
    if words.has(HELP) {
        return Ok(Request { image, command: Command::Help(topic) });
    }
    if words.plain.len() < shape.needed {
        let missing = shape.words[words.plain.len()];
        return wrong(format!("{} needs {missing}", topic.name()));
    }
    if let Some(word) = words.plain.get(shape.words.len()) {
        let (name, word) = (topic.name(), word.to_string_lossy());
        let hint = if shape.words.is_empty() { "; the image file is named by --image" } else { "" };
        return wrong(format!("{name} takes no {word:?}{hint}"));
    }
    Ok(Request { image, command: command(&shape, &words)? })
}

/// Finds the subcommand, and the words without it. `--image` may stand before it.
fn subcommand(words: &[OsString], missing: &str) -> Result<(Topic, Vec<OsString>), Usage> {
    let mut at = 0;
    while let Some(word) = words.get(at) {
        match word.as_bytes() {
            b"--image" => at += 2,
            b"--help" | b"-h" => return Ok((Topic::Johvimaru, Vec::new())),
            b"--version" | b"-V" => return Ok((Topic::Version, Vec::new())),
            bytes if bytes.starts_with(b"--image=") => at += 1,
            bytes => {
                let topic = named(&String::from_utf8_lossy(bytes))?;
                let rest = words[..at].iter().chain(&words[at + 1..]).cloned().collect();
                return Ok((topic, rest));
            }
        }
    }
    wrong(missing)
}

/// The subcommand of a name.
fn named(name: &str) -> Result<Topic, Usage> {
    Topic::of(name).ok_or_else(|| {
        let hint = spelling::meant(name).map(|topic| format!("; is it {}?", topic.name()));
        Usage(format!("there is no {name:?}{}", hint.unwrap_or_default()))
    })
}

/// `bus-trace`, with a call and the words of that.
fn bus_trace(words: &[OsString]) -> Result<Request, Usage> {
    let (topic, _) = subcommand(words, "bus-trace needs CALL")?;
    if topic == Topic::Johvimaru {
        return Ok(Request { image: IMAGE.into(), command: Command::Help(Topic::BusTrace) });
    }
    if !Shape::of(topic).has_steps() {
        let calls = "format, mount, write, cut-off, gather, commit or wipe";
        return wrong(format!("bus-trace takes {calls}, and not {}", topic.name()));
    }
    let Request { image, command } = parse(words)?;
    let (traced, cut) = match command {
        Command::Format { blocks, cut, .. } => (Traced::Format(blocks), cut),
        Command::Mount(cut) => (Traced::Mount, cut),
        Command::Call(call, cut) => (Traced::Call(call), cut),
        _ => return Ok(Request { image, command: Command::Help(Topic::BusTrace) }),
    };
    if cut.is_some() {
        return wrong("bus-trace has no option --cut");
    }
    Ok(Request { image, command: Command::BusTrace(traced) })
}

/// `help`, with the name of a subcommand or without.
fn help(words: &Words) -> Result<Command, Usage> {
    match &words.plain[..] {
        [] if words.has(MAN) => Ok(Command::Man),
        [] => Ok(Command::Help(Topic::Johvimaru)),
        [name] if !words.has(MAN) => named(&name.to_string_lossy()).map(Command::Help),
        _ => wrong("help takes one name"),
    }
}

/// The command of sorted words, of which there are enough and not too many.
fn command(shape: &Shape, words: &Words) -> Result<Command, Usage> {
    let file = || words.number(shape, 0);
    let at = || Ok((words.number(shape, 0)?, words.number(shape, 1)?));
    let (text, json, force) = (words.has("--text"), words.has("--json"), words.has("--force"));
    let call = match shape.topic {
        Topic::Johvimaru => return help(words),
        Topic::BusTrace => return wrong("bus-trace needs CALL"),
        Topic::Version => return Ok(Command::Version),
        Topic::List => return Ok(Command::List(json)),
        Topic::Check => return Ok(Command::Check(json)),
        Topic::Demo => return Ok(Command::Demo),
        Topic::Map => return Ok(Command::Map(map_options(words)?)),
        Topic::Export => return Ok(Command::Export { file: file()?, text }),
        Topic::Import => return Ok(Command::Import { file: file()?, text }),
        Topic::Handover => return Ok(Command::Handover(handover(words)?)),
        Topic::Mount => return Ok(Command::Mount(words.cut()?)),
        Topic::Diff => return diff(words),
        Topic::Read => {
            let (file, offset) = at()?;
            return Ok(Command::Read { file, offset, raw: words.has("--raw") });
        }
        Topic::Format => {
            let blocks = words.value("--blocks").map(|value| number("--blocks", value));
            let blocks = blocks.transpose()?.map(|number| number as usize);
            return Ok(Command::Format { blocks, force, cut: words.cut()? });
        }
        Topic::Write => {
            let (file, offset) = at()?;
            let text = words.plain.get(2).map(|text| text.as_bytes().to_vec());
            Call::Write { file, offset, text: text.filter(|text| text != b"-") }
        }
        Topic::CutOff => at().map(|(file, offset)| Call::CutOff { file, offset })?,
        Topic::Gather => Call::Gather(gathered(shape, words)?),
        Topic::Commit => Call::Commit,
        Topic::Wipe => at().map(|(file, offset)| Call::Wipe { file, offset })?,
    };
    Ok(Command::Call(call, words.cut()?))
}

/// The block that is gathered; none is the thinnest.
fn gathered(shape: &Shape, words: &Words) -> Result<Option<u32>, Usage> {
    match (words.plain.is_empty(), words.has("--thinnest")) {
        (false, false) => words.number(shape, 0).map(Some),
        (true, true) => Ok(None),
        (true, false) => wrong("gather needs BLOCK, or --thinnest"),
        (false, true) => wrong("gather takes BLOCK or --thinnest, and not both"),
    }
}

fn handover(words: &Words) -> Result<Handover, Usage> {
    let keep = match words.value("--keep") {
        None => Vec::new(),
        Some(files) => {
            let files = files.to_string_lossy();
            let numbers = files.split(',').map(|file| number("a file of --keep", OsStr::new(file)));
            numbers.collect::<Result<_, _>>()?
        }
    };
    let report = words.path("--report");
    if report.as_ref().is_some_and(|path| path.as_os_str().is_empty()) {
        return wrong("--report needs the name of a file");
    }
    Ok(Handover { keep, report, json: words.has("--json"), force: words.has("--force") })
}

fn map_options(words: &Words) -> Result<MapOptions, Usage> {
    let before_after = match (words.path("--before"), words.path("--after")) {
        (None, None) => None,
        (Some(before), Some(after)) => Some((before, after)),
        _ => return wrong("map takes --before and --after together"),
    };
    if before_after.is_some() && words.value(IMAGE_OPTION).is_some() {
        return wrong("map takes --before and --after, or --image");
    }
    let svg = words.path("--svg");
    if svg.as_ref().is_some_and(|path| path.extension().is_none_or(|end| end != "svg")) {
        return wrong("--svg takes the name of a file that ends in .svg");
    }
    Ok(MapOptions { svg, before_after })
}

fn diff(words: &Words) -> Result<Command, Usage> {
    if words.value(IMAGE_OPTION).is_some() {
        return wrong("diff takes OLD and NEW, and no --image");
    }
    let [old, new] = [0, 1].map(|at| PathBuf::from(&words.plain[at]));
    Ok(Command::Diff { old, new, json: words.has("--json") })
}

#[cfg(test)]
mod tests {
    use super::*;

    fn parsed(line: &str) -> Result<Request, String> {
        let words: Vec<OsString> = line.split_whitespace().map(OsString::from).collect();
        parse(&words).map_err(|usage| usage.0)
    }

    fn command_of(line: &str) -> Command {
        parsed(line).unwrap_or_else(|usage| panic!("{line}: {usage}")).command
    }

    fn usage(line: &str) -> String {
        parsed(line).expect_err(line)
    }

    #[test]
    fn calls_with_their_words() {
        let write = |text: &str, cut| {
            let text = Some(text.as_bytes().to_vec());
            Command::Call(Call::Write { file: 2, offset: 5, text }, cut)
        };
        assert_eq!(command_of("write 2 5 x"), write("x", None));
        let cut = Some(Cut { n: 0, k: 30 });
        assert_eq!(command_of("write 2 5 x --cut 0,30"), write("x", cut));
        assert_eq!(command_of("write --cut=0,30 2 5 x"), write("x", cut));
        assert_eq!(command_of("write 2 5 -- --cut"), write("--cut", None));
        let from_input = Command::Call(Call::Write { file: 2, offset: 5, text: None }, None);
        assert_eq!(command_of("write 2 5 -"), from_input);
        assert_eq!(command_of("write 2 5"), from_input);
        let format = |blocks, force| Command::Format { blocks, force, cut: None };
        assert_eq!(command_of("format"), format(None, false));
        assert_eq!(command_of("format --blocks 8 --force"), format(Some(8), true));
        assert_eq!(command_of("commit"), Command::Call(Call::Commit, None));
        assert_eq!(command_of("mount"), Command::Mount(None));
        assert_eq!(command_of("mount --cut 0,30"), Command::Mount(cut));
        let wipe = Call::Wipe { file: 0, offset: 1 };
        assert_eq!(command_of("wipe 0 1"), Command::Call(wipe, None));
        let cut_off = Call::CutOff { file: 0, offset: 1 };
        assert_eq!(command_of("cut-off 0 1"), Command::Call(cut_off, None));
        let gather = |block, cut| Command::Call(Call::Gather(block), cut);
        assert_eq!(command_of("gather 3"), gather(Some(3), None));
        assert_eq!(command_of("gather --cut 0,30 --thinnest"), gather(None, cut));
    }

    #[test]
    fn calls_that_only_look() {
        assert_eq!(command_of("read 1 2"), Command::Read { file: 1, offset: 2, raw: false });
        assert_eq!(command_of("read 1 2 --raw"), Command::Read { file: 1, offset: 2, raw: true });
        assert_eq!(command_of("list"), Command::List(false));
        assert_eq!(command_of("check --json"), Command::Check(true));
        assert_eq!(command_of("export 3 --text"), Command::Export { file: 3, text: true });
        assert_eq!(command_of("import 3"), Command::Import { file: 3, text: false });
        assert_eq!(command_of("demo"), Command::Demo);
        assert_eq!(command_of("map"), Command::Map(MapOptions::default()));
        let before_after = Some(("a".into(), "b".into()));
        let options = MapOptions { svg: Some("o.svg".into()), before_after };
        assert_eq!(command_of("map --before a --after b --svg o.svg"), Command::Map(options));
    }

    #[test]
    fn a_trace_of_a_call_with_its_words() {
        let trace = |call| Command::BusTrace(Traced::Call(call));
        let write = |text: &str| {
            let text = Some(text.as_bytes().to_vec());
            trace(Call::Write { file: 2, offset: 5, text })
        };
        assert_eq!(command_of("bus-trace write 2 5 x"), write("x"));
        assert_eq!(command_of("bus-trace write 2 5 -- --cut"), write("--cut"));
        assert_eq!(command_of("bus-trace commit"), trace(Call::Commit));
        assert_eq!(command_of("bus-trace gather --thinnest"), trace(Call::Gather(None)));
        assert_eq!(command_of("bus-trace mount"), Command::BusTrace(Traced::Mount));
        let format = Command::BusTrace(Traced::Format(Some(8)));
        assert_eq!(command_of("bus-trace format --blocks 8 --force"), format);
        for line in ["--image x bus-trace mount", "bus-trace --image x mount"] {
            assert_eq!(parsed(line).unwrap().image, PathBuf::from("x"), "{line}");
        }
        for line in ["bus-trace --help", "bus-trace write --help", "help bus-trace"] {
            assert_eq!(command_of(line), Command::Help(Topic::BusTrace), "{line}");
        }
        assert_eq!(usage("bus-trace"), "bus-trace needs CALL");
        assert_eq!(usage("bus-trace write 2"), "write needs OFFSET");
        let calls = "bus-trace takes format, mount, write, cut-off, gather, commit or wipe";
        for name in ["read", "bus-trace", "handover", "version"] {
            assert_eq!(usage(&format!("bus-trace {name}")), format!("{calls}, and not {name}"));
        }
        assert_eq!(usage("bus-trace wipe 0 0 --cut 1,2"), "bus-trace has no option --cut");
        assert_eq!(usage("bus-trace comit"), "there is no \"comit\"; is it commit?");
    }

    #[test]
    fn a_handover_with_its_words() {
        assert_eq!(command_of("handover"), Command::Handover(Handover::default()));
        let line = "handover --keep 3,13 --report out.txt --json --force";
        let (keep, report) = (vec![3, 13], Some("out.txt".into()));
        let handover = Handover { keep, report, json: true, force: true };
        assert_eq!(command_of(line), Command::Handover(handover));
        assert_eq!(
            usage("handover 0"),
            "handover takes no \"0\"; the image file is named by --image"
        );
        let text = "a file of --keep is a number in decimal digits and not ";
        assert_eq!(usage("handover --keep 1,x"), format!("{text}\"x\""));
        assert_eq!(usage("handover --keep="), format!("{text}\"\""));
        assert_eq!(usage("handover --report="), "--report needs the name of a file");
    }

    #[test]
    fn the_image_file_before_or_after_the_subcommand() {
        for line in ["--image x list", "--image=x list", "list --image x", "list --image=x"] {
            assert_eq!(parsed(line).unwrap().image, PathBuf::from("x"), "{line}");
        }
        assert_eq!(parsed("list").unwrap().image, PathBuf::from(IMAGE));
        assert_eq!(usage("--image x list --image y"), "--image is given twice");
        assert_eq!(usage("list --image="), "--image needs the name of a file");
    }

    #[test]
    fn help_in_every_form() {
        for line in ["--help", "-h", "help", "--image x --help"] {
            assert_eq!(command_of(line), Command::Help(Topic::Johvimaru), "{line}");
        }
        for line in ["write --help", "write -h", "help write", "write 1 --help"] {
            assert_eq!(command_of(line), Command::Help(Topic::Write), "{line}");
        }
        assert_eq!(command_of("help --man"), Command::Man);
        for line in ["--version", "-V", "version"] {
            assert_eq!(command_of(line), Command::Version, "{line}");
        }
    }

    #[test]
    fn numbers_are_decimal_digits() {
        let large = "99999999999999999999";
        let read = Command::Read { file: u32::MAX, offset: 0, raw: false };
        assert_eq!(command_of(&format!("read {large} 0")), read);
        for word in ["x", "0x1", "1.0", "+1", "1e3", "\u{0661}"] {
            let expected = format!("FILE is a number in decimal digits and not {word:?}");
            assert_eq!(usage(&format!("read {word} 0")), expected);
        }
        assert_eq!(usage("read -1 0"), "read has no option -1");
        assert_eq!(usage("write 1 0 x --cut 1"), "--cut takes two numbers n,k and not 1");
        let text = "k of --cut is a number in decimal digits and not \"2,3\"";
        assert_eq!(usage("write 1 0 x --cut 1,2,3"), text);
        assert_eq!(usage("format --blocks many").split(' ').next(), Some("--blocks"));
    }

    #[test]
    fn too_few_or_too_many_words() {
        assert_eq!(usage(""), "what is to be done is missing");
        assert_eq!(usage("--image"), "what is to be done is missing");
        assert_eq!(usage("forget"), "there is no \"forget\"");
        assert_eq!(usage("help forget"), "there is no \"forget\"");
        assert_eq!(usage("write"), "write needs FILE");
        assert_eq!(usage("write 1"), "write needs OFFSET");
        assert_eq!(usage("write 1 2 x y"), "write takes no \"y\"");
        assert_eq!(usage("list all"), "list takes no \"all\"; the image file is named by --image");
        assert_eq!(usage("read 1 2 --cut 0,0"), "read has no option --cut");
        assert_eq!(usage("commit --cut"), "--cut needs a value");
        assert_eq!(usage("commit --cut 1,2 --cut 1,2"), "--cut is given twice");
        assert_eq!(usage("format --force=yes"), "--force takes no value");
        assert_eq!(usage("gather"), "gather needs BLOCK, or --thinnest");
        let both = "gather takes BLOCK or --thinnest, and not both";
        assert_eq!(usage("gather 3 --thinnest"), both);
        assert_eq!(usage("gather 3 4"), "gather takes no \"4\"");
        assert_eq!(usage("map --before a"), "map takes --before and --after together");
    }

    #[test]
    fn two_images_to_compare() {
        let diff = |json| Command::Diff { old: "a".into(), new: "b".into(), json };
        assert_eq!(command_of("diff a b"), diff(false));
        assert_eq!(command_of("diff --json a b"), diff(true));
        assert_eq!(usage("diff a"), "diff needs NEW");
        assert_eq!(usage("diff a b c"), "diff takes no \"c\"");
        assert_eq!(usage("diff a b --image c"), "diff takes OLD and NEW, and no --image");
    }
}
