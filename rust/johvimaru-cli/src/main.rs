//! The command `johvimaru`: a recorder's store on an image file.

mod args;
mod calls;
mod changes;
mod check;
mod demo;
mod diff;
mod erasures;
mod handover;
mod help;
mod image_file;
mod json;
mod listing;
mod man;
mod nodes;
mod picture;
mod seen;
#[path = "../../sha256.rs"]
mod sha256;

use args::{Command, Request};
use johvimaru::Refusal;
use std::env;
use std::fmt;
use std::io::{self, ErrorKind, Write};
use std::process::ExitCode;

/// Why the command was not done.
#[derive(Debug)]
pub enum Problem {
    /// A call was refused, with the documents' number.
    Refused(Refusal),
    /// A call was refused for this file.
    RefusedFile(String, Refusal),
    /// A call was refused, for the reason in these words.
    Explained(Refusal, String),
    /// Something is left that a handover must not leave, in words.
    Leftovers(String),
    /// The file or the system, in words.
    System(String),
}

impl Problem {
    /// The exit status that tells of it.
    fn status(&self) -> u8 {
        match self {
            Problem::Refused(_) | Problem::RefusedFile(..) | Problem::Explained(..) => 1,
            Problem::System(_) => 3,
            Problem::Leftovers(_) => 4,
        }
    }
}

impl fmt::Display for Problem {
    fn fmt(&self, f: &mut fmt::Formatter) -> fmt::Result {
        match self {
            Problem::Refused(refusal) => write!(f, "refused {}: {refusal}", refusal.number()),
            Problem::RefusedFile(file, refusal) => {
                write!(f, "{file}: refused {}: {refusal}", refusal.number())?;
                match refusal {
                    Refusal::NoKeyBlock | Refusal::NoCommit | Refusal::EntryUnfit => {
                        f.write_str("; `johvimaru help mount` says what to do")
                    }
                    _ => Ok(()),
                }
            }
            Problem::Explained(refusal, words) => {
                write!(f, "refused {}: {words}", refusal.number())
            }
            Problem::Leftovers(words) | Problem::System(words) => f.write_str(words),
        }
    }
}

impl From<Refusal> for Problem {
    fn from(refusal: Refusal) -> Problem {
        Problem::Refused(refusal)
    }
}

impl From<io::Error> for Problem {
    fn from(error: io::Error) -> Problem {
        Problem::System(error.to_string())
    }
}

fn main() -> ExitCode {
    let words: Vec<_> = env::args_os().skip(1).collect();
    let request = match args::parse(&words) {
        Ok(request) => request,
        Err(usage) => {
            say(usage);
            return ExitCode::from(2);
        }
    };
    // All is printed at the end, so that a closed output stops no call.
    let mut text = Vec::new();
    let all_matters = matches!(request.command, Command::Handover(_));
    let result = run(request, &mut text);
    let printed = print(&text, all_matters);
    match result.and(printed) {
        Ok(()) => ExitCode::SUCCESS,
        Err(problem) => {
            say(&problem);
            ExitCode::from(problem.status())
        }
    }
}

/// Prints a text. A reader that has seen enough of it is no problem, unless all of it matters.
fn print(text: &[u8], all_matters: bool) -> Result<(), Problem> {
    let mut out = io::stdout().lock();
    match out.write_all(text).and_then(|()| out.flush()) {
        Err(error) if all_matters || error.kind() != ErrorKind::BrokenPipe => {
            Err(Problem::System(format!("standard output: {error}")))
        }
        _ => Ok(()),
    }
}

/// Says something on standard error. Where that takes nothing there is nobody to tell.
pub fn say(words: impl fmt::Display) {
    let _ = writeln!(io::stderr(), "johvimaru: {words}");
}

/// Does what is asked, and prints what it says.
fn run(request: Request, out: &mut dyn Write) -> Result<(), Problem> {
    let Request { image, command } = request;
    match command {
        Command::Help(topic) => Ok(out.write_all(help::text(topic).as_bytes())?),
        Command::Man => Ok(out.write_all(man::page().as_bytes())?),
        Command::Version => Ok(writeln!(out, "johvimaru {}", env!("CARGO_PKG_VERSION"))?),
        Command::Format { blocks, force, cut } => calls::format(&image, blocks, force, cut, out),
        Command::Mount(cut) => calls::mount(&image, cut, out),
        Command::Call(call, cut) => calls::run(&image, call, cut, out),
        Command::Read { file, offset, raw } => nodes::read(&image, file, offset, raw, out),
        Command::Export { file, text } => nodes::export(&image, file, text, out),
        Command::Import { file, text } => nodes::import(&image, file, text, out),
        Command::Handover(options) => handover::run(&image, &options, out),
        Command::List(json) => listing::run(&image, json, out),
        Command::Check(json) => check::run(&image, json, out),
        Command::Map(options) => picture::run(&image, &options, out),
        Command::Demo => demo::run(out),
        Command::BusTrace(traced) => calls::bus_trace::run(&image, traced, out),
        Command::Diff { old, new, json } => diff::run(&old, &new, json, out),
    }
}
