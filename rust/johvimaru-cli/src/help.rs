//! The help texts.

/// What a help text is about.
#[derive(Clone, Copy, Debug, PartialEq, Eq)]
pub enum Topic {
    /// The command.
    Johvimaru,
    /// `format`.
    Format,
    /// `mount`.
    Mount,
    /// `write`.
    Write,
    /// `read`.
    Read,
    /// `cut-off`.
    CutOff,
    /// `gather`.
    Gather,
    /// `commit`.
    Commit,
    /// `wipe`.
    Wipe,
    /// `handover`.
    Handover,
    /// `export`.
    Export,
    /// `import`.
    Import,
    /// `list`.
    List,
    /// `check`.
    Check,
    /// `map`.
    Map,
    /// `demo`.
    Demo,
    /// `diff`.
    Diff,
    /// `bus-trace`.
    BusTrace,
    /// `version`.
    Version,
}

impl Topic {
    /// All topics.
    pub const ALL: [Topic; 19] = [
        Topic::Johvimaru,
        Topic::Format,
        Topic::Mount,
        Topic::Write,
        Topic::Read,
        Topic::CutOff,
        Topic::Gather,
        Topic::Commit,
        Topic::Wipe,
        Topic::Handover,
        Topic::Export,
        Topic::Import,
        Topic::List,
        Topic::Check,
        Topic::Map,
        Topic::Demo,
        Topic::Diff,
        Topic::BusTrace,
        Topic::Version,
    ];

    /// Its name among the words of the command.
    pub fn name(self) -> &'static str {
        match self {
            Topic::Johvimaru => "help",
            Topic::Format => "format",
            Topic::Mount => "mount",
            Topic::Write => "write",
            Topic::Read => "read",
            Topic::CutOff => "cut-off",
            Topic::Gather => "gather",
            Topic::Commit => "commit",
            Topic::Wipe => "wipe",
            Topic::Handover => "handover",
            Topic::Export => "export",
            Topic::Import => "import",
            Topic::List => "list",
            Topic::Check => "check",
            Topic::Map => "map",
            Topic::Demo => "demo",
            Topic::Diff => "diff",
            Topic::BusTrace => "bus-trace",
            Topic::Version => "version",
        }
    }

    /// The topic of a name.
    pub fn of(name: &str) -> Option<Topic> {
        Topic::ALL.into_iter().find(|topic| topic.name() == name)
    }
}

/// The help text.
pub fn text(topic: Topic) -> &'static str {
    match topic {
        Topic::Johvimaru => JOHVIMARU,
        Topic::Format => FORMAT,
        Topic::Mount => MOUNT,
        Topic::Write => WRITE,
        Topic::Read => READ,
        Topic::CutOff => CUT_OFF,
        Topic::Gather => GATHER,
        Topic::Commit => COMMIT,
        Topic::Wipe => WIPE,
        Topic::Handover => HANDOVER,
        Topic::Export => EXPORT,
        Topic::Import => IMPORT,
        Topic::List => LIST,
        Topic::Check => CHECK,
        Topic::Map => MAP,
        Topic::Demo => DEMO,
        Topic::Diff => DIFF,
        Topic::BusTrace => BUS_TRACE,
        Topic::Version => VERSION,
    }
}

const JOHVIMARU: &str = "\
johvimaru: a flash page store that forgets, on an image file

  johvimaru [--image FILE] WHAT ...

  format [--blocks N]          make an empty store
  mount                        find the record, erase all that is not needed
  write FILE OFFSET [TEXT|-]   write a payload of 1 to 224 bytes
  read FILE OFFSET             print a payload, byte for byte
  cut-off FILE OFFSET          remove the nodes of a file from an offset on
  gather BLOCK | --thinnest    copy a block's live pages, to free the block
  commit                       replace the keys that no node has
  wipe FILE OFFSET             cut off and commit: it cannot be read again
  handover [--keep FILE,..]    clear all files for the next owner, with a report
  export FILE                  print the nodes of a file, a line each
  import FILE                  write the nodes of such lines
  list                         the nodes with their pages and keys, in columns
  check                        what is there, in words
  map                          a picture of blocks, pages and keys
  diff OLD NEW                 what has changed between two images
  bus-trace CALL ..            the bytes that a call sends to a chip on its bus
  demo                         a handover with power cuts, from beginning to end
  version                      the version of this command
  help WHAT                    more on one of these

The image file is recorder.img in the working folder, or the one that --image
names. Only format makes it, and write, where there is none. Each call but
format mounts it first, as a recorder does when its power comes on. The file
is changed in place, step by step, each step on the disk before the next: a
command that is stopped leaves what a power failure leaves, and the next call
mounts it; a format that was stopped is made again, with --force. read, export,
list, check, map, diff and bus-trace change nothing.

Files are 0 to 13. Files 0 and 1 have 32 offsets, 2 and 3 have 24, 4 to 7 have
16, 8 to 13 have 8.

--cut n,k goes with format, mount, write, cut-off, gather, commit and wipe:
the power fails after n whole steps and k bytes of one more. A step programs a
page of 256 bytes or erases a block of 4,096.

The exit status is 0 where it is done; 1 where a call is refused, with the
refusal's number; 2 where the words of the command are not understood; 3 where
the file, the lines of an import or the system do not allow it; 4 where check
or handover finds that something is left.
";

const FORMAT: &str = "\
johvimaru format [--blocks N] [--force] [--cut n,k] [--image FILE]

Makes an empty store of N blocks, 8 to 256; all that was on the image is gone.
Without --blocks an image that is there keeps its size, and a new one has 32.
The keys come from the system's randomness.

A file in which any byte is not FFh is left alone, and what stands in it is
told, unless --force is given.

It has a step for each block, which erases it, and 42 more.
";

const MOUNT: &str = "\
johvimaru mount [--cut n,k] [--image FILE]

Finds the record from what is on the image alone. Then it erases, from the
first block to the last, a step for each:
- blocks that are no part of the store, as cut calls leave them;
- data blocks without a live page, if the last commit covers all on them;
- empty blocks. Where the power failed in an erase, a block can look empty and
  not keep what is written to it, until it is erased again.
So it has something to erase also after a call that was done. It says how many
blocks of each kind they were; `check` says it beforehand. The other calls but
format mount first, and tell only of blocks that were not empty.

After a power failure a mount is never refused, whenever it was, unless the
call that was cut is a format. So 12, 13 and 14 mean one of these:
- it was never formatted, or a format was cut: `format --force`;
- the image was read out badly, or another file: read it out again;
- something else wrote to the chip, or it is worn: keep a copy and look at it
  with `map`. Without its keys nothing can be read.
To hand it over nevertheless, with nothing to save: `handover --force`.
";

const WRITE: &str = "\
johvimaru write FILE OFFSET [TEXT|-] [--cut n,k] [--image FILE]

Writes a payload of 1 to 224 bytes. What was there before is replaced. It is
the text, or without a text, or where that is -, what stands on standard
input, byte for byte: nothing is added and nothing taken away, so an end of
line is stored too. `printf %s 4.12 | johvimaru write 0 0` stores 4 bytes,
with `echo` they are 5; what it says tells how many they were. A text that
begins with - comes after the word --. No bytes or more than 224 are refused
with 6, and nothing is written.

It has one step. Cut at a k below 30 it leaves no header and the key is free;
at 30 to 255 it leaves a torn page, and its key is deleted; in both cases what
was there before still is.
";

const READ: &str = "\
johvimaru read FILE OFFSET [--raw] [--image FILE]

Prints the payload's bytes, as many as were written, and nothing else, so that
`johvimaru read 0 0 | cmp - FILE` holds for what `write 0 0 <FILE` has stored.
Only on a terminal a line's end is added where they have none; with --raw not
there either. A node of a recorder from before version 0.3.0 has no length: it
has 224 bytes, mostly with spaces at the end. It mounts a copy, and leaves the
image as it is.
";

const CUT_OFF: &str = "\
johvimaru cut-off FILE OFFSET [--cut n,k] [--image FILE]

Removes the nodes of a file from an offset on. Their keys stay on the image
until the next commit. It has one step.
";

const GATHER: &str = "\
johvimaru gather BLOCK [--cut n,k] [--image FILE]
johvimaru gather --thinnest [--cut n,k] [--image FILE]

Copies each live page of a data block, the lowest first, to the page that a
write would take outside that block. Every node reads as before, under the
same key. The block is erased by the next commit, if no write takes a page of
it before: so commit next. Where the last commit covers all that is on it, the
mount of the next call erases it already. With --thinnest it is the block with
the fewest live pages, the lower one on a tie; where there is no room for its
copies, the next one that there is room for.

`check` says how many pages are left, and which block is the thinnest. Gather
while 16 pages are left or more: then there is room for any block. When a write
is refused with 10 it is too late, unless a commit brings room.

It has a step for each live page. Cut, it has copied some of them, and every
node reads as before: gather again. The refusal 15 says that the block has no
live page, or is no data block; 11 and 10, that sequences or pages would not
last for all copies. Where it is refused nothing is copied.
";

const COMMIT: &str = "\
johvimaru commit [--cut n,k] [--image FILE]

Replaces every key that no node has, and erases the blocks in which no live
page is left. It has 45 steps and one for each such block.
";

const WIPE: &str = "\
johvimaru wipe FILE OFFSET [--cut n,k] [--image FILE]

Removes the nodes of a file from an offset on, and their keys with them: what
they held cannot be read again. It is done too where there is no node. It has
56 steps and one for each block in which no live page is left. Cut before its tenth
step has ended it has removed nothing. Cut later it has removed the nodes, but
some of their keys may still be there: wipe again.
";

const HANDOVER: &str = "\
johvimaru handover [--keep FILE,..] [--report OUT] [--json] [--force]
                   [--image FILE]

Clears a recorder for its next owner: wipes every file that has a node, but
not the kept ones, or commits where none has. Then it reads the image anew and
reports: what was there by file, what is left, the hashes of the image before
and after, for each key that was there before whether a copy of it is left at
any byte, and what a reader of the chip can still learn. No content is told.
The last line says whether the recorder may be handed over; where it may not,
the exit status is not 0.

With --report the report goes to a file that is not yet there; until the
handover is finished it says that it is not. With --json it is JSON. A file of
--keep must have a node.

An image that mount refuses, or whose epochs do not last for the wipes, is
left as it is. With --force it is formatted, if any page of a recorder is on
it, and nothing of it can be kept.

A handover that was stopped is made again. Keep both reports then.
";

const EXPORT: &str = "\
johvimaru export FILE [--text] [--image FILE]

Prints a line for each node of a file: its offset, a tab, the length of its
payload, a tab, and the payload in hexadecimal digits, two for each byte. With
--text it is offset, tab, and the payload as text: a tab, an end of line, a
backslash and what is no text are printed as \\t, \\n, \\r, \\\\ and \\x with two
digits, and so is a space at the end (\\x20). The image is left as it is.
";

const IMPORT: &str = "\
johvimaru import FILE [--text] [--image FILE]

Writes the nodes of such lines, read from standard input, into a file, each
as long as it was. All lines are tested first, and whether there are keys and
pages for all of them: where one is wrong nothing is written. Nodes at other
offsets stay. Lines of an export by version 0.2.0 are taken too: its digits
are 224 bytes each, and its texts have no spaces at their end.
";

const LIST: &str = "\
johvimaru list [--json] [--image FILE]

Prints a line for each node: file, offset, page and key position in 4, 4, 6
and 6 columns. Then how many keys are used, free and deleted, 6 columns each.
It mounts a copy, and leaves the file as it is. Where the mount is refused it
prints the number in 6 columns. With --json all of it is JSON, and each node
has the length of its payload as well.
";

const CHECK: &str = "\
johvimaru check [--json] [--image FILE]

Mounts a copy and says what is there: the nodes of each file, how many keys
are used, free and deleted, the next numbers, the pages that writes can still
take, the data blocks and the thinnest of them, which `gather` is for, and
what a mount would erase: how many empty blocks, which blocks that are no part
of the store, and which data blocks without a live page (`help mount` says
why).
It leaves the file as it is.
The exit status is 4 where keys are deleted, blocks are no part of the store,
or pages are spoilt.
";

const MAP: &str = "\
johvimaru map [--svg OUT.svg] [--image FILE]
johvimaru map --before A --after B [--svg OUT.svg]

Draws the image: a row for each block, a cell for each page by what it is, and
the 448 key positions by letter. A page that a gather has copied, and whose
node is live on another page now, is an older copy (=). With --before and --after two images are
drawn, with marks at what has changed since: nodes that are gone, keys that
are replaced, blocks that are erased.

With --svg the picture goes into a file, in which each cell has a tooltip that
says what it is. Else it is printed: in colours on a terminal, unless NO_COLOR
is set, and no wider than the terminal's window, or where there is none than
the variable COLUMNS says.

It mounts a copy, and leaves the image as it is. One that mount refuses is
drawn by the form of its pages; the exit status is then 1.
";

const DEMO: &str = "\
johvimaru demo

Plays a handover on an image in memory: one firm's draughts and track are
written, one is overwritten, the power fails in a write and in a wipe, and
after each step it says what has changed. At the end it looks for the old keys
in every byte of the image, and draws it before and after.
";

const VERSION: &str = "\
johvimaru version

Prints the version of the command, as --version does.
";

const DIFF: &str = "\
johvimaru diff OLD NEW [--json]

Compares two image files of a recorder, an older and a newer one, and says
what a reader of both sees: the nodes that are new or gone or have another
payload, page or key; the keys that were replaced, and which of the old ones
stand anywhere on the newer image; the blocks that were erased or written; and
the next numbers and the places of keys and commit. No payload and no key is
printed.

It mounts copies, and leaves both files as they are. The exit status is 0
whether they differ or not. Where a mount is refused it says what can be told
without it, and the exit status is 1.
";

const BUS_TRACE: &str = "\
johvimaru bus-trace CALL .. [--image FILE]

Prints the bytes that a call sends to a chip on its bus, step by step. CALL is
format, mount, write, cut-off, gather, commit or wipe, with its own words:
`johvimaru bus-trace write 0 0 \"draught 4.12 m\"`. The call is made on a copy,
against the model of a chip, and the file is left as it is. Each call but
format mounts the copy first; the steps of that mount are not printed, those
of `bus-trace mount` are. Nor are the bytes by which a page is read.

A line for each step says what it does, and the lines after it what goes over
the bus, in hexadecimal digits:
  step 1: program page 48
  C ff                 a command byte, one on each line
  A 00 00 30 00 00     address bytes: column, then row, the low byte first
  D 4e 20 20 ..        data bytes, 16 on each line
  S 40                 the status that was received: bit 0 set is failed
The last line counts steps and bytes. `grep -v '^D'` leaves the data out.

KEYS: format, commit and wipe program key blocks, so their D lines hold keys;
a commit and a wipe those of the nodes that are there too. Keep such a trace as
you keep the chip, or print it without them. A line on standard error says so.
New keys in a trace are used for nothing: the call itself takes other ones.

Exit status and refusals are those of the call. format needs no --force here,
write makes no file, and --cut is not taken: between two bytes a step is done
whole or not at all.
";

#[cfg(test)]
mod tests {
    use super::*;

    #[test]
    fn each_topic_has_a_name_and_a_text() {
        for topic in Topic::ALL {
            assert_eq!(Topic::of(topic.name()), Some(topic));
            let call = format!("johvimaru {}", topic.name());
            assert!(topic == Topic::Johvimaru || text(topic).starts_with(&call), "{topic:?}");
            assert!(text(Topic::Johvimaru).contains(topic.name()));
        }
        assert_eq!(Topic::of("Format"), None);
    }
}
