//! What `--help` prints.

pub const VERSION: &str = concat!("shrunvaki ", env!("CARGO_PKG_VERSION"));

pub const ALL: &str = "\
shrunvaki: what a VHDX file from a stranger is, by a library that is proved

  shrunvaki attach FILE            the size to charge, and what else the disk is
  shrunvaki attach --apply FILE    apply the file's pending log to the file itself
  shrunvaki close FILE             the same, and close the log for good
  shrunvaki lookup FILE SECTOR..   where sectors of the disk are
  shrunvaki map FILE               where all of them are, in runs
  shrunvaki parent FILE [KEY]      where the parent disk is, if there is one
  shrunvaki cat FILE               the bytes of sectors
  shrunvaki demo                   a small disk, a crash, and what becomes of it
  shrunvaki help COMMAND           more about one of them

Options of all of them:
  --json             one JSON object on standard output, also for errors; its
                     field format_version is 1
  --help, --version

Options of all but demo, whose numbers may end in K, M, G or T (by 1,024):
  --capacity BYTES   how long the log may make the file (by default its length
                     and 1 GiB)
  --max-sectors N    how many sectors the log may write, the zeros that it adds
                     to the file among them (by default 1M, which are 4 GiB)

Only attach --apply and close change the file. The others apply its log in
memory.

Exit status: 0 answered; 1 refused, for one of the 23 reasons that have a
number; 2 misuse, or a file that cannot be read or written; 3 cat met a sector
that lies in the parent disk; 4 the log asks for more than --max-sectors allows,
and nothing was written.
";

const ATTACH: &str = "\
shrunvaki attach FILE [--pieces] [--capacity BYTES] [--max-sectors N] [--json]

Applies the file's pending log in memory, reads its tables, and prints the size
to charge, the kind of disk, whether a log is pending, how long the file is and
how much of it the host has allocated; then sector and block sizes, the disk's
identifier, and where its tables are. Or it refuses, by a number, and says what
can be done about it. The file is not changed. Memory is used for what is read
of the log and the tables and for what the log writes, so a file may be larger
than memory.

A file that another program has locked is read all the same, and a line on
standard error says so.

shrunvaki attach --apply FILE [--pieces] [--wait] [--capacity BYTES]
                 [--max-sectors N] [--json]

Does the same to the file itself. It takes an exclusive lock (--wait waits for
another program's), decides first, prints how many sectors the log writes and
how far the file will grow, applies the log in memory, flushes the file as it
is, extends it to exactly that length and flushes, writes each sector that has
changed, and flushes again. With refusals 1 to 8 the file is not touched.
Refusals 9 to 15 are of the tables, and come after the log: the log is applied
then too. It warns where a virtual machine of qemu's has the file open for
writing.

After a kill or a power failure, at any moment, it can be run again: the file is
then what an undisturbed run would have made it. That is proved, whichever of
the sectors were written, not written or torn by then, of a disk that keeps what
was flushed and damages nothing beside what it is writing.

The log stays in the file, and every attach applies it again. Nobody may write
to the disk in between, or the log would undo it; shrunvaki close ends that.

  --pieces           do the log's work in pieces of at most 64 KiB, without a
                     buffer for the file and with next to no memory. The tables
                     are not read: it answers refusal 1 to 8, or how long the
                     log makes the file and how many sectors it writes, and not
                     the size to charge

A file that is longer than what a process can map (some 80 TiB) is attached in
pieces also without this option, and a line on standard error says so; the other
commands do not take it. With --apply, sectors are written as often as the log
names them, in its order. What others write to the log meanwhile, without a
lock, is noticed only where the log then asks for other growth or for another
number of sectors.
";

const CLOSE: &str = "\
shrunvaki close FILE [--identifier GUID] [--wait] [--capacity BYTES]
                [--max-sectors N] [--json]

Applies the file's pending log to the file itself and ends it: one of the two
headers is written anew, with the next sequence number, no log, and another
file-write identifier. No attach applies the log again then, and other programs
may write to the disk. Where no log is pending it says so and changes nothing.

It takes an exclusive lock (--wait waits for another program's), decides first,
and prints how many sectors the log writes and how far the file will grow. It
flushes the file as it is, extends it and flushes, writes each sector that has
changed, flushes, and only then writes the header, and flushes again: the header
that says \"no log\" never is on the disk before the sectors. With a refusal,
1 to 8 or 23, the file is not touched. It reads no tables: it does not print
what the disk is, and closes the log of a file whose tables attach refuses, by
9 to 15, too.

  --identifier GUID  the file-write identifier: 8-4-4-4-12 hexadecimal digits,
                     in braces or not. By default a random one, which is printed
                     before anything is written

After a kill or a power failure, at any moment, it can be run again. With the
same identifier the file is then what an undisturbed run would have made it.
With another one the file has the first or the second identifier, and nothing
else differs.
";

const LOOKUP: &str = "\
shrunvaki lookup FILE SECTOR.. [--capacity BYTES] [--max-sectors N] [--json]

Says of each sector (of the logical sector size, counted from 0) whether its
bytes are in the file and at which offset, are zero, or are in the parent disk.
Offsets are those of the file with its log applied (attach --apply). The status
is 1 if a sector was refused.
";

const MAP: &str = "\
shrunvaki map FILE [--from N] [--count M] [--capacity BYTES] [--max-sectors N]
              [--json]

Says where M sectors from sector N on are, by default all of the disk, in runs:
a line has the first sector, how many there are, and 'file OFFSET', 'zero',
'parent' or 'refused NUMBER'. A disk with a parent is asked sector by sector,
which takes long for large ones; a line on standard error then says how far it
has come. The status is 1 if sectors were refused; a sector past the disk's end
is.
";

const PARENT: &str = "\
shrunvaki parent FILE [KEY] [--capacity BYTES] [--max-sectors N] [--json]

Prints the value under a key of the disk's parent locator or, without a key, the
values under the five keys that MS-VHDX names: parent_linkage, parent_linkage2,
relative_path, volume_path, absolute_win32_path. Prints nothing where there is
no value, and says so on standard error. A backslash is doubled; characters that
are not seen, and what is no text, are spelled out.
";

const CAT: &str = "\
shrunvaki cat FILE [--sector N] [--count M] [--force] [--capacity BYTES]
              [--max-sectors N] [--json]

Writes the bytes of M sectors from sector N on to standard output, by default
all of the disk, as they are with the log applied. In a file that is written
anew ('> disk.raw'), zeros become holes, which take no space. It ends with
status 3 before the first sector that lies in the parent disk, and with status 1
before the first that is refused. With --json the bytes are hexadecimal digits.
A terminal gets them with --force only.
";

const DEMO: &str = "\
shrunvaki demo [--json]

Makes a small disk with a pending log in a temporary folder, attaches it, has a
crash interrupt the log's work, applies it again, compares the file with one
that was never disturbed, and reads a sector.
";

/// The text about a command.
pub fn of(command: &str) -> Option<&'static str> {
    Some(match command {
        "attach" => ATTACH,
        "close" => CLOSE,
        "lookup" => LOOKUP,
        "map" => MAP,
        "parent" => PARENT,
        "cat" => CAT,
        "demo" => DEMO,
        "help" => ALL,
        _ => return None,
    })
}
