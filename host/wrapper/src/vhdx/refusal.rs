//! Why a call refuses.
use std::error::Error;
use std::fmt;

/// Document 01's number, 1 to 22, or document 02's 23, of the first reason that applies.
#[derive(Debug, PartialEq, Eq, PartialOrd, Ord, Hash, Clone, Copy)]
pub struct Refusal(u8);

/// What is wrong, and what whoever brought the file can do about it.
const TEXTS: [(&str, &str); 23] = [
    (
        "the file is shorter than 1 MiB or longer than the capacity",
        "Below 1 MiB it is no VHDX, or a copy that broke off: copy it again. Above the capacity: give more with --capacity.",
    ),
    (
        "the file does not begin \"vhdxfile\"",
        "It is no VHDX. A disk of another format can be converted, but a stranger's file may name other files of this machine, whose bytes would land in the new disk. So as a user without rights: look with qemu-img info first, take no file that has a backing file or external data, and give the format: qemu-img convert -f FORMAT -O vhdx OLD NEW.",
    ),
    (
        "no header is current",
        "Both headers are damaged, or both are valid with one sequence number, as Disk2vhd writes them. qemu reads the latter: qemu-img convert -f vhdx -O vhdx OLD NEW.",
    ),
    (
        "a field of the current header breaks its rule",
        "A log that ends past the file means a copy that broke off: copy it again. Otherwise ask what made the file.",
    ),
    (
        "the header names a log, but no log sequence is in it",
        "The program that wrote the file was killed before its first log entry was whole; all that it held before is there. qemu-img convert -f vhdx -O vhdx OLD NEW makes a good file of most; where the header of a log entry is torn, qemu refuses that too: ask for another copy. qemu-img check -r does not help.",
    ),
    (
        "the file is shorter than its log says that it was (FlushedFileOffset)",
        "The copy broke off: copy the file again.",
    ),
    (
        "the log would write into the first MiB or into itself",
        "No program is known to write such a log: take the file for hostile.",
    ),
    (
        "the log would grow the file past the capacity or past 128 TiB",
        "If the disk is to be that large, give more with --capacity. If not, take the file for hostile.",
    ),
    (
        "neither copy of the region table is valid",
        "The file is damaged: ask for another copy.",
    ),
    (
        "an entry of the region table breaks its rule",
        "A region outside the file means a copy that broke off: copy it again. Otherwise the file is damaged, or needs a region that is unknown here.",
    ),
    (
        "there is no BAT region or no metadata region",
        "The file is damaged: ask for another copy.",
    ),
    (
        "the metadata region is empty, or its table or an entry breaks its rule",
        "The file is damaged, or needs a metadata item that is unknown here: ask for another copy, or what made it.",
    ),
    (
        "a needed metadata item is missing or has a wrong length",
        "The file is damaged: ask for another copy.",
    ),
    (
        "a metadata item's value is out of range",
        "A disk size of 0 (qemu makes such files), above 64 TiB or not of whole sectors, a sector or block size that VHDX does not have, or a bad parent locator: ask what made the file. Nothing is charged.",
    ),
    (
        "the BAT region is too short for the disk",
        "The table has to hold whole chunks, which is more than other programs ask of a disk without a parent. With larger blocks it mostly does: qemu-img convert -f vhdx -O vhdx -o block_size=33554432 OLD NEW.",
    ),
    (
        "the facts do not fit the image, or the length is above the capacity",
        "The facts are of another file, or of this one before it changed: attach again.",
    ),
    (
        "the disk has no such sector",
        "Ask for sectors below the disk size divided by the logical sector size.",
    ),
    (
        "the block's state is reserved, or it is partially present without a parent",
        "The block allocation table is damaged at this block; others can be read. Ask for another copy.",
    ),
    (
        "the block starts below 1 MiB or ends past the file",
        "The copy broke off, or the table is damaged at this block: copy the file again. qemu ends the file of some fixed disks inside the last block: extend a copy by zeros up to the block's end (truncate -s).",
    ),
    (
        "the block's sector bitmap is not present, starts below 1 MiB or ends past the file",
        "The copy broke off, or the table is damaged at this chunk: copy the file again.",
    ),
    (
        "the log's work has no such step",
        "Steps go from 0 to the count that attach answers; closing has one more, the header's.",
    ),
    (
        "the step's sector ends past the given length",
        "Do step 0 first, which grows the image.",
    ),
    (
        "the log cannot be closed: the header's sequence number is at its greatest value",
        "No program counts that far: take the file for damaged or hostile. Its log can still be applied at each attach, and its disk be read.",
    ),
];

impl Refusal {
    /// Every refusal, in the order in which they are checked.
    pub fn all() -> impl Iterator<Item = Refusal> {
        (1..=TEXTS.len() as u8).map(Refusal)
    }

    /// By its number, 1 to 23.
    pub fn new(number: u64) -> Option<Refusal> {
        Refusal::all().find(|refusal| refusal.number() == number)
    }

    /// The number by which the calls refuse.
    pub fn number(self) -> u64 {
        u64::from(self.0)
    }

    /// Refusals 1 to 8: the log was not applied, and nothing was changed.
    pub fn is_before_the_log(self) -> bool {
        self.0 <= 8
    }

    /// What is wrong, in one line.
    pub fn text(self) -> &'static str {
        TEXTS[usize::from(self.0) - 1].0
    }

    /// What can be done about it.
    pub fn advice(self) -> &'static str {
        TEXTS[usize::from(self.0) - 1].1
    }
}

impl fmt::Display for Refusal {
    fn fmt(&self, out: &mut fmt::Formatter<'_>) -> fmt::Result {
        write!(out, "{}: {}", self.0, self.text())
    }
}

impl Error for Refusal {}
