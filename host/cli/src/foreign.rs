//! Files that are no VHDX and whose first or last bytes say what they are.
use crate::text::Name;
use std::fs::File;
use std::os::unix::ffi::OsStrExt;
use std::os::unix::fs::FileExt;

/// Another format.
#[derive(Debug, PartialEq, Eq, Clone, Copy)]
pub enum Foreign {
    /// A disk that qemu reads: what people call the format, and qemu's word for it.
    Disk(&'static str, &'static str),
    /// A set of VHDX files.
    Set,
    /// Something that holds a file, compressed.
    Packed(&'static str),
}

/// Bytes at an offset by which a format is told.
const SIGNATURES: [(usize, &[u8], Foreign); 10] = [
    (0, b"QFI\xfb\0\0\0\x01", Foreign::Disk("qcow", "qcow")),
    (0, b"QFI\xfb", Foreign::Disk("qcow2", "qcow2")),
    (0, b"KDMV", Foreign::Disk("VMDK", "vmdk")),
    (0, b"COWD", Foreign::Disk("VMDK", "vmdk")),
    (0, b"# Disk DescriptorFile", Foreign::Disk("VMDK", "vmdk")),
    (64, b"\x7f\x10\xda\xbe", Foreign::Disk("VDI", "vdi")),
    (0, b"conectix", VHD),
    (0, b"\x1f\x8b", Foreign::Packed("gzip")),
    (0, b"\xfd7zXZ\0", Foreign::Packed("xz")),
    (0, b"PK\x03\x04", Foreign::Packed("zip")),
];

const VHD: Foreign = Foreign::Disk("VHD", "vpc");

/// A VHD ends with its footer, of which a fixed disk has no other copy.
const VHD_FOOTER: u64 = 512;

impl Foreign {
    /// What a file is, if one of the signatures is there. Its length may be anything.
    pub fn of(name: &Name, file: &File, length: u64) -> Option<Foreign> {
        let start = read(file, 0);
        let told = |(at, signature, _): &&(usize, &[u8], Foreign)| {
            start
                .get(*at..)
                .is_some_and(|bytes| bytes.starts_with(signature))
        };
        if let Some((_, _, format)) = SIGNATURES.iter().find(told) {
            return Some(*format);
        }
        let footer = length.checked_sub(VHD_FOOTER).map(|at| read(file, at));
        if footer.is_some_and(|bytes| bytes.starts_with(b"conectix")) {
            return Some(VHD);
        }
        // we know no signature of this format: the name is all that there is to go by
        let set = name.0.as_bytes().to_ascii_lowercase().ends_with(b".vhds");
        set.then_some(Foreign::Set)
    }

    pub fn name(self) -> &'static str {
        match self {
            Foreign::Disk(name, _) | Foreign::Packed(name) => name,
            Foreign::Set => "VHD Set",
        }
    }

    /// What to do with it.
    pub fn advice(self) -> String {
        match self {
            Foreign::Disk(name, format) => format!(
                "It is a {name} file. Such a file may name other files of this machine, whose bytes would land in a converted disk. So \
                 as a user without rights: look with 'qemu-img info -f {format} OLD' first, take no file that has a backing file or \
                 external data, and then give the format: qemu-img convert -f {format} -O vhdx OLD NEW."
            ),
            Foreign::Set => "By its name it is a VHD Set, which names VHDX files and holds no disk: ask for these.".to_string(),
            Foreign::Packed(name) => format!(
                "It is compressed ({name}). Unpack it, within a limit for what may come out, and take what was in it."
            ),
        }
    }
}

/// The first bytes from an offset on, as far as they are there.
fn read(file: &File, at: u64) -> Vec<u8> {
    let mut bytes = vec![0; 512];
    // what cannot be read tells nothing
    let length = file.read_at(&mut bytes, at).unwrap_or(0);
    bytes.truncate(length);
    bytes
}
