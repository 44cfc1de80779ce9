//! Files whose log's work is tried in pieces: those with a pending log, refused ones, and those that qemu made.
use crate::causes::{good, FILES};
use crate::command::end;
use crate::image::{Entry, Image, GUID, MIB};
use crate::pending::{
    data, ends_in_14, growth_alone, no_growth, r1, r1_with, rich, sample_file, small_blocks,
    without_a_log, zero, Pending,
};
use crate::sample::M;
use crate::tables::Disk;
use std::path::Path;
use std::process::Command;

/// A file: the first `length` bytes of a buffer, or fewer where it has fewer.
pub struct Sample {
    pub name: String,
    pub buffer: Vec<u8>,
    pub length: u64,
}

impl Sample {
    fn new(name: &str, image: Image) -> Sample {
        Sample {
            name: name.to_string(),
            buffer: image.buffer,
            length: image.length,
        }
    }

    /// The file's bytes.
    pub fn bytes(&self) -> &[u8] {
        let end = self.length.min(self.buffer.len() as u64);
        &self.buffer[..end as usize]
    }
}

/// Data descriptors whose bytes are zeros, and one whose first and last bytes alone are not.
fn zeros_as_data() -> Pending {
    let mut edges = vec![0; 4096];
    (edges[0], edges[4095]) = (1, 2);
    let entry = Entry::new(1, 0)
        .with(data(2 * M, vec![0; 4096]))
        .with(zero(2 * M, 8192))
        .with(data(3 * M, edges))
        .with(data(3 * M + 4096, vec![0; 4096]));
    Pending::new(Image::new(4 * MIB, 3 * M, MIB, GUID), 0, &[entry])
}

/// Files whose log can be applied, or which have none.
pub fn pending() -> Vec<Sample> {
    let disk = small_blocks().0;
    [
        ("R1", r1()),
        ("R1 with tables", r1_with(&Disk::default())),
        ("the one to try first", sample_file()),
        ("three entries round the ring's end", rich(&disk)),
        ("no growth", no_growth()),
        ("growth alone", growth_alone()),
        ("no log", without_a_log()),
        ("tables refused by 14", ends_in_14()),
        ("zeros as data", zeros_as_data()),
    ]
    .into_iter()
    .map(|(name, pending)| Sample::new(name, pending.image))
    .collect()
}

/// Refusals 1 to 8, with their numbers: those of the file alone, not of a buffer that is too short.
pub fn refused() -> Vec<(u64, Sample)> {
    FILES
        .iter()
        .map(|(number, name, change)| {
            let mut image = good();
            change(&mut image);
            (*number, Sample::new(name, image))
        })
        .collect()
}

/// Files that qemu made.
pub fn of_qemu() -> Vec<Sample> {
    let folder = Path::new(env!("CARGO_MANIFEST_DIR")).join("../cli/tests/samples");
    let names = [
        "dynamic",
        "dynamic-8m",
        "fixed",
        "fixed-short",
        "pending",
        "pending-torn",
        "no-sequence",
    ];
    names
        .into_iter()
        .map(|name| {
            let packed = folder.join(format!("{name}.vhdx.gz"));
            let buffer = end(Command::new("gzip").arg("-dc").arg(packed))
                .with(0)
                .bytes;
            let length = buffer.len() as u64;
            Sample {
                name: format!("qemu's {name}"),
                buffer,
                length,
            }
        })
        .collect()
}
