//! The tables of a VHDX image, built from document 01 alone: both copies of the region table, the metadata table, its items.

use crate::image::{put32, put64, seal, MIB};

const M: u64 = MIB as u64;

/// An identifier as MS-VHDX writes it, as it is stored: the first three of its five groups reversed.
pub fn stored(written: &str) -> [u8; 16] {
    let digits: Vec<u8> = written.bytes().filter(|b| *b != b'-').collect();
    let mut bytes = [0; 16];
    for (byte, pair) in bytes.iter_mut().zip(digits.chunks(2)) {
        let text = std::str::from_utf8(pair).expect("ASCII");
        *byte = u8::from_str_radix(text, 16).expect("two hexadecimal digits");
    }
    bytes[..4].reverse();
    bytes[4..6].reverse();
    bytes[6..8].reverse();
    bytes
}

pub const BAT: &str = "2DC27766-F623-4200-9D64-115E9BFD4A08";
pub const METADATA: &str = "8B7CA206-4790-4B9A-B8FE-575F050F886E";

pub const FILE_PARAMETERS: &str = "CAA16737-FA36-4D43-B3B6-33F0AA44E76B";
pub const DISK_SIZE: &str = "2FA54224-CD1B-4876-B211-5DBED83BF4B8";
pub const DISK_ID: &str = "BECA12AB-B2E6-4523-93EF-C309E000C746";
pub const LOGICAL: &str = "8141BF1D-A96F-4709-BA47-F233A8FAAB5F";
pub const PHYSICAL: &str = "CDA348C7-445D-4471-9CC9-E9885251C556";
pub const LOCATOR: &str = "A8D35F2D-B30B-454D-ABF7-D3D84834AB0C";

pub const LOCATOR_TYPE: &str = "b04aefb7-d19e-4a81-b789-25b8e9445913";

pub const IS_USER: u32 = 1;
pub const IS_REQUIRED: u32 = 4;

/// An entry of the region table.
#[derive(Clone)]
pub struct Region {
    pub id: [u8; 16],
    pub offset: u64,
    pub length: u32,
    pub required: u32,
}

impl Region {
    pub fn new(id: [u8; 16], offset: u64, length: u64) -> Region {
        Region {
            id,
            offset,
            length: length as u32,
            required: 0,
        }
    }
}

/// One copy of the region table.
#[derive(Clone)]
pub struct RegionTable {
    pub signature: [u8; 4],
    /// Other than the number of entries, if given.
    pub count: Option<u32>,
    /// The checksum is spoilt.
    pub bad_checksum: bool,
    pub regions: Vec<Region>,
}

impl RegionTable {
    fn bytes(&self) -> Vec<u8> {
        let mut out = vec![0; 65536];
        out[..4].copy_from_slice(&self.signature);
        put32(&mut out, 8, self.count.unwrap_or(self.regions.len() as u32));
        for (i, region) in self.regions.iter().enumerate() {
            let at = 16 + 32 * i;
            out[at..at + 16].copy_from_slice(&region.id);
            put64(&mut out, at + 16, region.offset);
            put32(&mut out, at + 24, region.length);
            put32(&mut out, at + 28, region.required);
        }
        seal(&mut out);
        if self.bad_checksum {
            out[4] ^= 1;
        }
        out
    }

    /// The entry with an identifier.
    pub fn region(&mut self, written: &str) -> &mut Region {
        let id = stored(written);
        self.regions
            .iter_mut()
            .find(|r| r.id == id)
            .expect("the region")
    }
}

/// An entry of the metadata table, and the bytes of its item as far as the region holds them.
#[derive(Clone)]
pub struct Item {
    pub id: [u8; 16],
    pub offset: u32,
    pub length: u32,
    pub flags: u32,
    pub bytes: Vec<u8>,
}

impl Item {
    pub fn new(id: [u8; 16], offset: u32, bytes: Vec<u8>) -> Item {
        Item {
            id,
            offset,
            length: bytes.len() as u32,
            flags: 0,
            bytes,
        }
    }
}

/// A file with a log of 1 MiB at 1 MiB, its metadata region at 2 MiB and its BAT at 3 MiB, unless a test says otherwise.
#[derive(Clone)]
pub struct Disk {
    pub length: usize,
    /// Offset and length.
    pub log: (u64, u64),
    pub copies: [RegionTable; 2],
    /// Where the metadata region's bytes are written.
    pub metadata_at: u64,
    pub signature: [u8; 8],
    /// Other than the number of items, if given.
    pub count: Option<u16>,
    pub items: Vec<Item>,
}

/// A change to a disk.
pub type Change = fn(&mut Disk);

/// Sectors of 512 bytes, blocks of 32 MiB, a disk of 1 GiB.
impl Default for Disk {
    fn default() -> Disk {
        let table = RegionTable {
            signature: *b"regi",
            count: None,
            bad_checksum: false,
            regions: vec![
                Region::new(stored(METADATA), 2 * M, M),
                Region::new(stored(BAT), 3 * M, M),
            ],
        };
        let mut parameters = (32u32 << 20).to_le_bytes().to_vec();
        parameters.extend([0; 4]);
        Disk {
            length: 4 * MIB,
            log: (M, M),
            copies: [table.clone(), table],
            metadata_at: 2 * M,
            signature: *b"metadata",
            count: None,
            items: vec![
                Item::new(stored(FILE_PARAMETERS), 65536, parameters),
                Item::new(
                    stored(DISK_SIZE),
                    65544,
                    (1u64 << 30).to_le_bytes().to_vec(),
                ),
                Item::new(stored(DISK_ID), 65552, b"0123456789abcdef".to_vec()),
                Item::new(stored(LOGICAL), 65568, 512u32.to_le_bytes().to_vec()),
                Item::new(stored(PHYSICAL), 65572, 4096u32.to_le_bytes().to_vec()),
            ],
        }
    }
}

impl Disk {
    /// The same with a parent, and a locator of these bytes.
    pub fn with_parent(locator: Vec<u8>) -> Disk {
        let mut disk = Disk::default();
        disk.item(FILE_PARAMETERS).bytes[4] = 2;
        disk.items.push(Item::new(stored(LOCATOR), 131072, locator));
        disk
    }

    /// The first copy of the region table.
    pub fn table(&mut self) -> &mut RegionTable {
        &mut self.copies[0]
    }

    /// The first item with an identifier.
    pub fn item(&mut self, written: &str) -> &mut Item {
        let id = stored(written);
        self.items
            .iter_mut()
            .find(|i| i.id == id)
            .expect("the item")
    }

    /// Gives an item other bytes, and its length with them.
    pub fn set(&mut self, written: &str, bytes: &[u8]) {
        let item = self.item(written);
        item.bytes = bytes.to_vec();
        item.length = bytes.len() as u32;
    }

    pub fn bytes(&self) -> Vec<u8> {
        let mut image = vec![0; self.length];
        for (at, copy) in [196608, 262144].into_iter().zip(&self.copies) {
            image[at..at + 65536].copy_from_slice(&copy.bytes());
        }
        let mut region = vec![0; self.length - self.metadata_at as usize];
        region[..8].copy_from_slice(&self.signature);
        let count = self.count.unwrap_or(self.items.len() as u16);
        region[10..12].copy_from_slice(&count.to_le_bytes());
        for (i, item) in self.items.iter().enumerate() {
            let at = 32 + 32 * i;
            region[at..at + 16].copy_from_slice(&item.id);
            put32(&mut region, at + 16, item.offset);
            put32(&mut region, at + 20, item.length);
            put32(&mut region, at + 24, item.flags);
            let start = item.offset as usize;
            if let Some(place) = region.get_mut(start..start + item.bytes.len()) {
                place.copy_from_slice(&item.bytes);
            }
        }
        image[self.metadata_at as usize..].copy_from_slice(&region);
        image
    }
}

/// Text as a parent locator holds it.
pub fn ucs2(text: &str) -> Vec<u8> {
    text.encode_utf16().flat_map(u16::to_le_bytes).collect()
}

/// A parent locator: its header and entries, then keys and values one behind the other.
pub fn locator(pairs: &[(&str, &str)]) -> Vec<u8> {
    let mut out = stored(LOCATOR_TYPE).to_vec();
    out.extend([0; 2]);
    out.extend((pairs.len() as u16).to_le_bytes());
    out.resize(20 + 12 * pairs.len(), 0);
    for (i, (key, value)) in pairs.iter().enumerate() {
        let at = 20 + 12 * i;
        for (j, text) in [key, value].into_iter().enumerate() {
            let bytes = ucs2(text);
            let start = out.len() as u32;
            put32(&mut out, at + 4 * j, start);
            out[at + 8 + 2 * j..at + 10 + 2 * j]
                .copy_from_slice(&(bytes.len() as u16).to_le_bytes());
            out.extend(bytes);
        }
    }
    out
}
