//! Identifiers as they are stored, of regions, metadata items and the parent locator's type.

pub type Identifier = [u8; 16];

/// An identifier as it is written, as it is stored: "the first three groups are stored reversed".
const fn stored(written: u128) -> Identifier {
    let [a, b, c, d, e, f, g, h, rest @ ..] = written.to_be_bytes();
    let [i, j, k, l, m, n, o, p] = rest;
    [d, c, b, a, f, e, h, g, i, j, k, l, m, n, o, p]
}

pub const BAT: Identifier = stored(0x2dc27766_f623_4200_9d64_115e9bfd4a08);
pub const METADATA: Identifier = stored(0x8b7ca206_4790_4b9a_b8fe_575f050f886e);

pub const FILE_PARAMETERS: Identifier = stored(0xcaa16737_fa36_4d43_b3b6_33f0aa44e76b);
pub const DISK_SIZE: Identifier = stored(0x2fa54224_cd1b_4876_b211_5dbed83bf4b8);
pub const DISK_ID: Identifier = stored(0xbeca12ab_b2e6_4523_93ef_c309e000c746);
pub const LOGICAL_SECTOR_SIZE: Identifier = stored(0x8141bf1d_a96f_4709_ba47_f233a8faab5f);
pub const PHYSICAL_SECTOR_SIZE: Identifier = stored(0xcda348c7_445d_4471_9cc9_e9885251c556);
pub const PARENT_LOCATOR: Identifier = stored(0xa8d35f2d_b30b_454d_abf7_d3d84834ab0c);

pub const LOCATOR_TYPE: Identifier = stored(0xb04aefb7_d19e_4a81_b789_25b8e9445913);

#[cfg(test)]
mod tests {
    #[test]
    fn the_bats_begins_as_document_01_says() {
        assert_eq!(
            super::BAT[..8],
            [0x66, 0x77, 0xc2, 0x2d, 0x23, 0xf6, 0x00, 0x42]
        );
    }
}
