//! The tables with 2,047 regions and 2,047 metadata items, all distinct, against one pass of the project's own CRC-32C over
//! 64 MiB in the same run. Prints the ratios; exits with status 1 where one is above the limit.
use shrunvaki_testkit::api;
use shrunvaki_testkit::image::MIB;
use shrunvaki_testkit::measure::{crc_pass, finish, report, time};
use shrunvaki_testkit::tables::{Change, Disk, Item, Region};
use std::hint::black_box;

const ENTRIES: u32 = 2047;
const LIMIT: f64 = 0.5;

/// Identifiers that differ in their last bytes alone.
fn distinct(n: u32) -> [u8; 16] {
    let mut id = *b"a shared start..";
    id[12..].copy_from_slice(&n.to_be_bytes());
    id
}

/// Every further region is empty: a file of ordinary size can hold them.
fn many_regions(disk: &mut Disk) {
    let table = disk.table();
    let more = ENTRIES - table.regions.len() as u32;
    table
        .regions
        .extend((0..more).map(|n| Region::new(distinct(n), MIB as u64, 0)));
}

fn many_items(disk: &mut Disk) {
    let more = ENTRIES - disk.items.len() as u32;
    disk.items
        .extend((0..more).map(|n| Item::new(distinct(n), 0, vec![])));
}

fn main() {
    let pass = crc_pass();
    let cases: [(&str, Change); 4] = [
        ("two regions, five items", |_| ()),
        ("2,047 regions", many_regions),
        ("2,047 items", many_items),
        ("2,047 regions and 2,047 items", |disk| {
            many_regions(disk);
            many_items(disk);
        }),
    ];
    let mut most: f64 = 0.0;
    for (name, change) in cases {
        let mut disk = Disk::default();
        change(&mut disk);
        let image = disk.bytes();
        assert!(api::tables(&image, disk.log).is_ok(), "{name}");
        let taken = time(|| api::tables(black_box(&image), disk.log));
        most = most.max(report(name, taken, pass));
    }
    finish(most, LIMIT);
}
