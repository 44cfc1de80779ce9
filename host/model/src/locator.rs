//! The parent locator: its rule, and its keys and values.
use crate::bytes::{number16, number32};
use crate::identifier::LOCATOR_TYPE;
use crate::Extent;

/// "At least 20 bytes."
pub const HEADER: usize = 20;
const ENTRY: usize = 12;

/// Where a key and its value lie in the locator.
pub struct Pair {
    pub key: Extent,
    pub value: Extent,
}

/// The locator's pairs, if all of it keeps its rule: "its entries, keys and values inside the item, lengths not 0".
pub fn read(locator: &[u8]) -> Option<Vec<Pair>> {
    if locator.len() < HEADER || locator[..16] != LOCATOR_TYPE {
        return None;
    }
    let count = usize::from(number16(locator, 18));
    let entries = locator.get(HEADER..HEADER + ENTRY * count)?;
    entries
        .chunks_exact(ENTRY)
        .map(|entry| {
            let part = |offset_at, length_at| {
                let part = Extent {
                    offset: u64::from(number32(entry, offset_at)),
                    length: u64::from(number16(entry, length_at)),
                };
                (part.length != 0 && part.inside(locator.len() as u64)).then_some(part)
            };
            Some(Pair {
                key: part(0, 8)?,
                value: part(4, 10)?,
            })
        })
        .collect()
}

/// Where the value of the first entry with a key lies in the locator, if the whole locator keeps its rule.
pub fn find(locator: &[u8], key: &[u8]) -> Option<Extent> {
    let pairs = read(locator)?;
    let found = pairs.iter().find(|pair| {
        let start = pair.key.offset as usize;
        locator[start..start + pair.key.length as usize] == *key
    });
    found.map(|pair| pair.value)
}
