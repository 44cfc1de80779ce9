//! Values of a parent locator on real bytes: where each lies, and every reason for there being none. Each expected answer is
//! written from document 01, and the model in `host/model` has to give it too.
use shrunvaki_testkit::api;
use shrunvaki_testkit::sample::{extent, forbidden, Sample, M};
use shrunvaki_testkit::tables::{locator, stored, ucs2, Disk, LOCATOR_TYPE};
use shrunvaki_testkit::vhdx::{self, Extent};

const NONE: Extent = Extent {
    offset: 0,
    length: 0,
};

/// Where the locator lies.
const AT: u64 = M + 131072;

const PAIRS: [(&str, &str); 3] = [
    ("parent_linkage", "{83ed}"),
    ("relative_path", "..\\p.vhdx"),
    ("absolute_win32_path", "C:\\p.vhdx"),
];

/// Where the values of these lie in their locator: behind its header, three entries and each its key.
const VALUES: [(u64, u64); 3] = [(84, 12), (122, 18), (178, 18)];

/// Its last value ends here.
const LENGTH: usize = 196;

/// Where an entry of the locator starts.
fn entry(number: usize) -> usize {
    20 + 12 * number
}

/// An image with a locator.
fn with_locator(bytes: &[u8]) -> Sample {
    let mut sample = Sample::small(true);
    put_locator(&mut sample, AT, bytes);
    sample
}

fn put_locator(sample: &mut Sample, at: u64, bytes: &[u8]) {
    let start = at as usize;
    sample.buffer[start..start + bytes.len()].copy_from_slice(bytes);
    sample.facts.locator = extent(at, bytes.len() as u64);
}

/// An image with the three pairs, and some bytes of the locator changed.
fn changed(at: usize, bytes: &[u8]) -> Sample {
    let mut locator = locator(&PAIRS);
    locator[at..at + bytes.len()].copy_from_slice(bytes);
    with_locator(&locator)
}

/// Where value n of the three pairs is said to lie.
fn value(sample: &Sample, n: usize) -> Extent {
    sample.parent_key(&ucs2(PAIRS[n].0))
}

/// Where it lies.
fn expected(n: usize) -> Extent {
    let (offset, length) = VALUES[n];
    extent(AT + offset, length)
}

/// The bytes of the image there.
fn bytes(sample: &Sample, at: Extent) -> &[u8] {
    &sample.buffer[at.offset as usize..][..at.length as usize]
}

// ---- values that are there

#[test]
fn each_key_has_its_value() {
    let locator = locator(&PAIRS);
    assert_eq!(locator.len(), LENGTH);
    let sample = with_locator(&locator);
    for (n, (_, text)) in PAIRS.iter().enumerate() {
        let at = value(&sample, n);
        assert_eq!(at, expected(n));
        assert_eq!(bytes(&sample, at), ucs2(text));
    }
}

#[test]
fn the_first_entry_with_the_key_counts() {
    let sample = with_locator(&locator(&[("b", "one"), ("a", "two"), ("a", "three")]));
    let at = sample.parent_key(&ucs2("a"));
    assert_eq!(bytes(&sample, at), ucs2("two"));
}

#[test]
fn a_value_at_the_very_end() {
    // of its item and of the metadata region
    let mut sample = Sample::small(true);
    put_locator(&mut sample, 2 * M - LENGTH as u64, &locator(&PAIRS));
    assert_eq!(value(&sample, 2), extent(2 * M - 18, 18));
    // of the image too
    put_locator(&mut sample, 8 * M - LENGTH as u64, &locator(&PAIRS));
    sample.facts.metadata = extent(7 * M, M);
    assert_eq!(value(&sample, 2), extent(8 * M - 18, 18));
    // the item one byte shorter
    sample.facts.locator.length -= 1;
    assert_eq!(value(&sample, 2), NONE);
    assert_eq!(value(&sample, 0), NONE, "the whole locator has to be good");
}

#[test]
fn keys_and_values_may_lie_anywhere_in_the_item() {
    // the key is the locator's type, the value the whole item
    let mut locator = locator(&[("key", "value")]);
    let n = locator.len();
    locator[entry(0)..entry(1)].copy_from_slice(&[0, 0, 0, 0, 0, 0, 0, 0, 16, 0, n as u8, 0]);
    let sample = with_locator(&locator);
    let at = sample.parent_key(&stored(LOCATOR_TYPE));
    assert_eq!(at, extent(AT, n as u64));
    assert_eq!(sample.parent_key(&ucs2("key")), NONE);
}

#[test]
fn a_key_of_odd_length_is_like_any_other() {
    let whole = ucs2(PAIRS[0].0);
    let odd = &whole[..27];
    assert_eq!(with_locator(&locator(&PAIRS)).parent_key(odd), NONE);
    let sample = changed(entry(0) + 8, &[27, 0]);
    assert_eq!(sample.parent_key(odd), expected(0));
    assert_eq!(sample.parent_key(&whole), NONE);
    assert_eq!(value(&sample, 1), expected(1));
    // so is a value
    let sample = changed(entry(0) + 10, &[11, 0]);
    assert_eq!(value(&sample, 0), extent(AT + 84, 11));
}

#[test]
fn a_locator_with_65535_entries() {
    let count = usize::from(u16::MAX);
    let mut bytes = stored(LOCATOR_TYPE).to_vec();
    bytes.extend([0, 0, 0xff, 0xff]);
    // every key is bytes 0 and 1, every value bytes 2 to 4
    bytes.extend([0, 0, 0, 0, 2, 0, 0, 0, 2, 0, 3, 0].repeat(count));
    let (first, last) = (entry(0), entry(count - 1));
    bytes[last] = 4;
    let mut sample = Sample::small(true);
    put_locator(&mut sample, AT, &bytes);
    let key = |at: usize| [bytes[at], bytes[at + 1]];
    assert_eq!(sample.parent_key(&key(0)), extent(AT + 2, 3));
    assert_eq!(sample.parent_key(&key(4)), extent(AT + 2, 3));
    assert_eq!(sample.parent_key(&key(first)), NONE);
    // the last entry counts for the rule too
    sample.buffer[AT as usize + last + 8] = 0;
    assert_eq!(sample.parent_key(&key(0)), NONE);
}

#[test]
fn a_locator_from_the_tables() {
    let disk = Disk::with_parent(locator(&PAIRS));
    let image = disk.bytes();
    let facts = api::tables(&image, disk.log).expect("accepted");
    let length = image.len() as u64;
    for (n, (key, text)) in PAIRS.iter().enumerate() {
        let at = vhdx::parent_key(&facts, &image, length, &ucs2(key));
        assert_eq!(at, extent(2 * M + 131072 + VALUES[n].0, VALUES[n].1));
        let start = at.offset as usize;
        assert_eq!(image[start..start + at.length as usize], ucs2(text));
    }
}

// ---- keys that no entry has

#[test]
fn keys_that_no_entry_has() {
    let sample = with_locator(&locator(&PAIRS));
    for text in ["", "p", "parent", "parent_linkage2", "parent_linkages"] {
        assert_eq!(sample.parent_key(&ucs2(text)), NONE, "{text}");
    }
    // in other letters, a value, in 8-bit characters, with a zero behind it
    for text in ["Parent_linkage", "{83ed}", "parent_linkage\0"] {
        assert_eq!(sample.parent_key(&ucs2(text)), NONE, "{text}");
    }
    assert_eq!(sample.parent_key(b"parent_linkage"), NONE);
    for key in [vec![0], vec![0; 2], vec![0x70; 70_000]] {
        assert_eq!(sample.parent_key(&key), NONE);
    }
    for (text, _) in PAIRS {
        let key = ucs2(text);
        for i in 0..key.len() {
            let mut other = key.clone();
            other[i] ^= 1;
            assert_eq!(sample.parent_key(&other), NONE);
        }
        assert_eq!(sample.parent_key(&key[1..]), NONE);
    }
}

#[test]
fn a_locator_without_entries() {
    let sample = with_locator(&locator(&[]));
    assert_eq!(sample.parent_key(&ucs2("key")), NONE);
    assert_eq!(sample.parent_key(&[]), NONE);
}

#[test]
fn without_a_parent_there_is_no_key() {
    let mut sample = with_locator(&locator(&PAIRS));
    sample.facts.has_parent = false;
    assert_eq!(value(&sample, 0), NONE);
    sample.facts.locator = NONE;
    assert_eq!(value(&sample, 0), NONE);
}

// ---- 16

/// The largest disk, with the locator at every MiB: wherever facts move it, its bytes are there.
fn everywhere() -> Sample {
    let mut sample = Sample::largest(true);
    let bytes = locator(&PAIRS);
    for mib in (0..9).rev() {
        put_locator(&mut sample, mib * M + 131072, &bytes);
    }
    sample.facts.locator.offset = AT;
    sample
}

#[test]
fn each_cause_of_16_alone() {
    let mut sample = everywhere();
    assert_eq!(value(&sample, 0), expected(0));
    for (name, facts) in forbidden(sample.facts) {
        sample.facts = facts;
        assert_eq!(value(&sample, 0), NONE, "{name}");
    }
}

#[test]
fn a_length_that_16_refuses() {
    let mut sample = everywhere();
    for (length, answer) in [
        (9 * M, expected(0)),
        (9 * M + 1, NONE),
        (u64::MAX, NONE),
        (7 * M, expected(0)),
        (7 * M - 1, NONE),
        (0, NONE),
    ] {
        sample.length = length;
        assert_eq!(value(&sample, 0), answer, "{length}");
    }
}

// ---- locators that break their rule

#[test]
fn a_locator_of_another_type() {
    for (i, byte) in stored(LOCATOR_TYPE).into_iter().enumerate() {
        let sample = changed(i, &[byte ^ 0x80]);
        assert_eq!(value(&sample, 0), NONE, "byte {i}");
    }
    // what is reserved behind it is not tested
    assert_eq!(value(&changed(16, &[0xff, 0xff]), 0), expected(0));
}

#[test]
fn a_count_is_as_large_as_the_item_allows() {
    let count = |n: u16| changed(18, &n.to_le_bytes());
    assert_eq!(value(&count(2), 1), expected(1));
    assert_eq!(value(&count(2), 2), NONE, "past the count");
    assert_eq!(value(&count(0), 0), NONE);
    // 196 bytes hold 14 entries
    assert_eq!(value(&count(15), 0), NONE);
    assert_eq!(value(&count(u16::MAX), 0), NONE);
}

#[test]
fn an_entry_that_ends_one_byte_past_the_item() {
    // two entries fill the item; keys and values are its first bytes
    let mut bytes = locator(&[]);
    bytes[18] = 2;
    bytes.extend([0, 0, 0, 0, 2, 0, 0, 0, 2, 0, 3, 0].repeat(2));
    let key = [bytes[0], bytes[1]];
    let mut sample = with_locator(&bytes);
    assert_eq!(sample.parent_key(&key), extent(AT + 2, 3));
    sample.facts.locator.length -= 1;
    assert_eq!(sample.parent_key(&key), NONE);
}

#[test]
fn a_bad_entry_before_or_after_the_match() {
    let n = LENGTH as u32;
    for bad in 0..3 {
        let at = entry(bad);
        let all = |sample: &Sample| [0, 1, 2].map(|n| value(sample, n));
        // key offset and length, value offset and length
        for (offset_at, length_at) in [(at, at + 8), (at + 4, at + 10)] {
            assert_eq!(all(&changed(length_at, &[0, 0])), [NONE; 3], "length 0");
            assert_eq!(all(&changed(length_at, &[0xff, 0xff])), [NONE; 3]);
            for offset in [n - 1, n, 1 << 31, u32::MAX - 11, u32::MAX] {
                let sample = changed(offset_at, &offset.to_le_bytes());
                assert_eq!(all(&sample), [NONE; 3], "offset {offset}");
            }
        }
    }
}

#[test]
fn keys_and_values_up_to_the_end_and_one_past() {
    let last = LENGTH as u32;
    for (n, (_, length)) in VALUES.into_iter().enumerate() {
        let at = entry(n) + 4;
        let end = last - length as u32;
        let fits = extent(AT + u64::from(end), length);
        assert_eq!(value(&changed(at, &end.to_le_bytes()), n), fits);
        assert_eq!(value(&changed(at, &(end + 1).to_le_bytes()), n), NONE);
        // the key of this entry at the end: the last value's bytes
        let tail = ucs2(PAIRS[2].1);
        let key_length = tail.len() as u8;
        let start = last - u32::from(key_length);
        let mut sample = changed(entry(n), &start.to_le_bytes());
        sample.buffer[AT as usize + entry(n) + 8] = key_length;
        assert_eq!(sample.parent_key(&tail), expected(n));
        sample.buffer[AT as usize + entry(n)] += 1;
        assert_eq!(sample.parent_key(&tail), NONE);
    }
}

// ---- damaged locators, and the model

#[test]
fn every_byte_of_a_locator_damaged_and_the_model() {
    let good = locator(&PAIRS);
    let mut sample = with_locator(&good);
    let keys = PAIRS.map(|(key, _)| ucs2(key));
    // found where it was, found elsewhere, none
    let mut reached = [0; 3];
    for (i, byte) in good.iter().enumerate() {
        let at = AT as usize + i;
        for other in 0..=255 {
            sample.buffer[at] = other;
            for (n, key) in keys.iter().enumerate() {
                let answer = sample.parent_key(key);
                let kind = match answer {
                    NONE => 2,
                    _ if answer == expected(n) => 0,
                    _ => 1,
                };
                reached[kind] += 1;
            }
        }
        sample.buffer[at] = *byte;
    }
    println!("found where it was, elsewhere, none: {reached:?}");
    assert!(reached.iter().all(|&n| n >= 100), "{reached:?}");
}
