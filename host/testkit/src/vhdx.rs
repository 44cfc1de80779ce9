//! The library's calls as C programs see them, with every answer held to its form and taken apart into the model's types.
use shrunvaki::vhdx::raw;

pub use shrunvaki::vhdx::raw::Slots;
pub use vhdx_model::{Attachment, Closed, Extent, Facts, Lookup, Stepped};

/// What the plan of a log's work is: a refusal's number, or the final length and the count of sectors to write.
#[derive(Debug, PartialEq, Eq, Clone, Copy)]
pub enum Plan {
    Refused(u64),
    Apply { length: u64, count: u64 },
}

/// Has-parent's slot.
pub const HAS_PARENT: usize = 7;

/// The facts of an answer, whose has-parent is 0 or 1.
pub fn facts_in(slots: &Slots) -> Facts {
    assert!(slots[HAS_PARENT] < 2, "has-parent: {slots:?}");
    let facts = shrunvaki::vhdx::Facts::from_slots(slots);
    let extent = |from: shrunvaki::vhdx::Extent| Extent {
        offset: from.offset,
        length: from.length,
    };
    Facts {
        logical_sector_size: facts.logical_sector_size,
        physical_sector_size: facts.physical_sector_size,
        block_size: facts.block_size,
        disk_size: facts.disk_size,
        has_parent: facts.has_parent,
        disk_id: facts.disk_id,
        bat: extent(facts.bat),
        metadata: extent(facts.metadata),
        locator: extent(facts.locator),
    }
}

/// The slots that hold no fact hold a number that none could be, so that a reader of them shows.
pub fn slots_of(facts: &Facts) -> Slots {
    let extent = |from: Extent| shrunvaki::vhdx::Extent {
        offset: from.offset,
        length: from.length,
    };
    let mut slots = shrunvaki::vhdx::Facts {
        logical_sector_size: facts.logical_sector_size,
        physical_sector_size: facts.physical_sector_size,
        block_size: facts.block_size,
        disk_size: facts.disk_size,
        has_parent: facts.has_parent,
        disk_id: facts.disk_id,
        bat: extent(facts.bat),
        metadata: extent(facts.metadata),
        locator: extent(facts.locator),
    }
    .slots();
    slots[..3].fill(u64::MAX);
    slots[16..].fill(u64::MAX);
    slots
}

/// What the exported lookup hands back, not yet taken apart: a benchmark measures the lookup alone.
#[derive(Debug, Clone, Copy)]
pub struct RawLookup {
    refusal: u64,
    answer: [u64; 2],
}

impl RawLookup {
    /// Asserts that the number returned and the answer agree.
    pub fn decode(self) -> Lookup {
        match (self.refusal, self.answer) {
            (0, [1, offset]) => Lookup::File(offset),
            (0, [2, 0]) => Lookup::Zero,
            (0, [3, 0]) => Lookup::Parent,
            (16..=20, [0, number]) if number == self.refusal => Lookup::Refused(number),
            _ => panic!("no answer of a lookup: {self:?}"),
        }
    }
}

/// Applies the log of the image that is the first `length` bytes of the buffer, and reads its tables. Asserts that every slot is
/// written, and that a refusal comes with no facts.
pub fn attach(buffer: &mut [u8], length: u64) -> Attachment {
    let answer = attach_raw(buffer, length);
    let refusal = answer[0];
    assert!(refusal <= 15, "no refusal of attach: {refusal}");
    assert_eq!(answer[16..], [0; 16], "slots 16 to 31");
    let facts = facts_in(&answer);
    if refusal != 0 {
        assert_eq!(facts, Facts::default(), "facts beside refusal {refusal}");
    }
    Attachment {
        refusal,
        length: answer[1],
        count: answer[2],
        facts,
    }
}

/// The same, not taken apart. Asserts that the number returned is the answer's.
pub fn attach_raw(buffer: &mut [u8], length: u64) -> Slots {
    let (refusal, answer) = raw::attach(buffer, length);
    assert_eq!(refusal, answer[0], "returned, and in the answer");
    answer
}

/// What attach would do. Asserts that the answer has the form that it has to have: the given length and no sectors with a refusal,
/// and a zero in the last slot.
pub fn plan(buffer: &[u8], length: u64) -> Plan {
    let (refusal, answer) = raw::plan(buffer, length);
    let [told, length_after, count, rest] = answer;
    assert_eq!((refusal, 0), (told, rest), "returned, and in the answer");
    assert!(refusal <= 8, "no refusal of a plan: {refusal}");
    match refusal {
        0 => Plan::Apply {
            length: length_after,
            count,
        },
        _ => {
            assert_eq!((length_after, count), (length, 0), "beside a refusal");
            Plan::Refused(refusal)
        }
    }
}

/// Does step k of the log's work alone.
pub fn step(buffer: &mut [u8], length: u64, k: u64) -> Stepped {
    let (refusal, answer) = raw::step(buffer, length, k);
    assert_eq!(refusal, answer[0], "returned, and in the answer");
    assert!(
        matches!(refusal, 0..=8 | 21 | 22),
        "no refusal of a step: {refusal}"
    );
    Stepped {
        refusal,
        length: answer[1],
    }
}

/// Applies the log and ends it. Asserts that the answer has the form that it has to have: the given length and no sectors with a
/// refusal.
pub fn close(buffer: &mut [u8], length: u64, identifier: &[u8; 16]) -> Closed {
    let (refusal, [told, length_after, count]) = raw::close(buffer, length, identifier);
    assert_eq!(refusal, told, "returned, and in the answer");
    assert!(
        matches!(refusal, 0..=8 | 23),
        "no refusal of close: {refusal}"
    );
    if refusal != 0 {
        assert_eq!((length_after, count), (length, 0), "beside a refusal");
    }
    Closed {
        refusal,
        length: length_after,
        count,
    }
}

/// Does step k of closing alone.
pub fn close_step(buffer: &mut [u8], length: u64, identifier: &[u8; 16], k: u64) -> Stepped {
    let (refusal, [told, length_after]) = raw::close_step(buffer, length, identifier, k);
    assert_eq!(refusal, told, "returned, and in the answer");
    assert!(
        matches!(refusal, 0..=8 | 21..=23),
        "no refusal of a step of close: {refusal}"
    );
    Stepped {
        refusal,
        length: length_after,
    }
}

/// Where a sector is, in the image that is the first `length` bytes of the buffer.
pub fn lookup(facts: &Facts, buffer: &[u8], length: u64, sector: u64) -> Lookup {
    lookup_raw(&slots_of(facts), buffer, length, sector).decode()
}

/// The same for facts that are numbers already.
#[inline]
pub fn lookup_raw(slots: &Slots, buffer: &[u8], length: u64, sector: u64) -> RawLookup {
    let (refusal, answer) = raw::lookup(slots, buffer, length, sector);
    RawLookup { refusal, answer }
}

/// Where the value under a key of the parent locator lies in the image, 0 and 0 where there is none.
pub fn parent_key(facts: &Facts, buffer: &[u8], length: u64, key: &[u8]) -> Extent {
    let [offset, length] = raw::parent_key(&slots_of(facts), buffer, length, key);
    Extent { offset, length }
}
