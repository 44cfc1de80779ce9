//! Parts of a file, and the two questions that the rules ask of them. Numbers are whole and never wrap.

/// Where a part of a file lies.
#[derive(Debug, PartialEq, Eq, Clone, Copy, Default)]
pub struct Extent {
    pub offset: u64,
    pub length: u64,
}

impl Extent {
    /// That it ends by `length`, also where it is empty. One whose end passes 2^64 does not.
    pub(crate) fn inside(self, length: u64) -> bool {
        self.offset
            .checked_add(self.length)
            .is_some_and(|end| end <= length)
    }

    /// That the two share at least one byte, which an empty one never does. The distance of their starts decides, so that no end
    /// is needed.
    pub(crate) fn shares_a_byte(self, other: Extent) -> bool {
        let (first, second) = if self.offset <= other.offset {
            (self, other)
        } else {
            (other, self)
        };
        second.length != 0 && second.offset - first.offset < first.length
    }
}

#[cfg(test)]
mod tests {
    use super::Extent;

    fn share(a: (u64, u64), b: (u64, u64)) -> bool {
        let extent = |(offset, length)| Extent { offset, length };
        let answer = extent(a).shares_a_byte(extent(b));
        assert_eq!(extent(b).shares_a_byte(extent(a)), answer, "{a:?}, {b:?}");
        answer
    }

    #[test]
    fn sharing_a_byte() {
        assert!(share((4, 4), (4, 4)));
        assert!(share((4, 4), (7, 1)));
        assert!(share((0, 8), (2, 2)));
        assert!(share((u64::MAX, 1), (u64::MAX - 1, u64::MAX)));
        assert!(!share((4, 4), (8, 4)));
        assert!(!share((4, 4), (u64::MAX, u64::MAX)));
        // empty ones, also strictly inside another
        assert!(!share((4, 0), (4, 4)));
        assert!(!share((6, 0), (4, 4)));
        assert!(!share((6, 0), (6, 0)));
    }

    #[test]
    fn lying_inside() {
        let inside = |offset, length, file| Extent { offset, length }.inside(file);
        assert!(inside(3, 5, 8) && inside(8, 0, 8));
        assert!(!inside(3, 6, 8) && !inside(9, 0, 8));
        assert!(inside(u64::MAX, 0, u64::MAX) && !inside(u64::MAX, 1, u64::MAX));
        assert!(!inside(2, u64::MAX - 1, u64::MAX));
    }
}
