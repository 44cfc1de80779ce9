//! Identifiers (GUIDs) as they are stored and as they are written: five groups of hexadecimal digits, the first three of them stored
//! with their bytes reversed.

/// How many digits each group has.
const GROUPS: [usize; 5] = [8, 4, 4, 4, 12];

/// Which stored byte each pair of digits is.
const STORED: [usize; 16] = [3, 2, 1, 0, 5, 4, 7, 6, 8, 9, 10, 11, 12, 13, 14, 15];

/// An identifier as it is written, in small letters and without braces.
pub fn identifier_text(stored: &[u8; 16]) -> String {
    let digits: String = STORED
        .iter()
        .map(|at| format!("{:02x}", stored[*at]))
        .collect();
    let mut rest = &digits[..];
    let groups = GROUPS.map(|length| {
        let (group, behind) = rest.split_at(length);
        rest = behind;
        group
    });
    groups.join("-")
}

/// The stored bytes of an identifier that is written with letters in either case, in braces or not. Nothing else is one.
pub fn identifier_from_text(text: &str) -> Option<[u8; 16]> {
    let inside = text.strip_prefix('{').map(|rest| rest.strip_suffix('}'));
    let groups: Vec<&str> = inside.unwrap_or(Some(text))?.split('-').collect();
    if !groups.iter().map(|group| group.len()).eq(GROUPS) {
        return None;
    }
    let digits = groups.concat();
    let mut stored = [0; 16];
    for (at, pair) in STORED.into_iter().zip(digits.as_bytes().as_chunks().0) {
        let [high, low] = pair.map(|digit| char::from(digit).to_digit(16));
        stored[at] = (high? << 4 | low?) as u8;
    }
    Some(stored)
}

#[cfg(test)]
mod tests {
    use super::{identifier_from_text, identifier_text};

    #[test]
    fn as_stored_and_as_written() {
        // the BAT's, as MS-VHDX writes it and as files hold it
        let text = "2dc27766-f623-4200-9d64-115e9bfd4a08";
        let stored = [
            0x66, 0x77, 0xc2, 0x2d, 0x23, 0xf6, 0x00, 0x42, 0x9d, 0x64, 0x11, 0x5e, 0x9b, 0xfd,
            0x4a, 0x08,
        ];
        assert_eq!(identifier_text(&stored), text);
        let upper = text.to_uppercase();
        for written in [
            text,
            &upper,
            &format!("{{{text}}}"),
            &format!("{{{upper}}}"),
        ] {
            assert_eq!(identifier_from_text(written), Some(stored), "{written}");
        }
    }

    #[test]
    fn what_is_none() {
        for text in [
            "",
            "{}",
            "2dc27766f62342009d64115e9bfd4a08",
            "2dc27766-f623-4200-9d64-115e9bfd4a0",
            "2dc27766-f623-4200-9d64-115e9bfd4a080",
            "2dc27766-f623-4200-9d64-115e9bfd4a0g",
            "2dc27766-f6234-200-9d64-115e9bfd4a08",
            "2dc27766-f623-4200-9d64-115e9bfd4a08-",
            "{2dc27766-f623-4200-9d64-115e9bfd4a08",
            "2dc27766-f623-4200-9d64-115e9bfd4a08}",
            "{{2dc27766-f623-4200-9d64-115e9bfd4a08}}",
            " 2dc27766-f623-4200-9d64-115e9bfd4a08",
            "+dc27766-f623-4200-9d64-115e9bfd4a08",
            "2dc27766-f623-4200-9d64-115e9bfd4a\u{e9}",
        ] {
            assert_eq!(identifier_from_text(text), None, "{text}");
        }
    }
}
