//! Words for people: text of strangers that cannot command a terminal, and sizes.
use std::ffi::OsString;
use std::fmt;
use std::os::unix::ffi::OsStrExt;

/// Text of a stranger's, in one line and told apart: control characters, those that turn the direction of writing or are not seen,
/// and the backslash are spelled out.
pub fn printable(text: &str) -> String {
    let mut out = String::new();
    for part in text.split_inclusive(['"', '\'']) {
        // quotes are the only printable characters that this would escape
        let plain = part.trim_end_matches(['"', '\'']);
        out.extend(plain.escape_debug());
        out.push_str(&part[plain.len()..]);
    }
    out
}

/// Whether a character is seen as itself.
pub fn is_seen(c: char) -> bool {
    c.is_ascii_graphic() || c == ' ' || (!c.is_ascii() && c.escape_debug().len() == 1)
}

/// A file's path.
#[derive(Debug, PartialEq, Eq, Clone)]
pub struct Name(pub OsString);

impl Name {
    /// As text; what is none is replaced.
    pub fn lossy(&self) -> String {
        self.0.to_string_lossy().into_owned()
    }

    /// Its bytes, where they are no text.
    pub fn undecodable(&self) -> Option<&[u8]> {
        match self.0.to_str() {
            Some(_) => None,
            None => Some(self.0.as_bytes()),
        }
    }
}

/// For messages: bytes that are no text are spelled out too.
impl fmt::Display for Name {
    fn fmt(&self, out: &mut fmt::Formatter<'_>) -> fmt::Result {
        for part in self.0.as_bytes().utf8_chunks() {
            out.write_str(&printable(part.valid()))?;
            for byte in part.invalid() {
                write!(out, "\\x{byte:02x}")?;
            }
        }
        Ok(())
    }
}

/// Text as a parent locator holds it, for messages: what is no text is spelled out too.
pub fn printable_ucs2(bytes: &[u8]) -> String {
    let (pairs, rest) = bytes.as_chunks::<2>();
    let units = pairs.iter().map(|pair| u16::from_le_bytes(*pair));
    let mut out = String::new();
    for decoded in char::decode_utf16(units) {
        match decoded {
            Ok(c) => out.push_str(&printable(c.encode_utf8(&mut [0; 4]))),
            Err(unit) => out.push_str(&format!("\\u{{{:x}}}", unit.unpaired_surrogate())),
        }
    }
    for byte in rest {
        out.push_str(&format!("\\x{byte:02x}"));
    }
    out
}

pub fn hex(bytes: &[u8]) -> String {
    bytes.iter().map(|byte| format!("{byte:02x}")).collect()
}

/// In groups of three digits.
pub fn grouped(number: u64) -> String {
    let digits = number.to_string();
    let mut out = String::new();
    for (i, digit) in digits.chars().enumerate() {
        if i > 0 && (digits.len() - i).is_multiple_of(3) {
            out.push(',');
        }
        out.push(digit);
    }
    out
}

/// With a binary unit, rounded down to hundredths, and in bytes.
pub fn size(bytes: u64) -> String {
    const UNITS: [&str; 6] = ["KiB", "MiB", "GiB", "TiB", "PiB", "EiB"];
    let Some(power) = bytes
        .checked_ilog2()
        .map(|log| log as usize / 10)
        .filter(|p| *p > 0)
    else {
        return format!("{bytes} bytes");
    };
    let unit = 1u64 << (10 * power);
    let (whole, rest) = (bytes / unit, bytes % unit);
    let hundredths = u128::from(rest) * 100 / u128::from(unit);
    let fraction = match rest {
        0 => String::new(),
        _ => format!(".{hundredths:02}"),
    };
    format!(
        "{whole}{fraction} {} ({} bytes)",
        UNITS[power - 1],
        grouped(bytes)
    )
}

#[cfg(test)]
mod tests {
    use super::*;

    #[test]
    fn sizes() {
        for (bytes, text) in [
            (0, "0 bytes"),
            (1023, "1023 bytes"),
            (1024, "1 KiB (1,024 bytes)"),
            (104_857_600, "100 MiB (104,857,600 bytes)"),
            (5_242_879, "4.99 MiB (5,242,879 bytes)"),
            (1 << 40, "1 TiB (1,099,511,627,776 bytes)"),
            (u64::MAX, "15.99 EiB (18,446,744,073,709,551,615 bytes)"),
        ] {
            assert_eq!(size(bytes), text);
        }
    }

    #[test]
    fn what_is_spelled_out() {
        for (text, out) in [
            ("a b.vhdx", "a b.vhdx"),
            ("it's \"ü\"", "it's \"ü\""),
            ("a\nb", "a\\nb"),
            ("a\\nb", "a\\\\nb"),
            ("\u{1b}[31m", "\\u{1b}[31m"),
            ("\u{202e}txt", "\\u{202e}txt"),
            ("a\u{200b}b\u{2066}", "a\\u{200b}b\\u{2066}"),
            ("\u{85}\u{2028}", "\\u{85}\\u{2028}"),
        ] {
            assert_eq!(printable(text), out);
        }
        assert_eq!(
            printable_ucs2(&[b'a', 0, 0, 0xd8, b'b', 0, 7]),
            "a\\u{d800}b\\x07"
        );
    }
}
