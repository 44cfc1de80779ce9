//! Text as a parent locator holds it: UCS-2, little-endian.

/// The bytes of a text, as a key for [`super::Image::parent_key`].
pub fn to_ucs2(text: &str) -> Vec<u8> {
    text.encode_utf16().flat_map(u16::to_le_bytes).collect()
}

/// The text of some bytes. What is no text shows as the replacement character, an odd byte at the end too.
pub fn from_ucs2(bytes: &[u8]) -> String {
    let units = bytes.chunks(2).map(|pair| match pair {
        [low, high] => u16::from_le_bytes([*low, *high]),
        // a surrogate by itself is no text
        _ => 0xd800,
    });
    char::decode_utf16(units)
        .map(|character| character.unwrap_or(char::REPLACEMENT_CHARACTER))
        .collect()
}
