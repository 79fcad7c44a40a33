//! Which bytes may begin a name, continue one or stand as text.

/// "first a letter or `_`"
pub fn begins_name(byte: u8) -> bool {
    byte.is_ascii_alphabetic() || byte == b'_'
}

/// "then letters, digits, `-`, `_`, `.`"
pub fn continues_name(byte: u8) -> bool {
    byte.is_ascii_alphanumeric() || matches!(byte, b'-' | b'_' | b'.')
}

/// "Text bytes: 9, 10, 13 and 32 to 126, but not `<`, `>` or a bare `&`."
pub fn is_text(byte: u8) -> bool {
    is_leaf(byte as u32) && !matches!(byte, b'<' | b'>' | b'&')
}

/// What a character leaf can be: "a text byte or `<`, `>`, `&`".
pub fn is_leaf(code: u32) -> bool {
    matches!(code, 9 | 10 | 13 | 32..=126)
}

/// "A name has 1 to 32 bytes"
pub const LONGEST_NAME: usize = 32;

/// A whole name: its length, its first byte and the others.
pub fn is_name(bytes: &[u8]) -> bool {
    match bytes.split_first() {
        None => false,
        Some((first, others)) => {
            bytes.len() <= LONGEST_NAME
                && begins_name(*first)
                && others.iter().all(|b| continues_name(*b))
        }
    }
}
