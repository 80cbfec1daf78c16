//! What an atom is, by document 01's rules, and its kind, by request 2.3's.

/// One or more atom characters and strings; a string is two quotes about string characters and pairs that begin with `\`.
pub fn is_atom(bytes: &[u8]) -> bool {
    let mut rest = bytes;
    while let Some((&first, after)) = rest.split_first() {
        let piece = match first {
            b'"' => string_end(after),
            b'0'..=b'9' | b'A'..=b'Z' | b'a'..=b'z' => Some(after),
            _ if b"!#$%&*+-./:<=>?@_~".contains(&first) => Some(after),
            _ => None,
        };
        let Some(after) = piece else {
            return false;
        };
        rest = after;
    }
    !bytes.is_empty()
}

/// What follows the quote that ends a string, if one does.
fn string_end(mut rest: &[u8]) -> Option<&[u8]> {
    loop {
        rest = match rest {
            [b'"', after @ ..] => return Some(after),
            [b'\\', b' '..=b'~', after @ ..] => after,
            [b'\\', ..] => return None,
            [b' '..=b'~', after @ ..] => after,
            _ => return None,
        };
    }
}

/// Of bytes that are an atom: 1 plain, with no `"` in it, 2 one whole string, 3 any other atom.
pub fn kind(atom: &[u8]) -> u32 {
    if !atom.contains(&b'"') {
        return 1;
    }
    match atom.strip_prefix(b"\"").and_then(string_end) {
        Some([]) => 2,
        _ => 3,
    }
}

/// Whether the word may be the first of the bytes' node in a table: an atom's kind, and each of the three where the bytes are no atom.
pub fn may_be(word: u32, bytes: &[u8]) -> bool {
    if is_atom(bytes) {
        word == kind(bytes)
    } else {
        (1..=3).contains(&word)
    }
}
