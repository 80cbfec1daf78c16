use crate::ffi;

/// Whether `chr` may stand in an atom outside of a string: a letter, a digit or one of
/// `! # $ % & * + - . / : < = > ? @ _ ~`.
///
/// A `const fn`, as in the crate sise, and so written in Rust and not a call of the proved
/// library: a test holds it against the proved check of an atom on every character there is.
///
/// ```
/// assert!(sise::is_atom_chr('x') && sise::is_atom_chr('-'));
/// assert!(!sise::is_atom_chr('"') && !sise::is_atom_chr(','));
/// ```
#[inline]
pub const fn is_atom_chr(chr: char) -> bool {
    matches!(
        chr,
        'a'..='z' | '0'..='9' | 'A'..='Z' | '!' | '#' | '$' | '%' | '&' | '*' | '+' | '-' | '.' | '/'
            | ':' | '<' | '=' | '>' | '?' | '@' | '_' | '~'
    )
}

/// Whether `chr` may stand in a string by itself: any character from space to `~` but `"` and
/// `\`, which need a `\` before them.
///
/// Written in Rust for the reason that [`is_atom_chr`] has, and tested as that one is.
///
/// ```
/// assert!(sise::is_atom_string_chr(' ') && sise::is_atom_string_chr('('));
/// assert!(!sise::is_atom_string_chr('"') && !sise::is_atom_string_chr('\t'));
/// ```
#[inline]
pub const fn is_atom_string_chr(chr: char) -> bool {
    !matches!(chr, '"' | '\\') && matches!(chr, ' '..='~')
}

/// Whether `atom` is an atom: one or more atom characters and strings, as said at
/// [`TreeNode::Atom`](crate::TreeNode::Atom).
///
/// ```
/// assert!(sise::check_atom("-12.5") && sise::check_atom("\"a b\"") && sise::check_atom("\"\""));
/// assert!(!sise::check_atom("") && !sise::check_atom("a b") && !sise::check_atom("\"a"));
/// ```
#[inline]
pub fn check_atom(atom: &str) -> bool {
    ffi::check_atom(atom.as_bytes()) == 0
}
