//! The calls of the static library sise_c, each in a safe function. include/sise.h says what they do and what their memory has to be; slices and references
//! are all of that, so no caller owes anything.

use std::fmt::{Display, Formatter};

/// Why a call is refused. A place is a byte's offset in the text.
#[derive(Clone, Copy, Debug, PartialEq, Eq)]
pub enum Refusal {
    IllegalChr { place: u64, chr: char },
    IllegalChrInString { place: u64, chr: char },
    IllegalChrInComment { place: u64, chr: char },
    UnfinishedString { place: u64 },
    UnexpectedEof { place: u64 },
    UnexpectedRightParen { place: u64 },
    ExpectedEof { place: u64 },
    IllFormedChr { place: u64 },
    ParsingFinished,
    ParsingNotFinished,
    UnsoundRecord,
    NodeExpected { place: u64 },
    TextTooLong,
    TableFull,
    NotATree,
    NoSuchNode,
    InvalidAtom,
    NoListToEnd,
    WritingFinished,
    WritingNotFinished,
    NoRoom,
    SizeChanged,
}

impl Refusal {
    /// By its number, and its place and code point where it has them.
    fn new(number: u32, [place, code]: [u64; 2]) -> Self {
        let chr = char::from_u32(code as u32).unwrap_or(char::REPLACEMENT_CHARACTER);
        match number {
            1 => Self::IllegalChr { place, chr },
            2 => Self::IllegalChrInString { place, chr },
            3 => Self::IllegalChrInComment { place, chr },
            4 => Self::UnfinishedString { place },
            5 => Self::UnexpectedEof { place },
            6 => Self::UnexpectedRightParen { place },
            7 => Self::ExpectedEof { place },
            8 => Self::IllFormedChr { place },
            9 => Self::ParsingFinished,
            10 => Self::ParsingNotFinished,
            11 => Self::UnsoundRecord,
            12 => Self::NodeExpected { place },
            13 => Self::TextTooLong,
            14 => Self::TableFull,
            15 => Self::NotATree,
            16 => Self::NoSuchNode,
            17 => Self::InvalidAtom,
            18 => Self::NoListToEnd,
            19 => Self::WritingFinished,
            20 => Self::WritingNotFinished,
            22 => Self::NoRoom,
            23 => Self::SizeChanged,
            _ => unreachable!("no call is refused with {number}"),
        }
    }
}

impl Display for Refusal {
    fn fmt(&self, f: &mut Formatter<'_>) -> std::fmt::Result {
        let at = |f: &mut Formatter, number, place, reason| {
            write!(f, "refused with {number} at byte {place}: {reason}")
        };
        let found = |f: &mut Formatter, number, place, reason, chr| {
            at(f, number, place, reason)?;
            write!(f, ", U+{:04X}", u32::from(chr))
        };
        let of = |f: &mut Formatter, number, reason| write!(f, "refused with {number}: {reason}");
        match *self {
            Self::IllegalChr { place, chr } => {
                found(f, 1, place, "a character that begins nothing", chr)
            }
            Self::IllegalChrInString { place, chr } => {
                let reason = "a character that may not stand in a string";
                found(f, 2, place, reason, chr)
            }
            Self::IllegalChrInComment { place, chr } => {
                let reason = "a character that may not stand in a comment";
                found(f, 3, place, reason, chr)
            }
            Self::UnfinishedString { place } => at(f, 4, place, "the text ends inside a string"),
            Self::UnexpectedEof { place } => at(f, 5, place, "the text ends too early"),
            Self::UnexpectedRightParen { place } => at(f, 6, place, "a ) that closes no list"),
            Self::ExpectedEof { place } => at(f, 7, place, "more than one list or atom"),
            Self::IllFormedChr { place } => at(f, 8, place, "bytes that are not UTF-8"),
            Self::ParsingFinished => of(f, 9, "the last item is read"),
            Self::ParsingNotFinished => of(f, 10, "the last item is not read yet"),
            Self::UnsoundRecord => of(f, 11, "no record of such a text or buffer"),
            Self::NodeExpected { place } => at(f, 12, place, "a list closes where a node is due"),
            Self::TextTooLong => of(f, 13, "too long"),
            Self::TableFull => of(f, 14, "no room for what was read"),
            Self::NotATree => of(f, 15, "the table holds no tree"),
            Self::NoSuchNode => of(f, 16, "no such node"),
            Self::InvalidAtom => of(f, 17, "no atom"),
            Self::NoListToEnd => of(f, 18, "no list to end"),
            Self::WritingFinished => of(f, 19, "the writing is finished"),
            Self::WritingNotFinished => of(f, 20, "the writing is not finished"),
            Self::NoRoom => of(f, 22, "too long to be written"),
            Self::SizeChanged => of(f, 23, "its size has changed"),
        }
    }
}

impl std::error::Error for Refusal {}

/// How a text is laid out.
#[derive(Clone, Copy)]
pub struct Style<'a> {
    pub line_break: &'a [u8],
    pub indentation: &'a [u8],
}

/// The threshold of the house style.
pub const HOUSE_THRESHOLD: u64 = 72;

impl Style<'static> {
    /// The two strings of the house style, which has a final break too.
    pub const HOUSE: Style<'static> = Style {
        line_break: b"\n",
        indentation: b"  ",
    };
}

/// Which atom some bytes are. Its number is the first word of such an atom in a table.
#[derive(Clone, Copy, Debug, PartialEq, Eq)]
pub enum AtomKind {
    /// No `"` is in it.
    Plain = 1,
    /// It is one whole string.
    String = 2,
    /// Any other atom.
    Mixed = 3,
}

/// Whether the bytes are an atom.
pub fn check_atom(atom: &[u8]) -> Result<(), Refusal> {
    // Here and below, the slices live as long as the call, which keeps nothing, and what it writes is borrowed by nobody else.
    answered(|_| unsafe { raw::sise_check_atom(atom.as_ptr(), atom.len()) }).map(|_| ())
}

/// Which atom the bytes are, or `None` if they are no atom.
pub fn atom_kind(atom: &[u8]) -> Option<AtomKind> {
    match unsafe { raw::sise_atom_kind(atom.as_ptr(), atom.len()) } {
        0 => None,
        1 => Some(AtomKind::Plain),
        2 => Some(AtomKind::String),
        3 => Some(AtomKind::Mixed),
        number => unreachable!("no atom is of the kind {number}"),
    }
}

/// Reads a whole text into the table: the number of its nodes. `4 * text.len()` words are always enough. A node is four words, the first of them 0 of a
/// list and the number of its `AtomKind` of an atom. The calls that take a table refuse it where an atom has the number of another kind.
pub fn parse_tree(text: &[u8], table: &mut [u32]) -> Result<usize, Refusal> {
    answered(|values| unsafe {
        raw::sise_parse_tree(
            text.as_ptr(),
            text.len(),
            table.as_mut_ptr(),
            table.len(),
            values,
        )
    })
}

/// The index of the node at the end of the path, each step a child's number from 0.
pub fn index_path(table: &[u32], text: &[u8], path: &[u64]) -> Result<usize, Refusal> {
    answered(|values| unsafe {
        raw::sise_index_path(
            table.as_ptr(),
            table.len(),
            text.as_ptr(),
            text.len(),
            path.as_ptr(),
            path.len(),
            values,
        )
    })
}

/// A node that `find_path` found: its index, and the number of nodes looked at.
#[derive(Clone, Copy, Debug, PartialEq, Eq)]
pub struct Found {
    pub index: usize,
    pub seen: usize,
}

/// The same node, where only the nodes on the way to it are read: for a table that `parse_tree` filled and nobody changed since, in which both find the
/// same. Its time grows with the nodes looked at, that of `index_path`, which tests the table, with the table.
pub fn find_path(table: &[u32], text: &[u8], path: &[u64]) -> Result<Found, Refusal> {
    let mut values = [0; 2];
    let number = unsafe {
        raw::sise_find_path(
            table.as_ptr(),
            table.len(),
            text.as_ptr(),
            text.len(),
            path.as_ptr(),
            path.len(),
            &mut values,
        )
    };
    let [index, seen] = values.map(|value| value as usize);
    match number {
        0 => Ok(Found { index, seen }),
        number => Err(Refusal::new(number, values)),
    }
}

/// Writes the tree that the table holds over the text: the number of bytes written.
pub fn serialize_tree(
    style: Style,
    buf: &mut [u8],
    text: &[u8],
    table: &[u32],
    break_line_at: u64,
    final_break: bool,
) -> Result<usize, Refusal> {
    answered(|values| unsafe {
        raw::sise_serialize_tree(
            style.line_break.as_ptr(),
            style.line_break.len(),
            style.indentation.as_ptr(),
            style.indentation.len(),
            buf.as_mut_ptr(),
            buf.len(),
            text.as_ptr(),
            text.len(),
            table.as_ptr(),
            table.len(),
            break_line_at,
            final_break,
            values,
        )
    })
}

/// What `serialize_tree` would write: bytes, line breaks and indentations.
#[derive(Clone, Copy, Debug, PartialEq, Eq)]
pub struct Size {
    pub bytes: u64,
    pub breaks: u64,
    pub indents: u64,
}

/// The most bytes of a text that a tree call reads, and the most that any call writes.
pub const LONGEST: usize = 16_777_216;

/// Size first: what `serialize_tree` would write with a buffer of `buf_len` bytes. In every buffer that holds the text it is the same.
pub fn measure_tree(
    style: Style,
    buf_len: usize,
    text: &[u8],
    table: &[u32],
    break_line_at: u64,
    final_break: bool,
) -> Result<Size, Refusal> {
    let mut size = [0; 3];
    let number = unsafe {
        raw::sise_measure_tree(
            style.line_break.as_ptr(),
            style.line_break.len(),
            style.indentation.as_ptr(),
            style.indentation.len(),
            buf_len,
            text.as_ptr(),
            text.len(),
            table.as_ptr(),
            table.len(),
            break_line_at,
            final_break,
            &mut size,
        )
    };
    let [bytes, breaks, indents] = size;
    match number {
        0 => Ok(Size {
            bytes,
            breaks,
            indents,
        }),
        number => Err(Refusal::new(number, [0; 2])),
    }
}

/// Then the text: writes the tree as `serialize_tree` does, if the size is still what `measure_tree` answers.
pub fn commit_tree(
    style: Style,
    buf: &mut [u8],
    text: &[u8],
    table: &[u32],
    break_line_at: u64,
    final_break: bool,
    size: Size,
) -> Result<usize, Refusal> {
    answered(|values| unsafe {
        raw::sise_commit_tree(
            style.line_break.as_ptr(),
            style.line_break.len(),
            style.indentation.as_ptr(),
            style.indentation.len(),
            buf.as_mut_ptr(),
            buf.len(),
            text.as_ptr(),
            text.len(),
            table.as_ptr(),
            table.len(),
            break_line_at,
            final_break,
            &[size.bytes, size.breaks, size.indents],
            values,
        )
    })
}

/// Reads the items of a whole text into words, four an item: the number of items. `4 * text.len()` words are always enough.
pub fn read_items(text: &[u8], words: &mut [u64]) -> Result<usize, Refusal> {
    answered(|values| unsafe {
        raw::sise_read_items(
            text.as_ptr(),
            text.len(),
            words.as_mut_ptr(),
            words.len(),
            values,
        )
    })
}

/// Runs a list of writer calls, four words a call: the number of bytes written, and how many calls ran. `answer` reads a word of the answers.
pub fn write_calls(
    words: &[u64],
    atoms: &[u8],
    style: Style,
    buf: &mut [u8],
    answers: &mut [u64],
) -> (usize, usize) {
    let mut ran = [0];
    let written = unsafe {
        raw::sise_write_calls(
            words.as_ptr(),
            words.len(),
            atoms.as_ptr(),
            atoms.len(),
            style.line_break.as_ptr(),
            style.line_break.len(),
            style.indentation.as_ptr(),
            style.indentation.len(),
            buf.as_mut_ptr(),
            buf.len(),
            answers.as_mut_ptr(),
            answers.len(),
            &mut ran,
        )
    };
    (written as usize, ran[0] as usize)
}

/// An answer of `write_calls`: the offset of what a call wrote.
pub fn answer(word: u64) -> Result<usize, Refusal> {
    match word.checked_sub(1 << 32) {
        None => Ok(word as usize),
        Some(number) => Err(Refusal::new(number as u32, [0; 2])),
    }
}

/// Reads the next item of a text: its kind, place and length. The record begins with zeros, and each call leaves it for the next.
pub fn next_item(text: &[u8], record: &mut [u64; 3]) -> Result<[u64; 3], Refusal> {
    let mut item = [0; 3];
    match unsafe { raw::sise_next_item(text.as_ptr(), text.len(), record, &mut item) } {
        0 => Ok(item),
        number => Err(Refusal::new(number, [item[1], item[2]])),
    }
}

/// Reads the node due into the table, four words a node: the number of nodes. The record is that of `next_item`.
pub fn next_tree(text: &[u8], record: &mut [u64; 3], table: &mut [u32]) -> Result<usize, Refusal> {
    answered(|values| unsafe {
        raw::sise_next_tree(
            text.as_ptr(),
            text.len(),
            record,
            table.as_mut_ptr(),
            table.len(),
            values,
        )
    })
}

/// Whether nothing stands behind the last item.
pub fn finish_reading(text: &[u8], record: &[u64; 3]) -> Result<usize, Refusal> {
    answered(|values| unsafe {
        raw::sise_finish_reading(text.as_ptr(), text.len(), record, values)
    })
}

/// Puts an atom: its offset. The record begins with zeros, and each call leaves it for the next.
pub fn put_atom(
    style: Style,
    buf: &mut [u8],
    atom: &[u8],
    break_line_at: u64,
    record: &mut [u64; 9],
) -> Result<usize, Refusal> {
    answered(|values| unsafe {
        raw::sise_put_atom(
            style.line_break.as_ptr(),
            style.line_break.len(),
            style.indentation.as_ptr(),
            style.indentation.len(),
            buf.as_mut_ptr(),
            buf.len(),
            atom.as_ptr(),
            atom.len(),
            break_line_at,
            record,
            values,
        )
    })
}

/// Begins a list: the offset of its `(`.
pub fn begin_list(
    style: Style,
    buf: &mut [u8],
    break_line_at: u64,
    record: &mut [u64; 9],
) -> Result<usize, Refusal> {
    answered(|values| unsafe {
        raw::sise_begin_list(
            style.line_break.as_ptr(),
            style.line_break.len(),
            style.indentation.as_ptr(),
            style.indentation.len(),
            buf.as_mut_ptr(),
            buf.len(),
            break_line_at,
            record,
            values,
        )
    })
}

/// Ends the innermost open list: the offset of its `)`.
pub fn end_list(style: Style, buf: &mut [u8], record: &mut [u64; 9]) -> Result<usize, Refusal> {
    answered(|values| unsafe {
        raw::sise_end_list(
            style.line_break.as_ptr(),
            style.line_break.len(),
            style.indentation.as_ptr(),
            style.indentation.len(),
            buf.as_mut_ptr(),
            buf.len(),
            record,
            values,
        )
    })
}

/// Puts the tree of a table's first node: the offset of its first item.
pub fn put_tree(
    style: Style,
    buf: &mut [u8],
    text: &[u8],
    table: &[u32],
    break_line_at: u64,
    record: &mut [u64; 9],
) -> Result<usize, Refusal> {
    answered(|values| unsafe {
        raw::sise_put_tree(
            style.line_break.as_ptr(),
            style.line_break.len(),
            style.indentation.as_ptr(),
            style.indentation.len(),
            buf.as_mut_ptr(),
            buf.len(),
            text.as_ptr(),
            text.len(),
            table.as_ptr(),
            table.len(),
            break_line_at,
            record,
            values,
        )
    })
}

/// Ends the text: its length.
pub fn finish_writing(
    style: Style,
    buf: &mut [u8],
    final_break: bool,
    record: &mut [u64; 9],
) -> Result<usize, Refusal> {
    answered(|values| unsafe {
        raw::sise_finish_writing(
            style.line_break.as_ptr(),
            style.line_break.len(),
            style.indentation.as_ptr(),
            style.indentation.len(),
            buf.as_mut_ptr(),
            buf.len(),
            final_break,
            record,
            values,
        )
    })
}

/// What a call answers in its two values, or its refusal.
fn answered(call: impl FnOnce(*mut [u64; 2]) -> u32) -> Result<usize, Refusal> {
    let mut values = [0; 2];
    match call(&mut values) {
        0 => Ok(values[0] as usize),
        number => Err(Refusal::new(number, values)),
    }
}

/// The calls as the library has them: a slice is its first element's address and its length.
mod raw {
    extern "C" {
        pub fn sise_check_atom(atom: *const u8, atom_len: usize) -> u32;

        pub fn sise_atom_kind(atom: *const u8, atom_len: usize) -> u32;

        pub fn sise_parse_tree(
            text: *const u8,
            text_len: usize,
            table: *mut u32,
            table_len: usize,
            values: *mut [u64; 2],
        ) -> u32;

        pub fn sise_index_path(
            table: *const u32,
            table_len: usize,
            text: *const u8,
            text_len: usize,
            path: *const u64,
            path_len: usize,
            values: *mut [u64; 2],
        ) -> u32;

        pub fn sise_find_path(
            table: *const u32,
            table_len: usize,
            text: *const u8,
            text_len: usize,
            path: *const u64,
            path_len: usize,
            values: *mut [u64; 2],
        ) -> u32;

        pub fn sise_serialize_tree(
            line_break: *const u8,
            line_break_len: usize,
            indentation: *const u8,
            indentation_len: usize,
            buf: *mut u8,
            buf_len: usize,
            text: *const u8,
            text_len: usize,
            table: *const u32,
            table_len: usize,
            break_line_at: u64,
            final_break: bool,
            values: *mut [u64; 2],
        ) -> u32;

        pub fn sise_measure_tree(
            line_break: *const u8,
            line_break_len: usize,
            indentation: *const u8,
            indentation_len: usize,
            buf_len: usize,
            text: *const u8,
            text_len: usize,
            table: *const u32,
            table_len: usize,
            break_line_at: u64,
            final_break: bool,
            size: *mut [u64; 3],
        ) -> u32;

        pub fn sise_commit_tree(
            line_break: *const u8,
            line_break_len: usize,
            indentation: *const u8,
            indentation_len: usize,
            buf: *mut u8,
            buf_len: usize,
            text: *const u8,
            text_len: usize,
            table: *const u32,
            table_len: usize,
            break_line_at: u64,
            final_break: bool,
            size: *const [u64; 3],
            values: *mut [u64; 2],
        ) -> u32;

        pub fn sise_read_items(
            text: *const u8,
            text_len: usize,
            words: *mut u64,
            words_len: usize,
            values: *mut [u64; 2],
        ) -> u32;

        pub fn sise_write_calls(
            words: *const u64,
            words_len: usize,
            atoms: *const u8,
            atoms_len: usize,
            line_break: *const u8,
            line_break_len: usize,
            indentation: *const u8,
            indentation_len: usize,
            buf: *mut u8,
            buf_len: usize,
            answers: *mut u64,
            answers_len: usize,
            ran: *mut [u64; 1],
        ) -> u64;

        pub fn sise_next_item(
            text: *const u8,
            text_len: usize,
            record: *mut [u64; 3],
            item: *mut [u64; 3],
        ) -> u32;

        pub fn sise_next_tree(
            text: *const u8,
            text_len: usize,
            record: *mut [u64; 3],
            table: *mut u32,
            table_len: usize,
            values: *mut [u64; 2],
        ) -> u32;

        pub fn sise_finish_reading(
            text: *const u8,
            text_len: usize,
            record: *const [u64; 3],
            values: *mut [u64; 2],
        ) -> u32;

        pub fn sise_put_atom(
            line_break: *const u8,
            line_break_len: usize,
            indentation: *const u8,
            indentation_len: usize,
            buf: *mut u8,
            buf_len: usize,
            atom: *const u8,
            atom_len: usize,
            break_line_at: u64,
            record: *mut [u64; 9],
            values: *mut [u64; 2],
        ) -> u32;

        pub fn sise_begin_list(
            line_break: *const u8,
            line_break_len: usize,
            indentation: *const u8,
            indentation_len: usize,
            buf: *mut u8,
            buf_len: usize,
            break_line_at: u64,
            record: *mut [u64; 9],
            values: *mut [u64; 2],
        ) -> u32;

        pub fn sise_end_list(
            line_break: *const u8,
            line_break_len: usize,
            indentation: *const u8,
            indentation_len: usize,
            buf: *mut u8,
            buf_len: usize,
            record: *mut [u64; 9],
            values: *mut [u64; 2],
        ) -> u32;

        pub fn sise_put_tree(
            line_break: *const u8,
            line_break_len: usize,
            indentation: *const u8,
            indentation_len: usize,
            buf: *mut u8,
            buf_len: usize,
            text: *const u8,
            text_len: usize,
            table: *const u32,
            table_len: usize,
            break_line_at: u64,
            record: *mut [u64; 9],
            values: *mut [u64; 2],
        ) -> u32;

        pub fn sise_finish_writing(
            line_break: *const u8,
            line_break_len: usize,
            indentation: *const u8,
            indentation_len: usize,
            buf: *mut u8,
            buf_len: usize,
            final_break: bool,
            record: *mut [u64; 9],
            values: *mut [u64; 2],
        ) -> u32;
    }
}
