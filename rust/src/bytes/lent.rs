//! The library's calls on lent memory, as include/sise.h has them, each in a safe function. None allocates; on a refusal nothing that is lent is written.
//! The single calls of reading and writing are those of [`Reader`](super::Reader) and [`Writer`](super::Writer).

use super::refusal::answered;
use super::{Layout, Refusal, Size};
use crate::ffi::{self, Strings};

/// The strings of a layout, as the calls take them.
fn strings(layout: Layout<'_>) -> Strings<'_> {
    Strings {
        line_break: layout.line_break,
        indentation: layout.indentation,
    }
}

/// Reads a whole text into the first words of the table: the number of its nodes, four words a node. `4 * text.len()` words are always enough. Refused: 13;
/// the first refusal in the text (1 to 8); 14.
pub fn parse_tree(text: &[u8], table: &mut [u32]) -> Result<usize, Refusal> {
    answered(ffi::parse_tree(text, table))
}

/// The index of the node at the end of a path, each step a child's number from 0; the whole table is tested first. Refused: 13; 15; 16.
pub fn index_path(table: &[u32], text: &[u8], path: &[u64]) -> Result<usize, Refusal> {
    answered(ffi::index_path(table, text, path))
}

/// The same node in a table that [`parse_tree`] has filled, with the number of nodes looked at: those on the way, and no others. Any other words are
/// followed as they stand. Refused: 13; on the way 15, where a node is not whole inside the table or a child is to be passed by 0 nodes, or 16.
pub fn find_path(table: &[u32], text: &[u8], path: &[u64]) -> Result<(usize, usize), Refusal> {
    match ffi::find_path(table, text, path) {
        (0, [index, looked_at]) => Ok((index as usize, looked_at as usize)),
        (number, values) => Err(Refusal::new(number, values)),
    }
}

/// How large the tree of the table's first node is as a text, where it may have `room` bytes. Refused: 13; 15; 17; 22.
pub fn measure_tree(
    layout: Layout,
    room: usize,
    text: &[u8],
    table: &[u32],
) -> Result<Size, Refusal> {
    let Layout {
        break_line_at,
        final_break,
        ..
    } = layout;
    match ffi::measure_tree(
        strings(layout),
        room,
        text,
        table,
        break_line_at,
        final_break,
    ) {
        (0, [bytes, breaks, indents]) => Ok(Size {
            bytes: bytes as usize,
            breaks: breaks as usize,
            indents: indents as usize,
        }),
        (number, _) => Err(Refusal::new(number, [0; 2])),
    }
}

/// Writes the tree of the table's first node to the start of the buffer: the number of bytes. Refused: 13; 15; 17; 22.
pub fn serialize_tree(
    layout: Layout,
    buf: &mut [u8],
    text: &[u8],
    table: &[u32],
) -> Result<usize, Refusal> {
    let Layout {
        break_line_at,
        final_break,
        ..
    } = layout;
    let written = ffi::serialize_tree(
        strings(layout),
        buf,
        text,
        table,
        break_line_at,
        final_break,
    );
    answered(written)
}

/// The same, if the tree still has the size that [`measure_tree`] answered. Refused: 13; 15; 17; 22; 23, if it has another.
pub fn commit_tree(
    layout: Layout,
    buf: &mut [u8],
    text: &[u8],
    table: &[u32],
    size: Size,
) -> Result<usize, Refusal> {
    let Layout {
        break_line_at,
        final_break,
        ..
    } = layout;
    let size = [size.bytes as u64, size.breaks as u64, size.indents as u64];
    let strings = strings(layout);
    answered(ffi::commit_tree(
        strings,
        buf,
        text,
        table,
        break_line_at,
        final_break,
        &size,
    ))
}

/// Reads the items of a whole text into the first words, four an item: the number of items. `4 * text.len()` words are always enough. Refused: the first
/// refusal in the text (1 to 8); 14.
pub fn read_items(text: &[u8], words: &mut [u64]) -> Result<usize, Refusal> {
    answered(ffi::read_items(text, words))
}

/// Runs a list of writer calls, four words a call, from the start of the buffer: the number of bytes written, and that of the calls that ran. include/sise.h
/// has the words; [`written_at`] reads an answer.
///
/// ```
/// use sise::bytes::lent::{write_calls, written_at};
/// use sise::bytes::{Layout, Reason, ONE_LINE};
///
/// // (a), with an atom that is none on the way, and a finish
/// let words = [[1, 0, 0, 0], [0, 0, 1, ONE_LINE], [0, 1, 1, ONE_LINE], [2, 0, 0, 0], [3, 0, 0, 0]].concat();
/// let (mut buf, mut answers) = ([0; 8], [0; 8]);
/// assert_eq!(write_calls(&words, b"a ", Layout::HOUSE, &mut buf, &mut answers), (3, 5));
/// assert_eq!(&buf[..3], b"(a)");
/// assert_eq!(written_at(answers[1]), Ok(1));
/// assert_eq!(written_at(answers[2]).unwrap_err().reason, Reason::InvalidAtom);
/// ```
pub fn write_calls(
    words: &[u64],
    atoms: &[u8],
    layout: Layout,
    buf: &mut [u8],
    answers: &mut [u64],
) -> (usize, usize) {
    let (written, ran) = ffi::write_calls(words, atoms, strings(layout), buf, answers);
    (written as usize, ran as usize)
}

/// An answer of [`write_calls`]: the offset of what a call wrote. Refused: 17 to 20, 22.
///
/// # Panics
///
/// Of a word that no call answers.
pub fn written_at(answer: u64) -> Result<usize, Refusal> {
    match answer.checked_sub(1 << 32) {
        None => Ok(answer as usize),
        Some(number) => Err(Refusal::new(number as u32, [0; 2])),
    }
}
