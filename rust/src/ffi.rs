//! The calls of the proved library, each in a safe function, and all the unsafe code of this package. include/sise.h says what each call does and what
//! its memory has to be: as many elements as are named, behind an aligned pointer, lent for the time of the call, with nothing else over what the call
//! writes. Slices and references are all of that. A call that is refused answers its number, and 0 if it is not.

#![allow(unsafe_code)]

/// The most bytes that a call writes.
pub const LONGEST: u64 = 16_777_216;

/// The strings of a layout.
#[derive(Clone, Copy)]
pub struct Strings<'a> {
    pub line_break: &'a [u8],
    pub indentation: &'a [u8],
}

/// 0, or 17.
#[inline]
pub fn check_atom(atom: &[u8]) -> u32 {
    unsafe { raw::sise_check_atom(atom.as_ptr(), atom.len()) }
}

/// 1 to 3, or 0 of no atom.
#[inline]
pub fn atom_kind(atom: &[u8]) -> u32 {
    unsafe { raw::sise_atom_kind(atom.as_ptr(), atom.len()) }
}

/// The reader's record is its position, phase and open lists. The item is its kind, place and length; of a refusal 0, place and code point.
#[inline]
pub fn next_item(text: &[u8], record: &mut [u64; 3], item: &mut [u64; 3]) -> u32 {
    unsafe { raw::sise_next_item(text.as_ptr(), text.len(), record, item) }
}

/// With the number of nodes, or with place and code point. The record is that of [`next_item`].
fn next_tree(text: &[u8], record: &mut [u64; 3], table: &mut [u32]) -> (u32, [u64; 2]) {
    valued(|values| unsafe {
        raw::sise_next_tree(
            text.as_ptr(),
            text.len(),
            record,
            table.as_mut_ptr(),
            table.len(),
            values,
        )
    })
}

/// The words of the first table that is tried in the middle of a text.
const FIRST_TABLE: usize = 4 * 1024;

/// Reads the node due into a table, which is made longer where it is too short: at the beginning of a text as long as any node of it may want, for the node
/// is all of the text, and in the middle of one little by little, for it may be small. With the number of nodes, or with place and code point.
pub fn read_tree(text: &[u8], record: &mut [u64; 3], table: &mut Vec<u32>) -> (u32, [u64; 2]) {
    // A node has a byte of the text or more. Words that nothing is written to cost no memory. A text that is too long is refused with any table.
    let left = text.len().saturating_sub(record[0] as usize);
    let most = match text.len() as u64 {
        0..=LONGEST => 4 * left,
        _ => 0,
    };
    let first = if record[1] == 0 {
        most
    } else {
        most.min(FIRST_TABLE)
    };
    if table.len() < first {
        *table = vec![0; first];
    }
    loop {
        let answer = next_tree(text, record, table);
        if answer.0 != 14 || most <= table.len() {
            return answer;
        }
        *table = vec![0; most.min(8 * table.len())];
    }
}

/// With place and code point.
#[inline]
pub fn finish_reading(text: &[u8], record: &[u64; 3]) -> (u32, [u64; 2]) {
    valued(|values| unsafe { raw::sise_finish_reading(text.as_ptr(), text.len(), record, values) })
}

/// With the number of nodes.
pub fn parse_tree(text: &[u8], table: &mut [u32]) -> (u32, [u64; 2]) {
    valued(|values| unsafe {
        raw::sise_parse_tree(
            text.as_ptr(),
            text.len(),
            table.as_mut_ptr(),
            table.len(),
            values,
        )
    })
}

/// With the node's index.
pub fn index_path(table: &[u32], text: &[u8], path: &[u64]) -> (u32, [u64; 2]) {
    valued(|values| unsafe {
        raw::sise_index_path(
            table.as_ptr(),
            table.len(),
            text.as_ptr(),
            text.len(),
            path.as_ptr(),
            path.len(),
            values,
        )
    })
}

/// With the node's index, and the number of nodes looked at.
pub fn find_path(table: &[u32], text: &[u8], path: &[u64]) -> (u32, [u64; 2]) {
    valued(|values| unsafe {
        raw::sise_find_path(
            table.as_ptr(),
            table.len(),
            text.as_ptr(),
            text.len(),
            path.as_ptr(),
            path.len(),
            values,
        )
    })
}

/// With the number of bytes written.
pub fn serialize_tree(
    strings: Strings,
    buf: &mut [u8],
    text: &[u8],
    table: &[u32],
    break_line_at: u64,
    final_break: bool,
) -> (u32, [u64; 2]) {
    valued(|values| unsafe {
        raw::sise_serialize_tree(
            strings.line_break.as_ptr(),
            strings.line_break.len(),
            strings.indentation.as_ptr(),
            strings.indentation.len(),
            buf.as_mut_ptr(),
            buf.len(),
            text.as_ptr(),
            text.len(),
            table.as_ptr(),
            table.len(),
            break_line_at,
            final_break,
            values,
        )
    })
}

/// With bytes, breaks and indents, where there is room for so many bytes.
pub fn measure_tree(
    strings: Strings,
    room: usize,
    text: &[u8],
    table: &[u32],
    break_line_at: u64,
    final_break: bool,
) -> (u32, [u64; 3]) {
    let mut size = [0; 3];
    let number = unsafe {
        raw::sise_measure_tree(
            strings.line_break.as_ptr(),
            strings.line_break.len(),
            strings.indentation.as_ptr(),
            strings.indentation.len(),
            room,
            text.as_ptr(),
            text.len(),
            table.as_ptr(),
            table.len(),
            break_line_at,
            final_break,
            &mut size,
        )
    };
    (number, size)
}

/// With the number of bytes written, if bytes, breaks and indents are still those of the size.
pub fn commit_tree(
    strings: Strings,
    buf: &mut [u8],
    text: &[u8],
    table: &[u32],
    break_line_at: u64,
    final_break: bool,
    size: &[u64; 3],
) -> (u32, [u64; 2]) {
    valued(|values| unsafe {
        raw::sise_commit_tree(
            strings.line_break.as_ptr(),
            strings.line_break.len(),
            strings.indentation.as_ptr(),
            strings.indentation.len(),
            buf.as_mut_ptr(),
            buf.len(),
            text.as_ptr(),
            text.len(),
            table.as_ptr(),
            table.len(),
            break_line_at,
            final_break,
            size,
            values,
        )
    })
}

/// With the number of items.
pub fn read_items(text: &[u8], words: &mut [u64]) -> (u32, [u64; 2]) {
    valued(|values| unsafe {
        raw::sise_read_items(
            text.as_ptr(),
            text.len(),
            words.as_mut_ptr(),
            words.len(),
            values,
        )
    })
}

/// The number of bytes written, and that of the calls that ran.
pub fn write_calls(
    words: &[u64],
    atoms: &[u8],
    strings: Strings,
    buf: &mut [u8],
    answers: &mut [u64],
) -> (u64, u64) {
    let mut ran = [0];
    let written = unsafe {
        raw::sise_write_calls(
            words.as_ptr(),
            words.len(),
            atoms.as_ptr(),
            atoms.len(),
            strings.line_break.as_ptr(),
            strings.line_break.len(),
            strings.indentation.as_ptr(),
            strings.indentation.len(),
            buf.as_mut_ptr(),
            buf.len(),
            answers.as_mut_ptr(),
            answers.len(),
            &mut ran,
        )
    };
    (written, ran[0])
}

/// A refusal's number, or 0, with the two values that the call writes.
#[inline]
fn valued(call: impl FnOnce(&mut [u64; 2]) -> u32) -> (u32, [u64; 2]) {
    let mut values = [0; 2];
    let number = call(&mut values);
    (number, values)
}

/// The writer's record over a text that grows. The library writes behind the bytes that were there at first, into room that is reserved before each call:
/// so a call never lacks room, and 22 says that the text would pass [`LONGEST`].
pub struct Writing<'a, 'b, O> {
    strings: Strings<'a>,
    out: &'b mut O,
    /// Where the text begins.
    start: usize,
    /// Position, phase, open lists, broken ones among them, list-beginning, line length, spaces, breaks, indents.
    record: [u64; 9],
}

impl<'a, 'b> Writing<'a, 'b, String> {
    #[inline]
    pub fn new(line_break: &'a str, indentation: &'a str, out: &'b mut String) -> Self {
        let strings = Strings {
            line_break: line_break.as_bytes(),
            indentation: indentation.as_bytes(),
        };
        Self {
            strings,
            start: out.len(),
            out,
            record: [0; 9],
        }
    }
}

impl<'a, 'b> Writing<'a, 'b, Vec<u8>> {
    #[inline]
    pub fn new(strings: Strings<'a>, out: &'b mut Vec<u8>) -> Self {
        Self {
            strings,
            start: out.len(),
            out,
            record: [0; 9],
        }
    }
}

/// What a writer appends to. All that it appends are the layout's strings, atoms, parentheses and spaces: of a `String` the first are `&str`, and the
/// others are ASCII, so what is UTF-8 stays so.
pub trait Out {
    /// # Safety
    /// What is done with the bytes leaves a `String` in UTF-8.
    unsafe fn bytes(&mut self) -> &mut Vec<u8>;
}

impl Out for Vec<u8> {
    #[inline]
    unsafe fn bytes(&mut self) -> &mut Vec<u8> {
        self
    }
}

impl Out for String {
    #[inline]
    unsafe fn bytes(&mut self) -> &mut Vec<u8> {
        self.as_mut_vec()
    }
}

impl<O: Out> Writing<'_, '_, O> {
    /// The offset of the atom, or a refusal's number; and so below.
    #[inline]
    pub fn put_atom(&mut self, atom: &[u8], break_line_at: u64) -> Result<u64, u32> {
        let most = self.new_line().saturating_add(atom.len()).saturating_add(1);
        self.append(most, |strings, buf, room, record, values| unsafe {
            raw::sise_put_atom(
                strings.line_break.as_ptr(),
                strings.line_break.len(),
                strings.indentation.as_ptr(),
                strings.indentation.len(),
                buf,
                room,
                atom.as_ptr(),
                atom.len(),
                break_line_at,
                record,
                values,
            )
        })
    }

    #[inline]
    pub fn begin_list(&mut self, break_line_at: u64) -> Result<u64, u32> {
        let most = self.new_line().saturating_add(2);
        self.append(most, |strings, buf, room, record, values| unsafe {
            raw::sise_begin_list(
                strings.line_break.as_ptr(),
                strings.line_break.len(),
                strings.indentation.as_ptr(),
                strings.indentation.len(),
                buf,
                room,
                break_line_at,
                record,
                values,
            )
        })
    }

    #[inline]
    pub fn end_list(&mut self) -> Result<u64, u32> {
        let most = self.new_line().saturating_add(1);
        self.append(most, |strings, buf, room, record, values| unsafe {
            raw::sise_end_list(
                strings.line_break.as_ptr(),
                strings.line_break.len(),
                strings.indentation.as_ptr(),
                strings.indentation.len(),
                buf,
                room,
                record,
                values,
            )
        })
    }

    /// The tree of a table, which has no words behind it, over a text. Room is made as for one line, and twice as much where that is too little, up to all
    /// that a text may still have.
    pub fn put_tree(&mut self, text: &[u8], table: &[u32], break_line_at: u64) -> Result<u64, u32> {
        let all = (LONGEST - self.record[0]) as usize;
        let mut most = line_len(table);
        loop {
            let answer = self.append(most, |strings, buf, room, record, values| unsafe {
                raw::sise_put_tree(
                    strings.line_break.as_ptr(),
                    strings.line_break.len(),
                    strings.indentation.as_ptr(),
                    strings.indentation.len(),
                    buf,
                    room,
                    text.as_ptr(),
                    text.len(),
                    table.as_ptr(),
                    table.len(),
                    break_line_at,
                    record,
                    values,
                )
            });
            if answer != Err(22) || all <= most {
                return answer;
            }
            most = most.saturating_mul(2);
        }
    }

    #[inline]
    pub fn finish(&mut self, final_break: bool) -> Result<u64, u32> {
        let most = self.strings.line_break.len();
        self.append(most, |strings, buf, room, record, values| unsafe {
            raw::sise_finish_writing(
                strings.line_break.as_ptr(),
                strings.line_break.len(),
                strings.indentation.as_ptr(),
                strings.indentation.len(),
                buf,
                room,
                final_break,
                record,
                values,
            )
        })
    }

    #[inline]
    pub fn record(&self) -> &[u64; 9] {
        &self.record
    }

    /// The bytes of a line break and an indentation for each open list: no call writes more before its item.
    #[inline]
    fn new_line(&self) -> usize {
        let indents = (self.record[2] as usize).saturating_mul(self.strings.indentation.len());
        self.strings.line_break.len().saturating_add(indents)
    }

    /// Makes room for `most` bytes, or for all that a text may still have if that is less, and makes a call that writes there.
    #[inline]
    fn append(
        &mut self,
        most: usize,
        call: impl FnOnce(Strings, *mut u8, usize, &mut [u64; 9], &mut [u64; 2]) -> u32,
    ) -> Result<u64, u32> {
        let mut values = [0; 2];
        // The bytes are those of the text alone: `out` is borrowed as long as this is, and the length is set below. What is lent is the capacity from
        // `start` on, which nobody reads; an accepted call has written all of it up to the position that the record has then, and a refused one nothing.
        let bytes = unsafe { self.out.bytes() };
        bytes.reserve(most.min((LONGEST - self.record[0]) as usize));
        let room = bytes.capacity() - self.start;
        let buf = unsafe { bytes.as_mut_ptr().add(self.start) };
        let number = call(self.strings, buf, room, &mut self.record, &mut values);
        let end = self.record[0] as usize;
        assert!(end <= room, "a writer's position is inside of its buffer");
        unsafe { bytes.set_len(self.start + end) };
        match number {
            0 => Ok(values[0]),
            number => Err(number),
        }
    }
}

/// The bytes of a table's tree in one line, with a space before each node: of an atom one more than it has, of a list three.
fn line_len(table: &[u32]) -> usize {
    table
        .chunks_exact(4)
        .map(|node| match node[0] {
            0 => 3,
            _ => 1 + node[2] as usize,
        })
        .fold(0, usize::saturating_add)
}

/// The calls as the library has them: a slice is its first element's address and its length.
mod raw {
    extern "C" {
        pub fn sise_check_atom(atom: *const u8, atom_len: usize) -> u32;

        pub fn sise_atom_kind(atom: *const u8, atom_len: usize) -> u32;

        pub fn sise_next_item(
            text: *const u8,
            text_len: usize,
            record: *mut [u64; 3],
            item: *mut [u64; 3],
        ) -> u32;

        pub fn sise_next_tree(
            text: *const u8,
            text_len: usize,
            record: *mut [u64; 3],
            table: *mut u32,
            table_len: usize,
            values: *mut [u64; 2],
        ) -> u32;

        pub fn sise_finish_reading(
            text: *const u8,
            text_len: usize,
            record: *const [u64; 3],
            values: *mut [u64; 2],
        ) -> u32;

        pub fn sise_put_atom(
            line_break: *const u8,
            line_break_len: usize,
            indentation: *const u8,
            indentation_len: usize,
            buf: *mut u8,
            buf_len: usize,
            atom: *const u8,
            atom_len: usize,
            break_line_at: u64,
            record: *mut [u64; 9],
            values: *mut [u64; 2],
        ) -> u32;

        pub fn sise_begin_list(
            line_break: *const u8,
            line_break_len: usize,
            indentation: *const u8,
            indentation_len: usize,
            buf: *mut u8,
            buf_len: usize,
            break_line_at: u64,
            record: *mut [u64; 9],
            values: *mut [u64; 2],
        ) -> u32;

        pub fn sise_end_list(
            line_break: *const u8,
            line_break_len: usize,
            indentation: *const u8,
            indentation_len: usize,
            buf: *mut u8,
            buf_len: usize,
            record: *mut [u64; 9],
            values: *mut [u64; 2],
        ) -> u32;

        pub fn sise_put_tree(
            line_break: *const u8,
            line_break_len: usize,
            indentation: *const u8,
            indentation_len: usize,
            buf: *mut u8,
            buf_len: usize,
            text: *const u8,
            text_len: usize,
            table: *const u32,
            table_len: usize,
            break_line_at: u64,
            record: *mut [u64; 9],
            values: *mut [u64; 2],
        ) -> u32;

        pub fn sise_finish_writing(
            line_break: *const u8,
            line_break_len: usize,
            indentation: *const u8,
            indentation_len: usize,
            buf: *mut u8,
            buf_len: usize,
            final_break: bool,
            record: *mut [u64; 9],
            values: *mut [u64; 2],
        ) -> u32;

        pub fn sise_parse_tree(
            text: *const u8,
            text_len: usize,
            table: *mut u32,
            table_len: usize,
            values: *mut [u64; 2],
        ) -> u32;

        pub fn sise_index_path(
            table: *const u32,
            table_len: usize,
            text: *const u8,
            text_len: usize,
            path: *const u64,
            path_len: usize,
            values: *mut [u64; 2],
        ) -> u32;

        pub fn sise_find_path(
            table: *const u32,
            table_len: usize,
            text: *const u8,
            text_len: usize,
            path: *const u64,
            path_len: usize,
            values: *mut [u64; 2],
        ) -> u32;

        pub fn sise_serialize_tree(
            line_break: *const u8,
            line_break_len: usize,
            indentation: *const u8,
            indentation_len: usize,
            buf: *mut u8,
            buf_len: usize,
            text: *const u8,
            text_len: usize,
            table: *const u32,
            table_len: usize,
            break_line_at: u64,
            final_break: bool,
            values: *mut [u64; 2],
        ) -> u32;

        pub fn sise_measure_tree(
            line_break: *const u8,
            line_break_len: usize,
            indentation: *const u8,
            indentation_len: usize,
            buf_len: usize,
            text: *const u8,
            text_len: usize,
            table: *const u32,
            table_len: usize,
            break_line_at: u64,
            final_break: bool,
            size: *mut [u64; 3],
        ) -> u32;

        pub fn sise_commit_tree(
            line_break: *const u8,
            line_break_len: usize,
            indentation: *const u8,
            indentation_len: usize,
            buf: *mut u8,
            buf_len: usize,
            text: *const u8,
            text_len: usize,
            table: *const u32,
            table_len: usize,
            break_line_at: u64,
            final_break: bool,
            size: *const [u64; 3],
            values: *mut [u64; 2],
        ) -> u32;

        pub fn sise_read_items(
            text: *const u8,
            text_len: usize,
            words: *mut u64,
            words_len: usize,
            values: *mut [u64; 2],
        ) -> u32;

        pub fn sise_write_calls(
            words: *const u64,
            words_len: usize,
            atoms: *const u8,
            atoms_len: usize,
            line_break: *const u8,
            line_break_len: usize,
            indentation: *const u8,
            indentation_len: usize,
            buf: *mut u8,
            buf_len: usize,
            answers: *mut u64,
            answers_len: usize,
            ran: *mut [u64; 1],
        ) -> u64;
    }
}
