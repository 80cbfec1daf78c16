use crate::ffi::Writing;

/// How a text is laid out. Both strings are written as they are; the text reads back if they are
/// blank (space, tab, LF, CR) and the line break is not empty.
#[derive(Copy, Clone, Debug, PartialEq, Eq)]
pub struct SerializerStyle<'a> {
    /// What ends a line
    pub line_break: &'a str,
    /// What stands at a line's beginning, once for each list that is open there
    pub indentation: &'a str,
}

/// Writes a text call by call, in one line or in many.
///
/// # Example
///
/// All in one line:
///
/// ```
/// let style = sise::SerializerStyle {
///     line_break: "\n",
///     indentation: " ",
/// };
///
/// let mut result = String::new();
/// let mut serializer = sise::Serializer::new(style, &mut result);
///
/// serializer.begin_list(usize::MAX);
/// serializer.put_atom("example", usize::MAX);
/// serializer.begin_list(usize::MAX);
/// serializer.put_atom("1", usize::MAX);
/// serializer.put_atom("2", usize::MAX);
/// serializer.put_atom("3", usize::MAX);
/// serializer.end_list();
/// serializer.begin_list(usize::MAX);
/// serializer.put_atom("a", usize::MAX);
/// serializer.put_atom("b", usize::MAX);
/// serializer.put_atom("c", usize::MAX);
/// serializer.end_list();
/// serializer.end_list();
/// serializer.finish(false);
///
/// let expected_result = "(example (1 2 3) (a b c))";
/// assert_eq!(result, expected_result);
/// ```
///
/// A line for each item:
///
/// ```
/// let style = sise::SerializerStyle {
///     line_break: "\n",
///     indentation: " ",
/// };
///
/// let mut result = String::new();
/// let mut serializer = sise::Serializer::new(style, &mut result);
///
/// serializer.begin_list(usize::MAX);
/// serializer.put_atom("example", 0);
/// serializer.begin_list(0);
/// serializer.put_atom("1", 0);
/// serializer.put_atom("2", 0);
/// serializer.put_atom("3", 0);
/// serializer.end_list();
/// serializer.begin_list(0);
/// serializer.put_atom("a", 0);
/// serializer.put_atom("b", 0);
/// serializer.put_atom("c", 0);
/// serializer.end_list();
/// serializer.end_list();
/// serializer.finish(true);
///
/// let expected_result = "(\n example\n (\n  1\n  2\n  3\n )\n (\n  a\n  b\n  c\n )\n)\n";
/// assert_eq!(result, expected_result);
/// ```
///
/// Some items in one line with what is before them:
///
/// ```
/// let style = sise::SerializerStyle {
///     line_break: "\n",
///     indentation: " ",
/// };
///
/// let mut result = String::new();
/// let mut serializer = sise::Serializer::new(style, &mut result);
///
/// serializer.begin_list(0);
/// serializer.put_atom("example", usize::MAX);
/// serializer.begin_list(0);
/// // Write the three atoms in a single line.
/// serializer.put_atom("1", usize::MAX);
/// serializer.put_atom("2", usize::MAX);
/// serializer.put_atom("3", usize::MAX);
/// serializer.end_list();
/// serializer.begin_list(0);
/// // Write the three atoms in a single line.
/// serializer.put_atom("a", usize::MAX);
/// serializer.put_atom("b", usize::MAX);
/// serializer.put_atom("c", usize::MAX);
/// serializer.end_list();
/// serializer.end_list();
/// serializer.finish(true);
///
/// let expected_result = "(example\n (1 2 3)\n (a b c)\n)\n";
/// assert_eq!(result, expected_result);
/// ```
///
/// # Panics
///
/// Where the crate sise panics, and with its words. Each call also panics where the text would
/// pass 16,777,216 bytes, the most that the proved library writes, with "writing past 16777216
/// bytes"; the string is then as it was before the call. What `out` held at first does not
/// count.
pub struct Serializer<'a, 'b> {
    writing: Writing<'a, 'b, String>,
}

impl<'a, 'b> Serializer<'a, 'b> {
    /// A writer that appends to `out`.
    #[inline]
    pub fn new(style: SerializerStyle<'a>, out: &'b mut String) -> Self {
        let writing = Writing::<String>::new(style.line_break, style.indentation, out);
        Self { writing }
    }

    /// Writes an atom, on a new line if the line so far has `break_line_at` bytes or more.
    ///
    /// # Panics
    ///
    /// With "invalid atom" and the atom, if [`check_atom`](crate::check_atom) says no, and with
    /// "writing already finished", if the text's one node is whole.
    #[inline]
    pub fn put_atom(&mut self, atom: &str, break_line_at: usize) {
        match self.writing.put_atom(atom.as_bytes(), break_line_at as u64) {
            Ok(_) => {}
            Err(17) => invalid(atom),
            Err(number) => refused(number),
        }
    }

    /// Writes a list's `(`, on a new line if the line so far has `break_line_at` bytes or more.
    ///
    /// # Panics
    ///
    /// With "writing already finished", if the text's one node is whole.
    #[inline]
    pub fn begin_list(&mut self, break_line_at: usize) {
        if let Err(number) = self.writing.begin_list(break_line_at as u64) {
            refused(number);
        }
    }

    /// Writes a list's `)`, on a new line if a line was broken in the list.
    ///
    /// # Panics
    ///
    /// With "no list to end", if nothing has been written yet, and with "writing already
    /// finished", if the text's one node is whole.
    #[inline]
    pub fn end_list(&mut self) {
        if let Err(number) = self.writing.end_list() {
            refused(number);
        }
    }

    /// Writes the tree of a table over a text, if the library does not refuse it.
    pub(crate) fn put_tree(&mut self, text: &[u8], table: &[u32], break_line_at: usize) -> bool {
        self.writing
            .put_tree(text, table, break_line_at as u64)
            .is_ok()
    }

    /// Ends the text, with a line break behind it if one is wished for.
    ///
    /// # Panics
    ///
    /// With "writing not finished yet", if the text is not one whole node.
    #[inline]
    pub fn finish(mut self, insert_line_break: bool) {
        if let Err(number) = self.writing.finish(insert_line_break) {
            refused(number);
        }
    }
}

#[cold]
fn invalid(atom: &str) -> ! {
    panic!("invalid atom {atom:?}")
}

/// The crate's panic for a refusal.
#[cold]
fn refused(number: u32) -> ! {
    match number {
        18 => panic!("no list to end"),
        19 => panic!("writing already finished"),
        20 => panic!("writing not finished yet"),
        22 => panic!("writing past 16777216 bytes"),
        _ => unreachable!("a writer's own call is not refused with {number}"),
    }
}
