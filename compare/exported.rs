//! The calls that the static libraries sise_c and sise_singly export. A slice crosses as its first element's address and its length; it has to outlive the
//! call, and nobody else may hold one that the call writes. `values` are two words, `size` three, `ran` is one; a reader's record is three, an item three, a writer's nine.

extern "C" {
    pub fn sise_check_atom(atom: *const u8, atom_len: usize) -> u32;

    pub fn sise_atom_kind(atom: *const u8, atom_len: usize) -> u32;

    pub fn sise_count_items(text: *const u8, text_len: usize) -> u64;

    pub fn sise_parse_tree(
        text: *const u8,
        text_len: usize,
        table: *mut u32,
        table_len: usize,
        values: *mut u64,
    ) -> u32;

    pub fn sise_index_path(
        table: *const u32,
        table_len: usize,
        text: *const u8,
        text_len: usize,
        path: *const u64,
        path_len: usize,
        values: *mut u64,
    ) -> u32;

    pub fn sise_find_path(
        table: *const u32,
        table_len: usize,
        text: *const u8,
        text_len: usize,
        path: *const u64,
        path_len: usize,
        values: *mut u64,
    ) -> u32;

    pub fn sise_serialize_tree(
        line_break: *const u8,
        line_break_len: usize,
        indentation: *const u8,
        indentation_len: usize,
        buf: *mut u8,
        buf_len: usize,
        text: *const u8,
        text_len: usize,
        table: *const u32,
        table_len: usize,
        break_line_at: u64,
        final_break: bool,
        values: *mut u64,
    ) -> u32;

    pub fn sise_measure_tree(
        line_break: *const u8,
        line_break_len: usize,
        indentation: *const u8,
        indentation_len: usize,
        buf_len: usize,
        text: *const u8,
        text_len: usize,
        table: *const u32,
        table_len: usize,
        break_line_at: u64,
        final_break: bool,
        size: *mut u64,
    ) -> u32;

    pub fn sise_commit_tree(
        line_break: *const u8,
        line_break_len: usize,
        indentation: *const u8,
        indentation_len: usize,
        buf: *mut u8,
        buf_len: usize,
        text: *const u8,
        text_len: usize,
        table: *const u32,
        table_len: usize,
        break_line_at: u64,
        final_break: bool,
        size: *const u64,
        values: *mut u64,
    ) -> u32;

    pub fn sise_read_items(
        text: *const u8,
        text_len: usize,
        words: *mut u64,
        words_len: usize,
        values: *mut u64,
    ) -> u32;

    pub fn sise_write_calls(
        words: *const u64,
        words_len: usize,
        atoms: *const u8,
        atoms_len: usize,
        line_break: *const u8,
        line_break_len: usize,
        indentation: *const u8,
        indentation_len: usize,
        buf: *mut u8,
        buf_len: usize,
        answers: *mut u64,
        answers_len: usize,
        ran: *mut u64,
    ) -> u64;

    pub fn sise_next_item(
        text: *const u8,
        text_len: usize,
        record: *mut u64,
        item: *mut u64,
    ) -> u32;

    pub fn sise_next_tree(
        text: *const u8,
        text_len: usize,
        record: *mut u64,
        table: *mut u32,
        table_len: usize,
        values: *mut u64,
    ) -> u32;

    pub fn sise_finish_reading(
        text: *const u8,
        text_len: usize,
        record: *const u64,
        values: *mut u64,
    ) -> u32;

    pub fn sise_put_atom(
        line_break: *const u8,
        line_break_len: usize,
        indentation: *const u8,
        indentation_len: usize,
        buf: *mut u8,
        buf_len: usize,
        atom: *const u8,
        atom_len: usize,
        break_line_at: u64,
        record: *mut u64,
        values: *mut u64,
    ) -> u32;

    pub fn sise_begin_list(
        line_break: *const u8,
        line_break_len: usize,
        indentation: *const u8,
        indentation_len: usize,
        buf: *mut u8,
        buf_len: usize,
        break_line_at: u64,
        record: *mut u64,
        values: *mut u64,
    ) -> u32;

    pub fn sise_end_list(
        line_break: *const u8,
        line_break_len: usize,
        indentation: *const u8,
        indentation_len: usize,
        buf: *mut u8,
        buf_len: usize,
        record: *mut u64,
        values: *mut u64,
    ) -> u32;

    pub fn sise_put_tree(
        line_break: *const u8,
        line_break_len: usize,
        indentation: *const u8,
        indentation_len: usize,
        buf: *mut u8,
        buf_len: usize,
        text: *const u8,
        text_len: usize,
        table: *const u32,
        table_len: usize,
        break_line_at: u64,
        record: *mut u64,
        values: *mut u64,
    ) -> u32;

    pub fn sise_finish_writing(
        line_break: *const u8,
        line_break_len: usize,
        indentation: *const u8,
        indentation_len: usize,
        buf: *mut u8,
        buf_len: usize,
        final_break: bool,
        record: *mut u64,
        values: *mut u64,
    ) -> u32;

    pub fn sise_write_calls_singly(
        words: *const u64,
        words_len: usize,
        atoms: *const u8,
        atoms_len: usize,
        line_break: *const u8,
        line_break_len: usize,
        indentation: *const u8,
        indentation_len: usize,
        buf: *mut u8,
        buf_len: usize,
        answers: *mut u64,
        answers_len: usize,
    ) -> u64;
}
