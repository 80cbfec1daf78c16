//! The exported calls, each on copies of its slices in guarded memory.

use crate::answers::{refused, Reported};
use crate::exported::{
    sise_atom_kind, sise_begin_list, sise_check_atom, sise_commit_tree, sise_count_items,
    sise_end_list, sise_find_path, sise_finish_reading, sise_finish_writing, sise_index_path,
    sise_measure_tree, sise_next_item, sise_next_tree, sise_parse_tree, sise_put_atom,
    sise_put_tree, sise_read_items, sise_serialize_tree, sise_write_calls, sise_write_calls_singly,
};
use crate::guard::{Edge, Region};

#[derive(Clone)]
pub struct Style {
    pub line_break: Vec<u8>,
    pub indentation: Vec<u8>,
}

/// A list of the writer's calls as words, and the answers' words before it runs.
#[derive(Clone)]
pub struct Script {
    pub words: Vec<u64>,
    pub atoms: Vec<u8>,
    pub style: Style,
    pub answers: Vec<u64>,
}

/// One of the writer's calls, with the atom, the threshold or the wish for a break that it takes.
pub enum Call {
    PutAtom { atom: Vec<u8>, break_line_at: u64 },
    BeginList { break_line_at: u64 },
    EndList,
    Finish { final_break: bool },
}

/// What a list of calls leaves.
#[derive(PartialEq)]
pub struct Wrote {
    /// How many calls ran, where the call says so.
    pub ran: Option<u64>,
    pub position: u64,
    pub buffer: Vec<u8>,
    pub answers: Vec<u64>,
}

/// Bytes, line breaks and indentations.
pub type Size = [u64; 3];

/// What an enquiry leaves.
#[derive(Clone, Copy, PartialEq)]
pub struct Measured {
    pub number: u32,
    pub size: Size,
}

impl Measured {
    /// The bytes, or the refusal.
    pub fn answer(&self) -> u64 {
        match self.number {
            0 => self.size[0],
            number => refused(u64::from(number)),
        }
    }
}

impl Wrote {
    /// The same, but for how many calls ran.
    pub fn same(&self, other: &Self) -> bool {
        (self.position, &self.buffer, &self.answers)
            == (other.position, &other.buffer, &other.answers)
    }
}

/// Memory for each slice that a call takes.
pub struct Calls {
    pub made: u64,
    text: Region,
    words: Region,
    line_break: Region,
    indentation: Region,
    table: Region,
    filled: Region,
    buffer: Region,
    answers: Region,
    record: Region,
    read: Region,
    values: Region,
}

/// A call that follows a path.
type LookUp =
    unsafe extern "C" fn(*const u32, usize, *const u8, usize, *const u64, usize, *mut u64) -> u32;

/// Two words that no call reports.
const BEFORE: [u64; 2] = [u64::MAX; 2];

fn reported(number: u32, values: &[u64]) -> Reported {
    Reported {
        number,
        values: values.try_into().expect("two words were lent"),
    }
}

impl Calls {
    pub fn new() -> Self {
        Self {
            made: 0,
            text: Region::read_only(),
            words: Region::read_only(),
            line_break: Region::read_only(),
            indentation: Region::read_only(),
            table: Region::read_only(),
            filled: Region::writable(),
            buffer: Region::writable(),
            answers: Region::writable(),
            record: Region::writable(),
            read: Region::read_only(),
            values: Region::writable(),
        }
    }

    pub fn check_atom(&mut self, atom: &[u8], edge: Edge) -> u32 {
        self.made += 1;
        let atom = self.text.lend(atom, edge);
        // Here and below, the lent slices outlive the call, and no two are of one region.
        unsafe { sise_check_atom(atom.first(), atom.len()) }
    }

    pub fn atom_kind(&mut self, atom: &[u8], edge: Edge) -> u32 {
        self.made += 1;
        let atom = self.text.lend(atom, edge);
        unsafe { sise_atom_kind(atom.first(), atom.len()) }
    }

    pub fn count_items(&mut self, text: &[u8], edge: Edge) -> u64 {
        self.made += 1;
        let text = self.text.lend(text, edge);
        unsafe { sise_count_items(text.first(), text.len()) }
    }

    /// The answer, and the table after the call.
    pub fn parse_tree(&mut self, text: &[u8], table: &[u32], edge: Edge) -> (Reported, Vec<u32>) {
        self.made += 1;
        let text = self.text.lend(text, edge);
        let table = self.filled.lend(table, edge);
        let values = self.values.lend(&BEFORE, edge);
        let number = unsafe {
            sise_parse_tree(
                text.first(),
                text.len(),
                table.first(),
                table.len(),
                values.first(),
            )
        };
        (reported(number, &values.values()), table.values())
    }

    pub fn index_path(&mut self, text: &[u8], table: &[u32], path: &[u64], edge: Edge) -> Reported {
        self.look_up(sise_index_path, text, table, path, edge)
    }

    pub fn find_path(&mut self, text: &[u8], table: &[u32], path: &[u64], edge: Edge) -> Reported {
        self.look_up(sise_find_path, text, table, path, edge)
    }

    fn look_up(
        &mut self,
        call: LookUp,
        text: &[u8],
        table: &[u32],
        path: &[u64],
        edge: Edge,
    ) -> Reported {
        self.made += 1;
        let text = self.text.lend(text, edge);
        let table = self.table.lend(table, edge);
        let path = self.words.lend(path, edge);
        let values = self.values.lend(&BEFORE, edge);
        let number = unsafe {
            call(
                table.first(),
                table.len(),
                text.first(),
                text.len(),
                path.first(),
                path.len(),
                values.first(),
            )
        };
        reported(number, &values.values())
    }

    /// The answer, and the buffer after the call.
    pub fn serialize_tree(
        &mut self,
        style: &Style,
        buffer: &[u8],
        text: &[u8],
        table: &[u32],
        break_line_at: u64,
        final_break: bool,
        edge: Edge,
    ) -> (Reported, Vec<u8>) {
        self.made += 1;
        let line_break = self.line_break.lend(&style.line_break, edge);
        let indentation = self.indentation.lend(&style.indentation, edge);
        let buffer = self.buffer.lend(buffer, edge);
        let text = self.text.lend(text, edge);
        let table = self.table.lend(table, edge);
        let values = self.values.lend(&BEFORE, edge);
        let number = unsafe {
            sise_serialize_tree(
                line_break.first(),
                line_break.len(),
                indentation.first(),
                indentation.len(),
                buffer.first(),
                buffer.len(),
                text.first(),
                text.len(),
                table.first(),
                table.len(),
                break_line_at,
                final_break,
                values.first(),
            )
        };
        (reported(number, &values.values()), buffer.values())
    }

    /// The number, and the three words of the size.
    pub fn measure_tree(
        &mut self,
        style: &Style,
        room: usize,
        text: &[u8],
        table: &[u32],
        break_line_at: u64,
        final_break: bool,
        edge: Edge,
    ) -> Measured {
        self.made += 1;
        let line_break = self.line_break.lend(&style.line_break, edge);
        let indentation = self.indentation.lend(&style.indentation, edge);
        let text = self.text.lend(text, edge);
        let table = self.table.lend(table, edge);
        let size = self.values.lend(&[u64::MAX; 3], edge);
        let number = unsafe {
            sise_measure_tree(
                line_break.first(),
                line_break.len(),
                indentation.first(),
                indentation.len(),
                room,
                text.first(),
                text.len(),
                table.first(),
                table.len(),
                break_line_at,
                final_break,
                size.first(),
            )
        };
        Measured {
            number,
            size: size.values().try_into().expect("three words were lent"),
        }
    }

    /// The answer, and the buffer after the call.
    pub fn commit_tree(
        &mut self,
        style: &Style,
        buffer: &[u8],
        text: &[u8],
        table: &[u32],
        break_line_at: u64,
        final_break: bool,
        size: &Size,
        edge: Edge,
    ) -> (Reported, Vec<u8>) {
        self.made += 1;
        let line_break = self.line_break.lend(&style.line_break, edge);
        let indentation = self.indentation.lend(&style.indentation, edge);
        let buffer = self.buffer.lend(buffer, edge);
        let text = self.text.lend(text, edge);
        let table = self.table.lend(table, edge);
        let size = self.words.lend(size, edge);
        let values = self.values.lend(&BEFORE, edge);
        let number = unsafe {
            sise_commit_tree(
                line_break.first(),
                line_break.len(),
                indentation.first(),
                indentation.len(),
                buffer.first(),
                buffer.len(),
                text.first(),
                text.len(),
                table.first(),
                table.len(),
                break_line_at,
                final_break,
                size.first(),
                values.first(),
            )
        };
        (reported(number, &values.values()), buffer.values())
    }

    /// The answer, and the words after the call.
    pub fn read_items(&mut self, text: &[u8], words: &[u64], edge: Edge) -> (Reported, Vec<u64>) {
        self.made += 1;
        let text = self.text.lend(text, edge);
        let words = self.answers.lend(words, edge);
        let values = self.values.lend(&BEFORE, edge);
        let number = unsafe {
            sise_read_items(
                text.first(),
                text.len(),
                words.first(),
                words.len(),
                values.first(),
            )
        };
        (reported(number, &values.values()), words.values())
    }

    /// All calls in one, or each by the writer's method of its own.
    pub fn write(&mut self, script: &Script, buffer: &[u8], singly: bool, edge: Edge) -> Wrote {
        self.made += 1;
        let words = self.words.lend(&script.words, edge);
        let atoms = self.text.lend(&script.atoms, edge);
        let line_break = self.line_break.lend(&script.style.line_break, edge);
        let indentation = self.indentation.lend(&script.style.indentation, edge);
        let buffer = self.buffer.lend(buffer, edge);
        let answers = self.answers.lend(&script.answers, edge);
        let ran = self.values.lend(&BEFORE[..1], edge);
        let position = unsafe {
            if singly {
                sise_write_calls_singly(
                    words.first(),
                    words.len(),
                    atoms.first(),
                    atoms.len(),
                    line_break.first(),
                    line_break.len(),
                    indentation.first(),
                    indentation.len(),
                    buffer.first(),
                    buffer.len(),
                    answers.first(),
                    answers.len(),
                )
            } else {
                sise_write_calls(
                    words.first(),
                    words.len(),
                    atoms.first(),
                    atoms.len(),
                    line_break.first(),
                    line_break.len(),
                    indentation.first(),
                    indentation.len(),
                    buffer.first(),
                    buffer.len(),
                    answers.first(),
                    answers.len(),
                    ran.first(),
                )
            }
        };
        Wrote {
            ran: (!singly).then(|| ran.values()[0]),
            position,
            buffer: buffer.values(),
            answers: answers.values(),
        }
    }

    /// The number, the item's words, and the record's after the call.
    pub fn next_item(
        &mut self,
        text: &[u8],
        record: [u64; 3],
        edge: Edge,
    ) -> (u32, [u64; 3], [u64; 3]) {
        self.made += 1;
        let text = self.text.lend(text, edge);
        let record = self.record.lend(&record, edge);
        let item = self.values.lend(&[u64::MAX; 3], edge);
        let number =
            unsafe { sise_next_item(text.first(), text.len(), record.first(), item.first()) };
        (number, array(item.values()), array(record.values()))
    }

    /// The answer, and the record's words and the table after the call.
    pub fn next_tree(
        &mut self,
        text: &[u8],
        record: [u64; 3],
        table: &[u32],
        edge: Edge,
    ) -> (Reported, [u64; 3], Vec<u32>) {
        self.made += 1;
        let text = self.text.lend(text, edge);
        let record = self.record.lend(&record, edge);
        let table = self.filled.lend(table, edge);
        let values = self.values.lend(&BEFORE, edge);
        let number = unsafe {
            sise_next_tree(
                text.first(),
                text.len(),
                record.first(),
                table.first(),
                table.len(),
                values.first(),
            )
        };
        (
            reported(number, &values.values()),
            array(record.values()),
            table.values(),
        )
    }

    pub fn finish_reading(&mut self, text: &[u8], record: [u64; 3], edge: Edge) -> Reported {
        self.made += 1;
        let text = self.text.lend(text, edge);
        let record = self.read.lend(&record, edge);
        let values = self.values.lend(&BEFORE, edge);
        let number = unsafe {
            sise_finish_reading(text.first(), text.len(), record.first(), values.first())
        };
        reported(number, &values.values())
    }

    /// The answer, and the record's words and the buffer after the call.
    pub fn write_one(
        &mut self,
        call: &Call,
        style: &Style,
        buffer: &[u8],
        record: [u64; 9],
        edge: Edge,
    ) -> (Reported, [u64; 9], Vec<u8>) {
        self.made += 1;
        let line_break = self.line_break.lend(&style.line_break, edge);
        let indentation = self.indentation.lend(&style.indentation, edge);
        let buffer = self.buffer.lend(buffer, edge);
        let record = self.record.lend(&record, edge);
        let values = self.values.lend(&BEFORE, edge);
        let number = unsafe {
            match call {
                Call::PutAtom {
                    atom,
                    break_line_at,
                } => {
                    let atom = self.text.lend(atom, edge);
                    sise_put_atom(
                        line_break.first(),
                        line_break.len(),
                        indentation.first(),
                        indentation.len(),
                        buffer.first(),
                        buffer.len(),
                        atom.first(),
                        atom.len(),
                        *break_line_at,
                        record.first(),
                        values.first(),
                    )
                }
                Call::BeginList { break_line_at } => sise_begin_list(
                    line_break.first(),
                    line_break.len(),
                    indentation.first(),
                    indentation.len(),
                    buffer.first(),
                    buffer.len(),
                    *break_line_at,
                    record.first(),
                    values.first(),
                ),
                Call::EndList => sise_end_list(
                    line_break.first(),
                    line_break.len(),
                    indentation.first(),
                    indentation.len(),
                    buffer.first(),
                    buffer.len(),
                    record.first(),
                    values.first(),
                ),
                Call::Finish { final_break } => sise_finish_writing(
                    line_break.first(),
                    line_break.len(),
                    indentation.first(),
                    indentation.len(),
                    buffer.first(),
                    buffer.len(),
                    *final_break,
                    record.first(),
                    values.first(),
                ),
            }
        };
        (
            reported(number, &values.values()),
            array(record.values()),
            buffer.values(),
        )
    }

    /// The answer, and the record's words and the buffer after the call.
    pub fn put_tree(
        &mut self,
        style: &Style,
        buffer: &[u8],
        text: &[u8],
        table: &[u32],
        break_line_at: u64,
        record: [u64; 9],
        edge: Edge,
    ) -> (Reported, [u64; 9], Vec<u8>) {
        self.made += 1;
        let line_break = self.line_break.lend(&style.line_break, edge);
        let indentation = self.indentation.lend(&style.indentation, edge);
        let buffer = self.buffer.lend(buffer, edge);
        let text = self.text.lend(text, edge);
        let table = self.table.lend(table, edge);
        let record = self.record.lend(&record, edge);
        let values = self.values.lend(&BEFORE, edge);
        let number = unsafe {
            sise_put_tree(
                line_break.first(),
                line_break.len(),
                indentation.first(),
                indentation.len(),
                buffer.first(),
                buffer.len(),
                text.first(),
                text.len(),
                table.first(),
                table.len(),
                break_line_at,
                record.first(),
                values.first(),
            )
        };
        (
            reported(number, &values.values()),
            array(record.values()),
            buffer.values(),
        )
    }
}

/// As many words as were lent.
fn array<const N: usize>(words: Vec<u64>) -> [u64; N] {
    words.try_into().expect("so many words were lent")
}
