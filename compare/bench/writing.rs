//! Writing: the same list of calls by the library, all in one or each by its method, and by the crate's `Serializer`.

use crate::exported::{sise_write_calls, sise_write_calls_singly};
use crate::parser::{ParsedItem, Parser};
use crate::serializer::{Serializer, SerializerStyle};

pub const STYLE: SerializerStyle<'static> = SerializerStyle {
    line_break: "\n",
    indentation: "  ",
};

enum Call<'a> {
    PutAtom(&'a str),
    BeginList,
    EndList,
}

/// The calls that write a text's items again at one threshold, for both sides, and the memory that both write into.
pub struct Writing<'a> {
    threshold: usize,
    calls: Vec<Call<'a>>,
    words: Vec<u64>,
    atoms: Vec<u8>,
    buffer: Vec<u8>,
    answers: Vec<u64>,
    out: String,
}

impl<'a> Writing<'a> {
    pub fn new(text: &'a str, threshold: usize) -> Self {
        let mut writing = Self {
            threshold,
            calls: Vec::new(),
            words: Vec::new(),
            atoms: Vec::new(),
            buffer: vec![0; 3 * text.len() + 64],
            answers: Vec::new(),
            out: String::with_capacity(3 * text.len() + 64),
        };
        let mut parser = Parser::new(text);
        let mut open = 0u64;
        while let Ok(item) = parser.next_item() {
            match item {
                ParsedItem::ListStart(_) => open += 1,
                ParsedItem::ListEnd(_) => open -= 1,
                ParsedItem::Atom(..) => {}
            }
            writing.add(item);
            if open == 0 {
                break;
            }
        }
        writing.words.extend([4, 0, 0, 0]);
        writing.answers.resize(writing.words.len() / 4, 0);
        writing
    }

    fn add(&mut self, item: ParsedItem<'a>) {
        let threshold = self.threshold as u64;
        match item {
            ParsedItem::ListStart(_) => {
                self.calls.push(Call::BeginList);
                self.words.extend([1, 0, 0, threshold]);
            }
            ParsedItem::ListEnd(_) => {
                self.calls.push(Call::EndList);
                self.words.extend([2, 0, 0, 0]);
            }
            ParsedItem::Atom(atom, _) => {
                self.calls.push(Call::PutAtom(atom));
                let place = self.atoms.len() as u64;
                self.words.extend([0, place, atom.len() as u64, threshold]);
                self.atoms.extend_from_slice(atom.as_bytes());
            }
        }
    }

    pub fn calls(&self) -> usize {
        self.answers.len()
    }

    /// All calls in one, or each by the writer's method of its own.
    pub fn by_library(&mut self, singly: bool) -> u64 {
        if singly {
            return self.by_methods();
        }
        let mut ran = 0;
        // All slices outlive the call, and those that it writes are borrowed by nobody else.
        unsafe {
            sise_write_calls(
                self.words.as_ptr(),
                self.words.len(),
                self.atoms.as_ptr(),
                self.atoms.len(),
                STYLE.line_break.as_ptr(),
                STYLE.line_break.len(),
                STYLE.indentation.as_ptr(),
                STYLE.indentation.len(),
                self.buffer.as_mut_ptr(),
                self.buffer.len(),
                self.answers.as_mut_ptr(),
                self.answers.len(),
                &mut ran,
            )
        }
    }

    fn by_methods(&mut self) -> u64 {
        // As above.
        unsafe {
            sise_write_calls_singly(
                self.words.as_ptr(),
                self.words.len(),
                self.atoms.as_ptr(),
                self.atoms.len(),
                STYLE.line_break.as_ptr(),
                STYLE.line_break.len(),
                STYLE.indentation.as_ptr(),
                STYLE.indentation.len(),
                self.buffer.as_mut_ptr(),
                self.buffer.len(),
                self.answers.as_mut_ptr(),
                self.answers.len(),
            )
        }
    }

    pub fn by_crate(&mut self) -> u64 {
        self.out.clear();
        let mut serializer = Serializer::new(STYLE, &mut self.out);
        for call in &self.calls {
            match call {
                Call::PutAtom(atom) => serializer.put_atom(atom, self.threshold),
                Call::BeginList => serializer.begin_list(self.threshold),
                Call::EndList => serializer.end_list(),
            }
        }
        serializer.finish(true);
        self.out.len() as u64
    }

    /// Both sides wrote the same text, the library in either way.
    pub fn agrees(&mut self) -> bool {
        self.by_crate();
        [false, true].into_iter().all(|singly| {
            self.buffer.fill(0);
            let n = self.by_library(singly) as usize;
            self.buffer[..n] == *self.out.as_bytes()
        })
    }
}
