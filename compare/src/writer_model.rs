//! Document 01's rules for the writer, as they stand there, without the depth limit that request 2.6 takes away.

use crate::atoms::is_atom;
use crate::writing::{Call, Style};

const LIMIT: usize = 16_777_216;

/// The numbers are the script's.
#[derive(Clone, Copy, Debug, PartialEq, Eq)]
pub enum Phase {
    Beginning = 0,
    Writing = 1,
    Finished = 2,
    Done = 3,
}

/// The record, and the text in place of a position in a buffer.
#[derive(Clone, Debug, PartialEq, Eq)]
pub struct Model {
    style: Style,
    room: usize,
    pub text: Vec<u8>,
    pub phase: Phase,
    /// The broken flag of each open list, outermost first, as the crate has them.
    pub flags: Vec<bool>,
    pub list_beginning: bool,
    pub line_len: usize,
    pub spaces: usize,
    pub breaks: usize,
    pub indents: usize,
}

impl Model {
    pub fn new(style: Style, room: usize) -> Self {
        Self {
            style,
            room,
            text: Vec::new(),
            phase: Phase::Beginning,
            flags: Vec::new(),
            list_beginning: false,
            line_len: 0,
            spaces: 0,
            breaks: 0,
            indents: 0,
        }
    }

    /// The offset of what the call wrote, or the number of its refusal, which leaves the model as it was.
    pub fn call(&mut self, call: &Call) -> Result<usize, u8> {
        if let Some(number) = self.refusal(call) {
            return Err(number);
        }
        let mut after = self.clone();
        let offset = after.write(call);
        if after.text.len() > self.room.min(LIMIT) {
            return Err(22);
        }
        *self = after;
        Ok(offset)
    }

    /// 17 to 20, in the order in which they go before each other.
    fn refusal(&self, call: &Call) -> Option<u8> {
        let ended = matches!(self.phase, Phase::Finished | Phase::Done);
        match call {
            Call::PutAtom(atom, _) if !is_atom(atom) => Some(17),
            Call::PutAtom(..) | Call::BeginList(_) if ended => Some(19),
            Call::EndList if self.phase == Phase::Beginning => Some(18),
            Call::EndList if ended => Some(19),
            Call::Finish(_) if self.phase == Phase::Done => Some(19),
            Call::Finish(_) if self.phase != Phase::Finished => Some(20),
            _ => None,
        }
    }

    fn write(&mut self, call: &Call) -> usize {
        match call {
            Call::PutAtom(atom, threshold) => {
                if self.phase == Phase::Beginning {
                    self.phase = Phase::Finished;
                    return self.put(atom);
                }
                let offset = self.put_in_list(atom, *threshold);
                self.list_beginning = false;
                offset
            }
            Call::BeginList(threshold) => self.begin_list(*threshold),
            Call::EndList => self.end_list(),
            Call::Finish(wish) => {
                self.phase = Phase::Done;
                if *wish {
                    self.put_break();
                }
                // No item: its offset is where the text ends.
                self.text.len()
            }
        }
    }

    fn put(&mut self, bytes: &[u8]) -> usize {
        let offset = self.text.len();
        self.text.extend_from_slice(bytes);
        offset
    }

    fn put_break(&mut self) {
        self.put(self.style.line_break.as_bytes());
        self.breaks += 1;
    }

    /// A line break and so many indentations, which restart the line length.
    fn new_line(&mut self, indentations: usize) {
        self.put_break();
        self.line_len = 0;
        for _ in 0..indentations {
            self.put(self.style.indentation.as_bytes());
            self.line_len += self.style.indentation.len();
        }
        self.indents += indentations;
    }

    fn put_in_list(&mut self, item: &[u8], threshold: u64) -> usize {
        if (self.line_len as u64) < threshold {
            if !self.list_beginning {
                self.put(b" ");
                self.spaces += 1;
                self.line_len += 1;
            }
        } else {
            self.new_line(self.flags.len());
            if let Some(innermost) = self.flags.last_mut() {
                *innermost = true;
            }
        }
        self.line_len += item.len();
        self.put(item)
    }

    fn begin_list(&mut self, threshold: u64) -> usize {
        let offset = if self.phase == Phase::Beginning {
            self.phase = Phase::Writing;
            self.line_len = 1;
            self.put(b"(")
        } else {
            self.put_in_list(b"(", threshold)
        };
        self.list_beginning = true;
        self.flags.push(false);
        offset
    }

    fn end_list(&mut self) -> usize {
        let was_broken = self.flags.pop() == Some(true);
        if was_broken {
            self.new_line(self.flags.len());
        }
        match self.flags.last_mut() {
            Some(parent) => *parent |= was_broken,
            None => self.phase = Phase::Finished,
        }
        self.line_len += 1;
        self.list_beginning = false;
        self.put(b")")
    }

    /// The one number in place of the flags: how many of the open lists, counted from the outermost, have a break in them or in a list inside them.
    pub fn broken(&self) -> usize {
        self.flags.iter().rposition(|&on| on).map_or(0, |at| at + 1)
    }

    /// The record as a line of replay has it.
    pub fn record(&self) -> String {
        format!(
            " | {} {} {} {} {} {} {} {} {}\n",
            self.text.len(),
            self.phase as u8,
            self.flags.len(),
            u8::from(self.list_beginning),
            self.line_len,
            self.spaces,
            self.breaks,
            self.indents,
            self.broken()
        )
    }
}
