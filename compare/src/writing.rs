//! A case for the writer: calls into one buffer, and the script's form of it.

use crate::differences::Described;

#[derive(Clone, Debug, PartialEq, Eq)]
pub enum Call {
    PutAtom(Vec<u8>, u64),
    BeginList(u64),
    EndList,
    Finish(bool),
}

#[derive(Clone, Copy, Debug, PartialEq, Eq)]
pub struct Style {
    pub line_break: &'static str,
    pub indentation: &'static str,
}

pub struct WriterCase {
    pub style: Style,
    /// The buffer's length.
    pub room: usize,
    pub calls: Vec<Call>,
}

/// The largest buffer that replay takes.
pub const LARGEST_ROOM: usize = 4096;

/// A number of 64 bits in a script, where 999999999 stands for the largest.
pub fn number(threshold: u64) -> u64 {
    if threshold == u64::MAX {
        999_999_999
    } else {
        threshold
    }
}

pub fn put_case(out: &mut Vec<u8>, case: &WriterCase) {
    let Style {
        line_break,
        indentation,
    } = case.style;
    let (room, calls) = (case.room, case.calls.len());
    let (b, i) = (line_break.len(), indentation.len());
    let header = format!("W {room} {b} {i} {calls}\n{line_break}{indentation}\n");
    out.extend_from_slice(header.as_bytes());
    for call in &case.calls {
        put_call(out, call);
    }
}

fn put_call(out: &mut Vec<u8>, call: &Call) {
    let line = match call {
        Call::PutAtom(atom, threshold) => format!("A {} {}\n", atom.len(), number(*threshold)),
        Call::BeginList(threshold) => format!("( {}\n", number(*threshold)),
        Call::EndList => String::from(") 0\n"),
        Call::Finish(wish) => format!("F {}\n", u8::from(*wish)),
    };
    out.extend_from_slice(line.as_bytes());
    if let Call::PutAtom(atom, _) = call {
        out.extend_from_slice(atom);
        out.push(b'\n');
    }
}

/// How much of a script the case takes at most.
pub fn size(case: &WriterCase) -> usize {
    let calls = case.calls.iter().map(|call| match call {
        Call::PutAtom(atom, _) => atom.len() + 32,
        _ => 16,
    });
    calls.sum::<usize>() + 64
}

impl Described for WriterCase {
    fn describe(&self) -> String {
        let mut script = Vec::new();
        put_case(&mut script, self);
        format!(
            "{:?}, script: {}\n",
            self.style,
            String::from_utf8_lossy(&script)
        )
    }
}
