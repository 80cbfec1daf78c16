//! A case for the reader, the answers a reader gives to its calls, and the calls made one after the other.

use crate::differences::Described;

/// A text, how often `next_item` is called on a fresh reader over it, and whether `finish` is called last.
pub struct Case {
    pub text: Vec<u8>,
    pub calls: usize,
    pub finish: bool,
}

impl Described for Case {
    fn describe(&self) -> String {
        let finish = if self.finish { ", then finish" } else { "" };
        let (len, text) = (self.text.len(), self.text.escape_ascii());
        let calls = self.calls;
        format!("text of {len} bytes: {text}\ncalls: {calls} next_item{finish}\n")
    }
}

/// The numbers are the script's.
#[derive(Clone, Copy, Debug, PartialEq, Eq)]
pub enum Phase {
    Beginning = 0,
    Parsing = 1,
    Finishing = 2,
}

#[derive(Clone, Copy, Debug, PartialEq, Eq)]
pub struct Record {
    pub position: usize,
    pub phase: Phase,
    pub lists: usize,
}

#[derive(Clone, Copy, Debug, PartialEq, Eq)]
pub enum Item<'a> {
    ListStart(usize),
    Atom(usize, &'a [u8]),
    ListEnd(usize),
}

/// A refusal by document 01's number; place and code are 0 where it has none.
#[derive(Clone, Copy, Debug, PartialEq, Eq)]
pub struct Refusal {
    pub number: u8,
    pub place: usize,
    pub code: u32,
}

impl Refusal {
    /// 9 to 11: neither place nor code.
    pub fn bare(number: u8) -> Self {
        Self::at(number, 0)
    }

    /// 4 to 8: a place alone.
    pub fn at(number: u8, place: usize) -> Self {
        Self {
            number,
            place,
            code: 0,
        }
    }
}

pub type Answer<'a> = Result<Item<'a>, Refusal>;

pub trait Reader<'a> {
    fn next_item(&mut self) -> Answer<'a>;
    fn record(&self) -> Record;
    fn finish(self) -> Result<(), Refusal>;
}

/// What the calls of a case gave: each `next_item` with the record after it, then `finish`, if it was called.
#[derive(PartialEq, Eq)]
pub struct Reading<'a> {
    pub items: Vec<(Answer<'a>, Record)>,
    pub finish: Option<Result<(), Refusal>>,
}

impl<'a> Reading<'a> {
    pub fn of(case: &Case, mut reader: impl Reader<'a>) -> Self {
        let items = (0..case.calls)
            .map(|_| {
                let answer = reader.next_item();
                (answer, reader.record())
            })
            .collect();
        let finish = case.finish.then(|| reader.finish());
        Self { items, finish }
    }
}
