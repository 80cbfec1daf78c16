//! The crate's `Parser` as a reader of cases. A call on which it would panic isn't made: it is 9 or 10, and moves nothing.

use crate::parser::{ParseError, ParsedItem, Parser};
use crate::reading::{Answer, Item, Phase, Reader, Reading, Record, Refusal};
use crate::TreeNode;
use std::panic::{catch_unwind, AssertUnwindSafe};

pub struct Original<'a> {
    parser: Parser<'a>,
}

impl<'a> Original<'a> {
    pub fn new(text: &'a str) -> Self {
        Self {
            parser: Parser::new(text),
        }
    }

    /// The reader after so many calls of `next_item`.
    pub fn after(text: &'a str, calls: usize) -> Self {
        let mut reader = Self::new(text);
        for _ in 0..calls {
            // Only the state it leaves counts here.
            let _ = reader.next_item();
        }
        reader
    }

    /// `None` where the crate panics.
    pub fn parse_tree(&mut self) -> Option<Result<TreeNode, Refusal>> {
        let parse = AssertUnwindSafe(|| crate::parse_tree(&mut self.parser));
        catch_unwind(parse).ok().map(|found| found.map_err(refusal))
    }
}

impl<'a> Reader<'a> for Original<'a> {
    fn next_item(&mut self) -> Answer<'a> {
        if self.record().phase == Phase::Finishing {
            return Err(Refusal::bare(9));
        }
        self.parser.next_item().map(item).map_err(refusal)
    }

    fn record(&self) -> Record {
        self.parser.record()
    }

    fn finish(self) -> Result<(), Refusal> {
        if self.record().phase != Phase::Finishing {
            return Err(Refusal::bare(10));
        }
        self.parser.finish().map_err(refusal)
    }
}

fn item(found: ParsedItem<'_>) -> Item<'_> {
    match found {
        ParsedItem::Atom(atom, pos) => Item::Atom(pos, atom.as_bytes()),
        ParsedItem::ListStart(pos) => Item::ListStart(pos),
        ParsedItem::ListEnd(pos) => Item::ListEnd(pos),
    }
}

fn refusal(error: ParseError) -> Refusal {
    let character = |number, place, chr| Refusal {
        number,
        place,
        code: u32::from(chr),
    };
    match error {
        ParseError::IllegalChr { pos, chr } => character(1, pos, chr),
        ParseError::IllegalChrInString { pos, chr } => character(2, pos, chr),
        ParseError::IllegalChrInComment { pos, chr } => character(3, pos, chr),
        ParseError::UnfinishedString { pos } => Refusal::at(4, pos),
        ParseError::UnexpectedEof { pos } => Refusal::at(5, pos),
        ParseError::UnexpectedRightParen { pos } => Refusal::at(6, pos),
        ParseError::ExpectedEof { pos } => Refusal::at(7, pos),
    }
}

/// A text that isn't valid UTF-8, in a form the crate takes: each broken character, as the standard library cuts them off (a maximal subpart), is
/// replaced by a character of as many bytes that is wrong in every state. Where the crate refuses one of these, 8 is due.
pub struct Masked {
    pub text: String,
    /// By place: whether a replaced character begins there.
    replaced: Vec<bool>,
}

/// A character of one, two and three bytes.
const MASKS: [char; 3] = ['\u{1}', '\u{80}', '\u{800}'];

impl Masked {
    pub fn new(bytes: &[u8]) -> Self {
        let mut text = String::with_capacity(bytes.len());
        let mut replaced = vec![false; bytes.len()];
        for chunk in bytes.utf8_chunks() {
            text += chunk.valid();
            if !chunk.invalid().is_empty() {
                replaced[text.len()] = true;
                text.push(MASKS[chunk.invalid().len() - 1]);
            }
        }
        Self { text, replaced }
    }

    /// What the crate gave on the masked text, as it is due on the text itself.
    pub fn unmask<'a>(&self, mut reading: Reading<'a>) -> Reading<'a> {
        let answers = reading
            .items
            .iter_mut()
            .map(|(answer, _)| answer.as_mut().err());
        let finish = reading.finish.as_mut().map(|answer| answer.as_mut().err());
        for refusal in answers.chain(finish).flatten() {
            *refusal = self.unmask_refusal(*refusal);
        }
        reading
    }

    pub fn unmask_refusal(&self, refusal: Refusal) -> Refusal {
        if matches!(refusal.number, 1..=3) && self.replaced[refusal.place] {
            return Refusal::at(8, refusal.place);
        }
        refusal
    }
}
