use super::Position;
use std::fmt::{Display, Formatter};

/// Why a call is refused, by the numbers of docs/REFUSALS.md.
#[derive(Clone, Copy, Debug, PartialEq, Eq, Hash)]
#[non_exhaustive]
pub enum Reason {
    /// A character that begins no atom, list or comment
    IllegalChr = 1,
    /// A character that may not stand in a string
    IllegalChrInString = 2,
    /// A character that may not stand in a comment
    IllegalChrInComment = 3,
    /// The text ends inside a string.
    UnfinishedString = 4,
    /// The text ends where an item is due.
    UnexpectedEof = 5,
    /// A `)` where no list is open
    UnexpectedRightParen = 6,
    /// Something stands behind the text's one node.
    ExpectedEof = 7,
    /// A broken character: bytes that are not UTF-8
    IllFormedChr = 8,
    /// The text's one node has been read, and no item is left.
    ParsingFinished = 9,
    /// The text's one node has not been read to its end.
    ParsingNotFinished = 10,
    /// The record is one that no reading or writing can have.
    UnsoundRecord = 11,
    /// A list closes where a node is due.
    NodeExpected = 12,
    /// The text is longer than a tree call reads.
    TextTooLong = 13,
    /// The lent words have no room for what was read.
    TableFull = 14,
    /// The table holds no tree over the text.
    NotATree = 15,
    /// No node is at the end of the path.
    NoSuchNode = 16,
    /// The bytes are no atom.
    InvalidAtom = 17,
    /// No list is open that could be ended.
    NoListToEnd = 18,
    /// The text's one node is whole, and nothing more can be written.
    WritingFinished = 19,
    /// The text is not one whole node yet.
    WritingNotFinished = 20,
    /// The text would pass the lent buffer, or the most that is written.
    NoRoom = 22,
    /// The size handed over is not the one that these inputs give now.
    SizeChanged = 23,
}

impl Reason {
    const ALL: [Self; 22] = [
        Self::IllegalChr,
        Self::IllegalChrInString,
        Self::IllegalChrInComment,
        Self::UnfinishedString,
        Self::UnexpectedEof,
        Self::UnexpectedRightParen,
        Self::ExpectedEof,
        Self::IllFormedChr,
        Self::ParsingFinished,
        Self::ParsingNotFinished,
        Self::UnsoundRecord,
        Self::NodeExpected,
        Self::TextTooLong,
        Self::TableFull,
        Self::NotATree,
        Self::NoSuchNode,
        Self::InvalidAtom,
        Self::NoListToEnd,
        Self::WritingFinished,
        Self::WritingNotFinished,
        Self::NoRoom,
        Self::SizeChanged,
    ];

    /// The refusal's number.
    pub const fn number(self) -> u32 {
        self as u32
    }

    /// By its number.
    pub fn by_number(number: u32) -> Option<Self> {
        Self::ALL
            .into_iter()
            .find(|reason| reason.number() == number)
    }

    /// What it means, in a few words.
    pub const fn meaning(self) -> &'static str {
        match self {
            Self::IllegalChr => "a character that begins no atom, list or comment",
            Self::IllegalChrInString => "a character that may not stand in a string",
            Self::IllegalChrInComment => "a character that may not stand in a comment",
            Self::UnfinishedString => "the text ends inside a string",
            Self::UnexpectedEof => "the text ends where an atom or a list is due",
            Self::UnexpectedRightParen => "a `)` where no list is open",
            Self::ExpectedEof => "something stands behind the text's one atom or list",
            Self::IllFormedChr => "a broken character, which is not UTF-8",
            Self::ParsingFinished => "all has been read",
            Self::ParsingNotFinished => "not all has been read yet",
            Self::UnsoundRecord => "a record that no reading or writing can have",
            Self::NodeExpected => "a list closes where an atom or a list is due",
            Self::TextTooLong => "the text has more than 16777216 bytes",
            Self::TableFull => "no room for what was read",
            Self::NotATree => "the table holds no tree over this text",
            Self::NoSuchNode => "nothing is at the end of this path",
            Self::InvalidAtom => "these bytes are no atom",
            Self::NoListToEnd => "no list is open",
            Self::WritingFinished => "all has been written",
            Self::WritingNotFinished => "not all has been written yet",
            Self::NoRoom => "no room: the text would pass the buffer, or 16777216 bytes",
            Self::SizeChanged => "the size is not the one that was asked for",
        }
    }
}

/// A refusal: its reason, and of one in a text its place.
#[derive(Clone, Copy, Debug, PartialEq, Eq, Hash)]
pub struct Refusal {
    /// Why
    pub reason: Reason,
    /// The offset of a byte in the text, of the refusals 1 to 8 and 12
    pub place: Option<usize>,
    /// The character there, of the refusals 1 to 3
    pub chr: Option<char>,
}

impl Refusal {
    /// By the number that a call answers, with its place and code point.
    #[cold]
    pub(crate) fn new(number: u32, [place, code]: [u64; 2]) -> Self {
        let Some(reason) = Reason::by_number(number) else {
            unreachable!("no call is refused with {number}")
        };
        let place = matches!(number, 1..=8 | 12).then_some(place as usize);
        let chr = if number <= 3 {
            char::from_u32(code as u32)
        } else {
            None
        };
        Self { reason, place, chr }
    }

    /// The refusal's number.
    pub const fn number(&self) -> u32 {
        self.reason.number()
    }

    /// Line and column of the place in the text that was refused.
    pub fn position(&self, text: &[u8]) -> Option<Position> {
        self.place.map(|place| Position::of(text, place))
    }
}

impl Display for Refusal {
    fn fmt(&self, f: &mut Formatter<'_>) -> std::fmt::Result {
        write!(f, "refused {}", self.number())?;
        if let Some(place) = self.place {
            write!(f, " at byte {place}")?;
        }
        write!(f, ": {}", self.reason.meaning())?;
        if let Some(chr) = self.chr {
            write!(f, ", U+{:04X}", u32::from(chr))?;
        }
        Ok(())
    }
}

impl std::error::Error for Refusal {}

/// What a call answers, or its refusal.
pub(crate) fn answered((number, values): (u32, [u64; 2])) -> Result<usize, Refusal> {
    match number {
        0 => Ok(values[0] as usize),
        number => Err(Refusal::new(number, values)),
    }
}

#[cfg(test)]
mod tests {
    use super::Reason;

    #[test]
    fn each_number_has_its_reason() {
        let numbers: Vec<u32> = (0..40)
            .filter(|&n| Reason::by_number(n).is_some())
            .collect();
        assert_eq!(numbers, (1..=20).chain([22, 23]).collect::<Vec<u32>>());
        assert!(Reason::ALL
            .iter()
            .all(|&r| Reason::by_number(r.number()) == Some(r)));
    }
}
