use crate::ffi;
use std::fmt::{Display, Formatter};

/// What the reader finds next in a text.
#[derive(Copy, Clone, Debug, PartialEq, Eq)]
pub enum ParsedItem<'a> {
    /// An atom, and the offset of its first byte in the text
    Atom(&'a str, usize),
    /// A list's `(`, and its offset in the text
    ListStart(usize),
    /// A list's `)`, and its offset in the text
    ListEnd(usize),
}

/// Why a text is refused. `pos` is a byte's offset in the text.
#[derive(Clone, Debug, PartialEq, Eq)]
pub enum ParseError {
    /// A character that begins no atom, list or comment
    IllegalChr {
        /// Where it begins
        pos: usize,
        /// The character
        chr: char,
    },

    /// A character that may not stand in a string
    IllegalChrInString {
        /// Where it begins
        pos: usize,
        /// The character
        chr: char,
    },

    /// A character that may not stand in a comment
    IllegalChrInComment {
        /// Where it begins
        pos: usize,
        /// The character
        chr: char,
    },

    /// The text ends inside a string
    UnfinishedString {
        /// The text's length
        pos: usize,
    },

    /// The text ends where an item is due
    UnexpectedEof {
        /// The text's length
        pos: usize,
    },

    /// A `)` where no list is open
    UnexpectedRightParen {
        /// Where it stands
        pos: usize,
    },

    /// Something stands behind the text's one node
    ExpectedEof {
        /// Where it begins
        pos: usize,
    },
}

impl ParseError {
    /// By a refusal's number, place and code point, which the library gives of a text in UTF-8.
    #[cold]
    fn new(number: u32, place: u64, code: u64) -> Self {
        let pos = place as usize;
        let chr = char::from_u32(code as u32).unwrap_or(char::REPLACEMENT_CHARACTER);
        match number {
            1 => Self::IllegalChr { pos, chr },
            2 => Self::IllegalChrInString { pos, chr },
            3 => Self::IllegalChrInComment { pos, chr },
            4 => Self::UnfinishedString { pos },
            5 => Self::UnexpectedEof { pos },
            6 => Self::UnexpectedRightParen { pos },
            7 => Self::ExpectedEof { pos },
            _ => unreachable!("a text in UTF-8 is not refused with {number}"),
        }
    }
}

impl Display for ParseError {
    fn fmt(&self, f: &mut Formatter<'_>) -> std::fmt::Result {
        match self {
            Self::IllegalChr { pos, chr } => write!(f, "illegal character {chr:?} at byte {pos}"),
            Self::IllegalChrInString { pos, chr } => {
                write!(f, "illegal character {chr:?} in string at byte {pos}")
            }
            Self::IllegalChrInComment { pos, chr } => {
                write!(f, "illegal character {chr:?} in comment at byte {pos}")
            }
            Self::UnfinishedString { pos } => write!(f, "unfinished string at byte {pos}"),
            Self::UnexpectedEof { pos } => write!(f, "unexpected end-of-file at byte {pos}"),
            Self::UnexpectedRightParen { pos } => write!(f, "unexpected `)` at byte {pos}"),
            Self::ExpectedEof { pos } => write!(f, "expected end-of-file at byte {pos}"),
        }
    }
}

impl std::error::Error for ParseError {}

/// Reads a text item by item.
///
/// # Example
///
/// ```
/// let data = "(test (1 2 3))";
/// let mut parser = sise::Parser::new(data);
/// assert_eq!(parser.next_item().unwrap(), sise::ParsedItem::ListStart(0));
/// assert_eq!(
///     parser.next_item().unwrap(),
///     sise::ParsedItem::Atom("test", 1),
/// );
/// assert_eq!(parser.next_item().unwrap(), sise::ParsedItem::ListStart(6));
/// assert_eq!(parser.next_item().unwrap(), sise::ParsedItem::Atom("1", 7));
/// assert_eq!(parser.next_item().unwrap(), sise::ParsedItem::Atom("2", 9));
/// assert_eq!(parser.next_item().unwrap(), sise::ParsedItem::Atom("3", 11));
/// assert_eq!(parser.next_item().unwrap(), sise::ParsedItem::ListEnd(12));
/// assert_eq!(parser.next_item().unwrap(), sise::ParsedItem::ListEnd(13));
/// parser.finish().unwrap();
/// ```
///
/// After an error the next call reads on behind it, so that calls in a row go from fault to
/// fault:
///
/// ```
/// use sise::{ParseError, ParsedItem, Parser};
///
/// let mut parser = Parser::new("57,5");
/// assert_eq!(parser.next_item(), Ok(ParsedItem::Atom("57", 0)));
/// let error = parser.finish().unwrap_err();
/// assert_eq!(error, ParseError::IllegalChr { pos: 2, chr: ',' });
/// assert_eq!(error.to_string(), "illegal character ',' at byte 2");
/// ```
pub struct Parser<'a> {
    data: &'a str,
    /// Position, phase and open lists, as the library's calls keep them.
    record: [u64; 3],
    /// What the last trees were read into, kept for the next one.
    table: Vec<u32>,
}

impl<'a> Parser<'a> {
    /// A reader at the start of the text.
    #[inline]
    pub fn new(data: &'a str) -> Self {
        Self {
            data,
            record: [0; 3],
            table: Vec::new(),
        }
    }

    /// The next item.
    ///
    /// # Panics
    ///
    /// With "parsing finished", if the text's one node has been read.
    #[inline]
    pub fn next_item(&mut self) -> Result<ParsedItem<'a>, ParseError> {
        let mut item = [0; 3];
        match ffi::next_item(self.data.as_bytes(), &mut self.record, &mut item) {
            0 => Ok(self.item(item)),
            9 => panic!("parsing finished"),
            number => Err(ParseError::new(number, item[1], item[2])),
        }
    }

    /// The node due, as the library reads it: the text, and the words of the table. `None` of a text that is too long for that.
    ///
    /// # Panics
    ///
    /// As [`parse_tree`](crate::parse_tree) does.
    pub(crate) fn next_tree(&mut self) -> Option<Result<(&'a str, &[u32]), ParseError>> {
        let (number, [first, second]) =
            ffi::read_tree(self.data.as_bytes(), &mut self.record, &mut self.table);
        match number {
            0 => Some(Ok((self.data, &self.table[..4 * first as usize]))),
            9 => panic!("parsing finished"),
            12 => unreachable!(),
            13 => None,
            number => Some(Err(ParseError::new(number, first, second))),
        }
    }

    #[inline]
    fn item(&self, [kind, place, len]: [u64; 3]) -> ParsedItem<'a> {
        let pos = place as usize;
        match kind {
            0 => ParsedItem::Atom(&self.data[pos..pos + len as usize], pos),
            1 => ParsedItem::ListStart(pos),
            _ => ParsedItem::ListEnd(pos),
        }
    }

    /// Sees to it that nothing but blanks and comments stands behind the text's one node.
    ///
    /// # Panics
    ///
    /// With "parsing not finished yet", if that node has not been read to its end.
    #[inline]
    pub fn finish(self) -> Result<(), ParseError> {
        let (number, [place, code]) = ffi::finish_reading(self.data.as_bytes(), &self.record);
        match number {
            0 => Ok(()),
            10 => panic!("parsing not finished yet"),
            number => Err(ParseError::new(number, place, code)),
        }
    }
}
