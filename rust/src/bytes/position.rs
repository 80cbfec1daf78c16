use std::fmt::{Display, Formatter};

/// A place as an editor shows it. A line ends with LF, CR or CRLF. A column counts characters; of bytes that are not UTF-8, each broken character counts
/// as one, as the reader counts them. Both begin at 1.
#[derive(Clone, Copy, Debug, PartialEq, Eq, PartialOrd, Ord, Hash)]
pub struct Position {
    /// The number of the line
    pub line: usize,
    /// The number of the character in its line
    pub column: usize,
}

impl Position {
    /// Of a byte's offset in a text; of one past the text's end, the end.
    ///
    /// ```
    /// use sise::bytes::Position;
    ///
    /// let text = "(a\r\n \u{e4}b)".as_bytes();
    /// assert_eq!(Position::of(text, 0), Position { line: 1, column: 1 });
    /// assert_eq!(Position::of(text, 7), Position { line: 2, column: 3 });
    /// ```
    pub fn of(text: &[u8], place: usize) -> Self {
        let place = place.min(text.len());
        let (mut line, mut start) = (1, 0);
        for (at, &byte) in text[..place].iter().enumerate() {
            // The CR of a CRLF ends no line by itself.
            if byte == b'\n' || byte == b'\r' && text.get(at + 1) != Some(&b'\n') {
                line += 1;
                start = at + 1;
            }
        }
        Self {
            line,
            column: 1 + characters(&text[start..place]),
        }
    }
}

impl Display for Position {
    fn fmt(&self, f: &mut Formatter<'_>) -> std::fmt::Result {
        write!(f, "{}:{}", self.line, self.column)
    }
}

/// How many characters some bytes have.
fn characters(bytes: &[u8]) -> usize {
    let chunks = bytes.utf8_chunks();
    chunks
        .map(|chunk| chunk.valid().chars().count() + usize::from(!chunk.invalid().is_empty()))
        .sum()
}
