use super::{Refusal, Tree};
use crate::ffi;

/// An item of a text. A place is a byte's offset.
#[derive(Clone, Copy, Debug, PartialEq, Eq, Hash)]
pub enum Item {
    /// An atom
    Atom {
        /// The place of its first byte
        place: usize,
        /// The number of its bytes
        len: usize,
    },
    /// A list's `(`
    ListStart {
        /// Its place
        place: usize,
    },
    /// A list's `)`
    ListEnd {
        /// Its place
        place: usize,
    },
}

impl Item {
    /// The place of the item's first byte.
    pub const fn place(&self) -> usize {
        match *self {
            Self::Atom { place, .. } | Self::ListStart { place } | Self::ListEnd { place } => place,
        }
    }

    /// The place behind the item's last byte.
    pub const fn end(&self) -> usize {
        match *self {
            Self::Atom { place, len } => place + len,
            Self::ListStart { place } | Self::ListEnd { place } => place + 1,
        }
    }
}

/// How far a reading is.
#[derive(Clone, Copy, Debug, PartialEq, Eq, Hash)]
pub enum Phase {
    /// No item has been read.
    Beginning,
    /// A list is open.
    Parsing,
    /// The text's one node has been read.
    Finishing,
}

/// Reads a text item by item. After a refusal of the text (1 to 8) the next call reads on behind the fault.
///
/// ```
/// use sise::bytes::{Item, Reader, Reason};
///
/// let mut reader = Reader::new(b"(57,5 \xFF)");
/// let mut faults = Vec::new();
/// let mut atoms = 0;
/// loop {
///     match reader.next_item() {
///         Ok(Item::Atom { .. }) => atoms += 1,
///         Ok(_) => {}
///         Err(refusal) if refusal.reason == Reason::ParsingFinished => break,
///         Err(refusal) => faults.push((refusal.number(), refusal.place)),
///     }
/// }
/// assert_eq!(faults, [(1, Some(3)), (8, Some(6))]);
/// assert_eq!(atoms, 2);
/// assert_eq!(reader.finish(), Ok(()));
/// ```
///
/// A text that ends too early is refused with 4 or 5 again and again: stop there.
#[derive(Clone, Copy, Debug)]
pub struct Reader<'a> {
    text: &'a [u8],
    record: [u64; 3],
}

impl<'a> Reader<'a> {
    /// A reader at the start of the text.
    #[inline]
    pub const fn new(text: &'a [u8]) -> Self {
        Self {
            text,
            record: [0; 3],
        }
    }

    /// A reader with a record that was kept: position, phase (0, 1, 2) and open lists. Of words that no reading of this text can leave, each call
    /// answers 11.
    pub const fn resume(text: &'a [u8], record: [u64; 3]) -> Self {
        Self { text, record }
    }

    /// The text.
    pub const fn text(&self) -> &'a [u8] {
        self.text
    }

    /// The record, for [`Reader::resume`].
    pub const fn record(&self) -> [u64; 3] {
        self.record
    }

    /// Where the next call begins to read.
    pub const fn position(&self) -> usize {
        self.record[0] as usize
    }

    /// How far the reading is.
    pub const fn phase(&self) -> Phase {
        match self.record[1] {
            0 => Phase::Beginning,
            1 => Phase::Parsing,
            _ => Phase::Finishing,
        }
    }

    /// Whether the text's one node has been read, so that [`Reader::finish`] is due.
    #[inline]
    pub const fn is_whole(&self) -> bool {
        self.record[1] == 2
    }

    /// How many lists are open.
    pub const fn open(&self) -> usize {
        self.record[2] as usize
    }

    /// The next item. Refused: 11; 9, if the text's one node has been read; 1 to 6 and 8.
    #[inline]
    pub fn next_item(&mut self) -> Result<Item, Refusal> {
        let mut item = [0; 3];
        let number = ffi::next_item(self.text, &mut self.record, &mut item);
        let [kind, place, len] = item;
        if number != 0 {
            return Err(Refusal::new(number, [place, len]));
        }
        let place = place as usize;
        Ok(match kind {
            0 => Item::Atom {
                place,
                len: len as usize,
            },
            1 => Item::ListStart { place },
            _ => Item::ListEnd { place },
        })
    }

    /// The node due, an atom or a list to its end, as a tree. Refused: 13; 11; 9; 1 to 6 and 8, where the reader stands as [`Reader::next_item`] leaves it that
    /// meets the fault; 12, where what stands there is the `)` of a list that was open before, which is passed.
    ///
    /// ```
    /// use sise::bytes::{Layout, Reader, Reason};
    ///
    /// let mut reader = Reader::new(b"(limits (x -57.5 57.5) (y 0 12))");
    /// reader.next_item()?;
    /// reader.next_item()?;
    /// let x = reader.next_tree()?;
    /// assert_eq!(x.root().write(Layout::LINE)?, b"(x -57.5 57.5)");
    /// assert_eq!(x.at(&[1])?.place(), Some(11));
    /// assert_eq!(reader.next_tree()?.nodes(), 4);
    /// assert_eq!(reader.next_tree().unwrap_err().reason, Reason::NodeExpected);
    /// assert_eq!(reader.finish(), Ok(()));
    /// # Ok::<(), sise::bytes::Refusal>(())
    /// ```
    pub fn next_tree(&mut self) -> Result<Tree<'a>, Refusal> {
        let mut table = Vec::new();
        match ffi::read_tree(self.text, &mut self.record, &mut table) {
            (0, [nodes, _]) => Ok(Tree::read(self.text, table, nodes as usize)),
            (number, values) => Err(Refusal::new(number, values)),
        }
    }

    /// Whether nothing but blanks and comments stands behind the text's one node. Refused: 11; 10, if that node has not been read to its end; 1 to 4, 7
    /// and 8.
    #[inline]
    pub fn finish(self) -> Result<(), Refusal> {
        match ffi::finish_reading(self.text, &self.record) {
            (0, _) => Ok(()),
            (number, values) => Err(Refusal::new(number, values)),
        }
    }

    /// The bytes of an item of this text; none, if it lies outside.
    #[inline]
    pub fn bytes(&self, item: Item) -> &'a [u8] {
        self.text.get(item.place()..item.end()).unwrap_or_default()
    }
}
