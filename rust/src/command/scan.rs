//! A whole text read item by item, and what it is found to have.

use sise::bytes::{Item, Reader, Refusal};

pub struct Found {
    /// Atoms and lists.
    pub nodes: usize,
    /// The most lists that are open at once.
    pub depth: usize,
    pub comments: bool,
}

/// The first refusal of a text.
pub struct Fault {
    pub refusal: Refusal,
    /// The places of the lists that are open there, the outermost first.
    pub open: Vec<usize>,
    /// Where the call that was refused began to read.
    pub from: usize,
    /// Where the last item before it ends.
    pub end: usize,
}

pub fn scan(text: &[u8]) -> Result<Found, Fault> {
    let mut reader = Reader::new(text);
    let mut found = Found {
        nodes: 0,
        depth: 0,
        comments: false,
    };
    let mut open = Vec::new();
    let mut end = 0;
    // Blanks and comments stand between items, and a `;` there begins a comment.
    let comment = |from: usize, to: usize| text[from..to].contains(&b';');
    while !reader.is_whole() {
        let from = reader.position();
        let item = match reader.next_item() {
            Ok(item) => item,
            Err(refusal) => {
                return Err(Fault {
                    refusal,
                    open,
                    from,
                    end,
                })
            }
        };
        match item {
            Item::Atom { .. } => found.nodes += 1,
            Item::ListStart { place } => {
                found.nodes += 1;
                open.push(place);
                found.depth = found.depth.max(open.len());
            }
            Item::ListEnd { .. } => {
                open.pop();
            }
        }
        found.comments |= comment(end, item.place());
        end = item.end();
    }
    let from = reader.position();
    reader.finish().map_err(|refusal| Fault {
        refusal,
        open,
        from,
        end,
    })?;
    found.comments |= comment(end, text.len());
    Ok(found)
}
