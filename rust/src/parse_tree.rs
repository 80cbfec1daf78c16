use crate::{ParseError, ParsedItem, Parser, TreeNode};

/// Reads the node due into a tree.
///
/// # Example
///
/// ```
/// use sise::sise_tree;
///
/// let data = "(test (1 2 3))";
/// let mut parser = sise::Parser::new(data);
/// let root_node = sise::parse_tree(&mut parser).unwrap();
/// // Do not forget calling `finish` on the parser.
/// parser.finish().unwrap();
/// let expected_result = sise_tree!(["test", ["1", "2", "3"]]);
/// assert_eq!(root_node, expected_result);
/// ```
///
/// The parser is only borrowed, so a part of a text can be read into a tree too:
///
/// ```
/// use sise::sise_tree;
///
/// let data = "(head (1 2 3) tail)";
/// let mut parser = sise::Parser::new(data);
///
/// // Parse the head
/// assert_eq!(parser.next_item().unwrap(), sise::ParsedItem::ListStart(0));
/// assert_eq!(
///     parser.next_item().unwrap(),
///     sise::ParsedItem::Atom("head", 1),
/// );
///
/// // Parse the subtree
/// let root_node = sise::parse_tree(&mut parser).unwrap();
/// let expected_result = sise_tree!(["1", "2", "3"]);
/// assert_eq!(root_node, expected_result);
///
/// // Parse the tail
/// assert_eq!(
///     parser.next_item().unwrap(),
///     sise::ParsedItem::Atom("tail", 14)
/// );
/// assert_eq!(parser.next_item().unwrap(), sise::ParsedItem::ListEnd(18));
/// parser.finish().unwrap();
/// ```
///
/// # Panics
///
/// With "parsing finished", if the text's one node has been read; and as `unreachable!` does, if
/// what stands there is the `)` of a list that was open before.
pub fn parse_tree(parser: &mut Parser<'_>) -> Result<TreeNode, ParseError> {
    match parser.next_tree() {
        Some(read) => read.map(|(text, table)| node(text, table)),
        None => parse_items(parser),
    }
}

/// The node that the library read into a table: four words for each node in it, a list's children behind it.
fn node(text: &str, table: &[u32]) -> TreeNode {
    // The children so far of each list that is open, the innermost last, and how many it will have.
    let mut open: Vec<(Vec<TreeNode>, usize)> = Vec::new();
    for words in table.chunks_exact(4) {
        let (first, second) = (words[1] as usize, words[2] as usize);
        let mut node = match words[0] {
            0 if first > 0 => {
                open.push((Vec::with_capacity(first), first));
                continue;
            }
            0 => TreeNode::List(Vec::new()),
            _ => TreeNode::Atom(text[first..first + second].into()),
        };
        // The node may be the last of some lists.
        loop {
            let Some((mut list, due)) = open.pop() else {
                return node;
            };
            list.push(node);
            if list.len() < due {
                open.push((list, due));
                break;
            }
            node = TreeNode::List(list);
        }
    }
    unreachable!("a table that was read holds a whole tree")
}

/// The node due, item by item: of a text that is longer than a tree call reads.
fn parse_items(parser: &mut Parser<'_>) -> Result<TreeNode, ParseError> {
    // The children so far of each list that is open, the innermost last.
    let mut open: Vec<Vec<TreeNode>> = Vec::new();
    loop {
        let node = match parser.next_item()? {
            ParsedItem::Atom(atom, _) => TreeNode::Atom(atom.into()),
            ParsedItem::ListStart(_) => {
                open.push(Vec::new());
                continue;
            }
            ParsedItem::ListEnd(_) => match open.pop() {
                Some(list) => TreeNode::List(list),
                None => unreachable!(),
            },
        };
        match open.last_mut() {
            Some(list) => list.push(node),
            None => return Ok(node),
        }
    }
}
