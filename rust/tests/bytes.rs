//! The library's own face: bytes that are not UTF-8, records of any words, tables of any words, places and sizes.

use sise::bytes::{
    is_atom, lent, Item, Kind, Layout, Phase, Position, Reader, Reason, Refusal, Size, Tree,
    Writer, ONE_LINE,
};

/// The worked table: `(z (+1 "a b") ~)`.
const TEXT: &[u8] = b"(z (+1 \"a b\") ~)";
const TABLE: [u32; 24] = [
    0, 3, 0, 6, 1, 1, 1, 1, 0, 2, 2, 3, 1, 4, 2, 1, 2, 7, 5, 1, 1, 14, 1, 1,
];

fn reasons(refusal: Refusal) -> (u32, Option<usize>, Option<char>) {
    (refusal.number(), refusal.place, refusal.chr)
}

#[test]
fn tree() {
    let tree = Tree::parse(TEXT).unwrap();
    assert_eq!(tree.table(), TABLE);
    let nodes: Vec<_> = (0..tree.nodes())
        .map(|index| tree.node(index).unwrap())
        .collect();
    let kinds: Vec<_> = nodes.iter().map(|node| node.kind()).collect();
    let (plain, string) = (Some(Kind::Plain), Some(Kind::String));
    assert_eq!(kinds, [None, plain, None, plain, string, plain]);
    let bytes: Vec<_> = nodes.iter().map(|node| node.bytes()).collect();
    assert_eq!(bytes, [&b""[..], b"z", b"", b"+1", b"\"a b\"", b"~"]);
    assert_eq!(nodes[4].place(), Some(7));
    let children: Vec<_> = tree.root().children().map(|child| child.index()).collect();
    assert_eq!(children, [1, 2, 5]);
    assert_eq!(tree.at(&[1, 1]).unwrap().index(), 4);
    assert_eq!(lent::find_path(tree.table(), TEXT, &[1, 1]), Ok((4, 5)));
    assert_eq!(lent::index_path(tree.table(), TEXT, &[1, 1]), Ok(4));
    for path in [&[3][..], &[0, 0]] {
        assert_eq!(tree.at(path).unwrap_err().reason, Reason::NoSuchNode);
    }
    assert!(tree.node(6).is_none());
}

#[test]
fn sizes() {
    let tree = Tree::parse(TEXT).unwrap();
    let layout = Layout::house_at(0);
    let text = tree.root().write(layout).unwrap();
    assert_eq!(text, b"(z\n  (+1\n    \"a b\"\n  )\n  ~\n)\n");
    let size = Size {
        bytes: text.len(),
        breaks: 6,
        indents: 5,
    };
    assert_eq!(tree.root().size(layout), Ok(size));
    let crlf = Layout {
        line_break: b"\r\n",
        indentation: b"\t",
        ..layout
    };
    assert_eq!(
        tree.at(&[1]).unwrap().write(crlf).unwrap(),
        b"(+1\r\n\t\"a b\"\r\n)\r\n"
    );
    let mut buf = [7; 40];
    assert_eq!(
        lent::serialize_tree(Layout::LINE, &mut buf, TEXT, tree.table()),
        Ok(16)
    );
    assert_eq!((&buf[..16], &buf[16..]), (TEXT, &[7; 24][..]));
    let refusal =
        lent::serialize_tree(Layout::LINE, &mut buf[..15], TEXT, tree.table()).unwrap_err();
    assert_eq!(reasons(refusal), (22, None, None));
    let refusal = lent::measure_tree(Layout::LINE, 15, TEXT, tree.table()).unwrap_err();
    assert_eq!(reasons(refusal), (22, None, None));
}

/// Tables from elsewhere are tested, whatever their words are.
#[test]
fn tables_of_any_words() {
    for at in 0..TABLE.len() {
        let mut table = TABLE;
        table[at] ^= 1 << 20;
        // The first node's distance is not looked at.
        let due = if at == 2 { Ok(4) } else { Err(15) };
        let found = lent::index_path(&table, TEXT, &[1, 1]).map_err(|refusal| refusal.number());
        assert_eq!(found, due, "word {at}");
    }
    let mut table = [9; 23];
    assert_eq!(
        reasons(lent::parse_tree(TEXT, &mut table).unwrap_err()),
        (14, None, None)
    );
    assert_eq!(table, [9; 23]);
    assert_eq!(
        reasons(lent::index_path(&[], b"", &[]).unwrap_err()),
        (15, None, None)
    );
}

#[test]
fn reader() {
    let mut reader = Reader::new(TEXT);
    assert_eq!(
        (reader.phase(), reader.position(), reader.open()),
        (Phase::Beginning, 0, 0)
    );
    assert_eq!(reader.next_item(), Ok(Item::ListStart { place: 0 }));
    let atom = reader.next_item().unwrap();
    assert_eq!(
        (atom, reader.bytes(atom)),
        (Item::Atom { place: 1, len: 1 }, &b"z"[..])
    );
    assert_eq!(
        (reader.phase(), reader.position(), reader.open()),
        (Phase::Parsing, 2, 1)
    );
    let refusal = reader.finish().unwrap_err();
    assert_eq!(reasons(refusal), (10, None, None));
    // The record is all that there is to keep.
    let mut later = Reader::resume(TEXT, reader.record());
    while later.phase() != Phase::Finishing {
        later.next_item().unwrap();
    }
    assert_eq!(later.finish(), Ok(()));
    assert_eq!(reasons(later.next_item().unwrap_err()), (9, None, None));
    assert_eq!(reader.bytes(Item::Atom { place: 15, len: 2 }), b"");
}

/// No words of a record make a call do anything but refuse.
#[test]
fn records_of_any_words() {
    let words = [0, 1, 2, 3, 16, 17, u64::MAX];
    for position in words {
        for phase in words {
            for open in words {
                let record = [position, phase, open];
                let sound =
                    position <= 16 && open <= position && phase <= 2 && (phase == 1) == (open > 0);
                let mut reader = Reader::resume(TEXT, record);
                let answer = reader.next_item();
                let unsound = answer.is_err_and(|refusal| refusal.reason == Reason::UnsoundRecord);
                assert_eq!(unsound, !sound, "{record:?}");
                if !sound {
                    assert_eq!(reader.record(), record);
                }
                let mut reader = Reader::resume(TEXT, record);
                let refusal = reader.next_tree().err();
                let unsound = refusal.is_some_and(|r| r.reason == Reason::UnsoundRecord);
                assert_eq!(unsound, !sound, "{record:?}");
                if !sound {
                    assert_eq!(reader.record(), record);
                }
            }
        }
    }
}

/// A node in the middle of a text, and what a refused one leaves.
#[test]
fn trees_inside() {
    let text = b"((a (b)) (c ,d) ()";
    let mut reader = Reader::new(text);
    reader.next_item().unwrap();
    let tree = reader.next_tree().unwrap();
    assert_eq!(
        tree.table(),
        [0, 2, 0, 4, 1, 2, 1, 1, 0, 1, 2, 2, 1, 5, 1, 1]
    );
    assert_eq!(tree.text(), text);
    assert_eq!((reader.position(), reader.open()), (8, 1));
    let refusal = reader.next_tree().unwrap_err();
    assert_eq!(reasons(refusal), (1, Some(12), Some(',')));
    assert_eq!((reader.position(), reader.open()), (13, 2));
    assert_eq!(reader.next_tree().unwrap().root().bytes(), b"d");
    assert_eq!(
        reasons(reader.next_tree().unwrap_err()),
        (12, Some(14), None)
    );
    assert_eq!((reader.position(), reader.open()), (15, 1));
    assert_eq!(reader.next_tree().unwrap().nodes(), 1);
    assert_eq!(
        reasons(reader.next_tree().unwrap_err()),
        (5, Some(18), None)
    );
    let mut out = Vec::new();
    let mut writer = Writer::new(Layout::HOUSE, &mut out);
    let number = |answer: Result<usize, Refusal>| answer.map_err(|refusal| refusal.number());
    assert_eq!(number(writer.put_tree(tree.at(&[1]).unwrap(), 0)), Ok(0));
    assert_eq!(number(writer.put_tree(tree.root(), 0)), Err(19));
    assert_eq!(out, b"(b)");
}

/// Each broken character is one fault, and one column.
#[test]
fn broken_characters() {
    let text = b"(\xE2\x82 \xC0\xAF\n \xF0\x9F\x98x";
    let mut reader = Reader::new(text);
    let mut faults = Vec::new();
    loop {
        match reader.next_item() {
            Ok(_) => {}
            Err(refusal) => {
                faults.push((
                    refusal.number(),
                    refusal.position(text).unwrap().to_string(),
                ));
                if refusal.reason == Reason::UnexpectedEof {
                    break;
                }
            }
        }
    }
    let due = [(8, "1:2"), (8, "1:4"), (8, "1:5"), (8, "2:2"), (5, "2:4")];
    assert_eq!(
        faults,
        due.map(|(number, position)| (number, position.to_string()))
    );
}

#[test]
fn positions() {
    let text = "\n\r\r\n\u{1F52C}a\r\nb".as_bytes();
    let at = |place| {
        let position = Position::of(text, place);
        (position.line, position.column)
    };
    // LF, CR, CRLF; a place between CR and LF is still in the line that they end.
    let due = [(1, 1), (2, 1), (3, 1), (3, 2), (4, 1)];
    assert_eq!([0, 1, 2, 3, 4].map(at), due);
    assert_eq!(
        [8, 9, 11, 12, 99].map(at),
        [(4, 2), (4, 3), (5, 1), (5, 2), (5, 2)]
    );
}

#[test]
fn writer() {
    let mut out = Vec::new();
    let mut writer = Writer::new(Layout::HOUSE, &mut out);
    let number = |answer: Result<usize, Refusal>| answer.map_err(|refusal| refusal.number());
    assert_eq!(number(writer.end_list()), Err(18));
    assert_eq!(number(writer.finish(true)), Err(20));
    assert_eq!(number(writer.begin_list(0)), Ok(0));
    assert_eq!(number(writer.put_atom("\u{e9}".as_bytes(), 0)), Err(17));
    assert_eq!(number(writer.put_atom(b"a", 0)), Ok(4));
    assert_eq!(
        (writer.len(), writer.open(), writer.counts()),
        (5, 1, (0, 1, 1))
    );
    assert_eq!(number(writer.end_list()), Ok(6));
    assert_eq!(number(writer.begin_list(ONE_LINE)), Err(19));
    assert_eq!(number(writer.finish(true)), Ok(8));
    assert_eq!(number(writer.finish(true)), Err(19));
    assert_eq!(out, b"(\n  a\n)\n");
}

#[test]
fn atoms() {
    assert!(is_atom(b"\"\"") && !is_atom(b"") && !is_atom(b"\xFF"));
    let mut words = [9; 17];
    assert_eq!(lent::read_items(b"(\"a\")", &mut words), Ok(3));
    assert_eq!(words, [1, 0, 0, 0, 0, 1, 3, 0, 2, 4, 0, 0, 9, 9, 9, 9, 9]);
    let refusal = Tree::parse(b"(a\n \x07)").unwrap_err();
    assert_eq!(
        refusal.to_string(),
        "refused 1 at byte 4: a character that begins no atom, list or comment, U+0007"
    );
}
