//! The examples of docs/REFUSALS.md, each run.

use sise::bytes::{lent, Layout, Reader, Reason, Refusal, Tree, Writer};

const REFUSALS: &str = include_str!("../../docs/REFUSALS.md");

/// Number, place and code point.
fn shown(refusal: Refusal) -> (u32, Option<usize>, Option<u32>) {
    (refusal.number(), refusal.place, refusal.chr.map(u32::from))
}

/// The first refusal of a text that is read item by item, and the position that it leaves.
fn first(text: &[u8]) -> ((u32, Option<usize>, Option<u32>), usize) {
    let mut reader = Reader::new(text);
    loop {
        if let Err(refusal) = reader.next_item() {
            return (shown(refusal), reader.position());
        }
        if reader.is_whole() {
            return (shown(reader.finish().unwrap_err()), reader.position());
        }
    }
}

#[test]
fn in_a_text() {
    assert_eq!(first(b"["), ((1, Some(0), Some(0x5B)), 1));
    assert_eq!(first(b"57,5"), ((1, Some(2), Some(0x2C)), 2));
    assert_eq!(first(b"\"\t"), ((2, Some(1), Some(9)), 2));
    assert_eq!(first(b"\"\\\t"), ((2, Some(2), Some(9)), 3));
    assert_eq!(first(b";\x7F"), ((3, Some(1), Some(0x7F)), 2));
    assert_eq!(first("; \u{b5}m".as_bytes()), ((3, Some(2), Some(0xB5)), 4));
    assert_eq!(first(b"\"a"), ((4, Some(2), None), 2));
    assert_eq!(first(b""), ((5, Some(0), None), 0));
    assert_eq!(first(b"(a"), ((5, Some(2), None), 2));
    assert_eq!(first(b")"), ((6, Some(0), None), 1));
    assert_eq!(first(b"a b"), ((7, Some(2), None), 1));
    assert_eq!(first(b"(a))"), ((7, Some(3), None), 3));
    assert_eq!(first(b"\xC3\x28"), ((8, Some(0), None), 1));
    assert_eq!(first(b"\xE2\x82\x28").1, 2);
    assert_eq!(first(b"\xC0\xAF").1, 1);
    let mut reader = Reader::new(b"\"a");
    assert_eq!(reader.next_item().unwrap_err().number(), 4);
    assert_eq!(reader.next_item().unwrap_err().number(), 5);
}

#[test]
fn of_a_reading() {
    let mut reader = Reader::new(b"a");
    assert_eq!(shown(reader.finish().unwrap_err()), (10, None, None));
    reader.next_item().unwrap();
    assert_eq!(shown(reader.next_item().unwrap_err()), (9, None, None));
    let mut reader = Reader::resume(b"a", [3, 0, 0]);
    assert_eq!(shown(reader.next_item().unwrap_err()), (11, None, None));
}

#[test]
fn of_trees() {
    let mut reader = Reader::new(b"()");
    reader.next_item().unwrap();
    let refusal = reader.next_tree().unwrap_err();
    assert_eq!(shown(refusal), (12, Some(1), None));
    assert_eq!(reader.record(), [2, 2, 0]);
    let spaces = vec![b' '; 16_777_217];
    assert_eq!(shown(Tree::parse(&spaces).unwrap_err()), (13, None, None));
    assert_eq!(
        shown(lent::parse_tree(b"a", &mut [0; 3]).unwrap_err()),
        (14, None, None)
    );
    assert_eq!(
        shown(lent::index_path(&[4, 0, 1, 1], b"a", &[]).unwrap_err()),
        (15, None, None)
    );
    assert_eq!(
        shown(Tree::parse(b"a").unwrap().at(&[0]).unwrap_err()),
        (16, None, None)
    );
}

#[test]
fn of_a_writing() {
    let number = |answer: Result<usize, Refusal>| answer.unwrap_err().number();
    let mut out = Vec::new();
    let mut writer = Writer::new(Layout::HOUSE, &mut out);
    assert_eq!(number(writer.put_atom(b"a b", 0)), 17);
    assert_eq!(number(writer.put_atom(b"", 0)), 17);
    assert_eq!(number(writer.end_list()), 18);
    assert_eq!(number(writer.finish(false)), 20);
    writer.put_atom(b"a", 0).unwrap();
    assert_eq!(number(writer.put_atom(b"a", 0)), 19);
    let (text, mut buf) = (b"ab", [7]);
    let tree = Tree::parse(text).unwrap();
    assert_eq!(
        number(lent::serialize_tree(
            Layout::LINE,
            &mut buf,
            text,
            tree.table()
        )),
        22
    );
    assert_eq!(buf, [7]);
    let tree = Tree::parse(b"(a b)").unwrap();
    let size = tree.root().size(Layout::HOUSE).unwrap();
    let refusal = tree.root().commit(Layout::house_at(0), size).unwrap_err();
    assert_eq!(shown(refusal), (23, None, None));
}

/// The page has a part for each reason, by its number and name, and each part says the same four things.
#[test]
fn the_page() {
    let parts: Vec<&str> = REFUSALS.split("\n### ").skip(1).collect();
    let titles: Vec<&str> = parts
        .iter()
        .filter_map(|part| part.lines().next())
        .collect();
    let reasons = (0..100).filter_map(Reason::by_number);
    let due: Vec<String> = reasons
        .map(|reason| format!("{} {reason:?}", reason.number()))
        .collect();
    assert_eq!(titles, due);
    for part in parts {
        for said in ["\n- Means: ", "\n- Example: ", "\n- Leaves: ", "\n- Do: "] {
            assert!(part.contains(said), "{part}");
        }
    }
}
