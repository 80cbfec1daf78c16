//! The crate's API: what holds on every character, at the limit of 16,777,216 bytes, in `const` places and for the macro.

use sise::{
    check_atom, is_atom_chr, is_atom_string_chr, parse_tree, serialize_tree, sise_tree, ParsedItem,
    Parser, Serializer, SerializerStyle, TreeNode,
};
use std::panic::{catch_unwind, AssertUnwindSafe};

const LONGEST: usize = 16_777_216;
const STYLE: SerializerStyle<'static> = SerializerStyle {
    line_break: "\n",
    indentation: "  ",
};

/// The two functions that are written in Rust, against the proved check of an atom.
#[test]
fn every_character() {
    for chr in '\0'..=char::MAX {
        assert_eq!(is_atom_chr(chr), check_atom(&chr.to_string()), "{chr:?}");
        assert_eq!(
            is_atom_string_chr(chr),
            check_atom(&format!("\"{chr}\"")),
            "{chr:?}"
        );
    }
}

#[test]
fn constants() {
    const ATOM: bool = is_atom_chr('x');
    const STRING: bool = is_atom_string_chr('"');
    assert_eq!((ATOM, STRING), (true, false));
}

/// The message of the panic that a call ends with.
fn panics(call: impl FnOnce()) -> String {
    let payload = catch_unwind(AssertUnwindSafe(call)).unwrap_err();
    let fixed = payload
        .downcast_ref::<&str>()
        .map(|message| message.to_string());
    fixed.or(payload.downcast_ref::<String>().cloned()).unwrap()
}

#[test]
fn panics_as_the_crate() {
    let mut parser = Parser::new("a");
    assert_eq!(
        panics(|| drop(Parser::new("a").finish())),
        "parsing not finished yet"
    );
    parser.next_item().unwrap();
    assert_eq!(panics(|| drop(parser.next_item())), "parsing finished");
    assert_eq!(parser.finish(), Ok(()));
    let mut out = String::new();
    let mut serializer = Serializer::new(STYLE, &mut out);
    assert_eq!(panics(|| serializer.end_list()), "no list to end");
    assert_eq!(
        panics(|| serializer.put_atom("a b", 0)),
        "invalid atom \"a b\""
    );
    serializer.put_atom("a", 0);
    assert_eq!(
        panics(|| serializer.begin_list(0)),
        "writing already finished"
    );
    serializer.finish(false);
    assert_eq!(
        panics(|| Serializer::new(STYLE, &mut out).finish(true)),
        "writing not finished yet"
    );
    assert_eq!(out, "a");
    let mut parser = Parser::new("()");
    parser.next_item().unwrap();
    assert_eq!(
        panics(|| drop(parse_tree(&mut parser))),
        "internal error: entered unreachable code"
    );
}

/// A text of the longest length is written; what would pass it panics with words of its own, and leaves the string as it was.
#[test]
fn the_longest_text() {
    let before = "; not counted\n";
    let mut out = String::from(before);
    let mut serializer = Serializer::new(STYLE, &mut out);
    serializer.begin_list(0);
    serializer.put_atom(&"x".repeat(LONGEST - 2), usize::MAX);
    let message = "writing past 16777216 bytes";
    assert_eq!(panics(|| serializer.put_atom("y", usize::MAX)), message);
    serializer.end_list();
    assert_eq!(panics(|| serializer.finish(true)), message);
    assert_eq!(out.len(), before.len() + LONGEST);
    let mut out = String::new();
    let mut serializer = Serializer::new(STYLE, &mut out);
    serializer.put_atom(&"x".repeat(LONGEST - 1), 0);
    serializer.finish(true);
    assert_eq!(out.len(), LONGEST);
}

/// The reader has no limit: a text of more than 16,777,216 bytes is read.
#[test]
fn a_longer_text() {
    let text = format!("({})", " atom".repeat(LONGEST / 4));
    let mut parser = Parser::new(&text);
    let tree = parse_tree(&mut parser).unwrap();
    parser.finish().unwrap();
    assert_eq!(tree.as_list().map(Vec::len), Some(LONGEST / 4));
}

/// Lists in each other, one line for each: the writer's time and room grow with what is written, whatever the indentation could be.
#[test]
fn deep_lists() {
    const DEPTH: usize = 100_000;
    let mut out = String::new();
    let mut serializer = Serializer::new(
        SerializerStyle {
            line_break: "\n",
            indentation: "                ",
        },
        &mut out,
    );
    for _ in 0..DEPTH {
        serializer.begin_list(usize::MAX);
    }
    for _ in 0..DEPTH {
        serializer.end_list();
    }
    serializer.finish(false);
    assert_eq!(out, "(".repeat(DEPTH) + &")".repeat(DEPTH));
    let mut parser = Parser::new(&out);
    for _ in 0..2 * DEPTH {
        parser.next_item().unwrap();
    }
    parser.finish().unwrap();
}

/// Trees inside a list, small and large ones in turn: each is read whole, and the reader stands behind it.
#[test]
fn trees_read_inside() {
    let sizes = [0, 1, 1000, 1100, 3, 9000, 70_000, 2];
    let lists = sizes.map(|size| format!("({}) ", " a".repeat(size)));
    let text = format!("({})", lists.concat());
    let mut parser = Parser::new(&text);
    parser.next_item().unwrap();
    for size in sizes {
        let tree = parse_tree(&mut parser).unwrap();
        let list = tree.as_list().unwrap();
        assert!(list.len() == size && list.iter().all(|node| *node == "a"));
    }
    let end = ParsedItem::ListEnd(text.len() - 1);
    assert_eq!(parser.next_item(), Ok(end));
    parser.finish().unwrap();
}

/// A tree inside a list, with more layout than atoms: what the calls one by one write.
#[test]
fn a_broad_tree() {
    const DEPTH: usize = 60;
    let style = SerializerStyle {
        line_break: "\r\n\r\n",
        indentation: &" ".repeat(100),
    };
    let tree = (0..DEPTH).fold(sise_tree!([]), |tree, _| sise_tree!(["a", tree, "\"b\""]));
    let (mut out, mut due) = (String::new(), String::from("; before\n"));
    let mut serializer = Serializer::new(style, &mut out);
    serializer.begin_list(0);
    serialize_tree(&mut serializer, &tree, 0);
    serializer.end_list();
    serializer.finish(true);
    let mut serializer = Serializer::new(style, &mut due);
    serializer.begin_list(0);
    for _ in 0..DEPTH {
        serializer.begin_list(0);
        serializer.put_atom("a", usize::MAX);
    }
    serializer.begin_list(0);
    for _ in 0..DEPTH {
        serializer.end_list();
        serializer.put_atom("\"b\"", 0);
    }
    serializer.end_list();
    serializer.end_list();
    serializer.finish(true);
    assert_eq!(format!("; before\n{out}"), due);
}

/// A tree that cannot be written whole is written up to what is refused.
#[test]
fn a_tree_in_part() {
    let mut out = String::new();
    let mut serializer = Serializer::new(STYLE, &mut out);
    serializer.begin_list(0);
    let tree = sise_tree!(["a", ["b", "c d", "e"], "f"]);
    assert_eq!(
        panics(|| serialize_tree(&mut serializer, &tree, 0)),
        "invalid atom \"c d\""
    );
    let tree = sise_tree!(["g", "x".repeat(LONGEST - 40), "y".repeat(40), "z"]);
    assert_eq!(
        panics(|| serialize_tree(&mut serializer, &tree, usize::MAX)),
        "writing past 16777216 bytes"
    );
    for _ in 0..4 {
        serializer.end_list();
    }
    assert_eq!(
        panics(|| serialize_tree(&mut serializer, &tree, 0)),
        "writing already finished"
    );
    serializer.finish(false);
    let x = "x".repeat(LONGEST - 40);
    assert!(out == format!("(\n  (a\n    (b (g {x}))\n  )\n)"));
}

#[test]
fn the_macro() {
    let name = String::from("x");
    let node = sise_tree!(["inner"]);
    let tree = sise_tree!([
        "axis",
        name.clone(),
        [],
        ["limit", format!("{}", -1), node],
        vec![sise_tree!("a")],
    ]);
    let mut out = String::new();
    let mut serializer = Serializer::new(STYLE, &mut out);
    serialize_tree(&mut serializer, &tree, usize::MAX);
    serializer.finish(false);
    assert_eq!(out, "(axis x () (limit -1 (inner)) (a))");
    assert_eq!(sise_tree!(name), "x");
    assert_eq!(sise_tree!([]), TreeNode::List(Vec::new()));
    assert_eq!(
        sise_tree!(["a", "b",]),
        TreeNode::from(vec!["a".into(), "b".into()])
    );
}

/// What a program may count on without naming it.
#[test]
fn traits() {
    fn shared<T: Send + Sync>() {}
    fn error<T: std::error::Error>() {}
    shared::<Parser>();
    shared::<Serializer>();
    shared::<TreeNode>();
    error::<sise::ParseError>();
    // A reader of a longer life serves where one of a shorter is due.
    fn shorter<'a>(long: Parser<'static>, _: &'a str) -> Parser<'a> {
        long
    }
    shorter(Parser::new("a"), "b").next_item().unwrap();
}
