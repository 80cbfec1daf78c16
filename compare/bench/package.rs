//! The Cargo package in rust/ beside the crate: the same program over both, one call of the proved library for each call of the API, for a whole tree too.

use crate::{repeated, ROUNDS};

/// A module with the program over one of the two, whose root is named.
macro_rules! side {
    ($name:ident, $($root:tt)+) => {
        mod $name {
            use $($root)+::{check_atom, parse_tree, serialize_tree};
            use $($root)+::{ParsedItem, Parser, Serializer, SerializerStyle, TreeNode};

            const STYLE: SerializerStyle<'static> = SerializerStyle {
                line_break: "\n",
                indentation: "  ",
            };

            /// The items of a text, one call of `next_item` each, and `finish`.
            pub fn items(text: &str) -> usize {
                let mut parser = Parser::new(text);
                let (mut items, mut open) = (0, 0usize);
                loop {
                    match parser.next_item().expect("a good text") {
                        ParsedItem::ListStart(_) => open += 1,
                        ParsedItem::ListEnd(_) => open -= 1,
                        ParsedItem::Atom(..) => {}
                    }
                    items += 1;
                    if open == 0 {
                        break;
                    }
                }
                parser.finish().expect("the end of the text");
                items
            }

            pub fn tree(text: &str) -> TreeNode {
                parse_tree(&mut Parser::new(text)).expect("a good text")
            }

            pub fn parsed<'a>(text: &'a str) -> Vec<ParsedItem<'a>> {
                let mut parser = Parser::new(text);
                let items = items(text);
                (0..items).map(|_| parser.next_item().expect("an item")).collect()
            }

            /// The items written again, one call each, all at one threshold, and a finish.
            pub fn write(items: &[ParsedItem], threshold: usize, out: &mut String) {
                out.clear();
                let mut serializer = Serializer::new(STYLE, out);
                for item in items {
                    match item {
                        ParsedItem::ListStart(_) => serializer.begin_list(threshold),
                        ParsedItem::ListEnd(_) => serializer.end_list(),
                        ParsedItem::Atom(atom, _) => serializer.put_atom(atom, threshold),
                    }
                }
                serializer.finish(true);
            }

            pub fn write_tree(tree: &TreeNode, threshold: usize, out: &mut String) {
                out.clear();
                let mut serializer = Serializer::new(STYLE, out);
                serialize_tree(&mut serializer, tree, threshold);
                serializer.finish(true);
            }

            pub fn check(atom: &str) -> bool {
                check_atom(atom)
            }
        }
    };
}

side!(package, ::sise);
side!(original, crate);

/// The least times of both, and the ratio, for so many calls of the API.
fn row<A, B>(
    name: &str,
    calls: usize,
    mut package: impl FnMut() -> A,
    mut original: impl FnMut() -> B,
) {
    // A short row so often that the clock does not count.
    let times = (100_000 / calls).max(1);
    let mut best = (f64::MAX, f64::MAX);
    for _ in 0..ROUNDS {
        best.0 = best.0.min(repeated(times, &mut package));
        best.1 = best.1.min(repeated(times, &mut original));
    }
    let (package, original) = best;
    println!(
        "{name:<28} {calls:>10} calls {:>8.1} ns/call {:>7.2}",
        package / calls as f64 * 1e9,
        original / package
    );
}

fn reading(name: &str, text: &str) {
    let calls = package::items(text) + 1;
    assert_eq!(calls, original::items(text) + 1);
    row(
        name,
        calls,
        || package::items(text),
        || original::items(text),
    );
}

fn writing(name: &str, text: &str, threshold: usize) {
    let (ours, theirs) = (package::parsed(text), original::parsed(text));
    let (mut out, mut due) = (String::new(), String::new());
    package::write(&ours, threshold, &mut out);
    original::write(&theirs, threshold, &mut due);
    assert_eq!(out, due);
    let calls = ours.len() + 1;
    row(
        name,
        calls,
        || package::write(&ours, threshold, &mut out),
        || original::write(&theirs, threshold, &mut due),
    );
}

fn trees(name: &str, text: &str, threshold: usize) {
    let (ours, theirs) = (package::tree(text), original::tree(text));
    let (mut out, mut due) = (String::new(), String::new());
    package::write_tree(&ours, threshold, &mut out);
    original::write_tree(&theirs, threshold, &mut due);
    assert_eq!(out, due);
    let calls = package::items(text);
    row(
        &format!("parse_tree, {name}"),
        calls,
        || package::tree(text),
        || original::tree(text),
    );
    row(
        &format!("serialize_tree, {name}"),
        calls,
        || package::write_tree(&ours, threshold, &mut out),
        || original::write_tree(&theirs, threshold, &mut due),
    );
}

/// All rows; the texts are those of the other parts.
pub fn rows(profile: &str, short: &str, deep: &str) {
    println!(
        "{:<28} {:>16} {:>16} {:>7}",
        "the package, call by call", "", "package", "ratio"
    );
    reading("next_item, typical profile", profile);
    reading("next_item, short atoms", short);
    reading("next_item, deep nesting", deep);
    for (place, threshold) in [("broken", 0), ("at 80", 80), ("one line", usize::MAX)] {
        writing(&format!("written, typical, {place}"), profile, threshold);
    }
    writing("written, deep, one line", deep, usize::MAX);
    trees("typical", profile, 80);
    trees("short atoms", short, 80);
    trees("broken", profile, 0);
    trees("10 kB", &super::typical(10_000), 80);
    row(
        "check_atom, short",
        1,
        || package::check(std::hint::black_box("limit")),
        || original::check(std::hint::black_box("limit")),
    );
}
