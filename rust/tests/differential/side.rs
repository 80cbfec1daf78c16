//! One side of the comparison: a list of calls made on one of the two libraries, and all that it says.

use std::hash::{DefaultHasher, Hash, Hasher};
use std::panic::{catch_unwind, AssertUnwindSafe};

/// What a call says, its panic too.
pub fn said(call: impl FnOnce() -> String) -> String {
    catch_unwind(AssertUnwindSafe(call)).unwrap_or_else(|payload| {
        let message = payload
            .downcast_ref::<&str>()
            .map(|message| message.to_string());
        let message = message.or(payload.downcast_ref::<String>().cloned());
        format!("panics: {}", message.expect("a panic with a message"))
    })
}

pub fn hash(value: &impl Hash) -> u64 {
    let mut hasher = DefaultHasher::new();
    value.hash(&mut hasher);
    hasher.finish()
}

/// A module with the calls of a library, whose root is named.
macro_rules! side {
    ($name:ident, $($root:tt)+) => {
        mod $name {
            use $($root)+ as library;
            use crate::lists::{List, Read, Shape, Write};
            use crate::side::{hash, said};
            use library::{ParsedItem, Parser, Serializer, SerializerStyle, TreeNode};

            pub fn run(list: &List) -> Vec<String> {
                match list {
                    List::Reading { text, calls, finish } => reading(text, calls, *finish),
                    List::Writing { style, before, calls, finish } => writing(*style, before, calls, *finish),
                    List::Tree { shape, paths } => tree(shape, paths),
                    List::Atoms { atoms } => atoms.iter().map(|atom| self::atom(atom)).collect(),
                }
            }

            fn reading(text: &str, calls: &[Read], finish: bool) -> Vec<String> {
                let mut parser = Parser::new(text);
                let mut all = Vec::new();
                for call in calls {
                    all.push(said(|| match call {
                        Read::NextItem => {
                            let item = parser.next_item();
                            let item = item.inspect(|item| {
                                // An atom is the text's own part.
                                if let ParsedItem::Atom(atom, pos) = item {
                                    assert_eq!(atom.as_ptr() as usize - text.as_ptr() as usize, *pos);
                                }
                            });
                            let error = item.as_ref().err().map(|error| error.to_string());
                            format!("{item:?} {error:?}")
                        }
                        Read::ParseTree => format!("{:?}", library::parse_tree(&mut parser)),
                    }));
                }
                if finish {
                    all.push(said(|| format!("{:?}", parser.finish())));
                }
                all
            }

            fn writing(style: [&str; 2], before: &str, calls: &[Write], finish: Option<bool>) -> Vec<String> {
                let [line_break, indentation] = style;
                let style = SerializerStyle { line_break, indentation };
                let mut out = String::from(before);
                let mut serializer = Serializer::new(style, &mut out);
                let mut all = vec![format!("{style:?}")];
                for call in calls {
                    all.push(said(|| {
                        match call {
                            Write::PutAtom(atom, at) => serializer.put_atom(atom, *at),
                            Write::BeginList(at) => serializer.begin_list(*at),
                            Write::EndList => serializer.end_list(),
                            Write::Tree(shape, at) => library::serialize_tree(&mut serializer, &node(shape), *at),
                        }
                        String::from("written")
                    }));
                }
                if let Some(insert_line_break) = finish {
                    all.push(said(|| {
                        serializer.finish(insert_line_break);
                        String::from("finished")
                    }));
                }
                all.push(out);
                all
            }

            fn node(shape: &Shape) -> TreeNode {
                match shape {
                    Shape::Atom(atom) => TreeNode::from(atom.clone()),
                    Shape::List(list) => TreeNode::from(list.iter().map(node).collect::<Vec<_>>()),
                }
            }

            fn tree(shape: &Shape, paths: &[Vec<usize>]) -> Vec<String> {
                let mut tree = node(shape);
                let mut all = vec![format!("{tree:?} {}", hash(&tree))];
                for path in paths {
                    let found = tree.index_path(path);
                    all.push(format!("{found:?} {:?} {:?}", found == Some(&tree), found.map(|found| {
                        (found.is_atom(), found.is_list(), *found == *"x", *found == "x", *found == String::from("x"))
                    })));
                }
                all.push(format!("{:?} {:?}", tree.as_atom(), tree.as_list()));
                if let Some(atom) = tree.as_mut_atom() {
                    atom.push('+');
                }
                if let Some(list) = tree.as_mut_list() {
                    list.push(TreeNode::from("last"));
                }
                let copy = tree.clone();
                all.push(format!("{} {:?} {:?}", copy == tree, tree.into_atom(), copy.into_list()));
                all
            }

            fn atom(atom: &str) -> String {
                let characters = atom.chars().map(|chr| (library::is_atom_chr(chr), library::is_atom_string_chr(chr)));
                format!("{} {:?}", library::check_atom(atom), characters.collect::<Vec<_>>())
            }
        }
    };
}
