//! What is expected of a tree's case, by the model; on the way, the model is held against the crate's `parse_tree`, `serialize_tree` and `index_path`.

use crate::differences::{Described, Differences};
use crate::model;
use crate::original::{Masked, Original};
use crate::reading::{Reader, Refusal};
use crate::replay::Judges;
use crate::script::{put_record, refused};
use crate::serializer::{Serializer, SerializerStyle};
use crate::tree_case::{put_case, TreeCase};
use crate::tree_model::{
    commit_tree, find_path, held, index_path, measure_tree, opened, parse_tree, read_node,
    serialize_house_at, serialize_tree, Node, Parsed, Size,
};
use crate::writer_judge::{agree, call_original, put_line, wide};
use crate::writer_model::Model;
use crate::writing::Style;
use crate::TreeNode;
use std::panic::{catch_unwind, AssertUnwindSafe};

pub const HOUSE: Style = Style {
    line_break: "\n",
    indentation: "  ",
};

/// The house style's own threshold.
const HOUSE_THRESHOLD: u64 = 72;

/// Where a case has its tree written in house style: at 0, at the case's threshold, and at the style's own.
pub fn house_thresholds(case: &TreeCase) -> [u64; 3] {
    [0, case.threshold, HOUSE_THRESHOLD]
}

/// How often a case commits its tree.
const COMMITS: usize = 3;

/// A writing of a case's tree: in one call, or with the answer of an enquiry.
#[derive(Clone, Copy)]
enum Writing {
    Call,
    Commit(Result<Size, u8>),
}

#[derive(Default)]
pub struct TreeJudge {
    pub cases: usize,
    pub calls: usize,
    /// Tree calls that the crate answers too, and those on which it panics.
    shared: usize,
    panics: usize,
    pub disagreements: Differences,
}

impl TreeJudge {
    /// The lines after `CASE` that replay has to print.
    pub fn expected(&mut self, case: &TreeCase) -> Vec<u8> {
        self.cases += 1;
        self.calls += case.calls
            + 1
            + case.writings
            + house_thresholds(case).len()
            + COMMITS
            + 1
            + 2 * case.paths.len();
        let mut lines = Vec::new();
        let mut table = case.fresh_table();
        self.parse(case, &mut table, &mut lines);
        case.store(&mut table);
        let tree = held(&table[case.first..], &case.text);
        let original = tree.as_ref().and_then(|tree| tree_node(tree, &case.text));
        let calls = vec![Writing::Call; case.writings];
        self.write(case, tree.as_ref(), original.as_ref(), &calls, &mut lines);
        for threshold in house_thresholds(case) {
            self.write_house(
                case,
                tree.as_ref(),
                original.as_ref(),
                threshold,
                &mut lines,
            );
        }
        self.commit(case, tree.as_ref(), original.as_ref(), &mut lines);
        for path in &case.paths {
            let answer = index_path(tree.as_ref(), path);
            self.follow_path(case, path, answer, original.as_ref());
            let found = find_path(&table[case.first..], path);
            if tree.is_some() {
                self.hold(case, "find_path", found == counted(answer, path));
            }
            let line = format!("{} | {}\n", indexed(answer), looked_up(found));
            lines.extend_from_slice(line.as_bytes());
        }
        lines
    }

    fn parse(&mut self, case: &TreeCase, table: &mut [u32], lines: &mut Vec<u8>) {
        let mut reader = model::Model::after(&case.text, case.calls);
        let parsed = parse_tree(&mut reader, table);
        self.hold_parsed(case, &parsed);
        let answer = match &parsed.answer {
            Ok(nodes) => format!("# {nodes}"),
            Err(refusal) => refused(refusal),
        };
        lines.extend_from_slice(answer.as_bytes());
        put_record(lines, &parsed.left);
        lines.extend_from_slice(b"\n:");
        for word in table {
            lines.extend_from_slice(format!(" {word}").as_bytes());
        }
        lines.push(b'\n');
    }

    /// The crate on the text, each ill-formed byte replaced by one that is wrong in every state; 9 and 12 are its panics. Its tree has no places:
    /// they are held against those of its items.
    fn hold_parsed(&mut self, case: &TreeCase, parsed: &Parsed) {
        let masked = Masked::new(&case.text);
        let mut original = Original::after(&masked.text, case.calls);
        let same = match (&parsed.node, original.parse_tree()) {
            (Err(Refusal { number: 9 | 12, .. }), None) => {
                self.panics += 1;
                true
            }
            (Ok(node), Some(Ok(tree))) => {
                self.shared += 1;
                tree_node(node, &case.text) == Some(tree)
            }
            (Err(refusal), Some(Err(found))) => {
                self.shared += 1;
                *refusal == masked.unmask_refusal(found)
            }
            _ => false,
        };
        self.hold(case, "parse_tree", same && original.record() == parsed.read);
        let items = read_node(&mut Original::after(&masked.text, case.calls));
        let items = items.map_err(|refusal| masked.unmask_refusal(refusal));
        self.hold(case, "next_item", items == parsed.node);
    }

    /// The size, and commits with a refusal, with that size, and with it again.
    fn commit(
        &mut self,
        case: &TreeCase,
        tree: Option<&Node>,
        original: Option<&TreeNode>,
        lines: &mut Vec<u8>,
    ) {
        let (model, _) = opened(case.style, case.room, case.lists);
        let size = measure_tree(&model, tree, &case.text, case.threshold);
        lines.extend_from_slice(measured(size).as_bytes());
        let commits: [_; COMMITS] = [Err(22), size, size].map(Writing::Commit);
        self.write(case, tree, original, &commits, lines);
    }

    fn write(
        &mut self,
        case: &TreeCase,
        tree: Option<&Node>,
        original: Option<&TreeNode>,
        writings: &[Writing],
        lines: &mut Vec<u8>,
    ) {
        let (mut model, opening) = opened(case.style, case.room, case.lists);
        let mut text = String::new();
        let mut serializer = Serializer::new(original_style(case.style), &mut text);
        for call in &opening {
            serializer = call_original(serializer, call).expect("no finish among the calls");
        }
        for writing in writings {
            let (text, threshold) = (&case.text, case.threshold);
            let answer = match *writing {
                Writing::Call => serialize_tree(&mut model, tree, text, threshold),
                Writing::Commit(size) => commit_tree(&mut model, tree, text, threshold, size),
            };
            self.follow_writing(case, answer, original, &mut serializer);
            self.hold(case, "serialize_tree", agree(&model, &serializer));
            put_writing(lines, answer, &model);
        }
    }

    /// Makes an accepted call on the crate's writer; where the model has 17 or 19, sees that the crate panics. To 15, 22 and 23 it has nothing.
    fn follow_writing(
        &mut self,
        case: &TreeCase,
        answer: Result<usize, u8>,
        original: Option<&TreeNode>,
        serializer: &mut Serializer,
    ) {
        let Some(tree) = original else {
            return;
        };
        match answer {
            Ok(_) => {
                self.shared += 1;
                crate::serialize_tree(serializer, tree, wide(case.threshold));
            }
            Err(17 | 19) => {
                self.panics += 1;
                let panics = writing_panics(serializer, tree, case.threshold);
                self.hold(case, "serialize_tree", panics);
            }
            Err(_) => {}
        }
    }

    fn write_house(
        &mut self,
        case: &TreeCase,
        tree: Option<&Node>,
        original: Option<&TreeNode>,
        threshold: u64,
        lines: &mut Vec<u8>,
    ) {
        let mut model = Model::new(HOUSE, case.room);
        let answer = serialize_house_at(&mut model, tree, &case.text, threshold);
        put_writing(lines, answer, &model);
        if let (Ok(_), Some(tree)) = (answer, original) {
            self.shared += 1;
            let mut text = String::new();
            let mut serializer = Serializer::new(original_style(HOUSE), &mut text);
            crate::serialize_tree(&mut serializer, tree, wide(threshold));
            serializer.finish(true);
            self.hold(case, "house style", text.as_bytes() == model.text);
        }
    }

    fn follow_path(
        &mut self,
        case: &TreeCase,
        path: &[u64],
        answer: Result<usize, u8>,
        original: Option<&TreeNode>,
    ) {
        let Some(tree) = original else {
            return;
        };
        self.shared += 1;
        let path: Vec<usize> = path.iter().map(|&step| wide(step)).collect();
        let found = tree.index_path(&path);
        let index = found.map(|node| index_of(tree, node));
        self.hold(case, "index_path", index == answer.ok());
    }

    fn hold(&mut self, case: &TreeCase, call: &str, holds: bool) {
        if !holds {
            self.disagreements
                .note(|| format!("at {call}: {}", case.describe()));
        }
    }

    /// Prints the count of agreement; answers whether it is whole.
    pub fn print(&self) -> bool {
        let (shared, panics) = (self.shared, self.panics);
        let count = self.disagreements.count;
        println!(
            "model against crate: {shared} tree calls and {panics} panics, {count} disagreements"
        );
        self.disagreements
            .print("the first one, where the crate does otherwise:")
    }
}

impl Judges<TreeCase> for TreeJudge {
    fn put_script(&self, script: &mut Vec<u8>, case: &TreeCase) {
        put_case(script, case);
    }

    fn lines(&mut self, case: &TreeCase) -> Vec<u8> {
        self.expected(case)
    }
}

/// A writing's answer, the record after it, and the text so far.
fn put_writing(out: &mut Vec<u8>, answer: Result<usize, u8>, model: &Model) {
    put_line(out, answer, model);
    out.extend_from_slice(b"= ");
    out.extend_from_slice(&model.text);
    out.push(b'\n');
}

fn measured(answer: Result<Size, u8>) -> String {
    match answer {
        Ok([bytes, breaks, indents]) => format!("% {bytes} {breaks} {indents}\n"),
        Err(number) => format!("! {number}\n"),
    }
}

fn indexed(answer: Result<usize, u8>) -> String {
    match answer {
        Ok(index) => format!("# {index}"),
        Err(number) => format!("! {number}"),
    }
}

fn looked_up(answer: Result<(usize, usize), u8>) -> String {
    match answer {
        Ok((index, seen)) => format!("# {index} {seen}"),
        Err(number) => format!("! {number}"),
    }
}

/// What `find_path` gives where the table holds a tree: the answer of `index_path`, and for a node 1 plus the sum of (index + 1) over the path.
fn counted(answer: Result<usize, u8>, path: &[u64]) -> Result<(usize, usize), u8> {
    let seen = || 1 + path.iter().map(|&step| step as usize + 1).sum::<usize>();
    answer.map(|index| (index, seen()))
}

fn original_style(style: Style) -> SerializerStyle<'static> {
    SerializerStyle {
        line_break: style.line_break,
        indentation: style.indentation,
    }
}

/// The crate's node with the atoms' bytes, which has no kinds; `None` where they are no `&str`.
fn tree_node(node: &Node, text: &[u8]) -> Option<TreeNode> {
    match node {
        Node::Atom { place, len, .. } => {
            let atom = std::str::from_utf8(&text[*place..*place + *len]).ok()?;
            Some(TreeNode::Atom(String::from(atom)))
        }
        Node::List(children) => {
            let nodes = children.iter().map(|child| tree_node(child, text));
            nodes.collect::<Option<Vec<_>>>().map(TreeNode::List)
        }
    }
}

/// Whether the crate panics on the tree, written by a copy of the writer.
fn writing_panics(serializer: &Serializer, tree: &TreeNode, threshold: u64) -> bool {
    let mut text = String::from(serializer.text());
    let mut copy = serializer.copy(&mut text);
    let write = AssertUnwindSafe(|| crate::serialize_tree(&mut copy, tree, wide(threshold)));
    catch_unwind(write).is_err()
}

/// How many nodes stand before the one that is found, each list before its children.
fn index_of(tree: &TreeNode, found: &TreeNode) -> usize {
    let mut index = 0;
    let mut stack = vec![tree];
    while let Some(node) = stack.pop() {
        if std::ptr::eq(node, found) {
            break;
        }
        index += 1;
        if let TreeNode::List(children) = node {
            stack.extend(children.iter().rev());
        }
    }
    index
}
