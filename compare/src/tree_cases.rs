//! The cases for the tree calls.

use crate::cases::{calls_to_the_end, Kind, Maker as TextMaker, KINDS};
use crate::model;
use crate::options::Options;
use crate::random::Random;
use crate::tree_case::{TreeCase, LONGEST_PATH, MOST_WORDS};
use crate::tree_examples;
use crate::tree_judge::{house_thresholds, HOUSE};
use crate::tree_model::{held, opened, parse_tree, serialize_house_at, serialize_tree, Node};
use crate::writer_cases::{style, STYLES};
use crate::writer_model::Model;
use crate::writing::LARGEST_ROOM;

const LARGEST: u64 = u64::MAX;

/// The examples, deep and flat trees, every short text, then random ones.
pub fn all(options: &Options) -> impl Iterator<Item = TreeCase> {
    let longest = if options.quick { 4 } else { 5 };
    let default = if options.quick { 40_000 } else { 300_000 };
    let mut maker = Maker::new(options.seed, 1_500);
    let random = std::iter::repeat_with(move || maker.random_case());
    tree_examples::cases()
        .into_iter()
        .chain(deep())
        .chain(flat())
        .chain(short(longest, options.seed))
        .chain(random)
        .take(options.cases.unwrap_or(default))
}

/// A case with an ample table and buffer.
pub fn plain(text: &[u8]) -> TreeCase {
    TreeCase {
        text: text.to_vec(),
        calls: 0,
        words: MOST_WORDS,
        stores: Vec::new(),
        first: 0,
        style: STYLES[0],
        room: LARGEST_ROOM,
        lists: 0,
        threshold: LARGEST,
        writings: 1,
        paths: Vec::new(),
    }
}

/// Lists in each other, the writer's and the tree's together up to 1,300.
pub fn deep() -> Vec<TreeCase> {
    let mut cases = Vec::new();
    for lists in [0, 1, 3, 300] {
        for depth in [0, 1, 250, 700, 1_000] {
            for (threshold, atom) in [(0, "a"), (300, "\"b c\""), (LARGEST, "")] {
                let text = format!("{}{atom}{}", "(".repeat(depth), ")".repeat(depth));
                let longest = depth.min(LONGEST_PATH - 1);
                cases.push(TreeCase {
                    words: MOST_WORDS.min(4 * (depth + 1)),
                    style: style("\n", ""),
                    lists,
                    threshold,
                    writings: 2,
                    paths: vec![vec![0; longest], vec![0; longest + 1]],
                    ..plain(text.as_bytes())
                });
            }
        }
    }
    cases
}

/// Lists with as many atoms as the largest table takes, one fewer and one more.
fn flat() -> Vec<TreeCase> {
    let counts: [usize; 6] = [0, 1, 300, 1_022, 1_023, 1_024];
    let cases = counts.iter().map(|&count| {
        let last = count.saturating_sub(1) as u64;
        TreeCase {
            words: MOST_WORDS.min(4 * (count + 1)),
            style: STYLES[2],
            threshold: 80,
            paths: vec![vec![last], vec![last + 1], vec![last, 0]],
            ..plain(format!("({})", "a ".repeat(count)).as_bytes())
        }
    });
    cases.collect()
}

const SYMBOLS: [u8; 6] = *b"()a\"; ";

/// Every text of up to `longest` symbols, at every point of its reading and beyond.
pub fn short(longest: u32, seed: u64) -> impl Iterator<Item = TreeCase> {
    let mut maker = Maker::new(seed, 0);
    let texts = (0..=longest).flat_map(|len| {
        (0..SYMBOLS.len().pow(len)).map(move |mut number| {
            let mut text = Vec::new();
            for _ in 0..len {
                text.push(SYMBOLS[number % SYMBOLS.len()]);
                number /= SYMBOLS.len();
            }
            text
        })
    });
    let points = texts.flat_map(|text| {
        let most = calls_to_the_end(&text) + 1;
        (0..=most).map(move |calls| (text.clone(), calls))
    });
    points.map(move |(text, calls)| maker.case(text, calls))
}

pub struct Maker {
    random: Random,
    texts: TextMaker,
}

impl Maker {
    pub fn new(seed: u64, largest: usize) -> Self {
        Self {
            random: Random::new(seed),
            texts: TextMaker::new(seed, largest),
        }
    }

    pub fn random_case(&mut self) -> TreeCase {
        let kind = if self.random.percent(50) {
            Kind::Good
        } else {
            self.random.pick(&KINDS)
        };
        let text = self.texts.text(kind);
        let calls = if self.random.percent(40) {
            0
        } else {
            self.random.below(calls_to_the_end(&text) + 3)
        };
        self.case(text, calls)
    }

    /// The tree of the text after so many calls, with the rest at random.
    fn case(&mut self, text: Vec<u8>, calls: usize) -> TreeCase {
        let mut reader = model::Model::after(&text, calls);
        let node = parse_tree(&mut reader, &mut []).node;
        let nodes = node.as_ref().map_or(self.random.below(3), Node::size);
        let random = &mut self.random;
        let mut case = TreeCase {
            calls,
            words: words(random, nodes),
            style: random.pick(&STYLES),
            lists: random.pick(&[0, 0, 0, 1, 2, 3]),
            threshold: threshold(random),
            writings: random.pick(&[0, 1, 1, 1, 2]),
            paths: node.map_or(vec![vec![]], |node| paths(random, &node)),
            ..plain(&text)
        };
        if random.percent(15) {
            case.first = first(random, case.words);
        }
        if random.percent(20) {
            case.stores = stores(random, &case);
        }
        case.room = room(random, &case);
        case
    }
}

/// A table that is exactly full, a word or a node short, or larger.
fn words(random: &mut Random, nodes: usize) -> usize {
    let full = 4 * nodes;
    let words = match random.below(6) {
        0 => full.saturating_sub(1),
        1 => full.saturating_sub(4),
        2 => full + 1 + random.below(9),
        _ => full,
    };
    words.min(MOST_WORDS)
}

fn threshold(random: &mut Random) -> u64 {
    match random.below(4) {
        0 => 0,
        1 => random.below(12) as u64,
        2 => random.below(100) as u64,
        _ => LARGEST,
    }
}

/// A few words stored: most make the table one that holds no tree, or an atom none.
fn stores(random: &mut Random, case: &TreeCase) -> Vec<(usize, u32)> {
    let table = parsed(case);
    (0..=random.below(3))
        .flat_map(|_| match random.below(8) {
            0..=2 => first_word(random, case, &table),
            3 => moved_atom(random, case, &table),
            _ => vec![any_word(random, case)],
        })
        .collect()
}

/// The table as `parse_tree` leaves it.
fn parsed(case: &TreeCase) -> Vec<u32> {
    let mut table = case.fresh_table();
    parse_tree(&mut model::Model::after(&case.text, case.calls), &mut table);
    table
}

/// The place of an atom's first word in the table, if it has an atom.
fn atom(random: &mut Random, table: &[u32]) -> Option<usize> {
    let nodes = table.chunks_exact(4).enumerate();
    let atoms: Vec<usize> = nodes
        .filter(|(_, node)| (1..=3).contains(&node[0]))
        .map(|(index, _)| 4 * index)
        .collect();
    (!atoms.is_empty()).then(|| random.pick(&atoms))
}

/// A node's first word, most often an atom's, which says of which kind the atom is.
fn first_word(random: &mut Random, case: &TreeCase, table: &[u32]) -> Vec<(usize, u32)> {
    let any = 4 * random.below(case.words / 4 + 1);
    let place = atom(random, table).filter(|_| random.percent(80));
    let word = random.pick(&[0, 1, 1, 2, 2, 2, 3, 3, 4, 5]);
    vec![(place.unwrap_or(any), word)]
}

/// An atom becomes another part of the text, as one of any kind: an atom, mostly none.
fn moved_atom(random: &mut Random, case: &TreeCase, table: &[u32]) -> Vec<(usize, u32)> {
    let Some(node) = atom(random, table) else {
        return Vec::new();
    };
    let place = random.below(case.text.len());
    let longest = (case.text.len() - place).min(9);
    let len = random.below(longest + 1);
    let kind = random.pick(&[1, 2, 3, 3, 4]);
    vec![
        (node, kind),
        (node + 1, place as u32),
        (node + 2, len as u32),
    ]
}

/// Every other one is a third word, which says of a list where its parent is, and one in four of these is the first node's that the calls are lent, where
/// it isn't looked at.
fn any_word(random: &mut Random, case: &TreeCase) -> (usize, u32) {
    let len = case.text.len() as u32;
    let near = random.below(case.words / 4 + 2) as u32;
    let place = match random.below(8) {
        0 => case.first + 2,
        1..=3 => 4 * random.below(case.words / 4 + 1) + 2,
        _ => random.below(case.words + 2),
    };
    let word = random.pick(&[0, 1, 2, 3, near, near, len, len + 1, u32::MAX]);
    (place, word)
}

/// Mostly a node's first word, so that the calls get a subtree.
fn first(random: &mut Random, words: usize) -> usize {
    if random.percent(80) {
        4 * random.below(words / 4 + 1)
    } else {
        random.below(words + 1)
    }
}

/// A buffer that one of the writings fills exactly or is a byte too long for, or an ample one.
fn room(random: &mut Random, case: &TreeCase) -> usize {
    let choice = random.below(8);
    if choice > 3 {
        return LARGEST_ROOM;
    }
    let mut table = parsed(case);
    case.store(&mut table);
    let tree = held(&table[case.first..], &case.text);
    let len = if choice < 2 {
        let (mut model, _) = opened(case.style, LARGEST_ROOM, case.lists);
        for _ in 0..case.writings {
            // Only the text it leaves counts here.
            let _ = serialize_tree(&mut model, tree.as_ref(), &case.text, case.threshold);
        }
        model.text.len()
    } else {
        let mut model = Model::new(HOUSE, LARGEST_ROOM);
        let threshold = house_thresholds(case)[case.text.len() % 3];
        let _ = serialize_house_at(&mut model, tree.as_ref(), &case.text, threshold);
        model.text.len()
    };
    len.saturating_sub(choice % 2)
}

/// Every path of a small tree, and from each node one past its children and one far past; some of a large one.
fn paths(random: &mut Random, node: &Node) -> Vec<Vec<u64>> {
    if node.size() > 9 {
        return (0..6).map(|_| walk(random, node)).collect();
    }
    let mut all = Vec::new();
    put_paths(node, &mut Vec::new(), &mut all);
    all
}

fn put_paths(node: &Node, path: &mut Vec<u64>, out: &mut Vec<Vec<u64>>) {
    out.push(path.clone());
    let mut past = 0;
    if let Node::List(children) = node {
        for child in children {
            path.push(past);
            put_paths(child, path, out);
            path.pop();
            past += 1;
        }
    }
    for step in [past, LARGEST] {
        path.push(step);
        out.push(path.clone());
        path.pop();
    }
}

/// A path from child to child that now and then goes past the last, or into an atom.
fn walk(random: &mut Random, node: &Node) -> Vec<u64> {
    let mut path = Vec::new();
    let mut node = node;
    while path.len() < LONGEST_PATH && random.percent(85) {
        let Node::List(children) = node else {
            if random.percent(30) {
                path.push(random.below(3) as u64);
            }
            break;
        };
        let past = random.percent(5);
        let step = random.below(children.len()) + if past { children.len() } else { 0 };
        path.push(step as u64);
        let Some(child) = children.get(step) else {
            break;
        };
        node = child;
    }
    path
}
