//! One case of a seed, by its number: a text that is read, a table, a list of the writer's calls, bytes that may be an atom, or a single call over the words
//! of a record.

use crate::answers::Check;
use crate::calls::{Call, Calls};
use crate::damage::damage;
use crate::inside;
use crate::kinds;
use crate::numbers::{bytes, hostile, len, threshold};
use crate::random::Random;
use crate::reading;
use crate::records;
use crate::scripts::script;
use crate::shown::{bytes_shown, tree_shown, writing_shown};
use crate::singly;
use crate::styles::style;
use crate::tables::{table, words};
use crate::texts::{good, Texts};
use crate::tree::Tree;
use crate::writing::Writing;

pub fn run(calls: &mut Calls, texts: &Texts, seed: u64, number: u64) -> Check {
    let mut random = Random::new(seed << 32 ^ number);
    match random.below(12) {
        0..=2 => read(calls, &mut random, texts),
        3..=5 => held(calls, &mut random, texts),
        6..=8 => written(calls, &mut random, texts),
        9 => checked(calls, &mut random, texts),
        10 => read_on(calls, &mut random, texts),
        _ => written_on(calls, &mut random, texts),
    }
}

/// A text is read into a table with any words in it, and the table's tree, if it is one, is searched and written.
fn read(calls: &mut Calls, random: &mut Random, texts: &Texts) -> Check {
    let text = texts.text(random);
    let before = words(random, text.len());
    let mut tree = tree(random, text, before);
    let read = reading::check(calls, &tree.text, &tree.table);
    tree.table = read.map_err(|rule| format!("{rule}; {}", tree_shown(&tree)))?;
    tree.check(calls)
        .map_err(|rule| format!("{rule}; {}", tree_shown(&tree)))
}

/// Any table over any text.
fn held(calls: &mut Calls, random: &mut Random, texts: &Texts) -> Check {
    let text = if random.percent(60) {
        good(random)
    } else {
        texts.text(random)
    };
    let table = table(random, calls, &text);
    let mut tree = tree(random, text, table);
    if random.percent(10) {
        damage(random, &mut tree.text);
    }
    if random.percent(20) {
        let words = records::writer(random, tree.buffer.len());
        let put = inside::check_put(calls, &tree, words);
        put.map_err(|rule| format!("{rule}; record {words:x?}; {}", tree_shown(&tree)))?;
    }
    tree.check(calls)
        .map_err(|rule| format!("{rule}; {}", tree_shown(&tree)))
}

fn written(calls: &mut Calls, random: &mut Random, texts: &Texts) -> Check {
    let script = script(random, texts);
    let room = len(random);
    let writing = Writing {
        script,
        buffer: bytes(random, room),
    };
    writing
        .check(calls)
        .map_err(|rule| format!("{rule}; {}", writing_shown(&writing)))
}

fn checked(calls: &mut Calls, random: &mut Random, texts: &Texts) -> Check {
    let bytes = atom(random, texts);
    kinds::check_read(calls, &bytes).map_err(|rule| format!("{rule}; {}", bytes_shown(&bytes)))
}

/// A reader's record of any words.
fn read_on(calls: &mut Calls, random: &mut Random, texts: &Texts) -> Check {
    let text = texts.text(random);
    let record = records::reader(random, text.len());
    let table = words(random, text.len());
    inside::check_read(calls, &text, record, &table)
        .and_then(|()| singly::check_reader(calls, &text, record))
        .map_err(|rule| format!("{rule}; record {record:x?}; {}", bytes_shown(&text)))
}

/// A writer's record of any words.
fn written_on(calls: &mut Calls, random: &mut Random, texts: &Texts) -> Check {
    let room = len(random);
    let (style, buffer) = (style(random), bytes(random, room));
    let words = records::writer(random, room);
    let break_line_at = threshold(random);
    let call = match random.below(5) {
        0..=1 => Call::PutAtom {
            atom: atom(random, texts),
            break_line_at,
        },
        2 => Call::BeginList { break_line_at },
        3 => Call::EndList,
        _ => Call::Finish {
            final_break: random.percent(50),
        },
    };
    singly::check_writer(calls, &call, &style, &buffer, words)
        .map_err(|rule| format!("{rule}; record {words:x?}; buffer of {room} bytes"))
}

/// Mostly an atom.
fn atom(random: &mut Random, texts: &Texts) -> Vec<u8> {
    if random.percent(80) {
        kinds::bytes(random)
    } else {
        texts.text(random)
    }
}

fn tree(random: &mut Random, text: Vec<u8>, table: Vec<u32>) -> Tree {
    let room = len(random);
    Tree {
        text,
        table,
        paths: vec![Vec::new(), path(random), path(random), path(random)],
        style: style(random),
        buffer: bytes(random, room),
        break_line_at: threshold(random),
        final_break: random.percent(50),
        size: [room, 10, 40].map(|near| hostile(random, near)),
    }
}

/// Mostly small steps; deep along first children, sometimes.
fn path(random: &mut Random) -> Vec<u64> {
    let longest = if random.percent(5) { 300 } else { 5 };
    let widest = random.pick(&[1, 3, 9]);
    let strange = random.pick(&[0, 0, 20]);
    let step = |random: &mut Random| {
        if random.percent(strange) {
            hostile(random, 4)
        } else {
            random.below(widest) as u64
        }
    };
    (0..random.below(longest)).map(|_| step(random)).collect()
}
