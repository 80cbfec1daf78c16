//! The proved library and the crate sise 0.8.0 on the same texts, in one program: rounds in turn, the least time of each, and the ratio of the two.
//! A ratio above 1 says that the library is faster. The last part has the Cargo package of rust/ in its place, call by call.

extern crate alloc;

/// Some of the calls have no row.
#[allow(dead_code)]
#[path = "../exported.rs"]
mod exported;
mod package;
mod trees;
mod writing;

use exported::{sise_check_atom, sise_count_items, sise_read_items};
use std::time::Instant;
use trees::Trees;
use writing::Writing;

mod util {
    include!(concat!(env!("SISE_SRC"), "/util.rs"));
}

mod parser {
    include!(concat!(env!("SISE_SRC"), "/parser.rs"));
}

mod serializer {
    include!(concat!(env!("SISE_SRC"), "/serializer.rs"));
}

mod parse_tree {
    include!(concat!(env!("SISE_SRC"), "/parse_tree.rs"));
}

mod serialize_tree {
    include!(concat!(env!("SISE_SRC"), "/serialize_tree.rs"));
}

/// The crate's `tree`; most of its methods are called by no row.
#[allow(dead_code)]
mod tree_node {
    include!(concat!(env!("SISE_SRC"), "/tree.rs"));
}

pub use parse_tree::parse_tree;
pub use parser::{ParseError, ParsedItem, Parser};
pub use serialize_tree::serialize_tree;
pub use serializer::{Serializer, SerializerStyle};
pub use tree_node::TreeNode;
pub use util::{check_atom, is_atom_chr, is_atom_string_chr};

fn library_items(text: &str) -> u64 {
    // The text outlives the call, which reads it and keeps nothing.
    unsafe { sise_count_items(text.as_ptr(), text.len()) }
}

/// The items up to the end of the outermost one, after which the crate would panic.
fn crate_items(text: &str) -> u64 {
    let mut parser = Parser::new(text);
    let mut items = 0;
    let mut open = 0u64;
    while let Ok(item) = parser.next_item() {
        items += 1;
        match item {
            ParsedItem::ListStart(_) => open += 1,
            ParsedItem::ListEnd(_) => open -= 1,
            ParsedItem::Atom(..) => {}
        }
        if open == 0 {
            break;
        }
    }
    items
}

const ROUNDS: usize = 30;

/// What the run gives is dropped outside the time.
fn seconds<T>(mut run: impl FnMut() -> T) -> f64 {
    let start = Instant::now();
    let result = std::hint::black_box(run());
    let time = start.elapsed().as_secs_f64();
    drop(result);
    time
}

/// The time of one of so many runs.
fn repeated<T>(times: usize, mut run: impl FnMut() -> T) -> f64 {
    let all = seconds(|| {
        for _ in 0..times {
            std::hint::black_box(run());
        }
    });
    all / times as f64
}

/// The least times of the library and of the crate, in seconds.
fn least(text: &str) -> (f64, f64) {
    assert_eq!(library_items(text), crate_items(text));
    let mut best = (f64::MAX, f64::MAX);
    for _ in 0..ROUNDS {
        best.0 = best
            .0
            .min(seconds(|| library_items(std::hint::black_box(text))));
        best.1 = best
            .1
            .min(seconds(|| crate_items(std::hint::black_box(text))));
    }
    best
}

fn list_of(piece: &str, size: usize) -> String {
    format!("({})", piece.repeat(size / piece.len()))
}

/// The sample profile's list again and again, in one list.
fn typical(size: usize) -> String {
    list_of(include_str!("../../profiles/stage.sise"), size)
}

fn row(name: &str, text: &str) {
    let (library, original) = least(text);
    let rate = text.len() as f64 / library / 1e6;
    println!(
        "{name:<28} {:>10} bytes {rate:>8.0} MB/s {:>8.2}",
        text.len(),
        original / library
    );
}

/// A text's items read into memory that is there: four words an item, or the crate's own items.
fn items_read(name: &str, text: &str) {
    let mut words = vec![0; 4 * text.len()];
    let mut items = Vec::with_capacity(text.len());
    let mut by_library = || {
        let mut values = [0; 2];
        // What is lent outlives the call, and nobody else borrows what it writes.
        let number = unsafe {
            sise_read_items(
                text.as_ptr(),
                text.len(),
                words.as_mut_ptr(),
                words.len(),
                values.as_mut_ptr(),
            )
        };
        assert_eq!(number, 0);
        values[0] as usize
    };
    let mut by_crate = || {
        items.clear();
        let mut parser = Parser::new(text);
        let mut open = 0u64;
        while let Ok(item) = parser.next_item() {
            match item {
                ParsedItem::ListStart(_) => open += 1,
                ParsedItem::ListEnd(_) => open -= 1,
                ParsedItem::Atom(..) => {}
            }
            items.push(item);
            if open == 0 {
                break;
            }
        }
        parser.finish().expect("the end of the text");
        items.len()
    };
    assert_eq!(by_library(), by_crate());
    let mut best = (f64::MAX, f64::MAX);
    for _ in 0..ROUNDS {
        best.0 = best.0.min(seconds(&mut by_library));
        best.1 = best.1.min(seconds(&mut by_crate));
    }
    let (library, original) = best;
    let rate = text.len() as f64 / library / 1e6;
    println!(
        "{name:<28} {:>10} bytes {rate:>8.0} MB/s {:>8.2}",
        text.len(),
        original / library
    );
}

/// The items of a text written again, all at one threshold; a short list so often that the clock does not count.
fn written(name: &str, text: &str, threshold: usize) {
    let mut writing = Writing::new(text, threshold);
    assert!(writing.agrees());
    let calls = writing.calls();
    let times = (100_000 / calls).max(1);
    let mut best = (f64::MAX, f64::MAX, f64::MAX);
    for _ in 0..ROUNDS {
        best.0 = best.0.min(repeated(times, || writing.by_library(false)));
        best.1 = best.1.min(repeated(times, || writing.by_library(true)));
        best.2 = best.2.min(repeated(times, || writing.by_crate()));
    }
    let (library, singly, original) = best;
    let time = |seconds: f64| seconds / calls as f64 * 1e9;
    print!(
        "{name:<28} {calls:>10} calls {:>8.1} ns/call {:>7.2}",
        time(library),
        original / library
    );
    println!(" {:>8.1} ns/call {:>7.2}", time(singly), original / singly);
}

/// An atom checked, so many times over.
fn checked(name: &str, atom: &str, times: usize) {
    let library = |atom: &str| {
        // The atom outlives the call, which reads it and keeps nothing.
        unsafe { sise_check_atom(atom.as_ptr(), atom.len()) == 0 }
    };
    assert!(library(atom) && check_atom(atom));
    let again = |check: &dyn Fn(&str) -> bool| {
        (0..times)
            .filter(|_| check(std::hint::black_box(atom)))
            .count()
    };
    let mut best = (f64::MAX, f64::MAX);
    for _ in 0..ROUNDS {
        best.0 = best.0.min(seconds(|| again(&library)));
        best.1 = best.1.min(seconds(|| again(&check_atom)));
    }
    let (library, original) = best;
    println!(
        "{name:<28} {:>10} bytes {:>8.1} ns/call {:>5.2}",
        atom.len(),
        library / times as f64 * 1e9,
        original / library
    );
}

/// A text read into a tree.
fn tree_read(name: &str, text: &str) {
    let mut trees = Trees::new(text);
    let mut best = (f64::MAX, f64::MAX);
    for _ in 0..ROUNDS {
        best.0 = best.0.min(seconds(|| trees.parse_by_library()));
        best.1 = best.1.min(seconds(|| trees.parse_by_crate()));
    }
    let (library, original) = best;
    let rate = text.len() as f64 / library / 1e6;
    println!(
        "{name:<28} {:>10} bytes {rate:>8.0} MB/s {:>8.2}",
        text.len(),
        original / library
    );
}

/// A text's tree written again.
fn tree_written(name: &str, text: &str, threshold: usize) {
    let mut trees = Trees::new(text);
    assert!(trees.agree(threshold));
    let mut best = (f64::MAX, f64::MAX);
    for _ in 0..ROUNDS {
        best.0 = best.0.min(seconds(|| trees.write_by_library(threshold)));
        best.1 = best.1.min(seconds(|| trees.write_by_crate(threshold)));
    }
    let (library, original) = best;
    let written = trees.write_by_crate(threshold);
    let rate = written as f64 / library / 1e6;
    println!(
        "{name:<28} {written:>10} bytes {rate:>8.0} MB/s {:>8.2}",
        original / library
    );
}

/// A text's tree written in one call, measured, and measured and then committed: the times as parts of the first.
fn tree_committed(name: &str, text: &str, threshold: usize) {
    let mut trees = Trees::new(text);
    assert!(trees.agree(threshold));
    let written = trees.write_by_library(threshold);
    assert_eq!(trees.commit_by_library(threshold), written);
    let (mut once, mut measured, mut pair) = (f64::MAX, f64::MAX, f64::MAX);
    for _ in 0..ROUNDS {
        once = once.min(seconds(|| trees.write_by_library(threshold)));
        measured = measured.min(seconds(|| trees.measure_by_library(threshold)));
        pair = pair.min(seconds(|| trees.commit_by_library(threshold)));
    }
    println!(
        "{name:<28} {written:>10} bytes {:>8.2} {:>12.2}",
        measured / once,
        pair / once
    );
}

fn sizes(size: usize) {
    println!(
        "{:<28} {:>16} {:>8} {:>12}",
        "one call is 1", "", "measured", "and committed"
    );
    let profile = typical(size);
    for (place, threshold) in [("broken", 0), ("at 80", 80), ("one line", usize::MAX)] {
        tree_committed(&format!("typical, {place}"), &profile, threshold);
    }
}

/// A path through a text's tree.
fn tree_indexed(name: &str, text: &str, path: &[usize]) {
    let trees = Trees::new(text);
    let words: Vec<u64> = path.iter().map(|&step| step as u64).collect();
    assert!(
        trees.index_by_crate(path).is_some() && trees.index_by_library(&words) < text.len() as u64
    );
    let mut best = (f64::MAX, f64::MAX);
    for _ in 0..ROUNDS {
        best.0 = best.0.min(seconds(|| {
            trees.index_by_library(std::hint::black_box(&words))
        }));
        best.1 = best.1.min(seconds(|| {
            trees.index_by_crate(std::hint::black_box(path)).is_some()
        }));
    }
    let (library, original) = best;
    println!(
        "{name:<28} {:>10} bytes {:>8.1} us {:>10.4}",
        text.len(),
        library * 1e6,
        original / library
    );
}

/// The same path so many times by the lookup that reads only the nodes on the way.
fn tree_found(name: &str, text: &str, path: &[usize], times: u32) {
    let trees = Trees::new(text);
    let words: Vec<u64> = path.iter().map(|&step| step as u64).collect();
    assert!(trees.index_by_crate(path).is_some());
    assert_eq!(
        trees.find_by_library(&words),
        trees.index_by_library(&words)
    );
    let mut best = (f64::MAX, f64::MAX);
    for _ in 0..ROUNDS {
        best.0 = best.0.min(seconds(|| {
            (0..times)
                .map(|_| trees.find_by_library(std::hint::black_box(&words)))
                .sum::<u64>()
        }));
        best.1 = best.1.min(seconds(|| {
            (0..times)
                .filter(|_| trees.index_by_crate(std::hint::black_box(path)).is_some())
                .count()
        }));
    }
    let (library, original) = best;
    println!(
        "{name:<28} {:>10} bytes {:>8.3} us {:>10.4}",
        text.len(),
        library * 1e6 / f64::from(times),
        original / library
    );
}

fn trees(size: usize) {
    println!(
        "{:<28} {:>16} {:>13} {:>8}",
        "trees", "", "library", "ratio"
    );
    let profile = typical(size);
    let flat = list_of("x 12 -0.5 ", size);
    let nested = |lists| {
        let list = format!("{}{} ", "(".repeat(lists), ")".repeat(lists));
        list_of(&list, size)
    };
    let (deep, deeper) = (nested(150), nested(5_000));
    tree_read("read, typical profile", &profile);
    tree_read("read, flat", &flat);
    tree_read("read, deep", &deep);
    tree_read("read, 5,000 deep", &deeper);
    for (place, threshold) in [("broken", 0), ("at 80", 80), ("one line", usize::MAX)] {
        tree_written(&format!("written, typical, {place}"), &profile, threshold);
    }
    tree_written("written, flat, at 80", &flat, 80);
    tree_written("written, deep, one line", &deep, usize::MAX);
    tree_written("written, 5,000 deep", &deeper, usize::MAX);
    tree_indexed("path, typical profile", &profile, &[1, 4, 2, 1]);
    tree_indexed("path, 10 kB", &typical(10_000), &[1, 4, 2, 1]);
    tree_found("found, typical profile", &profile, &[1, 4, 2, 1], 1_000);
    tree_found("found, 10 kB", &typical(10_000), &[1, 4, 2, 1], 1_000);
    let wide = format!("({})", "a ".repeat(100_000));
    tree_indexed("path, last of 100,000", &wide, &[99_999]);
    tree_found("found, last of 100,000", &wide, &[99_999], 1);
}

fn atoms() {
    println!(
        "{:<28} {:>16} {:>13} {:>8}",
        "check_atom", "", "library", "ratio"
    );
    checked("long plain", &"travel-limit.".repeat(1_000), 200);
    checked(
        "long string",
        &format!("\"{}\"", "focus (mm) \\\" ".repeat(1_000)),
        200,
    );
    checked("short", "limit", 200_000);
}

fn main() {
    const SIZE: usize = 1_000_000;
    atoms();
    println!(
        "{:<28} {:>16} {:>13} {:>8}",
        "reading", "", "library", "ratio"
    );
    row("typical profile", &typical(SIZE));
    row("short atoms", &list_of("x 12 -0.5 ", SIZE));
    row(
        "long atoms",
        &list_of(&format!("{} ", "travel-limit.".repeat(100)), SIZE),
    );
    row(
        "long strings",
        &list_of(&format!("\"{}\" ", "focus (mm) \\\" ".repeat(100)), SIZE),
    );
    row(
        "deep nesting",
        &format!("{}{}", "(".repeat(SIZE / 2), ")".repeat(SIZE / 2)),
    );
    row(
        "comments",
        &list_of("; the stage's own limits, in millimetres\n", SIZE),
    );
    for size in [10_000, 100_000, 1_000_000, 16_000_000] {
        row("typical profile, growing", &typical(size));
    }

    items_read("into words, typical profile", &typical(SIZE));
    items_read("into words, short atoms", &list_of("x 12 -0.5 ", SIZE));
    println!(
        "{:<28} {:>16} {:>16} {:>7} {:>16} {:>7}",
        "writing", "", "library", "ratio", "one at a time", "ratio"
    );
    let profile = typical(SIZE);
    written("typical profile, broken", &profile, 0);
    written("typical profile, at 80", &profile, 80);
    written("typical profile, one line", &profile, usize::MAX);
    let long = list_of(&format!("{} ", "travel-limit.".repeat(100)), SIZE);
    written("long atoms, at 80", &long, 80);
    written("one atom alone", "limit", 80);
    trees(SIZE);
    sizes(SIZE);
    let deep = format!("{}{}", "(".repeat(SIZE / 2), ")".repeat(SIZE / 2));
    package::rows(&profile, &list_of("x 12 -0.5 ", SIZE), &deep);
}
