//! Lists nested as deep as a text can be long, on a small stack. A call whose time grew faster than the depth would not end here.

use crate::answers::{ensure, refused, Check};
use crate::calls::{Calls, Script, Style};
use crate::guard::Edge;
use crate::limits::{lines, LONGEST};
use std::thread::Builder;
use std::time::Instant;

const STACK: usize = 128 * 1024;

const MILLION: usize = 1_000_000;

/// How many calls were made.
pub fn check() -> Check<u64> {
    let thread = Builder::new().stack_size(STACK).spawn(on_small_stack);
    let thread = thread.map_err(|error| error.to_string())?;
    thread
        .join()
        .map_err(|_| "the deep lists ended in a panic".to_string())?
}

fn on_small_stack() -> Check<u64> {
    let mut calls = Calls::new();
    unfinished(&mut calls)?;
    // With a final line break, the second is as long as a text can be.
    for lists in [MILLION, (LONGEST - 1) / 2] {
        let deep = alone(lists);
        let table = deep.parsed(&mut calls)?;
        deep.indexed(&mut calls, &table)?;
        deep.written(&mut calls, &table)?;
    }
    let deep = with_siblings(MILLION);
    let table = deep.parsed(&mut calls)?;
    deep.indexed(&mut calls, &table)?;
    deep.written(&mut calls, &table)?;
    broken(&mut calls)?;
    Ok(calls.made)
}

/// Lists that are never closed.
fn unfinished(calls: &mut Calls) -> Check {
    let (reported, _) = calls.parse_tree(&b"(".repeat(LONGEST), &[], Edge::End);
    ensure(
        reported.answer(LONGEST)? == refused(5),
        "parse_tree: 5 for lists that are never closed",
    )?;
    let count = calls.count_items(&b"(".repeat(LONGEST), Edge::End);
    ensure(
        count == LONGEST as u64,
        "count_items: lists that are never closed",
    )
}

/// Lists in each other, as a text, as a table and in one line. A step of a path leads from each to the next.
struct Deep {
    lists: usize,
    text: Vec<u8>,
    table: Vec<u32>,
    in_line: Vec<u8>,
    step: u64,
}

/// Each list has the next in it, and nothing else.
fn alone(lists: usize) -> Deep {
    let text = [b"(".repeat(lists), b")".repeat(lists)].concat();
    let nodes = (0..lists as u32).map(|node| {
        let span = lists as u32 - node;
        [0, u32::from(span > 1), u32::from(node > 0), span]
    });
    Deep {
        lists,
        table: nodes.flatten().collect(),
        in_line: text.clone(),
        text,
        step: 0,
    }
}

/// Each list has an empty one in it, and behind that the next.
fn with_siblings(lists: usize) -> Deep {
    let nodes = (0..lists as u32).map(|list| {
        let left = lists as u32 - list;
        let (children, back) = (1 + u32::from(left > 1), 2 * u32::from(list > 0));
        [0, children, back, 2 * left, 0, 0, 1, 1]
    });
    Deep {
        lists,
        text: [b"(()".repeat(lists), b")".repeat(lists)].concat(),
        table: nodes.flatten().collect(),
        in_line: [&b"(()"[..], &b" (()".repeat(lists - 1), &b")".repeat(lists)].concat(),
        step: 1,
    }
}

impl Deep {
    /// The table as the call leaves it.
    fn parsed(&self, calls: &mut Calls) -> Check<Vec<u32>> {
        let before = vec![u32::MAX; self.table.len()];
        let (short, same) = calls.parse_tree(&self.text, &before[1..], Edge::End);
        ensure(
            short.answer(self.text.len())? == refused(14) && same == before[1..],
            "parse_tree: deep lists, one word short",
        )?;
        let (reported, table) =
            self.timed("read", || calls.parse_tree(&self.text, &before, Edge::End));
        ensure(
            reported.answer(self.text.len())? == self.table.len() as u64 / 4 && table == self.table,
            "parse_tree: the deep lists' table",
        )?;
        Ok(table)
    }

    /// Some thousand steps, as many as there are, and one more.
    fn indexed(&self, calls: &mut Calls, table: &[u32]) -> Check {
        let path = vec![self.step; self.lists];
        let node = |steps: usize| steps as u64 * (self.step + 1);
        for (steps, expected) in [
            (5_000, node(5_000)),
            (self.lists - 1, node(self.lists - 1)),
            (self.lists, refused(16)),
        ] {
            let reported = self.timed("looked up", || {
                calls.index_path(&self.text, table, &path[..steps], Edge::End)
            });
            ensure(
                reported.answer(self.text.len())? == expected,
                "index_path: deep lists",
            )?;
            let found = self.timed("found", || {
                calls.find_path(&self.text, table, &path[..steps], Edge::End)
            });
            let seen = 1 + steps as u64 * (self.step + 1);
            let values = if found.number == 0 {
                [expected, seen]
            } else {
                [0; 2]
            };
            ensure(
                found.number == reported.number && found.values == values,
                "find_path: deep lists",
            )?;
        }
        Ok(())
    }

    /// In one line, with a final break, as house style has it, and without; and at the house style's threshold, where the indentations pass every limit.
    fn written(&self, calls: &mut Calls, table: &[u32]) -> Check {
        self.writes(calls, table, &lines(), u64::MAX, false, &self.in_line)?;
        let mut house = self.in_line.clone();
        house.push(b'\n');
        self.writes(calls, table, &lines(), u64::MAX, true, &house)?;
        let (reported, again) = self.timed("read again", || {
            calls.parse_tree(&house, &vec![u32::MAX; table.len()], Edge::End)
        });
        ensure(
            reported.answer(house.len())? == table.len() as u64 / 4 && again == table,
            "parse_tree: the deep lists written in house style",
        )?;
        let before = vec![b'.'; LONGEST];
        let (wrote, after) = self.timed("refused at 72", || {
            calls.serialize_tree(&lines(), &before, &self.text, table, 72, true, Edge::End)
        });
        ensure(
            wrote.answer(self.text.len())? == refused(22) && after == before,
            "serialize_tree: deep lists that pass the limit",
        )
    }

    fn writes(
        &self,
        calls: &mut Calls,
        table: &[u32],
        style: &Style,
        threshold: u64,
        last: bool,
        expected: &[u8],
    ) -> Check {
        let text = &self.text;
        let room = expected.len();
        let measured = self.timed("measured", || {
            calls.measure_tree(style, room, text, table, threshold, last, Edge::End)
        });
        ensure(
            measured.answer() == expected.len() as u64,
            "measure_tree: deep lists",
        )?;
        let mut buffer = vec![b'.'; expected.len()];
        let size = measured.size;
        let (wrote, after) = self.timed("committed", || {
            calls.commit_tree(
                style,
                &buffer,
                text,
                table,
                threshold,
                last,
                &size,
                Edge::End,
            )
        });
        ensure(
            wrote.answer(text.len())? == expected.len() as u64 && after == expected,
            "commit_tree: deep lists",
        )?;
        let (wrote, after) = self.timed("written", || {
            calls.serialize_tree(style, &buffer, text, table, threshold, last, Edge::End)
        });
        ensure(
            wrote.answer(text.len())? == expected.len() as u64 && after == expected,
            "serialize_tree: deep lists",
        )?;
        buffer.pop();
        let (short, same) =
            calls.serialize_tree(style, &buffer, text, table, threshold, last, Edge::End);
        ensure(
            short.answer(text.len())? == refused(22) && same == buffer,
            "serialize_tree: deep lists, one byte short",
        )
    }

    /// The time of a call, with the copying of what it is lent, goes to standard error.
    fn timed<R>(&self, done: &str, call: impl FnOnce() -> R) -> R {
        let start = Instant::now();
        let result = call();
        let time = start.elapsed().as_nanos() as usize / self.lists;
        eprintln!(
            "damage: {} lists in each other {done}: {time} ns a list",
            self.lists
        );
        result
    }
}

/// A line for each list start and each list end, by the tree call and by the writer's calls.
fn broken(calls: &mut Calls) -> Check {
    let deep = alone(MILLION);
    let (starts, ends) = (b"(\n".repeat(MILLION - 1), b"\n)".repeat(MILLION - 1));
    let expected = [&starts[..], b"()", &ends].concat();
    let style = Style {
        line_break: b"\n".to_vec(),
        indentation: Vec::new(),
    };
    deep.writes(calls, &deep.table, &style, 0, false, &expected)?;
    let (reported, words) = deep.timed("read into words", || {
        calls.read_items(&deep.text, &vec![0; 8 * MILLION], Edge::End)
    });
    ensure(
        reported.answer(deep.text.len())? == 2 * MILLION as u64,
        "read_items: deep lists",
    )?;
    let script = Script {
        words: [&words[..], &[3, 0, 0, 0]].concat(),
        atoms: Vec::new(),
        style,
        answers: vec![0; 2 * MILLION + 1],
    };
    for singly in [false, true] {
        let wrote = deep.timed("written by calls", || {
            calls.write(&script, &vec![0; expected.len()], singly, Edge::End)
        });
        ensure(
            wrote.position == expected.len() as u64 && wrote.buffer == expected,
            "write_calls: deep lists",
        )?;
    }
    Ok(())
}
