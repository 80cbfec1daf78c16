//! `sise_index_path`, `sise_find_path`, `sise_serialize_tree`, `sise_measure_tree` and `sise_commit_tree` on any table.

use crate::answers::{ensure, only_first, refusal, refused, twice, Check, Reported};
use crate::calls::{Calls, Measured, Size, Style};
use crate::forms::{held, node_at, way, Held};
use crate::guard::Edge;
use crate::limits::LONGEST;

pub struct Tree {
    pub text: Vec<u8>,
    pub table: Vec<u32>,
    pub paths: Vec<Vec<u64>>,
    pub style: Style,
    pub buffer: Vec<u8>,
    pub break_line_at: u64,
    pub final_break: bool,
    /// A size that somebody made up.
    pub size: Size,
}

impl Tree {
    pub fn check(&self, calls: &mut Calls) -> Check {
        let held = held(&self.table, &self.text);
        self.check_paths(calls, held)?;
        let (answer, written) = self.serialized(calls, &self.buffer)?;
        ensure(
            (answer == refused(15)) == (held == Held::NotATree),
            "serialize_tree: 15 where there is no tree",
        )?;
        ensure(
            (answer == refused(17)) == (held == Held::NoAtom),
            "serialize_tree: 17 where an atom of the tree is none",
        )?;
        let measured = self.measured(calls, self.buffer.len())?;
        ensure(
            answer == measured.answer(),
            "measure_tree: what serialize_tree writes",
        )?;
        let whole = self.measured(calls, LONGEST)?;
        let short = whole.number == 0 && whole.size[0] > self.buffer.len() as u64;
        ensure(
            if short {
                measured.number == 22
            } else {
                measured == whole
            },
            "measure_tree: the same size in every buffer that holds it",
        )?;
        self.check_commits(calls, measured, answer, &written)?;
        if refusal(answer).is_none() {
            self.check_rooms(calls, &written[..answer as usize])?;
        }
        Ok(())
    }

    fn check_paths(&self, calls: &mut Calls, held: Held) -> Check {
        for path in &self.paths {
            let expected = if held == Held::NotATree {
                refused(15)
            } else {
                node_at(&self.table, path).unwrap_or(refused(16))
            };
            let reported = twice(|edge| calls.index_path(&self.text, &self.table, path, edge))?;
            ensure(
                reported.answer(self.text.len())? == expected,
                "index_path: the node, 15 or 16",
            )?;
            self.check_lookup(calls, path, reported, held)?;
        }
        Ok(())
    }

    /// The lookup without a test of the table, where the one with it gives `indexed`: it goes along its way, and no other word plays a part.
    fn check_lookup(
        &self,
        calls: &mut Calls,
        path: &[u64],
        indexed: Reported,
        held: Held,
    ) -> Check {
        let (looked, number) = way(&self.table, path);
        let found = twice(|edge| calls.find_path(&self.text, &self.table, path, edge))?;
        let values = match looked.last() {
            Some(&node) if number == 0 => [node as u64, looked.len() as u64],
            _ => [0; 2],
        };
        ensure(
            found == Reported { number, values },
            "find_path: the node and the nodes looked at, 15 or 16",
        )?;
        if held != Held::NotATree {
            let seen = || path.iter().map(|step| step + 1).sum::<u64>() + 1;
            let values = match indexed.number {
                0 => [indexed.values[0], seen()],
                _ => [0; 2],
            };
            ensure(
                found.number == indexed.number && found.values == values,
                "find_path: on a tree as index_path, with 1 plus the sum of (index + 1)",
            )?;
        }
        let mut others: Vec<u32> = self.table.iter().map(|word| !word).collect();
        for node in looked {
            for place in [4 * node, 4 * node + 1, 4 * node + 3] {
                others[place] = self.table[place];
            }
        }
        let again = calls.find_path(&[], &others, path, Edge::End);
        ensure(again == found, "find_path: no other word is read")
    }

    fn measured(&self, calls: &mut Calls, room: usize) -> Check<Measured> {
        let Self {
            text, table, style, ..
        } = self;
        let (threshold, last) = (self.break_line_at, self.final_break);
        let measured =
            twice(|edge| calls.measure_tree(style, room, text, table, threshold, last, edge))?;
        let [bytes, breaks, indents] = measured.size;
        if measured.number != 0 {
            ensure(measured.size == [0; 3], "measure_tree: refused, no size")?;
        } else {
            ensure(bytes > 0, "measure_tree: some bytes")?;
            let layout =
                breaks * style.line_break.len() as u64 + indents * style.indentation.len() as u64;
            ensure(layout < bytes, "measure_tree: the layout is less than all")?;
            ensure(
                breaks >= u64::from(last),
                "measure_tree: the final break is counted",
            )?;
            ensure(
                threshold < u64::MAX || (breaks, indents) == (u64::from(last), 0),
                "measure_tree: one line",
            )?;
        }
        Ok(measured)
    }

    /// Commits with the size that was measured, with numbers that are one off, with breaks and indents exchanged, with none, and with one that is made up.
    fn check_commits(
        &self,
        calls: &mut Calls,
        measured: Measured,
        answer: u64,
        written: &[u8],
    ) -> Check {
        let [bytes, breaks, indents] = measured.size;
        let sizes = [
            measured.size,
            [bytes.wrapping_sub(1), breaks, indents],
            [bytes, breaks + 1, indents],
            [bytes, breaks, indents.wrapping_sub(1)],
            [bytes, indents, breaks],
            [0; 3],
            self.size,
        ];
        for size in sizes {
            let changed = refusal(answer).is_none() && size != measured.size;
            let (reported, after) = self.committed(calls, &size)?;
            let (expected, left) = if changed {
                (refused(23), &self.buffer[..])
            } else {
                (answer, written)
            };
            ensure(
                reported == expected,
                "commit_tree: as serialize_tree, or 23",
            )?;
            ensure(after == left, "commit_tree: the bytes")?;
        }
        Ok(())
    }

    fn committed(&self, calls: &mut Calls, size: &Size) -> Check<(u64, Vec<u8>)> {
        let Self {
            text,
            table,
            style,
            buffer,
            ..
        } = self;
        let (threshold, last) = (self.break_line_at, self.final_break);
        let (reported, after) = twice(|edge| {
            calls.commit_tree(style, buffer, text, table, threshold, last, size, edge)
        })?;
        Ok((reported.answer(text.len())?, after))
    }

    /// A buffer that is exactly full, and one a byte shorter.
    fn check_rooms(&self, calls: &mut Calls, text: &[u8]) -> Check {
        let mut buffer = vec![0; text.len()];
        let (_, full) = self.serialized(calls, &buffer)?;
        ensure(full == text, "serialize_tree: exactly full")?;
        buffer.pop();
        let (short, _) = self.serialized(calls, &buffer)?;
        ensure(short == refused(22), "serialize_tree: one byte short")
    }

    /// One call, and what holds after it.
    fn serialized(&self, calls: &mut Calls, before: &[u8]) -> Check<(u64, Vec<u8>)> {
        let Self {
            text, table, style, ..
        } = self;
        let (threshold, last) = (self.break_line_at, self.final_break);
        let (reported, after) =
            twice(|edge| calls.serialize_tree(style, before, text, table, threshold, last, edge))?;
        let answer = reported.answer(text.len())?;
        if let Some(number) = refusal(answer) {
            ensure(
                [15, 17, 22].contains(&number),
                "serialize_tree: 15, 17 or 22",
            )?;
            ensure(
                after == before,
                "serialize_tree: refused, the bytes are as before",
            )?;
        } else {
            ensure(answer > 0, "serialize_tree: something is written")?;
            ensure(
                only_first(before, &after, answer),
                "serialize_tree: the bytes past the text are as before",
            )?;
        }
        Ok((answer, after))
    }
}
