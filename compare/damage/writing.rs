//! `sise_write_calls` and `sise_write_calls_singly`.

use crate::answers::{ensure, only_first, refusal, refused, twice, Check};
use crate::calls::{Calls, Script, Wrote};
use crate::singly;

/// The refusals of each kind of call that a fresh record leads to: put_atom, begin_list, end_list, finish without and with a break.
const OF_KIND: [&[u64]; 5] = [
    &[17, 19, 22],
    &[19, 22],
    &[18, 19, 22],
    &[19, 20, 22],
    &[19, 20, 22],
];

const LARGEST_KIND: u64 = OF_KIND.len() as u64 - 1;

/// A list of calls and the buffer before it runs.
pub struct Writing {
    pub script: Script,
    pub buffer: Vec<u8>,
}

impl Writing {
    pub fn check(&self, calls: &mut Calls) -> Check {
        let wrote = wrote(calls, &self.script, &self.buffer)?;
        let (answers, ran) = (&wrote.answers, kinds(&self.script).len());
        singly::check_script(
            calls,
            &self.script,
            &self.buffer,
            answers,
            &wrote.buffer,
            ran,
        )?;
        self.check_rooms(calls, &wrote)?;
        self.check_last(calls, &wrote)
    }

    /// A buffer that is exactly full, and one a byte shorter.
    fn check_rooms(&self, calls: &mut Calls, whole: &Wrote) -> Check {
        let text = &whole.buffer[..whole.position as usize];
        let mut buffer = vec![0; text.len()];
        let full = wrote(calls, &self.script, &buffer)?;
        ensure(
            full.buffer == text && full.answers == whole.answers,
            "write_calls: exactly full",
        )?;
        if buffer.pop().is_some() {
            let short = wrote(calls, &self.script, &buffer)?;
            ensure(
                short.answers.contains(&refused(22)),
                "write_calls: one byte short",
            )?;
        }
        Ok(())
    }

    /// The list without its last call: the same up to there, and the same bytes if that call was refused.
    fn check_last(&self, calls: &mut Calls, whole: &Wrote) -> Check {
        let mut script = self.script.clone();
        let Some(last) = kinds(&script).len().checked_sub(1) else {
            return Ok(());
        };
        script.answers.truncate(last);
        let part = wrote(calls, &script, &self.buffer)?;
        ensure(
            whole.answers[..last] == part.answers,
            "write_calls: the answers before the last call",
        )?;
        let len = part.position as usize;
        ensure(
            whole.buffer[..len] == part.buffer[..len],
            "write_calls: the bytes before the last call",
        )?;
        let refused = refusal(whole.answers[last]).is_some();
        ensure(
            !refused || part.position == whole.position,
            "write_calls: refused, the position is as before",
        )
    }
}

/// The kinds of the calls that run: those that have four words, up to the first that is none, and an answer.
fn kinds(script: &Script) -> Vec<u64> {
    let all = script.words.chunks_exact(4).map(|call| call[0]);
    all.take_while(|&kind| kind <= LARGEST_KIND)
        .take(script.answers.len())
        .collect()
}

/// One list of calls in both ways, and what holds after it.
fn wrote(calls: &mut Calls, script: &Script, before: &[u8]) -> Check<Wrote> {
    let wrote = twice(|edge| calls.write(script, before, false, edge))?;
    let singly = twice(|edge| calls.write(script, before, true, edge))?;
    ensure(wrote.same(&singly), "write_calls: the same as singly")?;
    ensure(
        only_first(before, &wrote.buffer, wrote.position),
        "write_calls: the bytes past the position are as before",
    )?;
    let kinds = kinds(script);
    let count = kinds.len() as u64;
    ensure(wrote.ran == Some(count), "write_calls: how many calls ran")?;
    ensure(
        only_first(&script.answers, &wrote.answers, count),
        "write_calls: the words past the answers are as before",
    )?;
    answered(&kinds, &wrote)?;
    Ok(wrote)
}

/// Each call's answer is one of its kind, and offsets rise up to the position.
fn answered(kinds: &[u64], wrote: &Wrote) -> Check {
    let mut offset = 0;
    for (&kind, &answer) in kinds.iter().zip(&wrote.answers) {
        if let Some(number) = refusal(answer) {
            ensure(
                OF_KIND[kind as usize].contains(&number),
                "write_calls: a refusal of the call's kind",
            )?;
        } else {
            ensure(
                offset <= answer && answer <= wrote.position,
                "write_calls: offsets rise up to the position",
            )?;
            offset = answer;
        }
    }
    Ok(())
}
