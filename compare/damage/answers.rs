//! Answers: a number, or 2^32 and the number of a refusal; and what a call reports.

use crate::guard::Edge;

const REFUSED: u64 = 1 << 32;

pub fn refused(number: u64) -> u64 {
    REFUSED + number
}

/// The number, where the answer is a refusal.
pub fn refusal(answer: u64) -> Option<u64> {
    answer.checked_sub(REFUSED)
}

/// What a call reports: 0 or the number of a refusal, and its two values.
#[derive(PartialEq)]
pub struct Reported {
    pub number: u32,
    pub values: [u64; 2],
}

impl Reported {
    /// The answer, or the refusal of a call over a text of so many bytes, with the values that belong to it.
    pub fn answer(&self, text_len: usize) -> Check<u64> {
        let [first, second] = self.values;
        let fits = match self.number {
            0 => second == 0,
            1..=3 => first < text_len as u64 && char::from_u32(second as u32).is_some(),
            4..=8 | 12 => first <= text_len as u64 && second == 0,
            _ => self.values == [0; 2],
        };
        ensure(fits, "the values of the answer or of the refusal")?;
        Ok(match self.number {
            0 => first,
            number => refused(u64::from(number)),
        })
    }
}

/// The rule that was not kept.
pub type Check<T = ()> = Result<T, String>;

pub fn ensure(holds: bool, rule: &str) -> Check {
    if holds {
        Ok(())
    } else {
        Err(rule.to_string())
    }
}

/// What a call gives, the same at both edges.
pub fn twice<R: PartialEq>(mut call: impl FnMut(Edge) -> R) -> Check<R> {
    let first = call(Edge::End);
    ensure(
        call(Edge::Beginning) == first,
        "the same call again gives the same",
    )?;
    Ok(first)
}

/// So many of the words or bytes are written, and the rest is as before.
pub fn only_first<T: PartialEq>(before: &[T], after: &[T], written: u64) -> bool {
    let written = written as usize;
    match (before.get(written..), after.get(written..)) {
        (Some(before), Some(after)) => before == after,
        _ => false,
    }
}
