//! The reader's and the writer's calls one by one: from fresh records, and over any words.

use crate::answers::{ensure, refusal, refused, twice, Check};
use crate::calls::{Call, Calls, Script, Style};
use crate::limits::LONGEST;

/// The phase in which lists are open, of a reader and of a writer.
const INSIDE: u64 = 1;
const FINISHING: u64 = 2;
const DONE: u64 = 3;

/// A record of the reader that is sound over a text of so many bytes.
pub fn reader_is_sound([position, phase, lists]: [u64; 3], len: usize) -> bool {
    phase <= FINISHING
        && position <= len as u64
        && lists <= position
        && (lists > 0) == (phase == INSIDE)
}

/// A record of the writer that is sound.
pub fn writer_is_sound(record: [u64; 9]) -> bool {
    let [position, phase, lists, broken, beginning, line, spaces, breaks, indents] = record;
    phase <= DONE
        && beginning <= 1
        && position <= LONGEST as u64
        && line <= position
        && lists <= position
        && broken <= lists
        && (lists > 0) == (phase == INSIDE)
        && spaces <= position
        && breaks <= position + u64::from(phase == DONE)
        && indents <= position * (position + 1)
}

/// Up to this length a text is read item by item: each call takes a copy of it.
const LONGEST_READ: usize = 4_000;

/// Reads a whole text item by item. `items` are the words that read_items gives, `answer` is what it answers.
pub fn check_reading(calls: &mut Calls, text: &[u8], answer: u64, items: &[u64]) -> Check {
    if text.len() > LONGEST_READ {
        return Ok(());
    }
    let mut record = [0; 3];
    let mut words = items.chunks_exact(4);
    loop {
        let before = record;
        let (number, item);
        (number, item, record) = read(calls, text, before)?;
        match number {
            0 => ensure(
                refusal(answer).is_some() || words.next().is_some_and(|word| word[..3] == item),
                "next_item: the items of read_items",
            )?,
            9 => break,
            number => {
                return ensure(
                    answer == refused(u64::from(number)),
                    "next_item: the refusal of read_items",
                )
            }
        }
    }
    let finished = finish(calls, text, record)?;
    let whole = refusal(answer).is_none();
    ensure(
        !whole || words.next().is_none(),
        "next_item: 9 after the last item",
    )?;
    ensure(
        finished == if whole { 0 } else { answer },
        "finish_reading: what read_items answers",
    )
}

/// Reads on from any words, past a number of refusals.
pub fn check_reader(calls: &mut Calls, text: &[u8], words: [u64; 3]) -> Check {
    let mut record = words;
    for _ in 0..4 {
        finish(calls, text, record)?;
        (_, _, record) = read(calls, text, record)?;
    }
    Ok(())
}

/// One call of next_item, and what holds after it.
fn read(calls: &mut Calls, text: &[u8], before: [u64; 3]) -> Check<(u32, [u64; 3], [u64; 3])> {
    let (number, item, after) = twice(|edge| calls.next_item(text, before, edge))?;
    let [first, place, second] = item;
    let [position, phase, lists] = before;
    if !reader_is_sound(before, text.len()) {
        ensure(
            number == 11 && item == [0; 3] && after == before,
            "next_item: 11, and nothing moves",
        )?;
        return Ok((number, item, after));
    }
    ensure(
        reader_is_sound(after, text.len()) && position <= after[0],
        "next_item: a sound record, and no way back",
    )?;
    let good = match number {
        0 => phase != FINISHING && position <= place && item_stands(text, item) && place < after[0],
        1..=3 => first == 0 && place < after[0] && char::from_u32(second as u32).is_some(),
        4..=6 | 8 => first == 0 && second == 0 && place <= after[0],
        9 => phase == FINISHING && item == [0; 3] && after == before,
        _ => false,
    };
    ensure(good, "next_item: its number and its item's words")?;
    ensure(
        number == 0 || (after[1], after[2]) == (phase, lists),
        "next_item: refused, phase and lists are as before",
    )?;
    Ok((number, item, after))
}

/// An atom has a byte at least, a list start is a `(`, a list end a `)`.
fn item_stands(text: &[u8], [kind, place, len]: [u64; 3]) -> bool {
    match (kind, text.get(place as usize)) {
        (0, Some(_)) => len > 0 && place + len <= text.len() as u64,
        (1, Some(b'(')) | (2, Some(b')')) => len == 0,
        _ => false,
    }
}

/// One call of finish, and what holds after it.
fn finish(calls: &mut Calls, text: &[u8], record: [u64; 3]) -> Check<u64> {
    let reported = twice(|edge| calls.finish_reading(text, record, edge))?;
    let answer = reported.answer(text.len())?;
    let good = match reported.number {
        11 => !reader_is_sound(record, text.len()),
        number => reader_is_sound(record, text.len()) && (number == 10) == (record[1] != FINISHING),
    };
    ensure(
        good && matches!(reported.number, 0..=4 | 7 | 8 | 10 | 11),
        "finish_reading: its number",
    )?;
    Ok(answer)
}

/// The most bytes that a list of calls copies where it runs one by one.
const MOST_COPIED: usize = 1_000_000;

/// Runs a list of calls one by one. `answers` and `buffer` are what write_calls left of it, and `ran` is how many calls it ran.
pub fn check_script(
    calls: &mut Calls,
    script: &Script,
    before: &[u8],
    answers: &[u64],
    buffer: &[u8],
    ran: usize,
) -> Check {
    let style = &script.style;
    let lent = before.len() + style.line_break.len() + style.indentation.len();
    if ran * lent > MOST_COPIED {
        return Ok(());
    }
    let mut record = [0; 9];
    let mut bytes = before.to_vec();
    for (words, &answer) in script.words.chunks_exact(4).zip(answers).take(ran) {
        let call = call(words, &script.atoms);
        let number;
        (number, record, bytes) = write(calls, &call, style, &bytes, record)?;
        ensure(number == answer, "one by one: the answers of write_calls")?;
    }
    ensure(bytes == buffer, "one by one: the bytes of write_calls")
}

/// The call of four words.
fn call(words: &[u64], atoms: &[u8]) -> Call {
    let (place, len, break_line_at) = (words[1], words[2], words[3]);
    match words[0] {
        0 => {
            let end = place.checked_add(len).map(|end| end as usize);
            let atom = end.and_then(|end| atoms.get(place as usize..end));
            Call::PutAtom {
                atom: atom.unwrap_or_default().to_vec(),
                break_line_at,
            }
        }
        1 => Call::BeginList { break_line_at },
        2 => Call::EndList,
        kind => Call::Finish {
            final_break: kind == 4,
        },
    }
}

/// One call over any words.
pub fn check_writer(
    calls: &mut Calls,
    call: &Call,
    style: &Style,
    buffer: &[u8],
    words: [u64; 9],
) -> Check {
    write(calls, call, style, buffer, words).map(|_| ())
}

/// One call of the writer, and what holds after it.
fn write(
    calls: &mut Calls,
    call: &Call,
    style: &Style,
    before: &[u8],
    record: [u64; 9],
) -> Check<(u64, [u64; 9], Vec<u8>)> {
    let (reported, after, bytes) =
        twice(|edge| calls.write_one(call, style, before, record, edge))?;
    let answer = reported.answer(0)?;
    let sound = writer_is_sound(record);
    if let Some(number) = refusal(answer) {
        ensure(
            after == record && bytes == before,
            "one by one: refused, record and buffer are as before",
        )?;
        let given: &[u64] = match call {
            Call::PutAtom { .. } => &[11, 17, 19, 22],
            Call::BeginList { .. } => &[11, 19, 22],
            Call::EndList => &[11, 18, 19, 22],
            Call::Finish { .. } => &[11, 19, 20, 22],
        };
        ensure(
            given.contains(&number) && sound == (number != 11),
            "one by one: a refusal of the call, and 11 of unsound words",
        )?;
        return Ok((answer, after, bytes));
    }
    let (from, to) = (record[0] as usize, after[0] as usize);
    ensure(
        sound && writer_is_sound(after) && from <= to && to <= before.len(),
        "one by one: a sound record",
    )?;
    ensure(
        bytes[..from] == before[..from] && bytes[to..] == before[to..],
        "one by one: the other bytes are as before",
    )?;
    ensure(
        (from as u64..=to as u64).contains(&answer),
        "one by one: an offset between the positions",
    )?;
    Ok((answer, after, bytes))
}
