//! The lists of calls for the writer.

use crate::options::Options;
use crate::random::Random;
use crate::writer_model::{Model, Phase};
use crate::writing::{Call, Style, WriterCase, LARGEST_ROOM};

const LARGEST: u64 = u64::MAX;

pub const STYLES: [Style; 5] = [
    style("\n", "  "),
    style("\r\n", "\t"),
    style("\n", ""),
    style("", " "),
    style("", ""),
];

pub const fn style(line_break: &'static str, indentation: &'static str) -> Style {
    Style {
        line_break,
        indentation,
    }
}

/// The worked writings, those that a rule lists, then random ones.
pub fn all(options: &Options) -> impl Iterator<Item = WriterCase> {
    let longest = if options.quick { 3 } else { 4 };
    let mut maker = Maker::new(options.seed, 400);
    let random = std::iter::repeat_with(move || maker.case());
    let default = if options.quick { 40_000 } else { 1_000_000 };
    worked()
        .into_iter()
        .chain(deep(&[250, 1_000]))
        .chain(exhaustive(longest))
        .chain(random)
        .take(options.cases.unwrap_or(default))
}

fn atom(bytes: &[u8], threshold: u64) -> Call {
    Call::PutAtom(bytes.to_vec(), threshold)
}

/// Document 01's two worked writings.
pub fn worked() -> Vec<WriterCase> {
    let writing = |threshold| WriterCase {
        style: STYLES[0],
        room: LARGEST_ROOM,
        calls: vec![
            Call::BeginList(LARGEST),
            atom(b"z", LARGEST),
            Call::BeginList(0),
            atom(b"1", LARGEST),
            atom(b"22", threshold),
            Call::EndList,
            Call::EndList,
            Call::Finish(true),
        ],
    };
    vec![writing(4), writing(5)]
}

/// So many lists in each other: begun in one line, each on a line of its own, or the outer half in one way and the inner half in the other.
pub fn deep(depths: &[usize]) -> Vec<WriterCase> {
    let mut cases = Vec::new();
    for &depth in depths {
        for outer in [LARGEST, 0] {
            for inner in [LARGEST, 0] {
                let mut calls = vec![Call::BeginList(outer); depth / 2];
                calls.extend(vec![Call::BeginList(inner); depth - depth / 2]);
                calls.push(atom(b"a", LARGEST));
                // One more than there are.
                calls.extend(vec![Call::EndList; depth + 1]);
                calls.push(Call::Finish(true));
                cases.push(WriterCase {
                    style: style("\n", ""),
                    room: LARGEST_ROOM,
                    calls,
                });
            }
        }
    }
    cases
}

/// Each call of a short list.
fn alphabet() -> Vec<Call> {
    vec![
        atom(b"a", 0),
        atom(b"a", 3),
        atom(b"\"b c\"", 1),
        atom(b"\"b c\"", LARGEST),
        atom(b"b c", LARGEST),
        Call::BeginList(0),
        Call::BeginList(1),
        Call::BeginList(3),
        Call::BeginList(LARGEST),
        Call::EndList,
        Call::Finish(true),
        Call::Finish(false),
    ]
}

/// Every list of up to `longest` calls, also behind an opened list, in each style; two in seven with a buffer as long as the text
/// or one short.
pub fn exhaustive(longest: u32) -> impl Iterator<Item = WriterCase> {
    let alphabet = alphabet();
    let base = alphabet.len();
    (0..=longest).flat_map(move |len| {
        let alphabet = alphabet.clone();
        (0..base.pow(len) * STYLES.len() * 2).map(move |mut number| {
            // 7 has no factor in common with the other counts, so that each room meets each list.
            let room = number % 7;
            let style = STYLES[number % STYLES.len()];
            number /= STYLES.len();
            let mut calls = vec![Call::BeginList(LARGEST); number % 2];
            number /= 2;
            for _ in 0..len {
                calls.push(alphabet[number % base].clone());
                number /= base;
            }
            with_room(style, calls, room)
        })
    })
}

/// The calls with a buffer that is exactly full (0), one short (1), or ample.
fn with_room(style: Style, calls: Vec<Call>, room: usize) -> WriterCase {
    let len = text_len(style, &calls);
    let room = match room {
        0 => len,
        1 => len.saturating_sub(1),
        _ => LARGEST_ROOM,
    };
    WriterCase { style, room, calls }
}

/// How long the text is that the calls write into an ample buffer.
fn text_len(style: Style, calls: &[Call]) -> usize {
    let mut model = Model::new(style, LARGEST_ROOM);
    for call in calls {
        // Only the text it leaves counts here.
        let _ = model.call(call);
    }
    model.text.len()
}

const ATOMS: [&[u8]; 8] = [
    b"a",
    b"22",
    b"stage",
    b"-12.5",
    b"\"\"",
    b"\"b c\"",
    b"x\"\\\"\"y",
    b"~",
];

const BAD_ATOMS: [&[u8]; 7] = [b"", b"b c", b"(", b"\"", b"\"\\\t\"", b"\xC3\xA9", b"\xC3"];

pub struct Maker {
    random: Random,
    longest: usize,
}

impl Maker {
    pub fn new(seed: u64, longest: usize) -> Self {
        Self {
            random: Random::new(seed),
            longest,
        }
    }

    pub fn case(&mut self) -> WriterCase {
        let style = self.random.pick(&STYLES);
        let longest = if self.random.percent(3) {
            self.longest
        } else {
            24
        };
        let len = self.random.below(longest.min(self.longest)) + 1;
        let opening = self.random.pick(&[10, 30, 60, 95]);
        let mut model = Model::new(style, LARGEST_ROOM);
        let mut calls = Vec::new();
        for _ in 0..len {
            let call = self.call(&model, opening);
            let _ = model.call(&call);
            calls.push(call);
        }
        if self.random.percent(50) {
            self.close(&mut model, &mut calls);
        }
        let room = self.random.below(5);
        with_room(style, calls, room)
    }

    /// Ends the lists that are open, and the writing.
    fn close(&mut self, model: &mut Model, calls: &mut Vec<Call>) {
        calls.extend(model.flags.iter().map(|_| Call::EndList));
        calls.push(Call::Finish(self.random.percent(50)));
        if self.random.percent(20) {
            calls.push(Call::Finish(true));
        }
    }

    /// A call that is mostly accepted; `opening` is the share of lists among the items.
    fn call(&mut self, model: &Model, opening: usize) -> Call {
        let threshold = self.threshold(model.line_len as u64);
        let random = &mut self.random;
        if random.percent(6) {
            return random_refused(random, threshold);
        }
        if model.phase == Phase::Finished && random.percent(60) {
            return Call::Finish(random.percent(50));
        }
        let first = model.phase == Phase::Beginning;
        if random.percent(opening) || first && random.percent(90) {
            return Call::BeginList(threshold);
        }
        // The outermost list is left open for most of the time.
        let ending = if model.flags.len() > 1 { 35 } else { 3 };
        if random.percent(ending) {
            return Call::EndList;
        }
        atom(random.pick(&ATOMS), threshold)
    }

    /// Mostly near the line's length, where a call decides between a space and a new line.
    fn threshold(&mut self, line_len: u64) -> u64 {
        match self.random.below(8) {
            0..=1 => line_len,
            2..=3 => line_len + 1,
            4 => 0,
            5 => self.random.below(80) as u64,
            _ => LARGEST,
        }
    }
}

/// A call that is refused in most phases.
fn random_refused(random: &mut Random, threshold: u64) -> Call {
    match random.below(4) {
        0 => Call::EndList,
        1 => Call::Finish(random.percent(50)),
        _ => atom(random.pick(&BAD_ATOMS), threshold),
    }
}
