//! Cases that documents 01 and 02 speak of, with their answers written by hand from them.

use crate::differences::Differences;
use crate::judge::{lines, Judge};
use crate::model;
use crate::reading::{Case, Phase, Record, Refusal};

struct Example {
    text: &'static [u8],
    calls: usize,
    finish: bool,
    answers: &'static str,
}

const fn items(text: &'static [u8], calls: usize, answers: &'static str) -> Example {
    Example {
        text,
        calls,
        finish: false,
        answers,
    }
}

const fn whole(text: &'static [u8], calls: usize, answers: &'static str) -> Example {
    Example {
        finish: true,
        ..items(text, calls, answers)
    }
}

/// Rows 1 to 10 of the table of refusals.
const ROWS: [Example; 10] = [
    items(b"[", 1, "! 1 0 91 | 1 0 0\n"),
    items(b"\"\t", 1, "! 2 1 9 | 2 0 0\n"),
    items(b";\x7F", 1, "! 3 1 127 | 2 0 0\n"),
    items(b"\"a", 1, "! 4 2 0 | 2 0 0\n"),
    items(b"", 1, "! 5 0 0 | 0 0 0\n"),
    items(b")", 1, "! 6 0 0 | 1 0 0\n"),
    whole(b"a b", 1, "A 0 1 | 1 2 0 | a\n! 7 2 0\n"),
    items(b"\xC3\x28", 1, "! 8 0 0 | 1 0 0\n"),
    items(b"a", 2, "A 0 1 | 1 2 0 | a\n! 9 0 0 | 1 2 0\n"),
    whole(b"a", 0, "! 10 0 0\n"),
];

/// The worked texts.
const WORKED: [Example; 3] = [
    whole(
        b"(z (+1 \"a b\") ~)",
        8,
        "L 0 | 1 1 1\nA 1 1 | 2 1 1 | z\nL 3 | 4 1 2\nA 4 2 | 6 1 2 | +1\nA 7 5 | 12 1 2 | \"a b\"\n\
         E 12 | 13 1 1\nA 14 1 | 15 1 1 | ~\nE 15 | 16 2 0\nok\n",
    ),
    whole(
        b"(z\n  (1\n    22\n  )\n)\n",
        7,
        "L 0 | 1 1 1\nA 1 1 | 2 1 1 | z\nL 5 | 6 1 2\nA 6 1 | 7 1 2 | 1\nA 12 2 | 14 1 2 | 22\n\
         E 17 | 18 1 1\nE 19 | 20 2 0\nok\n",
    ),
    whole(
        b"(z\n  (1 22)\n)\n",
        7,
        "L 0 | 1 1 1\nA 1 1 | 2 1 1 | z\nL 5 | 6 1 2\nA 6 1 | 7 1 2 | 1\nA 8 2 | 10 1 2 | 22\n\
         E 10 | 11 1 1\nE 12 | 13 2 0\nok\n",
    ),
];

/// Slips seen in readers, and the position that each refusal leaves.
const SLIPS: [Example; 12] = [
    whole(b"a;", 1, "A 0 1 | 1 2 0 | a\nok\n"),
    whole(b"(); end", 2, "L 0 | 1 1 1\nE 1 | 2 2 0\nok\n"),
    items(b"\"\\", 2, "! 4 2 0 | 2 0 0\n! 5 2 0 | 2 0 0\n"),
    items(
        b"(\"a\tb\")",
        3,
        "L 0 | 1 1 1\n! 2 3 9 | 4 1 1\n! 4 7 0 | 7 1 1\n",
    ),
    items(b"\"\\\t\"", 2, "! 2 2 9 | 3 0 0\n! 4 4 0 | 4 0 0\n"),
    whole(b"\"\"", 1, "A 0 2 | 2 2 0 | \"\"\nok\n"),
    items(b"\xC3\xA9(", 2, "! 1 0 233 | 2 0 0\nL 2 | 3 1 1\n"),
    items(b"\xC3(", 2, "! 8 0 0 | 1 0 0\nL 1 | 2 1 1\n"),
    items(b")(", 2, "! 6 0 0 | 1 0 0\nL 1 | 2 1 1\n"),
    items(
        b"(a",
        4,
        "L 0 | 1 1 1\nA 1 1 | 2 1 1 | a\n! 5 2 0 | 2 1 1\n! 5 2 0 | 2 1 1\n",
    ),
    whole(b"a[", 1, "A 0 1 | 1 2 0 | a\n! 1 1 91\n"),
    whole(
        b"(a)\xED\xA0\x80",
        3,
        "L 0 | 1 1 1\nA 1 1 | 2 1 1 | a\nE 2 | 3 2 0\n! 8 3 0\n",
    ),
];

/// From fault to fault (document 02, 2.7): its two texts; in a string and in a comment; two broken characters in a row; a second byte that fits no row.
const FAULTS: [Example; 6] = [
    items(b"\xE2\x82(", 2, "! 8 0 0 | 2 0 0\nL 2 | 3 1 1\n"),
    items(b"\xC0\xAF", 2, "! 8 0 0 | 1 0 0\n! 8 1 0 | 2 0 0\n"),
    items(
        b"\"\xF1\x80\x80A",
        2,
        "! 8 1 0 | 4 0 0\nA 4 1 | 5 2 0 | A\n",
    ),
    items(b";\xE2\x82(", 2, "! 8 1 0 | 3 0 0\nL 3 | 4 1 1\n"),
    items(
        b"\xC3\xF0\x90\x80",
        3,
        "! 8 0 0 | 1 0 0\n! 8 1 0 | 4 0 0\n! 5 4 0 | 4 0 0\n",
    ),
    items(b"\xED\xA0", 2, "! 8 0 0 | 1 0 0\n! 8 1 0 | 2 0 0\n"),
];

fn all() -> impl Iterator<Item = &'static Example> {
    ROWS.iter().chain(&WORKED).chain(&SLIPS).chain(&FAULTS)
}

pub fn cases() -> impl Iterator<Item = Case> {
    all().map(|example| Case {
        text: example.text.to_vec(),
        calls: example.calls,
        finish: example.finish,
    })
}

/// Prints how many of the examples hold; answers whether all do.
pub fn check() -> bool {
    let mut judge = Judge::default();
    let mut differences = Differences::default();
    let mut count = 0;
    for (example, case) in all().zip(cases()) {
        count += 1;
        let found = lines(&judge.expected(&case));
        if found != example.answers.as_bytes() {
            differences.add(&case, example.answers.as_bytes(), &found);
        }
    }
    for (text, record) in unsound() {
        count += 1;
        let refusal = Refusal::bare(11);
        let refused = model::next_item(text, record) == (Err(refusal), record)
            && model::finish(text, record) == Err(refusal);
        if !refused {
            differences.note(|| format!("not refused with 11: {record:?}"));
        }
    }
    println!(
        "examples of the documents: {count}, {} that fail",
        differences.count
    );
    differences.print("the first one, the documents' answers expected:")
}

/// Records that are refused with 11, row 11's first; no script can bring them about.
fn unsound() -> [(&'static [u8], Record); 6] {
    let record = |position, phase, lists| Record {
        position,
        phase,
        lists,
    };
    [
        (b"a", record(3, Phase::Beginning, 0)),
        (b"a", record(2, Phase::Finishing, 0)),
        (b"(((", record(1, Phase::Parsing, 2)),
        (b"(((", record(1, Phase::Parsing, 0)),
        (b"(((", record(1, Phase::Beginning, 1)),
        (b"(((", record(1, Phase::Finishing, 1)),
    ]
}
