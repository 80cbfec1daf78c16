//! Examples of trees from document 01 and requests 2.2, 2.3, 2.6 and 2.8, with their answers written by hand from them.

use crate::differences::Differences;
use crate::tree_case::TreeCase;
use crate::tree_cases::plain;
use crate::tree_judge::TreeJudge;

/// The worked tree and its paths; the rows 12, 14 and 15 of the table of refusals; the third words of lists; and the first words of atoms.
pub fn cases() -> Vec<TreeCase> {
    let mut cases = vec![
        TreeCase {
            words: 24,
            paths: vec![vec![1, 1], vec![3], vec![0, 0], vec![]],
            ..plain(b"(z (+1 \"a b\") ~)")
        },
        TreeCase {
            calls: 1,
            words: 4,
            ..plain(b"()")
        },
        TreeCase {
            words: 3,
            ..plain(b"a")
        },
        TreeCase {
            words: 4,
            stores: vec![(0, 4)],
            paths: vec![vec![]],
            ..plain(b"a")
        },
    ];
    cases.extend(third_words());
    cases.extend(first_words());
    cases
}

/// The root's third word isn't looked at, an empty list's is, and in the first node of a subtree it isn't.
fn third_words() -> [TreeCase; 3] {
    let case = |stores, first| TreeCase {
        words: 16,
        stores,
        first,
        paths: vec![vec![], vec![2]],
        ..plain(b"(()a())")
    };
    [
        case(vec![(2, 7)], 0),
        case(vec![(14, 1)], 0),
        case(vec![(14, 1)], 12),
    ]
}

/// Each kind in a list; 1 for a string, 2 for a plain atom, 1 for one that is neither; 1, 2, 3 and 4 where the bytes are no atom; and a wrong kind behind
/// such bytes, so that 15 comes before 17.
fn first_words() -> [TreeCase; 9] {
    let case = |text: &[u8], words, stores| TreeCase {
        words,
        stores,
        paths: vec![vec![]],
        ..plain(text)
    };
    let no_atom = |kind| case(b"a b", 4, vec![(0, kind), (2, 3)]);
    [
        case(br#"("" "\"" "a""b" a"b" c)"#, 24, vec![]),
        case(b"\"a b\"", 4, vec![(0, 1)]),
        case(b"a", 4, vec![(0, 2)]),
        case(b"a\"b\"", 4, vec![(0, 1)]),
        no_atom(1),
        no_atom(2),
        no_atom(3),
        no_atom(4),
        case(b"(a b)", 12, vec![(6, 3), (8, 2)]),
    ]
}

const ANSWERS: [&str; 16] = [
    "# 6 | 16 2 0\n: 0 3 0 6 1 1 1 1 0 2 2 3 1 4 2 1 2 7 5 1 1 14 1 1\n\
     @ 0 | 16 2 0 0 16 3 0 0 0\n= (z (+1 \"a b\") ~)\n\
     @ 0 | 29 3 0 0 1 0 6 5 0\n= (z\n  (+1\n    \"a b\"\n  )\n  ~\n)\n\n\
     @ 0 | 17 3 0 0 16 3 1 0 0\n= (z (+1 \"a b\") ~)\n\n\
     @ 0 | 17 3 0 0 16 3 1 0 0\n= (z (+1 \"a b\") ~)\n\n\
     % 16 0 0\n! 23 | 0 0 0 0 0 0 0 0 0\n= \n\
     @ 0 | 16 2 0 0 16 3 0 0 0\n= (z (+1 \"a b\") ~)\n! 19 | 16 2 0 0 16 3 0 0 0\n= (z (+1 \"a b\") ~)\n\
     # 4 | # 4 5\n! 16 | ! 16\n! 16 | ! 16\n# 0 | # 0 1\n",
    "! 12 1 0 | 2 2 0\n: 2863311530 2863311530 2863311530 2863311530\n\
     ! 15 | 0 0 0 0 0 0 0 0 0\n= \n! 15 | 0 0 0 0 0 0 0 0 0\n= \n\
     ! 15 | 0 0 0 0 0 0 0 0 0\n= \n! 15 | 0 0 0 0 0 0 0 0 0\n= \n\
     ! 15\n! 15 | 0 0 0 0 0 0 0 0 0\n= \n! 15 | 0 0 0 0 0 0 0 0 0\n= \n! 15 | 0 0 0 0 0 0 0 0 0\n= \n",
    "! 14 0 0 | 0 0 0\n: 2863311530 2863311530 2863311530\n\
     ! 15 | 0 0 0 0 0 0 0 0 0\n= \n! 15 | 0 0 0 0 0 0 0 0 0\n= \n\
     ! 15 | 0 0 0 0 0 0 0 0 0\n= \n! 15 | 0 0 0 0 0 0 0 0 0\n= \n\
     ! 15\n! 15 | 0 0 0 0 0 0 0 0 0\n= \n! 15 | 0 0 0 0 0 0 0 0 0\n= \n! 15 | 0 0 0 0 0 0 0 0 0\n= \n",
    "# 1 | 1 2 0\n: 1 0 1 1\n\
     ! 15 | 0 0 0 0 0 0 0 0 0\n= \n! 15 | 0 0 0 0 0 0 0 0 0\n= \n\
     ! 15 | 0 0 0 0 0 0 0 0 0\n= \n! 15 | 0 0 0 0 0 0 0 0 0\n= \n\
     ! 15\n! 15 | 0 0 0 0 0 0 0 0 0\n= \n! 15 | 0 0 0 0 0 0 0 0 0\n= \n! 15 | 0 0 0 0 0 0 0 0 0\n= \n\
     ! 15 | # 0 1\n",
    "# 4 | 7 2 0\n: 0 3 0 4 0 0 1 1 1 3 1 1 0 0 3 1\n\
     @ 0 | 9 2 0 0 9 2 0 0 0\n= (() a ())\n\
     @ 0 | 18 3 0 0 1 0 5 3 0\n= (\n  ()\n  a\n  ()\n)\n\n\
     @ 0 | 10 3 0 0 9 2 1 0 0\n= (() a ())\n\n\
     @ 0 | 10 3 0 0 9 2 1 0 0\n= (() a ())\n\n\
     % 9 0 0\n! 23 | 0 0 0 0 0 0 0 0 0\n= \n\
     @ 0 | 9 2 0 0 9 2 0 0 0\n= (() a ())\n! 19 | 9 2 0 0 9 2 0 0 0\n= (() a ())\n\
     # 0 | # 0 1\n# 3 | # 3 4\n",
    "# 4 | 7 2 0\n: 0 3 0 4 0 0 1 1 1 3 1 1 0 0 3 1\n\
     ! 15 | 0 0 0 0 0 0 0 0 0\n= \n! 15 | 0 0 0 0 0 0 0 0 0\n= \n\
     ! 15 | 0 0 0 0 0 0 0 0 0\n= \n! 15 | 0 0 0 0 0 0 0 0 0\n= \n\
     ! 15\n! 15 | 0 0 0 0 0 0 0 0 0\n= \n! 15 | 0 0 0 0 0 0 0 0 0\n= \n! 15 | 0 0 0 0 0 0 0 0 0\n= \n\
     ! 15 | # 0 1\n! 15 | # 3 4\n",
    "# 4 | 7 2 0\n: 0 3 0 4 0 0 1 1 1 3 1 1 0 0 3 1\n\
     @ 0 | 2 2 0 0 2 0 0 0 0\n= ()\n\
     @ 0 | 3 3 0 0 2 0 1 0 0\n= ()\n\n\
     @ 0 | 3 3 0 0 2 0 1 0 0\n= ()\n\n\
     @ 0 | 3 3 0 0 2 0 1 0 0\n= ()\n\n\
     % 2 0 0\n! 23 | 0 0 0 0 0 0 0 0 0\n= \n\
     @ 0 | 2 2 0 0 2 0 0 0 0\n= ()\n! 19 | 2 2 0 0 2 0 0 0 0\n= ()\n\
     # 0 | # 0 1\n! 16 | ! 16\n",
    "# 6 | 23 2 0\n: 0 5 0 6 2 1 2 1 2 4 4 1 3 9 6 1 3 16 4 1 1 21 1 1\n\
     @ 0 | 23 2 0 0 23 4 0 0 0\n= (\"\" \"\\\"\" \"a\"\"b\" a\"b\" c)\n\
     @ 0 | 33 3 0 0 1 0 6 4 0\n= (\"\"\n  \"\\\"\"\n  \"a\"\"b\"\n  a\"b\"\n  c\n)\n\n\
     @ 0 | 24 3 0 0 23 4 1 0 0\n= (\"\" \"\\\"\" \"a\"\"b\" a\"b\" c)\n\n\
     @ 0 | 24 3 0 0 23 4 1 0 0\n= (\"\" \"\\\"\" \"a\"\"b\" a\"b\" c)\n\n\
     % 23 0 0\n! 23 | 0 0 0 0 0 0 0 0 0\n= \n\
     @ 0 | 23 2 0 0 23 4 0 0 0\n= (\"\" \"\\\"\" \"a\"\"b\" a\"b\" c)\n! 19 | 23 2 0 0 23 4 0 0 0\n= (\"\" \"\\\"\" \"a\"\"b\" a\"b\" c)\n\
     # 0 | # 0 1\n",
    "# 1 | 5 2 0\n: 2 0 5 1\n\
     ! 15 | 0 0 0 0 0 0 0 0 0\n= \n! 15 | 0 0 0 0 0 0 0 0 0\n= \n\
     ! 15 | 0 0 0 0 0 0 0 0 0\n= \n! 15 | 0 0 0 0 0 0 0 0 0\n= \n\
     ! 15\n! 15 | 0 0 0 0 0 0 0 0 0\n= \n! 15 | 0 0 0 0 0 0 0 0 0\n= \n! 15 | 0 0 0 0 0 0 0 0 0\n= \n\
     ! 15 | # 0 1\n",
    "# 1 | 1 2 0\n: 1 0 1 1\n\
     ! 15 | 0 0 0 0 0 0 0 0 0\n= \n! 15 | 0 0 0 0 0 0 0 0 0\n= \n\
     ! 15 | 0 0 0 0 0 0 0 0 0\n= \n! 15 | 0 0 0 0 0 0 0 0 0\n= \n\
     ! 15\n! 15 | 0 0 0 0 0 0 0 0 0\n= \n! 15 | 0 0 0 0 0 0 0 0 0\n= \n! 15 | 0 0 0 0 0 0 0 0 0\n= \n\
     ! 15 | # 0 1\n",
    "# 1 | 4 2 0\n: 3 0 4 1\n\
     ! 15 | 0 0 0 0 0 0 0 0 0\n= \n! 15 | 0 0 0 0 0 0 0 0 0\n= \n\
     ! 15 | 0 0 0 0 0 0 0 0 0\n= \n! 15 | 0 0 0 0 0 0 0 0 0\n= \n\
     ! 15\n! 15 | 0 0 0 0 0 0 0 0 0\n= \n! 15 | 0 0 0 0 0 0 0 0 0\n= \n! 15 | 0 0 0 0 0 0 0 0 0\n= \n\
     ! 15 | # 0 1\n",
    "# 1 | 1 2 0\n: 1 0 1 1\n\
     ! 17 | 0 0 0 0 0 0 0 0 0\n= \n! 17 | 0 0 0 0 0 0 0 0 0\n= \n\
     ! 17 | 0 0 0 0 0 0 0 0 0\n= \n! 17 | 0 0 0 0 0 0 0 0 0\n= \n\
     ! 17\n! 17 | 0 0 0 0 0 0 0 0 0\n= \n! 17 | 0 0 0 0 0 0 0 0 0\n= \n! 17 | 0 0 0 0 0 0 0 0 0\n= \n\
     # 0 | # 0 1\n",
    "# 1 | 1 2 0\n: 1 0 1 1\n\
     ! 17 | 0 0 0 0 0 0 0 0 0\n= \n! 17 | 0 0 0 0 0 0 0 0 0\n= \n\
     ! 17 | 0 0 0 0 0 0 0 0 0\n= \n! 17 | 0 0 0 0 0 0 0 0 0\n= \n\
     ! 17\n! 17 | 0 0 0 0 0 0 0 0 0\n= \n! 17 | 0 0 0 0 0 0 0 0 0\n= \n! 17 | 0 0 0 0 0 0 0 0 0\n= \n\
     # 0 | # 0 1\n",
    "# 1 | 1 2 0\n: 1 0 1 1\n\
     ! 17 | 0 0 0 0 0 0 0 0 0\n= \n! 17 | 0 0 0 0 0 0 0 0 0\n= \n\
     ! 17 | 0 0 0 0 0 0 0 0 0\n= \n! 17 | 0 0 0 0 0 0 0 0 0\n= \n\
     ! 17\n! 17 | 0 0 0 0 0 0 0 0 0\n= \n! 17 | 0 0 0 0 0 0 0 0 0\n= \n! 17 | 0 0 0 0 0 0 0 0 0\n= \n\
     # 0 | # 0 1\n",
    "# 1 | 1 2 0\n: 1 0 1 1\n\
     ! 15 | 0 0 0 0 0 0 0 0 0\n= \n! 15 | 0 0 0 0 0 0 0 0 0\n= \n\
     ! 15 | 0 0 0 0 0 0 0 0 0\n= \n! 15 | 0 0 0 0 0 0 0 0 0\n= \n\
     ! 15\n! 15 | 0 0 0 0 0 0 0 0 0\n= \n! 15 | 0 0 0 0 0 0 0 0 0\n= \n! 15 | 0 0 0 0 0 0 0 0 0\n= \n\
     ! 15 | # 0 1\n",
    "# 3 | 5 2 0\n: 0 2 0 3 1 1 1 1 1 3 1 1\n\
     ! 15 | 0 0 0 0 0 0 0 0 0\n= \n! 15 | 0 0 0 0 0 0 0 0 0\n= \n\
     ! 15 | 0 0 0 0 0 0 0 0 0\n= \n! 15 | 0 0 0 0 0 0 0 0 0\n= \n\
     ! 15\n! 15 | 0 0 0 0 0 0 0 0 0\n= \n! 15 | 0 0 0 0 0 0 0 0 0\n= \n! 15 | 0 0 0 0 0 0 0 0 0\n= \n\
     ! 15 | # 0 1\n",
];

/// Prints how many of the examples hold; answers whether all do.
pub fn check() -> bool {
    let mut judge = TreeJudge::default();
    let mut differences = Differences::default();
    for (case, answers) in cases().iter().zip(ANSWERS) {
        let found = judge.expected(case);
        if found != answers.as_bytes() {
            differences.add(case, answers.as_bytes(), &found);
        }
    }
    println!(
        "examples of documents 01 and 02: {}, {} that fail",
        ANSWERS.len(),
        differences.count
    );
    differences.print("the first one, the documents' answers expected:")
}
