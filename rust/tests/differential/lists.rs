//! Random lists of calls, from a seed.

use crate::damage::{character, damage, insert};
use crate::profile::{profile, ATOM_CHARACTERS};
use crate::random::Random;

#[derive(Debug)]
pub enum List {
    Reading {
        text: String,
        calls: Vec<Read>,
        finish: bool,
    },
    Writing {
        style: [&'static str; 2],
        before: &'static str,
        calls: Vec<Write>,
        finish: Option<bool>,
    },
    Tree {
        shape: Shape,
        paths: Vec<Vec<usize>>,
    },
    Atoms {
        atoms: Vec<String>,
    },
}

#[derive(Debug)]
pub enum Read {
    NextItem,
    ParseTree,
}

#[derive(Debug)]
pub enum Write {
    PutAtom(String, usize),
    BeginList(usize),
    EndList,
    Tree(Shape, usize),
}

#[derive(Debug)]
pub enum Shape {
    Atom(String),
    List(Vec<Shape>),
}

/// Line breaks and indentations; not all of them are blank.
const STYLES: [[&str; 2]; 8] = [
    ["\n", "  "],
    ["\n", " "],
    ["\r\n", "\t"],
    ["\n", ""],
    ["", " "],
    ["", ""],
    [" ;\n", "\u{e9}\u{1d11e}"],
    ["\n\n", "....."],
];

const SYMBOLS: [&str; 14] = [
    "(", ")", "\"", "\\", ";", "a", " ", "\n", "\r", "\t", "[", "\u{e9}", "\u{7f}", "bc",
];

pub struct Maker {
    random: Random,
}

impl Maker {
    pub fn new(seed: u64) -> Self {
        Self {
            random: Random::new(seed),
        }
    }

    pub fn list(&mut self) -> List {
        match self.random.below(20) {
            0..=8 => self.reading(),
            9..=16 => self.writing(),
            17..=18 => {
                let shape = self.shape();
                let paths = (0..6).map(|_| self.path()).collect();
                List::Tree { shape, paths }
            }
            _ => List::Atoms {
                atoms: (0..8).map(|_| self.any_atom()).collect(),
            },
        }
    }

    fn reading(&mut self) -> List {
        let text = self.text();
        // Some lists end before the text does, some go on behind its end.
        let most = if self.random.percent(20) {
            4
        } else {
            4 + text.len() / 3
        };
        let trees = self.random.pick(&[0, 5, 30, 80]);
        let call = |random: &mut Random| {
            if random.percent(trees) {
                Read::ParseTree
            } else {
                Read::NextItem
            }
        };
        let calls = (0..self.random.below(most))
            .map(|_| call(&mut self.random))
            .collect();
        List::Reading {
            text,
            calls,
            finish: self.random.percent(70),
        }
    }

    fn text(&mut self) -> String {
        let random = &mut self.random;
        if random.percent(40) {
            return (0..random.below(12))
                .map(|_| random.pick(&SYMBOLS))
                .collect();
        }
        let size = random.pick(&[4, 20, 60, 200]);
        let mut text = profile(random, size);
        while random.percent(40) {
            if random.percent(50) {
                damage(random, &mut text);
            } else {
                let character = character(random);
                insert(random, &mut text, &character);
            }
        }
        String::from_utf8_lossy(&text).into_owned()
    }

    fn writing(&mut self) -> List {
        let style = self.random.pick(&STYLES);
        let before = self.random.pick(&["", "", "; a comment\n", "\u{e9}"]);
        let calls = self.calls();
        // A list of calls that is whole for the most part ends with a finish.
        let finish = if self.random.percent(90) {
            Some(self.random.percent(50))
        } else {
            None
        };
        List::Writing {
            style,
            before,
            calls,
            finish,
        }
    }

    fn calls(&mut self) -> Vec<Write> {
        let mut calls = Vec::new();
        let opening = self.random.pick(&[5, 30, 60, 95]);
        let closing = self.random.pick(&[5, 30, 60]);
        let wrong = self.random.pick(&[0, 0, 3, 30]);
        let trees = self.random.pick(&[10, 50]);
        let mut open = 0usize;
        for _ in 0..self.random.below(40) {
            if self.random.percent(wrong) {
                let call = self.wrong_call();
                calls.push(call);
            } else if open == 0 && !calls.is_empty() && !self.random.percent(wrong) {
                break;
            } else if open > 0 && self.random.percent(closing) {
                calls.push(Write::EndList);
                open -= 1;
            } else if open == 0 || self.random.percent(opening) {
                calls.push(Write::BeginList(self.threshold()));
                open += 1;
            } else if self.random.percent(trees) {
                calls.push(Write::Tree(self.shape(), self.threshold()));
            } else {
                calls.push(Write::PutAtom(self.atom(), self.threshold()));
            }
        }
        if self.random.percent(85) {
            calls.extend((0..open).map(|_| Write::EndList));
        }
        calls
    }

    /// A call that panics in some states or in all.
    fn wrong_call(&mut self) -> Write {
        match self.random.below(4) {
            0 => Write::EndList,
            1 => Write::PutAtom(self.any_atom(), self.threshold()),
            2 => Write::Tree(self.shape(), self.threshold()),
            _ => Write::BeginList(self.threshold()),
        }
    }

    fn threshold(&mut self) -> usize {
        match self.random.below(6) {
            0 => 0,
            1 => usize::MAX,
            2 => 72,
            _ => self.random.below(30),
        }
    }

    fn atom(&mut self) -> String {
        let random = &mut self.random;
        let length = random.pick(&[1, 3, 12]);
        match random.below(4) {
            0 => String::from("\"a \\\" b\""),
            1 => String::from("x\"(\"\"\""),
            _ => (0..=random.below(length))
                .map(|_| char::from(random.pick(ATOM_CHARACTERS)))
                .collect(),
        }
    }

    /// An atom, or something near one.
    fn any_atom(&mut self) -> String {
        let random = &mut self.random;
        match random.below(4) {
            0 => self.atom(),
            1 => String::from_utf8_lossy(&character(random)).into_owned(),
            _ => (0..random.below(6))
                .map(|_| random.pick(&SYMBOLS))
                .collect(),
        }
    }

    /// A tree, most of its atoms good.
    fn shape(&mut self) -> Shape {
        let opening = self.random.pick(&[10, 40, 70]);
        let wrong = self.random.pick(&[0, 0, 20]);
        let mut open: Vec<Vec<Shape>> = Vec::new();
        for _ in 0..self.random.below(16) {
            if self.random.percent(opening) {
                open.push(Vec::new());
                continue;
            }
            let close = open.len() > 1 && self.random.percent(30);
            let shape = if close {
                Shape::List(open.pop().unwrap_or_default())
            } else if self.random.percent(wrong) {
                Shape::Atom(self.any_atom())
            } else if self.random.percent(20) {
                Shape::Atom(String::from("x"))
            } else {
                Shape::Atom(self.atom())
            };
            match open.last_mut() {
                Some(list) => list.push(shape),
                None => return shape,
            }
        }
        let closed = open.into_iter().rev().reduce(|inner, mut outer| {
            outer.push(Shape::List(inner));
            outer
        });
        Shape::List(closed.unwrap_or_default())
    }

    fn path(&mut self) -> Vec<usize> {
        let random = &mut self.random;
        (0..random.below(4))
            .map(|_| {
                if random.percent(3) {
                    usize::MAX
                } else {
                    random.below(4)
                }
            })
            .collect()
    }
}
