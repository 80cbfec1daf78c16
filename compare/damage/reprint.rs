//! Reprints (request 2.4): `sise_parse_tree` and then `sise_serialize_tree` in house style. At each threshold the reprint of a reprint is the reprint, and
//! two texts reprint alike exactly if their trees are equal.

use crate::answers::{ensure, refusal, refused, Check};
use crate::calls::Calls;
use crate::damage::damage;
use crate::forms::bytes;
use crate::guard::Edge;
use crate::limits::{lines, LONGEST};
use crate::profile::{gap, ATOM_CHARACTERS};
use crate::random::Random;
use crate::shown::bytes_shown;
use crate::texts::{good, Texts};

const THRESHOLDS: [u64; 6] = [0, 1, 40, 72, 80, u64::MAX];

/// How many texts were reprinted, and how many pairs of them, at a threshold, reprinted alike and otherwise.
#[derive(Default)]
pub struct Count {
    pub texts: u64,
    pub alike: u64,
    pub otherwise: u64,
}

/// A text, and the table of its one node.
struct Profile {
    text: Vec<u8>,
    table: Vec<u32>,
}

pub fn run(calls: &mut Calls, texts: &Texts, count: &mut Count, seed: u64, number: u64) -> Check {
    let mut random = Random::new(seed << 32 ^ number);
    let text = if random.percent(80) {
        good(&mut random)
    } else {
        texts.text(&mut random)
    };
    let Some(profile) = Profile::read(calls, &mut random, text)? else {
        return Ok(());
    };
    count.texts += 1;
    check(calls, &mut random, count, &profile)
        .map_err(|rule| format!("{rule}; text {}", bytes_shown(&profile.text)))
}

/// The text and another, at each threshold.
fn check(calls: &mut Calls, random: &mut Random, count: &mut Count, profile: &Profile) -> Check {
    let (text, known) = variant(random, profile);
    let other = Profile::read(calls, random, text)?;
    let equal = other.as_ref().map(|other| profile.equals(other));
    ensure(
        known.is_none() || equal == known,
        "reprint: the trees are equal exactly if only layout and comments differ",
    )?;
    for threshold in THRESHOLDS {
        compare(calls, random, count, threshold, profile, &other)
            .map_err(|rule| format!("{rule}; threshold {threshold}"))?;
    }
    Ok(())
}

/// Reprints both texts at a threshold, and the first's reprint again.
fn compare(
    calls: &mut Calls,
    random: &mut Random,
    count: &mut Count,
    threshold: u64,
    profile: &Profile,
    other: &Option<Profile>,
) -> Check {
    let Some(reprint) = profile.reprinted(calls, random, threshold)? else {
        return Ok(());
    };
    again(calls, random, threshold, profile, &reprint)?;
    let Some(other) = other else {
        return Ok(());
    };
    if let Some(second) = other.reprinted(calls, random, threshold)? {
        let equal = profile.equals(other);
        count.alike += u64::from(equal);
        count.otherwise += u64::from(!equal);
        let rule = "reprint: two texts reprint alike exactly if their trees are equal";
        ensure((reprint == second) == equal, rule)
            .map_err(|rule| format!("{rule}; other {}", bytes_shown(&other.text)))?;
    }
    Ok(())
}

/// The reprint's own reprint, with a table and a buffer that it fills.
fn again(
    calls: &mut Calls,
    random: &mut Random,
    threshold: u64,
    profile: &Profile,
    once: &[u8],
) -> Check {
    let before: Vec<u32> = vec![random.byte().into(); profile.table.len()];
    let (reported, table) = calls.parse_tree(once, &before, edge(random));
    ensure(
        reported.answer(once.len())? == profile.table.len() as u64 / 4,
        "reprint: a reprint has the nodes of its text",
    )?;
    let reprint = Profile {
        text: once.to_vec(),
        table,
    };
    ensure(
        profile.equals(&reprint),
        "reprint: a reprint has the tree of its text",
    )?;
    let twice = reprint.written(calls, random, threshold, once.len())?;
    ensure(
        twice.as_deref() == Some(once),
        "reprint: the reprint of a reprint is the reprint",
    )
}

impl Profile {
    /// None, if the text is not read to its end as one node.
    fn read(calls: &mut Calls, random: &mut Random, text: Vec<u8>) -> Check<Option<Self>> {
        let before: Vec<u32> = vec![random.byte().into(); 4 * text.len()];
        let (reported, mut table) = calls.parse_tree(&text, &before, edge(random));
        let answer = reported.answer(text.len())?;
        if refusal(answer).is_some() {
            return Ok(None);
        }
        table.truncate(4 * answer as usize);
        Ok(Some(Self { text, table }))
    }

    /// The tree written in house style into so many bytes; None, if they are too few.
    fn written(
        &self,
        calls: &mut Calls,
        random: &mut Random,
        threshold: u64,
        room: usize,
    ) -> Check<Option<Vec<u8>>> {
        let Self { text, table } = self;
        let before = vec![random.byte(); room];
        let (reported, mut after) = calls.serialize_tree(
            &lines(),
            &before,
            text,
            table,
            threshold,
            true,
            edge(random),
        );
        let answer = reported.answer(text.len())?;
        if answer == refused(22) {
            return Ok(None);
        }
        ensure(
            refusal(answer).is_none(),
            "reprint: a tree that was read is written, or has no room",
        )?;
        after.truncate(answer as usize);
        Ok(Some(after))
    }

    /// The same into as many bytes as it takes; None, if it passes the limit.
    fn reprinted(
        &self,
        calls: &mut Calls,
        random: &mut Random,
        threshold: u64,
    ) -> Check<Option<Vec<u8>>> {
        let mut room = 2 * self.text.len() + 100;
        loop {
            let written = self.written(calls, random, threshold, room.min(LONGEST))?;
            if written.is_some() || room >= LONGEST {
                return Ok(written);
            }
            room *= 16;
        }
    }

    /// Node by node: lists with as many children, and atoms with the same bytes.
    fn equals(&self, other: &Self) -> bool {
        let nodes = self.table.chunks_exact(4).zip(other.table.chunks_exact(4));
        self.table.len() == other.table.len()
            && nodes.into_iter().all(|(one, two)| match (one[0], two[0]) {
                (0, 0) => one[1] == two[1],
                (1.., 1..) => {
                    bytes(one[1], one[2], &self.text) == bytes(two[1], two[2], &other.text)
                }
                _ => false,
            })
    }
}

fn edge(random: &mut Random) -> Edge {
    if random.percent(50) {
        Edge::End
    } else {
        Edge::Beginning
    }
}

/// Another text: the same tree in another layout, with one atom changed, or with damage; and whether its tree is the same, where that is known.
fn variant(random: &mut Random, profile: &Profile) -> (Vec<u8>, Option<bool>) {
    let kind = random.below(8);
    let atoms = profile.table.chunks_exact(4).filter(|node| node[0] != 0);
    let atoms: Vec<&[u32]> = atoms.collect();
    if kind == 0 {
        let mut text = profile.text.clone();
        damage(random, &mut text);
        (text, None)
    } else if kind < 4 && !atoms.is_empty() {
        let atom = atoms[random.below(atoms.len())];
        (changed(random, &profile.text, atom), Some(false))
    } else {
        (relaid(random, profile), Some(true))
    }
}

/// The items with other gaps and comments between them.
fn relaid(random: &mut Random, profile: &Profile) -> Vec<u8> {
    let mut out = Vec::new();
    let share = random.pick(&[0, 10, 50, 100]);
    let mut ends: Vec<usize> = Vec::new();
    for (i, node) in profile.table.chunks_exact(4).enumerate() {
        close(&mut ends, i, &mut out);
        if random.percent(share) {
            gap(random, &mut out);
        }
        if node[0] == 0 {
            out.push(b'(');
            ends.push(i + node[3] as usize);
        } else {
            let atom = bytes(node[1], node[2], &profile.text).unwrap_or(b"");
            // Two atoms would be one.
            if out.last().is_some_and(|&byte| byte != b'(' && byte != b')') {
                gap(random, &mut out);
            }
            out.extend_from_slice(atom);
        }
    }
    close(&mut ends, profile.table.len() / 4, &mut out);
    if random.percent(share) {
        gap(random, &mut out);
    }
    out
}

/// Closes the lists that end before node i.
fn close(ends: &mut Vec<usize>, i: usize, out: &mut Vec<u8>) {
    while ends.last() == Some(&i) {
        ends.pop();
        out.push(b')');
    }
}

/// The atom gets another first character, or one character more.
fn changed(random: &mut Random, text: &[u8], atom: &[u32]) -> Vec<u8> {
    let mut text = text.to_vec();
    let (place, len) = (atom[1] as usize, atom[2] as usize);
    let old = text[place];
    let chr = random.pick(ATOM_CHARACTERS);
    if chr != old && ATOM_CHARACTERS.contains(&old) {
        text[place] = chr;
    } else {
        text.insert(place + len, chr);
    }
    text
}
