//! `sise_check_atom` and `sise_atom_kind`.

use crate::answers::{ensure, twice, Check};
use crate::atoms::{is_atom, kind};
use crate::calls::Calls;
use crate::guard::Edge;
use crate::profile::ATOM_CHARACTERS;
use crate::random::Random;

/// Both calls on the bytes, which may be an atom or not: the kind, and 0 for no atom.
pub fn check(calls: &mut Calls, bytes: &[u8]) -> Check<u32> {
    let found = twice(|edge| calls.atom_kind(bytes, edge))?;
    let checked = twice(|edge| calls.check_atom(bytes, edge))?;
    ensure(
        checked == if found == 0 { 17 } else { 0 },
        "atom_kind: 0 where check_atom gives 17",
    )?;
    let expected = if is_atom(bytes) { kind(bytes) } else { 0 };
    ensure(found == expected, "atom_kind: the kind of the bytes")?;
    Ok(found)
}

/// Both calls on the bytes, and the words that parse_tree gives of them.
pub fn check_read(calls: &mut Calls, bytes: &[u8]) -> Check {
    let found = check(calls, bytes)?;
    let (reported, table) = calls.parse_tree(bytes, &vec![0; 4 * bytes.len()], Edge::End);
    let node = [found, 0, bytes.len() as u32, 1];
    let atom = reported.number == 0 && table[1..4] == node[1..] && table[0] != 0;
    ensure(
        atom == (found != 0),
        "atom_kind: 0 where the whole text is no atom",
    )?;
    ensure(
        !atom || table[..4] == node,
        "atom_kind: the first word that parse_tree writes",
    )
}

/// The atoms of a tree that was read.
pub fn check_tree(calls: &mut Calls, text: &[u8], tree: &[u32]) -> Check {
    for node in tree.chunks_exact(4).filter(|node| node[0] != 0) {
        let place = node[1] as usize;
        let found = check(calls, &text[place..place + node[2] as usize])?;
        ensure(
            found == node[0],
            "parse_tree: the kind as an atom's first word",
        )?;
    }
    Ok(())
}

/// Pieces of atoms, most of them put together well: strings, characters, and now and then a byte of any other kind.
pub fn bytes(random: &mut Random) -> Vec<u8> {
    let strings = random.pick(&[0, 20, 50, 100]);
    let strange = random.pick(&[0, 0, 3, 20]);
    let mut bytes = Vec::new();
    for _ in 0..random.pick(&[1, 1, 1, 2, 3, 9]) {
        if random.percent(strange) {
            bytes.push(random.byte());
        } else if random.percent(strings) {
            string(random, &mut bytes);
        } else {
            let len = random.below(4);
            bytes.extend((0..len).map(|_| random.pick(ATOM_CHARACTERS)));
        }
    }
    if random.percent(10) {
        bytes.pop();
    }
    bytes
}

/// Between two quotes, bytes that may stand there, `\\` with a byte behind it, and sometimes a quote.
fn string(random: &mut Random, out: &mut Vec<u8>) {
    out.push(b'"');
    for _ in 0..random.below(5) {
        match random.below(20) {
            0 => out.push(b'"'),
            1..=4 => out.extend([b'\\', random.pick(b"\"\\a ~")]),
            _ => out.push(b' ' + random.below(0x7F - 0x20) as u8),
        }
    }
    out.push(b'"');
}
