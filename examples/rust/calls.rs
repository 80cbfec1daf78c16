//! Makes each call of the library with arguments that all differ, and prints all that it answers and writes: what examples/c/calls.c prints. A call
//! whose arguments came in another order would print something else. The texts at the limit come last.

// The answers of single calls are printed as words, and not taken apart.
#[allow(dead_code)]
mod sise;

use sise::{Refusal, Size, Style};

/// The style: two strings of different lengths.
const STYLE: Style = Style {
    line_break: b"\r\n",
    indentation: b"\t\t\t",
};

const PROFILE: &[u8] = b"(stage (x -57.5) y)";
const NODES: usize = 6;
const ITEMS: usize = 8;
const BUFFER: usize = 48;

/// What stands in lent memory before a call.
const UNTOUCHED: u8 = 46;

/// The result's number and the two values that came with it.
fn numbers(result: Result<usize, Refusal>) -> (u32, u64, u64) {
    match result {
        Ok(answer) => (0, answer as u64, 0),
        Err(Refusal::IllegalChr { place, chr }) => (1, place, u64::from(u32::from(chr))),
        Err(Refusal::UnexpectedEof { place }) => (5, place, 0),
        Err(Refusal::ExpectedEof { place }) => (7, place, 0),
        Err(Refusal::ParsingFinished) => (9, 0, 0),
        Err(Refusal::ParsingNotFinished) => (10, 0, 0),
        Err(Refusal::UnsoundRecord) => (11, 0, 0),
        Err(Refusal::NodeExpected { place }) => (12, place, 0),
        Err(Refusal::TextTooLong) => (13, 0, 0),
        Err(Refusal::TableFull) => (14, 0, 0),
        Err(Refusal::InvalidAtom) => (17, 0, 0),
        Err(Refusal::WritingFinished) => (19, 0, 0),
        Err(Refusal::NoRoom) => (22, 0, 0),
        Err(Refusal::SizeChanged) => (23, 0, 0),
        Err(refusal) => panic!("{refusal}"),
    }
}

fn print_result(call: &str, result: Result<usize, Refusal>) {
    let (number, first, second) = numbers(result);
    println!("{call}: {number}, {first} {second}");
}

fn print_size(result: Result<Size, Refusal>) {
    let (number, size) = match result {
        Ok(size) => (0, [size.bytes, size.breaks, size.indents]),
        Err(refusal) => (numbers(Err(refusal)).0, [0; 3]),
    };
    println!(
        "sise_measure_tree: {number}, {} {} {}",
        size[0], size[1], size[2]
    );
}

/// Prints the words in a line, behind the call's number.
fn print_line(call: &str, number: u32, words: &[u64]) {
    let words: Vec<String> = words.iter().map(u64::to_string).collect();
    println!("{call}: {number}, {}", words.join(" "));
}

/// Prints the words, four a line.
fn print_words(words: impl IntoIterator<Item = u64>) {
    let words: Vec<String> = words.into_iter().map(|word| word.to_string()).collect();
    for line in words.chunks(4) {
        println!("{}", line.join(" "));
    }
}

fn print_bytes(bytes: &[u8]) {
    println!("{}", bytes.escape_ascii());
}

fn check_atoms() {
    let number = |result: Result<(), Refusal>| match result {
        Ok(()) => 0,
        Err(Refusal::InvalidAtom) => 17,
        Err(refusal) => panic!("{refusal}"),
    };
    println!("sise_check_atom: {}", number(sise::check_atom(b"x\" \"")));
    println!("sise_check_atom: {}", number(sise::check_atom(b"x y")));
}

/// An atom of each kind, and no atom.
fn print_kinds() {
    let atoms: [&[u8]; 4] = [b"x", b"\"a b\"", b"x\"y\"", b"x y"];
    for atom in atoms {
        let number = sise::atom_kind(atom).map_or(0, |kind| kind as u32);
        println!("sise_atom_kind: {number}");
    }
}

/// Reads the profile into a table, and a text that is refused into none of it.
fn read_table() -> Vec<u32> {
    let mut table = vec![u32::from(UNTOUCHED); 4 * NODES + 1];
    print_result("sise_parse_tree", sise::parse_tree(b"(a ,)", &mut table));
    print_result("sise_parse_tree", sise::parse_tree(PROFILE, &mut table));
    print_words(table.iter().map(|word| u64::from(*word)));
    table
}

fn find_node(table: &[u32]) {
    let found = sise::find_path(table, PROFILE, &[1, 0]);
    let (number, index, seen) = match found {
        Ok(found) => (0, found.index as u64, found.seen as u64),
        Err(refusal) => numbers(Err(refusal)),
    };
    println!("sise_find_path: {number}, {index} {seen}");
}

fn write_table(table: &[u32]) {
    let mut buf = [UNTOUCHED; BUFFER];
    let written = sise::serialize_tree(STYLE, &mut buf, PROFILE, table, 9, true);
    print_result("sise_serialize_tree", written);
    print_bytes(&buf);
}

/// Measures the profile in a buffer that is a byte short, and in one that holds it; commits it with that size, and with breaks and indents exchanged.
fn commit_table(table: &[u32]) {
    print_size(sise::measure_tree(STYLE, 34, PROFILE, table, 9, true));
    let measured = sise::measure_tree(STYLE, BUFFER, PROFILE, table, 9, true);
    print_size(measured);
    let size = measured.expect("the buffer holds the profile");
    let mut buf = [UNTOUCHED; BUFFER];
    let exchanged = Size {
        breaks: size.indents,
        indents: size.breaks,
        ..size
    };
    for given in [exchanged, size] {
        let committed = sise::commit_tree(STYLE, &mut buf, PROFILE, table, 9, true, given);
        print_result("sise_commit_tree", committed);
        print_bytes(&buf);
    }
}

/// Reads a profile of more than one line, and prints it in house style.
fn write_house() {
    let text = br#"(stage (x -57.5 57.5) (y -40.0 40.0) (z 0.0 25.0) (speed 12.5 12.5 0.8) (name "bench 3"))"#;
    let mut table = vec![0; 4 * text.len()];
    let mut buf = vec![0; 2 * text.len()];
    print_result("a profile", sise::parse_tree(text, &mut table));
    let written = sise::serialize_tree(
        Style::HOUSE,
        &mut buf,
        text,
        &table,
        sise::HOUSE_THRESHOLD,
        true,
    );
    buf.truncate(*written.as_ref().unwrap_or(&0));
    print_result("in house style", written);
    print!("{}", String::from_utf8_lossy(&buf));
}

/// Reads the profile's items, makes them calls at the threshold 9 with a finish behind them, and writes them again.
fn write_items() {
    let mut words = [u64::from(UNTOUCHED); 4 * ITEMS + 4];
    let mut answers = [u64::from(UNTOUCHED); ITEMS + 2];
    let mut buf = [UNTOUCHED; BUFFER];
    print_result("sise_read_items", sise::read_items(b"(a ,)", &mut words));
    print_result("sise_read_items", sise::read_items(PROFILE, &mut words));
    print_words(words);
    for call in words.chunks_mut(4).take(ITEMS) {
        call[3] = 9;
    }
    words[4 * ITEMS] = 4;
    let (written, ran) = sise::write_calls(&words, PROFILE, STYLE, &mut buf, &mut answers);
    println!("sise_write_calls: {written}, {ran}");
    print_words(answers);
    print_bytes(&buf);
}

/// Reads a text item by item up to its first refusal, reads on behind that, and asks twice whether the text ends.
fn read_one_by_one() {
    let text = b"(ab ,) c";
    let mut record = [0; 3];
    for _ in 0..5 {
        let (number, item) = match sise::next_item(text, &mut record) {
            Ok(item) => (0, item),
            Err(refusal) => {
                let (number, place, code) = numbers(Err(refusal));
                (number, [0, place, code])
            }
        };
        print_line("sise_next_item", number, &item);
        print_line("its record", number, &record);
        print_result("sise_finish_reading", sise::finish_reading(text, &record));
    }
}

/// Reads a list's children as trees, past a refusal, up to its `)`.
fn read_children() {
    let text = b"((ab c) ,d)";
    let mut record = [0; 3];
    let item = sise::next_item(text, &mut record).unwrap_or_default();
    print_line("sise_next_item", 0, &item);
    for i in 0..5 {
        let mut table = [u32::from(UNTOUCHED); 14];
        let len = if i == 0 { 11 } else { 14 };
        let result = sise::next_tree(text, &mut record, &mut table[..len]);
        print_result("sise_next_tree", result);
        print_line("its record", numbers(result).0, &record);
        print_words(table.map(u64::from));
    }
}

/// Prints what a call answers, and the record and the buffer that it leaves.
fn print_call(call: &str, result: Result<usize, Refusal>, record: &[u64; 9], buf: &[u8]) {
    let (number, first, second) = numbers(result);
    print_line(call, number, &[first, second]);
    print_line("its record", number, record);
    print_bytes(buf);
}

/// Writes a list one call after the other.
fn write_one_by_one() {
    let mut record = [0; 9];
    let mut buf = [UNTOUCHED; BUFFER];
    let result = sise::begin_list(STYLE, &mut buf, 7, &mut record);
    print_call("sise_begin_list", result, &record, &buf);
    let result = sise::put_atom(STYLE, &mut buf, b"abcdef", 7, &mut record);
    print_call("sise_put_atom", result, &record, &buf);
    let result = sise::begin_list(STYLE, &mut buf, 7, &mut record);
    print_call("sise_begin_list", result, &record, &buf);
    let result = sise::put_atom(STYLE, &mut buf, b"g h", 7, &mut record);
    print_call("sise_put_atom", result, &record, &buf);
    for _ in 0..3 {
        let result = sise::end_list(STYLE, &mut buf, &mut record);
        print_call("sise_end_list", result, &record, &buf);
    }
    let result = sise::finish_writing(STYLE, &mut buf, true, &mut record);
    print_call("sise_finish_writing", result, &record, &buf);
    record[4] = 2;
    let result = sise::end_list(STYLE, &mut buf, &mut record);
    print_call("sise_end_list", result, &record, &buf);
}

/// Puts a subtree of the profile into a list, until it has no room.
fn put_children(table: &[u32]) {
    let mut record = [0; 9];
    let mut buf = [UNTOUCHED; BUFFER];
    let result = sise::begin_list(STYLE, &mut buf, 7, &mut record);
    print_call("sise_begin_list", result, &record, &buf);
    for _ in 0..4 {
        let result = sise::put_tree(STYLE, &mut buf, PROFILE, &table[8..], 7, &mut record);
        print_call("sise_put_tree", result, &record, &buf);
    }
}

/// A text of spaces as long as a tree call reads, and one of a byte more: row 13 of document 01.
fn read_longest() {
    let text = vec![b' '; sise::LONGEST + 1];
    let mut table = [0; 4];
    let longest = sise::parse_tree(&text[..sise::LONGEST], &mut table);
    print_result("16777216 spaces", longest);
    print_result("16777217 spaces", sise::parse_tree(&text, &mut table));
}

fn main() {
    check_atoms();
    print_kinds();
    let table = read_table();
    let node = sise::index_path(&table, PROFILE, &[1, 0]);
    print_result("sise_index_path", node);
    find_node(&table);
    write_table(&table);
    commit_table(&table);
    write_house();
    write_items();
    read_one_by_one();
    write_one_by_one();
    read_children();
    put_children(&table);
    read_longest();
}
