//! include/sise.h against the package: the calls that src/ffi.rs declares, by name, order and type of their arguments, and the names of the refusals.

use sise::bytes::Reason;

const HEADER: &str = include_str!("../../include/sise.h");
const FFI: &str = include_str!("../src/ffi.rs");

/// A declaration: its name, its arguments as Rust has them, and its result.
type Call = (String, Vec<String>, String);

/// What stands between two marks, and what comes behind them.
fn between<'a>(text: &'a str, from: &str, to: &str) -> Option<(&'a str, &'a str)> {
    let (_, rest) = text.split_once(from)?;
    rest.split_once(to)
}

/// The calls that ffi.rs declares.
fn declared() -> Vec<Call> {
    let (_, mut rest) = FFI.split_once("extern \"C\" {").unwrap();
    let mut calls = Vec::new();
    while let Some((name, after)) = between(rest, "pub fn ", "(") {
        let (arguments, after) = after.split_once(") -> ").unwrap();
        let (result, after) = after.split_once(';').unwrap();
        let arguments = arguments
            .split(',')
            .map(str::trim)
            .filter(|argument| !argument.is_empty());
        let arguments = arguments.map(String::from).collect();
        calls.push((name.into(), arguments, result.into()));
        rest = after;
    }
    calls
}

/// The calls of the header, in Rust's words.
fn headed() -> Vec<Call> {
    let mut calls = Vec::new();
    // A declaration begins a line; comments do not begin with a result.
    for (at, _) in HEADER.match_indices("\nuint") {
        let (declaration, _) = HEADER[at + 1..].split_once(';').unwrap();
        let (head, arguments) = declaration.split_once('(').unwrap();
        let (result, name) = head.split_once(' ').unwrap();
        let arguments = arguments
            .trim_end_matches(')')
            .split(',')
            .map(rendered)
            .collect();
        calls.push((name.into(), arguments, number(result).into()));
    }
    calls
}

fn number(name: &str) -> &'static str {
    match name {
        "uint8_t" => "u8",
        "uint32_t" => "u32",
        "uint64_t" => "u64",
        "size_t" => "usize",
        "bool" => "bool",
        _ => panic!("{name}"),
    }
}

/// An argument in C as Rust has it.
fn rendered(argument: &str) -> String {
    let argument = argument.split_whitespace().collect::<Vec<_>>().join(" ");
    let (access, argument) = match argument.strip_prefix("const ") {
        Some(rest) => ("const", rest.to_string()),
        None => ("mut", argument),
    };
    let (kind, name) = argument.rsplit_once(' ').unwrap();
    let kind = number(kind);
    if let Some(name) = name.strip_prefix('*') {
        return format!("{name}: *{access} {kind}");
    }
    match name.split_once('[') {
        Some((name, length)) => {
            format!(
                "{name}: *{access} [{kind}; {}]",
                length.trim_end_matches(']')
            )
        }
        None => format!("{name}: {kind}"),
    }
}

#[test]
fn calls() {
    let headed = headed();
    for call in declared() {
        let due = headed.iter().find(|other| other.0 == call.0);
        assert_eq!(Some(&call), due);
    }
}

/// Every call of the header is wrapped.
#[test]
fn all_calls() {
    let mut names: Vec<String> = headed().into_iter().map(|call| call.0).collect();
    let mut ours: Vec<String> = declared().into_iter().map(|call| call.0).collect();
    names.sort();
    ours.sort();
    assert_eq!(ours, names);
}

/// `UnexpectedEof` is `SISE_UNEXPECTED_EOF`.
#[test]
fn refusals() {
    let (numbers, _) = between(HEADER, "enum sise_refusal {", "};").unwrap();
    let mut found = 0;
    for line in numbers
        .lines()
        .filter_map(|line| line.trim().strip_prefix("SISE_"))
    {
        let (name, rest) = line.split_once(" = ").unwrap();
        let digits = rest
            .split(|chr: char| !chr.is_ascii_digit())
            .next()
            .unwrap();
        let Some(reason) = Reason::by_number(digits.parse().unwrap()) else {
            assert_eq!(name, "OK");
            continue;
        };
        let mut upper = String::new();
        for chr in format!("{reason:?}").chars() {
            if chr.is_ascii_uppercase() && !upper.is_empty() {
                upper.push('_');
            }
            upper.push(chr.to_ascii_uppercase());
        }
        assert_eq!(name, upper);
        found += 1;
    }
    assert!(found > 16, "{found}");
}
