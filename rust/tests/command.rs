//! The command `sise`, run on files: good, damaged, huge, deep, with CRLF, with a byte order mark, and from standard input.

use std::fs;
use std::io::Write;
use std::path::{Path, PathBuf};
use std::process::{Command, Output, Stdio};

const ROOT: &str = concat!(env!("CARGO_MANIFEST_DIR"), "/..");
const LONGEST: usize = 16_777_216;

/// What a run gives: its status, its output and what it says beside it.
type Run = (i32, String, String);

fn given(output: Output) -> Run {
    let text = |bytes| String::from_utf8(bytes).unwrap();
    (
        output.status.code().unwrap(),
        text(output.stdout),
        text(output.stderr),
    )
}

/// A run in the folder, with a text as its standard input.
fn run_in(folder: &Path, words: &[&str], input: &[u8]) -> Run {
    let mut child = Command::new(env!("CARGO_BIN_EXE_sise"))
        .args(words)
        .current_dir(folder)
        .stdin(Stdio::piped())
        .stdout(Stdio::piped())
        .stderr(Stdio::piped())
        .spawn()
        .unwrap();
    let mut stdin = child.stdin.take().unwrap();
    let input = input.to_vec();
    // A command that does not read its input closes it.
    let writer = std::thread::spawn(move || drop(stdin.write_all(&input)));
    let output = child.wait_with_output().unwrap();
    writer.join().unwrap();
    given(output)
}

fn run(words: &[&str], input: &[u8]) -> Run {
    run_in(Path::new(ROOT), words, input)
}

fn well(output: &str) -> Run {
    (0, output.into(), String::new())
}

/// A folder of a test's own, empty.
fn folder(name: &str) -> PathBuf {
    let folder = Path::new(env!("CARGO_TARGET_TMPDIR")).join(name);
    let _ = fs::remove_dir_all(&folder);
    fs::create_dir_all(&folder).unwrap();
    folder
}

#[test]
fn check_good() {
    let words = ["check", "profiles/stage.sise"];
    assert_eq!(
        run(&words, b""),
        well("profiles/stage.sise: ok, 178 nodes, 4 lists deep\n")
    );
    assert_eq!(
        run(&["check"], b"a"),
        well("<stdin>: ok, 1 node, 0 lists deep\n")
    );
    assert_eq!(
        run(&["check", "-"], b" (a () ; b\n)"),
        well("<stdin>: ok, 3 nodes, 2 lists deep\n")
    );
}

/// The place and the words of each refusal that a text can have, with the line and a caret.
#[test]
fn check_damaged() {
    let refused = |input: &[u8], said: &str| {
        assert_eq!(
            run(&["check"], input),
            (1, String::new(), said.replace('|', "\n"))
        );
    };
    refused(
        b"(x\n\t57,5)",
        "<stdin>:2:4: refused 1: a character that begins no atom, list or comment, U+002C|    \t57,5)|    \t  ^|",
    );
    refused(
        b"(\"\xC3\xA9\t\")",
        "<stdin>:1:3: refused 2: a character that may not stand in a string, U+00E9|    (\"\u{e9}\t\")|      ^|",
    );
    refused(
        b"; \xC2\xB5m\r(a)",
        "<stdin>:1:3: refused 3: a character that may not stand in a comment, U+00B5|    ; \u{b5}m|      ^|",
    );
    refused(
        b"(a ; \"\r\n  b\"c\"\"d\\\"",
        "<stdin>:2:11: refused 4: the text ends inside a string|      b\"c\"\"d\\\"|              ^|\
         <stdin>:2:7: this string has no end|      b\"c\"\"d\\\"|          ^|",
    );
    refused(
        b"(a\n  (b (c)\n",
        "<stdin>:3:1: refused 5: the text ends where an atom or a list is due|\
         <stdin>:2:3: this list is still open, and so is the one around it|      (b (c)|      ^|",
    );
    refused(
        b"; nothing",
        "<stdin>:1:10: refused 5: the text ends where an atom or a list is due|    ; nothing|             ^|\
         <stdin>: hint: nothing but blanks and comments is in it|",
    );
    refused(
        b")",
        "<stdin>:1:1: refused 6: a `)` where no list is open|    )|    ^|",
    );
    refused(
        b"(a)\n\n b",
        "<stdin>:3:2: refused 7: something stands behind the text's one atom or list|     b|     ^|\
         <stdin>:1:3: here ended the text's one atom or list|    (a)|      ^|",
    );
    refused(
        b"(a\xE2\x82 b\xFF)",
        "<stdin>:1:3: refused 8: a broken character, which is not UTF-8|    (a\u{fffd} b\u{fffd})|      ^|",
    );
}

#[test]
fn check_encodings() {
    let hint = |input: &[u8], hint: &str| {
        let (status, _, said) = run(&["check"], input);
        assert_eq!((status, said.contains(hint)), (1, true), "{said}");
    };
    hint(
        b"\xEF\xBB\xBF(a)",
        "hint: the file begins with a byte order mark; save it as UTF-8",
    );
    hint(b"\xFF\xFE(\0a\0", "hint: the file looks like UTF-16");
    hint(b"\0(\0a", "UTF-16");
    let (_, _, said) = run(&["check"], "(a \u{feff}b)".as_bytes());
    assert!(said.contains("U+FEFF") && !said.contains("hint"), "{said}");
}

/// Lines end with LF, CR or CRLF, and a long line is shown in part.
#[test]
fn lines_and_columns() {
    for end in ["\n", "\r", "\r\n"] {
        let text = ["(a", "", "  (b \"\u{2260}", "\"))"].join(end);
        let (_, _, said) = run(&["check"], text.as_bytes());
        assert!(said.starts_with("<stdin>:3:7: refused 2"), "{said}");
    }
    let long = format!("({}, {})", "x ".repeat(50_000), "y ".repeat(50_000));
    let (_, _, said) = run(&["check"], long.as_bytes());
    assert!(said.starts_with("<stdin>:1:100002: refused 1"), "{said}");
    let lines: Vec<&str> = said.lines().collect();
    assert_eq!(lines[1].find(','), lines[2].find('^'));
    assert!(lines[1].starts_with("    ...") && lines[1].ends_with("...") && lines[1].len() < 130);
}

/// The proved program `items` prints the same.
#[test]
fn items() {
    let stored = |name| fs::read_to_string(Path::new(ROOT).join(name)).unwrap();
    let input = stored("crates/items/stdin");
    assert_eq!(
        run(&["items"], input.as_bytes()),
        well(&stored("crates/items/stdout"))
    );
    let (status, out, said) = run(&["items", "examples/damaged.sise"], b"");
    assert!(
        status == 1 && stored("examples/items.out").starts_with(&out),
        "{out}"
    );
    assert!(
        said.starts_with("examples/damaged.sise:4:20: refused 1: "),
        "{said}"
    );
}

#[test]
fn fmt_to_the_standard_output() {
    let text = b"(stage (axis x\n (limit -57.5 57.5)))";
    let words = ["fmt", "--width"];
    let at = |width| run(&[words[0], words[1], width], text);
    assert_eq!(
        run(&["fmt"], text),
        well("(stage (axis x (limit -57.5 57.5)))\n")
    );
    assert_eq!(at("none"), run(&["fmt"], text));
    assert_eq!(
        at("10"),
        well("(stage (axis\n    x (limit\n      -57.5\n      57.5\n    )\n  )\n)\n")
    );
    assert_eq!(
        run(&["fmt", "--width=0", "-"], b"(a b)"),
        well("(a\n  b\n)\n")
    );
    let (status, out, said) = run(&["fmt"], b"(a ; why\r b)");
    assert_eq!((status, out.as_str()), (0, "(a b)\n"));
    assert_eq!(said, "<stdin>: warning: its comments are not written\n");
    // A `;` in a string is no comment.
    assert_eq!(run(&["fmt"], b"(a \";\")"), well("(a \";\")\n"));
}

/// Reprinting is final.
#[test]
fn fmt_twice() {
    for width in ["0", "40", "72", "none"] {
        let (status, once, _) = run(&["fmt", "--width", width, "profiles/stage.sise"], b"");
        assert_eq!(status, 0);
        assert_eq!(
            run(&["fmt", "--width", width], once.as_bytes()),
            well(&once)
        );
        assert_eq!(
            run(&["fmt", "--check", "--width", width], once.as_bytes()),
            well("")
        );
    }
}

#[test]
fn fmt_check_and_in_place() {
    let folder = folder("in-place");
    let read = |name: &str| fs::read_to_string(folder.join(name)).unwrap();
    let write = |name: &str, text: &str| fs::write(folder.join(name), text).unwrap();
    let run = |words: &[&str]| run_in(&folder, words, b"");
    write("good", "(a b)\n");
    write("crlf", "(a\r\n  b)\r\n");
    write("comment", "(a ; why\n b)\n");
    write("damaged", "(a\n");
    let would = "crlf: would change\ncomment: would change, and lose its comments\n";
    assert_eq!(
        run(&["fmt", "--check", "good", "crlf", "comment"]),
        (1, would.into(), String::new())
    );
    assert_eq!(read("crlf"), "(a\r\n  b)\r\n");

    let (status, out, said) = run(&["fmt", "--in-place", "good", "crlf", "comment", "damaged"]);
    assert_eq!((status, out.as_str()), (1, ""));
    let refused = "comment: not overwritten, its comments would be lost; --drop-comments overwrites it\ndamaged:2:1: refused 5";
    assert!(said.starts_with(refused), "{said}");
    assert_eq!(read("crlf"), "(a b)\n");
    assert_eq!(
        (read("comment"), read("damaged")),
        ("(a ; why\n b)\n".into(), "(a\n".into())
    );

    let dropped = "comment: warning: its comments are dropped\n";
    let words = ["fmt", "--in-place", "--drop-comments", "comment"];
    assert_eq!(run(&words), (0, String::new(), dropped.into()));
    assert_eq!(read("comment"), "(a b)\n");
    assert_eq!(fs::read_dir(&folder).unwrap().count(), 4);
}

/// What is written in place keeps its rights, and a link stays one; a folder that cannot be written leaves all as it was.
#[cfg(unix)]
#[test]
fn fmt_in_place_of_links() {
    use std::os::unix::fs::{symlink, PermissionsExt};
    let folder = folder("links");
    fs::write(folder.join("file"), "(a\n b)").unwrap();
    fs::set_permissions(folder.join("file"), fs::Permissions::from_mode(0o640)).unwrap();
    symlink("file", folder.join("link")).unwrap();
    assert_eq!(
        run_in(&folder, &["fmt", "--in-place", "link"], b""),
        well("")
    );
    assert!(folder.join("link").is_symlink());
    assert_eq!(fs::read(folder.join("file")).unwrap(), b"(a b)\n");
    let mode = fs::metadata(folder.join("file"))
        .unwrap()
        .permissions()
        .mode();
    assert_eq!(mode & 0o777, 0o640);
    // `rt ci` refuses a checkout with a link in it.
    fs::remove_file(folder.join("link")).unwrap();
}

#[test]
fn get() {
    let get = |path: &[&str]| run(&[&["get", "profiles/stage.sise"], path].concat(), b"");
    assert_eq!(get(&["4", "2", "1"]), well("-57.5\n"));
    assert_eq!(get(&["4", "2"]), well("(limit -57.5 57.5)\n"));
    assert_eq!(get(&[]).1, run(&["fmt", "profiles/stage.sise"], b"").1);
    assert_eq!(run(&["get"], b"(a b)"), well("(a b)\n"));
    assert_eq!(run(&["get", "-", "0"], b"(a b)"), well("a\n"));
    let missing = |path: &[&str], input: &[u8], note: &str| {
        let (status, out, said) = run(&[&["get", "-"], path].concat(), input);
        let due =
            format!("<stdin>: refused 16: nothing is at the end of this path\n<stdin>: {note}\n");
        assert_eq!((status, out.as_str(), said), (1, "", due));
    };
    missing(
        &["2"],
        b"(a b)",
        "the whole is a list of 2, with the numbers 0 to 1",
    );
    missing(&["0", "0"], b"(a b)", "0 is an atom, which has no children");
    missing(
        &["1", "1", "5"],
        b"(a (b (c)))",
        "1 1 is a list of one, with the number 0",
    );
    missing(&["0"], b"()", "the whole is an empty list");
    missing(
        &["18446744073709551615"],
        b"()",
        "the whole is an empty list",
    );
}

/// What `fmt` writes has the size that `size` says.
#[test]
fn size() {
    for width in ["0", "30", "72", "none"] {
        let words = ["--width", width, "profiles/stage.sise"];
        let (_, text, _) = run(&[&["fmt"], &words[..]].concat(), b"");
        let (status, said, _) = run(&[&["size"], &words[..]].concat(), b"");
        let number = |name| {
            let line = said
                .lines()
                .find_map(|line| line.strip_prefix(name))
                .unwrap();
            line.trim().parse::<usize>().unwrap()
        };
        assert_eq!((status, number("bytes")), (0, text.len()));
        assert_eq!(number("breaks"), text.matches('\n').count());
        let blanks = |line: &str| line.len() - line.trim_start().len();
        assert_eq!(
            2 * number("indents"),
            text.lines().map(blanks).sum::<usize>()
        );
    }
}

/// Texts at the limit of what is laid out, and longer ones, which can be checked and listed all the same.
#[test]
fn huge() {
    let folder = folder("huge");
    let longest = format!("({})", "x ".repeat(LONGEST / 2 - 1));
    let longer = format!("({})", "x ".repeat(LONGEST / 2));
    fs::write(folder.join("longest"), &longest).unwrap();
    fs::write(folder.join("longer"), &longer).unwrap();
    let run = |words: &[&str]| run_in(&folder, words, b"");
    let nodes = LONGEST / 2;
    let both = format!(
        "longest: ok, {nodes} nodes, 1 list deep\nlonger: ok, {} nodes, 1 list deep\n",
        nodes + 1
    );
    assert_eq!(run(&["check", "longest", "longer"]), well(&both));
    assert_eq!(run(&["get", "longest", "8388606"]), well("x\n"));
    let due = "longer: refused 13: the text has more than 16777216 bytes\n";
    for task in ["get", "fmt", "size"] {
        assert_eq!(run(&[task, "longer"]), (1, String::new(), due.into()));
    }
    // One line has as many bytes as the text, and the final break is one more than the limit; every line broken takes far more.
    let room = "longest: refused 22: no room: the text would pass the buffer, or 16777216 bytes\n";
    assert_eq!(
        run(&["fmt", "--width", "0", "longest"]),
        (1, String::new(), room.into())
    );
}

#[test]
fn deep() {
    const DEPTH: usize = 1_000_000;
    let text = "(".repeat(DEPTH) + &")".repeat(DEPTH);
    let said = format!("<stdin>: ok, {DEPTH} nodes, {DEPTH} lists deep\n");
    assert_eq!(run(&["check"], text.as_bytes()), well(&said));
    assert_eq!(
        run(&["fmt", "--width", "none"], text.as_bytes()),
        well(&format!("{text}\n"))
    );
    let (status, _, said) = run(&["fmt"], text.as_bytes());
    assert!(
        status == 1 && said.starts_with("<stdin>: refused 22: "),
        "{said}"
    );
    let (status, _, said) = run(&["check"], &text.as_bytes()[..DEPTH]);
    assert!(
        status == 1 && said.contains("and so are the 999999 around it"),
        "{said}"
    );
}

#[test]
fn words() {
    let usage = |words: &[&str], said: &str| {
        let due = format!("sise: {said}; see sise --help\n");
        assert_eq!(run(words, b"a"), (2, String::new(), due));
    };
    usage(&[], "nothing to do");
    usage(&["format"], "no such task: format");
    usage(&["check", "--width", "3"], "check has no option --width");
    usage(&["fmt", "--quick"], "fmt has no option --quick");
    usage(&["fmt", "--width"], "--width wants a number");
    usage(
        &["fmt", "--width", "-1"],
        "--width wants a number of bytes or none, not -1",
    );
    usage(
        &["fmt", "--check", "--in-place", "a"],
        "--check writes nothing, and --in-place does",
    );
    usage(
        &["fmt", "--in-place"],
        "--in-place wants files, and standard input is none",
    );
    usage(&["items", "a", "b"], "items takes one file, not 2");
    usage(&["get", "-", "x"], "an INDEX is a number from 0, not x");
    usage(
        &["get", "-", "18446744073709551616"],
        "an INDEX is a number from 0, not 18446744073709551616",
    );
    let (status, _, said) = run(&["check", "no-such-file", "profiles/stage.sise"], b"");
    assert!(
        status == 2 && said.starts_with("sise: no-such-file: "),
        "{said}"
    );
    assert_eq!(run(&["check", "--", "-"], b"a").0, 0);
}

/// The help names every task and option, in lines that fit a window.
#[test]
fn help() {
    let (status, help, said) = run(&["--help"], b"");
    assert_eq!((status, said.as_str()), (0, ""));
    for words in [&["help"][..], &["-h"], &["fmt", "--help"]] {
        assert_eq!(run(words, b""), well(&help));
    }
    let words = [
        "sise check",
        "sise items",
        "sise fmt",
        "sise get",
        "sise size",
        "--width N",
        "--check",
    ];
    let more = [
        "--in-place",
        "--drop-comments",
        "--version",
        "Exit status: 0",
    ];
    assert!(words.iter().chain(&more).all(|word| help.contains(word)));
    assert!(help.lines().all(|line| line.len() <= 88));
    let version = env!("CARGO_PKG_VERSION");
    assert_eq!(run(&["--version"], b""), well(&format!("sise {version}\n")));
    // The newest version of the changes is the one that the package has behind its API's.
    let changes = fs::read_to_string(Path::new(ROOT).join("CHANGELOG.md")).unwrap();
    let newest = changes
        .lines()
        .find_map(|line| line.strip_prefix("## "))
        .unwrap();
    assert_eq!(version, format!("0.8.0+dutakeri.{newest}"));
}

/// Whoever reads the output may close it early.
#[test]
fn closed_output() {
    let mut child = Command::new(env!("CARGO_BIN_EXE_sise"))
        .arg("items")
        .stdin(Stdio::piped())
        .stdout(Stdio::piped())
        .stderr(Stdio::piped())
        .spawn()
        .unwrap();
    drop(child.stdout.take());
    let text = format!("({})", "x ".repeat(100_000));
    let _ = child.stdin.take().unwrap().write_all(text.as_bytes());
    let (status, _, said) = given(child.wait_with_output().unwrap());
    assert_eq!((status, said.as_str()), (0, ""));
}
