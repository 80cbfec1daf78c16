//! A program that was written against the crate sise 0.8.0, examples/limits.rs, compiled against the crate and run: it prints what it gives with this package.

/// Its `main` is not called here.
#[allow(dead_code)]
#[path = "../examples/limits.rs"]
mod limits;

use std::path::{Path, PathBuf};
use std::process::Command;

const PROFILE: &str = concat!(env!("CARGO_MANIFEST_DIR"), "/../profiles/stage.sise");
const DAMAGED: &str = concat!(env!("CARGO_MANIFEST_DIR"), "/../examples/damaged.sise");

#[test]
fn limits_of_the_sample_profile() {
    let text = std::fs::read_to_string(PROFILE).unwrap();
    let found = limits::limits(&text).unwrap();
    assert_eq!(
        found,
        "; found by the program limits\n(limits\n  (x (-57.5 57.5))\n  (y (-37.5 37.5))\n  (z (0.0 9.8))\n)\n"
    );
    assert_eq!(limits::depth(&text), 4);
}

/// Compiles with the crate's six files, which are taken unchanged.
fn compile(words: &[&str], source: &Path, output: &Path) {
    let rustc = std::env::var_os("RUSTC").unwrap_or("rustc".into());
    let run = Command::new(rustc)
        .args(["--edition", "2021", "--cfg", "feature=\"std\""])
        .env("SISE_SRC", option_env!("SISE_SRC").unwrap_or_default())
        .args(words)
        .arg("-o")
        .args([output, source])
        .output()
        .expect("rustc");
    assert!(
        run.status.success(),
        "{}",
        String::from_utf8_lossy(&run.stderr)
    );
}

#[test]
#[cfg_attr(
    not(original),
    ignore = "the source of the crate sise 0.8.0 is not at hand (SISE_SRC)"
)]
fn with_the_crate_and_with_this_package() {
    let package = Path::new(env!("CARGO_MANIFEST_DIR"));
    let folder = PathBuf::from(env!("CARGO_TARGET_TMPDIR"));
    let (library, program) = (folder.join("libsise.rlib"), folder.join("limits"));
    let root = package.join("tests/original/sise.rs");
    compile(
        &["--crate-name", "sise", "--crate-type", "rlib"],
        &root,
        &library,
    );
    let named = format!("sise={}", library.display());
    compile(
        &["--extern", &named],
        &package.join("examples/limits.rs"),
        &program,
    );
    for name in [PROFILE, DAMAGED] {
        let output = Command::new(&program).arg(name).output().unwrap();
        let text = std::fs::read_to_string(name).unwrap();
        let due = match limits::limits(&text) {
            Ok(found) => format!("{found}; {} lists deep\n", limits::depth(&text)),
            Err(error) => format!("{name}: {error}\n"),
        };
        assert_eq!(String::from_utf8_lossy(&output.stdout), due);
    }
}
