//! Finds the proved library, libsise_c.a, or has it proved and built; and looks for the source of the crate sise 0.8.0, which the differential test runs.

use std::env;
use std::fs::File;
use std::path::{Path, PathBuf};
use std::process::Command;
use std::time::SystemTime;

const ARCHIVE: &str = "libsise_c.a";

fn main() {
    println!("cargo::rerun-if-changed=build.rs");
    let package = PathBuf::from(env::var_os("CARGO_MANIFEST_DIR").unwrap_or_default());
    match library(&package) {
        Ok(folder) => {
            println!("cargo::rustc-link-search=native={}", folder.display());
            println!("cargo::rustc-link-lib=static=sise_c");
        }
        Err(message) => println!("cargo::error={message}"),
    }
    original(&package);
}

/// The folder with the proved library.
fn library(package: &Path) -> Result<PathBuf, String> {
    println!("cargo::rerun-if-env-changed=SISE_LIB_DIR");
    let system = |name| env::var(name).unwrap_or_default();
    if (
        system("CARGO_CFG_TARGET_OS"),
        system("CARGO_CFG_TARGET_ARCH"),
    ) != ("linux".into(), "x86_64".into())
    {
        return Err("the proved library is for Linux on x86-64 alone".into());
    }
    if let Some(folder) = env::var_os("SISE_LIB_DIR") {
        let folder = PathBuf::from(folder);
        let archive = folder.join(ARCHIVE);
        println!("cargo::rerun-if-changed={}", archive.display());
        let folder = folder.canonicalize().unwrap_or(folder);
        return if archive.is_file() {
            Ok(folder)
        } else {
            Err(format!(
                "SISE_LIB_DIR is {}, and there is no {ARCHIVE} in it",
                folder.display()
            ))
        };
    }
    let root = package.parent().unwrap_or(package);
    let sources = sources(&root.join("crates"));
    let folder = root.join("target").join("staticlib");
    let archive = folder.join(ARCHIVE);
    for source in sources.iter().chain([&archive]) {
        println!("cargo::rerun-if-changed={}", source.display());
    }
    let newest = sources.iter().map(|source| newest(source)).max();
    if !archive.is_file() || Some(changed(&archive)) < newest {
        build(root)?;
    }
    Ok(folder)
}

/// The folders that the library is proved from: of each crate its code, definitions and proofs, without what a check leaves beside them.
fn sources(crates: &Path) -> Vec<PathBuf> {
    let each = crates.read_dir().into_iter().flatten().flatten();
    let parts =
        each.flat_map(|entry| ["src", "specs", "proofs"].map(|part| entry.path().join(part)));
    parts.filter(|part| part.is_dir()).collect()
}

/// Has the library proved and built; the first time that takes minutes.
fn build(root: &Path) -> Result<(), String> {
    let run = Command::new(root.join("tools").join("build"))
        .arg("sise_c")
        .output();
    match run {
        Ok(output) if output.status.success() => {
            // An archive that is the same keeps its time: it is as new as what it was proved from.
            let archive = root.join("target").join("staticlib").join(ARCHIVE);
            let touched = File::options().append(true).open(&archive);
            touched
                .and_then(|file| file.set_modified(SystemTime::now()))
                .map_err(|error| format!("{}: {error}", archive.display()))
        }
        Ok(output) if output.status.code() == Some(3) => Err(format!(
            "the proved library {ARCHIVE} is not built, or older than crates/, and Rattle's `rt` is not on the PATH: \
             install it, or set SISE_LIB_DIR to a folder with a built {ARCHIVE}"
        )),
        Ok(output) => {
            let said = [output.stdout, output.stderr].concat();
            let said = String::from_utf8_lossy(&said);
            let last = said.lines().last().unwrap_or("it says nothing");
            let root = root.display();
            Err(format!("`tools/build sise_c` failed in {root}: {last}"))
        }
        Err(error) => Err(format!("tools/build cannot be run: {error}")),
    }
}

/// When a file was last changed; a file that is not there counts as older than any other.
fn changed(path: &Path) -> SystemTime {
    path.metadata()
        .and_then(|data| data.modified())
        .unwrap_or(SystemTime::UNIX_EPOCH)
}

/// When the newest file of a folder was changed, the folder's own time and those in it among them.
fn newest(path: &Path) -> SystemTime {
    let inside = path.read_dir().into_iter().flatten().flatten();
    inside
        .map(|entry| newest(&entry.path()))
        .fold(changed(path), SystemTime::max)
}

/// Where the source of the crate sise 0.8.0 is at hand, the tests are told so: its six files, unchanged, in SISE_SRC.
fn original(package: &Path) {
    println!("cargo::rerun-if-env-changed=SISE_SRC");
    println!("cargo::rustc-check-cfg=cfg(original)");
    let named = env::var_os("SISE_SRC").unwrap_or("../shared/docs/src/src".into());
    // As for compare/, from the repository's top.
    let source = package.join("..").join(named);
    println!("cargo::rerun-if-changed={}", source.display());
    let files = [
        "parse_tree",
        "parser",
        "serialize_tree",
        "serializer",
        "tree",
        "util",
    ];
    let there = files
        .iter()
        .all(|name| source.join(name).with_extension("rs").is_file());
    if let (true, Ok(source)) = (there, source.canonicalize()) {
        println!("cargo::rustc-cfg=original");
        println!("cargo::rustc-env=SISE_SRC={}", source.display());
    }
}
