//! Files read, and written in place of others.

use std::ffi::OsStr;
use std::fs::{self, File};
use std::io::{self, Read, Write};
use std::os::unix::fs::{fchown, MetadataExt};
use std::path::{Path, PathBuf};

pub struct Source {
    /// As it is shown.
    pub name: String,
    pub path: PathBuf,
    pub text: Vec<u8>,
}

/// A file's name as it is shown.
pub fn shown(name: &OsStr) -> String {
    match name.to_str() {
        Some("-") => "<stdin>".into(),
        _ => name.to_string_lossy().into_owned(),
    }
}

impl Source {
    pub fn read(name: &OsStr) -> io::Result<Self> {
        let mut text = Vec::new();
        if name == "-" {
            io::stdin().lock().read_to_end(&mut text)?;
        } else {
            text = fs::read(name)?;
        }
        Ok(Self {
            name: shown(name),
            path: name.into(),
            text,
        })
    }

    /// Writes a file beside this one, and gives it this one's name: so there is at each moment the old file or the new one, and never a part of it.
    pub fn replace(&self, text: &[u8]) -> io::Result<()> {
        // A link stays one; what it leads to is replaced.
        let path = self.path.canonicalize()?;
        if !path.is_file() {
            return Err(io::Error::other("no file that could be written in place"));
        }
        let beside = beside(&path);
        let written = write_new(&beside, text, &path).and_then(|()| fs::rename(&beside, &path));
        if written.is_err() {
            // What is left of a failed attempt; that it may not be there does not matter.
            let _ = fs::remove_file(&beside);
        }
        written
    }
}

/// A name in the same folder that no other run of the command takes.
fn beside(path: &Path) -> PathBuf {
    let mut name = std::ffi::OsString::from(".");
    name.push(path.file_name().unwrap_or_default());
    name.push(format!(".{}.new", std::process::id()));
    path.with_file_name(name)
}

/// With the rights that the other file has, and its owner where that is allowed.
fn write_new(path: &Path, text: &[u8], like: &Path) -> io::Result<()> {
    let mut file = File::create_new(path)?;
    let data = fs::metadata(like)?;
    let _ = fchown(&file, Some(data.uid()), Some(data.gid()));
    file.set_permissions(data.permissions())?;
    file.write_all(text)?;
    file.sync_all()
}
