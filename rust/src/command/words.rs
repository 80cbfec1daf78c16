//! The words that the command is called with.

use sise::bytes::{HOUSE_THRESHOLD, ONE_LINE};
use std::ffi::OsString;

pub struct Words {
    pub task: Task,
    /// The line length of `fmt` and `size`.
    pub width: u64,
    /// At least one; `-` is standard input.
    pub files: Vec<OsString>,
}

pub enum Task {
    Check,
    Items,
    Fmt(Fmt),
    Get(Vec<u64>),
    Size,
    Help,
    Version,
}

/// The options of `fmt` alone.
#[derive(Clone, Copy, Default)]
pub struct Fmt {
    pub check: bool,
    pub in_place: bool,
    pub drop_comments: bool,
}

impl Words {
    pub fn read(mut words: impl Iterator<Item = OsString>) -> Result<Self, String> {
        let first = words.next().ok_or("nothing to do")?;
        let given = Given::read(words)?;
        if given.help || matches!(first.to_str(), Some("help" | "--help" | "-h")) {
            return Ok(Self::bare(Task::Help));
        }
        match first.to_str() {
            Some("--version" | "-V" | "version") => Ok(Self::bare(Task::Version)),
            Some("check") => given.allow("check", &[])?.files(Task::Check),
            Some("items") => given.allow("items", &[])?.file("items", Task::Items),
            Some("fmt") => given.fmt(),
            Some("get") => given.allow("get", &[])?.get(),
            Some("size") => given.allow("size", &["--width"])?.file("size", Task::Size),
            _ => Err(format!("no such task: {}", first.to_string_lossy())),
        }
    }

    fn bare(task: Task) -> Self {
        Self {
            task,
            width: HOUSE_THRESHOLD,
            files: Vec::new(),
        }
    }
}

/// What stands behind the first word: options by their names, and the rest.
#[derive(Default)]
struct Given {
    help: bool,
    options: Vec<String>,
    width: Option<u64>,
    rest: Vec<OsString>,
}

impl Given {
    fn read(mut words: impl Iterator<Item = OsString>) -> Result<Self, String> {
        let mut given = Self::default();
        while let Some(word) = words.next() {
            match word.to_str() {
                Some("--") => {
                    given.rest.extend(words);
                    break;
                }
                Some("--help" | "-h") => given.help = true,
                Some("--width") => {
                    let value = words.next().ok_or("--width wants a number")?;
                    given.width(&value.to_string_lossy())?;
                }
                Some(option) if option.starts_with('-') && option != "-" => {
                    match option.strip_prefix("--width=") {
                        Some(value) => given.width(value)?,
                        None => given.options.push(option.into()),
                    }
                }
                _ => given.rest.push(word),
            }
        }
        Ok(given)
    }

    fn width(&mut self, value: &str) -> Result<(), String> {
        let number = if value == "none" {
            Ok(ONE_LINE)
        } else {
            value.parse()
        };
        let wrong = |_| format!("--width wants a number of bytes or none, not {value}");
        self.width = Some(number.map_err(wrong)?);
        self.options.push("--width".into());
        Ok(())
    }

    /// No other option is among them.
    fn allow(self, task: &str, options: &[&str]) -> Result<Self, String> {
        match self
            .options
            .iter()
            .find(|option| !options.contains(&option.as_str()))
        {
            Some(option) => Err(format!("{task} has no option {option}")),
            None => Ok(self),
        }
    }

    fn files(mut self, task: Task) -> Result<Words, String> {
        if self.rest.is_empty() {
            self.rest.push("-".into());
        }
        Ok(Words {
            task,
            width: self.width.unwrap_or(HOUSE_THRESHOLD),
            files: self.rest,
        })
    }

    fn file(self, name: &str, task: Task) -> Result<Words, String> {
        if self.rest.len() > 1 {
            return Err(format!("{name} takes one file, not {}", self.rest.len()));
        }
        self.files(task)
    }

    fn fmt(self) -> Result<Words, String> {
        let given = self.allow(
            "fmt",
            &["--width", "--check", "--in-place", "--drop-comments"],
        )?;
        let has = |name| given.options.iter().any(|option| option == name);
        let fmt = Fmt {
            check: has("--check"),
            in_place: has("--in-place"),
            drop_comments: has("--drop-comments"),
        };
        if fmt.check && fmt.in_place {
            return Err("--check writes nothing, and --in-place does".into());
        }
        let words = given.files(Task::Fmt(fmt))?;
        if fmt.in_place && words.files.iter().any(|name| name == "-") {
            return Err("--in-place wants files, and standard input is none".into());
        }
        Ok(words)
    }

    fn get(mut self) -> Result<Words, String> {
        let steps = self.rest.split_off(self.rest.len().min(1));
        let step = |word: OsString| {
            let word = word.to_string_lossy();
            word.parse()
                .map_err(|_| format!("an INDEX is a number from 0, not {word}"))
        };
        let path = steps
            .into_iter()
            .map(step)
            .collect::<Result<Vec<u64>, _>>()?;
        self.files(Task::Get(path))
    }
}
