//! The words after a mode that makes cases.

use std::path::PathBuf;

pub struct Options {
    /// Fewer cases, for the gate.
    pub quick: bool,
    /// How many cases in all; the random ones come last.
    pub cases: Option<usize>,
    pub seed: u64,
    pub replay: Option<PathBuf>,
}

impl Options {
    pub fn read(words: &[String]) -> Result<Self, String> {
        let mut options = Self {
            quick: false,
            cases: None,
            seed: 1,
            replay: None,
        };
        let mut words = words.iter();
        while let Some(word) = words.next() {
            match word.as_str() {
                "--quick" => options.quick = true,
                "--cases" => options.cases = Some(number(word, words.next())?),
                "--seed" => options.seed = number(word, words.next())?,
                "--replay" => options.replay = Some(value(word, words.next())?.into()),
                _ => return Err(format!("no such word: {word}")),
            }
        }
        Ok(options)
    }
}

fn value<'a>(word: &str, next: Option<&'a String>) -> Result<&'a String, String> {
    next.ok_or(format!("{word} wants a value"))
}

fn number<T: std::str::FromStr>(word: &str, next: Option<&String>) -> Result<T, String> {
    let text = value(word, next)?;
    text.parse()
        .map_err(|_| format!("{word} wants a number, not {text}"))
}
