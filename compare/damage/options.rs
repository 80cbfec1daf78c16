//! The words of the command.

use std::str::FromStr;

pub struct Options {
    /// The cases of each seed, `--cases N`, from `--from K` on.
    pub cases: u64,
    pub from: u64,
    /// The texts of each seed that are reprinted, `--reprints N`.
    pub reprints: u64,
    /// The first seed, `--seed S`.
    pub seed: u64,
    /// New seeds until so many hours are over, `--hours H`; else one seed.
    pub hours: f64,
    /// Lists in each other, a million and as many as a text can be long, `--deep`.
    pub deep: bool,
    /// The texts at the limit and the deep lists not at all, `--small`.
    pub small: bool,
}

impl Options {
    pub fn read(mut words: impl Iterator<Item = String>) -> Result<Self, String> {
        let mut options = Self {
            cases: 200_000,
            from: 0,
            reprints: 10_000,
            seed: 1,
            hours: 0.0,
            deep: false,
            small: false,
        };
        while let Some(word) = words.next() {
            match word.as_str() {
                "--cases" => options.cases = number(&word, words.next())?,
                "--from" => options.from = number(&word, words.next())?,
                "--reprints" => options.reprints = number(&word, words.next())?,
                "--seed" => options.seed = number(&word, words.next())?,
                "--hours" => options.hours = number(&word, words.next())?,
                "--deep" => options.deep = true,
                "--small" => options.small = true,
                _ => return Err(format!("no such word: {word}")),
            }
        }
        Ok(options)
    }
}

fn number<T: FromStr>(word: &str, value: Option<String>) -> Result<T, String> {
    let value = value.ok_or(format!("{word} wants a number"))?;
    value
        .parse()
        .map_err(|_| format!("{word} wants a number, not {value}"))
}
