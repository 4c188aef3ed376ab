//! The command line.

use std::time::Duration;

use crate::generate::Dates;

pub enum Mode {
    Compare,
    Alone,
    Show,
    Store(String),
}

pub struct Options {
    pub mode: Mode,
    pub seed: u64,
    pub count: u64,
    pub time: Duration,
    pub dates: Dates,
    /// All days in the place of generated cases.
    pub days: bool,
}

const USAGE: &str =
    "options: [--seed S] [--count N] [--seconds T] [--dates no|some|all] [--days] [--alone | --show | --store FILE]";

impl Options {
    pub fn from_arguments(mut arguments: impl Iterator<Item = String>) -> Result<Options, String> {
        let time = Duration::from_secs(100);
        let mut options =
            Options { mode: Mode::Compare, seed: 1, count: u64::MAX, time, dates: Dates::Some, days: false };
        let mut chosen = None;
        while let Some(name) = arguments.next() {
            let mut value = || arguments.next().ok_or(USAGE.to_owned());
            match name.as_str() {
                "--seed" => options.seed = number(&value()?)?,
                "--count" => options.count = number(&value()?)?,
                "--seconds" => options.time = Duration::from_secs(number(&value()?)?),
                "--dates" => chosen = Some(dates(&value()?)?),
                "--days" => options.days = true,
                "--alone" => options.mode = Mode::Alone,
                "--show" => options.mode = Mode::Show,
                "--store" => options.mode = Mode::Store(value()?),
                _ => return Err(USAGE.to_owned()),
            }
        }
        // The stored sample has no dates unless they are asked for: a seed gives it as it was before there were dates.
        let is_stored = matches!(options.mode, Mode::Store(_));
        options.dates = chosen.unwrap_or(if is_stored { Dates::No } else { Dates::Some });
        match options.fault() {
            Some(fault) => Err(fault.to_owned()),
            None => Ok(options),
        }
    }

    fn fault(&self) -> Option<&'static str> {
        let is_stored = matches!(self.mode, Mode::Store(_));
        if is_stored && self.dates == Dates::All && chrono::RELEASE.is_none() {
            return Some("no date can be stored: chrono is not installed");
        }
        if self.count == u64::MAX && (is_stored || matches!(self.mode, Mode::Show)) {
            return Some("--show and --store need --count N");
        }
        None
    }
}

fn number(text: &str) -> Result<u64, String> {
    text.parse().map_err(|_| format!("not a number: {text}"))
}

fn dates(text: &str) -> Result<Dates, String> {
    match text {
        "no" => Ok(Dates::No),
        "some" => Ok(Dates::Some),
        "all" => Ok(Dates::All),
        _ => Err(USAGE.to_owned()),
    }
}
