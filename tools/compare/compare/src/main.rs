//! Compares format_string.rs of datafusion-spark 55.2.0 with the library's C interface over generated cases.

mod classes;
mod dates;
mod expect;
mod fixed;
mod formats;
mod generate;
mod hex_float;
mod judge;
mod library;
mod moments;
mod options;
mod prng;
mod row;
mod shrink;
mod store;
mod timestamps;
mod values;

use std::collections::HashSet;
use std::fs::File;
use std::io::{self, BufWriter, Write};
use std::iter;
use std::panic;
use std::process::ExitCode;
use std::time::{Duration, Instant};

use classes::{Class, Tally};
use expect::{Accepted, Expectation, PieceText};
use fixed::Answer;
use generate::{Case, Dates};
use judge::Difference;
use library::Library;
use options::{Mode, Options};
use prng::Prng;

/// Differences shown in full; further ones are only counted.
const MOST_SHOWN: usize = 10;
/// Time for making one difference smaller.
const SHRINKING: Duration = Duration::from_secs(3);

fn main() -> ExitCode {
    let options = match Options::from_arguments(std::env::args().skip(1)) {
        Ok(options) => options,
        Err(message) => return stop(&message),
    };
    // A stop inside the original is reported with its case, not by the runtime.
    panic::set_hook(Box::new(|_| {}));
    let library = library::linked();
    match &options.mode {
        Mode::Store(file) => match write_store(&options, file) {
            Ok(()) => ExitCode::SUCCESS,
            Err(error) => stop(&format!("{file}: {error}")),
        },
        Mode::Show => show(&options),
        Mode::Alone => run(&options, None),
        Mode::Compare if library.is_some() => run(&options, library),
        Mode::Compare => stop("libpanel.a was not found at build time; --alone runs the original without it"),
    }
}

fn stop(message: &str) -> ExitCode {
    eprintln!("error: {message}");
    ExitCode::from(2)
}

/// What is expected of the case; a fault of this tool's rules, or a stop of the original, is a difference too.
fn expect_case(case: &Case) -> Result<Expectation, Difference> {
    let unlisted = |answered: String| Difference {
        what: "the original against the listed exceptions",
        numbers: (0, 0),
        expected: "an answer by the rules of this tool".to_owned(),
        answered,
    };
    match panic::catch_unwind(|| expect::expect(case)) {
        Ok(expectation) => expectation.map_err(unlisted),
        Err(_) => Err(unlisted("the original, or this tool, stopped".to_owned())),
    }
}

struct Judged {
    expectation: Option<Expectation>,
    difference: Option<Difference>,
}

fn judge_case(library: Option<&dyn Library>, case: &Case) -> Judged {
    match expect_case(case) {
        Err(difference) => Judged { expectation: None, difference: Some(difference) },
        Ok(mut expectation) => {
            let difference = library.and_then(|library| judge::judge(library, case, &mut expectation).err());
            Judged { expectation: Some(expectation), difference }
        }
    }
}

#[derive(Default)]
struct Run {
    passed: u64,
    failed: u64,
    refused: u64,
    printed: u64,
    /// Of these, printed from a row with a timestamp, and refused with 18.
    dated: u64,
    refused_dates: u64,
    tally: Tally,
    shown: HashSet<String>,
}

impl Run {
    fn take(&mut self, library: Option<&dyn Library>, case: &Case) {
        let judged = judge_case(library, case);
        if let Some(expectation) = &judged.expectation {
            self.count(case, expectation);
        }
        match judged.difference {
            None => self.passed += 1,
            Some(difference) => {
                self.failed += 1;
                self.report(library, case, difference);
            }
        }
    }

    /// Cases whose answer is listed: this tool must expect it too.
    fn take_answered(&mut self, library: Option<&dyn Library>, cases: Vec<(Case, Answer)>) {
        for (case, answer) in cases {
            self.take(library, &case);
            if !is_met(&case, answer) {
                self.failed += 1;
                println!("a listed answer is not met by this tool: {}", case.show());
            }
        }
    }

    fn take_all(&mut self, library: Option<&dyn Library>, cases: impl Iterator<Item = Case>) -> u64 {
        cases.map(|case| self.take(library, &case)).count() as u64
    }

    fn count(&mut self, case: &Case, expectation: &Expectation) {
        self.tally.count(&expectation.classes);
        match &expectation.answer {
            Ok(Accepted { printed: Ok(_), .. }) => {
                self.printed += 1;
                self.dated += u64::from(case.row.kinds().contains(&8));
            }
            Ok(Accepted { printed: Err(refusal), .. }) | Err(refusal) => {
                self.refused += 1;
                self.refused_dates += u64::from(refusal.number == 18);
            }
        }
    }

    fn report(&mut self, library: Option<&dyn Library>, case: &Case, difference: Difference) {
        if self.shown.len() == MOST_SHOWN {
            return;
        }
        let started = Instant::now();
        let mut last = difference;
        let small = shrink::shrink(case, |candidate| {
            if started.elapsed() > SHRINKING {
                return false;
            }
            match judge_case(library, candidate).difference {
                Some(found) if (found.what, found.numbers) == (last.what, last.numbers) => {
                    last = found;
                    true
                }
                _ => false,
            }
        });
        let classes = expect_case(&small).map_or(Vec::new(), |expectation| expectation.classes);
        if self.shown.insert(small.show()) {
            println!("difference in {}", last.what);
            println!("  smallest: {}", small.show());
            println!("  found in: {}", judge::shorten(case.show()));
            println!("  expected: {} {}", last.expected, judged_by(&classes));
            println!("  answered: {}", last.answered);
        }
    }

    fn summarise(&self) -> ExitCode {
        println!("{:>10}  cases printed, {} of them from rows with timestamps", self.printed, self.dated);
        println!("{:>10}  cases refused, {} of them with 18", self.refused, self.refused_dates);
        println!("Of these, not compared with the original's own answer in full:");
        self.tally.print();
        println!("{} passed, {} failed", self.passed, self.failed);
        if self.failed == 0 { ExitCode::SUCCESS } else { ExitCode::FAILURE }
    }
}

fn judged_by(classes: &[Class]) -> String {
    if classes.is_empty() { "(the original's answer)".to_owned() } else { format!("(classes met: {classes:?})") }
}

fn run(options: &Options, library: Option<&dyn Library>) -> ExitCode {
    let started = Instant::now();
    let mut run = Run::default();
    run.take_answered(library, fixed::cases());
    if options.dates != Dates::No {
        run.take_answered(library, moments::cases());
        let listed = run.take_all(library, moments::letters().chain(moments::changes()));
        println!("{listed} listed cases of letters and dates");
    }
    if options.days {
        println!("{} cases of days and seconds", run.take_all(library, moments::days()));
    } else {
        let mut prng = Prng::new(options.seed);
        let mut cases = 0;
        while cases < options.count && started.elapsed() < options.time {
            run.take(library, &generate::case(&mut prng, options.dates));
            cases += 1;
        }
        println!("seed {}, {cases} generated cases", options.seed);
    }
    println!("{} seconds", started.elapsed().as_secs());
    println!("{}", source_of_dates());
    run.summarise()
}

fn source_of_dates() -> String {
    match chrono::RELEASE {
        Some(release) => format!("dates come from chrono {release}"),
        None => {
            "the texts of dates were not compared: chrono is not installed (Debian's librust-chrono-dev)".to_owned()
        }
    }
}

/// What this tool expects of a case: its text, if all of it is known, or the number of its refusal.
fn expected_answer(case: &Case) -> Result<Option<String>, u64> {
    let expectation = expect_case(case).map_err(|_| 0_u64)?;
    let accepted = expectation.answer.map_err(|refusal| refusal.number)?;
    let texts = accepted.printed.map_err(|refusal| refusal.number)?;
    Ok(texts.iter().map(|text| if let PieceText::Text(text) = text { Some(text.as_str()) } else { None }).collect())
}

/// Whether this tool expects the listed answer. Without chrono it does not know the text of a date.
fn is_met(case: &Case, answer: Answer) -> bool {
    match expected_answer(case) {
        Ok(None) => answer.is_ok() && chrono::RELEASE.is_none(),
        Ok(Some(text)) => answer == Ok(text.as_str()),
        Err(number) => answer == Err(number),
    }
}

/// Prints generated cases and what is expected of them.
fn show(options: &Options) -> ExitCode {
    let mut prng = Prng::new(options.seed);
    for _ in 0..options.count {
        let case = generate::case(&mut prng, options.dates);
        println!("{}", case.show());
        match expect_case(&case) {
            Ok(expectation) => println!("  {:?} {:?}", expectation.answer, expectation.classes),
            Err(difference) => println!("  {}", difference.answered),
        }
    }
    ExitCode::SUCCESS
}

fn write_store(options: &Options, name: &str) -> io::Result<()> {
    let mut file = BufWriter::new(File::create(name)?);
    let mut prng = Prng::new(options.seed);
    let generated = iter::repeat_with(|| generate::case(&mut prng, options.dates));
    let listed = if options.dates == Dates::All { moments::stored() } else { Vec::new() };
    let mut stored = 0;
    for case in listed.into_iter().chain(generated) {
        if stored == options.count {
            break;
        }
        if let Ok(expectation) = expect_case(&case) {
            stored += u64::from(store::store(&mut file, &case, &expectation)?);
        }
    }
    file.flush()?;
    println!("{stored} cases stored");
    Ok(())
}

#[cfg(test)]
mod tests {
    use super::*;

    #[test]
    fn listed_answers() {
        for (case, answer) in fixed::cases().into_iter().chain(moments::cases()) {
            assert!(is_met(&case, answer), "{}", case.show());
        }
    }

    #[test]
    fn numbers_too_large_for_the_original() {
        let meets = |format: &str, values: Vec<row::Value>, answer: Answer| {
            let row = row::Row { values, text: Vec::new() };
            let room = generate::Room::ShortOutput;
            assert!(is_met(&Case { format: format.as_bytes().to_vec(), row, room }, answer), "{format}");
        };
        let one = || vec![row::Value::Int8(Some(1))];
        meets("%d%d99999999999", one(), Err(7));
        meets("%d%%99999999999", one(), Ok("1%99999999999"));
        meets("%-099999999999d", one(), Err(8));
        meets("%099999999999$d", Vec::new(), Err(7));
        meets("%099999999999$d", one(), Err(6));
        meets("%d%<.00099999999999", one(), Err(6));
        meets("%q%99999999999d", one(), Err(10));
        meets("%.0000000000001d", one(), Ok("1"));
    }
}
