//! Compares the panel's printing with java.util.Formatter. README.md says what is compared.

mod bridge;
mod capitals;
mod case;
mod classes;
mod clock;
mod elements;
mod format;
mod generate;
mod java;
mod moments;
mod panel;
mod prng;
mod question;
mod random;
mod store;
mod tally;
mod values;

use std::error::Error;
use std::io::{self, BufWriter, Write};
use std::process::{ChildStdin, ExitCode};
use std::sync::mpsc::{self, Sender};
use std::thread;

use classes::{Class, Outcome, Prediction, Side};
use java::{Answers, Java};
use panel::{Here, Panel};
use question::Question;
use store::Store;
use tally::{Tally, show};

fn main() -> ExitCode {
    match run() {
        Ok(0) => ExitCode::SUCCESS,
        Ok(_) => ExitCode::from(1),
        Err(error) => {
            eprintln!("{error}");
            ExitCode::from(2)
        }
    }
}

/// Arguments: the folder of Answers.class, the seed, the number of random cases, and a file where a sample is to be stored. Gives the number of
/// failures.
fn run() -> Result<u64, Box<dyn Error>> {
    let arguments: Vec<String> = std::env::args().skip(1).collect();
    let [folder, seed, count, file @ ..] = &arguments[..] else { return Err("wanted: folder, seed, count".into()) };
    let (seed, count) = (seed.parse()?, count.parse()?);
    let mut store = file.first().map(|name| Store::create(name)).transpose()?;
    let stores = store.is_some();
    let (mut answers, to_java) = Answers::start(folder)?;
    let (give, questions) = mpsc::channel();
    let writer = thread::spawn(move || ask(seed, count, stores, to_java, &give));

    let mut panel = Panel::new();
    let mut tally = Tally::default();
    for question in questions {
        judge(&question, &mut panel, &mut answers, &mut tally, store.as_mut())?;
    }
    writer.join().expect("no panic")?;
    answers.wait()?;
    match &mut store {
        Some(store) => println!("{} records stored", store.finish()?),
        None => tally.report(seed, count),
    }
    println!("{} passed, {} failed", tally.passed, tally.failed);
    Ok(tally.failed)
}

/// Sends every case to Java and to the judge.
fn ask(seed: u64, count: u64, stores: bool, to_java: ChildStdin, give: &Sender<Question>) -> io::Result<()> {
    let mut to_java = BufWriter::new(to_java);
    let mut failure = Ok(());
    let generate = if stores { generate::sample } else { generate::all };
    generate(seed, count, &mut |case| {
        let question = Question::new(case);
        for request in question.requests() {
            if failure.is_ok() {
                failure = writeln!(to_java, "{request}");
            }
        }
        // The other end hangs up only where the run has failed.
        let _ = give.send(question);
    });
    failure?;
    to_java.flush()
}

fn judge(
    question: &Question,
    panel: &mut Panel,
    answers: &mut Answers,
    tally: &mut Tally,
    store: Option<&mut Store>,
) -> Result<(), Box<dyn Error>> {
    let Question { case, told, parts } = question;
    let java = answers.next()?;
    let mut texts = Vec::new();
    for part in parts {
        texts.push(part.wanted(answers)?);
    }
    let here = panel.print(&case.format, &case.row());
    let fault = compare(told, &java, &here).err().or_else(|| compare_pieces(&texts, &here).err());
    if let Some(fault) = fault {
        tally.fail(question, &java, &here, &texts, &fault);
        return Ok(());
    }
    if let (Some(store), Outcome::Equal, Here::Text(text, ends), true) = (store, told.outcome(), &here, told.has_time())
    {
        store.write(case, text, ends)?;
    }
    tally.pass(question, java, here);
    Ok(())
}

/// Holds the two answers against the prediction.
fn compare(told: &Prediction, java: &Java, here: &Here) -> Result<(), String> {
    let outcome = match (java, here) {
        (Java::Refused(_), Here::Refused(..)) => Outcome::BothRefuse,
        (Java::Refused(_), Here::Text(..)) => Outcome::JavaRefuses,
        (Java::Text(_), Here::Refused(..)) => Outcome::HereRefuses,
        (Java::Text(java), Here::Text(here, _)) if java == here => Outcome::Equal,
        (Java::Text(_), Here::Text(..)) => Outcome::TextsDiffer,
    };
    if outcome != told.outcome() {
        return Err(format!("found {outcome:?}"));
    }
    let refusals = |class: &&Class| class.side() != Side::Texts;
    let mut refusing = told.classes.iter().filter(refusals);
    if let (Some(class), None, false) = (refusing.next(), refusing.next(), told.both) {
        match (class.side(), java, here) {
            (Side::Java(name), Java::Refused(found), _) if name != found => {
                return Err(format!("the exception is not {name}"));
            }
            (Side::Here(numbers), _, Here::Refused(number, _)) if !numbers.contains(number) => {
                return Err(format!("the number is none of {numbers:?}"));
            }
            _ => {}
        }
    }
    match here {
        Here::Text(text, ends)
            if ends.len() != told.pieces.len() || ends.last().copied().unwrap_or(0) != text.len() =>
        {
            Err(format!("wrong ends {ends:?} for a text of {} bytes", text.len()))
        }
        _ => Ok(()),
    }
}

/// Holds the library's pieces against the texts that are known of them.
fn compare_pieces(texts: &[Option<Vec<u8>>], here: &Here) -> Result<(), String> {
    let Here::Text(text, ends) = here else { return Ok(()) };
    let mut start = 0;
    for (number, (wanted, &end)) in texts.iter().zip(ends).enumerate() {
        let piece = text.get(start..end);
        match wanted {
            Some(wanted) if piece != Some(wanted) => {
                return Err(format!("piece {} is not {}", number + 1, show(wanted)));
            }
            _ => start = end,
        }
    }
    Ok(())
}
