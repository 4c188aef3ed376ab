//! What was found, counted and shown.

use std::collections::BTreeMap;

use crate::case::{Case, escape};
use crate::classes::{ALL, Class, Outcome, Side};
use crate::java::Java;
use crate::panel::Here;
use crate::question::Question;

/// Failures that are printed.
const SHOWN: u64 = 20;

#[derive(Default)]
pub struct Tally {
    pub passed: u64,
    pub failed: u64,
    equal: u64,
    both_refuse: u64,
    by_pieces: u64,
    classes: BTreeMap<Class, Found>,
}

/// The cases of a class, and the smallest that falls into this class alone.
#[derive(Default)]
struct Found {
    count: u64,
    smallest: Option<(Case, Java, Here)>,
}

impl Tally {
    pub fn fail(&mut self, question: &Question, java: &Java, here: &Here, texts: &[Option<Vec<u8>>], fault: &str) {
        let Question { case, told, .. } = question;
        self.failed += 1;
        if self.failed > SHOWN {
            return;
        }
        println!("FAILED: {}\n  {fault}\n  Java {}\n  here {}", case.show(), show_java(java), show_here(here));
        println!("  predicted {:?}, {:?}", told.outcome(), told.classes);
        let wanted: Vec<String> = texts.iter().flatten().map(|text| show(text)).collect();
        if !wanted.is_empty() {
            println!("  wanted by pieces: {}", wanted.join(" "));
        }
    }

    pub fn pass(&mut self, question: &Question, java: Java, here: Here) {
        let Question { case, told, parts } = question;
        self.passed += 1;
        self.by_pieces += u64::from(!parts.is_empty());
        let outcome = told.outcome();
        match outcome {
            Outcome::Equal => self.equal += 1,
            Outcome::BothRefuse => self.both_refuse += 1,
            _ => {}
        }
        for &class in told.classes.iter().filter(|class| shows(outcome, class.side())) {
            self.classes.entry(class).or_default().count += 1;
        }
        if let ([class], false) = (&told.classes[..], told.both) {
            self.classes.entry(*class).or_default().offer(case, java, here);
        }
    }

    /// A class without a case of its own is a failure.
    fn fail_unmet(&mut self) {
        for class in ALL {
            if self.classes.get(&class).is_none_or(|found| found.smallest.is_none()) {
                self.failed += 1;
                println!("FAILED: no case of the class {} alone", class.name());
            }
        }
    }

    /// The table of the classes.
    pub fn report(&mut self, seed: u64, count: u64) {
        self.fail_unmet();
        println!("seed {seed}, {count} random cases");
        println!(
            "equal texts: {}; refused by both: {}; compared piece by piece: {}",
            self.equal, self.both_refuse, self.by_pieces
        );
        println!("\n| Class | Cases | Smallest input | Java | Here |\n|---|---|---|---|---|");
        for (class, Found { count, smallest }) in &self.classes {
            let Some((case, java, here)) = smallest else { continue };
            let (case, java, here) = (case.show(), show_java(java), show_here(here));
            println!("| {} | {count} | {case} | {java} | {here} |", class.name());
        }
        println!();
    }
}

impl Found {
    /// Keeps the case where it is the smallest so far.
    fn offer(&mut self, case: &Case, java: Java, here: Here) {
        if self.smallest.as_ref().is_none_or(|(smallest, _, _)| case.key() < smallest.key()) {
            self.smallest = Some((case.clone(), java, here));
        }
    }
}

/// Whether a class of this side shows in the outcome.
fn shows(outcome: Outcome, side: Side) -> bool {
    match outcome {
        Outcome::Equal | Outcome::BothRefuse => false,
        Outcome::JavaRefuses => matches!(side, Side::Java(_)),
        Outcome::HereRefuses => matches!(side, Side::Here(_)),
        Outcome::TextsDiffer => true,
    }
}

fn show_java(java: &Java) -> String {
    match java {
        Java::Text(text) => show(text),
        Java::Refused(name) => name.clone(),
    }
}

fn show_here(here: &Here) -> String {
    match here {
        Here::Text(text, _) => show(text),
        Here::Refused(number, place) => format!("refused, {number} at {place}"),
    }
}

pub fn show(text: &[u8]) -> String {
    match std::str::from_utf8(text) {
        Ok("") => "empty".into(),
        Ok(text) if text.len() > 300 => format!("a text of {} bytes", text.len()),
        Ok(text) if text.chars().all(|c| !c.is_control()) => format!("`{text}`"),
        _ => format!("`{}`", escape(text)),
    }
}
