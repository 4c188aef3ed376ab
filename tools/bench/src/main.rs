//! Times this library, the original, snprintf, {fmt} and Java on the same rows, and prints tables in Markdown.
//!
//! Arguments: FOLDER (of Bench.class; files of callgrind go there). Or `calls INDEX COUNT` to make calls on one row and nothing else, `list INDEX COUNT` on one
//! live list; `lists FOLDER` for the table of live lists alone; `times` for the times of this library alone, and `counts FOLDER` for its instructions, a row to
//! a line; `pair` asks for them.

mod fmt;
mod lists;
mod others;
mod panel;
mod rows;
mod timing;

use std::path::Path;
use std::process::ExitCode;
use std::{env, fs, thread};

use fmt::Fmt;
use others::{Java, Original};
use panel::{Panel, Snprintf};
use rows::{Call, Row, SHEET_LINE, Series};
use timing::Calls;

/// How often both tables are gone through; a disturbance of some seconds then spoils one round of a row, not the row.
const ROUNDS: u32 = 5;

fn main() -> ExitCode {
    let arguments: Vec<String> = env::args().skip(1).collect();
    match arguments.iter().map(String::as_str).collect::<Vec<_>>()[..] {
        ["calls", index, count] => {
            let (Ok(index), Ok(count)) = (index.parse(), count.parse()) else { return usage() };
            let Some(row) = all_rows().into_iter().nth(index) else { return usage() };
            std::hint::black_box(Panel::new(&row).run(count));
        }
        ["list", index, count] => {
            let (Ok(index), Ok(count)) = (index.parse(), count.parse()) else { return usage() };
            if !lists::calls(index, count) {
                return usage();
            }
        }
        ["lists", folder] => lists_alone(Path::new(folder)),
        ["times"] => times_alone(),
        ["counts", folder] => counts_alone(Path::new(folder)),
        [folder] => tables(Path::new(folder)),
        _ => return usage(),
    }
    ExitCode::SUCCESS
}

fn usage() -> ExitCode {
    eprintln!(
        "arguments: FOLDER, or calls INDEX COUNT, or list INDEX COUNT, or lists FOLDER, or times, or counts FOLDER"
    );
    ExitCode::from(2)
}

/// Every row, in the order of the tables; `calls` and the files of callgrind count from 0 in it.
fn all_rows() -> Vec<Row> {
    let rising = rows::series().into_iter().flat_map(|series| series.rows.into_iter().map(|(_, row)| row));
    rows::compared().into_iter().chain(rising).collect()
}

/// The rows of the first table, and those in turn; behind the time what tells whether two libraries print the same.
fn times_alone() {
    for row in rows::compared() {
        let mut panel = Panel::new(&row);
        let digest = panel.digest();
        let least = timing::least(&mut [Box::new(|calls| panel.run(calls)) as Calls]);
        println!("{}\t{}\t{digest}", row.name, least[0]);
    }
    for rows in rows::in_turn() {
        let (digest, least) = (Panel::in_turn(&rows).digest(), measure_in_turn(&rows));
        println!("{}, {} values\t{}\t{digest}", rows[0].name, grouped(rows::VALUES), least[1]);
    }
}

fn counts_alone(folder: &Path) {
    for (index, row) in rows::compared().iter().enumerate() {
        println!("{}\t{}", row.name, count(others::instructions(folder, index, row.call)));
    }
}

fn lists_alone(folder: &Path) {
    let mut lists = lists::measure();
    for _ in 1..ROUNDS {
        lists.improve(lists::measure());
    }
    lists.table(folder);
}

fn tables(folder: &Path) {
    let (compared, series, in_turn) = (rows::compared(), rows::series(), rows::in_turn());
    let mut measured: Vec<Measured> = compared.iter().map(|row| measure(folder, row)).collect();
    let mut rising: Vec<Vec<f64>> = series.iter().map(measure_series).collect();
    let mut turns: Vec<[f64; 2]> = in_turn.iter().map(|rows| measure_in_turn(rows)).collect();
    let mut lists = lists::measure();
    for _ in 1..ROUNDS {
        for (row, m) in compared.iter().zip(&mut measured) {
            m.improve(measure(folder, row));
        }
        for (series, least) in series.iter().zip(&mut rising) {
            improve(least, &measure_series(series));
        }
        for (rows, least) in in_turn.iter().zip(&mut turns) {
            improve(least, &measure_in_turn(rows));
        }
        lists.improve(lists::measure());
    }
    println!("{}\n", machine(&measured));
    println!("Nanoseconds for a call; instructions for a call of this library.\n");
    table_compared(folder, &compared, &measured);
    println!();
    notes(&compared);
    println!("\nGrowth with size, this library alone.\n");
    println!("| Size in | Size | Nanoseconds | Nanoseconds / size | Instructions | Instructions / size |");
    println!("|---|---:|---:|---:|---:|---:|");
    let mut index = compared.len();
    for (series, least) in series.iter().zip(&rising) {
        growth(folder, series, least, &mut index);
    }
    println!("\nOne value in every call, and other values of its kind in turn; this library alone.\n");
    println!("| Row | One value | {} values | Longer by |", grouped(rows::VALUES));
    println!("|---|---:|---:|---:|");
    for (rows, [one, many]) in in_turn.iter().zip(turns) {
        println!("| {} | {one:.1} | {many:.1} | {:.1} |", rows[0].name, many - one);
    }
    lists.table(folder);
}

fn improve(least: &mut [f64], again: &[f64]) {
    for (ns, again) in least.iter_mut().zip(again) {
        *ns = ns.min(*again);
    }
}

fn table_compared(folder: &Path, compared: &[Row], measured: &[Measured]) {
    println!(
        "| Row | This library | Original, parse and format | Original, format only | snprintf | {{fmt}} | {{fmt}} compiled | Java | Original / this | snprintf / this | {{fmt}} / this | Instructions |"
    );
    println!("|---|---:|---:|---:|---:|---:|---:|---:|---:|---:|---:|---:|");
    for (index, (row, m)) in compared.iter().zip(measured).enumerate() {
        let name = &row.name;
        let differs = row.in_c.as_ref().is_some_and(|c| !c.same);
        let starred = |ns: Option<f64>| time(ns) + if differs && ns.is_some() { " *" } else { "" };
        println!(
            "| {name} | {} | {} | {} | {} | {} | {} | {} | {} | {} | {} | {} |",
            time(Some(m.panel)),
            time(m.parse_and_format),
            time(m.format_only),
            starred(m.snprintf),
            starred(m.fmt),
            starred(m.fmt_compiled),
            time(m.java.as_ref().map(|java| java.ns)),
            ratio(m.parse_and_format, m.panel),
            ratio(m.snprintf, m.panel),
            ratio(m.fmt, m.panel),
            count(others::instructions(folder, index, row.call)),
        );
    }
}

#[derive(Default)]
struct Measured {
    panel: f64,
    parse_and_format: Option<f64>,
    format_only: Option<f64>,
    snprintf: Option<f64>,
    fmt: Option<f64>,
    fmt_compiled: Option<f64>,
    java: Option<Java>,
}

impl Measured {
    fn improve(&mut self, again: Measured) {
        let least = |a: Option<f64>, b: Option<f64>| a.zip(b).map(|(a, b)| a.min(b));
        self.panel = self.panel.min(again.panel);
        self.parse_and_format = least(self.parse_and_format, again.parse_and_format);
        self.format_only = least(self.format_only, again.format_only);
        self.snprintf = least(self.snprintf, again.snprintf);
        self.fmt = least(self.fmt, again.fmt);
        self.fmt_compiled = least(self.fmt_compiled, again.fmt_compiled);
        if let (Some(java), Some(again)) = (&mut self.java, again.java) {
            java.ns = java.ns.min(again.ns);
        }
    }
}

/// All times of one row, after a look at the texts: the original's and Java's must be this library's, those of snprintf and {fmt} too where the row
/// says so.
fn measure(folder: &Path, row: &Row) -> Measured {
    let mut panel = Panel::new(row);
    let Some(in_c) = &row.in_c else {
        let least = timing::least(&mut [Box::new(|calls| panel.run(calls)) as Calls]);
        return Measured { panel: least[0], ..Measured::default() };
    };
    let original = Original::new(row);
    let mut snprintf = Snprintf::new(row, in_c);
    let mut fmts = Fmt::both(row, in_c);
    let java = others::java(folder, row);
    panel.run(1);
    look_at_texts(row, panel.text(), original.as_ref(), java.as_ref());
    look_at_texts_in_c(row, panel.text(), &mut snprintf, &mut fmts, in_c.same);

    let mut subjects: Vec<Calls> = vec![Box::new(|calls| panel.run(calls)), Box::new(|calls| snprintf.run(calls))];
    let of_fmt = subjects.len();
    subjects.extend(fmts.iter_mut().map(|fmt| Box::new(|calls| fmt.run(calls)) as Calls));
    let of_original = subjects.len();
    subjects.extend(original.iter().flat_map(|original| original.both()));
    let least = timing::least(&mut subjects);
    let (fmt, original) = (&least[of_fmt..of_original], &least[of_original..]);
    Measured {
        panel: least[0],
        parse_and_format: original.first().copied(),
        format_only: original.get(1).copied(),
        snprintf: Some(least[1]),
        fmt: fmt.first().copied(),
        fmt_compiled: fmt.get(1).copied(),
        java,
    }
}

fn look_at_texts(row: &Row, text: &[u8], original: Option<&Original>, java: Option<&Java>) {
    if let Some(original) = original {
        assert_eq!(original.text().as_bytes(), text, "{}: this library and the original differ", row.name);
    }
    if let Some(java) = java {
        assert_eq!(java.text.as_bytes(), text, "{}: this library and Java differ", row.name);
    }
}

fn look_at_texts_in_c(row: &Row, text: &[u8], snprintf: &mut Snprintf, fmts: &mut [Fmt], same: bool) {
    snprintf.run(1);
    assert_eq!(snprintf.text() == text, same, "{}: snprintf says {:?}", row.name, snprintf.text());
    for fmt in fmts.iter_mut() {
        fmt.run(1);
        assert_eq!(fmt.text() == text, same, "{}: {{fmt}} says {:?}", row.name, fmt.text());
    }
    if let [runtime, compiled] = fmts {
        assert_eq!(compiled.text(), runtime.text(), "{}: {{fmt}} compiled differs", row.name);
    }
}

/// The least nanoseconds for each row of a series.
fn measure_series(series: &Series) -> Vec<f64> {
    let mut panels: Vec<Panel> = series.rows.iter().map(|(_, row)| Panel::new(row)).collect();
    let mut subjects: Vec<Calls> = panels.iter_mut().map(|panel| Box::new(|calls| panel.run(calls)) as Calls).collect();
    timing::least(&mut subjects)
}

/// The least nanoseconds of a call for the first of the rows, and for all of them in turn.
fn measure_in_turn(rows: &[Row]) -> [f64; 2] {
    let (mut one, mut all) = (Panel::new(&rows[0]), Panel::in_turn(rows));
    let least = timing::least(&mut [Box::new(|calls| one.run(calls)) as Calls, Box::new(|calls| all.run(calls))]);
    [least[0], least[1]]
}

fn growth(folder: &Path, series: &Series, least: &[f64], index: &mut usize) {
    for ((size, row), &ns) in series.rows.iter().zip(least) {
        let instructions = others::instructions(folder, *index, row.call);
        *index += 1;
        // Measuring must not grow with the width, so there is nothing to divide.
        let each = |total: f64| match row.call {
            Call::Print => format!("{:.2}", total / *size as f64),
            Call::Measure => "-".to_owned(),
        };
        println!(
            "| {} | {} | {} | {} | {} | {} |",
            series.name,
            grouped(*size),
            time(Some(ns)),
            each(ns),
            count(instructions),
            instructions.map_or("-".to_owned(), |n| each(n as f64)),
        );
    }
}

/// The values of the rows, and where the text of snprintf and {fmt} is another.
fn notes(compared: &[Row]) {
    // Outside a table `|` needs no escape.
    let name = |row: &Row| row.name.replace("\\|", "|");
    println!("Values:\n");
    for row in compared {
        let format = if row.name == SHEET_LINE { format!(", `{}`", row.format) } else { "".to_owned() };
        println!("- {}{format}: {}", name(row), row.show());
    }
    println!("\n\\* The text is another:\n");
    for row in compared {
        let Some(in_c) = row.in_c.as_ref().filter(|in_c| !in_c.same) else { continue };
        let mut snprintf = Snprintf::new(row, in_c);
        snprintf.run(1);
        let printed = |by: &str, format: &str, text: &[u8]| {
            println!("- {}, {by}: `{format}` prints `{}`", name(row), String::from_utf8_lossy(text))
        };
        printed("snprintf", &in_c.format, snprintf.text());
        if let Some(fmt) = Fmt::both(row, in_c).first_mut() {
            fmt.run(1);
            printed("{fmt}", fmt.format(), fmt.text());
        }
    }
}

/// The date, the kind of machine and the tools.
fn machine(measured: &[Measured]) -> String {
    let set = |name| env::var(name).unwrap_or_else(|_| "unknown".to_owned());
    let (date, load) = (set("BENCH_DATE"), set("BENCH_LOAD"));
    let cores = thread::available_parallelism().map_or(0, |n| n.get());
    let cpu = fs::read_to_string("/proc/cpuinfo").unwrap_or_default();
    let model = cpu.lines().find_map(|line| line.strip_prefix("model name")?.split_once(": ")).map_or("CPU", |p| p.1);
    let java = measured.iter().find_map(|m| m.java.as_ref()).map_or("none", |java| &java.version);
    format!(
        "{date}; {cores} cores, {model}; load {load} at the start. gcc {}, glibc {}, {{fmt}} {}, Java {java}.",
        panel::compiler(),
        panel::c_library(),
        fmt::version()
    )
}

fn time(ns: Option<f64>) -> String {
    match ns {
        None => "-".to_owned(),
        Some(ns) if ns < 100.0 => format!("{ns:.1}"),
        Some(ns) => grouped(ns.round() as u64),
    }
}

fn ratio(other: Option<f64>, this: f64) -> String {
    other.map_or("-".to_owned(), |other| match other / this {
        r if r < 100.0 => format!("{r:.2}"),
        r => grouped(r.round() as u64),
    })
}

fn count(n: Option<u64>) -> String {
    n.map_or("-".to_owned(), grouped)
}

fn grouped(n: u64) -> String {
    let digits = n.to_string();
    let mut text = String::new();
    for (i, digit) in digits.chars().enumerate() {
        if i > 0 && (digits.len() - i).is_multiple_of(3) {
            text.push(',');
        }
        text.push(digit);
    }
    text
}
