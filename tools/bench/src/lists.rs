//! A live list (calls_lists.c): joins, leaves, and asking for the lengths.

use std::path::Path;

use crate::rows::{Call, Row, Value};
use crate::timing::{self, Calls};
use crate::{count, grouped, improve, others, time};

unsafe extern "C" {
    fn bench_has_lists() -> i32;
    fn bench_list_words() -> usize;
    fn bench_list_fill(
        list: *mut u32,
        gates: u32,
        fmt: *const u8,
        fmt_len: usize,
        row: *const u8,
        row_len: usize,
    ) -> u64;
    fn bench_list_changes(
        list: *mut u32,
        fmt: *const u8,
        fmt_len: usize,
        row: *const u8,
        row_len: usize,
        calls: u64,
        ns: *mut u64,
    ) -> u64;
    fn bench_list_lengths(list: *const u32, lengths: *mut u64, calls: u64) -> u64;
}

const LENGTHS: usize = 512;

/// What the gates that stay print under each `%1$d`: 7 bytes.
const OTHERS: i32 = 1_234_567;

/// A list of some gates, and one more that joins and leaves.
struct Case {
    pieces: usize,
    /// With the one that joins and leaves.
    gates: u32,
    /// Of that one.
    value: i32,
    name: &'static str,
}

/// Empty where the library has no lists.
fn cases() -> Vec<Case> {
    // It looks at addresses.
    if unsafe { bench_has_lists() } == 0 {
        return vec![];
    }
    let of = |pieces| {
        [
            Case { pieces, gates: 1, value: OTHERS, name: "alone in the list" },
            Case { pieces, gates: 128, value: 7, name: "nowhere the longest" },
            Case { pieces, gates: 128, value: OTHERS, name: "everywhere as long as the others" },
            Case { pieces, gates: 128, value: 1_234_567_890, name: "everywhere alone the longest" },
        ]
    };
    [4, LENGTHS].into_iter().flat_map(of).collect()
}

/// A list between two changes: the gate that joins and leaves is absent.
struct Live {
    list: Vec<u32>,
    format: Vec<u8>,
    row: Vec<u8>,
}

impl Live {
    fn new(case: &Case) -> Live {
        let format = "%1$d".repeat(case.pieces);
        let pack = |value| Row::alone(case.name, Call::Measure, format.clone(), vec![Value::Int32(value)]).pack();
        let others = pack(OTHERS);
        // Each pointer and length come from one vector that lives through the call; the list has as many words as panel.h says.
        let mut list = vec![0; unsafe { bench_list_words() }];
        let refused = unsafe {
            bench_list_fill(
                list.as_mut_ptr(),
                case.gates - 1,
                format.as_ptr(),
                format.len(),
                others.as_ptr(),
                others.len(),
            )
        };
        assert_eq!(refused, 0, "{}: refused", case.name);
        let mut live = Live { list, row: pack(case.value), format: format.into_bytes() };
        let before = live.lengths(1);
        live.change(1);
        assert_eq!(live.lengths(1), before, "{}: another list after a join and a leave", case.name);
        let length = if case.gates > 1 { OTHERS.to_string().len() as u64 } else { 0 };
        let all = (0..LENGTHS).all(|k| before[k] == if k < case.pieces { length } else { 0 });
        assert!(all, "{}: other lengths than expected", case.name);
        live
    }

    /// So many joins and leaves in turn: the nanoseconds of the joins, of the leaves, and of as many readings of the clock.
    fn change(&mut self, calls: u64) -> [u64; 3] {
        let (format, row, mut ns) = (&self.format, &self.row, [0; 3]);
        let refused = unsafe {
            bench_list_changes(
                self.list.as_mut_ptr(),
                format.as_ptr(),
                format.len(),
                row.as_ptr(),
                row.len(),
                calls,
                ns.as_mut_ptr(),
            )
        };
        assert_eq!(refused, 0, "refused");
        ns
    }

    /// Asks so many times.
    fn lengths(&self, calls: u64) -> [u64; LENGTHS] {
        let mut lengths = [0; LENGTHS];
        unsafe { bench_list_lengths(self.list.as_ptr(), lengths.as_mut_ptr(), calls) };
        lengths
    }
}

/// The least nanoseconds of a join and of a leave in each case, and of asking for the lengths.
pub struct Times {
    changes: Vec<[f64; 2]>,
    lengths: Vec<f64>,
}

pub fn measure() -> Times {
    let cases = cases();
    let changes = cases.iter().map(|case| {
        let mut live = Live::new(case);
        let [join, leave, clock] = timing::least_parts(|calls| live.change(calls));
        [join - clock, leave - clock]
    });
    let asked = cases.last().map(Live::new);
    let mut subjects: Vec<Calls> = asked.iter().map(|live| Box::new(|calls| live.lengths(calls)[0]) as Calls).collect();
    Times { changes: changes.collect(), lengths: timing::least(&mut subjects) }
}

impl Times {
    pub fn improve(&mut self, again: Times) {
        for (least, again) in self.changes.iter_mut().zip(&again.changes) {
            improve(least, again);
        }
        improve(&mut self.lengths, &again.lengths);
    }

    /// Nothing where the library has no lists.
    pub fn table(&self, folder: &Path) {
        let [lengths] = self.lengths[..] else { return };
        println!("\nA live list: one gate joins and leaves; this library alone.\n");
        println!("| Pieces | Gates with it | The gate | Join | Leave | Instructions, join | Leave |");
        println!("|---:|---:|---|---:|---:|---:|---:|");
        for (index, (case, [join, leave])) in cases().iter().zip(&self.changes).enumerate() {
            println!(
                "| {} | {} | {} | {} | {} | {} | {} |",
                case.pieces,
                grouped(case.gates.into()),
                case.name,
                time(Some(*join)),
                time(Some(*leave)),
                count(others::list_instructions(folder, index, "panel_list_join")),
                count(others::list_instructions(folder, index, "panel_list_leave")),
            );
        }
        let instructions = count(others::list_instructions(folder, 0, "panel_list_lengths"));
        println!("\nAsking for the lengths: {} ns, {instructions} instructions.", time(Some(lengths)));
    }
}

/// Makes so many calls of each kind on a list of the table, and nothing else; whether there is such a list.
pub fn calls(index: usize, calls: u64) -> bool {
    let cases = cases();
    let Some(case) = cases.get(index) else { return false };
    let mut live = Live::new(case);
    std::hint::black_box((live.change(calls), live.lengths(calls)));
    true
}
