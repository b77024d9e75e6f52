//! How long the proved marker takes beside that of rust/baseline, which is written for speed and finds peaks from sorted changes too: both
//! mark timetables that they accept, and both read the sheets alone (with an empty timetable, which is refused by 12 at line 1).
//!
//! A round times some calls of one side and then as many of the other, and the next round begins with the other side, so that both are
//! measured in one run under the same conditions. The time is the processor time of this process (CLOCK_PROCESS_CPUTIME_ID of Linux), which
//! other programs lengthen less than the time of day. What is printed is the least and the median time of a call over all rounds. No
//! buffer is lent: a call is given the two texts and answers five numbers.
//!
//! The argument is the number of rounds of each row, 2000 if there is none.

use compare::generate::{all_apart_with_work, all_moved, all_work, large_sheet, Random};
use compare::library;
use compare::reference::{read_sheet, Heuristic, Memory, MAX_TEXT};
use compare::timing::{time, Times};
use std::hint::black_box;

/// A marker: number, place, span and peaks.
type Marker = fn(&[u8], &[u8]) -> [u64; 5];

/// The proved marker and the baseline.
const SIDES: [Marker; 2] = [library::mark, baseline::marker::mark];

/// A sheet and a timetable of it that is accepted.
struct Job {
    sheet: Vec<u8>,
    paper: Vec<u8>,
}

impl Job {
    /// A sheet with MemMinMin's timetable.
    fn planned(sheet: Vec<u8>) -> Job {
        let planner = Heuristic::MinMin.with(Memory::Aware);
        let plan = library::plan(planner, &sheet, MAX_TEXT);
        let paper = plan.text().to_vec();
        Job { sheet, paper }
    }

    /// The marker, and the reading of the sheet.
    fn rows(&self, kind: &str, rounds: usize) {
        self.row(&format!("marker{kind}"), &self.paper, 0, rounds);
        self.row(&format!("sheet read{kind}"), b"", 12, rounds);
    }

    /// Both sides by turns on a timetable for which they give this number.
    fn row(&self, what: &str, paper: &[u8], number: u64, rounds: usize) {
        let read = read_sheet(&self.sheet).expect("a sound sheet");
        let [proved, baseline] = SIDES.map(|mark| mark(&self.sheet, paper));
        assert_eq!(proved, baseline, "{what}");
        assert_eq!(proved[0], number, "{what}");
        let (tasks, files) = (read.tasks.len(), read.files.len());
        let calls = if files < 100 { 64 } else { 16 };
        let mut times = [vec![], vec![]];
        for round in 0..rounds {
            for side in [round % 2, 1 - round % 2] {
                let call = || {
                    black_box(SIDES[side](black_box(&self.sheet), black_box(paper)));
                };
                times[side].push(time(calls, call));
            }
        }
        let [proved, baseline] = times.map(Times::new);
        println!(
            "| {tasks} | {files} | {what} | {:.2} | {:.2} | {:.2} | {:.2} | {:.2} | {:.2} |",
            proved.least,
            baseline.least,
            proved.least / baseline.least,
            proved.median,
            baseline.median,
            proved.median / baseline.median
        );
    }
}

fn main() {
    let rounds = std::env::args()
        .nth(1)
        .map_or(2000, |a| a.parse().expect("a number of rounds"));
    println!("| tasks | files | what | proved, least, µs | baseline, least, µs | ratio | proved, median, µs | baseline, median, µs | ratio |");
    println!("|---|---|---|---|---|---|---|---|---|");
    let mut r = Random(64);
    let sheets = [8, 32, 64].map(|tasks| large_sheet(&mut r, tasks).into_bytes());
    let with_work = all_work(&sheets[2], 300);
    for sheet in sheets {
        Job::planned(sheet).rows("", rounds);
    }
    Job::planned(with_work).rows(", W on every task", rounds);
    for ((sheet, paper), kind) in [
        (all_moved(), ", every file moved"),
        (all_apart_with_work(), ", 640 ticks, W on every task"),
    ] {
        Job { sheet, paper }.rows(kind, rounds);
    }
}
