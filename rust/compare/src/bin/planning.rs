//! How long the proved planners take: on the sheets of `speed`, whose files spread over all pairs of tasks, on a fork of 4 makers with 60
//! readers each, and on sheets with the longest staircases. The one of 64 tasks and the fork are also measured with the least limit, one for
//! both memories, at which neither memory-aware planner is stuck (with one block less one of them is).
//!
//! A round times 16 calls of each planner on a sheet, one planner after another, or one call where it takes a millisecond or more. The time
//! is the processor time of this process (CLOCK_PROCESS_CPUTIME_ID of Linux), which other programs lengthen less than the time of day. What
//! is printed is the least and the median time of a call over all rounds, the trials, and the bytes written. The buffer is lent, and
//! not cleared between calls.
//!
//! The argument is the number of rounds of each sheet, 200 if there is none.

use compare::generate::{large_sheet, write_sheet, Random};
use compare::library::named;
use compare::long_stairs::{fork, least_alike, longest, with_limits, Wait, AWARE, MOST_PAIRS};
use compare::reference::{read_sheet, Colour, Planner, Sheet, MAX_TEXT, PLANNERS};
use compare::timing::{time, Times};
use frames::{plan_into, Answer};
use std::hint::black_box;

/// The planners of `PLANNERS`.
const NAMES: [&str; 4] = ["HEFT", "MemHEFT", "MINMIN", "MemMinMin"];

/// A planner on a sheet that it can plan, and the times of a call in microseconds.
struct Row<'a> {
    name: &'static str,
    planner: Planner,
    sheet: &'a [u8],
    out: Vec<u8>,
    answer: Answer,
    /// calls of a round
    calls: u32,
    times: Vec<f64>,
}

impl Row<'_> {
    fn new<'a>(name: &'static str, planner: Planner, sheet: &'a [u8]) -> Row<'a> {
        let mut out = vec![0; MAX_TEXT];
        let answer = plan_into(named(planner), sheet, &mut out);
        assert_eq!(answer.number, 0, "{name} is not refused");
        let mut row = Row {
            name,
            planner,
            sheet,
            out,
            answer,
            calls: 1,
            times: vec![],
        };
        if row.time() < 1000.0 {
            row.calls = 16;
        }
        row
    }

    /// The time of a call, over the calls of a round.
    fn time(&mut self) -> f64 {
        time(self.calls, || {
            let sheet = black_box(self.sheet);
            black_box(plan_into(named(self.planner), sheet, &mut self.out));
        })
    }

    fn round(&mut self) {
        let time = self.time();
        self.times.push(time);
    }

    fn print(self, sheet: &str) {
        let Times { least, median } = Times::new(self.times);
        let (name, Answer { place, trials, .. }) = (self.name, self.answer);
        println!("{sheet} | {name} | {least:.1} | {median:.1} | {trials} | {place} |");
    }
}

/// All planners on a sheet, in turn.
fn rows(what: &str, sheet: &Sheet, rounds: usize) {
    let text = write_sheet(sheet).into_bytes();
    let planners = NAMES.into_iter().zip(PLANNERS);
    let mut rows: Vec<Row> = planners
        .map(|(name, planner)| Row::new(name, planner, &text))
        .collect();
    for _ in 0..rounds {
        rows.iter_mut().for_each(Row::round);
    }
    let (tasks, files, [blue, red]) = (sheet.tasks.len(), sheet.files.len(), sheet.limits);
    for row in rows {
        row.print(&format!("| {tasks} | {files} | {what} | {blue} and {red}"));
    }
}

/// A sheet as it is, and with the least limits.
fn loose_and_tight(what: &str, sheet: &Sheet, rounds: usize) {
    rows(what, sheet, rounds);
    let limits = least_alike(sheet, &AWARE);
    rows(what, &with_limits(sheet, limits), rounds);
}

fn main() {
    let rounds = std::env::args()
        .nth(1)
        .map_or(200, |a| a.parse().expect("a number of rounds"));
    println!(
        "| tasks | files | sheet | limits | planner | least, µs | median, µs | trials | bytes |"
    );
    println!("|---|---|---|---|---|---|---|---|---|");
    let mut r = Random(64);
    let sheets = [8, 32, 64].map(|tasks| {
        let text = large_sheet(&mut r, tasks);
        read_sheet(text.as_bytes()).expect("a sound sheet")
    });
    let [small, middle, large] = sheets;
    rows("spread", &small, rounds);
    rows("spread", &middle, rounds);
    loose_and_tight("spread", &large, rounds);
    loose_and_tight("fork", &fork(&mut r), rounds);
    for (wait, what) in [
        (Wait::Processor, "start 1"),
        (Wait::Run, "start 3"),
        (Wait::Move, "start 4"),
    ] {
        let what = format!("staircase of {MOST_PAIRS}, by {what}");
        rows(&what, &longest(wait, Colour::Blue), rounds);
    }
}
