//! How long the planners, the marker and the simulator take on sheets of 8, 32 and 64 tasks, the last also with every time a million times
//! as long and with W on every task, and the converter and the stripper on the largest conversion, beside the independent implementation:
//! the median of many calls, in one run on one machine.

use compare::conversion;
use compare::generate::{all_apart, all_moved, all_work, finer, large_sheet, Random};
use compare::library::named;
use compare::reference::{self, Planner, PLANNERS};
use compare::simulation;
use frames::{Progress, Verdict};
use std::time::Instant;

/// The median time of a call in microseconds.
fn median(call: impl FnMut()) -> f64 {
    median_of(31, call)
}

fn median_of(calls: usize, mut call: impl FnMut()) -> f64 {
    let mut times: Vec<f64> = (0..calls)
        .map(|_| {
            let start = Instant::now();
            call();
            start.elapsed().as_secs_f64() * 1e6
        })
        .collect();
    times.sort_by(f64::total_cmp);
    times[times.len() / 2]
}

/// The planners of `PLANNERS`.
const NAMES: [&str; 4] = ["HEFT", "MemHEFT", "MINMIN", "MemMinMin"];

/// The size of a row's sheet.
struct Row {
    tasks: usize,
    files: usize,
}

impl Row {
    fn print(&self, what: &str, ours: f64, theirs: f64) {
        let Row { tasks, files } = self;
        println!("| {tasks} | {files} | {what} | {ours:.0} | {theirs:.0} |");
    }

    /// A planner on a sheet that it can plan; its timetable.
    fn planner(&self, what: &str, planner: Planner, sheet: &[u8]) -> Vec<u8> {
        let mut out = vec![0u8; reference::MAX_TEXT];
        let answer = frames::plan_into(named(planner), sheet, &mut out);
        assert_eq!(answer.number, 0, "the sheet is planned");
        let ours = median(|| {
            frames::plan_into(named(planner), sheet, &mut out);
        });
        let theirs = median(|| {
            reference::plan(planner, sheet);
        });
        self.print(what, ours, theirs);
        out.truncate(answer.place as usize);
        out
    }

    /// The marker on an accepted timetable.
    fn marker(&self, what: &str, sheet: &[u8], paper: &[u8]) {
        let ours = median(|| {
            assert!(matches!(
                frames::mark(sheet, paper),
                Verdict::Accepted { .. }
            ));
        });
        let theirs = median(|| {
            reference::mark(sheet, paper);
        });
        self.print(what, ours, theirs);
    }

    /// The simulator to the end of an accepted timetable, in one call.
    fn simulator(&self, what: &str, sheet: &[u8], paper: &[u8]) {
        let ours = median(|| {
            let all = frames::simulate(sheet, paper, 0, 1024);
            assert!(matches!(all.progress, Progress::Ended { .. }));
        });
        let theirs = median(|| {
            simulation::simulate(sheet, paper, 0, 1024);
        });
        self.print(what, ours, theirs);
    }

    /// The converter on a sheet that it can convert; the converted sheet.
    fn converter(&self, what: &str, sheet: &[u8]) -> Vec<u8> {
        let mut out = vec![0u8; reference::MAX_TEXT];
        let answer = frames::convert_into(sheet, &mut out);
        assert_eq!(answer.number, 0, "the sheet is converted");
        let ours = median(|| {
            frames::convert_into(sheet, &mut out);
        });
        let theirs = median(|| drop(conversion::convert(sheet)));
        self.print(what, ours, theirs);
        out.truncate(answer.place as usize);
        out
    }

    /// The stripper on an accepted timetable of the converted sheet.
    fn stripper(&self, what: &str, sheet: &[u8], paper: &[u8]) {
        let mut out = vec![0u8; reference::MAX_TEXT];
        let ours = median(|| {
            let answer = frames::strip_into(sheet, paper, &mut out);
            assert_eq!(answer.number, 0, "the timetable is stripped");
        });
        let theirs = median(|| drop(conversion::strip(sheet, paper)));
        self.print(what, ours, theirs);
    }

    /// The simulator on a timetable of 640 ticks, in as many calls of one step; the median of 5 such walks.
    fn step_by_step(&self, what: &str, sheet: &[u8], paper: &[u8]) {
        let ours = median_of(5, || {
            walk(|made| frames::simulate(sheet, paper, made, 1).made)
        });
        let theirs = median_of(5, || {
            walk(|made| simulation::simulate(sheet, paper, made, 1).made)
        });
        self.print(what, ours, theirs);
    }
}

/// The largest conversion, 32 tasks with W each and 224 files, which become 64 and 256: the converter, a planner and the marker on the
/// converted sheet, and the stripper.
fn conversion_rows(text: &[u8]) {
    let row = Row {
        tasks: 32,
        files: 224,
    };
    let lines = text.split_inclusive(|&b| b == b'\n');
    let sheet = lines.take(1 + row.tasks + row.files).collect::<Vec<_>>();
    let sheet = sheet.concat();
    let converted = row.converter("converter", &sheet);
    let (name, planner) = (NAMES[3], PLANNERS[3]);
    let paper = row.planner(&format!("{name}, converted"), planner, &converted);
    row.marker("marker, converted", &converted, &paper);
    row.stripper("stripper", &sheet, &paper);
}

/// 640 steps; a step is told the steps made, and tells them.
fn walk(step: impl Fn(u64) -> u64) {
    let made = (0..640).fold(0, |made, _| step(made));
    assert_eq!(made, 640);
}

/// The rows of a sheet: the planners on it, its reading, and the marker and the simulator on MemMinMin's timetable. `kind` stands behind
/// what is measured.
fn rows(sheet: &[u8], kind: &str) {
    let sound = reference::read_sheet(sheet).expect("a sound sheet");
    let row = Row {
        tasks: sound.tasks.len(),
        files: sound.files.len(),
    };
    let mut paper = vec![];
    for (name, planner) in NAMES.iter().zip(PLANNERS) {
        paper = row.planner(&format!("{name}{kind}"), planner, sheet);
    }
    let read = median(|| {
        frames::mark(sheet, b"");
    });
    row.print(
        &format!("sheet read{kind}"),
        read,
        median(|| drop(reference::read_sheet(sheet))),
    );
    row.marker(&format!("marker{kind}"), sheet, &paper);
    row.simulator(&format!("simulator{kind}"), sheet, &paper);
}

fn main() {
    let mut r = Random(64);
    println!("| tasks | files | what | proved, µs | independent, µs |");
    println!("|---|---|---|---|---|");
    let sheets = [8, 32, 64].map(|tasks| large_sheet(&mut r, tasks).into_bytes());
    for sheet in &sheets {
        rows(sheet, "");
    }
    rows(&finer(&sheets[2], 1_000_000), ", times × 1000000");
    rows(&all_work(&sheets[2], 300), ", W on every task");
    conversion_rows(&all_work(&sheets[1], 300));
    let largest = Row {
        tasks: 64,
        files: 256,
    };
    let (sheet, paper) = all_moved();
    largest.marker("marker, every file moved", &sheet, &paper);
    largest.simulator("simulator, every file moved", &sheet, &paper);
    let (sheet, paper) = all_apart();
    largest.simulator("simulator, 640 ticks", &sheet, &paper);
    largest.step_by_step("simulator, 640 ticks step by step", &sheet, &paper);
}
