//! The proved library beside rust/baseline on one job: the planners, the marker, and the reading of the sheet.

use crate::counting::Turns;
use crate::library::{self, named};
use crate::reference::{read_sheet, Heuristic, Memory, Planner, MAX_TEXT};
use crate::timing::Times;
use std::hint::black_box;
use Heuristic::{Heft, MinMin};
use Memory::{Aware, Plain};

/// What is measured.
#[derive(Clone, Copy, Debug, PartialEq, Eq)]
pub enum What {
    Plan(Planner),
    /// the marker on a timetable that it accepts
    Mark,
    /// the marker on an empty timetable, which it refuses by 12 at line 1 as soon as the sheet is read
    Read,
}

/// All that is measured on a sheet.
pub const WHATS: [What; 6] = [
    What::Plan(Heft.with(Aware)),
    What::Plan(MinMin.with(Aware)),
    What::Plan(Heft.with(Plain)),
    What::Plan(MinMin.with(Plain)),
    What::Mark,
    What::Read,
];

impl What {
    pub fn name(self) -> &'static str {
        match self {
            What::Plan(planner) => match (planner.heuristic, planner.memory) {
                (Heft, Plain) => "HEFT",
                (Heft, Aware) => "MemHEFT",
                (MinMin, Plain) => "MINMIN",
                (MinMin, Aware) => "MemMinMin",
            },
            What::Mark => "marker",
            What::Read => "sheet read",
        }
    }
}

/// The baseline's name of a planner.
pub fn in_baseline(planner: Planner) -> baseline::planner::Planner {
    match (planner.heuristic, planner.memory) {
        (Heft, Plain) => baseline::planner::Planner::Heft,
        (Heft, Aware) => baseline::planner::Planner::MemHeft,
        (MinMin, Plain) => baseline::planner::Planner::MinMin,
        (MinMin, Aware) => baseline::planner::Planner::MemMinMin,
    }
}

/// A planner of the library into a buffer: number, place and trials.
fn plan_proved(planner: Planner, sheet: &[u8], out: &mut [u8]) -> [u64; 3] {
    let answer = frames::plan_into(named(planner), sheet, out);
    [answer.number, answer.place, answer.trials]
}

/// The same of the baseline.
fn plan_baseline(planner: Planner, sheet: &[u8], out: &mut [u8]) -> [u64; 3] {
    baseline::planner::plan(in_baseline(planner), sheet, out)
}

type Plan = fn(Planner, &[u8], &mut [u8]) -> [u64; 3];
type Mark = fn(&[u8], &[u8]) -> [u64; 5];

/// The proved library, and the baseline.
const PLANS: [Plan; 2] = [plan_proved, plan_baseline];
const MARKS: [Mark; 2] = [library::mark, baseline::marker::mark];

/// A sheet that no planner refuses, and a timetable of it that is accepted.
pub struct Job {
    pub name: String,
    pub tasks: usize,
    pub files: usize,
    sheet: Vec<u8>,
    paper: Vec<u8>,
}

impl Job {
    pub fn new(name: &str, sheet: Vec<u8>, paper: Vec<u8>) -> Job {
        let read = read_sheet(&sheet).expect("a sound sheet");
        Job {
            name: name.to_string(),
            tasks: read.tasks.len(),
            files: read.files.len(),
            sheet,
            paper,
        }
    }

    /// A sheet with MemMinMin's timetable.
    pub fn planned(name: &str, sheet: Vec<u8>) -> Job {
        let plan = library::plan(MinMin.with(Aware), &sheet, MAX_TEXT);
        let paper = plan.text().to_vec();
        Job::new(name, sheet, paper)
    }

    /// Ends the program where the two sides do not give the same answer and bytes, or not the number due.
    fn check(&self, what: What) {
        let told = format!("{}, {}", self.name, what.name());
        match what {
            What::Plan(planner) => {
                let [proved, baseline] = PLANS.map(|plan| {
                    let mut out = library::pattern(MAX_TEXT);
                    let answer = plan(planner, &self.sheet, &mut out);
                    assert_eq!(answer[0], 0, "{told}");
                    (answer, out)
                });
                assert!(
                    proved == baseline,
                    "{told}: {:?}, {:?}",
                    proved.0,
                    baseline.0
                );
            }
            What::Mark | What::Read => {
                let (paper, due) = self.marked(what);
                let [proved, baseline] = MARKS.map(|mark| mark(&self.sheet, paper));
                assert_eq!(proved, baseline, "{told}");
                assert_eq!(proved[..2], due, "{told}");
            }
        }
    }

    /// The timetable that the marker gets, and its number and place for it.
    fn marked(&self, what: What) -> (&[u8], [u64; 2]) {
        match what {
            What::Read => (&[], [12, 1]),
            _ => (&self.paper, [0, 0]),
        }
    }

    /// A call of each side. The buffer of a planner is lent, and not cleared between calls.
    fn calls(&self, what: What) -> [Box<dyn FnMut() + '_>; 2] {
        match what {
            What::Plan(planner) => PLANS.map(|plan| {
                let mut out = vec![0; MAX_TEXT];
                let call = move || {
                    black_box(plan(planner, black_box(&self.sheet), &mut out));
                };
                Box::new(call) as Box<dyn FnMut()>
            }),
            What::Mark | What::Read => MARKS.map(|mark| {
                let (paper, _) = self.marked(what);
                let call = move || {
                    black_box(mark(black_box(&self.sheet), black_box(paper)));
                };
                Box::new(call) as Box<dyn FnMut()>
            }),
        }
    }
}

/// A measure on a job.
pub struct Row<'a> {
    pub job: &'a Job,
    pub what: What,
    turns: Turns<'a>,
}

/// Times and instructions of a call, of the proved library and of the baseline; no instructions where the machine does not count them.
pub struct Measured {
    pub times: [Times; 2],
    pub instructions: Option<[f64; 2]>,
}

impl Measured {
    /// The least time of the proved library over that of the baseline.
    pub fn ratio(&self) -> f64 {
        let [proved, baseline] = self.times;
        proved.least / baseline.least
    }

    /// The same of the medians.
    pub fn ratio_of_medians(&self) -> f64 {
        let [proved, baseline] = self.times;
        proved.median / baseline.median
    }
}

impl<'a> Row<'a> {
    /// Both sides give the same here.
    pub fn new(job: &'a Job, what: What) -> Row<'a> {
        job.check(what);
        let turns = Turns::new(job.calls(what));
        Row { job, what, turns }
    }

    pub fn measured(&mut self) -> Measured {
        Measured {
            times: self.turns.times(),
            instructions: self.turns.instructions(),
        }
    }
}

/// Rounds of a row before the next row's turn.
const ROUNDS_TOGETHER: usize = 20;

/// Measures rows in so many rounds each: a few rounds of each row, and again, so that no row is measured in a slow while alone.
pub fn measure(rows: &mut [Row], rounds: usize) {
    let mut made = 0;
    while made < rounds {
        let next = ROUNDS_TOGETHER.min(rounds - made);
        rows.iter_mut().for_each(|row| row.turns.rounds(next));
        made += next;
    }
}
