//! The library's simulator held against simulation.rs on marked texts, and against what Order 3 promises of its answers alone; how often
//! each answer was reached.

use crate::generate::Random;
use crate::reference::{Refused, CURRENT};
use crate::simulation::{simulate, Answer, Trace};
use crate::traces::traces;
use frames::Progress;
use std::collections::BTreeMap;

extern "C" {
    fn frames_simulate(
        sheet: *const u8,
        sheet_len: usize,
        paper: *const u8,
        paper_len: usize,
        made: u64,
        steps: u64,
        result: *mut [u64; 6],
        running: *mut [u64; 16],
        contents: *mut [u64; 256],
    );
}

/// The refusals of a text, and the stops.
const REFUSED: [u64; 8] = [1, 2, 3, 4, 11, 12, 13, 14];
const STOPPED: [u64; 3] = [15, 16, 17];

/// Of the traces with at most so many steps, one in four is gone through step by step.
const WALKED: u64 = 100;

/// The most ticks that a trace can have: start and end of 64 runs and 256 moves. Where a hold outlasts a run, the run has one tick.
pub const MOST_TICKS: u64 = 640;

/// A number that no call answers, for the arrays before a call.
const UNFILLED: u64 = 0xa5a5_a5a5_a5a5_a5a5;

/// The library's answer, as it stands in the three arrays.
pub fn library(sheet: &[u8], paper: &[u8], made: u64, steps: u64) -> Answer {
    let mut result = [UNFILLED; 6];
    let mut running = [UNFILLED; 16];
    let mut contents = [UNFILLED; 256];
    unsafe {
        frames_simulate(
            sheet.as_ptr(),
            sheet.len(),
            paper.as_ptr(),
            paper.len(),
            made,
            steps,
            &mut result,
            &mut running,
            &mut contents,
        )
    }
    let [number, place, left, span, made, time] = result;
    Answer {
        number,
        place,
        left,
        span,
        made,
        time,
        running,
        contents,
    }
}

/// The library's answer by the Rust wrapper.
fn wrapped(sheet: &[u8], paper: &[u8], made: u64, steps: u64) -> Answer {
    let now = frames::simulate(sheet, paper, made, steps);
    let (number, place, left, span) = match now.progress {
        Progress::Refused { number, place } => (number, place, 0, 0),
        Progress::StepsLeft => (0, 0, 1, 0),
        Progress::Stopped { number, tick } => (number, tick, 0, 0),
        Progress::Ended { span } => (0, 0, 0, span),
    };
    Answer {
        number,
        place,
        left,
        span,
        made: now.made,
        time: now.time,
        running: now.running,
        contents: now.contents,
    }
}

/// A number of steps for a trace of so many: few, about as many, about the greatest numbers that count, or far past them.
fn drawn(r: &mut Random, steps: u64) -> u64 {
    let near = |r: &mut Random, n: u64| n.saturating_sub(2).saturating_add(r.next() % 5);
    match r.below(12) {
        0 => 0,
        1 | 2 => r.next() % 8,
        3 => r.next() % (steps + 1),
        4 | 5 => near(r, steps),
        6 => near(r, 640),
        7 => near(r, 1024),
        8 => 1025 + r.next() % 100_000,
        9 => near(r, 1 << 32),
        10 => near(r, 1 << 63),
        _ => near(r, u64::MAX),
    }
}

/// Two texts and the trace of them, or the refusal of one.
struct Case<'a> {
    sheet: &'a [u8],
    paper: &'a [u8],
    trace: Result<Trace, Refused>,
}

impl<'a> Case<'a> {
    fn new(sheet: &'a [u8], paper: &'a [u8]) -> Case<'a> {
        let trace = Trace::read(sheet, paper);
        Case {
            sheet,
            paper,
            trace,
        }
    }

    fn due(&self, made: u64, steps: u64) -> Answer {
        match &self.trace {
            Ok(trace) => trace.answer(made, steps),
            Err(refused) => Answer::before_first(*refused),
        }
    }
}

/// How often a call gave each answer, and what was seen of the papers.
#[derive(Default)]
pub struct Counts {
    draws: Random,
    calls: u64,
    numbers: BTreeMap<u64, u64>,
    left: u64,
    ended: u64,
    /// papers that ended though marked by 18, with a span that no claim can name, and at a tick past the span
    untrue: u64,
    unwritable: u64,
    past: u64,
    /// papers stopped by another number than the marker's, with 15, 16 and 17 at the tick, and at the first tick
    other: u64,
    three: u64,
    first: u64,
    /// papers gone through step by step, and of these with the most ticks that there can be
    walked: u64,
    longest: u64,
    traces: u64,
}

impl Counts {
    /// A call; an error where the library's answer is not the one due.
    fn call(&mut self, case: &Case, made: u64, steps: u64) -> Result<Answer, String> {
        let got = library(case.sheet, case.paper, made, steps);
        let due = case.due(made, steps);
        if got != due {
            return Err(format!(
                "simulate differs, {made} steps made and {steps} to make:\n{got:?}\nwanted\n{due:?}"
            ));
        }
        self.calls += 1;
        match (got.number, got.left) {
            (0, 0) => self.ended += 1,
            (0, _) => self.left += 1,
            (number, _) => *self.numbers.entry(number).or_default() += 1,
        }
        Ok(got)
    }

    /// Two texts and the marker's answer to them; an error at the first difference.
    pub fn marked(&mut self, sheet: &[u8], paper: &[u8], mark: [u64; 5]) -> Result<(), String> {
        let case = Case::new(sheet, paper);
        let all = self.call(&case, 0, 1024)?;
        beside_marker(&all, mark)?;
        if wrapped(sheet, paper, 0, 1024) != all {
            return Err("the wrapper's answer differs from the library's".to_string());
        }
        for _ in 0..2 {
            let made = drawn(&mut self.draws, all.made);
            let steps = drawn(&mut self.draws, all.made);
            self.call(&case, made, steps)?;
        }
        self.go_on(&case, all.made)?;
        let Ok(trace) = &case.trace else {
            return Ok(());
        };
        trace.check()?;
        self.count(trace, &all, mark[0]);
        if all.made <= WALKED && self.draws.one_in(4) {
            self.walk(&case, &all)?;
        }
        Ok(())
    }

    /// A call and a later one that names the steps made, beside one call of all the steps.
    fn go_on(&mut self, case: &Case, most: u64) -> Result<(), String> {
        let r = &mut self.draws;
        let (made, first) = (r.next() % 3, r.next() % (most + 3));
        let later = 1 + r.next() % (most + 2);
        let stood = self.call(case, made, first)?.made;
        let then = self.call(case, stood, later)?;
        if then == self.call(case, made, first + later)? {
            return Ok(());
        }
        Err(format!(
            "{made} steps made, then {first}, then {later} differ from one call of them"
        ))
    }

    /// Goes step by step from before the first to the stop or the end; the times rise from the second step on.
    fn walk(&mut self, case: &Case, all: &Answer) -> Result<(), String> {
        let mut now = self.call(case, 0, 0)?;
        while now.left == 1 {
            let next = self.call(case, now.made, 1)?;
            let rises = now.made == 0 || now.time < next.time;
            let stepped = next.number == 0 && next.made == now.made + 1 && rises;
            let stopped = next.number != 0 && (next.made, next.time) == (now.made, now.time);
            if !stepped && !stopped {
                return Err(format!("after {now:?} a step gives {next:?}"));
            }
            now = next;
        }
        if now != *all {
            return Err(format!(
                "step by step gives {now:?}, one call of 1024 {all:?}"
            ));
        }
        self.walked += 1;
        self.longest += u64::from(now.made == MOST_TICKS);
        Ok(())
    }

    /// Goes through a timetable of any length step by step.
    pub fn walk_through(&mut self, sheet: &[u8], paper: &[u8]) -> Result<(), String> {
        let case = Case::new(sheet, paper);
        let all = self.call(&case, 0, 1024)?;
        self.walk(&case, &all)
    }

    /// What a paper shows: the answer with all steps, and the marker's number.
    fn count(&mut self, trace: &Trace, all: &Answer, mark: u64) {
        if let Some(faults) = trace.faults() {
            self.other += u64::from(all.number != mark);
            self.three += u64::from(faults == STOPPED);
            self.first += u64::from(all.made == 0);
        } else {
            self.untrue += u64::from(mark == 18);
            self.unwritable += u64::from(all.span > CURRENT.tick as u64);
            self.past += u64::from(all.time > all.span);
        }
    }

    /// Holds the library and simulation.rs against the traces worked by hand.
    pub fn by_hand(&mut self) -> Result<(), String> {
        for trace in traces() {
            trace.hold(library)?;
            trace.hold(simulate)?;
            self.traces += 1;
        }
        Ok(())
    }

    fn number(&self, number: u64) -> u64 {
        self.numbers.get(&number).copied().unwrap_or(0)
    }

    /// What was counted beside the numbers, in words.
    fn rows(&self) -> [(&str, u64); 11] {
        [
            ("steps left", self.left),
            ("ended", self.ended),
            ("papers ended though the claim is untrue", self.untrue),
            ("ended with a span that no claim can name", self.unwritable),
            ("ended at a tick past the span", self.past),
            ("stopped by another number than the marker's", self.other),
            ("stopped with 15, 16 and 17 at one tick", self.three),
            ("stopped at the first tick", self.first),
            ("gone through step by step", self.walked),
            ("of these with 640 steps", self.longest),
            ("traces worked by hand", self.traces),
        ]
    }

    pub fn print(&self) {
        let listed = |numbers: &[u64]| {
            let counts = numbers.iter().map(|n| format!("{n}: {}", self.number(*n)));
            counts.collect::<Vec<_>>().join(", ")
        };
        let rows = self.rows().map(|(name, n)| format!("{name}: {n}"));
        println!(
            "simulator: {} calls, refused by {}, stopped by {}, {}",
            self.calls,
            listed(&REFUSED),
            listed(&STOPPED),
            rows.join(", ")
        );
    }

    /// What was never reached: a line each.
    pub fn faults(&self) -> Vec<String> {
        let numbers = REFUSED.iter().chain(&STOPPED);
        let mut all: Vec<String> = numbers
            .filter(|n| self.number(**n) == 0)
            .map(|n| format!("simulator: the answer {n} was never reached"))
            .collect();
        let rows = self.rows();
        let never = rows.iter().filter(|r| r.1 == 0);
        all.extend(never.map(|r| format!("simulator, {}: none", r.0)));
        all
    }
}

/// Given 1024 steps, the simulator is stopped exactly where the marker refuses by 15 to 17, refuses a text as the marker does, and
/// otherwise ends, with the span that the marker accepts.
fn beside_marker(all: &Answer, mark: [u64; 5]) -> Result<(), String> {
    let [number, place, span, ..] = mark;
    let agrees = match number {
        0 => (all.number, all.span) == (0, span),
        18 => all.number == 0,
        15..=17 => STOPPED.contains(&all.number),
        _ => (all.number, all.place) == (number, place),
    };
    if agrees && all.left == 0 {
        return Ok(());
    }
    Err(format!("marked {mark:?}, and simulated {all:?}"))
}
