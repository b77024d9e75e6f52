//! Traces worked by hand: timetables with each step of the simulator and how they end. The comparison holds the library and simulation.rs
//! against them.

use crate::simulation::Answer;

/// A step: its tick, what the processors run, and where the files are.
pub type Step = (u64, &'static [u64], &'static [u64]);

/// How a trace ends.
#[derive(Clone, Copy)]
pub enum End {
    /// a text is refused, by a number and a place
    Refused(u64, u64),
    /// stopped by a number at a tick
    Stopped(u64, u64),
    Span(u64),
}
use End::{Refused, Span, Stopped};

/// A trace worked by hand.
pub struct Worked {
    pub name: &'static str,
    pub sheet: String,
    pub paper: String,
    steps: &'static [Step],
    end: End,
}

const BOARD: &str = "(board (blue 1 6) (red 1 6))\n";
const JOB: &str = "(task 1 4 2)\n(task 2 3 5)\n(task 3 2 6)\n(file 1 2 2 1)\n(file 1 3 3 2)\n";
const PLAN: &str =
    "(run 1 2 0)\n(run 2 1 3)\n(run 3 1 6)\n(move 1 2 2)\n(move 1 3 4)\n(claim 8 5 5)\n";

const COURSE_STEPS: &[Step] = &[
    (0, &[0, 1], &[2, 2]),
    (2, &[0, 0], &[3, 2]),
    (3, &[2, 0], &[1, 2]),
    (4, &[2, 0], &[1, 3]),
    (6, &[3, 0], &[0, 1]),
    (8, &[0, 0], &[0, 0]),
];

/// The course example with some of its text changed: what is replaced, and by what.
fn course(
    name: &'static str,
    changes: &[(&str, &str)],
    steps: &'static [Step],
    end: End,
) -> Worked {
    let (mut sheet, mut paper) = (format!("{BOARD}{JOB}"), PLAN.to_string());
    for (text, other) in changes {
        assert!(sheet.contains(text) || paper.contains(text), "{text}");
        sheet = sheet.replace(text, other);
        paper = paper.replace(text, other);
    }
    Worked {
        name,
        sheet,
        paper,
        steps,
        end,
    }
}

const MOVE: &str = "(move 1 2 2)\n";
const BLUE: &str = "blue 1 6";
const RUN: &str = "(run 3 1 6)";

/// Document 01's variations that come to their end, by their letters.
fn course_ended() -> Vec<Worked> {
    let moved_sooner: &[Step] = &[
        (0, &[0, 1], &[2, 2]),
        (2, &[0, 0], &[3, 2]),
        (3, &[2, 0], &[1, 3]),
        (5, &[2, 0], &[1, 1]),
        (6, &[3, 0], &[0, 1]),
        (8, &[0, 0], &[0, 0]),
    ];
    let sooner = [("(move 1 3 4)", "(move 1 3 3)")];
    let claim = [("(claim 8 5 5)", "(claim 9 5 5)")];
    vec![
        course("a", &[], COURSE_STEPS, Span(8)),
        course("e", &[(BLUE, "blue 1 5")], COURSE_STEPS, Span(8)),
        course("g", &sooner, moved_sooner, Span(8)),
        course("j", &claim, COURSE_STEPS, Span(8)),
    ]
}

/// Those that are stopped, one with 17 at a tick before that of 15, and one with a fault at its first tick.
fn course_stopped() -> Vec<Worked> {
    let (steps, tight) = (COURSE_STEPS, (BLUE, "blue 1 4"));
    let (early, sooner) = ((MOVE, "(move 1 2 1)\n"), (RUN, "(run 3 1 5)"));
    let red = ("red 1 6", "red 1 4");
    vec![
        course("f", &[tight], &steps[..3], Stopped(17, 4)),
        course("h", &[early], &steps[..1], Stopped(16, 1)),
        course("i", &[sooner], &steps[..4], Stopped(15, 5)),
        course("f and i", &[tight, sooner], &steps[..3], Stopped(17, 4)),
        course("red limit 4", &[red], &[], Stopped(17, 0)),
    ]
}

/// Those with a refused text.
fn course_refused() -> Vec<Worked> {
    let zero = [("(run 2 1 3)", "(run 2 01 3)")];
    vec![
        course("k", &[(MOVE, "")], &[], Refused(14, 4)),
        course("l", &zero, &[], Refused(12, 2)),
        course("m", &[(JOB, "")], &[], Refused(2, 2)),
    ]
}

pub fn trace(
    name: &'static str,
    sheet: &str,
    paper: &str,
    steps: &'static [Step],
    end: End,
) -> Worked {
    Worked {
        name,
        sheet: sheet.to_string(),
        paper: paper.to_string(),
        steps,
        end,
    }
}

/// The relay that docs/RULES.md works by hand; then with the relay a tick later, inside another run, where two files are early before.
fn relay_example() -> Vec<Worked> {
    let sheet = "(board (blue 1 6) (red 1 6))\n(task 1 3 9)\n(task 2 0 0)\n(task 3 2 9)\n(task 4 9 2)\n(file 1 2 2 1)\n(file 2 3 2 1)\n(file 2 4 2 1)\n";
    let plan = "(run 1 1 0)\n(run 2 1 3)\n(run 3 1 3)\n(run 4 2 4)\n(move 2 4 3)\n(claim 6 6 2)\n";
    let later = plan.replace("(run 2 1 3)", "(run 2 1 4)");
    const STEPS: &[Step] = &[
        (0, &[1, 0], &[1, 0, 0]),
        (3, &[3, 0], &[1, 1, 3]),
        (4, &[3, 4], &[0, 1, 2]),
        (5, &[0, 4], &[0, 0, 2]),
        (6, &[0, 0], &[0, 0, 0]),
    ];
    let stop = Stopped(16, 3);
    vec![
        trace("the relay's example", sheet, plan, STEPS, Span(6)),
        trace("a late relay", sheet, &later, &STEPS[..1], stop),
    ]
}

/// A relay that reads a file at the span, one inside another run, and one alone.
fn relay_traces() -> Vec<Worked> {
    let alone = "(board (blue 1 5) (red 1 5))\n(task 1 0 0)\n";
    let inside = "(board (blue 1 5) (red 1 5))\n(task 1 2 2)\n(task 2 0 0)\n";
    let reading = format!("{inside}(file 1 2 3 1)\n");
    vec![
        trace(
            "held one tick past the span",
            &reading,
            "(run 1 1 0)\n(run 2 1 2)\n(claim 2 3 0)\n",
            &[(0, &[1, 0], &[1]), (2, &[0, 0], &[1]), (3, &[0, 0], &[0])],
            Span(2),
        ),
        trace(
            "a relay inside another run",
            inside,
            "(run 1 1 0)\n(run 2 1 1)\n(claim 2 0 0)\n",
            &[(0, &[1, 0], &[])],
            Stopped(15, 1),
        ),
        trace(
            "a relay alone",
            alone,
            "(run 1 1 0)\n(claim 0 0 0)\n",
            &[(0, &[0, 0], &[])],
            Span(0),
        ),
    ]
}

/// Several faults at one tick.
fn fault_traces() -> Vec<Worked> {
    let job = "(task 1 4 4)\n(task 2 2 2)\n(task 3 1 1)\n(file 1 2 2 1)\n(file 2 3 2 1)\n";
    let one_blue = format!("(board (blue 1 3) (red 1 9))\n{job}");
    let two_blue = format!("(board (blue 2 3) (red 1 9))\n{job}");
    vec![
        trace(
            "15, 16 and 17 at one tick",
            &one_blue,
            "(run 1 1 0)\n(run 2 1 2)\n(run 3 1 4)\n(claim 5 4 0)\n",
            &[(0, &[1, 0], &[1, 0])],
            Stopped(15, 2),
        ),
        trace(
            "16 and 17 at one tick",
            &two_blue,
            "(run 1 1 0)\n(run 2 2 2)\n(run 3 1 4)\n(claim 5 4 0)\n",
            &[(0, &[1, 0, 0], &[1, 0])],
            Stopped(16, 2),
        ),
    ]
}

/// A moved file of size 0, and a first tick that is not 0.
fn other_traces() -> Vec<Worked> {
    let board = "(board (blue 1 0) (red 1 0))\n";
    let moved: &[Step] = &[
        (0, &[1, 0], &[1]),
        (1, &[0, 0], &[3]),
        (2, &[0, 2], &[2]),
        (3, &[0, 0], &[0]),
    ];
    vec![
        trace(
            "a file of size 0, moved",
            &format!("{board}(task 1 1 1)\n(task 2 1 1)\n(file 1 2 0 1)\n"),
            "(run 1 1 0)\n(run 2 2 2)\n(move 1 2 1)\n(claim 3 0 0)\n",
            moved,
            Span(3),
        ),
        trace(
            "nothing before tick 5",
            &format!("{board}(task 1 3 3)\n"),
            "(run 1 2 5)\n(claim 8 0 0)\n",
            &[(5, &[0, 1], &[]), (8, &[0, 0], &[])],
            Span(8),
        ),
    ]
}

/// All traces.
pub fn traces() -> Vec<Worked> {
    let mut all = course_ended();
    all.extend(course_stopped());
    all.extend(course_refused());
    all.extend(relay_example());
    all.extend(relay_traces());
    all.extend(fault_traces());
    all.extend(other_traces());
    all
}

impl Worked {
    /// What is due when so many steps are wanted in all.
    fn due(&self, wanted: usize) -> Answer {
        let mut due = Answer::before_first((0, 0));
        if let Some((tick, running, contents)) = self.steps[..wanted.min(self.steps.len())].last() {
            due.time = *tick;
            due.running[..running.len()].copy_from_slice(running);
            due.contents[..contents.len()].copy_from_slice(contents);
        }
        due.made = wanted.min(self.steps.len()) as u64;
        match self.end {
            Refused(number, place) => (due.number, due.place) = (number, place),
            Stopped(number, tick) if wanted > self.steps.len() => {
                (due.number, due.place) = (number, tick)
            }
            Span(span) if wanted >= self.steps.len() => due.span = span,
            _ => due.left = 1,
        }
        due
    }

    /// Asks a simulator for each number of steps up to two past the end, in one call and as a later call.
    pub fn hold(&self, simulate: impl Fn(&[u8], &[u8], u64, u64) -> Answer) -> Result<(), String> {
        let (sheet, paper) = (self.sheet.as_bytes(), self.paper.as_bytes());
        for wanted in 0..self.steps.len() + 3 {
            for made in 0..=wanted {
                let (got, due) = (
                    simulate(sheet, paper, made as u64, (wanted - made) as u64),
                    self.due(wanted),
                );
                if got != due {
                    return Err(format!(
                        "trace '{}', {made} of {wanted} steps made: {got:?}, wanted {due:?}",
                        self.name
                    ));
                }
            }
        }
        Ok(())
    }
}

#[cfg(test)]
mod tests {
    use super::*;
    use crate::simulation::{simulate, Trace};

    #[test]
    fn the_traces_worked_by_hand() {
        for trace in traces() {
            trace.hold(simulate).unwrap();
        }
    }

    #[test]
    fn tick_by_tick() {
        for trace in traces() {
            if let Ok(laid_out) = Trace::read(trace.sheet.as_bytes(), trace.paper.as_bytes()) {
                laid_out.check().unwrap();
            }
        }
    }

    /// The variations are document 01's: the marker's number and place are those printed there.
    #[test]
    fn the_marker_on_the_variations() {
        let marked = |name: &str| {
            let trace = traces().into_iter().find(|t| t.name == name).unwrap();
            let answer = crate::reference::mark(trace.sheet.as_bytes(), trace.paper.as_bytes());
            (answer[0], answer[1])
        };
        let answers = ["a", "e", "f", "g", "h", "i", "j", "k", "l", "m"].map(marked);
        let due = [
            (0, 0),
            (0, 0),
            (17, 4),
            (0, 0),
            (16, 2),
            (15, 2),
            (18, 0),
            (14, 4),
            (12, 2),
            (2, 2),
        ];
        assert_eq!(answers, due);
    }

    #[test]
    fn numbers_past_every_range() {
        for trace in traces() {
            let (sheet, paper) = (trace.sheet.as_bytes(), trace.paper.as_bytes());
            let all = simulate(sheet, paper, 0, 1024);
            for (made, steps) in [
                (0, u64::MAX),
                (u64::MAX, 0),
                (u64::MAX, u64::MAX),
                (1 << 63, 1 << 63),
                (641, 0),
            ] {
                assert_eq!(simulate(sheet, paper, made, steps), all, "{}", trace.name);
            }
        }
    }
}
