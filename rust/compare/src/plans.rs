//! Known plans, worked by hand or after document 01's examples: sheets with the answers of all four planners, and the marker's to what they
//! write. The comparison holds the library and reference.rs against them.

use crate::library::Answered;
use crate::reference::{Planner, Refused, PLANNERS};
use Ending::{Planned, Stuck};

/// A buffer that is long enough for each timetable.
const ROOM: usize = 200;

/// How a planner ends.
#[derive(Clone, Debug)]
pub enum Ending {
    /// with a timetable, to which the marker answers a number and a place
    Planned(String, Refused),
    /// with so many tasks placed
    Stuck(u64),
}

/// A sheet with known plans.
pub struct Worked {
    name: &'static str,
    sheet: String,
    /// trials and ending of each planner, in the order of `PLANNERS`
    answers: [(u64, Ending); 4],
}

pub fn worked(name: &'static str, sheet: &str, answers: [(u64, Ending); 4]) -> Worked {
    Worked {
        name,
        sheet: sheet.to_string(),
        answers,
    }
}

pub fn accepted(text: &str) -> Ending {
    Planned(text.to_string(), (0, 0))
}

pub fn over_limit(text: &str, tick: u64) -> Ending {
    Planned(text.to_string(), (17, tick))
}

/// The course example with its limits, with a blue limit of 4, and with both limits 4.
fn course() -> Vec<Worked> {
    const JOB: &str = "(task 1 4 2)\n(task 2 3 5)\n(task 3 2 6)\n(file 1 2 2 1)\n(file 1 3 3 2)\n";
    const PLAN: &str =
        "(run 1 2 0)\n(run 2 1 3)\n(run 3 1 6)\n(move 1 2 2)\n(move 1 3 4)\n(claim 8 5 5)\n";
    const FITTED: &str = "(run 1 2 0)\n(run 2 1 3)\n(run 3 2 2)\n(move 1 2 2)\n(claim 8 2 5)\n";
    let sheet = |blue, red| format!("(board (blue 1 {blue}) (red 1 {red}))\n{JOB}");
    let same = || accepted(PLAN);
    let fitted = || accepted(FITTED);
    let over = |tick| over_limit(PLAN, tick);
    vec![
        worked(
            "the course example",
            &sheet(6, 6),
            [(6, same()), (6, same()), (8, same()), (8, same())],
        ),
        worked(
            "blue limit 4",
            &sheet(4, 6),
            [(6, over(4)), (6, fitted()), (8, over(4)), (8, fitted())],
        ),
        worked(
            "both limits 4",
            &sheet(4, 4),
            [(6, over(0)), (2, Stuck(0)), (8, over(0)), (2, Stuck(0))],
        ),
    ]
}

/// Limits equal to the peaks of the plain plan, which is accepted; the memory-aware planners end later.
fn later_at_peaks() -> Worked {
    let plain = || {
        accepted("(run 1 1 0)\n(run 2 1 1)\n(run 3 2 2)\n(run 4 2 4)\n(move 1 3 1)\n(move 1 4 3)\n(move 2 4 2)\n(claim 5 3 3)\n")
    };
    let aware = || {
        accepted("(run 1 1 0)\n(run 2 1 1)\n(run 3 2 2)\n(run 4 1 5)\n(move 1 3 1)\n(move 3 4 3)\n(claim 6 3 2)\n")
    };
    worked(
        "limits of the peaks, a longer span",
        "(board (blue 1 3) (red 1 3))\n(task 1 1 1)\n(task 2 1 2)\n(task 3 2 1)\n(task 4 1 1)\n\
         (file 1 3 1 1)\n(file 1 4 1 1)\n(file 2 4 1 2)\n(file 3 4 1 2)\n",
        [(8, plain()), (8, aware()), (12, plain()), (12, aware())],
    )
}

/// The same; the memory-aware planners are stuck.
fn stuck_at_peaks() -> Worked {
    let plain = || {
        accepted("(run 1 1 0)\n(run 2 1 1)\n(run 3 1 2)\n(run 4 2 2)\n(run 5 1 4)\n(move 1 4 1)\n(move 4 5 3)\n(claim 5 3 2)\n")
    };
    worked(
        "limits of the peaks, stuck",
        "(board (blue 1 3) (red 1 2))\n(task 1 1 1)\n(task 2 1 1)\n(task 3 1 1)\n(task 4 1 1)\n(task 5 1 1)\n\
         (file 1 2 1 1)\n(file 1 4 1 1)\n(file 2 3 1 1)\n(file 3 5 2 1)\n(file 4 5 1 1)\n",
        [(10, plain()), (10, Stuck(3)), (14, plain()), (12, Stuck(3))],
    )
}

/// What a relay reads and what it makes are over the blue limit together.
fn relay() -> Worked {
    let plain = || over_limit("(run 1 1 0)\n(run 2 1 1)\n(run 3 1 1)\n(claim 2 2 0)\n", 1);
    let aware = || accepted("(run 1 1 0)\n(run 2 2 2)\n(run 3 2 2)\n(move 1 2 1)\n(claim 3 1 2)\n");
    worked(
        "a relay",
        "(board (blue 1 1) (red 1 2))\n(task 1 1 1)\n(task 2 0 0)\n(task 3 1 1)\n(file 1 2 1 1)\n(file 2 3 1 1)\n",
        [(6, plain()), (6, aware()), (6, plain()), (6, aware())],
    )
}

/// A timetable from each planner.
fn four_timetables() -> Worked {
    let heft = "(run 1 2 0)\n(run 2 1 2)\n(run 3 2 1)\n(move 1 2 1)\n(claim 3 1 1)\n";
    let mem_heft = "(run 1 1 0)\n(run 2 1 2)\n(run 3 2 0)\n(claim 3 1 0)\n";
    let min_min = "(run 1 2 0)\n(run 2 1 2)\n(run 3 1 0)\n(move 1 2 1)\n(claim 3 1 1)\n";
    let mem_min_min = "(run 1 1 1)\n(run 2 1 3)\n(run 3 1 0)\n(claim 4 1 0)\n";
    worked(
        "four timetables",
        "(board (blue 1 1) (red 1 0))\n(task 1 2 1)\n(task 2 1 2)\n(task 3 1 1)\n(file 1 2 1 1)\n",
        [
            (6, over_limit(heft, 0)),
            (6, accepted(mem_heft)),
            (10, over_limit(min_min, 0)),
            (8, accepted(mem_min_min)),
        ],
    )
}

/// All sheets.
pub fn plans() -> Vec<Worked> {
    let mut all = course();
    all.extend([
        later_at_peaks(),
        stuck_at_peaks(),
        relay(),
        four_timetables(),
    ]);
    all
}

impl Worked {
    pub fn sheet(&self) -> &[u8] {
        self.sheet.as_bytes()
    }

    /// Holds four planners, each told the length of a buffer, and a marker against the sheet.
    pub fn hold(
        &self,
        plan: impl Fn(Planner, &[u8], usize) -> Answered,
        mark: impl Fn(&[u8], &[u8]) -> [u64; 5],
    ) -> Result<(), String> {
        let sheet = self.sheet();
        for (planner, (trials, ending)) in PLANNERS.iter().zip(&self.answers) {
            let got = plan(*planner, sheet, ROOM);
            let [number, place, ..] = mark(sheet, got.text());
            let ended = (got.answer.number, got.answer.place);
            let as_due = match ending {
                Planned(text, due) => {
                    ended == (0, text.len() as u64)
                        && got.text() == text.as_bytes()
                        && (number, place) == *due
                }
                Stuck(placed) => ended == (21, *placed),
            };
            if !as_due || got.answer.trials != *trials {
                return Err(format!(
                    "sheet '{}', {planner:?}: {:?}, {}, marked {number} {place}; wanted {trials} trials, {ending:?}",
                    self.name,
                    got.answer,
                    String::from_utf8_lossy(got.text())
                ));
            }
        }
        Ok(())
    }
}
