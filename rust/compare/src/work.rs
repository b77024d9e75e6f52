//! Known answers with working memory (Order 6), worked by hand: marks, also by the rules before the order, plans and traces. The comparison
//! holds the library, reference.rs and simulation.rs against them.

use crate::plans::{self, accepted, over_limit, worked, Ending};
use crate::reference::{Rules, PRESENT};
use crate::traces::{self, trace, End, Step};
use End::{Span, Stopped};
use Ending::Stuck;

/// Two texts and the marker's answers to them.
pub struct Known {
    name: &'static str,
    sheet: String,
    paper: String,
    before: [u64; 5],
    now: [u64; 5],
}

fn refused(number: u64, place: u64) -> [u64; 5] {
    [number, place, 0, 0, 0]
}

fn marked(span: u64, blue: u64, red: u64) -> [u64; 5] {
    [0, 0, span, blue, red]
}

/// A mark; the rules before the order refuse the sheet by 2 at a line, that of its first W.
fn known(name: &'static str, sheet: &str, paper: &str, line: u64, now: [u64; 5]) -> Known {
    Known {
        name,
        sheet: sheet.to_string(),
        paper: paper.to_string(),
        before: refused(2, line),
        now,
    }
}

/// A mark that is the same by the rules before the order.
fn kept(name: &'static str, sheet: &str, paper: &str, mark: [u64; 5]) -> Known {
    Known {
        before: mark,
        ..known(name, sheet, paper, 0, mark)
    }
}

/// A sheet of one task with another line for it, and a timetable that claims a blue peak.
fn task(line: &'static str, peak: u64, now: [u64; 5]) -> Known {
    let board = format!("(board (blue 1 {MANY}) (red 1 {MANY}))\n");
    let paper = format!("(run 1 1 0)\n(claim 4 {peak} 0)\n");
    known(line, &format!("{board}{line}\n"), &paper, 2, now)
}

/// The greatest limit.
const MANY: u64 = 999_999_999;

/// W as it is written: the least and the greatest, what is out of its range, and what is none of the forms.
fn written() -> Vec<Known> {
    let [malformed, out_of_range, misplaced] = [2, 3, 4].map(|number| refused(number, 2));
    vec![
        task("(task 1 4 4 1)", 1, marked(4, 1, 0)),
        task("(task 1 4 4 1000000)", 1_000_000, marked(4, 1_000_000, 0)),
        task("(task 1 4 4 1000001)", 1_000_001, out_of_range),
        task("(task 1 4 4 0)", 0, out_of_range),
        task("(task 1 4 4 4294967297)", 1, out_of_range),
        task("(task 1 4 4 999999999999)", 0, out_of_range),
        task("(task 1 4 4 1000000000000)", 0, malformed),
        task("(task 1 4 4 01)", 1, malformed),
        task("(task 1 4 4 00)", 0, malformed),
        task("(task 1 4 4 1 1)", 1, malformed),
        task("(task 1 4)", 0, malformed),
        task("(task 1 4  4)", 0, malformed),
        task("(task 1 4 4 )", 0, malformed),
        task("(task 1 4 4  1)", 1, malformed),
        task("(task 1 4 4 1 )", 1, malformed),
        task("(task 1 4 4 -1)", 0, malformed),
        task("(task 1 4 4 1", 1, malformed),
        task("(task 1 4 4 (1))", 1, malformed),
        task("(work 1 4 4 1)", 1, malformed),
        task("(task 65 4 4 1)", 1, out_of_range),
        task("(task 1 1000000001 4 1)", 1, out_of_range),
        task("(task 1 4 1000000001 1)", 1, out_of_range),
        task("(task 2 4 4 1)", 1, misplaced),
        task("(task 2 4 4 0)", 0, out_of_range),
    ]
}

/// Lines that are no task lines, and a task line that is not allowed there or lacks its LF.
fn on_other_lines() -> Vec<Known> {
    let board = "(board (blue 1 9) (red 1 9))\n";
    let tasks = format!("{board}(task 1 4 4)\n(task 2 3 3)\n");
    let paper = "(run 1 1 0)\n(run 2 1 4)\n(claim 7 2 0)\n";
    let file = format!("{tasks}(file 1 2 2 5)\n");
    let file_with_work = format!("{tasks}(file 1 2 2 5 1)\n");
    let board_with_work = "(board (blue 1 9 1) (red 1 9))\n(task 1 4 4)\n";
    let late = format!("{file}(task 3 1 1 1)\n");
    let unended = format!("{board}(task 1 4 4 1)");
    let longer_run = paper.replace("(run 2 1 4)", "(run 2 1 4 1)");
    vec![
        kept("no W", &file, paper, marked(7, 2, 0)),
        kept("a file", &file_with_work, paper, refused(2, 4)),
        kept("a board", board_with_work, paper, refused(2, 1)),
        kept("a run", &file, &longer_run, refused(12, 2)),
        known("behind a file", &late, paper, 5, refused(4, 5)),
        known("without its LF", &unended, paper, 2, refused(2, 2)),
    ]
}

/// One or two tasks with a W of 5 and a run time of 4, on a board of two blue processors and a red one.
fn fives(blue: u64, red: u64, tasks: u64) -> String {
    let board = format!("(board (blue 2 {blue}) (red 1 {red}))\n");
    let lines = (1..=tasks).map(|i| format!("(task {i} 4 4 5)\n"));
    board + &lines.collect::<String>()
}

/// When W is held, and in which memory.
fn held() -> Vec<Known> {
    let (one, on_red) = (
        "(run 1 1 7)\n(claim 11 5 0)\n",
        "(run 1 3 7)\n(claim 11 0 5)\n",
    );
    let in_a_row = "(run 1 1 0)\n(run 2 2 4)\n(claim 8 5 0)\n";
    let one_tick_sooner = "(run 1 1 0)\n(run 2 2 3)\n(claim 7 10 0)\n";
    let at_once = "(run 1 1 0)\n(run 2 3 0)\n(claim 4 5 5)\n";
    let untrue = "(run 1 1 7)\n(claim 11 0 0)\n";
    let two = fives(5, 5, 2);
    vec![
        known(
            "a W at the limit",
            &fives(5, 0, 1),
            one,
            2,
            marked(11, 5, 0),
        ),
        known(
            "a W over the limit",
            &fives(4, 9, 1),
            one,
            2,
            refused(17, 7),
        ),
        known("on red", &fives(0, 5, 1), on_red, 2, marked(11, 0, 5)),
        known("over it on red", &fives(9, 4, 1), on_red, 2, refused(17, 7)),
        known(
            "a claim without W",
            &fives(9, 9, 1),
            untrue,
            2,
            refused(18, 0),
        ),
        known("one behind the other", &two, in_a_row, 2, marked(8, 5, 0)),
        known("sooner by a tick", &two, one_tick_sooner, 2, refused(17, 3)),
        known("in two memories", &two, at_once, 2, marked(4, 5, 5)),
    ]
}

/// Two relays with a W of 3, and limits of 5.
const RELAYS: &str = "(board (blue 2 5) (red 1 5))\n(task 1 0 0 3)\n(task 2 0 0 3)\n";
const A_TICK_LATER: &str = "(run 1 1 0)\n(run 2 1 1)\n(claim 1 3 0)\n";
const AT_ONE_TICK: &str = "(run 1 1 0)\n(run 2 2 0)\n(claim 0 6 0)\n";

/// A run of 2 ticks and a relay, each with a W of 3, and limits of 5.
const BESIDE: &str = "(board (blue 2 5) (red 1 5))\n(task 1 2 2 3)\n(task 2 0 0 3)\n";
const AT_FINISH: &str = "(run 1 1 0)\n(run 2 1 2)\n(claim 2 3 0)\n";

/// A relay with a W of 3 at the span of a run without W.
fn at_span(limit: u64) -> String {
    format!("(board (blue 1 {limit}) (red 1 0))\n(task 1 2 2)\n(task 2 0 0 3)\n")
}

/// A relay that reads 2, makes 1 and has a W of 3.
fn reading(limit: u64) -> String {
    let job = "(task 1 2 2)\n(task 2 0 0 3)\n(task 3 1 1)\n(file 1 2 2 1)\n(file 2 3 1 1)\n";
    format!("(board (blue 1 {limit}) (red 1 0))\n{job}")
}
const READ: &str = "(run 1 1 0)\n(run 2 1 2)\n(run 3 1 2)\n(claim 3 6 0)\n";

/// The W of a relay at s is held until s + 1.
fn relays() -> Vec<Known> {
    let one_processor = "(run 1 1 0)\n(run 2 1 0)\n(claim 0 6 0)\n";
    let two_memories = "(run 1 1 0)\n(run 2 3 0)\n(claim 0 3 3)\n";
    let at_start = "(run 1 1 0)\n(run 2 1 0)\n(claim 2 6 0)\n";
    let before_start = "(run 1 1 1)\n(run 2 1 0)\n(claim 3 3 0)\n";
    let meanwhile = "(run 1 1 0)\n(run 2 2 1)\n(claim 2 6 0)\n";
    let inside = "(run 1 1 0)\n(run 2 1 1)\n(claim 2 6 0)\n";
    let (over, span) = (refused(17, 0), marked(2, 3, 0));
    vec![
        known("two relays", RELAYS, AT_ONE_TICK, 2, over),
        known("on one processor", RELAYS, one_processor, 2, over),
        known("a tick later", RELAYS, A_TICK_LATER, 2, marked(1, 3, 0)),
        known("in two memories", RELAYS, two_memories, 2, marked(0, 3, 3)),
        known("at a run's finish", BESIDE, AT_FINISH, 2, span),
        known("at a run's start", BESIDE, at_start, 2, over),
        known("a tick before it", BESIDE, before_start, 2, marked(3, 3, 0)),
        known("during a run", BESIDE, meanwhile, 2, refused(17, 1)),
        known("inside a run", BESIDE, inside, 2, refused(15, 1)),
        known("at the span", &at_span(3), AT_FINISH, 3, span),
        known(
            "over at the span",
            &at_span(2),
            AT_FINISH,
            3,
            refused(17, 2),
        ),
        known("with its files", &reading(6), READ, 3, marked(3, 6, 0)),
        known("over with them", &reading(5), READ, 3, refused(17, 2)),
    ]
}

/// A file of size 2, which takes 5 ticks to move; its maker has a W of 1 and its reader one of 5.
fn moved(blue: u64, red: u64) -> String {
    let job = "(task 1 4 4 1)\n(task 2 3 3 5)\n(file 1 2 2 5)\n";
    format!("(board (blue 1 {blue}) (red 1 {red}))\n{job}")
}
const MOVE: &str = "(run 1 1 0)\n(run 2 2 9)\n(move 1 2 4)\n(claim 12 3 7)\n";

/// A maker with a W over the limit.
const MAKER: &str = "(board (blue 1 2) (red 1 9))\n(task 1 4 4 3)\n(task 2 3 3)\n(file 1 2 2 5)\n";
const EARLY: &str = "(run 1 1 0)\n(run 2 2 8)\n(move 1 2 4)\n(claim 11 5 2)\n";

/// W beside files: a moved file is in the reader's memory before the reader's W is.
fn beside_files() -> Vec<Known> {
    let waiting = "(run 1 1 0)\n(run 2 2 12)\n(move 1 2 4)\n(claim 15 3 7)\n";
    let unmoved = "(run 1 1 0)\n(run 2 1 4)\n(claim 7 7 0)\n";
    let shared = "(run 1 1 0)\n(run 2 1 3)\n(claim 6 5 0)\n";
    vec![
        known("a moved file", &moved(3, 7), MOVE, 2, marked(12, 3, 7)),
        known("over for the reader", &moved(3, 6), MOVE, 2, refused(17, 9)),
        known("over for the maker", &moved(2, 7), MOVE, 2, refused(17, 0)),
        known("a late reader", &moved(3, 6), waiting, 2, refused(17, 12)),
        known("an unmoved file", &moved(7, 0), unmoved, 2, marked(7, 7, 0)),
        known("over, unmoved", &moved(6, 0), unmoved, 2, refused(17, 4)),
        known("15 and over", MAKER, shared, 2, refused(15, 1)),
        known("16 and over", MAKER, EARLY, 2, refused(16, 2)),
    ]
}

/// All marks.
pub fn marks() -> Vec<Known> {
    let mut all = written();
    all.extend(on_other_lines());
    all.extend(held());
    all.extend(relays());
    all.extend(beside_files());
    all
}

impl Known {
    /// Holds a marker by some rules against the texts.
    pub fn hold(
        &self,
        rules: Rules,
        mark: impl Fn(&[u8], &[u8]) -> [u64; 5],
    ) -> Result<(), String> {
        let due = if rules == PRESENT {
            self.now
        } else {
            self.before
        };
        let got = mark(self.sheet.as_bytes(), self.paper.as_bytes());
        if got == due {
            return Ok(());
        }
        Err(format!(
            "'{}' is marked {got:?} by {rules:?}, wanted {due:?}\nsheet:\n{}paper:\n{}",
            self.name, self.sheet, self.paper
        ))
    }
}

/// A W over both limits, over that of the faster processor, and over what a file leaves.
fn unfit() -> Vec<plans::Worked> {
    let alone = |blue, red| format!("(board (blue 1 {blue}) (red 1 {red}))\n(task 1 2 3 5)\n");
    let behind = "(board (blue 1 4) (red 1 4))\n(task 1 1 1)\n(task 2 1 1 3)\n(file 1 2 2 1)\n";
    let on_blue = || over_limit("(run 1 1 0)\n(claim 2 5 0)\n", 0);
    let on_red = || accepted("(run 1 2 0)\n(claim 3 0 5)\n");
    let unfit_behind = || over_limit("(run 1 1 0)\n(run 2 1 1)\n(claim 2 5 0)\n", 1);
    let stuck = || (2, Stuck(0));
    vec![
        worked(
            "a W over both limits",
            &alone(4, 4),
            [(2, on_blue()), stuck(), (2, on_blue()), stuck()],
        ),
        worked(
            "a W over the blue limit",
            &alone(4, 5),
            [(2, on_blue()), (2, on_red()), (2, on_blue()), (2, on_red())],
        ),
        worked(
            "a W that a file leaves no room for",
            behind,
            [
                (4, unfit_behind()),
                (4, Stuck(1)),
                (4, unfit_behind()),
                (4, Stuck(1)),
            ],
        ),
    ]
}

/// Two tasks with a W of 3 on two blue processors: with limits of all W at once, and with a limit for one at a time.
fn one_at_a_time() -> Vec<plans::Worked> {
    let sheet = |limit| {
        format!("(board (blue 2 {limit}) (red 1 {limit}))\n(task 1 2 9 3)\n(task 2 2 9 3)\n")
    };
    const TOGETHER: &str = "(run 1 1 0)\n(run 2 2 0)\n(claim 2 6 0)\n";
    let together = || accepted(TOGETHER);
    let over = || over_limit(TOGETHER, 0);
    let waits = || accepted("(run 1 1 0)\n(run 2 1 2)\n(claim 4 3 0)\n");
    vec![
        worked(
            "limits of all W",
            &sheet(6),
            [
                (4, together()),
                (4, together()),
                (6, together()),
                (6, together()),
            ],
        ),
        worked(
            "limits of all W, less one block",
            &sheet(5),
            [(4, over()), (4, waits()), (6, over()), (6, waits())],
        ),
    ]
}

/// A file that fits into red by start 4; with the W of its reader it does not by start 3.
fn by_start_4() -> plans::Worked {
    let plain = || over_limit("(run 1 1 0)\n(run 2 2 2)\n(move 1 2 1)\n(claim 3 2 5)\n", 2);
    let aware = || accepted("(run 1 1 0)\n(run 2 1 1)\n(claim 10 5 0)\n");
    worked(
        "a W that fits by start 4 and not by start 3",
        "(board (blue 1 9) (red 1 4))\n(task 1 1 9)\n(task 2 9 1 3)\n(file 1 2 2 1)\n",
        [(4, plain()), (4, aware()), (4, plain()), (4, aware())],
    )
}

/// A file that moves beside the W of another run, for whose finish the reader waits, since it has a W too.
fn moved_before_work() -> plans::Worked {
    let heft = "(run 1 2 0)\n(run 2 1 0)\n(run 3 3 2)\n(move 2 3 1)\n(claim 4 2 7)\n";
    let mem_heft = "(run 1 2 0)\n(run 2 1 0)\n(run 3 2 4)\n(move 2 3 3)\n(claim 5 2 5)\n";
    let min_min = "(run 1 3 0)\n(run 2 1 0)\n(run 3 2 2)\n(move 2 3 1)\n(claim 4 2 7)\n";
    let mem_min_min = "(run 1 2 3)\n(run 2 1 0)\n(run 3 2 2)\n(move 2 3 1)\n(claim 7 2 4)\n";
    worked(
        "a file moved before its reader's W is held",
        "(board (blue 1 9) (red 2 5))\n(task 1 9 4 3)\n(task 2 1 9)\n(task 3 9 1 2)\n(file 2 3 2 1)\n",
        [
            (6, over_limit(heft, 2)),
            (6, accepted(mem_heft)),
            (10, over_limit(min_min, 2)),
            (10, accepted(mem_min_min)),
        ],
    )
}

/// Two relays, of which the second waits a tick.
fn planned_relays() -> plans::Worked {
    let plain = || over_limit("(run 1 1 0)\n(run 2 1 0)\n(claim 0 6 0)\n", 0);
    let aware = || accepted("(run 1 1 0)\n(run 2 1 1)\n(claim 1 3 0)\n");
    worked(
        "two relays with W",
        "(board (blue 1 3) (red 1 0))\n(task 1 0 0 3)\n(task 2 0 0 3)\n",
        [(4, plain()), (4, aware()), (6, plain()), (6, aware())],
    )
}

/// All plans.
pub fn plans() -> Vec<plans::Worked> {
    let mut all = unfit();
    all.extend(one_at_a_time());
    all.extend([by_start_4(), moved_before_work(), planned_relays()]);
    all
}

/// The W of a relay: a step at s + 1, though no processor runs and no file is held.
fn relay_traces() -> Vec<traces::Worked> {
    let alone = "(board (blue 1 3) (red 1 2))\n(task 1 0 0 3)\n";
    const SHOWN: &[Step] = &[(0, &[], &[]), (1, &[], &[]), (2, &[], &[])];
    const BEHIND: &[Step] = &[(0, &[1], &[]), (2, &[], &[]), (3, &[], &[])];
    const FILES: &[Step] = &[
        (0, &[1, 0], &[1, 0]),
        (2, &[3, 0], &[1, 1]),
        (3, &[0, 0], &[0, 0]),
    ];
    vec![
        trace(
            "a relay with W",
            alone,
            "(run 1 1 0)\n(claim 0 3 0)\n",
            &SHOWN[..2],
            Span(0),
        ),
        trace(
            "over the limit",
            alone,
            "(run 1 2 0)\n(claim 0 0 3)\n",
            &[],
            Stopped(17, 0),
        ),
        trace("two relays", RELAYS, AT_ONE_TICK, &[], Stopped(17, 0)),
        trace("a tick later", RELAYS, A_TICK_LATER, SHOWN, Span(1)),
        trace("at a run's finish", BESIDE, AT_FINISH, BEHIND, Span(2)),
        trace("at the span", &at_span(3), AT_FINISH, BEHIND, Span(2)),
        trace(
            "over at the span",
            &at_span(2),
            AT_FINISH,
            &BEHIND[..1],
            Stopped(17, 2),
        ),
        trace("with its files", &reading(6), READ, FILES, Span(3)),
        trace(
            "over with them",
            &reading(5),
            READ,
            &FILES[..1],
            Stopped(17, 2),
        ),
    ]
}

/// The W of a run that takes time gives no ticks of its own.
fn run_traces() -> Vec<traces::Worked> {
    let alone = "(board (blue 1 0) (red 1 2))\n(task 1 3 3 2)\n";
    let early = "(board (blue 2 3) (red 1 9))\n(task 1 4 4)\n(task 2 2 2 2)\n(file 1 2 2 1)\n";
    const ALONE: &[Step] = &[(5, &[0, 1], &[]), (8, &[0, 0], &[])];
    const STEPS: &[Step] = &[
        (0, &[1, 0], &[1]),
        (4, &[0, 0], &[3]),
        (9, &[0, 2], &[2]),
        (12, &[0, 0], &[0]),
    ];
    vec![
        trace(
            "a run with W",
            alone,
            "(run 1 2 5)\n(claim 8 0 2)\n",
            ALONE,
            Span(8),
        ),
        trace("a moved file", &moved(3, 7), MOVE, STEPS, Span(12)),
        trace(
            "over for the reader",
            &moved(3, 6),
            MOVE,
            &STEPS[..2],
            Stopped(17, 9),
        ),
        trace(
            "over for the maker",
            &moved(2, 7),
            MOVE,
            &[],
            Stopped(17, 0),
        ),
        trace("17 for W, then 16", MAKER, EARLY, &[], Stopped(17, 0)),
        trace(
            "16 and 17 for W at one tick",
            early,
            "(run 1 1 0)\n(run 2 2 2)\n(claim 4 4 0)\n",
            &STEPS[..1],
            Stopped(16, 2),
        ),
    ]
}

/// All traces.
pub fn traces() -> Vec<traces::Worked> {
    let mut all = relay_traces();
    all.extend(run_traces());
    all
}

#[cfg(test)]
mod tests {
    use super::*;
    use crate::plain::by_reference;
    use crate::reference::{mark, mark_by, plan_by, PLANNERS, WITHOUT_WORK};
    use crate::simulation::{simulate, Trace};

    #[test]
    fn by_the_rules_before_the_order() {
        for texts in marks() {
            let before = |s: &[u8], p: &[u8]| mark_by(WITHOUT_WORK, s, p);
            texts.hold(WITHOUT_WORK, before).unwrap();
        }
        for sheet in plans() {
            for planner in PLANNERS {
                assert_eq!(plan_by(WITHOUT_WORK, planner, sheet.sheet()).number, 2);
            }
        }
    }

    #[test]
    fn by_the_present_rules() {
        for texts in marks() {
            texts.hold(PRESENT, mark).unwrap();
        }
        for sheet in plans() {
            sheet.hold(by_reference, mark).unwrap();
        }
        for trace in traces() {
            trace.hold(simulate).unwrap();
        }
    }

    #[test]
    fn tick_by_tick() {
        for trace in traces() {
            let read = Trace::read(trace.sheet.as_bytes(), trace.paper.as_bytes());
            read.ok().expect("sound texts").check().unwrap();
        }
    }
}
