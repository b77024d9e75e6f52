//! What Order 4 promises of the plain planners, and of the memory-aware ones beside them, looked at in the library's answers on each sheet
//! and on the same sheet with other limits. Span, peaks and the first instant over a limit are counted from the lines of a plan by code of
//! their own; the sheet is read by reference.rs. How often each answer was reached.

use crate::generate::{ample, sizes, write_sheet, Random};
use crate::library::{self, compared, Answered};
use crate::plans::plans;
use crate::reference::{self, read_sheet, Heuristic, Memory, Planned, Planner, Sheet, MAX_LIMIT};
use std::collections::BTreeMap;
use std::fmt;
use Heuristic::{Heft, MinMin};
use Memory::{Aware, Plain};

/// A file or a W held in a memory (0 blue, 1 red), from a tick until another, which is not included.
struct Hold {
    memory: usize,
    size: i64,
    from: i64,
    until: i64,
}

/// What the lines of a plan say: processor and start of each run, start of each move, and the claim.
#[derive(Default)]
struct Lines {
    runs: Vec<(i64, i64)>,
    moves: BTreeMap<(i64, i64), i64>,
    claim: [i64; 3],
}

impl Lines {
    fn read(text: &[u8]) -> Lines {
        let mut all = Lines::default();
        for line in std::str::from_utf8(text).expect("ASCII").lines() {
            let words = line.split(|c: char| !c.is_ascii_digit());
            let numbers: Vec<i64> = words.filter_map(|w| w.parse().ok()).collect();
            let [a, b, c] = numbers[..] else {
                panic!("three numbers a line: {line}")
            };
            if line.starts_with("(run ") {
                all.runs.push((b, c));
            } else if line.starts_with("(move ") {
                all.moves.insert((a, b), c);
            } else {
                all.claim = [a, b, c];
            }
        }
        all
    }

    fn span(&self, sheet: &Sheet) -> i64 {
        let runs = self.runs.iter().zip(&sheet.tasks);
        let finishes = runs.map(|((p, s), task)| s + task.times[memory(sheet, *p)]);
        finishes.max().expect("a task")
    }

    /// The marker's answer that is due with some limits: accepted, or 17 at the first instant over a limit.
    fn due_mark(&self, sheet: &Sheet, limits: [i64; 2]) -> [u64; 5] {
        let holds = self.holds(sheet, 1);
        let [blue, red] = peaks(&holds);
        let due = match first_over(&holds, limits) {
            None => [0, 0, self.span(sheet), blue, red],
            Some(tick) => [17, tick, 0, 0, 0],
        };
        due.map(|n| n as u64)
    }

    /// Whether the first instant over a limit is another, or none, by the hold rule before Order 1.
    fn by_relay(&self, sheet: &Sheet) -> bool {
        let [now, before] = [1, 0].map(|least| first_over(&self.holds(sheet, least), sheet.limits));
        now != before
    }

    /// The holds of all files and of each W. What a run reads is held until `least` ticks past its start at least: 1 by Order 1, 0 by the
    /// rule before it. Its W is held for a tick at least.
    fn holds(&self, sheet: &Sheet, least: i64) -> Vec<Hold> {
        let mut all = vec![];
        for f in &sheet.files {
            let ((maker, made), (reader, read)) = (self.runs[f.maker], self.runs[f.reader]);
            let [home, away] = [maker, reader].map(|p| memory(sheet, p));
            let until = read + sheet.tasks[f.reader].times[away].max(least);
            let mut hold = |memory, from, until| {
                all.push(Hold {
                    memory,
                    size: f.size,
                    from,
                    until,
                })
            };
            match self.moves.get(&(f.maker as i64 + 1, f.reader as i64 + 1)) {
                None => hold(home, made, until),
                Some(t) => {
                    hold(home, made, t + f.time);
                    hold(away, *t, until);
                }
            }
        }
        for ((processor, start), task) in self.runs.iter().zip(&sheet.tasks) {
            let memory = memory(sheet, *processor);
            if task.work > 0 {
                all.push(Hold {
                    memory,
                    size: task.work,
                    from: *start,
                    until: start + task.times[memory].max(1),
                });
            }
        }
        all
    }
}

/// The memory of a processor.
fn memory(sheet: &Sheet, processor: i64) -> usize {
    usize::from(processor > sheet.processors[0])
}

/// The total in the memory of a hold at the tick at which the hold starts. At no other tick does a total rise.
fn total_at_start(holds: &[Hold], of: &Hold) -> i64 {
    let here = holds.iter().filter(|s| s.memory == of.memory);
    let now = here.filter(|s| s.from <= of.from && of.from < s.until);
    now.map(|s| s.size).sum()
}

fn peaks(holds: &[Hold]) -> [i64; 2] {
    [0, 1].map(|memory| {
        let here = holds.iter().filter(|s| s.memory == memory);
        here.map(|s| total_at_start(holds, s)).max().unwrap_or(0)
    })
}

/// The first instant at which a memory is over its limit.
fn first_over(holds: &[Hold], limits: [i64; 2]) -> Option<i64> {
    let over = |s: &&Hold| total_at_start(holds, s) > limits[s.memory];
    holds.iter().filter(over).map(|s| s.from).min()
}

/// What the memory-aware planner did where its plain parent planned.
#[derive(Clone, Copy, Default)]
struct Beside {
    same: u64,
    other: u64,
    stuck: u64,
}

impl Beside {
    fn count(&mut self, plain: &Answered, aware: &Answered) {
        if aware.answer.number != 0 {
            self.stuck += 1;
        } else if aware.text() == plain.text() {
            self.same += 1;
        } else {
            self.other += 1;
        }
    }
}

impl fmt::Display for Beside {
    fn fmt(&self, f: &mut fmt::Formatter) -> fmt::Result {
        let Beside { same, other, stuck } = self;
        write!(
            f,
            "{same} the same timetable, {other} another, {stuck} stuck"
        )
    }
}

/// What was counted of one heuristic's planners.
#[derive(Clone, Copy, Default)]
struct Row {
    plans: u64,
    accepted: u64,
    /// plans refused by 17, and of these at another instant, or not at all, by the hold rule before Order 1
    over: u64,
    by_relay: u64,
    /// on the sheet as it is
    own: Beside,
    /// calls with limits of the sum of all sizes and all W or more, of these on sheets with W, and of the plain planner with limits of 0
    ample: u64,
    ample_work: u64,
    zero: u64,
    /// with that sum less one block in one memory; on sheets with W, with limits of at least the sum of all sizes, but less than with all W;
    /// and with the plain plan's peaks as limits
    less: Beside,
    sizes_alone: Beside,
    at_peaks: Beside,
    /// plain plans refused by 17 with one block less than a peak
    below_peak: u64,
}

/// What was counted of each heuristic's planners, and the sheets with known plans.
#[derive(Default)]
pub struct Counts {
    draws: Random,
    rows: [Row; 2],
    worked: u64,
}

/// The answers of a heuristic's two planners to a sheet, and the marker's to what they wrote.
pub struct Pair<'a> {
    pub heuristic: Heuristic,
    pub plain: &'a Answered,
    pub aware: &'a Answered,
    pub plain_mark: [u64; 5],
    pub aware_mark: [u64; 5],
}

impl Pair<'_> {
    /// The plain planner's number, trials and claim, and the marker's answers to both plans; an error where one of them is not due.
    fn check(&self, sheet: &Sheet) -> Result<(), String> {
        let (number, trials) = (self.plain.answer.number, self.plain.answer.trials);
        let n = sheet.tasks.len() as u64;
        let counted = match self.heuristic {
            Heft => trials == 2 * n,
            MinMin => (2 * n..=n * (n + 1)).contains(&trials),
        };
        if number != 0 || !counted {
            return Err(format!(
                "a plain planner answers {number} with {trials} trials on {n} tasks"
            ));
        }
        let lines = Lines::read(self.plain.text());
        let [_, _, true_claim @ ..] = lines.due_mark(sheet, [MAX_LIMIT; 2]);
        let due = lines.due_mark(sheet, sheet.limits);
        if lines.claim.map(|n| n as u64) != true_claim || self.plain_mark != due {
            return Err(format!(
                "a plain plan has span and peaks {true_claim:?}, and is due to be marked {due:?}: it claims {:?} and is marked {:?}",
                lines.claim, self.plain_mark
            ));
        }
        if self.aware.answer.number == 0 && self.aware_mark[0] != 0 {
            return Err(format!(
                "a memory-aware plan is marked {:?}",
                self.aware_mark
            ));
        }
        Ok(())
    }

    /// With other limits these planners give the plain one's answer and buffer, in a buffer that is long enough and in one that is too
    /// short. The number of calls.
    fn same_with(
        &self,
        r: &mut Random,
        sheet: &Sheet,
        limits: [i64; 2],
        memories: &[Memory],
    ) -> Result<u64, String> {
        let text = with_limits(sheet, limits);
        let parent = Planned {
            number: 0,
            place: self.plain.answer.place,
            trials: self.plain.answer.trials,
            met: Default::default(),
            text: self.plain.text().to_vec(),
        };
        let needed = parent.text.len();
        let rooms = [needed + r.below(9), needed - 1 - r.below(needed)];
        for room in rooms {
            for memory in memories {
                compared(self.heuristic.with(*memory), &text, &parent, room)
                    .map_err(|e| format!("limits {limits:?}: {e}"))?;
            }
        }
        Ok((rooms.len() * memories.len()) as u64)
    }

    /// The memory-aware planner with other limits.
    fn aware_with(&self, sheet: &Sheet, limits: [i64; 2]) -> Result<Answered, String> {
        let text = with_limits(sheet, limits);
        let planner = self.heuristic.with(Aware);
        let want = reference::plan(planner, &text);
        compared(planner, &text, &want, want.text.len())
    }

    /// The library's marker on the plain plan with other limits; its number.
    fn marked_with(&self, sheet: &Sheet, limits: [i64; 2]) -> Result<u64, String> {
        let mark = library::mark(&with_limits(sheet, limits), self.plain.text());
        let due = Lines::read(self.plain.text()).due_mark(sheet, limits);
        if mark == due {
            return Ok(mark[0]);
        }
        Err(format!(
            "limits {limits:?}: marked {mark:?}, wanted {due:?}"
        ))
    }
}

/// The text of a sheet with other limits.
fn with_limits(sheet: &Sheet, limits: [i64; 2]) -> Vec<u8> {
    let other = Sheet {
        limits,
        ..sheet.clone()
    };
    write_sheet(&other).into_bytes()
}

impl Counts {
    /// A sheet and the answers to it; an error where a promise is not kept. Of a refused sheet none is made.
    pub fn planned(&mut self, sheet: &[u8], pair: &Pair) -> Result<(), String> {
        let Ok(sheet) = read_sheet(sheet) else {
            return Ok(());
        };
        pair.check(&sheet)?;
        let row = &mut self.rows[pair.heuristic as usize];
        row.plans += 1;
        row.accepted += u64::from(pair.plain_mark[0] == 0);
        row.over += u64::from(pair.plain_mark[0] == 17);
        row.by_relay += u64::from(Lines::read(pair.plain.text()).by_relay(&sheet));
        row.own.count(pair.plain, pair.aware);
        row.other_limits(&mut self.draws, &sheet, pair)?;
        row.peaks_as_limits(&sheet, pair)
    }

    /// Holds the library and reference.rs against the known plans.
    pub fn by_hand(&mut self) -> Result<(), String> {
        for sheet in plans() {
            sheet.hold(library::plan, library::mark)?;
            sheet.hold(by_reference, reference::mark)?;
            self.worked += 1;
        }
        Ok(())
    }

    /// The names of each heuristic's planners, with what was counted.
    fn named(&self) -> [(&'static str, &'static str, &Row); 2] {
        let [heft, min_min] = &self.rows;
        [("HEFT", "MemHEFT", heft), ("MINMIN", "MemMinMin", min_min)]
    }

    pub fn print(&self) {
        for (plain, aware, row) in self.named() {
            println!(
                "{plain}: {} plans, {} accepted, refused by 17: {}, of these for what a relay reads: {}; {aware} on these sheets: {}; \
                 with limits of the sum of all sizes and all W or more: {} calls, with W: {}, no difference; \
                 of 0: {} calls of {plain}, no difference; of the sum, less one block in a memory: {}; \
                 of at least the sum of all sizes, but less than with all W: {}; of the plan's peaks: {}; \
                 plans refused by 17 with one block less than a peak: {}",
                row.plans,
                row.accepted,
                row.over,
                row.by_relay,
                row.own,
                row.ample,
                row.ample_work,
                row.zero,
                row.less,
                row.sizes_alone,
                row.at_peaks,
                row.below_peak
            );
        }
        println!("sheets with known plans: {}", self.worked);
    }

    /// What was never reached: a line each.
    pub fn faults(&self) -> Vec<String> {
        let mut all = vec![];
        for (plain, _, row) in self.named() {
            let never = row.due().into_iter().filter(|r| r.1 == 0);
            all.extend(never.map(|r| format!("{plain}, {}: none", r.0)));
        }
        if self.worked == 0 {
            all.push("no sheet with known plans".to_string());
        }
        all
    }
}

impl Row {
    fn other_limits(&mut self, r: &mut Random, sheet: &Sheet, pair: &Pair) -> Result<(), String> {
        let (total, files) = (ample(sheet), sizes(sheet));
        let above = |r: &mut Random| match r.below(4) {
            0 => MAX_LIMIT,
            _ => total + r.between(1, 3),
        };
        for limits in [[total; 2], [above(r), above(r)]] {
            let calls = pair.same_with(r, sheet, limits, &[Aware, Plain])?;
            self.ample += calls;
            self.ample_work += if total > files { calls } else { 0 };
        }
        self.zero += pair.same_with(r, sheet, [0; 2], &[Plain])?;
        if total > 0 {
            let mut limits = [total; 2];
            limits[r.below(2)] -= 1;
            let aware = pair.aware_with(sheet, limits)?;
            self.less.count(pair.plain, &aware);
        }
        if total > files {
            let limit = if r.one_in(2) {
                files
            } else {
                r.between(files, total - 1)
            };
            let aware = pair.aware_with(sheet, [limit; 2])?;
            self.sizes_alone.count(pair.plain, &aware);
        }
        Ok(())
    }

    /// The plain plan's peaks as limits, and one block less in a memory.
    fn peaks_as_limits(&mut self, sheet: &Sheet, pair: &Pair) -> Result<(), String> {
        let [_, blue, red] = Lines::read(pair.plain.text()).claim;
        pair.marked_with(sheet, [blue, red])?;
        let aware = pair.aware_with(sheet, [blue, red])?;
        self.at_peaks.count(pair.plain, &aware);
        for limits in [[blue - 1, red], [blue, red - 1]] {
            if !limits.contains(&-1) {
                self.below_peak += u64::from(pair.marked_with(sheet, limits)? == 17);
            }
        }
        Ok(())
    }

    /// What must have been reached.
    fn due(&self) -> [(&'static str, u64); 15] {
        let (own, at_peaks) = (self.own, self.at_peaks);
        let (less, sizes_alone) = (self.less, self.sizes_alone);
        [
            ("plans accepted", self.accepted),
            ("plans refused by 17", self.over),
            ("plans refused by 17 for what a relay reads", self.by_relay),
            ("the same plan by the memory-aware planner", own.same),
            ("another plan by the memory-aware planner", own.other),
            ("the memory-aware planner stuck", own.stuck),
            ("limits of the sum of sizes and W or more", self.ample),
            ("the same on sheets with W", self.ample_work),
            ("limits of 0", self.zero),
            ("the sum less one block, another plan", less.other),
            ("the sizes without all W, another plan", sizes_alone.other),
            ("the sizes without all W, stuck", sizes_alone.stuck),
            ("limits of the peaks, the same plan", at_peaks.same),
            ("limits of the peaks, another plan", at_peaks.other),
            ("one block less than a peak, refused by 17", self.below_peak),
        ]
    }
}

/// What reference.rs answers, in a buffer of a length.
pub fn by_reference(planner: Planner, sheet: &[u8], room: usize) -> Answered {
    Answered::due(&reference::plan(planner, sheet), room)
}

#[cfg(test)]
mod tests {
    use super::*;
    use crate::generate;
    use frames::Answer;

    const SHEET: &[u8] = b"(board (blue 1 4) (red 1 6))\n(task 1 4 2)\n(task 2 3 5)\n(task 3 2 6)\n(file 1 2 2 1)\n(file 1 3 3 2)\n";
    const PLAN: &str =
        "(run 1 2 0)\n(run 2 1 3)\n(run 3 1 6)\n(move 1 2 2)\n(move 1 3 4)\n(claim 8 5 5)\n";
    const OVER: [u64; 5] = [17, 4, 0, 0, 0];
    const STUCK: Answered = Answered {
        answer: Answer {
            number: 21,
            place: 0,
            trials: 2,
        },
        buffer: vec![],
    };

    /// Whether an answer passes on the course example with a blue limit of 4.
    fn passes(heuristic: Heuristic, number: u64, trials: u64, text: &str, mark: [u64; 5]) -> bool {
        let answered = Answered {
            answer: Answer {
                number,
                place: text.len() as u64,
                trials,
            },
            buffer: text.as_bytes().to_vec(),
        };
        let pair = Pair {
            heuristic,
            plain: &answered,
            aware: &STUCK,
            plain_mark: mark,
            aware_mark: [0; 5],
        };
        pair.check(&read_sheet(SHEET).unwrap()).is_ok()
    }

    #[test]
    fn the_answers_due_alone_pass() {
        assert!(passes(Heft, 0, 6, PLAN, OVER));
        assert!(passes(MinMin, 0, 8, PLAN, OVER));
        for (heuristic, number, trials) in [
            (Heft, 0, 5),
            (Heft, 0, 7),
            (Heft, 21, 6),
            (MinMin, 0, 5),
            (MinMin, 0, 13),
            (MinMin, 21, 8),
        ] {
            assert!(!passes(heuristic, number, trials, PLAN, OVER));
        }
        for claim in ["9 5 5", "8 4 5", "8 5 4", "8 5 6"] {
            assert!(!passes(Heft, 0, 6, &PLAN.replace("8 5 5", claim), OVER));
        }
        for mark in [
            [0, 0, 8, 5, 5],
            [17, 3, 0, 0, 0],
            [16, 3, 0, 0, 0],
            [18, 0, 0, 0, 0],
        ] {
            assert!(!passes(Heft, 0, 6, PLAN, mark));
        }
    }

    /// A sheet by chance, with relays, half the time with W.
    fn drawn(r: &mut Random, tasks: usize) -> (String, Sheet) {
        let text = generate::sheet(r, tasks);
        let mut text = generate::with_relays(r, &text);
        if r.one_in(2) {
            text = generate::with_work(r, &text);
        }
        let sheet = read_sheet(text.as_bytes()).unwrap();
        (text, sheet)
    }

    /// What is counted from the lines is what the marker of reference.rs finds, with relays, W and tight limits too.
    #[test]
    fn counted_from_the_lines() {
        let mut r = Random(4);
        for _ in 0..300 {
            let (text, sheet) = drawn(&mut r, 7);
            let paper = reference::write_table(&sheet, &generate::table(&mut r, &sheet));
            let lines = Lines::read(paper.as_bytes());
            assert_eq!(
                reference::mark(text.as_bytes(), paper.as_bytes()),
                lines.due_mark(&sheet, sheet.limits),
                "{text}{paper}"
            );
        }
    }

    /// Order 4's promise, of reference.rs.
    #[test]
    fn ample_memory() {
        let mut r = Random(5);
        for number in 0..300 {
            let (_, sheet) = drawn(&mut r, 9);
            let text = with_limits(&sheet, [ample(&sheet) + number % 2; 2]);
            for heuristic in [Heft, MinMin] {
                let [plain, aware] =
                    [Plain, Aware].map(|memory| by_reference(heuristic.with(memory), &text, 2000));
                assert!(plain == aware && plain.answer.number == 0);
            }
        }
    }
}
