//! The same job in finer ticks. Where every time of a sheet is so many times as long and no task is a relay, the planners write the same
//! timetables with every start and the span so many times as great, after as many trials, and the marker says the same of them. (What a
//! relay reads is held until the next tick, however long a tick is, and so is its W.)

use crate::generate::finer;
use crate::library::{self, Answered};
use crate::reference::{Planner, Sheet, CURRENT, MAX_TEXT, PLANNERS};

/// The greatest number by which the times of a sheet can be multiplied.
pub fn most(sheet: &Sheet) -> i64 {
    let run = sheet.tasks.iter().flat_map(|t| t.times).max().unwrap_or(0);
    let moved = sheet.files.iter().map(|f| f.time).max().unwrap_or(0);
    (CURRENT.run_time / run.max(1)).min(CURRENT.move_time / moved.max(1))
}

/// A line of a timetable with its start or its span so many times as great.
fn stretched_line(line: &str, by: i64) -> String {
    let mut words: Vec<String> = line.split(' ').map(str::to_string).collect();
    let at = if line.starts_with("(claim ") { 1 } else { 3 };
    let number = words[at].trim_end_matches(')');
    let stretched = by * number.parse::<i64>().expect("a number");
    words[at] = words[at].replace(number, &stretched.to_string());
    words.join(" ") + "\n"
}

fn stretched(text: &[u8], by: i64) -> Vec<u8> {
    let text = std::str::from_utf8(text).expect("a timetable");
    let lines = text.lines().map(|line| stretched_line(line, by));
    lines.collect::<String>().into_bytes()
}

/// A mark with its span, or the instant that 17 names, so many times as great.
fn stretched_mark([number, place, span, blue, red]: [u64; 5], by: u64) -> [u64; 5] {
    let place = if number == 17 { place * by } else { place };
    [number, place, span * by, blue, red]
}

/// How often each answer was compared.
#[derive(Default)]
pub struct Counts {
    accepted: u64,
    over: u64,
    stuck: u64,
}

impl Counts {
    /// The planners on a sheet and on the same in finer ticks.
    pub fn planned(&mut self, sheet: &[u8], by: i64) -> Result<(), String> {
        let fine = finer(sheet, by);
        let plans = |planner: Planner| {
            let [coarse, fine] = [sheet, &fine].map(|s| library::plan(planner, s, MAX_TEXT));
            (coarse, fine)
        };
        for (coarse, got) in PLANNERS.map(plans) {
            let text = stretched(coarse.text(), by);
            let rest = |a: &Answered| {
                let place = if a.answer.number == 0 {
                    0
                } else {
                    a.answer.place
                };
                (a.answer.number, place, a.answer.trials)
            };
            let mark = stretched_mark(library::mark(sheet, coarse.text()), by as u64);
            let marked = library::mark(&fine, got.text());
            if got.text() != text || rest(&got) != rest(&coarse) || marked != mark {
                return Err(format!("planned otherwise with times {by} times as long"));
            }
            match (coarse.answer.number, mark[0]) {
                (0, 0) => self.accepted += 1,
                (0, 17) => self.over += 1,
                (21, _) => self.stuck += 1,
                other => return Err(format!("answered and marked by {other:?}")),
            }
        }
        Ok(())
    }

    fn rows(&self) -> [(&'static str, u64); 3] {
        [
            ("accepted", self.accepted),
            ("refused by 17", self.over),
            ("stuck", self.stuck),
        ]
    }

    pub fn print(&self) {
        let rows = self.rows().map(|(name, n)| format!("{name}: {n}"));
        println!("plans of the same job in finer ticks, {}", rows.join(", "));
    }

    /// What was never reached: a line each.
    pub fn faults(&self) -> Vec<String> {
        let rows = self.rows().into_iter().filter(|row| row.1 == 0);
        rows.map(|(name, _)| format!("plans of the same job in finer ticks, {name}: none"))
            .collect()
    }
}

#[cfg(test)]
mod tests {
    use super::*;
    use crate::reference::read_sheet;

    const COURSE: &[u8] = b"(board (blue 1 6) (red 1 6))\n(task 1 4 2)\n(task 2 3 5)\n(task 3 2 6)\n(file 1 2 2 1)\n(file 1 3 3 2)\n";

    /// Relays on blue: the second two wait for what the first two hold until the next tick.
    const RELAYS: &[u8] = b"(board (blue 1 2) (red 1 0))\n(task 1 0 9)\n(task 2 0 9)\n(task 3 0 9)\n(task 4 0 9)\n(file 1 2 2 1)\n(file 3 4 2 1)\n";

    #[test]
    fn lines() {
        let text = b"(run 1 2 3)\n(move 3 3 3)\n(claim 3 3 13)\n";
        let due = b"(run 1 2 3000)\n(move 3 3 3000)\n(claim 3000 3 13)\n";
        assert_eq!(stretched(text, 1000), due);
        assert_eq!(stretched_mark([17, 4, 0, 0, 0], 10), [17, 40, 0, 0, 0]);
        assert_eq!(stretched_mark([0, 0, 8, 5, 5], 10), [0, 0, 80, 5, 5]);
    }

    #[test]
    fn greatest_number() {
        assert_eq!(most(&read_sheet(COURSE).unwrap()), 1_000_000_000 / 6);
        assert_eq!(most(&read_sheet(RELAYS).unwrap()), 1_000_000_000 / 9);
    }

    /// One of these two waits for the other's W, which its memory holds until the finish.
    const WORK: &[u8] = b"(board (blue 2 5) (red 1 0))\n(task 1 2 9 3)\n(task 2 2 9 3)\n";

    #[test]
    fn course_example() {
        assert!(Counts::default().planned(COURSE, 1_000_000).is_ok());
    }

    #[test]
    fn waits_for_work() {
        let mut counts = Counts::default();
        counts.planned(WORK, 1_000_000).unwrap();
        assert_eq!((counts.accepted, counts.over, counts.stuck), (2, 2, 0));
    }

    /// With relays it does not hold, so the comparison can fail.
    #[test]
    fn relays_wait_one_tick() {
        assert!(Counts::default().planned(RELAYS, 1_000_000).is_err());
    }
}
