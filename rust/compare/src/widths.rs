//! What Order 5 promises of old papers and of the planners' timetables, looked at in the library's answers. Old papers keep their marks
//! except those refused for a number too long or too large: which these are is told from the refused line by code of its own, and the mark
//! by the former limits is that of reference.rs. A W may be written with the former limits too. How often each kind was reached.

use crate::edges::known;
use crate::library::{self, Answered};
use crate::reference::{
    self, mark_by, read_sheet, read_sheet_by, read_table, span, Rules, Sheet, Task, CURRENT,
    FORMER, MAX_SIZE, MAX_TASKS, MAX_WORK, SHEET_FORMS, TABLE_FORMS,
};
use std::collections::BTreeMap;

/// The former limits, with the present forms.
pub const NARROW: Rules = Rules {
    widths: FORMER,
    work: true,
};

/// Why a mark by the former limits is another now.
#[derive(Clone, Copy, Debug, PartialEq, Eq)]
enum Cause {
    /// a number of the sheet's line was too long
    LongOnSheet,
    /// a time was too large
    Large,
    /// a number of the timetable's line was too long
    LongInTable,
}
use Cause::{Large, LongInTable, LongOnSheet};

/// The causes in words, and the number that a line gets where a number of it is out of its range.
const CAUSES: [(Cause, &str, u64); 3] = [
    (LongOnSheet, "a number of the sheet too long", 3),
    (Large, "a time too large", 3),
    (LongInTable, "a number of the timetable too long", 13),
];

/// The marker's numbers.
pub const NUMBERS: [u64; 13] = [0, 1, 2, 3, 4, 11, 12, 13, 14, 15, 16, 17, 18];

/// A line, counted from 1, if the text has it with its LF; without the LF.
fn ended_line(text: &[u8], place: u64) -> Option<&[u8]> {
    let at = (place as usize).checked_sub(1)?;
    let line = text.split_inclusive(|b| *b == b'\n').nth(at)?;
    line.strip_suffix(b"\n")
}

/// Which of some forms a line is, whatever its numbers, and their digits.
pub fn form<'a>(line: &'a [u8], forms: &[&str]) -> Option<(usize, Vec<&'a [u8]>)> {
    let parts = |digits: bool| {
        let parts = line.split(move |b| b.is_ascii_digit() != digits);
        parts.filter(|p| !p.is_empty()).collect::<Vec<_>>()
    };
    let (words, numerals) = (parts(false), parts(true));
    let kind = forms.iter().position(|form| {
        let due = form.split('#').map(str::as_bytes);
        due.eq(words.iter().copied())
    })?;
    (numerals.len() + 1 == words.len()).then_some((kind, numerals))
}

/// Whether a line is one of the forms with numbers of up to the present digits and no leading zero, one of them longer than it could be.
fn too_long(line: &[u8], forms: &[&str]) -> bool {
    let Some((_, numerals)) = form(line, forms) else {
        return false;
    };
    let longest = longest_numeral(&numerals);
    longest.is_some_and(|n| FORMER.digits < n && n <= CURRENT.digits)
}

/// The digits of the longest numeral, if none has a leading zero.
pub fn longest_numeral(numerals: &[&[u8]]) -> Option<usize> {
    let zero = numerals.iter().any(|n| n.len() > 1 && n[0] == b'0');
    let longest = numerals.iter().map(|n| n.len()).max();
    longest.filter(|_| !zero)
}

/// The value of a numeral; one that is too long for the type is greater than each limit.
fn value(numeral: &[u8]) -> i64 {
    let digits = std::str::from_utf8(numeral).expect("digits");
    digits.parse().unwrap_or(i64::MAX)
}

/// Whether each number of a task or file line is in its present range, and a time over the former one.
fn too_large(line: &[u8]) -> bool {
    let Some((kind, numerals)) = form(line, &SHEET_FORMS) else {
        return false;
    };
    let numbers: Vec<i64> = numerals.iter().map(|n| value(n)).collect();
    let task = |i: i64| (1..=MAX_TASKS).contains(&i);
    match (kind, &numbers[..]) {
        (1 | 3, [i, b, r, work @ ..]) => {
            let greater = *b.max(r);
            let time = FORMER.run_time < greater && greater <= CURRENT.run_time;
            task(*i) && time && work.iter().all(|w| (1..=MAX_WORK).contains(w))
        }
        (2, [i, j, f, c]) => {
            let time = FORMER.move_time < *c && *c <= CURRENT.move_time;
            task(*i) && task(*j) && *f <= MAX_SIZE && time
        }
        _ => false,
    }
}

/// Why a mark by the former limits must be another now; None where it must stay.
fn cause(sheet: &[u8], paper: &[u8], former: [u64; 5]) -> Option<Cause> {
    let [number, place, ..] = former;
    let line = |text| ended_line(text, place);
    match number {
        2 => line(sheet)
            .filter(|l| too_long(l, &SHEET_FORMS))
            .map(|_| LongOnSheet),
        3 => line(sheet).filter(|l| too_large(l)).map(|_| Large),
        12 => line(paper)
            .filter(|l| too_long(l, &TABLE_FORMS))
            .map(|_| LongInTable),
        _ => None,
    }
}

/// Why a mark by the former limits is another now; an error where it is and must not be, or must be and is not.
fn judged(
    sheet: &[u8],
    paper: &[u8],
    former: [u64; 5],
    now: [u64; 5],
) -> Result<Option<Cause>, String> {
    let cause = cause(sheet, paper, former);
    if cause.is_some() == (former != now) {
        return Ok(cause);
    }
    Err(format!(
        "marked {now:?}, by the former limits {former:?}; due to be another: {cause:?}"
    ))
}

/// What became of marks that did not stay.
#[derive(Default)]
struct Changed {
    numbers: BTreeMap<u64, u64>,
    /// of these at the same line, for a number out of its range
    out_of_range: u64,
}

impl Changed {
    /// How many there are, and how many of them are accepted now.
    fn total(&self) -> (u64, u64) {
        (self.numbers.values().sum(), count_of(&self.numbers, 0))
    }
}

fn count_of(numbers: &BTreeMap<u64, u64>, number: u64) -> u64 {
    numbers.get(&number).copied().unwrap_or(0)
}

/// The counts of the numbers that were met.
fn listed(numbers: &BTreeMap<u64, u64>) -> String {
    let counts = numbers.iter().map(|(number, n)| format!("{number}: {n}"));
    counts.collect::<Vec<_>>().join(", ")
}

/// The numbers of a line of text.
fn line_numbers(line: &[u8]) -> Vec<i64> {
    let parts = line.split(|b| !b.is_ascii_digit());
    parts.filter(|p| !p.is_empty()).map(value).collect()
}

/// What the planners wrote.
#[derive(Default)]
struct Written {
    plans: u64,
    greatest: i64,
    longest: usize,
    /// plans with a span that the former limits could not write
    late: u64,
}

impl Written {
    /// A plan; an error where a start, a move or a number of the claim is out of its range, or the span over the sum, for each task, of
    /// its longest run and of the longest move of a file that it reads, a relay counting one tick.
    fn add(&mut self, sheet: &Sheet, text: &[u8]) -> Result<(), String> {
        let mut written = vec![];
        for line in text.split_inclusive(|b| *b == b'\n') {
            let first = if line.starts_with(b"(claim ") { 0 } else { 2 };
            written.extend_from_slice(&line_numbers(line)[first..]);
        }
        let claim = &written[written.len() - 3..];
        let (span, most) = (claim[0], longest_span(sheet));
        let greatest = *written.iter().max().expect("a number");
        if greatest > CURRENT.tick || span > most {
            return Err(format!(
                "a plan has the number {greatest} and the span {span}; the span can be {most}"
            ));
        }
        self.plans += 1;
        self.greatest = self.greatest.max(greatest);
        self.longest = self.longest.max(text.len());
        self.late += u64::from(span > FORMER.tick);
        Ok(())
    }
}

/// A span that no planner exceeds: each task ends at most its longest run past the longest move of a file that it reads, which starts when
/// all that is placed is over.
fn longest_span(sheet: &Sheet) -> i64 {
    let task = |(i, task): (usize, &Task)| {
        let read = sheet.files.iter().filter(|f| f.reader == i);
        let moved = read.map(|f| f.time).max().unwrap_or(0);
        moved + task.times[0].max(task.times[1]).max(1)
    };
    sheet.tasks.iter().enumerate().map(task).sum()
}

/// How often each kind was reached.
#[derive(Default)]
pub struct Counts {
    kept: BTreeMap<u64, u64>,
    changed: [Changed; 3],
    edges: Edges,
    /// planners' answers to sheets that the former limits accept, and to others that the present ones do
    old_sheets: u64,
    new_sheets: u64,
    written: Written,
    known: u64,
}

/// Marks at the edges of the present limits.
#[derive(Default)]
struct Edges {
    /// accepted with the greatest run or move time, and with the last tick as span: with a relay at it, and without
    greatest_time: u64,
    relay_last: u64,
    run_last: u64,
    /// refused by 18 with a span past the last tick
    past: u64,
    /// refused by 2 or 12, in a line that is one of the forms but for a number of one digit too many
    longer: [u64; 2],
}

impl Edges {
    /// Texts that are refused.
    fn refused(&mut self, sheet: &[u8], paper: &[u8], [number, place, ..]: [u64; 5]) {
        match number {
            2 => self.longer[0] += u64::from(one_digit_more(sheet, place, &SHEET_FORMS)),
            12 => self.longer[1] += u64::from(one_digit_more(paper, place, &TABLE_FORMS)),
            _ => {}
        }
    }

    /// Texts that the former limits refuse.
    fn changed(&mut self, sheet: &[u8], paper: &[u8], number: u64) {
        if ![0, 18].contains(&number) {
            return;
        }
        let sheet = read_sheet(sheet).expect("a sound sheet");
        let (table, _) = read_table(&sheet, paper).expect("a sound timetable");
        let span = span(&sheet, &table);
        if number == 18 {
            self.past += u64::from(span > CURRENT.tick);
            return;
        }
        let mut runs = sheet.tasks.iter().flat_map(|t| t.times);
        let run = runs.any(|time| time == CURRENT.run_time);
        let moved = sheet.files.iter().any(|f| f.time == CURRENT.move_time);
        self.greatest_time += u64::from(run || moved);
        let relay = table.runs.iter().any(|run| run.unwrap().1 == span);
        self.relay_last += u64::from(span == CURRENT.tick && relay);
        self.run_last += u64::from(span == CURRENT.tick && !relay);
    }
}

/// Whether a line is one of the forms but for a number of one digit too many, and has no longer one.
fn one_digit_more(text: &[u8], place: u64, forms: &[&str]) -> bool {
    let line = ended_line(text, place).and_then(|line| form(line, forms));
    line.is_some_and(|(_, numerals)| longest_numeral(&numerals) == Some(CURRENT.digits + 1))
}

impl Counts {
    /// Two texts and the marker's answer to them; an error where an old paper's mark is another and must not be, or the other way round.
    pub fn marked(&mut self, sheet: &[u8], paper: &[u8], mark: [u64; 5]) -> Result<(), String> {
        let former = mark_by(NARROW, sheet, paper);
        self.edges.refused(sheet, paper, mark);
        let Some(cause) = judged(sheet, paper, former, mark)? else {
            *self.kept.entry(mark[0]).or_default() += 1;
            return Ok(());
        };
        let changed = &mut self.changed[cause as usize];
        *changed.numbers.entry(mark[0]).or_default() += 1;
        let out_of_range = [CAUSES[cause as usize].2, former[1]];
        changed.out_of_range += u64::from(mark[..2] == out_of_range);
        self.edges.changed(sheet, paper, mark[0]);
        Ok(())
    }

    /// A planner's answer to a sheet; an error where it refuses the sheet otherwise than by the former limits and must not, or the other
    /// way round, or where a number of the plan is out of its range.
    pub fn planned(&mut self, text: &[u8], got: &Answered) -> Result<(), String> {
        let refusal = |number, place| [number, place, 0, 0, 0];
        let (number, place) = (got.answer.number, got.answer.place);
        let now = match number {
            1..=4 => refusal(number, place),
            _ => refusal(0, 0),
        };
        let former = read_sheet_by(NARROW, text);
        let then = former.as_ref().err().map_or([0; 5], |r| refusal(r.0, r.1));
        judged(text, b"", then, now)?;
        let Ok(sheet) = read_sheet(text) else {
            return Ok(());
        };
        match former {
            Ok(_) => self.old_sheets += 1,
            Err(_) => self.new_sheets += 1,
        }
        match number {
            0 => self.written.add(&sheet, got.text()),
            _ => Ok(()),
        }
    }

    /// Holds the library and reference.rs against the known marks.
    pub fn by_hand(&mut self) -> Result<(), String> {
        for texts in known() {
            texts.hold(FORMER, |sheet, paper| mark_by(NARROW, sheet, paper))?;
            texts.hold(CURRENT, reference::mark)?;
            texts.hold(CURRENT, library::mark)?;
            self.known += 1;
        }
        Ok(())
    }

    /// What was counted of the edges and the planners, in words.
    fn rows(&self) -> [(&'static str, u64); 10] {
        let edges = &self.edges;
        [
            (
                "accepted with the greatest run or move time",
                edges.greatest_time,
            ),
            ("with a relay at the last tick", edges.relay_last),
            ("with a run until the last tick", edges.run_last),
            ("refused by 18, the span past the last tick", edges.past),
            ("refused by 2 for one digit too many", edges.longer[0]),
            ("refused by 12 for one digit too many", edges.longer[1]),
            ("planners' answers to old sheets", self.old_sheets),
            ("to sheets that were refused", self.new_sheets),
            ("plans with a span that was unwritable", self.written.late),
            ("known marks", self.known),
        ]
    }

    pub fn print(&self) {
        println!(
            "marks as by the former limits: {} papers, {}",
            self.kept.values().sum::<u64>(),
            listed(&self.kept)
        );
        for ((_, name, number), changed) in CAUSES.iter().zip(&self.changed) {
            println!(
                "other marks, formerly refused for {name}: {} papers, now {}; {number} at the same line: {}",
                changed.total().0,
                listed(&changed.numbers),
                changed.out_of_range
            );
        }
        let rows = self.rows().map(|(name, n)| format!("{name}: {n}"));
        println!("finer ticks: {}", rows.join(", "));
        let Written {
            plans,
            greatest,
            longest,
            ..
        } = self.written;
        println!(
            "{plans} plans: greatest number written {greatest}, longest timetable {longest} bytes"
        );
    }

    /// What was never reached: a line each.
    pub fn faults(&self) -> Vec<String> {
        let never = |name: &str| format!("finer ticks, {name}: none");
        let mut all = vec![];
        for number in NUMBERS.iter().filter(|n| count_of(&self.kept, **n) == 0) {
            all.push(never(&format!("the mark {number} as by the former limits")));
        }
        for ((cause, name, number), changed) in CAUSES.iter().zip(&self.changed) {
            let (total, accepted) = changed.total();
            if accepted == 0 || total == accepted + changed.out_of_range {
                all.push(never(&format!("{name}, accepted or another mark now")));
            }
            // a line with a time that was too large has each number in its range now
            if *cause != Large && changed.out_of_range == 0 {
                all.push(never(&format!("{name}, {number} at the same line now")));
            }
        }
        let rows = self.rows();
        all.extend(rows.iter().filter(|r| r.1 == 0).map(|r| never(r.0)));
        all
    }
}

#[cfg(test)]
mod tests {
    use super::*;
    use crate::generate::by_turns;

    #[test]
    fn lines_with_a_number_too_long() {
        for line in [
            "(task 1 1000000000 1)",
            "(task 1 1 999999999999)",
            "(board (blue 1 1) (red 1000000000 1))",
            "(file 1 2 0 1234567890)",
            "(task 1 1 1 1000000000)",
            "(task 1 1000000000 1 1)",
        ] {
            assert!(too_long(line.as_bytes(), &SHEET_FORMS), "{line}");
            assert!(!too_long(line.as_bytes(), &TABLE_FORMS), "{line}");
        }
        for line in [
            "",
            "(task 1 999999999 1)",
            "(task 1 1000000000000 1)",
            "(task 1 1000000000 1000000000000)",
            "(task 01 1000000000 1)",
            "(task 1 0999999999 1)",
            "(task # 1000000000 1)",
            "1(task 1 1000000000 1)",
            "(task 1 1000000000 1)1",
            "(task 1 1000000000 1) ",
            "(task 1 1000000000)",
            "(task 1 1000000000 1 01)",
            "(task 1 1000000000 1 1 1)",
            "(task 1  1000000000 1)",
            "(run 1 1000000000 1)",
        ] {
            assert!(!too_long(line.as_bytes(), &SHEET_FORMS), "{line}");
        }
    }

    #[test]
    fn lines_with_a_time_too_large() {
        for line in [
            "(task 1 1000001 0)",
            "(task 64 0 1000000000)",
            "(task 1 1000001 0 1)",
            "(task 64 0 1000000000 1000000)",
            "(file 1 2 1000000 1000001)",
            "(file 2 1 0 999999999)",
        ] {
            assert!(too_large(line.as_bytes()), "{line}");
        }
        for line in [
            "(task 1 1000000 1000000)",
            "(task 1 1000001 1000000001)",
            "(task 65 1000001 1)",
            "(task 0 1000001 1)",
            "(task 1 1000001 1 0)",
            "(task 1 1000001 1 1000001)",
            "(task 1 1000000 1 1)",
            "(file 1 2 1000001 1000001)",
            "(file 1 2 1 1000000)",
            "(file 1 0 1 1000001)",
            "(board (blue 1 1000001) (red 1 1000001))",
        ] {
            assert!(!too_large(line.as_bytes()), "{line}");
        }
    }

    /// On the known marks: the former one is the present one exactly where no cause is found.
    #[test]
    fn known_marks() {
        for texts in known() {
            let (sheet, paper) = (texts.sheet(), texts.paper());
            let (former, now) = (mark_by(NARROW, sheet, paper), reference::mark(sheet, paper));
            judged(sheet, paper, former, now).unwrap();
            let another = [former[0] + 1, former[1], 0, 0, 0];
            let wrong = if former == now { another } else { former };
            assert!(judged(sheet, paper, former, wrong).is_err());
        }
    }

    /// Tasks by turns on both colours: 64 runs, 256 moves and a claim; a first run of 400000000 ticks, then
    /// 63 times a move and a run, 900000000 ticks together.
    #[test]
    fn longest_plans() {
        let sheet = by_turns();
        for planner in reference::PLANNERS {
            let text = String::from_utf8(reference::plan(planner, &sheet).text).unwrap();
            assert_eq!(text.lines().count(), 64 + 256 + 1);
            assert!(text.contains("(claim 57100000000 "));
        }
    }

    #[test]
    fn numbers_of_a_plan() {
        let sheet = read_sheet(
            b"(board (blue 1 9) (red 1 9))\n(task 1 4 7)\n(task 2 0 0)\n(file 1 2 2 5)\n",
        )
        .unwrap();
        let passes = |text: &str| Written::default().add(&sheet, text.as_bytes()).is_ok();
        assert_eq!(longest_span(&sheet), 7 + 5 + 1);
        assert!(passes("(run 1 1 0)\n(run 2 1 4)\n(claim 13 2 0)\n"));
        assert!(!passes("(run 1 1 0)\n(run 2 1 4)\n(claim 14 2 0)\n"));
        assert!(passes(
            "(run 1 1 0)\n(run 2 1 999999999999)\n(claim 4 2 0)\n"
        ));
        assert!(!passes(
            "(run 1 1 0)\n(run 2 1 1000000000000)\n(claim 4 2 0)\n"
        ));
        assert!(!passes(
            "(run 1 1 0)\n(run 2 2 9)\n(move 1 2 1000000000000)\n(claim 4 2 0)\n"
        ));
        assert!(!passes(
            "(run 1 1 0)\n(run 2 1 4)\n(claim 4 1000000000000 0)\n"
        ));
    }
}
