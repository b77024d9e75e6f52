//! Where relays stand in timetables, told from the timetables alone, and how often each kind got which answer.

use crate::generate::ample;
use crate::reference::{read_sheet, read_table, Planned, Sheet, Table};
use std::collections::BTreeMap;

/// Where relays stand in a timetable.
pub const KINDS: [&str; 5] = [
    "relay at another run's start",
    "relay at another run's finish",
    "relay inside another run",
    "two relays at one tick",
    "relay last of all, with an input",
];
const INSIDE: usize = 2;
const LAST: usize = 4;

/// The answers to a timetable whose text is sound.
const ANSWERS: [u64; 5] = [0, 15, 16, 17, 18];

/// Whether a sheet has a run time of 0.
pub fn has_relays(sheet: &Sheet) -> bool {
    sheet.tasks.iter().any(|t| t.times.contains(&0))
}

/// Processor, start and run time of each task.
fn runs(sheet: &Sheet, table: &Table) -> Vec<(i64, i64, i64)> {
    let placed = table.runs.iter().enumerate();
    placed
        .map(|(i, run)| {
            let (p, s) = run.unwrap();
            (p, s, sheet.run_time(i, sheet.colour(p)))
        })
        .collect()
}

/// The last finish.
fn end(runs: &[(i64, i64, i64)]) -> i64 {
    runs.iter().map(|(_, s, time)| s + time).max().unwrap()
}

/// Whether two runs that take time are at one tick on one processor.
fn common_tick(sheet: &Sheet, table: &Table) -> bool {
    let mut busy = runs(sheet, table);
    busy.retain(|run| run.2 > 0);
    busy.sort();
    busy.windows(2)
        .any(|w| w[0].0 == w[1].0 && w[1].1 < w[0].1 + w[0].2)
}

/// Which of the kinds a timetable shows.
pub fn kinds(sheet: &Sheet, table: &Table) -> [bool; 5] {
    let runs = runs(sheet, table);
    let end = end(&runs);
    let mut shown = [false; 5];
    for (i, (p, s, time)) in runs.iter().enumerate() {
        if *time != 0 {
            continue;
        }
        for (j, (_, other, length)) in runs.iter().enumerate().filter(|(_, b)| b.0 == *p) {
            let into = s - other;
            if *length == 0 {
                shown[3] |= i != j && into == 0;
            } else {
                shown[0] |= into == 0;
                shown[1] |= into == *length;
                shown[INSIDE] |= (1..*length).contains(&into);
            }
        }
        shown[LAST] |= *s == end && sheet.files.iter().any(|f| f.reader == i);
    }
    shown
}

/// The span, and what each memory holds at it: the files that relays read there, and the relays' W.
fn held_at_span(sheet: &Sheet, table: &Table) -> (i64, [i64; 2]) {
    let runs = runs(sheet, table);
    let end = end(&runs);
    let mut held = [0, 0];
    let mut hold = |i: usize, size: i64| {
        let (p, s, time) = runs[i];
        if (s, time) == (end, 0) {
            held[sheet.colour(p) as usize] += size;
        }
    };
    sheet.files.iter().for_each(|f| hold(f.reader, f.size));
    let tasks = sheet.tasks.iter().enumerate();
    tasks.for_each(|(i, task)| hold(i, task.work));
    (end, held)
}

/// How often each kind got which answer, and what the planners did with relays.
#[derive(Default)]
pub struct Counts {
    answers: [BTreeMap<u64, u64>; 5],
    /// papers with something held at the span: accepted with a limit equal to that, refused by 17 at the span with a limit of one less
    at_span: (u64, u64),
    /// papers on which 15 was answered, and which have neither a relay inside another run nor two runs at one tick; or the other way round
    misjudged: u64,
    /// all sheets, those with relays, and of these with tasks of time 0 on blue alone, on red alone, and on both
    sheets: u64,
    with_relays: u64,
    colours: [u64; 3],
    /// planned timetables in which a relay runs
    planned: u64,
    /// on sheets with relays, both limits equal to the sum of all file sizes and all W: planned, and stuck
    ample: (u64, u64),
}

impl Counts {
    pub fn sheet(&mut self, sheet: &Sheet) {
        self.sheets += 1;
        self.with_relays += u64::from(has_relays(sheet));
        for (colour, wanted) in [[true, false], [false, true], [true, true]]
            .iter()
            .enumerate()
        {
            let shown = sheet
                .tasks
                .iter()
                .any(|t| t.times.map(|time| time == 0) == *wanted);
            self.colours[colour] += u64::from(shown);
        }
    }

    /// A paper and the marker's number and place for it.
    pub fn marked(&mut self, sheet: &[u8], paper: &[u8], number: u64, place: u64) {
        let Ok(sheet) = read_sheet(sheet) else { return };
        if !has_relays(&sheet) {
            return;
        }
        let Ok((table, _)) = read_table(&sheet, paper) else {
            return;
        };
        let shown = kinds(&sheet, &table);
        for kind in (0..KINDS.len()).filter(|k| shown[*k]) {
            *self.answers[kind].entry(number).or_default() += 1;
        }
        let shared = shown[INSIDE] || common_tick(&sheet, &table);
        self.misjudged += u64::from(shared != (number == 15));
        let (end, held) = held_at_span(&sheet, &table);
        let limit = |less: i64| (0..2).any(|c| held[c] > 0 && sheet.limits[c] == held[c] - less);
        self.at_span.0 += u64::from(number == 0 && limit(0));
        self.at_span.1 += u64::from((number, place as i64) == (17, end) && limit(1));
    }

    /// A planner's answer to a sheet.
    pub fn planned(&mut self, text: &[u8], answer: &Planned) {
        let Ok(sheet) = read_sheet(text) else { return };
        if !has_relays(&sheet) {
            return;
        }
        if sheet.limits == [ample(&sheet); 2] {
            self.ample.0 += u64::from(answer.number == 0);
            self.ample.1 += u64::from(answer.number == 21);
        }
        if answer.number == 0 {
            let (table, _) = read_table(&sheet, &answer.text).expect("a sound timetable");
            self.planned += u64::from(runs(&sheet, &table).iter().any(|run| run.2 == 0));
        }
    }

    fn count(&self, kind: usize, number: u64) -> u64 {
        self.answers[kind].get(&number).copied().unwrap_or(0)
    }

    fn papers(&self, kind: usize) -> u64 {
        self.answers[kind].values().sum()
    }

    pub fn print(&self) {
        let [blue, red, both] = self.colours;
        println!(
            "sheets with relays: {} of {}; on blue alone {blue}, on red alone {red}, on both {both}",
            self.with_relays, self.sheets
        );
        for (kind, name) in KINDS.iter().enumerate() {
            let [accepted, shared, early, over, untrue] = ANSWERS.map(|n| self.count(kind, n));
            println!(
                "{name}: {} papers, {accepted} accepted, refused by 15: {shared}, 16: {early}, 17: {over}, 18: {untrue}",
                self.papers(kind)
            );
        }
        println!(
            "limit of what is held at the span: {} papers accepted; of one less: {} refused by 17 there",
            self.at_span.0, self.at_span.1
        );
        println!("planned timetables with a relay: {}", self.planned);
        println!(
            "sheets with relays, limits equal to the sum of all file sizes and all W: {} planned, {} stuck",
            self.ample.0, self.ample.1
        );
    }

    /// What the rules do not allow, or was never reached: a line each.
    pub fn faults(&self) -> Vec<String> {
        let mut all = vec![];
        for (kind, name) in KINDS.iter().enumerate() {
            for number in ANSWERS.iter().filter(|n| (kind == INSIDE) == (**n == 15)) {
                if self.count(kind, *number) == 0 {
                    all.push(format!("{name}: the answer {number} was never reached"));
                }
            }
        }
        let checks = [
            (
                self.misjudged > 0,
                "15 without a relay inside another run or two runs at one tick, or one of these without 15",
            ),
            (
                3 * self.with_relays < self.sheets,
                "fewer than a third of the sheets had relays",
            ),
            (
                self.colours.contains(&0),
                "no sheet had relays on blue alone, on red alone, or on both",
            ),
            (
                self.at_span.0 == 0,
                "a limit of what is held at the span: never accepted",
            ),
            (
                self.at_span.1 == 0,
                "a limit of one less: never refused by 17 at the span",
            ),
            (self.planned == 0, "no planned timetable had a relay"),
            (
                self.ample.0 == 0,
                "limits equal to the sum of all file sizes and all W: never planned",
            ),
            (
                self.ample.1 > 0,
                "limits equal to the sum of all file sizes and all W: a planner is stuck",
            ),
        ];
        all.extend(checks.iter().filter(|c| c.0).map(|c| c.1.to_string()));
        all
    }
}
