//! What Order 6 promises, looked at in the library's answers. Sheets without W give what they gave: marks, plans and simulations are those
//! of reference.rs and simulation.rs by the rules before the order, which refuse a sheet by 2 at its first line with W; which line that is
//! is told by code of its own. Sheets with W are also held against the same sheets with each W left out. How often each kind was reached.

use crate::generate::{ample, sizes, write_sheet, Random, WORK_FAULTS};
use crate::library::{self, Answered};
use crate::plain::by_reference;
use crate::reference::{
    self, fault, finish, mark_by, peaks, plan_by, read_sheet, read_table, Memory, Planned, Planner,
    Refused, Sheet, Table, MAX_TEXT, MAX_WORK, SHEET_FORMS, WITHOUT_WORK,
};
use crate::simulation::{simulate, simulate_by, Answer};
use crate::stepping::{self, MOST_TICKS};
use crate::widths::{form, longest_numeral, NUMBERS};
use crate::work;
use std::collections::BTreeMap;
use std::fmt::Debug;
use Memory::{Aware, Plain};

/// The form of a task line with W.
const WITH_WORK: usize = 3;

/// The most digits of a number.
const MOST_DIGITS: usize = 12;

/// Steps enough for any timetable.
const ALL: u64 = 1024;

/// The first line that is a task line with W, whatever the values of its numbers.
fn work_line(text: &[u8]) -> Option<u64> {
    let lines = text.split_inclusive(|b| *b == b'\n');
    let with_work = |line: &[u8]| {
        let (kind, numerals) = form(line.strip_suffix(b"\n")?, &SHEET_FORMS)?;
        let digits = longest_numeral(&numerals)?;
        Some(kind == WITH_WORK && digits <= MOST_DIGITS)
    };
    let mut lines = lines.zip(1..);
    lines.find_map(|(line, place)| with_work(line)?.then_some(place))
}

/// Whether an answer by the rules before the order must be kept: where no line has W, and where the sheet is refused sooner than that. Else
/// the sheet was refused there by 2, and is not now. An error where this is not so.
fn judged<T: PartialEq + Debug>(
    text: &[u8],
    (before, now): (&T, &T),
    refusal: impl Fn(&T) -> Refused,
) -> Result<bool, String> {
    let line = work_line(text);
    let sooner = |(number, place): Refused, line: u64| (1..=4).contains(&number) && place < line;
    let (kept, due) = match line {
        Some(line) if !sooner(refusal(before), line) => {
            let other = refusal(now) != (2, line) && !sooner(refusal(now), line);
            (false, refusal(before) == (2, line) && other)
        }
        _ => (true, before == now),
    };
    if due {
        return Ok(kept);
    }
    Err(format!(
        "first line with W: {line:?}; answered {now:?}, before the order {before:?}"
    ))
}

pub fn has_work(sheet: &Sheet) -> bool {
    sheet.tasks.iter().any(|t| t.work > 0)
}

/// The sheet without the W of some tasks.
fn without(sheet: &Sheet, some: impl Fn(usize) -> bool) -> Sheet {
    let mut other = sheet.clone();
    for (i, task) in other.tasks.iter_mut().enumerate() {
        if some(i) {
            task.work = 0;
        }
    }
    other
}

/// A sheet with W as it is, and the text of the same without any W.
struct Bare {
    sheet: Sheet,
    text: Vec<u8>,
}

impl Bare {
    /// None of a sheet that is refused or has no W.
    fn new(text: &[u8]) -> Option<Bare> {
        let sheet = read_sheet(text).ok().filter(has_work)?;
        let text = write_sheet(&without(&sheet, |_| true)).into_bytes();
        Some(Bare { sheet, text })
    }
}

pub fn count_of(numbers: &BTreeMap<u64, u64>, number: u64) -> u64 {
    numbers.get(&number).copied().unwrap_or(0)
}

pub fn listed(numbers: &BTreeMap<u64, u64>) -> String {
    let counts = numbers.iter().map(|(number, n)| format!("{number}: {n}"));
    counts.collect::<Vec<_>>().join(", ")
}

/// What was counted, in words.
pub type Rows<const N: usize> = [(&'static str, u64); N];

pub fn in_words<const N: usize>(rows: Rows<N>) -> String {
    rows.map(|(name, n)| format!("{name}: {n}")).join(", ")
}

/// The sheets that were drawn.
#[derive(Default)]
struct Drawn {
    all: u64,
    with_work: u64,
    /// with W on one of several tasks, on some, and on all
    on: [u64; 3],
    /// with a W on a task of time 0
    relay: u64,
    least: u64,
    greatest: u64,
    /// with a W over one limit and not over the other, and with one over both
    over: [u64; 2],
    /// with limits of all sizes and all W, and of all sizes but less than with all W
    ample: u64,
    sizes_alone: u64,
}

impl Drawn {
    fn add(&mut self, sheet: &Sheet) {
        self.all += 1;
        if !has_work(sheet) {
            return;
        }
        self.with_work += 1;
        let (n, works) = (sheet.tasks.len(), sheet.tasks.iter().filter(|t| t.work > 0));
        let on = match works.clone().count() {
            k if k == n => 2,
            1 => 0,
            _ => 1,
        };
        self.on[on] += 1;
        let any = |p: &dyn Fn(i64, [i64; 2]) -> bool| {
            u64::from(works.clone().any(|t| p(t.work, t.times)))
        };
        let [low, high] = [
            sheet.limits[0].min(sheet.limits[1]),
            sheet.limits[0].max(sheet.limits[1]),
        ];
        self.relay += any(&|_, times| times.contains(&0));
        self.least += any(&|work, _| work == 1);
        self.greatest += any(&|work, _| work == MAX_WORK);
        self.over[0] += any(&|work, _| low < work && work <= high);
        self.over[1] += any(&|work, _| high < work);
        self.ample += u64::from(low >= ample(sheet));
        self.sizes_alone += u64::from(low >= sizes(sheet) && low < ample(sheet));
    }

    fn rows(&self) -> Rows<10> {
        let [one, some, all] = self.on;
        let [over_one, over_both] = self.over;
        [
            ("on one of several tasks", one),
            ("on some", some),
            ("on all", all),
            ("on a relay", self.relay),
            ("a W of 1", self.least),
            ("of 1000000", self.greatest),
            ("over one limit", over_one),
            ("over both limits", over_both),
            ("limits of all sizes and all W", self.ample),
            ("limits of all sizes, but less than that", self.sizes_alone),
        ]
    }
}

/// Answers beside those by the rules before the order.
#[derive(Default)]
struct Before {
    /// marks on sheets without W, by their numbers
    marks: BTreeMap<u64, u64>,
    /// marks on sheets that were refused by 2 for their W, by their numbers now
    changed: BTreeMap<u64, u64>,
    /// planners' answers kept and changed, and the simulator's
    plans: BTreeMap<u64, u64>,
    changed_plans: BTreeMap<u64, u64>,
    simulations: u64,
    changed_simulations: u64,
    /// accepted sheets without and with W that are written back as they were
    written: [u64; 2],
}

impl Before {
    fn marked(&mut self, sheet: &[u8], paper: &[u8], mark: [u64; 5]) -> Result<(), String> {
        let before = mark_by(WITHOUT_WORK, sheet, paper);
        let kept = judged(sheet, (&before, &mark), |m| (m[0], m[1]))?;
        let marks = if kept {
            &mut self.marks
        } else {
            &mut self.changed
        };
        *marks.entry(mark[0]).or_default() += 1;
        Ok(())
    }

    /// A call of the simulator.
    fn simulated(&mut self, sheet: &[u8], paper: &[u8], steps: u64) -> Result<(), String> {
        let before = simulate_by(WITHOUT_WORK, sheet, paper, 0, steps);
        let now = stepping::library(sheet, paper, 0, steps);
        let kept = judged(sheet, (&before, &now), |a| (a.number, a.place))?;
        self.simulations += u64::from(kept);
        self.changed_simulations += u64::from(!kept);
        Ok(())
    }

    fn planned(&mut self, planner: Planner, sheet: &[u8], got: &Answered) -> Result<(), String> {
        let before = Answered::due(&plan_by(WITHOUT_WORK, planner, sheet), got.buffer.len());
        let kept = judged(sheet, (&before, got), |a| (a.answer.number, a.answer.place))?;
        let plans = if kept {
            &mut self.plans
        } else {
            &mut self.changed_plans
        };
        *plans.entry(got.answer.number).or_default() += 1;
        Ok(())
    }

    /// A sheet that the reference accepts, it writes back as it was; that the library accepts the same sheets, the marks show.
    fn written(&mut self, text: &[u8]) -> Result<(), String> {
        let Ok(sheet) = read_sheet(text) else {
            return Ok(());
        };
        let back = write_sheet(&sheet);
        if back.as_bytes() != text {
            return Err(format!("the sheet is written back as\n{back}"));
        }
        self.written[usize::from(has_work(&sheet))] += 1;
        Ok(())
    }

    fn rows(&self) -> Rows<4> {
        [
            ("simulations kept", self.simulations),
            ("simulations changed", self.changed_simulations),
            ("sheets without W written back", self.written[0]),
            ("sheets with W written back", self.written[1]),
        ]
    }

    /// What was never reached.
    fn faults(&self) -> Vec<String> {
        let due = [
            ("kept, the mark", &self.marks, &NUMBERS[..]),
            (
                "changed, now the mark",
                &self.changed,
                &[0, 3, 4, 11, 12, 13, 14, 15, 16, 17, 18],
            ),
            ("kept, the planner's", &self.plans, &[0, 1, 2, 3, 4, 21]),
            (
                "changed, now the planner's",
                &self.changed_plans,
                &[0, 3, 4, 21],
            ),
        ];
        let mut all = vec![];
        for (name, counts, numbers) in due {
            let never = numbers.iter().filter(|n| count_of(counts, **n) == 0);
            all.extend(never.map(|n| format!("{name} {n}")));
        }
        all
    }
}

/// Marks on sheets with W.
#[derive(Default)]
struct Marks {
    numbers: BTreeMap<u64, u64>,
    /// refused by 17, and without W not, or at a later instant
    over_alone: u64,
    over_sooner: u64,
    /// refused by 17 at an instant at which no memory is over its limit without the W of relays
    over_relay: u64,
    /// accepted with a peak that W makes, of these with the limit as a peak, and with no W in a peak
    peak: u64,
    at_limit: u64,
    no_peak: u64,
    /// accepted with a W over the limit of the other memory, and with a relay's W
    own_memory: u64,
    relay: u64,
}

/// Whether a task runs as a relay.
fn relayed(sheet: &Sheet, table: &Table, i: usize) -> bool {
    finish(sheet, table, i) == table.runs[i].unwrap().1
}

/// The marker's answers with each W and without any: 15 and 16 and the refusals of a text are the same, 17 is no later, and an accepted
/// span is the same.
fn marked_alike(mark: [u64; 5], bare: [u64; 5]) -> bool {
    match (mark[0], bare[0]) {
        (0, 0) => mark == bare,
        (17, 17) => mark[1] <= bare[1],
        (0 | 18, 18) | (18, 0) | (17, 0 | 18) => true,
        (11..=16, _) => mark == bare,
        _ => false,
    }
}

impl Marks {
    fn marked(&mut self, bare: &Bare, paper: &[u8], mark: [u64; 5]) -> Result<(), String> {
        let other = library::mark(&bare.text, paper);
        if !marked_alike(mark, other) {
            return Err(format!("marked {mark:?}, without W {other:?}"));
        }
        *self.numbers.entry(mark[0]).or_default() += 1;
        if mark[0] == 17 {
            self.over_alone += u64::from(other[0] != 17);
            self.over_sooner += u64::from(other[0] == 17 && other[1] > mark[1]);
        }
        if let Ok((table, _)) = read_table(&bare.sheet, paper) {
            self.held(&bare.sheet, &table, mark);
        }
        Ok(())
    }

    /// A sound timetable.
    fn held(&mut self, sheet: &Sheet, table: &Table, [number, place, _, blue, red]: [u64; 5]) {
        let relay = |i: usize| relayed(sheet, table, i);
        match number {
            17 => {
                let without = fault(&without(sheet, relay), table);
                self.over_relay += u64::from(without != Some((17, place)));
            }
            0 => {
                let files = peaks(&without(sheet, |_| true), table);
                let made = |c: usize| [blue, red][c] as i64 > files[c];
                let full = |c: usize| made(c) && [blue, red][c] as i64 == sheet.limits[c];
                self.peak += u64::from(made(0) || made(1));
                self.at_limit += u64::from(full(0) || full(1));
                self.no_peak += u64::from(!made(0) && !made(1));
                let runs = || sheet.tasks.iter().zip(&table.runs).enumerate();
                let own = runs().any(|(_, (task, run))| {
                    let other = 1 - sheet.colour(run.unwrap().0) as usize;
                    task.work > sheet.limits[other]
                });
                self.own_memory += u64::from(own);
                let mut works = runs().filter(|(_, (task, _))| task.work > 0);
                self.relay += u64::from(works.any(|(i, _)| relay(i)));
            }
            _ => {}
        }
    }

    fn rows(&self) -> Rows<8> {
        [
            ("refused by 17 for W alone", self.over_alone),
            ("sooner for W", self.over_sooner),
            ("for the W of a relay", self.over_relay),
            ("accepted with a peak that W makes", self.peak),
            ("of the limit", self.at_limit),
            ("with no W in a peak", self.no_peak),
            ("with a W over the other memory's limit", self.own_memory),
            ("with a relay's W", self.relay),
        ]
    }

    /// What was never reached.
    fn faults(&self) -> Vec<String> {
        let due = [0, 11, 12, 13, 14, 15, 16, 17, 18].into_iter();
        let never = due.filter(|n| count_of(&self.numbers, *n) == 0);
        never.map(|n| format!("with W, the mark {n}")).collect()
    }
}

/// Timetables with W, simulated.
#[derive(Default)]
struct Steps {
    /// ended with more steps than without W, and past the span, where without W it ends at the span
    more: u64,
    past: u64,
    /// ended with as many steps as there can be
    most: u64,
    /// stopped by 17, and without W not; or sooner than without W
    over_alone: u64,
    over_sooner: u64,
    /// by 17, where the marker says 15 or 16
    other: u64,
    /// states compared, and of these at a tick that there is for W alone
    states: u64,
    between: u64,
}

impl Steps {
    /// The simulator with each W and without any: the same stop by 15 or 16, no later one by 17, the same span, no fewer steps.
    fn simulated(
        &mut self,
        sheet: &[u8],
        bare: &Bare,
        paper: &[u8],
        mark: u64,
    ) -> Result<Answer, String> {
        let [all, other] = [sheet, &bare.text].map(|s| stepping::library(s, paper, 0, ALL));
        let stop = |a: &Answer| (a.number, a.place);
        let alike = match (all.number, other.number) {
            (0, 0) => all.span == other.span && all.made >= other.made && all.time >= other.time,
            (17, 0) => true,
            (17, 15..=17) => all.place <= other.place,
            (number, _) => number != 0 && stop(&all) == stop(&other),
        };
        if !alike {
            return Err(format!("simulated {all:?}\nand without W {other:?}"));
        }
        match all.number {
            0 => {
                self.more += u64::from(all.made > other.made);
                self.past += u64::from(all.time > all.span && other.time == other.span);
                self.most += u64::from(all.made == MOST_TICKS);
            }
            17 => {
                self.over_alone += u64::from(other.number == 0);
                self.over_sooner += u64::from(other.number != 0 && other.place > all.place);
                self.other += u64::from(mark != 17);
            }
            _ => {}
        }
        Ok(all)
    }

    /// A state shows no W: it is that without any W at the last step that is not later.
    fn state(&mut self, sheet: &[u8], bare: &Bare, paper: &[u8], steps: u64) -> Result<(), String> {
        let now = stepping::library(sheet, paper, 0, steps);
        let mut other = stepping::library(&bare.text, paper, 0, now.made);
        while other.made > 0 && other.time > now.time {
            other = stepping::library(&bare.text, paper, 0, other.made - 1);
        }
        if (now.running, now.contents) != (other.running, other.contents) {
            return Err(format!("the state {now:?}\nis without W {other:?}"));
        }
        self.states += 1;
        self.between += u64::from(now.time > other.time && other.made > 0);
        Ok(())
    }

    fn rows(&self) -> Rows<8> {
        [
            ("more steps for W", self.more),
            ("ended past the span for W alone", self.past),
            ("with 640 steps", self.most),
            ("stopped by 17 for W alone", self.over_alone),
            ("sooner for W", self.over_sooner),
            ("by 17, marked 15 or 16", self.other),
            ("states as without W", self.states),
            ("of these at a tick of W alone", self.between),
        ]
    }
}

/// Plans of sheets with W.
#[derive(Default)]
struct Plans {
    /// the plain planners' plans as without W but for the peaks claimed, and of these with another peak
    plain: u64,
    plain_peak: u64,
    /// what the memory-aware planners did with W, and without it
    planned: u64,
    stuck: u64,
    stuck_alone: u64,
    stuck_later: u64,
    /// other runs or moves than without W, and of these each run in the same memory, none sooner and one later
    other: u64,
    later: u64,
    /// trials that W alone makes later, and that do not fit for W alone, though they fit by start 4
    later_trials: u64,
    unfit_trials: u64,
    /// plans with the W of a relay
    relay: u64,
}

/// A timetable without its claim, and the claim's numbers; those of no timetable are 0.
fn taken_apart(text: &[u8]) -> (&[u8], [i64; 3]) {
    let at = text.iter().rposition(|b| *b == b'(').unwrap_or(0);
    let claim = String::from_utf8_lossy(&text[at..]);
    let words = claim.split(|c: char| !c.is_ascii_digit());
    let numbers: Vec<i64> = words.filter_map(|w| w.parse().ok()).collect();
    (&text[..at], numbers.try_into().unwrap_or([0; 3]))
}

impl Plans {
    fn planned(
        &mut self,
        planner: Planner,
        bare: &Bare,
        want: &Planned,
        got: &Answered,
    ) -> Result<(), String> {
        let other = library::plan(planner, &bare.text, MAX_TEXT);
        match planner.memory {
            Plain => self.plain(got, &other),
            Aware => {
                self.later_trials += want.met.later;
                self.unfit_trials += want.met.unfit;
                self.aware(&bare.sheet, got, &other);
                Ok(())
            }
        }
    }

    /// A plain planner does not look at W: its plan is the same but for the peaks claimed.
    fn plain(&mut self, got: &Answered, other: &Answered) -> Result<(), String> {
        let [(lines, claim), (due, bare)] = [got, other].map(|a| taken_apart(a.text()));
        let peaks = claim[0] == bare[0] && claim[1] >= bare[1] && claim[2] >= bare[2];
        let answers = [got, other].map(|a| (a.answer.number, a.answer.trials));
        if lines != due || !peaks || answers[0] != answers[1] {
            return Err(format!(
                "a plain planner answers {:?}, without W {:?}:\n{}",
                got.answer,
                other.answer,
                String::from_utf8_lossy(other.text())
            ));
        }
        self.plain += 1;
        self.plain_peak += u64::from(claim != bare);
        Ok(())
    }

    fn aware(&mut self, sheet: &Sheet, got: &Answered, other: &Answered) {
        match (got.answer.number, other.answer.number) {
            (0, 0) => self.both(sheet, got.text(), other.text()),
            (21, 0) => {
                self.stuck_alone += 1;
                self.stuck_later += u64::from(got.answer.place > 0);
            }
            _ => {}
        }
        self.planned += u64::from(got.answer.number == 0);
        self.stuck += u64::from(got.answer.number == 21);
        if got.answer.number == 0 {
            let (table, _) = read_table(sheet, got.text()).expect("a sound timetable");
            let mut works = (0..sheet.tasks.len()).filter(|i| sheet.tasks[*i].work > 0);
            self.relay += u64::from(works.any(|i| relayed(sheet, &table, i)));
        }
    }

    /// The timetables with W and without it.
    fn both(&mut self, sheet: &Sheet, got: &[u8], other: &[u8]) {
        let [table, bare] =
            [got, other].map(|text| read_table(sheet, text).expect("a sound timetable").0);
        let runs = |t: &Table| -> Vec<(usize, i64)> {
            let runs = t.runs.iter().map(|run| run.unwrap());
            runs.map(|(p, s)| (sheet.colour(p) as usize, s)).collect()
        };
        let (now, before) = (runs(&table), runs(&bare));
        let no_sooner = now
            .iter()
            .zip(&before)
            .all(|(a, b)| a.0 == b.0 && a.1 >= b.1);
        self.other += u64::from(taken_apart(got).0 != taken_apart(other).0);
        self.later += u64::from(no_sooner && now != before);
    }

    fn rows(&self) -> Rows<11> {
        [
            ("plain plans as without W but for the peaks", self.plain),
            ("with another peak", self.plain_peak),
            ("memory-aware plans", self.planned),
            ("stuck", self.stuck),
            ("stuck for W alone", self.stuck_alone),
            ("of these with a task placed", self.stuck_later),
            ("other plans for W", self.other),
            ("of these with runs that wait", self.later),
            ("trials that start later for W", self.later_trials),
            (
                "trials that fit by start 4 and not by start 3, for W",
                self.unfit_trials,
            ),
            ("plans with the W of a relay", self.relay),
        ]
    }
}

/// How often each kind was reached.
#[derive(Default)]
pub struct Counts {
    draws: Random,
    drawn: Drawn,
    before: Before,
    marks: Marks,
    steps: Steps,
    plans: Plans,
    /// of each fault of a task line, the answers that it got
    faults: [u64; WORK_FAULTS.len()],
    /// known marks, plans and traces
    known: [u64; 3],
}

impl Counts {
    /// A sheet that was drawn.
    pub fn sheet(&mut self, sheet: &Sheet) {
        self.drawn.add(sheet);
    }

    /// Two texts and the marker's answer to them; an error where a promise is not kept.
    pub fn marked(&mut self, sheet: &[u8], paper: &[u8], mark: [u64; 5]) -> Result<(), String> {
        self.before.marked(sheet, paper, mark)?;
        self.before.written(sheet)?;
        self.before.simulated(sheet, paper, ALL)?;
        let Some(bare) = Bare::new(sheet) else {
            return Ok(());
        };
        self.marks.marked(&bare, paper, mark)?;
        let all = self.steps.simulated(sheet, &bare, paper, mark[0])?;
        let steps = self.draws.next() % (all.made + 1);
        self.steps.state(sheet, &bare, paper, steps)
    }

    /// A planner's answer to a sheet, beside that of reference.rs; an error where a promise is not kept.
    pub fn planned(
        &mut self,
        planner: Planner,
        sheet: &[u8],
        want: &Planned,
        got: &Answered,
    ) -> Result<(), String> {
        self.before.planned(planner, sheet, got)?;
        match Bare::new(sheet) {
            Some(bare) => self.plans.planned(planner, &bare, want, got),
            None => Ok(()),
        }
    }

    /// An answer to a sheet with one of `WORK_FAULTS` at a place; an error where it is not the one due.
    pub fn fault(&mut self, kind: usize, place: u64, answer: Refused) -> Result<(), String> {
        let (name, number, _) = WORK_FAULTS[kind];
        if answer != (number, place) {
            return Err(format!(
                "W, {name}: answered {answer:?}, wanted {number} at {place}"
            ));
        }
        self.faults[kind] += 1;
        Ok(())
    }

    /// Holds the library, reference.rs and simulation.rs against the known marks, plans and traces.
    pub fn by_hand(&mut self) -> Result<(), String> {
        for texts in work::marks() {
            texts.hold(WITHOUT_WORK, |s, p| mark_by(WITHOUT_WORK, s, p))?;
            texts.hold(reference::PRESENT, reference::mark)?;
            texts.hold(reference::PRESENT, library::mark)?;
            self.known[0] += 1;
        }
        for sheet in work::plans() {
            sheet.hold(by_reference, reference::mark)?;
            sheet.hold(library::plan, library::mark)?;
            self.known[1] += 1;
        }
        for trace in work::traces() {
            trace.hold(simulate)?;
            trace.hold(stepping::library)?;
            self.known[2] += 1;
        }
        Ok(())
    }

    pub fn print(&self) {
        let Drawn { all, with_work, .. } = self.drawn;
        println!(
            "sheets with W: {with_work} of {all}, {}",
            in_words(self.drawn.rows())
        );
        println!(
            "without W, as before Order 6: marks {}; plans {}; with W, refused by 2 before it: marks now {}; plans now {}; {}",
            listed(&self.before.marks),
            listed(&self.before.plans),
            listed(&self.before.changed),
            listed(&self.before.changed_plans),
            in_words(self.before.rows())
        );
        println!(
            "marks with W: {}, {}",
            listed(&self.marks.numbers),
            in_words(self.marks.rows())
        );
        println!("simulated with W: {}", in_words(self.steps.rows()));
        println!("planned with W: {}", in_words(self.plans.rows()));
        let faults = WORK_FAULTS.iter().zip(self.faults);
        let faults = faults.map(|((name, number, _), n)| format!("{name}: {number}, {n} times"));
        println!("faults of W: {}", faults.collect::<Vec<_>>().join("; "));
        let [marks, plans, traces] = self.known;
        println!("known answers with W: {marks} marks, {plans} sheets planned, {traces} traces");
    }

    /// What was never reached: a line each.
    pub fn faults(&self) -> Vec<String> {
        let faults = WORK_FAULTS.iter().zip(self.faults);
        let faults: Vec<(&str, u64)> = faults.map(|((name, ..), n)| (*name, n)).collect();
        let [marks, plans, traces] = self.known;
        let known = [("marks", marks), ("plans", plans), ("traces", traces)];
        let groups = [
            ("sheets", &self.drawn.rows()[..]),
            ("before the order", &self.before.rows()),
            ("marks", &self.marks.rows()),
            ("simulated", &self.steps.rows()),
            ("planned", &self.plans.rows()),
            ("faults", &faults),
            ("known", &known),
        ];
        let mut all = vec![];
        for (group, rows) in groups {
            let never = rows.iter().filter(|r| r.1 == 0);
            all.extend(never.map(|r| format!("working memory, {group}, {}: none", r.0)));
        }
        let never = self.before.faults().into_iter().chain(self.marks.faults());
        all.extend(never.map(|name| format!("working memory, {name}: none")));
        if 3 * self.drawn.with_work < self.drawn.all {
            all.push("fewer than a third of the sheets had W".to_string());
        }
        all
    }
}

#[cfg(test)]
mod tests {
    use super::*;
    use crate::generate;

    #[test]
    fn lines_with_work() {
        let board = "(board (blue 1 9) (red 1 9))\n";
        for line in [
            "(task 1 4 4 1)",
            "(task 65 4 4 0)",
            "(task 1 4 4 999999999999)",
        ] {
            let text = format!("{board}(task 1 4 4)\n{line}\n{line}\n");
            assert_eq!(work_line(text.as_bytes()), Some(3), "{line}");
            assert_eq!(work_line(line.as_bytes()), None, "{line}");
        }
        for line in [
            "",
            "(task 1 4 4)",
            "(task 1 4 4 01)",
            "(task 1 4 4 1 1)",
            "(task 1 4 4 1000000000000)",
            "(task 1 4 4  1)",
            "(task 1 4 4 1) ",
            "(file 1 2 4 1)",
            "(file 1 2 4 1 1)",
        ] {
            let text = format!("{board}{line}\n");
            assert_eq!(work_line(text.as_bytes()), None, "{line}");
        }
    }

    /// A sheet without W keeps its answer; one with W at line 2 keeps a refusal of line 1, and no other answer.
    #[test]
    fn kept_and_changed() {
        let board = "(board (blue 1 9) (red 1 9))\n";
        let without = format!("{board}(task 1 4 4)\n");
        let with = format!("{board}(task 1 4 4 1)\n");
        let judge = |text: &str, before: Refused, now: Refused| {
            judged(text.as_bytes(), (&before, &now), |r| *r).ok()
        };
        assert_eq!(judge(&without, (0, 0), (0, 0)), Some(true));
        assert_eq!(judge(&without, (2, 2), (2, 2)), Some(true));
        assert_eq!(judge(&without, (2, 2), (0, 0)), None);
        assert_eq!(judge(&without, (17, 2), (17, 1)), None);
        for now in [(0, 0), (3, 2), (4, 2), (2, 3), (12, 1), (17, 0), (21, 1)] {
            assert_eq!(judge(&with, (2, 2), now), Some(false));
            assert_eq!(judge(&with, now, now), None);
        }
        for now in [(1, 0), (2, 1), (3, 1), (4, 1)] {
            assert_eq!(judge(&with, now, now), Some(true));
            assert_eq!(judge(&with, (2, 2), now), None);
        }
        assert_eq!(judge(&with, (2, 2), (2, 2)), None);
    }

    #[test]
    fn marks_with_and_without_work() {
        let [accepted, over, early] = [[0, 0, 8, 5, 5], [17, 4, 0, 0, 0], [16, 4, 0, 0, 0]];
        let (sooner, untrue) = ([17, 3, 0, 0, 0], [18, 0, 0, 0, 0]);
        for (mark, bare) in [
            (accepted, accepted),
            (accepted, untrue),
            (untrue, accepted),
            (untrue, untrue),
            (over, accepted),
            (over, untrue),
            (over, over),
            (sooner, over),
            (early, early),
        ] {
            assert!(marked_alike(mark, bare), "{mark:?} {bare:?}");
        }
        for (mark, bare) in [
            (accepted, over),
            (accepted, [0, 0, 8, 4, 5]),
            (untrue, over),
            (over, sooner),
            (over, early),
            (early, over),
            (early, accepted),
        ] {
            assert!(!marked_alike(mark, bare), "{mark:?} {bare:?}");
        }
    }

    #[test]
    fn timetables_taken_apart() {
        let text = b"(run 1 1 0)\n(claim 4 10 0)\n";
        assert_eq!(taken_apart(text), (&b"(run 1 1 0)\n"[..], [4, 10, 0]));
        assert_eq!(taken_apart(b""), (&b""[..], [0; 3]));
    }

    /// Sheets drawn with W have it, are sound and are written back, and the same without W are as they were but for the limits.
    #[test]
    fn drawn_with_work() {
        let mut r = Random(6);
        for _ in 0..300 {
            let plain = generate::sheet(&mut r, 7);
            let text = generate::with_work(&mut r, &plain);
            let mut bare = Bare::new(text.as_bytes()).expect("a sheet with W").sheet;
            assert_eq!(write_sheet(&bare), text);
            bare.limits = read_sheet(plain.as_bytes()).unwrap().limits;
            assert_eq!(write_sheet(&without(&bare, |_| true)), plain);
        }
    }
}
