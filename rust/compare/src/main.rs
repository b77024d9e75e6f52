//! Compares the proved library with an implementation of its own of document 01 with Orders 1 to 9, on sound and damaged texts from
//! a fixed seed, and short timetables also with what the memories hold at each tick. All that is marked is simulated too. Prints how often
//! each answer was reached, what was answered to timetables with relays, how often each of the four cases of maker and reader was met,
//! what the simulator answered, what the plain planners did beside the memory-aware ones, which marks are others than by the limits
//! before Order 5, how often the same job was planned in finer ticks, what working memory led to, what the converter answered, how often
//! Order 8's peaks from changes were held against those counted instant by instant, how often the marker and the planners of rust/baseline
//! gave the library's answer, and how long the planners' staircases were. Ends with an error at the first difference, where an answer or a
//! case was never reached, or where relays were marked as the rules do not allow.

use compare::generate::{self, Random, WORK_FAULTS};
use compare::library::{self, Answered};
use compare::reference::{
    self, Heuristic, Memory, Planned, Planner, Sheet, Table, MAX_TEXT, PLANNERS,
};
use compare::relays::{self, has_relays};
use compare::{
    baseline_plans, changes, colours, converting, finer, long_stairs, plain, sorting, stairs,
    stepping, widths, work_promises,
};
use std::collections::{BTreeMap, BTreeSet};
use Heuristic::{Heft, MinMin};
use Memory::{Aware, Plain};

/// How often each number was answered, and at which places.
type Seen = BTreeMap<u64, (u64, BTreeSet<u64>)>;

#[derive(Default)]
struct Tally {
    marks: Seen,
    /// of the memory-aware planners, and of the plain ones
    plans: [Seen; 2],
    relays: relays::Counts,
    colours: colours::Counts,
    simulator: stepping::Counts,
    plain: plain::Counts,
    widths: widths::Counts,
    finer: finer::Counts,
    work: work_promises::Counts,
    converter: converting::Counts,
    changes: changes::Counts,
    sorting: sorting::Counts,
    baseline_plans: baseline_plans::Counts,
    stairs: stairs::Counts,
    cases: u64,
}

fn show(text: &[u8]) -> String {
    String::from_utf8_lossy(&text[..text.len().min(2000)]).into_owned()
}

/// Ends the run if there is a difference, with the two texts.
fn same<T>(found: Result<T, String>, sheet: &[u8], paper: &[u8]) -> T {
    found.unwrap_or_else(|difference| {
        panic!(
            "{difference}\nsheet:\n{}\npaper:\n{}",
            show(sheet),
            show(paper)
        )
    })
}

/// Counts an answer.
fn count(seen: &mut Seen, number: u64, place: u64) {
    let seen = seen.entry(number).or_default();
    seen.0 += 1;
    seen.1.insert(place);
}

impl Tally {
    /// The marker on two texts; its answer.
    fn mark(&mut self, sheet: &[u8], paper: &[u8]) -> [u64; 5] {
        self.cases += 1;
        let (got, want) = (library::mark(sheet, paper), reference::mark(sheet, paper));
        let line = reference::fault_line(sheet, paper, want);
        if got != want || frames::fault_line(sheet, paper) != line {
            panic!(
                "mark differs: {got:?}, wanted {want:?}\nsheet:\n{}\npaper:\n{}",
                show(sheet),
                show(paper)
            );
        }
        count(&mut self.marks, got[0], got[1]);
        if matches!(got[0], 0 | 15..=18) {
            self.relays.marked(sheet, paper, got[0], got[1]);
            same(self.colours.marked(sheet, paper, got), sheet, paper);
        }
        same(self.simulator.marked(sheet, paper, got), sheet, paper);
        same(self.widths.marked(sheet, paper, got), sheet, paper);
        same(self.work.marked(sheet, paper, got), sheet, paper);
        same(self.converter.marked(sheet, paper, got), sheet, paper);
        same(self.sorting.marked(sheet, paper, got), sheet, paper);
        got
    }

    /// A planner with a buffer of a length; its answer, and the buffer.
    fn plan(&mut self, planner: Planner, sheet: &[u8], want: &Planned, room: usize) -> Answered {
        self.cases += 1;
        let found = library::compared(planner, sheet, want, room);
        let got = same(found, sheet, &want.text);
        let baseline = self.baseline_plans.planned(planner, sheet, want, room);
        same(baseline, sheet, &want.text);
        let (number, place) = (got.answer.number, got.answer.place);
        count(&mut self.plans[planner.memory as usize], number, place);
        got
    }

    /// A planner with buffers around the exact length, and what it wrote marked on the sheet: the answer in the longest buffer, and the mark.
    fn planner(&mut self, r: &mut Random, planner: Planner, sheet: &[u8]) -> (Answered, [u64; 5]) {
        let want = reference::plan(planner, sheet);
        let n = want.text.len();
        for room in [n, n.saturating_sub(1 + r.below(20))] {
            self.plan(planner, sheet, &want, room);
        }
        let got = self.plan(planner, sheet, &want, n + r.below(40));
        if planner.memory == Aware {
            self.relays.planned(sheet, &want);
            self.colours.planned(sheet, &want);
        }
        same(self.widths.planned(sheet, &got), sheet, got.text());
        let work = self.work.planned(planner, sheet, &want, &got);
        same(work, sheet, got.text());
        let mark = match got.answer.number {
            0 => self.mark(sheet, got.text()),
            _ => [0; 5],
        };
        (got, mark)
    }

    /// The converter, and all planners, on a sheet; the last heuristic's timetable: the memory-aware one's where it is not stuck.
    fn planners(&mut self, r: &mut Random, sheet: &[u8]) -> Option<Vec<u8>> {
        self.convert(sheet);
        let mut paper = None;
        for heuristic in [Heft, MinMin] {
            let (plain, plain_mark) = self.planner(r, heuristic.with(Plain), sheet);
            let (aware, aware_mark) = self.planner(r, heuristic.with(Aware), sheet);
            let pair = plain::Pair {
                heuristic,
                plain: &plain,
                aware: &aware,
                plain_mark,
                aware_mark,
            };
            same(self.plain.planned(sheet, &pair), sheet, plain.text());
            let written = [aware, plain].into_iter().find(|a| a.answer.number == 0);
            paper = written.map(|a| a.text().to_vec()).or(paper);
        }
        paper
    }

    /// The converter on a sheet, and what is stripped of timetables of the converted one.
    fn convert(&mut self, sheet: &[u8]) {
        same(self.converter.sheet(sheet), sheet, b"");
    }

    fn print(&self, name: &str, all: &Seen, due: &[u64]) -> bool {
        let mut ok = true;
        for number in due {
            let (count, places) = all.get(number).map_or((0, 0), |s| (s.0, s.1.len()));
            println!("{name} {number}: {count} cases at {places} places");
            ok &= count > 0;
        }
        ok
    }
}

/// The course example with W on two tasks and limits of 8, for its numbers.
const WITH_WORK: &[u8] = b"(board (blue 1 8) (red 1 8))\n(task 1 4 2)\n(task 2 3 5 1)\n(task 3 2 6 2)\n(file 1 2 2 1)\n(file 1 3 3 2)\n";
const COURSE: &[u8] = b"(board (blue 1 6) (red 1 6))\n(task 1 4 2)\n(task 2 3 5)\n(task 3 2 6)\n(file 1 2 2 1)\n(file 1 3 3 2)\n";
const PAPER: &[u8] =
    b"(run 1 2 0)\n(run 2 1 3)\n(run 3 1 6)\n(move 1 2 2)\n(move 1 3 4)\n(claim 8 5 5)\n";

fn edges(t: &mut Tally) {
    for n in [MAX_TEXT - 1, MAX_TEXT, MAX_TEXT + 1, 70_000] {
        for byte in [b'\n', b'(', 0u8] {
            let long = vec![byte; n];
            t.mark(&long, PAPER);
            t.mark(COURSE, &long);
            for planner in PLANNERS {
                let want = reference::plan(planner, &long);
                t.plan(planner, &long, &want, 100);
            }
            let mut behind = COURSE.to_vec();
            behind.resize(n, byte);
            t.mark(&behind, PAPER);
        }
    }
    for (planner, sheet) in PLANNERS
        .iter()
        .flat_map(|p| [(*p, COURSE), (*p, WITH_WORK)])
    {
        let want = reference::plan(planner, sheet);
        for room in 0..120 {
            t.plan(planner, sheet, &want, room);
        }
    }
    t.mark(b"", b"");
    t.mark(COURSE, b"");
    t.mark(COURSE, PAPER);
    for sheet in [COURSE, WITH_WORK] {
        same(t.sorting.each_byte(sheet, PAPER), sheet, PAPER);
    }
}

/// A sound sheet; two in five have relays, and two in five W.
fn drawn(r: &mut Random, mut sheet: String) -> Vec<u8> {
    if r.below(5) < 2 {
        sheet = generate::with_relays(r, &sheet);
    }
    if r.below(5) < 2 {
        sheet = generate::with_work(r, &sheet);
    }
    sheet.into_bytes()
}

/// Timetables by chance of a sheet, sound and damaged.
fn papers(t: &mut Tally, r: &mut Random, sheet: &[u8], read: &Sheet) {
    for _ in 0..3 {
        let table = generate::table(r, read);
        let paper = reference::write_table(read, &table).into_bytes();
        t.mark(sheet, &paper);
        t.mark(sheet, generate::shifted(r, read, &table).as_bytes());
        t.mark(sheet, &generate::damaged(r, &paper));
        let twice = generate::damaged(r, &paper);
        t.mark(sheet, &generate::damaged(r, &twice));
    }
}

/// Timetables with relays put at, inside and behind other runs, on the sheet with limits close to what they need.
fn relay_papers(t: &mut Tally, r: &mut Random, read: &Sheet) {
    for _ in 0..5 {
        let table = generate::table(r, read);
        let mut beside = generate::put_relay(r, read, &table);
        while r.one_in(4) {
            beside = generate::put_relay(r, read, &beside);
        }
        for put in [beside, generate::put_last(r, read, &table)] {
            let sheet = generate::write_sheet(&generate::limited(r, read, &put));
            let mut paper = reference::write_table(read, &put);
            if r.one_in(8) {
                paper = generate::untrue(r, &paper);
            }
            t.mark(sheet.as_bytes(), paper.as_bytes());
        }
    }
}

/// A fault about W in a task line of a sound sheet; now and then the planners are asked too.
fn work_fault(t: &mut Tally, r: &mut Random, read: &Sheet, number: u64) {
    let kind = number as usize % WORK_FAULTS.len();
    let (sheet, place) = generate::with_work_fault(r, read, WORK_FAULTS[kind].2);
    let [refused, at, ..] = t.mark(&sheet, PAPER);
    same(t.work.fault(kind, place, (refused, at)), &sheet, PAPER);
    t.convert(&sheet);
    if r.one_in(4) {
        for planner in PLANNERS {
            let answer = t.planner(r, planner, &sheet).0.answer;
            let found = t.work.fault(kind, place, (answer.number, answer.place));
            same(found, &sheet, b"");
        }
    }
}

fn round(t: &mut Tally, r: &mut Random, number: u64) {
    let plain = generate::sheet(r, if number % 50 == 0 { 64 } else { 7 });
    let sheet = drawn(r, plain);
    let written = t.planners(r, &sheet);
    let read = reference::read_sheet(&sheet).expect("a sound sheet");
    t.relays.sheet(&read);
    t.work.sheet(&read);
    papers(t, r, &sheet, &read);
    if has_relays(&read) {
        relay_papers(t, r, &read);
    }
    work_fault(t, r, &read, number);
    if let Some(paper) = written {
        for _ in 0..3 {
            t.mark(&sheet, &generate::damaged(r, &paper));
        }
        let bad = generate::damaged(r, &sheet);
        t.mark(&bad, &paper);
    }
    let bad = generate::damaged(r, &sheet);
    t.planners(r, &bad);
    let noise = generate::noise(r);
    t.mark(&noise, &sheet);
    t.mark(&sheet, &noise);
    if number % 40 == 0 {
        let long = generate::long(r, &sheet);
        t.mark(&long, &sheet);
        t.mark(&sheet, &long);
        t.planners(r, &long);
    }
}

/// Sheets of many tasks, some of them with relays too, and each of these with W.
fn large(t: &mut Tally, r: &mut Random) {
    for (tasks, relays) in [(8, 1), (24, 0), (32, 1), (48, 0), (64, 1)] {
        let plain = generate::large_sheet(r, tasks);
        let mut sheets = vec![plain.clone()];
        if relays > 0 {
            let with_relays = generate::with_relays(r, &plain);
            sheets.extend([generate::with_work(r, &with_relays), with_relays]);
        }
        for sheet in sheets {
            let read = reference::read_sheet(sheet.as_bytes()).expect("a sound sheet");
            t.relays.sheet(&read);
            t.work.sheet(&read);
            t.planners(r, sheet.as_bytes());
        }
    }
}

/// A planner's timetable or one by chance; the latter where the planner is stuck.
fn planned_table(r: &mut Random, sheet: &[u8], read: &Sheet) -> Table {
    let plan = reference::plan(PLANNERS[r.below(4)], sheet);
    match reference::read_table(read, &plan.text) {
        Ok((table, _)) if r.one_in(2) => table,
        _ => generate::table(r, read),
    }
}

/// Timetables moved about, so that several faults arise, at one tick and at different ones.
fn moved_papers(t: &mut Tally, r: &mut Random, number: u64) {
    let plain = generate::sheet(r, if number % 200 == 0 { 64 } else { 7 });
    let sheet = drawn(r, plain);
    let read = reference::read_sheet(&sheet).expect("a sound sheet");
    let table = planned_table(r, &sheet, &read);
    for _ in 0..4 {
        let moved = generate::moved_about(r, &read, &table);
        let limited = match r.below(4) {
            0 => read.clone(),
            1 => generate::limited(r, &read, &moved),
            _ => generate::limited_before_fault(&read, &moved),
        };
        let mut paper = generate::write_paper(&read, &moved);
        if r.one_in(6) {
            paper = generate::untrue(r, &paper);
        }
        t.mark(generate::write_sheet(&limited).as_bytes(), paper.as_bytes());
    }
}

/// Timetables by chance put off until about the last tick, former or present, at times with a relay last or with faults; each also with
/// another number.
fn late_papers(t: &mut Tally, r: &mut Random, sheet: &[u8]) {
    let read = reference::read_sheet(sheet).expect("a sound sheet");
    for _ in 0..2 {
        let mut table = generate::table(r, &read);
        match r.below(5) {
            0 | 1 => table = generate::put_last(r, &read, &table),
            2 => table = generate::moved_about(r, &read, &table),
            _ => {}
        }
        let late = generate::late(r, &read, &table);
        let mut paper = if r.one_in(2) {
            reference::write_table(&read, &late)
        } else {
            generate::write_paper(&read, &late)
        };
        t.mark(sheet, &generate::widened(r, paper.as_bytes()));
        if r.one_in(6) {
            paper = generate::untrue(r, &paper);
        }
        t.mark(sheet, paper.as_bytes());
    }
}

/// The planners on a sheet without relays, and on the same in finer ticks.
fn in_finer_ticks(t: &mut Tally, r: &mut Random, sheet: &[u8]) {
    let read = reference::read_sheet(sheet).expect("a sound sheet");
    let most = finer::most(&read);
    if !has_relays(&read) {
        let by = if r.one_in(2) { most } else { 1000 };
        same(t.finer.planned(sheet, by), sheet, b"");
    }
}

/// A board that counts in nanoseconds, late timetables on it and on one that does not, and numbers next to the limits.
fn fine_round(t: &mut Tally, r: &mut Random, number: u64) {
    let tasks = if number.is_multiple_of(50) { 64 } else { 7 };
    let plain = generate::sheet(r, tasks);
    let coarse = drawn(r, plain);
    in_finer_ticks(t, r, &coarse);
    late_papers(t, r, &coarse);
    let fine = generate::with_fine_times(r, &coarse);
    late_papers(t, r, &fine);
    let written = t.planners(r, &fine);
    let wide = generate::widened(r, &coarse);
    t.planners(r, &wide);
    let damaged = generate::damaged(r, &wide);
    for sheet in [&wide, &damaged, &generate::widened(r, &fine)] {
        let paper = written.as_deref().unwrap_or(b"");
        t.mark(sheet, paper);
        t.mark(sheet, &generate::widened(r, paper));
    }
}

/// Finer ticks: each number of the course example replaced by numbers next to the limits, and boards that count in nanoseconds.
fn finer_ticks(t: &mut Tally, rounds: u64) {
    let mut r = Random(5);
    for sheet in generate::each_widened(COURSE) {
        t.mark(&sheet, PAPER);
        t.planners(&mut r, &sheet);
    }
    for sheet in generate::each_widened(WITH_WORK) {
        t.mark(&sheet, PAPER);
        t.convert(&sheet);
    }
    for paper in generate::each_widened(PAPER) {
        t.mark(COURSE, &paper);
    }
    for number in 0..rounds {
        fine_round(t, &mut r, number);
    }
    t.planners(&mut r, &generate::by_turns());
    for tasks in [24, 64] {
        let large = generate::large_sheet(&mut r, tasks);
        let fine = generate::with_fine_times(&mut r, large.as_bytes());
        t.planners(&mut r, &fine);
    }
}

/// Whether peaks from changes are those counted instant by instant, on a timetable.
fn peaks_of(t: &mut Tally, r: &mut Random, sheet: &Sheet, table: &Table) {
    let found = t.changes.timetable(r, sheet, table);
    let [text, paper] = [
        generate::write_sheet(sheet),
        generate::write_paper(sheet, table),
    ];
    same(found, text.as_bytes(), paper.as_bytes());
}

/// Timetables of the planners and by chance, with relays put elsewhere, put off, and moved about.
fn peaks_from_changes(t: &mut Tally, rounds: u64) {
    let mut r = Random(8);
    for number in 0..rounds {
        let plain = generate::sheet(&mut r, if number.is_multiple_of(100) { 64 } else { 7 });
        let sheet = drawn(&mut r, plain);
        let read = reference::read_sheet(&sheet).expect("a sound sheet");
        let table = planned_table(&mut r, &sheet, &read);
        let relay = generate::put_relay(&mut r, &read, &table);
        let last = generate::put_last(&mut r, &read, &relay);
        let late = generate::late(&mut r, &read, &last);
        let moved = generate::moved_about(&mut r, &read, &table);
        for table in [table, late, moved] {
            peaks_of(t, &mut r, &read, &table);
        }
    }
    for (sheet, paper) in [
        generate::all_moved(),
        generate::all_apart(),
        generate::all_apart_with_work(),
    ] {
        let read = reference::read_sheet(&sheet).expect("a sound sheet");
        let (table, _) = reference::read_table(&read, &paper).expect("a sound timetable");
        peaks_of(t, &mut r, &read, &table);
    }
}

/// The planners' staircases: the longest that there are, long ones that are read anywhere, and those of sheets with many files that move, of
/// few tasks and of many.
fn staircases(t: &mut Tally, rounds: u64) {
    let mut r = Random(9);
    same(t.stairs.longest(), b"", b"");
    for _ in 0..6 {
        let sheet = long_stairs::long_read(&mut r);
        same(t.stairs.aware(&sheet), b"", b"");
    }
    for number in 0..rounds {
        let most = match number {
            _ if number.is_multiple_of(100) => 64,
            _ if number.is_multiple_of(10) => 24,
            _ => 8,
        };
        let tasks = most - r.below(most / 2);
        let sheet = long_stairs::crossing(&mut r, tasks);
        same(t.stairs.limited(&mut r, &sheet), b"", b"");
    }
}

/// The planners of the baseline on the published sheets and the examples, and on sheets with many files that move, of few tasks and of many.
fn plans_of_the_baseline(t: &mut Tally, rounds: u64) {
    let mut r = Random(10);
    same(t.baseline_plans.files(), b"", b"");
    for number in 0..rounds {
        let most = match number {
            _ if number.is_multiple_of(20) => 64,
            _ if number.is_multiple_of(5) => 24,
            _ => 8,
        };
        let tasks = most - r.below(most / 2);
        same(t.baseline_plans.crossing(&mut r, tasks), b"", b"");
    }
}

/// The traces worked by hand, the known plans and marks, and timetables that move every file, step by step.
fn by_hand(t: &mut Tally) {
    let traces = t.simulator.by_hand();
    let plans = traces.and(t.plain.by_hand());
    let marks = plans.and(t.widths.by_hand()).and(t.work.by_hand());
    let answers = marks.and(t.converter.by_hand());
    let baseline = t.sorting.by_hand().and(t.baseline_plans.by_hand());
    if let Err(difference) = answers.and(baseline) {
        panic!("{difference}");
    }
    for (sheet, paper) in [generate::all_moved(), generate::all_apart()] {
        t.mark(&sheet, &paper);
        same(t.simulator.walk_through(&sheet, &paper), &sheet, &paper);
    }
    let (sheet, paper) = generate::all_apart_with_work();
    t.mark(&sheet, &paper);
}

/// All comparisons.
fn compare_all(rounds: u64) -> Tally {
    let mut t = Tally::default();
    edges(&mut t);
    let mut r = Random(20_261_115);
    for number in 0..rounds {
        round(&mut t, &mut r, number);
    }
    large(&mut t, &mut r);
    for number in 0..rounds {
        moved_papers(&mut t, &mut r, number);
    }
    finer_ticks(&mut t, rounds / 5);
    peaks_from_changes(&mut t, rounds);
    staircases(&mut t, rounds / 4);
    plans_of_the_baseline(&mut t, rounds / 20);
    by_hand(&mut t);
    t
}

fn main() {
    let rounds: u64 = std::env::args()
        .nth(1)
        .map_or(4000, |a| a.parse().expect("a number of rounds"));
    let t = compare_all(rounds);
    let mut ok = t.print(
        "marker",
        &t.marks,
        &[0, 1, 2, 3, 4, 11, 12, 13, 14, 15, 16, 17, 18],
    );
    let [aware, plain] = &t.plans;
    ok &= t.print("memory-aware planner", aware, &[0, 1, 2, 3, 4, 21, 31]);
    ok &= t.print("plain planner", plain, &[0, 1, 2, 3, 4, 31]);
    t.relays.print();
    t.colours.print();
    t.simulator.print();
    t.plain.print();
    t.widths.print();
    t.finer.print();
    t.work.print();
    t.converter.print();
    t.changes.print();
    t.sorting.print();
    t.baseline_plans.print();
    t.stairs.print();
    println!("{} cases, no difference", t.cases);
    let mut faults = [t.relays.faults(), t.colours.faults()].concat();
    faults.extend(t.simulator.faults());
    faults.extend(t.plain.faults());
    faults.extend(t.widths.faults());
    faults.extend(t.finer.faults());
    faults.extend(t.work.faults());
    faults.extend(t.converter.faults());
    faults.extend(t.changes.faults());
    faults.extend(t.sorting.faults());
    faults.extend(t.baseline_plans.faults());
    faults.extend(t.stairs.faults());
    if !ok {
        faults.push("an answer was never reached".to_string());
    }
    for fault in &faults {
        eprintln!("{fault}");
    }
    if !faults.is_empty() {
        std::process::exit(1);
    }
}
