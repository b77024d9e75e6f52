//! An implementation of document 01 with Orders 1, 2, 4, 5 and 6 for tests, written from the documents in another way than the proved code:
//! texts are split into words, memory is a list of changes sorted by tick, weights are by recursion.
//!
//! What a planner tries and places, and the marker's 16, go by Order 2's four cases of maker and reader. Which move lines are due and
//! what a memory holds go by whether the two colours differ (`moves`), so that the two ways of saying it meet in the comparison.

use std::collections::BTreeMap;
use Colour::{Blue, Red};
use Heuristic::{Heft, MinMin};
use Memory::{Aware, Plain};

// ---- the limits of both texts: this place alone sets them

/// Bytes of a text.
pub const MAX_TEXT: usize = 32_768;

/// Tasks of a sheet, and the greatest task number.
pub const MAX_TASKS: i64 = 64;

/// Files of a sheet.
pub const MAX_FILES: usize = 256;

/// P: the processors of one colour, at least 1.
pub const MAX_PROCESSORS: i64 = 8;

/// M: a memory limit.
pub const MAX_LIMIT: i64 = 999_999_999;

/// F: a file's size.
pub const MAX_SIZE: i64 = 1_000_000;

/// W: a task's working memory, at least 1 where it is written.
pub const MAX_WORK: i64 = 1_000_000;

/// The limits that Order 5 made wider.
#[derive(Clone, Copy, Debug, PartialEq, Eq)]
pub struct Widths {
    /// digits of a number
    pub digits: usize,
    /// B and R: a run time, 0 for a relay
    pub run_time: i64,
    /// C: a move time, at least 1
    pub move_time: i64,
    /// s, t and each number of a claim
    pub tick: i64,
}

/// Before Order 5.
pub const FORMER: Widths = Widths {
    digits: 9,
    run_time: 1_000_000,
    move_time: 1_000_000,
    tick: 999_999_999,
};

/// From Order 5 on.
pub const CURRENT: Widths = Widths {
    digits: 12,
    run_time: 1_000_000_000,
    move_time: 1_000_000_000,
    tick: 999_999_999_999,
};

/// By which rules texts are read.
#[derive(Clone, Copy, Debug, PartialEq, Eq)]
pub struct Rules {
    pub widths: Widths,
    /// whether a task line may have W
    pub work: bool,
}

/// The present rules.
pub const PRESENT: Rules = Rules {
    widths: CURRENT,
    work: true,
};

/// Before Order 6.
pub const WITHOUT_WORK: Rules = Rules {
    widths: CURRENT,
    work: false,
};

pub type Refused = (u64, u64);

/// The colour of a processor and its memory; blue is before red.
#[derive(Clone, Copy, Debug, PartialEq, Eq, PartialOrd, Ord)]
pub enum Colour {
    Blue,
    Red,
}

/// How often something was met, by the colours of maker and reader.
pub type ByCase = [[u64; 2]; 2];

#[derive(Clone, Debug)]
pub struct File {
    pub maker: usize,
    pub reader: usize,
    pub size: i64,
    pub time: i64,
}

#[derive(Clone, Debug)]
pub struct Task {
    /// run times on blue and on red
    pub times: [i64; 2],
    /// W, the working memory; 0 if it is left out
    pub work: i64,
}

#[derive(Clone, Debug)]
pub struct Sheet {
    pub processors: [i64; 2],
    pub limits: [i64; 2],
    pub tasks: Vec<Task>,
    pub files: Vec<File>,
}

#[derive(Clone, Debug)]
pub struct Table {
    /// processor from 1, and start; None where not placed
    pub runs: Vec<Option<(i64, i64)>>,
    /// start of each file's move; of no meaning for an unmoved file
    pub moves: Vec<i64>,
}

// ---- text

/// The lines of a text, each with whether it has its LF.
fn lines(text: &[u8]) -> Vec<(&[u8], bool)> {
    let mut all: Vec<(&[u8], bool)> = text.split(|b| *b == b'\n').map(|l| (l, true)).collect();
    let (last, _) = all.pop().unwrap();
    if !last.is_empty() {
        all.push((last, false));
    }
    all
}

/// The forms of a sheet's lines, and of a timetable's, with `#` for a number. A task line is written in two ways: without W, and with it.
pub const SHEET_FORMS: [&str; 4] = [
    "(board (blue # #) (red # #))",
    "(task # # #)",
    "(file # # # #)",
    "(task # # # #)",
];
pub const TABLE_FORMS: [&str; 3] = ["(run # # #)", "(move # # #)", "(claim # # #)"];

/// The numbers of a line, if it is `form` with a numeral of at most so many digits for each `#`.
fn numbers(line: &[u8], form: &str, most_digits: usize) -> Option<Vec<i64>> {
    let mut words = std::str::from_utf8(line).ok()?.split(' ');
    let mut all = Vec::new();
    for want in form.split(' ') {
        let word = words.next()?;
        if let Some((front, back)) = want.split_once('#') {
            let inner = word.strip_prefix(front)?.strip_suffix(back)?;
            let digits = inner.bytes().all(|b| b.is_ascii_digit());
            if inner.is_empty()
                || !digits
                || inner.len() > most_digits
                || (inner.len() > 1 && inner.starts_with('0'))
            {
                return None;
            }
            all.push(inner.parse().unwrap());
        } else if word != want {
            return None;
        }
    }
    words.next().is_none().then_some(all)
}

/// The least and the greatest value of a number.
type Range = (i64, i64);

/// What makes a line readable: the forms, each with the ranges of its numbers, and the most digits of a number.
struct Reading {
    forms: Vec<(&'static str, Vec<Range>)>,
    digits: usize,
    /// 0 for a sheet and 10 for a timetable
    base: u64,
}

impl Reading {
    fn of_sheet(rules: Rules) -> Reading {
        let widths = rules.widths;
        let (processors, limit) = ((1, MAX_PROCESSORS), (0, MAX_LIMIT));
        let (task, size, work) = ((1, MAX_TASKS), (0, MAX_SIZE), (1, MAX_WORK));
        let (run_time, move_time) = ((0, widths.run_time), (1, widths.move_time));
        let ranges = [
            vec![processors, limit, processors, limit],
            vec![task, run_time, run_time],
            vec![task, task, size, move_time],
            vec![task, run_time, run_time, work],
        ];
        let known = if rules.work { 4 } else { 3 };
        Reading {
            forms: SHEET_FORMS.into_iter().zip(ranges).take(known).collect(),
            digits: widths.digits,
            base: 0,
        }
    }

    fn of_table(rules: Rules, sheet: &Sheet) -> Reading {
        let processor = (1, sheet.processors[0] + sheet.processors[1]);
        let (task, tick) = ((1, MAX_TASKS), (0, rules.widths.tick));
        let ranges = [
            vec![task, processor, tick],
            vec![task, task, tick],
            vec![tick, tick, tick],
        ];
        Reading {
            forms: TABLE_FORMS.into_iter().zip(ranges).collect(),
            digits: rules.widths.digits,
            base: 10,
        }
    }

    /// A readable line: which of the forms, and its numbers.
    fn line(&self, (line, ended): (&[u8], bool)) -> Result<(usize, Vec<i64>), u64> {
        if !ended {
            return Err(self.base + 2);
        }
        for (kind, (form, ranges)) in self.forms.iter().enumerate() {
            if let Some(vs) = numbers(line, form, self.digits) {
                let mut numbers = vs.iter().zip(ranges);
                return if numbers.all(|(n, (least, most))| least <= n && n <= most) {
                    Ok((kind, vs))
                } else {
                    Err(self.base + 3)
                };
            }
        }
        Err(self.base + 2)
    }
}

pub fn read_sheet(text: &[u8]) -> Result<Sheet, Refused> {
    read_sheet_by(PRESENT, text)
}

/// The reading of a sheet by former or by present rules.
pub fn read_sheet_by(rules: Rules, text: &[u8]) -> Result<Sheet, Refused> {
    if text.len() > MAX_TEXT {
        return Err((1, 0));
    }
    let reading = Reading::of_sheet(rules);
    let mut sheet: Option<Sheet> = None;
    let all = lines(text);
    for (at, line) in all.iter().enumerate() {
        let place = at as u64 + 1;
        let (kind, v) = reading.line(*line).map_err(|n| (n, place))?;
        match (&mut sheet, kind) {
            (None, 0) => {
                sheet = Some(Sheet {
                    processors: [v[0], v[2]],
                    limits: [v[1], v[3]],
                    tasks: vec![],
                    files: vec![],
                })
            }
            (Some(s), 1 | 3) if s.files.is_empty() && v[0] == s.tasks.len() as i64 + 1 => {
                s.tasks.push(Task {
                    times: [v[1], v[2]],
                    work: v.get(3).copied().unwrap_or(0),
                })
            }
            (Some(s), 2) if s.allows_file(v[0], v[1]) => s.files.push(File {
                maker: v[0] as usize - 1,
                reader: v[1] as usize - 1,
                size: v[2],
                time: v[3],
            }),
            _ => return Err((4, place)),
        }
    }
    match sheet {
        Some(s) if !s.tasks.is_empty() => Ok(s),
        _ => Err((2, all.len() as u64 + 1)),
    }
}

impl Sheet {
    /// Whether a file with this maker and this reader may come next.
    fn allows_file(&self, i: i64, j: i64) -> bool {
        let above = self
            .files
            .last()
            .is_none_or(|f| (f.maker as i64 + 1, f.reader as i64 + 1) < (i, j));
        i < j && j <= self.tasks.len() as i64 && above && self.files.len() < MAX_FILES
    }

    pub fn colour(&self, processor: i64) -> Colour {
        if processor <= self.processors[0] {
            Blue
        } else {
            Red
        }
    }

    pub fn run_time(&self, i: usize, colour: Colour) -> i64 {
        self.tasks[i].times[colour as usize]
    }
}

pub struct Claim {
    pub span: i64,
    pub peaks: [i64; 2],
}

pub fn read_table(sheet: &Sheet, text: &[u8]) -> Result<(Table, Claim), Refused> {
    read_table_by(PRESENT, sheet, text)
}

/// The reading of a timetable by former or by present rules.
pub fn read_table_by(rules: Rules, sheet: &Sheet, text: &[u8]) -> Result<(Table, Claim), Refused> {
    if text.len() > MAX_TEXT {
        return Err((11, 0));
    }
    let reading = Reading::of_table(rules, sheet);
    let all = lines(text);
    let mut at = 0;
    let mut next = |due: &dyn Fn(usize, &[i64]) -> bool| -> Result<Vec<i64>, Refused> {
        let place = at as u64 + 1;
        let line = all.get(at).ok_or((12, place))?;
        let (kind, v) = reading.line(*line).map_err(|n| (n, place))?;
        if !due(kind, &v) {
            return Err((14, place));
        }
        at += 1;
        Ok(v)
    };
    let mut table = Table {
        runs: vec![],
        moves: vec![],
    };
    for i in 0..sheet.tasks.len() {
        let v = next(&|kind, v| kind == 0 && v[0] == i as i64 + 1)?;
        table.runs.push(Some((v[1], v[2])));
    }
    for f in &sheet.files {
        let t = if moves(sheet, &table, f) {
            next(&|kind, v| kind == 1 && v[0] == f.maker as i64 + 1 && v[1] == f.reader as i64 + 1)?
                [2]
        } else {
            0
        };
        table.moves.push(t);
    }
    let v = next(&|kind, _| kind == 2)?;
    if all.len() > at {
        let place = at as u64 + 1;
        return Err((reading.line(all[at]).err().unwrap_or(14), place));
    }
    Ok((
        table,
        Claim {
            span: v[0],
            peaks: [v[1], v[2]],
        },
    ))
}

// ---- schedules

fn run(table: &Table, i: usize) -> (i64, i64) {
    table.runs[i].unwrap()
}

/// The colour of a placed task.
fn task_colour(sheet: &Sheet, table: &Table, i: usize) -> Colour {
    sheet.colour(run(table, i).0)
}

/// The colours of a file's maker and reader.
pub fn colours(sheet: &Sheet, table: &Table, f: &File) -> (Colour, Colour) {
    (
        task_colour(sheet, table, f.maker),
        task_colour(sheet, table, f.reader),
    )
}

/// The actual move time of a file (document 001, section 3.1), by the colours of its maker and its reader.
fn actual_move_time(maker: Colour, reader: Colour, f: &File) -> i64 {
    match (maker, reader) {
        (Blue, Blue) => 0,
        (Red, Red) => 0,
        (Blue, Red) => f.time,
        (Red, Blue) => f.time,
    }
}

/// What the reader's colour must newly hold of a file.
fn newly_held(maker: Colour, reader: Colour, f: &File) -> i64 {
    match (maker, reader) {
        (Blue, Blue) => 0,
        (Red, Red) => 0,
        (Blue, Red) => f.size,
        (Red, Blue) => f.size,
    }
}

/// Whether a file's tasks run in memories of different colour.
pub fn moves(sheet: &Sheet, table: &Table, f: &File) -> bool {
    let (maker, reader) = colours(sheet, table, f);
    maker != reader
}

pub fn finish(sheet: &Sheet, table: &Table, i: usize) -> i64 {
    let (p, s) = run(table, i);
    s + sheet.run_time(i, sheet.colour(p))
}

/// Until when the inputs of a run and its W are held in its memory: its finish; until s + 1 for a run of time 0 at s.
pub fn release(sheet: &Sheet, table: &Table, i: usize) -> i64 {
    let (p, s) = run(table, i);
    match sheet.run_time(i, sheet.colour(p)) {
        0 => s + 1,
        time => s + time,
    }
}

/// Two runs share an instant when each starts before the other's finish.
fn share(sheet: &Sheet, table: &Table, i: usize, j: usize) -> bool {
    run(table, i).1 < finish(sheet, table, j) && run(table, j).1 < finish(sheet, table, i)
}

/// The holds of one memory, of files and of each W that is not left out: size, first tick, and the tick at which it ends, if it does.
fn holds(sheet: &Sheet, table: &Table, colour: Colour) -> Vec<(i64, i64, Option<i64>)> {
    let mut all = vec![];
    for (k, f) in sheet.files.iter().enumerate() {
        let Some((p, s)) = table.runs[f.maker] else {
            continue;
        };
        let here = sheet.colour(p) == colour;
        match table.runs[f.reader] {
            None if here => all.push((f.size, s, None)),
            None => {}
            Some(_) => {
                let end = release(sheet, table, f.reader);
                let moved = moves(sheet, table, f);
                let t = table.moves[k];
                if here && !moved {
                    all.push((f.size, s, Some(end)));
                } else if here {
                    all.push((f.size, s, Some(t + f.time)));
                } else if moved {
                    all.push((f.size, t, Some(end)));
                }
            }
        }
    }
    for (i, task) in sheet.tasks.iter().enumerate() {
        match table.runs[i] {
            Some((p, s)) if task.work > 0 && sheet.colour(p) == colour => {
                all.push((task.work, s, Some(release(sheet, table, i))))
            }
            _ => {}
        }
    }
    all
}

/// What a memory holds from each tick of change on, by tick.
pub fn profile(sheet: &Sheet, table: &Table, colour: Colour) -> Vec<(i64, i64)> {
    let mut change: BTreeMap<i64, i64> = BTreeMap::new();
    change.insert(0, 0);
    for (size, from, end) in holds(sheet, table, colour) {
        if end.map_or(true, |e| from < e) {
            *change.entry(from).or_default() += size;
            if let Some(e) = end {
                *change.entry(e).or_default() -= size;
            }
        }
    }
    let mut total = 0;
    change
        .into_iter()
        .map(|(t, d)| {
            total += d;
            (t, total)
        })
        .collect()
}

pub fn peaks(sheet: &Sheet, table: &Table) -> [i64; 2] {
    [Blue, Red].map(|c| profile(sheet, table, c).iter().map(|p| p.1).max().unwrap())
}

pub fn span(sheet: &Sheet, table: &Table) -> i64 {
    (0..sheet.tasks.len())
        .map(|i| finish(sheet, table, i))
        .max()
        .unwrap()
}

/// Whether a file's move or its reader starts early, a cause of 16; an unmoved file arrives when it is made.
pub fn early(sheet: &Sheet, table: &Table, k: usize) -> bool {
    let f = &sheet.files[k];
    let (maker, reader) = colours(sheet, table, f);
    let made = finish(sheet, table, f.maker);
    let time = actual_move_time(maker, reader, f);
    let t = if time == 0 { made } else { table.moves[k] };
    t < made || run(table, f.reader).1 < t + time
}

/// 15 to 17: the first fault of a complete timetable.
pub fn fault(sheet: &Sheet, table: &Table) -> Option<Refused> {
    let n = sheet.tasks.len();
    let mut shared = vec![];
    for i in 0..n {
        for j in i + 1..n {
            if run(table, i).0 == run(table, j).0 && share(sheet, table, i, j) {
                shared.push(i);
            }
        }
    }
    if let Some(i) = shared.iter().min() {
        return Some((15, *i as u64 + 1));
    }
    let late = (0..sheet.files.len()).filter(|k| early(sheet, table, *k));
    if let Some(j) = late.map(|k| sheet.files[k].reader).min() {
        return Some((16, j as u64 + 1));
    }
    let over: Vec<i64> = [Blue, Red]
        .iter()
        .flat_map(|c| {
            profile(sheet, table, *c)
                .into_iter()
                .filter(|p| p.1 > sheet.limits[*c as usize])
                .map(|p| p.0)
                .collect::<Vec<_>>()
        })
        .collect();
    over.iter().min().map(|t| (17, *t as u64))
}

/// The marker: number, place, span and peaks.
pub fn mark(sheet: &[u8], paper: &[u8]) -> [u64; 5] {
    mark_by(PRESENT, sheet, paper)
}

/// The marker by former or by present rules.
pub fn mark_by(rules: Rules, sheet: &[u8], paper: &[u8]) -> [u64; 5] {
    let refused = |r: Refused| [r.0, r.1, 0, 0, 0];
    let sheet = match read_sheet_by(rules, sheet) {
        Ok(s) => s,
        Err(r) => return refused(r),
    };
    let (table, claim) = match read_table_by(rules, &sheet, paper) {
        Ok(t) => t,
        Err(r) => return refused(r),
    };
    if let Some(r) = fault(&sheet, &table) {
        return refused(r);
    }
    let peaks = peaks(&sheet, &table);
    if claim.span != span(&sheet, &table) || claim.peaks != peaks {
        return refused((18, 0));
    }
    [0, 0, claim.span as u64, peaks[0] as u64, peaks[1] as u64]
}

/// The line at fault by a mark.
pub fn fault_line(sheet: &[u8], paper: &[u8], mark: [u64; 5]) -> Vec<u8> {
    let text = match mark[0] {
        1..=4 => sheet,
        11..=14 => paper,
        _ => return vec![],
    };
    match mark[1] {
        0 => vec![],
        k => lines(text)
            .get(k as usize - 1)
            .map_or(vec![], |l| l.0.to_vec()),
    }
}

// ---- planners

/// Which ready tasks a round tries, and which of them it places.
#[derive(Clone, Copy, Debug, PartialEq, Eq)]
pub enum Heuristic {
    Heft,
    MinMin,
}

/// Whether a trial asks for free memory: starts 3 and 4. The plain planners leave them out.
#[derive(Clone, Copy, Debug, PartialEq, Eq)]
pub enum Memory {
    Aware,
    Plain,
}

/// A planner: MemHEFT or MemMinMin if it is memory-aware, HEFT or MINMIN if it is plain.
#[derive(Clone, Copy, Debug, PartialEq, Eq)]
pub struct Planner {
    pub heuristic: Heuristic,
    pub memory: Memory,
}

impl Heuristic {
    pub const fn with(self, memory: Memory) -> Planner {
        Planner {
            heuristic: self,
            memory,
        }
    }
}

/// HEFT, MemHEFT, MINMIN and MemMinMin.
pub const PLANNERS: [Planner; 4] = [
    Heft.with(Plain),
    Heft.with(Aware),
    MinMin.with(Plain),
    MinMin.with(Aware),
];

/// What a planner met in its trials.
#[derive(Clone, Copy, Debug, Default)]
pub struct Met {
    /// the files read, by the colours of their maker and of the trial
    pub files: ByCase,
    /// trials with a later start than they would have if start 3 did not ask for W
    pub later: u64,
    /// trials that do not fit, and would if start 3 did not ask for W
    pub unfit: u64,
}

/// A task that a round would place, with its finish, colour and start.
type Choice = (i64, usize, Colour, i64);

impl Met {
    /// A trial with a start by the other starts, and with start 3 by the files alone and with W.
    fn work(&mut self, start: i64, files_alone: Option<i64>, running: Option<i64>) {
        match (files_alone, running) {
            (Some(_), None) => self.unfit += 1,
            (Some(t), Some(with_work)) if start.max(t) < with_work => self.later += 1,
            _ => {}
        }
    }
}

struct State<'a> {
    sheet: &'a Sheet,
    memory: Memory,
    table: Table,
    last: Vec<i64>,
    trials: u64,
    met: Met,
}

impl<'a> State<'a> {
    /// Before the first round.
    fn new(sheet: &'a Sheet, memory: Memory) -> State<'a> {
        State {
            sheet,
            memory,
            table: Table {
                runs: vec![None; sheet.tasks.len()],
                moves: vec![0; sheet.files.len()],
            },
            last: vec![0; (sheet.processors[0] + sheet.processors[1]) as usize],
            trials: 0,
            met: Met::default(),
        }
    }

    fn slots(&self, colour: Colour) -> std::ops::Range<usize> {
        let blue = self.sheet.processors[0] as usize;
        match colour {
            Blue => 0..blue,
            Red => blue..self.last.len(),
        }
    }

    fn inputs(&self, i: usize) -> Vec<(usize, &'a File)> {
        self.sheet
            .files
            .iter()
            .enumerate()
            .filter(|(_, f)| f.reader == i)
            .collect()
    }

    fn ready(&self, i: usize) -> bool {
        self.table.runs[i].is_none()
            && self
                .inputs(i)
                .iter()
                .all(|(_, f)| self.table.runs[f.maker].is_some())
    }

    /// The first tick from which on the memory always has `need` free.
    fn free_from(&self, colour: Colour, need: i64) -> Option<i64> {
        let mut first = None;
        for (t, held) in profile(self.sheet, &self.table, colour).into_iter().rev() {
            if held + need > self.sheet.limits[colour as usize] {
                break;
            }
            first = Some(t);
        }
        first
    }

    /// The earliest start of a task on a colour.
    fn start(&mut self, i: usize, colour: Colour) -> Option<i64> {
        self.trials += 1;
        let (mut arrived, mut longest, mut newly) = (0, 0, 0);
        for (_, f) in self.inputs(i) {
            let maker = task_colour(self.sheet, &self.table, f.maker);
            let time = actual_move_time(maker, colour, f);
            arrived = arrived.max(finish(self.sheet, &self.table, f.maker) + time);
            longest = longest.max(time);
            newly += newly_held(maker, colour, f);
            self.met.files[maker as usize][colour as usize] += 1;
        }
        let made: i64 = self
            .sheet
            .files
            .iter()
            .filter(|f| f.maker == i)
            .map(|f| f.size)
            .sum();
        let processor = self.slots(colour).map(|p| self.last[p]).min().unwrap();
        let start = processor.max(arrived);
        match self.memory {
            Plain => Some(start),
            Aware => {
                let work = self.sheet.tasks[i].work;
                let running = self.free_from(colour, newly + made + work);
                let moving = self.free_from(colour, newly)? + longest;
                let start = start.max(moving);
                if work > 0 {
                    let files_alone = self.free_from(colour, newly + made);
                    self.met.work(start, files_alone, running);
                }
                Some(start.max(running?))
            }
        }
    }

    /// Both colours: finish, colour and start of the better.
    fn best(&mut self, i: usize) -> Option<(i64, Colour, i64)> {
        [Blue, Red]
            .iter()
            .filter_map(|c| {
                self.start(i, *c)
                    .map(|s| (s + self.sheet.run_time(i, *c), *c, s))
            })
            .min_by_key(|b| (b.0, b.1))
    }

    fn place(&mut self, i: usize, colour: Colour, start: i64) {
        let latest = self
            .slots(colour)
            .filter(|p| self.last[*p] <= start)
            .map(|p| self.last[p])
            .max()
            .unwrap();
        let slot = self
            .slots(colour)
            .find(|p| self.last[*p] == latest)
            .unwrap();
        for (k, f) in self.inputs(i) {
            let maker = task_colour(self.sheet, &self.table, f.maker);
            self.table.moves[k] = start - actual_move_time(maker, colour, f);
        }
        self.table.runs[i] = Some((slot as i64 + 1, start));
        self.last[slot] = start + self.sheet.run_time(i, colour);
    }

    /// HEFT's round: the first of the list that fits.
    fn first(&mut self, list: &[usize]) -> Option<Choice> {
        list.iter().find_map(|i| {
            let (f, c, t) = self.ready(*i).then(|| self.best(*i))??;
            Some((f, *i, c, t))
        })
    }

    /// MINMIN's round: the earliest finish of all that fit.
    fn earliest(&mut self) -> Option<Choice> {
        let mut choice: Option<Choice> = None;
        for i in 0..self.sheet.tasks.len() {
            if self.ready(i) {
                if let Some((f, c, t)) = self.best(i) {
                    choice = choice.filter(|b| b.0 <= f).or(Some((f, i, c, t)));
                }
            }
        }
        choice
    }

    /// Round by round until all tasks are placed; the tasks placed if a round is stuck.
    fn place_all(&mut self, heuristic: Heuristic) -> Result<(), u64> {
        let n = self.sheet.tasks.len();
        let list = by_weight(self.sheet);
        for placed in 0..n {
            let choice = match heuristic {
                Heft => self.first(&list),
                MinMin => self.earliest(),
            };
            let (_, i, c, t) = choice.ok_or(placed as u64)?;
            self.place(i, c, t);
        }
        Ok(())
    }
}

fn weight(sheet: &Sheet, i: usize, known: &mut Vec<Option<i64>>) -> i64 {
    if let Some(w) = known[i] {
        return w;
    }
    let behind = sheet
        .files
        .iter()
        .filter(|f| f.maker == i)
        .map(|f| f.time + weight(sheet, f.reader, known))
        .max()
        .unwrap_or(0);
    let [blue, red] = sheet.tasks[i].times;
    let w = blue + red + behind;
    known[i] = Some(w);
    w
}

/// The tasks by falling weight, ties to the lower task.
pub fn by_weight(sheet: &Sheet) -> Vec<usize> {
    let n = sheet.tasks.len();
    let mut known = vec![None; n];
    let mut list: Vec<usize> = (0..n).collect();
    list.sort_by_key(|i| std::cmp::Reverse(weight(sheet, *i, &mut known)));
    list
}

pub struct Planned {
    pub number: u64,
    pub place: u64,
    pub trials: u64,
    pub met: Met,
    pub text: Vec<u8>,
}

/// A planner on a sheet. 31 is left to the caller.
pub fn plan(planner: Planner, text: &[u8]) -> Planned {
    plan_by(PRESENT, planner, text)
}

/// A planner by former or by present rules.
pub fn plan_by(rules: Rules, planner: Planner, text: &[u8]) -> Planned {
    let refused = |r: Refused, trials, met| Planned {
        number: r.0,
        place: r.1,
        trials,
        met,
        text: vec![],
    };
    let sheet = match read_sheet_by(rules, text) {
        Ok(s) => s,
        Err(r) => return refused(r, 0, Met::default()),
    };
    let mut s = State::new(&sheet, planner.memory);
    if let Err(placed) = s.place_all(planner.heuristic) {
        return refused((21, placed), s.trials, s.met);
    }
    let text = write_table(&sheet, &s.table).into_bytes();
    Planned {
        number: 0,
        place: text.len() as u64,
        trials: s.trials,
        met: s.met,
        text,
    }
}

/// The due lines of a complete timetable, with its true claim.
pub fn write_table(sheet: &Sheet, table: &Table) -> String {
    let mut text = String::new();
    for i in 0..sheet.tasks.len() {
        let (p, s) = run(table, i);
        text += &format!("(run {} {} {})\n", i + 1, p, s);
    }
    for (k, f) in sheet.files.iter().enumerate() {
        if moves(sheet, table, f) {
            text += &format!(
                "(move {} {} {})\n",
                f.maker + 1,
                f.reader + 1,
                table.moves[k]
            );
        }
    }
    let [b, r] = peaks(sheet, table);
    text + &format!("(claim {} {} {})\n", span(sheet, table), b, r)
}
