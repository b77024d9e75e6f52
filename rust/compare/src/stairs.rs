//! Order 9's staircases, written from the documents: a list of pairs of a tick and what is free in a memory from there on, until the next
//! pair. They are counted anew after each placing of a planner of its own, which reads starts 3 and 4 from them. Each of them must be what
//! reference.rs has by sorted changes, each start that of a walk over all ticks where the timetable is short, and the answer, the bytes and
//! the trials those of reference.rs and of the library. How often each kind was reached, and the longest staircase.

use crate::generate::{write_sheet, Random};
use crate::library;
use crate::long_stairs::{
    least, least_apart, longest, most_pairs, with_limits, Wait, AWARE, MOST_PAIRS, WAITS,
};
use crate::reference::{
    by_weight, finish, peaks, plan, profile, read_table, release, write_table, Colour, File,
    Heuristic, Memory, Planner, Sheet, Table, MAX_LIMIT, PLANNERS,
};
use crate::work_promises::{in_words, Rows};
use std::collections::BTreeSet;
use Colour::{Blue, Red};
use Memory::Aware;

/// Staircases that end by this tick are also counted at every tick.
const SHORT: i64 = 20_000;

/// A tick, and what is free from there on.
pub type Pair = (i64, i64);

/// An amount held from a tick on, until another or for ever.
#[derive(Clone, Copy)]
struct Hold {
    amount: i64,
    from: i64,
    until: Option<i64>,
}

impl Hold {
    fn holds_at(&self, tick: i64) -> bool {
        self.from <= tick && self.until.is_none_or(|end| tick < end)
    }
}

/// What a memory holds of a partial timetable, by document 01 with Orders 1 and 6.
fn holds(sheet: &Sheet, table: &Table, memory: Colour) -> Vec<Hold> {
    let run = |i: usize| table.runs[i].map(|(p, start)| (sheet.colour(p), start));
    let mut all = vec![];
    let mut hold = |colour: Colour, amount: i64, from: i64, until: Option<i64>| {
        if colour == memory {
            all.push(Hold {
                amount,
                from,
                until,
            });
        }
    };
    for (f, &t) in sheet.files.iter().zip(&table.moves) {
        let Some((maker, made_from)) = run(f.maker) else {
            continue;
        };
        let Some((reader, _)) = run(f.reader) else {
            hold(maker, f.size, made_from, None);
            continue;
        };
        let read_until = Some(release(sheet, table, f.reader));
        if maker == reader {
            hold(maker, f.size, made_from, read_until);
        } else {
            hold(maker, f.size, made_from, Some(t + f.time));
            hold(reader, f.size, t, read_until);
        }
    }
    for (i, task) in sheet.tasks.iter().enumerate() {
        if let (Some((colour, start)), 1..) = (run(i), task.work) {
            hold(colour, task.work, start, Some(release(sheet, table, i)));
        }
    }
    all
}

/// Pairs at rising ticks, those left out at which nothing changes.
fn merged(pairs: impl Iterator<Item = Pair>) -> Vec<Pair> {
    let mut all: Vec<Pair> = vec![];
    for pair in pairs {
        if all.last().is_none_or(|before| before.1 != pair.1) {
            all.push(pair);
        }
    }
    all
}

/// What is free in a memory of a partial timetable.
struct Free {
    staircase: Vec<Pair>,
    /// at every tick up to the last one at which a hold starts or ends, if that is early enough
    ticks: Option<Vec<i64>>,
    /// ticks at which holds start or end and the staircase has no pair: with an amount over 0, and with amounts of 0 alone
    unchanged: [u64; 2],
}

/// The staircase of a memory of a partial or complete timetable.
pub fn staircase(sheet: &Sheet, table: &Table, memory: Colour) -> Vec<Pair> {
    Free::of(sheet, table, memory).staircase
}

impl Free {
    fn of(sheet: &Sheet, table: &Table, memory: Colour) -> Free {
        Free::new(sheet.limits[memory as usize], &holds(sheet, table, memory))
    }

    fn new(limit: i64, holds: &[Hold]) -> Free {
        let ends = |h: &Hold| [Some(h.from), h.until].into_iter().flatten();
        let ticks: BTreeSet<i64> = holds.iter().flat_map(ends).chain([0]).collect();
        let free = |tick: i64| {
            let held = holds.iter().filter(|h| h.holds_at(tick));
            limit - held.map(|h| h.amount).sum::<i64>()
        };
        let staircase = merged(ticks.iter().map(|t| (*t, free(*t))));
        let pairs: BTreeSet<i64> = staircase.iter().map(|p| p.0).collect();
        let mut unchanged = [0; 2];
        for tick in ticks.difference(&pairs) {
            let mut here = holds.iter().filter(|h| ends(h).any(|end| end == *tick));
            unchanged[usize::from(here.all(|h| h.amount == 0))] += 1;
        }
        let last = *ticks.last().unwrap();
        Free {
            staircase,
            ticks: (last <= SHORT).then(|| at_every_tick(limit, holds, last)),
            unchanged,
        }
    }

    /// Whether the staircase begins at tick 0, rises, has no equal neighbours, and has what is free at each tick of a short one.
    fn is_sound(&self) -> bool {
        let stairs = &self.staircase;
        let mut neighbours = stairs.windows(2);
        let mut ticks = self.ticks.iter();
        stairs[0].0 == 0
            && neighbours.all(|w| w[0].0 < w[1].0 && w[0].1 != w[1].1)
            && ticks.all(|ticks| self.until(ticks.len() as i64) == *ticks)
    }

    /// What the staircase has at each tick before one past its end.
    fn until(&self, end: i64) -> Vec<i64> {
        let starts = self.staircase.iter().skip(1).map(|p| p.0);
        let steps = self.staircase.iter().zip(starts.chain([end]));
        let step = |(pair, end): (&Pair, i64)| std::iter::repeat_n(pair.1, (end - pair.0) as usize);
        steps.flat_map(step).collect()
    }

    /// The first tick from which on always so much is free, by the staircase.
    fn always_from(&self, need: i64) -> Option<i64> {
        let enough = self.staircase.iter().rev().take_while(|p| p.1 >= need);
        enough.last().map(|p| p.0)
    }

    /// The same by ticks, of a short one.
    fn always_from_by_ticks(&self, need: i64) -> Option<Option<i64>> {
        let ticks = self.ticks.as_ref()?;
        let first = match ticks.iter().rposition(|free| *free < need) {
            None => 0,
            Some(tick) => tick + 1,
        };
        Some((first < ticks.len()).then_some(first as i64))
    }

    /// The first tick at which so much is free, though less may be later.
    fn once_at(&self, need: i64) -> Option<i64> {
        let enough = self.staircase.iter().find(|p| p.1 >= need);
        enough.map(|p| p.0)
    }
}

/// What is free at each tick until the last.
fn at_every_tick(limit: i64, holds: &[Hold], last: i64) -> Vec<i64> {
    let mut free = vec![limit; last as usize + 1];
    for h in holds {
        let until = h.until.unwrap_or(last + 1);
        for tick in &mut free[h.from as usize..until as usize] {
            *tick -= h.amount;
        }
    }
    free
}

/// Finish, task, colour and start of a trial that fits; the least is placed.
type Trial = (i64, usize, Colour, i64);

/// A planner with its partial timetable.
struct Planning<'a> {
    sheet: &'a Sheet,
    memory: Memory,
    table: Table,
    /// the finish of the last run of each processor
    last: Vec<i64>,
    /// blue and red
    free: [Free; 2],
    trials: u64,
    counts: &'a mut Counts,
    /// the most pairs so far
    most: usize,
}

impl<'a> Planning<'a> {
    fn new(sheet: &'a Sheet, memory: Memory, counts: &'a mut Counts) -> Planning<'a> {
        Planning {
            sheet,
            memory,
            table: Table {
                runs: vec![None; sheet.tasks.len()],
                moves: vec![0; sheet.files.len()],
            },
            last: vec![0; sheet.processors.iter().sum::<i64>() as usize],
            free: sheet.limits.map(|limit| Free::new(limit, &[])),
            trials: 0,
            counts,
            most: 1,
        }
    }

    fn inputs(&self, i: usize) -> impl Iterator<Item = &'a File> {
        self.sheet.files.iter().filter(move |f| f.reader == i)
    }

    fn crosses(&self, f: &File, colour: Colour) -> bool {
        let (processor, _) = self.table.runs[f.maker].expect("a placed maker");
        self.sheet.colour(processor) != colour
    }

    fn is_ready(&self, i: usize) -> bool {
        let placed = |f: &File| self.table.runs[f.maker].is_some();
        self.table.runs[i].is_none() && self.inputs(i).all(placed)
    }

    /// The last finishes of a colour's processors, each with the processor.
    fn processors(&self, colour: Colour) -> impl Iterator<Item = (i64, i64)> + '_ {
        let all = (1..).zip(&self.last).map(|(p, last)| (p, *last));
        all.filter(move |(p, _)| self.sheet.colour(*p) == colour)
    }

    /// The first tick from which on always so much is free; an error where the staircase does not give that by ticks.
    fn always_from(&mut self, colour: Colour, need: i64) -> Result<Option<i64>, String> {
        let free = &self.free[colour as usize];
        let found = free.always_from(need);
        if let Some(by_ticks) = free.always_from_by_ticks(need) {
            self.counts.by_ticks += 1;
            if by_ticks != found {
                return Err(format!("{need} free in {colour:?} from {found:?} by the staircase, from {by_ticks:?} by ticks"));
            }
        }
        self.counts.later += u64::from(found.is_some() && found != free.once_at(need));
        self.counts.never += u64::from(found.is_none() && free.once_at(need).is_some());
        Ok(found)
    }

    /// Starts 3 and 4; none where one of them has no tick.
    fn starts_of_memory(&mut self, i: usize, colour: Colour) -> Result<Option<[i64; 2]>, String> {
        let crossing = self.inputs(i).filter(|f| self.crosses(f, colour));
        let (sizes, times): (Vec<i64>, Vec<i64>) = crossing.map(|f| (f.size, f.time)).unzip();
        let made = self.sheet.files.iter().filter(|f| f.maker == i);
        let made: i64 = made.map(|f| f.size).sum();
        let newly: i64 = sizes.iter().sum();
        let work = self.sheet.tasks[i].work;
        let run = self.always_from(colour, newly + made + work)?;
        let moves = self.always_from(colour, newly)?;
        let longest = times.into_iter().max().unwrap_or(0);
        Ok(run.zip(moves).map(|(run, moves)| [run, moves + longest]))
    }

    /// A ready task on a colour, if it fits.
    fn trial(&mut self, i: usize, colour: Colour) -> Result<Option<Trial>, String> {
        self.trials += 1;
        let arrival = |f: &File| {
            let time = if self.crosses(f, colour) { f.time } else { 0 };
            finish(self.sheet, &self.table, f.maker) + time
        };
        let arrived = self.inputs(i).map(arrival).max().unwrap_or(0);
        let processor = self.processors(colour).map(|p| p.1).min().unwrap();
        let mut start = arrived.max(processor);
        if self.memory == Aware {
            let Some([run, moves]) = self.starts_of_memory(i, colour)? else {
                return Ok(None);
            };
            self.counts.starts[0] += u64::from(run > start.max(moves));
            self.counts.starts[1] += u64::from(moves > start.max(run));
            start = start.max(run).max(moves);
        }
        let end = start + self.sheet.run_time(i, colour);
        Ok(Some((end, i, colour, start)))
    }

    /// A round: the trial to be placed, if one fits. By a list, the first task that fits in either colour; without one, any ready task.
    fn round(&mut self, list: Option<&[usize]>) -> Result<Option<Trial>, String> {
        let all: Vec<usize> = (0..self.sheet.tasks.len()).collect();
        let mut best = None;
        for &i in list.unwrap_or(&all) {
            if self.is_ready(i) {
                for colour in [Blue, Red] {
                    let fitting = self.trial(i, colour)?;
                    best = best.into_iter().chain(fitting).min();
                }
            }
            if list.is_some() && best.is_some() {
                break;
            }
        }
        Ok(best)
    }

    fn place(&mut self, (end, i, colour, start): Trial) -> Result<(), String> {
        let by_start = self.processors(colour).filter(|(_, last)| *last <= start);
        let latest = by_start.max_by_key(|(p, last)| (*last, -p));
        let (processor, _) = latest.expect("a processor free by the start");
        for (k, f) in self.sheet.files.iter().enumerate() {
            if f.reader == i && self.crosses(f, colour) {
                self.table.moves[k] = start - f.time;
            }
        }
        self.table.runs[i] = Some((processor, start));
        self.last[processor as usize - 1] = end;
        [Blue, Red].into_iter().try_for_each(|c| self.count(c))
    }

    /// Counts a memory's staircase anew; an error where it is not sound, not that of sorted changes, or longer than it can be.
    fn count(&mut self, memory: Colour) -> Result<(), String> {
        let limit = self.sheet.limits[memory as usize];
        let free = Free::of(self.sheet, &self.table, memory);
        let changes = profile(self.sheet, &self.table, memory).into_iter();
        let by_changes = merged(changes.map(|(t, held)| (t, limit - held)));
        let pairs = free.staircase.len();
        if !free.is_sound() || free.staircase != by_changes || pairs > most_pairs(self.sheet) {
            return Err(format!(
                "staircase of {memory:?}, {pairs} pairs: {:?}\nby sorted changes: {by_changes:?}",
                free.staircase
            ));
        }
        self.counts.staircases += 1;
        for (all, here) in self.counts.unchanged.iter_mut().zip(free.unchanged) {
            *all += here;
        }
        self.most = self.most.max(pairs);
        self.free[memory as usize] = free;
        Ok(())
    }

    /// All rounds; the tasks placed.
    fn rounds(&mut self, heuristic: Heuristic) -> Result<usize, String> {
        let list = (heuristic == Heuristic::Heft).then(|| by_weight(self.sheet));
        let n = self.sheet.tasks.len();
        for placed in 0..n {
            match self.round(list.as_deref())? {
                Some(trial) => self.place(trial)?,
                None => return Ok(placed),
            }
        }
        Ok(n)
    }

    /// Number, place, trials and text of the answer. The claim has the greatest of the last finishes, and the peaks by the staircases.
    fn answer(&self, placed: usize) -> (u64, u64, u64, Vec<u8>) {
        if placed < self.sheet.tasks.len() {
            return (21, placed as u64, self.trials, vec![]);
        }
        let due = write_table(self.sheet, &self.table);
        let runs_and_moves = &due[..due.rfind('(').unwrap()];
        let (span, [blue, red]) = (self.last.iter().max().unwrap(), self.peaks());
        let text = format!("{runs_and_moves}(claim {span} {blue} {red})\n").into_bytes();
        (0, text.len() as u64, self.trials, text)
    }

    /// The pairs of the longer of the two staircases.
    fn pairs(&self) -> usize {
        let [blue, red] = &self.free;
        blue.staircase.len().max(red.staircase.len())
    }

    /// The limits less the least free amounts.
    fn peaks(&self) -> [i64; 2] {
        [Blue, Red].map(|c| {
            let pairs = self.free[c as usize].staircase.iter();
            let least = pairs.map(|p| p.1).min().unwrap();
            self.sheet.limits[c as usize] - least
        })
    }
}

/// How often each kind was reached.
#[derive(Default)]
pub struct Counts {
    sheets: u64,
    /// memory-aware and plain
    plans: [u64; 2],
    stuck: u64,
    /// compared with sorted changes
    staircases: u64,
    /// of a need, compared with a walk over all ticks
    by_ticks: u64,
    /// later than the first tick at which so much is free, or none though there is such a tick
    later: u64,
    never: u64,
    /// trials with start 3, or 4, later than all others
    starts: [u64; 2],
    /// ticks at which holds start or end and the staircase has no pair: with an amount over 0, and with amounts of 0 alone
    unchanged: [u64; 2],
    /// plans with 1 + tasks + files pairs
    most: u64,
    /// pairs at the end of a plan, and at any point
    longest: [usize; 2],
}

/// The least limits, by bisection, first of red and then of blue, at which a planner writes what it writes on the sheet.
fn least_for_same(sheet: &Sheet, planner: Planner) -> [i64; 2] {
    let text = |limits| {
        let sheet = with_limits(sheet, limits);
        plan(planner, write_sheet(&sheet).as_bytes()).text
    };
    let due = text(sheet.limits);
    let (table, _) = read_table(sheet, &due).expect("a timetable");
    let ([blue, red], peaks) = (sheet.limits, peaks(sheet, &table));
    let red = least(peaks[1], red, |m| text([blue, m]) == due);
    [least(peaks[0], blue, |m| text([m, red]) == due), red]
}

/// Limits with one block less in a memory.
fn one_less(mut limits: [i64; 2], memory: Colour) -> [i64; 2] {
    let limit = &mut limits[memory as usize];
    *limit = (*limit - 1).max(0);
    limits
}

impl Counts {
    /// A planner on a sheet; the pairs at the end. An error where the library, or the planner that keeps staircases, does not answer what
    /// reference.rs does.
    fn planned(&mut self, planner: Planner, sheet: &Sheet) -> Result<usize, String> {
        let text = write_sheet(sheet).into_bytes();
        let want = plan(planner, &text);
        library::compared(planner, &text, &want, want.text.len() + 9)?;
        let mut planning = Planning::new(sheet, planner.memory, self);
        let placed = planning.rounds(planner.heuristic)?;
        let (got, pairs, most) = (planning.answer(placed), planning.pairs(), planning.most);
        if got != (want.number, want.place, want.trials, want.text) {
            let (number, place, trials, text) = got;
            let text = String::from_utf8_lossy(&text);
            return Err(format!(
                "{planner:?} by staircases: {number}, {place}, {trials} trials\n{text}"
            ));
        }
        self.plans[planner.memory as usize] += 1;
        self.stuck += u64::from(want.number == 21);
        self.most += u64::from(most == most_pairs(sheet));
        self.longest[0] = self.longest[0].max(pairs);
        self.longest[1] = self.longest[1].max(most);
        Ok(pairs)
    }

    /// Some planners on a sheet, which must make a staircase of so many pairs, if a number is given.
    fn sheet(
        &mut self,
        planners: &[Planner],
        sheet: &Sheet,
        due: Option<usize>,
    ) -> Result<(), String> {
        self.sheets += 1;
        for planner in planners {
            let show = |e: String| format!("{e}\non this sheet:\n{}", write_sheet(sheet));
            let pairs = self.planned(*planner, sheet).map_err(show)?;
            if due.is_some_and(|due| due != pairs) {
                return Err(show(format!("{planner:?}: {pairs} pairs, not {due:?}")));
            }
        }
        Ok(())
    }

    /// The memory-aware planners on a sheet.
    pub fn aware(&mut self, sheet: &Sheet) -> Result<(), String> {
        self.sheet(&AWARE, sheet, None)
    }

    /// All planners on a sheet with ample limits, and each memory-aware one with limits at which it is just not stuck, and with one block less.
    pub fn limited(&mut self, r: &mut Random, sheet: &Sheet) -> Result<(), String> {
        self.sheet(&PLANNERS, &with_limits(sheet, [MAX_LIMIT; 2]), None)?;
        for planner in AWARE {
            let colour = [Blue, Red][r.below(2)];
            let limits = least_apart(sheet, &[planner], colour);
            self.sheet(&AWARE, &with_limits(sheet, limits), None)?;
            self.sheet(&AWARE, &with_limits(sheet, one_less(limits, colour)), None)?;
        }
        Ok(())
    }

    /// The sheets of the longest staircases; each memory-aware planner also with the least limits at which it writes the same, and with one
    /// block less in either memory.
    pub fn longest(&mut self) -> Result<(), String> {
        for wait in WAITS {
            let planners = match wait {
                Wait::Processor => &PLANNERS[..],
                _ => &AWARE[..],
            };
            let sheet = longest(wait, Blue);
            self.sheet(planners, &sheet, Some(MOST_PAIRS))?;
            self.sheet(planners, &longest(wait, Red), Some(MOST_PAIRS))?;
            for planner in AWARE {
                let limits = least_for_same(&sheet, planner);
                let enough = with_limits(&sheet, limits);
                self.sheet(&[planner], &enough, Some(MOST_PAIRS))?;
                for memory in [Blue, Red] {
                    let less = with_limits(&sheet, one_less(limits, memory));
                    self.sheet(&[planner], &less, None)?;
                }
            }
        }
        Ok(())
    }

    fn rows(&self) -> Rows<14> {
        let ([aware, plain], [run, moves]) = (self.plans, self.starts);
        let [cancelled, zero] = self.unchanged;
        [
            ("sheets", self.sheets),
            ("plans of memory-aware planners", aware),
            ("of plain ones", plain),
            ("stuck", self.stuck),
            ("staircases as by sorted changes", self.staircases),
            ("starts 3 and 4 as by all ticks", self.by_ticks),
            ("later than by free at a tick alone", self.later),
            ("none where that has one", self.never),
            ("trials with start 3 the latest", run),
            ("with start 4 the latest", moves),
            ("ticks without a pair, falls equal to rises", cancelled),
            ("amounts of 0 alone", zero),
            ("plans with 1 + tasks + files pairs", self.most),
            ("longest staircase", self.longest[1] as u64),
        ]
    }

    pub fn print(&self) {
        let [at_end, _] = self.longest;
        println!(
            "staircases, {} pairs, at the end of a plan {at_end}",
            in_words(self.rows())
        );
    }

    /// What was never reached: a line each.
    pub fn faults(&self) -> Vec<String> {
        let never = self.rows().into_iter().filter(|row| row.1 == 0);
        let mut all: Vec<String> = never
            .map(|(name, _)| format!("staircases, {name}: none"))
            .collect();
        if self.longest != [MOST_PAIRS; 2] {
            let longest = self.longest;
            all.push(format!(
                "longest staircases: {longest:?} pairs, not {MOST_PAIRS}"
            ));
        }
        all
    }
}

#[cfg(test)]
mod tests {
    use super::*;
    use crate::reference::read_sheet;

    const COURSE: &[u8] = b"(board (blue 1 6) (red 1 6))\n(task 1 4 2)\n(task 2 3 5)\n(task 3 2 6)\n(file 1 2 2 1)\n(file 1 3 3 2)\n";
    const PAPER: &[u8] =
        b"(run 1 2 0)\n(run 2 1 3)\n(run 3 1 6)\n(move 1 2 2)\n(move 1 3 4)\n(claim 8 5 5)\n";

    /// The staircases of blue and red of a timetable's first tasks.
    fn staircases(sheet: &[u8], paper: &[u8], placed: usize) -> [Vec<Pair>; 2] {
        let sheet = read_sheet(sheet).unwrap();
        let (mut table, _) = read_table(&sheet, paper).unwrap();
        table.runs[placed..].fill(None);
        assert!([Blue, Red]
            .iter()
            .all(|c| Free::of(&sheet, &table, *c).is_sound()));
        [Blue, Red].map(|c| staircase(&sheet, &table, c))
    }

    /// Files of unplaced readers are held for ever, and a moved file in both memories during its move.
    #[test]
    fn course_example() {
        let after = |placed| staircases(COURSE, PAPER, placed);
        assert_eq!(after(0), [vec![(0, 6)], vec![(0, 6)]]);
        assert_eq!(after(1), [vec![(0, 6)], vec![(0, 1)]]);
        assert_eq!(
            after(2),
            [vec![(0, 6), (2, 4), (6, 6)], vec![(0, 1), (3, 3)]]
        );
        assert_eq!(
            after(3),
            [
                vec![(0, 6), (2, 4), (4, 1), (6, 3), (8, 6)],
                vec![(0, 1), (3, 3), (6, 6)]
            ]
        );
    }

    /// Two runs with the same W, one behind the other: nothing changes between them. A relay's W and its inputs are held for one tick.
    #[test]
    fn equal_fall_and_rise() {
        let sheet = b"(board (blue 1 9) (red 1 9))\n(task 1 4 9 2)\n(task 2 3 9 2)\n(task 3 0 9 1)\n(file 1 3 5 1)\n(file 2 3 0 1)\n";
        let paper = b"(run 1 1 0)\n(run 2 1 4)\n(run 3 1 9)\n(claim 9 7 0)\n";
        let [blue, red] = staircases(sheet, paper, 2);
        assert_eq!(blue, [(0, 2), (7, 4)]);
        assert_eq!(red, [(0, 9)]);
        let [blue, _] = staircases(sheet, paper, 3);
        assert_eq!(blue, [(0, 2), (7, 4), (9, 3), (10, 9)]);
    }

    /// 5 free from 0, 1 from 3 and 4 from 7 on.
    fn steps() -> Free {
        let hold = |amount, from, until| Hold {
            amount,
            from,
            until,
        };
        Free::new(5, &[hold(1, 3, None), hold(3, 3, Some(7))])
    }

    #[test]
    fn free_from_a_tick_on() {
        let free = steps();
        assert_eq!(free.staircase, [(0, 5), (3, 1), (7, 4)]);
        assert_eq!(free.ticks, Some(vec![5, 5, 5, 1, 1, 1, 1, 4]));
        for (need, from, alone) in [
            (0, Some(0), Some(0)),
            (1, Some(0), Some(0)),
            (2, Some(7), Some(0)),
            (4, Some(7), Some(0)),
            (5, None, Some(0)),
            (6, None, None),
        ] {
            assert_eq!(free.always_from(need), from);
            assert_eq!(free.always_from_by_ticks(need), Some(from));
            assert_eq!(free.once_at(need), alone);
        }
    }

    #[test]
    fn unsound_staircases() {
        for staircase in [
            vec![(0, 5), (3, 1), (6, 1), (7, 4)],
            vec![(0, 5), (3, 1), (6, 4)],
            vec![(0, 5), (3, 1)],
            vec![(0, 5), (7, 4)],
            vec![(0, 5), (7, 4), (3, 1)],
            vec![(1, 5), (3, 1), (7, 4)],
        ] {
            let free = Free {
                staircase,
                ..steps()
            };
            assert!(!free.is_sound());
        }
    }
}
