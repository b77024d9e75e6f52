//! What Order 8 states, tried outside the library on complete timetables: every rise and every fall of a memory is listed, shuffled, and put
//! into time order with falls before rises at one tick, those of one tick and direction as they were shuffled. On a timetable free of 16 the
//! greatest running total is the peak counted instant by instant, and the tick of the first change after which the total is over a limit
//! is the first instant over it. The library's marker and that of rust/baseline must say the same. How often each kind was reached.

use crate::generate::{write_sheet, Random};
use crate::library;
use crate::reference::{
    colours, early, fault, peaks, release, span, write_table, Colour, Sheet, Table, CURRENT,
};
use crate::work_promises::{in_words, Rows};
use std::collections::BTreeSet;
use Colour::{Blue, Red};

/// Shuffles of each memory's changes.
const SHUFFLES: usize = 4;

/// Timetables with no change past this tick are counted at every tick.
const SHORT: i64 = 200;

/// An amount held from a tick until another.
#[derive(Clone, Copy)]
struct Hold {
    amount: i64,
    from: i64,
    until: i64,
}

/// A rise or a fall of what a memory holds.
#[derive(Clone, Copy, PartialEq, Eq)]
struct Change {
    tick: i64,
    rises: bool,
    amount: i64,
}

/// What is held from a tick on, or behind a change at it.
type Total = (i64, i64);

fn greatest(totals: &[Total]) -> i64 {
    totals.iter().map(|total| total.1).fold(0, i64::max)
}

/// The tick of the first total over a limit.
fn first_over(totals: &[Total], limit: i64) -> Option<i64> {
    totals.iter().find(|total| total.1 > limit).map(|t| t.0)
}

fn start(table: &Table, i: usize) -> i64 {
    table.runs[i].unwrap().1
}

/// What a memory holds, by document 01 with Orders 1 and 6; a W left out is no hold.
fn holds(sheet: &Sheet, table: &Table, memory: Colour) -> Vec<Hold> {
    let mut all = vec![];
    let mut hold = |here: bool, amount: i64, from: i64, until: i64| {
        if here {
            all.push(Hold {
                amount,
                from,
                until,
            });
        }
    };
    for (f, &t) in sheet.files.iter().zip(&table.moves) {
        let (maker, reader) = colours(sheet, table, f);
        let (made_from, read_until) = (start(table, f.maker), release(sheet, table, f.reader));
        if maker == reader {
            hold(maker == memory, f.size, made_from, read_until);
        } else {
            hold(maker == memory, f.size, made_from, t + f.time);
            hold(reader == memory, f.size, t, read_until);
        }
    }
    for (i, task) in sheet.tasks.iter().enumerate() {
        let (processor, from) = table.runs[i].unwrap();
        let here = task.work > 0 && sheet.colour(processor) == memory;
        hold(here, task.work, from, release(sheet, table, i));
    }
    all
}

/// The totals instant by instant: at tick 0, at each start and each end of a hold, and at every tick of a short timetable.
fn by_instants(holds: &[Hold]) -> Vec<Total> {
    let ends = holds.iter().flat_map(|h| [h.from, h.until]);
    let mut instants: BTreeSet<i64> = ends.chain([0]).collect();
    let last = *instants.last().unwrap();
    if last <= SHORT {
        instants.extend(0..=last);
    }
    let held = |tick: i64| {
        let here = holds.iter().filter(|h| h.from <= tick && tick < h.until);
        here.map(|h| h.amount).sum()
    };
    instants.into_iter().map(|t| (t, held(t))).collect()
}

/// Each hold is two changes, also at size 0.
fn changes(holds: &[Hold]) -> Vec<Change> {
    let change = |tick, rises, amount| Change {
        tick,
        rises,
        amount,
    };
    let both = |h: &Hold| {
        [
            change(h.from, true, h.amount),
            change(h.until, false, h.amount),
        ]
    };
    holds.iter().flat_map(both).collect()
}

fn shuffle(r: &mut Random, changes: &mut [Change]) {
    for k in (1..changes.len()).rev() {
        changes.swap(k, r.below(k + 1));
    }
}

/// The running total behind each change.
fn running(changes: &[Change]) -> Vec<Total> {
    let mut total = 0;
    let step = |c: &Change| {
        total += if c.rises { c.amount } else { -c.amount };
        (c.tick, total)
    };
    changes.iter().map(step).collect()
}

/// A memory of a timetable.
struct Memory {
    limit: i64,
    changes: Vec<Change>,
    instants: Vec<Total>,
}

impl Memory {
    fn new(limit: i64, holds: &[Hold]) -> Memory {
        Memory {
            limit,
            changes: changes(holds),
            instants: by_instants(holds),
        }
    }

    /// Its peak, counted instant by instant.
    fn peak(&self) -> i64 {
        greatest(&self.instants)
    }

    /// The limit, the least, one less than the peak, the peak, and any up to it.
    fn limits(&self, r: &mut Random) -> [i64; 5] {
        let peak = self.peak();
        [self.limit, 0, (peak - 1).max(0), peak, r.between(0, peak)]
    }

    /// Whether running totals give the peak, and the first instant over each of some limits.
    fn agrees(&self, totals: &[Total], limits: &[i64]) -> bool {
        let mut limits = limits.iter();
        greatest(totals) == self.peak()
            && limits.all(|m| first_over(totals, *m) == first_over(&self.instants, *m))
    }

    /// The running totals in time order with falls before rises, after several shuffles.
    fn shuffled(&self, r: &mut Random) -> [Vec<Total>; SHUFFLES] {
        let mut changes = self.changes.clone();
        [(); SHUFFLES].map(|()| {
            shuffle(r, &mut changes);
            changes.sort_by_key(|c| (c.tick, c.rises));
            running(&changes)
        })
    }

    /// The same with rises before falls.
    fn rises_first(&self) -> Vec<Total> {
        let mut changes = self.changes.clone();
        changes.sort_by_key(|c| (c.tick, !c.rises));
        running(&changes)
    }

    fn tried(&self, r: &mut Random) -> Tried {
        let (limits, totals) = (self.limits(r), self.shuffled(r));
        Tried {
            agrees: totals.iter().all(|t| self.agrees(t, &limits)),
            reordered: totals.iter().any(|t| *t != totals[0]),
            rises_first_agrees: self.agrees(&self.rises_first(), &limits),
            limits,
        }
    }

    /// Whether a tick has both a fall and a rise.
    fn falls_and_rises(&self) -> bool {
        let ticks = |rises: bool| {
            let some = self.changes.iter().filter(move |c| c.rises == rises);
            some.map(|c| c.tick).collect::<BTreeSet<_>>()
        };
        !ticks(false).is_disjoint(&ticks(true))
    }
}

/// What was found of a memory.
struct Tried {
    /// the limits that were tried
    limits: [i64; 5],
    /// every shuffle gives the peak and the first instants
    agrees: bool,
    /// two shuffles give different running totals
    reordered: bool,
    /// rises before falls give the peak and the first instants too
    rises_first_agrees: bool,
}

/// A complete timetable of a sheet.
struct Case<'a> {
    sheet: &'a Sheet,
    table: &'a Table,
    /// blue and red
    memories: [Memory; 2],
}

impl Case<'_> {
    fn new<'a>(sheet: &'a Sheet, table: &'a Table) -> Case<'a> {
        let memory = |c| Memory::new(sheet.limits[c as usize], &holds(sheet, table, c));
        Case {
            sheet,
            table,
            memories: [Blue, Red].map(memory),
        }
    }

    /// Whether 16 applies.
    fn is_early(&self) -> bool {
        (0..self.sheet.files.len()).any(|k| early(self.sheet, self.table, k))
    }

    /// Whether 15 applies.
    fn is_shared(&self) -> bool {
        matches!(fault(self.sheet, self.table), Some((15, _)))
    }

    fn peaks(&self) -> [i64; 2] {
        let [blue, red] = &self.memories;
        [blue.peak(), red.peak()]
    }

    /// The mark with other limits, where 15 and 16 do not apply and the claim is true.
    fn due(&self, limits: [i64; 2]) -> [u64; 5] {
        let over = |(m, limit): (&Memory, i64)| first_over(&m.instants, limit);
        let first = self.memories.iter().zip(limits).filter_map(over).min();
        let [blue, red] = self.peaks();
        let mark = match first {
            Some(tick) => [17, tick, 0, 0, 0],
            None => [0, 0, span(self.sheet, self.table), blue, red],
        };
        mark.map(|n| n as u64)
    }

    /// The text of the sheet with other limits.
    fn limited(&self, limits: [i64; 2]) -> Vec<u8> {
        let mut sheet = self.sheet.clone();
        sheet.limits = limits;
        write_sheet(&sheet).into_bytes()
    }
}

/// Pairs of a limit of blue and one of red: those tried of either, and a peak with one less than the other.
fn pairs([blue, red]: [[i64; 5]; 2]) -> [[i64; 2]; 7] {
    let both = |k: usize| [blue[k], red[k]];
    let (less, peak) = (both(2), both(3));
    let crossed = [[less[0], peak[1]], [peak[0], less[1]]];
    [
        both(0),
        both(1),
        less,
        peak,
        both(4),
        crossed[0],
        crossed[1],
    ]
}

/// How often each kind was reached.
#[derive(Default)]
pub struct Counts {
    timetables: u64,
    /// with both a fall and a rise of one memory at one tick, and with an amount of 0
    falls_and_rises: u64,
    zero: u64,
    /// with different running totals after two shuffles
    reordered: u64,
    /// where rises before falls give another peak or another first instant
    rises_first: u64,
    /// with 15 too
    shared: u64,
    /// marks accepted, and refused by 17
    marks: [u64; 2],
    /// timetables with 16, on which running totals give another peak or another first instant
    early: u64,
}

impl Counts {
    /// A complete timetable; an error where it is free of 16 and the statement does not hold of it, or a marker says otherwise.
    pub fn timetable(
        &mut self,
        r: &mut Random,
        sheet: &Sheet,
        table: &Table,
    ) -> Result<(), String> {
        let case = Case::new(sheet, table);
        let [blue, red] = &case.memories;
        let tried = [blue.tried(r), red.tried(r)];
        let agrees = tried.iter().all(|t| t.agrees);
        if case.is_early() {
            self.early += u64::from(!agrees);
            return Ok(());
        }
        let limits = [tried[0].limits, tried[1].limits];
        if !agrees || peaks(sheet, table) != case.peaks() {
            return Err(format!(
                "running totals give another peak, or another first instant over one of {limits:?}"
            ));
        }
        self.kinds(&case, &tried);
        if case.is_shared() || span(sheet, table) > CURRENT.tick {
            return Ok(());
        }
        let paper = write_table(sheet, table).into_bytes();
        let mut pairs = pairs(limits).into_iter();
        pairs.try_for_each(|limits| self.marked(&case, limits, &paper))
    }

    fn kinds(&mut self, case: &Case, tried: &[Tried; 2]) {
        let zero = |m: &Memory| m.changes.iter().any(|c| c.amount == 0);
        let memories = || case.memories.iter();
        self.timetables += 1;
        self.falls_and_rises += u64::from(memories().any(Memory::falls_and_rises));
        self.zero += u64::from(memories().any(zero));
        self.reordered += u64::from(tried.iter().any(|t| t.reordered));
        self.rises_first += u64::from(tried.iter().any(|t| !t.rises_first_agrees));
        self.shared += u64::from(case.is_shared());
    }

    /// Both markers on a timetable free of 15 and 16 with a true claim, with these limits.
    fn marked(&mut self, case: &Case, limits: [i64; 2], paper: &[u8]) -> Result<(), String> {
        let (sheet, due) = (case.limited(limits), case.due(limits));
        let markers = [library::mark, baseline::marker::mark];
        let got = markers.map(|mark| mark(&sheet, paper));
        if got != [due; 2] {
            return Err(format!(
                "marked {got:?} with limits {limits:?}, wanted {due:?}"
            ));
        }
        self.marks[usize::from(due[0] == 17)] += 1;
        Ok(())
    }

    fn rows(&self) -> Rows<9> {
        let [accepted, over] = self.marks;
        [
            ("timetables free of 16", self.timetables),
            ("a fall and a rise at one tick", self.falls_and_rises),
            ("an amount of 0", self.zero),
            (
                "other totals by another order of one tick and direction",
                self.reordered,
            ),
            (
                "another peak or first instant by rises before falls",
                self.rises_first,
            ),
            ("with 15", self.shared),
            ("marks accepted", accepted),
            ("refused by 17", over),
            (
                "timetables with 16, another peak or first instant",
                self.early,
            ),
        ]
    }

    pub fn print(&self) {
        println!("peaks from changes, {}", in_words(self.rows()));
    }

    /// What was never reached: a line each.
    pub fn faults(&self) -> Vec<String> {
        let never = self.rows().into_iter().filter(|row| row.1 == 0);
        never
            .map(|(name, _)| format!("peaks from changes, {name}: none"))
            .collect()
    }
}

#[cfg(test)]
mod tests {
    use super::*;
    use crate::reference::{read_sheet, read_table};

    const COURSE: &[u8] = b"(board (blue 1 6) (red 1 6))\n(task 1 4 2)\n(task 2 3 5)\n(task 3 2 6)\n(file 1 2 2 1)\n(file 1 3 3 2)\n";
    const PAPER: &[u8] =
        b"(run 1 2 0)\n(run 2 1 3)\n(run 3 1 6)\n(move 1 2 2)\n(move 1 3 4)\n(claim 8 5 5)\n";

    /// Amounts, each held from a tick until another.
    fn memory(holds: &[(i64, i64, i64)]) -> Memory {
        let hold = |&(amount, from, until)| Hold {
            amount,
            from,
            until,
        };
        Memory::new(9, &holds.iter().map(hold).collect::<Vec<_>>())
    }

    #[test]
    fn course_example() {
        let sheet = read_sheet(COURSE).unwrap();
        let (table, _) = read_table(&sheet, PAPER).unwrap();
        let case = Case::new(&sheet, &table);
        assert_eq!(case.due([6, 6]), [0, 0, 8, 5, 5]);
        assert_eq!(case.due([4, 6]), [17, 4, 0, 0, 0]);
        assert_eq!(case.due([4, 4]), [17, 0, 0, 0, 0]);
        let blue = [(2, 2), (4, 5), (6, 3), (8, 0)];
        let instants = &case.memories[0].instants;
        assert!(blue.iter().all(|total| instants.contains(total)));
        let mut counts = Counts::default();
        counts.timetable(&mut Random(1), &sheet, &table).unwrap();
        assert_eq!((counts.timetables, counts.marks), (1, [2, 5]));
    }

    /// One hold ends where two begin: only falls before rises give the peak, in either order of the two.
    #[test]
    fn falls_before_rises() {
        let m = memory(&[(5, 0, 4), (3, 4, 6), (1, 4, 7)]);
        assert_eq!(m.peak(), 5);
        let tried = m.tried(&mut Random(1));
        assert!(tried.agrees && tried.reordered && !tried.rises_first_agrees);
        assert!(m.falls_and_rises());
    }

    /// A hold that ends before it starts, which only 16 lets be: running totals give another peak.
    #[test]
    fn ends_before_it_starts() {
        let m = memory(&[(2, 0, 9), (4, 4, 6), (3, 6, 4)]);
        assert_eq!(m.peak(), 6);
        assert!(!m.tried(&mut Random(1)).agrees);
    }
}
