//! Board sheets on which the planners' staircases are long, and limits at which a planner is just not stuck.
//!
//! The most pairs that a staircase of a planner can have, on n tasks and m files, are 1 + n + m. What a memory holds changes only at these
//! ticks: the start and the release of a run there, the start of a move into it, and the start of a run of the other colour that reads a file
//! from it (the file is held there until its move's start plus C, which is that start). Call them, and tick 0, the ticks of the memory: at any
//! point it has at most as many pairs.
//! - A run placed there with k crossing files has k + 2 ticks: its start, its release and k starts of moves. Its start is the greatest of
//!   starts 1 to 4. By 1, it is tick 0 or the finish of a run there, which is the release of that run or the start of a relay. By 3, and by 4
//!   without a crossing file, it is tick 0 or a tick where free changes; by 4 with one, the file with the greatest C moves at such a tick.
//!   By 2, it is tick 0 or the finish of a run there, or a file moves at the finish of its maker on the other colour. So one of the k + 2 was
//!   a tick of the memory before, or it is the finish of a run on the other colour, and is one from now on; the latter happens at most
//!   once for each run of the other colour. Added are k + 1 for each run there, and 1 for each run of the other colour.
//! - A run placed on the other colour adds its start if it reads a file from there; that file does not move into the memory.
//!
//! Together: 1 for tick 0, 1 for each task and 1 for each file. On 64 tasks and 256 files this is 321; document 02's 641 is for any
//! timetable. The sheets of `longest` reach it.

use crate::generate::{ample, sizes, write_sheet, Random};
use crate::reference::{
    plan, Colour, File, Heuristic, Memory, Planner, Sheet, Task, CURRENT, MAX_FILES, MAX_LIMIT,
    MAX_PROCESSORS, MAX_TASKS,
};
use std::collections::BTreeSet;
use Wait::{Move, Processor, Run};

/// The most pairs of a planner's staircase on a sheet.
pub fn most_pairs(sheet: &Sheet) -> usize {
    1 + sheet.tasks.len() + sheet.files.len()
}

/// The most pairs of a planner's staircase on any sheet.
pub const MOST_PAIRS: usize = 1 + MAX_TASKS as usize + MAX_FILES;

/// MemHEFT and MemMinMin.
pub const AWARE: [Planner; 2] = [
    Heuristic::Heft.with(Memory::Aware),
    Heuristic::MinMin.with(Memory::Aware),
];

/// What most readers of `longest` wait for.
#[derive(Clone, Copy, Debug, PartialEq, Eq)]
pub enum Wait {
    /// the only processor of their colour: start 1
    Processor,
    /// memory for their W: start 3
    Run,
    /// memory for what they read: start 4
    Move,
}

pub const WAITS: [Wait; 3] = [Processor, Run, Move];

/// Makers of `longest`: so many have 256 pairs with the other tasks, and fewer have not.
const MAKERS: usize = 5;

/// The first readers of `longest`, each of one file, are the tasks before this one.
const OTHERS: usize = 2 * MAKERS;

/// Maker and reader of each file of `longest`: 5 files of the first readers, and 251 of the others, of whom 19 read 4 files and the rest 5.
fn longest_pairs() -> BTreeSet<(usize, usize)> {
    let first = (0..MAKERS).map(|i| (i, MAKERS + i));
    let readers = OTHERS..MAX_TASKS as usize;
    let other = readers.flat_map(|j| (0..MAKERS).map(move |i| (i, j)));
    let left_out = |(i, j): &(usize, usize)| *j < OTHERS + 19 && *i == j % 4;
    first.chain(other.filter(|p| !left_out(p))).collect()
}

impl Wait {
    /// A task of `longest`, with its time on the makers' colour first.
    fn task(self, j: usize) -> Task {
        let slow = CURRENT.run_time - 1000 * j as i64;
        let times = match j {
            _ if j < MAKERS => [20 * (j as i64 + 1), slow],
            _ if j < OTHERS => [slow, 2],
            _ => [slow, 100],
        };
        let work = match self {
            _ if j < MAKERS => 0,
            Run => 1000,
            _ => 1 + j as i64 % 9,
        };
        Task { times, work }
    }

    fn file(self, (maker, reader): (usize, usize)) -> File {
        let (i, j) = (maker as i64, reader as i64);
        let some = (3 * i + j) % 9;
        let (size, time) = match self {
            _ if reader < OTHERS => (1 + some, 1),
            Move => (120 - some, 11 * (i + 1) + j % 8),
            _ => (1 + some, 11 * (i + 1) + j % 8),
        };
        File {
            maker,
            reader,
            size,
            time,
        }
    }

    /// Processors of the readers' colour, and its limit if that matters.
    fn readers(self) -> (i64, Option<i64>) {
        match self {
            Processor => (1, None),
            Run => (MAX_PROCESSORS, Some(1200)),
            Move => (MAX_PROCESSORS, Some(700)),
        }
    }
}

/// A sheet of 64 tasks and 256 files on which the memory-aware planners make a staircase of 321 pairs. Where readers wait for their
/// processor, the limits do not matter, and the plain planners make it too.
///
/// 5 makers are fast on one colour and 59 readers on the other, so every file moves. The makers start at 0 on processors of their own and
/// finish at 20, 40, 60, 80 and 100. The first readers wait for one file each, so each finish of a maker is the start of a move. The others
/// follow one after another: a run, or with `Move` the first move of a run, starts at the release of the run before, and all else
/// at ticks of its own.
pub fn longest(wait: Wait, makers: Colour) -> Sheet {
    let (processors, limit) = wait.readers();
    let mut sheet = Sheet {
        processors: [MAKERS as i64, processors],
        limits: [0; 2],
        tasks: (0..MAX_TASKS as usize).map(|j| wait.task(j)).collect(),
        files: longest_pairs().into_iter().map(|p| wait.file(p)).collect(),
    };
    sheet.limits = [sizes(&sheet), limit.unwrap_or(ample(&sheet))];
    if makers == Colour::Red {
        sheet.processors.reverse();
        sheet.limits.reverse();
        sheet.tasks.iter_mut().for_each(|t| t.times.reverse());
    }
    sheet
}

/// Tasks of `long_read` that have no files.
const WITHOUT_FILES: usize = 8;

/// A sheet like `longest(Wait::Run, Colour::Blue)` on which start 3 of a trial may be anywhere in a long staircase. The W of its readers gets
/// less and less, so more and more is free while they run. The last readers are tasks without files instead; they take so long that they
/// are placed last, and each can start only where enough is free beside those placed before it.
pub fn long_read(r: &mut Random) -> Sheet {
    let mut sheet = longest(Run, Colour::Blue);
    let readers = sheet.tasks.len() - WITHOUT_FILES;
    sheet.files.retain(|f| f.reader < readers);
    for (j, task) in sheet.tasks.iter_mut().enumerate().skip(OTHERS) {
        task.work = 100_000 - 950 * (j - OTHERS) as i64;
        if j >= readers {
            task.times = [40_000, 6000 + r.between(0, 9)];
            task.work = r.between(1, 12_000);
        }
    }
    sheet.limits[1] = 111_000;
    sheet
}

/// A sheet of 64 tasks and 240 files: 4 makers, each with a file for each of 60 readers; numbers as in `large_sheet`.
pub fn fork(r: &mut Random) -> Sheet {
    let task = |r: &mut Random| Task {
        times: [r.between(1, 1000), r.between(1, 1000)],
        work: 0,
    };
    let tasks = (0..64).map(|_| task(r)).collect();
    let pairs = (0..4).flat_map(|i| (4..64).map(move |j| (i, j)));
    let file = |(maker, reader)| File {
        maker,
        reader,
        size: r.between(0, 300),
        time: r.between(1, 100),
    };
    Sheet {
        processors: [4, 4],
        limits: [60_000; 2],
        tasks,
        files: pairs.map(file).collect(),
    }
}

/// A shuffled list.
fn shuffled<T>(r: &mut Random, all: impl Iterator<Item = T>) -> Vec<T> {
    let mut list: Vec<T> = all.collect();
    for k in (1..list.len()).rev() {
        list.swap(k, r.below(k + 1));
    }
    list
}

/// The colour on which each task of `crossing` is fast: any, by turns, or one for the first tasks and the other for the rest.
fn fast_colours(r: &mut Random, tasks: usize) -> Vec<usize> {
    let (way, first) = (r.below(3), r.below(2));
    let makers = 1 + r.below(tasks.div_ceil(4));
    let colour = |r: &mut Random, i: usize| match way {
        0 => r.below(2),
        1 => i % 2,
        _ => (first + usize::from(i < makers)) % 2,
    };
    (0..tasks).map(|i| colour(r, i)).collect()
}

/// The pairs of the files of `crossing`, mostly of tasks that are fast on different colours.
fn crossing_pairs(r: &mut Random, colours: &[usize]) -> Vec<(usize, usize)> {
    let n = colours.len();
    let pairs = (0..n).flat_map(|i| (i + 1..n).map(move |j| (i, j)));
    let crosses = |r: &mut Random, (i, j): (usize, usize)| colours[i] != colours[j] || r.one_in(8);
    let mut chosen = shuffled(r, pairs);
    chosen.retain(|pair| crosses(r, *pair));
    let least = chosen.len().min(n);
    chosen.truncate(r.between(least as i64, MAX_FILES as i64) as usize);
    chosen.sort();
    chosen
}

/// A size or a W: one and the same, so that falls and rises cancel; 0 or that; small; or any.
fn amount(r: &mut Random, way: usize) -> i64 {
    match way {
        0 => 3,
        1 => 3 * r.between(0, 1),
        2 => r.between(0, 6),
        _ => r.between(0, 1000),
    }
}

/// A sheet with many files that move, no two of them for the same time; limits do not matter.
pub fn crossing(r: &mut Random, tasks: usize) -> Sheet {
    let colours = fast_colours(r, tasks);
    let pairs = crossing_pairs(r, &colours);
    let (way, with_work, with_relays, any) = (r.below(4), r.below(3), r.one_in(3), r.one_in(4));
    let task = |fast: usize| {
        let mut times = [r.between(1, 9); 2];
        if with_relays && r.one_in(3) {
            times = [0; 2];
        }
        if !any || r.one_in(2) {
            times[1 - fast] += 10_000;
        }
        let works = with_work == 2 || with_work == 1 && r.one_in(2);
        let work = if works { amount(r, way) } else { 0 };
        Task { times, work }
    };
    let tasks: Vec<Task> = colours.into_iter().map(task).collect();
    let most = pairs.len() as i64 * r.between(1, 3);
    let times = shuffled(r, 1..=most);
    let processors = [0; 2].map(|_| [1, 1, 2, 3, MAX_PROCESSORS][r.below(5)]);
    let file = |((maker, reader), time)| File {
        maker,
        reader,
        size: amount(r, way),
        time,
    };
    Sheet {
        processors,
        limits: [MAX_LIMIT; 2],
        tasks,
        files: pairs.into_iter().zip(times).map(file).collect(),
    }
}

/// The sheet with other limits.
pub fn with_limits(sheet: &Sheet, limits: [i64; 2]) -> Sheet {
    Sheet {
        limits,
        ..sheet.clone()
    }
}

/// Whether none of some planners is stuck on the sheet with these limits.
pub fn fits(sheet: &Sheet, planners: &[Planner], limits: [i64; 2]) -> bool {
    let text = write_sheet(&with_limits(sheet, limits)).into_bytes();
    planners.iter().all(|p| plan(*p, &text).number == 0)
}

/// By bisection: a number that is enough where one less is not, or the first of the range; the last of it is enough.
pub fn least(first: i64, last: i64, enough: impl Fn(i64) -> bool) -> i64 {
    let (mut less, mut found) = (first - 1, last);
    while found - less > 1 {
        let middle = (less + found) / 2;
        if enough(middle) {
            found = middle;
        } else {
            less = middle;
        }
    }
    found
}

/// Limits, one for both memories, at which none of some planners is stuck; with one block less in both memories one of them is.
pub fn least_alike(sheet: &Sheet, planners: &[Planner]) -> [i64; 2] {
    [least(0, ample(sheet), |m| fits(sheet, planners, [m; 2])); 2]
}

/// Limits at which none of some planners is stuck; with one block less in one memory, that of the colour, one of them is.
pub fn least_apart(sheet: &Sheet, planners: &[Planner], colour: Colour) -> [i64; 2] {
    let mut limits = least_alike(sheet, planners);
    for memory in [1 - colour as usize, colour as usize] {
        let with = |m: i64| {
            let mut other = limits;
            other[memory] = m;
            other
        };
        let found = least(0, limits[memory], |m| fits(sheet, planners, with(m)));
        limits = with(found);
    }
    limits
}

#[cfg(test)]
mod tests {
    use super::*;
    use crate::reference::read_sheet;

    /// Tasks, files and files of different move times of a sheet that is accepted.
    fn sizes_of(sheet: &Sheet) -> [usize; 3] {
        let read = read_sheet(write_sheet(sheet).as_bytes()).unwrap();
        let times: BTreeSet<i64> = read.files.iter().map(|f| f.time).collect();
        [read.tasks.len(), read.files.len(), times.len()]
    }

    #[test]
    fn sheets_are_sound() {
        for (wait, makers) in WAITS
            .iter()
            .flat_map(|w| [(w, Colour::Blue), (w, Colour::Red)])
        {
            let [tasks, files, _] = sizes_of(&longest(*wait, makers));
            assert_eq!(1 + tasks + files, MOST_PAIRS);
        }
        let mut r = Random(1);
        assert_eq!(sizes_of(&fork(&mut r))[..2], [64, 240]);
        assert_eq!(sizes_of(&long_read(&mut r))[0], 64);
        for tasks in 1..=64 {
            let [read, files, times] = sizes_of(&crossing(&mut r, tasks));
            assert_eq!((read, files), (tasks, times));
        }
    }

    #[test]
    fn bisection() {
        for (first, last, found) in [(0, 9, 0), (0, 9, 9), (0, 9, 4), (3, 9, 3), (5, 5, 5)] {
            assert_eq!(least(first, last, |n| n >= found), found);
        }
    }
}
