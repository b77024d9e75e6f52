//! Board sheets and timetables by chance, from a fixed seed: sound ones, and ones with a fault.

use crate::reference::{
    finish, moves, peaks, read_sheet, span, write_table, Sheet, Table, CURRENT, FORMER, MAX_FILES,
    MAX_LIMIT, MAX_PROCESSORS, MAX_SIZE, MAX_TASKS, MAX_TEXT, MAX_WORK,
};
use crate::simulation::Trace;
use std::collections::BTreeSet;
use std::ops::Range;

/// A generator of numbers (SplitMix64).
#[derive(Default)]
pub struct Random(pub u64);

impl Random {
    pub fn next(&mut self) -> u64 {
        self.0 = self.0.wrapping_add(0x9e37_79b9_7f4a_7c15);
        let mut z = self.0;
        z = (z ^ (z >> 30)).wrapping_mul(0xbf58_476d_1ce4_e5b9);
        z = (z ^ (z >> 27)).wrapping_mul(0x94d0_49bb_1331_11eb);
        z ^ (z >> 31)
    }

    /// A number from 0 to n - 1.
    pub fn below(&mut self, n: usize) -> usize {
        (self.next() % n as u64) as usize
    }

    /// A number from a to b.
    pub fn between(&mut self, a: i64, b: i64) -> i64 {
        a + (self.next() % (b - a + 1) as u64) as i64
    }

    pub fn one_in(&mut self, n: usize) -> bool {
        self.below(n) == 0
    }
}

/// A sound board sheet of at most `most` tasks; small numbers, so that ties and tight limits are frequent.
pub fn sheet(r: &mut Random, most: usize) -> String {
    let n = 1 + r.below(most);
    let wide = r.one_in(8);
    let (time, size) = if wide {
        (FORMER.run_time, MAX_SIZE)
    } else {
        (r.between(1, 9), r.between(0, 6))
    };
    let mut files = String::new();
    let mut count = 0;
    let mut total = 0;
    let density = 1 + r.below(6);
    for i in 1..=n {
        for j in i + 1..=n {
            if count < MAX_FILES && r.below(6) < density && (n < 12 || r.one_in(1 + n / 8)) {
                let f = r.between(0, size);
                total += f;
                count += 1;
                files += &format!("(file {i} {j} {f} {})\n", r.between(1, time));
            }
        }
    }
    let limit = |r: &mut Random| match r.below(4) {
        0 => MAX_LIMIT,
        1 => total,
        _ => r.between(0, total.max(1)),
    };
    let reds = if r.one_in(9) { MAX_PROCESSORS } else { 2 } as usize;
    let mut text = format!(
        "(board (blue {} {}) (red {} {}))\n",
        1 + r.below(3),
        limit(r),
        1 + r.below(reds),
        limit(r)
    );
    for i in 1..=n {
        text += &format!("(task {i} {} {})\n", r.between(1, time), r.between(1, time));
    }
    text + &files
}

/// A sheet of many tasks, with as many files as fit.
pub fn large_sheet(r: &mut Random, tasks: usize) -> String {
    spread_sheet(r, tasks, MAX_FILES)
}

/// A sheet of so many tasks and so many files, or as many as there are pairs; they are spread over all pairs of tasks.
pub fn spread_sheet(r: &mut Random, tasks: usize, files: usize) -> String {
    let mut text = String::from("(board (blue 4 60000) (red 4 60000))\n");
    for i in 1..=tasks {
        text += &format!("(task {i} {} {})\n", r.between(1, 1000), r.between(1, 1000));
    }
    let pairs: Vec<(usize, usize)> = (1..=tasks)
        .flat_map(|i| (i + 1..=tasks).map(move |j| (i, j)))
        .collect();
    let count = pairs.len().min(files);
    for k in 0..count {
        let (i, j) = pairs[k * pairs.len() / count];
        text += &format!(
            "(file {i} {j} {} {})\n",
            r.between(0, 300),
            r.between(1, 100)
        );
    }
    text
}

/// The text of a board sheet; W is written where it is not 0.
pub fn write_sheet(sheet: &Sheet) -> String {
    let ([blues, reds], [blue, red]) = (sheet.processors, sheet.limits);
    let mut text = format!("(board (blue {blues} {blue}) (red {reds} {red}))\n");
    for (i, task) in sheet.tasks.iter().enumerate() {
        let [b, r] = task.times;
        let work = match task.work {
            0 => String::new(),
            work => format!(" {work}"),
        };
        text += &format!("(task {} {b} {r}{work})\n", i + 1);
    }
    for f in &sheet.files {
        let (i, j) = (f.maker + 1, f.reader + 1);
        text += &format!("(file {i} {j} {} {})\n", f.size, f.time);
    }
    text
}

/// A sound sheet with each time so many times as long.
pub fn finer(text: &[u8], by: i64) -> Vec<u8> {
    let mut sheet = read_sheet(text).expect("a sound sheet");
    let tasks = sheet.tasks.iter_mut();
    tasks.flat_map(|t| &mut t.times).for_each(|t| *t *= by);
    sheet.files.iter_mut().for_each(|f| f.time *= by);
    write_sheet(&sheet).into_bytes()
}

/// The sheet with the same W on every task.
pub fn all_work(text: &[u8], work: i64) -> Vec<u8> {
    let mut sheet = read_sheet(text).expect("a sound sheet");
    sheet.tasks.iter_mut().for_each(|t| t.work = work);
    write_sheet(&sheet).into_bytes()
}

/// The sum of all file sizes.
pub fn sizes(sheet: &Sheet) -> i64 {
    sheet.files.iter().map(|f| f.size).sum()
}

/// The sum of all file sizes and all W: limits of so much are ample.
pub fn ample(sheet: &Sheet) -> i64 {
    sizes(sheet) + sheet.tasks.iter().map(|t| t.work).sum::<i64>()
}

/// A sound sheet with relays in it: one, many, a chain or all tasks, on blue, on red or on both; often with tight limits.
pub fn with_relays(r: &mut Random, text: &str) -> String {
    let mut sheet = read_sheet(text.as_bytes()).expect("a sound sheet");
    let colours = r.below(4);
    for i in relay_tasks(r, &sheet) {
        match colours {
            0 | 1 => sheet.tasks[i].times[colours] = 0,
            2 => sheet.tasks[i].times = [0, 0],
            _ => sheet.tasks[i].times[r.below(2)] = 0,
        }
    }
    let colour = r.below(2);
    let (total, way) = (ample(&sheet), r.below(5));
    match way {
        0 => {}
        1 | 2 => sheet.limits = [total; 2],
        _ => sheet.limits = peaks(&sheet, &table(r, &sheet)),
    }
    if way == 2 || way == 4 {
        sheet.limits[colour] = (sheet.limits[colour] - 1).max(0);
    }
    write_sheet(&sheet)
}

/// The tasks to be made relays, at least one.
fn relay_tasks(r: &mut Random, sheet: &Sheet) -> Vec<usize> {
    let n = sheet.tasks.len();
    let mut tasks = vec![r.below(n)];
    match r.below(8) {
        0 | 1 => {}
        2..=4 => tasks.extend((0..n).filter(|_| r.one_in(2))),
        5 | 6 => loop {
            let maker = *tasks.last().unwrap();
            let made: Vec<_> = sheet.files.iter().filter(|f| f.maker == maker).collect();
            if made.is_empty() {
                break;
            }
            tasks.push(made[r.below(made.len())].reader);
        },
        _ => tasks = (0..n).collect(),
    }
    tasks
}

/// A sound sheet with W: on one task, on some or on all; mostly with limits that do not leave room for every W at once.
pub fn with_work(r: &mut Random, text: &str) -> String {
    let mut sheet = read_sheet(text.as_bytes()).expect("a sound sheet");
    let way = r.below(8);
    for i in work_tasks(r, &sheet) {
        sheet.tasks[i].work = work(r, &sheet, way);
    }
    let (files, total, colour) = (sizes(&sheet), ample(&sheet), r.below(2));
    let greatest = sheet.tasks.iter().map(|t| t.work).max().unwrap_or(0);
    match r.below(12) {
        0 | 1 => {}
        2 => sheet.limits = [total; 2],
        3 => {
            sheet.limits = [total; 2];
            sheet.limits[colour] -= 1;
        }
        4 => sheet.limits = [files; 2],
        5 | 6 => sheet.limits = [files + greatest; 2],
        7 => sheet.limits = [greatest, greatest].map(|w| w - r.between(0, 1)),
        8 => sheet.limits = peaks(&sheet, &table(r, &sheet)),
        9 => {
            sheet.limits = peaks(&sheet, &table(r, &sheet));
            sheet.limits[colour] = (sheet.limits[colour] - 1).max(0);
        }
        _ => sheet.limits = [0, 0].map(|_| r.between(0, total)),
    }
    write_sheet(&sheet)
}

/// The tasks to have W, at least one.
fn work_tasks(r: &mut Random, sheet: &Sheet) -> Vec<usize> {
    let n = sheet.tasks.len();
    let mut tasks = vec![r.below(n)];
    match r.below(3) {
        0 => {}
        1 => tasks.extend((0..n).filter(|_| r.one_in(2))),
        _ => tasks = (0..n).collect(),
    }
    tasks
}

/// A W: small, up to the sum of all file sizes, next to a limit, or the least or the greatest.
fn work(r: &mut Random, sheet: &Sheet, way: usize) -> i64 {
    let any = match way {
        0..=3 => r.between(1, 6),
        4 | 5 => r.between(1, sizes(sheet).max(1)),
        6 => sheet.limits[r.below(2)] + r.between(-1, 1),
        _ => [1, MAX_WORK][r.below(2)],
    };
    any.clamp(1, MAX_WORK)
}

/// A timetable that keeps the rules but for the limits: each task somewhere, after its files have arrived, with idle gaps and early moves.
pub fn table(r: &mut Random, sheet: &Sheet) -> Table {
    let n = sheet.tasks.len();
    let total = sheet.processors[0] + sheet.processors[1];
    let mut last = vec![0; total as usize + 1];
    let mut t = Table {
        runs: vec![None; n],
        moves: vec![0; sheet.files.len()],
    };
    for i in 0..n {
        let p = r.between(1, total);
        let colour = sheet.colour(p);
        let gap = if r.one_in(3) { r.between(0, 5) } else { 0 };
        let mut start: i64 = last[p as usize] + gap;
        for (k, f) in sheet
            .files
            .iter()
            .enumerate()
            .filter(|(_, f)| f.reader == i)
        {
            let made = finish(sheet, &t, f.maker);
            if sheet.colour(t.runs[f.maker].unwrap().0) != colour {
                t.moves[k] = made + if r.one_in(3) { r.between(0, 4) } else { 0 };
                start = start.max(t.moves[k] + f.time);
            } else {
                start = start.max(made);
            }
        }
        t.runs[i] = Some((p, start));
        last[p as usize] = finish(sheet, &t, i);
    }
    t
}

/// Whether a task runs as a relay.
fn relayed(sheet: &Sheet, t: &Table, i: usize) -> bool {
    finish(sheet, t, i) == t.runs[i].unwrap().1
}

/// The first and last tick at which a relay is not early: its files have arrived, and those it makes are not yet wanted.
fn timely(sheet: &Sheet, t: &Table, i: usize) -> (i64, i64) {
    let (mut first, mut last) = (0, i64::MAX);
    for (k, f) in sheet.files.iter().enumerate() {
        let moved = moves(sheet, t, f);
        if f.reader == i && moved {
            first = first.max(t.moves[k] + f.time);
        } else if f.reader == i {
            first = first.max(finish(sheet, t, f.maker));
        } else if f.maker == i && moved {
            last = last.min(t.moves[k]);
        } else if f.maker == i {
            last = last.min(t.runs[f.reader].unwrap().1);
        }
    }
    (first, last)
}

/// A timetable with a relay put on the processor of another run of its colour: at its start, at its finish, inside it, one tick
/// before its finish, or together with another relay; mostly where it is not early. As it was if there is no such place.
pub fn put_relay(r: &mut Random, sheet: &Sheet, table: &Table) -> Table {
    let n = sheet.tasks.len();
    let way = r.below(5);
    let (mut all, mut fitting) = (vec![], vec![]);
    for i in (0..n).filter(|i| relayed(sheet, table, *i)) {
        let colour = sheet.colour(table.runs[i].unwrap().0);
        let (first, last) = timely(sheet, table, i);
        for j in (0..n).filter(|j| *j != i && relayed(sheet, table, *j) == (way == 4)) {
            let (p, s) = table.runs[j].unwrap();
            let end = finish(sheet, table, j);
            let (from, to) = [
                (s, s),
                (end, end),
                (s + 1, end - 1),
                (end - 1, end - 1),
                (s, s),
            ][way];
            if sheet.colour(p) != colour || from > to {
                continue;
            }
            all.push((i, p, from, to));
            if from.max(first) <= to.min(last) {
                fitting.push((i, p, from.max(first), to.min(last)));
            }
        }
    }
    let mut t = table.clone();
    let places = if fitting.is_empty() || r.one_in(8) {
        all
    } else {
        fitting
    };
    if !places.is_empty() {
        let (i, p, from, to) = places[r.below(places.len())];
        t.runs[i] = Some((p, r.between(from, to)));
    }
    t
}

/// A timetable with a relay at its span, one that reads files and makes none; half the time with the relays that feed it alone at the
/// same tick. As it was if there is no such relay.
pub fn put_last(r: &mut Random, sheet: &Sheet, table: &Table) -> Table {
    let mut t = table.clone();
    let reads = |i: usize| sheet.files.iter().any(|f| f.reader == i);
    let makes = |i: usize| sheet.files.iter().any(|f| f.maker == i);
    let relays: Vec<usize> = (0..sheet.tasks.len())
        .filter(|i| relayed(sheet, table, *i) && reads(*i) && !makes(*i))
        .collect();
    if relays.is_empty() {
        return t;
    }
    let at = span(sheet, table);
    let mut moved = vec![relays[r.below(relays.len())]];
    if r.one_in(2) {
        for i in (0..moved[0]).rev() {
            let mut made = sheet.files.iter().filter(|f| f.maker == i);
            let alone = made.all(|f| moved.contains(&f.reader) && !moves(sheet, table, f));
            if relayed(sheet, table, i) && makes(i) && alone {
                moved.push(i);
            }
        }
    }
    for i in moved {
        t.runs[i] = Some((t.runs[i].unwrap().0, at));
    }
    t
}

/// A sheet with limits at what a timetable needs, or one less in one memory: its peaks, or what is held at its span, where relays are: what
/// they read, and their W.
pub fn limited(r: &mut Random, sheet: &Sheet, t: &Table) -> Sheet {
    let mut s = sheet.clone();
    let c = r.below(2);
    let at = span(sheet, t);
    let last = |i: usize| {
        let (p, start) = t.runs[i].unwrap();
        sheet.colour(p) as usize == c && start == at
    };
    let read = sheet.files.iter().map(|f| (f.reader, f.size));
    let works = sheet.tasks.iter().enumerate().map(|(i, t)| (i, t.work));
    let held = read.chain(works).filter(|(i, _)| last(*i));
    let needed = peaks(sheet, t);
    match r.below(6) {
        0 => {}
        1 | 2 => s.limits = needed,
        3 | 4 => {
            s.limits = needed;
            s.limits[c] = (needed[c] - 1).max(0);
        }
        _ => {
            s.limits = needed;
            s.limits[c] = (held.map(|h| h.1).sum::<i64>() - r.between(0, 1)).max(0);
        }
    }
    s
}

/// A timetable's text with one number of its claim one more or one less.
pub fn untrue(r: &mut Random, text: &str) -> String {
    let at = text.rfind('(').expect("a claim");
    let mut numbers: Vec<i64> = text[at..]
        .split(|c: char| !c.is_ascii_digit())
        .filter_map(|w| w.parse().ok())
        .collect();
    let k = r.below(3);
    numbers[k] += if numbers[k] == 0 || r.one_in(2) {
        1
    } else {
        -1
    };
    let [span, blue, red] = [numbers[0], numbers[1], numbers[2]];
    format!("{}(claim {span} {blue} {red})\n", &text[..at])
}

/// A timetable with one start or move start changed.
pub fn shifted(r: &mut Random, sheet: &Sheet, t: &Table) -> String {
    let mut t = t.clone();
    if sheet.files.is_empty() || r.one_in(2) {
        let i = r.below(t.runs.len());
        let (p, s) = t.runs[i].unwrap();
        t.runs[i] = Some((p, (s + r.between(-4, 4)).max(0)));
    } else {
        let k = r.below(t.moves.len());
        t.moves[k] = (t.moves[k] + r.between(-4, 4)).max(0);
    }
    write_table(sheet, &t)
}

/// A timetable with one to four of its starts, processors and moves changed, at times all of it later.
pub fn moved_about(r: &mut Random, sheet: &Sheet, table: &Table) -> Table {
    let mut t = table.clone();
    for _ in 0..1 + r.below(4) {
        let (i, j) = (r.below(t.runs.len()), r.below(t.runs.len()));
        let ((p, s), (q, other)) = (t.runs[i].unwrap(), t.runs[j].unwrap());
        match r.below(7) {
            0 => t.runs[i] = Some((p, (s + r.between(-4, 4)).max(0))),
            1 => (t.runs[i], t.runs[j]) = (Some((q, s)), Some((p, other))),
            2 => (t.runs[i], t.runs[j]) = (Some((p, other)), Some((q, s))),
            3 => t.runs[i] = Some((p, other)),
            4 if !sheet.files.is_empty() => {
                let k = r.below(t.moves.len());
                t.moves[k] = (t.moves[k] + r.between(-4, 4)).max(0);
            }
            _ if !sheet.files.is_empty() => {
                let f = &sheet.files[r.below(sheet.files.len())];
                let (p, s) = t.runs[f.maker].unwrap();
                let last = finish(sheet, &t, f.maker).max(s + 1) - 1;
                t.runs[f.reader] = Some((p, r.between(s, last)));
            }
            _ => {}
        }
    }
    for (k, f) in sheet.files.iter().enumerate() {
        if moves(sheet, &t, f) && !moves(sheet, table, f) {
            t.moves[k] = finish(sheet, &t, f.maker);
        }
    }
    later(r, sheet, t)
}

/// A timetable a few ticks later, as late as can be written, or mostly as it was.
fn later(r: &mut Random, sheet: &Sheet, t: Table) -> Table {
    let by = match r.below(8) {
        0 | 1 => r.between(1, 5),
        2 => CURRENT.tick - last_start(sheet, &t) - r.between(0, 2),
        _ => 0,
    };
    put_off(t, by)
}

/// The last start of a run or a move.
fn last_start(sheet: &Sheet, t: &Table) -> i64 {
    let moved = sheet.files.iter().zip(&t.moves);
    let moved = moved.filter(|(f, _)| moves(sheet, t, f)).map(|(_, m)| *m);
    let runs = t.runs.iter().map(|run| run.unwrap().1);
    runs.chain(moved).max().unwrap()
}

/// A timetable with each start so many ticks later.
pub fn put_off(mut t: Table, by: i64) -> Table {
    t.runs = t
        .runs
        .iter()
        .map(|run| run.map(|(p, s)| (p, s + by)))
        .collect();
    t.moves = t.moves.iter().map(|m| m + by).collect();
    t
}

/// A sheet with limits at what a timetable holds before the first tick of 15 or 16, so that 17 applies there too where it then holds more.
pub fn limited_before_fault(sheet: &Sheet, t: &Table) -> Sheet {
    let mut s = sheet.clone();
    s.limits = [MAX_LIMIT; 2];
    let trace = Trace::new(&s, t);
    if let Some(tick) = trace.faulty_tick() {
        s.limits = trace.peaks_before(tick);
    }
    s
}

/// The text of a timetable with its true claim; where no claim can name the span, with the greatest that can be written.
pub fn write_paper(sheet: &Sheet, t: &Table) -> String {
    let (text, s) = (write_table(sheet, t), span(sheet, t));
    let most = CURRENT.tick;
    if s > most {
        text.replace(&format!("(claim {s} "), &format!("(claim {most} "))
    } else {
        text
    }
}

/// A sheet of 64 tasks and 256 files, each from one of the first 32 tasks to one of the others, with a move time.
fn halves(time: i64) -> Sheet {
    let side = format!("{MAX_PROCESSORS} {MAX_LIMIT}");
    let mut sheet = format!("(board (blue {side}) (red {side}))\n");
    for i in 1..=MAX_TASKS {
        sheet += &format!("(task {i} 10 10)\n");
    }
    for i in 0..32 {
        let mut readers: Vec<usize> = (0..8).map(|k| 33 + (8 * i + k) % 32).collect();
        readers.sort();
        for j in readers {
            sheet += &format!("(file {} {j} 1000 {time})\n", i + 1);
        }
    }
    read_sheet(sheet.as_bytes()).expect("a sound sheet")
}

/// Texts of 64 tasks and 256 files, all moved: makers on a blue processor, readers on a red one, all moves at one tick.
pub fn all_moved() -> (Vec<u8>, Vec<u8>) {
    let sheet = halves(5);
    let start = |i: i64| Some(if i < 32 { (1, 10 * i) } else { (9, 10 * i + 5) });
    let table = Table {
        runs: (0..64).map(start).collect(),
        moves: vec![320; sheet.files.len()],
    };
    texts(&sheet, &table)
}

/// The texts of a sheet and of a timetable, with its true claim.
fn texts(sheet: &Sheet, table: &Table) -> (Vec<u8>, Vec<u8>) {
    (
        write_sheet(sheet).into_bytes(),
        write_table(sheet, table).into_bytes(),
    )
}

/// The same with each start and each end of a run or a move at a tick of its own: 640 ticks.
pub fn all_apart() -> (Vec<u8>, Vec<u8>) {
    let (sheet, table) = apart();
    texts(&sheet, &table)
}

fn apart() -> (Sheet, Table) {
    let sheet = halves(1001);
    let start = |i: i64| {
        Some(if i < 32 {
            (1, 20 * i)
        } else {
            (9, 20 * i + 3000)
        })
    };
    let table = Table {
        runs: (0..64).map(start).collect(),
        moves: (0..256).map(|k| 1000 + 2 * k).collect(),
    };
    (sheet, table)
}

/// The same with each task a relay with W: 640 ticks too, since each W is held until the tick after its relay.
pub fn all_apart_with_work() -> (Vec<u8>, Vec<u8>) {
    let (mut sheet, table) = apart();
    for task in &mut sheet.tasks {
        (task.times, task.work) = ([0, 0], 1);
    }
    texts(&sheet, &table)
}

/// A run time or a move time: next to the greatest of the former or of the present limits, small, or any.
fn fine_time(r: &mut Random, former: i64, present: i64) -> i64 {
    match r.below(6) {
        0 => former + r.between(-1, 1),
        1 => present - r.between(0, 1),
        2 => r.between(1, 9),
        _ => r.between(1, present),
    }
}

/// A sound sheet with times up to the present limits: one of them, or all. Relays stay relays.
pub fn with_fine_times(r: &mut Random, text: &[u8]) -> Vec<u8> {
    let mut sheet = read_sheet(text).expect("a sound sheet");
    let runs = sheet.tasks.iter_mut().flat_map(|t| &mut t.times);
    let runs = runs.filter(|time| **time > 0);
    let runs = runs.map(|time| (time, FORMER.run_time, CURRENT.run_time));
    let moves = sheet.files.iter_mut().map(|f| &mut f.time);
    let moves = moves.map(|time| (time, FORMER.move_time, CURRENT.move_time));
    let mut times: Vec<_> = runs.chain(moves).collect();
    if !times.is_empty() && r.one_in(3) {
        let one = times.swap_remove(r.below(times.len()));
        times = vec![one];
    }
    for (time, former, present) in times {
        *time = fine_time(r, former, present);
    }
    write_sheet(&sheet).into_bytes()
}

/// A sheet of 64 tasks and 256 files on one blue and one red processor. Each task is fast on the colour on which the one before it is
/// slow, and reads a file of it; a move and a fast run take less time than a slow run. The other files go from tasks to those an odd number
/// behind them. So the planners, given memory enough, place the tasks by turns on both colours and move every file.
pub fn by_turns() -> Vec<u8> {
    let (fast, slow) = (CURRENT.run_time / 5 * 2, CURRENT.run_time);
    let mut text = format!("(board (blue 1 {MAX_LIMIT}) (red 1 {MAX_LIMIT}))\n");
    for i in 1..=MAX_TASKS {
        let [blue, red] = [[slow, fast], [fast, slow]][i as usize % 2];
        text += &format!("(task {i} {blue} {red})\n");
    }
    let apart = (1..MAX_TASKS).step_by(2);
    let pairs = apart.flat_map(|by| (1..=MAX_TASKS - by).map(move |i| (i, i + by)));
    let chosen: BTreeSet<(i64, i64)> = pairs.take(MAX_FILES).collect();
    for (i, j) in chosen {
        let time = CURRENT.move_time / 2;
        text += &format!("(file {i} {j} {MAX_SIZE} {time})\n");
    }
    text.into_bytes()
}

/// A timetable put off until its last start or its span is next to the last tick of the former or of the present limits; as it was if it
/// is later already.
pub fn late(r: &mut Random, sheet: &Sheet, t: &Table) -> Table {
    let most = [FORMER.tick, CURRENT.tick][r.below(2)] + r.between(-1, 1);
    let last = if r.one_in(2) {
        span(sheet, t)
    } else {
        last_start(sheet, t)
    };
    put_off(t.clone(), (most - last).max(0))
}

/// Numerals next to each limit, the least and the greatest of each length from the former digits to two past the present ones, some that
/// are 1 modulo a power of two, and some with a leading zero.
fn edge_numerals() -> Vec<String> {
    let limits = [MAX_PROCESSORS, MAX_TASKS, MAX_SIZE, MAX_WORK, MAX_LIMIT];
    let wider = [FORMER.run_time, CURRENT.run_time, FORMER.tick, CURRENT.tick];
    let next = limits.into_iter().chain(wider).flat_map(|n| n - 1..=n + 1);
    let lengths = FORMER.digits as u32..=CURRENT.digits as u32 + 2;
    let ends = lengths.flat_map(|n| [10_i64.pow(n - 1), 10_i64.pow(n) - 1]);
    let wrapped = [32, 33, 36, 39].map(|bits| (1 << bits) + 1);
    let all: BTreeSet<i64> = next.chain(ends).chain(wrapped).chain([0, 1]).collect();
    let zeros = [1, FORMER.tick, FORMER.tick + 1, CURRENT.tick];
    let mut numerals: Vec<String> = all.iter().map(i64::to_string).collect();
    numerals.extend(zeros.map(|n| format!("0{n}")));
    numerals.push(((1_u128 << 64) + 1).to_string());
    numerals
}

/// A text with one of its numbers replaced by one of these numerals.
pub fn widened(r: &mut Random, text: &[u8]) -> Vec<u8> {
    let (places, numerals) = (number_places(text), edge_numerals());
    if places.is_empty() {
        return text.to_vec();
    }
    let at = places[r.below(places.len())].clone();
    replaced(text, at, &numerals[r.below(numerals.len())])
}

/// A text with each of its numbers in turn replaced by each of these numerals.
pub fn each_widened(text: &[u8]) -> Vec<Vec<u8>> {
    let numerals = edge_numerals();
    let places = number_places(text).into_iter();
    places
        .flat_map(|at| numerals.iter().map(move |n| replaced(text, at.clone(), n)))
        .collect()
}

/// A text with some damage: a byte, a line, or a number of it.
pub fn damaged(r: &mut Random, text: &[u8]) -> Vec<u8> {
    let mut t = text.to_vec();
    let mut lines: Vec<Vec<u8>> = text
        .split_inclusive(|b| *b == b'\n')
        .map(|l| l.to_vec())
        .collect();
    if t.is_empty() {
        return vec![b'\n'];
    }
    match r.below(10) {
        0 => {
            let i = r.below(t.len());
            t[i] = r.next() as u8;
            return t;
        }
        1 => {
            t.pop();
            return t;
        }
        2 => {
            let i = r.below(t.len());
            t.remove(i);
            return t;
        }
        3 => {
            let i = r.below(t.len() + 1);
            t.insert(
                i,
                *[b' ', b'\n', b'0', b'9', b'\r', b'(']
                    .get(r.below(6))
                    .unwrap(),
            );
            return t;
        }
        4 => {
            let i = r.below(lines.len());
            lines.remove(i);
        }
        5 => {
            let i = r.below(lines.len());
            let again = lines[i].clone();
            lines.insert(r.below(lines.len() + 1), again);
        }
        6 => {
            let (i, j) = (r.below(lines.len()), r.below(lines.len()));
            lines.swap(i, j);
        }
        7 => {
            t.truncate(r.below(t.len()));
            return t;
        }
        _ => {
            let i = r.below(lines.len());
            lines[i] = renumbered(r, &lines[i]);
        }
    }
    lines.concat()
}

/// Faults of a task line about its W: what they are called, the number that refuses them, and the line, with I for the task, J for another,
/// and B, R and W.
pub const WORK_FAULTS: [(&str, u64, &str); 26] = [
    ("a written 0", 3, "(task I B R 0)"),
    ("one too many", 3, "(task I B R 1000001)"),
    ("twelve digits", 3, "(task I B R 999999999999)"),
    ("thirteen digits", 2, "(task I B R 1000000000000)"),
    ("1 modulo 2^64", 2, "(task I B R 18446744073709551617)"),
    ("a leading zero", 2, "(task I B R 0W)"),
    ("two zeros", 2, "(task I B R 00)"),
    ("a fifth number", 2, "(task I B R W W)"),
    ("a sixth number", 2, "(task I B R W W W)"),
    ("R missing", 2, "(task I B  W)"),
    ("B and R missing", 2, "(task I W)"),
    ("no digit", 2, "(task I B R )"),
    ("a space behind", 2, "(task I B R W )"),
    ("two spaces", 2, "(task I B R  W)"),
    ("a comma", 2, "(task I B R,W)"),
    ("a plus sign", 2, "(task I B R +W)"),
    ("a minus sign", 2, "(task I B R -W)"),
    ("a CR", 2, "(task I B R W)\r"),
    ("behind the bracket", 2, "(task I B R) W"),
    ("in brackets", 2, "(task I B R (W))"),
    ("no bracket", 2, "(task I B R W"),
    ("and a run time too large", 3, "(task I 1000000001 R W)"),
    ("and task 65", 3, "(task 65 B R W)"),
    ("and another task", 4, "(task J B R W)"),
    ("0 and another task", 3, "(task J B R 0)"),
    ("on a file", 2, "(file I J B 1 W)"),
];

/// A sound sheet with one of these faults in the line of one of its tasks; the line's place.
pub fn with_work_fault(r: &mut Random, sheet: &Sheet, line: &str) -> (Vec<u8>, u64) {
    let i = r.below(sheet.tasks.len());
    let ([blue, red], work) = (sheet.tasks[i].times, sheet.tasks[i].work.max(1));
    let task = i as i64 + 1;
    let numbers = [task, task % MAX_TASKS + 1, blue, red, work];
    let mut other = line.to_string();
    for (letter, number) in ["I", "J", "B", "R", "W"].iter().zip(numbers) {
        other = other.replace(letter, &number.to_string());
    }
    let text = write_sheet(sheet);
    let mut lines: Vec<&str> = text.lines().collect();
    lines[i + 1] = &other;
    ((lines.join("\n") + "\n").into_bytes(), i as u64 + 2)
}

/// Where the numbers of a text are.
fn number_places(text: &[u8]) -> Vec<Range<usize>> {
    let digit = |i: usize| text.get(i).is_some_and(u8::is_ascii_digit);
    let starts = (0..text.len()).filter(|i| digit(*i) && (*i == 0 || !digit(i - 1)));
    let end = |start: usize| (start..).find(|i| !digit(*i)).unwrap();
    starts.map(|start| start..end(start)).collect()
}

/// A text with another number at a place.
fn replaced(text: &[u8], at: Range<usize>, number: &str) -> Vec<u8> {
    [&text[..at.start], number.as_bytes(), &text[at.end..]].concat()
}

/// A line with another number in place of one of its numbers.
fn renumbered(r: &mut Random, line: &[u8]) -> Vec<u8> {
    let places = number_places(line);
    if places.is_empty() {
        return line.to_vec();
    }
    let at = places[r.below(places.len())].clone();
    let digits = std::str::from_utf8(&line[at.clone()]).expect("digits");
    let old: i64 = digits.parse().unwrap_or(0);
    let new = match r.below(9) {
        0 => 0,
        1 => MAX_TASKS + 1,
        2 => MAX_LIMIT,
        3 => MAX_LIMIT + 1,
        4 => MAX_SIZE + 1,
        5 => return replaced(line, at, &format!("0{old}")),
        6 => (old - 1).max(0),
        _ => old + r.between(1, 3),
    };
    replaced(line, at, &new.to_string())
}

/// Bytes by chance, often those of the forms.
pub fn noise(r: &mut Random) -> Vec<u8> {
    let pool = b"()\n 0123456789boardtskfilerunmvc#\r\xff";
    let n = r.below(60);
    (0..n)
        .map(|_| {
            if r.one_in(6) {
                r.next() as u8
            } else {
                pool[r.below(pool.len())]
            }
        })
        .collect()
}

/// A text of about the greatest length, on either side of it.
pub fn long(r: &mut Random, text: &[u8]) -> Vec<u8> {
    let mut t = text.to_vec();
    t.resize(
        MAX_TEXT - 3 + r.below(12),
        if r.one_in(2) { b'\n' } else { b'1' },
    );
    t
}
