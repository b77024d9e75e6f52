//! The four cases of a file's maker and reader, told from timetables: what each memory holds, tick by tick, beside the marker's answer,
//! and how often each case was met.

use crate::reference::{
    colours, early, read_sheet, read_table, release, ByCase, Colour, Planned, Sheet, Table,
};
use std::collections::BTreeMap;
use Colour::{Blue, Red};

const CASES: [(&str, Colour, Colour); 4] = [
    ("blue-blue", Blue, Blue),
    ("red-red", Red, Red),
    ("blue-red", Blue, Red),
    ("red-blue", Red, Blue),
];

/// Timetables with files or a W that hold nothing from this tick on are gone through tick by tick.
const MOST_TICKS: i64 = 300;

/// The answers that say something about what is held: in accepted timetables and those refused by 18 no memory is over its limit.
const CHECKED: [u64; 3] = [0, 17, 18];

/// A file of a complete timetable, and the ticks at which its holds start and end.
struct Held {
    maker: Colour,
    reader: Colour,
    size: i64,
    maker_start: i64,
    /// start and end of the move; of no meaning for an unmoved file
    move_start: i64,
    move_end: i64,
    release: i64,
}

impl Held {
    fn all(sheet: &Sheet, table: &Table) -> Vec<Held> {
        let files = sheet.files.iter().zip(&table.moves);
        files
            .map(|(f, t)| {
                let (maker, reader) = colours(sheet, table, f);
                Held {
                    maker,
                    reader,
                    size: f.size,
                    maker_start: table.runs[f.maker].unwrap().1,
                    move_start: *t,
                    move_end: t + f.time,
                    release: release(sheet, table, f.reader),
                }
            })
            .collect()
    }

    /// What the blue and the red memory hold of the file at a tick.
    fn at(&self, tick: i64) -> [i64; 2] {
        let held = |from: i64, until: i64| {
            if from <= tick && tick < until {
                self.size
            } else {
                0
            }
        };
        let unmoved = held(self.maker_start, self.release);
        let at_maker = held(self.maker_start, self.move_end);
        let at_reader = held(self.move_start, self.release);
        match (self.maker, self.reader) {
            (Blue, Blue) => [unmoved, 0],
            (Red, Red) => [0, unmoved],
            (Blue, Red) => [at_maker, at_reader],
            (Red, Blue) => [at_reader, at_maker],
        }
    }
}

/// The run of a task with a W, which its memory holds from the start until the release.
struct Working {
    colour: Colour,
    work: i64,
    start: i64,
    release: i64,
}

impl Working {
    fn all(sheet: &Sheet, table: &Table) -> Vec<Working> {
        let tasks = sheet.tasks.iter().enumerate().filter(|(_, t)| t.work != 0);
        tasks
            .map(|(i, task)| {
                let (processor, start) = table.runs[i].unwrap();
                Working {
                    colour: sheet.colour(processor),
                    work: task.work,
                    start,
                    release: release(sheet, table, i),
                }
            })
            .collect()
    }

    /// What the blue and the red memory hold of the W at a tick.
    fn at(&self, tick: i64) -> [i64; 2] {
        match self.colour {
            _ if tick < self.start || self.release <= tick => [0, 0],
            Blue => [self.work, 0],
            Red => [0, self.work],
        }
    }
}

/// All that a timetable holds.
struct Contents {
    files: Vec<Held>,
    works: Vec<Working>,
}

impl Contents {
    fn new(sheet: &Sheet, table: &Table) -> Contents {
        Contents {
            files: Held::all(sheet, table),
            works: Working::all(sheet, table),
        }
    }

    /// What the blue and the red memory hold at a tick.
    fn total(&self, tick: i64) -> [i64; 2] {
        let files = self.files.iter().map(|f| f.at(tick));
        let held: Vec<[i64; 2]> = files.chain(self.works.iter().map(|w| w.at(tick))).collect();
        [0, 1].map(|c| held.iter().map(|h| h[c]).sum())
    }

    /// The tick from which on nothing is held, if no file is early: each move then ends before the release. None if nothing is ever held.
    fn end(&self) -> Option<i64> {
        let files = self.files.iter().map(|f| f.release);
        files.chain(self.works.iter().map(|w| w.release)).max()
    }
}

/// Both peaks and the first instant over a limit, looking at each tick before `end`.
fn by_ticks(sheet: &Sheet, contents: &Contents, end: i64) -> ([i64; 2], Option<i64>) {
    let mut peaks = [0, 0];
    let mut over = None;
    for tick in 0..end {
        let now = contents.total(tick);
        for c in 0..2 {
            peaks[c] = peaks[c].max(now[c]);
            if over.is_none() && now[c] > sheet.limits[c] {
                over = Some(tick);
            }
        }
    }
    (peaks, over)
}

/// How often each case was met, and how many timetables were gone through tick by tick.
#[derive(Default)]
pub struct Counts {
    accepted: ByCase,
    early: ByCase,
    over: ByCase,
    tried: ByCase,
    planned: ByCase,
    by_ticks: BTreeMap<u64, u64>,
    /// of these with a W
    with_work: BTreeMap<u64, u64>,
}

fn count(counts: &mut ByCase, maker: Colour, reader: Colour) {
    counts[maker as usize][reader as usize] += 1;
}

/// The counts with the names of their cases.
fn named(counts: &ByCase) -> [(&'static str, u64); 4] {
    CASES.map(|(case, maker, reader)| (case, counts[maker as usize][reader as usize]))
}

impl Counts {
    /// A paper of sound text and the marker's answer to it; an error where going tick by tick finds something else.
    pub fn marked(&mut self, sheet: &[u8], paper: &[u8], answer: [u64; 5]) -> Result<(), String> {
        let sheet = read_sheet(sheet).expect("a sound sheet");
        let (table, _) = read_table(&sheet, paper).expect("a sound timetable");
        let contents = Contents::new(&sheet, &table);
        let (number, place) = (answer[0], answer[1] as i64);
        let now = contents.total(place);
        let over = |held: [i64; 2]| (0..2).any(|c| now[c] > sheet.limits[c] && held[c] > 0);
        for (k, f) in contents.files.iter().enumerate() {
            match number {
                0 => count(&mut self.accepted, f.maker, f.reader),
                16 if early(&sheet, &table, k) => count(&mut self.early, f.maker, f.reader),
                17 if over(f.at(place)) => count(&mut self.over, f.maker, f.reader),
                _ => {}
            }
        }
        if CHECKED.contains(&number) {
            self.check(&sheet, &contents, answer)?;
        }
        Ok(())
    }

    /// Compares a short timetable, gone through tick by tick, with the answer to it.
    fn check(
        &mut self,
        sheet: &Sheet,
        contents: &Contents,
        answer: [u64; 5],
    ) -> Result<(), String> {
        let Some(end) = contents.end().filter(|end| *end <= MOST_TICKS) else {
            return Ok(());
        };
        let (peaks, over) = by_ticks(sheet, contents, end);
        let [number, place, _, blue, red] = answer;
        let same = match number {
            17 => over == Some(place as i64),
            0 => over.is_none() && peaks == [blue as i64, red as i64],
            _ => over.is_none(),
        };
        if !same {
            return Err(format!(
                "tick by tick differs: peaks {peaks:?}, first instant over a limit {over:?}; marked {answer:?}"
            ));
        }
        *self.by_ticks.entry(number).or_default() += 1;
        if !contents.works.is_empty() {
            *self.with_work.entry(number).or_default() += 1;
        }
        Ok(())
    }

    /// A planner's answer to a sheet.
    pub fn planned(&mut self, sheet: &[u8], answer: &Planned) {
        for (all, met) in self.tried.iter_mut().zip(answer.met.files) {
            for (c, n) in met.iter().enumerate() {
                all[c] += n;
            }
        }
        if answer.number == 0 {
            let sheet = read_sheet(sheet).expect("a sound sheet");
            let (table, _) = read_table(&sheet, &answer.text).expect("a sound timetable");
            for f in &sheet.files {
                let (maker, reader) = colours(&sheet, &table, f);
                count(&mut self.planned, maker, reader);
            }
        }
    }

    /// What was counted by cases, in words.
    fn rows(&self) -> [(&str, &ByCase); 5] {
        [
            ("files of accepted timetables", &self.accepted),
            ("early files, in timetables refused by 16", &self.early),
            (
                "files in a memory over its limit, at the instant that 17 names",
                &self.over,
            ),
            ("files read in planners' trials", &self.tried),
            ("files of planned timetables", &self.planned),
        ]
    }

    fn checked(&self, number: u64) -> u64 {
        self.by_ticks.get(&number).copied().unwrap_or(0)
    }

    pub fn print(&self) {
        for (name, counts) in self.rows() {
            let cases = named(counts).map(|(case, n)| format!("{case} {n}"));
            println!("{name}: {}", cases.join(", "));
        }
        let [accepted, over, untrue] = CHECKED.map(|n| self.checked(n));
        println!(
            "timetables with files or W gone through tick by tick: {accepted} accepted, refused by 17: {over}, 18: {untrue}; with W: {}",
            self.with_work.values().sum::<u64>()
        );
    }

    /// What was never met: a line each.
    pub fn faults(&self) -> Vec<String> {
        let mut all = vec![];
        for (name, counts) in self.rows() {
            for (case, _) in named(counts).iter().filter(|c| c.1 == 0) {
                all.push(format!("{name}: none was {case}"));
            }
        }
        for number in CHECKED.iter().filter(|n| self.checked(**n) == 0) {
            all.push(format!(
                "no timetable with files or W and the answer {number} was gone through tick by tick"
            ));
        }
        for number in CHECKED.iter().filter(|n| !self.with_work.contains_key(n)) {
            all.push(format!(
                "no timetable with W and the answer {number} was gone through tick by tick"
            ));
        }
        all
    }
}
