//! Order 3 with Order 6's working memory for tests, written from document 02's words in another way than the proved code: the whole trace of
//! a timetable is laid out first, every tick of it and its first faulty one; a call's steps are then counted off.

use crate::reference::{
    colours, finish, read_sheet_by, read_table_by, release, span, Refused, Rules, Sheet, Table,
    PRESENT,
};
use std::collections::BTreeSet;

/// The most steps of one call; more count as so many.
const MOST_STEPS: u64 = 1024;

/// Timetables over by this tick are looked at tick by tick.
const SHORT: i64 = 300;

/// What a call answers, and the state that it leaves.
#[derive(Clone, Debug, PartialEq, Eq)]
pub struct Answer {
    pub number: u64,
    pub place: u64,
    /// 1 if steps are left
    pub left: u64,
    pub span: u64,
    pub made: u64,
    pub time: u64,
    /// the task that each processor runs, or 0
    pub running: [u64; 16],
    /// where each file is held: 0 nowhere, 1 in blue, 2 in red, 3 in both
    pub contents: [u64; 256],
}

impl Answer {
    /// Before the first step, with a number and a place.
    pub fn before_first((number, place): Refused) -> Answer {
        Answer {
            number,
            place,
            left: 0,
            span: 0,
            made: 0,
            time: 0,
            running: [0; 16],
            contents: [0; 256],
        }
    }
}

/// From a tick until another, which is not included.
#[derive(Clone, Copy)]
struct Stretch {
    from: i64,
    until: i64,
}

impl Stretch {
    fn has(self, tick: i64) -> bool {
        self.from <= tick && tick < self.until
    }
}

/// A run occupies its processor for this stretch.
struct Run {
    processor: i64,
    at: Stretch,
}

/// The W of a run, held in blue (0) or in red (1).
struct Work {
    memory: usize,
    size: i64,
    held: Stretch,
}

impl Work {
    /// None if W is left out.
    fn new(sheet: &Sheet, table: &Table, i: usize) -> Option<Work> {
        let (processor, from) = table.runs[i].unwrap();
        let work = Work {
            memory: sheet.colour(processor) as usize,
            size: sheet.tasks[i].work,
            held: Stretch {
                from,
                until: release(sheet, table, i),
            },
        };
        (work.size > 0).then_some(work)
    }
}

/// A file, its move if it is moved, and its holds in blue and in red.
struct Track {
    size: i64,
    made: i64,
    arrives: i64,
    read: i64,
    moved: Option<Stretch>,
    held: [Option<Stretch>; 2],
}

impl Track {
    fn new(sheet: &Sheet, table: &Table, k: usize) -> Track {
        let f = &sheet.files[k];
        let start = |i: usize| table.runs[i].unwrap().1;
        let (made, until) = (
            finish(sheet, table, f.maker),
            release(sheet, table, f.reader),
        );
        let mut track = Track {
            size: f.size,
            made,
            arrives: made,
            read: start(f.reader),
            moved: None,
            held: [None; 2],
        };
        let (maker, reader) = colours(sheet, table, f);
        let from = start(f.maker);
        if maker == reader {
            track.held[maker as usize] = Some(Stretch { from, until });
        } else {
            let (t, end) = (table.moves[k], table.moves[k] + f.time);
            track.arrives = end;
            track.moved = Some(Stretch {
                from: t,
                until: end,
            });
            track.held[maker as usize] = Some(Stretch { from, until: end });
            track.held[reader as usize] = Some(Stretch { from: t, until });
        }
        track
    }

    /// Whether blue and red hold the file at a tick.
    fn held_at(&self, tick: i64) -> [bool; 2] {
        self.held.map(|h| h.is_some_and(|h| h.has(tick)))
    }
}

/// What starts and ends when, in a timetable.
struct Timeline {
    limits: [i64; 2],
    runs: Vec<Run>,
    works: Vec<Work>,
    files: Vec<Track>,
}

impl Timeline {
    fn new(sheet: &Sheet, table: &Table) -> Timeline {
        let run = |i: usize| {
            let (processor, from) = table.runs[i].unwrap();
            let until = finish(sheet, table, i);
            Run {
                processor,
                at: Stretch { from, until },
            }
        };
        Timeline {
            limits: sheet.limits,
            runs: (0..sheet.tasks.len()).map(run).collect(),
            works: (0..sheet.tasks.len())
                .filter_map(|i| Work::new(sheet, table, i))
                .collect(),
            files: (0..sheet.files.len())
                .map(|k| Track::new(sheet, table, k))
                .collect(),
        }
    }

    /// The ticks at which a run, a move or a hold starts or ends. A hold that would be over by its start does neither.
    fn ticks(&self) -> BTreeSet<i64> {
        let runs = self.runs.iter().map(|r| r.at);
        let moves = self.files.iter().filter_map(|f| f.moved);
        let files = self.files.iter().flat_map(|f| f.held.into_iter().flatten());
        let holds = files.chain(self.works.iter().map(|w| w.held));
        let stretches = runs.chain(moves).chain(holds.filter(|h| h.from < h.until));
        stretches.flat_map(|s| [s.from, s.until]).collect()
    }

    /// Whether a tick is one of these, told by looking at it and at the tick before.
    fn is_tick(&self, tick: i64) -> bool {
        let bounds = |s: Stretch| s.from == tick || s.until == tick;
        let turns = |s: Stretch| s.has(tick) != s.has(tick - 1);
        self.runs.iter().any(|r| bounds(r.at))
            || self.works.iter().any(|w| turns(w.held))
            || self
                .files
                .iter()
                .any(|f| f.moved.is_some_and(bounds) || f.held_at(tick) != f.held_at(tick - 1))
    }

    /// What blue and red hold at a tick.
    fn total(&self, tick: i64) -> [i64; 2] {
        let mut total = [0, 0];
        for f in &self.files {
            for (c, held) in f.held_at(tick).iter().enumerate() {
                total[c] += if *held { f.size } else { 0 };
            }
        }
        for w in self.works.iter().filter(|w| w.held.has(tick)) {
            total[w.memory] += w.size;
        }
        total
    }

    /// Whether a run starts at a tick while another that shares an instant with it on its processor has started.
    fn overlap_at(&self, tick: i64) -> bool {
        let runs = || self.runs.iter().enumerate();
        let mut starting = runs().filter(|(_, r)| r.at.from == tick);
        starting.any(|(i, late)| {
            let mut others = runs().filter(|(j, r)| *j != i && r.processor == late.processor);
            others.any(|(_, r)| {
                let share = late.at.from < r.at.until && r.at.from < late.at.until;
                share && r.at.from <= tick
            })
        })
    }

    /// Whether a file's move or its reader starts at a tick, and too early.
    fn early_at(&self, tick: i64) -> bool {
        self.files.iter().any(|f| {
            let moves = f.moved.is_some_and(|m| m.from == tick);
            (moves && tick < f.made) || (f.read == tick && tick < f.arrives)
        })
    }

    /// The faults of a tick, in their order.
    fn faults(&self, tick: i64) -> Vec<u64> {
        let total = self.total(tick);
        let over = (0..2).any(|c| total[c] > self.limits[c]);
        let all = [
            (15, self.overlap_at(tick)),
            (16, self.early_at(tick)),
            (17, over),
        ];
        all.iter().filter(|f| f.1).map(|f| f.0).collect()
    }
}

/// A timetable laid out tick by tick.
pub struct Trace {
    timeline: Timeline,
    /// the ticks before the first faulty one, rising
    ticks: Vec<i64>,
    /// the first faulty tick and all its faults
    fault: Option<(i64, Vec<u64>)>,
    span: i64,
}

impl Trace {
    pub fn new(sheet: &Sheet, table: &Table) -> Trace {
        let timeline = Timeline::new(sheet, table);
        let mut ticks: Vec<i64> = timeline.ticks().into_iter().collect();
        let mut judged = ticks.iter().map(|t| (*t, timeline.faults(*t)));
        let fault = judged.find(|(_, faults)| !faults.is_empty());
        if let Some((tick, _)) = fault {
            ticks.retain(|t| *t < tick);
        }
        Trace {
            timeline,
            ticks,
            fault,
            span: span(sheet, table),
        }
    }

    /// The trace of two texts; refused where one of them is.
    pub fn read(sheet: &[u8], paper: &[u8]) -> Result<Trace, Refused> {
        Trace::read_by(PRESENT, sheet, paper)
    }

    /// The same by former or by present rules.
    pub fn read_by(rules: Rules, sheet: &[u8], paper: &[u8]) -> Result<Trace, Refused> {
        let sheet = read_sheet_by(rules, sheet)?;
        let (table, _) = read_table_by(rules, &sheet, paper)?;
        Ok(Trace::new(&sheet, &table))
    }

    /// The first faulty tick.
    pub fn faulty_tick(&self) -> Option<i64> {
        self.fault.as_ref().map(|f| f.0)
    }

    /// All faults of the first faulty tick.
    pub fn faults(&self) -> Option<&[u64]> {
        self.fault.as_ref().map(|f| f.1.as_slice())
    }

    /// The state after so many steps, with steps left.
    fn state(&self, steps: usize) -> Answer {
        let mut state = Answer::before_first((0, 0));
        state.left = 1;
        if steps == 0 {
            return state;
        }
        let tick = self.ticks[steps - 1];
        (state.made, state.time) = (steps as u64, tick as u64);
        for (i, r) in self.timeline.runs.iter().enumerate().rev() {
            if r.at.has(tick) {
                state.running[r.processor as usize - 1] = i as u64 + 1;
            }
        }
        for (k, f) in self.timeline.files.iter().enumerate() {
            let [blue, red] = f.held_at(tick);
            state.contents[k] = u64::from(blue) + 2 * u64::from(red);
        }
        state
    }

    /// A call with so many steps already made and so many to make.
    pub fn answer(&self, made: u64, steps: u64) -> Answer {
        let wanted = u128::from(made) + u128::from(steps.min(MOST_STEPS));
        let most = self.ticks.len() as u128;
        let mut answer = self.state(wanted.min(most) as usize);
        match &self.fault {
            Some((tick, faults)) if wanted > most => {
                (answer.number, answer.place) = (faults[0], *tick as u64);
                answer.left = 0;
            }
            None if wanted >= most => {
                answer.span = self.span as u64;
                answer.left = 0;
            }
            _ => {}
        }
        answer
    }

    /// The greatest totals of blue and red before a tick.
    pub fn peaks_before(&self, tick: i64) -> [i64; 2] {
        let ticks = self.timeline.ticks();
        let totals: Vec<[i64; 2]> = ticks
            .range(..tick)
            .map(|t| self.timeline.total(*t))
            .collect();
        [0, 1].map(|c| totals.iter().map(|t| t[c]).max().unwrap_or(0))
    }

    /// The ticks that are looked at one by one: all of a short timetable, and those next to a listed one of a long one.
    fn looked_at(&self) -> Vec<i64> {
        let listed = self.timeline.ticks();
        match listed.last() {
            Some(last) if *last > SHORT => {
                let near: BTreeSet<i64> = listed.iter().flat_map(|t| [t - 1, *t, t + 1]).collect();
                near.into_iter().filter(|t| *t >= 0).collect()
            }
            last => (0..=last.map_or(0, |t| t + 1)).collect(),
        }
    }

    /// Looks at ticks one by one; an error where the ticks of steps or the first fault are others than those of the trace.
    pub fn check(&self) -> Result<(), String> {
        let mut ticks = vec![];
        let mut fault = None;
        for tick in self.looked_at() {
            let faults = self.timeline.faults(tick);
            if !faults.is_empty() {
                fault = Some((tick, faults));
                break;
            }
            if self.timeline.is_tick(tick) {
                ticks.push(tick);
            }
        }
        if (&ticks, &fault) == (&self.ticks, &self.fault) {
            return Ok(());
        }
        Err(format!(
            "tick by tick there are {ticks:?} and {fault:?}, by lists {:?} and {:?}",
            self.ticks, self.fault
        ))
    }
}

/// A call on two texts.
pub fn simulate(sheet: &[u8], paper: &[u8], made: u64, steps: u64) -> Answer {
    simulate_by(PRESENT, sheet, paper, made, steps)
}

/// A call by former or by present rules.
pub fn simulate_by(rules: Rules, sheet: &[u8], paper: &[u8], made: u64, steps: u64) -> Answer {
    match Trace::read_by(rules, sheet, paper) {
        Ok(trace) => trace.answer(made, steps),
        Err(refused) => Answer::before_first(refused),
    }
}
