//! The rounds of a planner: each tries ready tasks on both colours and places one of them. Colours are 0 for blue and 1 for red.

use crate::graph::{by_rank, Graph};
use crate::paper::Run;
use crate::planner::Heuristic;
use crate::sheet::{Sheet, Task};
use crate::staircase::Staircase;

/// What the files that a task reads ask for on a colour.
#[derive(Clone, Copy, Default)]
struct Need {
    /// start 2: when all of them have arrived
    arrival: u64,
    /// the sizes of those that cross
    crossing: u64,
    /// the greatest move time of those that cross
    longest: u64,
}

/// What a task asks for. Each maker that is placed adds its file to the needs, so they are complete when the task becomes ready.
struct Demand {
    unplaced_makers: usize,
    needs: [Need; 2],
    /// its W and the sizes of the files that it makes
    room: u64,
    /// its W and the sizes of the files that it reads
    kept: u64,
}

/// The processors and the memory of a colour.
struct Side {
    /// the processors with lower numbers
    before: u64,
    /// the finish of the last run on each processor
    last: Vec<u64>,
    /// start 1: the least of these
    idle: u64,
    staircase: Staircase,
}

/// A task on a colour on which it fits.
#[derive(Clone, Copy)]
struct Trial {
    task: usize,
    colour: usize,
    start: u64,
    finish: u64,
}

/// A partial schedule, and what is kept beside it.
pub struct Rounds<'a> {
    sheet: &'a Sheet,
    graph: &'a Graph<'a>,
    heuristic: Heuristic,
    /// whether a trial asks for starts 3 and 4
    memory_aware: bool,
    /// the order in which tasks are tried, and the place of each in it
    order: Vec<usize>,
    places: Vec<usize>,
    /// the places of the ready tasks, ascending
    ready: Vec<usize>,
    demands: Vec<Demand>,
    sides: [Side; 2],
    pub runs: Vec<Run>,
    pub trials: u64,
}

impl Side {
    fn new(before: u64, processors: u64, limit: u64) -> Side {
        Side {
            before,
            last: vec![0; processors as usize],
            idle: 0,
            staircase: Staircase::new(limit),
        }
    }

    /// The greater of starts 3 and 4 of a task with this need and this room; None where one of them has no tick.
    fn memory_start(&self, need: &Need, room: u64) -> Option<u64> {
        let all = need.crossing + room;
        let [run, moves] = self.staircase.free_from(all, need.crossing)?;
        Some(run.max(moves + need.longest))
    }

    /// Gives a run to a processor that is free by its start, with the latest last finish; the number of the processor.
    fn assign(&mut self, start: u64, finish: u64) -> u64 {
        let mut chosen = None;
        for (at, &last) in self.last.iter().enumerate() {
            if last <= start && chosen.is_none_or(|(_, latest)| latest < last) {
                chosen = Some((at, last));
            }
        }
        let (at, _) = chosen.expect("a processor is free by start 1");
        self.last[at] = finish;
        self.idle = self.last.iter().copied().min().unwrap_or(0);
        self.before + at as u64 + 1
    }
}

/// What each task asks for before any is placed.
fn demands(sheet: &Sheet, graph: &Graph) -> Vec<Demand> {
    let demand = |(i, task): (usize, &Task)| Demand {
        unplaced_makers: graph.read(i).len(),
        needs: [Need::default(); 2],
        room: task.work + graph.made(i).iter().map(|file| file.size).sum::<u64>(),
        kept: task.work + graph.read(i).iter().map(|file| file.size).sum::<u64>(),
    };
    sheet.tasks.iter().enumerate().map(demand).collect()
}

impl<'a> Rounds<'a> {
    /// Before the first round.
    pub fn new(
        sheet: &'a Sheet,
        graph: &'a Graph,
        heuristic: Heuristic,
        memory_aware: bool,
    ) -> Rounds<'a> {
        let tasks = sheet.tasks.len();
        let order = match heuristic {
            Heuristic::Heft => by_rank(sheet, graph),
            Heuristic::MinMin => (0..tasks).collect(),
        };
        let mut places = vec![0; tasks];
        for (place, &task) in order.iter().enumerate() {
            places[task] = place;
        }
        let demands = demands(sheet, graph);
        let mut ready = Vec::with_capacity(tasks);
        ready.extend((0..tasks).filter(|&place| demands[order[place]].unplaced_makers == 0));
        let ([blue, red], [blue_limit, red_limit]) = (sheet.processors, sheet.limits);
        Rounds {
            sheet,
            graph,
            heuristic,
            memory_aware,
            order,
            places,
            ready,
            demands,
            sides: [
                Side::new(0, blue, blue_limit),
                Side::new(blue, red, red_limit),
            ],
            runs: vec![Run::default(); tasks],
            trials: 0,
        }
    }

    /// Places one task after another; the number of tasks placed if none of the ready ones fits.
    pub fn place_all(&mut self) -> Result<(), usize> {
        for placed in 0..self.order.len() {
            let found = match self.heuristic {
                Heuristic::Heft => self.first_that_fits(),
                Heuristic::MinMin => self.earliest_finish(),
            };
            let (at, trial) = found.ok_or(placed)?;
            self.ready.remove(at);
            self.place(trial);
        }
        Ok(())
    }

    /// The first of the ready tasks that fits on either colour, with its place among them.
    fn first_that_fits(&mut self) -> Option<(usize, Trial)> {
        for (at, &place) in self.ready.iter().enumerate() {
            self.trials += 2;
            if let Some(trial) = self.on_both_colours(self.order[place]) {
                return Some((at, trial));
            }
        }
        None
    }

    /// The earliest finish of the ready tasks, ties to the lower task.
    fn earliest_finish(&mut self) -> Option<(usize, Trial)> {
        if self.memory_aware {
            for side in &mut self.sides {
                side.staircase.find_least();
            }
        }
        self.trials += 2 * self.ready.len() as u64;
        let mut best: Option<(usize, Trial)> = None;
        for (at, &place) in self.ready.iter().enumerate() {
            if let Some(trial) = self.on_both_colours(self.order[place]) {
                if best.is_none_or(|(_, best)| trial.finish < best.finish) {
                    best = Some((at, trial));
                }
            }
        }
        best
    }

    /// The trial of a ready task with the earlier finish, ties to blue.
    fn on_both_colours(&self, task: usize) -> Option<Trial> {
        let mut best: Option<Trial> = None;
        for colour in [0, 1] {
            if let Some(start) = self.earliest_start(task, colour) {
                let finish = start + self.sheet.tasks[task].times[colour];
                if best.is_none_or(|best| finish < best.finish) {
                    best = Some(Trial {
                        task,
                        colour,
                        start,
                        finish,
                    });
                }
            }
        }
        best
    }

    /// The earliest start of a ready task on a colour; None where it does not fit.
    fn earliest_start(&self, task: usize, colour: usize) -> Option<u64> {
        let (side, demand) = (&self.sides[colour], &self.demands[task]);
        let need = &demand.needs[colour];
        let start = side.idle.max(need.arrival);
        if self.memory_aware {
            Some(start.max(side.memory_start(need, demand.room)?))
        } else {
            Some(start)
        }
    }

    fn place(&mut self, trial: Trial) {
        let Trial {
            task,
            colour,
            start,
            finish,
        } = trial;
        let release = finish.max(start + 1);
        self.occupy(task, colour, start, release);
        self.runs[task] = Run {
            processor: self.sides[colour].assign(start, finish),
            memory: colour,
            start,
            finish,
            release,
        };
        self.serve_readers(task, colour, finish);
    }

    /// Changes both memories: crossing files move in, each in time for the start, and leave the other memory then; the room is held from the
    /// start on; what the task reads and its W are held until the release.
    fn occupy(&mut self, task: usize, colour: usize, start: u64, release: u64) {
        let demand = &self.demands[task];
        let own = &mut self.sides[colour].staircase;
        for file in self.graph.read(task) {
            if self.runs[file.maker].memory != colour {
                own.hold(start - file.move_time, file.size);
            }
        }
        own.hold(start, demand.room);
        own.release(release, demand.kept);
        let crossing = demand.needs[colour].crossing;
        self.sides[1 - colour].staircase.release(start, crossing);
    }

    /// Adds the files that a task makes to the needs of their readers; those without another unplaced maker become ready.
    fn serve_readers(&mut self, task: usize, colour: usize, finish: u64) {
        for file in self.graph.made(task) {
            let demand = &mut self.demands[file.reader];
            let here = &mut demand.needs[colour];
            here.arrival = here.arrival.max(finish);
            let there = &mut demand.needs[1 - colour];
            there.arrival = there.arrival.max(finish + file.move_time);
            there.crossing += file.size;
            there.longest = there.longest.max(file.move_time);
            demand.unplaced_makers -= 1;
            if demand.unplaced_makers == 0 {
                let place = self.places[file.reader];
                let at = self.ready.partition_point(|&other| other < place);
                self.ready.insert(at, place);
            }
        }
    }

    /// Makespan and peaks of the complete schedule.
    pub fn claim(&self) -> [u64; 3] {
        let finishes = self.sides.iter().flat_map(|side| &side.last);
        let makespan = finishes.copied().max().unwrap_or(0);
        let peak = |colour: usize| self.sheet.limits[colour] - self.sides[colour].staircase.least();
        [makespan, peak(0), peak(1)]
    }
}
