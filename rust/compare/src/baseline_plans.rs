//! The planners of rust/baseline, which keep staircases: the library's are measured against them, so they must give the library's answers and
//! write its bytes. Both are held against reference.rs. How often each number was reached.

use crate::generate::{write_sheet, Random};
use crate::library::{self, pattern, Answered};
use crate::long_stairs::{crossing, least_apart, longest, with_limits, AWARE, WAITS};
use crate::measuring::in_baseline;
use crate::published::{names_in, read_published};
use crate::reference::{plan, Colour, Planned, Planner, Sheet, PLANNERS};
use crate::work_promises::{count_of, listed};
use crate::{plans, work};
use frames::Answer;
use std::collections::BTreeMap;

/// The numbers of a planner's answer.
const NUMBERS: [u64; 7] = [0, 1, 2, 3, 4, 21, 31];

/// A planner of the baseline with a buffer of a length.
fn plan_baseline(planner: Planner, sheet: &[u8], room: usize) -> Answered {
    let mut buffer = pattern(room);
    let [number, place, trials] = baseline::planner::plan(in_baseline(planner), sheet, &mut buffer);
    let answer = Answer {
        number,
        place,
        trials,
    };
    Answered { answer, buffer }
}

/// How often each number was reached, and on how many sheets of each kind the planners were compared here.
#[derive(Default)]
pub struct Counts {
    numbers: BTreeMap<u64, u64>,
    /// published sheets and examples
    files: u64,
    /// with many files that move
    crossing: u64,
    /// with the longest staircases
    longest: u64,
    /// with known plans
    known: u64,
}

impl Counts {
    /// A planner on a sheet with a buffer of a length; an error where the answer or a byte of the buffer is not the one due.
    pub fn planned(
        &mut self,
        planner: Planner,
        sheet: &[u8],
        want: &Planned,
        room: usize,
    ) -> Result<(), String> {
        let (got, due) = (
            plan_baseline(planner, sheet, room),
            Answered::due(want, room),
        );
        if got != due {
            let texts = [&got, &due].map(|side| String::from_utf8_lossy(side.text()).into_owned());
            let [text, due_text] = texts;
            return Err(format!(
                "the baseline's {:?} differs with {room} bytes: {:?}, wanted {:?}\n{text}\nwanted:\n{due_text}",
                in_baseline(planner),
                got.answer,
                due.answer
            ));
        }
        *self.numbers.entry(got.answer.number).or_default() += 1;
        Ok(())
    }

    /// All planners on a sheet, with a buffer that is too short by one and with one that is just long enough; the library too.
    fn sheet(&mut self, sheet: &[u8]) -> Result<(), String> {
        for planner in PLANNERS {
            let want = plan(planner, sheet);
            let length = want.text.len();
            for room in [length.saturating_sub(1), length] {
                library::compared(planner, sheet, &want, room)?;
                self.planned(planner, sheet, &want, room)?;
            }
        }
        Ok(())
    }

    /// The published sheets and all examples.
    pub fn files(&mut self) -> Result<(), String> {
        for folder in ["examples/speed", "examples"] {
            for name in names_in(folder) {
                let text = read_published(folder, &name);
                self.sheet(&text).map_err(|e| format!("{name}: {e}"))?;
                self.files += 1;
            }
        }
        Ok(())
    }

    /// A sheet with limits.
    fn limited(&mut self, sheet: &Sheet, limits: [i64; 2]) -> Result<(), String> {
        let text = write_sheet(&with_limits(sheet, limits));
        let show = |e| format!("{e}\non this sheet:\n{text}");
        self.sheet(text.as_bytes()).map_err(show)
    }

    /// A sheet with many files that move: with ample limits, with limits at which a memory-aware planner is just not stuck, and with one
    /// block less.
    pub fn crossing(&mut self, r: &mut Random, tasks: usize) -> Result<(), String> {
        let sheet = crossing(r, tasks);
        self.limited(&sheet, sheet.limits)?;
        let colour = [Colour::Blue, Colour::Red][r.below(2)];
        let mut limits = least_apart(&sheet, &[AWARE[r.below(2)]], colour);
        self.limited(&sheet, limits)?;
        let limit = &mut limits[colour as usize];
        *limit = (*limit - 1).max(0);
        self.limited(&sheet, limits)?;
        self.crossing += 1;
        Ok(())
    }

    /// The sheets with the longest staircases, and those with known plans.
    pub fn by_hand(&mut self) -> Result<(), String> {
        for (wait, makers) in WAITS
            .into_iter()
            .flat_map(|wait| [(wait, Colour::Blue), (wait, Colour::Red)])
        {
            let sheet = longest(wait, makers);
            self.limited(&sheet, sheet.limits)?;
            self.longest += 1;
        }
        for sheet in plans::plans().into_iter().chain(work::plans()) {
            sheet.hold(plan_baseline, library::mark)?;
            self.known += 1;
        }
        Ok(())
    }

    pub fn print(&self) {
        println!(
            "the planners of the baseline: {} plans, no difference, {}; {} published sheets and examples, {} sheets with many files that move, \
             {} with the longest staircases, {} with known plans",
            self.numbers.values().sum::<u64>(),
            listed(&self.numbers),
            self.files,
            self.crossing,
            self.longest,
            self.known
        );
    }

    /// What was never reached: a line each.
    pub fn faults(&self) -> Vec<String> {
        let never = NUMBERS.iter().filter(|n| count_of(&self.numbers, **n) == 0);
        let mut all: Vec<String> = never
            .map(|n| format!("the planners of the baseline: the answer {n} was never reached"))
            .collect();
        if [self.files, self.crossing, self.longest, self.known].contains(&0) {
            all.push("the planners of the baseline: no sheets of a kind".to_string());
        }
        all
    }
}
