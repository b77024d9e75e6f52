//! The planners: HEFT and MINMIN, memory aware or plain.

use crate::graph::Graph;
use crate::rounds::Rounds;
use crate::sheet::{Sheet, MAX_LIMIT};
use crate::timetable;

/// Which ready tasks a round tries, and which of them it places.
#[derive(Clone, Copy, Debug, PartialEq, Eq)]
pub enum Heuristic {
    /// the first that fits, by falling upward rank
    Heft,
    /// of all, the one with the earliest finish
    MinMin,
}

#[derive(Clone, Copy, Debug, PartialEq, Eq)]
pub enum Planner {
    Heft,
    MemHeft,
    MinMin,
    MemMinMin,
}

impl Planner {
    fn heuristic(self) -> Heuristic {
        match self {
            Planner::Heft | Planner::MemHeft => Heuristic::Heft,
            Planner::MinMin | Planner::MemMinMin => Heuristic::MinMin,
        }
    }

    fn is_memory_aware(self) -> bool {
        matches!(self, Planner::MemHeft | Planner::MemMinMin)
    }
}

/// Plans a board sheet into a buffer: number, place and trials. On a refusal the buffer stays as it was; on success the bytes behind the
/// timetable do.
pub fn plan(planner: Planner, sheet: &[u8], out: &mut [u8]) -> [u64; 3] {
    let mut sheet = match Sheet::read(sheet) {
        Ok(sheet) => sheet,
        Err((number, place)) => return [number, place, 0],
    };
    let memory_aware = planner.is_memory_aware();
    if !memory_aware {
        // the greatest limit is more than all that a sheet has
        sheet.limits = [MAX_LIMIT; 2];
    }
    let graph = Graph::new(&sheet);
    let mut rounds = Rounds::new(&sheet, &graph, planner.heuristic(), memory_aware);
    if let Err(placed) = rounds.place_all() {
        return [21, placed as u64, rounds.trials];
    }
    let text = timetable::text(&sheet, &rounds.runs, rounds.claim());
    let length = text.len() as u64;
    match out.get_mut(..text.len()) {
        Some(front) => {
            front.copy_from_slice(&text);
            [0, length, rounds.trials]
        }
        None => [31, length, rounds.trials],
    }
}

#[cfg(test)]
mod tests {
    use super::{plan, Planner};
    use Planner::{Heft, MemHeft, MemMinMin, MinMin};

    /// Document 01's course example.
    const SHEET: &str = "(board (blue 1 6) (red 1 6))\n(task 1 4 2)\n(task 2 3 5)\n(task 3 2 6)\n(file 1 2 2 1)\n(file 1 3 3 2)\n";
    const PAPER: &str =
        "(run 1 2 0)\n(run 2 1 3)\n(run 3 1 6)\n(move 1 2 2)\n(move 1 3 4)\n(claim 8 5 5)\n";
    const FITTED: &str = "(run 1 2 0)\n(run 2 1 3)\n(run 3 2 2)\n(move 1 2 2)\n(claim 8 2 5)\n";

    /// The answer with a buffer of so many bytes, each of them 7, and the bytes written; the others must be as they were.
    fn planned_in(planner: Planner, sheet: &str, room: usize) -> ([u64; 3], String) {
        let mut out = vec![7; room];
        let answer = plan(planner, sheet.as_bytes(), &mut out);
        let written = if answer[0] == 0 {
            answer[1] as usize
        } else {
            0
        };
        let rest = out.split_off(written);
        assert!(rest.iter().all(|&byte| byte == 7));
        (answer, String::from_utf8(out).unwrap())
    }

    fn planned(planner: Planner, sheet: &str) -> ([u64; 3], String) {
        planned_in(planner, sheet, 200)
    }

    fn success(text: &str, trials: u64) -> ([u64; 3], String) {
        ([0, text.len() as u64, trials], text.to_string())
    }

    fn refused(number: u64, place: u64, trials: u64) -> ([u64; 3], String) {
        ([number, place, trials], String::new())
    }

    #[test]
    fn a_and_b() {
        for (planner, trials) in [(MemHeft, 6), (MemMinMin, 8), (Heft, 6), (MinMin, 8)] {
            assert_eq!(planned(planner, SHEET), success(PAPER, trials));
        }
    }

    /// The plain planners do not look at the limits.
    #[test]
    fn c_and_d() {
        let blue = SHEET.replace("blue 1 6", "blue 1 4");
        let both = blue.replace("red 1 6", "red 1 4");
        for (planner, trials) in [(MemHeft, 6), (MemMinMin, 8)] {
            assert_eq!(planned(planner, &blue), success(FITTED, trials));
            assert_eq!(planned(planner, &both), refused(21, 0, 2));
        }
        for (planner, trials) in [(Heft, 6), (MinMin, 8)] {
            assert_eq!(planned(planner, &blue), success(PAPER, trials));
            assert_eq!(planned(planner, &both), success(PAPER, trials));
        }
    }

    #[test]
    fn other_refusals() {
        let long = " ".repeat(32_769);
        for planner in [Heft, MemHeft, MinMin, MemMinMin] {
            assert_eq!(planned(planner, &long), refused(1, 0, 0));
            assert_eq!(planned(planner, ""), refused(2, 1, 0));
            assert_eq!(planned(planner, &SHEET[..29]), refused(2, 2, 0));
            let out_of_range = SHEET.replace("(task 2", "(task 65");
            assert_eq!(planned(planner, &out_of_range), refused(3, 3, 0));
            let undue = SHEET.replace("(task 2", "(task 3");
            assert_eq!(planned(planner, &undue), refused(4, 3, 0));
        }
    }

    #[test]
    fn buffers() {
        for room in 0..PAPER.len() {
            let short = refused(31, PAPER.len() as u64, 6);
            assert_eq!(planned_in(MemHeft, SHEET, room), short);
        }
        for room in PAPER.len()..PAPER.len() + 3 {
            assert_eq!(planned_in(MemHeft, SHEET, room), success(PAPER, 6));
        }
    }

    /// Order 1: what a relay reads and what it makes count together at its tick.
    #[test]
    fn relays() {
        let sheet = "(board (blue 1 1) (red 1 2))\n(task 1 1 1)\n(task 2 0 0)\n(task 3 1 1)\n(file 1 2 1 1)\n(file 2 3 1 1)\n";
        let aware = "(run 1 1 0)\n(run 2 2 2)\n(run 3 2 2)\n(move 1 2 1)\n(claim 3 1 2)\n";
        let plain = "(run 1 1 0)\n(run 2 1 1)\n(run 3 1 1)\n(claim 2 2 0)\n";
        assert_eq!(planned(MemHeft, sheet), success(aware, 6));
        assert_eq!(planned(MemMinMin, sheet), success(aware, 6));
        assert_eq!(planned(Heft, sheet), success(plain, 6));
        assert_eq!(planned(MinMin, sheet), success(plain, 6));
    }

    /// Order 6: two tasks that could run at once, but for their W.
    #[test]
    fn working_memory() {
        let sheet = "(board (blue 2 5) (red 1 0))\n(task 1 4 9 3)\n(task 2 4 9 3)\n";
        let aware = "(run 1 1 0)\n(run 2 1 4)\n(claim 8 3 0)\n";
        let plain = "(run 1 1 0)\n(run 2 2 0)\n(claim 4 6 0)\n";
        assert_eq!(planned(MemHeft, sheet), success(aware, 4));
        assert_eq!(planned(MemMinMin, sheet), success(aware, 6));
        assert_eq!(planned(Heft, sheet), success(plain, 4));
        assert_eq!(planned(MinMin, sheet), success(plain, 6));
    }
}
