//! The simulator: a timetable watched tick by tick.

use crate::unlisted;

extern "C" {
    fn frames_simulate(
        sheet: *const u8,
        sheet_len: usize,
        paper: *const u8,
        paper_len: usize,
        made: u64,
        steps: u64,
        result: *mut [u64; 6],
        running: *mut [u64; 16],
        contents: *mut [u64; 256],
    );
}

/// How far the simulator came.
#[derive(Clone, Copy, Debug, PartialEq, Eq)]
pub enum Progress {
    /// A text is refused, by the number and at the place that [`mark`](crate::mark) gives: 1 to 4 or 11 to 14.
    /// [`Refusal::from_numbers`](crate::Refusal::from_numbers) has the sentence.
    Refused { number: u64, place: u64 },
    /// Steps are left: there is a tick to go to, be it a faulty one.
    StepsLeft,
    /// Stopped at the first faulty tick by 15, 16 or 17. The tick is not the place of a [`Refusal`](crate::Refusal), which names a task for
    /// 15 and 16.
    Stopped { number: u64, tick: u64 },
    /// The last step is made. The span is that of the timetable; a relay's hold can end one tick past it.
    Ended { span: u64 },
}

/// What the simulator answers: how far it came, and the state after the steps made. Working memory counts for 17, and its holds for the
/// steps; the state does not show it.
#[derive(Clone, Debug, PartialEq, Eq)]
pub struct Simulation {
    pub progress: Progress,
    /// The steps made in all, those of earlier calls included. The step onto a faulty tick is not made; after a refusal they are 0.
    pub made: u64,
    /// The tick of the last step, 0 before the first.
    pub time: u64,
    /// `running[p - 1]` is the task that processor p runs, or 0; 0 behind the board's processors.
    pub running: [u64; 16],
    /// Where each file is held, in the sheet's order: 0 nowhere, 1 in blue memory, 2 in red, 3 in both; 0 behind the sheet's files.
    pub contents: [u64; 256],
}

/// Simulates a timetable on a board sheet, from before the first step (time 0, nothing running or held): each step goes to the next tick
/// at which a run, a move or a hold starts or ends. `made` steps are already made, and `steps` are to be made, over 1024 counting as
/// 1024. Nothing is kept between calls: a later call names the `made` of an earlier one, and goes on from there.
///
/// It stops at the first tick at which the later of two runs that share an instant on one processor starts (15), a move or a run starts
/// early (16), or a memory holds more than its limit (17), and leaves the state of the step before. An untrue claim is no fault.
///
/// ```
/// use frames::{simulate, Progress};
///
/// let sheet = b"(board (blue 1 6) (red 1 6))\n(task 1 4 2)\n";
/// let paper = b"(run 1 2 3)\n(claim 5 0 0)\n";
/// let first = simulate(sheet, paper, 0, 1);
/// assert_eq!((first.progress, first.time, first.running[1]), (Progress::StepsLeft, 3, 1));
/// let second = simulate(sheet, paper, first.made, 1);
/// assert_eq!((second.progress, second.time, second.running[1]), (Progress::Ended { span: 5 }, 5, 0));
/// ```
pub fn simulate(sheet: &[u8], paper: &[u8], made: u64, steps: u64) -> Simulation {
    let mut result = [0u64; 6];
    let mut running = [0u64; 16];
    let mut contents = [0u64; 256];
    unsafe {
        frames_simulate(
            sheet.as_ptr(),
            sheet.len(),
            paper.as_ptr(),
            paper.len(),
            made,
            steps,
            &mut result,
            &mut running,
            &mut contents,
        )
    }
    Simulation {
        progress: progress(result),
        made: result[4],
        time: result[5],
        running,
        contents,
    }
}

/// What the simulator's numbers say.
fn progress(result: [u64; 6]) -> Progress {
    let [number, place, left, span, ..] = result;
    match number {
        0 if left != 0 => Progress::StepsLeft,
        0 => Progress::Ended { span },
        15..=17 => Progress::Stopped {
            number,
            tick: place,
        },
        1..=4 | 11..=14 => Progress::Refused { number, place },
        _ => unlisted(number),
    }
}

#[cfg(test)]
mod tests {
    use super::*;
    use crate::tests::{COURSE, PAPER};
    use crate::{mark, Refusal, Verdict};

    #[test]
    fn each_number_by_its_kind() {
        assert_eq!(progress([0, 0, 1, 0, 3, 7]), Progress::StepsLeft);
        assert_eq!(progress([0, 0, 0, 8, 6, 8]), Progress::Ended { span: 8 });
        assert_eq!(progress([0, 0, 0, 0, 1, 0]), Progress::Ended { span: 0 });
        for number in [15, 16, 17] {
            let stopped = Progress::Stopped { number, tick: 4 };
            assert_eq!(progress([number, 4, 0, 0, 3, 2]), stopped);
        }
        for number in [1, 2, 3, 4, 11, 12, 13, 14] {
            let refused = Progress::Refused { number, place: 2 };
            assert_eq!(progress([number, 2, 0, 0, 0, 0]), refused);
        }
    }

    #[test]
    fn unlisted_numbers() {
        for number in [5, 10, 18, 21, 31, u64::MAX] {
            let got = std::panic::catch_unwind(|| progress([number, 0, 0, 0, 0, 0]));
            assert!(got.is_err(), "{number}");
        }
    }

    /// The course example step by step: time, what both processors run, where both files are.
    #[test]
    fn course_example() {
        let steps: [(u64, [u64; 2], [u64; 2]); 7] = [
            (0, [0, 0], [0, 0]),
            (0, [0, 1], [2, 2]),
            (2, [0, 0], [3, 2]),
            (3, [2, 0], [1, 2]),
            (4, [2, 0], [1, 3]),
            (6, [3, 0], [0, 1]),
            (8, [0, 0], [0, 0]),
        ];
        for (made, (time, running, contents)) in steps.iter().enumerate() {
            let now = simulate(COURSE, PAPER, 0, made as u64);
            assert_eq!((now.made, now.time), (made as u64, *time));
            assert_eq!(
                (&now.running[..2], &now.contents[..2]),
                (&running[..], &contents[..])
            );
            assert_eq!(
                (&now.running[2..], &now.contents[2..]),
                (&[0; 14][..], &[0; 254][..])
            );
            let progress = match made {
                6 => Progress::Ended { span: 8 },
                _ => Progress::StepsLeft,
            };
            assert_eq!(now.progress, progress);
            let (past, rest) = (made as u64 / 2, made as u64 - made as u64 / 2);
            assert_eq!(simulate(COURSE, PAPER, past, rest), now);
        }
        let end = simulate(COURSE, PAPER, 6, 0);
        assert_eq!(simulate(COURSE, PAPER, 0, u64::MAX), end);
        assert_eq!(simulate(COURSE, PAPER, u64::MAX, u64::MAX), end);
    }

    /// A fault stops the simulator where the step would go; the state is that of the step before.
    #[test]
    fn stopped() {
        let early =
            b"(run 1 2 0)\n(run 2 1 3)\n(run 3 1 6)\n(move 1 2 1)\n(move 1 3 4)\n(claim 8 5 5)\n";
        let before = simulate(COURSE, early, 0, 1);
        assert_eq!(before.progress, Progress::StepsLeft);
        let stopped = Simulation {
            progress: Progress::Stopped {
                number: 16,
                tick: 1,
            },
            ..before
        };
        assert_eq!(simulate(COURSE, early, 0, 2), stopped);
        assert_eq!(simulate(COURSE, early, 1, 1024), stopped);
    }

    #[test]
    fn refused() {
        for (sheet, paper) in [(&b""[..], PAPER), (COURSE, b"(run 1 2 0)\n(run 2 01 3)\n")] {
            let now = simulate(sheet, paper, 3, 5);
            let Progress::Refused { number, place } = now.progress else {
                panic!("{:?}", now.progress)
            };
            let refusal = Refusal::from_numbers(number, place).unwrap();
            assert_eq!(mark(sheet, paper), Verdict::Refused(refusal));
            assert_eq!((now.made, now.time), (0, 0));
            assert_eq!((now.running, now.contents), ([0; 16], [0; 256]));
        }
    }
}
