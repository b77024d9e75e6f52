//! Plans, marks and simulates schedules for a board with two memories, and converts board sheets for readers that lack working memory (W),
//! by the proved library `frames`.
//!
//! A board sheet and a timetable are bytes. Any bytes may be handed in: the marker, the planners and the converter end in success or in one
//! [`Refusal`], which has a number and a place and prints as a sentence; the simulator answers a [`Progress`].
//!
//! What include/frames.h asks of a caller holds of every call here: slices and mutable slices do not overlap, an empty slice is a pointer
//! with length 0, and the results are arrays of this crate. Calls use no heap in the library and no global data, so they may run on
//! several threads at once; each needs at most 32 KB of stack, the planners and `strip` 48 KB.
//!
//! ```
//! use frames::{mark, plan, Planner, Verdict};
//!
//! let sheet = b"(board (blue 1 6) (red 1 6))\n(task 1 4 2)\n";
//! let planned = plan(Planner::MemHeft, sheet).unwrap();
//! assert_eq!(planned.timetable, b"(run 1 2 0)\n(claim 2 0 0)\n");
//! assert_eq!(mark(sheet, &planned.timetable), Verdict::Accepted { span: 2, blue_peak: 0, red_peak: 0 });
//! ```

mod conversion;
mod refusal;
mod simulation;

pub use conversion::{convert, convert_into, strip, strip_into, Written};
pub use refusal::Refusal;
pub use simulation::{simulate, Progress, Simulation};

extern "C" {
    fn frames_mark(
        sheet: *const u8,
        sheet_len: usize,
        paper: *const u8,
        paper_len: usize,
        result: *mut [u64; 5],
    );
    fn frames_fault_line(
        sheet: *const u8,
        sheet_len: usize,
        paper: *const u8,
        paper_len: usize,
        line: *mut u8,
        line_len: usize,
    ) -> usize;
    fn frames_mem_heft(
        sheet: *const u8,
        sheet_len: usize,
        out: *mut u8,
        out_len: usize,
        result: *mut [u64; 3],
    );
    fn frames_mem_min_min(
        sheet: *const u8,
        sheet_len: usize,
        out: *mut u8,
        out_len: usize,
        result: *mut [u64; 3],
    );
    fn frames_heft(
        sheet: *const u8,
        sheet_len: usize,
        out: *mut u8,
        out_len: usize,
        result: *mut [u64; 3],
    );
    fn frames_min_min(
        sheet: *const u8,
        sheet_len: usize,
        out: *mut u8,
        out_len: usize,
        result: *mut [u64; 3],
    );
}

/// The longest text that is read, in bytes; no timetable of a planner is longer (proved: `PlansShort` of crates/rules).
pub const MAX_TEXT: usize = 32_768;

/// What the marker answers.
#[derive(Clone, Copy, Debug, PartialEq, Eq)]
pub enum Verdict {
    /// The timetable is valid; these are its span and peaks.
    Accepted {
        span: u64,
        blue_peak: u64,
        red_peak: u64,
    },
    Refused(Refusal),
}

/// Marks a timetable on a board sheet.
pub fn mark(sheet: &[u8], paper: &[u8]) -> Verdict {
    let mut r = [0u64; 5];
    unsafe {
        frames_mark(
            sheet.as_ptr(),
            sheet.len(),
            paper.as_ptr(),
            paper.len(),
            &mut r,
        )
    }
    verdict(r)
}

/// What the marker's numbers say.
fn verdict(r: [u64; 5]) -> Verdict {
    match r[0] {
        0 => Verdict::Accepted {
            span: r[2],
            blue_peak: r[3],
            red_peak: r[4],
        },
        number => Verdict::Refused(listed(number, r[1])),
    }
}

/// The refusal of a number that the library answered.
fn listed(number: u64, place: u64) -> Refusal {
    Refusal::from_numbers(number, place).unwrap_or_else(|| unlisted(number))
}

/// The library's contracts leave no other number than 0 and the listed ones, so another one means that this crate and the library do
/// not belong together.
fn unlisted(number: u64) -> ! {
    panic!("the library answered {number}, which is not listed as a refusal: is libframes.a of the same version?")
}

/// The line at fault, without its line feed: of the board sheet for its own faults, of the timetable for the faults of its
/// text; empty for every other answer of [`mark`], and where that line does not exist.
pub fn fault_line(sheet: &[u8], paper: &[u8]) -> Vec<u8> {
    let mut line = vec![0u8; MAX_TEXT];
    let n = unsafe {
        frames_fault_line(
            sheet.as_ptr(),
            sheet.len(),
            paper.as_ptr(),
            paper.len(),
            line.as_mut_ptr(),
            line.len(),
        )
    };
    line.truncate(n);
    line
}

/// The planners: two memory-aware ones, and their plain parents, which do not look at the memories.
///
/// A plain planner is never [stuck](Refusal::Stuck), and its timetable may be over a limit: [`mark`] accepts it on its sheet, or answers
/// [`Refusal::OverLimit`] and no other refusal. Its claim names the span and the peaks that the timetable has. When each limit is at least
/// the sum of all file sizes and all working memory (W), a memory-aware planner answers and writes what its plain parent does.
#[derive(Clone, Copy, Debug, PartialEq, Eq)]
pub enum Planner {
    MemHeft,
    MemMinMin,
    /// The plain parent of MemHEFT.
    Heft,
    /// The plain parent of MemMinMin.
    MinMin,
}

/// A planner's answer as it stands: number (0 for success), place (then the bytes written) and trials.
#[derive(Clone, Copy, Debug, PartialEq, Eq)]
pub struct Answer {
    pub number: u64,
    pub place: u64,
    pub trials: u64,
}

/// Plans a board sheet into a buffer. On a refusal the buffer stays as it was; on success the bytes behind the timetable do.
pub fn plan_into(planner: Planner, sheet: &[u8], out: &mut [u8]) -> Answer {
    let mut r = [0u64; 3];
    let call = match planner {
        Planner::MemHeft => frames_mem_heft,
        Planner::MemMinMin => frames_mem_min_min,
        Planner::Heft => frames_heft,
        Planner::MinMin => frames_min_min,
    };
    unsafe {
        call(
            sheet.as_ptr(),
            sheet.len(),
            out.as_mut_ptr(),
            out.len(),
            &mut r,
        )
    }
    Answer {
        number: r[0],
        place: r[1],
        trials: r[2],
    }
}

/// A planner's timetable, and the trials that it made: a task on a colour counts one.
#[derive(Clone, Debug, PartialEq, Eq)]
pub struct Plan {
    pub timetable: Vec<u8>,
    pub trials: u64,
}

/// Plans a board sheet.
pub fn plan(planner: Planner, sheet: &[u8]) -> Result<Plan, Refusal> {
    let mut out = vec![0u8; MAX_TEXT];
    let answer = plan_into(planner, sheet, &mut out);
    planned(answer, out)
}

/// What a planner's numbers say, with the buffer that it was lent.
fn planned(answer: Answer, mut out: Vec<u8>) -> Result<Plan, Refusal> {
    match answer.number {
        0 => {
            out.truncate(answer.place as usize);
            Ok(Plan {
                timetable: out,
                trials: answer.trials,
            })
        }
        number => Err(listed(number, answer.place)),
    }
}

#[cfg(test)]
mod tests {
    use super::*;

    pub const COURSE: &[u8] = b"(board (blue 1 6) (red 1 6))\n(task 1 4 2)\n(task 2 3 5)\n(task 3 2 6)\n(file 1 2 2 1)\n(file 1 3 3 2)\n";
    pub const PAPER: &[u8] =
        b"(run 1 2 0)\n(run 2 1 3)\n(run 3 1 6)\n(move 1 2 2)\n(move 1 3 4)\n(claim 8 5 5)\n";

    const LISTED: [u64; 16] = [1, 2, 3, 4, 11, 12, 13, 14, 15, 16, 17, 18, 21, 31, 41, 42];

    fn answer(number: u64, place: u64) -> Answer {
        Answer {
            number,
            place,
            trials: 3,
        }
    }

    #[test]
    fn zero_alone_is_accepted() {
        let accepted = Verdict::Accepted {
            span: 8,
            blue_peak: 5,
            red_peak: 4,
        };
        assert_eq!(verdict([0, 0, 8, 5, 4]), accepted);
        for number in LISTED {
            let refusal = Refusal::from_numbers(number, 2).unwrap();
            assert_eq!(
                verdict([number, 2, 0, 0, 0]),
                Verdict::Refused(refusal),
                "{number}"
            );
        }
    }

    #[test]
    fn zero_alone_is_planned() {
        let plan = planned(answer(0, 2), vec![7, 8, 9]).unwrap();
        assert_eq!((plan.timetable, plan.trials), (vec![7, 8], 3));
        for number in LISTED {
            let refusal = Refusal::from_numbers(number, 2).unwrap();
            assert_eq!(planned(answer(number, 2), vec![]), Err(refusal), "{number}");
        }
    }

    #[test]
    #[should_panic(expected = "the library answered 19, which is not listed")]
    fn an_unlisted_number_of_the_marker() {
        verdict([19, 0, 8, 5, 5]);
    }

    #[test]
    #[should_panic(expected = "the library answered 22, which is not listed")]
    fn an_unlisted_number_of_a_planner() {
        let _ = planned(answer(22, 0), vec![]);
    }

    /// The planners, with the trials that each makes on the course example; all write the same there.
    const PLANNERS: [(Planner, u64); 4] = [
        (Planner::MemHeft, 6),
        (Planner::MemMinMin, 8),
        (Planner::Heft, 6),
        (Planner::MinMin, 8),
    ];

    #[test]
    fn course_example() {
        for (planner, trials) in PLANNERS {
            let plan = plan(planner, COURSE).unwrap();
            assert_eq!((plan.timetable.as_slice(), plan.trials), (PAPER, trials));
        }
        let accepted = Verdict::Accepted {
            span: 8,
            blue_peak: 5,
            red_peak: 5,
        };
        assert_eq!(mark(COURSE, PAPER), accepted);
        assert_eq!(fault_line(COURSE, PAPER), b"");
    }

    #[test]
    fn refusals() {
        assert_eq!(
            mark(COURSE, b"(run 1 2 0)\n(run 2 01 3)\n"),
            Verdict::Refused(Refusal::PaperMalformed { line: 2 })
        );
        assert_eq!(
            fault_line(COURSE, b"(run 1 2 0)\n(run 2 01 3)\n"),
            b"(run 2 01 3)"
        );
        assert_eq!(
            mark(b"", b""),
            Verdict::Refused(Refusal::SheetMalformed { line: 1 })
        );
    }

    #[test]
    fn refusals_of_the_planners() {
        for (planner, trials) in PLANNERS {
            assert_eq!(plan(planner, b""), Err(Refusal::SheetMalformed { line: 1 }));
            let mut short = [7u8; 75];
            let short_answer = Answer {
                number: 31,
                place: 76,
                trials,
            };
            assert_eq!(plan_into(planner, COURSE, &mut short), short_answer);
            assert_eq!(short, [7u8; 75]);
        }
    }

    /// The greatest M, B, R and C are read, one more is not, and neither are 13 digits.
    #[test]
    fn greatest_numbers_of_a_sheet() {
        let read = Refusal::PaperMalformed { line: 1 };
        let (board, task, file) = ("blue 1 6", "(task 1 4 2)", "(file 1 2 2 1)");
        let over = |line| Refusal::SheetOutOfRange { line };
        let course = std::str::from_utf8(COURSE).unwrap();
        for (text, other, refusal) in [
            (board, "blue 1 999999999", read),
            (board, "blue 1 1000000000", over(1)),
            (board, "blue 1 999999999999", over(1)),
            (
                board,
                "blue 1 1000000000000",
                Refusal::SheetMalformed { line: 1 },
            ),
            (task, "(task 1 1000000000 2)", read),
            (task, "(task 1 1000000001 2)", over(2)),
            (task, "(task 1 4 1000000000)", read),
            (task, "(task 1 4 1000000001)", over(2)),
            (file, "(file 1 2 2 1000000000)", read),
            (file, "(file 1 2 2 1000000001)", over(5)),
        ] {
            let sheet = course.replace(text, other);
            let verdict = mark(sheet.as_bytes(), b"");
            assert_eq!(verdict, Verdict::Refused(refusal), "{other}");
        }
    }

    /// A run of 4 ticks on blue, a relay on red: at the last tick that can be written, and past it.
    #[test]
    fn last_tick() {
        let sheet = b"(board (blue 1 9) (red 1 9))\n(task 1 4 0)\n";
        let accepted = Verdict::Accepted {
            span: 999_999_999_999,
            blue_peak: 0,
            red_peak: 0,
        };
        let untrue = Verdict::Refused(Refusal::ClaimUntrue);
        let malformed = |line| Verdict::Refused(Refusal::PaperMalformed { line });
        for (run, claim, verdict) in [
            ("1 999999999995", "999999999999", accepted),
            ("2 999999999999", "999999999999", accepted),
            ("1 999999999999", "999999999999", untrue),
            ("1 999999999999", "1000000000003", malformed(2)),
            ("2 1000000000000", "999999999999", malformed(1)),
        ] {
            let paper = format!("(run 1 {run})\n(claim {claim} 0 0)\n");
            assert_eq!(mark(sheet, paper.as_bytes()), verdict, "{paper}");
        }
        let past = simulate(sheet, b"(run 1 1 999999999999)\n(claim 0 0 0)\n", 0, 2);
        let span = 1_000_000_000_003;
        assert_eq!((past.progress, past.time), (Progress::Ended { span }, span));
    }

    /// Working memory: two tasks that could run at once, but for it.
    #[test]
    fn working_memory() {
        let sheet = b"(board (blue 2 5) (red 1 0))\n(task 1 4 9 3)\n(task 2 4 9 3)\n";
        let waits = plan(Planner::MemHeft, sheet).unwrap().timetable;
        assert_eq!(waits, b"(run 1 1 0)\n(run 2 1 4)\n(claim 8 3 0)\n");
        let together = plan(Planner::Heft, sheet).unwrap().timetable;
        assert_eq!(together, b"(run 1 1 0)\n(run 2 2 0)\n(claim 4 6 0)\n");
        let over = Verdict::Refused(Refusal::OverLimit { tick: 0 });
        assert_eq!(mark(sheet, &together), over);
        let zero = b"(board (blue 1 5) (red 1 0))\n(task 1 4 9 0)\n";
        let written = Refusal::SheetOutOfRange { line: 2 };
        assert_eq!(plan(Planner::MemHeft, zero), Err(written));
    }

    #[test]
    fn longest_times_planned() {
        let sheet = b"(board (blue 1 0) (red 1 0))\n(task 1 1000000000 1000000000)\n";
        for (planner, _) in PLANNERS {
            let written = plan(planner, sheet).unwrap().timetable;
            assert_eq!(written, b"(run 1 1 0)\n(claim 1000000000 0 0)\n");
        }
    }

    /// The course example with other limits: the plain planners write what they wrote, and the marker refuses it by 17.
    #[test]
    fn plain_planners_over_a_limit() {
        let course = std::str::from_utf8(COURSE).unwrap();
        let tight = course.replace("blue 1 6", "blue 1 4");
        let both = tight.replace("red 1 6", "red 1 4");
        for (sheet, tick) in [(&tight, 4), (&both, 0)] {
            for planner in [Planner::Heft, Planner::MinMin] {
                assert_eq!(plan(planner, sheet.as_bytes()).unwrap().timetable, PAPER);
            }
            let over = Verdict::Refused(Refusal::OverLimit { tick });
            assert_eq!(mark(sheet.as_bytes(), PAPER), over);
        }
        for planner in [Planner::MemHeft, Planner::MemMinMin] {
            let fitted = plan(planner, tight.as_bytes()).unwrap().timetable;
            let verdict = mark(tight.as_bytes(), &fitted);
            assert!(matches!(verdict, Verdict::Accepted { blue_peak: 2, .. }));
            let stuck = Err(Refusal::Stuck { placed: 0 });
            assert_eq!(plan(planner, both.as_bytes()), stuck);
        }
    }
}
