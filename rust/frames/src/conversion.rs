//! The converter for readers that lack working memory (W), and the way back: a timetable of the converted sheet, stripped of what the
//! conversion added.

use crate::{listed, Refusal, MAX_TEXT};

extern "C" {
    fn frames_convert(
        sheet: *const u8,
        sheet_len: usize,
        out: *mut u8,
        out_len: usize,
        result: *mut [u64; 2],
    );
    fn frames_strip(
        sheet: *const u8,
        sheet_len: usize,
        paper: *const u8,
        paper_len: usize,
        out: *mut u8,
        out_len: usize,
        result: *mut [u64; 2],
    );
}

/// What [`convert_into`] and [`strip_into`] answer, as it stands: number (0 for success) and place (then the bytes written).
#[derive(Clone, Copy, Debug, PartialEq, Eq)]
pub struct Written {
    pub number: u64,
    pub place: u64,
}

/// Converts a board sheet into a buffer. On a refusal the buffer stays as it was; on success the bytes behind the converted sheet do.
pub fn convert_into(sheet: &[u8], out: &mut [u8]) -> Written {
    let mut r = [0u64; 2];
    unsafe {
        frames_convert(
            sheet.as_ptr(),
            sheet.len(),
            out.as_mut_ptr(),
            out.len(),
            &mut r,
        )
    }
    let [number, place] = r;
    Written { number, place }
}

/// Converts a board sheet for readers that do not know W. Each of the m tasks with W gets a maker of run times 0 and 0, whose file has size
/// W and move time 1. The added tasks are 1 to m, in the order of the tasks that they serve; the old ones follow, shifted by m and without
/// W. A sheet without W comes out byte for byte.
///
/// Beside the refusals of the sheet there are [`Refusal::TooManyTasks`] and, after it, [`Refusal::TooManyFiles`].
///
/// ```
/// use frames::convert;
///
/// let sheet = b"(board (blue 1 6) (red 1 6))\n(task 1 4 2 3)\n";
/// let converted = convert(sheet).unwrap();
/// assert_eq!(converted, b"(board (blue 1 6) (red 1 6))\n(task 1 0 0)\n(task 2 4 2)\n(file 1 2 3 1)\n");
/// assert_eq!(convert(&converted).unwrap(), converted);
/// ```
pub fn convert(sheet: &[u8]) -> Result<Vec<u8>, Refusal> {
    let mut out = vec![0u8; MAX_TEXT];
    let answer = convert_into(sheet, &mut out);
    written(answer, out)
}

/// Strips a timetable into a buffer. On a refusal the buffer stays as it was; on success the bytes behind the stripped timetable do.
pub fn strip_into(sheet: &[u8], paper: &[u8], out: &mut [u8]) -> Written {
    let mut r = [0u64; 2];
    unsafe {
        frames_strip(
            sheet.as_ptr(),
            sheet.len(),
            paper.as_ptr(),
            paper.len(),
            out.as_mut_ptr(),
            out.len(),
            &mut r,
        )
    }
    let [number, place] = r;
    Written { number, place }
}

/// Strips a timetable of the converted sheet of what the conversion added; `sheet` is the sheet as it was before. The added runs and the
/// moves of the added files are left out, the other lines are renumbered, and the claim is worked out afresh for `sheet`.
/// [`mark`](crate::mark) accepts the result on `sheet`.
///
/// The refusals are those of [`convert`] on `sheet`, and after them those of [`mark`](crate::mark) on the converted sheet.
///
/// ```
/// use frames::strip;
///
/// let sheet = b"(board (blue 1 6) (red 1 6))\n(task 1 4 2 3)\n";
/// let paper = b"(run 1 1 0)\n(run 2 2 5)\n(move 1 2 3)\n(claim 7 3 3)\n";
/// assert_eq!(strip(sheet, paper).unwrap(), b"(run 1 2 5)\n(claim 7 0 3)\n");
/// ```
pub fn strip(sheet: &[u8], paper: &[u8]) -> Result<Vec<u8>, Refusal> {
    let mut out = vec![0u8; MAX_TEXT];
    let answer = strip_into(sheet, paper, &mut out);
    written(answer, out)
}

/// What the numbers say, with the buffer that was lent.
fn written(answer: Written, mut out: Vec<u8>) -> Result<Vec<u8>, Refusal> {
    match answer.number {
        0 => {
            out.truncate(answer.place as usize);
            Ok(out)
        }
        number => Err(listed(number, answer.place)),
    }
}

#[cfg(test)]
mod tests {
    use super::*;
    use crate::tests::{COURSE, PAPER};
    use crate::{mark, plan, Planner, Verdict};

    /// The course example with W on the second and the third task, and limits of 8.
    const SHEET: &[u8] = b"(board (blue 1 8) (red 1 8))\n(task 1 4 2)\n(task 2 3 5 1)\n(task 3 2 6 2)\n(file 1 2 2 1)\n(file 1 3 3 2)\n";
    const CONVERTED: &[u8] = b"(board (blue 1 8) (red 1 8))\n(task 1 0 0)\n(task 2 0 0)\n(task 3 4 2)\n(task 4 3 5)\n(task 5 2 6)\n\
        (file 1 4 1 1)\n(file 2 5 2 1)\n(file 3 4 2 1)\n(file 3 5 3 2)\n";

    /// A timetable of the converted sheet: the first added task is on red, the second on blue, long before the task that it serves.
    const WITH_ADDED: &[u8] = b"(run 1 2 2)\n(run 2 1 0)\n(run 3 2 0)\n(run 4 1 3)\n(run 5 1 6)\n\
        (move 1 4 2)\n(move 3 4 2)\n(move 3 5 4)\n(claim 8 8 6)\n";
    const STRIPPED: &[u8] =
        b"(run 1 2 0)\n(run 2 1 3)\n(run 3 1 6)\n(move 1 2 2)\n(move 1 3 4)\n(claim 8 6 5)\n";

    /// A sheet of so many tasks, so many of which have W, and of the first so many pairs of tasks as files.
    fn sheet(tasks: usize, with_work: usize, files: usize) -> Vec<u8> {
        let mut text = String::from("(board (blue 1 9) (red 1 9))\n");
        for i in 1..=tasks {
            let work = if i <= with_work { " 1" } else { "" };
            text += &format!("(task {i} 1 1{work})\n");
        }
        let pairs = (1..=tasks).flat_map(|i| (i + 1..=tasks).map(move |j| (i, j)));
        for (i, j) in pairs.take(files) {
            text += &format!("(file {i} {j} 1 1)\n");
        }
        text.into_bytes()
    }

    fn answer(number: u64, place: usize) -> Written {
        let place = place as u64;
        Written { number, place }
    }

    #[test]
    fn converted() {
        assert_eq!(convert(SHEET).unwrap(), CONVERTED);
        assert_eq!(convert(CONVERTED).unwrap(), CONVERTED);
        assert_eq!(convert(COURSE).unwrap(), COURSE);
    }

    #[test]
    fn stripped() {
        let marked = |span, blue_peak, red_peak| Verdict::Accepted {
            span,
            blue_peak,
            red_peak,
        };
        assert_eq!(mark(CONVERTED, WITH_ADDED), marked(8, 8, 6));
        assert_eq!(strip(SHEET, WITH_ADDED).unwrap(), STRIPPED);
        assert_eq!(mark(SHEET, STRIPPED), marked(8, 6, 5));
        assert_eq!(strip(COURSE, PAPER).unwrap(), PAPER);
    }

    /// What the planners write for a converted sheet is stripped to a timetable of the sheet.
    #[test]
    fn planned_and_stripped() {
        for planner in [Planner::MemHeft, Planner::MemMinMin] {
            let planned = plan(planner, CONVERTED).unwrap().timetable;
            let verdict = mark(SHEET, &strip(SHEET, &planned).unwrap());
            assert!(matches!(verdict, Verdict::Accepted { .. }), "{verdict:?}");
        }
    }

    #[test]
    fn refusals_of_the_converter() {
        let malformed = Refusal::SheetMalformed { line: 1 };
        assert_eq!(convert(b""), Err(malformed));
        assert_eq!(convert(&sheet(33, 31, 0)).map(|_| ()), Ok(()));
        assert_eq!(convert(&sheet(33, 32, 0)), Err(Refusal::TooManyTasks));
        assert_eq!(convert(&sheet(24, 1, 255)).map(|_| ()), Ok(()));
        assert_eq!(convert(&sheet(24, 1, 256)), Err(Refusal::TooManyFiles));
        assert_eq!(convert(&sheet(33, 32, 256)), Err(Refusal::TooManyTasks));
    }

    #[test]
    fn refusals_of_a_timetable() {
        let too_many = Err(Refusal::TooManyTasks);
        assert_eq!(strip(&sheet(33, 32, 0), b""), too_many);
        let not_due = Err(Refusal::PaperNotDue { line: 4 });
        assert_eq!(strip(SHEET, STRIPPED), not_due);
        let text = std::str::from_utf8(WITH_ADDED).unwrap();
        for (line, other, refusal) in [
            (
                "(run 1 2 2)",
                "(run 1 3 2)",
                Refusal::PaperOutOfRange { line: 1 },
            ),
            ("(run 1 2 2)", "(run 1 2 1)", Refusal::Overlap { task: 1 }),
            ("(move 1 4 2)", "(move 1 4 1)", Refusal::Early { task: 4 }),
            ("(claim 8 8 6)", "(claim 8 6 5)", Refusal::ClaimUntrue),
        ] {
            let paper = text.replace(line, other);
            assert_eq!(strip(SHEET, paper.as_bytes()), Err(refusal), "{other}");
        }
        let tight = std::str::from_utf8(SHEET)
            .unwrap()
            .replace("blue 1 8", "blue 1 7");
        let over = Err(Refusal::OverLimit { tick: 4 });
        assert_eq!(strip(tight.as_bytes(), WITH_ADDED), over);
    }

    /// A buffer that is too short stays as it was; behind the text a longer one does.
    #[test]
    fn short_and_long_buffers() {
        let n = CONVERTED.len();
        let mut out = vec![7u8; n + 3];
        assert_eq!(convert_into(SHEET, &mut []), answer(31, n));
        assert_eq!(convert_into(SHEET, &mut out[..n - 1]), answer(31, n));
        assert_eq!(out, vec![7u8; n + 3]);
        assert_eq!(convert_into(SHEET, &mut out), answer(0, n));
        assert_eq!(out, [CONVERTED, &[7; 3]].concat());

        let n = STRIPPED.len();
        let mut out = vec![7u8; n + 3];
        assert_eq!(strip_into(SHEET, WITH_ADDED, &mut []), answer(31, n));
        assert_eq!(
            strip_into(SHEET, WITH_ADDED, &mut out[..n - 1]),
            answer(31, n)
        );
        assert_eq!(strip_into(SHEET, STRIPPED, &mut out), answer(14, 4));
        assert_eq!(out, vec![7u8; n + 3]);
        assert_eq!(strip_into(SHEET, WITH_ADDED, &mut out), answer(0, n));
        assert_eq!(out, [STRIPPED, &[7; 3]].concat());
    }

    #[test]
    fn zero_alone_is_written() {
        assert_eq!(written(answer(0, 2), vec![7, 8, 9]), Ok(vec![7, 8]));
        for number in [1, 2, 3, 4, 11, 12, 13, 14, 15, 16, 17, 18, 31, 41, 42] {
            let refusal = Refusal::from_numbers(number, 2).unwrap();
            assert_eq!(written(answer(number, 2), vec![]), Err(refusal), "{number}");
        }
    }

    #[test]
    #[should_panic(expected = "the library answered 43, which is not listed")]
    fn an_unlisted_number() {
        let _ = written(answer(43, 0), vec![]);
    }
}
