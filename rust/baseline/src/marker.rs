//! The marker: it reads both texts, then tests 15 to 18 in this order.

use crate::changes::Changes;
use crate::paper::{Paper, Run};
use crate::sheet::Sheet;
use crate::text::Refusal;

/// Marks a timetable on a board sheet: number, place, span, blue peak and red peak.
pub fn mark(sheet: &[u8], paper: &[u8]) -> [u64; 5] {
    match marked(sheet, paper) {
        Ok([span, blue, red]) => [0, 0, span, blue, red],
        Err((number, place)) => [number, place, 0, 0, 0],
    }
}

/// Makespan and peaks of a valid timetable; the refusal of any other.
fn marked(sheet: &[u8], paper: &[u8]) -> Result<[u64; 3], Refusal> {
    let sheet = Sheet::read(sheet)?;
    let paper = Paper::read(&sheet, paper)?;
    if let Some(task) = overlapping(&paper.runs) {
        return Err((15, task as u64 + 1));
    }
    if let Some(reader) = early(&sheet, &paper) {
        return Err((16, reader as u64 + 1));
    }
    let [blue, red] = changes(&sheet, &paper);
    let blue = blue.totals(sheet.limits[0]);
    let red = red.totals(sheet.limits[1]);
    if let Some(tick) = blue.over.into_iter().chain(red.over).min() {
        return Err((17, tick));
    }
    let makespan = paper.runs.iter().map(|run| run.finish).max().unwrap_or(0);
    let found = [makespan, blue.peak, red.peak];
    if paper.claim != found {
        return Err((18, 0));
    }
    Ok(found)
}

/// Whether each of two runs starts before the other's finish.
fn share(a: &Run, b: &Run) -> bool {
    a.start < b.finish && b.start < a.finish
}

/// The lowest task whose run shares an instant with another on its processor.
fn overlapping(runs: &[Run]) -> Option<usize> {
    (0..runs.len()).find(|&i| {
        let run = &runs[i];
        let mut later = runs[i + 1..].iter();
        later.any(|other| run.processor == other.processor && share(run, other))
    })
}

/// The lowest task that reads a file before it has arrived, or one that moves before it is made.
fn early(sheet: &Sheet, paper: &Paper) -> Option<usize> {
    let mut lowest = None;
    for (file, &start) in sheet.files.iter().zip(&paper.moves) {
        let (maker, reader) = (&paper.runs[file.maker], &paper.runs[file.reader]);
        let early = if maker.memory == reader.memory {
            reader.start < maker.finish
        } else {
            start < maker.finish || reader.start < start + file.move_time
        };
        if early && lowest.is_none_or(|task| file.reader < task) {
            lowest = Some(file.reader);
        }
    }
    lowest
}

/// The changes of blue and of red, by the hold rule. In a timetable free of 16 no hold ends before it starts, so no fall is before its rise.
fn changes(sheet: &Sheet, paper: &Paper) -> [Changes; 2] {
    let mut changes = [Changes::new(), Changes::new()];
    for (file, &start) in sheet.files.iter().zip(&paper.moves) {
        let (maker, reader) = (&paper.runs[file.maker], &paper.runs[file.reader]);
        if maker.memory == reader.memory {
            changes[maker.memory].hold(file.size, maker.start, reader.release);
        } else {
            changes[maker.memory].hold(file.size, maker.start, start + file.move_time);
            changes[reader.memory].hold(file.size, start, reader.release);
        }
    }
    for (task, run) in sheet.tasks.iter().zip(&paper.runs) {
        if task.work > 0 {
            changes[run.memory].hold(task.work, run.start, run.release);
        }
    }
    changes
}

#[cfg(test)]
mod tests {
    use super::mark;

    /// Document 01's course example.
    const SHEET: &str = "(board (blue 1 6) (red 1 6))\n(task 1 4 2)\n(task 2 3 5)\n(task 3 2 6)\n(file 1 2 2 1)\n(file 1 3 3 2)\n";
    const PAPER: &str =
        "(run 1 2 0)\n(run 2 1 3)\n(run 3 1 6)\n(move 1 2 2)\n(move 1 3 4)\n(claim 8 5 5)\n";
    const ACCEPTED: [u64; 5] = [0, 0, 8, 5, 5];

    fn refused(number: u64, place: u64) -> [u64; 5] {
        [number, place, 0, 0, 0]
    }

    /// The mark of a's timetable with some text of it changed.
    fn changed(text: &str, other: &str) -> [u64; 5] {
        assert!(PAPER.contains(text), "{text}");
        mark(SHEET.as_bytes(), PAPER.replace(text, other).as_bytes())
    }

    /// The mark of a's timetable on a's sheet with some text of the sheet changed.
    fn on_changed(text: &str, other: &str) -> [u64; 5] {
        assert!(SHEET.contains(text), "{text}");
        mark(SHEET.replace(text, other).as_bytes(), PAPER.as_bytes())
    }

    #[test]
    fn a_to_f() {
        assert_eq!(mark(SHEET.as_bytes(), PAPER.as_bytes()), ACCEPTED);
        assert_eq!(on_changed("blue 1 6", "blue 1 5"), ACCEPTED);
        assert_eq!(on_changed("blue 1 6", "blue 1 4"), refused(17, 4));
    }

    #[test]
    fn g_to_m() {
        assert_eq!(changed("(move 1 3 4)", "(move 1 3 3)"), ACCEPTED);
        assert_eq!(changed("(move 1 2 2)", "(move 1 2 1)"), refused(16, 2));
        assert_eq!(changed("(run 3 1 6)", "(run 3 1 5)"), refused(15, 2));
        assert_eq!(changed("(claim 8", "(claim 9"), refused(18, 0));
        assert_eq!(changed("(move 1 2 2)\n", ""), refused(14, 4));
        assert_eq!(changed("(run 2 1 3)", "(run 2 01 3)"), refused(12, 2));
        let board = b"(board (blue 1 6) (red 1 6))\n";
        assert_eq!(mark(board, PAPER.as_bytes()), refused(2, 2));
    }

    #[test]
    fn other_refusals() {
        let long = vec![b' '; 32_769];
        assert_eq!(mark(&long, b""), refused(1, 0));
        assert_eq!(mark(&long[1..], b""), refused(2, 1));
        assert_eq!(mark(SHEET.as_bytes(), &long), refused(11, 0));
        assert_eq!(mark(b"", b""), refused(2, 1));
        assert_eq!(mark(SHEET.as_bytes(), b""), refused(12, 1));
        assert_eq!(on_changed("(task 2 3 5)", "(task 65 3 5)"), refused(3, 3));
        assert_eq!(on_changed("(task 2 3 5)", "(task 3 3 5)"), refused(4, 3));
        assert_eq!(changed("(run 2 1 3)", "(run 2 3 3)"), refused(13, 2));
        assert_eq!(changed("5 5)\n", "5 5)\n(run 1 1 1)\n"), refused(14, 7));
        assert_eq!(changed("5 5)\n", "5 5)\n(run 1 1 1)"), refused(12, 7));
    }

    /// A 257th file is not allowed.
    #[test]
    fn most_files() {
        let mut sheet = String::from("(board (blue 1 0) (red 1 0))\n");
        for i in 1..=64 {
            sheet += &format!("(task {i} 1 1)\n");
        }
        let pairs = (1..=64).flat_map(|i| (i + 1..=64).map(move |j| (i, j)));
        for (i, j) in pairs.take(256) {
            sheet += &format!("(file {i} {j} 0 1)\n");
        }
        assert_eq!(mark(sheet.as_bytes(), b""), refused(12, 1));
        sheet += "(file 63 64 0 1)\n";
        assert_eq!(mark(sheet.as_bytes(), b""), refused(4, 322));
    }

    /// Order 6: W is held while its task runs, and a written 0 is refused.
    #[test]
    fn working_memory() {
        let red_work = "(task 1 4 2 3)";
        assert_eq!(on_changed("(task 1 4 2)", red_work), refused(17, 0));
        assert_eq!(on_changed("(task 1 4 2)", "(task 1 4 2 0)"), refused(3, 2));
        let wider = SHEET.replace("red 1 6", "red 1 8");
        let sheet = wider.replace("(task 1 4 2)", red_work);
        let paper = PAPER.replace("(claim 8 5 5)", "(claim 8 5 8)");
        let accepted = [0, 0, 8, 5, 8];
        assert_eq!(mark(sheet.as_bytes(), paper.as_bytes()), accepted);
    }

    /// Order 1: what a relay reads and what it makes count together at its tick; it may not stand inside another run.
    #[test]
    fn relays() {
        let sheet = |limit: u64| {
            let tasks = "(task 1 2 2)\n(task 2 0 0)\n(task 3 2 2)\n";
            let files = "(file 1 2 3 1)\n(file 2 3 4 1)\n";
            format!("(board (blue 1 {limit}) (red 1 0))\n{tasks}{files}")
        };
        let paper = b"(run 1 1 0)\n(run 2 1 2)\n(run 3 1 2)\n(claim 4 7 0)\n";
        assert_eq!(mark(sheet(7).as_bytes(), paper), [0, 0, 4, 7, 0]);
        assert_eq!(mark(sheet(6).as_bytes(), paper), refused(17, 2));
        let inside = b"(run 1 1 0)\n(run 2 1 1)\n(run 3 1 2)\n(claim 4 7 0)\n";
        assert_eq!(mark(sheet(7).as_bytes(), inside), refused(15, 1));
    }
}
