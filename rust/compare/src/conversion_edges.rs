//! Known answers of the converter (Order 7), worked by hand: sheets converted, timetables stripped, and sheets on both sides of 64 tasks and
//! of 256 files. The comparison holds the library and conversion.rs against them.

use crate::reference::{Refused, MAX_TEXT};

/// A text that is written, or a refusal.
pub type Outcome = Result<Vec<u8>, Refused>;

/// A sheet, and what it is converted to.
pub struct Conversion {
    pub name: String,
    pub sheet: Vec<u8>,
    pub due: Outcome,
}

/// A sheet and a timetable of the converted sheet, and what is left of it.
pub struct Stripping {
    pub name: String,
    pub sheet: Vec<u8>,
    pub paper: Vec<u8>,
    pub due: Outcome,
}

/// A sheet of so many tasks, so many of which have W, with so many files.
pub struct Size {
    tasks: usize,
    with_work: usize,
    files: usize,
    /// the refusal; none with 64 tasks and 256 files or fewer
    pub refusal: Option<u64>,
}

const fn size(tasks: usize, with_work: usize, files: usize, refusal: Option<u64>) -> Size {
    Size {
        tasks,
        with_work,
        files,
        refusal,
    }
}

/// On both sides of 64 tasks, and of 256 files; 41 goes before 42.
pub const SIZES: [Size; 21] = [
    size(33, 33, 0, Some(41)),
    size(32, 32, 0, None),
    size(33, 31, 0, None),
    size(33, 32, 0, Some(41)),
    size(63, 1, 0, None),
    size(63, 2, 0, Some(41)),
    size(64, 0, 256, None),
    size(64, 1, 0, Some(41)),
    size(64, 64, 0, Some(41)),
    size(23, 0, 253, None),
    size(24, 0, 256, None),
    size(24, 1, 255, None),
    size(24, 1, 256, Some(42)),
    size(23, 23, 233, None),
    size(23, 23, 234, Some(42)),
    size(32, 32, 224, None),
    size(32, 32, 225, Some(42)),
    size(32, 32, 256, Some(42)),
    size(63, 1, 256, Some(42)),
    size(33, 33, 224, Some(41)),
    size(64, 64, 256, Some(41)),
];

impl Size {
    /// W is on the first tasks or on the last ones.
    pub fn sheet(&self, first: bool) -> Vec<u8> {
        let n = self.tasks;
        let mut text = String::from("(board (blue 2 9999) (red 3 9999))\n");
        for i in 1..=n {
            let place = if first { i } else { n + 1 - i };
            text += &match place <= self.with_work {
                true => format!("(task {i} {} 7 {})\n", i % 5, i + 1),
                false => format!("(task {i} {} 7)\n", i % 5),
            };
        }
        let pairs = (1..=n).flat_map(|i| (i + 1..=n).map(move |j| (i, j)));
        for (i, j) in pairs.take(self.files) {
            text += &format!("(file {i} {j} {} {})\n", i % 3, 1 + j % 4);
        }
        text.into_bytes()
    }

    /// How many tasks and files the converted sheet has.
    pub fn converted(&self) -> (usize, usize) {
        (self.tasks + self.with_work, self.files + self.with_work)
    }

    pub fn name(&self) -> String {
        let Size {
            tasks,
            with_work,
            files,
            ..
        } = self;
        format!("{tasks} tasks, {with_work} of them with W, {files} files")
    }
}

fn conversion(name: &str, sheet: &str, due: Result<&str, Refused>) -> Conversion {
    Conversion {
        name: name.to_string(),
        sheet: sheet.as_bytes().to_vec(),
        due: due.map(|text| text.as_bytes().to_vec()),
    }
}

const COURSE: &str = "(board (blue 1 6) (red 1 6))\n(task 1 4 2)\n(task 2 3 5)\n(task 3 2 6)\n(file 1 2 2 1)\n(file 1 3 3 2)\n";
const COURSE_PAPER: &str =
    "(run 1 2 0)\n(run 2 1 3)\n(run 3 1 6)\n(move 1 2 2)\n(move 1 3 4)\n(claim 8 5 5)\n";

/// The course example with W on the last two tasks, and limits of 8.
const SHEET: &str = "(board (blue 1 8) (red 1 8))\n(task 1 4 2)\n(task 2 3 5 1)\n(task 3 2 6 2)\n(file 1 2 2 1)\n(file 1 3 3 2)\n";
const CONVERTED: &str = "(board (blue 1 8) (red 1 8))\n(task 1 0 0)\n(task 2 0 0)\n(task 3 4 2)\n(task 4 3 5)\n(task 5 2 6)\n\
    (file 1 4 1 1)\n(file 2 5 2 1)\n(file 3 4 2 1)\n(file 3 5 3 2)\n";

/// One added task is on red, and its file moves; the other is on blue, at tick 0.
const PAPER: &str = "(run 1 2 2)\n(run 2 1 0)\n(run 3 2 0)\n(run 4 1 3)\n(run 5 1 6)\n\
    (move 1 4 2)\n(move 3 4 2)\n(move 3 5 4)\n(claim 8 8 6)\n";
const STRIPPED: &str =
    "(run 1 2 0)\n(run 2 1 3)\n(run 3 1 6)\n(move 1 2 2)\n(move 1 3 4)\n(claim 8 6 5)\n";

/// The first, the last and all tasks with W, the least and the greatest numbers, and a number that gets a digit more.
pub fn conversions() -> Vec<Conversion> {
    let board = "(board (blue 8 999999999) (red 1 0))\n";
    let with = |lines: &str| format!("{board}{lines}");
    let nine = |shift: usize| {
        let tasks = (1..=9).map(|i| format!("(task {} 1 2)\n", i + shift));
        tasks.collect::<String>()
    };
    let long = "(board (blue 1 9) (red 1 9))\n".repeat(2000);
    assert!(long.len() > MAX_TEXT);
    vec![
        conversion("no W", COURSE, Ok(COURSE)),
        conversion("the last two", SHEET, Ok(CONVERTED)),
        conversion("converted already", CONVERTED, Ok(CONVERTED)),
        conversion(
            "one task",
            &with("(task 1 4 2 3)\n"),
            Ok(&with("(task 1 0 0)\n(task 2 4 2)\n(file 1 2 3 1)\n")),
        ),
        conversion(
            "all, the least and the greatest numbers",
            &with("(task 1 0 3 1000000)\n(task 2 1000000000 0 1)\n(file 1 2 0 1000000000)\n"),
            Ok(&with(
                "(task 1 0 0)\n(task 2 0 0)\n(task 3 0 3)\n(task 4 1000000000 0)\n\
                 (file 1 3 1000000 1)\n(file 2 4 1 1)\n(file 3 4 0 1000000000)\n",
            )),
        ),
        conversion(
            "the first of three",
            &with("(task 1 1 2 5)\n(task 2 3 4)\n(task 3 5 6)\n(file 1 3 7 8)\n(file 2 3 0 9)\n"),
            Ok(&with(
                "(task 1 0 0)\n(task 2 1 2)\n(task 3 3 4)\n(task 4 5 6)\n(file 1 2 5 1)\n(file 2 4 7 8)\n(file 3 4 0 9)\n",
            )),
        ),
        conversion(
            "task 9 is 10 now",
            &with(&nine(0)).replace("(task 5 1 2)", "(task 5 1 2 12)"),
            Ok(&with(&format!("(task 1 0 0)\n{}(file 1 6 12 1)\n", nine(1)))),
        ),
        conversion("nothing", "", Err((2, 1))),
        conversion("too long", &long, Err((1, 0))),
        conversion("a written 0", &with("(task 1 4 2 0)\n"), Err((3, 2))),
        conversion("a task left out", &with("(task 2 4 2 1)\n"), Err((4, 2))),
    ]
}

/// The course example's timetable with another line, and what is due.
fn changed(text: &str, other: &str, due: Result<&str, Refused>) -> Stripping {
    assert!(PAPER.contains(text), "{text}");
    stripping(other, SHEET, &PAPER.replacen(text, other, 1), due)
}

fn stripping(name: &str, sheet: &str, paper: &str, due: Result<&str, Refused>) -> Stripping {
    Stripping {
        name: name.to_string(),
        sheet: sheet.as_bytes().to_vec(),
        paper: paper.as_bytes().to_vec(),
        due: due.map(|text| text.as_bytes().to_vec()),
    }
}

/// The timetable with one line changed: refused as the converted sheet has it, or stripped to the same.
fn changed_lines() -> Vec<Stripping> {
    let (run, added_move, claim) = ("(run 1 2 2)", "(move 1 4 2)", "(claim 8 8 6)");
    vec![
        changed(run, "(run 1 02 2)", Err((12, 1))),
        changed(run, "(run 1 3 2)", Err((13, 1))),
        changed("(run 1 2 2)\n", "", Err((14, 1))),
        changed("(move 1 4 2)\n", "", Err((14, 6))),
        changed(added_move, "(move 2 5 2)", Err((14, 6))),
        changed(run, "(run 1 2 1)", Err((15, 1))),
        changed("(run 2 1 0)", "(run 2 1 5)", Err((15, 2))),
        changed(added_move, "(move 1 4 1)", Err((16, 4))),
        changed(added_move, "(move 1 4 3)", Err((16, 4))),
        changed("(run 2 1 0)", "(run 2 1 7)", Err((15, 2))),
        changed("(run 2 1 0)", "(run 2 1 8)", Err((16, 5))),
        changed(claim, "(claim 8 6 5)", Err((18, 0))),
        changed(claim, "(claim 8 8 5)", Err((18, 0))),
        changed(claim, "(claim 8 8 6)\n(run 1 2 2)", Err((14, 10))),
        changed(run, "(run 1 2 3)", Err((16, 4))),
        changed("(run 2 1 0)", "(run 2 1 6)", Err((18, 0))),
    ]
}

/// The added tasks as late as they may be, so that the claims are the same; other limits; and a timetable far later.
fn other_timetables() -> Vec<Stripping> {
    let latest = "(run 1 1 3)\n(run 2 1 6)\n(run 3 2 0)\n(run 4 1 3)\n(run 5 1 6)\n(move 3 4 2)\n(move 3 5 4)\n(claim 8 6 5)\n";
    let later = "(run 1 2 999999999990)\n(run 2 1 0)\n(run 3 2 999999999900)\n(run 4 1 999999999991)\n(run 5 1 999999999997)\n\
        (move 1 4 999999999990)\n(move 3 4 999999999980)\n(move 3 5 999999999995)\n(claim 999999999999 5 5)\n";
    let left_later = "(run 1 2 999999999900)\n(run 2 1 999999999991)\n(run 3 1 999999999997)\n\
        (move 1 2 999999999980)\n(move 1 3 999999999995)\n(claim 999999999999 5 5)\n";
    let blue = |limit: u64| SHEET.replace("blue 1 8", &format!("blue 1 {limit}"));
    let red = |limit: u64| SHEET.replace("red 1 8", &format!("red 1 {limit}"));
    vec![
        stripping("as it is", SHEET, PAPER, Ok(STRIPPED)),
        stripping("as late as may be", SHEET, latest, Ok(STRIPPED)),
        stripping("limits of the peaks", &red(6), PAPER, Ok(STRIPPED)),
        stripping("blue over its limit", &blue(7), PAPER, Err((17, 4))),
        stripping("red over its limit", &red(5), PAPER, Err((17, 2))),
        stripping("tight, and as late", &blue(6), latest, Ok(STRIPPED)),
        stripping("over for W itself", &blue(5), latest, Err((17, 4))),
        stripping("far later", SHEET, later, Ok(left_later)),
        stripping("no W", COURSE, COURSE_PAPER, Ok(COURSE_PAPER)),
        stripping("no W, another's", COURSE, PAPER, Err((14, 4))),
        stripping("its own timetable", SHEET, STRIPPED, Err((14, 4))),
        stripping("on the converted sheet", CONVERTED, PAPER, Ok(PAPER)),
        stripping("no timetable", SHEET, "", Err((12, 1))),
        stripping("too long", SHEET, &PAPER.repeat(300), Err((11, 0))),
        stripping("no sheet", "", PAPER, Err((2, 1))),
    ]
}

/// A relay with W, which reads a file: what it reads and its W are held until the next tick. And two added tasks at one tick.
fn relays() -> Vec<Stripping> {
    let relay = "(board (blue 1 5) (red 1 0))\n(task 1 2 2)\n(task 2 0 0 3)\n(file 1 2 2 1)\n";
    let at_finish = "(run 1 1 2)\n(run 2 1 0)\n(run 3 1 2)\n(claim 2 5 0)\n";
    let two = "(board (blue 1 9) (red 2 9))\n(task 1 2 4 4)\n(task 2 2 4 3)\n";
    let at_once =
        "(run 1 1 0)\n(run 2 1 0)\n(run 3 1 0)\n(run 4 3 2)\n(move 2 4 1)\n(claim 6 7 3)\n";
    vec![
        stripping(
            "a relay with W",
            relay,
            at_finish,
            Ok("(run 1 1 0)\n(run 2 1 2)\n(claim 2 5 0)\n"),
        ),
        stripping(
            "two added tasks at one tick",
            two,
            at_once,
            Ok("(run 1 1 0)\n(run 2 3 2)\n(claim 6 4 3)\n"),
        ),
    ]
}

/// Sheets that are not converted, with no timetable and with one that is too long.
fn too_many() -> Vec<Stripping> {
    let mut all = vec![];
    for size in SIZES {
        let Some(number) = size.refusal else { continue };
        for repeated in [0, 300] {
            all.push(Stripping {
                name: size.name(),
                sheet: size.sheet(true),
                paper: PAPER.repeat(repeated).into_bytes(),
                due: Err((number, 0)),
            });
        }
    }
    all
}

/// All timetables.
pub fn strippings() -> Vec<Stripping> {
    let mut all = changed_lines();
    all.extend(other_timetables());
    all.extend(relays());
    all.extend(too_many());
    all
}
